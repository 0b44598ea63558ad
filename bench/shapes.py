"""Problems for a resolver in the shapes that users have, and how each is written: `SHAPES` has the families, by name.

boto     five packages of N releases that pin one another tightly (boto3, botocore, awscli, aiobotocore, s3transfer), what they
         stand on, and a line that leaves the oldest tenth of urllib3 alone
planted  problems with a planted solution (planted.py), with lower bounds from the older half of the releases
planted from all releases
         the same with lower bounds from all releases
airflow  one package with bounds on sixty others, each of which has fifty releases over time and asks for what was there then
chain    packages of one release, each of which needs the next in the order of names
chain back
         the same, in which each needs the one before it

The same words give the same bytes.
"""
import itertools
import random

from generate import release
from planted import RELEASES, planted, write_problem

BOTO = [200, 500, 1_000]
COUNTS = [100, 300, 1_000, 3_000]
SEEDS = [1, 2, 3, 4, 5]
CHAINS = [10_000, 100_000]

URLLIB3 = 100
URLLIB3_KEPT = 10
S3FS = 120
WINDOW = 3
STEP = 20

PACKAGES = 300
OVER_TIME = 50
DEPENDENCIES = 5
HEADS = 60
ROOTS = 30


def package(name, needs):
    """A package whose releases are numbered from 0, each with what it needs."""
    found = []
    for version, needed in enumerate(needs):
        one = release(name, str(version))
        one["requires_dist"] = list(needed)
        found.append(one)
    return {"name": name, "releases": found}


def near(name, low, width):
    return f"{name}>={low},<{low + width}"


def boto(count):
    """So many releases of boto3 and its neighbours. botocore moves through urllib3's releases as it moves through its own."""

    def jmespath(version):
        return f"jmespath>={version * 20 // count // 2},<20"

    def s3transfer(version):
        return near("s3transfer", version // STEP, 2)

    tight = {
        "aiobotocore": [[near("botocore", v, WINDOW), "aiohttp>=3", "wrapt>=1"] for v in range(count)],
        "awscli": [[f"botocore=={v}", s3transfer(v), "docutils>=1,<30"] for v in range(count)],
        "boto3": [[near("botocore", v, WINDOW), jmespath(v), s3transfer(v)] for v in range(count)],
        "botocore": [
            [jmespath(v), "python-dateutil>=2,<40", near("urllib3", v * URLLIB3 // count, 12)] for v in range(count)
        ],
        "s3transfer": [[near("botocore", STEP * v, 3 * STEP)] for v in range(count // STEP + 1)],
    }
    loose = {
        "aiohttp": [["yarl>=1", "multidict>=2"]] * 60,
        "python-dateutil": [["six>=5"]] * 40,
        "requests": [[near("urllib3", v, 45), "idna>=2"] for v in range(60)],
        "s3fs": [
            [near("aiobotocore", v * count // 130, count // 20), f"fsspec=={v}", "aiohttp>=1"] for v in range(S3FS)
        ],
        "yarl": [["multidict>=4", "idna>=2"]] * 40,
    }
    alone = {
        "docutils": 40, "fsspec": S3FS, "idna": 20, "jmespath": 20, "multidict": 30, "six": 20, "urllib3": URLLIB3, "wrapt": 20,
    }
    needs = tight | loose | {name: [[]] * number for name, number in alone.items()}
    lines = ["aiobotocore", "awscli", "boto3", "requests", "s3fs", f"urllib3<{URLLIB3_KEPT}"]
    return [package(name, needs[name]) for name in sorted(needs)], lines


class Airflow:
    """Packages whose releases came one after the other, from a birth in the first half of all time up to now. They stand in
    levels, and need deeper ones alone."""

    def __init__(self, seed):
        self.rng = rng = random.Random(seed)
        ranks = rng.sample(range(PACKAGES), PACKAGES)
        self.weights = [1 / (rank + 1) for rank in ranks]
        births = [rng.random() * 0.5 for _ in range(PACKAGES)]
        self.times = [
            [birth + (1 - birth) * (version + rng.random()) / OVER_TIME for version in range(OVER_TIME)] for birth in births
        ]
        levels = rng.sample(range(PACKAGES), PACKAGES)
        self.order = sorted(range(PACKAGES), key=levels.__getitem__)

    def newest(self, number, time):
        """The newest release that a package had at a time; its first one before that."""
        return max((version for version, came in enumerate(self.times[number]) if came <= time), default=0)

    def needs(self, number, time, needed):
        """What a release of this time asks for: of nine names in ten what was there not long before, a third of it up to what
        came soon after."""
        for other in needed:
            if self.rng.random() < 0.1:
                continue
            text = f"{self.named(other)}>={self.newest(other, time - self.rng.random() * 0.3)}"
            if self.rng.random() < 0.33:
                text += f",<{min(OVER_TIME, self.newest(other, time + self.rng.random() * 0.15) + 1)}"
            yield text

    def member(self, number):
        deeper = self.order[self.order.index(number) + 1 :]
        needed = []
        if len(deeper) > DEPENDENCIES:
            needed = sorted(set(self.rng.choices(deeper, [self.weights[other] for other in deeper], k=DEPENDENCIES)))
        return package(self.named(number), [list(self.needs(number, time, needed)) for time in self.times[number]])

    def root(self):
        """The package with bounds on many others, each from some time before it to its own time."""
        heads = sorted(sorted(self.order[: PACKAGES // 2], key=lambda _: self.rng.random())[:HEADS])
        needs = []
        for version in range(ROOTS):
            time = 0.7 + 0.3 * version / ROOTS
            lows = [self.newest(other, time - 0.2 - self.rng.random() * 0.3) for other in heads]
            ends = [min(OVER_TIME, self.newest(other, time) + 1) for other in heads]
            needs.append([f"{self.named(other)}>={low},<{end}" for other, low, end in zip(heads, lows, ends)])
        return package("apache-airflow", needs)

    @staticmethod
    def named(number):
        return f"p{number:04}"


def airflow(seed):
    drawn = Airflow(seed)
    packages = [drawn.member(number) for number in range(PACKAGES)]
    return [*packages, drawn.root()], ["apache-airflow"]


def chain(count, is_back=False):
    names = [f"p{number:06}" for number in range(count)]
    order = names[::-1] if is_back else names
    needs = {name: [[needed] if needed else []] for name, needed in zip(order, [*order[1:], None])}
    return [package(name, needs[name]) for name in names], order[:1]


def seeded(make):
    return {f"{count:,} packages, seed {seed}": (make, seed, count) for count, seed in itertools.product(COUNTS, SEEDS)}


# The problems of each family, by what they are called in it: a function that makes one, and its arguments.
SHAPES = {
    "boto": {f"{count:,} releases": (boto, count) for count in BOTO},
    "planted": seeded(planted),
    "planted from all releases": seeded(lambda seed, count: planted(seed, count, RELEASES)),
    "airflow": {f"seed {seed}": (airflow, seed) for seed in SEEDS},
    "chain": {f"{count:,} packages": (chain, count) for count in CHAINS},
    "chain back": {f"{count:,} packages": (chain, count, True) for count in CHAINS},
}


def write(family, name, folder):
    """Writes the index and the requirements file of a problem into a folder."""
    make, *arguments = SHAPES[family][name]
    write_problem(folder, *make(*arguments))
