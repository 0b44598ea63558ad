"""What a seed gives, one thing after the other. REQLOCK_SEED, a number or a word, has each test draw others than those that are drawn
without it, or with 0."""

import os
import random

SEED = os.environ.get("REQLOCK_SEED") or "0"


def drawing(own: float) -> random.Random:
    """What a test draws by REQLOCK_SEED and a number of its own."""
    return random.Random(own if SEED == "0" else f"{SEED} {own}")


class Chance:
    def __init__(self, seed):
        self.random = drawing(seed)

    def one(self, values):
        return self.random.choice(values)

    def happens(self, percent):
        return self.random.randrange(100) < percent
