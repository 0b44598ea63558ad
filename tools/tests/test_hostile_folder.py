"""Tests of a folder that comes from others and wants to do harm: no first save goes through a link to what isn't reqlock's, what
stands in the place of a file and isn't one makes no call wait, and what has no end isn't read without end."""

import os
import resource
import signal
import stat
import subprocess
import time

from support.places import PROGRAM
from support.program import FILES, Program

# A call that waits for somebody to write to a pipe would wait for ever.
SECONDS = 60
# how many bytes are taken of lines and pins that are handed over
MOST = 2**25
# for what is read of them, with the program itself
MEMORY = 256 * 2**20
OUT = "reqlock: {}: write failed\n"
WHY = "{} is a link to {}, which is none of reqlock's files: remove the link, so that a file is written here\n"


class LinksOut(Program):
    """`init` in a folder with a link in the place of a lock or of the journal."""

    def setUp(self):
        super().setUp()
        self.begin(b"a\n", ("a", "1", []))
        self.other = self.outside / "other"
        self.other.write_bytes(b"alias ls='ls -l'\n")

    def link(self, name, place):
        (self.folder / name).symlink_to(place)

    def test_a_file_of_another_kind_stays(self):
        for name in FILES[1:]:
            with self.subTest(name=name):
                self.link(name, self.other)
                before = self.files()
                self.assertEqual(self.told("init"), (5, "", OUT.format(name)))
                self.assertEqual(self.told("init", "--verbose"), (5, "", OUT.format(name) + WHY.format(name, self.other)))
                self.assertEqual(self.other.read_bytes(), b"alias ls='ls -l'\n")
                self.assertEqual((self.files(), os.readlink(self.folder / name)), (before, str(self.other)))
                (self.folder / name).unlink()

    def test_so_does_what_is_left_beside_it(self):
        beside = self.outside / "other.new"
        beside.write_bytes(b"mine\n")
        self.link("pylock.toml", "../other")
        self.assertEqual(self.told("init"), (5, "", OUT.format("pylock.toml")))
        self.assertEqual(beside.read_bytes(), b"mine\n")

    def test_each_lock_is_looked_at(self):
        self.lock_for({"linux": self.environments[""], "mac": self.environments[""]})
        self.link("pylock.mac.toml", self.other)
        self.assertEqual(self.told("init"), (5, "", OUT.format("pylock.mac.toml")))
        self.assertEqual(sorted(self.files()), ["pylock.mac.toml", "requirements.txt"])

    def test_a_link_to_a_lock_and_a_journal_of_reqlock_is_followed(self):
        self.assertEqual(self.told("init"), (0, "ok 0\n", ""))
        for name in FILES[1:]:
            os.rename(self.folder / name, self.outside / name)
            self.link(name, f"../{name}")
        self.assertEqual(self.told("upgrade", "--dry-run")[0], 0)
        self.begin(b"# more\na\n", ("a", "2", []))
        self.assertEqual(self.told("init"), (0, "ok 0\n", ""))
        self.assertIn(b'version = "2"', (self.outside / "pylock.toml").read_bytes())
        self.assertEqual([(self.folder / name).is_symlink() for name in FILES[1:]], [True] * 2)

    def test_no_hook_and_no_setting_of_git_is_overwritten(self):
        """A hook runs at the next commit, and so would a URL in a lock in its place."""
        for place, mode in ("hooks/pre-commit", 0o755), ("config", 0o644), ("hooks/post-commit", 0o755):
            path = self.folder / ".git" / place
            path.parent.mkdir(parents=True, exist_ok=True)
            text = b"" if place == "hooks/post-commit" else b"[core]\n"
            path.write_bytes(text)
            path.chmod(mode)
            for name in FILES[1:]:
                with self.subTest(place=place, name=name):
                    self.link(name, f".git/{place}")
                    self.assertEqual(self.told("init"), (5, "", OUT.format(name)))
                    why = OUT.format(name) + WHY.format(name, path.resolve())
                    self.assertEqual(self.told("init", "--verbose"), (5, "", why))
                    self.assertEqual(path.read_bytes(), text)
                    self.assertEqual(list(self.folder.rglob("*.new")), [])
                    (self.folder / name).unlink()

    def test_a_link_inside_of_the_folder_to_a_lock_and_a_journal_of_reqlock_is_followed(self):
        self.assertEqual(self.told("init"), (0, "ok 0\n", ""))
        (self.folder / "locks").mkdir()
        for name in FILES[1:]:
            os.rename(self.folder / name, self.folder / "locks" / name)
            self.link(name, f"locks/{name}")
        self.begin(b"# more\na\n", ("a", "2", []))
        self.assertEqual(self.told("init"), (0, "ok 0\n", ""))
        self.assertIn(b'version = "2"', (self.folder / "locks" / "pylock.toml").read_bytes())

    def test_the_folder_itself_may_be_a_link(self):
        (self.outside / "way").symlink_to("folder")
        self.assertEqual(self.told("init"), (0, "ok 0\n", ""))
        os.rename(self.folder / "pylock.toml", self.folder / "one")
        self.link("pylock.toml", "one")
        done = subprocess.run([PROGRAM, *self.options(self.outside / "way"), "init"], capture_output=True, check=False)
        self.assertEqual((done.returncode, done.stdout), (0, b"ok 0\n"))


class Pipes(Program):
    """A named pipe in the place of a file."""

    def setUp(self):
        super().setUp()
        self.begin(b"a\n", ("a", "1", []))
        self.assertEqual(self.call("init"), (0, "ok 0\n"))

    def pipe_at(self, path):
        path.unlink()
        os.mkfifo(path)

    def test_in_the_folder_it_is_not_read(self):
        kept = {name: (self.folder / name).read_bytes() for name in FILES}
        for name in FILES:
            path = self.folder / name
            self.pipe_at(path)
            for words in (["check"], ["show"], ["add", "b"], ["undo"], ["init"]):
                with self.subTest(name=name, words=words):
                    if name != "requirements.txt" and words == ["init"]:
                        continue
                    told = self.call(*words, seconds=SECONDS)
                    self.assertEqual(told, (4, f"reqlock: {name}: unreadable\n"))
            told = self.call("undo", "--verbose", seconds=SECONDS)
            self.assertEqual(told, (4, f"reqlock: {name}: unreadable\n{path}: this is no regular file\n"))
            self.assertTrue(stat.S_ISFIFO(os.lstat(path).st_mode))
            path.unlink()
            path.write_bytes(kept[name])

    def test_init_writes_through_none(self):
        for name in FILES[1:]:
            kept = self.files()
            self.pipe_at(self.folder / name)
            self.assertEqual(self.call("init", seconds=SECONDS), (5, f"reqlock: {name}: write failed\n"))
            (self.folder / name).unlink()
            self.put(kept)

    def test_what_a_call_names_is_not_read(self):
        self.pipe_at(self.outside / "index.json")
        self.assertEqual(self.call("add", "b", seconds=SECONDS), (4, "reqlock: index: unreadable\n"))
        told = self.call("add", "b", "--verbose", seconds=SECONDS)
        self.assertEqual(told[1].splitlines()[-1], f"{self.outside / 'index.json'}: this is no regular file")
        self.pipe_at(self.environment_file(""))
        self.assertEqual(self.call("init", seconds=SECONDS), (4, "reqlock: index: unreadable\n"))

    def test_lines_and_pins_are_not_read_of_one(self):
        pipe = self.outside / "pipe"
        os.mkfifo(pipe)
        for words, name in (
            (["replace", pipe], "new requirements"), (["why", "--replace", pipe], "new requirements"), (["replace", "--was", pipe], "old requirements"),
            (["replace", self.folder / "requirements.txt", "--pins", pipe], "pins"), (["init", "--pins", pipe], "pins"),
        ):
            with self.subTest(words=words):
                self.assertEqual(self.call(*words, seconds=SECONDS), (4, f"reqlock: {name}: unreadable\n"))

    def test_lines_and_pins_of_standard_input_and_of_the_shell_are(self):
        new, pins = self.outside / "new", self.outside / "pins"
        new.write_bytes(b"a\n# more\n")
        pins.write_bytes(b"a==1\n")
        for words in ("replace -", "replace /dev/stdin", f"replace <(cat '{new}')", f"replace '{new}' --pins -", f"replace '{new}' --pins <(cat '{pins}')"):
            with self.subTest(words=words):
                self.assertEqual(self.call("init"), (0, "ok 0\n"))
                text = pins if words.endswith("--pins -") else new
                script = f'"{PROGRAM}" --dir "{self.folder}" --index "{self.outside / "index.json"}" {words} <"{text}"'
                done = subprocess.run(["bash", "-c", script], capture_output=True, check=False, timeout=SECONDS)
                self.assertEqual((done.returncode, done.stdout, done.stderr), (0, b"ok 1\n", b""))
                (self.folder / "requirements.txt").write_bytes(b"a\n")

    def test_a_pipe_that_the_shell_hands_over_is(self):
        options = ["--dir", str(self.folder), "--env", str(self.environment_file(""))]
        environment = f'--env <(cat "{self.environment_file("")}")'
        for given, more in (options, ""), (options[:2], environment):
            script = f'"{PROGRAM}" "$@" --index <(cat "{self.outside / "index.json"}") {more}'
            done = subprocess.run(
                ["bash", "-c", script, "bash", "init", *given], capture_output=True, check=False, timeout=SECONDS
            )
            self.assertEqual((done.returncode, done.stdout), (0, b"ok 0\n"))
        with open(self.outside / "index.json", "rb") as index:
            done = subprocess.run(
                [PROGRAM, "init", *options, "--index", "/dev/stdin"], stdin=index, capture_output=True, check=False, timeout=SECONDS
            )
        self.assertEqual((done.returncode, done.stdout), (0, b"ok 0\n"))


def little_memory():
    resource.setrlimit(resource.RLIMIT_AS, (MEMORY, MEMORY))


class Endless(Program):
    """What has no end, or grows far beyond its text, in the place of what a call is handed."""

    HANDED = (
        (["replace", "{}"], "new requirements"), (["why", "--replace", "{}"], "new requirements"), (["replace", "--was", "{}"], "old requirements"),
        (["init", "--pins", "{}"], "pins"), (["replace", "-", "--pins", "{}"], "pins"),
    )

    def setUp(self):
        super().setUp()
        self.begin(b"a\n", ("a", "1", []))
        self.assertEqual(self.call("init"), (0, "ok 0\n"))

    def handed(self, path):
        """The calls that are handed a path, and the file in whose place it stands."""
        for words, name in self.HANDED:
            yield [word.format(path) for word in words], name

    def test_a_device_is_not_read(self):
        for path in "/dev/zero", "/dev/urandom":
            for words, name in self.handed(path):
                with self.subTest(path=path, words=words):
                    told = self.call(*words, before=little_memory, seconds=SECONDS)
                    self.assertEqual(told, (4, f"reqlock: {name}: unreadable\n"))
        told = self.call("replace", "/dev/zero", "--verbose", before=little_memory, seconds=SECONDS)
        self.assertEqual(told, (4, "reqlock: new requirements: unreadable\n/dev/zero: this is no regular file\n"))
        for words in ["skipped"], ["init"]:
            self.assertEqual(self.called_with_index("/dev/zero", words), (4, "reqlock: index: unreadable\n"))

    def called_with_index(self, path, words):
        environment = [] if words == ["skipped"] else ["--env", self.environment_file("")]
        done = subprocess.run(
            [PROGRAM, "--dir", self.folder, "--index", path, *environment, *words], stdout=subprocess.PIPE, stderr=subprocess.STDOUT, encoding="utf-8",
            check=False, preexec_fn=little_memory, timeout=SECONDS,
        )
        return done.returncode, done.stdout

    def test_the_device_that_has_nothing_is_an_empty_file(self):
        self.assertEqual(self.call("replace", "/dev/null"), (0, "ok 1\n"))
        self.holds("")

    def test_a_pipe_without_end_is_read_up_to_a_bound(self):
        for words, name in self.handed("/dev/stdin"):
            given = [PROGRAM, *self.options(), *words]
            for call in given, ["-" if word == "/dev/stdin" else word for word in given]:
                if "-" in call and "/dev/stdin" in call or call.count("-") > 1:
                    continue
                with self.subTest(call=call[1:]):
                    self.assertEqual(self.read_of_yes(call), (4, f"reqlock: {name}: unreadable\n"))

    @staticmethod
    def read_of_yes(call):
        with subprocess.Popen(["yes", "#"], stdout=subprocess.PIPE) as endless:
            done = subprocess.run(
                call, stdin=endless.stdout, stdout=subprocess.PIPE, stderr=subprocess.STDOUT, encoding="utf-8", check=False,
                preexec_fn=little_memory, timeout=SECONDS,
            )
            endless.kill()
        return done.returncode, done.stdout

    def test_a_pipe_up_to_the_bound_is_read(self):
        text = "a\n" + "#" * (MOST - 3) + "\n"
        self.assertEqual(self.call("replace", "-", text=text), (0, "ok 1\n"))
        self.assertEqual(self.call("replace", "-", text=text + "\n"), (4, "reqlock: new requirements: unreadable\n"))

    def test_keys_of_many_parts_take_little_memory(self):
        """Each part of a key is a table of its own, which takes a thousand times its text."""
        pins = self.outside / "pins.toml"
        for part in "a", '":"':
            key = ".".join([part] * 70)
            lines = 2**20 // (len(key) + 10)
            pins.write_text("".join(f"k{number}.{key} = 1\n" for number in range(lines)), encoding="utf-8")
            start = time.monotonic()
            for words in ["init"], ["replace", self.folder / "requirements.txt"]:
                told = self.call(*words, "--pins", pins, before=little_memory, seconds=SECONDS)
                self.assertEqual(told, (4, "reqlock: pins: unreadable\n"))
            self.assertLess(time.monotonic() - start, SECONDS)


class NearNames(Program):
    """Names that an index hasn't, with many or long names beside them."""

    def told_of(self, absent, names):
        """What is told of lines on names that the index lacks; it has these."""
        self.begin("".join(f"{name}\n" for name in absent).encode(), *((name, "1", []) for name in names))
        start = time.monotonic()
        status, output, errors = self.told("init", "--verbose")
        self.assertLess(time.monotonic() - start, SECONDS)
        self.assertEqual((status, output), (3, "refused no-solution\n"))
        told = [line for line in errors.splitlines() if line.startswith("the index has no release of ")]
        self.assertEqual([line.split(";")[0].split(" ")[-1] for line in told], absent)
        return [line.partition("; near names: ")[2] for line in told]

    def test_of_long_names_none_are_told(self):
        for length, near in (100, True), (101, False), (40_000, False):
            with self.subTest(length=length):
                name = "a" * (length - 1)
                self.assertEqual(self.told_of([f"{name}b"], [f"{name}c"]), [f"{name}c" if near else ""])

    def test_a_near_name_is_little_longer_or_shorter(self):
        self.assertEqual(self.told_of(["abcdefghij"], ["abcdefghijklm", "abcdefghijkl", "defghij", "cdefghij"]), ["abcdefghijkl, cdefghij"])

    def test_of_many_names_they_are_told_of_the_first(self):
        letters = "a" * 92
        absent = [f"{letters}-x{number:04}" for number in range(2000)]
        told = self.told_of(absent, [f"{letters}-y{number:04}" for number in range(2000)])
        self.assertEqual([bool(near) for near in told], [True] * 20 + [False] * 1980)
        self.assertEqual(told[7], f"{letters}-y0007, {letters}-y0000, {letters}-y0001")

    def test_so_it_is_in_sentences(self):
        absent = [f"lack{number:02}" for number in range(30)]
        releases = [("a", str(number + 1), [f"{name}y"]) for number, name in enumerate(absent)]
        self.begin(b"a\n", *releases, *((f"{name}x", "1", []) for name in absent))
        told = self.call("why", "--init", "--explain", "--long")[1]
        self.assertEqual((told.count("the index has no package lack"), told.count("near names:")), (30, 20))


class Pigeons(Program):
    """More packages than places for them, for which no short reason is known: each version of a package takes a place for itself."""

    def begin_pigeons(self, count):
        takes = [(f"p{number}", f"{place}", [f"h{place}=={number}"]) for number in range(count) for place in range(1, count)]
        places = [(f"h{place}", f"{number}", []) for place in range(1, count) for number in range(count)]
        self.begin("".join(f"p{number}\n" for number in range(count)).encode(), *takes, *places)

    def test_sentences_take_little_more_time_than_the_list(self):
        self.begin_pigeons(6)
        taken = [self.seconds_of(*words) for words in (["why", "--init"], ["why", "--init", "--explain"])]
        self.assertLess(taken[1], 4 * taken[0] + 0.1)

    def seconds_of(self, *words):
        """How long a processor is at it."""
        before = resource.getrusage(resource.RUSAGE_CHILDREN).ru_utime
        self.assertEqual(self.call(*words, seconds=SECONDS)[0], 3)
        return resource.getrusage(resource.RUSAGE_CHILDREN).ru_utime - before

    def test_an_interrupt_ends_the_search(self):
        self.begin_pigeons(12)
        before = self.files()
        for words in ["why", "--init"], ["why", "--init", "--explain"], ["init"]:
            call = self.start(*words)
            with self.assertRaises(subprocess.TimeoutExpired):
                call.wait(timeout=1)
            call.send_signal(signal.SIGINT)
            self.assertEqual((call.wait(timeout=SECONDS), call.communicate()[0]), (-signal.SIGINT, ""))
            self.assertEqual(self.files(), before)
