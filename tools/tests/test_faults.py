"""The program where a stream, a file or the folder fails: the fault names it, and the folder holds what it held."""

import os
import subprocess
import unittest

from support.made.environments import LINUX, WINDOWS
from support.places import PROGRAM
from support.program import FILES, Program

UNWRITTEN = "reqlock: output: write failed\n"
PAGE = os.sysconf("SC_PAGESIZE")

# Calls over a folder, one or more of each subcommand that reads one.
IN_A_FOLDER = (
    ["init"], ["add", "c"], ["remove", "a"], ["constrain", "a"], ["upgrade"], ["relock"], ["replace", "-"], ["retarget"], ["undo"], ["redo"], ["batch"],
    ["forget", "--keep", "0"], ["try"], ["show"], ["show", "a"], ["show", "--tree"], ["log"], ["diff"], ["check"], ["check", "--current"], ["outdated"], ["export"],
    ["why"], ["why", "--init"], ["why", "--not", "a"], ["why", "--replace", "-"], ["why", "--retarget"], ["add", "c", "--dry-run"], ["undo", "--dry-run"], ["init", "--dry-run"],
)


class Faults(Program):
    def setUp(self):
        super().setUp()
        self.begin(b"a\n", ("a", "1", []), ("c", "1", []))
        self.assertEqual(self.call("init"), (0, "ok 0\n"))

    def told_into(self, output, *words, text="", before=None):
        """The status of a call with this output, and what it writes to standard error."""
        done = subprocess.run(
            [PROGRAM, *self.options(), *words], input=text, stdout=output, stderr=subprocess.PIPE, encoding="utf-8", check=False,
            preexec_fn=before,
        )
        return done.returncode, done.stderr

    def test_an_output_that_takes_nothing(self):
        readings, writings = os.pipe()
        os.close(readings)
        outputs = {"a full device": (open("/dev/full", "wb"), None), "a closed pipe": (writings, None), "no output": (None, closed)}
        for name, (output, before) in outputs.items():
            for words in ["show"], ["log"], ["check"], ["try"], ["--help"]:
                with self.subTest(output=name, words=words):
                    files = self.files()
                    is_enough = name == "a closed pipe" and words in (["show"], ["log"])
                    self.assertEqual(self.told_into(output, *words, before=before), (0, "") if is_enough else (5, UNWRITTEN))
                    self.assertEqual(self.files(), files)
            with self.subTest(output=name, words="batch"):
                files = self.files()
                self.assertEqual(self.told_into(output, "batch", text="add c\n", before=before), (5, UNWRITTEN))
                self.assertEqual(self.files(), files)
        outputs["a full device"][0].close()
        os.close(writings)

    def test_a_single_command_is_saved_before_its_reply(self):
        with open("/dev/full", "wb") as full:
            self.assertEqual(self.told_into(full, "add", "c"), (5, UNWRITTEN))
        self.assertEqual(self.call("check"), (0, "ok 1\n"))
        self.assertEqual(len(self.files()), 3)

    def test_an_input_that_cannot_be_read(self):
        files = self.files()
        for word in "batch", "try":
            with self.subTest(word=word):
                folder = os.open(self.folder, os.O_RDONLY)
                done = subprocess.run([PROGRAM, *self.options(), word], stdin=folder, capture_output=True, check=False)
                os.close(folder)
                self.assertEqual((done.returncode, done.stdout, done.stderr), (5, b"", b"reqlock: input: read failed\n"))
                self.assertEqual(self.files(), files)

    def test_replies_of_a_batch_that_cannot_be_saved(self):
        files = self.files()
        beside = self.folder / "pylock.toml.new"
        beside.mkdir()
        self.assertEqual(self.call("batch", text="undo\nadd c\n")[0], 5)
        beside.rmdir()
        self.assertEqual(self.files(), files)
        self.assertEqual(self.call("check"), (0, "ok 0\n"))

    def test_a_closed_error_stream_changes_no_status(self):
        (self.folder / "pylock.toml").write_bytes(b"")
        for words, status in (["show"], 4), (["add"], 2), (["undo"], 4):
            done = subprocess.run(
                [PROGRAM, "--dir", self.folder, *words], stdout=subprocess.PIPE, check=False, preexec_fn=lambda: os.close(2),
            )
            self.assertEqual((done.returncode, done.stdout), (status, b""))

    def test_a_folder_in_the_place_of_a_file(self):
        for name in "requirements.txt", "pylock.toml", "reqlock.journal":
            with self.subTest(name=name):
                path = self.folder / name
                content = path.read_bytes()
                path.unlink()
                path.mkdir()
                for words in ["show"], ["check"], ["undo"], ["add", "c"]:
                    self.assertEqual(self.call(*words), (4, f"reqlock: {name}: unreadable\n"))
                fault = "unreadable" if name == "requirements.txt" else "write failed"
                status = 4 if name == "requirements.txt" else 5
                self.assertEqual(self.call("init"), (status, f"reqlock: {name}: {fault}\n"))
                self.assertEqual((len(list(self.folder.iterdir())), list(path.iterdir())), (3, []))
                path.rmdir()
                path.write_bytes(content)
        self.assertEqual(self.call("check"), (0, "ok 0\n"))

    def test_a_folder_beside_the_place_of_a_file(self):
        files = self.files()
        beside = self.folder / "pylock.toml.new"
        beside.mkdir()
        self.assertEqual(self.call("add", "c"), (5, "reqlock: pylock.toml: write failed\n"))
        self.assertEqual(list(beside.iterdir()), [])
        beside.rmdir()
        self.assertEqual(self.files(), files)

    def test_a_link_that_leads_nowhere(self):
        for name in "requirements.txt", "pylock.toml", "reqlock.journal":
            with self.subTest(name=name):
                path = self.folder / name
                content = path.read_bytes()
                path.unlink()
                path.symlink_to("nowhere")
                for words in ["show"], ["check"], ["undo"], ["add", "c"]:
                    self.assertEqual(self.call(*words), (4, f"reqlock: {name}: unreadable\n"))
                self.assertEqual(len(list(self.folder.iterdir())), 3)
                self.assertEqual(os.readlink(path), "nowhere")
                fault = "unreadable" if name == "requirements.txt" else "write failed"
                status = 4 if name == "requirements.txt" else 5
                self.assertEqual(self.call("init"), (status, f"reqlock: {name}: {fault}\n"))
                self.assertEqual(len(list(self.folder.iterdir())), 3)
                self.assertEqual(os.readlink(path), "nowhere")
                path.unlink()
                path.write_bytes(content)
                self.assertEqual(self.call("check"), (0, "ok 0\n"))
                self.assertEqual(len(self.files()), 3)

    def test_a_link_that_leads_to_a_file(self):
        folder = self.outside / "other"
        folder.mkdir()
        for name in FILES:
            path = self.folder / name
            path.rename(folder / name)
            path.symlink_to(folder / name)
        self.assertEqual(self.call("add", "c"), (0, "ok 1\n"))
        self.assertEqual(self.call("check"), (0, "ok 1\n"))
        self.assertEqual([(self.folder / name).is_symlink() for name in FILES], [True] * 3)
        self.assertEqual(sorted(path.name for path in folder.iterdir()), sorted(FILES))
        self.assertEqual(sorted(self.files()), sorted(FILES))

    def test_a_folder_that_is_not_there(self):
        done = subprocess.run(
            [PROGRAM, "--dir", self.outside / "none", "check"], stdout=subprocess.PIPE, stderr=subprocess.STDOUT, check=False
        )
        self.assertEqual((done.returncode, done.stdout), (4, b"reqlock: requirements.txt: unreadable\n"))
        self.assertFalse((self.outside / "none").exists())

    def test_a_folder_without_a_name(self):
        # no path is made of it, which would lead to files at the root
        options = self.options("")
        for words in IN_A_FOLDER:
            with self.subTest(words=words):
                done = subprocess.run([PROGRAM, *options, *words], input=b"", cwd=self.folder, capture_output=True, check=False)
                told = b"reqlock: requirements.txt: unreadable\n"
                self.assertEqual((done.returncode, done.stdout, done.stderr), (4, b"", told))
                more = subprocess.run([PROGRAM, *options, *words, "-v"], input=b"", cwd=self.folder, capture_output=True, check=False).stderr
                self.assertIn(b"--dir is empty: give the folder that has requirements.txt\n", more)
        done = subprocess.run([PROGRAM, *options, "skipped"], capture_output=True, check=False)
        self.assertEqual((done.returncode, done.stdout, done.stderr), (0, b"", b""))

    def test_a_folder_without_a_right_to_read(self):
        # it can't be locked, so nothing is saved; its files can be read
        self.leave_root()
        files = self.files()
        mode = self.folder.stat().st_mode
        self.folder.chmod(mode & ~0o444)
        for words in ["init"], ["add", "c"], ["undo"], ["batch"]:
            self.assertEqual(self.call(*words), (5, "reqlock: requirements.txt: write failed\n"))
        self.assertEqual(self.call("check"), (0, "ok 0\n"))
        self.assertEqual(self.call("try"), (0, "a\n"))
        self.folder.chmod(mode)
        self.assertEqual(self.files(), files)
        self.assertEqual(self.call("add", "c"), (0, "ok 1\n"))

    def test_a_folder_without_a_right_to_write(self):
        self.leave_root()
        files = self.files()
        mode = self.folder.stat().st_mode
        self.folder.chmod(mode & ~0o222)
        self.assertEqual(self.call("add", "c"), (5, "reqlock: requirements.txt: write failed\n"))
        self.assertEqual(self.call("check"), (0, "ok 0\n"))
        self.folder.chmod(mode)
        self.assertEqual(self.files(), files)

    def test_a_disk_that_is_full(self):
        # each file takes one page: three stand there, and so many more have room beside their places
        if not self.is_mounted(self.folder):
            self.skipTest("optional: a file system can't be mounted")
        self.begin(b"a\n", ("a", "1", []), ("c", "1", []))
        self.assertEqual(self.call("init"), (0, "ok 0\n"))
        files = self.files()
        for room, name in enumerate(FILES):
            with self.subTest(name=name):
                subprocess.run(["mount", "-o", f"remount,size={(3 + room) * PAGE}", self.folder], check=True)
                self.assertEqual(self.call("add", "c"), (5, f"reqlock: {name}: write failed\n"))
                self.assertEqual(self.files(), files)
                self.assertEqual(self.call("check"), (0, "ok 0\n"))
        subprocess.run(["mount", "-o", f"remount,size={6 * PAGE}", self.folder], check=True)
        self.assertEqual(self.call("add", "c"), (0, "ok 1\n"))
        self.assertEqual(sorted(self.files()), sorted(FILES))

    def is_mounted(self, folder):
        """Mounts an empty file system of six pages at the folder until the test ends, where that is allowed."""
        options = ["-t", "tmpfs", "-o", f"size={6 * PAGE}", "tmpfs", folder]
        try:
            subprocess.run(["mount", *options], stdout=subprocess.DEVNULL, stderr=subprocess.DEVNULL, check=True)
        except (OSError, subprocess.CalledProcessError):
            return False
        self.addCleanup(subprocess.run, ["umount", folder], check=True)
        return True

    def test_words_that_are_no_text(self):
        done = subprocess.run([PROGRAM, b"add", b"\xff"], stdout=subprocess.PIPE, stderr=subprocess.PIPE, check=False)
        told = b"reqlock: a word of the command line is not UTF-8\n"
        self.assertEqual((done.returncode, done.stdout, done.stderr), (2, b"", told))


class NextSteps(Program):
    """What is told beside the word of a fault, with `-v` in a pipe as at a terminal."""

    def setUp(self):
        super().setUp()
        self.begin(b"a\n", ("a", "1", []), ("c", "1", []))
        self.index = self.outside / "index.json"
        kept = "begins a new history with requirements.txt as it stands, and keeps the locked versions.\n"
        self.beginning = f"`reqlock init --pins {self.folder}/pylock.toml` {kept}"
        self.making = f"    reqlock-snapshot simple https://index.example/simple/ --for {self.folder}/requirements.txt"

    def notes(self, *words, status=4):
        """What is told behind the first line of standard error, which is that of a call that isn't asked to tell more."""
        plainly = self.told(*words)
        told = self.told(*words, "-v")
        self.assertEqual((plainly[0], plainly[1]), (status, ""))
        self.assertEqual((told[0], told[1]), (status, ""))
        self.assertTrue(told[2].startswith(plainly[2]))
        return told[2][len(plainly[2]) :]

    def bare_notes(self, *words):
        """The same of a call with these words alone, in an empty folder or one with these files."""
        done = subprocess.run([PROGRAM, *words, "-v"], cwd=self.folder, capture_output=True, check=False, encoding="utf-8")
        self.assertEqual((done.returncode, done.stdout), (2, ""))
        first, _, rest = done.stderr.partition("\n")
        return first, rest

    def test_of_an_option_that_is_needed(self):
        first, rest = self.bare_notes("add", "flask>=2")
        self.assertEqual(first, "reqlock: --index is needed")
        making = "    reqlock-snapshot simple https://index.example/simple/ --for requirements.txt --output index.json\n"
        self.assertTrue(rest.endswith(f"and gives it:\n{making}    reqlock --index index.json add 'flask>=2' -v\n"), rest)
        (self.folder / "index.json").write_text("{}")
        first, rest = self.bare_notes("--index", "index.json", "init")
        self.assertEqual(first, "reqlock: --env is needed")
        making = "    reqlock-environment >environment.json\n"
        self.assertTrue(rest.endswith(f"{making}    reqlock --env environment.json --index index.json init -v\n"), rest)
        (self.folder / "environment.json").write_text("{}")
        self.assertNotIn("reqlock-environment", self.bare_notes("--index", "index.json", "init")[1])
        self.assertTrue(self.bare_notes("undo", "--dir", "x", "--index")[0].startswith("error: "))
        self.assertIn("index.json is here.", self.bare_notes("relock")[1])
        told = "A retarget locks for the environments that are given, and for no others. --env NAME=FILE gives that of a target with a name.\n"
        for words in ["retarget"], ["why", "--retarget"]:
            rest = self.bare_notes("--index", "index.json", *words)[1]
            self.assertTrue(rest.endswith(f"    reqlock --env environment.json --index index.json {' '.join(words)} -v\n{told}"), rest)

    def test_of_files_that_are_not_there(self):
        absent = ": No such file or directory (os error 2)\n"
        self.assertEqual(self.call("init"), (0, "ok 0\n"))
        (self.folder / "pylock.toml").unlink()
        told = self.notes("show")
        self.assertTrue(told.startswith(f"{self.folder}/pylock.toml{absent}"), told)
        self.assertIn(f"\n    git -C {self.folder} checkout HEAD -- pylock.toml\n", told)
        self.index.unlink()
        self.assertEqual(self.notes("init"), f"{self.index}{absent}This makes it:\n{self.making} --env {self.environment_file('')} --output {self.index}\n")
        self.begin(b"a\n", ("a", "1", []))
        self.environment_file("").unlink()
        told = self.notes("init")
        self.assertTrue(told.endswith(f"\n    reqlock-environment >{self.environment_file('')}\n"), told)
        (self.folder / "requirements.txt").unlink()
        self.assertIn("or give the folder that has it by --dir\n", self.notes("init"))
        (self.folder / "requirements.in").write_bytes(b"a\n")
        self.assertIn("reqlock-adopt takes it over", self.notes("init"))

    def test_of_what_is_refused_before_it_is_an_edit(self):
        self.assertEqual(self.call("init"), (0, "ok 0\n"))
        for words, refusal, told in (
            (["replace", "--line", "a", "a b"], "bad-text", "the text does not read\n"),
            (["replace", "--line", "c", "c"], "not-present", "no line has this name\n"),
            (["why", "a b"], "bad-text", "the text does not read\n"), (["why", "--remove", "c"], "not-present", "no line has this name\n"),
            (["why", "--not", "c"], "not-locked", "c is not locked\n"), (["why", "--init", "a"], "already-present", "line 1 has this name\n"),
        ):
            with self.subTest(words=words):
                self.assertEqual(self.told(*words), (1, f"refused {refusal}\n", ""))
                self.assertEqual(self.told(*words, "-v"), (1, f"refused {refusal}\n", told))

    def test_of_the_index_that_each_subcommand_is_given(self):
        self.assertEqual(self.call("init"), (0, "ok 0\n"))
        new = self.outside / "new.txt"
        new.write_bytes(b"c\n")
        self.index.unlink()
        for words in (
            ["init"], ["try"], ["why", "--init"], ["add", "c"], ["relock", "--dry-run"], ["replace", new], ["batch"], ["why"],
            ["why", "--replace", new], ["why", "--not", "a"], ["outdated"], ["skipped"], ["check", "--current"], ["show", "a"],
            ["export", "--format", "pylock"],
        ):
            with self.subTest(words=words):
                told = self.notes(*words)
                self.assertTrue(told.startswith(f"{self.index}: No such file or directory (os error 2)\nThis makes it:\n{self.making} "), told)
                self.assertTrue(told.endswith(f" --output {self.index}\n"), told)

    def test_of_what_is_no_regular_file(self):
        self.assertEqual(self.call("init"), (0, "ok 0\n"))
        for path, words in (self.folder / "pylock.toml", ["show"]), (self.index, ["relock"]), (self.environment_file(""), ["init"]):
            with self.subTest(path=path):
                content = path.read_bytes()
                path.unlink()
                os.mkfifo(path)
                self.assertEqual(self.notes(*words), f"{path}: this is no regular file\n")
                path.unlink()
                path.write_bytes(content)

    def test_of_what_an_index_looks_like(self):
        """Another file is never proposed to be written over."""
        environment = self.environment_file("").read_text(encoding="utf-8")
        for text, looks, output in (
            (environment, " looks like an environment: ", "index.json"), ('lock-version = "1.0"\n', " looks like a lock: ", "index.json"),
            ("<!DOCTYPE html>\n<html></html>\n", " looks like a page of an index: ", "index.json"),
            ('{"meta": {"api-version": "1.0"}, "files": []}', " looks like a page of an index: ", "index.json"),
            ("[]", " is no snapshot of an index. ", "index.json"), ("", " is empty. ", self.index),
            ("\ufeff{}", " begins with a byte-order mark: ", self.index),
            ('{"snapshot": 2, "packages": []}', " isn't as this reqlock reads a snapshot: ", self.index),
        ):
            with self.subTest(text=text):
                self.index.write_text(text, encoding="utf-8")
                told = self.notes("init")
                self.assertTrue(told.startswith(f"{self.index}{looks}"), told)
                self.assertTrue(told.endswith(f"\n{self.making} --env {self.environment_file('')} --output {output}\n"), told)
        self.index.write_text("{\n<<<<<<< HEAD\n}\n", encoding="utf-8")
        self.assertTrue(self.notes("init").startswith(f"{self.index}: git left a conflict at line 2: "))

    def test_of_what_an_environment_looks_like(self):
        path = self.environment_file("")
        whole = path.read_text(encoding="utf-8")
        for text, looks, output in (
            (self.index.read_text(encoding="utf-8"), " looks like a snapshot of an index: ", "environment.json"),
            ("{}", " is no environment. ", "environment.json"),
            (whole.replace('"python_version"', '"python_verson"'), " has python_verson in the place of python_version: ", path),
            (whole.replace('"os_name"', '"osname"'), " has osname in the place of os_name: ", path),
            ('{"sys_platform": "linux"}', " lacks implementation_name. ", path), ("", " is empty. ", path),
        ):
            with self.subTest(text=text):
                path.write_text(text, encoding="utf-8")
                told = self.notes("init")
                self.assertTrue(told.startswith(f"{path}{looks}"), told)
                self.assertTrue(told.endswith(f"\n    reqlock-environment >{output}\n"), told)

    def test_of_the_environment_of_one_of_several_targets(self):
        self.lock_for({"one": LINUX, "two": LINUX})
        for words in ["init"], ["try"], ["why", "--init"]:
            for name in "two", "one":
                with self.subTest(words=words, name=name):
                    path = self.environment_file(name)
                    whole = path.read_bytes()
                    path.unlink()
                    making = f"    reqlock-environment >{path}\n"
                    absent = f"{path}: No such file or directory (os error 2)\nThis makes it, of the Python that runs it:\n{making}"
                    self.assertEqual(self.notes(*words), absent)
                    path.write_text('{"sys_platform": "linux"}', encoding="utf-8")
                    told = f"{path} lacks implementation_name. This makes it again, with all eleven variables:\n{making}"
                    self.assertEqual(self.notes(*words), told)
                    path.write_bytes(whole)

    def test_of_names_that_the_index_lacks(self):
        """A line may count in the environment of one target alone."""
        self.lock_for({"one": LINUX, "two": WINDOWS})
        for line, name in ('y; os_name=="posix"', "y"), ('z; os_name=="nt"', "z"):
            self.begin(f"a\n{line}\n".encode(), ("a", "1", []))
            status, output, told = self.told("init", "-v")
            self.assertEqual((status, output), (3, "refused no-solution\n"))
            self.assertIn(f"\nthe index has no release of {name}\n", told)
            targets = " ".join(f"--env {name}={self.environment_file(name)}" for name in self.environments)
            asking = f"\nask: reqlock --dir {self.folder} --index {self.index} {targets} why --explain --init\n"
        self.assertIn(f"{asking}Where the package index has it, this makes the snapshot with it:\n", told)
        self.index.unlink()
        making = f"{self.making} {targets} --output {self.index}\n"
        self.assertTrue(self.notes("init").endswith(f"\nThis makes it:\n{making}"))

    def test_of_requirements_that_are_handed_in(self):
        self.assertEqual(self.call("init"), (0, "ok 0\n"))
        path = self.outside / "handed.txt"
        for words in ["replace"], ["why", "--replace"]:
            with self.subTest(words=words):
                path.unlink(missing_ok=True)
                for given in [path], ["--was", path]:
                    self.assertEqual(self.notes(*words, *given), f"{path}: No such file or directory (os error 2)\n")
                path.write_bytes(b"a\n# \xff\n")
                self.assertEqual(self.notes(*words, path), "line 2 is no UTF-8: save the file as UTF-8\n")
                path.write_bytes(b"a\nb=>2\n")
                self.assertIn("line 2, column ", self.notes(*words, path))
                path.write_bytes(b"c\n")
                told = self.notes(*words, "--was", path)
                self.assertEqual(told, f"The file of --was isn't requirements.txt as reqlock saved it. {self.beginning}")

    def test_of_all_lines_that_do_not_read(self):
        told = {
            "flask=2": "line 1, column 6: flask=2: clause 1 is no version specifier\nA single = compares nothing: write flask==2\n",
            "b=>2": "Write >= in the place of =>.\n", "b^2": "Write ~= in the place of ^.\n",
            "b===2": "Write == in the place of ===.\n", "b 2": "A version alone compares nothing: write b==2\n", "b>": "A specifier is a comparison with a version, as in >=2,<3.\n",
            'b ; python_verson < "3"': "A marker has no variable python_verson: write python_version.\n",
            "b ; linux": "A marker compares a variable with a text in quotes, ",
            "b==2 --hash=sha256:00": "The lock has the hashes: ", "b==2 \\": "Write the requirement on one line.\n",
            "git+https://x.example/b.git": "reqlock locks releases of an index: ", "b @ https://x.example/b.whl": "reqlock locks releases of an index: ",
            "-r more.txt": "Put the lines of that file ", "-c more.txt": "Put the bounds of that file ", "-e .": "A project in a folder is not locked: ",
            "--index-url https://x": "Take the line out: ", "--pre": "Take the line out: ",
            "<<<<<<< HEAD": "git left a conflict here: ", "=======": "git left a conflict here: ", ">>>>>>> b": "git left a conflict here: ",
        }
        (self.folder / "requirements.txt").write_text("\n".join(told) + "\n", encoding="utf-8")
        notes = self.notes("init")
        for number, (line, note) in enumerate(told.items(), 1):
            with self.subTest(line=line):
                self.assertIn(f"line {number}, column ", notes)
                self.assertIn(note, notes)
        (self.folder / "requirements.txt").write_text("\ufeffa\n", encoding="utf-8")
        self.assertIn("The file begins with a byte-order mark: save it as UTF-8 without one.\n", self.notes("init"))
        (self.folder / "requirements.txt").write_bytes(b"a\n# \xff\n")
        self.assertEqual(self.notes("init"), "line 2 is no UTF-8: save the file as UTF-8\n")
        (self.folder / "requirements.txt").write_bytes(b"-r x\n" * 23)
        told = self.notes("init")
        self.assertEqual((told.count("column 1: -r x"), told.endswith("and 3 more lines that do not read\n")), (20, True))

    def test_of_files_that_others_changed(self):
        self.assertEqual(self.call("init"), (0, "ok 0\n"))
        files, git = self.files(), f"    git -C {self.folder}"
        sides = "requirements.txt 'pylock*.toml' reqlock.journal\n"
        self.put(files | {"requirements.txt": b"a\nc\n"})
        told = self.notes("relock")
        options = f"--dir {self.folder} --index {self.index}"
        self.assertTrue(told.endswith(f"\n    reqlock {options} replace --was COPY\n{self.beginning}"), told)
        self.put(files | {"requirements.txt": b"<<<<<<< HEAD\na\n=======\nc\n>>>>>>> b\n"})
        self.assertIn("git left a conflict at line 1 of requirements.txt.", self.notes("relock"))
        self.put(files | {"pylock.toml": b"x\n=======\n" + files["pylock.toml"]})
        told = self.notes("check")
        self.assertTrue(told.startswith("git left a conflict at line 2 of pylock.toml."), told)
        self.assertIn(f"\n    reqlock-merge --dir {self.folder} --index ", told)
        self.put(files | {"pylock.toml": files["pylock.toml"] + b"\n"})
        self.assertEqual(self.notes("check"), f"pylock.toml isn't the one that reqlock.journal was saved with. {self.beginning}")
        self.put(files | {"reqlock.journal": files["reqlock.journal"][:-9]})
        self.assertIn(f"\n{git} checkout HEAD -- {sides}", self.notes("log"))
        self.put(files | {"reqlock.journal": files["reqlock.journal"] + b">>>>>>> b\n"})
        self.assertTrue(self.notes("log").startswith("git left a conflict at line 2 of reqlock.journal."))

    def test_of_a_save_that_was_stopped(self):
        self.assertEqual(self.call("init"), (0, "ok 0\n"))
        before = self.files()
        self.assertEqual(self.call("add", "c"), (0, "ok 1\n"))
        after = self.files()
        names = "requirements.txt", "pylock.toml", "reqlock.journal"
        told = "A save was stopped midway: what it was to put in place stands beside, with .new behind the names. The next call that saves ends it. "
        for moved in 1, 2:
            with self.subTest(moved=moved):
                stopped = before | {name: after[name] for name in names[:moved]} | {f"{name}.new": after[name] for name in names[moved:]}
                self.put(stopped)
                self.assertTrue(self.notes("check").startswith(f"{told}Where it can't:\n"))
                self.put(stopped | {"requirements.txt": b"a\n\n"})
                self.assertNotIn("midway", self.notes("check"))
                self.put(stopped)
                self.assertEqual(self.call("relock"), (0, "same\n"))
                self.assertEqual(self.files(), after)


def closed():
    os.close(1)


if __name__ == "__main__":
    unittest.main()
