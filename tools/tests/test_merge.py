"""Tests of tools/merge.py over the built program and the real git: merges, rebases, cherry-picks and reverts, files that were changed by hand,
and what is refused and changes nothing."""

import functools
import os
import shutil
import signal
import subprocess
import time

from support.checkouts import NOTHING, SCRIPT, Checkouts
from support.made.environments import LINUX, WINDOWS
from support.places import PROGRAM
from support.program import limited

# `web` needs `base`, and newer releases of it newer ones.
RELEASES = (
    ("web", "1", ["base"]), ("web", "2", ["base"]), ("web", "3", ["base>=2"]), ("base", "1", []), ("base", "2", []), ("base", "3", []),
    ("tool", "1", []), ("tool", "2", []), ("aid", "1", ["base<2"]), ("aid", "2", []),
)
LINES = b"# app\nweb<3\n\n# tools\n"


class Two(Checkouts):
    def begin_two(self, ours=("add", "tool<2"), theirs=("constrain", "web")):
        """A merge that stops: an edit on this side, another one on the other."""
        self.begin_clone(LINES, *RELEASES)
        self.on_branch("other", theirs)
        self.edit(*ours)
        self.git("merge", "other", fails=True)


class Merges(Two):
    def test_a_merge_keeps_the_newer_pins_of_both(self):
        self.begin_clone(LINES, *RELEASES)
        self.on_branch("other", ("constrain", "web"), ("upgrade",))
        self.edit("add", "tool<2")
        own = self.files()
        self.git("merge", "other", fails=True)
        told = "ok 2\nthis side: tool 1\nother side: web 3 (here 2)\n"
        before = self.everything()
        self.assertEqual(self.merge("--dry-run"), (0, told, ""))
        self.assertEqual(self.everything(), before)
        self.assertEqual(self.merge(), (0, told, ""))
        self.holds("# app\nweb\n\n# tools\ntool<2\n")
        self.check_whole(2)
        self.assertEqual(self.merge(), (0, NOTHING, ""))
        self.git("commit", "--quiet", "--message=merged")
        self.check_undo(own)

    def check_undo(self, own):
        """`undo` gives back the own side, but for what the history has to redo."""
        self.assertEqual(self.call("undo")[0], 0)
        files = self.files()
        for name in self.names()[:-1]:
            self.assertEqual(files[name], own[name])

    def test_without_attributes_markers_in_locks_do_no_harm(self):
        self.attributes = b""
        self.begin_two()
        self.assertIn(b"<<<<<<<", (self.folder / "reqlock.journal").read_bytes())
        self.assertEqual(self.merge()[:2], (0, "ok 2\nthis side: tool 1\n"))
        self.check_whole(2)

    def test_markers_in_the_requirements(self):
        self.begin_two(("constrain", "web", "<2"), ("constrain", "web"))
        self.check_refused("requirements.txt: conflict markers in lines 2, 4, 6: leave the lines that are wanted, then call this again\n")
        (self.folder / "requirements.txt").write_bytes(LINES)
        self.assertEqual(self.merge()[:2], (0, "ok 2\nother side: web 2 (here 1)\n"))
        self.check_whole(2)

    def test_nothing_fits(self):
        self.begin_two(("add", "aid<2"), ("constrain", "web", ">=3"))
        output, said = self.check_refused("nothing is changed", status=3)
        self.assertEqual(output, "refused no-solution\n")
        asked = said.partition("or ask: ")[2]
        variables = {**self.variables, "PATH": f"{PROGRAM.parent}:{self.variables['PATH']}"}
        done = subprocess.run(["bash", "-c", asked], env=variables, capture_output=True, encoding="utf-8", check=False)
        self.assertEqual((done.returncode, done.stderr), (3, ""))
        self.assertIn("don't go together", done.stdout)

    def test_nothing_fits_and_the_lock_has_markers(self):
        self.attributes = b""
        self.begin_two(("add", "aid<2"), ("constrain", "web", ">=3"))
        _, said = self.check_refused(" checkout --ours -- pylock.toml reqlock.journal; git ", status=3)
        self.assertIn("--was -\n", said)

    def test_keep_locked(self):
        self.begin_two(("add", "tool<2"), ("constrain", "web", ">=3"))
        self.assertEqual(self.merge("--keep-locked")[:2], (0, "ok 2\nthis side: tool 1\nother side: web 3 (here 2)\n"))

    def test_one_side_alone_needs_nothing(self):
        self.begin_clone(LINES, *RELEASES)
        self.on_branch("other", ("add", "tool"))
        self.git("merge", "--quiet", "--no-ff", "other")
        self.assertEqual(self.merge(), (0, NOTHING, ""))
        self.check_whole(1)

    def test_a_rebase(self):
        self.begin_clone(LINES, *RELEASES)
        self.on_branch("other", ("constrain", "web"), ("add", "tool"))
        self.edit("add", "aid")
        self.git("checkout", "--quiet", "other")
        self.git("rebase", "main", fails=True)
        self.assertEqual(self.merge()[:2], (0, "ok 2\nthis side: aid 2\n"))
        self.check_whole(2)
        self.git("rebase", "--continue", fails=True)
        (self.folder / "requirements.txt").write_bytes(b"# app\nweb\n\n# tools\naid\ntool\n")
        self.assertEqual(self.merge()[:2], (0, "ok 3\nthis side: aid 2\nother side: tool 2\n"))
        self.check_whole(3)
        self.git("rebase", "--continue")
        self.assertEqual(self.merge(), (0, NOTHING, ""))

    def test_a_cherry_pick_and_a_revert(self):
        self.begin_clone(LINES, *RELEASES)
        self.on_branch("other", ("constrain", "web"))
        self.edit("add", "tool<2")
        self.git("cherry-pick", "other", fails=True)
        self.assertEqual(self.merge()[:2], (0, "ok 2\nthis side: tool 1\n"))
        self.git("cherry-pick", "--continue")
        self.git("revert", "--no-edit", "HEAD~1", fails=True)
        self.assertEqual(self.merge()[:2], (0, "ok 3\ngone: tool (here 1)\n"))
        self.holds("# app\nweb\n\n# tools\n")
        self.check_whole(3)
        self.git("revert", "--continue")

    def test_a_squashed_merge_and_a_stash(self):
        self.begin_clone(LINES, *RELEASES)
        self.on_branch("other", ("constrain", "web"))
        self.assertEqual(self.call("add", "aid")[0], 0)
        self.git("stash")
        self.edit("add", "tool<2")
        self.git("merge", "--squash", "other", fails=True)
        self.assertEqual(self.merge()[:2], (0, "ok 2\nthis side: tool 1\n"))
        self.commit("squashed")
        self.git("stash", "pop", fails=True)
        (self.folder / "requirements.txt").write_bytes(b"# app\nweb\n\n# tools\ntool<2\naid\n")
        self.assertEqual(self.merge()[:2], (0, "ok 3\nother side: aid 2\nthis side: tool 1\n"))
        self.check_whole(3)

    def test_other_targets_and_another_history(self):
        self.begin_clone(LINES, *RELEASES)
        self.git("checkout", "--quiet", "-b", "other")
        self.lock_for({"linux": LINUX, "windows": WINDOWS})
        self.assertEqual(self.call("init")[0], 0)
        self.edit("add", "aid")
        self.git("checkout", "--quiet", "main")
        self.edit("add", "tool<2")
        self.git("merge", "other", fails=True)
        (self.folder / "requirements.txt").write_bytes(LINES + b"tool<2\naid\n")
        self.check_refused("the other side locks for other targets (linux, windows; here: the one without a name); type merge.py --ours")
        self.assertEqual(self.merge("--theirs")[0], 0)
        self.assertEqual(self.call("check"), (0, "ok 2\n"))
        self.git("reset", "--quiet", "--hard")
        self.lock_for({"": LINUX})
        self.git("checkout", "--quiet", "-b", "anew", "main~1")
        (self.folder / "requirements.txt").write_bytes(LINES + b"aid\n")
        self.assertEqual(self.call("init"), (0, "ok 0\n"))
        self.commit("anew")
        self.git("checkout", "--quiet", "main")
        self.git("merge", "anew", fails=True)
        (self.folder / "requirements.txt").write_bytes(LINES + b"tool<2\naid\n")
        self.check_refused("the other side began another history, by reqlock init or forget; type merge.py --ours")
        self.assertEqual(self.merge("--ours")[:2], (0, "ok 2\nother side: aid 2\nthis side: tool 1\n"))

    def begin_forgotten(self, keeps):
        """A merge that stops, where this side kept so many of the steps that it has in common with the other one."""
        self.begin_clone(LINES, *RELEASES)
        self.edit("add", "tool<2")
        self.edit("add", "aid")
        self.on_branch("other", ("constrain", "web"), ("upgrade",))
        self.edit("forget", "--keep", keeps)
        self.edit("remove", "aid")
        self.git("merge", "other", fails=True)

    def test_a_side_without_its_first_steps(self):
        self.begin_forgotten("1")
        self.assertEqual(self.merge()[:2], (0, "ok 3\ngone: aid (there 2)\nother side: web 3 (here 2)\n"))
        self.check_whole(3)

    def test_a_side_without_any_step_of_the_other(self):
        self.begin_forgotten("0")
        self.check_refused("the other side began another history, by reqlock init or forget; type merge.py --ours")
        self.assertEqual(self.merge("--theirs")[:2], (0, "ok 5\ngone: aid (here 2)\nthis side: web 3 (there 2)\n"))

    def test_a_side_without_a_history(self):
        self.begin_clone(LINES, *RELEASES)
        self.git("checkout", "--quiet", "-b", "other")
        self.git("rm", "--quiet", "reqlock.journal", "pylock.toml")
        self.commit("without")
        self.git("checkout", "--quiet", "main")
        self.edit("add", "tool<2")
        self.git("merge", "other", fails=True)
        self.check_refused("the other side has no reqlock.journal; type merge.py --ours")
        self.check_refused("the other side has no reqlock.journal; ", "--theirs")

    def test_several_targets(self):
        self.lock_for({"linux": LINUX, "windows": WINDOWS})
        self.begin_clone(b"web<3 ; os_name == 'nt'\ntool<2\n", *RELEASES)
        self.on_branch("other", ("constrain", "web"), ("upgrade",))
        self.edit("add", "aid ; os_name == 'posix'")
        self.git("merge", "other", fails=True)
        self.assertEqual(self.merge()[:2], (0, "ok 2\nlinux: this side: aid 2\nwindows: other side: web 3 (here 2)\n"))
        self.check_whole(2)


class Hands(Checkouts):
    """Files that were changed by others while nothing is in progress: one step each, and no pin moves that didn't have to."""

    def setUp(self):
        super().setUp()
        self.begin_clone(b"# app\nweb<3\ntool<2\n", *RELEASES)
        self.edit("constrain", "tool")
        self.pins = self.locked()

    def check_step(self, text, told, pins):
        (self.folder / "requirements.txt").write_bytes(text)
        self.assertEqual(self.call("check")[0], 4)
        self.assertEqual(self.merge(), (0, f"ok 2\n{told}", ""))
        self.check_whole(2)
        self.assertEqual(self.locked(), {**self.pins, **pins})
        self.assertEqual(self.call("undo"), (0, "ok 1\n"))

    def test_sed(self):
        subprocess.run(["sed", "-i", "s/<3/<=2/", self.folder / "requirements.txt"], check=True)
        self.check_step((self.folder / "requirements.txt").read_bytes(), "- 2: web<3\n+ 2: web<=2\n", {})

    def test_an_editor_that_changes_line_endings(self):
        text = (self.folder / "requirements.txt").read_bytes().replace(b"\n", b"\r\n")
        (self.folder / "requirements.txt").write_bytes(text)
        self.assertEqual(self.merge()[0], 0)
        self.check_whole(2)
        self.assertEqual(self.locked(), self.pins)
        self.assertEqual((self.folder / "requirements.txt").read_bytes(), text)

    def test_a_bot_that_raises_a_bound(self):
        self.check_step(b"# app\nweb>=3\ntool\n", "- 2: web<3\n+ 2: web>=3\nweb 2 -> 3\n", {"web": "3"})

    def test_a_person_who_sorts_the_lines(self):
        self.check_step(b"# app\ntool\nweb<3\n", "- 2: web<3\n+ 3: web<3\n", {})

    def test_a_bot_that_commits(self):
        (self.folder / "requirements.txt").write_bytes(b"# app\nweb>=3\ntool\n")
        self.commit("bot")
        self.assertEqual(self.merge()[:2], (0, "ok 2\n- 2: web<3\n+ 2: web>=3\nweb 2 -> 3\n"))
        self.check_whole(2)

    def test_no_version_fits(self):
        (self.folder / "requirements.txt").write_bytes(b"web\n")
        self.assertEqual(self.call("init"), (0, "ok 0\n"))
        (self.folder / "requirements.txt").write_bytes(b"web<3\n")
        self.check_refused("requirements.txt: no version of it in HEAD, in the index or in the last commits is the one that reqlock saved")

    def test_steps_of_the_journal_that_are_broken(self):
        with (self.folder / "reqlock.journal").open("ab") as journal:
            journal.write(b"x\n")
        self.assertEqual(self.merge(), (1, "", "reqlock.journal: line 3: journal-broken\n"))

    def test_what_is_wrong_is_told(self):
        self.assertEqual(self.merge(), (0, NOTHING, ""))
        (self.folder / "requirements.txt").write_bytes(b"web>>1\n")
        self.check_refused("requirements.txt: line 1: bad-clause\n")
        (self.folder / "requirements.txt").write_bytes(b"web\n")
        self.check_refused("none.json: unreadable\n", "--index", "none.json")
        self.check_refused("none: No such file or directory; give the program by --program\n", "--program", "none")
        (self.folder / "pylock.toml").write_bytes(b"x\n")
        self.check_refused("pylock.toml of the folder: it isn't the one that reqlock saved with its journal, which is older where ")
        self.check_refused("nothing is in progress, so there is no other side\n", "--theirs")
        (self.folder / "pylock.toml").unlink()
        (self.folder / "pylock.toml").symlink_to("requirements.txt")
        self.check_refused("pylock.toml: it is a link, which this doesn't follow; call reqlock replace --was\n")
        (self.folder / "reqlock.journal").write_bytes(b"{}\n")
        self.check_refused("reqlock.journal: it is no journal of reqlock\n")
        (self.folder / "reqlock.journal").unlink()
        self.check_refused("reqlock.journal: it isn't there")
        (self.folder / "requirements.txt").unlink()
        self.assertEqual(self.merge("--dir", self.outside / "none")[0], 1)
        self.assertIn("it stands in no git checkout", self.merge("--dir", self.outside)[2])

    def test_usage(self):
        for words in ["--indes"], ["a"], ["--ours", "--theirs"]:
            self.assertEqual(self.merge(*words)[:2], (2, ""))
        done = subprocess.run(["python3", "-B", SCRIPT], cwd=self.folder, env=self.variables, capture_output=True, check=False)
        self.assertEqual((done.returncode, done.stdout), (2, b""))
        self.assertIn(b"--index is needed", done.stderr)
        variables = {**self.variables, "REQLOCK_INDEX": str(self.outside / "index.json"), "REQLOCK_DIR": str(self.folder)}
        done = subprocess.run(["python3", "-B", SCRIPT], env=variables, capture_output=True, check=False)
        self.assertEqual((done.returncode, done.stdout.decode()), (0, NOTHING))


class Stops(Two):
    """What stops the tool leaves nothing half done."""

    def test_a_full_disk(self):
        self.begin_two()
        before = self.everything()
        for size in 0, 100, 600:
            self.assertEqual(self.merge(before=limited(size))[0], 1)
            self.assertEqual(self.everything(), before)
        self.assertEqual(self.merge()[0], 0)

    def test_the_index_of_git_is_held(self):
        self.begin_two()
        lock = self.folder.parent / ".git" / "index.lock"
        lock.write_bytes(b"")
        self.check_refused("index.lock")
        lock.unlink()
        self.assertEqual(self.merge()[0], 0)
        self.check_whole(2)

    def test_a_git_that_is_killed(self):
        """A git is first on the path that ends itself at its Nth call."""
        self.begin_two()
        before, place, count = self.everything(), self.outside / "bin", 0
        place.mkdir()
        (place / "git").write_text(
            f'#!/bin/sh\necho >>"$COUNT"\n[ "$(wc -l <"$COUNT")" != "$STOP" ] || kill -9 $$\nexec {shutil.which("git")} "$@"\n', encoding="utf-8"
        )
        (place / "git").chmod(0o755)
        path = self.variables["PATH"]
        while True:
            count += 1
            self.variables |= {"PATH": f"{place}:{path}", "COUNT": str(self.outside / f"count{count}"), "STOP": str(count)}
            status, _, _ = self.merge()
            self.variables["PATH"] = path
            if status == 0:
                break
            self.assertEqual(self.everything(), before, count)
        self.assertGreater(count, 5)
        self.check_whole(2)

    def test_a_kill_behind_the_staging_is_an_interrupted_save(self):
        """A git is first on the path that ends who calls it, once the files are staged."""
        self.begin_two()
        place = self.outside / "bin"
        place.mkdir()
        git = shutil.which("git")
        text = f'#!/bin/sh\ncase " $* " in *" update-index "*) ;; *) exec {git} "$@" ;; esac\n{git} "$@"\nkill -9 $PPID\n'
        (place / "git").write_text(text, encoding="utf-8")
        (place / "git").chmod(0o755)
        path = self.variables["PATH"]
        self.variables["PATH"] = f"{place}:{path}"
        self.assertEqual(self.merge()[0], -9)
        self.variables["PATH"] = path
        self.assertEqual(self.call("check")[0], 4)
        self.assertEqual(self.call("relock"), (0, "same\n"))
        self.check_whole(2)
        self.assertEqual(self.merge(), (0, NOTHING, ""))

    def test_ctrl_c(self):
        """A program that waits stands in the place of reqlock; Ctrl-C comes meanwhile."""
        self.begin_two()
        before, program = self.everything(), self.outside / "waits"
        program.write_text(f'#!/bin/sh\necho >{self.outside / "begun"}\nexec sleep 60\n', encoding="utf-8")
        program.chmod(0o755)
        words = [*self.merge_words(), "--program", program]
        heed = functools.partial(signal.signal, signal.SIGINT, signal.SIG_DFL)  # (a job in the background ignores it)
        with subprocess.Popen(words, env=self.variables, stderr=subprocess.PIPE, start_new_session=True, preexec_fn=heed) as process:
            while not (self.outside / "begun").exists():
                time.sleep(0.05)
            os.killpg(process.pid, signal.SIGINT)
            self.assertEqual(process.communicate()[1], b"merge.py: stopped; nothing is changed\n")
        self.assertEqual((process.returncode, self.everything()), (130, before))

    def test_odd_names(self):
        self.begin_two()
        odd = self.outside / "one" / "-x \n'\"\xe9"
        self.git("merge", "--abort")
        os.rename(self.folder, odd)
        self.folder = odd
        self.commit("moved")
        text = (odd / "requirements.txt").read_bytes()
        (odd / "requirements.txt").write_bytes(text + b"aid\n")
        self.assertEqual(self.merge()[:2], (0, "ok 2\n+ 6: aid\n+ aid 2\n"))
        self.check_whole(2)
