"""Tests of ./demo in a copy of what it reads, with an rt that proves nothing: it tells of each crate as the real one does, makes the
program only where that would, tells of each case by its words, and fails where a file `fail` names the crate. Where a file `wait` names
one, it waits in it until that file is gone."""

import os
import shutil
import subprocess
import unittest
from pathlib import Path

from support.places import TOP, new_folder

RT = r"""#!/bin/bash
name=$(basename "$PWD")
fail=$(cat "$FAIL" 2>/dev/null)
has_failed=false

fault() {
    echo "src/lib.rt:1:1: error: it is not proved"
}

prove() {
    local rlib=../$1/out/rlib
    if [ -e "$rlib/stamp" ]; then
        echo "== $1"
        return
    fi
    echo "$1: prove" >>"$CALLS"
    mkdir -p "$rlib" "../$1/out/incremental/kept"
    : >"../$1/out/incremental/kept/first.Lts.oantt"
    for _ in {1..300}; do
        [ "$(cat "$WAIT" 2>/dev/null)" = "$1" ] || break
        sleep 0.1
    done
    echo "== $1"
    if [ "$fail" = "$1 prove" ]; then
        fault
        has_failed=true
        return
    fi
    echo "fn $1::first: proved"
    echo "logic=proved functions=2 sum=0"
    if [ "$1" != reqlock ]; then : >"$rlib/stamp"; fi
}

case $1 in
all)
    echo "$name: $*" >>"$CALLS"
    for crate in $ORDER; do $has_failed || prove "$crate"; done
    echo "== summary"
    if $has_failed; then exit 1; fi ;;
run)
    echo "$name: $1" >>"$CALLS"
    if [ "$fail" = "$name run" ]; then
        fault
        exit 1
    fi
    mkdir -p out
    printf '#!/bin/bash\necho "built: $*"\ncat\n' >out/reqlock
    chmod +x out/reqlock ;;
try)
    echo "$name: $1" >>"$CALLS"
    if [ "$fail" = "$name try" ]; then
        fault
        exit 1
    fi
    answer=ended
    if [ "$fail" = "$name answer" ]; then answer=fault; fi
    for case in "$3"/??; do
        words=$(cat "$case.args")
        printf '== %s\ntried: %s\n' "${case##*/}" "${words//$'\n'/ }"
        echo "case=${case##*/} run=$answer status=$(cat "$STATUS" 2>/dev/null || echo 0) runners=1 proved=no" >&2
    done ;;
esac
"""


# The crates of the copy, and those of which the program is made, each behind those below it.
CRATES = """# lowest first
lists: std
search: lists
conformance: states search
states: search std

reqlock: edits states
edits: states lists
"""
ORDER = ["lists", "search", "states", "edits", "reqlock"]
READ = "demo", "tools/lanes.bash", "tools/read_lines.bash", "tools/proof_progress.bash"


class Demo(unittest.TestCase):
    def setUp(self):
        self.folder = new_folder(self.addCleanup)
        self.copy = self.folder / "copy"
        for name in READ:
            (self.copy / name).parent.mkdir(parents=True, exist_ok=True)
            shutil.copy(TOP / name, self.copy / name)
        shutil.copytree(TOP / "examples" / "web", self.copy / "examples" / "web")
        (self.copy / "crates.txt").write_text(CRATES, encoding="utf-8")
        for name in ORDER:
            (self.copy / "crates" / name / "src").mkdir(parents=True)
        self.programs = self.folder / "programs"
        self.programs.mkdir()
        for name in "bash", "basename", "cat", "chmod", "dirname", "du", "env", "mkdir", "rm", "sed", "sleep", "tail":
            os.symlink(shutil.which(name), self.programs / name)
        self.calls = self.folder / "calls"
        self.calls.touch()

    def give_rt(self):
        (self.programs / "rt").write_text(RT, encoding="utf-8")
        (self.programs / "rt").chmod(0o755)

    def variables(self):
        return {
            "PATH": str(self.programs), "CALLS": str(self.calls), "FAIL": str(self.folder / "fail"), "WAIT": str(self.folder / "wait"),
            "STATUS": str(self.folder / "status"), "ORDER": " ".join(ORDER), "RT_JOBS": "3",
        }

    def demo(self, *words):
        """The status, the standard output and the standard error of ./demo, and what it asked rt for."""
        self.calls.write_text("")
        done = subprocess.run(
            [self.copy / "demo", *words], env=self.variables(), capture_output=True, encoding="utf-8", check=False, cwd="/"
        )
        return done.returncode, done.stdout, done.stderr, self.calls.read_text().splitlines()

    def waiting_demo(self):
        """./demo, with an rt that waits in the proof of `states` until the file `wait` is gone."""
        self.give_rt()
        (self.folder / "wait").write_text("states")
        return subprocess.Popen([self.copy / "demo", "--proved"], env=self.variables(), stdout=subprocess.PIPE, encoding="utf-8", cwd="/")

    def build(self, text):
        """Puts a program where the built one stands."""
        program = self.copy / "crates" / "reqlock" / "out" / "reqlock"
        program.parent.mkdir(parents=True, exist_ok=True)
        program.write_text(f"#!/bin/bash\n{text}\n", encoding="utf-8")
        program.chmod(0o755)

    def test_builds_once_and_shows_the_example(self):
        self.give_rt()
        status, output, errors, calls = self.demo("--proved")
        self.assertEqual((status, errors), (0, ""))
        self.assertEqual(calls, ["reqlock: all check --jobs 3", *(f"{name}: prove" for name in ORDER), "reqlock: run"])
        for name in ORDER:
            self.assertIn(f"  {name:15}    2 functions proved, 0 min 0", output)
        self.check_session(output, "built: --dir crates/reqlock/out/demo", "")
        for words in (), ("--proved",):
            status, again, errors, calls = self.demo(*words)
            self.assertEqual((status, errors, calls), (0, "", []))
            self.check_session(again, "built: --dir crates/reqlock/out/demo", "")

    def test_shows_the_same_without_a_proof(self):
        self.give_rt()
        stale = self.copy / "crates" / "reqlock" / "out" / "demo.cases" / "99"
        stale.parent.mkdir(parents=True)
        stale.touch()
        status, output, errors, calls = self.demo()
        self.assertEqual((status, errors, calls), (0, "", ["reqlock: try"]))
        self.assertFalse(stale.exists())
        self.assertTrue(output.startswith("The same sources with checks at run time, not yet proved;"))
        self.check_session(output, f"tried: --dir {self.copy}/crates/reqlock/out/demo", f"{self.copy}/")
        self.build('echo "built: $*"')
        _, proved, _, _ = self.demo()
        typed = [[line for line in text.splitlines() if line.startswith("$ ")] for text in (output, proved)]
        self.assertEqual(*typed)
        self.assertEqual(len(typed[0]), 12)

    def test_what_was_proved_stays(self):
        self.give_rt()
        (self.folder / "fail").write_text("states prove")
        self.assertEqual(self.demo("--proved")[0], 1)
        (self.folder / "fail").unlink()
        status, output, errors, calls = self.demo("--proved")
        self.assertEqual((status, errors), (0, ""))
        proved = [call for call in calls if call.endswith(": prove")]
        self.assertEqual(proved, ["states: prove", "edits: prove", "reqlock: prove"])
        self.assertIn(f"  {'lists':15} was proved before\n", output)

    def test_what_is_being_proved_is_told(self):
        with self.waiting_demo() as process:
            told = []
            for line in process.stdout:
                told.append(line)
                if line == f"  {'states':15} ..\n":
                    (self.folder / "wait").unlink()
        self.assertEqual(process.returncode, 0)
        self.assertIn(f"  {'states':15} ..\n", told)

    def test_what_is_left_is_told_by_size(self):
        # a minute for each byte of b, c and d: c and then d take longer than half of all
        script = """
            RT_JOBS=$1 proved_size=10 proved_seconds=$2
            order=(a b c d) below=([a]= [b]=a [c]=a [d]="b c") size=([a]=10 [b]=10 [c]=30 [d]=10) functions=([a]=1)
            left
        """
        for jobs, seconds, told in ("2", "600", "; some 40 min are left\n"), ("1", "600", "; some 50 min are left\n"), ("1", "119", ""):
            words = ["bash", "-euc", f". {TOP}/tools/proof_progress.bash\n{script}", "bash", jobs, seconds]
            done = subprocess.run(words, capture_output=True, encoding="utf-8", check=True)
            self.assertEqual(done.stdout, told)

    def test_a_proof_ends_with_the_demo(self):
        with self.waiting_demo() as process:
            for line in process.stdout:
                if line == f"  {'states':15} ..\n":
                    process.terminate()
        (self.folder / "wait").unlink()
        self.assertEqual(process.returncode, -15)
        self.assertNotIn("edits: prove", self.calls.read_text())

    def check_session(self, output, called, place):
        """The session is shown: each line begins so, and names the example's files behind this."""
        example = f"{place}examples/web"
        self.assertIn(f"{called} --index {example}/index.json --env {example}/environment.json init\n", output)
        self.assertIn("$ reqlock --dir crates/reqlock/out/demo --index examples/web/index.json add 'werkzeug<2'\n", output)
        self.assertIn(f"{called} --index {example}/index.json why --explain werkzeug<2\n", output)
        self.assertIn(f"{called} log\n", output)
        files = f"--env linux={example}/environment.json --env windows={example}/windows.json"
        self.assertIn(f"{called} --index {example}/index.json {files} init\n", output)
        self.assertEqual(output.count("    requests  # the client\n"), 2)
        copied = (self.copy / "crates" / "reqlock" / "out" / "demo" / "requirements.txt").read_text(encoding="utf-8")
        self.assertEqual(copied, (TOP / "examples" / "web" / "requirements.txt").read_text(encoding="utf-8"))

    def test_a_build_that_fails_shows_the_end_of_its_log(self):
        self.give_rt()
        for step, told in ("search prove", "the proof of search failed"), ("reqlock run", "the build failed"):
            (self.folder / "fail").write_text(step)
            status, output, errors, calls = self.demo("--proved")
            self.assertEqual(status, 1)
            self.assertIn(step.replace(" ", ": "), calls)
            self.assertIn("src/lib.rt:1:1: error: it is not proved\n", errors)
            self.assertIn(f"demo: {told}; the whole log is {self.copy}/crates/reqlock/out/demo.log\n", errors)
            self.assertNotIn("built:", output)

    def test_a_call_that_is_no_answer_ends_the_session(self):
        for status in 1, 2, 3, 4, 5, 101:
            self.build(f"echo replied\nexit {status}")
            with self.subTest(status=status):
                is_refusal = status in (1, 3)
                exit_status, output, errors, _ = self.demo()
                self.assertEqual((exit_status, output.count("replied")), (0, 12) if is_refusal else (1, 1))
                self.assertEqual(errors, "" if is_refusal else f"demo: reqlock ended with status {status}\n")

    def test_a_try_that_is_no_answer_is_told(self):
        self.give_rt()
        for status in 1, 3, 4, 101:
            (self.folder / "status").write_text(str(status))
            exit_status, _, errors, _ = self.demo()
            self.assertEqual((exit_status, errors), (0, "") if status in (1, 3) else (1, f"demo: reqlock ended with status {status}\n"))
        for step in "reqlock try", "reqlock answer":
            (self.folder / "fail").write_text(step)
            status, _, errors, calls = self.demo()
            self.assertEqual((status, calls), (1, ["reqlock: try"]))
            self.assertIn(f"demo: rt try failed; the whole log is {self.copy}/crates/reqlock/out/demo.log\n", errors)

    def test_a_missing_rt_is_told(self):
        for words in (), ("--proved",):
            status, output, errors, _ = self.demo(*words)
            self.assertEqual((status, errors.count("\n")), (1, 1))
            self.assertIn("rt, the command of the Rattle toolchain, is not on the PATH", errors)
            self.assertNotIn("$ reqlock", output)

    def test_tells_where_quick_went(self):
        self.give_rt()
        told = "demo: --quick is gone: ./demo alone is the quick one, and ./demo --proved proves first\n"
        self.assertEqual(self.demo("--quick"), (2, "", told, []))

    def test_no_link_is_followed(self):
        self.give_rt()
        outside = self.folder / "outside"
        outside.mkdir()
        out = Path("crates", "reqlock", "out")
        for place in out / "demo", out / "demo.log", out / "demo.cases", out / "demo.cases" / "00", out / "demo" / "requirements.txt", out / "demo" / "pylock.toml":
            (self.copy / place).parent.mkdir(parents=True, exist_ok=True)
            (self.copy / place).symlink_to(outside / place.name)
            for words in (), ("--proved",):
                status, _, errors, calls = self.demo(*words)
                self.assertEqual((status, calls), (1, []))
                self.assertTrue(errors.endswith(f"{place}: a link stands there; remove it first\n"), errors)
            (self.copy / place).unlink()
        self.assertEqual(list(outside.iterdir()), [])

    def test_another_tree_of_the_path_is_not_taken(self):
        self.give_rt()
        other = self.folder / "other" / "copy"
        other.mkdir(parents=True)
        done = subprocess.run(
            ["bash", "copy/demo"], env={**self.variables(), "CDPATH": str(other.parent)}, capture_output=True,
            encoding="utf-8", check=False, cwd=self.folder,
        )
        self.assertEqual((done.returncode, done.stderr), (0, ""))
        self.assertTrue(done.stdout.startswith("The same sources"))

    def test_other_words_are_refused(self):
        self.assertEqual(self.demo("--fast")[:3], (2, "", "usage: ./demo [--proved]\n"))


if __name__ == "__main__":
    unittest.main()
