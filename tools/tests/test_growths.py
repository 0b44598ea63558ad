"""Tests of tools/growths.py and tools/refuse_growth.c, by a small C program that grows its memory in each way."""

import subprocess
import sys
import unittest
import unittest.mock

from support.places import TOOLS, new_folder

import growths  # (it stands in tools/)

# It tells each call that gives nothing, and ends with the count of these as its status.
PROGRAM = r"""
#include <stdio.h>
#include <stdlib.h>
#include <string.h>
#include <unistd.h>
#define SAY(text) write(1, text, strlen(text))

static int refused = 0;
static void *told(void *block, const char *call) {
    if (block == NULL) {
        refused++;
        SAY(call);
    }
    return block;
}

int main(int count, char **words) {
    int file = count > 1 ? creat(words[1], 0666) : -1;
    void *volatile one = told(malloc(100), "malloc\n");
    SAY("begin\n");
    void *volatile two = told(calloc(10, 20), "calloc\n");
    void *volatile kept = two;
    two = told(realloc(two, 9000), "realloc\n");
    if (two == NULL)
        two = kept;
    if (two != NULL)
        two = realloc(two, 10);
    void *volatile three = told(aligned_alloc(64, 128), "aligned\n");
    void *four = NULL;
    if (posix_memalign(&four, 64, 128) != 0)
        told(NULL, "posix\n");
    if (getenv("REFUSE_GROWTH") || getenv("LD_PRELOAD"))
        SAY("seen\n");
    if (file >= 0 && write(file, "x", refused) < 0)
        return 9;
    free(one); free(two); free(three); free(four);
    return refused;
}
"""


def compile_program(folder):
    source = folder / "program.c"
    source.write_text("#include <fcntl.h>\n" + PROGRAM, encoding="utf-8")
    subprocess.run([*growths.compiler(), "-O0", "-w", "-fno-builtin", "-o", folder / "program", source], check=True)
    return folder / "program"


@unittest.skipUnless(sys.platform == "linux" and growths.compiler(), "there is no C compiler, or no glibc")
class Growths(unittest.TestCase):
    @classmethod
    def setUpClass(cls):
        cls.folder = new_folder(cls.addClassCleanup)
        cls.library = growths.compiled(cls.folder)
        cls.program = compile_program(cls.folder)

    def test_refuses_each_growth_once(self):
        runs = list(growths.runs([self.program], self.library))
        self.assertEqual([run.refused for run in runs], [
            "malloc 100", "calloc 200", "realloc 9000", "memalign 128", "memalign 128", None,
        ])
        outputs = [b"malloc\nbegin\n", *(b"begin\n" + word for word in (b"calloc\n", b"realloc\n", b"aligned\n", b"posix\n"))]
        self.assertEqual([run.output for run in runs], [*outputs, b"begin\n"])
        self.assertEqual([run.status for run in runs], [1, 1, 1, 1, 1, 0])
        self.assertEqual([run.growths for run in runs], [5] * 6)

    def test_counts_behind_the_mark(self):
        runs = list(growths.runs([self.program], self.library, mark="begin\n"))
        self.assertEqual([run.refused for run in runs][:2], ["calloc 200", "realloc 9000"])
        self.assertEqual(len(runs), 5)
        [only] = growths.runs([self.program], self.library, mark="never")
        self.assertEqual((only.refused, only.output), (None, b"begin\n"))

    def test_stops_counting_at_the_end(self):
        runs = list(growths.runs([self.program], self.library, mark="begin\n", end="calloc\n"))
        self.assertEqual([run.growths for run in runs], [1, 4, 4, 4, 4])

    def test_runs_in_a_copy_of_the_folder(self):
        folder = self.folder / "files"
        folder.mkdir()
        (folder / "here").write_bytes(b"1")
        run = growths.run_once([self.program, "made"], self.library, 2, folder=folder)
        self.assertEqual(run.files, {"here": b"1", "made": b"x"})
        self.assertEqual([path.name for path in folder.iterdir()], ["here"])

    def test_gives_the_input_and_ends_what_does_not_end(self):
        run = growths.run_once(["cat"], self.library, 1_000_000, data=b"text")
        self.assertEqual((run.status, run.output, run.refused), (0, b"text", None))
        run = growths.run_once(["sleep", "60"], self.library, 1_000_000, seconds=0.5)
        self.assertEqual(run.status, None)

    def test_shows_the_runs(self):
        command = [sys.executable, "-B", TOOLS / "growths.py", "--mark", "begin\n", self.program]
        done = subprocess.run(command, capture_output=True, encoding="utf-8", check=False)
        self.assertEqual((done.returncode, done.stderr), (0, ""))
        self.assertEqual(done.stdout.splitlines(), [
            "1: status 1  calloc",
            "2: status 1  realloc",
            "3: status 1  aligned",
            "4: status 1  posix",
            "none refused: status 0  begin",
            "4 growths refused, one in each run",
        ])

    def test_tells_runs_that_show_the_same_together(self):
        def run(number, refused, status):
            return growths.Run(number, refused, None, status, b"a\nb\n", b"", {})

        runs = [run(1, "malloc 1", 5), run(2, "malloc 2", 5), run(3, "malloc 1", 0), run(4, None, 0)]
        lines = []
        with unittest.mock.patch("builtins.print", lambda line, **_: lines.append(line)):
            self.assertTrue(growths.show(runs))
        self.assertEqual(lines, [
            "1-2: status 5  b", "3: status 0  b", "none refused: status 0  b", "3 growths refused, one in each run",
        ])


class Request(unittest.TestCase):
    def test_wants_a_command_that_runs(self):
        for words in [], ["--"], ["./absent"], ["--input", "absent", "true"]:
            command = [sys.executable, "-B", TOOLS / "growths.py", *words]
            done = subprocess.run(command, capture_output=True, check=False)
            self.assertEqual((done.returncode, done.stdout), (2, b""))


if __name__ == "__main__":
    unittest.main()
