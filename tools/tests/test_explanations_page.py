"""What docs/EXPLANATIONS.md shows of reqlock is what the program prints of its problems (made/refused.py). docs/OTHER_TOOLS.md has the same
problems; what other tools print of them isn't asked here, but by bench/explanations.py. It needs the program, which ./check builds first."""

import json
import unittest

from support.made.environments import LINUX
from support.made.refused import PROBLEMS
from support.places import TOP
from support.program import Program
from support.shown import indented_blocks

PAGE, OTHERS = ((TOP / "docs" / name).read_text(encoding="utf-8") for name in ("EXPLANATIONS.md", "OTHER_TOOLS.md"))
# the Python that the others ran on
PYTHON = {"python_full_version": "3.11.7", "python_version": "3.11", "implementation_version": "3.11.7"}


class Page(Program):
    environments = {"": LINUX | PYTHON}

    def test_has_each_problem(self):
        for page in PAGE, OTHERS:
            self.assertEqual([part.partition("\n")[0] for part in page.split("\n## ")[1:]], list(PROBLEMS))

    def test_each_answer_is_what_the_program_prints(self):
        for part in PAGE.split("\n## ")[1:]:
            title = part.partition("\n")[0]
            with self.subTest(title=title):
                lines, make = PROBLEMS[title]
                first, answer = indented_blocks(f"{part}\n")[:2]
                self.assertEqual(first.splitlines(), lines)
                (self.folder / "requirements.txt").write_text(first, encoding="utf-8")
                (self.outside / "index.json").write_text(json.dumps({"snapshot": 1, "packages": make()}), encoding="utf-8")
                self.assertEqual(self.call("why", "--init", "--explain"), (3, answer))


if __name__ == "__main__":
    unittest.main()
