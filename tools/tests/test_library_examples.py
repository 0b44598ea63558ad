"""Tests that the examples at the heads of the libraries are those that the crate conformance runs."""

import re
import textwrap
import unittest

from support.places import TOP

CRATES = TOP / "crates"
CONFORMANCE = CRATES / "conformance"


def head_of(library):
    """The example in the comment at the head of a library; None where it has none."""
    lines = []
    for line in (CRATES / library / "src/lib.rt").read_text(encoding="utf-8").splitlines():
        if not line.startswith("//!"):
            break
        lines.append(line.removeprefix("//!").removeprefix(" "))
    match = re.search(r"^```rust\n(.*?)^```$", "\n".join(lines), re.DOTALL | re.MULTILINE)
    return match and match[1]


def bodies():
    """The body of each example that conformance has, by the library's name."""
    source = (CONFORMANCE / "src/examples.rt").read_text(encoding="utf-8")
    examples = re.findall(r"^fn of_(\w+)\b[^{]*\{\n(.*?)^\}", source, re.DOTALL | re.MULTILINE)
    return {name: textwrap.dedent(body) for name, body in examples if (CRATES / name).is_dir()}


def without_layout(code):
    """Code without white space, and without the commas at the ends of lists, which its layout may ask for."""
    return "".join(code.split()).replace(",}", "}").replace(",)", ")")


class Examples(unittest.TestCase):
    def test_are_those_that_are_run(self):
        ran = bodies()
        self.assertEqual(len(ran), 14)
        for library, body in ran.items():
            self.assertEqual(without_layout(head_of(library)), without_layout(body), library)

    def test_come_out_true(self):
        rows = (CONFORMANCE / "stdin").read_text(encoding="utf-8").splitlines()
        answers = (CONFORMANCE / "stdout").read_text(encoding="utf-8").splitlines()
        answered = {row: answers[place] for place, row in enumerate(rows) if row.startswith("example | ")}
        self.assertEqual(answered, {f"example | {library}": "true" for library in bodies()})


if __name__ == "__main__":
    unittest.main()
