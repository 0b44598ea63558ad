"""Tests of what becomes of the words of a call: a request that nothing changes, and not what argparse makes of them."""

import ast
import unittest

from support.places import TOOLS

NAMESPACE = "argparse.Namespace"
PARSING = "parse_args", "parse_known_args", "parse_intermixed_args"


def is_frozen(node):
    if not isinstance(node, ast.ClassDef):
        return False
    made_so = {ast.unparse(node) for node in [*node.decorator_list, *node.bases]}
    return not made_so.isdisjoint(("dataclass(frozen=True)", "NamedTuple"))


def requests_in(tree):
    """The names of frozen dataclasses and of named tuples, and those of unions of these."""
    names = {node.name for node in tree.body if is_frozen(node)}
    unions = [node for node in tree.body if isinstance(node, ast.Assign) and isinstance(node.value, ast.BinOp)]
    return names | {ast.unparse(node.targets[0]) for node in unions if names.issuperset(ast.unparse(node.value).split(" | "))}


def functions_in(tree):
    return [node for node in ast.walk(tree) if isinstance(node, ast.FunctionDef)]


def has_words(function):
    """Whether words stand in the parameters or the result of a function as argparse has them."""
    return NAMESPACE in ast.unparse(function.args) or function.returns is not None and NAMESPACE in ast.unparse(function.returns)


def parsed_in(function):
    """The names that are given what argparse read."""
    for node in ast.walk(function):
        if isinstance(node, ast.Assign) and isinstance(node.value, ast.Call) and getattr(node.value.func, "attr", "") in PARSING:
            yield next(node.id for node in ast.walk(node.targets[0]) if isinstance(node, ast.Name))


def handed_on(function, readers):
    """The lines of a function where words go elsewhere than to one of the readers, or one of a table of these."""
    names, allowed = {*parsed_in(function)}, set()
    for node in ast.walk(function) if names else ():
        if isinstance(node, ast.Attribute):
            allowed.add(id(node.value))
        elif isinstance(node, ast.Call) and (ast.unparse(node.func) in readers or isinstance(node.func, ast.Call)):
            allowed |= set(map(id, node.args))
    uses = [node for node in ast.walk(function) if isinstance(node, ast.Name) and isinstance(node.ctx, ast.Load) and node.id in names]
    return [node.lineno for node in uses if id(node) not in allowed]


class Requests(unittest.TestCase):
    @classmethod
    def setUpClass(cls):
        paths = sorted([*TOOLS.glob("*.py"), *(TOOLS / "reqlock_tools").rglob("*.py")])
        cls.trees = {str(path.relative_to(TOOLS)): ast.parse(path.read_text(encoding="utf-8")) for path in paths}
        cls.parsing = {path for path, tree in cls.trees.items() if any(any(parsed_in(function)) for function in functions_in(tree))}

    def test_are_made_where_words_are_read(self):
        """A function that takes words as argparse has them makes a request of them, in the module that reads them."""
        requests = set().union(*map(requests_in, self.trees.values()))
        readers = [(path, function) for path, tree in self.trees.items() for function in functions_in(tree) if has_words(function)]
        faults = [
            f"{path}: {reader.name}" for path, reader in readers
            if path not in self.parsing or ast.unparse(reader.returns) not in requests
        ]
        self.assertEqual(faults, [])

    def test_are_what_is_handed_on(self):
        """Beside that, what is handed on of words is a single one."""
        faults = []
        for path in sorted(self.parsing):
            functions = functions_in(self.trees[path])
            readers = {"getattr", *(function.name for function in functions if has_words(function))}
            faults += [f"{path}:{line}" for function in functions for line in handed_on(function, readers)]
        self.assertEqual(faults, [])
        self.assertGreater(len(self.parsing), 10)


if __name__ == "__main__":
    unittest.main()
