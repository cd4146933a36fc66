"""How the desk is written: small modules and functions, with type hints, and the standard library alone."""

import ast
import sys
import unittest
from collections.abc import Iterator
from pathlib import Path

from tools.desk import program

MODULES = [*(program.TOP / "tools").rglob("*.py"), *(program.TOP / "examples/study").glob("*.py")]
MOST_LINES = 300
MOST_COLUMNS = 120
MOST_FUNCTION_LINES = 40
MOST_PARAMETERS = 6
OURS = {"tools", "traffic", "draw"}  # traffic is of bench, draw of checks


def parts(tree: ast.Module) -> Iterator[ast.FunctionDef]:
    """All functions of a module."""
    return (it for it in ast.walk(tree) if isinstance(it, ast.FunctionDef))


def imports(tree: ast.Module) -> Iterator[str]:
    """The packages that a module imports."""
    for it in ast.walk(tree):
        if isinstance(it, ast.Import):
            yield from (name.name.partition(".")[0] for name in it.names)
        elif isinstance(it, ast.ImportFrom):
            yield (it.module or "").partition(".")[0]


class House(unittest.TestCase):
    """Each module of the desk and of the study."""

    def test_modules(self) -> None:
        for path in MODULES:
            text = path.read_text()
            tree = ast.parse(text)
            with self.subTest(path.name):
                self.assertLessEqual(text.count("\n"), MOST_LINES)
                self.assertLessEqual(max(map(len, text.splitlines()), default=0), MOST_COLUMNS)
                self.assertTrue(ast.get_docstring(tree))
                self.assertEqual(set(imports(tree)) - sys.stdlib_module_names - OURS, set())

    def test_functions(self) -> None:
        for path in MODULES:
            for function in parts(ast.parse(path.read_text())):
                with self.subTest(path.name, function=function.name):
                    self.assertLessEqual(function.end_lineno - function.lineno + 1, MOST_FUNCTION_LINES)
                    given = [
                        it for it in function.args.args + function.args.kwonlyargs if it.arg not in ("self", "cls")
                    ]
                    self.assertLessEqual(len(given), MOST_PARAMETERS)
                    self.assertTrue(function.returns and all(it.annotation for it in given))

    def test_there_are_modules(self) -> None:
        self.assertIn(Path(__file__), MODULES)


if __name__ == "__main__":
    unittest.main()
