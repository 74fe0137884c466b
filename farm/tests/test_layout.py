"""How the farm's modules are laid out: short files and functions that say what they are for, in words of Python 3.9."""

import ast
import glob
import os
import unittest
from typing import Iterator, Tuple

from tests.world import FARM, PARSING

MODULES = sorted(glob.glob(os.path.join(FARM, "nix_farm", "*.py")))
COMMANDS = [os.path.join(FARM, name) for name in ("build", "gather", "watch", "status")]


def parsed(file: str) -> ast.Module:
    with open(file, encoding="utf-8") as text, PARSING:
        return ast.parse(text.read(), file, feature_version=(3, 9))


def functions(file: str) -> Iterator[Tuple[str, "ast.FunctionDef | ast.AsyncFunctionDef"]]:
    """Each function of a file, with where it stands."""
    for node in ast.walk(parsed(file)):
        if isinstance(node, (ast.FunctionDef, ast.AsyncFunctionDef)):
            yield f"{os.path.basename(file)}:{node.lineno} {node.name}", node


class Layout(unittest.TestCase):
    def test_there_are_modules(self) -> None:
        self.assertTrue(MODULES)

    def test_files_have_fewer_than_400_lines(self) -> None:
        for file in [*MODULES, *COMMANDS]:
            with open(file, encoding="utf-8") as text:
                self.assertLess(len(text.readlines()), 400, file)

    def test_functions_have_fewer_than_40_lines(self) -> None:
        for file in MODULES:
            for place, node in functions(file):
                self.assertLess((node.end_lineno or 0) - node.lineno, 40, place)

    def test_modules_and_classes_say_what_they_are_for(self) -> None:
        for file in MODULES:
            self.assertTrue(ast.get_docstring(parsed(file)), file)
            for node in ast.walk(parsed(file)):
                if isinstance(node, ast.ClassDef):
                    self.assertTrue(ast.get_docstring(node), f"{file} {node.name}")

    def test_functions_have_types(self) -> None:
        for file in MODULES:
            for place, node in functions(file):
                self.assertIsNotNone(node.returns, place)
                given = [*node.args.posonlyargs, *node.args.args, *node.args.kwonlyargs]
                self.assertFalse(
                    [one.arg for one in given if one.annotation is None and one.arg not in ("self", "cls")], place
                )

    def test_nothing_is_global_but_constants(self) -> None:
        for file in MODULES:
            for node in ast.walk(parsed(file)):
                self.assertNotIsInstance(node, ast.Global, file)

    def test_each_module_is_named_in_the_package(self) -> None:
        page = ast.get_docstring(parsed(os.path.join(FARM, "nix_farm", "__init__.py"))) or ""
        for file in MODULES:
            name = os.path.basename(file)[:-3]
            if name != "__init__":
                self.assertRegex(page, rf"(?m)^ +{name} ", name)

    def test_no_awk_and_no_shell_but_the_agent(self) -> None:
        self.assertEqual(glob.glob(os.path.join(FARM, "*.awk")), [])
        for file in COMMANDS:
            with open(file, encoding="utf-8") as text:
                self.assertEqual(text.readline(), "#!/usr/bin/env python3\n")


if __name__ == "__main__":
    unittest.main()
