"""What an installed package runs: an entry for each program, and the files that its report needs."""

import importlib
import tomllib
import unittest

from support import TOOLS

from sundial_tools import __version__, entries

PROJECT = tomllib.loads((TOOLS / "pyproject.toml").read_text())


class Package(unittest.TestCase):
    def test_each_program_has_an_entry(self):
        scripts = PROJECT["project"]["scripts"]
        programs = {path.name for path in TOOLS.glob("sundial-*") if path.is_file()}
        self.assertLessEqual(programs, set(scripts))
        for name, entry in scripts.items():
            module, _, function = entry.partition(":")
            self.assertTrue(callable(getattr(importlib.import_module(module), function)), name)

    def test_a_program_and_its_entry_run_the_same(self):
        """Each program of the checkout names the package that its entry loads."""
        said = (TOOLS / "sundial_tools" / "entries.py").read_text()
        for path in TOOLS.glob("sundial-*"):
            package = path.read_text().partition("from sundial_tools.")[2].partition("from sundial_tools.")[2].split(".")[0]
            self.assertIn(f'_run("{path.name}", "{package}")', said)
            self.assertTrue(callable(importlib.import_module(f"sundial_tools.{package}.main").main))

    def test_files_of_the_report_are_of_the_package(self):
        for package, names in PROJECT["tool"]["setuptools"]["package-data"].items():
            folder = TOOLS / package.replace(".", "/")
            others = {path.name for path in folder.iterdir() if path.is_file() and path.suffix != ".py"}
            self.assertEqual(others, set(names))

    def test_a_version(self):
        self.assertRegex(__version__, r"^[0-9]+(\.[0-9]+)*$")
        self.assertTrue(callable(entries.report))


if __name__ == "__main__":
    unittest.main()
