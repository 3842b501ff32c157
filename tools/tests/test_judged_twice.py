"""Histories and plans that two programs judge: `sundial`, and what was written from the definitions alone."""

import pathlib
import re
import subprocess
import tomllib
import unittest

from histories import given_of, judged, proved
from support import PROGRAM, TOOLS, directory, needs_sundial

READINGS, PACKAGE = TOOLS / "tests/readings", TOOLS / "sundial_tools"
# The files of route 2 whose definitions are read, too: what `check` shows of a breach.
SHOWN = ("Verdicts", "ShownChains", "ShownCycles")


class Twice(unittest.TestCase):
    @needs_sundial
    def test_each_line_is_that_of_the_program(self):
        with directory() as path:
            for given in given_of(range(32), PROGRAM, path):
                with self.subTest(given.lines[-1:]):
                    self.assertEqual(judged(given), proved(PROGRAM, given, path))


class Readings(unittest.TestCase):
    """The tables of tools/tests/misread, beside the definitions that docs/PROMISE.md lists."""

    def setUp(self):
        said = tomllib.loads((READINGS / "places.toml").read_text())
        self.places, self.unread = said["read"], " ".join(said["unread"].values()).split()
        self.read = " ".join(self.places.values()).split()
        self.edits = [(name, *row) for name, rows in tomllib.loads((READINGS / "edits.toml").read_text()).items() for row in rows]

    def defined(self, route):
        """The definitions of a route, each with the name of its file before it."""
        listed = subprocess.run([TOOLS.parent / ".ci/promise", "--route", route], stdout=subprocess.PIPE, text=True, check=True).stdout
        return [f"{pathlib.PurePath(file).stem}.{name}" for file, name in (line.split() for line in listed.splitlines())]

    def test_each_definition_of_the_route_is_in_the_table_once(self):
        first, second = (self.defined(route) for route in "12")
        names = first + [name for name in second if name.partition(".")[0] in SHOWN]
        self.assertEqual(len(names), len(set(names)))
        self.assertEqual(sorted([*dict.fromkeys(self.read), *self.unread]), sorted(names))

    def test_each_place_is_there(self):
        for place in self.places:
            file, name = place.split()
            self.assertRegex((PACKAGE / file).read_text(), re.compile(rf"(def|class) {name}\b|^{name}:", re.MULTILINE), place)

    def test_each_definition_that_is_read_has_a_change_and_each_change_is_one(self):
        self.assertEqual({word for edit in self.edits for word in edit[1].split()}, set(self.read))
        for name, of, old, new in self.edits:
            self.assertEqual((PACKAGE / name).read_text().count(old), 1, (name, of, old))
            self.assertNotEqual(old, new)


if __name__ == "__main__":
    unittest.main()
