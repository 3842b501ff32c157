"""Topologies are read as `sundial` reads them where it is there: the tools take what `sundial migrate` makes."""

import contextlib
import os
import threading
import unittest
from unittest import mock

from support import DATA, PROGRAM, directory, needs_sundial, run, sundial

from sundial_tools.network.main import main
from sundial_tools.topology import parse_topology, read_topology, topology_text

# TOML 1.1 lets a table go over several lines, and a comma follow its last key. TOML 1.0 does not.
MODERN = """version = 1
ppm = 200
grain = 1000
period = 100000000
tick = 90000000
loss = 1
depth = 2
roots = ["r", "b"]
device = [{name = "r"}, {name = "b"}, {name = "x"}]
link = [
  {
    name = "rb",
    ends = ["r", "b"],
    min = 400000,
    max = 1000000,
  },
]
"""


def names(path):
    return run("sundial-topology", main, ["names", path])


class Stub:
    """A program that prints a text and ends with a status, in place of `sundial`."""

    def __init__(self, path, text, status=0):
        (path / "said").write_text(text)
        self.program = path / "sundial"
        self.program.write_text(f"#!/bin/sh\necho \"$@\" >> {path}/words\ncat {path}/said\nexit {status}\n")
        self.program.chmod(0o755)

    @contextlib.contextmanager
    def on_the_path(self):
        path = f"{self.program.parent}{os.pathsep}{os.environ['PATH']}"
        with mock.patch.dict(os.environ, {"PATH": path}):
            del os.environ["SUNDIAL"]
            yield


class OneReader(unittest.TestCase):
    def test_a_table_over_several_lines(self):
        with directory() as path:
            (path / "modern.toml").write_text(MODERN)
            with mock.patch.dict(os.environ, {"SUNDIAL": ""}):
                status, out, err = names(path / "modern.toml")
            self.assertEqual((status, out), (1, ""))
            self.assertIn("no TOML", err)
            self.assertIn("with sundial on the path they take what it reads", err)
            plain = topology_text(read_topology(str(DATA / "triangle.toml")))
            with Stub(path, plain).on_the_path():
                status, out, err = names(path / "modern.toml")
                self.assertEqual((status, err), (0, ""))
                self.assertEqual(read_topology(str(path / "modern.toml")).version, 1)
            self.assertEqual((path / "words").read_text().splitlines()[0], f"migrate {path / 'modern.toml'}")
            self.assertEqual(out, names(DATA / "triangle.toml")[1])

    def test_a_pipe_is_read_once(self):
        with directory() as path:
            os.mkfifo(path / "fifo")
            plain = topology_text(read_topology(str(DATA / "triangle.toml")))
            writer = threading.Thread(target=lambda: (path / "fifo").write_text(MODERN))
            writer.start()
            with Stub(path, plain).on_the_path():
                self.assertEqual(names(path / "fifo")[0], 0)
            writer.join()

    def test_what_sundial_refuses_is_refused_with_its_line(self):
        with directory() as path:
            with Stub(path, "input topology Range ppm\n", 3).on_the_path():
                status, out, err = names(DATA / "triangle.toml")
            self.assertEqual((status, out), (1, ""))
            self.assertIn("triangle.toml: sundial refuses it: input topology Range ppm", err)

    def test_a_program_that_fails_or_is_not_there(self):
        with directory() as path:
            with Stub(path, "", 6).on_the_path():
                self.assertIn("migrate ended with status 6", names(DATA / "triangle.toml")[2])
            with mock.patch.dict(os.environ, {"SUNDIAL": str(path / "none")}):
                self.assertIn("did not run", names(DATA / "triangle.toml")[2])

    def test_marks_and_surrogates_are_refused(self):
        text = (DATA / "triangle.toml").read_text()
        with directory() as path:
            for name, content in ("bom", "\ufeff" + text), ("surrogate", text.replace('"rb"', '"\\ud800"')):
                (path / name).write_text(content, encoding="utf-8")
                status, _, err = names(path / name)
                self.assertEqual((status, len(err.splitlines())), (1, 1), err)


@needs_sundial
class Program(unittest.TestCase):
    def test_the_program_reads_what_the_page_says(self):
        with directory() as path, mock.patch.dict(os.environ, {"SUNDIAL": str(PROGRAM)}):
            (path / "modern.toml").write_text(MODERN)
            self.assertEqual(names(path / "modern.toml")[0], 0)
            self.assertEqual(parse_topology(topology_text(read_topology(str(path / "modern.toml")))).links[0].name, "rb")
            (path / "marked.toml").write_bytes(b"\xef\xbb\xbf" + (DATA / "triangle.toml").read_bytes())
            self.assertEqual(names(path / "marked.toml")[0], 0)
            deep = (DATA / "triangle.toml").read_text() + "\n[more]\nkey = "
            for depth, status in (80, 0), (81, 1):
                (path / "deep.toml").write_text(deep + "[" * depth + "]" * depth + "\n")
                self.assertEqual(names(path / "deep.toml")[0], status, depth)


    def test_a_plan_is_nested_so_deep(self):
        plan = (DATA / "triangle-1.json").read_text().rstrip()
        self.assertTrue(plan.endswith("}"))
        with directory() as path:
            # (the object of the plan is one level)
            for depth, is_read in (126, True), (127, False):
                (path / "deep.json").write_text(f'{plan[:-1]},"more":{"[" * depth}{"]" * depth}}}\n')
                said = sundial("check", DATA / "triangle.toml", path / "deep.json")[1]
                self.assertEqual(said.startswith("accepted "), is_read, (depth, said))
            for name, text in ("bom", "\ufeff" + plan), ("surrogate", plan[:-1] + ',"more":"\\ud800"}'):
                (path / name).write_text(text + "\n", encoding="utf-8")
                self.assertEqual(sundial("check", DATA / "triangle.toml", path / name)[1], "input plan 1 NotJson\n", name)


if __name__ == "__main__":
    unittest.main()
