"""The modules that all tools share."""

import io
import unittest

from support import DATA

from sundial_tools import outputs, plan, safe_write, schedule, topology
from sundial_tools.errors import ToolError, run_tool


class Topologies(unittest.TestCase):
    def test_a_text_of_version_1(self):
        read = topology.read_topology(str(DATA / "triangle.toml"))
        self.assertEqual([device.name for device in read.devices], ["r", "b", "x"])
        self.assertEqual([device.ppm for device in read.devices], [200, 200, 200])
        self.assertEqual(read.links[2].ends, (1, 2))
        self.assertEqual((read.links[0].forth.mid, read.links[0].forth.half), (700000, 300000))
        self.assertEqual(read.roots, (0, 1))

    def test_what_is_written_reads_back(self):
        read = topology.read_topology(str(DATA / "triangle.toml"))
        again = topology.parse_topology(topology.topology_text(read))
        self.assertEqual((again.devices, again.links, again.roots), (read.devices, read.links, read.roots))

    def test_directions_of_version_2(self):
        text = topology.topology_text(topology.read_topology(str(DATA / "triangle.toml")))
        text = text.replace("back_min = 400000\nback_max = 1000000", "back_min = 5\nback_max = 6", 1)
        link = topology.parse_topology(text).links[0]
        self.assertEqual((link.towards(1).min, link.towards(0).min), (400000, 5))

    def test_faults_are_named(self):
        text = (DATA / "triangle.toml").read_text()
        for old, new, reason in (
            ('ends = ["r", "b"]', 'ends = ["r"]', "ends of link rb has not two names"),
            ('ends = ["r", "b"]', 'ends = ["r", "q"]', "there is no such device"),
            ("version = 1", "version = 3", "version of the topology is 3"),
            ("ppm = 200", "", "the topology has no ppm"),
            ('name = "b"', 'name = "r"', "two entries of device have the name r"),
            ('roots = ["r", "b"]', 'roots = ["r"', "no TOML"),
        ):
            with self.subTest(new), self.assertRaisesRegex(ToolError, reason):
                topology.parse_topology(text.replace(old, new))


class Plans(unittest.TestCase):
    def setUp(self):
        self.topology = topology.read_topology(str(DATA / "triangle.toml"))

    def test_rows_and_ends(self):
        read = plan.read_plan(str(DATA / "triangle-1.json"), self.topology)
        self.assertEqual(read.rows[1], plan.Row(1, plan.Hop(0, 0), plan.Hop(2, 2)))
        self.assertEqual(read.below(0), ((0, 1), (1, 2)))
        self.assertEqual(read.below(2), ((2, 1),))
        self.assertEqual(read.members(self.topology), [0, 1, 2])

    def test_faults_are_named(self):
        text = (DATA / "triangle-1.json").read_text()
        for old, new, reason in (
            ('"root":"r"', '"root":"q"', "no such device"),
            ('"version":1', '"version":2', "version is 2"),
            ('"wait":6730000000,', "", "wait of the plan is no whole number"),
            ('"wait":6730000000', '"wait"', "no JSON"),
        ):
            with self.subTest(new), self.assertRaisesRegex(ToolError, reason):
                plan.parse_plan(text.replace(old, new), self.topology)


class Schedules(unittest.TestCase):
    def test_each_word_there_and_back(self):
        lines = (
            "start 0 1 2 3 4", "tick 5 6 7", "recv 8 9 10 11", "lose 12 13", "fail 14 device 15", "fix 16 17 18 19 20",
            "ask 21 22 23", "stage 24", "give 25 26", "commit 27 28 29", "seal 30 31", "join 32 33 34 35 36",
            "mend 37 link 38", "end 39",
        )
        for line in lines:
            self.assertEqual(schedule.event_line(schedule.parse_event(line)), line + "\n")

    def test_faults_are_named_with_their_line(self):
        for line, reason in (
            ("stat 1", "UnknownWord"), ("tick 1 2", "FieldCount"), ("tick 1 2 03", "Number 3"),
            ("fail 1 rack 2", "UnknownWord"), ("tick 1 4294967296 2", "Number 2"),
        ):
            with self.subTest(line), self.assertRaisesRegex(ToolError, f"file:2: {reason}"):
                list(schedule.read_schedule(["end 1\n", line + "\n"], "file"))


class Outputs(unittest.TestCase):
    def test_forms(self):
        for text, kind, fields in (
            ("report 75 b 285 87", "report", {"line": 75, "device": "b", "clock": 285, "eps": 87}),
            ("alarm 3 roots a b", "alarm roots", {"line": 3, "device": "a", "other": "b"}),
            ("done 76 1", "done", {"first": 76, "second": 1}),
            ("bound link rx x 54", "bound", {"domain": {"kind": "link", "name": "rx"}, "device": "x", "eps": 54}),
            ("refused plan 1 loop listed c cycle x y", "refused loop",
             {"plan": 1, "domain": {"kind": "listed", "name": "c"}, "cycle": ["x", "y"]}),
            ("refused plan 2 root link l at device d", "refused root",
             {"plan": 2, "domain": {"kind": "link", "name": "l"}, "at": {"kind": "device", "name": "d"}}),
            ("input schedule 2 Number 3", "input schedule", {"line": 2, "reason": "Number 3"}),
            ("link rb 1 2 3 inside", "link", {"link": "rb", "min": 1, "max": 2, "count": 3, "verdict": "inside"}),
        ):
            self.assertEqual(outputs.parse_line(text), outputs.OutputLine(kind, fields))

    def test_what_is_of_no_form(self):
        for text in ("report 75 b 285", "report 75 b 285 87 ", "alarm 3 fire a", "", "done", "bound rack r x 5"):
            self.assertIsNone(outputs.parse_line(text))

    def test_an_output_that_is_cut_short(self):
        with self.assertRaisesRegex(ToolError, "file:2: the output is cut short"):
            list(outputs.read_output(["done 1 1\n", "don"], "file"))


class Progress(unittest.TestCase):
    def test_progress_shows_on_a_terminal_after_two_seconds(self):
        now = [0.0]
        for terminal, shown in (True, "\r\x1b[Kfile: 8,192 lines\r\x1b[K"), (False, ""):
            stream = io.StringIO()
            stream.isatty = lambda terminal=terminal: terminal
            now[0] = 0.0
            with safe_write.Progress("file", stream=stream, clock=lambda: now[0]) as progress:
                progress.step(4096)
                now[0] = 2.5
                progress.step(4096)
            self.assertEqual(stream.getvalue(), shown)

    def test_a_fault_gives_status_1_and_one_line(self):
        def main(words):
            raise ToolError("no good", "file", 3)

        import contextlib

        err = io.StringIO()
        with contextlib.redirect_stderr(err):
            self.assertEqual(run_tool("tool", main, []), 1)
        self.assertEqual(err.getvalue(), "tool: file:3: no good\n")


if __name__ == "__main__":
    unittest.main()
