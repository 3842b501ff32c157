"""sundial-watch report: the lines of a window are those that were told while the fabric ran."""

import os
import random
import unittest
from unittest import mock

from support import directory, run

from test_cut import plain
from test_watch import PROGRAM, Fabric, Played, line_of, planner
from worlds import PERIOD, World

from sundial_tools.watch import watcher
from sundial_tools.watch.main import main
from sundial_tools.watch.report import moment
from sundial_tools.watch.window import Kept, Window

SECOND = 10**12


class Windows(unittest.TestCase):
    def setUp(self):
        self.path = self.enterContext(directory())
        self.enterContext(mock.patch.object(watcher, "Replaying", Played))

    def watched(self, number, **more):
        fabric = Fabric(self.path, World(number, rounds=24, mute=0, **more))
        fabric.write(fabric.lines)
        fabric.once(every=60, keep=100)
        return fabric

    def shifted(self, window):
        """The lines of the replay of a window, with the numbers of the whole, without those of its opening and of its end."""
        row, made = window.row, self.fabric.made
        lines = plain(made.topology, made.plans[window.epoch - 1:], (self.path / "window.txt").read_text().splitlines())
        self.assertTrue(lines[-1].startswith("done "), lines[-1])
        for line in lines[:-1]:
            words = line.split()
            number = int(words[1]) - row.opening
            if 1 <= number <= row.lines:
                yield " ".join([words[0], str(row.first_line + number - 1), *words[2:]])

    def test_the_lines_of_a_window_are_those_that_were_told(self):
        draw, ways = random.Random(2), set()
        for number, late in (0, None), (1, None), (12, 16 * PERIOD), (9, None):
            self.fabric = self.watched(number, late=late)
            rows = self.fabric.rows()
            self.assertGreater(len(list(self.fabric.state.glob("part-*.start"))), 1)
            for _ in range(8):
                since = draw.choice((None, draw.randint(0, 20 * PERIOD)))
                until = draw.choice((None, (since or 0) + draw.randint(0, 12 * PERIOD)))
                window = Window(Kept(str(self.fabric.state)), self.fabric.made.topology, self.fabric.made.plans, since, until, str(self.path / "window.txt"))
                lines = list(self.shifted(window))
                ways.add(window.row.way)
                self.assertLessEqual(window.first_ref, max(since or 0, self.fabric.made.events[0].ref))
                last = window.row.first_line + window.row.lines
                told = [line_of(row) for row in rows if row["kind"] != "broken" and window.row.first_line <= row["line"] < last]
                self.assertEqual([line for line in lines if not line.startswith("broken ")], told)
                named = {row["premise"] for row in rows if row["kind"] == "broken" and window.row.first_line <= row["line"] < last}
                self.assertLessEqual(named, {line.split()[2] for line in lines if line.startswith("broken ")})
            self.fabric.state.rename(self.path / f"state-{number}")
            for log in self.fabric.logs:
                os.unlink(log)
        self.assertEqual(ways, {"whole", "marks"})
        self.assertEqual([name for name in os.listdir(self.path) if name.endswith(".body")], [])

    def test_a_window_ends_with_its_last_event(self):
        self.fabric = self.watched(2)
        row = next(row for row in self.fabric.rows() if row["kind"] == "report")
        kept, made = Kept(str(self.fabric.state)), self.fabric.made
        window = Window(kept, made.topology, made.plans, None, row["ref"], str(self.path / "window.txt"))
        self.assertEqual((window.last_ref, list(self.shifted(window))[-1]), (row["ref"], line_of(row)))

    def test_a_page_and_words(self):
        fabric = self.watched(12, late=16 * PERIOD, planner=planner(self.path))
        broken = next(row for row in fabric.rows() if row["kind"] == "broken")
        folder = self.path / "incident"
        words = ["report", fabric.state, "--from", f"{broken['ref'] - 2 * PERIOD}ps", "--to", f"{broken['ref'] + PERIOD}ps", "-o", folder]
        with mock.patch.dict(os.environ, {"SUNDIAL": str(PROGRAM)}):
            status, out, _ = run("sundial-watch", main, words)
            self.assertEqual(status, 7, out)
            self.assertIn(f"broken {self.number_in(out, broken['line'])} delay\n    The network did not keep what it promised: `delay`.", out)
            self.assertIn("    Change: look at queues on the link", out)
            self.assertNotIn("report ", out.split("\n", 2)[2].split("\n    ")[0])
            self.assertEqual((folder / "why.txt").read_text(), out)
            self.assertIn("<h1>", (folder / "page.html").read_text())
            files = {"topology.toml", *(plan.name for plan in fabric.plans), "schedule.txt", "lines.txt", "page.html", "why.txt"}
            self.assertEqual(set(os.listdir(folder)), files)
            with_reports = run("sundial-watch", main, [*words, "--reports"])[1]
            self.assertGreater(with_reports.count("\nreport "), 0)
            quiet = [*words[:2], "--to", f"{3 * PERIOD}ps", "-o", folder]
            status, out, _ = run("sundial-watch", main, quiet)
            self.assertEqual((status, out.splitlines()[-1]), (0, "No premise broke, no alarm came, and no line was passed over."))
            self.assertIn("\nLine N of schedule.txt is line N + 0 of the whole.\n", out)

    @staticmethod
    def number_in(out, line):
        """The number in the window of a line of the whole."""
        _, sign, number = out.splitlines()[1].removesuffix(" of the whole.").rsplit(" ", 2)
        return line - int(sign + number)

    def test_what_is_refused(self):
        with mock.patch.dict(os.environ, {"SUNDIAL": str(PROGRAM)}):
            self.assertIn("this is no state of sundial-watch", run("sundial-watch", main, ["report", self.path, "-o", self.path / "out"])[2])
        self.assertIn("needs sundial on the path", run("sundial-watch", main, ["report", self.path, "-o", self.path / "out"])[2])

    def test_moments(self):
        self.assertEqual(moment("12.5s")(77), 12_500_000_000_000)
        self.assertEqual(moment("1970-01-01T00:00:03.5Z")(2 * SECOND), 1_500_000_000_000)
        self.assertEqual(moment("1970-01-01T02:00:00+02:00")(0), 0)
        for wrong in "12", "yesterday", "":
            with self.assertRaisesRegex(Exception, "neither a time"):
                moment(wrong)


class Further(unittest.TestCase):
    def test_a_plan_that_is_added_after_a_cut(self):
        with directory() as path, mock.patch.object(watcher, "Replaying", Played):
            fabric = Fabric(path, World(7, rounds=24))
            stage = next(at for at, (_, text) in enumerate(fabric.lines) if '"stage"' in text)
            fabric.write(fabric.lines[:stage])
            plans, made = fabric.options().plans, fabric.made
            both, made.plans = made.plans, made.plans[:1]
            fabric.once(every=20, keep=100, plans=plans[:1], last=False)
            self.assertGreater(len(list(fabric.state.glob("part-*.start"))), 0)
            fabric.write(fabric.lines[stage:])
            made.plans = both
            fabric.once(every=20, keep=100)
            self.assertEqual([row for row in fabric.rows() if row["kind"] == "passed over"], [])
            self.assertEqual(list(map(line_of, fabric.rows())), fabric.whole()[1])


if __name__ == "__main__":
    unittest.main()
