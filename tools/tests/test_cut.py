"""sundial-cut: the lines of the parts are those of the whole."""

import os
import unittest
from unittest import mock

from support import DATA, PROGRAM, SEARCH, TOOLS, directory, needs_sundial, run, sundial

from test_follow import Fed
from worlds import KINDS, PERIOD, World, planned_by

from sundial_tools.cut import cutter
from sundial_tools.cut.joined import joined
from sundial_tools.cut.main import Cutting, Wish, main
from sundial_tools.cut.parts import plans_of
from sundial_tools.plain.lines import Replay

# (that are looked for, and not read)
FILES = [DATA / "triangle.toml", DATA / "triangle-1.json", DATA / "triangle-2.json"]


def plain(topology, plans, lines):
    return list(Replay(topology, plans).lines(line.encode() for line in lines))


class Cut(unittest.TestCase):
    def parts(self, made, wish):
        """Each part with the lines of its replay."""
        with directory() as path:
            rows = []
            cutting = Cutting(made.topology, made.plans, wish, str(path), rows.append)
            cutting.run(iter(made.lines), "schedule")
            return [
                (row, plain(made.topology, plans_of(made.plans, row.first_plan, row.copies), (path / row.file).read_text().splitlines()))
                for row in rows
            ]

    def test_the_lines_of_the_parts_are_those_of_the_whole(self):
        cuts, ways, words = 0, set(), set()
        for number in range(len(KINDS)):
            made = World(number, rounds=16, late=12 * PERIOD if number % 3 == 0 else None)
            whole = plain(made.topology, made.plans, made.lines)
            self.assertTrue(whole[-1].startswith("done "), whole[-1])
            for wish in (Wish(every=1), Wish(at=(PERIOD * 6, PERIOD * 13)), Wish(every=90, moves=True)):
                with self.subTest(number, wish=wish):
                    parts = self.parts(made, wish)
                    self.assertEqual(joined(parts)[1], whole)
                    self.assertEqual(sum(row.lines for row, _ in parts), len(made.lines))
                    cuts += len(parts) - 1
                    ways |= {row.way for row, _ in parts}
            words |= {line.split()[0] for line in whole}
        self.assertGreater(cuts, 60)
        self.assertEqual(ways, {"whole", "marks", "rounds"})
        self.assertLessEqual({"report", "broken", "done"}, words)

    def test_far_from_a_cut_lines_are_skimmed_and_the_parts_are_the_same(self):
        near = mock.patch.object(Cutting, "_skim", lambda self, number, text: False)
        skimmed, cuts = [0], 0
        skim = Cutting._skim

        def counted(self, number, text):
            done = skim(self, number, text)
            skimmed[0] += done
            return done

        for number, late in (1, None), (3, 28 * PERIOD):
            made = World(number, rounds=30, late=late)
            whole = plain(made.topology, made.plans, made.lines)
            for wish in Wish(every=250), Wish(at=(PERIOD * 14, PERIOD * 24)):
                with mock.patch.object(cutter, "ROUNDS_BEFORE", 4), mock.patch.object(Cutting, "_skim", counted):
                    parts = self.parts(made, wish)
                self.assertEqual(joined(parts)[1], whole)
                if wish.at:
                    # (after so many lines a cut may come some rounds later, where devices tick more often than they have to)
                    with near:
                        self.assertEqual([row for row, _ in self.parts(made, wish)], [row for row, _ in parts])
                cuts += len(parts) - 1
        self.assertGreater(cuts, 3)
        self.assertGreater(skimmed[0], 300)

    def test_late_times_are_moved(self):
        made = World(4, rounds=16)
        late = 2**60 - 100 * PERIOD
        made.events = [
            it._replace(ref=it.ref + late, clock=None if it.clock is None else it.clock + late, counter=None if it.counter is None else it.counter + late)
            for it in made.events
        ]
        whole = plain(made.topology, made.plans, made.lines)
        parts = self.parts(made, Wish(every=60, moves=True))
        self.assertGreater(min(row.moved for row, _ in parts[1:]), 2**58)
        self.assertEqual(joined(parts)[1], whole)

    def test_status(self):
        row = self.parts(World(1, rounds=4), Wish())[0][0]
        for told, status in ((["report 1 r 1 1", "done 9 1"], 0), (["broken 2 tick", "done 9 0"], 7), (["input schedule 3 TimeFalls"], 3)):
            self.assertEqual(joined([(row, told)])[0], status)
        later = row._replace(first_line=101, opening=4)
        lines = joined([(row, ["broken 2 tick"]), (later, ["report 2 r 1 1", "broken 3 drift", "broken 6 loss", "input schedule 9 TimeFalls"]), (later, [])])
        self.assertEqual(lines, (3, ["broken 2 tick", "broken 102 loss", "input schedule 105 TimeFalls"]))


class Networks(unittest.TestCase):
    """Rings, meshes, stars, two tiers and three, with failures at any moment and renewals after them."""

    parts = Cut.parts

    def judge(self, made, wish):
        """The joined lines are those of the whole, and no opening breaks anything that the whole does not."""
        whole = plain(made.topology, made.plans, made.lines)
        self.assertTrue(whole[-1].startswith("done "), whole[-1])
        parts = self.parts(made, wish)
        self.assertEqual(joined(parts)[1], whole)
        broken = {line.split()[2] for line in whole if line.startswith("broken ")}
        opened = [line for row, lines in parts for line in lines if line[0] in "ab" and int(line.split()[1]) <= row.opening]
        self.assertLessEqual(bool(opened), bool(broken), opened)
        return [row for row, _ in parts]

    def test_the_lines_of_the_parts_are_those_of_the_whole(self):
        ways, copies, cuts = set(), 0, 0
        for number, bad in [(number, False) for number in (0, 1, 2, 3, 7, 13)] + [(number, True) for number in (1, 4, 7, 10)]:
            with self.subTest(number, bad=bad):
                rows = self.judge(World(number, rounds=24, bad=bad), Wish(every=1) if number % 2 else Wish(at=range(4 * PERIOD, 24 * PERIOD, 6 * PERIOD)))
                ways |= {row.way for row in rows}
                copies, cuts = copies + sum(row.copies for row in rows), cuts + len(rows) - 1
        self.assertEqual(ways, {"whole", "marks", "rounds"})
        self.assertGreater(copies, 2)
        self.assertGreater(cuts, 50)

    def test_a_cut_just_after_a_failure(self):
        """A failed device that is not started is awaited no longer than a tick, so its failure comes early in the opening."""
        cuts = 0
        for number, late in ((2, 5), (3, 20), (6, 40), (7, 1)):
            for thing in ("device", -1), ("link", -1):
                made = World(number, rounds=8, fails=[(6 * PERIOD - late * 1_000_000, *thing)])
                with self.subTest(number, thing=thing):
                    fail = next(at for at, it in enumerate(made.events, 1) if it.word == "fail")
                    rows = self.judge(made, Wish(at=(made.events[fail - 1].ref,)))
                    cuts += any(fail < row.first_line < fail + 3 * len(made.topology.devices) for row in rows[1:])
        self.assertGreater(cuts, 3)

    def test_failures_at_each_boundary_of_a_renewal(self):
        """Just before, with and just after its stage, its first gift, its commit and its first seal."""
        cuts = 0
        for number, thing in (7, ("device", -1)), (9, ("link", -1)):
            stages = [3 * PERIOD]
            first = {it.word: it.ref for it in reversed(World(number, rounds=8, fails=[], stages=stages).events)}
            for word in "stage", "give", "commit", "seal":
                for late in -1, 0, 1:
                    with self.subTest(number, word=word, late=late):
                        made = World(number, rounds=8, fails=[(first[word] + late, *thing)], stages=stages)
                        self.assertEqual([it.ref for it in made.events if it.word == "fail"], [first[word] + late])
                        cuts += len(self.judge(made, Wish(every=1))) - 1
        self.assertGreater(cuts, 48)

    def test_a_run_of_lost_rounds_is_not_cut(self):
        """A device hears nothing over its backup link for one round more than *loss* allows: there is no cut between these."""
        for number in 3, 6:
            made = World(number, rounds=10, fails=[])
            plan, loss = made.plans[0], made.topology.loss
            row = next(it for it in plan.rows.values() if it.backup and not plan.below(it.device))
            lost = [number for number, it in made.flights.items() if (it.link, it.receiver) == (row.backup.link, row.device)][3:4 + loss]
            made.events = [it for it in made.events if it.message not in lost]
            self.judge(made, Wish(every=1))
            self.assertIn("loss", "".join(plain(made.topology, made.plans, made.lines)))

    def test_drift_over_a_cut(self):
        """An ask that keeps its rate with all readings but one, which is old: it was the slowest so far."""
        for number, device in (14, 2), (26, 1):
            made = World(number, rounds=12, fails=[])
            rates = made.topology.devices[device]
            readings = [(at, it) for at, it in enumerate(made.events) if it.device == device and it.counter is not None]
            fast = [(1_000_000 - rates.ppm) * it.counter - 1_000_000 * it.ref for _, it in readings]
            ticks = [place for place in range(20, len(fast)) if readings[place][1].word == "tick"]
            place = max(ticks, key=lambda place: min(fast[place - 8:place]) - min(fast[:place - 8]))
            (at, late), least = readings[place], min(fast[:place - 8])
            self.assertLess(least, min(fast[place - 8:place]))
            counter = (least + 1_000_000 * rates.grain + 1_000_000 * late.ref) // (1_000_000 - rates.ppm) + 1
            made.events[at:at + 1] = [late._replace(word="ask", counter=max(counter, late.counter)), late._replace(counter=max(counter, late.counter))]
            self.assertIn(f"broken {at + 1} drift", plain(made.topology, made.plans, made.lines))
            self.judge(made, Wish(every=1))


class Words(unittest.TestCase):
    def test_where_no_cut_is_right_it_says_why(self):
        made = World(7, rounds=16)
        stops = next(place for place, it in enumerate(made.events) if it.word == "stage")
        with directory() as path:
            topology, plans = made.files(path)
            (path / "schedule").write_text("".join(made.lines[stops - 8:stops]))
            status, _, err = run("sundial-cut", main, [topology, *plans, path / "schedule"])
            self.assertEqual(status, 1)
            self.assertIn("schedule:1: no replay of these plans accepts this line", err)
            (path / "schedule").write_text("".join(made.lines))
            status, out, err = run("sundial-cut", main, [topology, *plans, path / "schedule"])
            self.assertEqual((status, out), (0, ""))
            self.assertRegex(err, r"^sundial-cut: \d+ right cuts; what a cut keeps is tested, not proved\n")
            self.assertIn("emissions: a window is open\n", err)

    def test_parts_and_their_table(self):
        made = World(2, rounds=16)
        with directory() as path:
            topology, plans = made.files(path)
            with Fed(TOOLS / "sundial-cut", topology, *plans, "-", "--every", "100", "-o", path / "parts") as tool:
                for line in made.lines:
                    tool.feed(line)
                self.assertEqual(tool.end(), (0, ""))
            rows = [line.split("\t") for line in (path / "parts" / "parts.tsv").read_text().splitlines()]
            self.assertEqual(rows[0][:5], ["file", "first plan", "copies", "opening lines", "first line"])
            self.assertEqual(sorted(it.name for it in (path / "parts").iterdir()), [row[0] for row in rows[1:]] + ["parts.tsv"])
            first = int(rows[2][4])
            self.assertEqual((path / "parts" / rows[1][0]).read_text().splitlines()[:first - 1], [it.strip() for it in made.lines[:first - 1]])

    @needs_sundial
    def test_run_prints_the_lines_of_the_whole(self):
        with directory() as path, mock.patch.dict(os.environ, {"SUNDIAL": str(PROGRAM.resolve())}):
            made = World(3, rounds=60, late=55 * PERIOD, planner=planned_by(PROGRAM, path))
            topology, plans = made.files(path)
            (path / "schedule").write_text("".join(made.lines))
            whole = sundial("replay", topology, *plans, path / "schedule")
            status, out, err = run("sundial-cut", main, [topology, *plans, path / "schedule", "--every", "50", "--run"])
            self.assertEqual((status, out), whole)
            self.assertNotIn("left out", err)

    def test_run_tells_the_lines_of_a_part_before_the_next_ones_are_fed(self):
        made = World(3, rounds=8)
        whole = plain(made.topology, made.plans, made.lines)
        path = self.enterContext(directory())
        topology, plans = made.files(path)
        words = [topology, *plans, "-", "--every", "50", "--run", "--follow"]
        with mock.patch.dict(os.environ, {"SUNDIAL": str(TOOLS / "tests" / "plain_sundial.py")}), Fed(TOOLS / "sundial-cut", *words) as tool:
            for line in made.lines[:-30]:
                tool.feed(line)
            first = tool.line()
            for line in made.lines[-30:]:
                tool.feed(line)
            status, rest = tool.end()
        self.assertEqual((status, [first, *rest.splitlines()]), (0, whole))

    @needs_sundial
    @unittest.skipUnless(SEARCH.is_file(), "the program sundialctl is not built (SUNDIALCTL names it)")
    def test_cuts_are_certified(self):
        """All of a fabric that keeps its premises, but with a copy of a plan. Where one broke before the cut, an opening is another history."""
        for number, bad in (2, False), (6, False), (9, False), (7, True), (3, False):
            with directory() as path, mock.patch.dict(os.environ, {"SUNDIALCTL": str(SEARCH.resolve())}):
                made = World(number, rounds=14, bad=bad, planner=planned_by(PROGRAM, path))
                topology, plans = made.files(path)
                (path / "schedule").write_text("".join(made.lines))
                status, out, err = run("sundial-cut", main, [topology, *plans, path / "schedule", "--every", "1" if bad else "40", "--certify"])
            self.assertEqual((status, out), (0, ""), err)
            if bad or number == 3:
                why = "differ broken" if bad else "its opening has a copy of a plan, and resume takes plans of the schedule alone"
                self.assertRegex(err, rf"sundial-cut: the cut before line \d+ is not: {why}\n")
            else:
                self.assertRegex(err, r"sundial-cut: ([1-9]\d*) of \1 cuts are certified\n")

    def test_certify_needs_the_program_and_the_times(self):
        err = run("sundial-cut", main, [*FILES, "schedule", "--certify"])[2]
        self.assertIn("--certify needs sundialctl", err)
        with mock.patch.dict(os.environ, {"SUNDIALCTL": "sundialctl"}):
            err = run("sundial-cut", main, [*FILES, "schedule", "--certify", "--move"])[2]
        self.assertIn("--certify compares times", err)

    def test_run_needs_the_program(self):
        err = run("sundial-cut", main, [*FILES, "schedule", "--run"])[2]
        self.assertIn("--run needs sundial", err)


if __name__ == "__main__":
    unittest.main()
