"""sundial-record --compact and --feed: with `sundialctl record` and `merge` behind them the schedule is the same, byte by byte.

The program is a stand-in by the model of the tools, and the one that SUNDIALCTL names or that is built.
"""

import contextlib
import json
import os
import subprocess
import sys
import threading
import unittest

from support import DATA, EXAMPLES, LIMIT, PROGRAM, SEARCH, TOOLS, directory, run

import case
import logs_of
from test_follow import Fed
from test_record import PLANS as CASE_PLANS
from test_record import RENEWAL, made_case, record
from worlds import KINDS, NoPlan, World, planned_by

from sundial_tools.plan import read_plan
from sundial_tools.record.main import main
from sundial_tools.schedule import event_line, read_schedule
from sundial_tools.topology import read_topology

STAND_IN = TOOLS / "tests" / "plain_sundialctl.py"
LOGS = EXAMPLES / "logs"
MOST = 2**60


def programs():
    """The stand-in, and the program where it is there. One that does not know the words fails the tests."""
    return [STAND_IN, SEARCH.resolve()] if SEARCH.is_file() else [STAND_IN]


def world(number, path, **more):
    """A history, and the programs that record it: `sundialctl` takes plans that the checker accepts."""
    if PROGRAM.is_file() and SEARCH.is_file():
        with contextlib.suppress(NoPlan):
            return World(number, planner=planned_by(PROGRAM.resolve(), path), **more), programs()
    return World(number, **more), [STAND_IN]


def by_program(program, *words, text):
    """Status and output of the program, which reads the text from its standard input."""
    done = subprocess.run([program, *map(str, words), "/dev/stdin"], input=text, stdout=subprocess.PIPE, text=True, check=False)
    return done.returncode, done.stdout


class Compared(unittest.TestCase):
    def test_a_program_that_is_none_fails(self):
        words = [sys.executable, "-m", "unittest", "test_compact.Recorded.test_the_logs_of_the_page"]
        done = subprocess.run(
            words, cwd=TOOLS / "tests", env={**os.environ, "SUNDIALCTL": "/bin/false"}, stderr=subprocess.PIPE, text=True, check=False, timeout=LIMIT
        )
        self.assertEqual(done.returncode, 1)
        self.assertIn("AssertionError", done.stderr)


class Written(unittest.TestCase):
    """A schedule that is written as the logs of its devices."""

    def written(self, topology_path, plan_paths, text, path, keep=lambda said: True):
        topology = read_topology(str(topology_path))
        plans = [read_plan(str(plan), topology) for plan in plan_paths]
        logs = logs_of.logs_of(topology, plans, read_schedule(text.splitlines(True)))
        return logs_of.write({name: [said for said in lines if keep(said)] for name, lines in logs.items()}, path)


class Recorded(Written):
    """Logs in the compact form, and the schedule that is made of them."""

    def same(self, topology, plans, logs, *more, of=None):
        """Both ways give one schedule, which is answered."""
        status, schedule, err = record(topology, plans, logs, *more)
        self.assertEqual(status, 0, err)
        status, compact, err = record(topology, plans, logs, "--compact", *more)
        self.assertEqual(status, 0, err)
        self.assertIn(f"{len(compact.splitlines())} lines for a schedule of {len(schedule.splitlines())} events, ", err)
        for program in of or programs():
            self.assertEqual(by_program(program, "record", topology, *plans, text=compact), (0, schedule), program)
        return schedule, compact

    def test_the_logs_of_the_page(self):
        files = [LOGS / f"{device}.jsonl" for device in "brx"]
        schedule, compact = self.same(LOGS / "topology.toml", [LOGS / "plan.json"], files, "--counters", "life")
        self.assertEqual(schedule, (LOGS / "schedule.txt").read_text())
        self.assertIn("recv 1000110700000 1 110696000 0 1 0 1\n", compact)
        self.assertNotIn("lose", compact)

    def test_random_histories(self):
        losses = 0
        for number in range(2 * len(KINDS)):
            with self.subTest(number), directory() as path:
                made, of = world(number, path, rounds=14, bad=number >= len(KINDS))
                network, text = made.files(path), "".join(made.lines)
                schedule, compact = self.same(*network, self.written(*network, text, path), of=of)
                self.assertEqual(len(compact.splitlines()), len(text.splitlines()))
                files = self.written(*network, text, path, lambda said: said["event"] != "lose")
                schedule, compact = self.same(*network, files, of=of)
                losses += len(schedule.splitlines()) - len(compact.splitlines())
        self.assertGreater(losses, 10)

    def test_generated_cases(self):
        for number in 1, 5:
            made = made_case(number, lost=(3, 40, 41))
            made.world = [said for said in made.world if said["event"] != "lose"]
            with directory() as path:
                (path / "topology.toml").write_text(case.network_text(3, 3))
                self.same(path / "topology.toml", CASE_PLANS, case.write_logs(made, path))

    def test_the_examples(self):
        found = 0
        for file in sorted(EXAMPLES.glob("*/schedule.txt")):
            plans = sorted(file.parent.glob("plan*.json"), key=lambda path: len(path.name))
            text = file.read_text()
            if plans and file.parent.name != "logs":
                plans = plans * 2 if len(plans) == 1 and "\nstage " in text else plans
                with self.subTest(file.parent.name), directory() as path:
                    self.same(file.parent / "topology.toml", plans, self.written(file.parent / "topology.toml", plans, text, path))
                    found += 1
        self.assertGreater(found, 3)

    def test_a_line_goes_out_before_the_next_is_read(self):
        lines = (LOGS / "r.jsonl").read_text().splitlines(keepends=True)
        words = [LOGS / "topology.toml", "-", "--plan", LOGS / "plan.json", "--counters", "life", "--follow", "--compact"]
        with Fed(TOOLS / "sundial-record", *words) as tool:
            for line in lines:
                tool.feed(line)
                self.assertTrue(tool.line().split(" ")[0] in ("start", "tick"))
            self.assertEqual(tool.end(), (0, "end 1000110000000\n"))

    def test_options_that_do_not_go_together(self):
        for more, reason in (
            (("--compact", "--no-losses"), "--no-losses is for schedules"), (("--feed", "--no-losses"), "--no-losses is for schedules"),
            (("--compact", "--feed"), "name one"), (("--horizon", "1s"), "--horizon needs --feed"),
        ):
            self.assertIn(reason, record(LOGS / "topology.toml", [LOGS / "plan.json"], ["log"], *more)[2])
        self.assertIn("say --plan", run("sundial-record", main, [LOGS / "topology.toml", "log"])[2])


class Merged(Written):
    """The feed of a merge, and what the merge and the recorder make of it."""

    def feed(self, topology, logs, *more):
        status, out, err = run("sundial-record", main, [topology, *logs, "--feed", *more])
        self.assertEqual(status, 0, err)
        return out

    def merged(self, topology, logs, *more):
        """The feed, and what the merge writes of it: its entries by reference, of equal ones the earlier log's first."""
        feed = self.feed(topology, logs, *more)
        entries = [line for line in feed.splitlines() if line.split(" ")[1] != "past"]
        compact = None
        for program in programs():
            status, compact = by_program(program, "merge", len(logs), text=feed)
            self.assertEqual((status, len(compact.splitlines())), (0, len(entries)), program)
            in_order = sorted(entries, key=lambda line: (int(line.split(" ")[2]), int(line.split(" ")[0])))
            self.assertEqual(compact.splitlines(), [line.partition(" ")[2] for line in in_order])
        return feed, compact

    def test_the_logs_of_the_page(self):
        files = [LOGS / f"{device}.jsonl" for device in "rbx"]
        compact = self.merged(LOGS / "topology.toml", files, "--counters", "life")[1]
        for program in programs():
            words = ["record", LOGS / "topology.toml", LOGS / "plan.json"]
            self.assertEqual(by_program(program, *words, text=compact), (0, (LOGS / "schedule.txt").read_text()))

    def test_random_histories(self):
        for number in range(2 * len(KINDS)):
            made = World(number, rounds=14, bad=number >= len(KINDS))
            with self.subTest(number), directory() as path:
                topology, plans = made.files(path)
                files = self.written(topology, plans, "".join(made.lines), path, lambda said: said["event"] != "end")
                for feed, compact in (self.merged(topology, files), self.merged(topology, files[::-1])):
                    self.assertEqual(feed.splitlines()[-1].split(" ")[:2], [str(len(files)), "end"])
                    self.assertEqual(sorted(compact.splitlines()[:-1]), sorted(record(topology, plans, files, "--compact")[1].splitlines()[:-1]))

    def test_histories_without_equal_references(self):
        """There the order of the merge is the only one, so the schedule is that of the tool."""
        for number in range(len(KINDS)):
            with self.subTest(number), directory() as path:
                made, of = world(number, path, rounds=14)
                topology, plans = made.files(path)
                files = self.written(topology, plans, "".join(self.apart(made)), path)
                compact = self.merged(topology, files)[1]
                schedule = record(topology, plans, files)[1]
                for program in of:
                    self.assertEqual(by_program(program, "record", topology, *plans, text=compact), (0, schedule))

    def apart(self, made):
        """The lines of a history with each reference after the one before, where it was the same."""
        last = -1
        for event in made.events:
            last = max(event.ref, last + 1)
            yield event_line(event._replace(ref=last))

    def test_generated_cases(self):
        made = made_case(5)
        with directory() as path:
            (path / "topology.toml").write_text(case.network_text(3, 3))
            self.merged(path / "topology.toml", case.write_logs(made, path))

    def test_a_log_at_its_end_is_past_all(self):
        with directory() as path:
            files = self.written(DATA / "triangle.toml", [DATA / "triangle-1.json", DATA / "triangle-2.json"], RENEWAL, path)
            lines = self.feed(DATA / "triangle.toml", files).splitlines()
        for number in range(1, len(files) + 1):
            of_it = [line.split(" ") for line in lines if line.startswith(f"{number} ")]
            self.assertEqual(of_it[-1][1:], ["past", str(MOST)])
        self.assertEqual(sum(line.split(" ")[1] == "end" for line in lines), 1)

    def test_a_line_goes_out_before_the_next_is_read(self):
        """Also where another log is silent: from its horizon on that one is told to be past."""
        lines = (LOGS / "r.jsonl").read_text().splitlines(keepends=True)
        with directory() as path:
            os.mkfifo(path / "silent")
            words = [LOGS / "topology.toml", "-", path / "silent", "--counters", "life", "--feed", "--origin", "1767225600s", "--horizon", "50us"]
            with Fed(TOOLS / "sundial-record", *words) as tool, open(os.open(path / "silent", os.O_RDWR), "w") as silent:
                for line, word, past in zip(lines, ("start", "tick", "tick"), (999950000000, 1000040000000, 1000060000000)):
                    tool.feed(line)
                    self.assertEqual(tool.line().split(" ")[:2], ["1", word])
                    self.assertEqual(tool.line(), f"2 past {past}")
                silent.write((LOGS / "b.jsonl").read_text().splitlines(keepends=True)[0])
                silent.flush()
                self.assertEqual(tool.end()[0], 1)

    def test_a_file_that_grows(self):
        lines = (LOGS / "r.jsonl").read_text().splitlines(keepends=True)
        with directory() as path:
            (path / "silent").write_text("")
            (path / "r").write_text(lines[0] + lines[1][:20])
            words = [LOGS / "topology.toml", path / "r", path / "silent", "--counters", "life", "--feed", "--origin", "1767225600s", "--horizon", "50us", "--follow"]
            with Fed(TOOLS / "sundial-record", *words) as tool, open(path / "r", "a") as log:
                self.assertEqual(tool.line(), "1 start 1000000000000 0 0 1000000000000 500")
                self.assertEqual(tool.line(), "2 past 999950000000")
                for text, time in (lines[1][20:], 1000090000000), (lines[2], 1000110000000):
                    log.write(text)
                    log.flush()
                    self.assertEqual(tool.line().split(" ")[:3], ["1", "tick", str(time)])
                    self.assertEqual(tool.line(), f"2 past {time - 50000000}")
                self.assertIsNone(tool.process.poll())

    def test_the_origin_waits_for_the_first_line_of_each_log(self):
        lines = {name: (LOGS / f"{name}.jsonl").read_text().splitlines(keepends=True) for name in "rb"}
        with directory() as path:
            os.mkfifo(path / "b")
            words = [LOGS / "topology.toml", "-", path / "b", "--counters", "life", "--feed"]
            with Fed(TOOLS / "sundial-record", *words) as tool:
                tool.feed("".join(lines["r"]))
                feeder = threading.Thread(target=lambda: (path / "b").write_text("".join(lines["b"])))
                feeder.start()
                self.assertEqual(tool.line(), "1 start 1000000000000 0 0 1000000000000 500")
                feeder.join()
                self.assertIn("2 recv 1000110700000 1 110696000 0 1 0 1\n", tool.end()[1])

    def test_what_is_refused(self):
        def said(word="tick", ref=5, **more):
            return {"event": word, "device": "b", "reference_ps": ref, "counter_ps": ref, **more}

        start = said("start", 0, clock_ps=0, eps_ps=5)
        for logs, more, reason in (
            ([[said(), said(ref=4)]], (), "a0:2: out of order: its reference is 1 ps before"),
            ([[said(ref=MOST + 1)]], ("--origin", "0"), f"the reference is {MOST + 1} ps of the origin"),
            ([[said()]], ("--origin", "1us"), "the reference is -999995 ps of the origin"),
            ([[start], [said()]], ("--counters", "life"), "a1:1: two logs have counters of b"),
            ([[start, said(counter_ps=-1)]], ("--counters", "life"), "CounterFalls: the counter is 1 ps less"),
            ([[said("recv", link="rb", epoch=2**32, term=0, round=1)]], (), "is past its limit"),
            ([[]], (), "the logs have no event"),
            ([["tick"]], (), "a0:1: UnknownWord: "),
        ):
            with self.subTest(reason), directory() as path:
                for place, lines in enumerate(logs):
                    (path / f"a{place}").write_text("".join(json.dumps(line) + "\n" for line in lines))
                files = [path / f"a{place}" for place in range(len(logs))]
                status, _, err = run("sundial-record", main, [DATA / "triangle.toml", *files, "--feed", *more])
                self.assertEqual(status, 1)
                self.assertIn(reason, err)


if __name__ == "__main__":
    unittest.main()
