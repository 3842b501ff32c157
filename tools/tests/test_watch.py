"""sundial-watch: what is told while logs grow, also by a watch that is killed and begun anew."""

import contextlib
import fcntl
import json
import os
import random
import re
import resource
import signal
import subprocess
import threading
import time
import unittest
from unittest import mock

import support
from support import TOOLS, directory, run

import logs_of
from test_cut import plain
from worlds import PERIOD, World, plan_of, planned_by

from sundial_tools.cut import cutter
from sundial_tools.record.main import main as record
from sundial_tools.errors import ToolError
from sundial_tools.fleet.device import ACTING
from sundial_tools.plain.lines import Replay
from sundial_tools.plain.refusals import refusal
from sundial_tools.plan import read_plan
from sundial_tools.schedule import parse_event
from sundial_tools.topology import read_topology
from sundial_tools.watch import watcher
from sundial_tools.watch.main import main
from sundial_tools.watch.watcher import Options, Watch

# The program where it is built, and else the tools' own replay.
PROGRAM = support.PROGRAM.resolve() if support.PROGRAM.is_file() else TOOLS / "tests" / "plain_sundial.py"
SECOND = 10**12
# How often a watch is killed, and how often its disk is full: more by hand.
KILLS = int(os.environ.get("SUNDIAL_KILLS", "5"))
FULLS = int(os.environ.get("SUNDIAL_FULLS", "4"))


def planner(path):
    """Makes plans that the program takes."""
    return planned_by(PROGRAM, path) if support.PROGRAM.is_file() else plan_of


class Crash(Exception):
    """The process ends here."""


class Played:
    """A replay in this process. What it has to say comes late, and is lost in a crash."""

    draw = random.Random(3)

    def __init__(self, words, told):
        topology = read_topology(words[2])
        self._replay = Replay(topology, [read_plan(path, topology) for path in words[3:-1]])
        self._told, self._number, self._due = told, 0, []

    def feed(self, text):
        for line in text.splitlines():
            event = parse_event(line)
            self._number += 1
            reason = refusal(self._replay.history, event)
            if reason:
                raise AssertionError(f"{self._number} {line}: {reason}")
            self._due += self._replay._taken(self._number, event)
            while self._due and self.draw.random() < 0.5:
                self._told(self._due.pop(0))

    def judge(self):
        pass

    def finish(self):
        while self._due:
            self._told(self._due.pop(0))
        return self._replay.status

    def kill(self):
        self._due = []


class Fabric:
    """A history, as the lines of its logs in the order in which they are written. Nobody follows `leaf`."""

    def __init__(self, path, made):
        self.path, self.made, self.leaf = path, made, made.leaf
        (path / "network").mkdir(exist_ok=True)
        self.topology, self.plans = made.files(path / "network")
        self.lines = [
            (whose, json.dumps(said) + "\n") for whose, said in logs_of.lines_of(made.topology, made.plans, enumerate(made.events, 1))
        ]
        self.logs = [str(path / f"{name}.jsonl") for name in [*made.topology.device_numbers, "fabric"]]
        self.leaf_log = str(path / f"{made.leaf}.jsonl")
        self.state = path / "state"
        for log in self.logs:
            open(log, "w").close()

    def write(self, lines):
        for whose, text in lines:
            with open(self.path / f"{whose}.jsonl", "a") as log:
                log.write(text)

    def rows(self):
        """What was told, over all parts."""
        files = sorted(self.state.glob("part-*.told"))
        return [json.loads(line) for file in files for line in file.read_text().splitlines()]

    def whole(self):
        """The schedule of all logs and the lines of its replay, without the last one."""
        words = [self.topology, *self.logs, "--origin", "0s"]
        for plan in self.plans:
            words += ["--plan", plan]
        status, out, err = run("sundial-record", record, words)
        assert status == 0, err
        return out, plain(self.made.topology, self.made.plans, out.splitlines())[:-1]

    def options(self, **changes):
        plans = [str(plan) for plan in self.plans]
        said = Options(str(self.topology), plans, self.logs, str(self.state), [str(PROGRAM), "replay"], 0, False, SECOND, SECOND, None, 10**6, 3, lambda _: None, lambda _: None)
        return said._replace(**changes)

    def watch(self, **changes):
        return Watch(self.made.topology, self.made.plans, self.options(**changes))

    def once(self, last=True, **changes):
        """Tells all that the logs have. Not with `last`: what a later event of another log could come before waits."""
        watch = self.watch(**changes)
        try:
            while watch.step():
                pass
            if last:
                watch.step(is_last=True)
            watch.metrics_text()
            status = watch.finish() if watch.ended else watch.pause()
        except BaseException:
            watch.stop()
            raise
        return status, watch.metrics_text()


def line_of(row):
    if row["kind"] == "report":
        return f"report {row['line']} {row['device']} {row['clock']} {row['eps']}"
    if row["kind"] == "broken":
        return f"broken {row['line']} {row['premise']}"
    word, kind = row["kind"].split()
    keys = ("device", "ref") if kind == "interval" else ("device", "other")
    return " ".join([word, str(row["line"]), kind, *(str(row[it]) for it in keys if it in row)])


class Told(unittest.TestCase):
    def setUp(self):
        self.path = self.enterContext(directory())
        self.enterContext(mock.patch.object(watcher, "Replaying", Played))

    def fabric(self, *words, **more):
        return Fabric(self.path, World(*words, **more))

    def test_logs_that_grow_in_pieces_over_many_runs(self):
        fabric = self.fabric(3, rounds=20)
        draw, rest = random.Random(1), list(fabric.lines)
        while rest:
            count = draw.randint(20, 90)
            fabric.write(rest[:count])
            del rest[:count]
            status, _ = fabric.once(every=60, keep=100)
            self.assertEqual(status, 0)
        schedule, lines = fabric.whole()
        self.assertEqual(list(map(line_of, fabric.rows())), lines)
        journals = "".join(file.read_text() for file in sorted(fabric.state.glob("part-*.journal")))
        self.assertEqual("".join(line.split(" ", 1)[1] for line in journals.splitlines(keepends=True)), schedule)
        self.assertGreater(len(list(fabric.state.glob("part-*.start"))), 1)

    def test_far_from_a_cut_nothing_is_kept_for_one(self):
        fabric = self.fabric(3, rounds=40)
        draw, rest = random.Random(4), list(fabric.lines)
        with mock.patch.object(cutter, "ROUNDS_BEFORE", 4):
            while rest:
                count = draw.randint(60, 150)
                fabric.write(rest[:count])
                del rest[:count]
                fabric.once(every=200, keep=100)
        self.assertEqual(list(map(line_of, fabric.rows())), fabric.whole()[1])
        parts = [len(file.read_text().splitlines()) for file in sorted(fabric.state.glob("part-*.journal"))]
        self.assertGreater(len(parts), 1)
        self.assertGreater(min(parts[:-1]), 199)

    def test_a_torn_line_waits_for_its_end(self):
        fabric = self.fabric(2, rounds=8)
        fabric.write(fabric.lines[:-1])
        whose, last = fabric.lines[-1]
        fabric.write([(whose, last[:20])])
        fabric.once()
        before = fabric.rows()
        fabric.write([(whose, last[20:])])
        fabric.once()
        self.assertEqual(fabric.rows(), before)
        self.assertEqual((fabric.state / "part-0001.journal").read_text().split()[-2:], ["end", str(fabric.made.events[-1].ref)])

    def test_a_log_that_stops_is_waited_for_up_to_the_horizon(self):
        fabric = self.fabric(2, rounds=24, fails=[])
        silent = [one for one in fabric.lines if one[0] != fabric.leaf or json.loads(one[1])["reference_ps"] < 5 * PERIOD]
        fabric.write(one for one in silent if '"recv"' not in one[1] and '"lose"' not in one[1] and '"end"' not in one[1])
        watch = fabric.watch(horizon=5 * PERIOD)
        while watch.step():
            pass
        watch.step()
        text = watch.metrics_text()
        watch.pause()
        told = {(row["kind"], row.get("premise")) for row in fabric.rows()}
        self.assertIn(("broken", "tick"), told)
        behind = float(re.search(rf'sundial_log_behind_seconds\{{log="[^"]*/{fabric.leaf}.jsonl"\}} (.*)', text)[1])
        self.assertGreater(behind, 17 * PERIOD / SECOND)

    def test_lines_that_cannot_come_are_passed_over_and_told(self):
        fabric = self.fabric(2, rounds=8, mute=0)
        wrong = json.loads(next(text for whose, text in fabric.lines if whose == fabric.leaf and '"tick"' in text))
        middle = len(fabric.lines) // 2
        fabric.write(fabric.lines[:middle])
        for more in (json.dumps({**wrong, "reference_ps": 1}), "{", json.dumps({**wrong, "device": "y"})):
            fabric.write([(fabric.leaf, more + "\n")])
        fabric.write(fabric.lines[middle:])
        for _ in range(2):
            fabric.once()
            rows = fabric.rows()
            passed = [row for row in rows if row["kind"] == "passed over"]
            self.assertEqual([row["reason"].split(":")[0] for row in passed], ["out of order", "no JSON, or cut short", "there is no device y in the topology"])
            self.assertEqual({row["log"] for row in passed}, {fabric.leaf_log})
            self.assertEqual(list(map(line_of, (row for row in rows if row["kind"] != "passed over"))), plain(fabric.made.topology, fabric.made.plans, fabric.made.lines)[:-1])

    def test_a_device_whose_reference_runs_backwards(self):
        """Its lines are passed over until its reference is where it was, and so is what follows from them alone."""
        fabric = self.fabric(2, rounds=24, fails=[])
        mine = [at for at, (whose, _) in enumerate(fabric.lines) if whose == fabric.leaf]
        back, again = mine[len(mine) // 3], mine[len(mine) // 2]
        for at in mine:
            said = json.loads(fabric.lines[at][1])
            if back <= at < again:
                fabric.lines[at] = fabric.leaf, json.dumps({**said, "reference_ps": said["reference_ps"] - 12 * PERIOD}) + "\n"
        passed_over = sum(back <= at < again for at in mine)
        fabric.write(fabric.lines)
        fabric.once()
        rows = fabric.rows()
        passed = [row for row in rows if row["kind"] == "passed over"]
        late = [row for row in passed if row["reason"].startswith("out of order: its reference is ")]
        self.assertEqual((len(late), {row["log"] for row in late}), (passed_over, {fabric.leaf_log}))
        journal = (fabric.state / "part-0001.journal").read_text().splitlines()
        schedule = [line.split(" ", 1)[1] for line in journal if " !" not in line]
        told = [line_of(row) for row in rows if row["kind"] != "passed over"]
        self.assertEqual(told, plain(fabric.made.topology, fabric.made.plans, schedule)[:-1])
        self.assertIn("tick", {row["premise"] for row in rows if row["kind"] == "broken"})

    def test_an_event_that_comes_too_late(self):
        fabric = self.fabric(2, rounds=8)
        fabric.write(one for one in fabric.lines if one[0] != fabric.leaf and '"end"' not in one[1])
        fabric.once()
        fabric.write(one for one in fabric.lines if one[0] == fabric.leaf)
        fabric.once()
        reasons = [row["reason"] for row in fabric.rows() if row["kind"] == "passed over" and row["log"] == fabric.leaf_log]
        self.assertGreater(sum(reason.startswith("late: ") for reason in reasons), 5)

    def test_a_fifo_is_kept_before_it_is_told(self):
        fabric = self.fabric(2, rounds=8, mute=0)
        os.unlink(fabric.leaf_log)
        os.mkfifo(fabric.leaf_log)
        held = os.open(fabric.leaf_log, os.O_RDWR)
        text = "".join(text for whose, text in fabric.lines if whose == fabric.leaf)
        os.write(held, text[:1000].encode())
        fabric.write(one for one in fabric.lines if one[0] not in (fabric.leaf, "fabric"))
        watch = fabric.watch()
        watch.step()
        watch.stop()
        os.write(held, text[1000:].encode())
        fabric.write(one for one in fabric.lines if one[0] == "fabric")
        fabric.once()
        os.close(held)
        self.assertEqual((fabric.state / f"spool-{fabric.logs.index(fabric.leaf_log)}").read_text(), text)
        self.assertEqual(list(map(line_of, fabric.rows())), plain(fabric.made.topology, fabric.made.plans, fabric.made.lines)[:-1])

    def test_what_stands_in_the_metrics(self):
        fabric = self.fabric(12, rounds=20, late=16 * PERIOD)
        made, leaf = fabric.made, fabric.leaf
        fabric.write(fabric.lines)
        status, text = fabric.once(ask=PERIOD)
        rows = fabric.rows()
        self.assertEqual(status, 7)
        values = dict(line.rsplit(" ", 1) for line in text.splitlines() if not line.startswith("#"))
        reports = [row for row in rows if row["kind"] == "report" and row["device"] == leaf]
        self.assertGreater(len(reports), 8)
        self.assertAlmostEqual(float(values[f'sundial_eps_seconds{{device="{leaf}"}}']) * SECOND, reports[-1]["eps"], delta=1)
        self.assertAlmostEqual(float(values[f'sundial_eps_greatest_seconds{{device="{leaf}"}}']) * SECOND, max(row["eps"] for row in reports), delta=1)
        self.assertEqual(values['sundial_broken_total{premise="delay"}'], "1")
        self.assertEqual(values["sundial_alarms_total{kind=\"interval\"}"], str(sum(row["kind"] == "alarm interval" for row in rows)))
        self.assertEqual(values["sundial_epoch"], str(made.fleet.in_force))
        acting = {made.topology.devices[it].name for it, state in made.fleet.up.items() if state.mode == ACTING}
        self.assertEqual({name for name in made.topology.device_numbers if values.get(f'sundial_acting{{device="{name}"}}') == "1"}, acting)
        self.assertEqual(values['sundial_failed{thing="link"}'], str(len(made.fleet.failed_links)))
        self.assertGreater(int(values["sundial_rounds_total"]), 15)
        for line in text.splitlines():
            self.assertRegex(line, r'^(# (HELP|TYPE) sundial_\w+ \S.*|sundial_\w+(\{\w+="[^"]*"\})? -?[0-9.e+-]+)$')
        self.assertEqual(fabric.once(ask=PERIOD)[1].split("# HELP sundial_told")[0], text.split("# HELP sundial_told")[0])

    def test_a_crash_at_any_write(self):
        """Each write may stop within, and each new name may be missing. The lines are those of one run."""
        draw, write, replace = random.Random(11), watcher._write, os.replace
        for number, crashes, late in (1, 25, 18 * PERIOD), (5, 25, None):
            with directory() as path:
                fabric = Fabric(path, World(number, rounds=20, late=late))
                rest, count, crashed = list(fabric.lines), 0, 0

                def torn(file, text):
                    if left[0] < len(text):
                        write(file, text[:left[0]])
                        raise Crash()
                    left[0] -= len(text)
                    write(file, text)

                def renamed(old, new):
                    if left[0] < 40:
                        raise Crash()
                    replace(old, new)

                while rest or count < crashes:
                    fabric.write(rest[:30])
                    del rest[:30]
                    count += 1
                    left = [draw.randint(0, 3000)]
                    with mock.patch.object(watcher, "_write", torn), mock.patch.object(os, "replace", renamed):
                        with contextlib.suppress(Crash):
                            crashed += 1
                            fabric.once(every=50, keep=100, last=not rest)
                            crashed -= 1
                fabric.once(every=50, keep=100)
                self.assertGreater(crashed, 12)
                self.assertGreater(len(list(fabric.state.glob("part-*.start"))), 1)
                self.judge(fabric)

    def judge(self, fabric):
        """What was told is what one replay of all logs says. A part names a premise anew."""
        _, lines = fabric.whole()
        firsts, told = {}, []
        for row in fabric.rows():
            self.assertNotEqual(row["kind"], "passed over")
            if row["kind"] != "broken" or (firsts.setdefault(row["premise"], row["line"]) == row["line"] and "opening" not in row):
                told.append(line_of(row))
        self.assertEqual(told, lines)

    def test_a_state_that_is_held_for_a_moment(self):
        """As by a replay that is not yet a program of its own, where its watch was killed."""
        fabric = self.fabric(2, rounds=8)
        fabric.write(fabric.lines)
        fabric.watch().stop()
        held = os.open(fabric.state / "lock", os.O_RDWR)
        fcntl.flock(held, fcntl.LOCK_EX)
        threading.Timer(0.3, lambda: os.close(held)).start()
        fabric.watch().stop()

    def test_what_is_refused(self):
        fabric = self.fabric(2, rounds=8)
        fabric.write(fabric.lines)
        watch = fabric.watch()
        with mock.patch.object(watcher, "SECONDS_OF_A_START", 0), self.assertRaisesRegex(ToolError, "another sundial-watch works there"):
            fabric.watch()
        watch.stop()
        with self.assertRaisesRegex(ToolError, "logs was another one when this state was begun"):
            fabric.watch(logs=fabric.logs[:3])
        self.assertIn("needs sundial on the path", run("sundial-watch", main, [fabric.topology, "log", "--plan", fabric.plans[0], "-o", self.path / "s"])[2])


class Stopped(unittest.TestCase):
    """A process that is killed, or that finds no room, and is begun anew."""

    def setUp(self):
        path = self.enterContext(directory())
        self.draw = random.Random(int(os.environ.get("SUNDIAL_SEED", "5")))
        self.fabric = Fabric(path, World(8, rounds=20, late=16 * PERIOD, planner=planner(path)))
        self.rest = list(self.fabric.lines)

    def begin(self, **more):
        fabric = self.fabric
        words = [str(TOOLS / "sundial-watch"), str(fabric.topology), *fabric.logs]
        words += [word for plan in fabric.plans for word in ("--plan", str(plan))]
        words += ["-o", str(fabric.state), "--every", "40", "--keep", "100", "--origin", "0s", "--horizon", "1ns"]
        return subprocess.Popen(words, env={**os.environ, "SUNDIAL": str(PROGRAM)}, stderr=subprocess.PIPE, text=True, **more)

    def write_some(self, count):
        """Writes so many lines, and a front of the next one."""
        whose, torn = self.rest[count] if count < len(self.rest) else (self.fabric.leaf, "")
        self.fabric.write([*self.rest[:count], (whose, torn[:7])])
        self.rest = [(whose, torn[7:]), *self.rest[count + 1:]] if count < len(self.rest) else []

    def told(self):
        return sum(file.stat().st_size for file in self.fabric.state.glob("part-*.journal"))

    def wait(self, before, wished):
        """Until so many bytes more are told, or as long as they come."""
        told, end = before, time.monotonic() + 20
        while time.monotonic() < end and told <= before + wished:
            time.sleep(0.001)
            now = self.told()
            if now > told:
                told, end = now, time.monotonic() + 0.2

    def judge(self):
        self.fabric.write(self.rest)
        self.fabric.once(every=40, keep=100, horizon=1000)
        Told.judge(self, self.fabric)

    def test_killed_at_any_moment(self):
        grew = 0
        for _ in range(KILLS):
            with self.begin() as process:
                before, wished = self.told(), self.draw.randint(0, 1500)
                self.write_some(self.draw.randint(1, max(2, 2 * len(self.fabric.lines) // KILLS)))
                self.wait(before, wished)
                time.sleep(self.draw.choice((0, 0.01, 0.05)))
                self.assertIsNone(process.poll())
                process.send_signal(signal.SIGKILL)
            grew += self.told() > before
        self.assertGreater(grew, 0)
        self.judge()

    def test_a_full_disk(self):
        """No file may get longer than some bytes: a stand-in for a disk that is full at any of its writes."""
        room = 200
        for _ in range(FULLS):
            self.write_some(len(self.fabric.lines) // FULLS)
            room += self.draw.randint(0, 4000 // FULLS)
            with self.begin(preexec_fn=lambda: resource.setrlimit(resource.RLIMIT_FSIZE, (room, room))) as process:
                status, said = process.wait(timeout=600), process.stderr.read()
            self.assertEqual(status, 1)
            self.assertRegex(said, r"(^|\n)sundial-watch: .*: File too large\n$")
        self.judge()


if __name__ == "__main__":
    unittest.main()
