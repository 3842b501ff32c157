"""sundial-watch: logs that are rotated, cut short, missing or many; references that are wrong; states of other makes."""

import itertools
import json
import os
import pickle
import random
import re
import resource
import subprocess
import time
import unittest
from unittest import mock

from support import DATA, TOOLS, directory, run

from test_cut import plain
from test_watch import PROGRAM, SECOND, Fabric, Played, line_of
from worlds import PERIOD, World

from sundial_tools.errors import ToolError
from sundial_tools.record.logs import allow_files
from sundial_tools.watch import watcher
from sundial_tools.watch.main import main
from sundial_tools.watch.state import VERSION
from sundial_tools.watch.tail import Tail
from sundial_tools.watch.window import Kept

YEAR = 365 * 86400 * SECOND


class Watched(unittest.TestCase):
    def setUp(self):
        self.path = self.enterContext(directory())
        self.enterContext(mock.patch.object(watcher, "Replaying", Played))
        self.said = []

    def fabric(self, number=2, rounds=8, **more):
        self.fabric_of = Fabric(self.path, World(number, rounds=rounds, mute=0, **more))
        return self.fabric_of

    def watch(self, **more):
        return self.fabric_of.watch(say=self.said.append, **more)

    def read(self, watch):
        """Answers in how many steps all was read."""
        return next(count for count in itertools.count(1) if not watch.step())

    def finish(self, watch):
        self.read(watch)
        watch.step(is_last=True)
        watch.finish() if watch.ended else watch.pause()

    def judge(self):
        """What was told is what a replay of all lines says, and nothing was passed over."""
        made = self.fabric_of.made
        self.assertEqual(list(map(line_of, self.fabric_of.rows())), plain(made.topology, made.plans, made.lines)[:-1])

    def passed(self):
        return [row for row in self.fabric_of.rows() if row["kind"] == "passed over"]


class Rotated(Watched):
    def pieces(self, count):
        lines = self.fabric().lines
        return [lines[len(lines) * at // count:len(lines) * (at + 1) // count] for at in range(count)]

    def rotate(self, is_dated=False):
        """As logrotate does: each log gets a new name, and an empty one has its place."""
        time.sleep(0.01)
        before = len(list(self.path.glob("fabric.jsonl*")))
        for log in self.fabric_of.logs:
            if is_dated:
                os.rename(log, f"{log}-2026120{before}")
            else:
                for number in (2, 1):
                    if os.path.exists(f"{log}.{number}"):
                        os.rename(f"{log}.{number}", f"{log}.{number + 1}")
                os.rename(log, f"{log}.1")
            open(log, "w").close()
        time.sleep(0.01)

    def test_while_it_runs(self):
        for is_dated in False, True:
            with self.subTest(is_dated), directory() as self.path:
                *pieces, last = self.pieces(4)
                watch = self.watch()
                for piece in pieces:
                    self.fabric_of.write(piece[:-3])
                    self.read(watch)
                    self.fabric_of.write(piece[-3:])
                    self.rotate(is_dated)
                    watch.step()
                self.fabric_of.write(last)
                self.finish(watch)
                self.judge()
                self.assertEqual(self.said, [])

    def test_twice_before_it_looks_and_while_it_is_stopped(self):
        for is_stopped in False, True:
            with self.subTest(is_stopped), directory() as self.path:
                first, *pieces = self.pieces(4)
                self.fabric_of.write(first)
                watch = self.watch()
                self.read(watch)
                if is_stopped:
                    watch.stop()
                for piece in pieces[:2]:
                    self.fabric_of.write(piece)
                    self.rotate()
                self.fabric_of.write(pieces[2])
                self.finish(self.watch() if is_stopped else watch)
                self.judge()
                self.assertEqual(self.said, [])

    def test_who_writes_to_the_old_file_still(self):
        """As until a device has opened its log anew."""
        first, second, third = self.pieces(3)
        self.fabric_of.write(first)
        watch = self.watch()
        self.read(watch)
        self.rotate()
        watch.step()
        for whose, text in second:
            with open(self.path / f"{whose}.jsonl.1", "a") as log:
                log.write(text)
        self.read(watch)
        time.sleep(0.01)
        self.fabric_of.write(third)
        self.finish(watch)
        self.judge()

    def test_who_writes_to_the_old_file_at_the_last_moment(self):
        """Between the look at its end and the look for the file that came after it."""
        first, second, third = self.pieces(3)
        self.fabric_of.write(first)
        watch, following, late = self.watch(), Tail._following, list(second)
        self.read(watch)
        self.rotate()
        self.fabric_of.write(third)

        def written(tail):
            whose = os.path.basename(tail.path).removesuffix(".jsonl")
            with open(f"{tail.path}.1", "a") as log:
                log.writelines(text for owner, text in late if owner == whose)
            late[:] = [line for line in late if line[0] != whose]
            os.utime(tail.path)
            return following(tail)

        with mock.patch.object(Tail, "_following", written):
            self.finish(watch)
        self.judge()

    def test_cut_short_and_grown_again(self):
        """Also past where it was: then its bytes say that it is another text."""
        for is_stopped in False, True:
            with self.subTest(is_stopped), directory() as self.path:
                self.said.clear()
                first, second = self.pieces(2)
                second = [*second[:-1], *[("fabric", "\n")] * 9000, second[-1]]
                self.fabric_of.write(first)
                watch = self.watch()
                self.finish(watch) if is_stopped else self.read(watch)
                for log in self.fabric_of.logs:
                    open(log, "w").close()
                self.fabric_of.write(second)
                self.finish(self.watch() if is_stopped else watch)
                self.judge()
                self.assertEqual(len(self.said), len({whose for whose, _ in first}))
                self.assertIn("it was written anew and is read from its beginning", self.said[0])

    def test_a_file_that_is_gone(self):
        first, second = self.pieces(2)
        self.fabric_of.write(first)
        watch = self.watch()
        self.finish(watch)
        kept = [open(log) for log in self.fabric_of.logs]  # (so that no new file gets its inode)
        for log in self.fabric_of.logs:
            os.unlink(log)
        self.fabric_of.write(second)
        for log in self.fabric_of.logs:
            open(log, "a").close()
        self.finish(self.watch())
        self.judge()
        self.assertIn("the file that was read before is gone", self.said[0])
        for file in kept:
            file.close()

    def test_a_torn_last_line_of_a_rotated_file(self):
        first, second = self.pieces(2)
        self.fabric_of.write([*first, (self.fabric_of.leaf, '{"event": "tick"')])
        watch = self.watch()
        self.read(watch)
        self.rotate()
        self.fabric_of.write(second)
        self.finish(watch)
        self.assertEqual([row["reason"].split(":")[0] for row in self.passed()], ["no JSON, or cut short"])

    def test_a_log_that_comes_late_and_one_that_never_comes(self):
        fabric = self.fabric()
        fabric.write(fabric.lines)
        os.rename(fabric.logs[0], self.path / "hidden")
        watch = self.watch()
        self.read(watch)
        self.assertEqual(self.said, [f"{fabric.logs[0]}: it is not there, and is waited for"])
        os.rename(self.path / "hidden", fabric.logs[0])
        self.finish(watch)
        self.judge()
        words = [fabric.topology, self.path / "mistyped", "--plan", fabric.plans[0], "-o", self.path / "s", "--once"]
        with mock.patch.dict(os.environ, {"SUNDIAL": str(PROGRAM)}):
            self.assertIn(f"sundial-watch: {self.path / 'mistyped'}: it is not there", run("sundial-watch", main, words)[2])


class Ahead(Watched):
    """A reference that is further ahead of all other logs than --jump."""

    def wrong(self, text, more=YEAR):
        said = json.loads(text)
        return json.dumps({**said, "reference_ps": said["reference_ps"] + more}) + "\n"

    def test_one_wrong_reference_costs_one_line(self):
        """One of a year, or of the 37 seconds between TAI and UTC, also where the other logs come later, or all of them are read anew."""
        fabric = self.fabric(rounds=4, fails=[])
        mine = [at for at, (whose, text) in enumerate(fabric.lines) if whose == fabric.leaf and '"tick"' in text]
        for place, more, step, bytes_of_a_log in [
            (mine[at], more, step, 1 << 12) for at in (0, 4, -1) for more, step in ((YEAR, 10**6), (37 * SECOND, 10**6), (37 * SECOND, 7), (YEAR, 1))
        ] + [(at, 37 * SECOND, 10**6, 200) for at in mine[1:9]]:
            with self.subTest(place, more=more, step=step, bytes=bytes_of_a_log), directory() as self.path:
                fabric = self.fabric(rounds=4, fails=[])
                fabric.lines.insert(place, (fabric.leaf, self.wrong(fabric.lines[place][1], more)))
                with mock.patch.object(watcher, "BYTES_OF_A_STEP", 1), mock.patch.object(watcher, "BYTES_OF_A_LOG", bytes_of_a_log):
                    watch = self.watch()
                for first in range(0, len(fabric.lines), step):
                    written = fabric.lines[first:first + step]
                    for name in sorted({whose for whose, _ in written}):
                        fabric.write(one for one in written if one[0] == name)
                        if step < len(fabric.lines):
                            watch.step()
                            watch.step()
                self.read(watch)
                text = watch.metrics_text()
                self.finish(watch)
                rows = [row for row in fabric.rows() if row["kind"] != "passed over"]
                self.assertEqual([(row["log"], row["reason"].split(":")[0]) for row in self.passed()], [(fabric.leaf_log, "ahead")])
                self.assertEqual(list(map(line_of, rows)), plain(fabric.made.topology, fabric.made.plans, fabric.made.lines)[:-1])
                passed = re.findall(r'sundial_passed_over_total\{log="(.*)"\} 1\n', text)
                self.assertEqual(passed, [fabric.leaf_log])
                behind = [float(line.rsplit(" ", 1)[1]) for line in text.splitlines() if line.startswith("sundial_log_behind_seconds{")]
                self.assertLess(max(behind), 1)

    def test_a_line_may_be_ahead_by_the_horizon(self):
        """As by default: a horizon that is longer than this would wait for the other logs less than a wrong line is ahead."""
        words = [DATA / "triangle.toml", "log", "--plan", DATA / "triangle-1.json", "-o", self.path / "s"]
        for more, jump in ([], SECOND), (["--horizon", "5s"], 5 * SECOND), (["--horizon", "1ms"], SECOND), (["--jump", "9s"], 9 * SECOND):
            with mock.patch("sundial_tools.watch.main.Watch", side_effect=lambda *given: self.fail(given[2].jump)), self.assertRaisesRegex(AssertionError, f"^{jump}$"):
                with mock.patch.dict(os.environ, {"SUNDIAL": str(PROGRAM)}):
                    run("sundial-watch", main, [*words, *more])

    def test_a_reference_that_stays_wrong(self):
        fabric = self.fabric(rounds=12, fails=[])
        wrong = [at for at, (whose, _) in enumerate(fabric.lines) if whose == fabric.leaf and at > 100]
        for at in wrong:
            fabric.lines[at] = fabric.leaf, self.wrong(fabric.lines[at][1])
        fabric.write(fabric.lines[:-1])
        watch = self.watch(horizon=PERIOD)
        self.assertLess(self.read(watch), 12)
        values = dict(line.rsplit(" ", 1) for line in watch.metrics_text().splitlines() if not line.startswith("#"))
        self.finish(watch)
        ahead = [row["log"] for row in self.passed() if row["reason"].startswith("ahead: ")]
        self.assertEqual((len(ahead), set(ahead)), (len(wrong), {fabric.leaf_log}))
        behind = [float(values[f'sundial_log_behind_seconds{{log="{log}"}}']) for log in fabric.logs[:-1]]
        self.assertEqual(behind.index(max(behind)), fabric.logs.index(fabric.leaf_log))
        self.assertLess(float(values["sundial_lag_seconds"]), 3 * PERIOD / SECOND)

    def test_a_pause_of_the_whole_fabric_is_none(self):
        fabric = self.fabric()
        at = 6 * PERIOD - 1000
        fabric.write((whose, self.wrong(text, 7200 * SECOND) if json.loads(text)["reference_ps"] >= at else text) for whose, text in fabric.lines)
        self.finish(self.watch())
        self.assertEqual(self.passed(), [])
        self.assertIn("drift", {row["premise"] for row in fabric.rows() if row["kind"] == "broken"})

    def test_devices_that_come_back_one_after_the_other_after_a_pause(self):
        """Where all is read behind: the log that is furthest ahead waits until the others have come as far."""
        fabric = self.fabric(fails=[])
        at, late = 6 * PERIOD - 1000, {name: (9 - place) * 10 * SECOND for place, name in enumerate(fabric.made.topology.device_numbers)}
        fabric.write(
            (whose, self.wrong(text, 7200 * SECOND + late.get(whose, 0)) if json.loads(text)["reference_ps"] >= at else text) for whose, text in fabric.lines
        )
        fabric.write((name, json.dumps({"event": "tick", "device": name, "reference_ps": 7400 * SECOND, "counter_ps": 7400 * SECOND}) + "\n") for name in late)
        self.finish(self.watch())
        self.assertEqual([row for row in self.passed() if row["reason"].startswith("ahead")], [])

    def test_the_first_line_of_a_sparse_log_may_be_far_ahead_of_the_first_lines_of_the_others(self):
        fabric = self.fabric()
        first = next(json.loads(text)["reference_ps"] for whose, text in fabric.lines if whose == "fabric")
        fabric.write((whose, self.wrong(text, 7200 * SECOND) if json.loads(text)["reference_ps"] >= first else text) for whose, text in fabric.lines)
        self.finish(self.watch())
        self.assertEqual([row for row in self.passed() if row["reason"].startswith("ahead")], [])

    def test_a_sparse_log_may_be_far_ahead_of_what_was_read_of_the_others(self):
        fabric = self.fabric()
        fabric.write(fabric.lines)
        with mock.patch.object(watcher, "BYTES_OF_A_STEP", 1), mock.patch.object(watcher, "BYTES_OF_A_LOG", 300):
            self.finish(self.watch(jump=PERIOD // 100, horizon=PERIOD // 100))
        self.assertEqual(self.passed(), [])
        self.judge()


class Ended(Watched):
    def told(self):
        """How many lines of logs are in the schedule."""
        return sum(not line.startswith("- ") for line in (self.fabric_of.state / "part-0001.journal").read_text().splitlines())

    def test_of_a_log_that_ends_early_the_others_are_read_to_their_ends(self):
        """As that of a device that failed. With --once nothing waits for it."""
        for is_once in False, True:
            with self.subTest(is_once), directory() as self.path:
                fabric = self.fabric(3, rounds=16, fails=[])
                lines = [one for at, one in enumerate(fabric.lines) if at < 60 or one[0] != fabric.leaf]
                fabric.write(lines)
                most = 0
                with mock.patch.multiple(watcher, BYTES_OF_A_STEP=1, BYTES_OF_A_LOG=300, MOST_WAITING=12):
                    watch = self.watch(horizon=3600 * SECOND)
                    if is_once:
                        watch.end_now()
                    while watch.step():
                        most = max(most, sum(len(tail.waiting) for tail in watch._tails))
                    self.finish(watch)
                self.assertEqual((self.told(), self.passed()), (len(lines), []))
                self.assertEqual(most < len(lines) // 4, is_once)

    def test_once_reads_what_was_there_when_it_began(self):
        fabric = self.fabric()
        half = len(fabric.lines) // 2
        fabric.write(fabric.lines[:half])
        watch = self.watch()
        watch.end_now()
        fabric.write(fabric.lines[half:])
        self.finish(watch)
        self.assertEqual(self.told(), half)
        self.finish(self.watch())
        self.judge()


class States(Watched):
    def begun(self):
        fabric = self.fabric(3, rounds=16)
        fabric.write(fabric.lines)
        fabric.once(every=60, keep=100)
        return sorted(fabric.state.glob("part-*.start"))[-1]

    def test_a_state_that_would_run_a_command(self):
        start, trap = self.begun(), self.path / "ran"

        class Trap:
            def __reduce__(self):
                return os.system, (f"touch {trap}",)

        settings = self.fabric_of.state / "settings.json"
        said = json.loads(settings.read_text())
        for file, content in (
            (start, pickle.dumps(Trap())), (start, json.dumps({"version": VERSION - 1})), (start, json.dumps({"version": VERSION})),
            (start, json.dumps({**json.loads(start.read_text()), "feed": []})), (start, "[" * 10**5), (settings, json.dumps({**said, "version": 1})),
            (settings, "{}"),
        ):
            before = file.read_bytes()
            file.write_bytes(content if isinstance(content, bytes) else content.encode())
            with self.subTest(content[:40]), self.assertRaisesRegex(ToolError, ": the state is not .*: begin a new state$"):
                self.watch()
            file.write_bytes(before)
        settings.write_text("{}")
        with self.assertRaisesRegex(ToolError, f"not of version {VERSION}"):
            Kept(str(self.fabric_of.state))
        self.assertFalse(trap.exists())
        self.assertEqual([], [path for path in TOOLS.glob("sundial_tools/**/*.py") if "pickle" in path.read_text()])

    def test_a_state_that_is_taken_up_at_each_cut(self):
        """A run that begins with a part goes on as one that made it."""
        fabric = self.fabric(5, rounds=24)
        rest, draw = list(fabric.lines), random.Random(4)
        while rest:
            fabric.write(rest[:40])
            del rest[:40]
            fabric.once(every=draw.choice((1, 30, 60)), keep=100)
        self.assertGreater(len(list(fabric.state.glob("part-*.start"))), 3)
        told = {json.dumps(row) for row in fabric.rows()}
        self.assertEqual(len(told), len(fabric.rows()))
        self.judge()


class Many(unittest.TestCase):
    def test_more_logs_than_files_may_be_open_at_first(self):
        with directory() as path:
            logs = [path / f"log{number}" for number in range(300)]
            for log in logs:
                log.touch()
            words = [TOOLS / "sundial-watch", DATA / "triangle.toml", *logs, "--plan", DATA / "triangle-1.json", "-o", path / "state", "--once"]
            done = subprocess.run(
                words, env={**os.environ, "SUNDIAL": str(PROGRAM)}, stdout=subprocess.PIPE, stderr=subprocess.PIPE, text=True, check=False,
                timeout=600, preexec_fn=lambda: resource.setrlimit(resource.RLIMIT_NOFILE, (256, 4096)),
            )
            self.assertNotIn("open files", done.stderr)

    def test_too_many_for_the_system(self):
        with mock.patch.object(resource, "getrlimit", lambda _: (1024, 1024)), self.assertRaisesRegex(ToolError, "4096 logs need 4160 open files"):
            allow_files(4096)


if __name__ == "__main__":
    unittest.main()
