"""Compact logs, as the tools read them: as their JSON lines say the same, and as the proved reader reads their lines."""

import json
import os
import random
import unittest
from unittest import mock

from support import DATA, EXAMPLES, TOOLS, directory, run

import logs_of
from test_compact import by_program, programs
from test_follow import Fed
from test_record import record
from test_watch import PROGRAM, Fabric, Played
from worlds import KINDS, World

from sundial_tools.errors import ToolError
from sundial_tools.record.logs import Log
from sundial_tools.record.main import main
from sundial_tools.topology import read_topology
from sundial_tools.watch import watcher
from sundial_tools.watch.main import main as watch

LOGS = EXAMPLES / "logs"
TOPOLOGY = read_topology(str(DATA / "triangle.toml"))
MOST = 2**60
LINES = (
    "start 5 0 7 9 500", "tick 5 1 7", "recv 5 1 7 0 1 0 1", "lose 5 1 0 1 0 1", "fail 5 device 2", "fail 5 link 2", "fix 5 0 7 9 500",
    "ask 5 2 7", "stage 5", "give 5 0", "commit 5 0 7", "seal 5 1", "join 5 1 7 9 500", "mend 5 link 1", "end 5",
    f"tick {MOST} 2 {MOST}", f"recv {MOST} 2 {MOST} 2 {2**32 - 1} {2**32 - 1} {MOST}", f"lose {MOST} 2 2 {2**32 - 1} {2**32 - 1} {MOST}",
)


def read(text, topology=TOPOLOGY):
    """The event of one line, or why it is refused."""
    try:
        return Log("log", topology)._event(text, 1)
    except ToolError as fault:
        return fault.reason


def changed(draw, text):
    """A line with one place put in, left out or changed, or one field changed."""
    if draw.random() < 0.5:
        words = text.split(" ")
        words[draw.randrange(len(words))] = draw.choice((
            "", "0", "00", "05", "-1", "+1", "1_0", "1.0", "1e3", "٣", "link", "device", "tick", "recv", "lose", "0 0",
            "4294967295", "4294967296", "999999999", "1000000000", "9" * 18, "1" + "0" * 18, str(MOST), str(MOST + 1), "9" * 60,
        ))
        return " ".join(words)
    place = draw.randrange(len(text) + 1)
    return text[:place] + draw.choice(("", "0", "9", " ", "\t", "\r", "a", "é", "\x00")) + text[place + draw.choice((0, 1)):]


class Lines(unittest.TestCase):
    def test_each_word(self):
        for text in LINES:
            event = read(text)
            self.assertNotIsInstance(event, str, text)
            self.assertEqual(read(text + "\n"), event)
            self.assertEqual((event.word, event.ref), (text.split(" ")[0], int(text.split(" ")[1])))

    def test_a_line_says_what_its_json_says(self):
        for number in range(len(KINDS)):
            made = World(number, rounds=12)
            for _, said in logs_of.lines_of(made.topology, made.plans, enumerate(made.events, 1)):
                text = logs_of.compact(made.topology, said)
                event = read(text, made.topology)
                self.assertNotIsInstance(event, str, text)
                self.assertEqual(event, read(json.dumps(said), made.topology), text)
                self.assertEqual(event, read(" \t" + json.dumps(said) + "\r\n", made.topology), text)

    def test_the_proved_reader_refuses_the_same_lines(self):
        """`merge` knows no topology, so it reads each line of the form."""
        draw = random.Random(8)
        texts = [changed(draw, draw.choice(LINES)) for _ in range(150)] + list(LINES) + ["a" * 4094, "a" * 4097, "tick 5 0 " + "1" * 4096]
        refused = 0
        for program in programs()[1:]:
            for text in texts:
                if not text or text.isspace() or "\n" in text:
                    continue
                event = read(text)
                status, out = by_program(program, "merge", 1, text=f"1 {text}\n")
                with self.subTest(text[:60]):
                    if not isinstance(event, str) or event.startswith("there is no "):
                        self.assertEqual((status, out), (0, text + "\n"))
                    elif event.startswith("LongLine"):
                        self.assertEqual((status, out), (3, "input feed 1 LongLine\n"))
                    else:
                        self.assertEqual((status, out), (3, f"input feed 1 {event.partition(':')[0]}\n"), event)
                        refused += 1
            self.assertGreater(refused, 60)

    def test_what_is_refused(self):
        for text, reason in (
            ("tock 5 1 7", "UnknownWord: 'tock' begins neither a JSON object nor a line of a compact log"),
            (" tick 5 1 7", "UnknownWord: ''"), ("TICK 5 1 7", "UnknownWord"), ("tick\t5 1 7", "UnknownWord"), ("past 5", "UnknownWord"),
            ("tick 5 1", "FieldCount: tick has 3 fields"), ("tick 5 1 7 ", "FieldCount"), ("tick 5 1 7 8", "FieldCount"), ("tick", "FieldCount"),
            ("tick 5 1 7 0 1 0 1", "FieldCount"), ("ask 5 1 7 0 1 0 1", "FieldCount"), ("recv 5 1 7", "FieldCount: recv has 7 fields"),
            ("recv 5 1 7 3", "FieldCount"), ("recv 5 1 7 0 1 0 1 1", "FieldCount"), ("lose 5 1 0 1 0", "FieldCount: lose has 6 fields"),
            ("lose 5 3", "FieldCount"), ("stage 5 1", "FieldCount"), ("end", "FieldCount"),
            ("tick 05 1 7", "Number 1: '05' is no number up to 1152921504606846976"), ("tick  5 1", "Number 1: ''"),
            ("tick 5 1 -7", "Number 3"), ("tick 5 1 +7", "Number 3"), ("tick 5 1 7.0", "Number 3"), ("tick 5 1 1_0", "Number 3"),
            ("tick 5 1 7\r\n", "Number 3"), ("tick 5 1 ٣", "Number 3"), (f"tick {MOST + 1} 1 7", "Number 1"),
            (f"tick 5 {2**32} 7", "Number 2: '4294967296' is no number up to 4294967295"), (f"tick 5 1 {MOST + 1}", "Number 3"),
            (f"recv 5 1 7 0 {2**32} 0 1", "Number 5"), (f"recv 5 1 7 0 1 {2**32} 1", "Number 6"), (f"recv 5 1 7 0 1 0 {MOST + 1}", "Number 7"),
            ("fail 05 fabric x", "UnknownWord: 'fabric' is neither device nor link"), ("fail 5 fabric", "FieldCount"),
            ("fail 5 fabric 1", "UnknownWord: 'fabric' is neither device nor link"),
            ("tick 5 " + "1" * 5000 + " 7", "LongLine: a line of a compact log has at most 4096 bytes"),
            ("tick 5 7 1", "there is no device 7 in the topology"), ("tick 5 4294967295 1", "there is no device 4294967295"),
            ("recv 5 3 7 0 1 0 1", "there is no device 3"), ("recv 5 1 7 3 1 0 1", "there is no link 3"), ("lose 5 1 9 1 0 1", "there is no link 9"),
            ("lose 5 9 0 1 0 1", "there is no device 9"), ("start 5 3 7 9 500", "there is no device 3"), ("give 5 3", "there is no device 3"),
            ("fail 5 device 3", "there is no device 3"), ("mend 5 link 3", "there is no link 3"),
            ('x{"event": "stage", "reference_ps": 5}', "UnknownWord"), ("[]", "UnknownWord"), ("\ufefftick 5 1 7", "UnknownWord"),
        ):
            self.assertTrue(str(read(text)).startswith(reason), (text[:60], read(text)))


class Same(unittest.TestCase):
    """Logs in both forms, and the same of both."""

    def setUp(self):
        self.path = self.enterContext(directory())

    def page(self):
        """The logs of the page in the compact form."""
        text = (LOGS / "log.txt").read_text().splitlines(keepends=True)
        for number, name in enumerate("rbx"):
            (self.path / name).write_text("".join(line for line in text if line.split(" ")[2:3] == [str(number)]))
        return [self.path / name for name in "rbx"], [LOGS / f"{name}.jsonl" for name in "rbx"]

    def recorded(self, files, *more):
        status, out, err = record(LOGS / "topology.toml", [LOGS / "plan.json"], files, *more)
        self.assertEqual(status, 0, err)
        return out

    def feed(self, topology, files, *more):
        status, out, err = run("sundial-record", main, [topology, *files, "--feed", *more])
        self.assertEqual(status, 0, err)
        return out

    def test_the_logs_of_the_page(self):
        compact, plain = self.page()
        for more in ("--counters", "life"), ():
            self.assertEqual(self.recorded(compact, *more), (LOGS / "schedule.txt").read_text())
            self.assertEqual(self.recorded(compact, "--compact", *more), self.recorded(plain, "--compact", "--counters", "life"))
            self.assertEqual(self.feed(LOGS / "topology.toml", compact, *more), self.feed(LOGS / "topology.toml", plain, "--counters", "life"))

    def test_the_watch_tells_the_same(self):
        compact, plain = self.page()
        self.enterContext(mock.patch.dict(os.environ, {"SUNDIAL": str(PROGRAM)}))
        said = []
        for name, files in ("compact state", compact), ("plain state", plain):
            words = [LOGS / "topology.toml", *files, "--plan", LOGS / "plan.json", "--counters", "life", "-o", self.path / name, "--once", "--follow"]
            status, out, err = run("sundial-watch", watch, words)
            self.assertEqual(status, 0, err)
            said.append((out, (self.path / name / "part-0001.txt").read_text(), (self.path / name / "part-0001.told").read_text()))
        self.assertEqual(*said)
        self.assertEqual([json.loads(line)["device"] for line in said[0][0].splitlines()], ["b", "x"])

    def test_the_watch_passes_over_what_is_no_line(self):
        self.enterContext(mock.patch.object(watcher, "Replaying", Played))
        fabric = Fabric(self.path, World(2, rounds=8))
        leaf = fabric.made.topology.device_numbers[fabric.leaf]
        lines = [(whose, logs_of.compact(fabric.made.topology, json.loads(text))) for whose, text in fabric.lines]
        middle = len(lines) // 2
        fabric.write(lines[:middle])
        for text in f"tick 1 {leaf} 1\n", "tick 5\n", "tick 5 7 1\n", f"recv 1 {leaf} 3tick 4 {leaf} 3\n":
            fabric.write([(fabric.leaf, text)])
        fabric.write(lines[middle:])
        fabric.once()
        passed = [row["reason"].split(":")[0] for row in fabric.rows() if row["kind"] == "passed over"]
        self.assertEqual(passed, ["out of order", "FieldCount", "there is no device 7 in the topology", "Number 3"])
        told = [row for row in fabric.rows() if row["kind"] != "passed over"]
        self.assertGreater(len(told), 1)

    def test_the_origin_and_the_counters(self):
        (self.path / "log").write_text("start 3000000000005 0 70 3000000000005 500\ntick 3000090000005 0 90000070\n")
        self.assertEqual(self.recorded([self.path / "log"]).splitlines()[0], "start 1000000000005 0 70 1000000000005 500")
        lines = self.recorded([self.path / "log"], "--origin", "3s", "--counters", "life").splitlines()
        self.assertEqual(lines[:2], ["start 5 0 0 5 500", "tick 90000005 0 90000000"])
        status, _, err = record(LOGS / "topology.toml", [LOGS / "plan.json"], [self.path / "log"], "--origin", "4s")
        self.assertEqual((status, "the reference is -999999999995 ps of the origin" in err), (1, True))

    def test_random_histories_in_both_forms_and_mixed(self):
        for number in range(2 * len(KINDS)):
            draw = random.Random(number)
            made = World(number, rounds=14, bad=number >= len(KINDS), mute=0)
            topology, plans = made.files(self.path)
            logs = logs_of.logs_of(made.topology, made.plans, enumerate(made.events, 1))
            said = []
            for share in 0, 1, 0.5:
                files = []
                for name, lines in logs.items():
                    files.append(self.path / f"{name}.log")
                    files[-1].write_text("".join(
                        logs_of.compact(made.topology, line) if draw.random() < share else json.dumps(line) + "\n" for line in lines
                    ))
                status, schedule, err = record(topology, plans, files)
                self.assertEqual((status, len(schedule.splitlines())), (0, len(made.lines)), err)
                merged = sorted(self.feed(topology, files).splitlines())
                said.append((schedule, record(topology, plans, files, "--compact")[1], [line for line in merged if " past " not in line]))
            self.assertEqual(said[0], said[1])
            self.assertEqual(said[0], said[2])

    def test_the_order_and_the_last_newline(self):
        (self.path / "log").write_text("start 5 0 0 5 500\n\ntick 7 0 2\ntick 6 0 1\n")
        status, _, err = record(LOGS / "topology.toml", [LOGS / "plan.json"], [self.path / "log"])
        self.assertEqual((status, "log:4: out of order: its reference is 1 ps before that of line 3" in err), (1, True))
        (self.path / "log").write_text("start 5 0 0 5 500\ntick 7 0 2\nend 9")
        self.assertEqual(self.recorded([self.path / "log"]).splitlines()[-1], "end 9")


class Grows(unittest.TestCase):
    def test_a_torn_last_line_waits_for_its_end(self):
        lines = [line for line in (LOGS / "log.txt").read_text().splitlines(keepends=True) if line.split(" ")[2:3] == ["1"]]
        with directory() as path:
            (path / "silent").write_text("")
            (path / "b").write_text(lines[0] + lines[1][:-3])
            words = [LOGS / "topology.toml", path / "b", path / "silent", "--feed", "--origin", "0", "--horizon", "50us", "--follow"]
            with Fed(TOOLS / "sundial-record", *words) as tool, open(path / "b", "a") as log:
                self.assertEqual(tool.line() + "\n", "1 " + lines[0])
                self.assertEqual(tool.line(), "2 past 999950000000")
                for text, line in (lines[1][-3:], lines[1]), (lines[2][:20], None), (lines[2][20:], lines[2]):
                    log.write(text)
                    log.flush()
                    if line is not None:
                        self.assertEqual(tool.line() + "\n", "1 " + line)
                        self.assertTrue(tool.line().startswith("2 past "))
                self.assertIsNone(tool.process.poll())

    def test_a_line_goes_out_before_the_next_is_read(self):
        lines = [line for line in (LOGS / "log.txt").read_text().splitlines(keepends=True) if line.split(" ")[2:3] == ["0"]]
        words = [LOGS / "topology.toml", "-", "--plan", LOGS / "plan.json"]
        for more in ("--follow",), ("--follow", "--compact"):
            with Fed(TOOLS / "sundial-record", *words, *more) as tool:
                for line in lines:
                    tool.feed(line)
                    self.assertEqual(tool.line() + "\n", line)
                self.assertEqual(tool.end(), (0, "end 1000110000000\n"))


if __name__ == "__main__":
    unittest.main()
