"""sundial-lines: the output of any command as JSON lines and as CSV."""

import csv
import io
import json
import re
import subprocess
import unittest

from support import DATA, TOOLS, directory, needs_sundial, run, sundial
from test_record import RENEWAL

from sundial_tools.lines.main import main
from sundial_tools.outputs import FACTS
from sundial_tools.topology import read_topology, topology_text

RENEWED = "report 22 b 215700000 345500\nreport 23 x 215400000 345440\ndone 30 2\n"
KINDS = {
    "accepted 5 6 11\n": {"kind": "accepted", "devices": 5, "links": 6, "domains": 11},
    "case 3102 30 3202950 0 0\n": {"kind": "case", "events": 3102, "reports": 30, "eps": 3202950, "broken": 0, "alarms": 0},
    "refused plan 1 structure 3 device l3\n": {"kind": "refused structure", "plan": 1, "rule": 3, "device": "l3"},
    "refused plan 1 ancestor device s2\n": {"kind": "refused ancestor", "plan": 1, "device": "s2"},
    "refused plan 1 timing 4 3499299000 3576668000\n":
        {"kind": "refused timing", "plan": 1, "rule": 4, "left": 3499299000, "right": 3576668000},
    "refused plan 1 reach link k chain x y\n":
        {"kind": "refused reach", "plan": 1, "domain": {"kind": "link", "name": "k"}, "chain": ["x", "y"]},
    "input topology TwiceNamed domain.devices 1\n": {"kind": "input topology", "reason": "TwiceNamed domain.devices 1"},
    "input plan 2 NotJson\n": {"kind": "input plan", "plan": 2, "reason": "NotJson"},
    "input absent WrongKind absent 0\n": {"kind": "input absent", "reason": "WrongKind absent 0"},
    "input exchanges 2 Backwards\n": {"kind": "input exchanges", "line": 2, "reason": "Backwards"},
    "broken 5 start\n": {"kind": "broken", "line": 5, "premise": "start"},
    "alarm 6 interval b 1004000\n": {"kind": "alarm interval", "line": 6, "device": "b", "ref": 1004000},
    "ended 6 4\n": {"kind": "ended", "line": 6, "begin": 4},
    "disorder 6 3\n": {"kind": "disorder", "line": 6, "begin": 3},
    "begin 6 b 1500\n": {"kind": "begin", "line": 6, "device": "b", "stamp": 1500},
    "waits 3 1 1\n": {"kind": "waits", "begun": 3, "ended": 1, "disorders": 1},
    "nobound device x x\n": {"kind": "nobound", "domain": {"kind": "device", "name": "x"}, "device": "x"},
    "nobound device x x 2016436\n": {"kind": "nobound", "domain": {"kind": "device", "name": "x"}, "device": "x", "calm": 2016436},
    "bounds link rx1 x 5048333 4359213 2016436\n": {
        "kind": "bounds", "domain": {"kind": "link", "name": "rx1"}, "device": "x", "drill": 5048333, "tight": 4359213, "calm": 2016436,
    },
    "agree 16 7\n": {"kind": "agree", "lines": 16, "opening": 7},
    "differ window\n": {"kind": "differ", "fact": "window"},
    "differ estimate 0\n": {"kind": "differ", "fact": "estimate", "thing": "device", "number": 0},
    "differ failed-link 2\n": {"kind": "differ", "fact": "failed-link", "thing": "link", "number": 2},
    "differ message 5\n": {"kind": "differ", "fact": "message", "thing": "message", "number": 5},
    "input opening 3 Refused\n": {"kind": "input opening", "line": 3, "reason": "Refused"},
    "input log 3 UnknownMessage\n": {"kind": "input log", "line": 3, "reason": "UnknownMessage"},
    "input feed 3 Number 2\n": {"kind": "input feed", "line": 3, "reason": "Number 2"},
    "impossible candidates 1\n": {"kind": "impossible candidates", "count": 1},
    "impossible timing\n": {"kind": "impossible timing"},
    "impossible shared feed-a\n": {"kind": "impossible shared", "listed": "feed-a"},
    "impossible apart x\n": {"kind": "impossible apart", "device": "x"},
    "impossible deep r x 5 3\n": {"kind": "impossible deep", "candidate": "r", "device": "x", "hops": 5, "depth": 3},
    "impossible few 5 0 5 6\n": {"kind": "impossible few", "links": 5, "bridges": 0, "devices": 5, "needed": 6},
    "impossible nocycle\n": {"kind": "impossible nocycle"},
    "impossible blocks\n": {"kind": "impossible blocks"},
    "impossible orphans\n": {"kind": "impossible orphans"},
    "impossible orphans x y\n": {"kind": "impossible orphans", "devices": ["x", "y"]},
    "open\n": {"kind": "open"},
    "usage: sundial solo SCHEDULE\n": {"kind": "usage", "text": "usage: sundial solo SCHEDULE"},
}


class Lines(unittest.TestCase):
    def convert(self, text, *more, files=None):
        with directory() as path:
            (path / "output").write_text(text)
            words = [path / "output"]
            for option, content in (files or {}).items():
                (path / option).write_text(content)
                words += [f"--{option}", path / option]
            return run("sundial-lines", main, words + list(more))

    def rows(self, text, *more, files=None):
        status, out, err = self.convert(text, *more, files=files)
        self.assertEqual((status, err), (0, ""))
        return [json.loads(line) for line in out.splitlines()]

    def renewed(self, text=RENEWED, *more, schedule=RENEWAL, topology=None):
        files = {"schedule": schedule, "topology": topology or (DATA / "triangle.toml").read_text()}
        return self.convert(text, *more, files=files)

    def test_each_form(self):
        for text, row in KINDS.items():
            self.assertEqual(self.rows(text), [row])

    def test_events_and_names(self):
        status, out, _ = self.renewed()
        rows = [json.loads(line) for line in out.splitlines()]
        self.assertEqual(status, 0)
        self.assertEqual(rows[1], {
            "kind": "report", "line": 23, "device": "x", "clock": 215400000, "eps": 345440, "ref": 215700000,
            "event": {"word": "ask", "device": "x", "counter": 215700000}, "off": -300000, "inside": True,
        })
        self.assertEqual(rows[2], {"kind": "done", "events": 30, "reports": 2})

    def test_the_thing_in_which_an_opening_differs_has_a_name(self):
        topology = {"topology": (DATA / "triangle.toml").read_text()}
        for text, name in ("differ estimate 1\n", "b"), ("differ link 2\n", "bx"), ("differ failed-device 0\n", "r"), ("differ up 7\n", 7):
            self.assertEqual(self.rows(text, files=topology)[0]["name"], name)
        for text in "differ time\n", "differ message 2\n":
            self.assertNotIn("name", self.rows(text, files=topology)[0])

    def test_each_word_of_resume_is_known(self):
        printed = TOOLS.parent / "crates" / "sd_resume" / "specs" / "Printed.antt"
        if not printed.is_file():
            self.skipTest("there are no definitions")
        words = set(re.findall(r'codes "([a-z-]+)"', printed.read_text())) - {"agree", "differ"}
        self.assertGreater(len(words), 15)
        self.assertEqual(words - set(FACTS), set())

    def test_a_refused_line_of_an_opening_is_none_of_the_schedule(self):
        out = self.renewed("input opening 2 Refused\n")[1]
        self.assertEqual(json.loads(out), {"kind": "input opening", "line": 2, "reason": "Refused"})
        out = self.renewed("input schedule 2 Refused\n")[1]
        self.assertEqual(json.loads(out)["text"], RENEWAL.splitlines()[1])

    def test_things_that_fail_have_names(self):
        schedule = "start 0 0 0 0 500\nfail 5 link 2\nfail 6 device 1\nend 7\n"
        out = self.renewed("broken 2 tick\nbroken 3 domain\ndone 4 0\n", schedule=schedule)[1]
        rows = [json.loads(line) for line in out.splitlines()]
        self.assertEqual(rows[0]["event"], {"word": "fail", "thing": "link", "number": 2, "name": "bx"})
        self.assertEqual(rows[1]["event"]["name"], "b")

    def test_a_refused_line_has_its_text(self):
        out = self.renewed("input schedule 2 UnknownWord\n", schedule="start 0 0 0 0 500\nstrat 1\n")[1]
        self.assertEqual(json.loads(out)["text"], "strat 1")
        out = self.renewed("input schedule 2 NoEnd\n", schedule="start 0 0 0 0 500\n")[1]
        self.assertNotIn("text", json.loads(out))
        rows = self.rows("input exchanges 2 Backwards\n", files={"exchanges": "exchange 0 0 0 0 0 0 0\nexchange 0 0 0 5 1 1 4\n"})
        self.assertEqual(rows[0]["text"], "exchange 0 0 0 5 1 1 4")

    def test_what_done_counts(self):
        self.assertEqual(self.rows("link rb 1 2 3 inside\ndone 4 1\n")[1], {"kind": "done", "lines": 4, "links": 1})
        self.assertEqual(self.rows("bound device x r 5\ndone 1 1\n")[1], {"kind": "done", "domains": 1, "members": 1})
        self.assertEqual(self.rows("bounds device x r 5 4 3\nnobound device r r 3\ndone 2 1\n")[2], {"kind": "done", "domains": 2, "members": 1})
        self.assertEqual(self.rows("done 4 0\n", "--command", "twoway")[0], {"kind": "done", "lines": 4, "links": 0})
        self.assertIn("say --command", self.convert("done 4 0\n")[2])

    def test_csv(self):
        status, out, _ = self.renewed(RENEWED, "--csv")
        rows = list(csv.DictReader(io.StringIO(out)))
        self.assertEqual(status, 0)
        self.assertEqual([row["kind"] for row in rows], ["report", "report", "done"])
        self.assertEqual((rows[1]["event.device"], rows[1]["off"], rows[1]["inside"]), ("x", "-300000", "true"))
        self.assertEqual((rows[2]["events"], rows[2]["clock"]), ("30", ""))

    def test_csv_of_each_form(self):
        for text, row in KINDS.items():
            status, out, err = self.convert(text, "--csv")
            self.assertEqual((status, err), (0, ""), text)
            self.assertEqual(next(csv.DictReader(io.StringIO(out)))["kind"], row["kind"])

    def test_numbers_that_a_float_does_not_hold(self):
        text = "report 1 b 9007199254740993 9007199254740992\n"
        self.assertEqual(self.rows(text)[0]["clock"], 9007199254740993)
        row = self.rows(text, "--strings")[0]
        self.assertEqual((row["clock"], row["eps"]), ("9007199254740993", 9007199254740992))

    def test_a_plan(self):
        text = (DATA / "triangle-1.json").read_text()
        rows = self.rows(text, files={"topology": (DATA / "triangle.toml").read_text()})
        self.assertEqual(rows[0]["wait_first"], 1345000000)
        self.assertEqual(rows[2], {
            "kind": "plan row", "device": "x", "parent": "r", "link": "rx", "backup": "b", "backup_link": "bx"
        })
        self.assertIn("the output is a plan: say --topology", self.convert(text)[2])

    def test_a_topology(self):
        text = topology_text(read_topology(str(DATA / "triangle.toml")))
        rows = self.rows(text)
        self.assertEqual([row["kind"] for row in rows[:2]], ["topology", "topology device"])
        self.assertEqual((rows[4]["first"], rows[4]["back_max"]), ("r", 1000000))
        self.assertEqual(self.convert(text, "--csv")[0], 0)

    def test_bad_outputs(self):
        for text, reason in (
            (RENEWED[:-5], "output:3: no line that sundial prints: 'done '"),
            (RENEWED[:-1], "output:3: the output is cut short: its last line has no newline"),
            (RENEWED.replace("report 23", "raport 23"), "output:2: no line that sundial prints: 'raport 23 x 215400000 345440'"),
            ("", "the output is empty"),
            (RENEWED.replace("report 23", "report 2"), "the output is out of order: line 2 comes after line 22"),
            (RENEWED.replace("report 22", "report 21"), "schedule:21: line 21 is no ask"),
            (RENEWED.replace("report 22 b", "report 22 x"), "schedule:22: the ask is of b, and the report of x"),
            (RENEWED.replace("report 23", "report 31"), "the schedule has no line 31"),
            ("link rb 1 2 3 inside\nbound device x r 5\n", "does not stand in the output of this command"),
            ("bound device x r 5\nbounds device x r 5 4 3\n", "does not stand in the output of this command"),
            ("nobound device x x 3\nnobound device x x\n", "does not stand in the output of this command"),
        ):
            with self.subTest(reason):
                text = text + "\n" if text == RENEWED[:-5] else text
                status, out, err = self.renewed(text, "--csv")
                self.assertEqual((status, out), (1, ""))
                self.assertIn(reason, err)

    def test_a_refused_topology_is_told_and_not_read(self):
        """The topology that `sundial` refused is refused by the tool too: what counts is the verdict."""
        text = "input topology UnknownKey latency\n"
        for more in [], ["--csv"]:
            status, out, err = self.renewed(text, *more, topology="version = 1\nlatency = 5\n")
            self.assertEqual((status, err), (0, ""))
        self.assertEqual(self.rows(text)[0]["reason"], "UnknownKey latency")
        text = "refused plan 1 timing 4 3 5\n"
        self.assertEqual(self.rows(text, files={"plan": "{", "topology": (DATA / "triangle.toml").read_text(), "schedule": ""})[0]["rule"], 4)

    def test_words_that_are_not_known(self):
        for text in (
            "broken 5 clock\n", "alarm 5 fire b\n", "link rb 1 2 3 between\n", "report 5 b/c 1 2\n", "bound listed a+b x 5\n",
            "refused plan 1 loop listed c cycle x y!\n", "report 22 b 1 2\r\n", "broken 5 start\r\n", "input plan 1 NotJson\r\n",
            "differ\n", "differ clock\n", "differ time 1\n", "differ estimate\n", "differ estimate x\n", "differ up 1 2\n", "agree 1\n",
            "usage: sundial\r\n", "input topology NoToml \u2028\n",
        ):
            with self.subTest(text):
                status, out, err = self.convert(text)
                self.assertEqual((status, out), (1, ""))
                self.assertIn("no line that sundial prints", err)

    def test_a_carriage_return_from_standard_input(self):
        done = subprocess.run(
            [TOOLS / "sundial-lines"], input=b"broken 5 start\r\ndone 5 0\r\n", capture_output=True, check=False
        )
        self.assertEqual(done.returncode, 1)
        self.assertIn(b"standard input:1: no line that sundial prints", done.stderr)

    def test_lines_that_no_one_output_has(self):
        for text, reason in (
            ("done 1 0\nreport 2 b 1 2\n", "a line after the last one, which was done"),
            ("refused plan 1 ancestor device b\ndone 1 0\n", "a line after the last one, which was refused"),
            ("agree 16 7\ndiffer time\n", "a line after the last one, which was agree"),
            ("report 1 b 1 2\ndiffer time\n", "does not stand in the output of this command"),
            ("report 1 b 1 2\naccepted 1 1 1\n", "does not stand in the output of this command"),
            ("report 2 b 1 2\nreport 1 b 1 2\n", "the output is out of order: line 1 comes after line 2"),
            ("report 1 b 1 2\ndone 5 2\n", "done says 2 reports, and 1 were read"),
            ("link rb 1 2 3 inside\ndone 5 2\n", "done says 2 links, and 1 were read"),
            ("bound device r x 5\nbound device r y 5\ndone 1 3\n", "done says 1 domains of 3 members, so 3 lines, and 2 were read"),
            ("nobound device r x 5\nbounds device r y 7 6 5\ndone 1 3\n", "done says 1 domains of 3 members, so 3 lines, and 2 were read"),
        ):
            with self.subTest(text):
                status, out, err = self.convert(text, "--command", "replay")
                self.assertEqual((status, out), (1, ""))
                self.assertIn(reason, err)
        self.assertEqual(len(self.rows("done 7 3\nwaits 3 1 1\n", "--command", "order")), 2)

    def test_plans_need_a_topology_and_a_schedule(self):
        status, _, err = self.convert("done 1 0\n", "--plan", DATA / "triangle-1.json")
        self.assertEqual((status, err), (1, "sundial-lines: --plan needs --topology and --schedule\n"))

    def test_a_bad_line_of_the_schedule(self):
        for bad, reason in ("ask 215700000 7 215700000", "no device 7"), ("ask 215700000 1 0215", "Number 3"):
            schedule = RENEWAL.replace("ask 215700000 1 215700000", bad)
            status, out, err = self.renewed(RENEWED, schedule=schedule)
            self.assertEqual((status, out), (1, ""))
            self.assertIn("schedule:22: ", err)
            self.assertIn(reason, err)

    def test_nothing_half_written(self):
        with directory() as path:
            (path / "output").write_text(RENEWED + "half")
            status = run("sundial-lines", main, [path / "output", "--output", path / "rows"])[0]
            self.assertEqual(status, 1)
            self.assertFalse((path / "rows").exists())


@needs_sundial
class Program(unittest.TestCase):
    """What the program itself prints is understood."""

    def test_commands(self):
        topology, plan, other = DATA / "triangle.toml", DATA / "triangle-1.json", DATA / "triangle-2.json"
        with directory() as path:
            (path / "schedule").write_text(RENEWAL)
            (path / "absent").write_text('{"absent_devices":["x"],"absent_links":[]}')
            (path / "exchanges").write_text("exchange 0 0 0 0 5000000 6000000 2400000\nend\n")
            for words in (
                ("migrate", topology), ("plan", topology), ("check", topology, plan), ("renew", topology, plan, path / "absent"),
                ("replay", topology, plan, other, path / "schedule"), ("replay", topology, plan, path / "schedule"),
                ("order", topology, plan, other, path / "schedule"), ("twoway", topology, path / "exchanges"),
                ("drill", topology, plan, 1000000, 3000000000), ("case", 1, 2, 3), ("solo", path / "schedule"), ("sum",),
            ):
                out = sundial(*words)[1]
                (path / "output").write_text(out)
                for more in [], ["--csv"]:
                    command = ["--command", words[0]] if out.startswith("done") else []
                    answer = run("sundial-lines", main, [path / "output", "--topology", topology, *more, *command])
                    self.assertEqual((answer[0], answer[2]), (0, ""), words)


if __name__ == "__main__":
    unittest.main()
