"""sundial-why: lines of sundial in words, over the files of examples and over files with one fault each."""

import unittest

import networks
from examples import EXAMPLES, outputs
from support import directory, run

from sundial_tools.outputs import FACTS
from sundial_tools.record.main import main as record
from sundial_tools.why.main import main
from sundial_tools.why.resumed import FACTS as TEXTS

TRIANGLE, REFUSED, INCIDENT, LOGS = (EXAMPLES / name for name in ("triangle", "refused", "incident", "logs"))
ROW = '[[device]]\nname = "{}"\n'


class Why(unittest.TestCase):
    def why(self, text, *words, files=None):
        """What is said of lines. Files that are given as texts lie in a folder of their own, under their names."""
        with directory() as path:
            (path / "lines").write_text(text)
            for name, content in (files or {}).items():
                (path / name).write_bytes(content if isinstance(content, bytes) else content.encode())
            named = [path / word if word in (files or {}) else word for word in words]
            status, out, err = run("sundial-why", main, [*named, "--lines", path / "lines"])
            return status, out.replace(str(path) + "/", ""), err

    def says(self, part, text, *words, files=None):
        status, out, err = self.why(text, *words, files=files)
        self.assertEqual((status, err), (0, ""))
        self.assertIn(part, out)
        return out

    # Refused plans

    def refused(self, part, line, plan, topology="topology.toml"):
        out = self.says(part, line + "\n", REFUSED / topology, REFUSED / plan)
        self.assertEqual(out.splitlines()[0], line)
        self.assertIn("    Change: ", out)

    def test_each_condition(self):
        self.refused("shares no domain with it, and could be its backup", "refused plan 1 structure 6 device s2", "structure.json")
        self.refused("s2 - b2 - l2 - b2 - s2", "refused plan 1 ancestor device s2", "ancestor.json")
        self.refused("It has the link b2.", "refused plan 1 root listed tray at link b2", "root.json", "tray-root.toml")
        self.refused("l2 moves to l3 over c", "refused plan 1 loop device s1 cycle l2 l3", "loop.json")
        self.refused("such as l2 over c", "refused plan 1 domain listed tray device l3", "domain.json", "tray-domain.toml")
        self.refused("l3 follows s1 over a3, and has no backup", "refused plan 1 reach device s1 chain l3", "reach.json")

    def test_timing_names_the_wait_and_the_least_that_is_enough(self):
        self.refused("a `wait` of at least 3577384477 ps", "refused plan 1 timing 4 3499299000 3576668000", "timing.json")

    def test_structure_6_without_a_plan_names_the_domain_that_is_shared(self):
        text = (EXAMPLES / "fabric/topology.toml").read_text()
        feed = text.index('name = "feed-a"')
        text = text[:feed] + text[feed:].replace('"spine1"', '"spine1", "leaf4", "leaf5", "leaf6", "leaf7", "leaf8"', 1)
        out = self.says("shares the domain feed-a", "refused plan 1 structure 6 device spine2\n", "t.toml", files={"t.toml": text})
        self.assertIn("There are 3 more ways.", out)

    def unclear(self, part, text, *words, files=None):
        """A sentence and status 1."""
        status, out, err = self.why(text, *words, files=files)
        self.assertEqual((status, err), (1, ""))
        self.assertIn(part, out)

    def test_a_line_of_another_topology(self):
        for line in (
            "refused plan 1 ancestor device nobody", "refused plan 1 loop device r cycle b nobody", "refused plan 1 root listed nowhere at link rb1",
            "refused plan 1 root device r at link nobody", "report 4 nobody 1 2", "alarm 4 roots r nobody", "bound device r nobody 7", "bound listed nowhere r 7",
            "link nobody 1 2 3 inside",
        ):
            with self.subTest(line):
                self.unclear("it is not the topology of this output", line + "\n", TRIANGLE / "topology.toml", TRIANGLE / "plan.json")

    def test_a_fault_that_is_cut_short(self):
        words = [TRIANGLE / name for name in ("topology.toml", "plan.json", "schedule.txt")]
        for fault in (
            "topology Range tick", "topology Limit", "topology Missing", "plan 1 UnknownName", "plan 1 Missing rows.link", "plan 1 Version",
            "schedule 1 Number",
        ):
            with self.subTest(fault):
                self.unclear("The line is cut short", f"input {fault}\n", *words)

    def test_no_line_at_all(self):
        status, out, err = self.why("", TRIANGLE / "topology.toml")
        self.assertEqual((status, out), (1, ""))
        self.assertIn("there is no line", err)

    def test_a_line_that_is_not_utf8_names_its_file(self):
        with directory() as path:
            (path / "lines").write_bytes(b"done 1 1\n\xff\n")
            status, _, err = run("sundial-why", main, [TRIANGLE / "topology.toml", "--lines", path / "lines"])
        self.assertEqual((status, err), (1, f"sundial-why: {path}/lines:2: not UTF-8: invalid start byte at byte 1 of the line\n"))

    def test_a_plan_of_another_topology(self):
        fabric = EXAMPLES / "fabric/plan.json"
        self.says("a plan of another topology", "input plan 1 UnknownName root 0\n", TRIANGLE / "topology.toml", fabric)

    def test_a_renewal_that_is_refused_is_not_the_plan_in_force(self):
        """Under the new plan l2 follows s2, and has another backup than before."""
        text, topology = networks.made("leaf-spine", "--leaves", "3", "--hosts", "1")
        files = {"t.toml": text, "p.json": networks.plan_text(topology)}
        with directory() as path:
            (path / "gone.json").write_text('{"absent_devices": ["spine1"], "absent_links": []}')
            out = self.says("It takes the link leaf1-spine2 of its way, and the link leaf1-spine3 of its backup.",
                            "refused plan 1 domain listed rack1 device leaf1\n", "t.toml", "p.json", "--absent", path / "gone.json", files=files)
        self.assertNotIn("spine1", out)
        out = self.says("It takes the link leaf1-spine1 of its way", "refused plan 1 domain listed rack1 device leaf1\n", "t.toml", files=files)
        self.assertIn("the link leaf1-spine2 of its backup", out)

    # No plan

    def test_each_reason_why_there_is_no_plan(self):
        text, _ = networks.made("mesh", "--devices", "7", "--links-each", "2", "--candidates", "2")
        text += '[[domain]]\nname = "tray"\ndevices = ["node1", "node2"]\n'
        for line, *parts in (
            ("candidates 1", "`roots` has only node1 and node2", "Change: name a second device"),
            ("shared tray", "tray has all devices of `roots`: node1 and node2.", "outside tray"),
            ("apart node4", "No links lead from node1 to node4", "The part of node4: node1, node2, node3, node4, node5 and 2 more."),
            ("deep node1 node4 3 2", "From node1 to node4 it takes 3 links.", "a `depth` of at least 3, with which all devices are near enough to node1"),
            ("few 7 0 7 9", "The network has 7 links. A plan needs at least 9.", "Change: add 2 or more"),
            ("few 9 2 9 9", "The network has 7 links besides 2 whose loss parts the network."),
            ("nocycle", "No two candidates lie on one ring.", "Change: "),
            ("blocks", "meet other parts at one device each", "Change: a link between two parts"),
            ("orphans", "There are devices of which each has only neighbours with two links.", "Change: a third link"),
            ("orphans node1 node5", "Of node1 and node5 each has only"),
        ):
            for part in parts:
                self.says(part, f"impossible {line}\n", "t.toml", files={"t.toml": text})
        self.says("try `sundialctl search` with more steps", "open\n", "t.toml", files={"t.toml": text})
        self.unclear("no domain feed-a: it is not the topology", "impossible shared feed-a\n", "t.toml", files={"t.toml": text})
        self.unclear("no device x: it is not the topology", "impossible orphans node1 x\n", "t.toml", files={"t.toml": text})

    def test_one_candidate_alone(self):
        """`plan` breaks the first rule of structure, and a search prints the reason itself."""
        text = (TRIANGLE / "topology.toml").read_text()
        lone = text.replace('roots = ["r", "b", "x"]', 'roots = ["b"]')
        self.assertNotEqual(lone, text)
        for line in ("refused plan 1 structure 1 device r\n", "impossible candidates 1\n"):
            out = self.says("`roots` has only b.", line, "t.toml", files={"t.toml": lone})
            self.assertIn("Change: name a second device in `roots`.", out)
        self.says("The root and the backup root have to be two devices", "refused plan 1 structure 1 device r\n", "t.toml", files={"t.toml": text})

    def test_a_period_that_is_too_short_for_any_plan(self):
        text = (TRIANGLE / "topology.toml").read_text()
        self.unclear("it is not the topology of this output", "impossible timing\n", "t.toml", files={"t.toml": text})
        short = text.replace("period = 100000000", "period = 10000000")
        self.assertNotEqual(short, text)
        self.says("Change: a `period` of at least", "impossible timing\n", "t.toml", files={"t.toml": short})

    # Topologies and plans

    def topology(self, part, line, change):
        text = (TRIANGLE / "topology.toml").read_text()
        for old, new in change.items():
            self.assertIn(old, text)
            text = text.replace(old, new, 1)
        return self.says(part, f"input topology {line}\n", "t.toml", files={"t.toml": text})

    def test_a_topology_names_the_line_and_the_nearest_name(self):
        out = self.topology("t.toml, line 22: `ends` of link 1, rb1 has 'R'", "UnknownName link.ends 1", {'ends = ["r", "b"]': 'ends = ["R", "b"]'})
        self.assertIn("did you mean 'r'?", out)
        self.topology("t.toml, line 3: `ppm` is 100001. It has to be 0 to 100000", "Range ppm 0", {"ppm = 200": "ppm = 100001"})
        self.topology("is a text in quotes ('200'), and has to be a whole number", "WrongKind ppm 0", {"ppm = 200": 'ppm = "200"'})
        self.topology("'rb1' stands twice", "TwiceNamed link.name 2", {'name = "rb2"': 'name = "rb1"'})
        self.topology("there is no `max` of link 1, rb1", "Missing link.max 1", {"max = 1000000\n": ""})
        self.topology("line 3, column", "NotToml", {"ppm = 200": "ppm ="})

    def test_a_byte_order_mark_is_named(self):
        text = b"\xef\xbb\xbf" + (TRIANGLE / "plan.json").read_bytes()
        self.says("byte order mark", "input plan 1 NotJson\n", TRIANGLE / "topology.toml", "p.json", files={"p.json": text})

    def test_a_byte_order_mark_of_a_topology_is_passed_over(self):
        text = b"\xef\xbb\xbf" + (TRIANGLE / "topology.toml").read_bytes().replace(b"ppm = 200", b"ppm =")
        self.says("line 3, column", "input topology NotToml\n", "t.toml", files={"t.toml": text})

    def plan(self, part, line, old, new):
        text = (TRIANGLE / "plan.json").read_text()
        self.assertIn(old, text)
        return self.says(part, f"input plan 1 {line}\n", TRIANGLE / "topology.toml", "p.json", files={"p.json": text.replace(old, new, 1)})

    def test_a_plan_names_line_and_column(self):
        out = self.plan("has 'rb9', and there is no link", "UnknownName rows.link 1", '"link":"rb1"', '"link":"rb9"')
        self.assertIn("p.json, line 1, column 124: `link` of row 1, that of b", out)
        self.plan("p.json, line 1, column 69", "NotJson", '"rows"', "rows")
        self.plan("there is no `wait`", "Missing wait 0", '"wait":', '"weight":')

    def test_a_refusal_in_the_file_of_a_plan(self):
        files = {"p.json": "refused plan 1 structure 6 device b\n"}
        self.says("printed in place of a plan", "input plan 1 NotJson\n", TRIANGLE / "topology.toml", "p.json", files=files)

    def test_an_absent_text(self):
        files = {"gone.json": '{"absent_devices": ["R"], "absent_links": []}'}
        line = "input absent UnknownName absent_devices 0\n"
        with directory() as path:
            (path / "gone.json").write_text(files["gone.json"])
            self.says("did you mean 'r'?", line, TRIANGLE / "topology.toml", TRIANGLE / "plan.json", "--absent", path / "gone.json")

    # Schedules

    def schedule(self, part, number, reason, text, plans=("plan.json", "plan-2.json")):
        words = [TRIANGLE / "topology.toml", *(TRIANGLE / it for it in plans), "s.txt"]
        return self.says(part, f"input schedule {number} {reason}\n", *words, files={"s.txt": text})

    def test_the_form_of_a_line(self):
        self.schedule("Windows line end (CRLF)", 1, "Number 5", "start 0 0 0 0 500\r\nend 0\r\n")
        self.schedule("a space stands at the end of the line", 1, "FieldCount", "start 0 0 0 0 500 \n")
        self.schedule("two spaces stand side by side", 1, "FieldCount", "start 0  0 0 0 500\n")
        self.schedule("devices and links have numbers", 1, "Number 2", "start 0 r 0 0 500\n")
        self.schedule("a leading zero", 1, "Number 1", "start 00 0 0 0 500\n")
        self.schedule("words have small letters", 1, "UnknownWord", "Start 0 0 0 0 500\n")
        self.schedule("did you mean 'start'?", 1, "UnknownWord", "strat 0 0 0 0 500\n")
        self.schedule("the line is empty", 1, "UnknownWord", "\n")
        self.schedule("the recording was cut off", 2, "NoEnd", "start 0 0 0 0 500\n")

    def test_each_cause_of_window_order(self):
        begin = "start 0 0 0 0 500\nstart 0 1 0 0 500\nstart 0 2 0 0 500\n"
        window = begin + "stage 5\n"
        self.schedule("line 4 opened is still open", 5, "WindowOrder", window + "stage 6\n")
        self.schedule("There was no `stage` before", 4, "WindowOrder", begin + "give 5 1\n")
        self.schedule("plan 2, is b, and x commits", 5, "WindowOrder", window + "commit 6 2 5\n")
        self.schedule("b holds no duty of the staged plan", 5, "WindowOrder", window + "commit 6 1 5\n")
        self.schedule("has no `commit` yet", 5, "WindowOrder", window + "seal 6 2\n")
        committed = window + "give 6 1\ncommit 7 1 7\n"
        self.schedule("had its `commit` at line 6", 7, "WindowOrder", committed + "give 8 2\n")
        self.schedule("x does not follow the staged plan yet", 7, "WindowOrder", committed + "seal 8 2\n")

    def test_an_event_that_is_refused(self):
        begin = "start 0 0 0 0 500\n"
        self.schedule("numbered from 0 to 2", 2, "UnknownDevice", begin + "tick 5 3 5\n")
        self.schedule("2 ps before that of line 2", 3, "TimeFalls", begin + "tick 5 0 5\nask 3 0 5\n")
        self.schedule("r showed 5 at line 2, and 4 here", 3, "CounterFalls", begin + "tick 5 0 5\nask 5 0 4\n")
        self.schedule("r failed at line 2", 3, "DeadDevice", begin + "fail 5 device 0\ntick 6 0 6\n")
        self.schedule("r began at line 1 already", 2, "StartedTwice", begin + "start 5 0 5 5 5\n")
        self.schedule("b is not up", 2, "NotStarted", begin + "tick 5 1 5\n")
        self.schedule("0 were sent so far", 2, "UnknownMessage", begin + "lose 5 1\n")
        self.schedule("The command names 1 plans", 2, "NoPlanLeft", begin + "stage 5\n", plans=("plan.json",))

    def test_a_message_that_was_told_already(self):
        lines = (TRIANGLE / "schedule.txt").read_text().splitlines(keepends=True)
        at = next(at for at, line in enumerate(lines) if line.startswith("recv"))
        text = "".join([*lines[: at + 1], lines[at]])
        self.schedule(f"was told already, at line {at + 1}", at + 2, "SpentMessage", text)

    # Openings

    OPENING = (
        "start 160000000 0 160003200 160003200 33501", "start 160550000 1 160540367 160703200 333501",
        "start 160740000 2 160757681 160703200 333501", "fix 160996780 0 161000000 161000000 32700",
    )

    def opening(self, part, line, opening, count=16, more=""):
        """The opening of docs/WATCH.md, or a changed one, for the front of the schedule of the triangle."""
        lines = (TRIANGLE / "schedule.txt").read_text().splitlines()[:16]
        texts = ["".join(f"{it}\n" for it in text) for text in (lines[:count], [*opening, *lines[13:16]])]
        words = [TRIANGLE / "topology.toml", TRIANGLE / "plan.json", "before", "/", TRIANGLE / "plan.json", "opening"]
        return self.says(part, line + "\n", *words, files={"before": texts[0] + more, "opening": texts[1]})

    def test_an_opening_that_stands_for_the_schedule(self):
        out = self.opening("The opening of 7 lines stands for the schedule of 16", "agree 16 7", self.OPENING)
        self.assertIn("greater by 9 in the whole", out)

    def test_in_what_an_opening_differs(self):
        out = self.opening("r would report another time, or another EPS", "differ estimate 0", self.OPENING[:3])
        self.assertIn("At the end of the schedule: 240004800 ps with an EPS of 49501 ps (49.5 ns). At the end of the opening: 240004800 ps with an EPS of 50502 ps", out)
        self.assertIn("Change: the clock and EPS of its last `start` or `fix`", out)
        out = self.opening("have two references", "differ time", self.OPENING, more="tick 170000000 0 170003400\n")
        self.assertIn("At the end of the schedule: 170000000. At the end of the opening: ", out)
        self.opening("to b over rb1, and it can come until", "differ message 1", self.OPENING, 8)
        changed = [self.OPENING[0], self.OPENING[1].replace("160540367", "160540366"), *self.OPENING[2:]]
        self.opening("the schedule: 160540367. At the end of the opening: 160540366.", "differ last 1", changed)

    def test_each_fact_has_words(self):
        self.assertEqual(set(TEXTS), set(FACTS))
        for fact, thing in FACTS.items():
            line = f"differ {fact} 1" if thing else f"differ {fact}"
            out = self.says("The opening does not stand for the schedule. ", line + "\n", TRIANGLE / "topology.toml")
            self.assertIn("\n    Change: ", out)
            self.assertEqual({"device": "b ", "link": "rb2 ", "message": "Message 1 "}.get(thing, "") in out, True)

    def test_why_a_line_of_an_opening_is_refused(self):
        self.opening("A replay refuses it too: CounterFalls.", "input opening 4 Refused", [*self.OPENING[:3], "fix 160996780 0 1 161000000 32700"])
        self.opening("r showed 160003200 at line 1, and 1 here", "input opening 4 Refused", [*self.OPENING[:3], "fix 160996780 0 1 161000000 32700"])
        self.opening("A replay refuses it too: Number 2.", "input schedule 17 Refused", self.OPENING, more="ask 160996780 r 161000000\n")
        self.opening("`sundial replay` names the reason", "input opening 3 Refused", self.OPENING)
        self.says("Name its file for more after /.", "input opening 3 Refused\n", TRIANGLE / "topology.toml")

    # Merged logs

    def log(self, part, reason, *changed):
        """The merged log of the logs of docs/RECORD.md with further lines after its eighth."""
        files = [LOGS / f"{name}.jsonl" for name in "rbx"]
        lines = run("sundial-record", record, [LOGS / "topology.toml", *files, "-p", LOGS / "plan.json", "--counters", "life", "--compact"])[1]
        text = "".join(f"{line}\n" for line in [*lines.splitlines()[:8], *changed])
        words = [LOGS / "topology.toml", LOGS / "plan.json", "log"]
        return self.says(part, f"input log {8 + len(changed)} {reason}\n", *words, files={"log": text})

    def test_a_refused_line_of_a_merged_log(self):
        twice = "recv 1000110700000 1 110696000 0 1 0 1"
        out = self.log("No message of epoch 1, term 0, round 1 is on its way to b over rb: r has come to", "UnknownMessage", twice)
        self.assertIn(f'log, line 9: "{twice}"', out)
        self.log("CounterFalls: the counter of b is 1 ps less than before", "CounterFalls", "ask 1000110700000 1 110695999")
        self.log("Its REF 1 is 1000110699999 ps before that of line 8", "TimeFalls", "ask 1 1 1")
        self.log("`recv` has 7 fields, REF DEVICE COUNTER LINK EPOCH TERM ROUND, and here are 4", "FieldCount", "recv 1000110700000 1 110696000 1")
        self.log("Field 4 of `lose`, EPOCH, is 'one'", "Number 4", "lose 1000110700000 1 0 one 0 1")
        self.log("The event is refused: UnknownDevice.", "UnknownDevice", "ask 1000110700000 7 1")
        self.log("without its `end` line", "NoEnd")
        self.says("The log is refused. Name its file for more.", "input log 3 NotStarted\n", LOGS / "topology.toml")

    def test_a_refused_line_of_a_feed(self):
        files, words = {"feed": "1 past 7\n1 tick 5 0 5\n"}, [LOGS / "topology.toml", LOGS / "plan.json", "feed"]
        out = self.says("told to bring nothing before a later REF", "input feed 2 OutOfOrder\n", *words, files=files)
        self.assertIn('feed, line 2: "1 tick 5 0 5"', out)
        self.says("The line is refused: Number 3.", "input feed 2 Number 3\n", *words, files=files)

    # Replays, drills and exchanges

    def test_an_incident(self):
        words = [INCIDENT / it for it in ("topology.toml", "plan.json", "plan.json", "schedule.txt")]
        text = next(text for command, text in outputs("incident").items() if "schedule.txt" in command and text.startswith("report 12"))
        out = self.says("spine2, leaf, spine1 did not tick for 1,410,000,000 ps (since line 5)", text, *words)
        self.assertIn("spine2 took over at line 21", out)
        self.assertIn("reached leaf over spine1-leaf after 1,900,000 ps", out)
        self.assertIn("off by 1200000 ps (1.2 us): wrong", out)

    def test_a_lying_clock(self):
        words = [EXAMPLES / "lying-clock" / it for it in ("topology.toml", "plan.json", "broken.txt")]
        self.says("7,000 ps apart", "broken 9 drift\n", *words)

    def test_lines_without_files_beside_the_topology(self):
        topology = TRIANGLE / "topology.toml"
        self.says("no report of x is off by more than 5048333 ps (5.048 us)", "bound device r x 5048333\n", topology)
        self.says("r is down itself", "nobound device r r\n", topology)
        self.says("no report of x is off by more than 4359213 ps (4.359 us)", "bounds device r x 5048333 4359213 2016436\n", topology)
        self.says("While nothing has failed, no report of r is off by more than 1716436 ps (1.716 us)", "nobound device r r 1716436\n", topology)
        self.says("3 devices, 6 links, 9 things", "accepted 3 6 9\n", topology)
        self.says("The words are not those of a command", "usage: sundial solo SCHEDULE\n", topology)

    def test_a_line_of_exchanges(self):
        files = {"e.txt": "exchange 9 0 0 0 5000000 6000000 2400000\nend\n"}
        self.says("There is no link 9", "input exchanges 1 UnknownLink\n", TRIANGLE / "topology.toml", "e.txt", files=files)
        files = {"e.txt": "exchange 0 0 0 5 5000000 6000000 2\nend\n"}
        self.says("T4 2 is less than T1 5", "input exchanges 1 Backwards\n", TRIANGLE / "topology.toml", "e.txt", files=files)

    def test_a_line_that_sundial_does_not_print(self):
        status, out, _ = self.why("hello\n", TRIANGLE / "topology.toml")
        self.assertEqual((status, out), (1, "hello\n    (no line that sundial prints)\n"))

    def test_two_schedules_are_refused(self):
        schedule = TRIANGLE / "schedule.txt"
        status, _, err = self.why("", TRIANGLE / "topology.toml", schedule, schedule)
        self.assertEqual(status, 1)
        self.assertIn("two schedules", err)


if __name__ == "__main__":
    unittest.main()
