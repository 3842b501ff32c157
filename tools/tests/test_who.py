"""Who broke a premise: devices, links and numbers, over schedules whose verdicts a plain replay gives."""

import json
import random
import unittest

import case
from examples import EXAMPLES, outputs
from support import directory, run
from test_plain_replay import BASE, BEFORE_THE_COMMIT, COMMITTED, PLANS, PREMISES, STARTS, TRIANGLE, replayed

from sundial_tools.fleet.fleet import Fleet
from sundial_tools.fleet.who import Watch
from sundial_tools.lines.main import main
from sundial_tools.plain.lines import Replay
from sundial_tools.plain.refusals import refusal
from sundial_tools.plan import read_plan
from sundial_tools.schedule import parse_event
from sundial_tools.topology import parse_topology


def who(schedule, topology=None, plans=PLANS):
    """The rows of broken premises, each with who broke it. `schedule` has no end."""
    topology = topology or TRIANGLE.read_text()
    schedule = [*schedule, "end " + schedule[-1].split()[1]]
    with directory() as path:
        (path / "topology").write_text(topology)
        (path / "schedule").write_text("\n".join(schedule) + "\n")
        (path / "output").write_text("\n".join(replayed(schedule, topology, plans)[0]) + "\n")
        words = [path / "output", "--topology", path / "topology", "--schedule", path / "schedule"]
        for plan in plans:
            words += ["--plan", plan]
        status, out, err = run("sundial-lines", main, words)
        assert status == 0, err
        assert run("sundial-lines", main, [*words, "--csv"])[0] == 0
    return [row for row in map(json.loads, out.splitlines()) if row["kind"] == "broken"]


class WhoBrokeIt(unittest.TestCase):
    def check(self, schedule, premise, devices, links=(), allowed=None, seen=None, text="", **more):
        row = next(row for row in who(schedule, **more) if row["premise"] == premise)
        told = row["who"]
        self.assertEqual((told["devices"], told["links"]), (list(devices), list(links)))
        self.assertEqual((told.get("allowed"), told.get("seen")), (allowed, seen))
        self.assertIn(text, told["text"])

    def test_each_premise(self):
        sent = BASE[:7]
        self.check(["start 1001 0 0 0 1000"], "start", ["r"], [], 1000, 1001)
        self.check(
            ["start 0 0 0 0 0", "tick 5002001 0 5000000"], "drift", ["r"], [], 2000, 2001,
            "advanced by 5,000,000 ps since line 1, while 5,002,001 ps passed",
        )
        # each step is allowed, and the first and the last reading together are not
        self.check(["start 0 0 0 0 0", "tick 1001200 0 1000000", "tick 2002400 0 2000000"], "drift", ["r"], [], 1400, 2400)
        self.check([*sent, "recv 110399999 1 110399999 1"], "delay", ["r", "b"], ["rb"], 400000, 399999)
        self.check([*sent, "recv 111000001 1 111000001 1"], "delay", ["r", "b"], ["rb"], 1000000, 1000001)
        self.check(
            ["start 0 0 0 0 0", "fix 90000001 0 90000001 90000001 0"], "tick", ["r"], [], 90000000, 90000001, "since line 1",
        )
        self.check(["fail 0 device 2", "fail 0 link 1"], "domain", ["x"], ["rx"], 1, None, "the device x at line 1, the link rx at line 2")

    def test_who_never_started(self):
        schedule = ["start 0 0 0 0 0", "start 0 1 0 0 0", "tick 80000000 0 80000000", "tick 80000000 1 80000000"]
        schedule.append("tick 90000001 0 90000001")
        self.check(schedule, "tick", ["x"], [], 90000000, 90000001, "x had not started")

    def test_loss(self):
        topology = TRIANGLE.read_text().replace("loss = 1", "loss = 0")
        schedule = [*BASE[:7], "recv 110700000 2 110700000 2", "tick 112000000 0 112000000"]
        text = "1 rounds in a row of term 0 were spoiled, 1 to 1, and at most 0 may be"
        self.check(schedule, "loss", ["b"], ["rb", "bx"], 0, 1, text, topology=topology)

    def test_renewals(self):
        for schedule, devices, links, text in (
            ([*COMMITTED, "fail 112000000 link 2"], [], ["bx"], "the link bx failed after a commit"),
            (["start 0 0 0 0 500", "stage 0", "start 0 1 0 0 0"], ["b"], [], "b started after a stage"),
            (["start 0 0 0 0 500", "stage 0", "join 0 1 0 0 0"], ["b"], [], "b joined, and it is of the plan in force"),
            ([*BASE[:14], "commit 112000000 0 112000000"], ["x"], [], "given their duty: x"),
            ([*BEFORE_THE_COMMIT, "fail 112000000 link 2", "commit 112000000 0 112000000"], [], ["bx"], "does not leave out"),
            ([*COMMITTED, "seal 112000000 0"], ["b", "x"], [], "entered the staged plan: b, x had not"),
            ([*STARTS, "fail 0 link 2", "stage 0", "mend 0 link 2", "fail 0 link 2"], [], ["bx"], "the link bx failed after a mend"),
        ):
            with self.subTest(text):
                self.check(schedule, "renew", devices, links, None, None, text)

    def test_every_broken_row_is_explained(self):
        for schedule, expected in PREMISES:
            rows = who(schedule)
            self.assertEqual([f"broken {row['line']} {row['premise']}" for row in rows], expected)
            for row in rows:
                self.assertTrue(row["who"]["devices"] or row["who"]["links"])

    def test_the_incident_of_the_examples(self):
        here = EXAMPLES / "incident"
        with directory() as path:
            (path / "output").write_text(outputs("incident")["sundial replay topology.toml plan.json plan.json schedule.txt"])
            words = [path / "output", "-t", here / "topology.toml", "-s", here / "schedule.txt"]
            _, out, _ = run("sundial-lines", main, [*words, *["-p", here / "plan.json"] * 2])
        (tick, delay) = [row for row in map(json.loads, out.splitlines()) if row["kind"] == "broken"]
        self.assertEqual((tick["who"]["allowed"], tick["who"]["seen"]), (90000000, 1410000000))
        self.assertEqual((delay["who"]["links"], delay["who"]["seen"]), (["spine1-leaf"], 1900000))


class Changed(unittest.TestCase):
    """Cases with changed lines: what was seen is past what is allowed exactly where a plain replay says broken."""

    def test_numbers_break_what_is_said_to_be_broken(self):
        draw, found = random.Random(7), {}
        for number in range(12):
            topology = parse_topology(case.network_text(2, 2))
            plans = [read_plan(str(plan), topology) for plan in self.plans(topology)]
            lines = case.Case(number, topology, plans, rounds=20).lines
            for _ in range(3):
                self.change(lines, draw)
            # (the case draws delays up to 1000000)
            text = case.network_text(2, 2).replace("loss = 1", f"loss = {number % 2}")
            self.follow(parse_topology(text.replace("max = 1000000", "max = 990000") if number % 3 else text), plans, lines, found)
        self.assertLessEqual({"drift", "delay", "tick", "loss"}, set(found), found)

    @staticmethod
    def plans(topology):
        rows = [{"device": "s1", "parent": "l0", "link": "k0-1", "backup": "l1", "backup_link": "k1-1"}]
        rows += [
            {"device": f"l{leaf}", "parent": "s0", "link": f"k{leaf}-0", "backup": "s1", "backup_link": f"k{leaf}-1"}
            for leaf in range(2)
        ]
        waits = {"wait_first": 1345000000, "wait_second": 1345000000, "wait": 6730000000}
        plan = {"version": 1, "root": "s0", "backup_root": "s1", **waits, "absent_devices": [], "absent_links": [], "rows": rows}
        with directory() as path:
            (path / "plan").write_text(json.dumps(plan))
            yield path / "plan"

    @staticmethod
    def change(lines, draw):
        """A receipt that is lost, or comes later or earlier; a counter that is off; a tick that is left out."""
        word = draw.choice(("recv", "recv", "recv", "tick"))
        place = draw.choice([place for place, line in enumerate(lines) if place > 20 and line.startswith(word)])
        words = lines[place].split()
        if words[0] == "recv":
            if words[2] == "3" and draw.random() < 0.7:
                del lines[place]
            else:
                words[3] = str(int(words[3]) + draw.choice((3000, 500000)))
                lines[place] = " ".join(words)
        elif words[0] == "tick":
            kept = [line for line in lines if not (line.startswith(f"tick {words[1]} {words[2]} "))]
            lines[:] = kept

    def follow(self, topology, plans, lines, found):
        replay, fleet = Replay(topology, plans), Fleet(topology, plans)
        watch = Watch(fleet)
        for number, line in enumerate(lines, 1):
            event = parse_event(line)
            if refusal(replay.history, event):
                return
            broken = replay.premises.breaks(replay.history, event)
            watch.before(event)
            for premise in broken:
                cause = watch.explain(premise, event, number)
                found[premise] = found.get(premise, 0) + 1
                self.assertTrue(cause.devices or cause.links, cause)
                if premise in ("drift", "tick", "loss"):
                    self.assertGreater(cause.seen, cause.allowed, cause)
                if premise == "delay":
                    bounds = topology.links[topology.link_numbers[cause.links[0]]].forth
                    self.assertFalse(bounds.min <= cause.seen <= bounds.max)
            replay.history.add(event)
            watch.after(event, number, fleet.happen(event))


if __name__ == "__main__":
    unittest.main()
