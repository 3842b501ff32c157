"""sundial-plain-replay: what it prints over the examples, and each refusal, premise and alarm."""

import json
import unittest

from case import Case, network_text
from examples import EXAMPLES, outputs
from support import DATA, PROGRAM, directory, needs_sundial, run, sundial
from test_record import RENEWAL
from worlds import World, planned_by

from sundial_tools.plain.lines import on_a_loop
from sundial_tools.plain.main import main
from sundial_tools.plan import parse_plan, read_plan
from sundial_tools.topology import parse_topology, read_topology

NOTICE = "sundial-plain-replay: the plans are not checked, so nothing is promised of this run\n"
TRIANGLE = DATA / "triangle.toml"
PLANS = [DATA / "triangle-1.json", DATA / "triangle-2.json"]
BASE = RENEWAL.splitlines()
STARTS, BEFORE_THE_WINDOW, BEFORE_THE_COMMIT, COMMITTED = BASE[:3], BASE[:11], BASE[:15], BASE[:16]
NEEDED = (
    "structure", "ancestor", "timing", "root-A", "root-B", "root-C", "root-E", "loop", "slack", "reach", "part-of-a-domain",
    "straggler",
)
# The plans of an example, where it has another one besides plan.json.
MORE_PLANS = {"straggler": ("longer.json",)}
TWO_DOMAINS = ("8x3-two-roots", "8x3-ring-in-order")

# What is accepted, the line after it, and why that is refused.
REFUSALS = (
    ([], "tick 0 3 0", "UnknownDevice"),
    ([], "fail 0 device 3", "UnknownDevice"),
    ([], "fail 0 link 3", "UnknownLink"),
    (["fail 0 device 0"], "start 0 0 0 0 0", "DeadDevice"),
    (["fail 0 device 0"], "fail 0 device 0", "DeadDevice"),
    (["fail 0 link 0"], "fail 0 link 0", "DeadLink"),
    (BASE[:7], "recv 110700000 1 110700000 0", "UnknownMessage"),
    (BASE[:7], "lose 110700000 3", "UnknownMessage"),
    (BASE[:8], "lose 111000000 1", "SpentMessage"),
    (BASE[:7], "recv 112000001 1 112000001 1", "SpentMessage"),
    ([*BASE[:7], "fail 110000000 link 0"], "recv 110700000 1 110700000 1", "SpentMessage"),
    (["fail 0 link 0", *BASE[:7]], "recv 110700000 1 110700000 1", "SpentMessage"),
    (BASE[:7], "recv 110700000 2 110700000 1", "WrongDevice"),
    (BASE[:7], "tick 109999999 1 110000000", "TimeFalls"),
    (BASE[:7], "tick 110000000 0 109999999", "CounterFalls"),
    ([], "tick 0 0 0", "NotStarted"),
    (STARTS, "start 0 0 0 0 0", "StartedTwice"),
    (BASE[:12], "join 112000000 1 112000000 112000000 500", "StartedTwice"),
    (BASE[:27], "stage 216000000", "NoPlanLeft"),
    (STARTS, "give 0 0", "WindowOrder"),
    (STARTS, "mend 0 link 0", "WindowOrder"),
    (STARTS, "seal 0 0", "WindowOrder"),
    (BASE[:12], "stage 112000000", "WindowOrder"),
    (BASE[:12], "commit 112000000 0 112000000", "WindowOrder"),
    (BEFORE_THE_COMMIT, "commit 112000000 1 112000000", "WindowOrder"),
    (COMMITTED, "give 112000000 0", "WindowOrder"),
    (COMMITTED, "seal 112000000 1", "WindowOrder"),
    (["end 0"], "end 0", "AfterEnd"),
    (BASE[:12], "mend 112000000 link 0", "NotFailed"),
    (STARTS, "stap 0", "UnknownWord"),
    (STARTS, "", "UnknownWord"),
    (STARTS, "fail 0 rack 0", "UnknownWord"),
    (STARTS, "tick 0 0", "FieldCount"),
    (STARTS, "tick 0 0 00", "Number 3"),
    (STARTS, "tick 0 0 \u0663", "Number 3"),
    (STARTS, "tick 0 0 " + "1" * 4096, "LongLine"),
)

# A schedule without its end, and the lines that are due before `done`.
PREMISES = (
    (["start 1000 0 0 0 1000"], []),
    (["start 1001 0 0 0 1000"], ["broken 1 start"]),
    (["start 0 0 0 0 0", "tick 5002000 0 5000000"], []),
    (["start 0 0 0 0 0", "tick 5002001 0 5000000"], ["broken 2 drift"]),
    (["start 0 0 0 0 0", "tick 1001200 0 1000000", "tick 2002400 0 2000000"], ["broken 3 drift"]),
    ([*BASE[:7], "recv 110400000 1 110400000 1"], []),
    ([*BASE[:7], "recv 110399999 1 110399999 1"], ["broken 8 delay"]),
    ([*BASE[:7], "recv 111000001 1 111000001 1"], ["broken 8 delay"]),
    (["start 0 0 0 0 0", "fix 90000000 0 90000000 90000000 0"], []),
    (["start 0 0 0 0 0", "fix 90000001 0 90000001 90000001 0"], ["broken 2 tick"]),
    (["fail 0 device 2", "fail 0 link 1"], ["broken 2 domain"]),
    ([*BEFORE_THE_COMMIT, "fail 112000000 link 2"], []),
    ([*COMMITTED, "fail 112000000 link 2"], ["broken 17 renew"]),
    (["start 0 0 0 0 500", "stage 0", "start 0 1 0 0 0"], ["broken 3 renew"]),
    (["start 0 0 0 0 500", "stage 0", "join 0 1 0 0 0"], ["broken 3 renew"]),
    ([*BASE[:14], "commit 112000000 0 112000000"], ["broken 15 renew"]),
    ([*BEFORE_THE_COMMIT, "fail 112000000 link 2", "commit 112000000 0 112000000"], ["broken 17 renew"]),
    ([*COMMITTED, "seal 112000000 0"], ["broken 17 renew"]),
)


def replayed(schedule, topology=None, plans=PLANS):
    """The lines that the tool prints over a schedule, and its status."""
    with directory() as path:
        (path / "topology").write_text(topology or TRIANGLE.read_text())
        (path / "schedule").write_bytes(("\n".join(schedule) + "\n").encode("utf-8"))
        status, out, err = run("sundial-plain-replay", main, [path / "topology", *plans, path / "schedule"])
    if err != NOTICE:
        raise AssertionError(err)
    return out.splitlines(), status


def ticks(first, count, devices):
    """Ticks of these devices, 90 us apart."""
    times = range(first, first + 90_000_000 * count, 90_000_000)
    return [f"tick {time} {device} {time}" for time in times for device in devices]


class Examples(unittest.TestCase):
    def check(self, folder, words, expected):
        status, out, err = run("sundial-plain-replay", main, [folder / word for word in words])
        bad = any(line.startswith(("broken", "alarm")) for line in expected.splitlines())
        self.assertEqual((out, err, status), (expected, NOTICE, 7 if bad else 0))

    def test_each_replay_of_the_examples(self):
        count = 0
        for file in sorted(EXAMPLES.glob("*/output")):
            for command, text in outputs(file.parent.name).items():
                words = command.split()
                if words[:2] == ["sundial", "replay"] and "|" not in words:
                    with self.subTest(command, example=file.parent.name):
                        self.check(file.parent, words[2:], text)
                    count += 1
        self.assertGreaterEqual(count, 7)

    def test_the_replay_within_an_order(self):
        for command, text in outputs("commit-wait").items():
            kept = [line for line in text.splitlines() if line.split()[0] in ("report", "broken", "alarm", "done")]
            self.check(EXAMPLES / "commit-wait", command.split()[2:], "\n".join(kept) + "\n")

    def test_the_schedules_that_show_which_conditions_are_needed(self):
        self.assertEqual(sorted(it.name for it in (EXAMPLES / "needed").iterdir() if it.is_dir()), sorted(NEEDED + TWO_DOMAINS))
        for name in NEEDED + TWO_DOMAINS:
            with self.subTest(name):
                folder = EXAMPLES / "needed" / name
                self.check(folder, ("topology.toml", "plan.json", *MORE_PLANS.get(name, ()), "schedule.txt"), (folder / "output.txt").read_text())

    def test_no_premise_breaks_there(self):
        for name in NEEDED:
            self.assertNotIn("broken", (EXAMPLES / "needed" / name / "output.txt").read_text())

    def test_what_happens_when_two_domains_fail(self):
        """No other premise breaks, and no interval is wrong."""
        for name in TWO_DOMAINS:
            lines = (EXAMPLES / "needed" / name / "output.txt").read_text().splitlines()
            found = {tuple(it.split()[:3:2]) for it in lines if it.startswith(("broken", "alarm"))}
            self.assertEqual(found - {("alarm", "loop")}, {("broken", "domain"), ("alarm", "roots")}, name)


class Histories(unittest.TestCase):
    def test_a_renewal(self):
        lines, status = replayed(BASE)
        self.assertEqual(lines, ["report 22 b 215700000 345500", "report 23 x 215400000 345440", "done 30 2"])
        self.assertEqual(status, 0)

    def test_a_takeover(self):
        schedule = [*BEFORE_THE_WINDOW, "fail 112000000 device 0", *ticks(150_000_000, 31, (1, 2))]
        lines, status = replayed([*schedule, "ask 2850000000 1 2850000000", "end 2850000000"])
        self.assertEqual((lines, status), (["report 75 b 2850000000 872360", "done 76 1"], 0))

    def test_total_loss(self):
        lines, status = replayed([*STARTS, *ticks(90_000_000, 30, (0, 1, 2)), "end 2700000000"])
        self.assertEqual((lines, status), (["broken 16 loss", "alarm 92 roots r b", "done 94 0"], 7))

    def test_a_loop(self):
        lines, status = replayed([*STARTS, "tick 1350000000 1 1350000000", "tick 6730000000 2 6730000000", "end 6730000000"])
        self.assertEqual((lines, status), (["broken 4 tick", "alarm 5 loop b", "done 6 0"], 7))

    def test_a_wrong_interval(self):
        lines, status = replayed(["start 5 0 0 0 3", "ask 5 0 0", "end 5"])
        self.assertEqual(lines, ["broken 1 start", "report 2 r 0 1003", "done 3 1"])
        lines, status = replayed(["start 2000 0 0 0 3", "ask 2000 0 0", "end 2000"])
        self.assertEqual(lines, ["broken 1 start", "report 2 r 0 1003", "alarm 2 interval r 2000", "done 3 1"])
        self.assertEqual(status, 7)

    def test_which_devices_are_on_a_loop(self):
        self.assertEqual(on_a_loop({0: None, 1: 2, 2: 1, 3: 1, 4: 4, 5: 6}), [1, 2, 4])

    def test_the_case_of_the_page(self):
        """docs/QUICKSTART.md has what the program prints of it: case 3102 30 3202950 0 0."""
        topology = parse_topology(network_text(8, 4))
        plans = [DATA / "case-8-4-1.json", DATA / "case-8-4-2.json"]
        made = Case(7, topology, [read_plan(str(plan), topology) for plan in plans])
        lines, status = replayed(made.lines, network_text(8, 4), plans)
        self.assertEqual((lines[-1], status), ("done 3102 30", 0))
        self.assertEqual(max(int(line.split()[4]) for line in lines[:-1]), 3202950)
        self.assertEqual([line for line in lines if not line.startswith("report")], lines[-1:])

    @needs_sundial
    def test_a_case_beside_the_program(self):
        topology = parse_topology(network_text(3, 3))
        plans = [DATA / "case-1.json", DATA / "case-2.json"]
        made = Case(5, topology, [read_plan(str(plan), topology) for plan in plans])
        with directory() as path:
            (path / "topology").write_text(network_text(3, 3))
            (path / "schedule").write_text(made.schedule())
            words = [path / "topology", *plans, path / "schedule"]
            status, out, _ = run("sundial-plain-replay", main, words)
            self.assertEqual((status, out), sundial("replay", *words))

    @needs_sundial
    def test_random_histories_beside_the_program(self):
        """Of networks of each kind of which the program makes plans, with failures and renewals; in half of them premises break."""
        for number in 2, 3, 4, 6:
            for bad in False, True:
                with self.subTest(number, bad=bad), directory() as path:
                    made = World(number, rounds=12, bad=bad, planner=planned_by(PROGRAM, path))
                    topology, plans = made.files(path)
                    (path / "schedule").write_text("".join(made.lines))
                    words = [topology, *plans, path / "schedule"]
                    status, out, _ = run("sundial-plain-replay", main, words)
                    self.assertEqual((status, out), sundial("replay", *words))


class Refused(unittest.TestCase):
    def test_each_refusal(self):
        for before, line, reason in REFUSALS:
            with self.subTest(line, reason=reason):
                lines, status = replayed([*before, line])
                self.assertEqual((lines[-1], status), (f"input schedule {len(before) + 1} {reason}", 3))

    def test_who_is_left_out(self):
        said = json.loads(PLANS[1].read_text())
        said["absent_devices"] = ["x"]
        with directory() as path:
            (path / "plan").write_text(json.dumps(said))
            lines, _ = replayed([*BASE[:12], "give 112000000 2"], plans=[PLANS[0], path / "plan"])
            self.assertEqual(lines, ["input schedule 13 NotMember"])
            lines, _ = replayed(["start 0 2 0 0 0"], plans=[path / "plan"])
            self.assertEqual(lines, ["input schedule 1 NotMember"])

    def test_no_plan_left_at_the_beginning(self):
        self.assertEqual(replayed(["stage 0"], plans=PLANS[:1])[0], ["input schedule 1 NoPlanLeft"])

    def test_a_schedule_without_an_end(self):
        self.assertEqual(replayed(STARTS)[0], ["input schedule 4 NoEnd"])

    def test_the_last_moment_of_a_message(self):
        lines, _ = replayed([*BASE[:7], "recv 112000000 1 112000000 1", "end 112000000"])
        self.assertEqual(lines, ["broken 8 delay", "done 9 0"])

    def test_texts_that_are_no_topology_and_no_plan(self):
        for words in ([PLANS[0], PLANS[0], TRIANGLE], [TRIANGLE, TRIANGLE, TRIANGLE], [TRIANGLE, PLANS[0], DATA / "nothing"]):
            status, out, err = run("sundial-plain-replay", main, words)
            self.assertEqual((status, out), (1, ""))
            self.assertTrue(err.startswith(NOTICE + "sundial-plain-replay: "))


class PremisesHold(unittest.TestCase):
    def test_each_premise(self):
        for schedule, expected in PREMISES:
            with self.subTest(schedule[-1], expected=expected):
                ref = schedule[-1].split()[1]
                lines, status = replayed([*schedule, f"end {ref}"])
                self.assertEqual((lines, status), ([*expected, f"done {len(schedule) + 1} 0"], 7 if expected else 0))

    def test_a_listed_domain(self):
        topology = TRIANGLE.read_text() + '\n[[domain]]\nname = "rack"\ndevices = ["x"]\nlinks = ["rx"]\n'
        self.assertEqual(replayed(["fail 0 device 2", "fail 0 link 1", "end 0"], topology)[0], ["done 3 0"])
        self.assertEqual(replayed(["fail 0 device 2", "fail 0 link 0", "end 0"], topology)[0], ["broken 2 domain", "done 3 0"])

    def test_a_commit_of_a_device_that_does_not_act(self):
        schedule = ["start 0 0 0 0 500", "start 0 1 0 0 500", "start 0 2 0 0 500", "stage 0", "give 0 0", "give 0 1", "give 0 2"]
        said = json.loads(PLANS[1].read_text())
        said["root"], said["backup_root"] = "b", "r"
        with directory() as path:
            (path / "plan").write_text(json.dumps(said))
            lines, _ = replayed([*schedule, "commit 0 1 0", "end 0"], plans=[PLANS[0], path / "plan"])
        self.assertEqual(lines, ["broken 8 renew", "alarm 8 roots r b", "done 9 0"])

    def test_who_is_left_out_and_still_joined(self):
        said = json.loads(PLANS[1].read_text())
        said["absent_devices"], said["rows"] = ["x"], said["rows"][:1]
        starts = ["start 0 0 0 0 500", "start 0 1 0 0 500", "start 0 2 0 0 500"]
        schedule = [*starts, "stage 0", "give 0 0", "give 0 1", "commit 0 0 0", "end 0"]
        with directory() as path:
            (path / "plan").write_text(json.dumps(said))
            self.assertEqual(replayed(schedule, plans=[PLANS[0], path / "plan"])[0], ["broken 7 renew", "done 8 0"])
            schedule[2] = "fail 0 device 2"
            self.assertEqual(replayed(schedule, plans=[PLANS[0], path / "plan"])[0], ["done 8 0"])


class Windows(unittest.TestCase):
    """Joins, renewals and what follows them, with expected lines worked by hand."""

    def setUp(self):
        self.path = self.enterContext(directory())

    def plan(self, name, **changes):
        """The first plan of the triangle with other values, as a file."""
        said = {**json.loads(PLANS[0].read_text()), **changes}
        said["rows"] = [row for row in said["rows"] if row["device"] not in [*said["absent_devices"], said["root"]]]
        (self.path / name).write_text(json.dumps(said))
        return self.path / name

    def joining(self):
        """Two plans: the first leaves x out."""
        return [self.plan("small", absent_devices=["x"]), PLANS[1]]

    def lines(self, schedule, plans=PLANS, topology=None):
        ref = schedule[-1].split()[1]
        return replayed([*schedule, f"end {ref}"], topology, plans)[0][:-1]

    def test_nobody_moves_before_its_seal(self):
        entered, late = BASE[:24], ticks(306_000_000, 32, (0, 1, 2))
        kept = [line for line in self.lines([*entered, *late]) if line.startswith("alarm")]
        self.assertEqual(kept, [])
        sealed = [*entered, "seal 216000000 0", "seal 216000000 1", "seal 216000000 2"]
        kept = [line for line in self.lines([*sealed, *late]) if line.startswith("alarm")]
        self.assertEqual([line.split()[2:] for line in kept], [["roots", "r", "x"]])

    def test_who_was_not_given_its_duty_does_not_enter(self):
        schedule = [line for line in BASE[:20] if line != "give 112000000 1"]
        told = self.lines([*schedule, "recv 215900000 1 215900000 5", "ask 215900000 1 215900000"])
        self.assertEqual(told, ["broken 15 renew", "report 21 b 215900000 345540"])
        told = self.lines([*BASE[:20], "recv 215900000 1 215900000 5", "ask 215900000 1 215900000"])
        self.assertEqual(told, ["report 22 b 215700000 345500"])

    def test_who_follows_no_plan_any_more_sends_to_nobody(self):
        rows = [{"device": "x", "parent": "b", "link": "bx"}]
        plans = [PLANS[0], self.plan("next", root="b", backup_root="x", absent_devices=["r"], rows=rows)]
        window = ["stage 0", "give 0 1", "give 0 2", "commit 0 1 0"]
        entry = [*ticks(90_000_000, 1, (0, 1, 2)), "tick 100000000 1 100000000", "recv 100700000 2 100700000 1"]
        schedule = [*STARTS, *window, *entry, "seal 100700000 1", "seal 100700000 2", *ticks(180_000_000, 1, (0, 1, 2))]
        lines, status = replayed([*schedule, "recv 180700000 1 180700000 2"], plans=plans)
        self.assertEqual(lines[-1], f"input schedule {len(schedule) + 1} UnknownMessage")

    def test_who_joined_in_the_window_counts(self):
        schedule = [*BASE[:2], "stage 0", "join 0 2 0 0 0"]
        self.assertEqual(self.lines(schedule, self.joining()), [])
        lines, _ = replayed([*schedule, "join 0 2 0 0 0"], plans=self.joining())
        self.assertEqual(lines, ["input schedule 5 StartedTwice"])

    def test_who_joined_in_the_window_has_to_tick(self):
        schedule = [*BASE[:2], "stage 0", "join 0 2 0 0 0", *ticks(90_000_000, 1, (0, 1)), "fix 90000001 0 90000001 90000001 0"]
        self.assertEqual(self.lines(schedule, self.joining()), ["broken 7 tick"])
        schedule.insert(6, "tick 90000000 2 90000000")
        self.assertEqual(self.lines(schedule, self.joining()), [])

    def test_who_joins_anew_is_given_its_duty_anew(self):
        joined = [*BASE[:2], "stage 0", "join 0 2 5 0 0", "give 0 0", "give 0 1", "give 0 2"]
        anew = [*joined, "fail 0 device 2", "mend 0 device 2", "join 0 2 0 0 0"]
        self.assertEqual(self.lines([*anew, "commit 0 0 0"], self.joining()), ["broken 11 renew"])
        self.assertEqual(self.lines([*anew, "give 0 2", "tick 0 2 0", "commit 0 0 0"], self.joining()), [])

    def test_who_was_touched_before_may_join(self):
        schedule = [*STARTS, "fail 0 device 2", "stage 0", "mend 0 device 2", "join 0 2 0 0 0"]
        self.assertEqual(self.lines(schedule), [])

    def test_nothing_fails_after_a_mend(self):
        schedule = [*STARTS, "fail 0 link 2", "stage 0", "mend 0 link 2"]
        self.assertEqual(self.lines(schedule), [])
        self.assertEqual(self.lines([*schedule, "fail 0 link 2"]), ["broken 7 renew"])

    def test_a_closing_begins_the_failures_anew(self):
        schedule = [*BEFORE_THE_WINDOW, "fail 112000000 link 2", *BASE[11:27]]
        told = self.lines([*schedule, "fail 216000000 link 0"])
        self.assertEqual([line for line in told if line.startswith("broken")], ["broken 17 renew"])
        self.assertEqual(self.lines([*schedule[:-1], "fail 216000000 link 0"])[-1], "broken 28 domain")

    def test_a_failure_excuses_what_was_on_its_way(self):
        topology = TRIANGLE.read_text().replace("loss = 1", "loss = 0")
        sent, to_x, late = BASE[:7], "recv 110700000 2 110700000 2", "tick 112000000 0 112000000"
        to_b, on_to_x = "recv 110700000 1 110700000 1", "recv 111400000 2 111400000 3"
        for schedule, expected in (
            ([*sent, to_x, late], ["broken 9 loss"]),
            ([*sent, to_x, "recv 111000001 1 111000001 1"], ["broken 9 delay"]),
            ([*sent, "fail 110500000 device 1", to_x, late], []),
            ([*sent, "fail 110500000 link 1", to_b, late], ["broken 10 loss"]),
            ([*sent, "fail 110500000 link 1", to_b, on_to_x, late], []),
        ):
            with self.subTest(schedule[7:]):
                self.assertEqual(self.lines(schedule, topology=topology), expected)

    def test_who_never_starts_is_missed(self):
        schedule = ["start 0 0 0 0 500", "tick 90000000 0 90000000", "fix 90000001 0 90000001 90000001 0"]
        self.assertEqual(self.lines(schedule), ["broken 3 tick"])


class Words(unittest.TestCase):
    def test_an_output_file(self):
        with directory() as path:
            (path / "schedule").write_text("end 0\n")
            status, out, err = run("sundial-plain-replay", main, [TRIANGLE, PLANS[0], path / "schedule", "-o", path / "lines"])
            self.assertEqual((status, out, err), (0, "", NOTICE))
            self.assertEqual((path / "lines").read_text(), "done 1 0\n")

    def test_a_plan_that_breaks_structure_is_replayed(self):
        topology = read_topology(str(TRIANGLE))
        said = json.loads(PLANS[0].read_text())
        said["rows"] = [row for row in said["rows"] if row["device"] == "b"]
        self.assertEqual(sorted(parse_plan(json.dumps(said), topology).rows), [1])
        with directory() as path:
            (path / "plan").write_text(json.dumps(said))
            self.assertEqual(replayed([*STARTS, "ask 0 2 0", "end 0"], plans=[path / "plan"])[0], ["report 4 x 0 801000", "done 5 1"])


if __name__ == "__main__":
    unittest.main()
