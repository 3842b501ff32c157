"""sundial-record: from the logs of devices to a schedule."""

import json
import random
import unittest
from decimal import Decimal

from support import DATA, EXAMPLES, directory, needs_sundial, run, sundial

import case
import logs_of

from sundial_tools.plan import read_plan
from sundial_tools.record.main import main
from sundial_tools.schedule import read_schedule
from sundial_tools.topology import parse_topology, read_topology

PLANS = [DATA / "case-1.json", DATA / "case-2.json"]
TRIANGLE_PLANS = [DATA / "triangle-1.json", DATA / "triangle-2.json"]

# The worked renewal of examples/triangle.
RENEWAL = """start 0 0 0 0 500
start 0 1 0 0 800000
start 0 2 0 0 800000
tick 90000000 0 90000000
tick 90000000 1 90000000
tick 90000000 2 90000000
tick 110000000 0 110000000
recv 110700000 1 110700000 1
recv 111000000 2 111000000 2
recv 111400000 2 111400000 3
recv 111700000 1 111700000 4
stage 112000000
give 112000000 0
give 112000000 1
give 112000000 2
commit 112000000 0 112000000
tick 170000000 0 170000000
tick 170000000 1 170000000
tick 170000000 2 170000000
tick 215000000 0 215000000
recv 215700000 1 215700000 5
ask 215700000 1 215700000
ask 215700000 2 215700000
recv 216000000 2 216000000 6
seal 216000000 0
seal 216000000 1
seal 216000000 2
recv 216400000 2 216400000 7
recv 216700000 1 216700000 8
end 216700000
"""


def record(topology, plans, logs, *more):
    words = [topology, *logs, *more]
    for plan in plans:
        words += ["--plan", plan]
    return run("sundial-record", main, words)


def made_case(number=5, **more):
    topology = parse_topology(case.network_text(3, 3))
    return case.Case(number, topology, [read_plan(str(plan), topology) for plan in PLANS], **more)


class Cases(unittest.TestCase):
    """The schedule of a generated case, written as logs, comes back."""

    def recorded(self, made, *more, change=lambda said: said, keep=lambda said: True):
        with directory() as path:
            (path / "topology.toml").write_text(case.network_text(3, 3))
            made.world = [said for said in made.world if keep(said)]
            return record(path / "topology.toml", PLANS, case.write_logs(made, path, change), *more)

    def test_the_same_schedule(self):
        for number in 1, 2, 5:
            made = made_case(number)
            status, out, err = self.recorded(made)
            self.assertEqual((status, out), (0, made.schedule()))
            self.assertIn("0 of them losses that no log has; origin 0 ps", err)

    def test_the_order_of_the_files_changes_nothing(self):
        made = made_case()
        with directory() as path:
            (path / "topology.toml").write_text(case.network_text(3, 3))
            logs = case.write_logs(made, path)
            self.assertEqual(record(path / "topology.toml", PLANS, logs[::-1])[1], made.schedule())

    def test_other_units_and_origins(self):
        second, epoch = 10**12, 1_700_000_000 * 10**12

        def change(said):
            said["reference_ns"] = Decimal(said.pop("reference_ps") + second + epoch) / 1000
            if "clock_ps" in said:
                said["clock_us"] = Decimal(said.pop("clock_ps") + second + epoch) / 10**6
                said["eps_ns"] = Decimal(said.pop("eps_ps")) / 1000
            if "counter_ps" in said:
                said["counter_ns"] = Decimal(said.pop("counter_ps") + 3 * epoch) / 1000
            return said

        made = made_case()
        status, out, err = self.recorded(made, "--counters", "life", change=change)
        self.assertIn(f"origin {epoch} ps", err)
        moved = [line.split(" ") for line in made.schedule().splitlines()]
        for fields in moved:
            fields[1] = str(int(fields[1]) + second)
            if fields[0] == "start":
                fields[4] = str(int(fields[4]) + second)
        self.assertEqual((status, out), (0, "\n".join(" ".join(fields) for fields in moved) + "\n"))
        self.assertEqual(self.recorded(made, "--counters", "life", "--origin", f"{epoch + second}ps", change=change)[1], made.schedule())
        self.assertIn("say --counters life", self.recorded(made, change=change)[2])

    def test_losses_that_somebody_saw(self):
        made = made_case(lost=(3, 40, 41, 170))
        self.assertEqual(sum(line.startswith("lose") for line in made.lines), 4)
        self.assertEqual(self.recorded(made)[1], made.schedule())

    def test_losses_that_nobody_saw(self):
        made = made_case(lost=(3, 40, 41, 170))
        lost = {line.split(" ")[2] for line in made.lines if line.startswith("lose")}
        status, out, err = self.recorded(made, keep=lambda said: said["event"] != "lose")
        self.assertIn(f"{len(lost)} of them losses that no log has", err)
        found = [line for line in out.splitlines() if line.startswith("lose")]
        self.assertEqual({line.split(" ")[2] for line in found}, lost)
        # message 3 is one of the first round, sent at the tick at 150 us, and kept for 2 us
        self.assertIn("lose 152000000 3", found)
        rest = [line for line in made.lines if not line.startswith("lose")]
        self.assertEqual([line for line in out.splitlines() if not line.startswith("lose")], rest)
        without = self.recorded(made, "--no-losses", keep=lambda said: said["event"] != "lose")[1]
        self.assertEqual(without.splitlines(), rest)

    @needs_sundial
    def test_the_program_agrees(self):
        """The case is that of `sundial case`, and a replay accepts what was recorded."""
        made = made_case(lost=(3,))
        with directory() as path:
            (path / "topology.toml").write_text(case.network_text(3, 3))
            (path / "schedule").write_text(made_case().schedule())
            status, out = sundial("replay", path / "topology.toml", *PLANS, path / "schedule")
            reports = [int(line.split()[4]) for line in out.splitlines() if line.startswith("report")]
            tally = f"case {out.split()[-2]} {len(reports)} {max(reports)} 0 0\n"
            self.assertEqual((status, tally), sundial("case", 5, 3, 3))
            (path / "schedule").write_text(self.recorded(made, keep=lambda said: said["event"] != "lose")[1])
            self.assertEqual(sundial("replay", path / "topology.toml", *PLANS, path / "schedule")[0], 0)


@needs_sundial
class ReferenceErrors(unittest.TestCase):
    """What docs/RECORD.md says of them: references that are wrong by up to 10 ns, over a widened topology."""

    WRONG = 10_000
    # a renewal whose steps are further apart than the errors
    LATER = {"stage": 2, "give": 5, "commit": 8, "seal": 11, "ask": 11, "end": 14}

    def broken(self, number, path):
        wrong, apart = self.WRONG, 2 * self.WRONG
        text = wide = case.network_text(3, 3)
        for key, value, by in ("grain", 1000, apart), ("min", 400000, -apart), ("max", 1000000, apart), ("tick", 60000000, apart):
            wide = wide.replace(f"{key} = {value}", f"{key} = {value + by}")
        (path / "built").write_text(text)
        (path / "wide").write_text(wide)
        (path / "plan-1").write_text(sundial("plan", path / "wide")[1])
        (path / "absent").write_text('{"absent_devices":["s0"],"absent_links":[]}')
        (path / "plan-2").write_text(sundial("renew", path / "wide", path / "plan-1", path / "absent")[1])
        paths, topology = [path / "plan-1", path / "plan-2"], parse_topology(text)
        made = case.Case(number, topology, [read_plan(str(plan), topology) for plan in paths])
        draw, before = random.Random(number), {}

        def change(said):
            later = self.LATER.get(said["event"], 0) * wrong
            for key, by in ("counter_ps", later), ("clock_ps", 10**9), ("eps_ps", wrong):
                if key in said:
                    said[key] += by
            ref = said["reference_ps"] + later + 10**9 + draw.randint(-wrong, wrong)
            said["reference_ps"] = before[said.get("device")] = max(ref, before.get(said.get("device"), 0))
            return said

        status, out, err = record(path / "wide", paths, case.write_logs(made, path, change))
        self.assertEqual(status, 0, err)
        (path / "schedule").write_text(out)
        for name in "wide", "built":
            lines = sundial("replay", path / name, *paths, path / "schedule")[1].splitlines()
            yield {line.split(" ")[2] for line in lines if line.startswith("broken")}, lines[-1].split(" ")[0]

    def test_a_widened_topology_covers_them(self):
        for number in range(3):
            with directory() as path:
                (wide, wide_end), (built, built_end) = self.broken(number, path)
                self.assertEqual((wide, wide_end), (set(), "done"))
                self.assertLessEqual({"drift", "delay"}, built)


class WorkedRows(unittest.TestCase):
    """Schedules of pages and examples, written as logs of their devices."""

    def round_trip(self, topology_path, plan_paths, schedule):
        topology = read_topology(str(topology_path))
        plans = [read_plan(str(plan), topology) for plan in plan_paths]
        events = list(read_schedule(schedule.splitlines(True)))
        with directory() as path:
            files = logs_of.write(logs_of.logs_of(topology, plans, events), path)
            apart = record(topology_path, plan_paths, files, "--no-losses", "--origin", "0")
            merged = path / "all.jsonl"
            merged.write_text("".join(json.dumps(said) + "\n" for _, said in logs_of.lines_of(topology, plans, events)))
            return apart, record(topology_path, plan_paths, [merged], "--no-losses", "--origin", "0")

    def test_the_worked_renewal(self):
        apart, merged = self.round_trip(DATA / "triangle.toml", TRIANGLE_PLANS, RENEWAL)
        self.assertEqual(apart[:2], (0, RENEWAL))
        self.assertEqual(merged[:2], (0, RENEWAL))

    def test_a_receipt_comes_before_a_tick_of_its_reference(self):
        line = "recv 110700000 1 110700000 1\n"
        schedule = RENEWAL.replace(line, f"{line}tick 110700000 2 110700000\n")
        self.assertEqual(self.round_trip(DATA / "triangle.toml", TRIANGLE_PLANS, schedule)[0][:2], (0, schedule))

    def test_the_logs_of_the_page(self):
        """Those of docs/RECORD.md: counters from boot, references since 1970, one message that nobody received."""
        example = EXAMPLES / "logs"
        logs = [example / f"{device}.jsonl" for device in "brx"]
        status, out, _ = record(example / "topology.toml", [example / "plan.json"], logs, "--counters", "life")
        self.assertEqual(status, 0)
        self.assertEqual(out, (example / "schedule.txt").read_text())

    def test_a_join_in_a_window(self):
        schedule = "".join(line + "\n" for line in RENEWAL.splitlines()[:11]) + (
            "fail 112000000 device 2\nstage 112000000\nmend 112000000 device 2\njoin 112000000 2 0 112000000 800000\n"
            "give 112000000 0\ngive 112000000 1\ngive 112000000 2\ncommit 112000000 0 112000000\n"
            "ask 112000000 2 0\nend 112000000\n"
        )
        again = [TRIANGLE_PLANS[0]] * 2
        logs_in_order = self.round_trip(DATA / "triangle.toml", again, schedule)[1]
        self.assertEqual(logs_in_order[:2], (0, schedule))

    def test_the_examples(self):
        found = sorted(EXAMPLES.glob("*/schedule.txt"))
        if not found:
            self.skipTest("there are no examples")
        for file in found:
            plans = sorted(file.parent.glob("plan*.json"), key=lambda path: len(path.name))
            text = file.read_text()
            if not plans:
                continue
            plans = plans * 2 if len(plans) == 1 and "\nstage " in text else plans
            with self.subTest(file.parent.name):
                apart, merged = self.round_trip(file.parent / "topology.toml", plans, text)
                self.assertEqual(merged[:2], (0, text))
                self.assertEqual(len(apart[1].splitlines()), len(text.splitlines()))


class BadLogs(unittest.TestCase):
    """What cannot be ordered or matched is named with its line."""

    def setUp(self):
        topology = read_topology(str(DATA / "triangle.toml"))
        plans = [read_plan(str(plan), topology) for plan in TRIANGLE_PLANS]
        self.logs = logs_of.logs_of(topology, plans, read_schedule(RENEWAL.splitlines(True)))

    def refused(self, reason, text=None):
        with directory() as path:
            files = logs_of.write(self.logs, path)
            if text is not None:
                (path / "x.jsonl").write_text(text((path / "x.jsonl").read_text()))
            output = path / "schedule"
            status, out, err = record(DATA / "triangle.toml", TRIANGLE_PLANS, files, "--output", output)
            self.assertEqual((status, out, output.exists()), (1, "", False), err)
            self.assertEqual(len(err.splitlines()), 1)
            self.assertIn(reason, err)

    def place(self, device, event):
        return next(place for place, said in enumerate(self.logs[device]) if said["event"] == event)

    def test_names_that_are_not_there(self):
        self.logs["x"][1]["device"] = "y"
        self.refused("x.jsonl:2: there is no device y in the topology")

    def test_a_link_that_is_not_there(self):
        self.logs["x"][self.place("x", "recv")]["link"] = "xy"
        self.refused("x.jsonl:3: there is no link xy in the topology")

    def test_a_log_out_of_order(self):
        self.logs["x"][1], self.logs["x"][2] = self.logs["x"][2], self.logs["x"][1]
        self.refused("x.jsonl:3: out of order: its reference is 21000000 ps before that of line 2")

    def test_a_file_that_is_cut_short(self):
        self.refused("x.jsonl:10: no JSON, or cut short", lambda text: text[:-30])

    def test_lines_that_are_no_events(self):
        for line, reason in (
            ("[]", "x.jsonl:1: UnknownWord: '[]' begins neither a JSON object nor a line of a compact log"),
            ('{"event": "send", "reference_ns": 0}', "event is 'send', and has to be one of start"),
            ('{"event": "tick", "device": "x", "reference_ns": 0}', "tick needs counter_ns"),
            ('{"event": "tick", "device": "x", "counter_ns": 0}', "tick needs reference_ns"),
            ('{"event": "tick", "device": "x", "reference_ns": 0, "reference_ps": 0}', "reference is there twice"),
            ('{"event": "tick", "device": "x", "reference_ns": 0.0001, "counter_ns": 1}', "no whole number of picoseconds"),
            ('{"event": "tick", "device": "x", "reference_ns": 1.000000000000000000000000000001, "counter_ns": 1}', "no whole number"),
            ('{"event": "tick", "device": "x", "reference_ns": 1e999999999, "counter_ns": 1}', "reference_ns is too great"),
            ('{"event": "tick", "device": "x", "reference_ns": 1e99999999999999999999, "counter_ns": 1}', "x.jsonl:1: "),
            ('{"event": "tick", "device": "x", "reference_ns": NaN, "counter_ns": 1}', "has to be a number"),
            ('{"event": "tick", "device": "x", "reference_ns": "0", "counter_ns": 1}', "has to be a number"),
            ('{"event": "tick", "reference_ns": 0, "counter_ns": 1}', "tick needs a device"),
            ('{"event": "recv", "device": "x", "link": "rx", "reference_ns": 0, "counter_ns": 1}', "recv needs the epoch"),
            ('{"event": "fail", "reference_ns": 0}', "fail needs either a device or a link"),
        ):
            with self.subTest(line):
                self.refused(reason, lambda text, line=line: line + "\n")

    def test_a_receipt_before_its_sending(self):
        """As an error of the reference makes it."""
        self.logs["x"][self.place("x", "recv")]["reference_ps"] = 109999999
        self.refused(
            "x.jsonl:3: no message of epoch 1, term 0, round 1 is on its way to x over rx: r has come to epoch 1, term 0, round 0"
        )

    def test_a_receipt_twice(self):
        place = self.place("x", "recv")
        self.logs["x"].insert(place, self.logs["x"][place])
        self.refused("x.jsonl:4: no message of epoch 1, term 0, round 1 is on its way to x over rx: r has come to")

    def test_a_receipt_too_late(self):
        self.logs["x"][self.place("x", "recv")]["reference_ps"] = 112000001
        self.logs["x"].sort(key=lambda said: said["reference_ps"])
        self.refused("or later than twice the greatest delay")

    def test_messages_that_nobody_sends(self):
        said = self.logs["x"][self.place("x", "recv")]
        for change, reason in (
            ({"round": 2}, "no message of epoch 1, term 0, round 2"),
            ({"epoch": 3}, "there is no plan 3"),
            ({"link": "rb"}, "x is no end of the link rb"),
        ):
            with self.subTest(reason):
                before = dict(said)
                said.update(change)
                self.refused(reason)
                said.update(before)

    def test_a_counter_that_falls(self):
        self.logs["x"][1]["counter_ps"] = 200000000
        self.refused("x.jsonl:3: CounterFalls: the counter of x is 89000000 ps less than before")

    def test_events_out_of_place(self):
        self.logs["x"][1]["event"] = "start"
        self.logs["x"][1].update(clock_ps=90000000, eps_ps=0)
        self.refused("x.jsonl:2: StartedTwice: x started or joined before")

    def test_a_seal_before_the_entry(self):
        self.logs["x"].insert(self.place("x", "give") + 1, {"event": "seal", "device": "x", "reference_ps": 113000000})
        self.refused("WindowOrder: x has not entered plan 2")

    def test_the_last_reference(self):
        for more, reason in (0, ""), (1, f"the reference is {2**60 + 1} ps of the origin"):
            self.logs["fabric"][self.place("fabric", "end")]["reference_ps"] = 2**60 + more
            with directory() as path:
                files = logs_of.write(self.logs, path)
                status, _, err = record(DATA / "triangle.toml", TRIANGLE_PLANS, files, "--origin", "0")
            self.assertEqual(status, more)
            self.assertIn(reason, err)

    def test_a_clock_before_the_origin(self):
        with directory() as path:
            files = logs_of.write(self.logs, path)
            err = record(DATA / "triangle.toml", TRIANGLE_PLANS, files, "--origin", "1us")[2]
            self.assertIn("r.jsonl:1: the reference is -1000000 ps of the origin", err)

    def test_no_events(self):
        with directory() as path:
            (path / "x.jsonl").write_text("\n")
            self.assertIn("the logs have no event", record(DATA / "triangle.toml", TRIANGLE_PLANS, [path / "x.jsonl"])[2])

    def test_plans_that_are_too_few(self):
        with directory() as path:
            files = logs_of.write(self.logs, path)
            err = record(DATA / "triangle.toml", TRIANGLE_PLANS[:1], files)[2]
            self.assertIn("NoPlanLeft", err)


if __name__ == "__main__":
    unittest.main()
