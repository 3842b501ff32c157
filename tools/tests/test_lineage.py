"""The lineage of a report: beside a plain model over all steps, and the law that it contains its reference if honest."""

import json
import random
import unittest

import case
from examples import EXAMPLES, outputs
from page_tree import parse
from support import DATA, directory, run
from worlds import KINDS, PERIOD, World

from sundial_tools.fleet.lineage import MILLION
from sundial_tools.lines.main import main
from sundial_tools.plain.lines import Replay
from sundial_tools.plain.refusals import refusal
from sundial_tools.plan import read_plan
from sundial_tools.report.main import main as report_main
from sundial_tools.schedule import event_line, read_schedule
from sundial_tools.topology import read_topology


def descent(steps, messages, device, below):
    """The latest step before number `below` that set the estimate of the device, and the lineage of what it set."""
    for step in reversed(steps[: below - 1]):
        event = step.event
        if event.device != device:
            continue
        if event.word in ("start", "join", "fix"):
            return step, [("set", event.word, step.number, device)]
        if event.word == "recv" and step.turn.accepts:
            return step, [*sent_with(steps, messages, step.message), ("came", step.number, step.message.link, device)]
    return None


def held(steps, messages, device, number):
    """The lineage of what a device says of itself at a step."""
    since, before = descent(steps, messages, device, number)
    return [*before, ("held", number, since.number, device)]


def sent_with(steps, messages, message):
    """The lineage of what a message carries. A relay sends in the step in which it set its estimate."""
    step = steps[message.sent - 1]
    if step.event.word == "recv":
        return descent(steps, messages, message.sender, message.sent + 1)[1]
    return held(steps, messages, message.sender, message.sent)


def is_honest(history, part):
    topology, steps = history.topology, history.steps
    if part[0] == "set":
        event = steps[part[2] - 1].event
        return abs(event.clock - event.ref) <= event.eps
    if part[0] == "came":
        step = steps[part[1] - 1]
        bounds, age = topology.links[part[2]].towards(part[3]), step.event.ref - step.message.ref
        return bounds.min <= age <= bounds.max
    end, begin, rates = steps[part[1] - 1].event, steps[part[2] - 1].event, topology.devices[part[3]]
    counted, passed = end.counter - begin.counter, end.ref - begin.ref
    return abs(counted - passed) * MILLION <= rates.ppm * counted + rates.grain * MILLION


def told_part(topology, part):
    """A part of a row, as the model has it."""
    device = topology.device_numbers[part["device"]]
    if part["part"] == "held":
        return "held", part["line"], part["since"], device
    if part["part"] == "came":
        return "came", part["line"], topology.link_numbers[part["link"]], device
    return "set", part["part"], part["line"], device


class Lineages(unittest.TestCase):
    def compare(self, topology_path, plan_paths, schedule, output=None):
        """The rows of the tool beside the model. Answers the rows of reports."""
        topology = read_topology(str(topology_path))
        plans = [read_plan(str(path), topology) for path in plan_paths]
        replay = Replay(topology, plans)
        printed = list(replay.lines([line.encode() for line in schedule]))
        if output is not None:
            self.assertEqual([line for line in printed if line[:6] == "report"], [line for line in output if line[:6] == "report"])
        with directory() as path:
            (path / "schedule").write_text("".join(schedule))
            (path / "output").write_text("".join(f"{line}\n" for line in printed))
            words = [path / "output", "-t", topology_path, "-s", path / "schedule", "--lineage"]
            for plan in plan_paths:
                words += ["-p", plan]
            status, out, err = run("sundial-lines", main, words)
            self.assertEqual((status, err), (0, ""))
            self.assertEqual(run("sundial-lines", main, [*words, "--csv"])[0], 0)
        rows = [row for row in map(json.loads, out.splitlines()) if row["kind"] == "report"]
        history = replay.history
        for row in rows:
            said, device = row["lineage"], topology.device_numbers[row["device"]]
            parts = held(history.steps, history.messages, device, row["line"])
            self.assertEqual([told_part(topology, part) for part in said["parts"]], parts)
            honest = [is_honest(history, part) for part in parts]
            self.assertEqual([part["honest"] for part in said["parts"]], honest)
            self.assertEqual(said["honest"], all(honest))
            self.assertEqual(said["text"].count("not honest"), honest.count(False))
            # the law: whatever else is wrong
            self.assertTrue(row["inside"] or not said["honest"], row)
        return rows

    def test_the_examples(self):
        for name, plans, command in (
            ("logs", ["plan.json"], "sundial replay topology.toml plan.json schedule.txt"),
            ("incident", ["plan.json", "plan.json"], "sundial replay topology.toml plan.json plan.json schedule.txt"),
        ):
            here = EXAMPLES / name
            lines = (here / "schedule.txt").read_text().splitlines(keepends=True)
            output = outputs(name).get(command, "").splitlines() or None
            rows = self.compare(here / "topology.toml", [here / plan for plan in plans], lines, output)
            self.assertTrue(rows, name)

    def test_random_histories(self):
        honest = 0
        for number in range(2 * len(KINDS)):
            made = World(number, rounds=10, late=6 * PERIOD if number % 3 == 0 else None)
            with directory() as path:
                rows = self.compare(*made.files(path), made.lines)
            honest += sum(row["lineage"]["honest"] for row in rows)
        self.assertGreater(honest, 20)

    def test_what_lies_beside_a_lineage_does_not_touch_it(self):
        """The triangle, where the clock of x lies: reports of b stay honest, and those of x say which part is not."""
        lines = [
            "start 0 0 0 0 500", "start 0 1 0 0 800000", "start 0 2 0 0 800000",
            "tick 90000000 0 90000000", "tick 90000000 1 90000000", "tick 90000000 2 95000000",
            "tick 110000000 0 110000000", "recv 110700000 1 110700000 1", "ask 120000000 1 120000000",
            "ask 120000000 2 129000000", "end 120000000",
        ]
        of_b, of_x = self.compare(DATA / "triangle.toml", [DATA / "triangle-1.json"], [f"{line}\n" for line in lines])
        self.assertEqual((of_b["lineage"]["devices"], of_b["lineage"]["links"], of_b["lineage"]["honest"]), (["r", "b"], ["rb"], True))
        self.assertEqual((of_x["lineage"]["devices"], of_x["lineage"]["honest"], of_x["inside"]), (["x"], False, False))
        self.assertIn("its counter 9,000,000 ps off, and its drift allows", of_x["lineage"]["text"])

    def test_it_needs_plans(self):
        status, _, err = run("sundial-lines", main, [EXAMPLES / "logs" / "schedule.txt", "--lineage"])
        self.assertEqual((status, err), (1, "sundial-lines: --lineage needs --plan, once for each plan\n"))


class Changed(unittest.TestCase):
    """Cases with counters and references that lie: the same as the model, and no honest report is wrong."""

    def test_lies(self):
        draw, compared = random.Random(11), Lineages()
        wrong = 0
        with directory() as path:
            (path / "topology").write_text(case.network_text(2, 2))
            topology = read_topology(str(path / "topology"))
            rows = [{"device": "s1", "parent": "l0", "link": "k0-1", "backup": "l1", "backup_link": "k1-1"}]
            rows += [
                {"device": f"l{leaf}", "parent": "s0", "link": f"k{leaf}-0", "backup": "s1", "backup_link": f"k{leaf}-1"}
                for leaf in range(2)
            ]
            plan = {
                "version": 1, "root": "s0", "backup_root": "s1", "wait_first": 1345000000, "wait_second": 1345000000,
                "wait": 6730000000, "absent_devices": [], "absent_links": [], "rows": rows,
            }
            (path / "plan").write_text(json.dumps(plan))
            plans = [read_plan(str(path / "plan"), topology)]
            for number in range(4):
                made = case.Case(number, topology, plans, rounds=14).lines
                device = draw.randrange(4)
                lines = [self.faster(line, device, 4 * number) for line in made]
                asked = [more for line in lines for more in self.with_ask(line)]
                kept = self.accepted(topology, plans, asked)
                rows_told = compared.compare(path / "topology", [path / "plan"], kept)
                wrong += sum(not row["inside"] for row in rows_told)
        self.assertGreater(wrong, 0)

    @staticmethod
    def faster(line, device, parts):
        """The counter of one device runs faster, by so many parts in a thousand."""
        fields = line.split(" ")
        if fields[0] in ("tick", "recv", "ask") and int(fields[2]) == device:
            fields[3] = str(int(fields[3]) * (1000 + parts) // 1000)
        return " ".join(fields)

    @staticmethod
    def with_ask(line):
        fields = line.split(" ")
        return [line, f"ask {fields[1]} {fields[2]} {fields[3]}"] if fields[0] == "tick" else [line]

    @staticmethod
    def accepted(topology, plans, lines):
        """The lines that a plain replay accepts, one after the other."""
        replay, kept = Replay(topology, plans), []
        for _, event in read_schedule(lines):
            if refusal(replay.history, event) is None:
                replay.history.add(event)
                kept.append(event_line(event))
        return kept


class OnThePage(unittest.TestCase):
    def test_reports_and_alarms(self):
        here = EXAMPLES / "incident"
        with directory() as path:
            (path / "output").write_text(outputs("incident")["sundial replay topology.toml plan.json plan.json schedule.txt"])
            words = [here / "topology.toml", here / "plan.json", here / "plan.json", "--replay", here / "schedule.txt", path / "output"]
            status, page, err = run("sundial-report", report_main, words)
        self.assertEqual((status, err), (0, ""))
        tree = parse(page)
        reports = tree.one("table", "reports")
        self.assertEqual(reports.one("thead").all("th")[-1].text, "rests on")
        rows = {row.all("td")[0].text: row for row in reports.one("tbody").all("tr")}
        self.assertEqual(len(rows), 8)
        for line, row in rows.items():
            self.assertEqual(row.all("td")[-1].one("summary").text.endswith(": not honest"), line == "38", line)
        # (the alarm of line 38: the message of line 36 took too long, and no clock lied)
        parts = rows["38"].one("details", "lineage").all("li")
        self.assertEqual([part["class"] for part in parts], [None, None, "unsound", None])
        self.assertEqual(parts[0].text, "line 30: fix set spine1 0 ps off, with an eps of 500 ps")
        found = "line 36: over spine1-leaf to leaf in 1.9 us, and the link takes 400 ns to 1 us"
        self.assertEqual(parts[2].text, f"{found}: not honest")
        self.assertIn(f"Not honest in its lineage: {found}.", tree.one("section", "verdict").text)


if __name__ == "__main__":
    unittest.main()
