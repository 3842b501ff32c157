"""sundial-whatif: premises hold but those that are asked to break, and no report is above the bound of the drill."""

import json
import os
import random
import re
import unittest
from unittest import mock

from support import EXAMPLES, PROGRAM, directory, needs_sundial, run, sundial

from sundial_tools.fleet.device import ACTING
from sundial_tools.fleet.fleet import Fleet
from sundial_tools.network.main import main as topology_main
from sundial_tools.plain.lines import Replay
from sundial_tools.plan import parse_plan, read_plan
from sundial_tools.schedule import read_schedule
from sundial_tools.topology import Device, parse_topology, read_topology
from sundial_tools.whatif import wishes as wished
from sundial_tools.whatif.clocks import FAST, SLOW, STEADY, Clock
from sundial_tools.whatif.main import main
from sundial_tools.whatif.program import drill
from sundial_tools.whatif.scenario import Scenario, Settings
from sundial_tools.whatif.wishes import Wishes

FABRIC = EXAMPLES / "fabric" / "topology.toml"
PLANS = [EXAMPLES / "fabric" / "plan.json", EXAMPLES / "fabric" / "plan-2.json"]
MILLION = 1_000_000
# Of random scenarios: those that the plain replay judges, which takes a second for each thousand lines, those that sundial
# does, and of these the ones with a renewal after a loss of a listed domain. By hand there were 300 and 60.
FEW = 4
MANY = int(os.environ.get("WHATIF_SCENARIOS", "40"))
RENEWALS = int(os.environ.get("WHATIF_RENEWALS", "3"))


def whatif(*words):
    return run("sundial-whatif", main, list(words))


def least_wait(topology, low):
    """A wait that any counter takes at least `low` for."""
    device = max(topology.devices, key=lambda it: (it.ppm, it.grain))
    return (low + max(it.grain for it in topology.devices) + 2) * MILLION // (MILLION - device.ppm) + 2


def up(topology, wait):
    return max(wait + -(-it.ppm * wait // MILLION) + it.grain for it in topology.devices)


def waits(topology):
    """Waits that meet the rules of timing."""
    slowest = max(max(it.forth.max, it.back.max) for it in topology.links)
    silence = (topology.loss + 2) * (up(topology, topology.period) + topology.tick) + 4 * (topology.depth + 1) * slowest
    first = least_wait(topology, 2 * (silence + topology.tick))
    return first, first, least_wait(topology, 2 * up(topology, first) + 6 * (silence + topology.tick))


def plan_text(topology, absent=()):
    """The plan of a fabric of leaves and spines: all leaves follow the first spine and fall back on the second."""
    spines = [it.name for it in topology.devices if it.name.startswith("spine") and it.name not in absent]
    leaves = [it.name for it in topology.devices if it.name.startswith("leaf") and it.name not in absent]
    rows = [
        {"device": spine, "parent": leaves[0], "link": f"{leaves[0]}-{spine}", "backup": leaves[1], "backup_link": f"{leaves[1]}-{spine}"}
        for spine in spines[1:]
    ]
    rows += [
        {"device": leaf, "parent": spines[0], "link": f"{leaf}-{spines[0]}", "backup": spines[1], "backup_link": f"{leaf}-{spines[1]}"}
        for leaf in leaves
    ]
    first, second, wait = waits(topology)
    return json.dumps({
        "version": 1, "root": spines[0], "backup_root": spines[1], "wait_first": first, "wait_second": second, "wait": wait,
        "absent_devices": sorted(absent), "absent_links": [], "rows": rows,
    })


class Drawn:
    """A network, its plans and a scenario, drawn from a number."""

    def __init__(self, number):
        drawn = random.Random(number)
        words = [
            "make", "leaf-spine", "--feeds", "0", "--leaves", drawn.choice((2, 3)), "--period", "60us", "--tick", drawn.choice(("20us", "40us")),
            "--ppm", drawn.choice((0, 50, 200)), "--grain", drawn.choice(("1ns", "8ns")), "--loss", drawn.choice((0, 0, 1, 2)),
            "--max", drawn.choice(("400ns", "1us", "1.7us")),
        ]
        self.text = run("sundial-topology", topology_main, words)[1]
        self.topology = parse_topology(self.text)
        self.lost = drawn.choice(["spine1", "spine1", "leaf1", "leaf2", "spine2", "leaf1-spine1", "listed:rack1", ""])
        renewed = self.lost == "spine1" and drawn.random() < 0.7
        self.plans = [plan_text(self.topology)] + ([plan_text(self.topology, ("spine1",))] if renewed else [])
        first, second, wait = waits(self.topology)
        fails = 400_000_000 + drawn.randrange(100_000_000)
        renews = fails + first + second + drawn.randrange(wait)
        self.until = (renews + 400_000_000) if renewed else fails + drawn.choice((first + second, wait)) + 500_000_000
        self.renewals = [renews] if renewed else []
        failures = [wished.failure(self.topology, f"{self.lost}@{fails}ps")] if self.lost else []
        self.wishes = Wishes(failures, [], [], [], [], [])
        self.settings = Settings(
            self.until, 300_000_000, number, drawn.choice(("least", "greatest", "random")), drawn.choice(("random", "worst")),
            drawn.choice((0, 1000, 1_000_000)), first + second + 3 * self.topology.tick, drawn.random() < 0.8,
            drawn.choice((0, 50_000_000)), drawn.choice((0, 10, 100)),
        )

    def scenario(self):
        """The scenario after its run, and its lines."""
        plans = [parse_plan(it, self.topology) for it in self.plans]
        scenario, lines = Scenario(self.topology, plans, self.renewals, self.wishes, self.settings), []
        scenario.run(lines.append)
        return scenario, lines


def replayed(topology, plans, lines):
    """What the plain replay prints but reports, and its status."""
    replay = Replay(topology, [parse_plan(it, topology) for it in plans])
    said = list(replay.lines(line.encode() for line in lines))
    return [it for it in said if not it.startswith(("report", "done"))], replay.status, [it for it in said if it.startswith("report")]


class Premises(unittest.TestCase):
    def test_none_breaks_in_random_scenarios(self):
        for number in range(FEW):
            drawn = Drawn(number)
            scenario, lines = drawn.scenario()
            bad, status, reports = replayed(drawn.topology, drawn.plans, lines)
            self.assertEqual((bad, status), ([], 0), (number, drawn.lost))
            mine = [f"report {it.line} {drawn.topology.devices[it.device].name} {it.clock} {it.eps}" for it in scenario.reports]
            self.assertEqual(reports, mine)
            if drawn.renewals:
                self.assertIn("plan 2 is in force", [it.text for it in scenario.happenings])

    def test_what_is_asked_to_break_breaks_and_nothing_else(self):
        drawn = Drawn(0)
        topology, plans = drawn.topology, drawn.plans[:1]
        for wishes, premise in (
            (Wishes([], [], [], [wished.late(topology, "leaf1-spine1@200us=" + f"{topology.links[0].forth.max + 1000}ps")], [], []), "delay"),
            (Wishes([], [], [], [], [wished.wrong(topology, "leaf2@200us=+900")], []), "drift"),
            (Wishes([], [], [wished.lost(topology, "leaf2-spine1@100us..600us")], [], [], []), "loss"),
            (Wishes([wished.failure(topology, "leaf1@100us"), wished.failure(topology, "leaf2@200us")], [], [], [], [], ["domain"]), "domain"),
        ):
            lines = []
            settings = drawn.settings._replace(until=700_000_000, lossy=0)
            Scenario(topology, [parse_plan(it, topology) for it in plans], [], wishes, settings).run(lines.append)
            bad, _, _ = replayed(topology, plans, lines)
            self.assertEqual({it.split()[2] for it in bad if it.startswith("broken")}, {premise}, bad)

    def test_one_lost_message_breaks_nothing_where_one_may_be_lost(self):
        drawn = next(it for it in map(Drawn, range(99)) if it.topology.loss == 1)
        wishes = Wishes([], [], [wished.lost(drawn.topology, "leaf2-spine1@200us")], [], [], [])
        lines = []
        settings = drawn.settings._replace(until=500_000_000, lossy=0)
        Scenario(drawn.topology, [parse_plan(drawn.plans[0], drawn.topology)], [], wishes, settings).run(lines.append)
        self.assertEqual(sum(line.startswith("lose ") for line in lines), 1)
        self.assertEqual(replayed(drawn.topology, drawn.plans[:1], lines)[:2], ([], 0))


class Clocks(unittest.TestCase):
    def test_counters_keep_to_the_drift_rule(self):
        drawn = random.Random(5)
        for kind in STEADY, FAST, SLOW:
            for ppm, grain in (0, 0), (200, 0), (200, 1000), (50, 8000), (100000, 3):
                clock, ref = Clock(Device(0, "d", "root", ppm, grain), kind, ppm * 900, 77, drawn), 0
                readings = [(0, clock.begin(0))]
                for _ in range(60):
                    ref += drawn.choice((0, 1, 7, 1000, 10**6, 10**9))
                    readings.append((ref, clock.at(ref)))
                for place, (before, first) in enumerate(readings):
                    for after, second in readings[place:]:
                        self.assertGreaterEqual(second, first)
                        counted, passed = second - first, after - before
                        self.assertLessEqual(abs(counted - passed) * MILLION, ppm * counted + grain * MILLION, (kind, ppm, grain))


class Holds(unittest.TestCase):
    def test_an_acting_root_is_fixed_within_hold(self):
        """At each event of an acting device its estimate is at most HOLD old."""
        here = EXAMPLES / "fabric"
        topology = read_topology(str(here / "topology.toml"))
        plans = [read_plan(str(here / "plan.json"), topology)]
        with directory() as path:
            words = [here / "topology.toml", here / "plan.json", "--until", "12ms", "--hold", "500us", "--seed", "3", "-o", path / "run.txt"]
            self.assertEqual(whatif(*words)[0], 0)
            events = [event for _, event in read_schedule((path / "run.txt").read_text().splitlines())]
        fleet, oldest = Fleet(topology, plans), 0
        for event in events:
            fleet.happen(event)
            state = fleet.up.get(event.device)
            if event.counter is not None and state is not None and state.mode == ACTING:
                oldest = max(oldest, event.counter - state.counter)
        self.assertTrue(200 * MILLION < oldest <= 500 * MILLION, oldest)
        self.assertGreater(sum(event.word == "fix" for event in events), 12)


class Words(unittest.TestCase):
    def test_who_moved_when(self):
        with directory() as path:
            words = [FABRIC, PLANS[0], "--fail", "spine1@3ms", "--until", "10ms", "--ask", "500us", "-o", path / "s.txt"]
            status, out, err = whatif(*words)
            self.assertEqual((status, err), (0, ""))
            lines = (path / "s.txt").read_text()
            self.assertEqual(lines.splitlines()[-1], "end 10000000000")
            self.assertIn("NOT REPLAYED", out)
            self.assertRegex(out, r"3,000\.0 us  device spine1 fails\n")
            self.assertRegex(out, r"spine2 has heard nothing for 1,[0-9.,]+ us: it moves to its backup, leaf4 over leaf4-spine2\n")
            self.assertRegex(out, r"it takes over as root, 2,[0-9.]+ us after the failure\n")
            self.assertRegex(out, r"\n  leaf1 +8,[0-9.]+ +[0-9.]+ +8,[0-9.]+\n")
            whatif(*words[:-1], path / "again.txt")
            self.assertEqual((path / "again.txt").read_text(), lines)
            status, out, err = whatif(*words[:-2])
            self.assertEqual(out, lines)
            self.assertIn("Asked: device spine1 fails at 3,000.0 us.", err)

    def test_a_renewal_that_waits_for_the_takeover(self):
        status, _, err = whatif(FABRIC, PLANS[0], "--fail", "spine1@1ms", "--renew", f"{PLANS[1]}@1.5ms", "--until", "6ms", "--ask", "0")
        self.assertEqual(status, 0)
        for text in "plan 2 waits until spine2 acts as root", "spine2 commits plan 2", "all 10 members follow plan 2", "plan 2 is in force":
            self.assertIn(text, err)

    def test_a_spine_that_comes_back(self):
        words = ["--fail", "spine1@1ms", "--renew", f"{PLANS[1]}@4ms", "--renew", f"{PLANS[0]}@5ms", "--until", "6ms", "--ask", "0"]
        err = whatif(FABRIC, PLANS[0], *words)[2]
        # (plan 1 has spine1 as root, and spine2 acts: nobody hands over to a root that does not act)
        for text in "mended: spine1", "spine1 joined", "plan 3 waits until spine1 acts as root", "plan 3 is still not in force":
            self.assertIn(text, err)

    def test_what_a_plan_leaves_out_has_to_be_gone(self):
        err = whatif(FABRIC, PLANS[0], "--renew", f"{PLANS[1]}@1ms", "--until", "2ms", "--ask", "0")[2]
        self.assertIn("plan 2 waits until spine2 acts as root", err)

    def test_what_is_refused(self):
        for words, text in (
            (("--fail", "spine9@1ms"), "no domain, device or link has the name spine9"),
            (("--fail", "spine1@1"), "'1' has no unit"),
            (("--fail", "spine1"), "is no THING@TIME"),
            (("--fail", "leaf1@1ms", "--fail", "leaf5@2ms"), "say --allow domain"),
            (("--late", "leaf1-spine1@1ms=5us"), "can be received for 2.0 us"),
            (("--drift", "leaf1@1ms=fast"), "is no DEVICE@TIME=PPM"),
            (("--lose", "leaf1-spine@1ms"), "no link has the name leaf1-spine; leaf"),
            (("--lose", "leaf1-spine1@2ms..1ms"), "ends before it begins"),
            (("--report", "page.html"), "--report needs sundial"),
        ):
            status, out, err = whatif(FABRIC, PLANS[0], "--until", "3ms", "--ask", "0", *words)
            self.assertEqual((status, out), (1, ""), words)
            self.assertIn(text, err)


@needs_sundial
class Program(unittest.TestCase):
    def test_no_report_is_above_the_bound(self):
        with directory() as path, mock.patch.dict(os.environ, {"SUNDIAL": str(PROGRAM)}):
            for number in range(MANY):
                self.judged(path, Drawn(number), number)

    def test_a_listed_domain_is_lost_and_a_plan_without_it_comes_in(self):
        """Racks, power feeds and trays. What they list fails, and all of it is mended again by a third plan."""
        with directory() as path, mock.patch.dict(os.environ, {"SUNDIAL": str(PROGRAM)}):
            kinds = set()
            for number in range(RENEWALS):
                kinds |= self.renewed(path, number)
            self.assertLessEqual({"rack", "feed"}, kinds)

    def renewed(self, path, number):
        drawn = random.Random(number)
        kind = ("rack", "feed", "tray")[number % 3]
        words = ["make", "leaf-spine", "--leaves", drawn.choice((4, 6)), "--loss", drawn.choice((0, 1)), "--tick", "20us", "--trays", 3]
        files = {name: path / f"{number}-{name}" for name in ("t.toml", "absent", "1.json", "2.json", "3.json", "s.txt")}
        files["t.toml"].write_text(run("sundial-topology", topology_main, words)[1])
        topology = parse_topology(files["t.toml"].read_text())
        named = drawn.choice([it.name for it in topology.domains if it.name.startswith(kind)])
        run("sundial-topology", topology_main, ["absent", files["t.toml"], f"listed:{named}", "-o", files["absent"]])
        files["1.json"].write_text(sundial("plan", files["t.toml"])[1])
        files["2.json"].write_text(sundial("renew", files["t.toml"], files["1.json"], files["absent"])[1])
        if sundial("check", files["t.toml"], files["2.json"])[0]:
            return set()  # (the greedy rule finds no plan without it)
        # (the third plan has all again, below the root that acts then)
        second = json.loads(files["2.json"].read_text())
        files["3.json"].write_text(sundial("plan", self.with_root(path, files["t.toml"], second["root"], second["backup_root"]))[1])
        back = not sundial("check", files["t.toml"], files["3.json"])[0]
        waits = [json.loads(files["1.json"].read_text())[it] // 10**6 + 1 for it in ("wait_first", "wait_second", "wait")]
        fails, renews = 500, 600 + max(waits[0] + waits[1], waits[2]) * drawn.choice((1, 2))
        words = [files["t.toml"], files["1.json"], "--fail", f"listed {named}@{fails}us", "--renew", f"{files['2.json']}@{renews}us", "--until", f"{renews + 1500}us"]
        words += ["--renew", f"{files['3.json']}@{renews + 700}us"] if back else []
        words += ["--seed", number, "--delays", drawn.choice(("least", "greatest", "random")), "--clocks", drawn.choice(("random", "worst")), "--over", drawn.choice(("0", "60us"))]
        status, out, err = whatif(*words, "-o", files["s.txt"])
        self.assertEqual(status, 0, (number, named, out, err))
        for text in ["FINE: no premise broke, and no alarm came.", "plan 2 is in force", *(["mended: ", "plan 3 is in force"] if back else [])]:
            self.assertIn(text, out, (number, named))
        self.assertNotIn("ABOVE THE BOUND", out)
        return {kind}

    @staticmethod
    def with_root(path, topology, *roots):
        """The topology with these candidates first."""
        text = topology.read_text()
        before = json.loads(re.search(r"^roots = (.*)$", text, re.MULTILINE)[1])
        other = path / "other.toml"
        other.write_text(re.sub(r"^roots = .*$", f"roots = {json.dumps([*roots, *(it for it in before if it not in roots)])}", text, flags=re.MULTILINE))
        return other

    def judged(self, path, drawn, number):
        (path / "t.toml").write_text(drawn.text)
        files = [path / "t.toml"]
        for place, text in enumerate(drawn.plans, 1):
            files.append(path / f"p{place}.json")
            files[-1].write_text(text)
        scenario, lines = drawn.scenario()
        (path / "s.txt").write_text("".join(lines))
        status, out = sundial("replay", *files, path / "s.txt")
        self.assertEqual(status, 0, (number, [it for it in out.splitlines() if not it.startswith("report")]))
        hold = max(scenario.held, drawn.settings.hold)
        domain = drawn.wishes.failures[0].named.text if drawn.wishes.failures else None
        bounds = drill(str(PROGRAM), drawn.topology, [*map(str, files[:2]), str(drawn.settings.base), str(hold)], domain)
        for report in scenario.reports:
            bound = bounds[report.device]
            if bound is not None and (not scenario.first_stage or report.line < scenario.first_stage):
                self.assertLessEqual(report.eps, bound, (number, report))

    def test_the_summary_has_bounds_and_the_page_is_there(self):
        with directory() as path, mock.patch.dict(os.environ, {"SUNDIAL": str(PROGRAM)}):
            status, out, _ = whatif(
                FABRIC, PLANS[0], "--fail", "spine1@2ms", "--renew", f"{PLANS[1]}@10ms", "--until", "12ms", "-o", path / "s.txt",
                "--report", path / "page.html",
            )
            self.assertEqual(status, 0, out)
            self.assertIn("FINE: no premise broke", out)
            self.assertRegex(out, r"\n  spine2 .* 4\.[0-9]{3} +[0-9.]+\n")
            self.assertIn("bound: the drill of plan 1 under the failure of device spine1, BASE 1.0 us", out)
            self.assertIn("<h1>", (path / "page.html").read_text())
            status, out, _ = whatif(FABRIC, PLANS[0], "--late", "leaf3-spine1@1ms=1.5us", "--until", "2ms", "-o", path / "s.txt")
            self.assertEqual(status, 7)
            self.assertRegex(out, r"line [0-9]+: the premise delay broke: a message of spine1 reached leaf3 over leaf3-spine1 after 1,500,000 ps")


if __name__ == "__main__":
    unittest.main()
