"""Networks with their exact answer (data/decided.txt): what is told impossible has no plan, and how many without a plan are told so."""

from __future__ import annotations

import collections
import dataclasses
import subprocess
import unittest
from random import Random

import networks
from brute import has_plan
from decided import DATA, Group, Network, decided, parsed
from decider import plan_of
from network_kinds import Draft, connected_graphs
from plain_reasons import KINDS, reasons
from support import LIMIT, SEARCH, directory, needs_sundial, sundial

from sundial_tools.plain.conditions import Conditions
from sundial_tools.topology import topology_text

# The kinds that `sundialctl why` knows, in its order.
SAID = ("candidates", "timing", "shared", "apart", "deep", "few")
# Of the 500 networks without a plan, so many have a reason that is said, and so many any reason.
EXPLAINED = (135, 371)
# By kind of network: how many there are, how many of them have no plan, and how many of these a reason explains.
COUNTS = {
    "ring": (30, 30, 29), "tree": (30, 12, 7), "mesh": (30, 13, 0), "grid": (30, 27, 6), "torus": (30, 0, 0), "leaf-spine": (30, 0, 0),
    "rings": (30, 30, 23), "tiers": (30, 7, 6), "small": (600, 240, 172), "chords": (40, 22, 20), "graph": (995, 119, 108),
}
# Of so many stored networks, and pairs, one is decided again.
SOME = 5
RING = Network(5, 64, tuple(range(5)), ((0, 1), (1, 2), (2, 3), (3, 4), (0, 4)))


def has_why() -> bool:
    if not SEARCH.is_file():
        return False
    done = subprocess.run([SEARCH], stdout=subprocess.PIPE, text=True, check=False, timeout=LIMIT)
    return "why TOPOLOGY" in done.stdout


class PlainReasons(unittest.TestCase):
    def test_what_a_reason_holds_of_has_no_plan(self):
        counts = collections.defaultdict(lambda: [0, 0, 0])
        for it in decided():
            told = list(reasons(it.network))
            self.assertFalse(told and it.planned, f"{told}: {it.line()}")
            for place, counted in enumerate((True, not it.planned, bool(told))):
                counts[it.kind][place] += counted
        self.assertEqual({kind: tuple(count) for kind, count in counts.items()}, COUNTS)

    def test_how_many_without_a_plan_are_explained(self):
        told = [set(reasons(it.network)) for it in decided() if not it.planned]
        self.assertEqual((sum(bool(kinds & set(SAID)) for kinds in told), sum(map(bool, told))), EXPLAINED)

    def holds(self, kind, net):
        return KINDS[kind](net) is not None

    def test_a_ring_of_five_has_too_few_links_and_one_chord_mends_it(self):
        self.assertEqual(KINDS["few"](RING), (5, 0, 5, 6))
        self.assertEqual(list(reasons(RING._replace(ends=(*RING.ends, (0, 2))))), [])

    def test_numbers_of_a_topology(self):
        self.assertEqual(KINDS["candidates"](RING._replace(roots=(2,))), (1,))
        self.assertEqual(KINDS["timing"](RING), None)
        self.assertEqual(KINDS["timing"](RING._replace(period=10_000_000)), ())
        self.assertEqual(KINDS["deep"](RING._replace(depth=1)), ("d0", "d2", 2, 1))
        self.assertFalse(self.holds("deep", RING._replace(depth=2)))

    def test_one_candidate_outside_of_the_domain_is_enough(self):
        net = RING._replace(roots=(0, 1), groups=(Group(frozenset([0]), frozenset()), Group(frozenset([0, 1, 2]), frozenset([0]))))
        self.assertEqual(KINDS["shared"](net), ("f1",))
        self.assertFalse(self.holds("shared", net._replace(roots=(0, 1, 3))))

    def test_a_device_without_a_link(self):
        self.assertEqual(KINDS["apart"](RING._replace(count=6)), ("d5",))
        self.assertFalse(self.holds("apart", RING))

    def test_parts_that_meet_at_one_device(self):
        two = Network(5, 64, tuple(range(5)), ((0, 1), (1, 2), (0, 2), (2, 3), (3, 4), (2, 4)))
        self.assertTrue(self.holds("blocks", two))
        self.assertFalse(self.holds("blocks", two._replace(ends=(*two.ends, (1, 3)))))
        self.assertFalse(self.holds("blocks", two._replace(ends=(*two.ends, (2, 3)))))
        self.assertFalse(self.holds("nocycle", two._replace(roots=(0, 2))))
        self.assertTrue(self.holds("nocycle", two._replace(roots=(0, 3))))


class Deciding(unittest.TestCase):
    """The decider says what trying all plans says. Whoever has no solver takes the small search."""

    def agree(self, net, pair):
        plan = plan_of(net, pair)
        self.assertEqual(plan is not None, has_plan(net, pair), (net, pair))
        if plan:
            self.assertIsNone(Conditions(net.topology(), plan).breach(), (net, pair))

    def test_small_graphs(self):
        for count, graph in connected_graphs(4):
            net = Network(count, 3, tuple(range(count)), tuple(sorted(graph)))
            for pair in net.pairs:
                self.agree(net, pair)

    def test_small_networks_with_domains(self):
        random = Random(1)
        for _ in range(150):
            draft = Draft(random, random.randint(3, 5))
            draft.tree()
            draft.chords(random.randint(0, 2 if draft.count < 5 else 1), True)
            net = draft.network(random.randint(1, 4), 2, random.randint(0, 2))
            self.agree(net, net.pairs[0])

    def test_plans_of_stored_networks(self):
        """Of some networks of five and six devices with domains: a plan that is found is accepted, and is found where one is known."""
        some = [it for it in decided() if it.kind == "small" and it.network.count in (5, 6)][::SOME]
        for it in some:
            for pair in it.pairs[::SOME]:
                plan = plan_of(it.network, pair)
                self.assertEqual(plan is not None, pair in it.planned, it.line())
                self.assertTrue(plan is None or Conditions(it.network.topology(), plan).breach() is None, it.line())
        self.assertGreater(len(some), 40)

    @needs_sundial
    def test_the_program_judges_its_plans_alike(self):
        """Each plan, and the same plan without one backup."""
        some = [it for it in decided() if it.network.count < 6 and it.planned]
        with directory() as path:
            for it in some:
                topology = it.network.topology()
                plan = plan_of(it.network, min(it.planned))
                rows = {device: dataclasses.replace(row, backup=None) if device == max(plan.rows) else row for device, row in plan.rows.items()}
                (path / "t").write_text(topology_text(topology))
                for tried in plan, dataclasses.replace(plan, rows=rows):
                    (path / "p").write_text(networks.text_of(topology, tried))
                    self.assertEqual(sundial("check", path / "t", path / "p")[1], Conditions(topology, tried).line() + "\n")
        self.assertGreater(len(some), 20)

    def test_stored_answers_by_trying_all_plans(self):
        """Of the smallest of the networks that are stored."""
        small = [it for it in decided() if it.network.count < 5 and len(it.network.ends) < 7]
        for it in small:
            for pair in it.pairs:
                self.assertEqual(pair in it.planned, has_plan(it.network, pair), it.line())
        self.assertGreater(len(small), 20)

    def test_lines_are_read_as_they_were_written(self):
        with open(DATA / "decided.txt", encoding="ascii") as lines:
            for line in lines:
                if not line.startswith("#"):
                    self.assertEqual(parsed(line.rstrip("\n")).line() + "\n", line)


@unittest.skipUnless(has_why(), "sundialctl is not built, or has no `why` (SUNDIALCTL names it)")
class Why(unittest.TestCase):
    """`sundialctl why` over the networks with their answer."""

    def why(self, path, net):
        file = path / "topology.toml"
        file.write_text(topology_text(net.topology()))
        done = subprocess.run([SEARCH, "why", file], stdout=subprocess.PIPE, text=True, check=False, timeout=LIMIT)
        return done.stdout, done.returncode

    def test_each_network(self):
        with directory() as path:
            for it in self.chosen():
                told = next((kind for kind in reasons(it.network) if kind in SAID), None)
                line = " ".join(map(str, ("impossible", told, *KINDS[told](it.network)))) if told else "open"
                self.assertEqual(self.why(path, it.network), (line + "\n", 1 if told else 0), it.line())
                self.assertFalse(told and it.planned)

    def chosen(self):
        """All without a plan, and every third of the others."""
        return [it for place, it in enumerate(decided()) if not it.planned or place % 3 == 0]


if __name__ == "__main__":
    unittest.main()
