"""sundial-readiness: who may move after each loss, what it cuts off, and whether what is left is planned again."""

import json
import os
import unittest
from collections import Counter
from unittest import mock

from support import EXAMPLES, PROGRAM, SEARCH, directory, needs_sundial, run, sundial

from sundial_tools.effects import Effects
from sundial_tools.network.main import main as topology_main
from sundial_tools.plan import read_plan
from sundial_tools.readiness.losses import Losses, Next
from sundial_tools.readiness.main import main
from sundial_tools.things import all_named, find_named
from sundial_tools.topology import parse_topology, read_topology

FABRIC, PLAN = EXAMPLES / "fabric" / "topology.toml", EXAMPLES / "fabric" / "plan.json"
TOPOLOGY = read_topology(str(FABRIC))


class Moved(unittest.TestCase):
    def test_who_may_move(self):
        topology = read_topology(str(FABRIC))
        plan = read_plan(str(PLAN), topology)
        leaves = tuple(f"leaf{leaf}" for leaf in range(1, 9))
        effects = Effects(topology, plan)
        for name, expected in (
            ("spine1", ("spine2", "spine3", *leaves)), ("leaf5-spine1", ("leaf5",)), ("leaf5-spine2", ()),
            ("leaf1", ("spine2", "spine3")), ("feed-a", ("spine2", "spine3", *leaves[3:])),
        ):
            moving = effects.of(find_named(topology, name)).moving
            self.assertEqual(tuple(topology.devices[device].name for device in moving), expected)
        self.assertEqual(len(all_named(topology)), 46)

    def test_without_the_program(self):
        status, out, err = run("sundial-readiness", main, [FABRIC, PLAN])
        self.assertEqual((status, out), (1, ""))
        self.assertIn("this asks sundial", err)


# In place of both programs: a drill of one domain, a renewal that finds no plan, and a search that finds one for three of the losses.
ASKED = """#!/bin/sh
case $1 in
    migrate) exit 1 ;;
    drill) echo 'bound device spine1 leaf1 7'; echo 'done 1 1' ;;
    *) if [ $# = 4 ]; then echo 'refused plan 1 root device a at device a'; exit 1; fi
        echo "$5 $6 $7 $8" >> "$(dirname "$0")/words"; cat "$4" >> "$(dirname "$0")/absent"
        if grep -q leaf1-spine "$4"; then echo '{"backup_root":"spine3","root":"spine2","rows":[]}'; exit 0; fi
        echo 'refused plan 1 loop device b cycle b'; exit 1 ;;
esac
"""


class BothRoots(unittest.TestCase):
    def test_where_both_fail_nobody_takes_over(self):
        """A domain with both roots: nobody acts, all others are cut off, and no candidate is left of two."""
        text = FABRIC.read_text().replace('roots = ["spine1", "spine2", "spine3"]', 'roots = ["spine1", "spine2"]')
        topology = parse_topology(text + '[[domain]]\nname = "hall"\ndevices = ["spine1", "spine2"]\n')
        plan = read_plan(str(PLAN), topology)
        effect = Effects(topology, plan).of(find_named(topology, "hall"))
        self.assertIsNone(effect.acts)
        self.assertEqual({topology.devices[it].name for it in effect.cut}, {"spine3", *(f"leaf{leaf}" for leaf in range(1, 9))})
        losses = Losses("/bin/false", topology, plan, (str(FABRIC), str(PLAN)), 1, 1)
        cut_off, then = losses._renewed(find_named(topology, "hall"), "/nonexistent")
        self.assertEqual((then.refusal, then.roots), ("no candidate for root is left", ()))
        with mock.patch.object(Losses, "_bounds", dict), mock.patch.object(Losses, "_renewed", lambda *_: ((), Next("", ()))):
            takes_over = {loss.named.name: loss.takes_over for loss in losses.all(lambda: None)}
        self.assertEqual({name for name, is_so in takes_over.items() if is_so}, {"spine1", "feed-a"})


class Search(unittest.TestCase):
    def searched(self, path, *words, plan=PLAN):
        for name in "sundial", "sundialctl":
            (path / name).write_text(ASKED)
            (path / name).chmod(0o755)
        said = {"SUNDIAL": str(path / "sundial"), "SUNDIALCTL": str(path / "sundialctl")}
        # (the topology is read without the program)
        with mock.patch.dict(os.environ, said), mock.patch("sundial_tools.readiness.main.read_topology", lambda it: TOPOLOGY):
            return run("sundial-readiness", main, [FABRIC, plan, *words])

    def test_what_the_plan_leaves_out_stays_out(self):
        with directory() as path:
            status, _, err = self.searched(path, "--search", "7", plan=EXAMPLES / "fabric" / "plan-2.json")
            self.assertEqual((status, err), (0, ""))
            absent = [json.loads(line) for line in (path / "absent").read_text().splitlines()]
        self.assertEqual(len(absent), 46 + 3 * 42)
        self.assertTrue(all("spine1" in said["absent_devices"] for said in absent))

    def test_the_search_is_asked_where_renew_finds_no_plan(self):
        with directory() as path:
            status, out, err = self.searched(path, "--search", "7", "--base", "2us", "--hold", "3us")
            self.assertEqual((status, err), (0, ""))
            words = (path / "words").read_text().splitlines()
        # (one that finds nothing is asked with four seeds)
        self.assertEqual(Counter(words), {f"2000000 3000000 {seed} 7": 46 if seed == 1 else 42 for seed in range(1, 5)})
        lines = {line.split("  ")[0]: line for line in out.splitlines()}
        # (rack1 lists the three links of leaf1, too)
        self.assertEqual(out.splitlines()[-1], "0 of 46 losses can be planned again, and 4 more by a search; eps for BASE 2 us and HOLD 3 us")
        self.assertTrue(lines["link leaf1-spine2"].endswith("by a search: spine2, spine3"))
        self.assertTrue(lines["device leaf1"].endswith("no: root device a at device a; search: loop device b cycle b"))

    def test_the_rows_say_what_the_search_said(self):
        with directory() as path:
            rows = [json.loads(line) for line in self.searched(path, "--search", "7", "--json")[1].splitlines()]
        link = next(row for row in rows if row["name"] == "leaf1-spine1")
        self.assertEqual([link[it] for it in ("planned_again", "found_by_search", "search_refusal", "next_root")], [False, True, None, "spine2"])
        leaf = next(row for row in rows if row["name"] == "leaf1")
        self.assertEqual([leaf[it] for it in ("found_by_search", "search_refusal", "next_root")], [False, "loop device b cycle b", None])

    def test_without_a_search_nothing_is_said_of_one(self):
        with directory() as path:
            _, out, _ = self.searched(path)
            rows = [json.loads(line) for line in self.searched(path, "--json")[1].splitlines()]
        self.assertNotIn("search", out)
        self.assertNotIn("found_by_search", rows[0])

    def test_a_search_that_is_not_there_and_words_that_are_wrong(self):
        with mock.patch.dict(os.environ, {"SUNDIAL": "/bin/false", "SUNDIALCTL": ""}):
            status, out, err = run("sundial-readiness", main, [FABRIC, PLAN, "--search", "7"])
        self.assertEqual((status, out), (1, ""))
        self.assertIn("--search asks sundialctl", err)
        for word in "-1", "many", str((1 << 60) + 1):
            with self.assertRaises(SystemExit):
                run("sundial-readiness", main, [FABRIC, PLAN, f"--search={word}"])


@needs_sundial
class Program(unittest.TestCase):
    def readiness(self, *words):
        with mock.patch.dict(os.environ, {"SUNDIAL": str(PROGRAM)}):
            return run("sundial-readiness", main, list(words))

    def test_the_fabric(self):
        status, out, _ = self.readiness(FABRIC, PLAN, "--refused")
        lines = out.splitlines()
        self.assertEqual((status, len(lines), lines[-1]), (0, 10, "38 of 46 losses can be planned again; eps for BASE 1 us and HOLD 2.405 ms"))
        self.assertRegex(lines[1], r"^link leaf1-spine2 +1 +[0-9.]+ us +\S+ +- +no: reach device spine1 chain leaf1$")
        rows = [json.loads(line) for line in self.readiness(FABRIC, PLAN, "--json")[1].splitlines()]
        self.assertEqual(len(rows), 46)
        feed = next(row for row in rows if row["name"] == "feed-a")
        self.assertEqual((feed["takes_over"], feed["without_bound"], feed["next_root"]), (True, 4, "spine2"))

    def test_hosts_that_hang_on_one_leaf(self):
        with directory() as path, mock.patch.dict(os.environ, {"SUNDIAL": str(PROGRAM)}):
            run("sundial-topology", topology_main, ["make", "leaf-spine", "--leaves", "4", "--hosts", "1", "-o", path / "t.toml"])
            (path / "p.json").write_text(sundial("plan", path / "t.toml")[1])
            rows = [json.loads(line) for line in self.readiness(path / "t.toml", path / "p.json", "--json")[1].splitlines()]
            leaf = next(row for row in rows if (row["kind"], row["name"]) == ("device", "leaf3"))
            self.assertEqual((leaf["cut_off"], leaf["planned_again"]), (["host3-1"], True))

    @unittest.skipUnless(SEARCH.is_file(), "the program sundialctl is not built (SUNDIALCTL names it)")
    def test_a_link_to_the_backup_root_is_planned_again_by_a_search(self):
        with mock.patch.dict(os.environ, {"SUNDIALCTL": str(SEARCH)}):
            out = self.readiness(FABRIC, PLAN, "--search", "200")[1]
        self.assertEqual(out.splitlines()[-1], "38 of 46 losses can be planned again, and 8 more by a search; eps for BASE 1 us and HOLD 2.405 ms")


if __name__ == "__main__":
    unittest.main()
