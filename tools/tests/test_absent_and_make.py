"""sundial-topology absent and make: what a loss strands, and networks that can be planned."""

import json
import os
import unittest
from unittest import mock

from support import EXAMPLES, PROGRAM, directory, needs_sundial, run, sundial

from sundial_tools.network.main import main
from sundial_tools.topology import parse_topology

FABRIC = EXAMPLES / "fabric" / "topology.toml"
MADE = (
    ("leaf-spine",), ("leaf-spine", "--hosts", "2"), ("leaf-spine", "--hosts", "2", "--host-links", "2"), ("leaf-spine", "--trays", "2"),
    ("leaf-spine", "--feeds", "2"), ("leaf-spine", "--spines", "2", "--leaves", "2", "--feeds", "0"), ("three-tier",),
    ("three-tier", "--hosts", "1"), ("three-tier", "--trays", "3"), ("three-tier", "--feeds", "4", "--pods", "4"), ("mesh",),
)


def topology(*words):
    return run("sundial-topology", main, list(words))


def absent(path, *things):
    status, out, err = topology("absent", path, *things)
    return status, json.loads(out) if out else None, err


class Absent(unittest.TestCase):
    def test_a_domain_with_all_its_things(self):
        status, said, err = absent(FABRIC, "rack1")
        self.assertEqual((status, err), (0, ""))
        self.assertEqual(said, {"absent_devices": ["leaf1"], "absent_links": ["leaf1-spine1", "leaf1-spine2", "leaf1-spine3"]})

    def test_what_is_cut_off_is_left_out_too(self):
        status, said, err = absent(FABRIC, "leaf1-spine1", "link:leaf1-spine2", "link leaf1-spine3")
        self.assertEqual((status, said["absent_devices"]), (0, ["leaf1"]))
        self.assertEqual(err, "sundial-topology: left out too, since no candidate for root reaches them: leaf1\n")

    def test_hosts_of_a_lost_leaf(self):
        with directory() as path:
            topology("make", "leaf-spine", "--hosts", "2", "-o", path / "t.toml")
            _, said, err = absent(path / "t.toml", "leaf3")
            self.assertEqual(said["absent_devices"], ["leaf3", "host3-1", "host3-2"])
            self.assertIn("host3-1, host3-2", err)

    def test_what_is_left_of_the_candidates_is_told(self):
        self.assertIn("spine3 is the only candidate", absent(FABRIC, "spine1", "spine2")[2])
        self.assertEqual(absent(FABRIC, "spine1", "spine2", "spine3")[0], 1)
        links = [f"leaf{leaf}-spine3" for leaf in range(1, 9)]
        self.assertIn("the candidates spine1 and spine3 are not joined any more", absent(FABRIC, *links)[2])

    def test_names(self):
        self.assertIn("no domain, device or link has the name rack9; rack8 is there", absent(FABRIC, "rack9")[2])
        self.assertIn("write NAME, listed:NAME", absent(FABRIC, "rack:rack1")[2])
        self.assertEqual(absent(FABRIC, "device:rack1")[0], 1)
        with directory() as path:
            (path / "t.toml").write_text(FABRIC.read_text().replace('"rack1"', '"leaf1"'))
            self.assertIn("leaf1 names a listed and a device: write listed:leaf1", absent(path / "t.toml", "leaf1")[2])

    def test_what_a_plan_leaves_out_already(self):
        said = absent(FABRIC, "spine1", "--plan", EXAMPLES / "fabric" / "plan-2.json")[1]
        self.assertEqual(said["absent_devices"], ["spine1"])
        said = absent(FABRIC, "leaf8", "--plan", EXAMPLES / "fabric" / "plan-2.json")[1]
        self.assertEqual(said["absent_devices"], ["spine1", "leaf8"])


class Make(unittest.TestCase):
    def test_each_kind_is_a_topology(self):
        for words in (*MADE, ("mesh", "--links-each", "4", "--feeds", "3"), ("leaf-spine", "--cables", "2", "--leaves", "3")):
            status, out, err = topology("make", *words)
            self.assertEqual((status, err), (0, ""), words)
            self.assertEqual(out, topology("make", *words)[1])
            self.assertGreaterEqual(len(parse_topology(out).roots), 2)

    def test_racks_feeds_and_trays(self):
        made = parse_topology(topology("make", "leaf-spine", "--hosts", "1", "--trays", "2")[1])
        names = [device.name for device in made.devices]
        domains = {it.name: ([names[one] for one in it.devices], [made.links[one].name for one in it.links]) for it in made.domains}
        self.assertEqual(domains["rack2"], (["leaf2", "host2-1"], ["leaf2-spine1", "leaf2-spine2", "leaf2-spine3", "host2-1-leaf2"]))
        self.assertEqual(domains["feed-a"][0], ["spine1", "leaf1", "host1-1", "leaf2", "host2-1", "leaf3", "host3-1"])
        self.assertEqual(domains["tray-spine1-1"], ([], [f"leaf{leaf}-spine1" for leaf in range(1, 5)]))

    def test_options(self):
        self.assertIn("--cores is no option of leaf-spine", topology("make", "leaf-spine", "--cores", "3")[2])
        self.assertIn("--feeds 1", topology("make", "leaf-spine", "--feeds", "1")[2])
        self.assertIn("at most 4096", topology("make", "leaf-spine", "--leaves", "5000")[2])
        self.assertIn("--min is more than --max", topology("make", "mesh", "--min", "2us")[2])

    @needs_sundial
    def test_each_is_planned_and_planned_again(self):
        with directory() as path, mock.patch.dict(os.environ, {"SUNDIAL": str(PROGRAM)}):
            for words in MADE:
                topology("make", *words, "-o", path / "t.toml")
                status, plan = sundial("plan", path / "t.toml")
                self.assertEqual(status, 0, (words, plan))
                (path / "p.json").write_text(plan)
                if words in (MADE[1], MADE[7]):
                    for lost in "feed-a", next(it for it in ("leaf1", "leaf1-1") if f'"{it}"' in (path / "t.toml").read_text()):
                        topology("absent", path / "t.toml", lost, "-o", path / "a.json")
                        self.assertEqual(sundial("renew", path / "t.toml", path / "p.json", path / "a.json")[0], 0, (words, lost))


if __name__ == "__main__":
    unittest.main()
