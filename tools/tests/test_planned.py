"""The plan that the tools make by the rule of the planner is that of `sundial plan` and `sundial renew`."""

import json
import random
import unittest

import networks
from support import EXAMPLES, PROGRAM, directory, needs_sundial, sundial

from sundial_tools.plan import read_plan
from sundial_tools.topology import read_topology
from sundial_tools.why.planned import planned

KINDS = (
    ("leaf-spine", "--leaves", "5", "--hosts", "2"), ("leaf-spine", "--hosts", "1", "--host-links", "2", "--trays", "2"),
    ("leaf-spine", "--feeds", "2", "--cables", "2"), ("three-tier", "--hosts", "1"), ("three-tier", "--feeds", "2"),
    ("mesh", "--devices", "9", "--links-each", "2"), ("mesh", "--devices", "12", "--links-each", "4", "--seed", "3"), ("mesh", "--devices", "7"),
)


class Planned(unittest.TestCase):
    def test_plans_of_the_examples(self):
        found = 0
        for here in EXAMPLES.iterdir():
            if (here / "topology.toml").is_file() and (here / "plan.json").is_file():
                topology = read_topology(str(here / "topology.toml"))
                plan = read_plan(str(here / "plan.json"), topology)
                made = planned(topology, plan.root, plan.absent_devices, plan.absent_links)
                self.assertEqual((made.rows, made.backup_root), (plan.rows, plan.backup_root), here.name)
                found += 1
        self.assertGreater(found, 4)

    def test_without_two_roots_there_is_none(self):
        topology = read_topology(str(EXAMPLES / "triangle" / "topology.toml"))
        self.assertIsNone(planned(topology, 0, (1, 2), ()))
        self.assertIsNone(planned(topology, 0, (0,), ()))

    @needs_sundial
    def test_renewals_of_many_networks(self):
        """Whatever fails: where the program accepts its plan, it is this one."""
        draw, same = random.Random(60), 0
        with directory() as path:
            for words in KINDS:
                files = networks.written(path, *words)
                topology = read_topology(str(files[0]))
                before = read_plan(str(files[1]), topology)
                for _ in range(6):
                    gone = draw.sample([it.name for it in topology.devices], draw.randint(0, 2)), draw.sample([it.name for it in topology.links], draw.randint(0, 3))
                    (path / "absent").write_text(json.dumps({"absent_devices": gone[0], "absent_links": gone[1]}))
                    status, text = sundial("renew", *files, path / "absent")
                    devices = {topology.device_numbers[name] for name in gone[0]}
                    root = before.backup_root if before.root in devices else before.root
                    made = planned(topology, root, devices, {topology.link_numbers[name] for name in gone[1]})
                    if status == 0:
                        (path / "next").write_text(text)
                        plan = read_plan(str(path / "next"), topology)
                        self.assertEqual((made.rows, made.backup_root), (plan.rows, plan.backup_root), (words, gone))
                        same += 1
        self.assertGreater(same, 8, PROGRAM)


if __name__ == "__main__":
    unittest.main()
