"""sundial-duty: from a topology and plans to the duties of devices."""

import json
import re
import unittest

from support import EXAMPLES, directory, run

from sundial_tools.duty.main import main
from sundial_tools.plan import read_plan
from sundial_tools.topology import read_topology

TRIANGLE = EXAMPLES / "triangle"
TOPOLOGY, FIRST, SECOND = TRIANGLE / "topology.toml", TRIANGLE / "plan.json", TRIANGLE / "plan-2.json"


def duty(*words):
    return run("sundial-duty", main, words)


def as_json(*words):
    status, out, err = duty(*words, "--form", "json")
    if (status, err) != (0, ""):
        raise AssertionError((status, err))
    return json.loads(out)


class Duties(unittest.TestCase):
    def test_each_part_is_that_of_the_plan(self):
        topology, plans = read_topology(str(TOPOLOGY)), []
        for path in FIRST, SECOND:
            plans.append(read_plan(str(path), topology))
        made = as_json(TOPOLOGY, FIRST, SECOND)
        self.assertEqual([it["epoch"] for it in made["plans"]], [1, 2])
        self.assertEqual(made["tick"], topology.tick)
        self.assertEqual(made["repairs_apart"], 3 * topology.period)
        for plan, said in zip(plans, made["plans"]):
            self.assertEqual([it["device"] for it in said["parts"]], made["devices"])
            for part in said["parts"]:
                self._holds(topology, plan, part)

    def _holds(self, topology, plan, part):
        number, row = part["number"], plan.rows.get(part["number"])
        said = part["duty"]
        self.assertEqual(said is None, number in plan.absent_devices)
        if said is None:
            return
        self.assertEqual(said["role"] == "root", number == plan.root)
        self.assertEqual(said["role"] == "backup_root", number == plan.backup_root)
        self.assertEqual((said["wait"], said["wait_first"], said["wait_second"]), (plan.wait, plan.wait_first, plan.wait_second))
        for key in "primary", "backup":
            hop, edge = getattr(row, key, None), said[key]
            self.assertEqual(hop is None, edge is None)
            if hop is not None:
                bounds = topology.links[hop.link].towards(number)
                self.assertEqual((edge["parent_number"], edge["link_number"]), (hop.parent, hop.link))
                self.assertEqual((edge["mid"], edge["mid"] + edge["half"]), (bounds.mid, bounds.max))
        children = [(it["link_number"], it["number"]) for it in part["children"]]
        below = [
            (hop.link, device) for device, other in plan.rows.items() for hop in (other.primary, other.backup)
            if hop is not None and hop.parent == number
        ]
        self.assertEqual(children, sorted(below))

    def test_one_device_alone(self):
        whole, alone = as_json(TOPOLOGY, FIRST, SECOND), as_json(TOPOLOGY, FIRST, SECOND, "--device", whole_name(1))
        for all_parts, one in zip(whole["plans"], alone["plans"]):
            self.assertEqual(one["parts"], [all_parts["parts"][1]])

    def test_a_later_plan_has_a_later_number(self):
        made = as_json(TOPOLOGY, SECOND, "--first-epoch", "7")
        self.assertEqual(made["plans"][0]["epoch"], 7)
        self.assertTrue(all(it["duty"] is None or it["duty"]["epoch"] == 7 for it in made["plans"][0]["parts"]))

    def test_a_device_that_a_plan_leaves_out_has_no_duty(self):
        with directory() as path:
            plan = json.loads(FIRST.read_text())
            gone = plan["rows"].pop()["device"]
            (path / "less.json").write_text(json.dumps({**plan, "absent_devices": [gone]}))
            part = next(it for it in as_json(TOPOLOGY, path / "less.json")["plans"][0]["parts"] if it["device"] == gone)
            self.assertEqual(part["duty"], None)
            status, c, _ = duty(TOPOLOGY, path / "less.json")
            self.assertEqual(status, 0)
            self.assertRegex(c, re.escape("0, 0, 0, 0, {0, 0}, 0, SUNDIAL_ORDINARY, 0, 0}, /* " + gone))
            self.assertRegex(duty(TOPOLOGY, path / "less.json", "--form", "rust")[1], f"None, // {re.escape(gone)}")


class Forms(unittest.TestCase):
    """bindings/c/checks.sh and bindings/rust/run.sh compile both forms, and compare them with duties written by hand."""

    def test_all_forms_have_the_same_numbers(self):
        for words in (), ("--device", whole_name(2)):
            made = as_json(TOPOLOGY, FIRST, *words)
            edges = [
                it["duty"][key] for it in made["plans"][0]["parts"] if it["duty"] for key in ("primary", "backup")
            ]
            wanted = [(it["mid"], it["half"], it["parent_number"], it["link_number"]) if it else (0, 0, 0, 0) for it in edges]
            c = duty(TOPOLOGY, FIRST, *words)[1]
            table = c[c.index("SUNDIAL_DUTIES[SUNDIAL_PLANS]"):c.index("SUNDIAL_CHILDREN[")].replace("UINT64_C(", "").replace(")", "")
            found = re.findall(r"\{(\d+), (\d+), (\d+), (\d+)\}", table)
            self.assertEqual([tuple(map(int, it)) for it in found], wanted)
            rust = duty(TOPOLOGY, FIRST, "--form", "rust", *words)[1]
            found = re.findall(r"Edge \{ mid: (\d+), half: (\d+), parent: (\d+), link: (\d+) \}", rust)
            self.assertEqual([tuple(map(int, it)) for it in found], wanted)


class Refused(unittest.TestCase):
    def test_what_cannot_be_used(self):
        self.assertEqual(duty(TOPOLOGY, FIRST, "--device", "nobody"), (1, "", "sundial-duty: the topology has no device nobody\n"))
        self.assertEqual(duty(TOPOLOGY, TOPOLOGY)[0], 1)
        self.assertEqual(
            duty(TOPOLOGY, FIRST, SECOND, "--first-epoch", str(2**32 - 1)),
            (1, "", "sundial-duty: the number of a plan is over 2^32 - 1\n"),
        )
        for word in "0", "-1", "4294967296", "one", "\u0661":
            with self.assertRaises(SystemExit):
                duty(TOPOLOGY, FIRST, "--first-epoch", word)


def whole_name(number):
    return read_topology(str(TOPOLOGY)).devices[number].name


if __name__ == "__main__":
    unittest.main()
