"""A plan as a table: `sundial-why` shows it where a plan is piped into it."""

import unittest

from support import EXAMPLES, directory, run

from sundial_tools.why import main as why

TRIANGLE = EXAMPLES / "triangle"


def shown(topology, plan) -> "list[str]":
    """What is written of a plan after its own line."""
    status, text, said = run("sundial-why", why.main, [topology, "--lines", plan])
    assert (status, said) == (0, ""), (status, said)
    return text.splitlines()[1:]


class Tables(unittest.TestCase):
    def test_the_plan_of_the_triangle(self):
        self.assertEqual(shown(TRIANGLE / "topology.toml", TRIANGLE / "plan.json"), [
            "    device  role         parent  link  backup  link  depth",
            "    r       root         -       -     -       -     0",
            "    b       backup root  r       rb1   r       rb2   1",
            "    x       -            r       rx1   b       bx1   1",
            "    b moves to its backup when it has heard nothing for 1344395880 ps (1.344 ms), and takes over after "
            "1344395880 ps (1.344 ms) more. All others move to their backups after 6723055132 ps (6.723 ms).",
        ])

    def test_what_a_plan_leaves_out(self):
        with directory() as folder:
            plan = (TRIANGLE / "plan.json").read_text()
            plan = plan.replace('"absent_devices":[]', '"absent_devices":["x"]').replace('"absent_links":[]', '"absent_links":["bx1"]')
            rows = plan.index(',{"backup":"b"')
            (folder / "plan.json").write_text(plan[:rows] + plan[plan.index("]", rows):])
            lines = shown(TRIANGLE / "topology.toml", folder / "plan.json")
            self.assertEqual(len(lines), 5)
            self.assertEqual(lines[-1], "    The plan leaves out x, bx1.")

    def test_a_device_that_reaches_no_root_comes_last(self):
        with directory() as folder:
            plan = (TRIANGLE / "plan.json").read_text().replace('"link":"rb1","parent":"r"', '"link":"bx1","parent":"x"')
            plan = plan.replace('"link":"rx1","parent":"r"', '"link":"bx2","parent":"b"')
            (folder / "plan.json").write_text(plan)
            self.assertEqual([line.split()[0] for line in shown(TRIANGLE / "topology.toml", folder / "plan.json")[1:4]], ["r", "b", "x"])

    def test_another_text_in_braces(self):
        with directory() as folder:
            (folder / "plan.json").write_text("{}\n")
            status, text, _ = run("sundial-why", why.main, [TRIANGLE / "topology.toml", "--lines", folder / "plan.json"])
            self.assertEqual((status, text), (1, "{}\n    (no line that sundial prints)\n"))


if __name__ == "__main__":
    unittest.main()
