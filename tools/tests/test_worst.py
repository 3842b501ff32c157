"""Inputs on which the programs once took long. `bench/all --only worst` measures these and others: docs/SCALE.md."""

import resource
import subprocess
import sys
import unittest

from support import LIMIT, PROGRAM, SEARCH, TOOLS, directory, needs_sundial

sys.path.insert(0, str(TOOLS.parent / "bench"))

from parts import worst  # noqa: E402
from parts.networks import device, head, link  # noqa: E402

# In seconds of a processor. What takes less is quick, whatever it grows with.
QUICK = 0.5


def seconds(*words, output=subprocess.DEVNULL):
    """How long a program takes, of a processor."""
    before = resource.getrusage(resource.RUSAGE_CHILDREN)
    subprocess.run(list(map(str, words)), stdout=output, check=False, timeout=LIMIT)
    after = resource.getrusage(resource.RUSAGE_CHILDREN)
    return after.ru_utime + after.ru_stime - before.ru_utime - before.ru_stime


class Worst(unittest.TestCase):
    def setUp(self):
        self.path = self.enterContext(directory())

    def file(self, name, lines):
        (self.path / name).write_text("".join(lines))
        return self.path / name

    @needs_sundial
    def test_asks_do_not_grow_with_the_transactions_that_wait(self):
        links = [link(ends, ends[0], ends[1]) for ends in ("rb", "rx", "bx")]
        topology = self.file("topology.toml", [head(("r", "b"), 90_000_000, 2), *map(device, "rbx"), *links])
        with open(self.path / "plan.json", "wb") as plan:
            seconds(PROGRAM, "plan", topology, output=plan)
        taken = [seconds(PROGRAM, "order", topology, plan.name, self.file("s.txt", worst.waiting(asks))) for asks in (40_000, 80_000)]
        self.assertTrue(taken[1] < QUICK or taken[1] < 3 * taken[0], taken)

    @unittest.skipUnless(SEARCH.is_file(), "the program sundialctl is not built (SUNDIALCTL names it)")
    def test_a_search_without_a_step_ends_soon(self):
        self.assertLess(seconds(SEARCH, "search", self.file("mesh.toml", worst.mesh(128)), 1_000_000, 1_000_000, 1, 0), 10 * QUICK)


if __name__ == "__main__":
    unittest.main()
