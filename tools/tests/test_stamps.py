"""The checker of stamps beside a count of all pairs."""

import random
import sys
import unittest

from support import TOOLS

sys.path.insert(0, str(TOOLS.parent / "integrations/postgres/trial"))

from checker import Transaction, check  # noqa: E402


def count(history):
    together = [(a, b) for a in history for b in history if a.stamp >= b.stamp]
    return (sum(a.end < b.begin for a, b in together), sum(a.key == b.key and a.version < b.version for a, b in together))


class Checks(unittest.TestCase):
    def test_counts_all_pairs(self):
        for seed in range(200):
            chance, versions = random.Random(seed), [0, 0]
            history = []
            for i in range(40):
                begin, key = chance.randrange(100), chance.randrange(2)
                versions[key] += chance.randrange(1, 3)
                history.append(Transaction(begin, begin + chance.randrange(30), chance.randrange(40), str(key), versions[key], "n"))
            chance.shuffle(history)
            self.assertEqual(check(history), count(history), seed)

    def test_takes_what_is_in_order(self):
        self.assertEqual(check([Transaction(i, i + 3, i, "k", i, "n") for i in range(100)]), (0, 0))

    def test_refuses_a_version_made_twice(self):
        with self.assertRaises(SystemExit) as ended:
            check([Transaction(0, 1, 5, "k", 1, "a"), Transaction(2, 3, 6, "k", 1, "b")])
        self.assertEqual(ended.exception.code, 2)


if __name__ == "__main__":
    unittest.main()
