"""Every test has a limit of time, and so has each program that it starts."""

import pathlib
import subprocess
import sys
import time
import unittest

from support import LIMIT, TOOLS, _run_limited, directory

TESTS = TOOLS / "tests"
SLOW = """
import subprocess, unittest
import support
class Slow(unittest.TestCase):
    def test_waits_for_a_program(self):
        with subprocess.Popen(["sleep", "60"]) as program:
            try:
                program.wait()
            finally:
                program.kill()
unittest.main()
"""


class Limits(unittest.TestCase):
    def test_a_test_that_takes_too_long_fails(self):
        with directory() as path:
            (path / "slow.py").write_text(SLOW)
            begin = time.monotonic()
            done = subprocess.run(
                [sys.executable, path / "slow.py"], env={"PYTHONPATH": str(TESTS), "PATH": "/usr/bin:/bin", "TEST_LIMIT": "1"},
                stderr=subprocess.PIPE, text=True, check=False, timeout=LIMIT,
            )
        self.assertEqual(done.returncode, 1)
        self.assertIn("Overtime: the test takes more than 1 seconds", done.stderr)
        self.assertLess(time.monotonic() - begin, 50)

    def test_all_tests_have_it(self):
        self.assertIs(unittest.TestCase.run, _run_limited)
        for file in sorted(TESTS.glob("test_*.py")):
            imported = {line.split()[1] for line in file.read_text().splitlines() if line.startswith(("from ", "import "))}
            known = {pathlib.Path(name).stem for name in map(str, TESTS.glob("*.py"))}
            self.assertTrue(imported & known, f"{file.name} imports no module of the tests")


if __name__ == "__main__":
    unittest.main()
