"""What the tests share: the package on the path, paths of files, and runs of a tool."""

import contextlib
import io
import os
import pathlib
import signal
import subprocess
import sys
import tempfile
import unittest
from typing import Iterator, List, Tuple

TOOLS = pathlib.Path(__file__).resolve().parent.parent
DATA = TOOLS / "tests" / "data"
EXAMPLES = TOOLS.parent / "examples"
NETWORK = EXAMPLES / "network"
sys.path.insert(0, str(TOOLS))

from sundial_tools.errors import run_tool  # noqa: E402


class Overtime(Exception):
    """A test that takes too long."""


def _overtime(*_):
    raise Overtime(f"the test takes more than {LIMIT} seconds")


def _run_limited(test, result=None, run_test=unittest.TestCase.run):
    before = signal.signal(signal.SIGALRM, _overtime)
    signal.setitimer(signal.ITIMER_REAL, LIMIT, AGAIN)
    try:
        return run_test(test, result)
    finally:
        signal.setitimer(signal.ITIMER_REAL, 0)
        signal.signal(signal.SIGALRM, before)


unittest.TestCase.run = _run_limited  # (one place for all tests, and for all programs that they start)

# In seconds: no test runs longer, and no program that it starts. What still waits is stopped once more after AGAIN.
LIMIT, AGAIN = int(os.environ.get("TEST_LIMIT", "600")), 5


def _program(name: str, variable: str) -> pathlib.Path:
    """A built program, or the one that the variable names. One that is named has to be there."""
    said = os.environ.get(variable)
    if said and not os.access(said, os.X_OK):
        raise SystemExit(f"{variable} names {said}, and no program is there")
    return TOOLS.parent / "crates" / name / "out" / name if said is None else pathlib.Path(said)


# A test that needs a program is skipped where it is not built.
PROGRAM, SEARCH = _program("sundial", "SUNDIAL"), _program("sundialctl", "SUNDIALCTL")
# (the tools themselves read topologies without it, but where a test says otherwise)
os.environ["SUNDIAL"] = os.environ["SUNDIALCTL"] = ""
needs_sundial = unittest.skipUnless(PROGRAM.is_file(), "the program sundial is not built (SUNDIAL names it)")


def sundial(*words) -> Tuple[int, str]:
    """Status and standard output of the program."""
    done = subprocess.run([PROGRAM, *map(str, words)], stdout=subprocess.PIPE, text=True, check=False, timeout=LIMIT)
    return done.returncode, done.stdout


def run(name, main, words: List[str]) -> Tuple[int, str, str]:
    """Status, standard output and standard error of a tool."""
    out, err = io.StringIO(), io.StringIO()
    with contextlib.redirect_stdout(out), contextlib.redirect_stderr(err):
        status = run_tool(name, main, [str(word) for word in words])
    return status, out.getvalue(), err.getvalue()


@contextlib.contextmanager
def directory() -> Iterator[pathlib.Path]:
    with tempfile.TemporaryDirectory() as path:
        yield pathlib.Path(path)
