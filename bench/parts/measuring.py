"""Runs of commands: their processor time, peak memory and instructions."""
import filecmp
import os
import re
import shutil
import statistics
import subprocess
import sys
from dataclasses import dataclass
from pathlib import Path
from typing import List, Optional, Tuple

TIME_PROGRAM = Path("/usr/bin/time")


@dataclass(frozen=True)
class Command:
    """A command line, and what it has to answer."""

    words: Tuple[str, ...]
    status: int = 0
    first: str = ""
    """How its output has to begin."""
    base: Optional[Tuple[str, ...]] = None
    """A command line with the same start and next to no work; its time is taken off."""
    user_only: bool = False
    """Whether the time in calls of the system is left out."""


@dataclass(frozen=True)
class Comparison:
    """The least seconds of both sides, and the ratios of the pairs."""

    ours: float
    theirs: float
    median: float
    least: float


class BenchFault(Exception):
    """A run that does not end as it should."""


def run_once(words: Tuple[str, ...], output: Path, user_only: bool = False) -> Tuple[float, int]:
    """The seconds of processor time that a command takes, and its status; its output goes to a file."""
    with open(output, "wb") as out:
        child = subprocess.Popen(words, stdout=out, stderr=subprocess.DEVNULL)
        _, status, usage = os.wait4(child.pid, 0)
        child.returncode = 0
    code = os.WEXITSTATUS(status) if os.WIFEXITED(status) else -os.WTERMSIG(status)
    return usage.ru_utime + (0.0 if user_only else usage.ru_stime), code


def first_line(output: Path) -> str:
    with open(output, "rb") as text:
        return text.readline(400).decode("utf-8", "replace").rstrip("\n")


def last_line(output: Path) -> str:
    with open(output, "rb") as text:
        text.seek(max(0, output.stat().st_size - 400))
        lines = text.read().decode("utf-8", "replace").splitlines()
    return lines[-1] if lines else ""


class Runner:
    """Runs commands in one folder, and answers what they took."""

    def __init__(self, folder: Path, pairs: int) -> None:
        self.folder = folder
        self.pairs = pairs

    def checked(self, command: Command, output: Path) -> float:
        """One run, which has to answer as is wanted."""
        seconds, status = run_once(command.words, output, command.user_only)
        if status != command.status or not first_line(output).startswith(command.first):
            raise BenchFault(
                f"{' '.join(command.words)[:300]}: status {status} and {first_line(output)[:80]!r},"
                f" wanted {command.status} and {command.first!r}"
            )
        return seconds

    def base_of(self, command: Command) -> float:
        """The least seconds of its start alone."""
        if command.base is None:
            return 0.0
        runs = [run_once(command.base, self.folder / "base", command.user_only)[0] for _ in range(3)]
        return min(runs)

    def least(self, command: Command) -> float:
        """The least seconds of as many runs as there are pairs."""
        base = self.base_of(command)
        runs = [self.checked(command, self.folder / "ours") for _ in range(self.pairs)]
        return max(min(runs) - base, 1e-6)

    def compare(self, ours: Command, theirs: Command, same_output: bool) -> Comparison:
        """Both in turn, since the speed of a machine may change from one minute to the next."""
        bases = self.base_of(ours), self.base_of(theirs)
        outputs = self.folder / "ours", self.folder / "theirs"
        pairs: List[Tuple[float, float]] = []
        for _ in range(self.pairs):
            took = self.checked(ours, outputs[0]), self.checked(theirs, outputs[1])
            if same_output and not filecmp.cmp(*outputs, shallow=False):
                raise BenchFault(f"{' '.join(ours.words)[:300]}: the other program writes something else")
            pairs.append((max(took[0] - bases[0], 1e-6), max(took[1] - bases[1], 1e-6)))
        our_least, their_least = min(pair[0] for pair in pairs), min(pair[1] for pair in pairs)
        median = statistics.median(pair[0] / pair[1] for pair in pairs)
        return Comparison(our_least, their_least, median, our_least / their_least)

    def peak_memory(self, words: Tuple[str, ...]) -> Optional[int]:
        """The greatest resident size of a run in KiB, where the program `time` is there to tell."""
        if not TIME_PROGRAM.exists():
            return None
        told = self.folder / "peak"
        run_once((str(TIME_PROGRAM), "-f", "%M", "-o", str(told)) + words, self.folder / "ours")
        last = last_line(told)
        return int(last) if last.isdigit() else None

    def instructions(self, words: Tuple[str, ...]) -> Optional[int]:
        """The instructions of a run, by `perf` or `valgrind`, where one of them can count them."""
        return self._by_perf(words) or self._by_callgrind(words)

    def _by_perf(self, words: Tuple[str, ...]) -> Optional[int]:
        if not shutil.which("perf"):
            return None
        told = self.folder / "perf"
        counting = ("perf", "stat", "-x", ",", "-e", "instructions:u", "-o", str(told), "--")
        run_once(counting + words, self.folder / "ours")
        counted = re.search(r"^(\d+),", told.read_text() if told.exists() else "", re.MULTILINE)
        return int(counted.group(1)) if counted else None

    def _by_callgrind(self, words: Tuple[str, ...]) -> Optional[int]:
        if not shutil.which("valgrind"):
            return None
        counting = ("valgrind", "--tool=callgrind", "--callgrind-out-file=/dev/null")
        with open(self.folder / "ours", "wb") as out:
            ended = subprocess.run(counting + words, stdout=out, stderr=subprocess.PIPE, check=False)
        counted = re.search(rb"Collected : (\d+)", ended.stderr)
        return int(counted.group(1)) if counted and int(counted.group(1)) > 0 else None


def say(text: str) -> None:
    """Tells on standard error how far the bench is."""
    print(text, file=sys.stderr, flush=True)
