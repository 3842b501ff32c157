"""The words of sundial-cut."""

from __future__ import annotations

import argparse
import contextlib
import itertools
import os
import subprocess
import sys
import tempfile
import threading
from collections import deque
from concurrent.futures import Future, ThreadPoolExecutor
from typing import Callable, Deque, Iterator, List, NamedTuple, Optional, Sequence, Tuple

from sundial_tools.cut.cutter import NEVER, Cutter, lines_before, rounds_before
from sundial_tools.cut.joined import Joined
from sundial_tools.cut.opening import Opening
from sundial_tools.cut.parts import HEADER, TABLE, Part, Row, plans_of
from sundial_tools.errors import ToolError
from sundial_tools.fleet.fleet import Fleet
from sundial_tools.inputs import as_files
from sundial_tools.plan import Plan, read_plan
from sundial_tools.safe_write import Progress
from sundial_tools.schedule import Event, open_schedule, parse_event
from sundial_tools.times import picoseconds
from sundial_tools.topology import Topology, read_topology, search_program, sundial_program

MOST_EVENTS = 2**26
Finished = Callable[[Row], None]


class Wish(NamedTuple):
    """Where cuts are wished: as soon as it is right after so many lines of a part, or from each of these references on."""

    every: Optional[int] = None
    at: Tuple[int, ...] = ()
    moves: bool = False


class Cutting:
    """Cuts the lines of a schedule into parts, as files of a directory. Without one it only looks where it could.

    Far from each wished cut the lines are skimmed: the fleet takes them, and what they read is kept for an opening, no more.
    """

    def __init__(self, topology: Topology, plans: Sequence[Plan], wish: Wish, directory: Optional[str], finished: Finished) -> None:
        self._fleet = Fleet(topology, plans)
        self.cutter = Cutter(self._fleet, self._is_due)
        self._wish, self._directory, self._finished = wish, directory, finished
        self._at = sorted(wish.at, reverse=True)
        self._part: Optional[Part] = None
        self.cuts = self.parts = 0
        # From which line, or from which reference on, a cut is near; and since when all is kept for it.
        self._near_line = self._near_ref = NEVER
        self._is_far, self._near_since = False, -NEVER
        self._rounds = rounds_before(topology)

    def run(self, lines: Iterator[str], source: str) -> None:
        latest, number = 0, 0
        for number, text in enumerate(lines, 1):
            try:
                if self._is_far and self._skim(number, text):
                    continue
            except (ValueError, KeyError):
                pass  # (what is wrong with the line is said below)
            event = parse_event(text[:-1] if text.endswith("\n") else text, source, number)
            try:
                self._take(number, event, text, latest)
            except (KeyError, IndexError, TypeError):
                raise ToolError("no replay of these plans accepts this line", source, number) from None
            latest = event.ref
        if number == 0:
            raise ToolError("the schedule is empty", source)
        if self._part is not None:
            self._finished(self._part.finish(None))

    def _is_due(self, line: int, ref: int) -> bool:
        if self._part is None:
            return True
        if ref < self._near_since + self._rounds:
            return False
        if self._wish.every is not None:
            return line - self._part.first_line >= self._wish.every
        return bool(self._at) and ref >= self._at[-1]

    def _skim(self, number: int, text: str) -> bool:
        """Takes a tick, an ask or a receipt that is far from each wished cut, and answers whether it was one."""
        words = text.split(" ")
        word, ref = words[0], int(words[1])
        if number >= self._near_line or ref >= self._near_ref:
            self._is_far, self._near_since = False, ref
            self.cutter.begin()
            return False
        if word not in ("tick", "recv", "ask") or len(words) != (5 if word == "recv" else 4):
            return False
        device, counter = int(words[2]), int(words[3])
        self.cutter.marks.read(device, ref, counter)
        if word == "tick":
            self._fleet.tick(ref, device, counter)
        elif word == "recv":
            self._fleet.receive(ref, device, counter, int(words[4]))
        assert self._part is not None
        self._part.skim(text, words)
        return True

    def _take(self, number: int, event: Event, text: str, latest: int) -> None:
        opening = None if self._is_far else self.cutter.before(number, event)
        if self._directory is not None and (number == 1 or opening is not None):
            self._begin_part(number, event, opening, latest)
        self.cuts += opening is not None
        if self._part is not None:
            self._part.add(event, text)
        done = self._fleet.happen(event)
        if self._is_far:
            self.cutter.marks.glance(event, done)
        else:
            self.cutter.after(number, event, done)
        self._is_far = self._part is not None and number < self._near_line and event.ref < self._near_ref

    def _begin_part(self, number: int, event: Event, opening: Optional[Opening], latest: int) -> None:
        if self._part is not None:
            self._finished(self._part.finish(latest))
        self.parts += 1
        path = os.path.join(self._directory or "", f"part-{self.parts:04}.txt")
        self._part = Part(path, number, opening, self._wish.moves)
        while self._at and event.ref >= self._at[-1]:
            self._at.pop()
        if self._wish.moves:
            self._near_line = 0
        elif self._wish.every is not None:
            self._near_line = number + self._wish.every - lines_before(self._fleet.topology)
        else:
            self._near_ref = self._at[-1] - self._rounds if self._at else NEVER


class Runs:
    """Replays parts side by side, while the next ones are cut. `whole` has what came of them.

    With `follow` the lines of a part are printed when they are known, and else at the end.
    """

    def __init__(self, replay: Callable[[Row], List[str]], jobs: int, follow: bool) -> None:
        self._pool = ThreadPoolExecutor(jobs)
        self._replay, self._follow = replay, follow
        self._told: "Deque[Tuple[Row, Future[List[str]]]]" = deque()
        self._printing = threading.Lock()
        self.whole = Joined()

    def begin(self, row: Row) -> None:
        told = self._pool.submit(self._replay, row)
        self._told.append((row, told))
        if self._follow:
            told.add_done_callback(lambda _: self._print_known())

    def print_rest(self) -> None:
        with self._printing:
            while self._told:
                self._print_first()
            _print(self.whole.end())

    def _print_known(self) -> None:
        """Prints the lines of the first parts whose replays have ended. A fault waits for the end."""
        with self._printing:
            while self._told and self._told[0][1].done() and self._told[0][1].exception() is None:
                self._print_first()

    def _print_first(self) -> None:
        row, told = self._told.popleft()
        _print(self.whole.lines(row, told.result()))


def main(words: List[str]) -> int:
    options = _parser().parse_args(words)
    with as_files(options, "topology", "plan", streams=("schedule",)):
        return _cut(options)


def _cut(options: argparse.Namespace) -> int:
    topology = read_topology(options.topology)
    plans = [read_plan(path, topology) for path in options.plan]
    program, judge = sundial_program(), search_program()
    if options.run and not program:
        raise ToolError("--run needs sundial on the path, or the variable SUNDIAL")
    if options.certify and not judge:
        raise ToolError("--certify needs sundialctl on the path, or the variable SUNDIALCTL")
    if options.certify and options.move:
        raise ToolError("--certify compares times, which --move changes")
    wish = Wish(options.every, tuple(options.at), options.move)
    rows: List[Row] = []
    with contextlib.ExitStack() as stack:
        directory = options.output
        if directory is not None:
            os.makedirs(directory, exist_ok=True)
        elif options.run or options.certify:
            directory = stack.enter_context(tempfile.TemporaryDirectory())
        verdicts: List[str] = []
        runs = Runs(lambda row: replayed(program or "", options, directory or "", row), options.jobs, options.follow)

        def finished(row: Row) -> None:
            rows.append(row)
            if options.certify and len(rows) > 1:
                verdicts.append(certified(judge or "", options, directory or "", rows[-2], row))
            if options.run:
                runs.begin(row)

        cutting = Cutting(topology, plans, wish, directory, finished)
        with Progress("sundial-cut") as progress, open_schedule(options.schedule) as schedule:
            cutting.run(_stepped(schedule, progress), options.schedule)
        if options.output is not None:
            with open(os.path.join(options.output, TABLE), "w", encoding="ascii") as table:
                table.write(HEADER)
                table.writelines(row.text() for row in rows)
        _tell(cutting, rows)
        if options.certify:
            _tell_certified(rows, verdicts)
        if options.run:
            runs.print_rest()
            _tell_left_out(runs.whole)
    return runs.whole.status


def _print(lines: Iterator[str]) -> None:
    for line in lines:
        print(line)
    sys.stdout.flush()


def _tell_left_out(whole: Joined) -> None:
    for line in whole.left_out:
        print(f"sundial-cut: left out, since it is from an opening: {line}", file=sys.stderr)


def _tell(cutting: Cutting, rows: Sequence[Row]) -> None:
    """Says on standard error what came of it: tested, not proved."""
    parts = f"{len(rows)} parts" if rows else f"{cutting.cuts} right cuts"
    print(f"sundial-cut: {parts}; what a cut keeps is tested, not proved", file=sys.stderr)
    for why, count in cutting.cutter.refused.most_common():
        print(f"sundial-cut: no cut at {count} emissions: {why}", file=sys.stderr)
    for row in rows:
        if row.opening + row.lines + 1 > MOST_EVENTS:
            print(f"sundial-cut: {row.file} has more than {MOST_EVENTS} events, and a replay refuses it", file=sys.stderr)


def _tell_certified(rows: Sequence[Row], verdicts: Sequence[str]) -> None:
    right = sum(verdict.startswith("agree ") for verdict in verdicts)
    print(f"sundial-cut: {right} of {len(verdicts)} cuts are certified", file=sys.stderr)
    for row, verdict in zip(rows[1:], verdicts):
        if not verdict.startswith("agree "):
            print(f"sundial-cut: the cut before line {row.first_line} is not: {verdict}", file=sys.stderr)


def certified(program: str, options: argparse.Namespace, directory: str, before: Row, row: Row) -> str:
    """What `sundialctl resume` says of a part up to its cut, and of the opening of the next one."""
    plans = [plans_of(options.plan, it.first_plan, it.copies) for it in (before, row)]
    if plans[0][-len(plans[1]):] != plans[1]:
        return "its opening has a copy of a plan, and resume takes plans of the schedule alone"
    with contextlib.ExitStack() as stack:
        names = []
        for part, lines in (before, before.opening + before.lines), (row, row.opening):
            text = stack.enter_context(tempfile.NamedTemporaryFile("w", encoding="ascii"))
            whole = stack.enter_context(open(os.path.join(directory, part.file), encoding="ascii"))
            text.writelines(itertools.islice(whole, lines))
            text.flush()
            names.append(text.name)
        words = [program, "resume", options.topology, *plans[0], names[0], "/", *plans[1], names[1]]
        done = subprocess.run(words, stdout=subprocess.PIPE, text=True, check=False)
    if done.returncode not in (0, 3, 7):
        raise ToolError(f"{program} resume ended with status {done.returncode}", row.file)
    return done.stdout.strip()


def replayed(program: str, options: argparse.Namespace, directory: str, row: Row) -> List[str]:
    """What the program prints over a part."""
    words = [program, "replay", options.topology, *plans_of(options.plan, row.first_plan, row.copies), os.path.join(directory, row.file)]
    done = subprocess.run(words, stdout=subprocess.PIPE, text=True, check=False)
    if done.returncode not in (0, 1, 3, 7):
        raise ToolError(f"{program} replay ended with status {done.returncode}", row.file)
    return done.stdout.splitlines()


def _stepped(lines: Iterator[str], progress: Progress) -> Iterator[str]:
    for line in lines:
        progress.step()
        yield line


def _time(word: str) -> int:
    value = picoseconds(word)
    if value is None or (value and word.isdigit()):
        raise argparse.ArgumentTypeError(f"{word!r} is no time with a unit, as 20ms")
    return value


def _count(word: str) -> int:
    if not word.isdigit() or not 0 < int(word) < MOST_EVENTS:
        raise argparse.ArgumentTypeError(f"{word!r} is no number from 1 to {MOST_EVENTS - 1}")
    return int(word)


def _parser() -> argparse.ArgumentParser:
    parser = argparse.ArgumentParser(
        prog="sundial-cut",
        description="Cuts a long schedule into parts that sundial replay takes one by one, at places where the later lines "
        "stay the same. Without --output and --run it says how many right cuts there are.",
        epilog="docs/WATCH.md says where a cut is right and what is lost over it.",
    )
    parser.add_argument("topology", metavar="TOPOLOGY")
    parser.add_argument("plan", metavar="PLAN", nargs="+", help="the plans, in the order of the command replay")
    parser.add_argument("schedule", metavar="SCHEDULE", help="a schedule that replay accepts; - is standard input")
    parser.add_argument("--every", type=_count, metavar="N", help="cut at the first right place after N lines of a part")
    parser.add_argument("--at", type=_time, action="append", default=[], metavar="TIME", help="the first right cut from this reference on")
    parser.add_argument("--move", action="store_true", help="subtract a constant from the times of each part, so that they fit")
    parser.add_argument("--certify", action="store_true", help="have sundialctl resume certify each cut: each is proved, or the first difference is named")
    parser.add_argument("--run", action="store_true", help="replay the parts side by side, and print the lines of the whole")
    parser.add_argument("--follow", "-f", action="store_true", help="with --run: print the lines of each part as soon as they are known")
    parser.add_argument("--jobs", "-j", type=_count, default=os.cpu_count() or 1, metavar="N", help="how many replays at once")
    parser.add_argument("--output", "-o", metavar="DIRECTORY", help="where the parts and their table go")
    return parser
