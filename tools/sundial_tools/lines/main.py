"""The words of sundial-lines."""

from __future__ import annotations

import argparse
import contextlib
from typing import Iterator, List, Optional

from sundial_tools.errors import ToolError
from sundial_tools.inputs import NAME, read_lines
from sundial_tools.lines.behind import Behind, Events
from sundial_tools.lines.convert import DONE, Converter
from sundial_tools.lines.rows import csv_row, json_row
from sundial_tools.plan import Plan, read_plan
from sundial_tools.safe_write import FOLLOW, OUTPUT, Progress, output_of
from sundial_tools.topology import Topology, read_topology


def main(words: List[str]) -> int:
    options = _parser().parse_args(words)
    if options.plan and not (options.topology and options.schedule):
        raise ToolError("--plan needs --topology and --schedule")
    if options.lineage and not options.plan:
        raise ToolError("--lineage needs --plan, once for each plan")
    with contextlib.ExitStack() as stack:
        progress = stack.enter_context(Progress("sundial-lines"))
        schedule = _behind(options.schedule, progress)
        exchanges = _behind(options.exchanges, progress)
        source = NAME if options.output_of_sundial == "-" else options.output_of_sundial
        output = _Counted(read_lines(options.output_of_sundial), progress)
        topology, plans = _inputs(options, output.first)
        events = Events(schedule, topology, plans, options.schedule, options.lineage) if schedule is not None else None
        text = stack.enter_context(output_of(options.output, options.follow))
        row = csv_row(text) if options.csv else json_row(text, options.strings)
        Converter(topology, events, exchanges, options.command).convert(output, source, row)
    return 0


def _inputs(options: argparse.Namespace, first: str) -> "tuple[Optional[Topology], List[Plan]]":
    """The topology and the plans. One that the program itself refused is not read: the verdict is what counts."""
    if options.topology is None or first.startswith("input topology "):
        return None, []
    topology = read_topology(options.topology)
    if first.startswith(("input plan ", "refused plan ")):
        return topology, []
    return topology, [read_plan(path, topology) for path in options.plan]


def _behind(path: Optional[str], progress: Progress) -> Optional[Behind]:
    return None if path is None else Behind(_stepped(read_lines(path), progress), path)


def _stepped(lines: Iterator[str], progress: Progress) -> Iterator[str]:
    for line in lines:
        progress.step()
        yield line


class _Counted:
    """A text whose lines are counted as they are read. Its first line is known before."""

    def __init__(self, lines: Iterator[str], progress: Progress) -> None:
        # (with their own ends: a carriage return is no part of what was printed)
        self._lines, self._progress = lines, progress
        self.first = next(lines, "")
        self._fresh = True

    def __iter__(self) -> Iterator[str]:
        if self._fresh and self.first:
            yield self.readline()
        for line in self._lines:
            self._progress.step()
            yield line

    def readline(self) -> str:
        self._progress.step()
        if self._fresh:
            self._fresh = False
            return self.first
        return next(self._lines, "")

    def read(self) -> str:
        return "".join(self._lines)


def _parser() -> argparse.ArgumentParser:
    parser = argparse.ArgumentParser(
        prog="sundial-lines",
        description="Writes what a command of sundial printed as JSON lines or as CSV.",
        epilog="sundial-lines(5) has the kinds of lines and their fields. Times are picoseconds.",
    )
    parser.add_argument("output_of_sundial", nargs="?", default="-", metavar="OUTPUT", help="what the command printed (default: standard input)")
    parser.add_argument("--topology", "-t", help="gives devices and links of events their names; needed for plan and renew")
    parser.add_argument("--schedule", "-s", help="gives each line its event and REF")
    parser.add_argument(
        "--plan", "-p", action="append", default=[], metavar="PLAN",
        help="a plan, in the order of the command: says who broke each premise; needs topology and schedule",
    )
    parser.add_argument("--lineage", action="store_true", help="gives each report its lineage: which clocks and links it rests on; needs plans")
    parser.add_argument("--exchanges", "-e", help="gives a refused line of exchanges its text")
    parser.add_argument("--command", choices=sorted(DONE), help="the command, where only a done line was printed")
    parser.add_argument("--csv", action="store_true", help="CSV instead of JSON lines")
    parser.add_argument("--strings", action="store_true", help="write numbers past 2^53 as strings in JSON lines")
    parser.add_argument("--follow", "-f", action="store_true", help=FOLLOW)
    parser.add_argument("--output", "-o", metavar="FILE", help=OUTPUT)
    return parser
