"""The words of sundial-plain-replay."""

from __future__ import annotations

import argparse
import sys
from typing import Iterator, List

from sundial_tools.errors import ToolError
from sundial_tools.plain.lines import Replay
from sundial_tools.plan import read_plan
from sundial_tools.safe_write import FOLLOW, OUTPUT, Progress, output_of
from sundial_tools.topology import open_bytes, read_topology

MOST_PLANS = 64


def main(words: List[str]) -> int:
    options = _parser().parse_args(words)
    print("sundial-plain-replay: the plans are not checked, so nothing is promised of this run", file=sys.stderr)
    if len(options.plan) > MOST_PLANS:
        raise ToolError(f"{len(options.plan)} plans, and a replay takes at most {MOST_PLANS}")
    topology = read_topology(options.topology)
    replay = Replay(topology, [read_plan(path, topology) for path in options.plan])
    with Progress("sundial-plain-replay") as progress, output_of(options.output, options.follow) as text:
        for line in replay.lines(_lines(options.schedule, progress)):
            text.write(line + "\n")
    return replay.status


def _lines(path: str, progress: Progress) -> Iterator[bytes]:
    with open_bytes(path) as file:
        for line in file:
            progress.step()
            yield line


def _parser() -> argparse.ArgumentParser:
    parser = argparse.ArgumentParser(
        prog="sundial-plain-replay",
        description="Replays a schedule by the definitions alone, without a check of the plans. Over plans that the "
        "checker accepts it prints what `sundial replay` prints, with the same status.",
        epilog="A schedule of some hundred lines takes seconds. Use it to see what happens under a plan that "
        "`sundial check` refuses. docs/CONDITIONS.md has such schedules.",
    )
    parser.add_argument("topology", metavar="TOPOLOGY")
    parser.add_argument(
        "plan", metavar="PLAN", nargs="+", help="the first is in force at the beginning; each renewal brings in the next"
    )
    parser.add_argument("schedule", metavar="SCHEDULE")
    parser.add_argument("--follow", "-f", action="store_true", help=FOLLOW)
    parser.add_argument("--output", "-o", metavar="FILE", help=OUTPUT)
    return parser
