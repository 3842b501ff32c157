"""The words of sundial-record."""

from __future__ import annotations

import argparse
import sys
from typing import List, Sequence, TextIO

from sundial_tools.errors import ToolError
from sundial_tools.plan import Plan, read_plan
from sundial_tools.record.compact import CompactRecorder
from sundial_tools.record.feed import Feed, Growing
from sundial_tools.record.logs import Log, allow_files
from sundial_tools.record.recorder import Recorder
from sundial_tools.safe_write import FOLLOW, OUTPUT, Progress, output_of
from sundial_tools.times import picoseconds
from sundial_tools.topology import Topology, read_topology

LINES_AT_ONCE = 1024


def main(words: List[str]) -> int:
    options = _parser().parse_args(words)
    _judge(options)
    topology = read_topology(options.topology)
    plans = [read_plan(path, topology) for path in options.plan]
    allow_files(len(options.logs))
    with output_of(options.output, options.follow or options.feed) as text, Progress("sundial-record") as progress:
        said = _feed(options, topology, text, progress) if options.feed else _record(options, topology, plans, text, progress)
    print(f"sundial-record: {said}", file=sys.stderr)
    return 0


def _judge(options: argparse.Namespace) -> None:
    """Refuses options that do not go together."""
    if options.feed and options.compact:
        raise ToolError("--feed and --compact are two outputs: name one")
    if (options.feed or options.compact) and options.no_losses:
        raise ToolError("--no-losses is for schedules: sundialctl record finds the losses of a log in the compact form")
    if not options.feed and not options.plan:
        raise ToolError("the plans are needed: say --plan, once for each")
    if options.horizon is not None and not options.feed:
        raise ToolError("--horizon needs --feed")


def _record(options: argparse.Namespace, topology: Topology, plans: Sequence[Plan], text: TextIO, progress: Progress) -> str:
    """Writes the schedule, or the log of which it is made. Answers what was done."""
    from_life, at_once = options.counters == "life", 1 if options.follow else LINES_AT_ONCE
    recorder: Recorder
    if options.compact:
        recorder = CompactRecorder(topology, plans, text, options.origin, from_life, progress.step, at_once)
    else:
        recorder = Recorder(topology, plans, text, options.origin, from_life, not options.no_losses, progress.step, at_once)
    recorder.record(Log(path, topology) for path in options.logs)
    said = f"{recorder.events} events, {recorder.losses} of them losses that no log has; origin {recorder.origin} ps"
    return f"{recorder.events - recorder.losses} lines for a schedule of {said}" if options.compact else said


def _feed(options: argparse.Namespace, topology: Topology, text: TextIO, progress: Progress) -> str:
    """Writes the feed of a merge. Answers what was done."""
    logs = [Growing(path, topology, options.follow) for path in options.logs]
    feed = Feed(logs, topology, text, options.origin, options.counters == "life", options.horizon, progress.step)
    feed.write()
    return f"{feed.entries} entries of {len(logs)} logs; origin {feed.origin} ps"


def _time(word: str) -> int:
    value = picoseconds(word)
    if value is None:
        raise argparse.ArgumentTypeError(f"{word!r} is no time, as 1700000000s or 0")
    if value and word.isdigit():
        raise argparse.ArgumentTypeError(f"{word!r} has no unit: write {word}s, or {word}ps")
    return value


def _parser() -> argparse.ArgumentParser:
    parser = argparse.ArgumentParser(
        prog="sundial-record",
        description="Makes a schedule of the logs of devices, for sundial replay and sundial order.",
        epilog="docs/RECORD.md has the forms of the logs. A time is a number with ps, ns, us, ms or s.",
    )
    parser.add_argument("topology", metavar="TOPOLOGY")
    parser.add_argument("logs", nargs="+", metavar="LOG", help="JSON lines, or a compact log; each log in the order of its references; - is standard input")
    parser.add_argument("--plan", "-p", action="append", default=[], metavar="PLAN", help="a plan, in the order of the command replay")
    parser.add_argument("--origin", type=_time, help="the time that is 0 in the schedule (default: a whole second before the first reference)")
    parser.add_argument("--counters", choices=("keep", "life"), default="keep", help="keep counters, or count from each start and join")
    parser.add_argument("--no-losses", action="store_true", help="write no lose line that the logs do not have")
    parser.add_argument("--compact", action="store_true", help="write the merged log for sundialctl record, in place of a schedule")
    parser.add_argument("--feed", action="store_true", help="write the logs as they grow, for sundialctl merge; needs no plan; with --follow also those in files, until it is stopped")
    parser.add_argument("--horizon", type=_time, metavar="TIME", help="of a feed: after this reference time a silent log holds up no other")
    parser.add_argument("--follow", "-f", action="store_true", help=FOLLOW)
    parser.add_argument("--output", "-o", metavar="FILE", help=OUTPUT)
    return parser
