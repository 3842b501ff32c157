"""The words of sundial-watch."""

from __future__ import annotations

import argparse
import subprocess
import sys
import time
from typing import Dict, List

from sundial_tools.calm import read_calm
from sundial_tools.errors import ToolError
from sundial_tools.inputs import as_files
from sundial_tools.outputs import read_output
from sundial_tools.plan import read_plan
from sundial_tools.record.logs import allow_files
from sundial_tools.schedule import MOST_NUMBER
from sundial_tools.times import picoseconds
from sundial_tools.topology import Topology, read_topology, search_program, sundial_program
from sundial_tools.watch.report import main as report_main
from sundial_tools.watch.shown import Shown
from sundial_tools.watch.watcher import Options, Watch

WAIT = 0.05
SECOND = 10**12
MOST_PORT = 65535


def main(words: List[str]) -> int:
    return report_main(words[1:]) if words[:1] == ["report"] else _watch(words)


def _watch(words: List[str]) -> int:
    said = _parser().parse_args(words)
    program = sundial_program()
    if not program:
        raise ToolError("sundial-watch needs sundial on the path, or the variable SUNDIAL")
    with as_files(said, "topology", "plan", streams=("logs",)):
        return _watched(said, program)


def _watched(said: argparse.Namespace, program: str) -> int:
    topology = read_topology(said.topology)
    plans = [read_plan(path, topology) for path in said.plan]
    allow_files(len(said.logs))
    options = Options(
        said.topology, said.plan, said.logs, said.output, [program, "replay"], said.origin, said.counters == "life", said.horizon,
        max(said.horizon, SECOND) if said.jump is None else said.jump, said.ask, said.every, said.keep, _print if said.follow else lambda text: None, _say,
    )
    shown = Shown(said.prometheus, said.listen)
    watch = Watch(topology, plans, options)
    try:
        watch.metrics.fabric = said.fabric
        if said.bound:
            watch.metrics.bounds = bounds(program, said.topology, said.plan[-1], *said.bound)
            second = search_program()
            watch.metrics.calm = calm_numbers(second, topology, said.topology, said.plan[-1], *said.bound) if second else {}
        return _run(watch, shown, said.once)
    except BaseException:
        watch.stop()
        raise
    finally:
        shown.close()


def _run(watch: Watch, shown: Shown, is_once: bool) -> int:
    if is_once:
        watch.end_now()
    while True:
        began = time.monotonic()
        came = watch.step()
        is_over = watch.ended or (is_once and not came)
        if is_over and not watch.ended:
            watch.step(is_last=True)
        if shown.is_due(watch.has_news):
            watch.has_news = False
            shown.show(watch.metrics_text())
        if is_over:
            status = watch.finish() if watch.ended else watch.pause()
            shown.show(watch.metrics_text())
            return status
        if not came:
            time.sleep(max(WAIT, time.monotonic() - began))


def bounds(program: str, topology: str, plan: str, base: int, hold: int) -> Dict[str, int]:
    """What the drill says of each device, the greatest over all domains."""
    found: Dict[str, int] = {}
    for line in read_output(_lines_of(program, "drill", topology, plan, base, hold), "drill"):
        if line.kind == "bound":
            device = line.fields["device"]
            found[device] = max(line.fields["eps"], found.get(device, 0))
    return found


def calm_numbers(program: str, topology: Topology, path: str, plan: str, base: int, hold: int) -> Dict[str, int]:
    """What each device stays below while nothing has failed. `program` is `sundialctl`."""
    numbers = read_calm(_lines_of(program, "bounds", path, plan, base, hold), topology, "bounds")
    return {topology.devices[device].name: number for device, number in numbers.items()}


def _lines_of(program: str, command: str, topology: str, plan: str, base: int, hold: int) -> List[str]:
    done = subprocess.run([program, command, topology, plan, str(base), str(hold)], stdout=subprocess.PIPE, text=True, check=False)
    if done.returncode != 0:
        raise ToolError(f"{program} {command} ended with status {done.returncode}: {done.stdout[:200].strip()}")
    return done.stdout.splitlines(keepends=True)


def _say(text: str) -> None:
    print(f"sundial-watch: {text}", file=sys.stderr, flush=True)


def _print(text: str) -> None:
    print(text, flush=True)


def _time(word: str) -> int:
    value = picoseconds(word)
    if value is None or (value and word.isdigit()):
        raise argparse.ArgumentTypeError(f"{word!r} is no time with a unit, as 100ms")
    return value


def _count(word: str) -> int:
    if not word.isdigit() or not 0 < int(word) <= MOST_NUMBER:
        raise argparse.ArgumentTypeError(f"{word!r} is no number from 1")
    return int(word)


def _port(word: str) -> int:
    if not word.isdigit() or not 0 < int(word) <= MOST_PORT:
        raise argparse.ArgumentTypeError(f"{word!r} is no port from 1 to {MOST_PORT}")
    return int(word)


def _parser() -> argparse.ArgumentParser:
    parser = argparse.ArgumentParser(
        prog="sundial-watch",
        description="Judges a fabric while it runs: reads the logs of its devices as they grow, replays them, and reports each line "
        "as it comes. However it ended, a new start goes on where it was.",
        epilog="docs/WATCH.md has the files, the metrics and what to do with them.",
    )
    parser.add_argument("topology", metavar="TOPOLOGY")
    parser.add_argument("logs", nargs="+", metavar="LOG", help="JSON lines or a compact log, as of sundial-record: a file that grows, a FIFO, or - for standard input")
    parser.add_argument("--plan", "-p", action="append", required=True, metavar="PLAN", help="a plan, in the order of the command replay")
    parser.add_argument("--output", "-o", required=True, metavar="DIRECTORY", help="the state: what was reported, and what is needed to go on")
    parser.add_argument("--prometheus", metavar="FILE", help="write the metrics there, once a second and when something breaks")
    parser.add_argument("--listen", type=_port, metavar="PORT", help="answer http://127.0.0.1:PORT/metrics with the metrics")
    parser.add_argument("--fabric", metavar="NAME", help="a label of each series, where several fabrics are watched")
    parser.add_argument("--bound", nargs=2, type=_time, metavar=("BASE", "HOLD"), help="also report the bounds of this drill of the last plan; with sundialctl there, also what a healthy fabric stays below")
    parser.add_argument("--ask", type=_time, metavar="TIME", help="ask each device at its first tick after this time, so that it reports")
    parser.add_argument("--horizon", type=_time, default=SECOND, metavar="TIME", help="how long to wait for a log that is silent (default: 1s)")
    parser.add_argument("--jump", type=_time, metavar="TIME", help="pass over a line that is further ahead of all other logs (default: the horizon, and at least 1s)")
    parser.add_argument("--every", type=_count, default=30_000_000, metavar="N", help="cut at the first right place after N events of a part (default: 30000000)")
    parser.add_argument("--keep", type=_count, default=3, metavar="N", help="how many parts to keep (default: 3)")
    parser.add_argument("--origin", type=_time, help="the time that is 0 in the schedule (default: a whole second before the first reference)")
    parser.add_argument("--counters", choices=("keep", "life"), default="keep", help="keep counters, or count from each start and join")
    parser.add_argument("--once", action="store_true", help="read what the logs have by now, and end; a later run goes on")
    parser.add_argument("--follow", "-f", action="store_true", help="also print each line")
    return parser
