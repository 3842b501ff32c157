"""The words of sundial-readiness."""

from __future__ import annotations

import argparse
import json
from typing import Iterable, Iterator, List, Optional, TextIO

from sundial_tools.errors import ToolError
from sundial_tools.inputs import as_files
from sundial_tools.plan import default_hold, read_plan
from sundial_tools.readiness.losses import Loss, Losses, Next, Search
from sundial_tools.safe_write import OUTPUT, Progress, whole_output
from sundial_tools.times import time_of
from sundial_tools.topology import read_topology, search_program, sundial_program
from sundial_tools.units import few, human

MOST_STEPS = 1 << 60
COLUMNS = ("loss", "moving", "greatest eps", "at", "cut off", "planned again")


def main(words: List[str]) -> int:
    options = _parser().parse_args(words)
    program = sundial_program()
    if program is None:
        raise ToolError("this asks sundial: put it on the path, or name it in the variable SUNDIAL")
    with as_files(options, "topology", "plan"):
        return _told(options, program, _search(options.search))


def _search(steps: Optional[int]) -> Optional[Search]:
    if steps is None:
        return None
    program = search_program()
    if program is None:
        raise ToolError("--search asks sundialctl: put it on the path, or name it in the variable SUNDIALCTL")
    return Search(program, steps)


def _told(options: argparse.Namespace, program: str, search: Optional[Search]) -> int:
    topology = read_topology(options.topology)
    plan = read_plan(options.plan, topology)
    hold = default_hold(topology, plan) if options.hold is None else time_of(options.hold)
    losses = Losses(program, topology, plan, (options.topology, options.plan), time_of(options.base), hold, search)
    with Progress("sundial-readiness", "losses") as progress, whole_output(options.output) as text:
        found = list(losses.all(progress.step))
        if options.json:
            text.writelines(json.dumps(loss.row()) + "\n" for loss in found)
        else:
            _write_table([it for it in found if it.next.refusal] if options.refused else found, text)
            text.write(f"{_count(found, search is not None)}; eps for BASE {human(found[0].budget[0])} and HOLD {human(found[0].budget[1])}\n")
    return 0


def _count(losses: List[Loss], searched: bool) -> str:
    said = f"{sum(not it.next.refusal for it in losses)} of {len(losses)} losses can be planned again"
    return said + (f", and {sum(it.next.found for it in losses)} more by a search" if searched else "")


def _write_table(losses: Iterable[Loss], text: TextIO) -> None:
    rows = [COLUMNS, *(tuple(_cells(it)) for it in losses)]
    widths = [max(len(row[column]) for row in rows) for column in range(len(COLUMNS))]
    if len(rows) > 1:
        for row in rows:
            text.write("  ".join(f"{cell:<{width}}" for cell, width in zip(row, widths)).rstrip() + "\n")


def _cells(loss: Loss) -> Iterator[str]:
    yield loss.named.text
    yield (f"{len(loss.moving)}, takes over" if loss.takes_over else str(len(loss.moving)))
    yield "none" if loss.bound.eps is None else f"{loss.bound.eps / 10**6:,.3f} us"
    yield loss.bound.device or ""
    yield few(loss.cut_off, 3) or "-"
    yield _then(loss.next)


def _then(then: Next) -> str:
    if not then.refusal:
        return f"yes: {', '.join(then.roots)}"
    if then.found:
        return f"by a search: {', '.join(then.roots)}"
    return f"no: {then.refusal}" + (f"; search: {then.search_refusal}" if then.searched else "")


def _parser() -> argparse.ArgumentParser:
    parser = argparse.ArgumentParser(
        prog="sundial-readiness",
        description="Takes each listed domain, each device and each link away in turn, and says who may move, how wide reports "
        "get, and whether what is left can be planned again.",
        epilog="It asks sundial drill once, and sundial renew for each loss. What a loss cuts off from every candidate for root is "
        "left out too, as sundial-topology absent does. After yes come the two roots of the next plan.",
    )
    parser.add_argument("topology", metavar="TOPOLOGY")
    parser.add_argument("plan", metavar="PLAN", help="the plan in force; what it leaves out stays out")
    parser.add_argument("--base", default="1us", metavar="TIME", help="BASE of the drill (default: 1us)")
    parser.add_argument(
        "--hold", metavar="TIME", help="HOLD of the drill (default: both waits of the backup root, and three ticks)"
    )
    parser.add_argument(
        "--search", type=_steps, metavar="STEPS",
        help="where renew finds no plan, ask sundialctl renew, which tries at most this many drafts after the plan of renew",
    )
    parser.add_argument("--refused", action="store_true", help="only losses after which renew finds no plan")
    parser.add_argument("--json", action="store_true", help="JSON lines, one a loss, with all names; times in picoseconds")
    parser.add_argument("--output", "-o", metavar="FILE", help=OUTPUT)
    return parser


def _steps(word: str) -> int:
    if not (word.isascii() and word.isdigit()) or int(word) > MOST_STEPS:
        raise argparse.ArgumentTypeError(f"{word!r} is no number of steps")
    return int(word)
