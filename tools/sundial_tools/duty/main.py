"""The words of sundial-duty."""

from __future__ import annotations

import argparse
from typing import List, Optional

from sundial_tools.duty.duties import chapters
from sundial_tools.duty.forms import FORMS
from sundial_tools.errors import ToolError
from sundial_tools.plan import read_plan
from sundial_tools.safe_write import OUTPUT, whole_output
from sundial_tools.topology import Topology, read_topology

MOST_EPOCH = 2**32 - 1


def main(words: List[str]) -> int:
    options = _parser().parse_args(words)
    topology = read_topology(options.topology)
    if options.first_epoch + len(options.plan) - 1 > MOST_EPOCH:
        raise ToolError("the number of a plan is over 2^32 - 1")
    plans = [read_plan(path, topology) for path in options.plan]
    device = _device(topology, options.device)
    made = chapters(topology, plans, options.first_epoch, device)
    with whole_output(options.output) as text:
        for line in FORMS[options.form](topology, made, device):
            text.write(line + "\n")
    return 0


def _device(topology: Topology, name: Optional[str]) -> Optional[int]:
    if name is None:
        return None
    if name not in topology.device_numbers:
        raise ToolError(f"the topology has no device {name}")
    return topology.device_numbers[name]


def _epoch(word: str) -> int:
    if not word.isascii() or not word.isdigit() or not 1 <= int(word[:20]) <= MOST_EPOCH:
        raise argparse.ArgumentTypeError(f"{word!r} is no number from 1 to 2^32 - 1")
    return int(word)


def _parser() -> argparse.ArgumentParser:
    parser = argparse.ArgumentParser(
        prog="sundial-duty",
        description="Writes the duty of each device in each plan, in the form that the C library and its bindings take, with the "
        "devices below each and the links to them.",
        epilog="The plans are not checked: run `sundial check` or `sundial renew` before. docs/EMBED.md says what a duty is.",
    )
    parser.add_argument("topology", metavar="TOPOLOGY")
    parser.add_argument("plan", metavar="PLAN", nargs="+", help="each plan brings in the next epoch")
    parser.add_argument("--form", choices=tuple(FORMS), default="c", help="a C header, Rust for bindings/rust, or JSON (default: c)")
    parser.add_argument("--device", metavar="NAME", help="the duties of this device alone, for its firmware")
    parser.add_argument(
        "--first-epoch", type=_epoch, default=1, metavar="NUMBER", help="the number of the first plan (default: 1)"
    )
    parser.add_argument("--output", "-o", metavar="FILE", help=OUTPUT)
    return parser
