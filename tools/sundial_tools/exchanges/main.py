"""The words of sundial-exchanges."""

from __future__ import annotations

import argparse
import math
import sys
from typing import Callable, List, TextIO

from sundial_tools.errors import ToolError
from sundial_tools.exchanges.capture import capture
from sundial_tools.exchanges.convert import Task, convert_chrony, convert_ptp
from sundial_tools.exchanges.exchange import MOST_ASYMMETRY
from sundial_tools.exchanges.peers import Peers
from sundial_tools.safe_write import whole_output
from sundial_tools.times import time_option, written
from sundial_tools.topology import read_topology

DEFAULT_HOLD = 10**9
MOST_SECONDS = 10**8


def main(words: List[str]) -> int:
    said = _parser().parse_args(words)
    return int(said.command(said))


def _parser() -> argparse.ArgumentParser:
    parser = argparse.ArgumentParser(
        prog="sundial-exchanges",
        description="Makes an exchanges text for `sundial twoway` from what ptp4l or chrony measured.",
        epilog="A time is a number and its unit, ps, ns, us, ms or s, as 20us. Standard error says what is left out. See docs/EXCHANGES.md.",
    )
    commands = parser.add_subparsers(required=True, metavar="COMMAND")
    listening = commands.add_parser("capture", help="keep the events that ptp4l sends to its slave_event_monitor")
    listening.add_argument("socket", metavar="SOCKET", help="the path that slave_event_monitor names")
    listening.add_argument("--seconds", type=_seconds, default=30.0, help="for how long to listen (default: 30)")
    listening.add_argument("--output", "-o", metavar="FILE", help="where the capture goes (default: standard output)")
    listening.set_defaults(command=_capture)
    for name, text, command in (
        ("ptp", "exchanges from a capture of ptp4l's events", convert_ptp),
        ("chrony", "exchanges from lines of `chronyc -c ntpdata`", convert_chrony),
    ):
        _add_conversion(commands.add_parser(name, help=text), name, command)
    return parser


def _add_conversion(parser: argparse.ArgumentParser, name: str, command: Callable[[Task, TextIO], None]) -> None:
    what = "clock and port, as 6af749.fffe.06cb89-1" if name == "ptp" else "address"
    parser.add_argument("topology", metavar="TOPOLOGY")
    parser.add_argument("input", metavar="INPUT", help="the capture, or the lines; - is standard input")
    parser.add_argument("--device", required=True, metavar="NAME", help="the device where INPUT was recorded")
    links = parser.add_mutually_exclusive_group(required=True)
    links.add_argument("--link", metavar="NAME", help="the link to the one peer that INPUT has")
    links.add_argument("--peer", action="append", metavar="PEER=LINK", help=f"the link to a peer, by its {what}")
    parser.add_argument(
        "--asymmetry",
        required=True,
        type=time_option(0, MOST_ASYMMETRY),
        metavar="TIME",
        help="by how much the two delays of an exchange may differ; no measurement shows it",
    )
    parser.add_argument(
        "--hold",
        type=time_option(0, 10**15),
        default=DEFAULT_HOLD,
        metavar="TIME",
        help=f"leave out exchanges whose answer was held longer (default: {written(DEFAULT_HOLD)})",
    )
    parser.add_argument("--output", "-o", metavar="FILE", help="where the exchanges go (default: standard output)")
    parser.set_defaults(command=lambda said: _convert(said, command))


def _seconds(text: str) -> float:
    try:
        seconds = float(text)
    except ValueError:
        seconds = math.nan
    if not 0 <= seconds <= MOST_SECONDS:
        raise argparse.ArgumentTypeError(f"{text!r} is no number of seconds from 0 to {MOST_SECONDS}")
    return seconds


def _capture(said: argparse.Namespace) -> int:
    with whole_output(said.output) as output:
        count = capture(said.socket, said.seconds, output)
        if not count:
            raise ToolError(
                f"no datagram came in {said.seconds:g} seconds: does slave_event_monitor of ptp4l name it?",
                said.socket,
            )
    print(f"captured: {count} datagrams", file=sys.stderr)
    return 0


def _convert(said: argparse.Namespace, command: Callable[[Task, TextIO], None]) -> int:
    topology = read_topology(said.topology)
    peers = Peers(topology, said.device, said.link, said.peer or ())
    command(Task(topology, peers, said.input, said.asymmetry, said.hold, said.output), sys.stderr)
    return 0
