"""From a capture of ptp4l, or from lines of chronyc, to an exchanges text."""

from __future__ import annotations

import contextlib
from typing import Iterable, Iterator, NamedTuple, Optional, TextIO, Tuple

from sundial_tools.errors import ToolError
from sundial_tools.exchanges.exchange import Exchange, ExchangeWriter, LeftOut
from sundial_tools.exchanges.ntpdata import Sample, read_ntpdata
from sundial_tools.exchanges.pairing import Pairings, Port
from sundial_tools.exchanges.peers import Peers
from sundial_tools.exchanges.ptp_events import read_capture
from sundial_tools.inputs import read_lines
from sundial_tools.safe_write import Progress, whole_output
from sundial_tools.topology import Topology

SECOND = 10**12


class Task(NamedTuple):
    """What is to be converted: `asymmetry` and `hold` are picoseconds."""

    topology: Topology
    peers: Peers
    source: str
    asymmetry: int
    hold: int
    output: Optional[str]


def convert_ptp(task: Task, told: TextIO) -> None:
    """Writes the exchanges of a capture, and tells on `told` what came of it."""
    with _writing(task) as (writer, lines):
        pairings = Pairings(lambda peer, line: _port(task, peer, line), writer.left_out)
        for peer, exchange in pairings.pairs(read_capture(lines, task.source)):
            link = task.peers.link(peer, task.source, exchange.line)
            if link is not None:
                writer.write(exchange, link)
    told.write(f"read: {pairings.syncs} syncs and {pairings.requests} delay requests\n")
    unused = pairings.syncs - pairings.used_syncs
    if unused:
        told.write(f"unused: {unused} syncs, in no exchange\n")
    _tell(writer, task, told)


def convert_chrony(task: Task, told: TextIO) -> None:
    """Writes the exchanges of the lines of chronyc, and tells on `told` what came of them."""
    samples = 0
    with _writing(task) as (writer, lines):
        for sample in read_ntpdata(lines, task.source, writer.left_out):
            samples += 1
            link = task.peers.link(sample.server, task.source, sample.line)
            if link is None:
                writer.left_out.add(f"from {sample.server}, for which no --peer names a link", sample.line)
            else:
                writer.write(_exchange_of(sample, task.peers.device), link)
    told.write(f"read: {samples} measurements\n")
    _tell(writer, task, told)


def _exchange_of(sample: Sample, client: int) -> Exchange:
    """An exchange with these differences, at times of its own: only the differences count."""
    answered = SECOND + sample.hold
    return Exchange(sample.line, client, SECOND, SECOND, answered, answered + sample.delay)


def _port(task: Task, peer: str, line: int) -> Optional[Port]:
    link = task.peers.link(peer, task.source, line)
    return None if link is None else Port(link.other(task.peers.device), task.peers.device)


@contextlib.contextmanager
def _writing(task: Task) -> Iterator[Tuple[ExchangeWriter, Iterable[str]]]:
    """A writer and the lines of the input. Where no exchange was written nothing is."""
    with whole_output(task.output) as output, Progress(task.source) as progress:
        writer = ExchangeWriter(task.topology, task.asymmetry, task.hold, output, LeftOut())
        yield writer, _stepped(read_lines(task.source), progress)
        if not writer.written:
            raise ToolError(_nothing_left(writer, task.hold), task.source)
        writer.end()


def _nothing_left(writer: ExchangeWriter, hold: int) -> str:
    if writer.shortest is not None and writer.shortest > hold:
        return f"no exchange was held for at most {hold} ps; the shortest was held for {writer.shortest} ps (--hold)"
    reasons = "; ".join(writer.left_out.lines())
    return "the input has no exchange" + (f": {reasons}" if reasons else "")


def _stepped(lines: Iterable[str], progress: Progress) -> Iterator[str]:
    for line in lines:
        progress.step()
        yield line


def _tell(writer: ExchangeWriter, task: Task, told: TextIO) -> None:
    for line in writer.left_out.lines():
        told.write(f"left out: {line}\n")
    exchanges = "exchange" if writer.written == 1 else "exchanges"
    told.write(f"written: {writer.written} {exchanges}, held for {writer.shortest} to {writer.longest} ps\n")
    if writer.steered is not None:
        told.write(
            f"warning: at line {writer.steered.line} the two clocks went apart by {writer.steered.moved} ps since the "
            f"exchange before, and their rates and the link allow {writer.steered.allowed} ps: one was set or steered, "
            "or the topology is wrong\n"
        )
