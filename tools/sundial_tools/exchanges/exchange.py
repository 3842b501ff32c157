"""Two-way exchanges, and what becomes of them on the way to an exchanges text: docs/EXCHANGES.md."""

from __future__ import annotations

from typing import Dict, List, NamedTuple, Optional, TextIO, Tuple

from sundial_tools.topology import Link, Topology

MOST_COUNTER = 2**60
MOST_ASYMMETRY = 10**12
SECOND = 10**12


class Exchange(NamedTuple):
    """The times of one exchange, in picoseconds of the clock that showed each.

    `beginner` is the number of the device that sent at `t1` and received at `t4`.
    """

    line: int
    beginner: int
    t1: int
    t2: int
    t3: int
    t4: int

    @property
    def hold(self) -> int:
        return self.t3 - self.t2


class Steered(NamedTuple):
    """Where two clocks first went apart by `moved` ps since the exchange before, and what was allowed."""

    line: int
    moved: int
    allowed: int


class LeftOut:
    """Counts what was left out, by reason, with the first line of each."""

    def __init__(self) -> None:
        self._reasons: Dict[str, Tuple[int, int]] = {}

    def add(self, reason: str, line: int) -> None:
        count, first = self._reasons.get(reason, (0, line))
        self._reasons[reason] = (count + 1, first)

    def lines(self) -> List[str]:
        return [f"{count}, {reason} (first at line {first})" for reason, (count, first) in self._reasons.items()]


class ExchangeWriter:
    """Writes exchanges as lines, each clock from an origin of its own, and warns of clocks that were steered."""

    def __init__(self, topology: Topology, asymmetry: int, most_hold: int, output: TextIO, left_out: LeftOut) -> None:
        self._topology, self._asymmetry, self._most_hold = topology, asymmetry, most_hold
        self._output, self.left_out = output, left_out
        self._origins: Dict[int, int] = {}
        self._before: Dict[int, Tuple[int, int]] = {}
        self.written = self.longest = 0
        self.shortest: Optional[int] = None
        self.steered: Optional[Steered] = None

    def write(self, exchange: Exchange, link: Link) -> None:
        """Writes the exchange, or counts it as left out."""
        if exchange.t4 < exchange.t1 or exchange.t3 < exchange.t2:
            self.left_out.add("a clock went back within the exchange", exchange.line)
            return
        if self.shortest is None or exchange.hold < self.shortest:
            self.shortest = exchange.hold
        if exchange.hold > self._most_hold:
            self.left_out.add(f"held longer than {self._most_hold} ps", exchange.line)
            return
        other = link.other(exchange.beginner)
        times = [
            time - self._origins.setdefault(device, time // SECOND * SECOND)
            for device, time in zip((exchange.beginner, other, other, exchange.beginner), exchange[2:])
        ]
        if min(times) < 0 or max(times) > MOST_COUNTER:
            self.left_out.add("a clock was set to another time, too far from its first reading", exchange.line)
            return
        self._watch(exchange, link)
        side = link.ends.index(exchange.beginner)
        self._output.write(f"exchange {link.number} {side} {self._asymmetry} {' '.join(map(str, times))}\n")
        self.written += 1
        self.longest = max(self.longest, exchange.hold)

    def end(self) -> None:
        self._output.write("end\n")

    def _watch(self, exchange: Exchange, link: Link) -> None:
        """Whether the two clocks went apart by more than their rates and the delays of the link allow."""
        begins_first = exchange.beginner == link.ends[0]
        sent, arrived = (exchange.t1, exchange.t2) if begins_first else (exchange.t3, exchange.t4)
        before = self._before.get(link.number)
        self._before[link.number] = (sent, arrived)
        if before is None or self.steered is not None:
            return
        ends = [self._topology.devices[end] for end in link.ends]
        passed, moved = abs(sent - before[0]), abs((arrived - sent) - (before[1] - before[0]))
        rates, grains = sum(end.ppm for end in ends), sum(end.grain for end in ends)
        allowed = rates * passed // 10**6 + 2 * grains + link.forth.max - link.forth.min
        if moved > allowed:
            self.steered = Steered(exchange.line, moved, allowed)
