"""What one asks for: failures, mends, renewals, and wrong things on purpose."""

from __future__ import annotations

import re
from typing import Dict, List, NamedTuple, Optional, Sequence, Tuple

from sundial_tools.errors import ToolError
from sundial_tools.things import Named, find_named, nearest
from sundial_tools.times import time_of
from sundial_tools.topology import Topology

PPM = re.compile(r"[+-]?[0-9]{1,6}")


class Failure(NamedTuple):
    at: int
    named: Named


class Renewal(NamedTuple):
    """`plan` is the file."""

    at: int
    plan: str


class Span(NamedTuple):
    """A stretch of time. Without an end it is the first message from there on alone."""

    since: int
    until: Optional[int]


class Lost(NamedTuple):
    """Messages over a link that are lost."""

    link: int
    span: Span


class Late(NamedTuple):
    """Messages over a link that take this long."""

    link: int
    span: Span
    delay: int


class Wrong(NamedTuple):
    """A counter that runs at this pace from then on."""

    at: int
    device: int
    ppm: int


class Wishes(NamedTuple):
    """All of it. Times are picoseconds of the reference."""

    failures: Sequence[Failure]
    mends: Sequence[Failure]
    lost: Sequence[Lost]
    late: Sequence[Late]
    wrong: Sequence[Wrong]
    allowed: Sequence[str]

    def said(self, topology: Topology) -> List[str]:
        """Each wish in words, with its time."""
        devices, links = topology.devices, topology.links
        texts = [(it.at, f"{it.named.text} fails at {us(it.at)}") for it in self.failures]
        texts += [(it.at, f"{it.named.text} is mended from {us(it.at)} on, in a window") for it in self.mends]
        texts += [(it.span.since, f"messages over {links[it.link].name} are lost {_span_text(it.span)}") for it in self.lost]
        texts += [
            (it.span.since, f"messages over {links[it.link].name} take {us(it.delay)} {_span_text(it.span)}") for it in self.late
        ]
        texts += [(it.at, f"{devices[it.device].name} counts at {it.ppm:+d} ppm from {us(it.at)} on") for it in self.wrong]
        return [text for _, text in sorted(texts, key=lambda it: it[0])]


def us(time: int) -> str:
    """A time in microseconds, with one digit behind the point."""
    return f"{time / 10**6:,.1f} us"


def _span_text(span: Span) -> str:
    return f"from {us(span.since)} to {us(span.until)}" if span.until is not None else f"once, at {us(span.since)}"


def failure(topology: Topology, word: str) -> Failure:
    """`THING@TIME`."""
    thing, at = _moment(word, "THING@TIME, as 'listed feed-a@5ms'")
    return Failure(time_of(at), find_named(topology, thing))


def renewal(word: str) -> Renewal:
    """`PLAN@TIME`."""
    plan, at = _moment(word, "PLAN@TIME, as plan-2.json@14ms")
    return Renewal(time_of(at), plan)


def lost(topology: Topology, word: str) -> Lost:
    """`LINK@TIME` or `LINK@TIME..TIME`."""
    link, span = _moment(word, "LINK@TIME or LINK@TIME..TIME")
    return Lost(_one(topology.link_numbers, "link", link), _span(span))


def late(topology: Topology, word: str) -> Late:
    """`LINK@TIME=DELAY` or `LINK@TIME..TIME=DELAY`."""
    form = "LINK@TIME=DELAY or LINK@TIME..TIME=DELAY"
    link, rest = _moment(word, form)
    span, _, delay = rest.partition("=")
    if not delay:
        raise ToolError(f"{word!r} is no {form}")
    number, wanted = _one(topology.link_numbers, "link", link), time_of(delay)
    most = 2 * min(topology.links[number].forth.max, topology.links[number].back.max)
    if wanted > most:
        raise ToolError(f"{word!r}: a message over {link} can be received for {us(most)}, twice its greatest delay")
    return Late(number, _span(span), wanted)


def wrong(topology: Topology, word: str) -> Wrong:
    """`DEVICE@TIME=PPM`."""
    form = "DEVICE@TIME=PPM, as leaf1@5ms=+700"
    device, rest = _moment(word, form)
    at, _, ppm = rest.partition("=")
    if not PPM.fullmatch(ppm) or int(ppm) <= -1_000_000:
        raise ToolError(f"{word!r} is no {form}")
    return Wrong(time_of(at), _one(topology.device_numbers, "device", device), int(ppm))


def _moment(word: str, form: str) -> Tuple[str, str]:
    what, _, when = word.rpartition("@")
    if not what or not when:
        raise ToolError(f"{word!r} is no {form}")
    return what, when


def _span(text: str) -> Span:
    since, between, until = text.partition("..")
    span = Span(time_of(since), time_of(until) if between else None)
    if span.until is not None and span.until < span.since:
        raise ToolError(f"{text!r} ends before it begins")
    return span


def _one(numbers: Dict[str, int], kind: str, name: str) -> int:
    name = name.strip().removeprefix(f"{kind}:").removeprefix(f"{kind} ")
    if name not in numbers:
        near = nearest(name, numbers)
        raise ToolError(f"no {kind} has the name {name}" + (f"; {near} is there" if near else ""))
    return numbers[name]
