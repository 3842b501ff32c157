"""What was found of a network, before it is a topology."""

from __future__ import annotations

import re
from dataclasses import dataclass, field
from typing import Dict, Iterator, List, Optional, Tuple


@dataclass(frozen=True)
class FoundDevice:
    """`place` says where the device was found, for refusals. No rack is None, as `racked` decides."""

    name: str
    kind: str
    role: str
    rack: Optional[str]
    feeds: Tuple[str, ...]
    side: str
    place: str


@dataclass(frozen=True)
class FoundCable:
    """A cable between two ports. `name` is empty where the cable has none of its own."""

    name: str
    first: str
    first_port: str
    second: str
    second_port: str
    medium: str
    conduits: Tuple[str, ...]
    place: str


@dataclass
class Found:
    devices: List[FoundDevice] = field(default_factory=list)
    cables: List[FoundCable] = field(default_factory=list)
    left_out: Dict[str, int] = field(default_factory=dict)
    first_left_out: Dict[str, str] = field(default_factory=dict)
    shortened: Dict[str, str] = field(default_factory=dict)

    def leave_out(self, what: str, place: str = "") -> None:
        """Counts what is left out. `place` says which one, for the first of its kind."""
        self.left_out[what] = self.left_out.get(what, 0) + 1
        if place:
            self.first_left_out.setdefault(what, place)

    def told(self) -> Iterator[str]:
        """What is said on standard error: what is left out, and names that were shortened."""
        for what, count in self.left_out.items():
            first = self.first_left_out.get(what)
            yield f"left out {count} {what}" + (f" (the first: {first})" if first else "")
        for name, short in self.shortened.items():
            yield f"shortened {name} to {short}"


def natural(text: str) -> Tuple[Tuple[int, int, str], ...]:
    """A key that orders eth2 before eth10."""
    parts = re.findall(r"[0-9]+|[^0-9]+", text)
    return tuple((0, len(part.lstrip("0")), part.lstrip("0")) if part[0] in "0123456789" else (1, 0, part) for part in parts)
