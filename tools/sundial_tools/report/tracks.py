"""What each device did over time: spans of its modes. docs/DEVICE.md has the modes."""

from __future__ import annotations

from typing import Dict, List, NamedTuple, Tuple

from sundial_tools.topology import Topology

STATES = ("acting", "primary", "backup", "waiting", "down")
MEANING = {
    "acting": "acts as root",
    "primary": "follows its primary",
    "backup": "follows its backup",
    "waiting": "waits: it has no duty yet, or heard nothing for longer than the lost rounds that are allowed",
    "down": "has failed",
}
MOST_SPANS = 400


class Span(NamedTuple):
    state: str
    begin: int
    end: int


class Tracks:
    """The spans of all devices. A device that hears nothing for more than `loss` + 2 periods waits."""

    def __init__(self, topology: Topology) -> None:
        self.patience = (topology.loss + 2) * topology.period
        self.of: Dict[int, List[Span]] = {}
        self.left_out = 0
        self._now: Dict[int, Tuple[str, int]] = {}
        self._heard: Dict[int, int] = {}

    def heard(self, device: int, ref: int) -> None:
        """The device has accepted a message."""
        self._waited(device, ref)
        self._heard[device] = ref

    def set(self, device: int, state: str, ref: int) -> None:
        """From `ref` on the device is in this state."""
        if device in self._now:
            self._close(device, ref)
        self._now[device] = state, ref
        self._heard[device] = ref

    def end(self, ref: int) -> None:
        for device in self._now:
            self._close(device, ref)
        self._now.clear()

    def _waited(self, device: int, ref: int) -> None:
        """Who follows a parent, and heard nothing for so long, has waited since it heard last."""
        heard = self._heard.get(device, ref)
        if ref - heard > self.patience and self._now[device][0] in ("primary", "backup"):
            state, begin = self._now[device]
            self._add(device, Span(state, begin, heard))
            self._add(device, Span("waiting", heard, ref))
            self._now[device] = state, ref

    def _close(self, device: int, ref: int) -> None:
        self._waited(device, ref)
        self._add(device, Span(*self._now[device], ref))

    def _add(self, device: int, span: Span) -> None:
        if span.begin == span.end:
            return
        spans = self.of.setdefault(device, [])
        if spans and spans[-1].state == span.state and spans[-1].end == span.begin:
            spans[-1] = Span(span.state, spans[-1].begin, span.end)
        elif len(spans) < MOST_SPANS:
            spans.append(span)
        else:
            self.left_out += 1
