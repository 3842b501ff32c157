"""The events that ptp4l sends to its slave_event_monitor (linuxptp 3.1.1): PTP signaling messages with two TLVs.

All numbers of the wire are big-endian. Times become picoseconds since the epoch of the clock that showed them.
"""

from __future__ import annotations

import struct
from typing import Iterable, Iterator, List, NamedTuple, Tuple, Union

from sundial_tools.errors import ToolError

SIGNALING = 0x0C
HEADER_BYTES, TARGET_BYTES, TLV_BYTES, IDENTITY_BYTES = 34, 10, 4, 10
SYNC_TLV, DELAY_TLV = 0x8004, 0x7F00
# Sequence, origin time, correction, rate offset, arrival time; a delay request has no rate offset.
SYNC_RECORD, DELAY_RECORD = struct.Struct(">H6sIqi6sI"), struct.Struct(">H6sIq6sI")
MOST_NANOSECONDS = 10**9


class Sync(NamedTuple):
    """A sync that the time transmitter sent at `sent` of its clock, and that arrived at `arrived` of the receiver's.

    `correction` is what transparent clocks say that they held it, in units of 2^-16 ns.
    """

    line: int
    peer: str
    sequence: int
    sent: int
    arrived: int
    correction: int


class DelayRequest(NamedTuple):
    """A delay request that the receiver of syncs sent, and that arrived at the time transmitter."""

    line: int
    peer: str
    sequence: int
    sent: int
    arrived: int
    correction: int


PtpEvent = Union[Sync, DelayRequest]


def read_capture(lines: Iterable[str], source: str) -> Iterator[PtpEvent]:
    """The events of a capture: one datagram a line, as hexadecimal digits."""
    for number, line in enumerate(lines, 1):
        if not line.endswith("\n"):
            raise ToolError("the capture is cut short: its last line has no newline", source, number)
        try:
            datagram = bytes.fromhex(line)
        except ValueError:
            raise ToolError("a datagram of a capture is a line of hexadecimal digits", source, number) from None
        try:
            yield from parse_datagram(datagram, number)
        except ValueError as fault:
            raise ToolError(str(fault), source, number) from None


def parse_datagram(datagram: bytes, line: int = 0) -> List[PtpEvent]:
    """The events of one datagram. Raises ValueError where it is no such message or is cut short."""
    start = HEADER_BYTES + TARGET_BYTES
    if len(datagram) < start:
        raise ValueError(f"the datagram has {len(datagram)} bytes, and a PTP signaling message at least {start}")
    if datagram[0] & 0x0F != SIGNALING or datagram[1] & 0x0F != 2:
        raise ValueError("the datagram is no signaling message of PTP version 2")
    length = int.from_bytes(datagram[2:4], "big")
    if length != len(datagram):
        raise ValueError(f"the message has {length} bytes by its header, and the datagram {len(datagram)}")
    events: List[PtpEvent] = []
    while start < length:
        kind, body, start = _tlv(datagram, start)
        if kind in (SYNC_TLV, DELAY_TLV):
            events += _records(kind, body, line)
    return events


def _tlv(datagram: bytes, start: int) -> Tuple[int, bytes, int]:
    if start + TLV_BYTES > len(datagram):
        raise ValueError("the message ends within a TLV")
    kind, length = struct.unpack_from(">HH", datagram, start)
    end = start + TLV_BYTES + length
    if end > len(datagram):
        raise ValueError(f"the TLV of type {kind:#06x} goes past the end of the message")
    return kind, datagram[start + TLV_BYTES : end], end


def _records(kind: int, body: bytes, line: int) -> Iterator[PtpEvent]:
    form = SYNC_RECORD if kind == SYNC_TLV else DELAY_RECORD
    if len(body) < IDENTITY_BYTES or (len(body) - IDENTITY_BYTES) % form.size:
        raise ValueError(f"the TLV of type {kind:#06x} has {len(body)} bytes, and no whole number of records")
    peer = _identity(body[:IDENTITY_BYTES])
    for fields in form.iter_unpack(body[IDENTITY_BYTES:]):
        sequence, correction = fields[0], fields[3]
        sent, arrived = _time(fields[1], fields[2]), _time(fields[-2], fields[-1])
        if kind == SYNC_TLV:
            yield Sync(line, peer, sequence, sent, arrived, correction)
        else:
            yield DelayRequest(line, peer, sequence, sent, arrived, correction)


def _identity(identity: bytes) -> str:
    """A port as ptp4l prints it: the clock, a dash, and the number of the port."""
    clock = identity[:8].hex()
    return f"{clock[:6]}.{clock[6:10]}.{clock[10:]}-{int.from_bytes(identity[8:], 'big')}"


def _time(seconds: bytes, nanoseconds: int) -> int:
    if nanoseconds >= MOST_NANOSECONDS:
        raise ValueError(f"a time has {nanoseconds} nanoseconds, a second or more")
    return (int.from_bytes(seconds, "big") * MOST_NANOSECONDS + nanoseconds) * 1000
