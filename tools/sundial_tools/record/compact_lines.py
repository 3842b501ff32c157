"""Lines of compact logs, which `sundialctl record` reads: numbers for names, and picoseconds (docs/RECORD.md).

A line is that of a schedule, but that it names a message as logs do: `recv REF DEVICE COUNTER LINK EPOCH TERM ROUND`, and
`lose REF DEVICE LINK EPOCH TERM ROUND` with the receiver as DEVICE.
"""

from __future__ import annotations

import re
from typing import Dict, Optional, Tuple

from sundial_tools.errors import ToolError
from sundial_tools.record.events import NO_STAMP, NONE, LogEvent
from sundial_tools.schedule import FIELDS, MOST_DEVICE, MOST_NUMBER, NUMBER, USUAL_DEVICE, USUAL_NUMBER, Event, event_line, parse_event

# (a longer one is refused by the proved programs before they look what it is)
MOST_LINE = 4096
MESSAGE = ("link", "epoch", "term", "round")
AMOUNTS = ("ref", "counter", "round")
# The fields of each word.
WORDS: Dict[str, Tuple[str, ...]] = {
    **{word: ("ref", *fields) for word, fields in FIELDS.items()},
    "recv": ("ref", "device", "counter", *MESSAGE), "lose": ("ref", "device", *MESSAGE),
}
# Nearly all lines are of these forms, with numbers that are far below their limits.
USUAL = re.compile(
    f"(tick|ask|recv) {USUAL_NUMBER} {USUAL_DEVICE} {USUAL_NUMBER}"
    f"(?: {USUAL_DEVICE} {USUAL_DEVICE} {USUAL_DEVICE} {USUAL_NUMBER})?\n?"
).fullmatch


def compact_line(event: LogEvent, said: Event) -> str:
    """The line of an event of a log, with its newline. `said` has the times of the schedule."""
    if said.word == "recv":
        return f"recv {said.ref} {said.device} {said.counter} {message_name(event)}\n"
    if said.word == "lose":
        return f"lose {said.ref} {event.device} {message_name(event)}\n"
    return event_line(said)


def message_name(event: LogEvent) -> str:
    """How a line names a message: LINK EPOCH TERM ROUND."""
    return f"{event.link} {event.epoch} {event.stamp[0]} {event.stamp[1]}"


def usual_entry(line: str, source: str, number: int, devices: int, links: int) -> Optional[LogEvent]:
    """The event of a tick, an ask or a receipt, with or without its newline, as nearly all lines are; or None of all others.

    The numbers of its device and of its link are below `devices` and `links`.
    """
    usual = USUAL(line)
    if usual is None:
        return None
    word, ref, device_text, counter, link_text, epoch, term, place = usual.groups()
    device = int(device_text)
    if device >= devices or (link_text is None) == (word == "recv"):
        return None
    # (made as a tuple, since the call of the class takes twice the time)
    if link_text is None:
        return tuple.__new__(LogEvent, (
            word, int(ref), device, int(counter), None, None, NONE, NONE, NO_STAMP, "", NONE, source, number
        ))
    link = int(link_text)
    return None if link >= links else tuple.__new__(LogEvent, (
        word, int(ref), device, int(counter), None, None, link, int(epoch), (int(term), int(place)), "", NONE, source, number
    ))


def parse_entry(line: str, source: str, number: int) -> LogEvent:
    """The event of a line without its newline. Raises ToolError where it is none, with the first fault from the left."""
    word, *fields = line.split(" ")
    if word not in ("recv", "lose"):
        event = parse_event(line, source, number)
        return LogEvent(
            event.word, event.ref, NONE if event.device is None else event.device, event.counter, event.clock, event.eps, NONE, NONE,
            NO_STAMP, event.thing or "", NONE if event.number is None else event.number, source, number,
        )
    said: Dict[str, int] = {}
    for place, (name, text) in enumerate(zip(WORDS[word], fields), 1):
        most = MOST_NUMBER if name in AMOUNTS else MOST_DEVICE
        if not NUMBER.fullmatch(text) or int(text) > most:
            raise ToolError(f"Number {place}: {text!r} is no number up to {most}", source, number)
        said[name] = int(text)
    if len(fields) != len(WORDS[word]):
        raise ToolError(f"FieldCount: {word} has {len(WORDS[word])} fields", source, number)
    return LogEvent(
        word, said["ref"], said["device"], said.get("counter"), None, None, said["link"], said["epoch"],
        (said["term"], said["round"]), "", NONE, source, number,
    )
