"""Lines of schedules: docs/RULES.md, Schedules, and docs/FLEET.md. References and counters are picoseconds."""

from __future__ import annotations

import re
import sys
from typing import Any, Dict, Iterable, Iterator, NamedTuple, Optional, TextIO, Tuple

from sundial_tools.errors import ToolError

MOST_NUMBER = 2**60
MOST_DEVICE = 2**32 - 1
# (a longer one is past every limit)
NUMBER = re.compile(r"0|[1-9][0-9]{0,39}")

USUAL_NUMBER, USUAL_DEVICE = "(0|[1-9][0-9]{0,17})", "(0|[1-9][0-9]{0,8})"
# Nearly all lines of a schedule are of these forms, with numbers below 10^18, and devices below 10^9.
USUAL = re.compile(f"(tick|ask|recv) {USUAL_NUMBER} {USUAL_DEVICE} {USUAL_NUMBER}(?: {USUAL_NUMBER})?")

# The fields of each word, behind REF.
FIELDS: Dict[str, Tuple[str, ...]] = {
    "start": ("device", "counter", "clock", "eps"),
    "tick": ("device", "counter"),
    "recv": ("device", "counter", "message"),
    "lose": ("message",),
    "fail": ("thing", "number"),
    "fix": ("device", "counter", "clock", "eps"),
    "ask": ("device", "counter"),
    "stage": (),
    "give": ("device",),
    "commit": ("device", "counter"),
    "seal": ("device",),
    "join": ("device", "counter", "clock", "eps"),
    "mend": ("thing", "number"),
    "end": (),
}


class Event(NamedTuple):
    """One line of a schedule. What its word has no field for is None."""

    word: str
    ref: int
    device: Optional[int] = None
    counter: Optional[int] = None
    clock: Optional[int] = None
    eps: Optional[int] = None
    message: Optional[int] = None
    thing: Optional[str] = None
    number: Optional[int] = None


def event_line(event: Event) -> str:
    """The line of an event, with its newline."""
    if event.word == "recv":
        return f"recv {event.ref} {event.device} {event.counter} {event.message}\n"
    if event.word == "tick":
        return f"tick {event.ref} {event.device} {event.counter}\n"
    fields = [event.word, str(event.ref)]
    fields += [str(getattr(event, name)) for name in FIELDS[event.word]]
    return " ".join(fields) + "\n"


def parse_event(line: str, source: Optional[str] = None, number: Optional[int] = None) -> Event:
    """The event of a line without its newline. Raises ToolError where it is none."""
    usual = USUAL.fullmatch(line)
    if usual is not None:
        word, ref, device, counter, message = usual.groups()
        # (made as a tuple, since the call of the class takes twice the time)
        if message is not None and word == "recv":
            return tuple.__new__(Event, (word, int(ref), int(device), int(counter), None, None, int(message), None, None))
        if message is None and word != "recv":
            return tuple.__new__(Event, (word, int(ref), int(device), int(counter), None, None, None, None, None))
    words = line.split(" ")
    names = FIELDS.get(words[0])
    if names is None:
        raise ToolError(f"UnknownWord: {words[0]!r} is no event of a schedule", source, number)
    if len(words) != len(names) + 2:
        raise ToolError(f"FieldCount: {words[0]} has {len(names) + 1} fields", source, number)
    if "thing" in names and words[2] not in ("device", "link"):
        raise ToolError(f"UnknownWord: {words[2]!r} is neither device nor link", source, number)
    values: Dict[str, Any] = {}
    for place, (name, word) in enumerate(zip(("ref",) + names, words[1:]), 1):
        if name == "thing":
            values[name] = word
            continue
        most = MOST_DEVICE if name in ("device", "number") else MOST_NUMBER
        if not NUMBER.fullmatch(word) or int(word) > most:
            raise ToolError(f"Number {place}: {word!r} is no number up to {most}", source, number)
        values[name] = int(word)
    return Event(words[0], **values)


def read_schedule(lines: Iterable[str], source: Optional[str] = None) -> Iterator[Tuple[int, Event]]:
    """The events of a schedule with the numbers of their lines, from 1, one after the other."""
    for number, line in enumerate(lines, 1):
        yield number, parse_event(line[:-1] if line.endswith("\n") else line, source, number)


def open_schedule(path: str) -> TextIO:
    """A schedule in a file, or from standard input for `-`."""
    return open(sys.stdin.fileno() if path == "-" else path, encoding="utf-8", newline="\n", closefd=path != "-")
