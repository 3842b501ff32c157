"""Logs of devices, one event a line: a JSON object, or a line of a compact log (docs/RECORD.md)."""

from __future__ import annotations

import json
import resource
import sys
from decimal import Context, Decimal
from typing import Any, Callable, Dict, Iterator, List, Optional, TextIO, Tuple

from sundial_tools.errors import ToolError
from sundial_tools.record.compact_lines import MOST_LINE, WORDS, parse_entry, usual_entry
from sundial_tools.record.events import NO_STAMP, NONE, LogEvent
from sundial_tools.record.shapes import Shape, Unit, shape_of
from sundial_tools.schedule import FIELDS
from sundial_tools.times import PICOSECONDS
from sundial_tools.topology import Topology

# Which keys the line of each word needs, behind its reference.
TIMES = {word: tuple(name for name in fields if name in ("counter", "clock", "eps")) for word, fields in FIELDS.items()}
OF_A_DEVICE = frozenset(word for word, fields in FIELDS.items() if "device" in fields) | {"lose"}
USUAL = frozenset(("tick", "ask", "recv"))
OF_A_THING = frozenset(("fail", "mend"))
EXACT = Context(prec=200)
DECODER = json.JSONDecoder(parse_float=Decimal)
# The reader behind it, which does not look for spaces before and behind.
SCAN: "Callable[[str, int], Tuple[Any, int]]" = getattr(DECODER, "scan_once")
MOST_DIGITS = 40
SPACES = " \t\r\n"
MOST_SHAPES = 8
MOST_SHOWN = 40
# What a process opens besides logs.
OTHER_FILES = 64
UNITS: Dict[str, Tuple[Unit, ...]] = {
    stem: tuple((f"{stem}_{unit}", factor) for unit, factor in PICOSECONDS.items())
    for stem in ("reference", "counter", "clock", "eps")
}


def _decoded(text: str) -> Any:
    """The value of a line. Nearly all lines are one object and a newline."""
    try:
        value, end = SCAN(text, 0)
    except StopIteration:
        return DECODER.decode(text)
    return value if text[end:] in ("\n", "") else DECODER.decode(text)


def allow_files(count: int) -> None:
    """Lets the process have a file open for each of so many logs."""
    soft, hard = resource.getrlimit(resource.RLIMIT_NOFILE)
    wanted = count + OTHER_FILES
    if hard != resource.RLIM_INFINITY and hard < wanted:
        raise ToolError(f"{count} logs need {wanted} open files, and this process may open {hard}: ulimit -Hn says so")
    if soft != resource.RLIM_INFINITY and soft < wanted:
        resource.setrlimit(resource.RLIMIT_NOFILE, (wanted, hard))


class Log:
    """The events of one file, one after the other, in order of their references."""

    def __init__(self, path: str, topology: Topology) -> None:
        self._path = "standard input" if path == "-" else path
        self._devices, self._links = topology.device_numbers, topology.link_numbers
        self._device_count, self._link_count = len(topology.devices), len(topology.links)
        # The forms of ticks, asks and receipts that were read: a log has few.
        self._shapes: List[Shape] = []
        # The latest reference, where lines are read as they come.
        self.last: Optional[int] = None

    def __iter__(self) -> Iterator[LogEvent]:
        before: Optional[LogEvent] = None
        read = self._event
        with self._open() as lines:
            for number, text in enumerate(lines, 1):
                if text.isspace():
                    continue
                event = read(text, number)
                if before is not None and event.ref < before.ref:
                    raise event.refuse(
                        f"out of order: its reference is {before.ref - event.ref} ps before that of line {before.line}"
                    )
                before = event
                yield event

    def _open(self) -> TextIO:
        is_file = self._path != "standard input"
        # (a line ends with its newline alone, as for the proved programs)
        return open(self._path if is_file else sys.stdin.fileno(), encoding="utf-8", newline="\n", closefd=is_file)

    def _refuse(self, reason: str, line: int) -> ToolError:
        return ToolError(reason, self._path, line)

    def _event_of(self, text: bytes, line: int) -> Optional[LogEvent]:
        """The event of the bytes of a line, and None of an empty one."""
        try:
            said = text.decode("utf-8")
        except UnicodeDecodeError:
            raise self._refuse("no UTF-8", line) from None
        return None if not said or said.isspace() else self._event(said, line)

    def _in_order(self, event: LogEvent) -> None:
        if self.last is not None and event.ref < self.last:
            raise event.refuse(f"out of order: its reference is {self.last - event.ref} ps before that of the line before")

    def _event(self, text: str, line: int) -> LogEvent:
        # (a third of the time of sundial-record is here: as few calls as there can be, and a tuple in place of the class,
        # whose call takes twice the time)
        for word, match, places, (ref_unit, counter_unit), digits, has_parts, _ in self._shapes:
            found = match(text)
            if found is None:
                continue
            said = found.group(*places)
            device = self._devices.get(said[0])
            ref, counter = int(said[1]) * ref_unit, int(said[2]) * counter_unit
            if has_parts:
                ref += int(said[-2].ljust(digits[0], "0")) if said[-2] else 0
                counter += int(said[-1].ljust(digits[1], "0")) if said[-1] else 0
            if word == "recv":
                link = self._links.get(said[3])
                if device is None or link is None:
                    break
                return tuple.__new__(LogEvent, (
                    word, ref, device, counter, None, None, link, int(said[4]), (int(said[5]), int(said[6])), "", NONE,
                    self._path, line,
                ))
            if device is None:
                break
            return tuple.__new__(LogEvent, (
                word, ref, device, counter, None, None, NONE, NONE, NO_STAMP, "", NONE, self._path, line
            ))
        event = usual_entry(text, self._path, line, self._device_count, self._link_count)
        return event if event is not None else self._unusual_event(text, line)

    def _entry(self, text: str, line: int) -> LogEvent:
        """The event of a line of a compact log."""
        entry = text[:-1] if text.endswith("\n") else text
        if len(entry) > MOST_LINE:
            raise self._refuse(f"LongLine: a line of a compact log has at most {MOST_LINE} bytes", line)
        word = entry.partition(" ")[0]
        if word not in WORDS:
            raise self._refuse(f"UnknownWord: {word[:MOST_SHOWN]!r} begins neither a JSON object nor a line of a compact log", line)
        return self._known(parse_entry(entry, self._path, line))

    def _known(self, event: LogEvent) -> LogEvent:
        """The event of a compact log, where the topology has its device and its link."""
        if event.device >= self._device_count:
            raise event.refuse(f"there is no device {event.device} in the topology")
        if event.link >= self._link_count:
            raise event.refuse(f"there is no link {event.link} in the topology")
        if event.thing and event.number >= (self._device_count if event.thing == "device" else self._link_count):
            raise event.refuse(f"there is no {event.thing} {event.number} in the topology")
        return event

    def _unusual_event(self, text: str, line: int) -> LogEvent:
        """The event of a line of no form that is known by now."""
        return self._decoded_event(text, line) if text.lstrip(SPACES)[:1] == "{" else self._entry(text, line)

    def _decoded_event(self, text: str, line: int) -> LogEvent:
        """The event of a line that begins a JSON object."""
        try:
            said = _decoded(text)
        except json.JSONDecodeError as fault:
            raise self._refuse(f"no JSON, or cut short: {fault.msg} at column {fault.colno}", line) from None
        except (ValueError, ArithmeticError, RecursionError):
            raise self._refuse("a number is too long, or objects are too deep", line) from None
        word = said.get("event")
        if not isinstance(word, str) or word not in FIELDS:
            raise self._refuse(f"event is {word!r}, and has to be one of {', '.join(FIELDS)}", line)
        if word in USUAL:
            return self._usual_event(text, said, word, line)
        times = TIMES[word]
        device, link = self._names(said, word, line)
        epoch, stamp = self._message(said, word, line) if word == "lose" else (NONE, NO_STAMP)
        thing, number = "", NONE
        if word in OF_A_THING:
            thing, number = ("device", device) if device != NONE else ("link", link)
            device = link = NONE
        return LogEvent(
            word, self._time(said, "reference", line), device,
            self._time(said, "counter", line) if "counter" in times else None,
            self._time(said, "clock", line) if "clock" in times else None,
            self._time(said, "eps", line) if "eps" in times else None,
            link, epoch, stamp, thing, number, self._path, line,
        )

    def _usual_event(self, text: str, said: Dict[str, Any], word: str, line: int) -> LogEvent:
        """A tick, an ask or a receipt, as nearly all lines are. Its form is learned."""
        device = self._number(said, "device", self._devices, line)
        link, epoch, stamp = NONE, NONE, NO_STAMP
        if word == "recv":
            link = self._number(said, "link", self._links, line)
            epoch, stamp = self._message(said, word, line)
        ref, counter = self._time(said, "reference", line), self._time(said, "counter", line)
        if len(self._shapes) < MOST_SHAPES:
            shape = shape_of(text, word, self._unit(said, "reference", line), self._unit(said, "counter", line))
            # (a form that is known already did not match this line: its numbers are unusual)
            if shape is not None and all(known.pattern != shape.pattern for known in self._shapes):
                self._shapes.append(shape)
        return LogEvent(word, ref, device, counter, None, None, link, epoch, stamp, "", NONE, self._path, line)

    def _names(self, said: Dict[str, Any], word: str, line: int) -> Tuple[int, int]:
        """The numbers of the device and of the link that the line names."""
        device = link = NONE
        if word in OF_A_THING and ("device" in said) == ("link" in said):
            raise self._refuse(f"{word} needs either a device or a link", line)
        if word in OF_A_DEVICE or (word in OF_A_THING and "device" in said):
            device = self._number(said, "device", self._devices, line)
        if word == "lose" or (word in OF_A_THING and "link" in said):
            link = self._number(said, "link", self._links, line)
        return device, link

    def _number(self, said: Dict[str, Any], kind: str, numbers: Dict[str, int], line: int) -> int:
        name = said.get(kind)
        if not isinstance(name, str):
            raise self._refuse(f"{said['event']} needs a {kind}", line)
        number = numbers.get(name)
        if number is None:
            raise self._refuse(f"there is no {kind} {name} in the topology", line)
        return number

    def _message(self, said: Dict[str, Any], word: str, line: int) -> Tuple[int, Tuple[int, int]]:
        epoch, term, number = said.get("epoch"), said.get("term"), said.get("round")
        if type(epoch) is type(term) is type(number) is int and epoch >= 0 and term >= 0 and number >= 0:
            return epoch, (term, number)
        values = []
        for key in "epoch", "term", "round":
            value = said.get(key)
            if not isinstance(value, int) or isinstance(value, bool) or value < 0:
                raise self._refuse(f"{word} needs the {key} of the message, a whole number", line)
            values.append(value)
        return values[0], (values[1], values[2])

    def _unit(self, said: Dict[str, Any], stem: str, line: int) -> Unit:
        """The key of `stem_ns`, or of another unit, and its picoseconds."""
        found = [unit for unit in UNITS[stem] if unit[0] in said]
        if len(found) != 1:
            reason = f"{stem} is there twice" if found else f"{said['event']} needs {stem}_ns (or _ps, _us, _ms, _s)"
            raise self._refuse(reason, line)
        return found[0]

    def _time(self, said: Dict[str, Any], stem: str, line: int) -> int:
        """The time of `stem_ns`, or of another unit, in picoseconds."""
        key, factor = self._unit(said, stem, line)
        value = said[key]
        if isinstance(value, bool) or not isinstance(value, (int, Decimal)):
            raise self._refuse(f"{key} is {value!r}, and has to be a number", line)
        exact = Decimal(value)
        if exact.adjusted() > MOST_DIGITS:
            raise self._refuse(f"{key} is too great", line)
        exact = EXACT.multiply(exact, factor)
        if exact != int(exact):
            raise self._refuse(f"{key} is {value}, which is no whole number of picoseconds", line)
        return int(exact)
