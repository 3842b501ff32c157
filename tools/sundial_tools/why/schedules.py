"""A line of a schedule or of exchanges that is refused: docs/FLEET.md and docs/RULES.md."""

from __future__ import annotations

from typing import Callable, Dict, Iterator, List, Mapping, Optional, Sequence

from sundial_tools.errors import ToolError
from sundial_tools.plain.history import History
from sundial_tools.plain.refusals import refusal
from sundial_tools.schedule import FIELDS, Event, parse_event
from sundial_tools.topology import Topology
from sundial_tools.why.course import Course
from sundial_tools.why.said import Names, listed, time
from sundial_tools.why.texts import near

MOST_OF_A_LINE = 4096
RANGE = {"device": "at most 2^32 - 1", "number": "at most 2^32 - 1"}


def shown(text: bytes) -> str:
    """A line in quotes, with what cannot be seen in it made visible."""
    return '"' + repr(text.decode("utf-8", "replace"))[1:-1][:120] + '"'


class Lines:
    """What is wrong with the form of a line."""

    def __init__(self, words: Mapping[str, Sequence[str]]) -> None:
        self.words = words

    def form(self, reason: Sequence[str], text: bytes) -> Iterator[str]:
        says: Dict[str, Callable[[Sequence[str], bytes], Iterator[str]]] = {
            "UnknownWord": self._word, "FieldCount": self._count, "Number": self._number, "LongLine": self._long,
        }
        yield from says[reason[0]](reason, text)

    def _word(self, reason: Sequence[str], text: bytes) -> Iterator[str]:
        word = text.split(b" ")[0].decode("utf-8", "replace")
        causes = (
            (not text, "the line is empty"), (text.startswith(b"\xef\xbb\xbf"), "the file begins with a byte order mark"),
            (text.startswith(b" "), "a space stands at the start"), (b"\t" in text, "there is a tab; fields are separated by one space"),
            (text.startswith((b"#", b"//")), "there are no comments"), (text in (b"\r",), "the line is empty but for a Windows line end"),
            (word.lower() in self.words and word not in self.words, "words have small letters"),
            (word in self.words, "the field behind REF has to be `device` or `link`"),
        )
        cause = next((it for holds, it in causes if holds), None)
        nearest = near(word, list(self.words)) if word else None
        yield f"The first word is none that is known{f': {cause}' if cause else ''}."
        yield f"Change: did you mean {nearest!r}?" if nearest and not cause else "Change: the line. Each begins with its word: " + listed(self.words, "or") + "."

    def _count(self, reason: Sequence[str], text: bytes) -> Iterator[str]:
        word, *fields = text.decode("utf-8", "replace").split(" ")
        wanted = self.words[word]
        causes = (
            (text.endswith(b" "), "a space stands at the end of the line"), (text.endswith(b" \r"), "a space and a Windows line end stand at the end"),
            (b"  " in text, "two spaces stand side by side"), (b"#" in text, "there are no comments"),
            (b"\t" in text, "there is a tab; fields are separated by one space"),
        )
        cause = next((f": {it}" for holds, it in causes if holds), "")
        yield f"`{word}` has {len(wanted)} fields, {' '.join(it.upper() for it in wanted)}, and here are {len(fields)}{cause}."
        yield "Change: one space between two fields, and nothing behind the last."

    def _number(self, reason: Sequence[str], text: bytes) -> Iterator[str]:
        number = int(reason[1])
        word, *fields = text.decode("utf-8", "replace").split(" ")
        field = fields[number - 1] if number <= len(fields) else ""
        name = self.words.get(word, ())[number - 1] if number <= len(self.words.get(word, ())) else "the field"
        bare = field.rstrip("\r")
        causes = (
            (field.endswith("\r"), "the line has a Windows line end (CRLF)"), (not field, "it is empty"),
            (bare[:1] in "+-" and bare[1:].isdigit(), "a number has no sign"), ("." in bare, "a number has no point"),
            ("_" in bare or "," in bare, "a number has no separators"), (bare.isdigit() and bare[:1] == "0", "it has a leading zero"),
            (bare.isdigit(), f"it is above its limit, {RANGE.get(name, 'at most 2^60 ps, 13.3 days')}"),
            (name in ("device", "number"), "devices and links have numbers, from 0 in the order of the topology, and no names"),
        )
        cause = next((it for holds, it in causes if holds), "it is no number")
        yield f"Field {number} of `{word}`, {name.upper()}, is {field!r}: {cause}."
        yield "Change: write the field as decimal digits" + (", and end lines with a newline alone." if field.endswith("\r") else ".")

    def _long(self, reason: Sequence[str], text: bytes) -> Iterator[str]:
        yield "The line has more than 4096 bytes. Is this file a schedule?"


SCHEDULE = Lines({word: ("ref", *fields) for word, fields in FIELDS.items()})
EXCHANGES = Lines({"exchange": ("link", "side", "asym", "t1", "t2", "t3", "t4"), "end": ()})
FORMS = ("UnknownWord", "FieldCount", "Number", "LongLine")
ENDS = {
    "NoEnd": "The text ends without its `end` line: the recording was cut off. Change: add `end REF`, with a REF not below the last.",
    "Limit": "The text has more than 2^32 bytes. Change: record for a shorter time.",
    "TooManyEvents": "2^26 events were accepted, and no more are. Change: record for a shorter time.",
    "AfterEnd": "There was an `end` before. Change: `end` is the last line.",
}


class Refused:
    """Says why an event is refused, from the lines before it."""

    def __init__(self, course: Course) -> None:
        self.course, self.names = course, Names(course.topology)

    def say(self, number: int, reason: Sequence[str]) -> Iterator[str]:
        text = self.course.text(number)
        if text is not None:
            yield f"{self.course.path}, line {number}: {shown(text)}"
        if reason[0] == "Refused":
            yield from self._anew(number, text)
        elif reason[0] in ENDS:
            yield ENDS[reason[0]]
        elif reason[0] in FORMS and text is not None:
            yield from SCHEDULE.form(reason, text)
        else:
            event = self.course.event(number)
            if event is None:
                yield "The schedule has no such event: it is not the one of this output."
                return
            says: Optional[Callable[[int, Event], Iterator[str]]] = getattr(self, f"_{reason[0]}", None)
            yield from says(number, event) if says else ()

    def _anew(self, number: int, text: Optional[bytes]) -> Iterator[str]:
        """Why `sundialctl resume` refuses a line, which it does not say: the reason of a replay, found here."""
        reason = self._reason(number, text)
        if reason:
            yield f"A replay refuses it too: {' '.join(reason)}."
            yield from list(self.say(number, reason))[1:]
        else:
            yield "Change: replay the text, with an `end` behind it: `sundial replay` names the reason."

    def _reason(self, number: int, text: Optional[bytes]) -> Sequence[str]:
        """The reason of a replay, or none where it is not found here."""
        if text is None:
            return ()
        if len(text) > MOST_OF_A_LINE:
            return ("LongLine",)
        try:
            event = parse_event(text.decode("latin-1"))
        except ToolError as fault:
            return fault.reason.partition(":")[0].split(" ")
        history = self.course.history(number)
        found = refusal(history, event) if history else None
        return (found,) if found else ()

    def _last(self, number: int, words: Sequence[str], device: Optional[int]) -> Optional[int]:
        """The latest line before of these words and this device."""
        for at in range(number - 1, 0, -1):
            event = self.course.event(at)
            if event and event.word in words and device in (event.device, event.number if event.thing == "device" else None):
                return at
        return None

    def _UnknownDevice(self, number: int, event: Event) -> Iterator[str]:
        most = len(self.course.topology.devices)
        wrong = event.device if event.device is not None else event.number
        yield f"There is no device {wrong}. The topology has {most}, numbered from 0 to {most - 1} in its order."
        yield "Change: the number. Count from 0, and not from 1."

    def _UnknownLink(self, number: int, event: Event) -> Iterator[str]:
        most = len(self.course.topology.links)
        yield f"There is no link {event.number}. The topology has {most}, numbered from 0 to {most - 1} in its order."
        yield "Change: the number. Count from 0, and not from 1."

    def _DeadDevice(self, number: int, event: Event) -> Iterator[str]:
        device = event.device if event.device is not None else event.number
        failed = self._last(number, ("fail",), device)
        yield f"{self.names.device(device)} failed at line {failed}, and was not mended since."
        yield "Change: a failed device does nothing. In an open window a `mend` and then a `join` bring it back."

    def _DeadLink(self, number: int, event: Event) -> Iterator[str]:
        yield f"The link {self.names.link(event.number)} failed before, and was not mended since."
        yield "Change: one failure is one line."

    def _UnknownMessage(self, number: int, event: Event) -> Iterator[str]:
        history = self.course.history(number)
        sent = f" {len(history.messages)} were sent so far." if history else ""
        yield f"No message {event.message} was sent before.{sent}"
        yield "Change: messages are numbered from 1 over the whole schedule, as devices send them (docs/FLEET.md). Is a `tick` missing?"

    def _SpentMessage(self, number: int, event: Event) -> Iterator[str]:
        taken = next((at for at in range(number - 1, 0, -1) if self._takes(at, event.message)), None)
        history = self.course.history(number)
        if taken:
            yield f"Message {event.message} was told already, at line {taken}. A message arrives once."
        elif history and event.message:
            message = history.messages[event.message - 1]
            over = f"{self.names.device(message.sender)} sent it at line {message.sent} to {self.names.device(message.receiver)} over {self.names.link(message.link)}"
            if not message.reaches:
                yield f"{over}, and it reaches nobody: the link was failed, or {self.names.device(message.receiver)} was not up."
            elif message.last < event.ref:
                yield f"{over}, {time(event.ref - message.ref)} before. After {time(message.last - message.ref)}, twice the greatest delay, it is taken for lost."
            else:
                yield f"{over}. The link or the receiver failed since."
        yield "Change: remove the line, or tell a message that came too late as `lose` before it is spent."

    def _takes(self, number: int, message: Optional[int]) -> bool:
        event = self.course.event(number)
        return event is not None and event.message == message and event.word in ("recv", "lose")

    def _WrongDevice(self, number: int, event: Event) -> Iterator[str]:
        history = self.course.history(number)
        if history and event.message:
            message = history.messages[event.message - 1]
            yield (f"Message {event.message} goes from {self.names.device(message.sender)} to {self.names.device(message.receiver)} "
                   f"over {self.names.link(message.link)}, and {self.names.device(event.device)} receives it here.")
        else:
            yield f"Message {event.message} was sent to another device than {self.names.device(event.device)}."
        yield "Change: compare the numbering of messages with docs/FLEET.md."

    def _TimeFalls(self, number: int, event: Event) -> Iterator[str]:
        before = self.course.event(number - 1)
        if before:
            yield f"Its REF {event.ref} is {time(before.ref - event.ref)} before that of line {number - 1}, which is {before.ref}."
        yield "Change: sort the lines by REF. Keep the order of lines with the same one."

    def _CounterFalls(self, number: int, event: Event) -> Iterator[str]:
        for at in range(number - 1, 0, -1):
            before = self.course.event(at)
            if before and before.device == event.device and before.counter is not None:
                yield f"{self.names.device(event.device)} showed {before.counter} at line {at}, and {event.counter} here."
                break
        yield "Change: a counter never falls. A device that began anew needs a `fail`, a `mend` and a `join`."

    def _NotStarted(self, number: int, event: Event) -> Iterator[str]:
        mended = self._last(number, ("mend",), event.device)
        yield f"{self.names.device(event.device)} is not up: it has no `start` or `join` before{f' since its `mend` at line {mended}' if mended else ''}."
        yield "Change: a `start` before it; in an open window a `join`."

    def _StartedTwice(self, number: int, event: Event) -> Iterator[str]:
        first = self._last(number, ("start", "join"), event.device)
        yield f"{self.names.device(event.device)} began at line {first} already."
        yield "Change: a device that begins anew uses `join`, in an open window, after its `fail` and `mend`."

    def _NoPlanLeft(self, number: int, event: Event) -> Iterator[str]:
        yield f"The command names {len(self.course.plans)} plans, and each is in use or was."
        yield "Change: name the next plan before the schedule; or remove the `stage`."

    def _NotFailed(self, number: int, event: Event) -> Iterator[str]:
        what = self.names.device(event.number) if event.thing == "device" else self.names.link(event.number)
        yield f"{what} is not failed, so nothing is to be mended. Change: remove the line."

    def _NotMember(self, number: int, event: Event) -> Iterator[str]:
        which = "plan in force" if event.word == "start" else "staged plan"
        yield f"The {which} leaves {self.names.device(event.device)} out. Change: start, give and join only its members."

    # The window of a renewal

    def _WindowOrder(self, number: int, event: Event) -> Iterator[str]:
        yield self._window(number, event)
        yield "The order is `stage`; then `give` of each member, with `mend` and `join` as needed; then one `commit`; then `seal` of each member."

    def _window(self, number: int, event: Event) -> str:
        stages = self.course.before(number, "stage")
        commits = [at for at in self.course.before(number, "commit") if stages and at > stages[-1]]
        history = self.course.history(number)
        is_open = history.stage is not None if history else bool(stages)
        if event.word == "stage":
            return f"The window that line {stages[-1] if stages else '?'} opened is still open.{self._unsealed(history)} Change: close it first."
        if not stages or not is_open:
            closed = f"The one of line {stages[-1]} has closed." if stages else "There was no `stage` before."
            return f"No window is open. {closed} Change: a `stage` before this line."
        if event.word == "seal" and not commits:
            return f"The window that line {stages[-1]} opened has no `commit` yet. Change: seal after it."
        if event.word == "seal":
            return (f"{self.names.device(event.device)} does not follow the staged plan yet: it has received no message of it since the "
                    f"`commit` of line {commits[-1]}. Change: seal it after that.")
        if commits:
            return f"The window had its `commit` at line {commits[-1]}. Change: `{event.word}` comes before it."
        return self._commit(number, event, len(stages))

    def _unsealed(self, history: Optional[History]) -> str:
        plan = history.staged_plan if history else None
        if history is None or plan is None:
            return ""
        left = [it for it in history.up_members(plan) if history.past(it).epoch != history.staged_epoch or not history.past(it).is_sealed]
        return f" It closes when {listed(self.names.device(it) for it in left)} {'is' if len(left) == 1 else 'are'} sealed." if left else ""

    def _commit(self, number: int, event: Event, staged: int) -> str:
        if staged < len(self.course.plans):
            root = self.course.plans[staged].root
            if root != event.device:
                return (f"The root of the staged plan, plan {staged + 1}, is {self.names.device(root)}, and {self.names.device(event.device)} "
                        "commits. Change: the device.")
        return f"{self.names.device(event.device)} holds no duty of the staged plan. Change: a `give` of it in this window, after its `join` if it has one."


class Exchanges:
    """Says why a line of exchanges is refused."""

    def __init__(self, path: str, topology: Optional[Topology]) -> None:
        self.path, self.topology = path, topology
        with open(path, "rb") as file:
            self.lines = file.read().split(b"\n")

    def say(self, number: int, reason: Sequence[str]) -> Iterator[str]:
        text = self.lines[number - 1] if number <= len(self.lines) else b""
        if text:
            yield f"{self.path}, line {number}: {shown(text)}"
        if reason[0] in ENDS:
            yield ENDS[reason[0]].replace("`end REF`, with a REF not below the last", "`end`")
        elif reason[0] in FORMS:
            yield from EXCHANGES.form(reason, text)
        else:
            yield from self._exchange(reason[0], [int(it) for it in text.split()[1:] if it.isdigit()])

    def _exchange(self, reason: str, fields: List[int]) -> Iterator[str]:
        if len(fields) != 7:
            yield "The exchanges have no such line: they are not those of this output."
            return
        link, side, _, t1, t2, t3, t4 = fields
        if reason == "UnknownLink":
            most = len(self.topology.links) if self.topology else 0
            yield f"There is no link {link}. The topology has {most}, numbered from 0 in its order. Change: the number."
        elif reason == "Backwards":
            which = f"T4 {t4} is less than T1 {t1}" if t4 < t1 else f"T3 {t3} is less than T2 {t2}"
            yield f"{which}: the counter went back. Change: a reading is wrong, or two were exchanged."
        elif reason == "Impossible":
            yield f"The whole exchange took {time(t4 - t1)} at its beginner, and the other end held it for {time(t3 - t2)}."
            yield f"No two counters within their ppm and grain show this. Change: see which end began; SIDE is {side}."
        elif reason == "TooLarge":
            yield f"The exchange took {time(t4 - t1)}, and a delay may be at most one second. Change: record a shorter exchange."
