"""The usual lines of a log, read without a reader of JSON.

A device writes its ticks, its asks and its receipts in one form each: the same keys in the same order, with the same
spaces. Such a form is learned from a line that the reader of JSON has read, and is a regular expression from then on.
What a form matches means the same to both readers. A line that no form matches goes to the reader of JSON, which also
says why it is refused.
"""

from __future__ import annotations

import re
from typing import Callable, Dict, List, Match, NamedTuple, Optional, Tuple

# The key of a time, and its picoseconds.
Unit = Tuple[str, int]

SPACE = r"[ \t\r\n]*"
# (strings without escapes, and numbers of at most 18 digits: what has more is for the reader of JSON)
STRING = r'"[^"\\\x00-\x1f]*"'
SCALAR = rf"(?:{STRING}|-?(?:0|[1-9][0-9]{{0,17}})(?:\.[0-9]{{1,18}})?|true|false|null)"
PAIR = re.compile(rf'({STRING})({SPACE}:{SPACE})({SCALAR})({SPACE}(?:,{SPACE}|\}}{SPACE}))')
FRONT = re.compile(rf"{SPACE}\{{{SPACE}")
NAME = r'"([^"\\\x00-\x1f]*)"'
WHOLE, TIME, NO_PART = "(0|[1-9][0-9]{0,17})", "(0|[1-9][0-9]{0,29})", "()"
MESSAGE = ("link", "epoch", "term", "round")


class Shape(NamedTuple):
    """The form of one line.

    `places` are the groups of its device, its reference and its counter, of a receipt then of its link, epoch, term and
    round, and at last, where `has_parts`, of the digits behind the point of the two times. `units` are the picoseconds
    of a unit of these, and `digits` how many of them make a unit.
    """

    word: str
    match: Callable[[str], Optional[Match[str]]]
    places: Tuple[int, ...]
    units: Tuple[int, int]
    digits: Tuple[int, int]
    has_parts: bool
    pattern: str


def shape_of(text: str, word: str, reference: Unit, counter: Unit) -> Optional[Shape]:
    """The form of a line that was read as an event of this word, or None where it is none to learn."""
    pairs = _pairs(text)
    if pairs is None:
        return None
    form = _Form(word, reference, counter)
    for key, between, value, behind in pairs:
        form.add(key, between, value, behind)
    return form.shape(_front(text))


def _front(text: str) -> str:
    found = FRONT.match(text)
    return found.group() if found is not None else ""


def _pairs(text: str) -> Optional[List[Tuple[str, str, str, str]]]:
    """Each key with what is between it and its value, the value, and what is behind. The keys differ."""
    pairs: List[Tuple[str, str, str, str]] = []
    place = len(_front(text))
    while place < len(text):
        found = PAIR.match(text, place)
        if found is None:
            return None
        key, between, value, behind = found.groups()
        pairs.append((key[1:-1], between, value, behind))
        place = found.end()
    return pairs if len({key for key, *_ in pairs}) == len(pairs) else None


class _Form:
    """A regular expression that is put together key by key."""

    def __init__(self, word: str, reference: Unit, counter: Unit) -> None:
        self._word = word
        self._times = {reference[0]: "reference", counter[0]: "counter"}
        self._units = reference[1], counter[1]
        self._digits = {stem: len(str(unit)) - 1 for stem, unit in zip(("reference", "counter"), self._units)}
        self._parts: List[str] = []
        self._groups = 0
        self._place: Dict[str, int] = {}

    def add(self, key: str, between: str, value: str, behind: str) -> None:
        self._parts.append(re.escape(f'"{key}"{between}') + self._value(key, value) + re.escape(behind))

    def shape(self, front: str) -> Optional[Shape]:
        has_parts = any(self._digits.values())
        wanted = ("device", "reference", "counter") + (MESSAGE if self._word == "recv" else ())
        wanted += ("part of reference", "part of counter") if has_parts else ()
        if any(name not in self._place for name in wanted):
            return None
        pattern = re.escape(front) + "".join(self._parts)
        places, digits = tuple(self._place[name] for name in wanted), (self._digits["reference"], self._digits["counter"])
        return Shape(self._word, re.compile(pattern).fullmatch, places, self._units, digits, has_parts, pattern)

    def _value(self, key: str, value: str) -> str:
        if key == "event":
            return re.escape(value)
        if key in self._times:
            stem = self._times[key]
            digits = self._digits[stem]
            return self._group(stem, TIME) + self._group(f"part of {stem}", rf"(?:\.([0-9]{{1,{digits}}}))?" if digits else NO_PART)
        if key == "device" or (key == "link" and self._word == "recv"):
            return self._group(key, NAME)
        if key in MESSAGE and self._word == "recv":
            return self._group(key, WHOLE)
        return SCALAR

    def _group(self, name: str, pattern: str) -> str:
        self._groups += 1
        self._place[name] = self._groups
        return pattern
