"""Picoseconds, counts and lists as people read them."""

from __future__ import annotations

import re
from typing import List, Match, NamedTuple, Sequence, Tuple

UNITS: Tuple[Tuple[int, str], ...] = ((10**12, "s"), (10**9, "ms"), (10**6, "us"), (10**3, "ns"), (1, "ps"))


def unit_of(picoseconds: int) -> Tuple[int, str]:
    """The greatest unit in which the value is at least 1."""
    for size, name in UNITS:
        if abs(picoseconds) >= size:
            return size, name
    return UNITS[-1]


def human(picoseconds: int) -> str:
    """Up to four digits and a unit: 3.203 us."""
    size, name = unit_of(picoseconds)
    return f"{in_unit(picoseconds, size)} {name}"


def in_unit(picoseconds: int, size: int) -> str:
    """Up to four digits of a unit that is told elsewhere: 3.203."""
    value = picoseconds / size
    text = f"{value:.{max(0, 4 - len(str(int(abs(value)))))}f}"
    return text.rstrip("0").rstrip(".") if "." in text else text


def clear(picoseconds: int) -> str:
    """All digits in the unit that fits: 3.0019 ms."""
    if picoseconds == 0:
        return "0"
    unit, (text,) = column([picoseconds])
    return f"{text} {unit}"


COUNTS = re.compile(r"([0-9][0-9,]*)(?: to ([0-9][0-9,]*))? ps\b")


def readable(sentence: str) -> str:
    """The same sentence, with its picoseconds in the units that fit."""
    return COUNTS.sub(_in_units, sentence)


def _in_units(found: Match[str]) -> str:
    counts = [int(digits.replace(",", "")) for digits in found.groups() if digits]
    # (a 0 that stands alone keeps a unit: "0 ps off" and not "0 off")
    return " to ".join(clear(one) for one in counts) if any(counts) else found[0]


class Column(NamedTuple):
    """Exact times below each other: one unit, which the head of the column tells, and as many decimals in each."""

    unit: str
    texts: List[str]


def column(values: Sequence[int], sign: str = "", beside: Sequence[int] = ()) -> Column:
    """The unit fits the greatest of the values and of those of another column `beside`. `sign` stands before what is not negative."""
    size, unit = unit_of(max((abs(value) for value in (*values, *beside)), default=0))
    digits, step = 0, size
    while any(value % step for value in values):
        digits, step = digits + 1, step // 10
    return Column(unit, [_in_decimals(value, size, digits, sign) for value in values])


def _in_decimals(value: int, size: int, digits: int, sign: str) -> str:
    whole, rest = divmod(abs(value), size)
    decimals = f".{rest * 10**digits // size:0{digits}d}" if digits else ""
    return f"{'-' if value < 0 else sign}{whole:,}{decimals}"


def round_steps(least: float, most: float, count: int) -> List[float]:
    """Up to about `count` round values from `least` to `most`, evenly apart: for the marks of an axis."""
    if most <= least:
        return [least]
    rough = (most - least) / max(1, count)
    size = 10.0 ** len(str(int(rough))) / 10 if rough >= 1 else 1.0
    while rough < size:
        size /= 10
    step = next(size * factor for factor in (1, 2, 5, 10, 20) if size * factor >= rough)
    place = -(-least // step) * step
    steps = []
    while place <= most + step * 1e-9:
        steps.append(place)
        place += step
    return steps


def count(number: int, thing: str, things: str = "") -> str:
    """A number and what it counts: 1 device, 2 devices."""
    return f"{number:,} {thing}" if number == 1 else f"{number:,} {things or thing + 's'}"


def few(names: Sequence[str], most: int) -> str:
    """The first names, and how many more there are."""
    return ", ".join(names[:most]) + (f" and {len(names) - most} more" if len(names) > most else "")
