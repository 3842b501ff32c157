"""Times as people write them, in whole picoseconds. One rule: a number and its unit, without a space; 0 needs none."""

from __future__ import annotations

import argparse
import re
from decimal import Context, Decimal
from typing import Callable, Optional

from sundial_tools.errors import ToolError

PICOSECONDS = {"ps": 1, "ns": 10**3, "us": 10**6, "ms": 10**9, "s": 10**12}
EXACT, MOST_LETTERS, MOST_TIME, MOST_SHOWN = Context(prec=200), 100, 2**50, 40
_TIME = re.compile(r"([0-9]+(?:\.[0-9]+)?)(ps|ns|us|ms|s)?")


def picoseconds(text: str) -> Optional[int]:
    """The time of `400000`, `400ns` or `0.4us`, or None where the text is no whole number of picoseconds."""
    match = _TIME.fullmatch(text)
    if match is None or len(text) > MOST_LETTERS:
        return None
    value = EXACT.multiply(Decimal(match[1]), PICOSECONDS[match[2] or "ps"])
    return int(value) if value == value.to_integral_value() else None


def time_of(text: str, least: int = 0, most: int = MOST_TIME) -> int:
    """The time of a word that keeps the rule. Raises ToolError with what to write where it does not."""
    value, close, said = picoseconds(text), re.sub(r"[\s,_]", "", text), repr(text[:MOST_SHOWN])
    if value is None and close != text and picoseconds(close) is not None:
        raise ToolError(f"{said} is no time: write {close}{'ns' if close[-1].isdigit() else ''}, without spaces and commas")
    if value is None:
        raise ToolError(f"{said} is no time: write a number and its unit, ps, ns, us, ms or s, as 8ns")
    if value and text[-1].isdigit():
        raise ToolError(f"{said} has no unit: write {text}ps, {text}ns, {text}us, {text}ms or {text}s")
    if not least <= value <= most:
        raise ToolError(f"{said} has to be from {written(least)} to {written(most)}")
    return value


def written(value: int) -> str:
    """The shortest word of a time that is read back as this one."""
    unit = next(name for name, size in reversed(PICOSECONDS.items()) if value % size == 0 or size == 1)
    return f"{value // PICOSECONDS[unit]}{unit}" if value else "0"


def time_option(least: int = 0, most: int = MOST_TIME) -> Callable[[str], int]:
    """A time of an option, for argparse."""

    def of(text: str) -> int:
        try:
            return time_of(text, least, most)
        except ToolError as fault:
            raise argparse.ArgumentTypeError(fault.reason) from None

    return of
