"""Rows of `sundialctl merge` and `version`."""

import pathlib

from rows import Row
from rows.texts import lines

VERSION = (pathlib.Path(__file__).resolve().parent.parent / "VERSION").read_text()


def row(name: str, feed: str, output: str, status: int = 0) -> Row:
    return Row(name, "merge 2 feed", {"feed": feed}, output, status, "sundialctl")


# of one reference the first log's line comes first, so the second's waits until the first log has gone past it
FEED = lines("1 ask 5 0 5", "2 ask 4 1 4", "1 ask 7 0 7", "2 past 7", "2 ask 7 1 7", "1 past 8", "1 ask 9 0 9", "2 end 8")

ROWS = [
    row("two logs", FEED, lines("ask 4 1 4", "ask 5 0 5", "ask 7 0 7", "ask 7 1 7", "end 8", "ask 9 0 9")),
    Row("as many logs as there may be", "merge 4096 feed", {"feed": "4096 ask 5 0 5\n"}, "ask 5 0 5\n", program="sundialctl"),
    *[row(f"refused: {feed!r}", feed, f"input feed {fault}\n", 3) for feed, fault in (
        ("3 ask 5 0 5\n", "1 UnknownLog"), ("0 ask 5 0 5\n", "1 UnknownLog"), ("ask 5 0 5\n", "1 UnknownLog"),
        ("1 ask 5 0 5\n1 ask 4 0 4\n", "2 OutOfOrder"), ("1 past 5\n1 ask 4 0 4\n", "2 OutOfOrder"),
        ("1 past x\n", "1 Number 1"), ("1 past 1152921504606846977\n", "1 Number 1"), ("1 past\n", "1 FieldCount"),
        ("1 past 5 6\n", "1 FieldCount"), ("1 ask 5 0\n", "1 FieldCount"), ("1\n", "1 UnknownWord"), ("", "1 NoEnd"),
    )],
    Row("version", "version", {}, f"version {VERSION}", program="sundialctl"),
]
