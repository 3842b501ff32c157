"""The lines of a journal: where an event or a passed line stands in the logs, and what it is."""

from __future__ import annotations

from typing import NamedTuple, Optional, Tuple
from zlib import crc32

OWN = "-"
# The check of a place is made of this many bytes before it at most.
CHECKED = 64


class Place(NamedTuple):
    """How far a log was read: the inode of the file (0 is the spool), the byte behind a line, the number of that line in the
    file, and the check of its last bytes."""

    file: int = 0
    offset: int = 0
    line: int = 0
    check: int = 0


def check_of(before: bytes) -> int:
    """The check of a place, of the bytes before it: at least the last CHECKED ones, or all of the line."""
    return crc32((before[:-1].rpartition(b"\n")[2] + before[-1:])[-CHECKED:])


def prefix_of(number: int, place: Place, raw: Optional[int]) -> str:
    """What stands before an event of a log. `raw` is the counter of a start or join as its log has it."""
    return f"{number}:{place.file}:{place.offset}:{place.line}:{place.check}:{'' if raw is None else raw}"


def read_prefix(prefix: str) -> Tuple[Optional[int], Place, Optional[int]]:
    """The number of the log, how far it was read, and the counter. No log has an event with the prefix OWN."""
    if prefix == OWN:
        return None, Place(), None
    number, file, offset, line, check, raw = prefix.split(":")
    return int(number), Place(int(file), int(offset), int(line), int(check)), int(raw) if raw else None
