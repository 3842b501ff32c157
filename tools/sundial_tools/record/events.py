"""One event of a log, whichever form its line had."""

from __future__ import annotations

from typing import NamedTuple, Optional, Tuple

from sundial_tools.errors import ToolError

NONE = -1
NO_STAMP = (NONE, NONE)


class LogEvent(NamedTuple):
    """One line of a log. Times are picoseconds as the log has them, before any origin.

    A device, link, epoch, stamp, thing or number that its word does not have is NONE, NO_STAMP or "".
    """

    word: str
    ref: int
    device: int
    counter: Optional[int]
    clock: Optional[int]
    eps: Optional[int]
    link: int
    epoch: int
    stamp: Tuple[int, int]
    thing: str
    number: int
    source: str
    line: int

    def refuse(self, reason: str) -> ToolError:
        return ToolError(reason, self.source, self.line)
