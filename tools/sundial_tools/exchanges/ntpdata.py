"""Lines of `chronyc -c ntpdata` (chrony 4.3 and 4.6). Each tells of one exchange with a server, the latest.

It prints no times, but all that an exchanges text needs of them: the delay of both ways together, and for how long the
server held its answer. Both are printed in seconds with nine decimals.
"""

from __future__ import annotations

import re
from decimal import Decimal
from typing import Dict, Iterable, Iterator, List, NamedTuple, Optional

from sundial_tools.errors import ToolError
from sundial_tools.exchanges.exchange import LeftOut

# How many fields a line of chrony 4.3 has, and one of chrony 4.6, which counts packets by their timestamps at the end.
FIELDS = (34, 38)
# The places of the fields that are used: the same in both.
ADDRESS, MODE, PRECISION, DELAY, RESPONSE = 0, 7, 12, 19, 21
FIRST_TEST, LAST_TEST, INTERLEAVED, RECEIVED, VALID = 23, 25, 26, 31, 32
SECONDS = re.compile(r"[0-9]{1,9}\.[0-9]{9}")
PICOSECONDS = 10**12


class Sample(NamedTuple):
    """One exchange with a server: its delay and its hold, and the precision of the clock, in picoseconds."""

    line: int
    server: str
    delay: int
    hold: int
    precision: int


def read_ntpdata(lines: Iterable[str], source: str, left_out: LeftOut) -> Iterator[Sample]:
    """The samples that are of use. A sample that is printed again is left out."""
    latest: Dict[str, List[str]] = {}
    for number, line in enumerate(lines, 1):
        if not line.endswith("\n"):
            raise ToolError("the text is cut short: its last line has no newline", source, number)
        fields = line[:-1].split(",")
        if len(fields) not in FIELDS:
            raise ToolError(
                f"the line has {len(fields)} fields, and ntpdata of chrony 4.3 prints {FIELDS[0]}, of chrony 4.6 {FIELDS[1]}",
                source, number,
            )
        sample = _sample(fields, number, source)
        reason = _useless(fields, sample, latest.get(sample.server))
        latest[sample.server] = fields[RECEIVED : VALID + 1]
        if reason is None:
            yield sample
        else:
            left_out.add(reason, number)


def _sample(fields: List[str], number: int, source: str) -> Sample:
    times = [_picoseconds(fields[place], number, source) for place in (DELAY, RESPONSE, PRECISION)]
    return Sample(number, fields[ADDRESS], *times)


def _picoseconds(field: str, number: int, source: str) -> int:
    if not SECONDS.fullmatch(field):
        raise ToolError(f"{field!r} is no number of seconds with nine decimals", source, number)
    return int(Decimal(field) * PICOSECONDS)


def _useless(fields: List[str], sample: Sample, before: Optional[List[str]]) -> Optional[str]:
    """Why the sample is of no use, or None."""
    counts = fields[RECEIVED : VALID + 1]
    if before == counts:
        return "the same measurement again"
    if before is not None and before[1] == counts[1] or counts[1] == "0":
        return "no valid answer came since the line before"
    if fields[MODE] != "Server":
        return "not from a server: the two sides of a peer mix their packets"
    if fields[INTERLEAVED] != "No":
        return "interleaved: its four times are not of one exchange"
    if "0" in fields[FIRST_TEST] + fields[FIRST_TEST + 1]:
        return "a test of the packet failed"
    if sample.delay <= 2 * sample.precision:
        return "its delay is not above the precision, so chrony may have replaced it"
    return None
