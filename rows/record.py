"""Rows of `sundialctl record`: the log of the triangle, whose message from the root to x is lost."""

from typing import Sequence

from rows import Row
from rows.texts import ALONE, FIRST, LONE, SENT, STARTS, TRIANGLE, lines

WORDS = "record topology plan log"
# no log has message 2, which can be received until 112000000
RECEIVED = lines(
    "recv 110700000 1 110700000 0 1 0 1", "recv 111400000 2 111400000 2 1 0 1", "ask 121000000 1 121000000", "end 121000000",
)
RECORDED = lines(
    "recv 110700000 1 110700000 1", "recv 111400000 2 111400000 3", "lose 112000000 2", "ask 121000000 1 121000000",
    "end 121000000",
)


def row(name: str, log: str, output: str, status: int = 0) -> Row:
    """What ends the log, and what is written of that."""
    files = {"topology": TRIANGLE, "plan": FIRST, "log": SENT + log}
    return Row(name, WORDS, {**files}, SENT + output, status, "sundialctl")


def refused(name: str, line: str, fault: str, before: str = "") -> Row:
    """A line that is refused."""
    return row(name, line, f"{before}input log {fault}\n", 3)


def rounds(name: str, taken: Sequence[int]) -> Row:
    """Eight rounds at one reference, which the root sends to b and to x, as messages 1 and 2 to 15 and 16. Those to b are
    received and lost by turns, in this order of their rounds. Those to x that are left are lost at their last moment."""
    sent = STARTS + lines(*(f"tick 0 0 {100000000 * place}" for place in range(1, 9)))
    named, numbered = [], []
    for place, number in enumerate(taken):
        if place % 2:
            named += [f"lose 500000 1 0 1 0 {number}", f"lose 500000 2 1 1 0 {number}"]
            numbered += [f"lose 500000 {2 * number - 1}", f"lose 500000 {2 * number}"]
        else:
            named.append(f"recv 500000 1 0 0 1 0 {number}")
            numbered.append(f"recv 500000 1 0 {2 * number - 1}")
    left = [2 * number for number in sorted(taken[::2])]
    ends = lines("ask 2000001 0 800000000", "end 2000001")
    return Row(name, WORDS, {"topology": TRIANGLE, "plan": FIRST, "log": sent + lines(*named) + ends},
               sent + lines(*numbered, *(f"lose 2000000 {number}" for number in left)) + ends, program="sundialctl")


ROWS = [
    row("a log", RECEIVED, RECORDED),
    Row("64 plans", f"record topology {'plan ' * 64}log", {"topology": TRIANGLE, "plan": FIRST, "log": SENT + RECEIVED},
        SENT + RECORDED, program="sundialctl"),
    rounds("the oldest first", (1, 2, 3, 4, 5, 6, 7, 8)),
    rounds("the newest first", (8, 7, 6, 5, 4, 3, 2, 1)),
    rounds("from the middle on", (4, 5, 3, 6, 2, 7, 1, 8)),
    rounds("from both ends", (1, 8, 2, 7, 3, 6, 4, 5)),
    refused("received twice", "recv 110700000 1 110700000 0 1 0 1\nrecv 110700000 1 110700000 0 1 0 1\n", "9 UnknownMessage",
            "recv 110700000 1 110700000 1\n"),
    refused("past the last moment", "recv 112000001 2 112000000 1 1 0 1\n", "8 UnknownMessage"),
    refused("the reference falls", "tick 109999999 1 109999999\n", "8 TimeFalls"),
    refused("a receipt as schedules have it", "recv 110700000 1 110700000 1\n", "8 FieldCount"),
    refused("another word", "tack 110700000\n", "8 UnknownWord"),
    refused("end missing", "", "8 NoEnd"),
    refused("a line after the end", "end 110000000\nask 121000000 1 121000000\n", "9 AfterEnd", "end 110000000\n"),
    # no log is there
    Row("a refused plan", WORDS, {"topology": TRIANGLE, "plan": ALONE}, LONE, 1, "sundialctl"),
    Row("no plan", WORDS, {"topology": TRIANGLE, "plan": "no plan"}, "input plan 1 NotJson\n", 3, "sundialctl"),
    Row("a schedule as second plan", "record topology plan second log", {"topology": TRIANGLE, "plan": FIRST, "second": SENT},
        "input plan 2 NotJson\n", 3, "sundialctl"),
    Row("a refused topology", WORDS, {"topology": "version = 2\n"}, "input topology Missing ppm 0\n", 3, "sundialctl"),
]
