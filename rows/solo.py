"""Rows of `solo`."""

from rows import Row
from rows.texts import growth, lines

START = "start 1000000 0 0 1000000 500\n"


def row(name: str, schedule: str, output: str, status: int = 0) -> Row:
    return Row(name, "solo schedule", {"schedule": schedule}, output, status)


def refused(name: str, schedule: str, fault: str, before: str = "") -> Row:
    """A line that is refused, after what was written of the lines before it."""
    return row(name, schedule, f"{before}input schedule {fault}\n", 3)


PLAIN = lines("report 2 0 6000000 2500", "done 3 1")
REPORT = "report 2 0 6000000 2500\n"

ROWS = [
    row("plain growth", growth(5000000), PLAIN),
    row("plain growth without the last newline", growth(5000000)[:-1], PLAIN),
    row("ask at once", START + lines("ask 1000000 0 0", "end 1000000"), lines("report 2 0 1000000 1500", "done 3 1")),
    row("growth rounds up: 1", growth(1), lines("report 2 0 1000001 1501", "done 3 1")),
    row("growth rounds up: 5000", growth(5000), lines("report 2 0 1005000 1501", "done 3 1")),
    row("growth rounds up: 5001", growth(5001), lines("report 2 0 1005001 1502", "done 3 1")),
    # it is 230584300921370
    row("growth at the limit",
        START + lines("ask 1152921504606846976 0 1152921504606846976", "end 1152921504606846976"),
        lines("report 2 0 1152921504607846976 230584300922870", "done 3 1")),
    row("a fix sets the estimate anew", START + lines("fix 2000000 0 7 3 4", "ask 2000000 0 8", "end 2000000"),
        lines("report 3 0 4 1005", "done 4 1")),
    refused("a number past the limit", growth(1152921504606846977), "2 Number 3"),
    refused("a number with a leading zero", START + "ask 6000000 0 05\nend 6000000\n", "2 Number 3"),
    refused("nothing", "", "1 NoEnd"),
    refused("end missing", START + "ask 6000000 0 5000000\n", "3 NoEnd", REPORT),
    refused("end twice", growth(5000000) + "end 6000000\n", "4 AfterEnd", REPORT),
    # refusals in their order
    refused("the reference falls", "start 5 0 5 0 0\nfix 4 0 6 0 0\n", "2 TimeFalls"),
    refused("started twice", "start 5 0 5 0 0\nstart 5 0 5 0 0\n", "2 StartedTwice"),
    refused("not started", "ask 5 0 5\n", "1 NotStarted"),
    refused("another device", "start 5 1 5 0 0\n", "1 UnknownDevice"),
    refused("started twice, at another reading", START + "start 1000000 0 0 0 0\n", "2 StartedTwice"),
    refused("the reference of a fix falls", START + "fix 999999 0 6 0 0\n", "2 TimeFalls"),
    refused("the counter falls", START + "fix 1000000 0 5 0 0\nask 1000000 0 4\n", "3 CounterFalls"),
    refused("an ask of another device", START + "ask 0 1 0\n", "2 UnknownDevice"),
    # a word that one device alone does not know is unknown whatever its fields
    refused("a word of fleets", START + "tick 6000000 0 5000000\n", "2 UnknownWord"),
    refused("a word of fleets without fields", START + "tick\n", "2 UnknownWord"),
    refused("a field too few", START + "ask 6000000 0\n", "2 FieldCount"),
    refused("an empty line", START + "\n", "2 UnknownWord"),
    refused("a line of 4096 bytes", "x" * 4096 + "\n", "1 UnknownWord"),
    refused("a line of 4097 bytes", "x" * 4097 + "\n", "1 LongLine"),
    refused("what stands after a refused line", "x\n" + "y" * 20000, "1 UnknownWord"),
    Row("a file that is not there", "solo schedule", {}, "", 4),
]
