"""Rows of `sundialctl resume`: the triangle, cut when each message of the first round was received."""

from rows import Row
from rows.texts import ALONE, FIRST, LONE, ROUND, SECOND, TRIANGLE, lines

# all but the last line, in which b receives message 4
SCHEDULE = "".join(ROUND.splitlines(True)[:10])
RECEIVED, TICKED = "recv 111700000 1 111700000 4\n", "tick 111700000 1 111700000\n"
# the root starts where it sent, and each other device where it accepted a message
OPENING = lines(
    "start 110000000 0 110000000 110000000 22500", "start 110700000 1 110700000 110700000 323500",
    "start 111000000 2 111000000 110700000 323500", "tick 111400000 2 111400000",
)
# for openings that leave something out
LATER = "tick 111500000 2 111500000\n" + RECEIVED + "tick 111800000 2 111800000\n"


def resumed(name: str, schedule: str, opening: str, output: str, status: int) -> Row:
    files = {"topology": TRIANGLE, "plan": FIRST, "schedule": schedule, "opening": opening}
    return Row(name, "resume topology plan schedule / plan opening", {**files}, output, status, "sundialctl")


def over(name: str, plans: str, left: str, output: str, status: int = 0) -> Row:
    """The right opening, where these plans are named: before the schedule, and before the opening."""
    files = {"topology": TRIANGLE, "first": FIRST, "second": SECOND, "alone": ALONE}
    files.update(schedule=SCHEDULE + RECEIVED, opening=OPENING + TICKED)
    return Row(name, f"resume topology {plans} schedule / {left} opening", {**files}, output, status, "sundialctl")


def row(name: str, schedule: str, opening: str, output: str, status: int = 0) -> Row:
    """What ends the schedule and the opening."""
    return resumed(name, SCHEDULE + schedule, OPENING + opening, output, status)


def differs(name: str, schedule: str, opening: str, what: str) -> Row:
    return row(name, schedule, opening, f"differ {what}\n", 7)


ROWS = [
    row("a right opening", RECEIVED, TICKED, "agree 11 5\n"),
    over("two plans", "first second", "first second", "agree 11 5\n"),
    over("64 plans", " ".join(["first"] * 64), " ".join(["first"] * 64), "agree 11 5\n"),
    over("a plan too few", "second first", "first", "differ plan\n", 7),
    over("a refused plan", "alone", "alone", LONE, 1),
    row("a line twice", RECEIVED, TICKED + OPENING, "input opening 6 Refused\n", 3),
    row("a lost message", TICKED + "lose 111700000 4\n", TICKED, "agree 12 5\n"),
    row("a link that fails in both", RECEIVED + "fail 111700000 link 2\n", TICKED + "fail 111700000 link 2\n", "agree 12 6\n"),
    differs("another time", RECEIVED, "", "time"),
    differs("a message on its way", TICKED, TICKED, "message 4"),
    differs("an end", RECEIVED, TICKED + "end 111700000\n", "end"),
    differs("a link that fails in the opening", RECEIVED, TICKED + "fail 111700000 link 2\n", "link 2"),
    differs("a device that fails in the opening", RECEIVED, TICKED + "fail 111700000 device 2\n", "up 2"),
    differs("another counter", RECEIVED, TICKED + "ask 111700000 2 111700000\n", "counter 2"),
    differs("another estimate", RECEIVED, "fix 111700000 1 111700000 111700000 500\n", "estimate 1"),
    # device 2 failed before the first round came, in both: it does not tell which round that is
    resumed("a device that failed in an older round",
            lines("start 0 0 0 0 500", "start 0 1 0 0 800000", "start 0 2 0 0 800000", "tick 90000000 0 90000000",
                  "tick 90000000 1 90000000", "tick 90000000 2 90000000", "tick 110000000 0 110000000",
                  "recv 110700000 1 110700000 1", "fail 110700000 device 2"),
            "".join(OPENING.splitlines(True)[:2]) + lines("start 110700000 2 110700000 110700000 323500", "fail 110700000 device 2"),
            "agree 9 4\n", 0),
    # openings that are not honest in one thing
    row("an opening that leaves out nothing", LATER, "tick 111500000 2 111500000\n" + TICKED + "tick 111800000 2 111800000\n",
        "agree 13 7\n"),
    differs("readings that allow less", LATER, "tick 111500000 2 111499500\n" + TICKED + "tick 111800000 2 111800000\n", "drift 2"),
    differs("a tick that is left out", LATER, "tick 111500000 2 111500000\n" + TICKED + "ask 111800000 2 111800000\n", "tick 2"),
    # the first fix breaks the premise on starts, and the second sets the estimate right
    differs("a premise that breaks", LATER,
            "fix 111600000 1 111600000 0 1\nfix 111700000 1 111700000 111700000 323700\ntick 111800000 2 111800000\n", "broken"),
    resumed("a member that never was",
            lines("start 0 0 0 0 500", "start 0 1 0 0 800000", "tick 90000000 0 90000000", "tick 90000000 1 90000000",
                  "tick 110000000 0 110000000", "recv 110700000 1 110700000 1"),
            "".join(OPENING.splitlines(True)[:2]), "differ awaited 2\n", 7),
    row("a refused line of the schedule", "tick 0 0 0\n", "", "input schedule 11 Refused\n", 3),
    row("a refused line of the opening", "", "tack 0 0 0\n", "input opening 5 Refused\n", 3),
    resumed("an empty opening", SCHEDULE, "", "input opening 1 NoEnd\n", 3),
    Row("no plan, where no schedule is there", "resume topology plan schedule / plan opening",
        {"topology": TRIANGLE, "plan": "no plan"}, "input plan 1 NotJson\n", 3, "sundialctl"),
]
