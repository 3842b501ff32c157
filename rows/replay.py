"""Rows of `replay` over the triangle."""

from typing import Tuple

from rows import Made, Row
from rows.texts import (
    ALONE, BASE, BASE_REPLAYED, FIRST, LONE, REJOIN, RENEWAL, RENEWED, ROUND, SECOND, SENT, STARTS, TRIANGLE, TRIANGLE_2, lines,
)


def row(name: str, schedule: str, output: str, status: int = 0, network: str = TRIANGLE, plans: Tuple[str, ...] = (FIRST,)) -> Row:
    names = [f"plan-{place}" for place in range(1, len(plans) + 1)]
    files = {"topology": network, "schedule": schedule, **dict(zip(names, plans))}
    return Row(name, f"replay topology {' '.join(names)} schedule", {**files}, output, status)


def broken(name: str, schedule: str, output: str, network: str = TRIANGLE, plans: Tuple[str, ...] = (FIRST,)) -> Row:
    return row(name, schedule, output, 7, network, plans)


def refused(name: str, schedule: str, fault: str) -> Row:
    return row(name, schedule, f"input schedule {fault}\n", 3)


def changed(old: str, new: str, text: str) -> str:
    """The text in which a part is another, wherever it stands. It has to be there."""
    assert old in text, old
    return text.replace(old, new)


def ticks(devices: str, first: int, count: int) -> str:
    """Ticks of some devices at this many references, 90 us apart, each with its reference as reading."""
    times = range(first, first + 90000000 * count, 90000000)
    return "".join(f"tick {now} {d} {now}\n" for now in times for d in devices.split())


def windows(count: int) -> str:
    """A start of the root alone, and so many windows that it goes through alone: each plan is taken."""
    return lines("start 0 0 0 0 500") + lines("stage 0", "give 0 0", "commit 0 0 0", "seal 0 0") * count


OWN_RATES = changed('name = "x"\n', 'name = "x"\nppm = 100\ngrain = 1500\n', TRIANGLE_2)
OWN_WAY_BACK = changed('["b", "x"]\n', '["b", "x"]\nback_min = 400000\nback_max = 600000\n', OWN_RATES)
OWN_DRIFT = changed('name = "r"\n', 'name = "r"\nppm = 100\n', TRIANGLE_2)
NARROW = changed('["r", "x"]\nmin = 400000\nmax = 1000000', '["r", "x"]\nmin = 400000\nmax = 600001', TRIANGLE)
TWICE = (FIRST, FIRST)

PLAIN = [
    row("a round and a report", BASE, BASE_REPLAYED),
    broken("one past the greatest delay", changed("recv 111000000 2 111000000 2", "recv 111000001 2 111000001 2", BASE),
           lines("broken 9 delay", "report 12 x 120699999 326500", "done 13 1")),
    refused("a message twice", "".join(ROUND.splitlines(True)[:9]) + "recv 111200000 2 111200000 2\n", "10 SpentMessage"),
    # its middle is 500000, and its half 100001
    row("an odd sum of delays", SENT + lines("recv 110500000 2 110500000 2", "ask 120500000 2 120500000", "end 120500000"),
        lines("report 9 x 120500000 126501", "done 10 1"), network=NARROW),
    row("drift at the bound", STARTS + lines("tick 50011000 0 50000000", "end 50011000"), "done 5 0\n"),
    broken("drift past the bound", STARTS + lines("tick 50011001 0 50000000", "end 50011001"),
           lines("broken 4 drift", "done 5 0")),
    # neighbouring readings meet the bound
    broken("drift of the outer pair", STARTS + lines("tick 1001200 0 1000000", "tick 2002400 0 2000000", "end 2002400"),
           lines("broken 5 drift", "done 6 0")),
    # the gap of ticks is exactly the limit
    broken("total loss", STARTS + ticks("0 1 2", 90000000, 30) + "end 2700000000\n",
           lines("broken 16 loss", "alarm 92 roots r b", "done 94 0")),
    # b moves at its 16th tick, and acts at its 31st
    row("takeover", ROUND + "fail 112000000 device 0\n" + ticks("1 2", 150000000, 31)
        + lines("ask 2850000000 1 2850000000", "end 2850000000"), lines("report 75 b 2850000000 872360", "done 76 1")),
    broken("a loop", STARTS + lines("tick 1350000000 1 1350000000", "tick 6730000000 2 6730000000", "end 6730000000"),
           lines("broken 4 tick", "alarm 5 loop b", "done 6 0")),
    broken("a tick one late", STARTS + lines("tick 90000000 0 90000000", "tick 90000001 1 90000001", "end 90000001"),
           lines("broken 5 tick", "done 6 0")),
    refused("end missing", STARTS, "4 NoEnd"),
    row("64 plans", BASE, BASE_REPLAYED, plans=(FIRST,) * 64),
    broken("64 plans, each taken", windows(63) + "end 0\n", lines("broken 4 renew", "done 254 0"), plans=(FIRST, SECOND) * 32),
    row("64 plans, each taken, and one more", windows(63) + "stage 0\n",
        lines("broken 4 renew", "input schedule 254 NoPlanLeft"), 3, plans=(FIRST, SECOND) * 32),
]

PLANS = [
    row("a second plan that is refused", BASE, "refused plan 2 structure 6 device b\n", 1, plans=(FIRST, ALONE)),
    row("64 plans, the last refused", BASE, "refused plan 64 structure 6 device b\n", 1, plans=(FIRST,) * 63 + (ALONE,)),
    row("an empty second plan", BASE, "input plan 2 NotJson\n", 3, plans=(FIRST, "")),
    Row("a refused first plan, where no second is there", "replay topology plan-1 plan-2 schedule",
        {"topology": TRIANGLE, "plan-1": ALONE, "schedule": BASE}, LONE, 1),
]

RENEWALS = [
    # x is still in the old epoch when it is asked
    row("a renewal", RENEWAL, "".join(RENEWED), plans=(FIRST, SECOND)),
    refused("no plan left", RENEWAL, "12 NoPlanLeft"),
    row("a join in a window", REJOIN, lines("report 20 x 112000000 801000", "done 21 1"), plans=TWICE),
    broken("a member that is not up at the commit", ROUND + lines(
        "fail 112000000 device 2", "stage 112000000", "give 112000000 0", "give 112000000 1", "commit 112000000 0 112000000",
        "end 112000000"), lines("broken 16 renew", "done 17 0"), plans=TWICE),
    broken("a failure after a mend", ROUND + lines(
        "fail 112000000 link 0", "stage 112000000", "mend 112000000 link 0", "fail 112000000 link 0", "end 112000000"),
        lines("broken 15 renew", "done 16 0"), plans=TWICE),
    broken("a start after a stage",
           lines("start 0 0 0 0 500", "start 0 1 0 0 800000", "stage 0", "start 0 2 0 0 800000", "end 0"),
           lines("broken 4 renew", "done 5 0"), plans=TWICE),
]

# Schedules that no fabric could have recorded, and such as break a premise.
DISHONEST = [
    refused("a receipt of message 0", lines("start 0 0 0 0 500", "recv 1 0 1 0"), "2 UnknownMessage"),
    refused("a receipt by another device", SENT + "recv 110700000 2 110700000 1\n", "8 WrongDevice"),
    broken("a receipt at twice the greatest delay", SENT + lines("recv 112000000 1 112000000 1", "end 112000000"),
           lines("broken 8 delay", "done 9 0")),
    refused("a receipt later than that", SENT + "recv 112000001 1 112000001 1\n", "8 SpentMessage"),
    broken("two failures in no one domain", ROUND + lines("fail 112000000 device 2", "fail 112000000 link 0", "end 112000000"),
           lines("broken 13 domain", "done 14 0")),
    refused("a mend without a window", STARTS + lines("fail 5 device 2", "mend 5 device 2"), "5 WindowOrder"),
    refused("started twice", lines("start 0 0 0 0 500", "start 0 0 0 0 500"), "2 StartedTwice"),
]

VERSION_2 = [
    row("own rates", BASE, lines("report 12 x 120700000 326000", "done 13 1"), network=OWN_RATES),
    # message 4 is 700000 old
    broken("an own way back", BASE, lines("broken 11 delay", "report 12 x 120700000 326000", "done 13 1"), OWN_WAY_BACK),
    row("an own drift at its bound", STARTS + lines("tick 50006000 0 50000000", "end 50006000"), "done 5 0\n", network=OWN_DRIFT),
    broken("an own drift past its bound", STARTS + lines("tick 50006001 0 50000000", "end 50006001"),
           lines("broken 4 drift", "done 5 0"), OWN_DRIFT),
    Row("a migrated topology", "replay topology plan schedule",
        {"topology": Made("migrate triangle", {"triangle": TRIANGLE}), "plan": FIRST, "schedule": BASE}, BASE_REPLAYED),
]

# Lines that are refused, where the schedule begins with them.
LINES = [
    Row(f"line {line!r}", "replay topology plan schedule", {"topology": TRIANGLE, "plan": FIRST, "schedule": line + b"\n"},
        f"input schedule 1 {fault}\n", 3)
    for line, fault in (
        (b"", "UnknownWord"), (b" ", "UnknownWord"), (b" end 5", "UnknownWord"), (b"End 5", "UnknownWord"),
        (b"ends 5", "UnknownWord"), (b"\xff\xfe 1 2", "UnknownWord"), (b"tick\xc3\xa9 1 2 3", "UnknownWord"),
        (b"fail 5 thing 2", "UnknownWord"), (b"mend x devices 2", "UnknownWord"), (b"end", "FieldCount"),
        (b"end ", "Number 1"), (b"end 5 ", "FieldCount"), (b"end  5", "FieldCount"), (b"fail 5 thing", "FieldCount"),
        (b"start 1 2 3 4 5 6 7 8", "FieldCount"), (b"ask 6000000 0 05", "Number 3"),
        (b"ask 6000000 0 1152921504606846977", "Number 3"), (b"ask 6000000 4294967296 05", "Number 2"),
        (b"fail 5 link 4294967296", "Number 3"), (b"mend -5 device x", "Number 1"),
        (b"fix 1 2 3 4 1152921504606846977", "Number 5"), (b"recv 1 2 3 \xc3\xa9", "Number 4"),
        (b"tick 1 2 18446744073709551616", "Number 3"), (b"lose 1\t2 3", "Number 1"),
    )
]

ROWS = [*PLAIN, *PLANS, *RENEWALS, *DISHONEST, *VERSION_2, *LINES]
