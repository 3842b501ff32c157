"""Networks made by counting, for which programs beside say what `check`, `drill` and `plan` are to print."""

import collections
from typing import Dict, NamedTuple

from rows import Row, plain_plan
from rows.counted import counted, plan_of, topology_of
from rows.plain_check import Plain
from rows.plain_drill import PlainDrill


class Counted(NamedTuple):
    """The row of a number."""

    command: str
    number: int


def of_verdict(words: str, files: Dict[str, str], verdict: str, printed: str) -> Row:
    """What is printed of an accepted plan, or the verdict on a refused one."""
    is_accepted = verdict.startswith("accepted")
    return Row("", words, {**files}, printed if is_accepted else verdict, 0 if is_accepted else 1)


def check_row(number: int) -> Row:
    setup = counted(number)
    topology, plan = topology_of(setup), plan_of(setup)
    verdict = Plain(topology, plan).verdict()
    return of_verdict("check topology plan", {"topology": topology, "plan": plan}, verdict, verdict)


def drill_row(number: int) -> Row:
    setup = counted(number)
    topology, plan = topology_of(setup), plan_of(setup)
    drill = PlainDrill(topology, plan, 800000, number << 26)
    verdict = drill.verdict()
    printed = drill.printed() if verdict.startswith("accepted") else ""
    return of_verdict(f"drill topology plan 800000 {number << 26}", {"topology": topology, "plan": plan}, verdict, printed)


def plan_row(number: int) -> Row:
    net = plain_plan.dense(number // 2) if number % 2 else plain_plan.counted(number // 2)
    topology, plan = plain_plan.topology_of(net), plain_plan.plan_of(net)
    return of_verdict("plan topology", {"topology": topology}, Plain(topology, plan).verdict(), plan)


ROWS = {"check": (check_row, 1000), "drill": (drill_row, 300), "plan": (plan_row, 600)}
# How often kinds of lines are due in all of them.
DUE: Dict[str, Dict[str, int]] = {
    "check": {
        "accepted": 128, "structure": 423, "ancestor": 35, "timing": 158, "root": 116, "loop": 68, "domain": 36, "reach": 36,
    },
    "drill": {"done": 36, "bound": 2084, "nobound": 209},
    "plan": {"plan": 166, "structure": 381, "root": 1, "domain": 8, "reach": 44},
}


def row_of(it: Counted) -> Row:
    return ROWS[it.command][0](it.number)


def kinds_of(row: Row) -> Dict[str, int]:
    """How often each kind of line is due in a row."""
    found: Dict[str, int] = collections.Counter()
    for line in str(row.output).splitlines():
        words = line.split()
        found[words[3] if words[0] == "refused" else "plan" if words[0].startswith("{") else words[0]] += 1
    return found
