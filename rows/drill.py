"""Rows of `drill`."""

from rows import Ends, Row
from rows.texts import (
    DRIFTLESS, DRIFTLESS_PLAN, DRILLED, FABRIC, FIRST, SHORT, SHORT_WAIT, TRIANGLE, TRIANGLE_2,
)

BOUNDS = "".join(DRILLED) + "done 6 3\n"


def row(name: str, budget: str, network: str, plan: str, output: str, status: int = 0) -> Row:
    return Row(name, f"drill topology plan {budget}", {"topology": network, "plan": plan}, output, status)


ROWS = [
    row("the triangle", "800000 3000000000", TRIANGLE, FIRST, BOUNDS),
    row("the triangle in version 2", "800000 3000000000", TRIANGLE_2, FIRST, BOUNDS),
    row("a short wait", "800000 0", FABRIC, SHORT_WAIT, SHORT, 1),
    row("a long first wait", "800000 0", DRIFTLESS, DRIFTLESS_PLAN, "refused plan 1 timing 5 32824 46412\n", 1),
    row("an empty plan", "800000 0", TRIANGLE, "", "input plan 1 NotJson\n", 3),
    row("no plan", "800000 0", TRIANGLE, "no plan", "input plan 1 NotJson\n", 3),
    Row("the greatest budget", "drill topology plan 1152921504606846976 1152921504606846976",
        {"topology": TRIANGLE, "plan": FIRST}, Ends("nobound device r r\n", "done 6 3\n")),
]
