"""Rows of `sundialctl bounds`."""

from rows import Ends, Row
from rows.texts import BOUNDED, FABRIC, FIRST, SHORT, SHORT_WAIT, TRIANGLE


def row(name: str, network: str, plan: str, output: str, status: int = 0) -> Row:
    return Row(name, "bounds topology plan 800000 3000000000", {"topology": network, "plan": plan}, output, status, "sundialctl")


ROWS = [
    row("the triangle", TRIANGLE, FIRST, "".join(BOUNDED) + "done 6 3\n"),
    row("a short wait", FABRIC, SHORT_WAIT, SHORT, 1),
    row("a topology as plan", TRIANGLE, TRIANGLE, "input plan 1 NotJson\n", 3),
    Row("the greatest budget", "bounds topology plan 1152921504606846976 1152921504606846976",
        {"topology": TRIANGLE, "plan": FIRST}, Ends("nobound device r r ", "done 6 3\n"), program="sundialctl"),
    row("no plan", TRIANGLE, "no plan", "input plan 1 NotJson\n", 3),
]
