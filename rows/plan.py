"""Rows of `plan` and `renew`: greedy plans, and texts that are refused."""

from typing import Union

from rows import Row
from rows.texts import (
    FABRIC, FABRIC_GREEDY, FABRIC_PLAN, FABRIC_RENEWED, FIRST, TRIANGLE, loose, topology, without,
)


def row(name: str, network: Union[str, bytes], output: str, status: int = 0) -> Row:
    return Row(name, "plan topology", {"topology": network}, output, status)


def renewal(name: str, network: str, plan: str, absent: str, output: str, status: int = 0) -> Row:
    files = {"topology": network, "plan": plan, "absent": absent}
    return Row(name, "renew topology plan absent", {**files}, output, status)


ROWS = [
    row("a fabric", FABRIC, FABRIC_GREEDY),
    row("one device", topology(10000000, 3, "one", ""), "refused plan 1 structure 1 device one\n", 1),
    row("as many devices as there may be", loose(10000000, 3, 4096), "refused plan 1 structure 2 device d1\n", 1),
    row("a device too many", loose(10000000, 3, 4097), "input topology Limit device\n", 3),
    row("a byte that is no text", b"\xff", "input topology NotToml\n", 3),
    row("zero bytes", bytes(100000), "input topology NotToml\n", 3),
    renewal("without the root", FABRIC, FABRIC_PLAN, without("s1"), "refused plan 1 structure 1 device s2\n", 1),
    renewal("without a leaf", FABRIC, FABRIC_PLAN, without("l3"), FABRIC_RENEWED),
    # the old plan is read as one, and so is it as an absent list
    renewal("the plan as absent list", FABRIC, FABRIC_PLAN, FABRIC_PLAN, FABRIC_GREEDY),
    renewal("a number as absent list", TRIANGLE, FIRST, "0", "input absent WrongKind absent 0\n", 3),
    renewal("an object without lists as absent list", TRIANGLE, FIRST, "{}", "input absent Missing absent_devices 0\n", 3),
    renewal("an array as plan", TRIANGLE, "[]", "0", "input plan 1 WrongKind plan 0\n", 3),
    renewal("an empty topology", "", "[]", "0", "input topology Missing version 0\n", 3),
    renewal("an unknown device as absent", TRIANGLE, FIRST, without("z"), "input absent UnknownName absent_devices 0\n", 3),
]
