"""Rows of `order` over the triangle."""

from rows import Row
from rows.texts import ALONE, FIRST, LONE, ORDERED, ORDERS, TRIANGLE, lines


def row(name: str, schedule: str, output: str, status: int = 0, plans: int = 1) -> Row:
    files = {"topology": TRIANGLE, "plan": FIRST, "schedule": schedule}
    return Row(name, f"order topology {'plan ' * plans}schedule", {**files}, output, status)


def last_at(last: int) -> str:
    return ORDERS.replace("1004000", str(last))


ROWS = [
    # the lower end of the last report, 1004000 - 1701, is past the stamp of the first transaction, 1001700
    row("three transactions", ORDERS, "".join(ORDERED)),
    row("64 plans", ORDERS, "".join(ORDERED), plans=64),
    # its lower end, 1003401 - 1701, is that stamp
    row("a lower end at the stamp", last_at(1003401), lines(
        "report 4 r 1000000 1700", "begin 4 r 1001700", "report 5 r 1003000 1701", "begin 5 r 1004701",
        "report 6 r 1003401 1701", "begin 6 r 1005102", "done 7 3", "waits 3 0 0")),
    row("a lower end one past the stamp", last_at(1003402), lines(
        "report 4 r 1000000 1700", "begin 4 r 1001700", "report 5 r 1003000 1701", "begin 5 r 1004701",
        "report 6 r 1003402 1701", "ended 6 4", "begin 6 r 1005103", "done 7 3", "waits 3 1 0")),
    # b starts with a clock that is wrong by 1004000, and its stamp is below that of a transaction that has ended
    row("a disorder",
        lines("start 0 0 0 0 500", "start 0 2 0 0 800000", "ask 1000000 0 1000000", "ask 1004000 0 1004000",
              "start 1004000 1 0 0 500", "ask 1004000 1 0", "end 1004000"),
        lines("report 3 r 1000000 1700", "begin 3 r 1001700", "report 4 r 1004000 1701", "ended 4 3",
              "begin 4 r 1005701", "broken 5 start", "report 6 b 0 1500", "alarm 6 interval b 1004000",
              "disorder 6 3", "begin 6 b 1500", "done 7 3", "waits 3 1 1"), 7),
    row("nothing", "", "input schedule 1 NoEnd\n", 3),
    Row("a refused plan", "order topology plan schedule", {"topology": TRIANGLE, "plan": ALONE, "schedule": ORDERS}, LONE, 1),
]
