"""The networks, plans and schedules that rows are over, and the usage lines."""

import json
from typing import Tuple

# Topologies.


def topology(tick: int, depth: int, devices: str, links: str, roots: int = 2) -> str:
    """A topology. The first of its devices are the candidates for the root; a link is NAME:END:END, or NAME:END:END:MIN:MAX."""
    names = devices.split()
    text = f"version = 1\nppm = 200\ngrain = 1000\nperiod = 100000000\ntick = {tick}\nloss = 1\ndepth = {depth}\n"
    text += f"roots = {json.dumps(names[:roots])}\n" + "".join(f'[[device]]\nname = "{name}"\n' for name in names)
    for link in links.split():
        name, end, other, least, most = [*link.split(":"), "400000", "1000000"][:5]
        text += f'[[link]]\nname = "{name}"\nends = ["{end}", "{other}"]\nmin = {least}\nmax = {most}\n'
    return text


def domain(name: str, devices: str, links: str) -> str:
    """A listed domain."""
    return f'[[domain]]\nname = "{name}"\ndevices = {json.dumps(devices.split())}\nlinks = {json.dumps(links.split())}\n'


FABRIC = topology(10000000, 3, "s1 s2 l1 l2 l3", "a1:s1:l1 a2:s1:l2 a3:s1:l3 b1:s2:l1 b2:s2:l2 b3:s2:l3")
SQUARE = topology(10000000, 3, "r b x y", "rb:r:b rx:r:x bx:b:x by:b:y xy:x:y")
TRIANGLE = topology(90000000, 2, "r b x", "rb:r:b rx:r:x bx:b:x")
TRIANGLE_2 = TRIANGLE.replace("version = 1", "version = 2")
# links without a span between devices without drift: r, x, b in a ring, and r, b, d, y in another
DRIFTLESS = (
    topology(200, 3, "r x b d y", "rx:r:x:5:5 z:x:b:5:5 rb:r:b:5:5 bd:b:d:5:5 dy:d:y:5:5 ry:r:y:5:5")
    .replace("ppm = 200\ngrain = 1000\nperiod = 100000000", "ppm = 0\ngrain = 0\nperiod = 241")
    .replace('roots = ["r", "x"]', 'roots = ["r", "b"]')
) + domain("f", "r", "z")
# three devices in a row, so that no plan is accepted
LINE = topology(10000000, 3, "a b c", "ab:a:b bc:b:c")


def loose(tick: int, depth: int, count: int) -> str:
    """Devices d0, d1 and so on without a link."""
    return topology(tick, depth, " ".join(f"d{d}" for d in range(count)), "")


# Plans.


def plan(root: str, backup_root: str, waits: Tuple[int, int], rows: str, absent: Tuple[str, ...] = ()) -> str:
    """A plan, as the program prints it. `waits` are the first, which is the second too, and the
    ordinary one; a row is DEVICE:PARENT:LINK, or DEVICE:PARENT:LINK:BACKUP:LINK."""
    keys = ("device", "parent", "link", "backup", "backup_link")
    value = {
        "version": 1, "root": root, "backup_root": backup_root,
        "wait_first": waits[0], "wait_second": waits[0], "wait": waits[1],
        "absent_devices": list(absent), "absent_links": [],
        "rows": [dict(zip(keys, row.split(":"))) for row in rows.split()],
    }
    return json.dumps(value, sort_keys=True, separators=(",", ":")) + "\n"


def without(devices: str = "", links: str = "") -> str:
    """The absent list of some devices and links."""
    return json.dumps({"absent_devices": devices.split(), "absent_links": links.split()}, separators=(",", ":"))


FABRIC_ROWS = "s2:l1:b1:l2:b2 l1:s1:a1:s2:b1 l2:s1:a2:s2:b2"
FABRIC_PLAN = plan("s1", "s2", (720000000, 3600000000), FABRIC_ROWS + " l3:s1:a3:s2:b3")
SHORT_WAIT = plan("s1", "s2", (720000000, 3500000000), FABRIC_ROWS + " l3:s1:a3:s2:b3")
GREEDY = (712269454, 3561917200)  # the least waits that the fabric's timing lets through
FABRIC_GREEDY = plan("s1", "s2", GREEDY, FABRIC_ROWS + " l3:s1:a3:s2:b3")
FABRIC_RENEWED = plan("s1", "s2", GREEDY, FABRIC_ROWS, ("l3",))
SQUARE_PLAN = plan("r", "b", (720000000, 3600000000), "b:r:rb:x:bx x:r:rx:y:xy y:b:by:x:xy")
WAITS = (1345000000, 6730000000)
FIRST = plan("r", "b", WAITS, "b:r:rb:x:bx x:r:rx:b:bx")
SECOND = plan("r", "x", WAITS, "b:r:rb:x:bx x:r:rx:b:bx")
ALONE = plan("r", "b", WAITS, "b:r:rb x:r:rx:b:bx")  # b has no backup
DRIFTLESS_PLAN = plan("r", "b", (20000, 32824), "x:r:rx:b:z b:x:z:r:rb d:b:bd:y:dy y:r:ry:d:dy").replace(
    '"wait_second":20000', '"wait_second":3206'
)

SHORT = "refused plan 1 timing 4 3499299000 3576668000\n"
LONE = "refused plan 1 structure 6 device b\n"  # what is said of the plan in which b has no backup

# Schedules.


def lines(*texts: str) -> str:
    """A text of these lines."""
    return "".join(f"{text}\n" for text in texts)


def growth(counter: int) -> str:
    """The schedule of one device that is asked when its counter has come so far."""
    return lines("start 1000000 0 0 1000000 500", f"ask 6000000 0 {counter}", "end 6000000")


STARTS = lines("start 0 0 0 0 500", "start 0 1 0 0 800000", "start 0 2 0 0 800000")
# the root sends messages 1 and 2 with its second tick
SENT = STARTS + lines(
    "tick 90000000 0 90000000", "tick 90000000 1 90000000", "tick 90000000 2 90000000", "tick 110000000 0 110000000",
)
# each message is received, the second exactly at its greatest delay
ROUND = SENT + lines(
    "recv 110700000 1 110700000 1", "recv 111000000 2 111000000 2", "recv 111400000 2 111400000 3",
    "recv 111700000 1 111700000 4",
)
BASE = ROUND + lines("ask 121000000 2 121000000", "end 121000000")
RENEWAL = ROUND + lines(
    "stage 112000000", "give 112000000 0", "give 112000000 1", "give 112000000 2", "commit 112000000 0 112000000",
    "tick 170000000 0 170000000", "tick 170000000 1 170000000", "tick 170000000 2 170000000",
    "tick 215000000 0 215000000", "recv 215700000 1 215700000 5",
    "ask 215700000 1 215700000", "ask 215700000 2 215700000", "recv 216000000 2 216000000 6",
    "seal 216000000 0", "seal 216000000 1", "seal 216000000 2",
    "recv 216400000 2 216400000 7", "recv 216700000 1 216700000 8", "end 216700000",
)
REJOIN = ROUND + lines(
    "fail 112000000 device 2", "stage 112000000", "mend 112000000 device 2", "join 112000000 2 0 112000000 800000",
    "give 112000000 0", "give 112000000 1", "give 112000000 2", "commit 112000000 0 112000000",
    "ask 112000000 2 0", "end 112000000",
)
BASE_REPLAYED = lines("report 12 x 120700000 326500", "done 13 1")
RENEWED = ("report 22 b 215700000 345500\n", "report 23 x 215400000 345440\n", "done 30 2\n")
ORDERS = STARTS + lines("ask 1000000 0 1000000", "ask 1003000 0 1003000", "ask 1004000 0 1004000", "end 1004000")
ORDERED = (
    lines("report 4 r 1000000 1700", "begin 4 r 1001700"),
    lines("report 5 r 1003000 1701", "begin 5 r 1004701"),
    lines("report 6 r 1004000 1701", "ended 6 4", "begin 6 r 1005701"),
    "done 7 3\n",
    "waits 3 1 0\n",
)

# Bounds of the triangle.
DOMAINS = ("device r", "device b", "device x", "link rb", "link rx", "link bx")
BOUNDS = {"r": 4916851, "b": 4916851, "x": 5449722}
DRILLED = tuple(
    "".join(
        f"nobound {domain} {name}\n" if domain == f"device {name}" else f"bound {domain} {name} {bound}\n"
        for name, bound in BOUNDS.items()
    )
    for domain in DOMAINS
)
TIGHT = {"r": 4160603, "b": 4160603, "x": 4460603}
CALM = {"r": 1516436, "b": 1816436, "x": 1816436}
BOUNDED = tuple(
    "".join(
        f"nobound {domain} {name} {CALM[name]}\n" if domain == f"device {name}"
        else f"bounds {domain} {name} {bound} {TIGHT[name]} {CALM[name]}\n"
        for name, bound in BOUNDS.items()
    )
    for domain in DOMAINS
)

# Words that are no command's.
USAGE = (
    "usage: sundial solo SCHEDULE | plan TOPOLOGY | check TOPOLOGY PLAN | renew TOPOLOGY PLAN ABSENT"
    " | replay TOPOLOGY PLAN.. SCHEDULE | case NUMBER LEAVES SPINES | migrate TOPOLOGY"
    " | order TOPOLOGY PLAN.. SCHEDULE | twoway TOPOLOGY EXCHANGES | drill TOPOLOGY PLAN BASE HOLD\n"
)
CTL_USAGE = (
    "usage: sundialctl search TOPOLOGY BASE HOLD SEED STEPS"
    " | renew TOPOLOGY PLAN ABSENT BASE HOLD SEED STEPS | why TOPOLOGY | bounds TOPOLOGY PLAN BASE HOLD"
    " | resume TOPOLOGY PLAN.. SCHEDULE / PLAN.. OPENING | record TOPOLOGY PLAN.. LOG | merge LOGS FEED | version\n"
)
