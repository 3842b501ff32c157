"""Small networks with plans, made by counting: the digits of a number pick a network and what is changed in it.

A device, a link or a domain is a number: device 0 is named `d0`, link 0 `l0`, the first listed domain `f0`. A thing is
`("device", 0)` or `("link", 0)`, a hop a parent and a link, and a row the primary hop with the backup hop, if there is one.
"""

from typing import Callable, Dict, List, NamedTuple, Optional, Tuple

Thing = Tuple[str, int]
Hop = Tuple[int, int]
PlanRow = Tuple[Hop, Optional[Hop]]


class Shape(NamedTuple):
    """A network and its plan: the ends of each link, and the primary and backup links of each device from 1 on."""

    devices: int
    depth: int
    backup_root: int
    ends: Tuple[Tuple[int, int], ...]
    followed: Tuple[Tuple[int, int], ...]

    def hop(self, d: int, link: int) -> Optional[Hop]:
        """The hop from a device over one of its links."""
        one, other = self.ends[link]
        return (other, link) if one == d else (one, link) if other == d else None

    def hop_from(self, d: int, number: int) -> Optional[Hop]:
        """The hop over the next of a device's links, from a number on and round again."""
        links = len(self.ends)
        hops = (self.hop(d, (number + more) % links) for more in range(links))
        return next((hop for hop in hops if hop), None)

    def row_over(self, d: int, primary: int, backup: int) -> Optional[PlanRow]:
        """A row over two of a device's links, from these numbers on."""
        first = self.hop_from(d, primary)
        return (first, self.hop_from(d, backup)) if first else None

    def own_row(self, d: int) -> Optional[PlanRow]:
        """The row of a device in the network's plan."""
        if d == 0:
            return None
        primary, backup = (self.hop(d, link) for link in self.followed[d - 1])
        return (primary, backup) if primary else None


# The last link of each is one that its plan does not use.
TRIANGLE = Shape(3, 2, 1, ((0, 1), (0, 2), (1, 2), (1, 2)), ((0, 2), (1, 2)))
# four devices in a ring, and both diagonals
SQUARE = Shape(4, 3, 1, ((0, 1), (0, 2), (1, 2), (1, 3), (2, 3), (0, 3)), ((0, 2), (1, 4), (3, 4)))
# two spines, three leaves, and a link between two leaves
FABRIC = Shape(5, 3, 1, ((0, 2), (0, 3), (0, 4), (1, 2), (1, 3), (1, 4), (3, 4)), ((3, 4), (0, 3), (1, 4), (2, 5)))
# five devices in a ring with two chords; the longest walk is as long as it may be
RING = Shape(5, 3, 2, ((0, 1), (1, 2), (2, 3), (3, 4), (4, 0), (2, 4), (1, 3)), ((0, 1), (1, 5), (2, 3), (4, 3)))
# two rails with three rungs, and one link across
LADDER = Shape(6, 3, 3, ((0, 2), (2, 4), (1, 3), (3, 5), (0, 1), (2, 3), (4, 5), (1, 4)), ((4, 2), (0, 5), (2, 5), (1, 6), (3, 6)))
# three devices may come to follow each other round, and one more follows two of them
MESH = Shape(
    6, 3, 1, ((0, 1), (0, 3), (0, 4), (3, 4), (4, 5), (3, 5), (1, 5), (2, 3), (2, 4), (1, 3)),
    ((0, 6), (7, 8), (1, 3), (2, 4), (5, 6)),
)
SHAPES = (TRIANGLE, SQUARE, FABRIC, RING, LADDER, MESH)


class Setup:
    """What the texts of a topology and a plan say. The waits are a little longer than they need to be."""

    def __init__(self, shape: Shape) -> None:
        self.shape = shape
        self.depth = shape.depth
        self.tick = 10_000_000
        self.root = 0
        self.backup_root = shape.backup_root
        self.wait_first = self.wait_second = 730_000_000
        self.wait = 3_660_000_000
        self.absent_device: Optional[int] = None
        self.absent_link: Optional[int] = None
        self.listed: List[Tuple[Thing, Thing]] = []  # domains of two things, which may be one
        self.rows = [shape.own_row(d) for d in range(shape.devices)]

    def set_backup(self, d: int, backup: Optional[Hop]) -> None:
        """Changes the backup of a device that has a row."""
        row = self.rows[d]
        if row:
            self.rows[d] = (row[0], backup)

    def leave_out(self, absent: int) -> None:
        """Leaves a device out, with its row and as backup."""
        self.absent_device = absent
        self.rows[absent] = None
        for d, row in enumerate(self.rows):
            if row and row[1] and row[1][0] == absent:
                self.set_backup(d, None)


Change = Callable[[Setup], None]


def listed(one: Thing, other: Thing) -> Change:
    """One more listed domain."""
    return lambda setup: setup.listed.append((one, other))


def row_of(d: int, primary: Hop, backup: Optional[Hop]) -> Change:
    """Another row."""
    return lambda setup: setup.rows.__setitem__(d, (primary, backup))


def backup_of(d: int, backup: Optional[Hop]) -> Change:
    """Another backup."""
    return lambda setup: setup.set_backup(d, backup)


def absent(d: int) -> Change:
    """A device is left out with its row, and is nobody's backup."""
    return lambda setup: setup.leave_out(d)


def with_value(name: str, value: int) -> Change:
    """Another number: `absent_device` leaves a device out, and nothing else changes."""
    return lambda setup: setattr(setup, name, value)


# The texts.


def names_of(pair: Tuple[Thing, Thing], kind: str) -> str:
    things = [pair[0]] if pair[0] == pair[1] else list(pair)
    return ", ".join(f'"{kind[0]}{number}"' for what, number in things if what == kind)


def topology_of(setup: Setup) -> str:
    """The text of the topology. The least delay of each link is another."""
    shape = setup.shape
    text = (
        f"version = 1\nppm = 200\ngrain = 1000\nperiod = 100000000\ntick = {setup.tick}\nloss = 1\n"
        f'depth = {setup.depth}\nroots = ["d0"]\n'
    )
    text += "".join(f'[[device]]\nname = "d{d}"\n' for d in range(shape.devices))
    for link, (a, b) in enumerate(shape.ends):
        text += f'[[link]]\nname = "l{link}"\nends = ["d{a}", "d{b}"]\nmin = {400_000 + 30_001 * link}\nmax = 1000000\n'
    for f, pair in enumerate(setup.listed):
        text += f'[[domain]]\nname = "f{f}"\ndevices = [{names_of(pair, "device")}]\nlinks = [{names_of(pair, "link")}]\n'
    return text


def row_text(d: int, row: PlanRow) -> str:
    (parent, link), backup = row
    text = f'{{"device":"d{d}","parent":"d{parent}","link":"l{link}"'
    if backup:
        text += f',"backup":"d{backup[0]}","backup_link":"l{backup[1]}"'
    return text + "}"


def plan_of(setup: Setup) -> str:
    """The text of the plan."""
    absent_devices = "" if setup.absent_device is None else f'"d{setup.absent_device}"'
    absent_links = "" if setup.absent_link is None else f'"l{setup.absent_link}"'
    rows = ",".join(row_text(d, row) for d, row in enumerate(setup.rows) if row)
    return (
        f'{{"version":1,"root":"d{setup.root}","backup_root":"d{setup.backup_root}","wait_first":{setup.wait_first},'
        f'"wait_second":{setup.wait_second},"wait":{setup.wait},"absent_devices":[{absent_devices}],'
        f'"absent_links":[{absent_links}],"rows":[{rows}]}}'
    )


def setup_of(shape: Shape, *changes: Change) -> Setup:
    """A network's own plan with changes."""
    setup = Setup(shape)
    for change in changes:
        change(setup)
    return setup


# Cases by counting.


class Digits:
    """The digits of a case, each in a base of its own. The factor makes those of neighbours differ."""

    def __init__(self, case: int) -> None:
        self.rest = case * 2_654_435_761 % 2**32

    def take(self, base: int) -> int:
        self.rest, digit = divmod(self.rest, base)
        return digit


def thing_at(shape: Shape, place: int) -> Thing:
    """A device or a link of a network, counted from 0 and round again."""
    place %= shape.devices + len(shape.ends)
    return ("device", place) if place < shape.devices else ("link", place - shape.devices)


def primary_at(setup: Setup, place: int) -> Thing:
    """The primary link of a device, or one of the network where the device has none."""
    row = setup.rows[place] if place < len(setup.rows) else None
    return ("link", row[0][1] if row else place % len(setup.shape.ends))


def list_domains(setup: Setup, digits: Digits) -> None:
    """Lists two domains of two things; those of the first are often primary links."""
    shape = setup.shape
    things = shape.devices + len(shape.ends)
    a, b = digits.take(things), digits.take(things)
    if digits.take(2) == 0:
        setup.listed.append((thing_at(shape, a), thing_at(shape, b)))
    else:
        setup.listed.append((primary_at(setup, a), primary_at(setup, b)))
    setup.listed.append((thing_at(shape, b), thing_at(shape, a + b + 1)))


def change_rows(setup: Setup, digits: Digits, _: int) -> None:
    """Each device but the root gets some row."""
    for d in range(1, setup.shape.devices):
        number = digits.take(4)
        setup.rows[d] = setup.shape.row_over(d, number, number + 1)


def change_row(setup: Setup, digits: Digits, d: int) -> None:
    links = len(setup.shape.ends)
    primary, backup = digits.take(links), digits.take(links)
    setup.rows[d] = setup.shape.row_over(d, primary, backup)


def lean_on(setup: Setup, digits: Digits, d: int) -> None:
    """A device loses its backup and becomes that of a neighbour."""
    shape = setup.shape
    setup.set_backup(d, None)
    hop = shape.hop_from(d, digits.take(len(shape.ends)))
    if hop:
        setup.set_backup(hop[0], shape.hop(hop[0], hop[1]))


def change_wait(setup: Setup, digits: Digits, _: int) -> None:
    wait = (100_000_000, 700_000_000, 1_900_000_000, 4_000_000_000)[digits.take(4)]
    setattr(setup, ("wait_first", "wait_second", "wait")[digits.take(3)], wait)


# What is changed about a device or the plan as a whole, by kind.
CHANGES: Dict[int, Callable[[Setup, Digits, int], None]] = {
    3: lambda setup, digits, d: setup.set_backup(d, setup.shape.hop_from(d, digits.take(len(setup.shape.ends)))),
    4: change_row,
    5: change_row,
    6: change_rows,
    7: lambda setup, _, d: setup.set_backup(d, None),
    8: lean_on,
    9: lambda setup, _, d: setattr(setup, "absent_device", d),
    10: lambda setup, _, d: setup.leave_out(d),
    11: lambda setup, _, d: setup.leave_out(d),
    12: lambda setup, digits, _: setattr(setup, "absent_link", digits.take(len(setup.shape.ends))),
    13: lambda setup, _, d: setattr(setup, "backup_root", d),
    14: lambda setup, _, d: setattr(setup, "root", d),
    15: lambda setup, digits, _: setattr(setup, "depth", digits.take(6) + 1),
    # (about the greatest tick that rule 1 of timing allows)
    16: lambda setup, digits, _: setattr(setup, "tick", 99_978_999 - 2_000_000 * (setup.depth + 1) + digits.take(3)),
    17: change_wait,
    18: change_wait,
}


def counted(case: int) -> Setup:
    """The case of a number."""
    digits = Digits(case)
    setup = Setup(SHAPES[digits.take(6)])
    kind = digits.take(19)
    list_domains(setup, digits)
    if digits.take(3) == 0:
        setup.absent_link = len(setup.shape.ends) - 1
    d = digits.take(setup.shape.devices)
    if kind in CHANGES:
        CHANGES[kind](setup, digits, d)
    return setup


# Cases by hand: a network, what is changed in it, and the verdict.

# both roots of the fabric fail together; both ways of its backup root; both ways of its device 4
RACK, UPLINKS, TRAY = listed(("device", 0), ("device", 1)), listed(("link", 3), ("link", 4)), listed(("link", 2), ("link", 5))
# two primary links of the square fail together
CONDUIT = listed(("link", 1), ("link", 3))
# device 3 of the fabric follows the backup root, and the root is its backup
BELOW = row_of(3, (1, 4), (0, 1))
# device 4 of the fabric names a link of device 3; device 2 of the triangle has one link twice
STRAY, TWICE = backup_of(4, (1, 4)), backup_of(2, (0, 1))
# device 4 of the fabric has no backup; device 3 falls back on device 4
ALONE, LEANS = backup_of(4, None), backup_of(3, (4, 6))
SHORT = (with_value("wait_first", 720_000_000), with_value("wait_second", 720_000_000), with_value("wait", 3_500_000_000))
LONG = (with_value("wait_first", 1_800_000_000), with_value("wait_second", 720_000_000), with_value("wait", 4_800_000_000))
# the tick with which rule 1 has equal sides, and the greatest that it allows
EQUAL, UNDER = with_value("tick", 91_979_000), with_value("tick", 91_978_999)
# the least wait that rule 2 allows, and one less
LEAST, LESS = with_value("wait_first", 712_269_454), with_value("wait_first", 712_269_453)
BRIEF = with_value("wait_second", 700_000_000)
# the tray is refused only where the link between two leaves is there, which no row uses
WORKED: Tuple[Tuple[str, Shape, Tuple[Change, ...], str], ...] = (
    ("nothing changed", TRIANGLE, (), "accepted 3 4 7"),
    ("one device is both roots", SQUARE, (with_value("backup_root", 0),), "structure 1 device d0"),
    ("a row of a device that is left out", FABRIC, (with_value("absent_device", 4),), "structure 2 device d4"),
    ("a device is left out", FABRIC, (absent(4),), "accepted 5 7 12"),
    ("the link of another device", FABRIC, (STRAY,), "structure 3 device d4"),
    ("one link twice", TRIANGLE, (TWICE,), "structure 4 device d2"),
    ("a walk past the depth", RING, (with_value("depth", 2),), "structure 5 device d3"),
    ("no backup of the backup root of the ladder", LADDER, (backup_of(3, None),), "structure 6 device d3"),
    ("a backup root above its backup", FABRIC, (BELOW,), "ancestor device d1"),
    ("a tick that is as long as a round", FABRIC, (EQUAL,), "timing 1 99979000 99979000"),
    ("the longest tick", FABRIC, (UNDER,), "timing 2 729853000 1367957992"),
    ("the least first wait", FABRIC, (LEAST,), "accepted 5 7 12"),
    ("a first wait that is one less", FABRIC, (LESS,), "timing 2 712125999 712126000"),
    ("a short second wait", FABRIC, (BRIEF,), "timing 3 699859000 712126000"),
    ("short waits", FABRIC, SHORT, "timing 4 3499299000 3576668000"),
    ("a long first wait of the fabric", FABRIC, LONG, "timing 5 4799039000 5032993000"),
    ("both roots fail together", FABRIC, (RACK,), "root listed f0 at device d1"),
    ("both ways of the backup root fail together", FABRIC, (UPLINKS,), "root listed f0 at link l4"),
    ("two primary links fail together", SQUARE, (CONDUIT,), "loop listed f0 cycle d2 d3"),
    ("three devices follow each other round", MESH, (), "loop device d0 cycle d3 d4 d5"),
    ("both ways of a leaf fail together", FABRIC, (TRAY,), "domain listed f0 device d4"),
    ("both ways of a leaf, and its third link is absent", FABRIC, (TRAY, with_value("absent_link", 6)), "accepted 5 7 13"),
    ("both ways of a leaf that is left out", FABRIC, (TRAY, absent(4)), "accepted 5 7 13"),
    ("a leaf has no backup", FABRIC, (ALONE,), "reach device d0 chain d4"),
    ("a leaf falls back on one that has no backup", FABRIC, (ALONE, LEANS), "reach device d0 chain d3 d4"),
)
