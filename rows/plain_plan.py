"""The greedy plan of a small network by a plain slow program, written from docs/PLANNER.md.

The networks are made by counting: device 0 is the root, and device 1 the other candidate.
"""

import json
from typing import Any, Dict, List, NamedTuple, Optional, Set, Tuple

from rows.plain_check import Plain

Hop = Tuple[int, int]
DEVICES = range(6)


class Group(NamedTuple):
    """A listed domain, or what a walk has."""

    devices: Set[int]
    links: Set[int]

    def shares(self, other: "Group") -> bool:
        return bool(self.devices & other.devices or self.links & other.links)


class Seat(NamedTuple):
    """A device that has its place, and the hop to its parent."""

    device: int
    depth: int
    hop: Optional[Hop]


class Small(NamedTuple):
    """A network: the ends of its links, the devices of the backup side, and its listed domains."""

    links: List[Tuple[int, int]]
    backup_side: Set[int]
    groups: List[Group]


def chosen(count: int, bits: int) -> Set[int]:
    """The numbers below a bound whose bits are set."""
    return {number for number in range(count) if bits >> number & 1}


PAIRS = [(first, second) for first in range(5) for second in DEVICES if first < second]


def linked(bits: int) -> List[Tuple[int, int]]:
    """A link between each two devices whose bit is set."""
    return [PAIRS[place] for place in sorted(chosen(len(PAIRS), bits))]


def counted(number: int) -> Small:
    """The network of a number, with large domains: no plan of the first 300 is accepted."""
    links = linked(number * 9973 % 32768)
    mixed = [(number * 37 + seed * 11) % 2**32 for seed in range(2)]
    groups = [Group(chosen(6, it % 61), chosen(len(links) % 16, it % 127)) for it in mixed]
    return Small(links, chosen(6, number * 5 % 16 * 4), groups)


def dense(number: int) -> Small:
    """One with more links, and with domains of two things."""
    links = linked((number * 9973 | number * 7919) % 32768 | 1)
    one, other = number * 37, number * 101 + 11
    groups = [
        Group({one % 6}, {one // 6 % len(links)}), Group(set(), {other % len(links), other // 7 % len(links)}),
    ]
    return Small(links, chosen(6, number * 5 % 16 * 4), groups)


def topology_of(net: Small) -> str:
    """The topology text of a network."""
    text = (
        "version = 1\nppm = 200\ngrain = 1000\nperiod = 100000000\ntick = 10000000\nloss = 1\ndepth = 5\n"
        'roots = ["d0", "d1"]\n'
    )
    for d in DEVICES:
        text += f'[[device]]\nname = "d{d}"\n' + ('side = "backup"\n' if d in net.backup_side else "")
    for l, (first, second) in enumerate(net.links):
        text += f'[[link]]\nname = "l{l}"\nends = ["d{first}", "d{second}"]\nmin = 1000\nmax = 2000\n'
    for f, group in enumerate(net.groups):
        devices = json.dumps([f"d{d}" for d in sorted(group.devices)])
        links = json.dumps([f"l{l}" for l in sorted(group.links)])
        text += f'[[domain]]\nname = "f{f}"\ndevices = {devices}\nlinks = {links}\n'
    return text


class Greedy:
    """The plan of a network, seat by seat."""

    def __init__(self, net: Small) -> None:
        self.net = net
        self.seats = [Seat(0, 0, None)]
        self.seat_all()

    def first_link(self, d: int, y: int) -> Optional[int]:
        return next((l for l, ends in enumerate(self.net.links) if set(ends) == {d, y}), None)

    def seat_of(self, d: int) -> Optional[Seat]:
        return next((seat for seat in self.seats if seat.device == d), None)

    def sit_below(self, d: int, above: Seat) -> None:
        """Gives a device a seat below another, if a link joins the two."""
        link = self.first_link(d, above.device)
        if link is not None:
            self.seats.append(Seat(d, above.depth + 1, (above.device, link)))

    def spread(self, place: int, backup: bool) -> None:
        """Seats a side, from the seat at a place on; the backup root is of none."""
        while place < len(self.seats):
            above = self.seats[place]
            for d in DEVICES:
                if (d in self.net.backup_side) == backup and not self.seat_of(d) and (backup or d != 1):
                    self.sit_below(d, above)
            place += 1

    def nearest(self, d: int) -> Optional[Seat]:
        """The seat below which a device sits by nearness."""
        near = (seat for seat in self.seats if self.first_link(d, seat.device) is not None)
        return min(near, key=lambda seat: (seat.depth, seat.device), default=None)

    def sit_next(self) -> None:
        """Seats the first free device that has a seated neighbour."""
        for d in DEVICES:
            above = None if self.seat_of(d) else self.nearest(d)
            if above:
                self.sit_below(d, above)
                return

    def seat_all(self) -> None:
        self.spread(0, False)
        above = self.nearest(1)
        if above:
            place = len(self.seats)
            self.sit_below(1, above)
            self.spread(place, True)
        for _ in DEVICES:
            self.sit_next()

    def walk(self, d: int) -> Group:
        """What a walk to the root has: its devices, the first counted, and its links."""
        found = Group({d}, set())
        seat = self.seat_of(d)
        while seat and seat.hop:
            parent, link = seat.hop
            found.devices.add(parent)
            found.links.add(link)
            seat = self.seat_of(parent)
        return found

    def meet(self, one: Group, other: Group) -> bool:
        """Whether a listed domain, or one thing alone, has something of both."""
        return one.shares(other) or any(it.shares(one) and it.shares(other) for it in self.net.groups)

    def is_joined(self, d: int, primary: Hop, hop: Hop) -> bool:
        """Whether a listed domain that leaves the device out has something of both hops."""
        one, other = (Group({parent}, {link}) for parent, link in (primary, hop))
        return any(d not in it.devices and it.shares(one) and it.shares(other) for it in self.net.groups)

    def serves(self, own: Seat, primary: Hop, hop: Hop) -> bool:
        """Whether a hop serves as backup."""
        beyond = self.seat_of(hop[0])
        if beyond is None or hop[1] == primary[1] or hop[0] == primary[0]:
            return False
        other_side = (1 in self.walk(hop[0]).devices) != (1 in self.walk(own.device).devices)
        before = hop[0] == 0 or (beyond.depth, hop[0]) < (own.depth, own.device)
        return (other_side or before) and not self.is_joined(own.device, primary, hop)

    def serves_backup_root(self, primary: Hop, hop: Hop) -> bool:
        other = self.walk(hop[0])
        if not self.seat_of(hop[0]) or hop[1] == primary[1] or 1 in other.devices:
            return False
        way = self.walk(1)
        return not self.meet(Group(way.devices - {1}, way.links), Group(other.devices - {0}, other.links | {hop[1]}))

    def backup(self, own: Seat, primary: Hop) -> Optional[Hop]:
        """The first hop that serves, by neighbour and then by link."""
        for y in DEVICES:
            for l, ends in enumerate(self.net.links):
                if set(ends) == {own.device, y}:
                    hop = (y, l)
                    if self.serves_backup_root(primary, hop) if own.device == 1 else self.serves(own, primary, hop):
                        return hop
        return None

    def rows(self) -> List[Tuple[int, Hop, Optional[Hop]]]:
        seats = [seat for seat in map(self.seat_of, DEVICES) if seat]
        return [(seat.device, seat.hop, self.backup(seat, seat.hop)) for seat in seats if seat.hop]


def plan_of(net: Small) -> str:
    """The greedy plan as it is printed, with the least waits that docs/RULES.md lets through."""
    rows = []
    for d, (parent, link), backup in Greedy(net).rows():
        row = {"device": f"d{d}", "parent": f"d{parent}", "link": f"l{link}"}
        if backup:
            row.update({"backup": f"d{backup[0]}", "backup_link": f"l{backup[1]}"})
        rows.append(row)
    plan: Dict[str, Any] = {"version": 1, "root": "d0", "backup_root": "d1", "absent_devices": [], "absent_links": [], "rows": rows}
    plan.update(zip(("wait_first", "wait_second", "wait"), waits_of(topology_of(net))))
    return json.dumps(plan, sort_keys=True, separators=(",", ":")) + "\n"


def waits_of(topology: str) -> Tuple[int, int, int]:
    """The least waits that the timing of a topology lets through."""
    plain = Plain(topology)
    silent = plain.silence()
    first = plain.least(2 * silent)
    up = plain.up(first)
    return first, first, plain.least(max(2 * up + 6 * silent, 3 * up + 2 * silent))
