"""A plain slow program that judges plans by the definitions of docs/CONDITIONS.md and docs/RULES.md, over whole lists.

It reads the same texts as `sundial check`, and says what that should print.
"""

import json
import tomllib
from typing import Any, Callable, Dict, Iterable, Iterator, List, NamedTuple, Optional, Set, Tuple

Thing = Tuple[str, int]


class Hop(NamedTuple):
    """A neighbour, and the link to it."""

    parent: int
    link: int


class Domain(NamedTuple):
    """Things that may fail together: devices ascending, then links ascending."""

    name: str
    things: Tuple[Thing, ...]

    def breaks(self, hop: Hop) -> bool:
        """Whether a hop has its link or its parent in the domain."""
        return ("link", hop.link) in self.things or ("device", hop.parent) in self.things


# A plan without rows, for what is asked of a topology alone.
NO_PLAN = '{"root":"d0","backup_root":"d0","wait_first":0,"wait_second":0,"wait":0,"absent_devices":[],"absent_links":[],"rows":[]}'


class Plain:
    """A topology and a plan as plain lists, with the questions that all conditions ask."""

    def __init__(self, topology: str, plan: str = NO_PLAN) -> None:
        net: Dict[str, Any] = tomllib.loads(topology)
        names: List[str] = [it["name"] for it in net["device"]]
        links: List[str] = [it["name"] for it in net.get("link", [])]
        self.names, self.link_names = names, links
        self.params: Dict[str, int] = {key: net[key] for key in ("ppm", "grain", "period", "tick", "loss", "depth")}
        number = {name: n for n, name in enumerate(names)}
        link_number = {name: n for n, name in enumerate(links)}
        self.devices = range(len(names))
        self.ends = [{number[end] for end in it["ends"]} for it in net.get("link", [])]
        self.delays: List[Tuple[int, int]] = [(it["min"], it["max"]) for it in net.get("link", [])]
        said = json.loads(plan)
        self.waits: Tuple[int, int, int] = (said["wait_first"], said["wait_second"], said["wait"])
        self.root, self.backup_root = number[said["root"]], number[said["backup_root"]]
        self.absent = {number[name] for name in said["absent_devices"]}
        self.absent_links = {link_number[name] for name in said["absent_links"]}
        self.primary: List[Optional[Hop]] = [None] * len(names)
        self.backup: List[Optional[Hop]] = [None] * len(names)
        self.rows: Set[int] = set()
        for row in said["rows"]:
            d = number[row["device"]]
            self.rows.add(d)
            self.primary[d] = Hop(number[row["parent"]], link_number[row["link"]])
            if row.get("backup") is not None:
                self.backup[d] = Hop(number[row["backup"]], link_number[row["backup_link"]])
        self.domains = [
            Domain(
                f"listed {it['name']}",
                tuple(
                    [("device", d) for d in sorted(number[name] for name in it.get("devices", []))]
                    + [("link", l) for l in sorted(link_number[name] for name in it.get("links", []))]
                ),
            )
            for it in net.get("domain", [])
        ]
        self.domains += [Domain(f"device {name}", (("device", d),)) for d, name in enumerate(names)]
        self.domains += [Domain(f"link {name}", (("link", l),)) for l, name in enumerate(links)]

    def is_left(self, f: Domain, d: int) -> bool:
        """Whether a device is a member that is no part of a domain."""
        return d not in self.absent and ("device", d) not in f.things

    # Walks, followed hop by hop each time that something is asked of them.

    def walk_has(self, d: int, thing: Thing, ends: Tuple[int, ...]) -> bool:
        """Whether a walk, its first device included, has a thing. It is not looked at beyond these devices."""
        for _ in self.devices:
            if thing == ("device", d):
                return True
            hop = self.primary[d]
            if d in ends or hop is None:
                return False
            if thing == ("link", hop.link):
                return True
            d = hop.parent
        return False

    def hits_path(self, f: Domain, d: int, ends: Tuple[int, ...]) -> bool:
        """Whether a domain has a thing of a device's path, which is its walk without itself."""
        hop = self.primary[d]
        return hop is not None and any(
            thing == ("link", hop.link) or self.walk_has(hop.parent, thing, ends) for thing in f.things
        )

    def is_hit(self, f: Domain, d: int) -> bool:
        """Whether a device is hit: nothing beyond the backup root counts."""
        return self.hits_path(f, d, (self.root, self.backup_root))

    def reaches_root(self, d: int) -> bool:
        """Whether a device comes to the root in as many steps as the depth allows."""
        for _ in range(self.params["depth"]):
            hop = self.primary[d]
            if d == self.root or hop is None:
                return d == self.root
            d = hop.parent
        return d == self.root

    # Structure and ancestors.

    def hop_is_right(self, d: int, hop: Optional[Hop]) -> bool:
        return hop is None or (
            hop.parent not in self.absent and hop.link not in self.absent_links and self.ends[hop.link] == {d, hop.parent}
        )

    def keeps(self, rule: int, d: int) -> bool:
        """Whether a device keeps one of the rules 2 to 6."""
        primary, backup = self.primary[d], self.backup[d]
        if rule == 2:
            return (d in self.rows) == (d not in self.absent and d != self.root)
        if rule == 3:
            return self.hop_is_right(d, primary) and self.hop_is_right(d, backup)
        if rule == 4:
            return primary is None or backup is None or primary.link != backup.link
        if rule == 5:
            return d in self.absent or self.reaches_root(d)
        return d != self.backup_root or backup is not None

    def structure_breach(self) -> Optional[str]:
        if self.root in self.absent:
            return f"structure 1 device {self.names[self.root]}"
        if self.backup_root in self.absent or self.backup_root == self.root:
            return f"structure 1 device {self.names[self.backup_root]}"
        broken = ((rule, d) for rule in range(2, 7) for d in self.devices if not self.keeps(rule, d))
        return next((f"structure {rule} device {self.names[d]}" for rule, d in broken), None)

    def is_above_itself(self, d: int) -> bool:
        """Whether a device is above its own backup parent."""
        hop = self.backup[d]
        ends = (self.root,) if d == self.backup_root else (self.root, self.backup_root)
        return hop is not None and self.walk_has(hop.parent, ("device", d), ends)

    def ancestor_breach(self) -> Optional[str]:
        return next((f"ancestor device {self.names[d]}" for d in self.devices if self.is_above_itself(d)), None)

    # Timing.

    def error(self, x: int) -> int:
        """By how much an oscillator may be off after a time."""
        return -(-self.params["ppm"] * x // 1_000_000) + self.params["grain"]

    def low(self, x: int) -> int:
        """The least time that a device makes of one."""
        return max(0, x - self.error(x))

    def up(self, x: int) -> int:
        """The greatest."""
        return x + self.error(x)

    def least(self, x: int) -> int:
        """The least time of which a device makes no less than this."""
        found = x
        while self.low(found) < x:
            found += x - self.low(found)
        return found

    def trips(self, count: int) -> int:
        """This many times the greatest delay of a link for each hop of the longest walk and one more."""
        return count * (self.params["depth"] + 1) * max((most for _, most in self.delays), default=0)

    def silence(self) -> int:
        """`W + Q`."""
        tick = self.params["tick"]
        return (self.params["loss"] + 2) * (self.up(self.params["period"]) + tick) + self.trips(4) + tick

    def timing_breach(self) -> Optional[str]:
        """The first rule of timing that is broken, with its two sides."""
        first, second, wait = self.waits
        between, round_trip = self.low(self.params["period"]), self.trips(2) + self.params["tick"]
        if between <= round_trip:
            return f"timing 1 {between} {round_trip}"
        silent = self.silence()
        longest, once = self.up(first), self.up(second)
        for rule, left, right in (
            (2, self.low(first), 2 * silent), (3, self.low(second), 2 * silent),
            (4, self.low(wait), longest + once + 6 * silent), (5, self.low(wait), 2 * longest + once + 2 * silent),
        ):
            if left < right:
                return f"timing {rule} {left} {right}"
        return None

    # Sets of devices, found by trying all devices again and again.

    def may_follow(self, f: Domain, d: int) -> Set[int]:
        """The devices that one may follow while things of a domain fail."""
        if d in self.absent or d in (self.root, self.backup_root):
            return set()
        hops = (self.primary[d], self.backup[d] if self.is_hit(f, d) else None)
        return {hop.parent for hop in hops if hop}

    def acting_end(self, f: Domain) -> int:
        """The root, or the backup root where the domain has the root."""
        return self.backup_root if ("device", self.root) in f.things else self.root

    def next_hop(self, d: int) -> Optional[Hop]:
        """The backup of a device, or its primary where it has none."""
        return self.backup[d] or self.primary[d]

    # Smallest sets that a rule closes, found by trying all devices again and again.

    def closed(self, joins: Callable[[Set[int], int], bool]) -> Set[int]:
        found: Set[int] = set()
        for _ in self.devices:
            for d in self.devices:
                if d not in found and joins(found, d):
                    found.add(d)
        return found

    def ending(self, f: Domain) -> Set[int]:
        """The devices each walk of which ends."""
        return self.closed(lambda found, d: self.may_follow(f, d) <= found)

    def joined(self, f: Domain) -> Set[int]:
        """The devices that are left and that links which are left join to the acting end."""
        links = [l for l in range(len(self.ends)) if l not in self.absent_links and ("link", l) not in f.things]

        def joins(found: Set[int], d: int) -> bool:
            near = (self.ends[l] - {d} for l in links if d in self.ends[l])
            return self.is_left(f, d) and (d == self.acting_end(f) or any(end & found for end in near))

        return self.closed(joins)

    def fed(self, f: Domain) -> Set[int]:
        """The devices that are left and fed."""

        def joins(found: Set[int], d: int) -> bool:
            if not self.is_left(f, d):
                return False
            if d in (self.acting_end(f), self.backup_root) or not self.is_hit(f, d):
                return True
            hop = self.next_hop(d)
            return hop is not None and not f.breaks(hop) and hop.parent in found

        return self.closed(joins)

    # The four conditions that are asked of each domain.

    def shown(self, devices: Iterable[int]) -> str:
        return " ".join(self.names[d] for d in devices)

    def root_breach(self, f: Domain) -> Optional[str]:
        if {("device", self.root), ("device", self.backup_root)} <= set(f.things):
            return f"root {f.name} at device {self.names[self.backup_root]}"
        hop = self.backup[self.backup_root]
        if hop is None or not self.hits_path(f, self.backup_root, (self.root,)):
            return None
        for what, number in f.things:
            beyond = (what, number) != ("device", self.root) and self.walk_has(hop.parent, (what, number), (self.root,))
            if (what, number) == ("link", hop.link) or beyond:
                name = self.names[number] if what == "device" else self.link_names[number]
                return f"root {f.name} at {what} {name}"
        return None

    def loop_breach(self, f: Domain) -> Optional[str]:
        """The cycle that the walks from the lowest device lead to, always by the lowest from which some walk never ends."""
        ending = self.ending(f)
        here = next((d for d in self.devices if d not in ending), None)
        if here is None:
            return None
        trail: List[int] = []
        while here not in trail:
            trail.append(here)
            here = min(self.may_follow(f, here) - ending)
        return f"loop {f.name} cycle {self.shown(trail[trail.index(here):])}"

    def is_cut(self, f: Domain, joined: Set[int], d: int) -> bool:
        return ("device", self.acting_end(f)) in f.things or d not in joined

    def domain_breach(self, f: Domain) -> Optional[str]:
        joined = self.joined(f)
        for d in self.devices:
            hop = self.backup[d]
            if d in (self.root, self.backup_root) or not self.is_left(f, d) or self.is_cut(f, joined, d):
                continue
            if self.is_hit(f, d) and hop is not None and f.breaks(hop):
                return f"domain {f.name} device {self.names[d]}"
        return None

    def reach_breach(self, f: Domain) -> Optional[str]:
        """The chain of the lowest device that is left, and neither fed nor cut off."""
        joined, fed = self.joined(f), self.fed(f)
        starved = (d for d in self.devices if self.is_left(f, d) and not self.is_cut(f, joined, d) and d not in fed)
        here = next(starved, None)
        if here is None:
            return None
        chain = [here]
        while True:
            hop = self.next_hop(chain[-1])
            if hop is None or f.breaks(hop) or hop.parent in chain:
                return f"reach {f.name} chain {self.shown(chain)}"
            chain.append(hop.parent)

    # The verdict.

    def breaches(self) -> Iterator[Optional[str]]:
        yield self.structure_breach()
        yield self.ancestor_breach()
        yield self.timing_breach()
        for asked in (self.root_breach, self.loop_breach, self.domain_breach, self.reach_breach):
            yield from map(asked, self.domains)

    def accepted(self) -> str:
        return f"accepted {len(self.devices)} {len(self.ends)} {len(self.domains)}"

    def verdict(self) -> str:
        """The line that `check` is to print."""
        breach = next(filter(None, self.breaches()), None)
        return f"refused plan 1 {breach}\n" if breach else f"{self.accepted()}\n"
