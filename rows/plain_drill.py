"""The bounds of the drill by their definition (docs/DRILL.md): over walks of one hop, of two, and so on.

It reads the same texts as `sundial drill`, and says what that should print.
"""

from typing import List, Optional

from rows.plain_check import Domain, Hop, Plain


class PlainDrill(Plain):
    """The bounds of an accepted plan."""

    def __init__(self, topology: str, plan: str, base: int, hold: int) -> None:
        super().__init__(topology, plan)
        self.base, self.hold = base, hold

    def half(self, hop: Hop) -> int:
        """Half of how far the delays of a link lie apart, both ways the same here."""
        least, most = self.delays[hop.link]
        return most - (least + most) // 2

    def halves_from(self, hop: Optional[Hop]) -> int:
        """The sum of halves over a hop and the walk after it, to the root."""
        total = 0
        while hop:
            total += self.half(hop)
            hop = self.primary[hop.parent]
        return total

    def root_halves(self) -> int:
        """The greater sum of halves from the backup root to the root."""
        return max(self.halves_from(hops[self.backup_root]) for hops in (self.primary, self.backup))

    def source(self) -> int:
        """The uncertainty of what an acting root sends."""
        return self.base + self.root_halves() + 2 * self.error(self.hold)

    def oldest(self, time: int) -> int:
        """The most by which a counter advances in a time, bit by bit."""
        age = 0
        for bit in reversed(range(100)):
            if self.low(age + 2**bit) <= time:
                age += 2**bit
        return age

    def quiet(self, hops: int) -> int:
        """For how long a device whose walks have this many hops may have heard nothing new."""
        first, second, wait = self.waits
        noticed = self.silence()
        taking_over = self.up(first) + self.up(second) + 6 * noticed
        moving = self.up(wait) + noticed
        return max(taking_over, moving) + 2 * (hops + 1) * (noticed - self.params["tick"])

    def longer(self, f: Domain, sums: List[Optional[int]]) -> List[Optional[int]]:
        """The greatest sums of halves over walks of one hop more."""

        def over(hop: Optional[Hop]) -> Optional[int]:
            beyond = sums[hop.parent] if hop else None
            return None if hop is None or beyond is None else self.half(hop) + beyond

        def greatest(d: int) -> Optional[int]:
            if d in (self.root, self.backup_root):
                return None
            found = [over(self.primary[d]), over(self.backup[d]) if self.is_hit(f, d) else None]
            return max((it for it in found if it is not None), default=None)

        return [greatest(d) for d in self.devices]

    def bounds(self, f: Domain) -> List[Optional[int]]:
        """The bounds of all devices. No walk of an accepted plan comes back, so none has more hops than there are devices."""
        fed = self.fed(f)
        sums: List[Optional[int]] = [0 for _ in self.devices]
        far, long = [0 for _ in self.devices], [0 for _ in self.devices]
        for hops in range(1, len(self.devices) + 1):
            sums = self.longer(f, sums)
            for d, reached in enumerate(sums):
                if reached is not None:
                    far[d], long[d] = max(far[d], reached), hops
        return [self.bound(far[d], long[d]) if d in fed else None for d in self.devices]

    def bound(self, far: int, long: int) -> Optional[int]:
        """The bound of a device that is fed, where its walks are short enough."""
        if long > self.params["depth"] + 1:
            return None
        age = self.oldest(self.quiet(long))
        return self.source() + self.root_halves() + far + self.error(age)

    def lines_of(self, f: Domain) -> str:
        bounds = self.bounds(f)
        members = [d for d in self.devices if d not in self.absent]
        return "".join(
            f"nobound {f.name} {self.names[d]}\n" if bounds[d] is None else f"bound {f.name} {self.names[d]} {bounds[d]}\n"
            for d in members
        )

    def printed(self) -> str:
        """What `drill` is to print of an accepted plan."""
        members = len(self.devices) - len(self.absent)
        return "".join(map(self.lines_of, self.domains)) + f"done {len(self.domains)} {members}\n"
