"""A network that has no plan: what `sundialctl why` prints (docs/TROUBLESHOOTING.md, impossible)."""

from __future__ import annotations

from typing import Dict, Iterable, Iterator, List

from sundial_tools.errors import ToolError
from sundial_tools.outputs import OutputLine
from sundial_tools.plain.conditions import Conditions
from sundial_tools.plan import Plan
from sundial_tools.topology import Topology
from sundial_tools.why.refused import Refused
from sundial_tools.why.said import listed, too_few_candidates

MOST_NAMES = 5


class Impossible:
    """Says what a reason means, and what to change."""

    def __init__(self, topology: Topology) -> None:
        self.topology = topology
        self._beside: List[List[int]] = [[] for _ in topology.devices]
        for link in topology.links:
            for end in link.ends:
                self._beside[end].append(link.other(end))

    def say(self, line: OutputLine) -> Iterator[str]:
        yield from getattr(self, f"_{line.kind.split(' ')[1]}")(line)

    # Candidates

    def _candidates(self, line: OutputLine) -> Iterator[str]:
        yield from too_few_candidates(self.topology)

    def _shared(self, line: OutputLine) -> Iterator[str]:
        name = line.fields["listed"]
        yield f"The domain {name} has all devices of `roots`: {self._named(self.topology.roots)}. So it takes the root and the backup root together."
        yield f"Change: name a device outside {name} in `roots`, or split {name}."

    def _deep(self, line: OutputLine) -> Iterator[str]:
        said = line.fields
        yield (f"From each candidate some device is farther away than `depth`, which is {said['depth']}. "
               f"From {said['candidate']} to {said['device']} it takes {said['hops']} links.")
        least, root = min((max(self._steps(it).values()), place) for place, it in enumerate(self.topology.roots))
        name = self._named([self.topology.roots[root]])
        yield f"Change: a `depth` of at least {least}, with which all devices are near enough to {name}; shorter ways; or a candidate nearer the middle."

    # The whole network

    def _timing(self, line: OutputLine) -> Iterator[str]:
        """The first rule of timing, which is about the topology alone."""
        breach = Conditions(self.topology, Plan(0, 0, 0, 0, 0, (), (), {})).timing()
        if not breach or breach[1] != 1:
            raise ToolError("The `period` of this topology is long enough: it is not the topology of this output.")
        rule, left, right = breach[1:]
        yield from Refused(self.topology, None).say(OutputLine("refused timing", {"rule": rule, "left": left, "right": right}))

    def _apart(self, line: OutputLine) -> Iterator[str]:
        name = line.fields["device"]
        yield f"No links lead from {self._named([0])} to {name}, not even over other devices."
        yield f"The part of {name}: {self._named(self._steps(self.topology.device_numbers[name]))}."
        yield "Change: a link from this part to the rest, better two from different devices; or take the part out of the topology."

    def _few(self, line: OutputLine) -> Iterator[str]:
        said = line.fields
        there, bridges = said["links"] - said["bridges"], said["bridges"]
        besides = f" besides {bridges} whose loss parts the network" if bridges else ""
        yield f"The network has {there} links{besides}. A plan needs at least {said['needed']}."
        yield (f"Change: add {said['needed'] - there} or more, from devices with two links to others that are far from them. The number is a lower bound: "
               "ask `sundialctl why` again.")

    def _nocycle(self, line: OutputLine) -> Iterator[str]:
        yield "No two candidates lie on one ring. So between each two of them there is one link, or one device, whose loss parts them."
        yield "Change: a second way between two candidates, over other devices and links; or two candidates on one ring."

    def _blocks(self, line: OutputLine) -> Iterator[str]:
        yield "Two or more parts of the network have rings of their own, and meet other parts at one device each. At most one part has both roots."
        yield "Some device of another part would need two links to the device where this part meets the rest, and has one."
        yield "Change: a link between two parts past the device where they meet, or a second link to that device beside one that leads to it."

    def _orphans(self, line: OutputLine) -> Iterator[str]:
        devices = line.fields.get("devices", [])
        who = f"Of {self._listed(devices)} each" if devices else "There are devices of which each"
        yield f"{who} has only neighbours with two links. Such a neighbour needs one link for its primary and the other for its backup."
        yield "So it can be the primary parent of no such device, unless one of the two is a root. No two candidates are near all of these devices."
        yield "Change: a third link for a neighbour of such a device; or name one of them, or a neighbour, in `roots`."

    def _named(self, devices: Iterable[int]) -> str:
        return self._listed([self.topology.devices[it].name for it in sorted(devices)])

    def _listed(self, names: List[str]) -> str:
        more = len(names) - MOST_NAMES
        return listed(names) if more <= 0 else f"{', '.join(names[:MOST_NAMES])} and {more} more"

    def _steps(self, start: int) -> Dict[int, int]:
        """How many links each device is away from one, of those that are joined to it."""
        found, order = {start: 0}, [start]
        for device in order:
            for other in self._beside[device]:
                if other not in found:
                    found[other] = found[device] + 1
                    order.append(other)
        return found
