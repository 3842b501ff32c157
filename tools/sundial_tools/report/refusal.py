"""What a refused plan is marked by: the devices and links of its first breach."""

from __future__ import annotations

from typing import Dict, FrozenSet, NamedTuple, Optional, Tuple

from sundial_tools.errors import ToolError
from sundial_tools.outputs import OutputLine
from sundial_tools.topology import Topology
from sundial_tools.units import clear

MEANING = {
    "structure": "The device breaks a rule of structure.",
    "ancestor": "The device is above its own backup parent.",
    "timing": "A wait of the plan, or a number of the topology, breaks a rule of timing.",
    "root": "The domain takes both roots, or the ways of the backup root share it.",
    "loop": "While things of the domain fail, these devices may come to follow each other in a ring.",
    "domain": "The domain takes the device's path and its backup together.",
    "reach": "With the domain down, the first of these devices never hears again.",
}

# Of each rule of timing: the number that is too small, and what mends it.
LENGTHEN = "Lengthen {} by this and a little for the drift."
TIMING = {
    1: ("the period of the topology", "No plan mends this: lengthen the period, or shorten depth or tick."),
    2: ("wait_first", LENGTHEN.format("wait_first")),
    3: ("wait_second", LENGTHEN.format("wait_second")),
    4: ("wait", LENGTHEN.format("wait")),
    5: ("wait", LENGTHEN.format("wait") + " Or shorten wait_first."),
}


class Refusal(NamedTuple):
    """`steps` are the devices of a cycle or chain in order, or the one device that is named."""

    plan: int
    condition: str
    text: str
    domain: Optional[Tuple[str, str]]
    steps: Tuple[int, ...]
    links: FrozenSet[int]

    left: Optional[int] = None
    right: Optional[int] = None
    rule: Optional[int] = None

    @property
    def meaning(self) -> str:
        return MEANING[self.condition]

    @property
    def in_words(self) -> str:
        """A refusal of timing with its numbers: what the rule needs, and what is there."""
        if self.condition != "timing" or self.left is None or self.right is None:
            return ""
        least, mends = TIMING[self.rule or 1]
        return (
            f"Rule {self.rule}: {least} is {clear(self.left)} at the least, and has to be "
            f"{'more than' if self.rule == 1 else 'at least'} {clear(self.right)}: "
            f"{clear(self.right - self.left)} are missing. {mends}"
        )


def refusal_of(line: OutputLine, text: str, topology: Topology, source: str) -> Refusal:
    """The refusal of a line `refused plan ..`."""
    fields = line.fields
    names = list(fields.get("cycle", fields.get("chain", ())))
    links = frozenset[int]()
    if "device" in fields:
        names.append(fields["device"])
    if "at" in fields:
        if fields["at"]["kind"] == "link":
            links = frozenset((_number(topology.link_numbers, fields["at"]["name"], source),))
        else:
            names.append(fields["at"]["name"])
    steps = tuple(_number(topology.device_numbers, name, source) for name in names)
    domain = fields.get("domain")
    place = (domain["kind"], domain["name"]) if domain else None
    return Refusal(
        fields["plan"], line.kind.split(" ")[1], text, place, steps, links,
        fields.get("left"), fields.get("right"), fields.get("rule"),
    )


def _number(numbers: Dict[str, int], name: str, source: str) -> int:
    if name not in numbers:
        raise ToolError(f"the refusal names {name}, and the topology has no such thing", source)
    return numbers[name]
