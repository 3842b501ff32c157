"""Reads the output of `sundialctl bounds`: the calm number of each member, which holds while nothing has failed."""

from __future__ import annotations

from typing import Dict, Iterable

from sundial_tools.errors import ToolError
from sundial_tools.outputs import read_numbers
from sundial_tools.topology import Topology


def read_calm(lines: Iterable[str], topology: Topology, source: str) -> Dict[int, int]:
    """By device. Each member has its number once under each domain."""
    numbers: Dict[int, int] = {}
    for count, (line, said) in enumerate(read_numbers(lines, "bounds", lambda it: "calm" in it.fields, source)):
        if said.kind == "done":
            domains, members = said.fields["first"], said.fields["second"]
            if members != len(numbers) or domains * members != count:
                raise ToolError(f"done says {domains} {members}, and {count} lines of {len(numbers)} devices were read", source, line)
            continue
        name, calm = said.fields["device"], said.fields["calm"]
        device = topology.device_numbers.get(name)
        if device is None:
            raise ToolError(f"the topology has no device {name}", source, line)
        if numbers.setdefault(device, calm) != calm:
            raise ToolError(f"{name} has two calm numbers, {numbers[device]} and {calm}", source, line)
    return numbers
