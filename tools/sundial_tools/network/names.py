"""Names and numbers of a topology as a table."""

from __future__ import annotations

import csv
from typing import TextIO

from sundial_tools.topology import Topology

COLUMNS = ("thing", "number", "name", "first", "second", "root")


def write_names(topology: Topology, text: TextIO) -> None:
    """One line for each device, link and domain. `root` is the place among the candidates, from 1."""
    table = csv.writer(text, lineterminator="\n")
    table.writerow(COLUMNS)
    places = {device: place for place, device in enumerate(topology.roots, 1)}
    for device in topology.devices:
        table.writerow(("device", device.number, device.name, "", "", places.get(device.number, "")))
    for link in topology.links:
        first, second = (topology.devices[end].name for end in link.ends)
        table.writerow(("link", link.number, link.name, first, second, ""))
    for domain in topology.domains:
        table.writerow(("domain", domain.number, domain.name, "", "", ""))
