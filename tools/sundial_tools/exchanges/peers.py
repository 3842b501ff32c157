"""Which link leads to which peer, from the words of the command."""

from __future__ import annotations

from typing import Dict, Iterable, Optional

from sundial_tools.errors import ToolError
from sundial_tools.topology import Link, Topology


class Peers:
    """The link of each peer of one device. With `link` there may be one peer alone, whichever it is."""

    def __init__(self, topology: Topology, device: str, link: Optional[str], peers: Iterable[str]) -> None:
        if device not in topology.device_numbers:
            raise ToolError(f"the topology has no device {device}")
        self._topology = topology
        self.device = topology.device_numbers[device]
        self._only = self._find_link(link) if link else None
        self._links: Dict[str, Link] = {}
        for pair in peers:
            peer, equals, name = pair.rpartition("=")
            if not equals or not peer:
                raise ToolError(f"--peer {pair} is not of the form PEER=LINK")
            if peer in self._links:
                raise ToolError(f"--peer names {peer} twice")
            self._links[peer] = self._find_link(name)

    def link(self, peer: str, source: str, line: int) -> Optional[Link]:
        """The link to a peer that the input has at this line, or None where no word names one."""
        if self._only is not None and peer not in self._links:
            for first in self._links:
                reason = f"a second peer, {peer} beside {first}: name the link of each with --peer"
                raise ToolError(reason, source, line)
            self._links[peer] = self._only
        return self._links.get(peer)

    def _find_link(self, name: str) -> Link:
        if name not in self._topology.link_numbers:
            raise ToolError(f"the topology has no link {name}")
        link = self._topology.links[self._topology.link_numbers[name]]
        if self.device not in link.ends:
            raise ToolError(f"the link {name} does not end at {self._topology.devices[self.device].name}")
        return link
