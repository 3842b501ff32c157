"""Cables from `lldpcli show neighbors` of many hosts, one file a host, in its forms json0 and json.

json0 has every element as an array, and each name as a value. json writes an entry that is alone without its array, and
the name of an interface or of a chassis as a key, which lldpd does not escape: a name with a quotation mark breaks it.
"""

from __future__ import annotations

import pathlib
from dataclasses import dataclass, field
from typing import Any, Dict, Iterator, List, Optional, Sequence, Set, Tuple

from sundial_tools.errors import ToolError
from sundial_tools.json_text import read_json
from sundial_tools.network.found import Found, FoundCable, natural

Port = Tuple[str, str]
NAMED_PORTS = ("ifname", "local", "ifalias")
HOW_TO_NAME = "let it send one (lldpcli configure lldp portidsubtype ifname)"


@dataclass(frozen=True)
class Neighbour:
    """What one entry of lldpd says of the far end. What it does not say is None."""

    port: str
    via: str
    name: Optional[str]
    chassis: Optional[str]
    far_port: Optional[str]


@dataclass(frozen=True)
class Ignored:
    """Neighbours that are left out: by system name, by chassis id, and by the ports where a host sees them. And the domains
    that are taken off the names of hosts."""

    names: Set[str] = field(default_factory=set)
    chassis: Set[str] = field(default_factory=set)
    ports: Set[Port] = field(default_factory=set)
    domains: Tuple[str, ...] = ()

    def plain(self, name: str) -> str:
        """A name without the domain that is taken off."""
        for domain in self.domains:
            if name.endswith(f".{domain}"):
                return name[: -len(domain) - 1]
        return name


@dataclass(frozen=True)
class Seen:
    """What a host sees on one of its ports: the far device and its port."""

    near: Port
    far: Port
    path: str


def read_neighbours(paths: Sequence[str], ignored: Ignored, found: Found) -> Dict[str, List[Seen]]:
    """What each host sees. A host is named after its file: s1.json is of s1."""
    seen: Dict[str, List[Seen]] = {}
    for path in paths:
        host = pathlib.Path(path).name
        host = ignored.plain(host.removesuffix(".json"))
        if host in seen:
            raise ToolError(f"two files of the host {host}", path)
        seen[host] = list(_seen_by(host, path, ignored, found))
    return seen


def _seen_by(host: str, path: str, ignored: Ignored, found: Found) -> Iterator[Seen]:
    neighbours = list(_neighbours(read_json(path), path))
    ports_of_lldp = {neighbour.port for neighbour in neighbours if neighbour.via == "LLDP"}
    for neighbour in neighbours:
        near = (host, neighbour.port)
        if neighbour.via != "LLDP":
            if neighbour.port not in ports_of_lldp and near not in ignored.ports:
                found.leave_out(f"neighbours that are seen by {neighbour.via} alone", " ".join(near))
        elif near in ignored.ports:
            found.leave_out("neighbours on ignored ports")
        elif neighbour.chassis in ignored.chassis:
            found.leave_out("neighbours of ignored chassis")
        elif neighbour.name is not None and ignored.names.intersection((neighbour.name, ignored.plain(neighbour.name))):
            found.leave_out("neighbours of ignored devices")
        else:
            yield Seen(near, _far(neighbour, host, ignored, path), path)


def _far(neighbour: Neighbour, host: str, ignored: Ignored, path: str) -> Port:
    if neighbour.name is None:
        chassis = f" (its chassis is {neighbour.chassis})" if neighbour.chassis else ""
        more = f", or --ignore-chassis {neighbour.chassis}" if neighbour.chassis else ""
        raise ToolError(
            f"the neighbour on {neighbour.port} gives no system name{chassis}: name it there, "
            f"or say --ignore-port {host}:{neighbour.port}{more}", path,
        )
    if neighbour.far_port is None:
        raise ToolError(f"the neighbour on {neighbour.port} gives no name of its port: {HOW_TO_NAME}", path)
    return ignored.plain(neighbour.name), neighbour.far_port


# The two forms


def _neighbours(said: Any, path: str) -> Iterator[Neighbour]:
    lldp = said.get("lldp") if isinstance(said, dict) else None
    if isinstance(lldp, list):
        for part in lldp:
            for entry in _array(_get(part, "interface")):
                yield _from_json0(entry, path)
        return
    if not isinstance(lldp, dict):
        raise ToolError("not what lldpcli show neighbors -f json0 prints: no object lldp", path)
    for entry in _array(lldp.get("interface", [])):
        if not isinstance(entry, dict):
            raise ToolError("not what lldpcli prints: an interface is no object", path)
        for port, neighbour in entry.items():
            if not isinstance(neighbour, dict):
                raise ToolError(f"not what lldpcli prints: the neighbour on {port} is no object", path)
            yield _from_json(port, neighbour)


def _from_json0(entry: Any, path: str) -> Neighbour:
    port = _get(entry, "name")
    if not isinstance(port, str):
        raise ToolError("not what lldpcli prints: an interface has no name", path)
    chassis, far = _get(entry, "chassis"), _get(entry, "port")
    name = _get(_get(chassis, "name"), "value")
    return Neighbour(
        port, _text(_get(entry, "via")) or "LLDP", _text(name), _text(_get(_get(chassis, "id"), "value")),
        _port_name(_get(far, "id"), _get(_get(far, "descr"), "value")),
    )


def _from_json(port: str, neighbour: Dict[str, Any]) -> Neighbour:
    chassis, far = neighbour.get("chassis"), neighbour.get("port")
    named = isinstance(chassis, dict) and len(chassis) == 1 and "id" not in chassis
    name = next(iter(chassis)) if named and isinstance(chassis, dict) else None
    inner = chassis.get(name) if name is not None and isinstance(chassis, dict) else chassis
    return Neighbour(
        port, _text(neighbour.get("via")) or "LLDP", name, _text(_get(_get(inner, "id"), "value")),
        _port_name(_get(far, "id"), _get(far, "descr")),
    )


def _port_name(identity: Any, description: Any) -> Optional[str]:
    """The far port: its id where that is a name, else its description."""
    if _get(identity, "type") in NAMED_PORTS:
        return _text(_get(identity, "value"))
    return _text(description)


def _get(value: Any, key: str) -> Any:
    """A part of an object, or of the one object of an array."""
    value = value[0] if isinstance(value, list) and value else value
    return value.get(key) if isinstance(value, dict) else None


def _array(value: Any) -> List[Any]:
    return value if isinstance(value, list) else [] if value is None else [value]


def _text(value: Any) -> Optional[str]:
    return value if isinstance(value, str) and value else None


# Cables


class Cables:
    """Joins what both ends of a cable see."""

    def __init__(self, seen: Dict[str, List[Seen]], order: Dict[str, int], ignored: Ignored, one_sided: bool) -> None:
        self._seen, self._order, self._ignored, self._one_sided = seen, order, ignored, one_sided
        self._far: Dict[Port, Seen] = {}

    def _missing(self, device: str) -> str:
        """What to do with a device that the table does not have."""
        name, _, domain = device.partition(".")
        if domain and name in self._order:
            return f"say --strip-domain {domain}, since {name} is there; or --ignore {device}"
        return f"add the line {device},KIND,ROLE,RACK,FEEDS, or say --ignore {device}"

    def into(self, found: Found) -> None:
        for host in self._seen:
            if host not in self._order and host not in self._ignored.names:
                raise ToolError(f"a file of the host {host}, which is not in the table of devices: {self._missing(host)}")
        for view in (view for host in self._seen for view in self._seen[host]):
            self._note(view, found)
        cables: Dict[Tuple[Port, Port], FoundCable] = {}
        for view in self._far.values():
            if view.far in self._ignored.ports:
                found.leave_out("neighbours on ignored ports")
                continue
            self._agree(view)
            near, far = sorted((view.near, view.far), key=self._place)
            cables.setdefault((near, far), FoundCable("", *near, *far, "", (), view.path))
        found.cables += [cables[ends] for ends in sorted(cables, key=lambda ends: (self._place(ends[0]), self._place(ends[1])))]

    def _place(self, port: Port) -> Tuple[int, Any]:
        return (self._order[port[0]], natural(port[1]))

    def _note(self, view: Seen, found: Found) -> None:
        if view.near[0] in self._ignored.names:
            found.leave_out("neighbours of ignored devices")
            return
        if view.far[0] not in self._order:
            raise ToolError(
                f"{view.near[0]} sees {view.far[0]} on {view.near[1]}, which is not in the table of devices: "
                + self._missing(view.far[0]), view.path,
            )
        if view.near in self._far:
            raise ToolError(
                f"{view.near[0]} sees two devices on {view.near[1]}: {self._far[view.near].far[0]} and {view.far[0]}: "
                f"a switch that hides from LLDP stands between; say --ignore-port {view.near[0]}:{view.near[1]}", view.path,
            )
        self._far[view.near] = view

    def _agree(self, view: Seen) -> None:
        """Refuses a cable that its other end does not see, or sees otherwise."""
        (near, near_port), (far, far_port) = view.near, view.far
        back = self._far.get(view.far)
        if back is not None and back.far == view.near:
            return
        if back is not None:
            raise ToolError(
                f"{near} sees {far} {far_port} on {near_port}, and {far} sees {back.far[0]} {back.far[1]} there", view.path
            )
        if far in self._seen:
            raise ToolError(
                f"a cable with one end: {near} sees {far} {far_port} on {near_port}, "
                f"and {far} sees nothing on {far_port}", view.path,
            )
        if not self._one_sided:
            raise ToolError(
                f"{near} sees {far} on {near_port}, and there is no file of {far}: "
                f"add {far}.json, or say --one-sided", view.path,
            )
