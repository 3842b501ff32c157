"""From what was found to a topology, without a guess."""

from __future__ import annotations

import hashlib
import re
from collections import Counter
from dataclasses import dataclass
from typing import Dict, Iterable, List, Sequence, Tuple

from sundial_tools.errors import ToolError
from sundial_tools.network.found import Found, FoundDevice
from sundial_tools.network.tables import Delays, Oscillators
from sundial_tools.topology import (
    MOST_DEVICES, MOST_DOMAINS, MOST_LINKS, MOST_LISTED, NAME, Device, Domain, Link, Topology,
)

MOST_LETTERS, DIGEST = 64, 8


@dataclass(frozen=True)
class Settings:
    """Times are picoseconds. `roots` are the roles of the candidates, in order."""

    period: int
    tick: int
    loss: int
    depth: int
    root_roles: Tuple[str, ...]
    every_feed: bool


def assemble(found: Found, oscillators: Oscillators, delays: Delays, settings: Settings) -> Topology:
    by_name = {device.name: device for device in found.devices}
    if not by_name:
        raise ToolError("no device was found")
    if len(by_name) != len(found.devices):
        raise ToolError(f"two devices have the name {_twice(device.name for device in found.devices)}")
    devices = [_device(number, device, oscillators) for number, device in enumerate(found.devices)]
    numbers = {device.name: device.number for device in devices}
    links = _links(found, by_name, numbers, delays)
    domains = _domains(found, numbers, links, settings.every_feed)
    _within_limits(devices, links, domains)
    return Topology(
        2, max(device.ppm for device in devices), max(device.grain for device in devices),
        settings.period, settings.tick, settings.loss, settings.depth,
        tuple(devices), tuple(links), tuple(domains), _roots(found.devices, numbers, settings.root_roles),
        numbers, {link.name: link.number for link in links},
    )


def _twice(names: Iterable[str]) -> str:
    return next(name for name, count in Counter(names).items() if count > 1)


def _device(number: int, device: FoundDevice, oscillators: Oscillators) -> Device:
    if not NAME.fullmatch(device.name):
        raise ToolError(
            f"{device.name!r} ({device.place}) is no name of a topology: 1 to 64 letters, digits, '-', '_' and '.'"
        )
    ppm, grain = oscillators.of(device)
    return Device(number, device.name, device.side, ppm, grain)


def made_name(parts: Sequence[str], shortened: Dict[str, str]) -> str:
    """A name for a link or a domain. What no name may have becomes '-'.

    Of a name of more than 64 letters the first 55 stay, and '-' and 8 digits of its SHA-256 follow.
    """
    name = "-".join(re.sub(r"[^A-Za-z0-9_.-]", "-", part) for part in parts if part)
    if len(name) <= MOST_LETTERS:
        return name
    digest = hashlib.sha256(name.encode()).hexdigest()[:DIGEST]
    shortened[name] = f"{name[: MOST_LETTERS - DIGEST - 1]}-{digest}"
    return shortened[name]


def _links(found: Found, devices: Dict[str, FoundDevice], numbers: Dict[str, int], delays: Delays) -> List[Link]:
    links: List[Link] = []
    places: Dict[str, str] = {}
    for cable in found.cables:
        for end in cable.first, cable.second:
            if end not in devices:
                raise ToolError(f"{cable.place}: the link ends at {end}, and there is no such device")
        if cable.first == cable.second:
            raise ToolError(f"{cable.place}: both ends of the link are at {cable.first}")
        parts = [cable.name] if cable.name else [cable.first, cable.first_port, cable.second, cable.second_port]
        name = made_name(parts, found.shortened)
        if name in places:
            raise ToolError(f"{cable.place}: the link's name {name} is that of {places[name]}")
        places[name] = cable.place
        first, second = devices[cable.first], devices[cable.second]
        links.append(
            Link(
                len(links), name, (numbers[first.name], numbers[second.name]),
                delays.of(cable, first, second), delays.of(cable, second, first),
            )
        )
    return links


def _domains(found: Found, numbers: Dict[str, int], links: Sequence[Link], every_feed: bool) -> List[Domain]:
    racks: Dict[str, List[int]] = {}
    feeds: Dict[str, List[int]] = {}
    for device in found.devices:
        if device.rack is not None:
            racks.setdefault(device.rack, []).append(numbers[device.name])
        for feed in device.feeds if every_feed or len(device.feeds) == 1 else ():
            feeds.setdefault(feed, []).append(numbers[device.name])
    conduits: Dict[str, List[int]] = {}
    for link, cable in zip(links, found.cables):
        for conduit in cable.conduits:
            conduits.setdefault(conduit, []).append(link.number)
    leaving: Dict[int, List[Link]] = {}
    for link in links:
        leaving.setdefault(link.ends[0], []).append(link)
    listed = [(("rack", name), sorted(things), _inside(things, leaving)) for name, things in racks.items()]
    listed += [(("feed", name), sorted(things), _inside(things, leaving)) for name, things in feeds.items()]
    listed += [(("conduit", name), [], things) for name, things in conduits.items()]
    domains: Dict[str, Domain] = {}
    for (kind, given), devices, within in listed:
        name = made_name((kind, given), found.shortened)
        if name in domains:
            raise ToolError(f"two domains have the name {name}: the {kind} {given} is one of them")
        domains[name] = Domain(len(domains), name, tuple(devices), tuple(within))
    return list(domains.values())


def _inside(devices: Sequence[int], leaving: Dict[int, List[Link]]) -> List[int]:
    """The links both of whose ends are among the devices. `leaving` has the links by their first ends."""
    among = set(devices)
    return sorted(link.number for device in devices for link in leaving.get(device, ()) if link.ends[1] in among)


def _roots(devices: Sequence[FoundDevice], numbers: Dict[str, int], roles: Sequence[str]) -> Tuple[int, ...]:
    roots: List[int] = []
    for role in roles:
        found = [numbers[device.name] for device in devices if device.role == role]
        if not found:
            known = ", ".join(sorted({device.role for device in devices}))
            raise ToolError(f"no device has the role {role}, of which roots are taken; there are {known}")
        roots += [number for number in found if number not in roots]
    return tuple(roots)


def _within_limits(devices: Sequence[Device], links: Sequence[Link], domains: Sequence[Domain]) -> None:
    listed = sum(len(domain.devices) + len(domain.links) for domain in domains)
    for what, count, most in (
        ("devices", len(devices), MOST_DEVICES), ("links", len(links), MOST_LINKS),
        ("domains", len(domains), MOST_DOMAINS), ("things in domains", listed, MOST_LISTED),
    ):
        if count > most:
            raise ToolError(f"{count} {what}, and a topology has at most {most}")
