"""Topology texts of versions 1 and 2: docs/RULES.md, Topologies.

Devices, links and domains have the numbers of their order in the text, from 0. Times are picoseconds.
"""

from __future__ import annotations

import contextlib
import os
import re
import shutil
import subprocess
import sys
import tempfile
import tomllib
from dataclasses import dataclass, field, replace
from typing import Any, BinaryIO, ContextManager, Dict, Iterator, List, Optional, Tuple

from sundial_tools.errors import ToolError, decoded

NAME = re.compile(r"[A-Za-z0-9_.-]{1,64}")
MOST_DEVICES, MOST_LINKS, MOST_DOMAINS, MOST_LISTED = 4096, 32768, 4096, 262144
MOST_PICOSECONDS = 10**12
MOST_BYTES = 2**26
MOST_SECONDS = 300
VERSION = re.compile(rb"^[ \t]*version[ \t]*=[ \t]*([12])[ \t\r]*(?:#.*)?$", re.MULTILINE)
Table = Dict[str, Any]


@dataclass(frozen=True)
class Bounds:
    """The least and the greatest delay of one direction of a link, in picoseconds."""

    min: int
    max: int

    @property
    def mid(self) -> int:
        return (self.min + self.max) // 2

    @property
    def half(self) -> int:
        return self.max - self.mid


@dataclass(frozen=True)
class Device:
    number: int
    name: str
    side: str
    ppm: int
    grain: int


@dataclass(frozen=True)
class Link:
    """`forth` holds from the first end to the second, `back` from the second to the first."""

    number: int
    name: str
    ends: Tuple[int, int]
    forth: Bounds
    back: Bounds

    def towards(self, device: int) -> Bounds:
        """The bounds of the direction whose receiver is `device`, one of the two ends."""
        return self.forth if device == self.ends[1] else self.back

    def other(self, device: int) -> int:
        return self.ends[1] if device == self.ends[0] else self.ends[0]


@dataclass(frozen=True)
class Domain:
    number: int
    name: str
    devices: Tuple[int, ...]
    links: Tuple[int, ...]


@dataclass(frozen=True)
class Topology:
    version: int
    ppm: int
    grain: int
    period: int
    tick: int
    loss: int
    depth: int
    devices: Tuple[Device, ...]
    links: Tuple[Link, ...]
    domains: Tuple[Domain, ...]
    roots: Tuple[int, ...]
    device_numbers: Dict[str, int] = field(compare=False, repr=False)
    link_numbers: Dict[str, int] = field(compare=False, repr=False)


def open_bytes(path: str) -> ContextManager[BinaryIO]:
    """A file, or standard input for `-`."""
    if path == "-":
        return contextlib.nullcontext(sys.stdin.buffer)
    return open(path, "rb")


def read_topology(path: str) -> Topology:
    """The topology of a file, or of standard input for `-`, as `sundial` reads it where it is there.

    Raises ToolError where the text is none.
    """
    with open_bytes(path) as file:
        text = file.read(MOST_BYTES + 1)
    if len(text) > MOST_BYTES:
        raise ToolError("the topology has more than 2^26 bytes", path)
    program = sundial_program()
    if program is None:
        return parse_topology(decoded(text, path), path)
    migrated = parse_topology(_migrated(program, path, text), path)
    said = VERSION.search(text)
    return replace(migrated, version=int(said[1])) if said else migrated


def sundial_program() -> Optional[str]:
    """The program that reads topologies: the one that SUNDIAL names, or `sundial` of the path. An empty SUNDIAL is none."""
    return _program("sundial", "SUNDIAL")


def search_program() -> Optional[str]:
    """The program that searches for plans: the one that SUNDIALCTL names, or `sundialctl` of the path."""
    return _program("sundialctl", "SUNDIALCTL")


def _program(name: str, variable: str) -> Optional[str]:
    said = os.environ.get(variable)
    return shutil.which(name) if said is None else said or None


def _migrated(program: str, path: str, text: bytes) -> str:
    """What `sundial migrate` makes of a topology: a text of version 2 in the plainest TOML."""
    try:
        with _regular(path, text) as name:
            done = subprocess.run(
                [program, "migrate", name], stdout=subprocess.PIPE, stderr=subprocess.DEVNULL, timeout=MOST_SECONDS, check=False
            )
    except (OSError, subprocess.TimeoutExpired) as fault:
        raise ToolError(f"{program} migrate, which reads topologies, did not run: {fault}", path) from None
    said = done.stdout.decode("utf-8", "replace")
    if said.startswith("input topology "):
        raise ToolError(f"sundial refuses it: {said.strip()}", path)
    if done.returncode != 0:
        raise ToolError(f"{program} migrate ended with status {done.returncode}", path)
    return said


@contextlib.contextmanager
def _regular(path: str, text: bytes) -> Iterator[str]:
    """The name of a file with the text: what was read from a pipe cannot be read again."""
    if os.path.isfile(path):
        yield path
        return
    with tempfile.NamedTemporaryFile(prefix="sundial-") as file:
        file.write(text)
        file.flush()
        yield file.name


def parse_topology(text: str, source: Optional[str] = None) -> Topology:
    """The topology of a text, read by the tools themselves. They read TOML 1.0."""
    try:
        table = tomllib.loads(text)
    except tomllib.TOMLDecodeError as fault:
        reason = f"no TOML: {fault} (the tools read TOML 1.0; with sundial on the path they take what it reads, TOML 1.1)"
        raise ToolError(reason, source) from None
    except RecursionError:
        raise ToolError("arrays and tables are nested too deep", source) from None
    except ValueError:
        raise ToolError("a number has too many digits", source) from None
    return _Reader(source).topology(table)


class _Reader:
    def __init__(self, source: Optional[str]) -> None:
        self._source = source

    def _refuse(self, reason: str) -> ToolError:
        return ToolError(reason, self._source)

    def topology(self, table: Table) -> Topology:
        version = self._number(table, "version", "the topology", 1, 2)
        ppm = self._number(table, "ppm", "the topology", 0, 100000)
        grain = self._number(table, "grain", "the topology", 0, MOST_PICOSECONDS)
        period = self._number(table, "period", "the topology", 1, MOST_PICOSECONDS)
        tick = self._number(table, "tick", "the topology", 1, MOST_PICOSECONDS)
        loss = self._number(table, "loss", "the topology", 0, 100)
        depth = self._number(table, "depth", "the topology", 1, 64)
        devices = self._devices(self._tables(table, "device", MOST_DEVICES), version, ppm, grain)
        device_numbers = {device.name: device.number for device in devices}
        links = self._links(self._tables(table, "link", MOST_LINKS), version, device_numbers)
        link_numbers = {link.name: link.number for link in links}
        domains = self._domains(self._tables(table, "domain", MOST_DOMAINS), device_numbers, link_numbers)
        if "roots" not in table:
            raise self._refuse("the topology has no roots")
        roots = self._names(table, "roots", "the topology", device_numbers, "device")
        if not devices or not roots:
            raise self._refuse("the topology has no device or no root")
        return Topology(
            version, ppm, grain, period, tick, loss, depth, tuple(devices), tuple(links), tuple(domains), roots,
            device_numbers, link_numbers,
        )

    def _number(self, table: Table, key: str, where: str, least: int, most: int) -> int:
        value = table.get(key)
        if value is None:
            raise self._refuse(f"{where} has no {key}")
        if not isinstance(value, int) or isinstance(value, bool):
            raise self._refuse(f"{key} of {where} is no integer")
        if not least <= value <= most:
            raise self._refuse(f"{key} of {where} is {value}, and has to be from {least} to {most}")
        return value

    def _tables(self, table: Table, key: str, most: int) -> List[Table]:
        value = table.get(key, [])
        if not isinstance(value, list) or not all(isinstance(entry, dict) for entry in value):
            raise self._refuse(f"{key} is no array of tables")
        if len(value) > most:
            raise self._refuse(f"{key} has {len(value)} entries, and at most {most} are allowed")
        return value

    def _name(self, table: Table, kind: str, number: int, before: Dict[str, int]) -> str:
        name = table.get("name")
        if not isinstance(name, str) or not NAME.fullmatch(name):
            raise self._refuse(f"{kind} {number + 1} has no name of 1 to 64 letters, digits, '-', '_' and '.'")
        if name in before:
            raise self._refuse(f"two entries of {kind} have the name {name}")
        before[name] = number
        return name

    def _names(self, table: Table, key: str, where: str, numbers: Dict[str, int], kind: str) -> Tuple[int, ...]:
        names = table.get(key, [])
        if not isinstance(names, list) or not all(isinstance(name, str) for name in names):
            raise self._refuse(f"{key} of {where} is no array of names")
        before = set()
        for name in names:
            if name not in numbers:
                raise self._refuse(f"{key} of {where} has {name}, and there is no such {kind}")
            if name in before:
                raise self._refuse(f"{key} of {where} has {name} twice")
            before.add(name)
        return tuple(numbers[name] for name in names)

    def _devices(self, tables: List[Table], version: int, ppm: int, grain: int) -> List[Device]:
        before: Dict[str, int] = {}
        devices = []
        for number, table in enumerate(tables):
            name = self._name(table, "device", number, before)
            where = f"device {name}"
            side = table.get("side", "root")
            if side not in ("root", "backup"):
                raise self._refuse(f"side of {where} is neither root nor backup")
            rates = {"ppm": ppm, "grain": grain}
            for key, most in ("ppm", 100000), ("grain", MOST_PICOSECONDS):
                if version == 2 and key in table:
                    rates[key] = self._number(table, key, where, 0, most)
            devices.append(Device(number, name, side, rates["ppm"], rates["grain"]))
        return devices

    def _bounds(self, table: Table, least: str, most: str, where: str) -> Bounds:
        low = self._number(table, least, where, 0, MOST_PICOSECONDS)
        return Bounds(low, self._number(table, most, where, low, MOST_PICOSECONDS))

    def _links(self, tables: List[Table], version: int, numbers: Dict[str, int]) -> List[Link]:
        before: Dict[str, int] = {}
        links = []
        for number, table in enumerate(tables):
            name = self._name(table, "link", number, before)
            where = f"link {name}"
            ends = self._names(table, "ends", where, numbers, "device")
            if len(ends) != 2:
                raise self._refuse(f"ends of {where} has not two names")
            forth = back = self._bounds(table, "min", "max", where)
            if version == 2 and ("back_min" in table or "back_max" in table):
                back = self._bounds(table, "back_min", "back_max", where)
            links.append(Link(number, name, (ends[0], ends[1]), forth, back))
        return links

    def _domains(self, tables: List[Table], devices: Dict[str, int], links: Dict[str, int]) -> List[Domain]:
        before: Dict[str, int] = {}
        domains = []
        for number, table in enumerate(tables):
            name = self._name(table, "domain", number, before)
            where = f"domain {name}"
            domains.append(
                Domain(
                    number,
                    name,
                    self._names(table, "devices", where, devices, "device"),
                    self._names(table, "links", where, links, "link"),
                )
            )
        if sum(len(domain.devices) + len(domain.links) for domain in domains) > MOST_LISTED:
            raise self._refuse(f"the domains list more than {MOST_LISTED} things")
        return domains


def topology_text(topology: Topology) -> str:
    """The text of version 2 that means `topology`."""
    lines = ["version = 2"]
    for key in "ppm", "grain", "period", "tick", "loss", "depth":
        lines.append(f"{key} = {getattr(topology, key)}")
    names = [device.name for device in topology.devices]
    links = [link.name for link in topology.links]
    lines.append(f"roots = {_array(names[root] for root in topology.roots)}")
    for device in topology.devices:
        lines += ["", "[[device]]", f'name = "{device.name}"', f'side = "{device.side}"']
        lines += [f"ppm = {device.ppm}", f"grain = {device.grain}"]
    for link in topology.links:
        lines += ["", "[[link]]", f'name = "{link.name}"', f"ends = {_array(names[end] for end in link.ends)}"]
        lines += [f"min = {link.forth.min}", f"max = {link.forth.max}"]
        lines += [f"back_min = {link.back.min}", f"back_max = {link.back.max}"]
    for domain in topology.domains:
        lines += ["", "[[domain]]", f'name = "{domain.name}"']
        lines.append(f"devices = {_array(names[device] for device in domain.devices)}")
        lines.append(f"links = {_array(links[link] for link in domain.links)}")
    return "\n".join(lines) + "\n"


def _array(names: Any) -> str:
    return "[" + ", ".join(f'"{name}"' for name in names) + "]"
