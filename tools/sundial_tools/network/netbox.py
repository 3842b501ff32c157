"""Devices and cables from a NetBox export: the JSON that its REST API gives, NetBox 3.3 or later.

Each file is an answer of the API with its `results`, or a bare array of the same objects:
/api/dcim/devices/, /api/dcim/interfaces/ and /api/dcim/cables/. A list of several pages is several files.
"""

from __future__ import annotations

from collections import Counter
from dataclasses import dataclass
from typing import Any, Dict, List, Optional, Sequence, Set, Tuple

from sundial_tools.errors import ToolError
from sundial_tools.json_text import read_json
from sundial_tools.network.found import Found, FoundCable, FoundDevice

INTERFACE, PANEL_PORTS = "dcim.interface", ("dcim.frontport", "dcim.rearport")
POWER_PORT, POWER_OUTLET, POWER_FEED = "dcim.powerport", "dcim.poweroutlet", "dcim.powerfeed"
POWER = (POWER_PORT, POWER_OUTLET, POWER_FEED)
IN_USE = "active"
Entry = Dict[str, Any]


def _role(entry: Entry) -> Optional[str]:
    """The slug of a device's role. NetBox before 3.6 has it as device_role."""
    role = entry.get("role") or entry.get("device_role")
    return _text(role, "slug") if isinstance(role, dict) else None


def _text(entry: Entry, key: str) -> str:
    """A text of an entry. Raises TypeError where it is none, as a missing key raises KeyError."""
    value = entry[key]
    if not isinstance(value, str):
        raise TypeError(f"the {key} {value!r}, which is no text")
    return value


def _choice(entry: Entry, key: str) -> Optional[str]:
    """The value of a field that is a choice. None where it is not there."""
    said = entry.get(key)
    said = said.get("value") if isinstance(said, dict) else said
    return said if isinstance(said, str) and said else None


@dataclass(frozen=True)
class End:
    """One end of a cable: the type and number of its port, the port's name and its device."""

    kind: str
    number: int
    name: str
    device: Optional[str]
    device_number: Optional[int]


@dataclass(frozen=True)
class Choices:
    """`statuses` are those of devices that are taken; a device without one is active."""

    ignored: Set[str]
    ignored_roles: Set[str]
    unracked: Set[str]
    unfed: Set[str]
    no_racks: bool
    no_feeds: bool
    side_field: Optional[str]
    statuses: Set[str]


def read_entries(paths: Sequence[str]) -> List[Entry]:
    """The entries of a list, of all of its pages."""
    entries: List[Entry] = []
    totals: Set[int] = set()
    following: List[str] = []
    for path in paths:
        said = read_json(path)
        if isinstance(said, dict):
            if said.get("next"):
                following.append(str(said["next"]))
            if isinstance(said.get("count"), int):
                totals.add(said["count"])
            said = said.get("results")
        if not isinstance(said, list) or not all(isinstance(entry, dict) and _is_id(entry.get("id")) for entry in said):
            raise ToolError("not what the REST API of NetBox gives: no results with an id, a whole number", path)
        entries += said
    where = ", ".join(paths)
    twice = [number for number, count in Counter(entry["id"] for entry in entries).items() if count > 1]
    if twice:
        raise ToolError(f"the id {twice[0]} is there twice: on two pages, or in a page that was given twice", where)
    if len(following) >= len(paths):
        raise ToolError(f"one page of several: the next is {following[-1]}. Give all pages, one file each", where)
    if totals and totals != {len(entries)}:
        raise ToolError(f"{len(entries)} results of {max(totals)}: give all pages, one file each", where)
    return entries


def _is_id(value: Any) -> bool:
    return isinstance(value, int) and not isinstance(value, bool)


class Netbox:
    def __init__(
        self, devices: Sequence[str], interfaces: Sequence[str], cables: Sequence[str], choices: Choices
    ) -> None:
        self._paths = {"devices": ", ".join(devices), "interfaces": ", ".join(interfaces), "cables": ", ".join(cables)}
        self._choices = choices
        self._devices = {entry["id"]: entry for entry in read_entries(devices)}
        self._interfaces = {entry["id"]: entry for entry in read_entries(interfaces)}
        self._cables = {entry["id"]: entry for entry in read_entries(cables)}
        # The devices that are left out, each with the reason.
        self._out: Dict[int, str] = {}
        self._rack_names: Dict[int, str] = {}
        self._feed_names: Dict[int, str] = {}
        self._feeds: Dict[int, Set[int]] = {}
        self._outlets: Dict[int, Set[int]] = {}

    def found(self) -> Found:
        try:
            return self._found()
        except (KeyError, TypeError, AttributeError) as fault:
            raise ToolError(
                f"not what the REST API of NetBox gives: {type(fault).__name__} at {fault}",
                f"{self._paths['devices']}, {self._paths['interfaces']} or {self._paths['cables']}",
            ) from None

    def _found(self) -> Found:
        found = Found()
        self._leave_out_devices()
        self._power(found)
        self._name_racks()
        for number, entry in self._devices.items():
            if number in self._out:
                found.leave_out(*self._told(number))
            else:
                found.devices.append(self._device(entry))
        seen: Set[Tuple[int, int]] = set()
        for number in sorted(self._cables):
            cable = self._cable(self._cables[number], found, seen)
            if cable is not None:
                found.cables.append(cable)
        self._all_there()
        return found

    def _refuse(self, kind: str, reason: str) -> ToolError:
        return ToolError(reason, self._paths[kind])

    # Devices

    def _leave_out_devices(self) -> None:
        for number, entry in self._devices.items():
            status = _choice(entry, "status") or IN_USE
            if entry.get("name") and entry["name"] in self._choices.ignored or _role(entry) in self._choices.ignored_roles:
                self._out[number] = "ignored devices"
            elif status not in self._choices.statuses:
                self._out[number] = f"devices that are {status}"

    def _told(self, number: int) -> Tuple[str, str]:
        """What is said of a device that is left out. Who says that it is to be ignored knows which one it is."""
        reason = self._out[number]
        named = reason != "ignored devices"
        return reason, str(self._devices[number].get("name") or f"id {number}") if named else ""

    def _device(self, entry: Entry) -> FoundDevice:
        name, number = entry.get("name"), entry["id"]
        if not name:
            raise self._refuse("devices", f"the device {number} has no name")
        role, kind = _role(entry), entry.get("device_type")
        if role is None or not isinstance(kind, dict):
            raise self._refuse("devices", f"the device {name} (id {number}) has no role or no device_type")
        return FoundDevice(
            _text(entry, "name"), _text(kind, "slug"), role, self._rack(entry), self._device_feeds(entry), self._side(entry),
            f"{self._paths['devices']}, id {number}",
        )

    def _name_racks(self) -> None:
        """A rack has its name; where racks of several sites have the same one, the site stands before it."""
        racks: Dict[int, Tuple[str, str]] = {}
        for entry in self._devices.values():
            rack, site = entry.get("rack"), entry.get("site")
            if isinstance(rack, dict):
                racks[rack["id"]] = (_text(rack, "name"), _text(site, "slug") if isinstance(site, dict) else "")
        alike = Counter(name for name, _ in racks.values())
        with_site = Counter(racks.values())
        for number, (name, site) in racks.items():
            known = name if alike[name] == 1 else f"{site}-{name}" if site and with_site[name, site] == 1 else f"{name}-id{number}"
            self._rack_names[number] = known

    def _rack(self, entry: Entry) -> Optional[str]:
        if self._choices.no_racks or entry["name"] in self._choices.unracked:
            return None
        if not entry.get("rack"):
            raise self._refuse(
                "devices", f"the device {entry['name']} (id {entry['id']}) has no rack: give it one, "
                f"or say --without-rack {entry['name']}, or --no-racks",
            )
        return self._rack_names[entry["rack"]["id"]]

    def _side(self, entry: Entry) -> str:
        field = self._choices.side_field
        if field is None:
            return "root"
        value = (entry.get("custom_fields") or {}).get(field)
        value = value.get("value") if isinstance(value, dict) else value
        if value not in ("root", "backup"):
            raise self._refuse(
                "devices", f"the custom field {field} of {entry['name']} is {value!r}, and has to be root or backup"
            )
        return str(value)

    def _device_feeds(self, entry: Entry) -> Tuple[str, ...]:
        if self._choices.no_feeds or entry["name"] in self._choices.unfed:
            return ()
        feeds = self._feeds_of(entry["id"], set())
        if not feeds:
            raise self._refuse(
                "cables", f"no cable leads from {entry['name']} (id {entry['id']}) to a power feed: add it, "
                f"or say --without-feed {entry['name']}, or --no-feeds",
            )
        return tuple(sorted(self._feed_names[feed] for feed in feeds))

    # Power

    def _power(self, found: Found) -> None:
        """Notes which device hangs on which feeds, and on the outlets of which other devices."""
        names: Dict[int, str] = {}
        for cable in self._cables.values():
            if not any(self._kind_of(cable, side) in POWER for side in "ab") or not self._is_whole(cable):
                continue
            first, second = self._end(cable, "a"), self._end(cable, "b")
            for end, far in (first, second), (second, first):
                if far.kind == POWER_FEED:
                    names[far.number] = far.name
                if end.kind != POWER_PORT or end.device_number is None:
                    continue
                if far.kind == POWER_FEED:
                    self._feeds.setdefault(end.device_number, set()).add(far.number)
                elif far.kind == POWER_OUTLET and far.device_number is not None:
                    self._outlets.setdefault(end.device_number, set()).add(far.device_number)
        # Feeds of two panels may have the same name, and the export does not say which panel it is.
        alike = Counter(names.values())
        self._feed_names = {number: name if alike[name] == 1 else f"{name}-id{number}" for number, name in names.items()}

    def _feeds_of(self, device: int, above: Set[int]) -> Set[int]:
        feeds = set(self._feeds.get(device, ()))
        for supply in self._outlets.get(device, set()) - above:
            feeds |= self._feeds_of(supply, above | {device})
        return feeds

    # Cables

    def _ends(self, cable: Entry, side: str) -> List[Entry]:
        ends = cable.get(f"{side}_terminations")
        if not isinstance(ends, list) or not all(isinstance(end, dict) for end in ends):
            raise self._refuse("cables", f"the cable {cable['id']} has no {side}_terminations: NetBox 3.3 or later gives them")
        return ends

    def _kind_of(self, cable: Entry, side: str) -> Optional[str]:
        ends = self._ends(cable, side)
        return ends[0].get("object_type") if ends else None

    def _is_whole(self, cable: Entry) -> bool:
        """One end on each side."""
        return len(self._ends(cable, "a")) == 1 and len(self._ends(cable, "b")) == 1

    def _end(self, cable: Entry, side: str) -> End:
        (end,) = self._ends(cable, side)
        port = end.get("object") or {}
        device = port.get("device") or {}
        name = _text(port, "name") if "name" in port else ""
        return End(end["object_type"], end["object_id"], name, device.get("name"), device.get("id"))

    def _cable(self, cable: Entry, found: Found, seen: Set[Tuple[int, int]]) -> Optional[FoundCable]:
        """The link of a cable. One that is none is counted among what is left out."""
        kinds = [self._kind_of(cable, side) for side in "ab"]
        if INTERFACE not in kinds:
            found.leave_out("cables of other ports than interfaces")
            return None
        if not self._is_whole(cable):
            several = any(len(self._ends(cable, side)) > 1 for side in "ab")
            found.leave_out("cables with several ends on a side" if several else "cables with one end", f"cable {cable['id']}")
            return None
        first, second = self._end(cable, "a"), self._end(cable, "b")
        status = _choice(cable, "status")
        if status not in (None, "connected"):
            found.leave_out(f"cables that are {status}")
            return None
        if first.kind in PANEL_PORTS or second.kind in PANEL_PORTS:
            ends = self._through_panels(cable, first if first.kind == INTERFACE else second, found)
            if ends is None:
                return None
            first, second = ends
        elif (first.kind, second.kind) != (INTERFACE, INTERFACE):
            found.leave_out("cables of other ports than interfaces")
            return None
        return self._link(cable, (first, second), found, seen)

    def _link(self, cable: Entry, ends: Tuple[End, End], found: Found, seen: Set[Tuple[int, int]]) -> Optional[FoundCable]:
        ports = [self._interface(cable, end) for end in ends]
        if any(port.get("mgmt_only") for port in ports):
            found.leave_out("cables of management ports")
            return None
        names = [_text(port["device"], "name") for port in ports]
        for name, port in zip(names, ports):
            reason = self._out.get(port["device"]["id"], "ignored devices" if name in self._choices.ignored else None)
            if reason is not None:
                found.leave_out(f"cables of {reason}")
                return None
        for port in ports:
            if port.get("enabled") is False:
                found.leave_out("cables of interfaces that are disabled", f"{port['device']['name']} {port['name']}")
                return None
        pair = (min(ends[0].number, ends[1].number), max(ends[0].number, ends[1].number))
        if pair in seen:
            return None
        seen.add(pair)
        for name, port in zip(names, ports):
            self._known(cable, name, port)
        return FoundCable(
            _text(cable, "label") if cable.get("label") else "", names[0], _text(ports[0], "name"), names[1],
            _text(ports[1], "name"), _choice(cable, "type") or "", (),
            f"{self._paths['cables']}, cable {cable['id']}",
        )

    def _interface(self, cable: Entry, end: End) -> Entry:
        port = self._interfaces.get(end.number)
        if port is None:
            raise self._refuse(
                "interfaces", f"no interface {end.number} ({end.device} {end.name}), where the cable {cable['id']} ends"
            )
        return port

    def _known(self, cable: Entry, name: str, port: Entry) -> None:
        if port["device"]["id"] not in self._devices:
            raise self._refuse(
                "devices", f"no device {name} (id {port['device']['id']}), where the cable {cable['id']} ends: "
                f"add it, or say --ignore {name}",
            )

    def _through_panels(self, cable: Entry, near: End, found: Found) -> Optional[Tuple[End, End]]:
        """The far end that NetBox traced through patch panels. A way that is not whole is left out."""
        port = self._interface(cable, near)
        far = port.get("connected_endpoints") or []
        place = f"{near.device} {near.name}, cable {cable['id']}"
        if len(far) != 1 or port.get("connected_endpoints_type") != INTERFACE:
            found.leave_out("ways through patch panels that end at no one interface", place)
            return None
        if port.get("connected_endpoints_reachable") is False:
            found.leave_out("ways through patch panels with a cable that is not connected", place)
            return None
        device = far[0].get("device") or {}
        return near, End(INTERFACE, far[0]["id"], far[0].get("name", ""), device.get("name"), device.get("id"))

    def _all_there(self) -> None:
        """Refuses an interface whose cable is not among the cables."""
        for port in self._interfaces.values():
            cable = port.get("cable")
            number = cable.get("id") if isinstance(cable, dict) else cable
            if number is not None and number not in self._cables:
                raise self._refuse(
                    "cables", f"no cable {number}, which the interface {port['device']['name']} {port['name']} has"
                )
