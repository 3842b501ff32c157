"""Duties as a C header, as Rust, and as JSON."""

from __future__ import annotations

import json
from typing import Any, Callable, Dict, Iterable, Iterator, List, Optional, Tuple

from sundial_tools.duty.duties import ROLES, Chapter, Duty, Edge, Part
from sundial_tools.topology import Topology

# Where the duties are of one device alone, its tables have one dimension less.
Text = Iterator[str]

REPAIRS_APART = 3  # periods: docs/LIFE-OF-A-DEVICE.md, what a repair costs


def c_header(topology: Topology, chapters: List[Chapter], device: Optional[int]) -> Text:
    yield "/* Made by sundial-duty, of a topology and its plans: change those, and make it anew. Times are in"
    yield " * picoseconds. A device that a plan leaves out has a duty of epoch 0 there, which no call takes. */"
    yield "#ifndef SUNDIAL_DUTIES_H"
    yield "#define SUNDIAL_DUTIES_H"
    yield ""
    yield '#include "sundial_device.h"'
    yield ""
    yield "enum {"
    yield f"    SUNDIAL_DEVICES = {len(topology.devices)},"
    yield f"    SUNDIAL_LINKS = {len(topology.links)},"
    yield f"    SUNDIAL_PLANS = {len(chapters)},"
    yield f"    SUNDIAL_FIRST_EPOCH = {chapters[0].epoch}" + ("," if device is not None else "")
    if device is not None:
        yield f"    SUNDIAL_THIS_DEVICE = {device} /* {topology.devices[device].name} */"
    yield "};"
    yield ""
    yield "/* Two ticks of a device are at most this far apart. */"
    yield f"static const uint64_t SUNDIAL_TICK = UINT64_C({topology.tick});"
    yield "/* Joins, mends and restores that are not within a tick of each other are at least this far apart. */"
    yield f"static const uint64_t SUNDIAL_REPAIRS_APART = UINT64_C({REPAIRS_APART * topology.period});"
    yield ""
    yield "/* The names by number. */"
    yield from _names_in_c("SUNDIAL_DEVICE_NAMES", [it.name for it in topology.devices])
    yield from _names_in_c("SUNDIAL_LINK_NAMES", [it.name for it in topology.links])
    yield ""
    yield "/* A device below, and the link to it. */"
    yield "struct sundial_child {"
    yield "    uint32_t link;"
    yield "    uint32_t device;"
    yield "};"
    yield ""
    yield "/* The part of each device in each plan: the plan of epoch e is at e - SUNDIAL_FIRST_EPOCH. */"
    yield f"static const struct sundial_duty SUNDIAL_DUTIES[SUNDIAL_PLANS]{'[SUNDIAL_DEVICES]' if device is None else ''} = {{"
    yield from _rows(chapters, device, _duty_in_c, "    {{ /* plan {epoch} */", "    }},")
    yield "};"
    yield ""
    children, first = _children(chapters)
    yield "/* What a device sends goes over these links. The children of a device in a plan are those from its"
    yield " * number in SUNDIAL_FIRST_CHILD to before the next. */"
    yield f"static const struct sundial_child SUNDIAL_CHILDREN[{max(1, len(children))}] = {{"
    yield from _wrapped([f"{{{link}, {below}}}" for link, below in children] or ["{0, 0}"])
    yield "};"
    yield f"static const uint32_t SUNDIAL_FIRST_CHILD[SUNDIAL_PLANS][{'SUNDIAL_DEVICES' if device is None else '1'} + 1] = {{"
    for places in first:
        yield "    {"
        yield from _wrapped([str(it) for it in places], "        ")
        yield "    },"
    yield "};"
    yield ""
    yield "#endif"


def _rows(chapters: List[Chapter], device: Optional[int], written: Callable[[Part], str], begin: str, end: str) -> Text:
    for chapter in chapters:
        if device is None:
            yield begin.format(epoch=chapter.epoch)
        for part in chapter.parts:
            yield ("        " if device is None else "    ") + written(part)
        if device is None:
            yield end.format()


def _names_in_c(array: str, names: List[str]) -> Text:
    yield f"static const char *const {array}[{max(1, len(names))}] = {{"
    yield from _wrapped([f'"{name}"' for name in names] or ['""'])
    yield "};"


def _wrapped(words: Iterable[str], before: str = "    ") -> Text:
    """The words with commas, on lines of some 100 columns."""
    line = ""
    for word in words:
        if line and len(before) + len(line) + len(word) > 98:
            yield before + line.rstrip()
            line = ""
        line += f"{word}, "
    if line:
        yield before + line.rstrip()


def _duty_in_c(part: Part) -> str:
    duty = part.duty
    if duty is None:
        return f"{{{_edge_in_c(None)}, {_edge_in_c(None)}, 0, 0, 0, 0, {{0, 0}}, 0, SUNDIAL_ORDINARY, 0, 0}}, /* {part.device.name} */"
    numbers = ", ".join(f"UINT64_C({it})" for it in (duty.period, duty.wait_first, duty.wait_second, duty.wait))
    role = f"SUNDIAL_{ROLES[duty.role].upper()}"
    flags = f"{int(duty.primary is not None)}, {int(duty.backup is not None)}"
    return (
        f"{{{_edge_in_c(duty.primary)}, {_edge_in_c(duty.backup)}, {numbers}, "
        f"{{UINT64_C({duty.grain}), {duty.ppm}}}, {duty.epoch}, {role}, {flags}}}, /* {part.device.name} */"
    )


def _edge_in_c(edge: Optional[Edge]) -> str:
    return "{0, 0, 0, 0}" if edge is None else f"{{UINT64_C({edge.mid}), UINT64_C({edge.half}), {edge.parent}, {edge.link}}}"


def _children(chapters: List[Chapter]) -> Tuple[List[Tuple[int, int]], List[List[int]]]:
    """All children one after the other, and for each plan where those of each device begin, with the end behind the last."""
    children: List[Tuple[int, int]] = []
    first = []
    for chapter in chapters:
        places = []
        for part in chapter.parts:
            places.append(len(children))
            children += part.children
        first.append([*places, len(children)])
    return children, first


def rust(topology: Topology, chapters: List[Chapter], device: Optional[int]) -> Text:
    yield "// Made by sundial-duty, of a topology and its plans: change those, and make it anew. Times are in"
    yield "// picoseconds."
    yield "use sundial_device::{Duty, Edge, Rates};"
    yield ""
    yield "/// The number of the first of the plans."
    yield f"pub const FIRST_EPOCH: u32 = {chapters[0].epoch};"
    if device is not None:
        yield f"/// The number of the device `{topology.devices[device].name}`, whose duties these are."
        yield f"pub const THIS_DEVICE: u32 = {device};"
    yield "/// Two ticks of a device are at most this far apart, in ps."
    yield f"pub const TICK: u64 = {topology.tick};"
    yield "/// Joins, mends and restores that are not within a tick of each other are at least this far apart, in ps."
    yield f"pub const REPAIRS_APART: u64 = {REPAIRS_APART * topology.period};"
    for array, what, names in (
        ("DEVICE_NAMES", "devices", [it.name for it in topology.devices]), ("LINK_NAMES", "links", [it.name for it in topology.links])
    ):
        yield f"/// The names of the {what} by number."
        yield f"pub static {array}: [&str; {len(names)}] = ["
        yield from _wrapped([f'"{name}"' for name in names])
        yield "];"
    yield ""
    yield "/// The part of each device in each plan; `None` where the plan leaves it out."
    kind = f"[Option<Duty>; {len(topology.devices)}]" if device is None else "Option<Duty>"
    yield f"pub static DUTIES: [{kind}; {len(chapters)}] = ["
    yield from _rows(chapters, device, _duty_in_rust, "    [ // plan {epoch}", "    ],")
    yield "];"
    yield ""
    yield "/// Over which links each device sends in each plan, and to whom: pairs of a link and a device."
    kind = f"[&[(u32, u32)]; {len(topology.devices)}]" if device is None else "&[(u32, u32)]"
    yield f"pub static CHILDREN: [{kind}; {len(chapters)}] = ["
    yield from _rows(chapters, device, _children_in_rust, "    [ // plan {epoch}", "    ],")
    yield "];"


def _children_in_rust(part: Part) -> str:
    return "&[" + ", ".join(f"({link}, {below})" for link, below in part.children) + f"], // {part.device.name}"


def _duty_in_rust(part: Part) -> str:
    duty = part.duty
    if duty is None:
        return f"None, // {part.device.name}"
    return (
        f"Some(Duty {{ primary: {_edge_in_rust(duty.primary)}, backup: {_edge_in_rust(duty.backup)}, "
        f"period: {duty.period}, wait_first: {duty.wait_first}, wait_second: {duty.wait_second}, wait: {duty.wait}, "
        f"rates: Rates {{ grain: {duty.grain}, ppm: {duty.ppm} }}, epoch: {duty.epoch}, role: {duty.role}, "
        f"has_primary: {int(duty.primary is not None)}, has_backup: {int(duty.backup is not None)} }}), // {part.device.name}"
    )


def _edge_in_rust(edge: Optional[Edge]) -> str:
    edge = edge or Edge(0, 0, 0, 0)
    return f"Edge {{ mid: {edge.mid}, half: {edge.half}, parent: {edge.parent}, link: {edge.link} }}"


def as_json(topology: Topology, chapters: List[Chapter], _: Optional[int]) -> Text:
    made: Dict[str, Any] = {
        "version": 1,
        "tick": topology.tick,
        "repairs_apart": REPAIRS_APART * topology.period,
        "devices": [it.name for it in topology.devices],
        "links": [it.name for it in topology.links],
        "plans": [
            {"epoch": chapter.epoch, "parts": [_part_in_json(topology, part) for part in chapter.parts]} for chapter in chapters
        ],
    }
    yield json.dumps(made, indent=2)


def _part_in_json(topology: Topology, part: Part) -> Dict[str, Any]:
    return {
        "device": part.device.name,
        "number": part.device.number,
        "duty": None if part.duty is None else _duty_in_json(topology, part.duty),
        "children": [
            {"link": topology.links[link].name, "link_number": link, "device": topology.devices[below].name, "number": below}
            for link, below in part.children
        ],
    }


def _duty_in_json(topology: Topology, duty: Duty) -> Dict[str, Any]:
    return {
        "epoch": duty.epoch, "role": ROLES[duty.role],
        "primary": _edge_in_json(topology, duty.primary), "backup": _edge_in_json(topology, duty.backup),
        "period": duty.period, "wait_first": duty.wait_first, "wait_second": duty.wait_second, "wait": duty.wait,
        "ppm": duty.ppm, "grain": duty.grain,
    }


def _edge_in_json(topology: Topology, edge: Optional[Edge]) -> Optional[Dict[str, Any]]:
    if edge is None:
        return None
    return {
        "parent": topology.devices[edge.parent].name, "parent_number": edge.parent,
        "link": topology.links[edge.link].name, "link_number": edge.link, "mid": edge.mid, "half": edge.half,
    }


FORMS: Dict[str, Callable[[Topology, List[Chapter], Optional[int]], Text]] = {"c": c_header, "rust": rust, "json": as_json}
