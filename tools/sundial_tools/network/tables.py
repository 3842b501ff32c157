"""CSV tables: of devices, of links, of oscillators by kind and of delays by kinds."""

from __future__ import annotations

import csv
from dataclasses import dataclass
from typing import Dict, Iterator, List, Sequence, Tuple

from sundial_tools.errors import ToolError
from sundial_tools.inputs import read_lines
from sundial_tools.json_text import whole
from sundial_tools.network.found import FoundCable, FoundDevice
from sundial_tools.times import time_of
from sundial_tools.topology import MOST_PICOSECONDS, Bounds

NONE = "-"
DEVICE_COLUMNS = ("name", "kind", "role", "rack", "feeds", "side")
LINK_COLUMNS = ("name", "first", "second", "medium", "conduits")


@dataclass(frozen=True)
class Row:
    """One line of a table: its cells by column."""

    cells: Dict[str, str]
    path: str
    line: int

    @property
    def place(self) -> str:
        return f"{self.path}:{self.line}"

    def refuse(self, reason: str) -> ToolError:
        return ToolError(reason, self.path, self.line)

    def need(self, column: str) -> str:
        cell = self.cells.get(column, "")
        if not cell:
            raise self.refuse(f"the column {column} is empty")
        return cell

    def may(self, column: str) -> str:
        return self.cells.get(column, "")

    def time(self, column: str, least: int, most: int) -> int:
        try:
            return time_of(self.need(column), least, most)
        except ToolError as fault:
            raise self.refuse(f"{column} {fault.reason}") from None


def read_rows(path: str, needed: Sequence[str], optional: Sequence[str] = ()) -> Iterator[Row]:
    """The rows of a table whose first line names its columns. Lines that begin with # are left out."""
    reader = csv.reader((line.removeprefix("\ufeff") for line in read_lines(path)), strict=True)
    try:
        columns = _columns(next(reader, []), path, needed, optional)
        for cells in reader:
            if not cells or cells[0].startswith("#"):
                continue
            if len(cells) != len(columns):
                raise ToolError(f"{len(cells)} cells, and there are {len(columns)} columns", path, reader.line_num)
            yield Row(dict(zip(columns, (cell.strip() for cell in cells))), path, reader.line_num)
    except csv.Error as fault:
        raise ToolError(f"no CSV: {fault}", path, reader.line_num) from None


def _columns(line: List[str], path: str, needed: Sequence[str], optional: Sequence[str]) -> List[str]:
    columns = [column.strip() for column in line]
    for column in needed:
        if column not in columns:
            raise ToolError(f"the first line has to name the columns {','.join(needed)}: {column} is missing", path, 1)
    for column in columns:
        if column not in needed and column not in optional:
            raise ToolError(f"unknown column {column!r}", path, 1)
        if columns.count(column) > 1:
            raise ToolError(f"the column {column} is there twice", path, 1)
    return columns


def _names(cell: str) -> Tuple[str, ...]:
    return () if cell in ("", NONE) else tuple(cell.split("+"))


def read_devices(path: str) -> List[FoundDevice]:
    devices: Dict[str, FoundDevice] = {}
    for row in read_rows(path, DEVICE_COLUMNS[:5], DEVICE_COLUMNS[5:]):
        name = row.need("name")
        if name in devices:
            raise row.refuse(f"the device {name} is there twice, first at {devices[name].place}")
        side = row.may("side") or "root"
        if side not in ("root", "backup"):
            raise row.refuse(f"side is {side!r}, and has to be root or backup")
        rack, feeds = row.need("rack"), _names(row.need("feeds"))
        devices[name] = FoundDevice(
            name, row.need("kind"), row.need("role"), None if rack == NONE else rack, feeds, side, row.place
        )
    return list(devices.values())


def read_links(path: str) -> List[FoundCable]:
    cables = []
    for row in read_rows(path, LINK_COLUMNS[:3], LINK_COLUMNS[3:]):
        for column in "first", "second":
            if not row.may(column):
                raise row.refuse(f"the link {row.need('name')} has one end: the column {column} is empty")
        cables.append(
            FoundCable(
                row.need("name"), row.need("first"), "", row.need("second"), "", row.may("medium"),
                _names(row.may("conduits")), row.place,
            )
        )
    return cables


@dataclass(frozen=True)
class Oscillators:
    """ppm and grain by kind of device."""

    path: str
    rates: Dict[str, Tuple[int, int]]

    def of(self, device: FoundDevice) -> Tuple[int, int]:
        rate = self.rates.get(device.kind)
        if rate is None:
            raise ToolError(
                f"no oscillator for the kind {device.kind} of {device.name} ({device.place}): "
                f"add the line {device.kind},PPM,GRAIN", self.path,
            )
        return rate


def read_oscillators(path: str) -> Oscillators:
    rates: Dict[str, Tuple[int, int]] = {}
    for row in read_rows(path, ("kind", "ppm", "grain")):
        kind = row.need("kind")
        if kind in rates:
            raise row.refuse(f"the kind {kind} is there twice")
        ppm = row.need("ppm")
        rate = whole(ppm)
        if rate is None or rate > 100000:
            raise row.refuse(f"ppm is {ppm!r}, and has to be a whole number from 0 to 100000")
        rates[kind] = (rate, row.time("grain", 0, MOST_PICOSECONDS))
    return Oscillators(path, rates)


@dataclass(frozen=True)
class Delays:
    """Bounds by kind of the sender, kind of the receiver and medium. An empty medium is any."""

    path: str
    bounds: Dict[Tuple[str, str, str], Bounds]

    def of(self, cable: FoundCable, sender: FoundDevice, receiver: FoundDevice) -> Bounds:
        for medium in (cable.medium, ""):
            bounds = self.bounds.get((sender.kind, receiver.kind, medium))
            if bounds is not None:
                return bounds
        raise ToolError(
            f"no delay from the kind {sender.kind} to the kind {receiver.kind}"
            + (f" over {cable.medium}" if cable.medium else "")
            + f", for the link of {sender.name} and {receiver.name} ({cable.place}): "
            f"add the line {sender.kind},{receiver.kind},MIN,MAX", self.path,
        )


def read_delays(path: str) -> Delays:
    table: Dict[Tuple[str, str, str], Bounds] = {}
    for row in read_rows(path, ("from", "to", "min", "max"), ("medium",)):
        key = (row.need("from"), row.need("to"), row.may("medium"))
        if key in table:
            raise row.refuse(f"the delay from {key[0]} to {key[1]} is there twice")
        least = row.time("min", 0, MOST_PICOSECONDS)
        table[key] = Bounds(least, row.time("max", least, MOST_PICOSECONDS))
    return Delays(path, table)
