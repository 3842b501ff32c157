"""Tables that a script can sort by a click on a head, and lists of names that stay short."""

from __future__ import annotations

import re
from typing import Iterable, List, Sequence, Tuple, Union

from sundial_tools.report.markup import Raw, element, region
from sundial_tools.topology import Topology
from sundial_tools.units import column, few

MOST_NAMES = 8
NUMBER = re.compile(r"-?[0-9][0-9,]*(\.[0-9]+)?( [a-z%]+)?")
Cell = Union[str, Raw, "tuple[str | Raw, int]"]
# A head, and what stands below it.
Column = Tuple[str, Sequence[Cell]]


def table(name: str, head: Sequence[str], rows: Iterable[Sequence[Cell]]) -> Raw:
    """A cell that is a pair has its text and the number that it is sorted by."""
    rows = list(rows)
    numeric = [bool(rows) and _is_number(rows[0][column]) for column in range(len(head))]
    heads = element("tr", [element("th", text, scope="col", class_="number" if right else None) for text, right in zip(head, numeric)])
    body = [element("tr", [_cell(cell) for cell in row]) for row in rows]
    whole = element("table", element("thead", heads), element("tbody", body), class_=f"sortable {name}")
    return region(f"Table: {name.replace('-', ' ')}", whole, class_="table")


def _cell(cell: Cell) -> Raw:
    if isinstance(cell, tuple):
        return element("td", cell[0], class_="number", data_value=cell[1])
    return element("td", cell, class_="number" if _is_number(cell) else None)


def _is_number(cell: Cell) -> bool:
    return isinstance(cell, tuple) or (not isinstance(cell, Raw) and NUMBER.fullmatch(cell) is not None)


def by_columns(name: str, columns: Sequence[Column]) -> Raw:
    return table(name, [head for head, _ in columns], zip(*(cells for _, cells in columns)))


def exact(heads: Sequence[str], values: Sequence[Sequence[int]], sign: str = "", beside: Sequence[int] = ()) -> List[Column]:
    """Columns of exact times with one unit, which heads name by {}, and as many decimals in each. With a sign they are sorted by size."""
    unit, texts = column([value for of in values for value in of], sign, beside)
    said = iter(texts)
    return [(head.format(unit), [(next(said), abs(value) if sign else value) for value in of]) for head, of in zip(heads, values)]


def names_of(topology: Topology, devices: Sequence[int], most: int = MOST_NAMES) -> str:
    return few([topology.devices[device].name for device in devices], most)
