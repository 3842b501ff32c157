"""The part of the page that shows readiness: what each loss does, and whether what is left can be planned again."""

from __future__ import annotations

from typing import Any, Dict, Iterator, List

from sundial_tools.outputs import parse_line
from sundial_tools.report.markup import Raw, element, filled, folded, joined
from sundial_tools.report.readiness import Readiness
from sundial_tools.report.refusal import MEANING
from sundial_tools.report.tables import MOST_NAMES, Column, by_columns, exact
from sundial_tools.units import clear, count, few

OPEN_ROWS, MOST_LOSSES = 40, 3


def readiness_section(readiness: Readiness) -> Raw:
    again, found = readiness.count("planned_again"), readiness.count("found_by_search")
    facts = f"{again} of {count(readiness.losses, 'loss', 'losses')} can be planned again."
    facts += f" After {readiness.losses - again} the rule of renew finds no plan: they come first." if again < readiness.losses else ""
    facts += f" After {found} of these the search finds one." if found else ""
    base, hold = map(clear, readiness.budget)
    return filled("readiness", facts=facts, table=_table(readiness), base=base, hold=hold)


def _table(readiness: Readiness) -> Raw:
    said, alike = [it.said for it in readiness.outcomes], [it.names for it in readiness.outcomes]
    ((head, bounds),) = exact(["greatest eps, {}"], [[it["bound_ps"] or 0 for it in said]])
    columns: List[Column] = [
        ("loss", list(map(_losses, alike))), ("alike", [str(len(names)) for names in alike]),
        ("may move", [(_moving(it), len(it["moving"])) for it in said]),
        (head, ["none" if it["bound_ps"] is None else bound for it, bound in zip(said, bounds)]), ("at", [it["bound_device"] or "" for it in said]),
        ("without bound", [(str(it["without_bound"]), it["without_bound"]) for it in said]),
        ("cut off", [few(it["cut_off"], MOST_NAMES) for it in said]), ("planned again", [joined(_next(it)) for it in said]),
    ]
    caption = f"{count(len(said), 'outcome')} of {count(readiness.losses, 'loss', 'losses')}"
    return folded(caption, by_columns("losses", columns), is_open=len(said) <= OPEN_ROWS)


def _losses(names: List[str]) -> Raw:
    """The losses of one outcome. Of many, the first ones, and all of them on demand."""
    shown, more = element("span", ", ".join(names[:MOST_LOSSES])), names[MOST_LOSSES:]
    return joined([shown, folded(f"and {len(more)} more", ", ".join(more), class_="alike")]) if more else shown


def _moving(said: Dict[str, Any]) -> Raw:
    text = str(len(said["moving"])) + (", takes over" if said["takes_over"] else "")
    return element("span", text, title=few(said["moving"], MOST_NAMES) or None)


def _next(said: Dict[str, Any]) -> Iterator[Raw]:
    roots = ", ".join(said[key] for key in ("next_root", "next_backup_root") if said[key])
    if said["planned_again"]:
        yield element("span", f"yes: {roots}")
        return
    refusal = said["refusal"] or "not said why"
    line = parse_line(f"refused plan 1 {refusal}")
    yield element("span", f"no: {refusal}")
    if line is not None:
        yield element("span", MEANING[line.kind.removeprefix("refused ")], class_="cause")
    if said.get("found_by_search"):
        yield element("span", f"by a search: {roots}", class_="cause")
    elif said.get("search_refusal"):
        yield element("span", f"search: {said['search_refusal']}", class_="cause")
