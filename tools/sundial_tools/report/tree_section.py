"""The part of the page that shows plans: picture, refusal, rows, and who moves where under each domain."""

from __future__ import annotations

from itertools import islice
from typing import Dict, List, Optional, Sequence

from sundial_tools.effects import Effect, Effects
from sundial_tools.errors import ToolError
from sundial_tools.plan import Plan
from sundial_tools.plan_table import HEADS, plan_rows, waits_said
from sundial_tools.report.changes import changes
from sundial_tools.report.fold import Drawing, draw
from sundial_tools.report.layout import lay_out
from sundial_tools.report.markup import Raw, as_json, element, filled, folded, region
from sundial_tools.report.refusal import Refusal
from sundial_tools.report.rows_list import RowsList
from sundial_tools.report.tables import MOST_NAMES, names_of, table
from sundial_tools.report.tree_picture import TreePicture, ranges, zoom_of
from sundial_tools.things import all_named
from sundial_tools.topology import Topology
from sundial_tools.tree import Tree
from sundial_tools.units import count, human

# In a larger plan, links that move just the device below them have no row of their own.
MOST_MOVES, MOST_PARENTS, FEW_NAMES = 200, 8, 3
# The table of a plan has so many rows at most, and is open where there are few.
MOST_ROWS, OPEN_ROWS = 200, 20


class TreeSection:
    """One plan of the page, the `place`th of its command from 1. `before` is the plan before it."""

    def __init__(self, topology: Topology, plan: Plan, place: int, refusal: Optional[Refusal], domain: Optional[str], before: Optional[Plan]) -> None:
        self._topology, self._plan, self._place, self._refusal = topology, plan, place, refusal
        effects = Effects(topology, plan)
        all_effects = [effects.of(domain) for domain in all_named(topology)]
        self._still = sum(effect.is_nothing for effect in all_effects)
        self._moved = sum(bool(effect.moving) for effect in all_effects)
        if domain is None and refusal is not None and refusal.domain is not None:
            domain = " ".join(refusal.domain)
        self._chosen = next((effect for effect in all_effects if effect.domain.text == domain), None)
        if domain is not None and self._chosen is None:
            raise ToolError(f"there is no fault domain {domain!r}: write listed, device or link and a name")
        shown = [effect for effect in all_effects if not effect.is_nothing]
        own = len(shown) > MOST_MOVES
        self._effects = [effect for effect in shown if self._is_choice(effect, own)]
        self._own = len(shown) - len(self._effects)
        # Those that can be chosen: all but links under which nobody moves.
        self._choices = [it for it in all_effects if it is self._chosen or self._is_choice(it, own)]
        self._changed = changes(before, plan).hops if before is not None else frozenset()
        self._tree = Tree(topology, plan)
        self._drawing: Drawing = draw(self._tree, frozenset(refusal.steps) if refusal is not None else frozenset())
        lay_out(self._drawing)

    @property
    def width(self) -> float:
        """How wide its picture is, in pixels of the page."""
        return self._drawing.width * zoom_of(self._drawing.width)

    def _is_choice(self, effect: Effect, own: bool) -> bool:
        if effect.is_nothing:
            return effect.domain.kind != "link" and not own
        return not (own and _is_own(self._plan, effect))

    def html(self) -> Raw:
        members = count(len(self._tree.members), "device")
        picture = TreePicture(self._topology, self._plan, self._drawing, self._chosen, self._refusal, self._changed, self._place)
        svg = picture.svg(f"The tree of plan {self._place}, {members}. The list of rows below says the same")
        options = [element("option", it.domain.text, value=number, selected=it is self._chosen) for number, it in enumerate(self._choices)]
        data = [[self._sentence(it), _states(it), ranges(it.domain.links)] for it in self._choices]
        marked = [("hop breach", "where the plan is refused")] if self._refusal is not None else []
        marked += [("hop changed", "not in the plan before")] if self._changed else []
        return filled(
            "plan", place=str(self._place), refused=self._refused(self._refusal) if self._refusal else "", facts=self._facts(), table=self._table(), options=options,
            effect=self._sentence(self._chosen) if self._chosen else "", data=as_json(data),
            picture=region(f"Picture of plan {self._place}", svg, class_="picture"),
            legend=[filled("key", key=key, text=text) for key, text in marked], moves=self._moves(),
            rows=folded(f"The rows of {members}", RowsList(self._tree, self._place).html(), class_="rows-of", is_open=len(self._tree.members) > len(self._drawing.boxes)),
        )

    def _refused(self, refusal: Refusal) -> Raw:
        names = [self._topology.devices[device].name for device in refusal.steps]
        way = names + names[:1] if refusal.condition == "loop" else names
        text = f" {refusal.meaning}" + (f" {refusal.in_words}" if refusal.in_words else "")
        text += f" The way that is marked: {' follows '.join(way)}." if len(way) > 1 else ""
        return element("p", element("code", refusal.text), text, class_="refused", data_condition=refusal.condition)

    def _facts(self) -> str:
        devices, plan = self._topology.devices, self._plan
        text = f"{count(len(self._tree.members), 'device')}, depth {max(self._tree.depths.values())}. "
        text += f"Root {devices[plan.root].name}, backup root {devices[plan.backup_root].name}. {waits_said(plan, self._topology, human)}"
        absent = (plan.absent_devices, "device"), (plan.absent_links, "link")
        left_out = ", ".join(count(len(things), thing) for things, thing in absent if things)
        return text + (f" Left out: {left_out}." if left_out else "")

    def _table(self) -> Raw:
        """The rows of the plan as they stand in it, the roots and those near them first."""
        total, rows = len(self._tree.members), list(islice(plan_rows(self._tree), MOST_ROWS))
        caption = f"The table of {count(total, 'device')}" + (f": the first {len(rows)}; the list of rows has all" if len(rows) < total else "")
        return folded(caption, table("plan-rows", HEADS, rows), is_open=total <= OPEN_ROWS)

    def _sentence(self, effect: Effect) -> str:
        text = f"Under {effect.domain.text}: {len(effect.moving)} of {count(len(self._plan.rows), 'device')} may move to their backups."
        text += f" No backup: {self._names(effect.without_backup)}." if effect.without_backup else ""
        if effect.acts in (None, self._plan.backup_root):
            text += " No root is left." if effect.acts is None else f" {self._names([effect.acts])} takes over as root."
        text += f" Cut off: {self._names(effect.cut)}." if effect.cut else ""
        return text + (f" Joined, and never hears again: {self._names(effect.silent)}." if effect.silent else "")

    def _names(self, devices: Sequence[int]) -> str:
        return names_of(self._topology, devices, MOST_NAMES if not self._own else FEW_NAMES)

    def _moves(self) -> Raw:
        nobody = len(self._effects) + self._own - self._moved
        said = f"Under {count(self._moved, 'domain')} somebody moves."
        said += f" Under {nobody} more nobody moves, and somebody hears nothing and has no backup." if nobody else ""
        said += f" Under the other {self._still} everybody goes on as before."
        own = f" Left out here: {count(self._own, 'link')}, each that of one device which nobody follows. The list of rows has its backup."
        head = ("domain", "who moves", "where", "no backup", "acts as root", "cut off", "never hears again")
        return folded(
            f"Who moves where, under each of {count(self._moved, 'domain')}",
            element("p", said + own * bool(self._own)),
            table("moves", head, [self._move_row(effect) for effect in self._effects]),
        )

    def _move_row(self, effect: Effect) -> List[str]:
        devices = self._topology.devices
        hops: Dict[str, List[int]] = {}
        for move in effect.moves:
            if move.hop is not None:
                hops.setdefault(devices[move.hop.parent].name, []).append(move.device)
        where = "; ".join(f"{parent}: {self._names(moving)}" for parent, moving in list(hops.items())[:MOST_PARENTS])
        where += f"; and to {count(len(hops) - MOST_PARENTS, 'other')}" if len(hops) > MOST_PARENTS else ""
        acts = devices[effect.acts].name if effect.acts is not None else "none"
        others = map(self._names, (effect.cut, effect.silent))
        return [effect.domain.text, str(len(effect.moving)), where, self._names(effect.without_backup), acts, *others]


def _is_own(plan: Plan, effect: Effect) -> bool:
    """A link that is the way of one device alone, which nobody follows."""
    return effect.domain.kind == "link" and len(effect.moves) == 1 and not plan.below(effect.moves[0].device)


def _states(effect: Effect) -> Dict[str, str]:
    return {state: ranges(devices) for state, devices in effect.states.items() if devices}
