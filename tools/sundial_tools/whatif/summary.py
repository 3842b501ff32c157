"""What happened, for people: the verdict, who moved when, and the greatest eps of each device beside its bound."""

from __future__ import annotations

from typing import Dict, Iterator, List, Optional, Sequence

from sundial_tools.plan import Plan
from sundial_tools.topology import Topology
from sundial_tools.whatif.program import BROKEN, Bounds, Replayed
from sundial_tools.whatif.scenario import Happening, Report, Scenario
from sundial_tools.whatif.wishes import us

MOST_MOVES, MOST_ROWS = 8, 40


class Summary:
    """`bounds` are those of the drill, and `under` says of what. `why_none` says why there are none."""

    def __init__(
        self, topology: Topology, plans: Sequence[Plan], scenario: Scenario, wishes: Sequence[str], replayed: Optional[Replayed],
        bounds: Bounds, under: str,
    ) -> None:
        self._topology, self._plans, self._scenario, self._wishes = topology, plans, scenario, wishes
        self._replayed, self._bounds, self._under = replayed, bounds, under

    def lines(self) -> Iterator[str]:
        settings, plan = self._scenario.settings, self._plans[0]
        yield f"Asked: {'; '.join(self._wishes) or 'nothing fails'}."
        drawn = f"seed {settings.seed}, delays {settings.delays}, clocks {settings.clocks}"
        yield f"Until {us(settings.until)}, {drawn}: {self._scenario.lines:,} lines."
        yield f"Plan 1: root {self._name(plan.root)}, backup root {self._name(plan.backup_root)}."
        yield ""
        yield from self._verdict()
        yield ""
        yield "What happened:"
        yield from self._happened()
        if self._scenario.reports:
            yield ""
            yield from self._table()

    def _name(self, device: int) -> str:
        return self._topology.devices[device].name

    def _verdict(self) -> Iterator[str]:
        replayed = self._replayed
        if replayed is None:
            yield "NOT REPLAYED: sundial is not on the path, so premises, alarms and bounds were not looked at."
            return
        if replayed.status == BROKEN:
            yield f"BROKEN: {len(replayed.found)} premises or alarms. What the drill promises does not hold here."
            yield from (f"  {text}" for text in replayed.found)
        else:
            yield "FINE: no premise broke, and no alarm came."
        if replayed.differs is not None:
            yield f"The report of line {replayed.differs} is not the one that the tools expected. That is a fault of the tools."
        over = [it for it in self._greatest(before_stage=True) if self._is_over(it)]
        if over:
            yield f"ABOVE THE BOUND: {', '.join(self._name(it) for it in over)}."

    def _is_over(self, device: int) -> bool:
        bound, report = self._bounds.get(device), self._greatest(before_stage=True)[device]
        return bound is not None and report.eps > bound

    def _happened(self) -> Iterator[str]:
        happenings = self._scenario.happenings
        if not happenings:
            yield "  nothing: each device stayed with its parent"
        moves: List[Happening] = []
        for one in [*happenings, None]:
            if one is not None and one.is_move:
                moves.append(one)
                continue
            yield from self._moved(moves)
            moves = []
            if one is not None:
                yield _at(one)

    def _moved(self, moves: Sequence[Happening]) -> Iterator[str]:
        """Many moves in a row are told by the first ones and the last."""
        few = len(moves) <= MOST_MOVES
        yield from (_at(it) for it in (moves if few else moves[:3]))
        if not few:
            yield f"{'...':>14}  {len(moves) - 4} more move to their backups"
            yield _at(moves[-1])

    def _greatest(self, before_stage: bool) -> Dict[int, Report]:
        """The widest report of each device, before the first renewal begins or from there on."""
        stage = self._scenario.first_stage
        found: Dict[int, Report] = {}
        for report in self._scenario.reports:
            if (not stage or report.line < stage) == before_stage:
                known = found.get(report.device)
                if known is None or report.eps > known.eps:
                    found[report.device] = report
        return found

    def _table(self) -> Iterator[str]:
        first, later = self._greatest(before_stage=True), self._greatest(before_stage=False)
        yield "The greatest eps of each device, in us" + (" (before the first renewal, and from there on):" if later else ":")
        yield self._row("device", "moved at", "eps", "asked at", "bound", "later eps" if later else "")
        order = sorted({*first, *later}, key=lambda it: (-(first[it].eps if it in first else 0), it))
        for device in order[:MOST_ROWS]:
            one, more = first.get(device), later.get(device)
            yield self._row(
                self._name(device), _us(self._scenario.moves.get(device)), _eps(one.eps if one else None),
                _us(one.ref if one else None), self._bound(device), _eps(more.eps) if more else "",
            )
        if len(order) > MOST_ROWS:
            yield f"  and {len(order) - MOST_ROWS} more devices with less"
        yield self._under

    def _bound(self, device: int) -> str:
        if device not in self._bounds:
            return ""
        bound = self._bounds[device]
        return "none" if bound is None else _eps(bound)

    def _row(self, *cells: str) -> str:
        width = max([6, *(len(device.name) for device in self._topology.devices)])
        return f"  {cells[0]:<{width}}" + "".join(f"{cell:>12}" for cell in cells[1:]).rstrip()


def _at(one: Happening) -> str:
    return f"{us(one.ref):>14}  {one.text}"


def _us(time: Optional[int]) -> str:
    return "" if time is None else f"{time / 10**6:,.1f}"


def _eps(eps: Optional[int]) -> str:
    return "" if eps is None else f"{eps / 10**6:,.3f}"
