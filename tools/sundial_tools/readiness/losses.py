"""Each loss of a fabric: who may move, how wide reports get, and whether what is left can be planned again."""

from __future__ import annotations

import os
import subprocess
import tempfile
from concurrent.futures import ThreadPoolExecutor
from typing import Callable, Dict, Iterator, List, NamedTuple, Optional, Tuple

from sundial_tools.effects import Effects
from sundial_tools.errors import ToolError
from sundial_tools.outputs import parse_line
from sundial_tools.plan import Plan
from sundial_tools.things import Named, all_named, left_without
from sundial_tools.topology import Topology

DONE, REFUSED = 0, 1
# The seeds that a search is asked with, up to the first with which it finds a plan.
SEEDS = ("1", "2", "3", "4")


class Bound(NamedTuple):
    """The greatest bound of a domain, the device that has it, and how many members have none."""

    eps: Optional[int]
    device: Optional[str]
    without: int


class Next(NamedTuple):
    """What comes after a loss: the two roots of the next plan, or why there is none. `refusal` is that of `renew`, and empty
    where it plans again. `searched` is whether the search was asked, and `search_refusal` what it said where it found none."""

    refusal: str
    roots: Tuple[str, ...]
    searched: bool = False
    search_refusal: str = ""

    @property
    def found(self) -> bool:
        """Whether the search found a plan where `renew` finds none."""
        return self.searched and not self.search_refusal


class Loss(NamedTuple):
    """`cut_off` are devices that no candidate for root reaches any more, and `budget` is BASE and HOLD of the bound."""

    named: Named
    takes_over: bool
    moving: Tuple[str, ...]
    bound: Bound
    cut_off: Tuple[str, ...]
    next: Next
    budget: Tuple[int, int]

    def row(self) -> Dict[str, object]:
        """The loss as a JSON object. Times are picoseconds."""
        refusal, roots = self.next.refusal, self.next.roots
        said: Dict[str, object] = {"found_by_search": self.next.found, "search_refusal": self.next.search_refusal or None}
        return {
            "kind": self.named.kind, "name": self.named.name, "takes_over": self.takes_over, "moving": list(self.moving),
            "base_ps": self.budget[0], "hold_ps": self.budget[1], "bound_ps": self.bound.eps, "bound_device": self.bound.device, "without_bound": self.bound.without,
            "cut_off": list(self.cut_off), "planned_again": not refusal, "refusal": refusal or None,
            "next_root": roots[0] if roots else None, "next_backup_root": roots[1] if roots else None,
            **(said if self.next.searched else {}),
        }


class Search(NamedTuple):
    """The second program, and the most moves that it makes for a loss."""

    program: str
    steps: int


class Losses:
    """Asks the program, and where it finds no plan the search. `files` are the paths of the topology and of the plan."""

    def __init__(
        self, program: str, topology: Topology, plan: Plan, files: Tuple[str, str], base: int, hold: int, search: Optional[Search] = None
    ) -> None:
        self._program, self._topology, self._plan, self._files = program, topology, plan, files
        self._budget, self._words, self._search = (base, hold), (str(base), str(hold)), search

    def all(self, step: Callable[[], None]) -> Iterator[Loss]:
        """Each loss, in the order of the checker. As many run at once as there are processors."""
        bounds = self._bounds()
        with tempfile.TemporaryDirectory() as folder, ThreadPoolExecutor(os.cpu_count() or 1) as pool:
            named = all_named(self._topology)
            paths = [os.path.join(folder, str(place)) for place in range(len(named))]
            effects = Effects(self._topology, self._plan)
            for one, (cut_off, then) in zip(named, pool.map(self._renewed, named, paths)):
                step()
                effect = effects.of(one)
                takes_over = self._plan.root in one.devices and effect.acts is not None
                moving = tuple(self._topology.devices[it].name for it in effect.moving)
                yield Loss(one, takes_over, moving, bounds.get(one.text, Bound(None, None, 0)), cut_off, then, self._budget)

    def _bounds(self) -> Dict[str, Bound]:
        found: Dict[str, Bound] = {}
        words = [self._program, "drill", *self._files, *self._words]
        said = ""
        with subprocess.Popen(words, stdout=subprocess.PIPE, encoding="ascii") as running:
            assert running.stdout is not None
            for text in running.stdout:
                said = text.strip()
                line = parse_line(said)
                if line is not None and line.kind in ("bound", "nobound"):
                    domain = line.fields["domain"]
                    key = f"{domain['kind']} {domain['name']}"
                    found[key] = _wider(found.get(key, Bound(None, None, 0)), line.fields.get("eps"), line.fields["device"])
        if running.returncode != DONE:
            raise ToolError(f"{self._program} drill ended with status {running.returncode}: {said}")
        return found

    def _renewed(self, named: Named, path: str) -> Tuple[Tuple[str, ...], Next]:
        """What the loss cuts off, and what comes after it."""
        plan = self._plan
        left = left_without(self._topology, {*named.devices, *plan.absent_devices}, {*named.links, *plan.absent_links})
        cut_off = tuple(self._topology.devices[it].name for it in left.cut_off)
        if not left.roots:
            return cut_off, Next("no candidate for root is left", ())
        with open(path, "w", encoding="ascii") as text:
            text.write(left.absent_text(self._topology))
        refusal, roots = _asked([self._program, "renew", *self._files, path])
        then = Next(refusal, roots)
        if refusal and self._search is not None:
            then = self._searched(refusal, path, self._search)
        os.unlink(path)
        return cut_off, then


    def _searched(self, refusal: str, path: str, search: Search) -> Next:
        """What a search finds, by some seed. What it says is that of the first one where it finds nothing."""
        said = ""
        for seed in SEEDS:
            why, roots = _asked([search.program, "renew", *self._files, path, *self._words, seed, str(search.steps)])
            if not why:
                return Next(refusal, roots, True)
            said = said or why
        return Next(refusal, (), True, said)


def _asked(words: List[str]) -> Tuple[str, Tuple[str, ...]]:
    """Why there is no plan, or nothing and the two roots of the plan that is printed."""
    done = subprocess.run(words, stdout=subprocess.PIPE, check=False)
    said = done.stdout.decode("ascii", "replace").strip()
    if done.returncode == REFUSED:
        return said.partition("\n")[0].removeprefix("refused plan 1 "), ()
    if done.returncode != DONE:
        raise ToolError(f"{' '.join(words[:2])} ended with status {done.returncode}: {said[:200]}")
    return "", _roots_of(said)


def _wider(known: Bound, eps: Optional[int], device: str) -> Bound:
    if eps is None:
        return known._replace(without=known.without + 1)
    return known._replace(eps=eps, device=device) if known.eps is None or eps > known.eps else known


def _roots_of(plan: str) -> Tuple[str, ...]:
    names = []
    for key in "root", "backup_root":
        _, found, rest = plan.partition(f'"{key}":"')
        names.append(rest.partition('"')[0] if found else "")
    return tuple(names)

