"""The words of sundial-report."""

from __future__ import annotations

import argparse
import os
import time
from typing import Callable, Dict, Iterator, List, Optional, Tuple, TypeVar

from sundial_tools import __version__
from sundial_tools.calm import read_calm
from sundial_tools.errors import ToolError
from sundial_tools.inputs import as_files, read_lines
from sundial_tools.outputs import NotComputed, OutputLine, read_output
from sundial_tools.plan import Plan, default_hold, read_plan
from sundial_tools.report.changes import changes_section
from sundial_tools.report.drill import Drill, read_drill
from sundial_tools.report.drill_section import DrillSection, budget_text
from sundial_tools.report.markup import Raw, element
from sundial_tools.report.page import contents, page, sources_table
from sundial_tools.report.parts import Makeup
from sundial_tools.report.readiness import Readiness, read_readiness
from sundial_tools.report.readiness_section import readiness_section
from sundial_tools.report.refusal import Refusal, refusal_of
from sundial_tools.report.replay import Replay, ReplayReader
from sundial_tools.report.replay_section import replay_section
from sundial_tools.report.tree_section import TreeSection
from sundial_tools.report.verdict import WORDS, verdict
from sundial_tools.safe_write import Progress, whole_output
from sundial_tools.times import time_option
from sundial_tools.topology import Topology, read_topology
from sundial_tools.units import clear, count, human

PARTS = ("tree", "drill", "replay", "readiness")
# How wide a plan is at the least where plans stand side by side, in pixels of the page.
LEAST_BESIDE, MOST_BESIDE = 360, 520
BASE = 10**6
Numbers = TypeVar("Numbers")


def main(words: List[str]) -> int:
    said = _parser().parse_args(words)
    with as_files(said, "topology", "plans", "replay", "check", "drill", "bounds", "readiness"):
        return _write(said)


def _write(said: argparse.Namespace) -> int:
    topology = read_topology(said.topology)
    plans = [read_plan(path, topology) for path in said.plans]
    report = _Report(said, topology, plans)
    with whole_output(said.output) as output:
        output.write(report.page())
    if said.text is not None:
        with whole_output(said.text) as output:
            output.write(report.verdict.text())
    return 0


def _parser() -> argparse.ArgumentParser:
    parser = argparse.ArgumentParser(
        prog="sundial-report",
        description="Makes one HTML page of a topology with its plans, a drill, a replay and readiness. It opens with a verdict.",
        epilog="The page needs no network and no other file. See docs/REPLAY.md.",
    )
    parser.add_argument("topology", metavar="TOPOLOGY")
    parser.add_argument("plans", metavar="PLAN", nargs="+", help="the plans, in the order of the command")
    parser.add_argument("--check", metavar="FILE", help="what `sundial check` printed: a refusal is marked")
    parser.add_argument("--drill", metavar="FILE", help="what `sundial drill` printed over the first plan")
    parser.add_argument("--bounds", metavar="FILE", help="what `sundialctl bounds` printed over the first plan: the replay shows what a healthy fabric stays below")
    parser.add_argument("--base", type=time_option(), metavar="TIME", help="BASE of the drill (default: that of readiness, or 1us)")
    parser.add_argument(
        "--hold", type=time_option(), metavar="TIME",
        help="HOLD of the drill (default: that of readiness, or both waits of the backup root, and three ticks)",
    )
    parser.add_argument(
        "--of", action="append", default=[], metavar="PATTERN", help="the drill of devices with such names, as 'leaf*' (default: hosts, or all)"
    )
    parser.add_argument("--readiness", metavar="FILE", help="what `sundial-readiness --json` printed over the first plan")
    parser.add_argument(
        "--replay", nargs=2, metavar=("SCHEDULE", "FILE"), help="a schedule, and what `sundial replay` or `order` printed"
    )
    parser.add_argument("--domain", metavar="DOMAIN", help="show the trees under this domain, as 'listed rack0'")
    parser.add_argument("--only", metavar="PART", choices=PARTS, action="append", help="only this part: tree, drill, replay or readiness")
    parser.add_argument("--text", metavar="FILE", help="write the verdict as plain text, too, for those who cannot see the page")
    parser.add_argument("--title", metavar="TEXT", help="the heading of the page")
    parser.add_argument("--output", "-o", metavar="FILE", help="where the page goes (default: standard output)")
    return parser


def _today() -> str:
    """The day and minute on which the page is made. SOURCE_DATE_EPOCH says another one, for pages that are made again."""
    said = os.environ.get("SOURCE_DATE_EPOCH", "")
    now = int(said) if said.isascii() and said.isdigit() and len(said) < 12 else time.time()
    return time.strftime("%Y-%m-%d %H:%M UTC", time.gmtime(now))


class _Report:
    def __init__(self, said: argparse.Namespace, topology: Topology, plans: List[Plan]) -> None:
        self._said, self._topology, self._plans = said, topology, plans
        self._refusals: Dict[int, Refusal] = {}
        self._accepted = False

    def page(self) -> str:
        self._check()
        drill, calm, replay = self._computed(self._said.drill, read_drill), self._computed(self._said.bounds, read_calm), self._replay()
        name = self._said.readiness
        readiness = None if name is None else read_readiness(read_lines(name), self._topology, name)
        shown = replay if replay is not None and replay.refused_plan is None else None
        accepted = self._accepted or any(it is not None for it in (drill, calm, readiness))
        self.verdict = verdict([self._refusals[place] for place in sorted(self._refusals)], shown, accepted)
        parts: List[Tuple[str, str, Optional[Raw]]] = [
            ("verdict", "Verdict", self.verdict.html()),
            ("replay", "Replay", replay_section(self._topology, shown, calm or {}) if shown is not None and self._wants("replay") else None),
            ("plans", "Plans" if len(self._plans) > 1 else "Plan", self._trees() if self._wants("tree") else None),
            ("drill", "Drill", self._drilled(drill, calm or {}, readiness) if drill is not None and self._wants("drill") else None),
            ("readiness", "Readiness", readiness_section(readiness) if readiness is not None and self._wants("readiness") else None),
            ("files", "Files", self._files()),
        ]
        links = contents([(anchor, text) for anchor, text, section in parts if section is not None])
        sections = [section for *_, section in parts if section is not None]
        return page(self._said.title or "Sundial: a fabric and its plans", WORDS[self.verdict.kind], [self._facts(), links], sections)

    def _drilled(self, drill: Drill, calm: Dict[int, int], readiness: Optional[Readiness]) -> Raw:
        """The drill, with BASE and HOLD as they are said, or as readiness has them."""
        said, plan = self._said, self._plans[0]
        base, hold = readiness.budget if readiness is not None else (BASE, default_hold(self._topology, plan))
        makeup = Makeup(self._topology, plan, base if said.base is None else said.base, hold if said.hold is None else said.hold)
        section = DrillSection(self._topology, plan, drill, calm, makeup, said.of)
        if readiness is not None and (makeup.base, makeup.hold) != readiness.budget:
            raise ToolError(f"sundial-readiness had BASE {clear(base)} and HOLD {clear(hold)}: make it and the drill with the same", said.readiness)
        if not section.is_explained and (readiness is not None or said.base is not None or said.hold is not None):
            raise ToolError(f"it is no drill of this plan with {budget_text(makeup)[:-1]}", said.drill)
        return section.html()

    def _wants(self, part: str) -> bool:
        return not self._said.only or part in self._said.only

    def _facts(self) -> Raw:
        topology = self._topology
        text = (
            f"{count(len(topology.devices), 'device')}, {count(len(topology.links), 'link')}, "
            f"{count(len(topology.domains), 'listed domain')}. Period {human(topology.period)}, "
            f"tick {human(topology.tick)}, loss {topology.loss}, depth {topology.depth}. Times of a replay are reference times from the first event on. "
            "The unit of a column is in its heading; elsewhere it follows the number."
        )
        made = f"Made {_today()} by sundial-report {__version__} of {os.path.basename(self._said.topology)}, {count(len(self._plans), 'plan')}"
        made += f" and {os.path.basename(self._said.replay[0])}." if self._said.replay else "."
        return Raw(element("p", made, class_="made") + element("p", text, class_="facts"))

    def _files(self) -> Raw:
        said, sources = self._said, [(f"topology, version {self._topology.version}", self._said.topology)]
        sources += [(f"plan {place}, version 1", path) for place, path in enumerate(said.plans, 1)]
        for what, path in ("check", said.check), ("drill", said.drill), ("bounds", said.bounds), ("sundial-readiness", said.readiness):
            sources += [(f"output of {what}", path)] if path else []
        sources += zip(("schedule", "output of replay or order"), said.replay or ())
        return element("section", element("h2", "Files", id="files"), sources_table(sources, f", {_today()}"), class_="sources")

    def _trees(self) -> Raw:
        trees = [
            TreeSection(self._topology, plan, place, self._refusals.get(place), self._said.domain, before)
            for place, (plan, before) in enumerate(zip(self._plans, [None, *self._plans]), 1)
        ]
        changes = [changes_section(self._topology, place, *pair) for place, pair in enumerate(zip(self._plans, self._plans[1:]), 1)]
        heading = "Plans: who follows whom" if len(trees) > 1 else "Plan: who follows whom"
        # Small trees stand side by side on a narrower page than large ones.
        least = min(max(max(tree.width for tree in trees), LEAST_BESIDE), MOST_BESIDE)
        beside = element("div", [tree.html() for tree in trees], class_="side-by-side", style=f"--tree:{least:.0f}px")
        return element("section", element("h2", heading, id="plans"), beside, changes, class_="plans")

    def _refused(self, line: OutputLine, text: str, name: str) -> None:
        refusal = refusal_of(line, text, self._topology, name)
        if not 1 <= refusal.plan <= len(self._plans):
            raise ToolError(f"the refusal is of plan {refusal.plan}, and there are {len(self._plans)}", name)
        self._refusals[refusal.plan] = refusal

    def _check(self) -> None:
        name = self._said.check
        lines = list(read_lines(name)) if name is not None else []
        if name is not None and not lines:
            raise ToolError("it is empty: sundial check always prints a line", name)
        for line, text in zip(read_output(lines, name), lines):
            if line.kind.startswith("refused"):
                self._refused(line, text[:-1], name)
            elif line.kind != "accepted":
                raise ToolError(f"no line of a check: {text[:80]!r}", name)
            self._accepted = self._accepted or line.kind == "accepted"

    def _computed(self, name: Optional[str], read: Callable[[Iterator[str], Topology, str], Numbers]) -> Optional[Numbers]:
        """What a command computed, or None where it computed nothing, as of a refused plan."""
        if name is None:
            return None
        with Progress(name) as progress:
            try:
                return read(_stepped(name, progress), self._topology, name)
            except NotComputed as said:
                if not said.line.kind.startswith("refused"):
                    raise ToolError(f"sundial refused its input: {said.text}", name) from None
                self._refused(said.line, said.text, name)
        return None

    def _replay(self) -> Optional[Replay]:
        if self._said.replay is None:
            return None
        schedule, output = self._said.replay
        with_causes = any(line.startswith("broken ") for line in read_lines(output))
        replay = ReplayReader(self._topology, self._plans, schedule, output, with_causes).read(read_lines(schedule), read_lines(output))
        if replay.refused_plan is not None:
            self._refused(replay.refused_plan, replay.refused_text, output)
        return replay


def _stepped(name: str, progress: Progress) -> Iterator[str]:
    for line in read_lines(name):
        progress.step()
        yield line
