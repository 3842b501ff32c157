"""The words of sundial-whatif."""

from __future__ import annotations

import argparse
import contextlib
import os
import sys
import tempfile
from typing import Iterator, List, NamedTuple, Optional, Tuple

from sundial_tools.errors import ToolError
from sundial_tools.inputs import as_files
from sundial_tools.outputs import PREMISES
from sundial_tools.plan import Plan, default_hold, read_plan
from sundial_tools.report.main import main as report_main
from sundial_tools.safe_write import Progress, whole_output
from sundial_tools.times import time_of
from sundial_tools.topology import Topology, read_topology, sundial_program
from sundial_tools.whatif import program as asked
from sundial_tools.whatif import wishes as wished
from sundial_tools.whatif.scenario import Scenario, Settings
from sundial_tools.whatif.summary import Summary
from sundial_tools.whatif.wishes import Renewal, Wishes, us

# The parts of the default HOLD beside the waits of the backup root: as many ticks.
TICKS = 3
MOST_PLANS = 64


def main(words: List[str]) -> int:
    options = _parser().parse_args(words)
    with as_files(options, "topology", "plan"):
        return _drawn_and_told(options)


def _drawn_and_told(options: argparse.Namespace) -> int:
    topology = read_topology(options.topology)
    plan = read_plan(options.plan, topology)
    renewals = sorted((wished.renewal(it) for it in options.renew), key=lambda it: it.at)
    if len(renewals) >= MOST_PLANS:
        raise ToolError(f"{len(renewals)} renewals, and a replay takes at most {MOST_PLANS} plans")
    plans = [plan, *(read_plan(it.plan, topology) for it in renewals)]
    wishes, settings = _wishes(topology, options), _settings(topology, plan, options)
    with _place(options.output) as place:
        scenario = _drawn(topology, plans, renewals, wishes, settings, place.schedule)
        run = _Run(options, topology, plans, renewals, wishes, scenario, place)
        status = run.status()
        with open(place.schedule, encoding="utf-8") as schedule, whole_output(options.output) as text:
            for line in schedule:
                text.write(line)
    stream = sys.stderr if options.output in (None, "-") else sys.stdout
    print("\n".join(run.summary), file=stream)
    return status


class _Place(NamedTuple):
    """Files that are there while the tool runs."""

    schedule: str
    replay: str


@contextlib.contextmanager
def _place(output: Optional[str]) -> Iterator[_Place]:
    with tempfile.TemporaryDirectory() as folder:
        name = os.path.basename(output or "-")
        # (the page of the report says the name of the schedule)
        schedule = "schedule.txt" if name in ("", "-") else name
        yield _Place(os.path.join(folder, schedule), os.path.join(folder, f"{schedule}.replayed"))


def _drawn(
    topology: Topology, plans: List[Plan], renewals: List[Renewal], wishes: Wishes, settings: Settings, path: str
) -> Scenario:
    with Progress("sundial-whatif") as progress, open(path, "w", encoding="utf-8", newline="") as text:
        scenario = Scenario(topology, plans, [it.at for it in renewals], wishes, settings, progress.step)
        scenario.run(text.write)
    return scenario


class _Run:
    """What `sundial` says of the schedule, where it is there, and the summary."""

    def __init__(
        self, options: argparse.Namespace, topology: Topology, plans: List[Plan], renewals: List[Renewal], wishes: Wishes,
        scenario: Scenario, place: _Place,
    ) -> None:
        self._options, self._topology, self._plans, self._renewals = options, topology, plans, renewals
        self._wishes, self._scenario, self._place = wishes, scenario, place
        self.summary: List[str] = []

    def status(self) -> int:
        program = sundial_program()
        words = self._wishes.said(self._topology)
        words += [f"plan {number} from {us(it.at)} on" for number, it in enumerate(self._renewals, 2)]
        if program is None:
            if self._options.report:
                raise ToolError("--report needs sundial on the path, or in the variable SUNDIAL")
            self._say(words, None, {}, "The drill's bounds need sundial on the path.")
            return 0
        files = [self._options.topology, self._options.plan, *(it.plan for it in self._renewals)]
        status = asked.replay(program, [*files, self._place.schedule], self._place.replay)
        replayed = asked.judge(
            status, self._place.replay, self._topology, self._plans, self._place.schedule, self._scenario.reports
        )
        bounds, under = self._bounds(program, files[:2])
        self._say(words, replayed, bounds, under)
        if self._options.report:
            report_main([*files, "--replay", self._place.schedule, self._place.replay, "-o", self._options.report])
        return status

    def _say(self, words: List[str], replayed: Optional[asked.Replayed], bounds: asked.Bounds, under: str) -> None:
        self.summary = list(Summary(self._topology, self._plans, self._scenario, words, replayed, bounds, under).lines())

    def _bounds(self, program: str, files: List[str]) -> Tuple[asked.Bounds, str]:
        """The bounds of what failed before the first renewal: a drill speaks of one plan and of one domain."""
        first = self._renewals[0].at if self._renewals else self._scenario.settings.until
        failures = [it for it in self._wishes.failures if it.at <= min(first, self._scenario.settings.until)]
        if len(failures) > 1:
            return {}, "No bound: the drill speaks of one failure, and several come before the first renewal."
        base, hold = self._scenario.settings.base, max(self._scenario.settings.hold, self._scenario.held)
        domain = failures[0].named.text if failures else None
        bounds = asked.drill(program, self._topology, [*files, str(base), str(hold)], domain)
        under = f"the failure of {domain}" if domain else "no failure (the least over all domains)"
        said = f"bound: the drill of plan 1 under {under}, BASE {us(base)}, HOLD {us(hold)}; none: the device is cut off"
        return bounds, said + (". It speaks of the time before the first renewal." if self._renewals else ".")


def _wishes(topology: Topology, options: argparse.Namespace) -> Wishes:
    return Wishes(
        [wished.failure(topology, it) for it in options.fail], [wished.failure(topology, it) for it in options.mend],
        [wished.lost(topology, it) for it in options.lose], [wished.late(topology, it) for it in options.late],
        [wished.wrong(topology, it) for it in options.drift], options.allow,
    )


def _settings(topology: Topology, plan: Plan, options: argparse.Namespace) -> Settings:
    hold = default_hold(topology, plan) if options.hold is None else time_of(options.hold)
    return Settings(
        time_of(options.until), time_of(options.ask), options.seed, options.delays, options.clocks, time_of(options.base), hold,
        not options.no_fixes, time_of(options.over), options.lossy,
    )


def _parser() -> argparse.ArgumentParser:
    parser = argparse.ArgumentParser(
        prog="sundial-whatif",
        description="Draws a schedule for your own network and plans from words, and says what happened in it. Every premise "
        "holds but those that you ask to break. With sundial on the path the schedule is replayed, and the reports are shown beside "
        "the bounds of the drill.",
        epilog="The schedule goes to --output, and the summary to standard output. Without --output the schedule goes to standard "
        "output, and the summary to standard error. Times are a number with ps, ns, us, ms or s. docs/WHAT-IF.md has examples.",
    )
    parser.add_argument("topology", metavar="TOPOLOGY")
    parser.add_argument("plan", metavar="PLAN", help="the plan in force at the beginning")
    for name, form, text in (
        ("fail", "THING@TIME", "a device, link or listed domain fails, as 'listed feed-a@5ms' or leaf1@5ms"),
        ("mend", "THING@TIME", "it is mended in the first window from then on"),
        ("renew", "PLAN@TIME", "this plan is brought in from then on, and what it needs is mended and joins"),
        ("lose", "LINK@TIME[..TIME]", "the first message over the link from then on is lost, or all that are sent in that time"),
        ("late", "LINK@TIME[..TIME]=DELAY", "it takes this long: breaks the premise delay"),
        ("drift", "DEVICE@TIME=PPM", "from then on its counter runs at this pace, as +700: breaks the premise drift"),
    ):
        parser.add_argument(f"--{name}", action="append", default=[], metavar=form, help=text)
    parser.add_argument(
        "--allow", action="append", default=[], choices=PREMISES, help="a premise that failures or renewals may break"
    )
    parser.add_argument("--until", required=True, metavar="TIME", help="when the schedule ends")
    parser.add_argument(
        "--ask", default="100us", metavar="TIME", help="how often each device is asked, 0 for never (default: 100us)"
    )
    parser.add_argument(
        "--seed", type=_number, default=1, metavar="NUMBER", help="the same words draw the same schedule (default: 1)"
    )
    parser.add_argument(
        "--delays", choices=("least", "greatest", "random"), default="random",
        help="of messages, within the topology's bounds (default: random)",
    )
    parser.add_argument(
        "--clocks", choices=("random", "worst"), default="random",
        help="within the topology's rates; worst: roots as slow as may be, all others as fast (default: random)",
    )
    parser.add_argument("--base", default="1us", metavar="TIME", help="how far off a start or a fix may be (default: 1us)")
    parser.add_argument(
        "--hold", metavar="TIME",
        help="an acting root is fixed before its estimate is as old (default: both waits of the backup root, and three ticks)",
    )
    parser.add_argument("--no-fixes", action="store_true", help="no acting root is fixed after its start")
    parser.add_argument(
        "--over", default="0", metavar="TIME", help="how long the gives of a renewal take, and its seals (default: all at once)"
    )
    parser.add_argument(
        "--lossy", type=_number, default=0, metavar="N",
        help="one message in N is lost, as far as the premise loss allows (default: none)",
    )
    parser.add_argument("--report", metavar="PAGE", help="write the HTML page of sundial-report too")
    parser.add_argument("--output", "-o", metavar="FILE", help="where the schedule goes")
    return parser


def _number(word: str) -> int:
    if not (word.isascii() and word.isdigit()) or len(word) > 18:
        raise argparse.ArgumentTypeError(f"{word!r} is no whole number")
    return int(word)
