"""What `sundial` says of a schedule that was drawn: its replay, and the bounds of its drill."""

from __future__ import annotations

import subprocess
from typing import Dict, Iterator, List, NamedTuple, Optional, Sequence

from sundial_tools.errors import ToolError
from sundial_tools.fleet.fleet import Fleet
from sundial_tools.fleet.who import Watch
from sundial_tools.inputs import read_lines
from sundial_tools.outputs import OutputLine, parse_line, read_output
from sundial_tools.plan import Plan
from sundial_tools.schedule import read_schedule
from sundial_tools.topology import Topology
from sundial_tools.whatif.scenario import Report

DONE, BROKEN = 0, 7
Bounds = Dict[int, Optional[int]]


class Replayed(NamedTuple):
    """`found` has the broken premises and the alarms, in words. `differs` is a line whose report is not that of the tools."""

    status: int
    found: List[str]
    differs: Optional[int]


def replay(program: str, words: Sequence[str], output: str) -> int:
    """Runs the replay, with what it prints in a file, and answers its status."""
    with open(output, "wb") as file:
        done = subprocess.run([program, "replay", *words], stdout=file, check=False)
    if done.returncode not in (DONE, BROKEN):
        with open(output, encoding="utf-8", errors="replace") as text:
            said = text.readline().strip()
        hint = ". With the variable SUNDIAL empty the schedule is drawn without a check" if said.startswith("refused") else ""
        raise ToolError(f"{program} replay ended with status {done.returncode}: {said or 'it printed nothing'}{hint}")
    return done.returncode


def judge(
    status: int, output: str, topology: Topology, plans: Sequence[Plan], schedule: str, reports: Sequence[Report]
) -> Replayed:
    """What the printed lines say, beside what the tools saw."""
    said = {report.line: report for report in reports}
    broken: Dict[int, List[OutputLine]] = {}
    differs: Optional[int] = None
    for line in read_output(read_lines(output), output):
        if line.kind == "report":
            mine = said.get(line.fields["line"])
            if mine is None or (mine.clock, mine.eps) != (line.fields["clock"], line.fields["eps"]):
                differs = differs or line.fields["line"]
        elif line.kind == "broken" or line.kind.startswith("alarm"):
            broken.setdefault(line.fields["line"], []).append(line)
    return Replayed(status, list(_in_words(broken, topology, plans, schedule)) if broken else [], differs)


def _in_words(broken: Dict[int, List[OutputLine]], topology: Topology, plans: Sequence[Plan], schedule: str) -> Iterator[str]:
    """Each broken premise with its cause, and each alarm, by the line of the schedule."""
    fleet = Fleet(topology, plans)
    watch = Watch(fleet)
    for number, event in read_schedule(read_lines(schedule), schedule):
        watch.before(event)
        for line in broken.get(number, ()):
            if line.kind == "broken":
                premise = line.fields["premise"]
                yield f"line {number}: the premise {premise} broke: {watch.explain(premise, event, number).text}"
            else:
                names = [str(line.fields[it]) for it in ("device", "other") if it in line.fields]
                yield f"line {number}: {line.kind}: {' and '.join(names)}"
        watch.after(event, number, fleet.happen(event))


def drill(program: str, topology: Topology, words: Sequence[str], domain: Optional[str]) -> Bounds:
    """The bound of each member while the domain is down; without one the least over all domains. None is no bound."""
    found: Bounds = {}
    with subprocess.Popen([program, "drill", *words], stdout=subprocess.PIPE, encoding="ascii") as running:
        assert running.stdout is not None
        for text in running.stdout:
            if domain is not None and f" {domain} " not in text:
                continue
            line = parse_line(text.rstrip("\n"))
            if line is not None and line.kind in ("bound", "nobound") and _is_of(line, domain):
                _keep(found, topology.device_numbers[line.fields["device"]], line.fields.get("eps"), domain is None)
    if running.returncode != DONE:
        raise ToolError(f"{program} drill ended with status {running.returncode}")
    return found


def _is_of(line: OutputLine, domain: Optional[str]) -> bool:
    named = line.fields["domain"]
    return domain is None or f"{named['kind']} {named['name']}" == domain


def _keep(found: Bounds, device: int, eps: Optional[int], least: bool) -> None:
    before = found.get(device)
    if not least or before is None:
        found[device] = eps
    elif eps is not None:
        found[device] = min(before, eps)
