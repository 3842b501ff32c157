"""The words of sundial-why."""

from __future__ import annotations

import argparse
from typing import Any, Dict, Iterator, List, Optional, Sequence, Tuple

from sundial_tools.errors import ToolError
from sundial_tools.inputs import as_files, read_lines
from sundial_tools.outputs import OutputLine, parse_line
from sundial_tools.plan import Plan, parse_plan
from sundial_tools.plan_table import plan_lines
from sundial_tools.safe_write import FOLLOW, output_of
from sundial_tools.topology import Topology, parse_topology
from sundial_tools.why.broken import Replayed
from sundial_tools.why.course import Course
from sundial_tools.why.impossible import Impossible
from sundial_tools.why.inputs import plan_reason, topology_reason
from sundial_tools.why.logs import RefusedEntry
from sundial_tools.why.planned import planned
from sundial_tools.why.refused import Refused
from sundial_tools.why.resumed import Resumed
from sundial_tools.why.said import domain_of, failing, time
from sundial_tools.why.schedules import Exchanges
from sundial_tools.why.schedules import Refused as RefusedLine
from sundial_tools.why.texts import JsonText, Text, TomlText, is_exchanges, is_plan


# What stands between the two texts of `sundialctl resume`, each behind its plans.
BETWEEN = "/"


class Why:
    """The files of a command, and what its lines mean over them. Behind `/` they are those of an opening."""

    def __init__(self, topology: str, others: Sequence[str], absent: Optional[str]) -> None:
        self.toml = TomlText(Text(topology))
        self.topology = self._topology()
        self.absent = JsonText(Text(absent)) if absent else None
        place = others.index(BETWEEN) if BETWEEN in others else len(others)
        lines, self.plan_texts, self.plans = self._files(others[:place])
        self.exchanges = Exchanges(lines, self.topology) if lines and is_exchanges(lines) else None
        self.course = self._course(None if self.exchanges else lines, self.plan_texts, self.plans)
        self.opening = self._course(*self._files(others[place + 1:]))

    def _files(self, paths: Sequence[str]) -> Tuple[Optional[str], List[JsonText], List[Plan]]:
        """The schedule or exchanges of these files, where there is one, and their plans."""
        texts = [JsonText(Text(path)) for path in paths if is_plan(path)]
        lines = [path for path in paths if not is_plan(path)]
        if len(lines) > 1:
            raise ToolError(f"two schedules, {lines[0]} and {lines[1]}: name one, or an opening behind {BETWEEN}")
        return lines[0] if lines else None, texts, self._plans(texts)

    def _course(self, path: Optional[str], texts: Sequence[JsonText], plans: Sequence[Plan]) -> Optional[Course]:
        if path is None or self.topology is None:
            return None
        return Course(path, self.topology, plans if len(plans) == len(texts) else [])

    def _topology(self) -> Optional[Topology]:
        try:
            return parse_topology(self.toml.text.text)
        except ToolError:
            return None

    def _plans(self, texts: Sequence[JsonText]) -> List[Plan]:
        found: List[Plan] = []
        for text in texts:
            try:
                found += [parse_plan(text.text.text, self.topology)] if self.topology else []
            except ToolError:
                break
        return found

    def say_plan(self, line: str) -> List[str]:
        """The table of a plan that `plan`, `renew` or a search printed, or nothing where the line is none."""
        found = plan_lines(line, self.topology) if self.topology and line.startswith("{") else None
        return found or []

    def say(self, line: OutputLine) -> List[str]:
        """What a line means. Raises ToolError where it is cut short, or is not of these files."""
        stranger = self._stranger(line.fields) if self.topology else None
        if stranger:
            raise ToolError(f"The topology has no {stranger}: it is not the topology of this output.")
        try:
            return list(self._say(line))
        except (IndexError, KeyError, ValueError):
            raise ToolError("The line is cut short, or is of another version of sundial: its fault has more words.") from None

    def _stranger(self, fields: Dict[str, Any]) -> Optional[str]:
        """A thing that a line names, and that the topology does not have."""
        assert self.topology
        known = {"device": self.topology.device_numbers, "link": self.topology.link_numbers, "listed": {it.name for it in self.topology.domains}}
        named = [("device", fields[key]) for key in ("device", "other", "candidate") if key in fields]
        named += [("device", name) for key in ("cycle", "chain", "devices") if isinstance(fields.get(key), list) for name in fields[key]]
        named += [(fields[key]["kind"], fields[key]["name"]) for key in ("domain", "at") if key in fields]
        named += [(kind, fields[kind]) for kind in ("link", "listed") if kind in fields]
        return next((f"{'domain' if kind == 'listed' else kind} {name}" for kind, name in named if name not in known[kind]), None)

    def _say(self, line: OutputLine) -> Iterator[str]:
        first = line.kind.split(" ")[0]
        if first == "input":
            yield from self._input(line)
        elif first == "refused":
            yield from self._refused(line)
        elif first in ("report", "broken", "alarm") and self.topology:
            says = Replayed(self.topology, self.course)
            yield from getattr(says, first)(line)
        elif first == "impossible" and self.topology:
            yield from Impossible(self.topology).say(line)
        elif first in ("bound", "bounds", "nobound") and self.topology:
            yield from self._bound(line)
        elif first in ("agree", "differ") and self.topology:
            yield from getattr(Resumed(self.topology, self.course, self.opening), first)(line)
        else:
            yield from _plain(line)

    def _input(self, line: OutputLine) -> Iterator[str]:
        what, reason = line.kind.split(" ")[1], line.fields["reason"].split(" ")
        if what == "topology":
            yield from topology_reason(reason, self.toml)
        elif what == "absent" and self.absent:
            yield from plan_reason(reason, self.absent, self.topology)
        elif what == "plan" and 1 <= line.fields["plan"] <= len(self.plan_texts):
            yield from plan_reason(reason, self.plan_texts[line.fields["plan"] - 1], self.topology)
        elif what == "schedule" and self.course:
            yield from RefusedLine(self.course).say(line.fields["line"], reason)
        elif what == "opening" and self.opening:
            yield from RefusedLine(self.opening).say(line.fields["line"], reason)
        elif what in ("log", "feed") and self.course:
            yield from getattr(RefusedEntry(self.course), what)(line.fields["line"], reason)
        elif what == "exchanges" and self.exchanges:
            yield from self.exchanges.say(line.fields["line"], reason)
        else:
            how = {"absent": " by --absent", "opening": f" after {BETWEEN}"}.get(what, "")
            yield f"The {what} is refused. Name its file for more{how}."

    def _refused(self, line: OutputLine) -> Iterator[str]:
        number = line.fields["plan"]
        if self.topology is None:
            yield "The plan is refused. The topology cannot be read here, so nothing more can be said."
            return
        plan, is_made = self._plan_of(number)
        yield from Refused(self.topology, plan, is_made).say(line)

    def _plan_of(self, number: int) -> Tuple[Optional[Plan], bool]:
        """The plan that was refused, and whether a command made it: `renew`, whose absent text is there, or `plan`, of no plan."""
        assert self.topology
        if self.absent is not None and self.plans:
            devices, links = self.absent.numbers("absent_devices", self.topology.device_numbers), self.absent.numbers("absent_links", self.topology.link_numbers)
            before = self.plans[0]
            return planned(self.topology, before.backup_root if before.root in devices else before.root, devices, links), True
        if not self.plan_texts:
            return planned(self.topology, self.topology.roots[0], (), ()), True
        return (self.plans[number - 1] if 1 <= number <= len(self.plans) else None), False

    def _bound(self, line: OutputLine) -> Iterator[str]:
        assert self.topology
        domain = failing(self.topology, domain_of(line)).text
        name = line.fields["device"]
        if "calm" in line.fields:
            yield f"While nothing has failed, no report of {name} is off by more than {time(line.fields['calm'])}."
        if line.kind in ("bound", "bounds"):
            least = line.fields["eps" if line.kind == "bound" else "tight"]
            yield f"While {domain} is down, no report of {name} is off by more than {time(least)}."
        elif ("device", self.topology.device_numbers.get(name)) in failing(self.topology, domain_of(line)).things:
            yield f"{name} is down itself with {domain}."
        else:
            yield f"While {domain} is down there is no bound for {name}: it does not hear a root again, or may hear one over more than `depth` + 1 links."
            yield f"Change: a link of {name} that {domain} leaves; or a greater `depth`."


def _plain(line: OutputLine) -> Iterator[str]:
    """What a line says that needs no file."""
    said = line.fields
    texts: Dict[str, str] = {
        "accepted": "The plan is accepted: {devices} devices, {links} links, {domains} things that may fail by themselves.",
        "case": "{events} events, {reports} reports, none off by more than {eps} ps; {broken} broken premises, {alarms} alarms.",
        "done": "The work ended. Of a replay: {first} events and {second} reports; of twoway, lines and links; of a drill, domains and devices.",
        "begin": "A transaction of {device} begins with the timestamp {stamp} ps.",
        "ended": "The transaction of line {begin} ends here: its timestamp is surely past.",
        "disorder": "The transaction of line {begin} ended before this one began, and has no lesser timestamp. A clock was wrong: look for a `broken` line of start, drift or delay.",
        "waits": "{begun} transactions began, {ended} ended, {disorders} were out of order.",
        "link": "By {count} recorded, both delays of {link} lie from {min} to {max} ps. They are {verdict} the bounds of the topology.",
        "report": "{device} says: the time is {clock} ps, and off by at most {eps} ps.",
        "broken": "The network did not keep what it promised: `{premise}`.",
        "open": "No reason is known why there should be no plan. That does not mean that there is one: try `sundialctl search` with more steps and other seeds.",
        "usage": "The words are not those of a command. Change: see the line for the words of each; there are no options.",
    }
    text = texts.get(line.kind)
    yield text.format(**said) if text else "Name a topology that can be read for more."


def main(words: List[str]) -> int:
    options = _parser().parse_args(words)
    with as_files(options, "topology", "others", "absent", streams=("lines",)):
        return _explain(options)


def _explain(options: argparse.Namespace) -> int:
    why = Why(options.topology, options.others, options.absent)
    number = unclear = 0
    with output_of(options.output, options.follow) as text:
        for number, line in enumerate(read_lines(options.lines), 1):
            bare = line.rstrip("\n")
            text.write(bare + "\n")
            try:
                said = why.say_plan(bare) or (why.say(_parsed(bare)) if bare else [])
            except ToolError as fault:
                said, unclear = [fault.reason], unclear + 1
            for it in said:
                text.write(f"    {it}\n")
    if not number:
        raise ToolError("there is no line: pipe what sundial printed into it, or name its file by --lines")
    return 1 if unclear else 0


def _parsed(text: str) -> OutputLine:
    parsed = parse_line(text)
    if parsed is None:
        raise ToolError("(no line that sundial prints)")
    return parsed


def _parser() -> argparse.ArgumentParser:
    parser = argparse.ArgumentParser(
        prog="sundial-why",
        description="Says in words what lines of sundial mean over its files: which names, which line of a text, and what to change.",
        epilog="Pipe what sundial printed into it: sundial check t.toml p.json | sundial-why t.toml p.json. "
        "A plan that is piped into it is shown as a table. A file that begins with a brace, or whose name ends in .json, is a plan. docs/TROUBLESHOOTING.md has each kind of line.",
    )
    parser.add_argument("topology", metavar="TOPOLOGY")
    parser.add_argument("others", metavar="FILE", nargs="*", help="the plans of the command in their order, and its schedule or exchanges; of resume with / and what follows it")
    parser.add_argument("--lines", "-l", metavar="FILE", default="-", help="what sundial printed (default: standard input)")
    parser.add_argument("--absent", "-a", metavar="FILE", help="the absent text of a renew")
    parser.add_argument("--follow", "-f", action="store_true", help=FOLLOW)
    parser.add_argument("--output", "-o", metavar="FILE", help="where to write (default: standard output)")
    return parser
