"""What the page opens with: whether something was wrong, what it means, and where it is told."""

from __future__ import annotations

from typing import Dict, List, NamedTuple, Optional, Sequence, Tuple

from sundial_tools.report.markup import Raw, element, filled
from sundial_tools.report.refusal import Refusal
from sundial_tools.report.replay import Mark, Replay
from sundial_tools.units import clear, count, human, readable

MEANS = {
    "start": "A clock was set from outside to a time that was further off than its eps says.",
    "drift": "An oscillator ran faster or slower than its ppm and grain in the topology allow.",
    "delay": "A message took less or more time than the bounds of its link in the topology allow.",
    "tick": "A device was not called for longer than the tick of the topology.",
    "loss": "More rounds in a row were lost than the loss of the topology allows.",
    "domain": "Things failed that no one fault domain has together.",
    "renew": "A renewal of the plan did not keep its order.",
}
ALARM_MEANS = {
    "interval": "A report's interval did not have the reference: its clock was further off than its eps.",
    "loop": "Devices followed each other in a ring.",
    "roots": "Two devices acted as root at the same time.",
}
WORDS = {"safe": "Safe", "accepted": "Plan accepted", "broken": "Premises broken", "alarm": "Alarms", "refused": "Refused", "none": "Nothing was judged"}
MOST_ALARMS = 12


class Fact(NamedTuple):
    """One thing that was found, with the place of the page that tells of it."""

    where: str
    link: str
    what: str
    means: str
    text: str


class Verdict(NamedTuple):
    """`kind` is safe, accepted, broken, alarm, refused or none."""

    kind: str
    says: str
    means: str
    facts: Tuple[Fact, ...]

    def html(self) -> Raw:
        items = [filled("fact", **fact._asdict()) for fact in self.facts]
        facts = element("ol", items, class_="facts-found") if items else ""
        return filled("verdict", kind=self.kind, word=WORDS[self.kind], says=self.says, means=self.means, facts=facts)

    def text(self) -> str:
        """The same without a page."""
        lines = [f"{WORDS[self.kind]}. {self.says}", self.means]
        lines += [f"- {' '.join(filter(None, (f'{fact.where}: {fact.what}.', fact.text, fact.means)))}" for fact in self.facts]
        return "\n".join(lines) + "\n"


def verdict(refusals: Sequence[Refusal], replay: Optional[Replay], accepted: bool) -> Verdict:
    """The gravest of what was found. `accepted` says that a command has judged the plans and found them good."""
    if refusals:
        facts = [Fact(f"plan {it.plan}", f"plan-{it.plan}", it.text, it.meaning, it.in_words) for it in refusals]
        conditions = ", ".join(dict.fromkeys(f"condition {it.condition}" for it in refusals))
        says = f"{count(len(refusals), 'plan')} {'is' if len(refusals) == 1 else 'are'} refused: {conditions}."
        return Verdict("refused", says, "A refused plan is not run: no promise holds under it.", tuple(facts))
    if replay is not None:
        return _of_replay(replay, tuple(_facts(replay)))
    if accepted:
        return Verdict("accepted", "The plan keeps all conditions.", "No schedule was given, so nothing is said of what happened in a fabric.", ())
    return Verdict("none", "The page shows the plans as they are written.", "Give --check, --drill or --replay to have what sundial says of these plans.", ())


def _of_replay(replay: Replay, facts: Tuple[Fact, ...]) -> Verdict:
    size = f"{count(replay.events, 'event')} over {human(replay.last)}, {count(replay.reports.count, 'report')}"
    if replay.refusal is not None:
        refused = Fact("line " + replay.refusal.split(" ")[2], "replay", replay.refusal, "", "")
        says = f"A line of the schedule is refused, and the replay ends before it: {size}."
        return Verdict("refused", says, "What came after this line is not known.", (refused, *facts))
    if replay.alarms:
        return Verdict("alarm", *_alarmed(replay), facts)
    if replay.causes:
        first = replay.causes[0][0]
        says = f"{_premises(replay)}, the first at line {first.line}, {human(first.ref)} after the first event. No alarm was raised."
        means = "The promises hold up to that line. From there on nothing is promised: the fabric, or its recording, did what the topology excludes."
        return Verdict("broken", says, means, facts)
    worst = max((abs(report.off) / max(1, report.eps) for report in replay.worst_off.values()), default=0)
    inside = f"Every report's interval had the reference. The worst report was off by {worst:.0%} of its eps."
    means = inside if replay.reports.count else "Nobody was asked, so nothing is said of clocks."
    return Verdict("safe", f"No premise broke and no alarm was raised: {size}.", means, ())


def _facts(replay: Replay) -> List[Fact]:
    """Broken premises and alarms in the order of the schedule, the first of each kind of alarm and of each device."""
    found = [(mark, MEANS[cause.premise], f"{readable(cause.text)}.") for mark, cause in replay.causes]
    first: Dict[Tuple[str, ...], Mark] = {}
    for mark in replay.alarms:
        first.setdefault(tuple(mark.text.split(" ")[2:4]), mark)
    for (kind, _), mark in list(first.items())[:MOST_ALARMS]:
        unsound = replay.unsound.get(mark.line, "") if kind == "interval" else ""
        found.append((mark, ALARM_MEANS[kind], f"Not honest in its lineage: {readable(unsound)}." if unsound else ""))
    found.sort(key=lambda one: one[0].line)
    return [Fact(f"line {mark.line}, at {clear(mark.ref)}", f"line-{mark.line}", mark.text, means, text) for mark, means, text in found]


def _premises(replay: Replay) -> str:
    names = ", ".join(cause.premise for _, cause in replay.causes)
    return f"{count(len(replay.causes), 'premise')} broke ({names})"


def _alarmed(replay: Replay) -> Tuple[str, str]:
    """What is said of alarms, and what they mean."""
    first, alarms = replay.alarms[0], count(replay.mark_counts["alarm"], "alarm")
    unproved = "An alarm before any broken premise is against what is proved. Look whether these are the files of one run, and then report it."
    if not replay.causes:
        return f"{alarms}, the first at line {first.line}. No premise broke.", unproved
    broken = replay.causes[0][0]
    if broken.line > first.line:
        return f"{alarms}, the first at line {first.line}. {_premises(replay)}, the first at line {broken.line}.", unproved
    says = f"{_premises(replay)}, the first at line {broken.line}, and {alarms} followed, the first at line {first.line}."
    return says, "The promises hold up to the first broken premise. The alarms came after it, so no promise was broken."
