"""The seven premises: docs/PREMISES.md. Each is asked of a history and one event more."""

from __future__ import annotations

from typing import Callable, List, Optional, Sequence, Set, Tuple

from sundial_tools.plain.device import MILLION
from sundial_tools.plain.history import History, Message, Step, Thing, number_of, thing_of
from sundial_tools.plan import Plan
from sundial_tools.schedule import Event
from sundial_tools.topology import Domain

Premise = Callable[[History, Event], bool]


class Premises:
    """Which premises broke so far, and which rounds are spoiled."""

    def __init__(self) -> None:
        self.broken: List[str] = []
        self._spoiled: Set[Tuple[int, int]] = set()

    def breaks(self, before: History, event: Event) -> List[str]:
        """The premises that held before an event and do not hold with it, in the order in which they are printed."""
        now = [name for name, holds in self._asked() if name not in self.broken and not holds(before, event)]
        self.broken += now
        return now

    def _asked(self) -> Sequence[Tuple[str, Premise]]:
        return (
            ("start", _start), ("drift", _drift), ("delay", _delay), ("tick", _tick), ("loss", self._loss),
            ("domain", _domain), ("renew", _renew),
        )

    def _loss(self, before: History, event: Event) -> bool:
        """No more rounds of one term are spoiled in a row than the topology allows."""
        self._spoiled |= {message.stamp for message in before.messages if _spoils(before, event, message)}
        row = range(before.topology.loss + 1)
        return not any(all((term, first + more) in self._spoiled for more in row) for term, first in self._spoiled)


def _start(before: History, event: Event) -> bool:
    return event.clock is None or event.eps is None or abs(event.clock - event.ref) <= event.eps


def _drift(before: History, event: Event) -> bool:
    if event.device is None or event.counter is None or event.word in ("start", "join"):
        return True
    return all(_keeps_rate(before, step, event) for step in before.past(event.device).steps if step.event.counter is not None)


def _keeps_rate(before: History, step: Step, event: Event) -> bool:
    """The drift rule, for an earlier and a later reading of one device."""
    assert event.device is not None and event.counter is not None and step.event.counter is not None
    rates = before.topology.devices[event.device]
    counted, passed = event.counter - step.event.counter, event.ref - step.event.ref
    return abs(counted - passed) * MILLION <= rates.ppm * counted + rates.grain * MILLION


def _delay(before: History, event: Event) -> bool:
    if event.word != "recv" or event.message is None:
        return True
    message = before.messages[event.message - 1]
    bounds = before.topology.links[message.link].towards(message.receiver)
    return bounds.min <= event.ref - message.ref <= bounds.max


def _tick(before: History, event: Event) -> bool:
    if not before.steps:
        return True
    first = before.steps[0].event.ref
    plans = [before.plan] + ([before.staged_plan] if before.staged_plan else [])
    latest = [before.latest(("start", "join", "tick"), ("device", it)) for plan in plans for it in before.up_members(plan)]
    begun = [step.event.ref for step in latest if step]
    missing = [it for it in before.plans[0].members(before.topology) if not before.was_touched(it)]
    return all(event.ref <= ref + before.topology.tick for ref in begun + [first for _ in missing])


def _spoils(before: History, event: Event, message: Message) -> bool:
    """The event is the first past the due of a message that reached, and that nothing excuses."""
    if not message.reaches or not before.steps[-1].event.ref <= message.due < event.ref:
        return False
    ends: Tuple[Thing, ...] = ("device", message.sender), ("device", message.receiver), ("link", message.link)
    failed = any(
        number_of(before.latest(("fail",), thing)) > message.sent or (event.word == "fail" and thing_of(event) == thing)
        for thing in ends
    )
    received = any(step.event.message == message.number for step in before.of("recv"))
    received = received or (event.word == "recv" and event.message == message.number)
    return not failed and not received


def _domain(before: History, event: Event) -> bool:
    """All that failed since the last closing lies in one domain."""
    begin = max(before.closings, default=0)
    failed = {thing_of(step.event) for step in before.of("fail") if step.number > begin}
    if event.word == "fail":
        failed.add(thing_of(event))
    return len(failed) <= 1 or any(failed <= _things(domain) for domain in before.topology.domains)


def _things(domain: Domain) -> Set[Optional[Thing]]:
    """What a listed domain has."""
    things: List[Thing] = [("device", it) for it in domain.devices] + [("link", it) for it in domain.links]
    return set(things)


def _renew(before: History, event: Event) -> bool:
    plan = before.staged_plan
    if event.word == "start":
        return not before.of("stage")
    if event.word == "join" and event.device is not None:
        return event.device in before.plan.absent_devices or before.was_touched(event.device)
    if event.word == "fail":
        return not before.in_window("mend") and not before.in_window("commit")
    if event.word == "seal" and plan and not before.in_window("seal"):
        return all(before.past(it).epoch == before.staged_epoch for it in before.up_members(plan))
    if event.word == "commit" and plan and event.device is not None:
        return before.past(event.device).acts and _may_change(before, plan)
    return True


def _may_change(before: History, plan: Plan) -> bool:
    """All members are ready for a staged plan, and who is left out hears nothing of it."""
    failed = [link.number for link in before.topology.links if before.has_failed(("link", link.number))]
    ready = all(_is_ready(before, device) for device in plan.members(before.topology))
    return ready and set(failed) <= set(plan.absent_links) and not _joined(before, plan.root) & set(plan.absent_devices)


def _is_ready(before: History, device: int) -> bool:
    """The device is up, was given its duty in this window, and joined before that if it is new."""
    thing: Thing = ("device", device)
    joins = before.in_window("join", thing)
    given = before.in_window("give", thing)
    if joins:
        given = number_of(before.latest(("give",), thing)) > number_of(before.latest(("join",), thing))
    return before.is_up(device) and given and (joins or device not in before.plan.absent_devices)


def _joined(before: History, device: int) -> Set[int]:
    """The devices that are joined to one, through devices that are up and over links that are not failed."""
    found = {device} if before.is_up(device) else set()
    links = [link for link in before.topology.links if not before.has_failed(("link", link.number))]
    while True:
        more = {link.other(end) for link in links for end in link.ends if end in found}
        more = {it for it in more if before.is_up(it)} - found
        if not more:
            return found
        found |= more
