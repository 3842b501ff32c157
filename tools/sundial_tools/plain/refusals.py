"""When an event is refused: docs/FLEET.md, Refusals. The first cause that holds is named."""

from __future__ import annotations

from typing import Callable, Optional, Tuple

from sundial_tools.plain.history import History, number_of, thing_of
from sundial_tools.plan import Plan
from sundial_tools.schedule import Event

MOST_EVENTS = 2**26
Cause = Callable[[History, Event], bool]


def refusal(history: History, event: Event) -> Optional[str]:
    """Why an event is refused after those of a history, or None where it is accepted."""
    return next((name for name, holds in CAUSES if holds(history, event)), None)


def _unknown_device(history: History, event: Event) -> bool:
    kind, number = thing_of(event) or ("", 0)
    return kind == "device" and number >= len(history.topology.devices)


def _unknown_link(history: History, event: Event) -> bool:
    kind, number = thing_of(event) or ("", 0)
    return kind == "link" and number >= len(history.topology.links)


def _dead_device(history: History, event: Event) -> bool:
    thing = thing_of(event)
    return thing is not None and thing[0] == "device" and event.word != "mend" and history.has_failed(thing)


def _dead_link(history: History, event: Event) -> bool:
    thing = thing_of(event)
    return thing is not None and thing[0] == "link" and event.word == "fail" and history.has_failed(thing)


def _unknown_message(history: History, event: Event) -> bool:
    return event.message is not None and not 1 <= event.message <= len(history.messages)


def _spent_message(history: History, event: Event) -> bool:
    return event.message is not None and history.is_spent(history.messages[event.message - 1], event.ref)


def _wrong_device(history: History, event: Event) -> bool:
    return event.word == "recv" and event.message is not None and history.messages[event.message - 1].receiver != event.device


def _time_falls(history: History, event: Event) -> bool:
    return bool(history.steps) and event.ref < history.steps[-1].event.ref


def _counter_falls(history: History, event: Event) -> bool:
    if event.counter is None or event.device is None or event.word in ("start", "join"):
        return False
    begin = number_of(history.life(event.device))
    readings = [
        step.event.counter for step in history.steps
        if begin and step.number >= begin and step.event.device == event.device and step.event.counter is not None
    ]
    return bool(readings) and event.counter < readings[-1]


def _not_started(history: History, event: Event) -> bool:
    return event.device is not None and event.word not in ("start", "join") and not history.is_up(event.device)


def _started_twice(history: History, event: Event) -> bool:
    if event.device is None or event.word not in ("start", "join"):
        return False
    return history.life(event.device) is not None if event.word == "start" else history.is_counted(event.device)


def _no_plan_left(history: History, event: Event) -> bool:
    return event.word == "stage" and history.stage is None and history.epoch == len(history.plans)


def _window_order(history: History, event: Event) -> bool:
    is_open, has_commit = history.stage is not None, history.in_window("commit")
    if event.word == "stage":
        return is_open
    if event.word in ("give", "join", "mend"):
        return not is_open or has_commit
    if event.word == "commit":
        return not is_open or has_commit or not _may_commit(history, event.device)
    return event.word == "seal" and (not has_commit or history.past(event.device or 0).epoch != history.staged_epoch)


def _may_commit(history: History, device: Optional[int]) -> bool:
    """The device is the root of the staged plan, and was given its duty there."""
    plan = history.staged_plan
    return plan is not None and device is not None and device == plan.root and history.past(device).was_given


def _after_end(history: History, event: Event) -> bool:
    return bool(history.of("end"))


def _not_failed(history: History, event: Event) -> bool:
    thing = thing_of(event)
    return event.word == "mend" and thing is not None and not history.has_failed(thing)


def _not_member(history: History, event: Event) -> bool:
    plan: Optional[Plan] = {"start": history.plan, "give": history.staged_plan, "join": history.staged_plan}.get(event.word)
    return plan is not None and event.device in plan.absent_devices


def _too_many_events(history: History, event: Event) -> bool:
    return len(history.steps) >= MOST_EVENTS


CAUSES: Tuple[Tuple[str, Cause], ...] = (
    ("UnknownDevice", _unknown_device),
    ("UnknownLink", _unknown_link),
    ("DeadDevice", _dead_device),
    ("DeadLink", _dead_link),
    ("UnknownMessage", _unknown_message),
    ("SpentMessage", _spent_message),
    ("WrongDevice", _wrong_device),
    ("TimeFalls", _time_falls),
    ("CounterFalls", _counter_falls),
    ("NotStarted", _not_started),
    ("StartedTwice", _started_twice),
    ("NoPlanLeft", _no_plan_left),
    ("WindowOrder", _window_order),
    ("AfterEnd", _after_end),
    ("NotFailed", _not_failed),
    ("NotMember", _not_member),
    ("TooManyEvents", _too_many_events),
)
