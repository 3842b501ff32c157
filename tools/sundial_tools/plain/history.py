"""What happened in a fabric: the accepted events in order, and what they say of devices, links, plans and messages.

docs/FLEET.md has the words. Each is looked up in the lists of events and messages.
"""

from __future__ import annotations

from dataclasses import dataclass
from typing import Dict, Iterator, List, NamedTuple, Optional, Sequence, Tuple

from sundial_tools.plain.device import Past, Turn, turn_of
from sundial_tools.plan import Plan
from sundial_tools.schedule import Event
from sundial_tools.topology import Topology

Thing = Tuple[str, int]


@dataclass(frozen=True)
class Message:
    """`sent` is the number of the event that sent it, and `ref` that event's reference."""

    number: int
    sent: int
    ref: int
    sender: int
    receiver: int
    link: int
    epoch: int
    stamp: Tuple[int, int]
    clock: int
    eps: int
    reaches: bool
    due: int
    last: int


class Step(NamedTuple):
    """An accepted event. Its number, from 1, is that of its line. The two epochs are those before it."""

    number: int
    event: Event
    in_force: int
    staged: Optional[int]
    message: Optional[Message]
    turn: Turn


def thing_of(event: Event) -> Optional[Thing]:
    """The device or link that an event names."""
    if event.device is not None:
        return "device", event.device
    if event.thing is not None and event.number is not None:
        return event.thing, event.number
    return None


def number_of(step: Optional[Step]) -> int:
    """The number of a step, and 0 where there is none."""
    return step.number if step else 0


class History:
    """The accepted events, and the messages that they sent."""

    def __init__(self, topology: Topology, plans: Sequence[Plan]) -> None:
        self.topology, self.plans = topology, plans
        self.devices = range(len(topology.devices))
        self.steps: List[Step] = []
        self.messages: List[Message] = []
        self.closings: List[int] = []
        self._lists: Dict[Tuple[str, Optional[Thing]], List[Step]] = {}
        self._pasts: Dict[int, Past] = {}

    # Events

    def of(self, word: str, thing: Optional[Thing] = None) -> List[Step]:
        """The events of a word, of one device or link where it is named."""
        return self._lists.get((word, thing), [])

    def latest(self, words: Sequence[str], thing: Optional[Thing] = None) -> Optional[Step]:
        """The latest event of these words."""
        found = [self.of(word, thing)[-1] for word in words if self.of(word, thing)]
        return max(found, key=number_of, default=None)

    def past(self, device: int) -> Past:
        """The life of a device since its latest start or join."""
        if device not in self._pasts:
            begin = number_of(self.life(device))
            steps = [step for step in self.steps if step.event.device == device and step.number >= begin]
            self._pasts[device] = Past(self.topology, self.plans, device, steps)
        return self._pasts[device]

    # Devices and links

    def life(self, device: int) -> Optional[Step]:
        """The latest start or join of a device."""
        return self.latest(("start", "join"), ("device", device))

    def is_up(self, device: int) -> bool:
        failed = self.latest(("fail",), ("device", device))
        return number_of(self.life(device)) > number_of(failed)

    def has_failed(self, thing: Thing) -> bool:
        """Since its latest failure it was not mended."""
        return number_of(self.latest(("fail",), thing)) > number_of(self.latest(("mend",), thing))

    def was_touched(self, device: int) -> bool:
        """The device was started, joined or failed before."""
        return self.latest(("start", "join", "fail"), ("device", device)) is not None

    # Plans and windows

    @property
    def epoch(self) -> int:
        """The number of the plan in force, from 1."""
        return len(self.closings) + 1

    @property
    def plan(self) -> Plan:
        """The plan in force."""
        return self.plans[self.epoch - 1]

    @property
    def stage(self) -> Optional[Step]:
        """The event that opened the open window."""
        stage = self.latest(("stage",))
        return stage if number_of(stage) > max(self.closings, default=0) else None

    @property
    def staged_epoch(self) -> Optional[int]:
        return self.epoch + 1 if self.stage else None

    @property
    def staged_plan(self) -> Optional[Plan]:
        return self.plans[self.epoch] if self.stage else None

    def in_window(self, word: str, thing: Optional[Thing] = None) -> bool:
        """There was such an event since the window opened."""
        stage = self.stage
        return stage is not None and number_of(self.latest((word,), thing)) > stage.number

    def is_counted(self, device: int) -> bool:
        """The device is up, and a member of the plan in force or joined in the open window."""
        member = device not in self.plan.absent_devices
        return self.is_up(device) and (member or self.in_window("join", ("device", device)))

    def counted(self) -> List[int]:
        return [device for device in self.devices if self.is_counted(device)]

    def up_members(self, plan: Plan) -> List[int]:
        return [device for device in plan.members(self.topology) if self.is_up(device)]

    # Messages

    def is_spent(self, message: Message, ref: int) -> bool:
        """It can be received no more by an event at this reference."""
        latest = self.steps[-1].event.ref if self.steps else 0
        return not message.reaches or message.last < max(ref, latest) or self.is_taken(message) or self.is_swept(message)

    def is_taken(self, message: Message) -> bool:
        """It was received, or is known to be lost."""
        return any(step.event.message == message.number for step in [*self.of("recv"), *self.of("lose")])

    def is_swept(self, message: Message) -> bool:
        """Its link or its receiver failed after it was sent."""
        ends: Tuple[Thing, ...] = ("link", message.link), ("device", message.receiver)
        return any(number_of(self.latest(("fail",), thing)) > message.sent for thing in ends)

    # One event more

    def add(self, event: Event) -> Step:
        """Accepts an event: it is a step, it may send messages, and it may close the window."""
        message = self.messages[event.message - 1] if event.word == "recv" and event.message else None
        turn = Turn()
        if event.device is not None and event.word not in ("start", "join"):
            turn = turn_of(self.past(event.device), event, self.staged_epoch, message)
        step = Step(len(self.steps) + 1, event, self.epoch, self.staged_epoch, message, turn)
        self._keep(step)
        self.messages.extend(self._sent(step))
        if self._closes():
            self.closings.append(step.number)
        return step

    def _keep(self, step: Step) -> None:
        thing = thing_of(step.event)
        self.steps.append(step)
        for key in {None, thing}:
            self._lists.setdefault((step.event.word, key), []).append(step)
        if thing and thing[0] == "device":
            self._pasts.pop(thing[1], None)

    def _sent(self, step: Step) -> Iterator[Message]:
        """The messages of an event, by ascending link."""
        sender = step.event.device
        if sender is None or not (step.turn.accepts or step.turn.emits):
            return
        past = self.past(sender)
        if past.epoch not in (self.epoch, self.staged_epoch):
            return
        clock, eps = past.report(step.event.counter) if step.turn.emits else past.estimate[:2]
        for number, (link, receiver) in enumerate(_ends_below(self.plans[past.epoch - 1], sender), len(self.messages) + 1):
            most = self.topology.links[link].towards(receiver).max
            reaches = not self.has_failed(("link", link)) and self.is_up(receiver)
            yield Message(
                number, step.number, step.event.ref, sender, receiver, link, past.epoch, past.stamp, clock, eps, reaches,
                step.event.ref + most, step.event.ref + 2 * most,
            )

    def _closes(self) -> bool:
        """The window has its commit, and all that are up of its plan, one at least, follow it and are sealed."""
        plan = self.staged_plan
        if plan is None or not self.in_window("commit"):
            return False
        up = self.up_members(plan)
        return bool(up) and all(self.past(it).epoch == self.staged_epoch and self.past(it).is_sealed for it in up)


def _ends_below(plan: Plan, sender: int) -> List[Tuple[int, int]]:
    """Each link over which some device follows the sender, with the first such device."""
    first: Dict[int, int] = {}
    for link, receiver in plan.below(sender):
        first.setdefault(link, receiver)
    return sorted(first.items())
