"""Whether a logged event can come next, and as which line of a schedule: docs/FLEET.md.

`apply` gives the event of the schedule, or a refusal: the causes of docs/FLEET.md in their order, by the words of logs.
"""

from __future__ import annotations

from typing import Any, Dict, List, Optional, Sequence, Set, Union

from sundial_tools.fleet.fleet import Fleet
from sundial_tools.plan import Plan
from sundial_tools.record.events import NONE, LogEvent
from sundial_tools.record.logs import USUAL
from sundial_tools.schedule import Event
from sundial_tools.topology import Topology


class Refusal(str):
    """Why an event cannot come next."""


class JudgedFleet:
    """The fleet, with what is needed to refuse events: who has begun, and the latest counter of each."""

    def __init__(self, topology: Topology, plans: Sequence[Plan]) -> None:
        self._topology, self._plans = topology, plans
        self.fleet = Fleet(topology, plans)
        self.book = self.fleet.book
        self._begun: Set[int] = set()
        self._counters: Dict[int, int] = {}

    def state(self) -> Dict[str, Any]:
        """What has to be kept of it, as data, where no window is open and no message is on its way."""
        return {"fleet": self.fleet.state(), "begun": sorted(self._begun), "counters": self._counters}

    def resume(self, state: Dict[str, Any]) -> None:
        """Takes up what was kept."""
        self.fleet.resume(state["fleet"])
        self._begun, self._counters = set(state["begun"]), {int(number): counter for number, counter in state["counters"].items()}

    def message_of(self, event: LogEvent) -> int:
        """The number of the message of a `recv` or `lose`, or 0 where none such is on its way."""
        return self.book.find((event.device, event.link, event.epoch, event.stamp)) or 0

    def lost_before(self, ref: int) -> List[Event]:
        """The messages that nobody can receive any more at `ref`, each as lost at its last moment."""
        return [Event("lose", flight.last, message=flight.number) for flight in self.book.expired(ref)]

    def apply(self, event: LogEvent, ref: int, counter: Optional[int]) -> Union[Event, Refusal]:
        """`ref` and `counter` are those of the schedule, with their origins taken off."""
        word, device = event.word, event.device
        message = 0
        if word == "recv" or word == "lose":
            message = self.book.find((device, event.link, event.epoch, event.stamp)) or 0
        refusal = self._refusal(event, counter, message)
        if refusal is not None:
            return Refusal(refusal)
        if counter is not None:
            self._counters[device] = counter
        if word in ("start", "join"):
            self._begun.add(device)
        if word in USUAL:
            said = Event(word, ref, device, counter, None, None, message or None)
        else:
            said = Event(
                word, ref, None if device == NONE or word == "lose" else device, counter, event.clock, event.eps,
                message or None, event.thing or None, None if event.number == NONE else event.number,
            )
        self.happens(said)
        return said

    def usual(self, event: LogEvent, ref: int, counter: int) -> str:
        """The line of a tick, an ask or a receipt that nothing refuses, which then happens; or "" for all others.

        It is `apply` for nearly all events, in a third of its time: `apply` looks anew at what this leaves.
        """
        word, device = event.word, event.device
        if device not in self.fleet.up or counter < self._counters[device]:
            return ""
        if word == "recv":
            message = self.book.find((device, event.link, event.epoch, event.stamp))
            if message is None:
                return ""
            self._counters[device] = counter
            self.fleet.receive(ref, device, counter, message)
            return f"recv {ref} {device} {counter} {message}\n"
        self._counters[device] = counter
        if word == "tick":
            self.fleet.tick(ref, device, counter)
        else:
            self.fleet.passes(ref)
        return f"{word} {ref} {device} {counter}\n"

    def happens(self, event: Event) -> None:
        """The event of the schedule was accepted."""
        self.fleet.happen(event)

    def restore(self, event: Event) -> None:
        """The event of the schedule was accepted in an earlier run."""
        if event.counter is not None and event.device is not None:
            self._counters[event.device] = event.counter
        if event.word in ("start", "join") and event.device is not None:
            self._begun.add(event.device)
        self.happens(event)

    # Refusals

    def _name(self, number: int) -> str:
        return self._topology.devices[number].name

    def _refusal(self, event: LogEvent, counter: Optional[int], message: int) -> Optional[str]:
        word, device = event.word, event.device
        if word in USUAL and (message or word != "recv") and device in self.fleet.up and (counter or 0) >= self._counters[device]:
            return None
        if word in ("fail", "mend"):
            return self._thing_refusal(event)
        if word != "lose" and device in self.fleet.failed_devices:
            return f"DeadDevice: {self._name(device)} has failed"
        if word in ("recv", "lose") and not message:
            return self._unmatched(event)
        if counter is not None and word not in ("start", "join") and counter < self._counters.get(device, 0):
            return f"CounterFalls: the counter of {self._name(device)} is {self._counters[device] - counter} ps less than before"
        if device != NONE and word not in ("start", "join", "lose") and device not in self.fleet.up:
            return f"NotStarted: {self._name(device)} has not started or joined"
        return self._start_refusal(word, device) or self._window_refusal(word, device) or self._member_refusal(word, device)

    def _thing_refusal(self, event: LogEvent) -> Optional[str]:
        failed = self.fleet.failed_devices if event.thing == "device" else self.fleet.failed_links
        of_a_device = event.thing == "device"
        given = self._name(event.number) if of_a_device else self._topology.links[event.number].name
        name = f"the {event.thing} {given}"
        if event.word == "fail" and event.number in failed:
            return f"{'DeadDevice' if of_a_device else 'DeadLink'}: {name} has failed before"
        if event.word == "mend" and (not self.fleet.staged or self.fleet.committed):
            return "WindowOrder: mend needs a window without its commit"
        if event.word == "mend" and event.number not in failed:
            return f"NotFailed: {name} has not failed"
        return None

    def _start_refusal(self, word: str, device: int) -> Optional[str]:
        if word == "start" and device in self._begun:
            return f"StartedTwice: {self._name(device)} started or joined before"
        if word == "join" and device in self.fleet.up:
            if device in self.fleet.members[self.fleet.in_force - 1] or device in self.fleet.joined:
                return f"StartedTwice: {self._name(device)} is up"
        return None

    def _window_refusal(self, word: str, device: int) -> Optional[str]:
        if word == "stage":
            if self.fleet.staged:
                return "WindowOrder: a window is open"
            if self.fleet.in_force == len(self._plans):
                return "NoPlanLeft: there is no further plan"
        if word in ("give", "join") and (not self.fleet.staged or self.fleet.committed):
            return f"WindowOrder: {word} needs a window without its commit"
        if word == "commit":
            return self._commit_refusal(device)
        if word == "seal":
            if not self.fleet.staged or not self.fleet.committed:
                return "WindowOrder: seal needs a window with its commit"
            if self.fleet.up[device].epoch != self.fleet.staged:
                return f"WindowOrder: {self._name(device)} has not entered plan {self.fleet.staged}"
        return None

    def _commit_refusal(self, device: int) -> Optional[str]:
        if not self.fleet.staged or self.fleet.committed:
            return "WindowOrder: commit needs a window without its commit"
        if device != self._plans[self.fleet.staged - 1].root:
            return f"WindowOrder: {self._name(device)} is not the root of plan {self.fleet.staged}"
        if self.fleet.up[device].given != self.fleet.staged:
            return f"WindowOrder: {self._name(device)} was not given its duty of plan {self.fleet.staged}"
        return None

    def _member_refusal(self, word: str, device: int) -> Optional[str]:
        place = {"start": self.fleet.in_force, "give": self.fleet.staged, "join": self.fleet.staged}.get(word)
        if place is not None and device not in self.fleet.members[place - 1]:
            return f"NotMember: plan {place} leaves {self._name(device)} out"
        return None

    def _unmatched(self, event: LogEvent) -> str:
        """Why no message on its way is the one that the log names."""
        link = self._topology.links[event.link]
        receiver = self._name(event.device)
        if event.device not in link.ends:
            return f"{receiver} is no end of the link {link.name}"
        sender = link.other(event.device)
        if not 1 <= event.epoch <= len(self._plans):
            return f"there is no plan {event.epoch}"
        if (event.link, event.device) not in self._plans[event.epoch - 1].below(sender):
            return f"{self._name(sender)} sends nothing to {receiver} over {link.name} in plan {event.epoch}"
        said = f"no message of epoch {event.epoch}, term {event.stamp[0]}, round {event.stamp[1]} is on its way to {receiver}"
        if sender not in self.fleet.up:
            return f"{said} over {link.name}: {self._name(sender)} is not up"
        device = self.fleet.up[sender]
        reached = f"epoch {device.epoch}, term {device.stamp[0]}, round {device.stamp[1]}"
        return (
            f"{said} over {link.name}: {self._name(sender)} has come to {reached}. The message comes before its sending, "
            "a second time, or later than twice the greatest delay"
        )
