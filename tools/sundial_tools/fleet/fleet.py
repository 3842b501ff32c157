"""All devices, the messages between them and the plans in force: docs/FLEET.md.

Nothing is refused here: who calls it has judged the events, or has `sundial` judge them.
"""

from __future__ import annotations

from typing import Any, Callable, Dict, FrozenSet, List, NamedTuple, Optional, Sequence, Set, Tuple

from sundial_tools.fleet.book import Book, Flight
from sundial_tools.fleet.device import Device
from sundial_tools.plan import Plan
from sundial_tools.schedule import Event
from sundial_tools.topology import Topology


class Full(NamedTuple):
    """An event, of which each field is read that its word has. It is for the checker of types alone."""

    word: str
    ref: int
    device: int
    counter: int
    clock: int
    eps: int
    message: int
    thing: str
    number: int


class Fleet:
    """Takes the accepted events of a schedule, one by one."""

    def __init__(self, topology: Topology, plans: Sequence[Plan]) -> None:
        self.topology = topology
        self.know(plans)
        self._rates = [(device.ppm, device.grain) for device in topology.devices]
        # (an event that its word names has all fields of a Full one; a cast at each would take a call)
        self._acts: Dict[str, Callable[[Any], str]] = {
            "start": self._start, "join": self._join, "tick": self._tick, "recv": self._recv, "lose": self._lose,
            "fix": self._fix, "fail": self._fail, "mend": self._mend, "stage": self._stage, "give": self._give,
            "commit": self._commit, "seal": self._seal,
        }
        self.devices: Dict[int, Device] = {}
        self.up: Dict[int, Device] = {}
        self.failed_devices: Set[int] = set()
        self.failed_links: Set[int] = set()
        self.in_force, self.staged, self.committed = 1, 0, False
        self.joined: Set[int] = set()
        self.book = Book()
        # The messages of the latest event that reach, and the one that was received latest.
        self.sent_now: List[Flight] = []
        self.received: Optional[Flight] = None
        self._messages = 0

    def know(self, plans: Sequence[Plan]) -> None:
        """The plans, with further ones behind those that were known."""
        self.plans, self._period = plans, self.topology.period
        self.members: List[FrozenSet[int]] = [frozenset(plan.members(self.topology)) for plan in plans]
        # The bounds of each link to each device that a plan has it lead to.
        self._towards = {
            (link, receiver): self.topology.links[link].towards(receiver)
            for plan in plans for ends in plan.ends_below.values() for link, receiver in ends
        }
        # Of each plan, by sender: the links and receivers of its messages, with their greatest delays.
        self._ends = [
            {
                sender: [(link, receiver, self._towards[link, receiver].max) for link, receiver in ends]
                for sender, ends in plan.ends_below.items()
            }
            for plan in plans
        ]

    def state(self) -> Dict[str, Any]:
        """What has to be kept of it, as data, where no window is open and no message is on its way."""
        return {
            "devices": [it.state() for it in self.up.values()], "failed_devices": sorted(self.failed_devices),
            "failed_links": sorted(self.failed_links), "in_force": self.in_force, "messages": self._messages,
        }

    def resume(self, state: Dict[str, Any]) -> None:
        """Takes up what was kept."""
        self.in_force, self._messages = state["in_force"], state["messages"]
        self.failed_devices, self.failed_links = set(state["failed_devices"]), set(state["failed_links"])
        for registers in state["devices"]:
            number, epoch = registers[:2]
            device = Device(number, self._rates[number], epoch, self.plans[epoch - 1], 0, 0, 0)
            device.resume(registers)
            self.devices[number] = self.up[number] = device

    @property
    def plan(self) -> Plan:
        """The plan in force."""
        return self.plans[self.in_force - 1]

    @property
    def messages(self) -> int:
        """How many messages were sent."""
        return self._messages

    def report(self, device: int, counter: int) -> Optional[Tuple[int, int]]:
        """Clock and eps that the device reports at this counter, in picoseconds."""
        state = self.devices.get(device)
        return None if state is None else state.report(counter)

    def happen(self, event: Event) -> str:
        """What the event brings: move, takeover, lead, enter, close, send, accept, or nothing."""
        self.passes(event.ref)
        act = self._acts.get(event.word)
        return "" if act is None else act(event)

    def tick(self, ref: int, device: int, counter: int) -> str:
        """What a tick brings, as `happen` says it."""
        if self.sent_now or self.book.earliest < ref:
            self.passes(ref)
        state = self.up[device]
        done = state.tick(counter, self._period)
        if done == "send" or done == "takeover":
            self._send(state, ref, *state.report(counter))
        return done

    def receive(self, ref: int, device: int, counter: int, message: int) -> str:
        """What a receipt brings, as `happen` says it."""
        if self.sent_now or self.book.earliest < ref:
            self.passes(ref)
        flight = self.received = self.book.spend(message)
        if flight is None:
            return ""
        state = self.up[device]
        done = state.receive(counter, flight, self._towards[flight.link, flight.receiver])
        if done:
            self._send(state, ref, state.clock, state.base)
        return done

    def passes(self, ref: int) -> None:
        """The time has come to that of the next event, of which nothing else is told."""
        if self.sent_now:
            self.sent_now = []
        if self.book.earliest < ref:
            for _ in self.book.expired(ref):
                pass

    # Messages

    def _send(self, state: Device, ref: int, clock: int, eps: int) -> None:
        if state.plan is None or state.epoch not in (self.in_force, self.staged):
            return
        stamp, epoch, sender = state.stamp, state.epoch, state.number
        for link, receiver, most in self._ends[epoch - 1].get(sender, ()):
            self._messages += 1
            if link in self.failed_links or receiver not in self.up:
                continue
            # (made as a tuple, since the call of the class takes twice the time)
            flight: Flight = tuple.__new__(Flight, (
                ref + 2 * most, self._messages, sender, receiver, link, epoch, stamp, clock, eps, ref, ref + most
            ))
            self.book.add(flight)
            self.sent_now.append(flight)

    # Events

    def _start(self, event: Full) -> str:
        return self._set_up(event, self.in_force, self.plan)

    def _join(self, event: Full) -> str:
        self.joined.add(event.device)
        return self._set_up(event, 0, None)

    def _set_up(self, event: Full, epoch: int, plan: Optional[Plan]) -> str:
        state = Device(
            event.device, self._rates[event.device], epoch, plan, event.counter, event.clock, event.eps
        )
        self.devices[event.device] = self.up[event.device] = state
        return ""

    def _tick(self, event: Full) -> str:
        return self.tick(event.ref, event.device, event.counter)

    def _recv(self, event: Full) -> str:
        return self.receive(event.ref, event.device, event.counter, event.message)

    def _lose(self, event: Full) -> str:
        self.book.spend(event.message)
        return ""

    def _fix(self, event: Full) -> str:
        self.up[event.device].set_clock(event.counter, event.clock, event.eps)
        return ""

    def _fail(self, event: Full) -> str:
        if event.thing == "device":
            self.failed_devices.add(event.number)
            self.up.pop(event.number, None)
        else:
            self.failed_links.add(event.number)
        self.book.sweep(event.thing, event.number)
        return self._close()

    def _mend(self, event: Full) -> str:
        (self.failed_devices if event.thing == "device" else self.failed_links).discard(event.number)
        return ""

    def _stage(self, _: Full) -> str:
        self.staged, self.committed = self.in_force + 1, False
        self.joined.clear()
        return ""

    def _give(self, event: Full) -> str:
        self.up[event.device].give(self.staged, self.plans[self.staged - 1])
        return ""

    def _commit(self, event: Full) -> str:
        self.committed = True
        return "lead" if self.up[event.device].commit(event.counter) else ""

    def _seal(self, event: Full) -> str:
        self.up[event.device].sealed = True
        return self._close()

    def _close(self) -> str:
        """Closes the window where all members of the staged plan that are up follow it and are sealed."""
        if not self.staged or not self.committed:
            return ""
        members = [state for number, state in self.up.items() if number in self.members[self.staged - 1]]
        if not members or not all(state.epoch == self.staged and state.sealed for state in members):
            return ""
        self.in_force, self.staged, self.committed = self.staged, 0, False
        self.joined.clear()
        return "close"
