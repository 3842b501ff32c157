#!/usr/bin/env python3
"""Prints a schedule over a network of leaves and spines, with asks, losses, a failure and a renewal.

usage: bench/schedule.py --network LEAVES SPINES > TOPOLOGY
       bench/schedule.py PLAN PLAN ROUNDS < TOPOLOGY > SCHEDULE

The network and the course of things are those of a case (docs/QUICKSTART.md), drawn with other words, and at any length: in each
round of 50 us messages arrive and then each device ticks. In round 21 the root fails, in round 150 the second plan is
staged, given and committed, in round 160 it is sealed. One message of every eighth round is lost. The devices are a
small program of their own here: what they do is what docs/RULES.md says of them.
"""
import heapq
import json
import random
import sys
from typing import Dict, Iterable, List, Optional, Tuple

PERIOD, STEP, LEAST, GREATEST = 100_000_000, 50_000_000, 400_000, 1_000_000
PRIMARY, BACKUP, ACTING = range(3)


def print_network(leaves: int, spines: int) -> None:
    print(f"version = 1\nppm = 200\ngrain = 1000\nperiod = {PERIOD}\ntick = 60000000\nloss = 1\ndepth = 3")
    print("roots = [" + ", ".join(f'"s{spine}"' for spine in range(spines)) + "]")
    for name in [f"s{spine}" for spine in range(spines)] + [f"l{leaf}" for leaf in range(leaves)]:
        print(f'[[device]]\nname = "{name}"')
    for leaf in range(leaves):
        for spine in range(spines):
            print(f'[[link]]\nname = "k{leaf}-{spine}"\nends = ["s{spine}", "l{leaf}"]\nmin = {LEAST}\nmax = {GREATEST}')
    for leaf in range(leaves):
        links = ", ".join(f'"k{leaf}-{spine}"' for spine in range(spines))
        print(f'[[domain]]\nname = "rack{leaf}"\ndevices = ["l{leaf}"]\nlinks = [{links}]')


def names_of(topology: Iterable[str]) -> Tuple[Dict[str, int], Dict[str, int]]:
    """The numbers of devices and of links, by name."""
    devices: Dict[str, int] = {}
    links: Dict[str, int] = {}
    kind: Optional[Dict[str, int]] = None
    for line in topology:
        if line.startswith("[["):
            kind = {"[[device]]\n": devices, "[[link]]\n": links}.get(line)
        elif line.startswith("name") and kind is not None:
            kind[line.split('"')[1]] = len(kind)
    return devices, links


class Plan:
    def __init__(self, file: str, devices: Dict[str, int], links: Dict[str, int]) -> None:
        with open(file, encoding="utf-8") as text:
            said = json.load(text)
        self.root, self.backup_root = devices[said["root"]], devices[said["backup_root"]]
        self.first, self.second, self.wait = said["wait_first"], said["wait_second"], said["wait"]
        self.primary: Dict[int, int] = {}
        self.backup: Dict[int, int] = {}
        # whom a device sends to: links ascending, with the device at the other end
        self.ends: List[List[Tuple[int, int]]] = [[] for _ in devices]
        for row in said["rows"]:
            device = devices[row["device"]]
            for table, parent, link in (self.primary, "parent", "link"), (self.backup, "backup", "backup_link"):
                if parent in row:
                    table[device] = links[row[link]]
                    self.ends[devices[row[parent]]].append((links[row[link]], device))
        for ends in self.ends:
            ends.sort()


class Device:
    def __init__(self, number: int, rate: int, plan: Plan) -> None:
        self.number, self.rate, self.plan = number, rate, plan
        self.given: Optional[Plan] = None
        self.mode = ACTING if number == plan.root else PRIMARY
        self.sealed, self.stamp, self.heard, self.sent, self.up = True, (0, 0), 0, 0, True

    def counter(self, reference: int) -> int:
        return reference - 150 * reference // 1_000_000 + self.rate * reference // 1_000_000

    def ticks(self, counter: int) -> bool:
        """Whether it sends."""
        plan = self.plan
        if self.mode == ACTING:
            if counter - self.sent < PERIOD:
                return False
            self.stamp, self.sent = (self.stamp[0], self.stamp[1] + 1), counter
            return True
        if not self.sealed:
            return False
        silence = counter - self.heard
        if self.number == plan.backup_root:
            if self.mode == PRIMARY and silence >= plan.first:
                self.mode, self.heard = BACKUP, counter
            elif self.mode == BACKUP and silence >= plan.second:
                self.mode, self.stamp, self.sent = ACTING, (self.stamp[0] + 1, 1), counter
                return True
        elif self.mode == PRIMARY and silence >= plan.wait and self.number in plan.backup:
            self.mode = BACKUP
        return False

    def takes(self, counter: int, plan: Plan, link: int, stamp: Tuple[int, int]) -> bool:
        """Whether it accepts the message, and so sends."""
        if self.given is plan and plan.primary.get(self.number) == link:
            self.plan, self.given, self.mode, self.sealed = plan, None, PRIMARY, False
        else:
            edges: Dict[int, Dict[int, int]] = {PRIMARY: self.plan.primary, BACKUP: self.plan.backup, ACTING: {}}
            edge = edges[self.mode].get(self.number)
            if self.plan is not plan or edge != link or stamp <= self.stamp:
                return False
        self.stamp, self.heard = stamp, counter
        return True

    def commits(self, counter: int) -> None:
        assert self.given is not None
        self.plan, self.given, self.sealed = self.given, None, False
        if self.mode != ACTING:
            self.mode, self.stamp, self.sent = ACTING, (self.stamp[0] + 1, 0), counter


# When a message arrives, its number, its receiver and link, and the plan and stamp with which it was sent.
Flight = Tuple[int, int, int, int, Plan, Tuple[int, int]]


class Schedule:
    def __init__(self, plans: List[Plan], devices: int) -> None:
        self.draw = random.Random(1)
        self.devices = [Device(number, self.draw.randrange(301), plans[0]) for number in range(devices)]
        self.plans, self.followed, self.messages = plans, plans[:1], 0
        self.waiting: List[Flight] = []
        self.lines: List[str] = []

    def say(self, line: str) -> None:
        self.lines.append(line)
        if len(self.lines) == 65536:
            self.flush()

    def flush(self) -> None:
        sys.stdout.write("\n".join(self.lines) + "\n")
        self.lines.clear()

    def send(self, device: Device, reference: int) -> None:
        if device.plan not in self.followed:
            return
        for link, end in device.plan.ends[device.number]:
            self.messages += 1
            if self.devices[end].up:
                moment = reference + LEAST + self.draw.randrange(GREATEST - LEAST + 1)
                heapq.heappush(self.waiting, (moment, self.messages, end, link, device.plan, device.stamp))

    def receive_until(self, reference: int) -> None:
        while self.waiting and self.waiting[0][0] <= reference:
            moment, number, end, link, plan, stamp = heapq.heappop(self.waiting)
            device = self.devices[end]
            if device.up:
                counter = device.counter(moment)
                self.say(f"recv {moment} {end} {counter} {number}")
                if device.takes(counter, plan, link, stamp):
                    self.send(device, moment)

    def lose_one(self, reference: int) -> None:
        for place, (moment, number, end, *_) in enumerate(self.waiting):
            if self.devices[end].up:
                self.say(f"lose {reference} {number}")
                self.waiting[place] = self.waiting[-1]
                self.waiting.pop()
                heapq.heapify(self.waiting)
                return

    def up(self) -> List[Device]:
        return [device for device in self.devices if device.up]

    def round(self, place: int, is_last: bool) -> None:
        reference = STEP * place
        if place == 21:
            self.receive_until(reference - STEP // 2)
            self.say(f"fail {reference - STEP // 2} device {self.plans[0].root}")
            self.devices[self.plans[0].root].up = False
        self.receive_until(reference)
        for device in self.up():
            self.say(f"tick {reference} {device.number} {device.counter(reference)}")
            if device.ticks(device.counter(reference)):
                self.send(device, reference)
        self.renew(place, reference)
        if place % 16 == 8 and not 20 < place < 200:
            self.lose_one(reference)
        for device in self.up() if is_last else self.draw.sample(self.up(), 1) if place % 10 == 0 else []:
            self.say(f"ask {reference} {device.number} {device.counter(reference)}")

    def renew(self, place: int, reference: int) -> None:
        if place == 150:
            self.say(f"stage {reference}")
            self.followed = self.plans
            for device in self.up():
                self.say(f"give {reference} {device.number}")
                device.given = self.plans[1]
            root = self.devices[self.plans[1].root]
            self.say(f"commit {reference} {root.number} {root.counter(reference)}")
            root.commits(root.counter(reference))
        if place == 160:
            for device in self.up():
                self.say(f"seal {reference} {device.number}")
                device.sealed = True
            self.followed = self.plans[1:]

    def print(self, rounds: int) -> None:
        for device in self.devices:
            self.say(f"start 0 {device.number} 0 0 {500 if device.number == self.plans[0].root else 1000000}")
        for place in range(1, rounds + 1):
            self.round(place, place == rounds)
        self.say(f"end {STEP * rounds}")
        self.flush()


def main(words: List[str]) -> None:
    if words[0] == "--network":
        print_network(int(words[1]), int(words[2]))
        return
    devices, links = names_of(sys.stdin)
    plans = [Plan(file, devices, links) for file in words[:2]]
    Schedule(plans, len(devices)).print(int(words[2]))


main(sys.argv[1:])
