"""Random schedules of many kinds of networks, which a replay accepts: failures at any moment, renewals, and broken premises."""

import heapq
import json
import random
import subprocess

from support import LIMIT

from sundial_tools.fleet.device import ACTING
from sundial_tools.fleet.fleet import Fleet
from sundial_tools.plan import parse_plan
from sundial_tools.schedule import Event, event_line
from sundial_tools.topology import parse_topology, topology_text

PERIOD, LEAST, MOST, LATE = 100_000_000, 400_000, 1_000_000, 700_000
KINDS = ("ring", "mesh", "tiers", "star", "pods")


def pairs_of(kind, draw):
    """How many devices a network has, and which of them links join."""
    if kind == "tiers":
        spines, leaves = draw.randint(2, 3), draw.randint(2, 4)
        return spines + leaves, [(spine, spines + leaf) for leaf in range(leaves) for spine in range(spines)]
    if kind == "pods":
        aggregates = [(core, 2 + at) for at in range(4) for core in (0, 1)]
        return 8, aggregates + [(2 + 2 * pod + at, 6 + pod) for pod in (0, 1) for at in (0, 1)]
    count = draw.randint(4, 7)
    if kind == "star":
        return count, [(0, 1), *((hub, leaf) for leaf in range(2, count) for hub in (0, 1))]
    ring = [(at, (at + 1) % count) for at in range(count)]
    more = [(at, other) for at in range(count) for other in range(at + 2, count) if kind == "mesh" and draw.random() < 0.4]
    return count, sorted({tuple(sorted(pair)) for pair in ring + more})


def topology_of(kind, draw):
    count, pairs = pairs_of(kind, draw)
    tick, loss = draw.choice((30, 45, 60, 80)) * 1_000_000, draw.choice((0, 1, 1, 2))
    text = f"version = 1\nppm = {draw.choice((100, 137, 200))}\ngrain = {draw.choice((1, 1000))}\nperiod = {PERIOD}\n"
    text += f'tick = {tick}\nloss = {loss}\ndepth = {count}\nroots = ["d0", "d1"]\n'
    text += "".join(f'[[device]]\nname = "d{at}"\n' for at in range(count))
    for at, (one, other) in enumerate(pairs):
        text += f'[[link]]\nname = "l{at}"\nends = ["d{one}", "d{other}"]\nmin = {LEAST}\nmax = {MOST}\n'
    for device in range(2, count) if kind in ("tiers", "star", "pods") else ():
        links = ", ".join(f'"l{at}"' for at, pair in enumerate(pairs) if device in pair)
        text += f'[[domain]]\nname = "rack{device}"\ndevices = ["d{device}"]\nlinks = [{links}]\n'
    return parse_topology(text)


def plan_of(topology, root, devices, links):
    """The text of a plan that leaves out these devices and links, and who is reached no more. None where nobody is left to be
    backup root."""
    beside = {it.number: [] for it in topology.devices}
    for link in topology.links:
        if link.number not in links and not set(link.ends) & set(devices):
            for end in link.ends:
                beside[end].append((link.other(end), link.number))
    order, parents = [root], {}
    for at in order:
        for other, link in sorted(beside[at]):
            if other not in order:
                order.append(other)
                parents[other] = at, link
    if len(order) < 2:
        return None
    names, ties = [it.name for it in topology.devices], [it.name for it in topology.links]
    rows = []
    for device in order[1:]:
        row = {"device": names[device], "parent": names[parents[device][0]], "link": ties[parents[device][1]]}
        for other, link in sorted(beside[device], reverse=True):
            if link != parents[device][1] and order.index(other) < order.index(device):
                row.update(backup=names[other], backup_link=ties[link])
                break
        rows.append(row)
    wait = (topology.loss + 2) * (PERIOD + topology.tick)
    gone = [it for it in range(len(names)) if it not in order]
    return json.dumps({
        "version": 1, "root": names[root], "backup_root": names[order[1]], "wait_first": wait, "wait_second": wait, "wait": 6 * wait,
        "absent_devices": [names[it] for it in gone], "absent_links": [ties[it] for it in sorted(links)], "rows": rows,
    })


class NoPlan(Exception):
    """No plan of a network can be made."""


def planned_by(program, path):
    """A planner as `plan_of`, by the program: the first plan is that of `plan`, each later one that of `renew` after it."""
    plans = []

    def planner(topology, root, devices, links):
        file, absent = path / "planned.toml", path / "absent.json"
        file.write_text(topology_text(topology))
        absent.write_text(json.dumps({
            "absent_devices": [topology.devices[it].name for it in devices], "absent_links": [topology.links[it].name for it in links],
        }))
        words = ("renew", file, plans[-1], absent) if plans else ("plan", file)
        done = subprocess.run((program, *words), stdout=subprocess.PIPE, text=True, check=False, timeout=LIMIT)
        if done.returncode != 0 or (plans and parse_plan(done.stdout, topology).root != root):
            return None
        plans.append(path / f"planned-{len(plans)}.json")
        plans[-1].write_text(done.stdout)
        return done.stdout

    return planner


class World:
    """`lines` is the schedule, `texts` are its plans. In a `bad` one premises break.

    `planner` makes the text of a plan, as `plan_of` does. With `fails` these fail, each a reference, a kind and a place, and a
    renewal begins at each reference of `stages`, in place of what is drawn, and nothing is lost. `late` is a reference from which
    on one message comes too late. Of the losses a part `mute` is told by nobody.
    """

    def __init__(self, number, rounds=30, bad=False, fails=None, planner=plan_of, kind=None, stages=(), late=None, mute=0.5):
        self.draw = draw = random.Random(number)
        self.bad, self.planner, self.late, self.mute = bad, planner, late, mute
        self.topology = topology = topology_of(kind or KINDS[number % len(KINDS)], draw)
        self.texts, self.plans, self.events = [], [], []
        self.plan(planner(topology, draw.choice((0, 0, 1)), (), ()))
        self.fleet = Fleet(topology, self.plans)
        self.rates = [draw.choice((-0.999, -0.7, 0, 0.3, 0.9, 0.999)) * it.ppm for it in topology.devices]
        self.begun = [draw.randint(0, 10**9) for _ in topology.devices]
        self.flights = {}
        self.latest, self.waiting, self.serial, self.ref, self.lossless, self.troubled = {}, [], 0, 0, 0, 0
        for device in range(len(self.begun)):
            self.later(draw.randint(0, 2_000_000), self.start, "start", device)
        end = rounds * PERIOD
        self.is_quiet = fails is not None
        for ref, kind, place in fails or ():
            self.later(ref, self.fail, kind, range(len(topology.devices if kind == "device" else topology.links))[place])
        for ref in stages:
            self.later(ref, self.stage, False)
        if fails is None:
            self.later(draw.randint(3 * PERIOD, 9 * PERIOD), self.trouble)
        while self.waiting and self.waiting[0][0] < end:
            self.ref, _, act, *words = heapq.heappop(self.waiting)
            act(*words)
        self.ref = end
        self.events.append(Event("end", end))

    def plan(self, text):
        if text is None:
            raise NoPlan(self.topology)
        self.texts.append(text)
        self.plans.append(parse_plan(text, self.topology))

    @property
    def lines(self):
        return [event_line(event) for event in self.events]

    def files(self, path):
        """The file of its topology and those of its plans, in a folder."""
        files = [path / "topology.toml", *(path / f"plan-{place}.json" for place in range(1, len(self.texts) + 1))]
        for file, text in zip(files, (topology_text(self.topology), *self.texts)):
            file.write_text(text)
        return files[0], files[1:]

    @property
    def leaf(self):
        """The name of the last device that nobody follows."""
        return self.topology.devices[max(it for it in self.plans[0].rows if not self.plans[0].below(it))].name

    def later(self, after, act, *words):
        self.serial += 1
        heapq.heappush(self.waiting, (self.ref + after, self.serial, act, *words))

    def counter(self, device):
        """What the device reads: its rate, to its grain, and never less than before."""
        grain = self.topology.devices[device].grain
        exact = self.begun[device] + self.ref + int(self.ref * self.rates[device]) // 1_000_000 + self.draw.randint(0, grain // 2)
        self.latest[device] = max(exact, self.latest.get(device, 0))
        return self.latest[device]

    def say(self, word, device=None, **more):
        counter = self.counter(device) if device is not None and word not in ("give", "seal") else None
        event = Event(word, self.ref, device, counter, **more)
        self.events.append(event)
        done = self.fleet.happen(event)
        for flight in list(self.fleet.sent_now):
            self.flights[flight.number] = flight
            delay = self.draw.randint(LEAST, MOST)
            if self.bad and self.draw.random() < 0.004:
                delay = MOST + self.draw.randint(1, MOST - 1)
            if self.late is not None and self.ref >= self.late:
                delay, self.late = MOST + LATE, None
            elif self.draw.random() < (0.04 if self.bad else 0.03) and (self.bad or self.may_lose(flight)):
                if self.draw.random() >= self.mute:
                    self.later(delay, self.lose, flight.number)
                continue
            self.later(delay, self.receive, flight.receiver, flight.number)
        return done

    def may_lose(self, flight):
        """Whether no round was spoiled for some rounds before."""
        may = not self.is_quiet and self.topology.loss > 0 and flight.stamp[1] > self.lossless + self.topology.loss + 1
        self.lossless = flight.stamp[1] if may else self.lossless
        return may

    def lose(self, number):
        if self.fleet.book.get(number) is not None:
            self.say("lose", message=number)

    def receive(self, device, number):
        if self.fleet.book.get(number) is not None and device in self.fleet.up:
            self.say("recv", device, message=number)

    def start(self, word, device):
        off = self.draw.randint(-500, 500)
        self.latest.pop(device, None)
        self.begun[device] += self.draw.randint(0, 1000)
        self.say(word, device, clock=max(0, self.ref + off), eps=600)
        self.later(self.draw.randint(1, self.topology.tick * 9 // 10), self.tick, device, self.begun[device])

    def tick(self, device, begun):
        if device not in self.fleet.up or self.begun[device] != begun:
            return
        self.say("tick", device)
        draw = self.draw
        if draw.random() < 0.1:
            self.say("ask", device)
        if draw.random() < 0.01:
            wrong = 10_000 if self.bad and draw.random() < 0.1 else 0
            self.say("fix", device, clock=self.ref + 50 + wrong, eps=600 + draw.randint(0, 400))
        if self.bad and draw.random() < 0.003:
            self.rates[device] = draw.choice((-3, 2)) * self.topology.devices[device].ppm
        longest = self.topology.tick * (11 if self.bad and draw.random() < 0.005 else 8 if draw.random() < 0.7 else 3)
        self.later(draw.randint(longest // 20, longest // 10), self.tick, device, begun)

    def fail(self, kind, number):
        failed = self.fleet.failed_devices if kind == "device" else self.fleet.failed_links
        if number not in failed:
            self.say("fail", thing=kind, number=number)

    def trouble(self):
        """Something fails, and mostly a renewal leaves it out some rounds later."""
        draw, topology = self.draw, self.topology
        self.later(draw.randint(4 * PERIOD, 12 * PERIOD), self.trouble)
        if not self.bad and self.troubled == self.fleet.in_force:
            return
        self.troubled = self.fleet.in_force
        device = draw.randrange(len(topology.devices))
        links = [it.number for it in topology.links if device in it.ends]
        in_a_rack = any(device in it.devices for it in topology.domains)
        for _ in range(draw.randint(1, 2) if in_a_rack or self.bad else 1):
            if not self.fleet.staged and len(self.fleet.up) > 3 and device != self.fleet.plan.root and draw.random() < 0.5:
                self.fail("device", device)
            elif not self.fleet.staged and len(self.fleet.up) > 2:
                self.fail("link", draw.choice(links))
        if draw.random() < 0.8:
            self.later(draw.randint(PERIOD // 3, 6 * PERIOD), self.stage, draw.random() < 0.5)

    def stage(self, mends):
        fleet = self.fleet
        roots = [it for it, state in fleet.up.items() if state.mode == ACTING]
        if fleet.staged or len(roots) != 1 or len(self.plans) > 8:
            return
        devices, links = set(fleet.failed_devices), set(fleet.failed_links)
        mended = [("device", it) for it in sorted(devices) if self.draw.random() < 0.4] if mends else []
        mended += [("link", it) for it in sorted(links) if self.draw.random() < 0.6] if mends else []
        for kind, number in mended:
            (devices if kind == "device" else links).discard(number)
        absent = set(links) if not self.bad or self.draw.random() < 0.9 else set()
        said = self.planner(self.topology, roots[0], devices, absent)
        if said is None:
            return
        self.plan(said)
        fleet.know(self.plans)
        self.say("stage")
        for kind, number in mended:
            self.say("mend", thing=kind, number=number)
        members = fleet.members[-1]
        for device in sorted(members):
            if device not in fleet.up and device not in fleet.failed_devices:
                self.start("join", device)
        for device in sorted(members & fleet.up.keys()):
            self.say("give", device)
        self.later(self.draw.randint(0, PERIOD), self.commit, roots[0])

    def commit(self, root):
        if root in self.fleet.up and self.fleet.staged and not self.fleet.committed:
            self.say("commit", root)
            self.later(PERIOD, self.seal)

    def seal(self):
        fleet = self.fleet
        members = [it for it in sorted(fleet.up) if fleet.staged and it in fleet.members[fleet.staged - 1]]
        if all(fleet.up[it].epoch == fleet.staged for it in members):
            for device in members:
                self.say("seal", device)
        else:
            self.later(PERIOD // 2, self.seal)
