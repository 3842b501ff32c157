"""Random histories and plans for two programs to judge: a world up to some moment and then events that nobody orders, at the
bounds of each rule; and plans with a few changes, at the bounds of each condition."""

import dataclasses
import json
import random
import subprocess
from typing import NamedTuple

from support import DATA, LIMIT
from test_plain_replay import BASE, PREMISES, REFUSALS, STARTS
from worlds import KINDS, LEAST, NoPlan, World, plan_of, planned_by, topology_of

from sundial_tools.plain.conditions import Conditions
from sundial_tools.plain.history import History
from sundial_tools.plain.lines import Replay
from sundial_tools.plain.refusals import refusal
from sundial_tools.plan import Hop, parse_plan
from sundial_tools.schedule import Event, event_line, parse_event
from sundial_tools.topology import Bounds, Domain, parse_topology, topology_text

WORDS = {
    "tick": 26, "recv": 26, "give": 12, "ask": 9, "seal": 8, "start": 6, "fail": 6, "join": 5, "commit": 5, "fix": 5, "lose": 4,
    "stage": 4, "mend": 4, "end": 0.3,
}
ACCEPTED, PLAN_REFUSED = 0, 1
# Parts of schedules: two devices start, tick before the first round, and take its first message.
TWO = "start 0 0 0 0 500,start 0 1 0 0 500,"
LATER = "tick 80000000 0 80000000,tick 80000000 1 80000000"
ENTERED = "tick 100000000 0 100000000,recv 100700000 1 100700000 1"
# A device that was mended joins, and hears a message of the plan in force, which is none of its own.
MENDED = (f"{TWO} start 0 2 0 0 500,fail 0 device 2,stage 0,mend 0 device 2,join 0 2 0 0 500,{LATER},tick 80000000 2 80000000,"
          "tick 100000000 0 100000000,recv 100700000 2 100700000 2,ask 100700000 2 100700000,end 100700000")
# A device starts after a renewal, and hears a message of the plan that is then in force.
LATE = (f"{TWO} stage 0,give 0 0,give 0 1,commit 0 0 0,{LATER},{ENTERED},seal 100700000 0,seal 100700000 1,"
        "start 100700000 2 0 100700000 500,tick 180000000 0 180000000,tick 180000000 1 180000000,tick 180000000 2 79300000,"
        "tick 200000000 0 200000000,recv 200700000 2 100000000 6,ask 200700000 2 100000000,end 200700000")


class Given(NamedTuple):
    """The texts of a topology and of its plans, and the lines of a schedule. Without lines its one plan is to be checked."""

    topology: str
    plans: list
    lines: list


class Uneven(World):
    """A world whose devices have rates of their own, and whose links have other bounds back than forth."""

    def __init__(self, number, topology=None, **more):
        self._number = number
        super().__init__(number, **more)

    def plan(self, text):
        if not self.plans:
            draw, old = random.Random(self._number), self.topology
            rates = [
                dataclasses.replace(it, ppm=max(1, it.ppm - draw.choice((0, 0, 40))), grain=it.grain + draw.choice((0, 7)))
                for it in old.devices
            ]
            links = [
                dataclasses.replace(it, back=Bounds(LEAST - draw.choice((0, 1000)), it.back.max + draw.choice((0, 5001))))
                for it in old.links
            ]
            self.topology = dataclasses.replace(old, version=2, devices=tuple(rates), links=tuple(links))
            text = self.planner(self.topology, 0, (), ())
        super().plan(text)


class Tail:
    """Events beyond those of a history, drawn at the bounds of the rules. All are accepted, but perhaps the last."""

    def __init__(self, topology, plans, events, draw):
        self.draw, self.topology, self.history = draw, topology, History(topology, plans)
        for event in events:
            self.history.add(event)
        self.ref = events[-1].ref if events else draw.randint(0, 10**6)
        # Some leap over the waits, and some hurry through their windows.
        self.leaps, self.hurries = draw.random() < 0.3, draw.random() < 0.5

    def events(self, count):
        for _ in range(count):
            event = next((it for it in (self.drawn() for _ in range(12)) if refusal(self.history, it) is None), None)
            if event is not None:
                self.history.add(event)
                self.ref = event.ref
                yield event
        ref = max((step.event.ref for step in self.history.steps), default=0)
        yield self.drawn() if self.draw.random() < 0.7 else Event("end", ref)

    def drawn(self):
        draw, word = self.draw, self.word()
        message = self.message() if word in ("recv", "lose") else None
        if word in ("fail", "mend"):
            thing = draw.choice(("device", "link"))
            return Event(word, self.reference(), thing=thing, number=self.thing(word, thing))
        if word in ("stage", "end"):
            return Event(word, self.reference())
        ref = self.reference(message)
        if word == "lose":
            return Event(word, ref, message=message)
        device = self.device(word, message)
        if word in ("give", "seal"):
            return Event(word, ref, device)
        if word in ("start", "join", "fix"):
            clock, eps = self.clock(device, ref)
            counter = self.counter(device, ref) if word == "fix" else draw.choice((0, 5, ref))
            return Event(word, ref, device, counter, clock, eps)
        return Event(word, ref, device, self.counter(device, ref), message=message)

    def word(self):
        draw, history = self.draw, self.history
        if self.leaps and draw.random() < 0.5:
            return "tick"
        if self.hurries and draw.random() < 0.5:
            if history.stage is None:
                return draw.choice(("stage", "recv", "tick"))
            return draw.choice(("seal", "recv", "tick") if history.in_window("commit") else ("give", "give", "give", "commit", "join", "mend"))
        return draw.choices(list(WORDS), list(WORDS.values()))[0]

    def message(self):
        """Mostly one that can be received."""
        latest = [it for it in self.history.messages[-24:] if not self.history.is_spent(it, self.ref)]
        if latest and self.draw.random() < 0.94:
            return self.draw.choice(latest).number
        return self.draw.randint(0, len(self.history.messages) + 1)

    def thing(self, word, kind):
        count = len(self.topology.devices if kind == "device" else self.topology.links)
        failed = [it for it in range(count) if self.history.has_failed((kind, it))]
        if word == "mend" and failed and self.draw.random() < 0.9:
            return self.draw.choice(failed)
        return self.draw.randrange(count + (self.draw.random() < 0.05))

    def device(self, word, message):
        draw, history, count = self.draw, self.history, len(self.topology.devices)
        if message is not None and 0 < message <= len(history.messages) and draw.random() < 0.97:
            return history.messages[message - 1].receiver
        if word == "commit" and history.staged_plan and draw.random() < 0.8:
            return history.staged_plan.root
        if word in ("tick", "ask") and draw.random() < 0.3:
            return draw.choice((history.plan.root, history.plan.backup_root))
        return draw.randrange(count + (draw.random() < 0.02))

    def reference(self, message=None):
        draw, topology = self.draw, self.topology
        kind = draw.random()
        if kind < 0.5:
            return self.ref + draw.choice((0, 0, 1, 1000, 100_000))
        if kind < 0.53:
            return max(0, self.ref - draw.choice((1, 1000)))
        if kind < 0.7:
            return self.ref + draw.randint(0, topology.tick // 3)
        places = [draw.randint(0, len(self.history.messages))] if message is None else [message]
        edges = []
        for sent in (self.history.messages[at - 1] for at in places if 0 < at <= len(self.history.messages)):
            bounds = topology.links[sent.link].towards(sent.receiver)
            least, most = bounds.min, bounds.max
            edges += [sent.ref + it for it in (least - 1, least, most, most, most + 1, 2 * most, 2 * most + 1)]
        if not edges or draw.random() < 0.3:
            begun = [step.event.ref for step in self.history.steps[:1]]
            begun += [step.event.ref for step in self.history.steps[-60:] if step.event.word in ("start", "join", "tick")]
            edges = [ref + topology.tick + more for ref in begun for more in (0, 1)]
        edges = [it for it in edges if it >= self.ref]
        return draw.choice(edges) if edges else self.ref

    def counter(self, device, ref):
        draw, history = self.draw, self.history
        if device >= len(self.topology.devices) or history.life(device) is None:
            return draw.choice((0, ref))
        past, rates = history.past(device), self.topology.devices[device]
        read = [step for step in past.steps if step.event.counter is not None]
        last, kind = read[-1], draw.random()
        honest = last.event.counter + max(0, ref - last.event.ref)
        kind += 0.4 * self.leaps
        if kind < 0.55:
            return honest
        if kind < 0.6:
            return max(0, last.event.counter - draw.choice((0, 0, 1)))
        if kind < 0.75:
            step = draw.choice((read[0], last, draw.choice(read)))
            passed = max(0, ref - step.event.ref)
            most = (passed + rates.grain) * 1_000_000 // (1_000_000 - rates.ppm)
            least = -(-max(0, passed - rates.grain) * 1_000_000 // (1_000_000 + rates.ppm))
            return step.event.counter + max(0, draw.choice((most, most + 1, least, least - 1)))
        plan, waits = past.plan or history.plan, [past.sent + self.topology.period]
        waits += [past.heard + it for it in (plan.wait_first, plan.wait, plan.wait_second)]
        if past.move:
            waits += [max(past.heard, past.move.event.counter) + plan.wait_second] * 3
        return max(last.event.counter, draw.choice(waits) - draw.choice((0, 0, 0, 1)))

    def clock(self, device, ref):
        eps = self.draw.choice((0, 1, 500, 600))
        grain = self.topology.devices[device].grain if device < len(self.topology.devices) else 0
        off = self.draw.choice((0, 0, 0, eps, -eps, eps + 1, -eps - 1, eps + grain, -eps - grain, eps + grain + 1, -eps - grain - 1))
        return max(0, ref + off), eps


def planner_of(program, path):
    return planned_by(program, path) if program else plan_of


def more_plans(world, draw):
    """The plans of a world in another order and number, so that a tail can stage some."""
    texts = list(world.texts)
    names = [it.name for it in world.topology.devices]
    for _ in range(draw.randint(0, 2)):
        said = world.planner(world.topology, world.plans[-1].root, [draw.randrange(2, len(names))], [])
        texts += [said] if said else []
    return texts + [draw.choice(texts) for _ in range(2)]


def made(number, program, path):
    """What the two programs are asked for a number: of 16, six are histories of networks, seven of three devices, three are plans."""
    kind = number % 16
    if kind in (0, 5, 11):
        return checked(number)
    if kind in (1, 6, 10, 14):
        return triangle(number)
    return joining(number) if kind in (3, 8, 13) else history(number, program, path)


def history(number, program, path):
    """The history of a number, or None where its network has no plan that the program makes."""
    draw = random.Random(number)
    kind = Uneven if number % 3 == 1 else World
    rounds = draw.choice((4, 12, 16, 40) if number % 8 == 7 else (3, 8, 14))
    try:
        world = kind(number, rounds=rounds, bad=number % 4 == 3, planner=planner_of(program, path))
    except NoPlan:
        return None
    if number % 8 == 7:
        return Given(topology_text(world.topology), world.texts, world.lines)
    texts = more_plans(world, draw)
    place = draw.randint(0, len(world.events) - 1) if number % 4 else 0
    if not place:
        draw.shuffle(texts)
    texts = unlike(texts, draw) if draw.random() < 0.4 else texts
    plans = [parse_plan(text, world.topology) for text in texts]
    events = world.events[:place]
    tail = Tail(world.topology, plans, events, draw).events(draw.choice((20, 40, 60)))
    return Given(topology_text(world.topology), texts, [event_line(it) for it in [*events, *tail]])


def triangle(number):
    """Events that nobody orders, over the triangle of the tests, after some of its renewal."""
    draw = random.Random(number)
    topology = parse_topology((DATA / "triangle.toml").read_text())
    texts = [(DATA / f"triangle-{place}.json").read_text() for place in (1, 2)]
    texts += draw.choice((texts[:1], [other_way(texts[0])]))
    events = [parse_event(line) for line in BASE[: draw.randint(0, len(BASE) - 1)]]
    return gone_on(topology, texts, events, draw)


def doubled(links):
    """The triangle with second links beside these."""
    text = (DATA / "triangle.toml").read_text()
    blocks = [block for block in text.split("[[link]]")[1:] for name in links if f'"{name}"' in block]
    more = [block.replace(f'"{name}"', f'"{name}2"') for name, block in zip(links, blocks)]
    return parse_topology(text + "".join(f"\n[[link]]{block}" for block in more))


def row(device, parent, link, backup, backup_link):
    return {"device": device, "parent": parent, "link": link, "backup": backup, "backup_link": backup_link}


def with_x_and_without():
    """Two plans of the triangle with a second link between r and b. The second leaves x out."""
    rows = [row("b", "r", "rb", "r", "rb2"), row("x", "r", "rx", "b", "bx")]
    whole = {**json.loads((DATA / "triangle-1.json").read_text()), "rows": rows}
    return whole, {**whole, "absent_devices": ["x"], "rows": rows[:1]}


def joining(number):
    """The same of a network where plans leave a device out: x joins, or starts too late, or r is left out and goes on."""
    draw = random.Random(number)
    topology, whole, small = doubled(("rb", "bx")), *with_x_and_without()
    other = {**whole, "root": "b", "backup_root": "x", "absent_devices": ["r"], "rows": [row("x", "b", "bx", "b", "bx2")]}
    schedule, plans = draw.choice((
        (f"{TWO} stage 0,join 0 2 0 0 500,give 0 0,give 0 1,give 0 2,commit 0 0 0,{LATER},tick 80000000 2 80000000,{ENTERED},"
         "recv 100700000 2 100700000 2,seal 100700000 0,seal 100700000 1,seal 100700000 2", (small, whole, small, other)),
        (f"{TWO} stage 0,give 0 0,give 0 1,commit 0 0 0,{LATER},{ENTERED},seal 100700000 0,seal 100700000 1", (small, whole, small, whole)),
        (f"{TWO} start 0 2 0 0 500,stage 0,give 0 1,give 0 2,commit 0 1 0,{LATER},tick 80000000 2 80000000,tick 100000000 1 100000000,"
         "recv 100700000 2 100700000 1,seal 100700000 1,seal 100700000 2", (whole, other, whole, small)),
    ))
    lines = [line.strip() for line in schedule.split(",")]
    events = [parse_event(line) for line in lines[: draw.randint(2, len(lines))] if line]
    return gone_on(topology, [json.dumps(it) for it in plans], events, draw)


def gone_on(topology, texts, events, draw):
    tail = Tail(topology, [parse_plan(text, topology) for text in texts], events, draw).events(draw.choice((10, 30, 50)))
    return Given(topology_text(topology), texts, [event_line(it) for it in [*events, *tail]])


def other_way(text):
    """The first plan of the triangle with r and b in each other's place."""
    other = {"r": "b", "b": "r", "rx": "bx", "bx": "rx"}
    said = json.loads(text)
    rows = [{key: other.get(value, value) for key, value in row.items()} for row in said["rows"]]
    return json.dumps({**said, "root": "b", "backup_root": "r", "rows": sorted(rows, key=lambda row: row["device"])})


def unlike(texts, draw):
    """The plans with waits that are not alike, and still long enough."""
    more = [draw.choice((0, 7, 1_000_003)) for _ in range(2)]
    said = [json.loads(text) for text in texts]
    for it in said:
        it.update(wait_first=it["wait_first"] + more[0], wait_second=it["wait_second"] + more[1], wait=it["wait"] + 4 * sum(more))
    return [json.dumps(it) for it in said]


# Plans to be checked


def plan_text(topology, plan):
    """The text of a plan, as `sundial` prints one."""
    devices, links = [it.name for it in topology.devices], [it.name for it in topology.links]
    rows = []
    for row in (plan.rows[it] for it in sorted(plan.rows)):
        said = {"device": devices[row.device], "parent": devices[row.primary.parent], "link": links[row.primary.link]}
        if row.backup:
            said.update(backup=devices[row.backup.parent], backup_link=links[row.backup.link])
        rows.append(said)
    return json.dumps({
        "version": 1, "root": devices[plan.root], "backup_root": devices[plan.backup_root], "wait_first": plan.wait_first,
        "wait_second": plan.wait_second, "wait": plan.wait, "absent_devices": [devices[it] for it in plan.absent_devices],
        "absent_links": [links[it] for it in plan.absent_links], "rows": rows,
    })


def least_wait(topology, plan, key):
    """The least wait of this kind with which it does not break a rule of timing on it, where there is one."""
    rules = {"wait_first": (2,), "wait_second": (3,), "wait": (4, 5)}[key]
    return least(2**38, lambda wait: timing(topology, dataclasses.replace(plan, **{key: wait})) not in rules)


def least_tick(topology, plan):
    """The least tick with which the first rule of timing is broken."""
    return least(topology.period, lambda tick: timing(dataclasses.replace(topology, tick=max(1, tick)), plan) == 1)


def timing(topology, plan):
    """The first rule of timing that a plan breaks."""
    breach = Conditions(topology, plan).timing()
    return breach and breach[1]


def least(high, holds):
    low = 0
    while low < high:
        middle = (low + high) // 2
        low, high = (low, middle) if holds(middle) else (middle + 1, high)
    return low


def changed(topology, plan, draw):
    """A plan with one small change, of a row, of who is root, or of what is left out."""
    rows, devices = dict(plan.rows), range(len(topology.devices))
    device = draw.choice(sorted(rows))
    row, links = rows[device], [it for it in topology.links if device in it.ends]
    link = draw.choice(links if draw.random() < 0.95 else topology.links)
    hop = Hop(link.other(device) if draw.random() < 0.97 else draw.choice(devices), link.number)
    kind = draw.choice(("primary", "backup", "backup", "backup", "swap", "none", "row", "extra", "root", "backup_root", "device", "link"))
    if kind in ("primary", "backup"):
        rows[device] = dataclasses.replace(row, **{kind: hop})
    elif kind == "swap" and row.backup:
        rows[device] = dataclasses.replace(row, primary=row.backup, backup=row.primary)
    elif kind == "none" and draw.random() < 0.4:
        rows[device] = dataclasses.replace(row, backup=None)
    elif kind == "row" and draw.random() < 0.3:
        del rows[device]
    elif kind == "extra" and draw.random() < 0.3:
        rows[plan.root] = dataclasses.replace(row, device=plan.root)
    elif kind in ("root", "backup_root") and draw.random() < 0.5:
        return dataclasses.replace(plan, **{kind: draw.choice(devices)})
    elif kind == "device" and draw.random() < 0.5:
        return dataclasses.replace(plan, absent_devices=tuple(sorted({*plan.absent_devices, draw.choice(devices)})))
    elif kind == "link" and draw.random() < 0.5:
        return dataclasses.replace(plan, absent_links=tuple(sorted({*plan.absent_links, draw.randrange(len(topology.links))})))
    return dataclasses.replace(plan, rows=rows)


def tree_of(topology, draw):
    """A breadth-first plan with backups that are drawn, but above nobody whom they serve. None where there is none."""
    absent = [draw.randrange(2, len(topology.devices))] if draw.random() < 0.3 else []
    text = plan_of(topology, draw.choice((0, 0, 1)), absent, [])
    plan = parse_plan(text, topology) if text else None
    for device in [plan.backup_root, *plan.rows] if plan else ():
        row = plan.rows[device]
        hops = [Hop(it.other(device), it.number) for it in topology.links if device in it.ends and it.number != row.primary.link]
        hops = [it for it in hops if it.parent not in plan.absent_devices and it.link not in plan.absent_links]
        plan = dataclasses.replace(plan, rows={**plan.rows, device: dataclasses.replace(row, backup=None)})
        for hop in draw.sample(hops, len(hops)):
            tried = dataclasses.replace(plan, rows={**plan.rows, device: dataclasses.replace(row, backup=hop)})
            breach = Conditions(topology, tried).breach()
            if not breach or breach[0] != "ancestor" and breach[0] != "loop":
                plan = tried
                break
    return plan


def first_plan(topology, draw):
    """Such a plan with waits just as long as the rules ask, or a little more. Mostly it is one that is accepted."""
    for _ in range(6):
        plan = tree_of(topology, draw)
        for key in ("wait_first", "wait_second", "wait") if plan else ():
            plan = dataclasses.replace(plan, **{key: least_wait(topology, plan, key) + draw.choice((0, 0, 1000))})
        breach = Conditions(topology, plan).breach() if plan else None
        if plan and (not breach or draw.random() < 0.15 * (breach[0] not in ("structure", "timing"))):
            return plan
    return plan


def edged(topology, draw):
    """A topology with rates and delays of its own, some listed domains, and a tick at the first rule of timing or less."""
    count = len(topology.devices)
    devices = [dataclasses.replace(it, ppm=draw.choice((1, 100, 200)), grain=draw.choice((0, 1, 1000))) for it in topology.devices]
    links = [dataclasses.replace(it, back=Bounds(LEAST, it.back.max + draw.choice((0, 0, 5000)))) for it in topology.links]
    numbers = [it.number for it in links]
    domains = [
        Domain(at, f"some{at}", tuple(draw.sample(range(count), draw.choice((0, 1, 1, 2)))),
               tuple(draw.sample(numbers, draw.choice((0, 1, 2)))))
        for at in range(draw.choice((0, 1, 2, 3)))
    ]
    topology = dataclasses.replace(
        topology, version=2, devices=tuple(devices), links=tuple(links), domains=tuple(domains), depth=draw.choice((3, count, count))
    )
    plan = first_plan(topology, draw)
    if draw.random() < 0.2 and plan:
        tick = least_tick(topology, plan)
        topology = dataclasses.replace(topology, tick=max(1, tick - draw.choice((0, 1))))
        plan = first_plan(topology, draw)
    return topology, plan


def checked(number):
    """A plan of a random network, with up to three changes, or None where it has none."""
    draw = random.Random(number)
    topology, plan = edged(topology_of(draw.choice(KINDS), draw), draw)
    if plan is None:
        return None
    for _ in range(draw.choice((0, 0, 1, 1, 2))):
        plan = changed(topology, plan, draw) if plan.rows else plan
    if draw.random() < 0.4:
        key = draw.choice(("wait_first", "wait_second", "wait"))
        plan = dataclasses.replace(plan, **{key: max(0, least_wait(topology, plan, key) - draw.choice((0, 1)))})
    return Given(topology_text(topology), [plan_text(topology, plan)], [])


def by_hand():
    """Those of the tests of the plain replay, which were worked by hand, and those of the examples."""
    topology = (DATA / "triangle.toml").read_text()
    texts = [(DATA / f"triangle-{place}.json").read_text() for place in (1, 2)]
    schedules = [[*before, line] for before, line, _ in REFUSALS] + [[*lines, f"end {lines[-1].split()[1]}"] for lines, _ in PREMISES]
    schedules += [BASE, STARTS]
    yield from (Given(topology, texts, [line + "\n" for line in lines]) for lines in schedules)
    whole, small = with_x_and_without()
    for plans, schedule in (((whole, whole), MENDED), ((small, whole), LATE)):
        lines = [line.strip() + "\n" for line in schedule.split(",")]
        yield Given(topology_text(doubled(("rb",))), [json.dumps(it) for it in plans], lines)


def given_of(numbers, program, path):
    """Those that were worked by hand, and those of these numbers, the shortest first."""
    drawn = [it for it in (made(number, program, path) for number in numbers) if it is not None]
    return sorted([*by_hand(), *drawn], key=lambda it: len(it.lines))


def judged(given):
    """The lines of the plain replay or of the plain check, and its status."""
    topology = parse_topology(given.topology)
    plans = [parse_plan(text, topology) for text in given.plans]
    if not given.lines:
        line = Conditions(topology, plans[0]).line()
        return [line], ACCEPTED if line.startswith("accepted") else PLAN_REFUSED
    replay = Replay(topology, plans)
    lines = list(replay.lines(line.encode("utf-8") for line in given.lines))
    return lines, replay.status


def written(given, path):
    """The files of a history in a folder, in the order of the command."""
    files = [path / "topology.toml", *(path / f"plan-{place}.json" for place in range(1, len(given.plans) + 1))]
    files += [path / "schedule.txt"] if given.lines else []
    for file, text in zip(files, (given.topology, *given.plans, "".join(given.lines))):
        file.write_text(text)
    return files


def proved(program, given, path):
    """The lines of the program, and its status."""
    words = [program, "replay" if given.lines else "check", *written(given, path)]
    done = subprocess.run(words, stdout=subprocess.PIPE, text=True, check=False, timeout=LIMIT)
    return done.stdout.splitlines(), done.returncode
