"""Makes the schedule of `sundial case`, and the logs that its devices would have written.

docs/QUICKSTART.md says what happens in a case. The devices are a small program of their own here, written apart from
sundial_tools/record. Each log line names a message by its link and stamp, and never by its number.
"""

import heapq
import json
import re

PERIOD, STEP = 100_000_000, 50_000_000
PRIMARY, BACKUP, ACTING = range(3)
M32, M64 = 2**32 - 1, 2**64 - 1
MULTIPLIER = 6364136223846793005


def rotated(state):
    word = (((state >> 18) ^ state) >> 27) & M32
    turn = state >> 59
    return (word >> turn | word << (32 - turn)) & M32 if turn else word


class Pcg32:
    """The generator of rand_pcg, seeded as `seed_from_u64` of rand_core does."""

    def __init__(self, number):
        words = []
        for _ in range(4):
            number = (number * MULTIPLIER + 11634580027462260723) & M64
            words.append(rotated(number))
        self.increment = (words[2] | words[3] << 32) | 1
        self.state = (words[0] | words[1] << 32) + self.increment & M64
        self.step()

    def step(self):
        self.state = (self.state * MULTIPLIER + self.increment) & M64

    def word(self):
        state = self.state
        self.step()
        return rotated(state)


def network_text(leaves, spines):
    """The topology text of the case."""
    lines = ["version = 1", "ppm = 200", "grain = 1000", f"period = {PERIOD}", "tick = 60000000", "loss = 1", "depth = 3"]
    lines.append("roots = [" + ", ".join(f'"s{spine}"' for spine in range(spines)) + "]")
    for name in [f"s{spine}" for spine in range(spines)] + [f"l{leaf}" for leaf in range(leaves)]:
        lines.append(f'[[device]]\nname = "{name}"')
    for leaf in range(leaves):
        for spine in range(spines):
            lines.append(f'[[link]]\nname = "k{leaf}-{spine}"\nends = ["s{spine}", "l{leaf}"]\nmin = 400000\nmax = 1000000')
    for leaf in range(leaves):
        links = ", ".join(f'"k{leaf}-{spine}"' for spine in range(spines))
        lines.append(f'[[domain]]\nname = "rack{leaf}"\ndevices = ["l{leaf}"]\nlinks = [{links}]')
    return "\n".join(lines) + "\n"


class Node:
    def __init__(self, number, rate, plan):
        self.number, self.rate, self.plan, self.given = number, rate, plan, None
        self.mode = ACTING if number == plan.root else PRIMARY
        self.sealed, self.stamp, self.heard, self.sent, self.up = True, (0, 0), 0, 0, True

    def counter(self, ref):
        return ref - 150 * ref // 1_000_000 + self.rate * ref // 1_000_000

    def ticks(self, counter):
        plan, row = self.plan, self.plan.rows.get(self.number)
        if self.mode == ACTING:
            if counter - self.sent < PERIOD:
                return False
            self.stamp, self.sent = (self.stamp[0], self.stamp[1] + 1), counter
            return True
        silence = counter - self.heard
        if self.sealed and self.number == plan.backup_root:
            if self.mode == PRIMARY and silence >= plan.wait_first:
                self.mode, self.heard = BACKUP, counter
            elif self.mode == BACKUP and silence >= plan.wait_second:
                self.mode, self.stamp, self.sent = ACTING, (self.stamp[0] + 1, 1), counter
                return True
        elif self.sealed and self.mode == PRIMARY and row and row.backup and silence >= plan.wait:
            self.mode = BACKUP
        return False

    def takes(self, counter, plan, link, stamp):
        row = plan.rows.get(self.number)
        if self.given is plan and row and row.primary.link == link:
            self.plan, self.given, self.mode, self.sealed = plan, None, PRIMARY, False
        elif self.plan is not plan or self.mode == ACTING or row is None or stamp <= self.stamp:
            return False
        elif link != (row.primary if self.mode == PRIMARY else row.backup).link:
            return False
        self.stamp, self.heard = stamp, counter
        return True

    def commits(self, counter):
        self.plan, self.given, self.sealed = self.given, None, False
        if self.mode != ACTING:
            self.mode, self.stamp, self.sent = ACTING, (self.stamp[0] + 1, 0), counter


class Case:
    """`lines` is the schedule. `logs` has the lines of each device's log, and `world` those of whoever watches."""

    def __init__(self, number, topology, plans, rounds=200, lost=()):
        self.draw = Pcg32(number)
        self.topology, self.plans, self.followed = topology, plans, plans[:1]
        self.nodes = [Node(device.number, self.draw.word() % 301, plans[0]) for device in topology.devices]
        self.waiting, self.messages, self.lost = [], 0, set(lost)
        self.lines, self.world, self.logs = [], [], {device.name: [] for device in topology.devices}
        for node in self.nodes:
            self.say("start", 0, node, 0, clock=0, eps=500 if node.number == 0 else 1000000)
        for place in range(1, rounds + 1):
            self.round(place, place == rounds)
        self.lines.append(f"end {STEP * rounds}")
        self.world.append({"event": "end", "reference_ps": STEP * rounds})

    def say(self, event, ref, node=None, counter=None, clock=None, eps=None):
        fields = [node.number if node else None, counter, clock, eps]
        self.lines.append(" ".join([event, str(ref)] + [str(field) for field in fields if field is not None]))
        said = {"event": event, "reference_ps": ref}
        for key, value in ("counter_ps", counter), ("clock_ps", clock), ("eps_ps", eps):
            if value is not None:
                said[key] = value
        if node is None:
            self.world.append(said)
        else:
            self.log(node, said)

    def log(self, node, said):
        name = self.topology.devices[node.number].name
        self.logs[name].append({"device": name, **said})

    def send(self, node, ref):
        if node.plan not in self.followed:
            return
        for link, end in node.plan.ends_below.get(node.number, ()):
            self.messages += 1
            if self.nodes[end].up:
                moment = ref + 400000 + self.draw.word() % 600001
                heapq.heappush(self.waiting, (moment, self.messages, end, link, node.plan, node.stamp))

    def named(self, end, link, plan, stamp):
        return {
            "device": self.topology.devices[end].name, "link": self.topology.links[link].name,
            "epoch": self.plans.index(plan) + 1, "term": stamp[0], "round": stamp[1],
        }

    def receive_until(self, ref):
        while self.waiting and self.waiting[0][0] <= ref:
            moment, number, end, link, plan, stamp = heapq.heappop(self.waiting)
            node = self.nodes[end]
            if not node.up:
                continue
            if number in self.lost:
                self.lines.append(f"lose {moment} {number}")
                self.world.append({"event": "lose", "reference_ps": moment, **self.named(end, link, plan, stamp)})
                continue
            counter = node.counter(moment)
            self.lines.append(f"recv {moment} {end} {counter} {number}")
            said = {"event": "recv", "reference_ps": moment, "counter_ps": counter}
            self.log(node, {**said, **self.named(end, link, plan, stamp)})
            if node.takes(counter, plan, link, stamp):
                self.send(node, moment)

    def round(self, place, is_last):
        ref = STEP * place
        if place == 21:
            self.receive_until(ref - STEP // 2)
            self.lines.append(f"fail {ref - STEP // 2} device 0")
            self.world.append({"event": "fail", "reference_ps": ref - STEP // 2, "device": self.topology.devices[0].name})
            self.nodes[0].up = False
        self.receive_until(ref)
        up = [node for node in self.nodes if node.up]
        for node in up:
            self.say("tick", ref, node, node.counter(ref))
            if node.ticks(node.counter(ref)):
                self.send(node, ref)
        self.renew(place, ref, up)
        if is_last:
            for node in up:
                self.say("ask", ref, node, node.counter(ref))
        elif place % 10 == 0:
            node = self.nodes[self.draw.word() % len(self.nodes)]
            if node.up:
                self.say("ask", ref, node, node.counter(ref))

    def renew(self, place, ref, up):
        if place == 150:
            self.say("stage", ref)
            self.followed = self.plans
            for node in up:
                self.say("give", ref, node)
                node.given = self.plans[1]
            root = self.nodes[self.plans[1].root]
            self.say("commit", ref, root, root.counter(ref))
            root.commits(root.counter(ref))
        if place == 160:
            for node in up:
                self.say("seal", ref, node)
                node.sealed = True
            self.followed = self.plans[1:]

    def schedule(self):
        return "\n".join(self.lines) + "\n"


def json_line(said):
    """The line of a log. A Decimal keeps all its digits."""
    return re.sub(r'"<([0-9.]+)>"', r"\1", json.dumps(said, default=lambda value: f"<{value:f}>")) + "\n"


def write_logs(case, path, change=lambda said: said):
    """One file for each device, and one of whoever watches. Answers their paths."""
    paths = []
    for name, lines in [*case.logs.items(), ("fabric", case.world)]:
        file = path / f"{name}.jsonl"
        file.write_text("".join(json_line(change(dict(said))) for said in lines))
        paths.append(file)
    return paths
