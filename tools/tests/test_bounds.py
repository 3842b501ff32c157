"""The numbers of `sundialctl bounds`: no report of a plain replay is above its number, and the program prints what they
are by definition.

The numbers are computed here once more, by trying all walks and by halving an interval.
"""

import os
import random
import subprocess
import unittest

from support import SEARCH as SUNDIALCTL, directory
from test_whatif import Drawn, replayed, up

from sundial_tools.plan import parse_plan
from sundial_tools.topology import parse_topology
from sundial_tools.whatif import wishes as wished
from sundial_tools.whatif.scenario import Scenario, Settings
from sundial_tools.whatif.wishes import Wishes

MILLION = 1_000_000
# So many random fabrics, and as many meshes, whose reports the plain replay makes: a second for each. By hand there
# were 300 of each.
MANY = int(os.environ.get("BOUNDS_SCENARIOS", "3"))
needs_sundialctl = unittest.skipUnless(SUNDIALCTL.is_file(), "the program sundialctl is not built (SUNDIALCTL names it)")


def grow(device, time):
    """What an estimate grows by while its device holds it for so long."""
    return device.grain + -(-device.ppm * time // MILLION)


def oldest(device, passed):
    """The greatest advance of a counter for which at most so much of the reference passes."""
    least, most = 0, 2 * passed + 2**42
    while least < most:
        middle = (least + most + 1) // 2
        if middle - grow(device, middle) <= passed:
            least = middle
        else:
            most = middle - 1
    return least


def domains(topology):
    """The fault domains in their order: the words of each, its devices and its links."""
    for domain in topology.domains:
        yield f"listed {domain.name}", set(domain.devices), set(domain.links)
    for device in topology.devices:
        yield f"device {device.name}", {device.number}, set()
    for link in topology.links:
        yield f"link {link.name}", set(), {link.number}


class Numbers:
    """The numbers of a plan for BASE and HOLD, by their definitions."""

    def __init__(self, topology, plan, base, hold):
        self.topology, self.plan, self.base, self.hold = topology, plan, base, hold
        self.members = plan.members(topology)
        self.roots = (plan.root, plan.backup_root)
        self.delay = max((max(it.forth.max, it.back.max) for it in topology.links), default=0)
        self.gap = up(topology, topology.period) + topology.tick
        self.rounds = (topology.loss + 1) * self.gap
        self.lag = self.rounds + self.gap + topology.depth * self.delay
        self.silence = (topology.loss + 2) * self.gap + 4 * (topology.depth + 1) * self.delay

    def half(self, device, hop):
        return self.topology.links[hop.link].towards(device).half

    def path(self, device, ends):
        """The primary hops of a device up to one of the ends."""
        hops = []
        while device not in ends and len(hops) < self.topology.depth and device in self.plan.rows:
            hops.append((device, self.plan.rows[device].primary))
            device = hops[-1][1].parent
        return hops

    def halves(self, hops):
        return sum(self.half(device, hop) for device, hop in hops)

    def is_hit(self, device, domain):
        """Whether the domain has a thing of the path up to a root, the device itself aside."""
        _, devices, links = domain
        if device == self.plan.root or device not in self.plan.rows:
            return False
        first = self.plan.rows[device].primary
        hops = [first] + [hop for _, hop in self.path(first.parent, self.roots)][: self.topology.depth - 1]
        return any(hop.parent in devices or hop.link in links for hop in hops)

    def walks(self, device, domain):
        """The halves and the hops of each walk on which devices may be while the domain is down."""
        yield 0, 0
        if device in self.roots or device not in self.plan.rows:
            return
        row = self.plan.rows[device]
        for hop in [row.primary] + ([row.backup] if row.backup and self.is_hit(device, domain) else []):
            for far, long in self.walks(hop.parent, domain):
                yield self.half(device, hop) + far, long + 1

    def fed(self, domain):
        """The devices that come to hear a root again."""
        _, devices, links = domain
        sound = [device for device in self.members if device not in devices]
        acting = self.plan.backup_root if self.plan.root in devices else self.plan.root
        heard = {it for it in sound if it in (acting, self.plan.backup_root) or not self.is_hit(it, domain)}
        while True:
            more = {it for it in sound if it not in heard and self._turns(it, heard, devices, links)}
            if not more:
                return heard
            heard |= more

    def _turns(self, device, heard, devices, links):
        row = self.plan.rows.get(device)
        hop = row and (row.backup or row.primary)
        return bool(hop) and hop.link not in links and hop.parent not in devices and hop.parent in heard

    def root_halves(self):
        backup_root = self.plan.backup_root
        backup = self.plan.rows[backup_root].backup
        over = self.halves(self.path(backup_root, (self.plan.root,)))
        if backup is None:
            return over
        return max(over, self.half(backup_root, backup) + self.halves(self.path(backup.parent, (self.plan.root,))))

    def source(self):
        held = sum(grow(self.topology.devices[it], self.hold) for it in self.roots)
        return self.base + self.root_halves() + held

    def longest_silence(self):
        """At any time, after which a round came down: for the tight number."""
        topology, plan = self.topology, self.plan
        waits = up(topology, plan.wait_first) + up(topology, plan.wait_second)
        takeover = waits + 2 * topology.tick + (topology.depth + 1) * self.delay
        moved = up(topology, plan.wait) + topology.tick + (2 * (topology.depth + 1) + 1) * self.delay
        return self.lag + max(takeover, moved) + self.rounds + 2 * (topology.depth + 1) * self.delay

    def quiet(self, long):
        """For the number of the drill."""
        topology, plan = self.topology, self.plan
        noticed = self.silence + topology.tick
        settling = max(
            up(topology, plan.wait_first) + up(topology, plan.wait_second) + 6 * noticed, up(topology, plan.wait) + noticed
        )
        return settling + 2 * self.silence * (long + 1)

    def grown(self, device, passed):
        known = self.topology.devices[device]
        return grow(known, oldest(known, passed))

    def calm(self, device):
        sent = self.base + grow(self.topology.devices[self.plan.root], self.hold)
        return sent + self.halves(self.path(device, (self.plan.root,))) + self.grown(device, self.lag)

    def under(self, domain):
        """For each member the number of the drill and the tight one, or nothing."""
        heard, source = self.fed(domain), self.source()
        for device in self.members:
            walks = list(self.walks(device, domain))
            far, long = max(it for it, _ in walks), max(it for _, it in walks)
            if device not in heard or long > self.topology.depth + 1:
                yield device, None
                continue
            drill = source + self.root_halves() + far + self.grown(device, self.quiet(long))
            yield device, (drill, source + far + self.grown(device, self.longest_silence()))

    def lines(self):
        """What `sundialctl bounds` prints."""
        calm = {device: self.calm(device) for device in self.members}
        count = 0
        for domain in domains(self.topology):
            count += 1
            for device, both in self.under(domain):
                words = f"{domain[0]} {self.topology.devices[device].name}"
                yield f"bounds {words} {both[0]} {both[1]} {calm[device]}" if both else f"nobound {words} {calm[device]}"
        yield f"done {count} {len(self.members)}"


def mesh_text(drawn):
    """A mesh of a few devices: a tree, and about as many links more. Some links fail together."""
    count = drawn.randint(5, 8)
    pairs = [(drawn.randrange(device), device) for device in range(1, count)]
    others = [(a, b) for b in range(count) for a in range(b) if (a, b) not in pairs]
    pairs += drawn.sample(others, min(len(others), count))
    roots = ", ".join(f'"d{device}"' for device in range(count))
    lines = [
        "version = 1", f"ppm = {drawn.choice((0, 50, 200))}", f"grain = {drawn.choice((1000, 8000))}", "period = 60000000",
        f"tick = {drawn.choice((20, 30)) * MILLION}", f"loss = {drawn.choice((0, 0, 1, 2))}", "depth = 5", f"roots = [{roots}]",
    ]
    for device in range(count):
        lines += ["[[device]]", f'name = "d{device}"']
    for number, (first, second) in enumerate(pairs):
        least = drawn.choice((100_000, 300_000))
        most = least + drawn.choice((200_000, 400_000, 1_400_000))
        lines += ["[[link]]", f'name = "k{number}"', f'ends = ["d{first}", "d{second}"]', f"min = {least}", f"max = {most}"]
    for number in range(drawn.randint(0, 2)):
        first, second = sorted(drawn.sample(range(len(pairs)), 2))
        lines += ["[[domain]]", f'name = "f{number}"', f'links = ["k{first}", "k{second}"]']
    return "\n".join(lines) + "\n"


def ctl(*words):
    """Status and standard output of the second program."""
    done = subprocess.run([SUNDIALCTL, *map(str, words)], stdout=subprocess.PIPE, text=True, check=False)
    return done.returncode, done.stdout


def found(text):
    """A plan of a topology that the search finds, if it finds one."""
    with directory() as folder:
        (folder / "topology.toml").write_text(text, encoding="ascii")
        status, plan = ctl("search", folder / "topology.toml", 1000, 1000, 1, 2000)
    return plan if status == 0 else None


def printed(text, plan, base, hold):
    """What the program prints of a plan."""
    with directory() as folder:
        (folder / "topology.toml").write_text(text, encoding="ascii")
        (folder / "plan.json").write_text(plan, encoding="ascii")
        return ctl("bounds", folder / "topology.toml", folder / "plan.json", base, hold)


def cases(number):
    """A fabric, and a mesh where the search is there and finds a plan of it: texts of a topology and a plan."""
    fabric = Drawn(number)
    yield fabric.text, fabric.plans[0]
    if SUNDIALCTL.is_file():
        mesh = mesh_text(random.Random(number))
        plan = found(mesh)
        if plan is not None:
            yield mesh, plan


def failing(topology, name, at):
    """All things of a domain fail at once."""
    return wished.failure(topology, f"{name.replace(' ', ':')}@{at}ps")


class Bounds(unittest.TestCase):
    def drawn_of(self, topology, plan, drawn, domain):
        """A schedule in which the domain fails, or nothing: BASE, HOLD, when it fails, the scenario and its lines."""
        first, second, wait = plan.wait_first, plan.wait_second, plan.wait
        at = 400 * MILLION + drawn.randrange(100 * MILLION)
        until = at + drawn.choice((first + second, wait)) + 500 * MILLION
        settings = Settings(
            until, 100 * MILLION, drawn.randrange(1 << 30), drawn.choice(("greatest", "random")),
            drawn.choice(("worst", "random")),
            drawn.choice((0, MILLION)), first + second + 3 * topology.tick, drawn.random() < 0.8, 0, drawn.choice((0, 10)),
        )
        wishes = Wishes([failing(topology, domain[0], at)] if domain else [], [], [], [], [], [])
        scenario, lines = Scenario(topology, [plan], [], wishes, settings), []
        scenario.run(lines.append)
        return settings.base, max(settings.hold, scenario.held), at, scenario, lines

    def test_no_report_is_above_its_numbers(self):
        tried = 0
        for number in range(MANY):
            for text, plan_text in cases(number):
                drawn = random.Random(number)
                topology = parse_topology(text)
                plan = parse_plan(plan_text, topology)
                domain = drawn.choice([*domains(topology), None])
                base, hold, at, scenario, lines = self.drawn_of(topology, plan, drawn, domain)
                bad, status, said = replayed(topology, [plan_text], lines)
                self.assertEqual((bad, status), ([], 0), (number, domain))
                self.assertEqual([int(it.split()[4]) for it in said], [it.eps for it in scenario.reports])
                numbers = Numbers(topology, plan, base, hold)
                under = dict(numbers.under(domain)) if domain else {}
                for report in scenario.reports:
                    both = under.get(report.device)
                    if both:
                        self.assertLessEqual(report.eps, both[1], (number, domain, report))
                        self.assertLessEqual(both[1], both[0], (number, domain))
                    if not domain or report.ref < at:
                        self.assertLessEqual(report.eps, numbers.calm(report.device), (number, domain, report))
                tried += 1
        self.assertGreaterEqual(tried, MANY)

    @needs_sundialctl
    def test_the_program_prints_these_numbers(self):
        for number in range(MANY):
            for text, plan in cases(number):
                topology = parse_topology(text)
                for base, hold in ((0, 0), (1000, 987654321), (2**60, 2**60)):
                    lines = Numbers(topology, parse_plan(plan, topology), base, hold).lines()
                    self.assertEqual(printed(text, plan, base, hold), (0, "".join(f"{it}\n" for it in lines)), (number, base))


if __name__ == "__main__":
    unittest.main()
