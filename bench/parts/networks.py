"""Topologies of the benches, and plans that are made by hand for them. Times are in ps."""
import random
from dataclasses import dataclass
from typing import Iterator, List, Tuple

PPM, GRAIN, PERIOD, TICK, LOSS, DEPTH = 200, 1000, 100_000_000, 10_000_000, 1, 3
LEAST_DELAY, GREATEST_DELAY = 400_000, 1_000_000


@dataclass(frozen=True)
class Sizes:
    """How large a network of spines and leaves is."""

    devices: int
    links: int
    domains: int
    spines: int

    @property
    def leaves(self) -> int:
        return self.devices - self.spines

    @property
    def all_domains(self) -> int:
        """The fault domains: the listed ones, each device, each link."""
        return self.domains + self.devices + self.links

    def links_of(self, leaf: int) -> int:
        each, more = divmod(self.links, self.leaves)
        return each + (leaf < more)

    def spine_of(self, leaf: int, place: int) -> int:
        """The spine of a link of a leaf: the first two, and then others in turn."""
        return place if place < 2 else 2 + (leaf + place - 2) % (self.spines - 2)

    def __str__(self) -> str:
        return f"{self.devices:,} devices, {self.links:,} links, {self.all_domains:,} domains"


def scaled(devices: int, scale: float, spines: int = 16) -> Sizes:
    """A network with eight links and one listed domain a device, at least 48 devices large."""
    count = min(devices, max(48, int(devices * scale)))
    return Sizes(count, 8 * count, count, spines)


def head(roots: Tuple[str, str], tick: int = TICK, depth: int = DEPTH, version: int = 1) -> str:
    return (
        f"version = {version}\nppm = {PPM}\ngrain = {GRAIN}\nperiod = {PERIOD}\n"
        f'tick = {tick}\nloss = {LOSS}\ndepth = {depth}\nroots = ["{roots[0]}", "{roots[1]}"]\n'
    )


def device(name: str) -> str:
    return f'[[device]]\nname = "{name}"\n'


def link(name: str, first: str, second: str) -> str:
    return (
        f'[[link]]\nname = "{name}"\nends = ["{first}", "{second}"]\n'
        f"min = {LEAST_DELAY}\nmax = {GREATEST_DELAY}\n"
    )


def domain(name: str, devices: List[str], links: List[str]) -> str:
    def listed(names: List[str]) -> str:
        return ", ".join(f'"{name}"' for name in names)

    return f'[[domain]]\nname = "{name}"\ndevices = [{listed(devices)}]\nlinks = [{listed(links)}]\n'


def spines_and_leaves(sizes: Sizes, second_root: str = "s1", version: int = 1) -> Iterator[str]:
    """Each leaf is linked to the first two spines and to others in turn. Listed domains are a rack for each leaf, which
    is the leaf with its two links to those spines, and then single spines."""
    yield head(("s0", second_root), version=version)
    for spine in range(sizes.spines):
        yield device(f"s{spine}")
    for leaf in range(sizes.leaves):
        yield device(f"l{leaf}")
    for leaf in range(sizes.leaves):
        for place in range(sizes.links_of(leaf)):
            yield link(f"k{leaf}_{place}", f"s{sizes.spine_of(leaf, place)}", f"l{leaf}")
    for number in range(sizes.domains):
        if number < sizes.leaves:
            yield domain(f"rack{number}", [f"l{number}"], [f"k{number}_0", f"k{number}_1"])
        else:
            yield domain(f"feed{number}", [f"s{number % sizes.spines}"], [])


def severed(sizes: Sizes) -> Iterator[str]:
    """Each listed domain has the only two links that lead to all but five devices."""
    behind = sizes.devices - 6
    yield head(("r", "b"))
    for name in ["r", "b", "g", "c0", "c1", "c2"] + [f"x{place}" for place in range(behind)]:
        yield device(name)
    yield link("first", "g", "r") + link("second", "g", "b") + link("up0", "b", "c0") + link("up1", "b", "c1")
    for place in range(3):
        yield link(f"r{place}", "r", f"c{place}") + link(f"b{place}", "b", f"c{place}")
    for place in range(behind):
        yield link(f"p{place}", "g", f"x{place}") + link(f"q{place}", "g", f"x{place}")
    for place in range(sizes.links - 10 - 2 * behind):
        first = place % behind
        yield link(f"e{place}", f"x{first}", f"x{(first + 1 + place // behind) % behind}")
    for number in range(sizes.domains):
        yield domain(f"d{number}", [], ["first", "second"])


def _halves(sizes: Sizes) -> Tuple[int, int]:
    """How many devices `halved` cuts off, and how many turn elsewhere."""
    far = (sizes.devices - 6) // 2
    return far, sizes.devices - 6 - far


def halved(sizes: Sizes) -> Iterator[str]:
    """Each listed domain has the two devices that nearly all others follow, and some of these. One half turns elsewhere,
    and the other is cut off. Both have as many links. The devices come in an order by chance."""
    draw = random.Random(1)
    far, near = _halves(sizes)
    names = ["r", "b", "g", "u", "c0", "c1"] + [f"x{place}" for place in range(far)] + [f"y{place}" for place in range(near)]
    draw.shuffle(names)
    yield head(("r", "b"))
    yield from map(device, names)
    yield link("rg", "g", "r") + link("bg", "g", "b") + link("ru", "r", "u") + link("bu", "b", "u")
    for place in range(2):
        yield link(f"r{place}", "r", f"c{place}") + link(f"b{place}", "b", f"c{place}")
    yield link("last", "g", "x0")
    for place in range(far):
        yield link(f"p{place}", "g", f"x{place}")
        yield link(f"q{place}", f"x{place - 1}", f"x{place}") if place else ""
    for place in range(near):
        yield link(f"u{place}", "u", f"y{place}") + link(f"v{place}", "b", f"y{place}")
    for place in range(sizes.links - 8 - 2 * far - 2 * near):
        half, count = ("x", far) if place % 2 else ("y", near)
        first, second = draw.sample(range(count), 2)
        yield link(f"e{place}", f"{half}{first}", f"{half}{second}")
    for number in range(sizes.domains):
        others = [f"y{(7 * number + place) % near}" for place in range(min(62, near // 2))]
        yield domain(f"d{number}", ["g", "u", *others], [])


def at_the_limits(version: int, second_root: str, scale: float) -> Iterator[str]:
    """Devices, links, domains and listed things as many as there may be, or that many parts of them."""
    devices = max(64, int(4096 * scale))
    links, each = 8 * devices, 64
    yield head(("d0", second_root), tick=90_000_000, depth=16, version=version)
    for number in range(devices):
        yield device(f"d{number}")
    for number in range(links):
        first = number % devices
        yield link(f"l{number}", f"d{first}", f"d{(first + 1 + number // devices) % devices}")
    for number in range(devices):
        names = [f"d{(number + place) % devices}" for place in range(each // 2)]
        yield domain(f"m{number}", names, [f"l{(8 * number + place) % links}" for place in range(each // 2)])


def chain(links: int) -> Iterator[str]:
    """Devices in a row."""
    yield head(("d0", "d1"), tick=90_000_000, depth=2)
    for number in range(links + 1):
        yield device(f"d{number}")
    for number in range(links):
        yield link(f"l{number}", f"d{number}", f"d{number + 1}")


def growth(counter: int) -> int:
    return -(-PPM * counter // 1_000_000)


def up(counter: int) -> int:
    return counter + growth(counter) + GRAIN


def lasting(time: int) -> int:
    """A counter time within which at least this time passes."""
    return (time + GRAIN + 1) * 1_000_000 // (1_000_000 - PPM) + 2


def waits() -> Tuple[int, int, int]:
    """Waits that meet the rules of timing for these networks."""
    silence = (LOSS + 2) * (up(PERIOD) + TICK) + 4 * (DEPTH + 1) * GREATEST_DELAY + TICK
    short = lasting(2 * silence)
    return short, short, lasting(max(2 * up(short) + 6 * silence, 3 * up(short) + 2 * silence))


def plan_text(root: str, backup_root: str, rows: List[str]) -> str:
    first, second, wait = waits()
    return (
        f'{{"absent_devices":[],"absent_links":[],"backup_root":"{backup_root}","root":"{root}",'
        f'"rows":[{",".join(rows)}],"version":1,"wait":{wait},"wait_first":{first},"wait_second":{second}}}\n'
    )


def row(name: str, parent: str, way: str, backup: str, backup_way: str) -> str:
    return (
        f'{{"backup":"{backup}","backup_link":"{backup_way}","device":"{name}",'
        f'"link":"{way}","parent":"{parent}"}}'
    )


def spine_row(sizes: Sizes, spine: int) -> str:
    """The first two leaves that are linked to a spine are its parents."""
    found: List[Tuple[str, str]] = []
    for leaf in range(sizes.leaves):
        for place in range(sizes.links_of(leaf)):
            if sizes.spine_of(leaf, place) == spine and len(found) < 2:
                found.append((f"l{leaf}", f"k{leaf}_{place}"))
        if len(found) == 2:
            break
    return row(f"s{spine}", *found[0], *found[1])


def plan_of_leaves(sizes: Sizes, last: Tuple[str, ...] = ()) -> str:
    """Each leaf follows the first spine and falls back on the second; other spines follow leaves."""
    rows = [spine_row(sizes, spine) for spine in range(1, sizes.spines)]
    rows += [row(f"l{leaf}", "s0", f"k{leaf}_0", "s1", f"k{leaf}_1") for leaf in range(sizes.leaves)]
    return plan_text("s0", "s1", rows + list(last))


def plan_of_severed(sizes: Sizes) -> str:
    rows = [row("b", "c0", "up0", "c1", "up1"), row("g", "r", "first", "b", "second")]
    rows += [row(f"c{place}", "r", f"r{place}", "b", f"b{place}") for place in range(3)]
    rows += [row(f"x{place}", "g", f"p{place}", "g", f"q{place}") for place in range(sizes.devices - 6)]
    return plan_text("r", "b", rows)


def plan_of_halved(sizes: Sizes) -> str:
    """What is cut off turns along a row."""
    far, near = _halves(sizes)
    rows = [row("b", "c0", "b0", "c1", "b1"), row("g", "r", "rg", "b", "bg"), row("u", "r", "ru", "b", "bu")]
    rows += [row(f"c{place}", "r", f"r{place}", "b", f"b{place}") for place in range(2)]
    rows += [row(f"x{place}", "g", f"p{place}", f"x{place - 1}", f"q{place}") for place in range(1, far)]
    rows += [row("x0", "g", "p0", "g", "last")]
    rows += [row(f"y{place}", "u", f"u{place}", "b", f"v{place}") for place in range(near)]
    return plan_text("r", "b", rows)
