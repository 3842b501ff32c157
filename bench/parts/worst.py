"""The worst inputs that are known, each beside one of half its size: a ratio of 2 is linear, and one of 4 is quadratic."""
import random
import subprocess
from itertools import chain
from typing import Callable, Iterator, List, Sequence, Tuple

from . import exchanges, networks, one_device
from .bench import Bench
from .measuring import BenchFault, Command, run_once
from .tables import Row, count

BASE, HOLD = "800000", "3000000000"
APART = "each listed domain takes the network apart"
Words = Tuple[str, ...]


def starts(devices: int, eps: int = 800_000) -> Iterator[str]:
    return (f"start 0 {device} 0 0 {eps}\n" for device in range(devices))


def triangle(bench: Bench) -> Words:
    """The files of three devices, all linked, and of a plan."""
    links = [networks.link(ends, ends[0], ends[1]) for ends in ("rb", "rx", "bx")]
    topology = bench.file("triangle", [networks.head(("r", "b"), 90_000_000, 2), *map(networks.device, "rbx"), *links])
    return topology, bench.answer("triangle_plan", "plan", topology)


def waiting(asks: int) -> Iterator[str]:
    """Transactions of one stamp, which all end with the last ask."""
    yield from chain(starts(3, 0), ["fix 0 0 0 0 500\n"], ("ask 0 0 0\n" for _ in range(asks)))
    yield "ask 0 0 100000000\nend 0\n"


def oldest_first(rounds: int) -> Iterator[str]:
    """Messages over one link, all on their way at once, and lost from the oldest on."""
    yield from starts(3, 0)
    yield from (f"tick 0 0 {networks.PERIOD * place}\n" for place in range(1, rounds + 1))
    yield from (f"lose 0 1 0 1 0 {place}\n" for place in range(1, rounds + 1))
    yield "end 0\n"


def one_reference(rounds: int) -> Iterator[str]:
    """Rounds at one reference, of which one message stays on its way to the end."""
    yield from starts(3)
    at = 110_000_000
    for place in range(rounds):
        sent = 4 * place + 1
        yield f"tick {at} 0 {networks.PERIOD * (place + 1)}\nrecv {at} 1 {at} {sent}\nrecv {at} 2 {at} {sent + 1}\n"
        yield "".join(f"lose {at} {sent + other}\n" for other in (2, 3) if (place, other) != (0, 2))
    yield f"end {at}\n"


def burst(devices: int, ticks: int) -> Iterator[str]:
    """Ticks of a root at one reference, whose messages are all on their way."""
    yield from starts(devices)
    yield from (f"tick 0 0 {networks.PERIOD * place}\n" for place in range(1, ticks + 1))
    yield "end 0\n"


def feed(logs: int, lines: int) -> Iterator[str]:
    """Lines of logs that go on in turn."""
    return (f"{line % logs + 1} ask {line // logs} 0 {line // logs}\n" for line in range(lines))


def of_names(names: Sequence[str]) -> Iterator[str]:
    """Links with these names, and domains that list the last of them, eight for each link."""
    yield networks.head(("a", "b")) + networks.device("a") + networks.device("b")
    yield from (networks.link(name, "a", "b") for name in names)
    yield from (networks.domain(f"f{place}", [], list(names[-64:])) for place in range(len(names) // 8))


def dotted(size: int) -> Iterator[str]:
    """Keys of seventy parts, as many as fit into so many bytes."""
    return (f"k{place:04x}{'.a' * 70}=1\n" for place in range(size // 148))


def nested(size: int) -> str:
    """Objects in each other, sixty deep, as many as fit into so many bytes of JSON."""
    return "[" + ",".join(['{"":' * 60 + "0" + "}" * 60] * (size // 302)) + "]"


def mesh(devices: int) -> Iterator[str]:
    """A tree and as many links more, where each device may be a root."""
    draw = random.Random(1)
    roots = ", ".join(f'"d{place}"' for place in range(devices))
    yield networks.head(("d0", "d1"), depth=64).replace('"d0", "d1"', roots)
    yield from (networks.device(f"d{place}") for place in range(devices))
    for place in range(1, devices):
        yield networks.link(f"t{place}", f"d{draw.randrange(place)}", f"d{place}")
        first, second = draw.sample(range(devices), 2)
        yield networks.link(f"k{place}", f"d{first}", f"d{second}")


def bundle(links: int) -> Iterator[str]:
    """Two devices, and links between them."""
    yield networks.head(("a", "b")) + networks.device("a") + networks.device("b")
    yield from (networks.link(f"k{place}", "a", "b") for place in range(links))


def in_a_row(devices: int) -> Iterator[str]:
    """Devices in a row, each of which may be a root, and from each of which some other is too far."""
    roots = ", ".join(f'"d{place}"' for place in range(devices))
    yield networks.head(("d0", "d1"), depth=5).replace('"d0", "d1"', roots)
    yield from (networks.device(f"d{place}") for place in range(devices))
    yield from (networks.link(f"k{place}", f"d{place - 1}", f"d{place}") for place in range(1, devices))


def colliding(bench: Bench, number: int) -> List[str]:
    program = bench.plain("colliding")
    if not program:
        raise BenchFault("no rustc builds the program that finds names")
    return subprocess.run((str(program), str(number)), stdout=subprocess.PIPE, check=True).stdout.decode().split()


def beside_half(bench: Bench, work: str, unit: str, size: int, words_of: Callable[[int], Words], status: int = 0,
                program: str = "sundial", other: str = "half of it") -> Row:
    """A run beside that of half the size."""
    whole, half = (bench.of(program, *words_of(number), status=status) for number in (size, size // 2))
    return Row(work, f"{count(size)} {unit}", other, 0.0, bench.runner.compare(whole, half, False),
               memory=bench.runner.peak_memory(whole.words))


def searching(bench: Bench, topology: str, steps: int) -> Command:
    """A search, with a plan at its end or with none."""
    words = ("search", topology, BASE, HOLD, "1", str(steps))
    found = bench.of("sundialctl", *words)
    status = run_once(found.words, bench.folder / "searched")[1]
    return found if status == 0 else bench.of("sundialctl", *words, status=1)


def search_rows(bench: Bench) -> List[Row]:
    """A search that goes through pairs of roots."""
    meshed, steps = bench.file("mesh", mesh(128)), bench.count(2000, 20)
    none, whole, half = (searching(bench, meshed, number) for number in (0, steps, steps // 2))
    work, memory = "`search`, a mesh of 128 devices", bench.runner.peak_memory(whole.words)
    return [
        Row(work, f"{count(steps)} steps", "half of it", 0.0, bench.runner.compare(whole, half, False), memory=memory),
        Row(work, "no step", seconds=bench.runner.least(none), memory=bench.runner.peak_memory(none.words)),
    ]


def text_rows(bench: Bench) -> List[Row]:
    """Texts that are read whole."""
    topology = triangle(bench)[0]
    size, links = bench.count(1 << 20, 1 << 12), bench.count(8192, 512)
    ordinary, worst = (
        bench.ours("migrate", bench.file(name, of_names(names)))
        for name, names in (("ordinary", [f"k{place:07}" for place in range(links)]), ("worst", colliding(bench, links)))
    )
    return [
        Row("`migrate`, hostile names", f"{count(links)} links, {count(8 * links)} listed things", "ordinary names", 0.0,
            bench.runner.compare(worst, ordinary, False), memory=bench.runner.peak_memory(worst.words)),
        beside_half(bench, "`plan`, dotted keys", "bytes", size,
                    lambda number: ("plan", bench.file(f"dotted{number}", dotted(number))), 3),
        beside_half(bench, "`check`, nested objects", "bytes", size,
                    lambda number: ("check", topology, bench.file(f"nested{number}", [nested(number)])), 3),
    ]


def halved(bench: Bench, devices: int) -> Words:
    """A network that each listed domain takes apart, with as much of each kind as there may be, and a plan."""
    sizes = networks.Sizes(devices, 8 * devices, devices, 0)
    return (bench.file(f"halved{devices}", networks.halved(sizes)),
            bench.file(f"halved_plan{devices}", [networks.plan_of_halved(sizes)]))


def plan_rows(bench: Bench) -> List[Row]:
    """Checks of a plan whose devices are hit by each listed domain: half of them turn elsewhere, and half are cut off."""
    devices = bench.count(4096, 64)
    absent = bench.file("absent_y0", ['{"absent_devices":["y0"],"absent_links":[]}\n'])
    return [
        beside_half(bench, f"`check`, {APART}", "devices", devices, lambda number: ("check", *halved(bench, number))),
        beside_half(bench, f"`plan`, {APART}", "devices", devices, lambda number: ("plan", halved(bench, number)[0]), 1),
        beside_half(bench, f"`renew`, {APART}", "devices", devices,
                    lambda number: ("renew", *halved(bench, number), absent), 1),
    ]


def drill_rows(bench: Bench) -> List[Row]:
    """The numbers of such a network."""
    devices, other = bench.count(1024, 64), "half of it, with a quarter of the lines"

    def row(command: str, program: str) -> Row:
        return beside_half(bench, f"`{command}`, {APART}", "devices", devices,
                           lambda number: (command, *halved(bench, number), BASE, HOLD), 0, program, other)

    return [row("drill", "sundial"), row("bounds", "sundialctl")]


def line_rows(bench: Bench) -> List[Row]:
    """Reports and exchanges."""
    bundled, links = bench.file("bundle", bundle(bench.count(32_768, 64))), bench.count(32_768, 64)
    return [
        beside_half(bench, "`solo`, asks alone", "lines", bench.count(4_000_000, 1000),
                    lambda number: ("solo", bench.file(f"asks_alone{number}", one_device.schedule(number, 1)))),
        beside_half(bench, f"`twoway`, {count(links)} links", "lines", bench.count(10_000_000, 2000),
                    lambda number: ("twoway", bundled,
                                    bench.file(f"exchanged{number}", exchanges.exchanges(number, links)))),
    ]


def schedule_rows(bench: Bench) -> List[Row]:
    """Texts that are read line by line."""
    files = triangle(bench)
    star = networks.Sizes(bench.count(4096, 64), 2 * bench.count(4096, 64) - 4, 0, 2)
    starred = bench.file("star", networks.spines_and_leaves(star)), bench.file("star_plan", [networks.plan_of_leaves(star)])
    return [
        beside_half(bench, "`order`, all wait", "asks", bench.count(200_000, 1000),
                    lambda number: ("order", *files, bench.file(f"asks{number}", waiting(number))), 7),
        beside_half(bench, "`replay`, one reference", "rounds of five events", bench.count(400_000, 1000),
                    lambda number: ("replay", *files, bench.file(f"rounds{number}", one_reference(number))), 7),
        beside_half(bench, f"`replay`, a root with {star.leaves:,} children", "ticks at one reference",
                    bench.count(1000, 10),
                    lambda number: ("replay", *starred, bench.file(f"ticks{number}", burst(star.devices, number))), 7),
    ]


def second_rows(bench: Bench) -> List[Row]:
    """The commands of `sundialctl` but the search and `bounds`."""
    files, lines, name = triangle(bench), bench.count(40_000, 4000), "sundialctl"
    return [
        beside_half(bench, "`record`, oldest first", "messages over one link", bench.count(200_000, 500),
                    lambda number: ("record", *files, bench.file(f"log{number}", oldest_first(number))), 0, name),
        beside_half(bench, f"`merge` of {count(lines)} lines", "logs", bench.count(4000, 400),
                    lambda number: ("merge", str(number), bench.file(f"feed{number}", feed(number, lines))), 0, name),
        beside_half(bench, "`why`, a row of candidates", "devices", bench.count(4096, 64),
                    lambda number: ("why", bench.file(f"row{number}", in_a_row(number))), 1, name),
    ]


def rows(bench: Bench) -> List[Row]:
    found: List[Row] = []
    for part in (text_rows, plan_rows, drill_rows, line_rows, schedule_rows, second_rows, search_rows):
        found += part(bench)
    return found
