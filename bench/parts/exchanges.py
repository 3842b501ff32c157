"""`twoway` beside awk and beside plain Rust. It writes nothing before the end of its text, so this is reading."""
from typing import Iterator, List

from . import networks
from .bench import Bench
from .measuring import Command
from .tables import Row, count

LINES, LINKS = 10_000_000, 1024
COUNTED = (20_000, 60_000)


def exchanges(lines: int, links: int = LINKS) -> Iterator[str]:
    """Exchanges over all links in turn."""
    for line in range(1, lines):
        counter = 2_400_000 * line
        yield (
            f"exchange {line * 7 % links} {line % 2} 100000 {counter} {counter + 5} {counter + 1_000_005}"
            f" {counter + 2_400_000}\n"
        )
    yield "end\n"


def rows(bench: Bench) -> List[Row]:
    lines = bench.count(LINES, 2000)
    topology = bench.file("topology", networks.chain(LINKS))
    text, none = bench.file("exchanges", exchanges(lines)), bench.file("none", ["end\n"])
    few, more = (bench.file(f"exchanges{number}", exchanges(number)) for number in COUNTED)
    counted = bench.instructions_each(
        ("twoway", topology, few), ("twoway", topology, more), COUNTED[1] - COUNTED[0]
    )
    ours = bench.ours("twoway", topology, text, first="link l0 ", base=("twoway", topology, none))
    others = [("awk, which adds up a field", Command(("awk", "{s+=$5}END{print s}", text)), False)]
    plain = bench.plain("twoway")
    if plain:
        other = Command((str(plain), topology, text), base=(str(plain), topology, none))
        others.insert(0, ("plain Rust", other, True))
    memory = bench.runner.peak_memory(ours.words)
    return [
        Row("`twoway`", f"{count(lines)} lines, {LINKS} links", name, 0.0, bench.runner.compare(ours, other, same), lines,
            counted, memory)
        for name, other, same in others
    ]
