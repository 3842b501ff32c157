"""`solo` beside awk and beside plain Rust. Both write each report by itself, as the rules ask, so only time outside of
calls of the system counts. awk writes once."""
from typing import Iterator, List, Optional, Tuple

from .bench import Bench
from .measuring import Command
from .tables import Row, count

LINES = 10_000_000
COUNTED = (20_000, 60_000)


def schedule(lines: int, each: int) -> Iterator[str]:
    """Asks in each `each`th line, fixes in the others."""
    yield "start 1000000 0 0 1000000 500\n"
    for line in range(2, lines):
        reference, counter = 1_000_000 + 100 * (line - 1), 100 * (line - 1)
        if line % each == 0:
            yield f"ask {reference} 0 {counter}\n"
        else:
            yield f"fix {reference} 0 {counter} {reference} 500\n"
    yield f"end {1_000_000 + 100 * (lines - 2)}\n"


def others(bench: Bench, text: str) -> List[Tuple[str, Command, bool]]:
    """What is timed beside: its name, its command, and whether it writes the same."""
    awk = Command(("awk", "{s+=$2}END{print s}", text), user_only=True)
    plain = bench.plain("solo")
    found: List[Tuple[str, Command, bool]] = [("awk, which adds up a field", awk, False)]
    if plain:
        found.insert(0, ("plain Rust", Command((str(plain), text), user_only=True), True))
    return found


def instructions(bench: Bench, each: int) -> Optional[float]:
    few, more = (bench.file(f"solo{lines}", schedule(lines, each)) for lines in COUNTED)
    return bench.instructions_each(("solo", few), ("solo", more), COUNTED[1] - COUNTED[0])


def rows(bench: Bench) -> List[Row]:
    lines = bench.count(LINES, 1000)
    found: List[Row] = []
    for each, asks in ((1000, "one ask in a thousand"), (1, "asks alone")):
        text = bench.file("solo", schedule(lines, each))
        ours = bench.ours("solo", text, user_only=True)
        memory = bench.runner.peak_memory(ours.words)
        counted = instructions(bench, each)
        for name, command, same in others(bench, text):
            compared = bench.runner.compare(ours, command, same)
            found.append(Row(f"`solo`, {asks}", f"{count(lines)} lines", name, 0.0, compared, lines, counted, memory))
    return found
