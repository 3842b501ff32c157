"""`replay`, `order` and `case` over a fabric of leaves and spines, with asks, losses, a failure and a renewal."""
import subprocess
import sys
from typing import List, NamedTuple, Optional, Tuple

from .bench import BENCH, Bench
from .measuring import Command, first_line
from .tables import Row, count

LEAVES, SPINES, ROUNDS = 256, 32, 17_000
COUNTED = (400, 600)


class Fabric(NamedTuple):
    """The files of a fabric."""

    topology: str
    first: str
    second: str


def made_by(bench: Bench, name: str, words: Tuple[str, ...], given: Optional[str] = None) -> str:
    """A text that bench/schedule.py makes."""
    path = bench.folder / name
    with open(given or "/dev/null", "rb") as source, open(path, "wb") as out:
        subprocess.run((sys.executable, str(BENCH / "schedule.py")) + words, stdin=source, stdout=out, check=True)
    return str(path)


def fabric(bench: Bench, leaves: int, spines: int) -> Fabric:
    topology = made_by(bench, "fabric", ("--network", str(leaves), str(spines)))
    first = bench.answer("first", "plan", topology)
    absent = bench.file("absent", ['{"absent_devices":["s0"],"absent_links":[]}\n'])
    return Fabric(topology, first, bench.answer("second", "renew", topology, first, absent))


def words_for(bench: Bench, made: Fabric, rounds: int) -> Tuple[str, ...]:
    """The files of a command, with a schedule of so many rounds."""
    schedule = made_by(bench, f"rounds{rounds}", (made.first, made.second, str(rounds)), made.topology)
    return (*made, schedule)


def lines_of(path: str) -> int:
    with open(path, "rb") as text:
        return sum(piece.count(b"\n") for piece in iter(lambda: text.read(1 << 20), b""))


def instructions(bench: Bench, command: str) -> Optional[float]:
    """Of an event past the renewal, in a small fabric."""
    made = fabric(bench, 16, 4)
    few, more = (words_for(bench, made, rounds) for rounds in COUNTED)
    return bench.instructions_each((command, *few), (command, *more), lines_of(more[-1]) - lines_of(few[-1]))


def timed(bench: Bench) -> Tuple[Tuple[str, ...], Tuple[str, ...], int, str]:
    """The files of a long schedule and of one of a single round, the events of the first, and its size in words."""
    leaves, spines = bench.count(LEAVES, 8), bench.count(SPINES, 4)
    made = fabric(bench, leaves, spines)
    files, short = words_for(bench, made, bench.count(ROUNDS, 400)), words_for(bench, made, 1)
    events = lines_of(files[-1])
    return files, short, events, f"{count(events)} events, {leaves} leaves, {spines} spines"


def replay_rows(bench: Bench) -> List[Row]:
    counted = instructions(bench, "replay")
    files, short, events, size = timed(bench)
    ours = bench.ours("replay", *files, base=("replay", *short))
    tenth = words_for(bench, Fabric(*files[:3]), bench.count(ROUNDS // 10, 200))
    memory = bench.runner.peak_memory(ours.words)
    fewer = bench.runner.peak_memory((str(bench.program), "replay", *tenth))
    found = [Row("`replay`, a tenth as long", f"{count(lines_of(tenth[-1]))} events",
                 seconds=bench.runner.least(bench.ours("replay", *tenth, base=("replay", *short))),
                 events=lines_of(tenth[-1]), memory=fewer)]
    plain = bench.plain("main")
    if plain:
        other = Command((str(plain), *files), base=(str(plain), *short))
        compared = bench.runner.compare(ours, other, True)
        found.insert(0, Row("`replay`", size, "plain Rust", 0.0, compared, events, counted, memory))
    else:
        found.insert(0, Row("`replay`", size, seconds=bench.runner.least(ours), events=events, memory=memory))
    return found


def order_rows(bench: Bench) -> List[Row]:
    counted = instructions(bench, "order")
    files, short, events, size = timed(bench)
    ours = bench.ours("order", *files, base=("order", *short))
    memory = bench.runner.peak_memory(ours.words)
    others = [("`replay` of the same schedule", bench.ours("replay", *files, base=("replay", *short)), False)]
    plain = bench.plain("main")
    if plain:
        order = (str(plain), "--order")
        others.insert(0, ("plain Rust", Command(order + files, base=order + short), True))
    return [
        Row("`order`", size, name, 0.0, bench.runner.compare(ours, other, same), events, counted, memory)
        for name, other, same in others
    ]


def case_rows(bench: Bench) -> List[Row]:
    """A case beside the check of a plan of its network, and how it grows with leaves."""
    leaves, spines = bench.count(LEAVES, 8), bench.count(SPINES, 4)
    topology = made_by(bench, "fabric", ("--network", str(leaves), str(spines)))
    check = bench.ours("check", topology, bench.answer("first", "plan", topology), first="accepted ")
    found: List[Row] = []
    for fewer in (1, 2, 4):
        wanted = "case 89688 306 3203155 0 0" if (leaves, spines, fewer) == (256, 32, 1) else "case "
        words = ("case", "1", str(leaves // fewer), str(spines))
        ours = bench.ours(*words, first=wanted)
        bench.runner.checked(ours, bench.folder / "case")
        size = f"{leaves // fewer} leaves, {count(int(first_line(bench.folder / 'case').split()[1]))} events"
        work, memory = f"`case 1 {leaves // fewer} {spines}`", bench.runner.peak_memory(ours.words)
        if fewer == 1:
            compared = bench.runner.compare(ours, check, False)
            found.append(Row(work, size, "`check` of a plan of its network", 0.0, compared, memory=memory))
        else:
            found.append(Row(work, size, seconds=bench.runner.least(ours), memory=memory))
    return found
