"""Parts of the program by themselves, timed through its test programs: what an event costs a fleet of 4096 devices, and
what a flight costs that is taken while 10,000 are on their way. The tests compare each answer, which is in the time."""
from pathlib import Path
from typing import List

from .bench import Bench
from .measuring import BenchFault, Command
from .tables import Row, count

EVENTS_OF_A_ROUND = 12_286
TAKES = 100_000


def test_program(bench: Bench, crate: str) -> Path:
    """The test program of a crate, as `rt test` leaves it."""
    program = bench.crates / crate / "out" / f"{crate}_tests"
    if not program.exists():
        raise BenchFault(f"{crate} has no test program: run `rt test` in crates/{crate}")
    return program


def fleet_rows(bench: Bench) -> List[Row]:
    program = str(test_program(bench, "sd_test_fleet"))
    start = (program, "load::tests::all_devices_start")
    found: List[Row] = []
    for name, rounds in (("eighty", 80), ("eight_hundred", 800)):
        command = Command((program, f"load::tests::{name}_rounds"), base=start)
        events = rounds * EVENTS_OF_A_ROUND
        found.append(Row("a fleet alone, without premises and lines", f"{count(events)} events, 4,096 devices",
                         seconds=bench.runner.least(command), events=events,
                         memory=bench.runner.peak_memory(command.words)))
    return found


def book_rows(bench: Bench) -> List[Row]:
    program = str(test_program(bench, "sd_test_core"))
    command = Command((program, "messages::books::many_on_their_way_are_taken_in_about_their_order"))
    return [Row("a flight taken and one sent", f"{count(TAKES)} of each, 10,000 on their way",
                seconds=bench.runner.least(command), events=TAKES, memory=bench.runner.peak_memory(command.words))]
