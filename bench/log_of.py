#!/usr/bin/env python3
"""Prints a schedule as one log in the compact form, which `sundialctl record` reads.

usage: bench/log_of.py TOPOLOGY PLAN.. SCHEDULE > LOG

A receipt gets the name of its message in place of its number. Losses are left out: the recorder finds them.
"""

from __future__ import annotations

import pathlib
import sys
from typing import Iterator

sys.path.insert(0, str(pathlib.Path(__file__).resolve().parent.parent / "tools" / "tests"))

from logs_of import lines_of  # noqa: E402
from sundial_tools.plan import read_plan  # noqa: E402
from sundial_tools.schedule import open_schedule, read_schedule  # noqa: E402
from sundial_tools.topology import read_topology  # noqa: E402


def compact(topology_path: str, plan_paths: list[str], schedule: str) -> Iterator[str]:
    """The lines of the log, in the order of the schedule."""
    topology = read_topology(topology_path)
    plans = [read_plan(path, topology) for path in plan_paths]
    links = {link.name: number for number, link in enumerate(topology.links)}
    with open(schedule, encoding="ascii") as plain, open_schedule(schedule) as lines:
        said_of = lines_of(topology, plans, read_schedule(lines, schedule))
        for line, (_, said) in zip(plain, said_of):
            if said["event"] == "lose":
                continue
            if said["event"] == "recv":
                front = line.rsplit(" ", 1)[0]
                line = f"{front} {links[said['link']]} {said['epoch']} {said['term']} {said['round']}\n"
            yield line


if __name__ == "__main__":
    sys.stdout.writelines(compact(sys.argv[1], sys.argv[2:-1], sys.argv[-1]))
