#!/usr/bin/env python3
"""In place of the program where it is not built: `record` and `merge`, by the model of the devices that the tools have.

What a line of the log or of the feed brings is written before the next one is read.
"""

import sys

from support import run_tool

from sundial_tools.errors import ToolError
from sundial_tools.plan import read_plan
from sundial_tools.record.compact_lines import parse_entry
from sundial_tools.record.fleet import JudgedFleet, Refusal
from sundial_tools.schedule import event_line
from sundial_tools.topology import read_topology

def record(topology_path, *paths):
    topology = read_topology(topology_path)
    fleet = JudgedFleet(topology, [read_plan(path, topology) for path in paths[:-1]])
    number = 0
    with open(paths[-1], encoding="ascii") as lines:
        for number, line in enumerate(lines, 1):
            try:
                event = parse_entry(line[:-1], "log", number)
            except ToolError as fault:
                return refuse("log", number, fault.reason.partition(":")[0])
            out = "".join(event_line(lost) for lost in fleet.lost_before(event.ref))
            said = fleet.apply(event, event.ref, event.counter)
            if isinstance(said, Refusal):
                return refuse("log", number, said.partition(":")[0] if ":" in said.split(" ")[0] else "UnknownMessage")
            print(out + event_line(said), end="", flush=True)
            if event.word == "end":
                return 0
    return refuse("log", number + 1, "NoEnd")


def merge(count, path):
    """Writes each entry that no log can bring an earlier one for: by reference, of equal ones the earlier log's first."""
    count = int(count)
    waiting, past = {number: [] for number in range(1, count + 1)}, dict.fromkeys(range(1, count + 1), 0)

    def settle(is_over):
        while any(waiting.values()):
            ref, number = min((queue[0][0], number) for number, queue in waiting.items() if queue)
            others = (past[other] > ref if other < number else past[other] >= ref for other in past if other != number)
            if not is_over and not all(others):
                return
            print(waiting[number].pop(0)[1], flush=True)

    with open(path, encoding="ascii") as lines:
        for place, line in enumerate(lines, 1):
            log, _, text = line[:-1].partition(" ")
            number = int(log)
            if number not in past:
                return refuse("feed", place, "UnknownLog")
            is_past = text.startswith("past ")
            ref = int(text.split(" ")[1]) if is_past else parse_entry(text, "feed", place).ref
            if ref < past[number] and not is_past:
                return refuse("feed", place, "OutOfOrder")
            past[number] = max(ref, past[number])
            if not is_past:
                waiting[number].append((ref, text))
            settle(False)
    settle(True)
    return 0


def refuse(what, number, reason):
    print(f"input {what} {number} {reason}")
    return 3


if __name__ == "__main__":
    sys.exit(run_tool("sundialctl", lambda words: {"record": record, "merge": merge}[words[0]](*words[1:]), sys.argv[1:]))
