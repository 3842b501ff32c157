#!/usr/bin/env python3
"""Writes a schedule as the logs of its devices.

usage: logs_of.py TOPOLOGY PLAN.. SCHEDULE DIRECTORY

Receipts and losses get the name of their message: link, epoch, term and round. One file for each device, and
fabric.jsonl for what no device sees.
"""

import json
import pathlib
import sys

import support

from sundial_tools.plan import read_plan
from sundial_tools.record.events import NO_STAMP, NONE, LogEvent
from sundial_tools.record.fleet import JudgedFleet, Refusal
from sundial_tools.schedule import open_schedule, read_schedule
from sundial_tools.topology import read_topology


# (the import puts the package on the path)
assert support.TOOLS.is_dir()


def logs_of(topology, plans, events):
    """The lines of each log, by the name of its file."""
    logs = {}
    for whose, said in lines_of(topology, plans, events):
        logs.setdefault(whose, []).append(said)
    return logs


def lines_of(topology, plans, events):
    """Each line with whose log it stands in, in the order of the schedule."""
    fleet = JudgedFleet(topology, plans)
    for line, event in events:
        said = {"event": event.word, "reference_ps": event.ref}
        for key in "counter", "clock", "eps":
            if getattr(event, key) is not None:
                said[f"{key}_ps"] = getattr(event, key)
        for _ in fleet.lost_before(event.ref):
            pass
        device, link, epoch, stamp = NONE if event.device is None else event.device, NONE, NONE, NO_STAMP
        if event.message is not None:
            device, link, epoch, stamp = fleet.book.get(event.message).key
            if event.device not in (None, device):
                raise ValueError(f"line {line}: message {event.message} goes to {device}")
            said.update(link=topology.links[link].name, epoch=epoch, term=stamp[0], round=stamp[1])
        if device != NONE:
            said["device"] = topology.devices[device].name
        if event.thing is not None:
            things = topology.devices if event.thing == "device" else topology.links
            said[event.thing] = things[event.number].name
        logged = LogEvent(
            event.word, event.ref, device, event.counter, event.clock, event.eps, link, epoch, stamp, event.thing or "",
            NONE if event.number is None else event.number, "schedule", line,
        )
        answer = fleet.apply(logged, event.ref, event.counter)
        if isinstance(answer, Refusal):
            raise ValueError(f"line {line}: {answer}")
        yield said["device"] if device != NONE and event.word != "lose" else "fabric", said


def write(logs, directory):
    paths = []
    for name, lines in logs.items():
        path = pathlib.Path(directory) / f"{name}.jsonl"
        path.write_text("".join(json.dumps(said) + "\n" for said in lines))
        paths.append(path)
    return paths


def compact(topology, said):
    """The line of a compact log that says the same, with its newline."""
    devices, links = topology.device_numbers, topology.link_numbers
    numbers = {"device": devices.get(said.get("device")), "link": links.get(said.get("link"))}
    words = [said["event"], said["reference_ps"]]
    if said["event"] in ("fail", "mend"):
        words += next([thing, numbers[thing]] for thing in ("device", "link") if thing in said)
    else:
        keys = ("device", "counter_ps", "clock_ps", "eps_ps", "link", "epoch", "term", "round")
        words += [numbers.get(key, said[key]) for key in keys if key in said]
    return " ".join(map(str, words)) + "\n"


def main(words):
    topology = read_topology(words[0])
    plans = [read_plan(path, topology) for path in words[1:-2]]
    with open_schedule(words[-2]) as lines:
        write(logs_of(topology, plans, read_schedule(lines, words[-2])), words[-1])


if __name__ == "__main__":
    main(sys.argv[1:])
