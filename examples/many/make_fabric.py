#!/usr/bin/env python3
"""Prints the topology of a fabric that is drawn from a number.

usage: make_fabric.py NUMBER

Leaves and spines in racks on two or three power feeds. The same number gives the same fabric.
"""

from __future__ import annotations

import random
import sys
from typing import Iterator, List, NamedTuple, Sequence


class Fabric(NamedTuple):
    """The sizes of a fabric, and its numbers. Times are picoseconds."""

    leaves: int
    spines: int
    cables: int
    feeds: int
    ppm: int
    period: int
    tick: int
    loss: int
    slowest: int


def draw_fabric(number: int) -> Fabric:
    """The fabric of a number."""
    generator = random.Random(number)

    def pick(choices: Sequence[int]) -> int:
        return choices[int(generator.random() * len(choices))]

    return Fabric(
        leaves=pick(range(3, 13)),
        spines=pick((2, 3, 3, 4)),
        cables=pick((1, 1, 2)),
        feeds=pick((2, 3)),
        ppm=pick((20, 50, 100, 200)),
        period=pick((50_000_000, 100_000_000, 200_000_000)),
        tick=pick((5_000_000, 10_000_000, 30_000_000)),
        loss=pick((0, 1, 1, 2)),
        slowest=pick((500_000, 800_000, 1_200_000)),
    )


def devices_of(fabric: Fabric) -> List[str]:
    """The names of the spines, and then of the leaves."""
    spines = [f"spine{spine}" for spine in range(1, fabric.spines + 1)]
    return spines + [f"leaf{leaf}" for leaf in range(1, fabric.leaves + 1)]


def cables_of(fabric: Fabric, leaf: int) -> Iterator[str]:
    """The names of the links of a leaf."""
    for spine in range(1, fabric.spines + 1):
        for cable in range(1, fabric.cables + 1):
            yield f"leaf{leaf}-spine{spine}-{cable}"


def quoted(names: Sequence[str]) -> str:
    return "[" + ", ".join(f'"{name}"' for name in names) + "]"


def head_lines(fabric: Fabric) -> Iterator[str]:
    yield "version = 1"
    yield f"ppm = {fabric.ppm}"
    yield "grain = 1000"
    yield f"period = {fabric.period}"
    yield f"tick = {fabric.tick}"
    yield f"loss = {fabric.loss}"
    yield "depth = 3"
    yield f"roots = {quoted(devices_of(fabric)[: fabric.spines])}"


def link_lines(fabric: Fabric) -> Iterator[str]:
    for leaf in range(1, fabric.leaves + 1):
        for name in cables_of(fabric, leaf):
            yield "[[link]]"
            yield f'name = "{name}"'
            yield f'ends = ["{name.split("-")[1]}", "leaf{leaf}"]'
            yield "min = 400000"
            yield f"max = {fabric.slowest}"


def domain_lines(fabric: Fabric) -> Iterator[str]:
    """A rack for each leaf with its links, and the devices of each power feed in turn."""
    for leaf in range(1, fabric.leaves + 1):
        yield "[[domain]]"
        yield f'name = "rack{leaf}"'
        yield f'devices = ["leaf{leaf}"]'
        yield f"links = {quoted(list(cables_of(fabric, leaf)))}"
    for feed in range(fabric.feeds):
        yield "[[domain]]"
        yield f'name = "feed{feed + 1}"'
        yield f"devices = {quoted(devices_of(fabric)[feed :: fabric.feeds])}"


def topology_lines(fabric: Fabric) -> Iterator[str]:
    yield from head_lines(fabric)
    for name in devices_of(fabric):
        yield "[[device]]"
        yield f'name = "{name}"'
    yield from link_lines(fabric)
    yield from domain_lines(fabric)


def main() -> None:
    if len(sys.argv) != 2 or not sys.argv[1].isdecimal():
        sys.exit("usage: make_fabric.py NUMBER")
    print("\n".join(topology_lines(draw_fabric(int(sys.argv[1])))))


main()
