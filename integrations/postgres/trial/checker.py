#!/usr/bin/env python3
"""Checks the stamps of transactions by what their clients saw, in n log n.

    checker.py FILE

A line of FILE is a transaction that ended: BEGIN END STAMP KEY VERSION NODE. Its client began it and had the answer at these
times of one clock. It made this version of the key, a number, on this node. For all pairs: if A ended before B began, or A made
an earlier version of B's key, then A's stamp is less than B's. Other pairs are counted, and the status is then 1. It is 2 where
two transactions made one version.
"""

from __future__ import annotations

import bisect
import sys
from collections import defaultdict
from typing import Dict, Iterable, List, NamedTuple, Tuple


class Transaction(NamedTuple):
    begin: int
    end: int
    stamp: int
    key: str
    version: int
    node: str


def pairs(spans: Iterable[Tuple[int, int, int]]) -> int:
    """Of spans (begin, end, stamp): how many pairs have one that ended before the other began, and no smaller stamp."""
    events: List[Tuple[int, int, int]] = []
    for begin, end, stamp in spans:
        events += [(begin, 0, stamp), (end, 1, stamp)]
    found, ended = 0, []  # type: int, List[int]
    for _, ends, stamp in sorted(events):
        if ends:
            bisect.insort(ended, stamp)  # (nearly always at the end)
        else:
            found += len(ended) - bisect.bisect_left(ended, stamp)
    return found


def check(history: List[Transaction]) -> Tuple[int, int]:
    """How many pairs are out of order: by the times of the clients, and by the versions of a key."""
    keys: Dict[str, List[Tuple[int, int, int]]] = defaultdict(list)
    for it in history:
        keys[it.key].append((2 * it.version, 2 * it.version + 1, it.stamp))
    if any(len(set(of)) < len(of) or len({begin for begin, _, _ in of}) < len(of) for of in keys.values()):
        print("checker: two transactions made one version", file=sys.stderr)
        sys.exit(2)
    return pairs((it.begin, it.end, it.stamp) for it in history), sum(map(pairs, keys.values()))


def main() -> int:
    with open(sys.argv[1], encoding="ascii") as file:
        lines = [line.split() for line in file]
    history = [Transaction(int(begin), int(end), int(stamp), key, int(version), node) for begin, end, stamp, key, version, node in lines]
    by_time, by_version = check(history)
    print(f"{len(history)} transactions, out of order: {by_time} pairs by time, {by_version} by version")
    return 1 if by_time or by_version else 0


if __name__ == "__main__":
    sys.exit(main())
