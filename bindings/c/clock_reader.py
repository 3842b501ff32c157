#!/usr/bin/env python3
"""A whole reader of a clock page in Python, without the library: clock_reader.py FILE

It prints one interval. The head of sundial_clock.h has the layout of the page. On x86-64 the processor keeps the order of
loads, as a reader needs. In other languages take loads that acquire.
"""

from __future__ import annotations

import mmap
import os
import struct
import sys
import time
import uuid
from typing import NamedTuple, Union

PAGE, SLOT = 320, "<QQ16sqQQQqqQQqQIIQ"
SECOND = 10**9
TRIES = 1000


class Slot(NamedTuple):
    number: int
    status: int
    boot: bytes
    offset: int
    raw: int
    stale_after: int
    void_after: int
    earliest: int
    latest: int
    slow: int
    fast: int
    origin: int
    age: int
    epoch: int
    mode: int
    disruptions: int


class Identity(NamedTuple):
    boot: bytes
    offset: int


class Now(NamedTuple):
    answer: str  # GOOD or STALE
    earliest: int
    latest: int
    slot: Slot


def identity() -> Identity:
    """Which clock CLOCK_MONOTONIC_RAW is here."""
    with open("/proc/sys/kernel/random/boot_id", encoding="ascii") as file:
        boot = uuid.UUID(file.read().strip()).bytes
    try:
        with open("/proc/self/timens_offsets", encoding="ascii") as file:
            _, seconds, rest = file.readline().split()
    except FileNotFoundError:
        return Identity(boot, 0)
    if os.stat("/proc/self/ns/time").st_ino != os.stat("/proc/self/ns/time_for_children").st_ino:
        raise OSError("this process made a time namespace for its children")
    return Identity(boot, int(seconds) * SECOND + int(rest))


def now_at(slot: Slot, here: Identity, raw: int) -> Union[Now, str]:
    """What a process of this clock reads in the slot, or why there is no interval."""
    if Identity(slot.boot, slot.offset) != here or raw < slot.raw:
        return "FOREIGN"
    if slot.status != 0:
        return "DISRUPTED" if slot.status == 108 else "WITHDRAWN"
    if raw > slot.void_after:
        return "VOID"
    passed = raw - slot.raw
    earliest = slot.earliest + passed * slot.slow // SECOND
    latest = slot.latest - (-passed * slot.fast // SECOND)
    return Now("STALE" if raw > slot.stale_after else "GOOD", max(earliest, 0), max(latest, 0), slot)


class Reader:
    def __init__(self, path: str) -> None:
        self.here = identity()
        with open(path, "rb") as file:
            self.page = mmap.mmap(file.fileno(), PAGE, prot=mmap.PROT_READ)
        if self.page[:8] != b"sundial\0" or struct.unpack_from("<QQ", self.page, 8) != (2, PAGE):
            raise ValueError(f"{path} is no clock page of version 2")
        self.words = memoryview(self.page).cast("Q")

    def slot(self) -> Union[Slot, str]:
        """The latest publication."""
        for _ in range(TRIES):
            number = self.words[3]
            if number == 0:
                return "EMPTY"
            at = 8 + 16 * (number % 2)
            found = Slot(*struct.unpack(SLOT, self.words[at : at + 16].tobytes()))
            if self.words[at] == number:
                return found
        return "BUSY"

    def read(self) -> Union[Now, str]:
        slot = self.slot()
        if isinstance(slot, str):
            return slot
        return now_at(slot, self.here, time.clock_gettime_ns(time.CLOCK_MONOTONIC_RAW))


def main() -> int:
    now = Reader(sys.argv[1]).read()
    if isinstance(now, str):
        print(f"no interval: {now}")
        return 1
    print(f"{now.answer} earliest {now.earliest} latest {now.latest} civil {now.slot.origin + now.latest}")
    return 0


if __name__ == "__main__":
    sys.exit(main())
