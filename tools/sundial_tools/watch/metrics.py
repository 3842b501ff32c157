"""What was seen, as a text for Prometheus: docs/WATCH.md."""

from __future__ import annotations

from collections import Counter
from typing import Any, Dict, Iterator, Optional

from sundial_tools.outputs import PREMISES
from sundial_tools.topology import Topology

SECOND = 10**12
ALARMS = ("loop", "roots", "interval")
COUNTED = ("broken", "alarms", "passed_over", "eps", "greatest", "reported", "done")


class Metrics:
    """Counts of what was told, and the present state. All times are kept in picoseconds and told in seconds.

    `fabric` is the label of each series, so that several fabrics can be watched by one Prometheus.
    """

    def __init__(self, topology: Topology, fabric: Optional[str] = None) -> None:
        self._topology, self.fabric = topology, fabric
        self.broken: Counter[str] = Counter()
        self.alarms: Counter[str] = Counter()
        self.passed_over: Counter[str] = Counter()
        self.eps: Dict[str, int] = {}
        self.greatest: Dict[str, int] = {}
        self.reported: Dict[str, int] = {}
        self.done: Counter[str] = Counter()
        self.bounds: Dict[str, int] = {}
        self.calm: Dict[str, int] = {}

    def state(self) -> Dict[str, Any]:
        """What was counted, as data."""
        return {name: getattr(self, name) for name in COUNTED}

    def resume(self, state: Dict[str, Any]) -> None:
        """Takes up what was counted."""
        for name in COUNTED:
            getattr(self, name).update(state[name])

    def tell(self, row: Dict[str, Any]) -> None:
        """Counts a line that was told."""
        kind = row["kind"]
        if kind == "report":
            device = row["device"]
            self.eps[device] = row["eps"]
            if row["ref"] is not None:
                self.reported[device] = row["ref"]
            self.greatest[device] = max(row["eps"], self.greatest.get(device, 0))
        elif kind == "broken":
            self.broken[row["premise"]] += 1
        elif kind.startswith("alarm "):
            self.alarms[kind.split(" ")[1]] += 1
        elif kind == "passed over":
            self.passed_over[row["log"]] += 1

    def happened(self, done: str) -> None:
        """Counts what an event brought."""
        if done:
            self.done[done] += 1

    def text(self, now: Dict[str, Any]) -> str:
        """`now` is what the watch knows of this moment."""
        return "".join(self._lines(now))

    def _lines(self, now: Dict[str, Any]) -> Iterator[str]:
        ref = now["told_ref"]
        names = [device.name for device in self._topology.devices]
        yield from self._by("device", "eps_seconds", "gauge", "EPS of the latest report of a device.", _seconds(self.eps))
        yield from self._by("device", "eps_greatest_seconds", "gauge", "The greatest EPS that a device reported.", _seconds(self.greatest))
        if self.bounds:
            yield from self._by("device", "eps_bound_seconds", "gauge", "The bound of the drill, the greatest over all domains.", _seconds(self.bounds))
        if self.calm:
            yield from self._by("device", "eps_calm_seconds", "gauge", "What EPS stays below while nothing has failed.", _seconds(self.calm))
        ages = {device: max(0, ref - at) for device, at in self.reported.items()} if ref is not None else {}
        yield from self._by("device", "report_age_seconds", "gauge", "Reference time since the latest report of a device.", _seconds(ages))
        yield from self._by("premise", "broken_total", "counter", "Premises that broke.", {it: self.broken[it] for it in PREMISES})
        yield from self._by("kind", "alarms_total", "counter", "Alarms.", {it: self.alarms[it] for it in ALARMS})
        yield from self._by("log", "passed_over_total", "counter", "Lines of a log that are no events, or cannot come.", {it: self.passed_over[it] for it in now["logs"]})
        yield from self._by("log", "log_behind_seconds", "gauge", "How far the latest reference of a log is behind the greatest of all.", _seconds(now["logs"]))
        acting = {it: int(it in now["acting"]) for it in names if it in now["acting"] or it in now["roots"]}
        yield from self._by("device", "acting", "gauge", "1 for each device that acts as root.", acting)
        yield from self._by("thing", "failed", "gauge", "How many things have failed and are not mended.", now["failed"])
        for name, sort, text, value in (
            ("rounds_total", "counter", "Messages of an acting root to all.", self.done["send"] + self.done["takeover"]),
            ("moves_total", "counter", "Moves of a device to its backup.", self.done["move"]),
            ("takeovers_total", "counter", "Takeovers by a backup root.", self.done["takeover"]),
            ("events_total", "counter", "Events of the schedule.", now["events"]),
            ("epoch", "gauge", "The plan in force, from 1.", now["epoch"]),
            ("window_open", "gauge", "1 while a renewal is under way.", now["window"]),
            ("part", "gauge", "The part of the recording that is replayed.", now["part"]),
            ("part_events", "gauge", "Events of this part; a replay takes 2^26.", now["part_events"]),
            ("told_line", "gauge", "The line of the latest report.", now["told_line"]),
            ("lag_seconds", "gauge", "Reference time that was read and is not told yet.", f"{now['lag'] / SECOND:.12g}"),
            ("written_seconds", "gauge", "When this text was written, since 1970.", f"{now['time']:.3f}"),
        ):
            yield from self._series(name, sort, text, {"": value})

    def _by(self, label: str, name: str, sort: str, text: str, values: Dict[str, Any]) -> Iterator[str]:
        return self._series(name, sort, text, {f'{label}="{_escaped(key)}"': value for key, value in values.items()})

    def _series(self, name: str, sort: str, text: str, values: Dict[str, Any]) -> Iterator[str]:
        """The series of a name. `values` has each by its label."""
        yield f"# HELP sundial_{name} {text}\n# TYPE sundial_{name} {sort}\n"
        fabric = "" if self.fabric is None else f'fabric="{_escaped(self.fabric)}"'
        for label, value in values.items():
            labels = ",".join(filter(None, (fabric, label)))
            yield f"sundial_{name}{{{labels}}} {value}\n" if labels else f"sundial_{name} {value}\n"


def _seconds(values: Dict[str, int]) -> Dict[str, str]:
    return {key: f"{value / SECOND:.12g}" for key, value in values.items()}


def _escaped(value: str) -> str:
    return value.replace("\\", "\\\\").replace('"', '\\"').replace("\n", "\\n")
