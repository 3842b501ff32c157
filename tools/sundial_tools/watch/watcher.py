"""Watches logs that grow: record, replay and lines as one pipeline, that goes on where it was stopped."""

from __future__ import annotations

import contextlib
import fcntl
import heapq
import itertools
import json
import os
import threading
import time
from functools import partial
from typing import Any, Callable, Dict, Iterator, List, NamedTuple, Optional, Sequence

from sundial_tools.cut.cutter import lines_before
from sundial_tools.cut.opening import Opening, opening_of_state
from sundial_tools.cut.parts import plans_of
from sundial_tools.errors import ToolError
from sundial_tools.fleet.device import ACTING
from sundial_tools.outputs import parse_line
from sundial_tools.plan import Plan
from sundial_tools.record.events import NONE, NO_STAMP, LogEvent
from sundial_tools.record.fleet import Refusal
from sundial_tools.record.merge import Merge
from sundial_tools.record.recorder import MOST_EVENTS, origin_before
from sundial_tools.schedule import Event, event_line, parse_event
from sundial_tools.topology import Topology
from sundial_tools.watch.feed import Feed, Hooks
from sundial_tools.watch.journal import OWN, Place, prefix_of, read_prefix
from sundial_tools.watch.metrics import SECOND, Metrics
from sundial_tools.watch.replaying import Replaying
from sundial_tools.watch.state import PART, SETTINGS, judged, read_state, write_state
from sundial_tools.watch.tail import Bad, Bounds, Said, Tail

MOST_REFS = 1 << 16
SECONDS_OF_A_START = 5.0
# So much is read of all logs in a step, and so much of each at least.
BYTES_OF_A_STEP, BYTES_OF_A_LOG = 1 << 20, 1 << 12
# Where so many events of all logs wait, a log is read no further than a part of the horizon ahead of those that have more.
MOST_WAITING, STEPS = 1 << 16, 16


class Options(NamedTuple):
    """`replay` is the program with its word. Times are picoseconds of the references."""

    topology: str
    plans: List[str]
    logs: List[str]
    state: str
    replay: List[str]
    origin: Optional[int]
    from_life: bool
    horizon: int
    jump: int
    ask: Optional[int]
    every: int
    keep: int
    follow: Callable[[str], None]
    say: Callable[[str], None]


class Watch(Hooks):
    """`step` reads what came and tells it."""

    def __init__(self, topology: Topology, plans: Sequence[Plan], options: Options) -> None:
        self._topology, self._plans, self._options = topology, plans, options
        self.metrics = Metrics(topology)
        # Something other than a report was told since it was last looked at.
        self.has_news = self._has_begun = False
        self._lock = threading.Lock()
        self._lines_before = lines_before(topology)
        self._feed = Feed(topology, plans, options.origin, options.from_life, self)
        self._journal: List[str] = []
        self._fed: List[str] = []
        self._refs: Dict[int, int] = {}
        self._asked: Dict[int, int] = {}
        self._prefix, self._restoring = OWN, False
        self._part, self._first_line, self._opening = 1, 1, None  # type: int, int, Optional[Opening]
        self._opening_lines = self._skip = self._passed = self._told_line = 0
        self._greatest: Optional[int] = None
        self._files: List[int] = []
        self._tails: List[Tail] = []
        os.makedirs(options.state, exist_ok=True)
        self._held = os.open(self._file("lock"), os.O_RDWR | os.O_CREAT, 0o600)
        try:
            self._go_on()
        except BaseException:
            self._close()
            raise

    def _go_on(self) -> None:
        """Takes up what earlier runs left."""
        options, topology = self._options, self._topology
        self._hold()
        most = max(BYTES_OF_A_LOG, BYTES_OF_A_STEP // len(options.logs))
        self._tails = [
            Tail(path, topology, self._file(f"spool-{number}"), most, Said(partial(self._say_of, path), partial(self._log_begins, number)))
            for number, path in enumerate(options.logs)
        ]
        for number, file in self._settings["files"].items():
            self._tails[int(number)].move_to(Place(file), None)
        with judged(options.state):
            self._resume()
        self._begin()
        # When something came last; and whether all logs were read then as far as they went.
        self._fresh, self._is_judged = time.monotonic() - max(0.0, time.time() - os.fstat(self._files[0]).st_mtime), False
        with judged(options.state):
            self._restore()
        self._greatest = max((tail.told for tail in self._tails if tail.told is not None), default=None)

    def _log_begins(self, number: int, file: int) -> None:
        """A log is read for the first time. Where it is rotated before anything of it is told, its inode says where it began."""
        self._settings["files"][str(number)] = file
        self._has_begun = True

    def _say_of(self, path: str, words: str) -> None:
        self._options.say(f"{path}: {words}")

    # One step

    def step(self, is_last: bool = False) -> bool:
        """Reads on, and tells what can be told. `is_last`: what was read is told, though earlier events may come.

        Answers whether anything came.
        """
        self._replaying.judge()
        # (what was written before the latest line that was known is read now)
        known, came = self._greatest or 0, False
        fronts = heapq.nlargest(2, (tail.front for tail in self._tails if tail.front is not None))
        # (of those that are held the one that is furthest ahead is judged when the others have come as far)
        least = min((tail.held for tail in self._tails if tail.held is not None), default=0)
        behind = min((tail.last or 0 for tail in self._tails if not tail.is_caught_up and tail.held is None), default=None)
        for number, tail in enumerate(self._tails):
            is_judged = self._is_judged and (tail.held or least) <= least
            bad, some = tail.more(Bounds(self._feed.last, self._limit(tail, fronts), is_judged, self._is_far(tail, behind)))
            came = came or some
            for one in bad:
                self._pass_over(number, one)
        if self._has_begun:
            self._write_settings()
            self._has_begun = False
        # (with no front each first line is held, so that the logs were not read as far as they go)
        was_judged, self._is_judged = self._is_judged, bool(fronts) and all(tail.is_caught_up or tail.held is not None for tail in self._tails)
        came = came or (self._is_judged and not was_judged and any(tail.held is not None for tail in self._tails))
        lasts = [tail.last for tail in self._tails if tail.last is not None]
        if lasts:
            if max(lasts) > known:
                self._fresh = time.monotonic()
            self._greatest = max(known, *lasts)
            self._tell_below(self._greatest + 1 if is_last else min(self._complete(tail, known) for tail in self._tails))
        self._flush()
        return came

    def _limit(self, tail: Tail, fronts: Sequence[int]) -> Optional[int]:
        """Up to which reference an event of this log is not ahead: the latest of all other logs, and what has passed since."""
        if len(self._tails) == 1:
            return None
        front = fronts[0] if fronts and fronts[0] != tail.front else fronts[1] if len(fronts) > 1 else None
        if front is None:
            return None if self._is_judged else -1
        return max(front, tail.last or 0) + self._options.jump + int((time.monotonic() - self._fresh) * SECOND)

    def _is_far(self, tail: Tail, behind: Optional[int]) -> bool:
        """Whether a log of which many events wait is ahead of another one that has more to be read, from `behind` on."""
        is_full = len(tail.waiting) * len(self._tails) > MOST_WAITING
        return is_full and behind is not None and (tail.last or 0) > behind + self._options.horizon // STEPS

    def _complete(self, tail: Tail, known: int) -> int:
        """Below which reference the log brings nothing more. One that is silent is waited for up to the horizon."""
        if tail.is_over and tail.held is None:
            return (self._greatest or 0) + 1
        last = -1 if tail.last is None else tail.last
        if tail.held is not None and not self._is_judged:
            return tail.held
        return max(last, known - self._options.horizon) if tail.at_end else last

    def end_now(self) -> None:
        """What the logs have by now is all that is read."""
        for tail in self._tails:
            tail.end_now()

    @property
    def ended(self) -> bool:
        return self._feed.ended

    def finish(self) -> int:
        """The recording has ended: the status of the replay."""
        status = self._replaying.finish()
        self._close()
        return status

    def pause(self) -> int:
        """All that was read is written. A later run goes on after it. Answers the status of the replay so far."""
        self._feed_replay(f"end {self._feed.schedule_last}\n")
        return self.finish()

    def stop(self) -> None:
        """Lets all go. What was written stays, and a later run goes on after it."""
        self._replaying.kill()
        self._close()

    def _close(self) -> None:
        for file in self._files:
            os.close(file)
        self._files = []
        for tail in self._tails:
            tail.close()
        os.close(self._held)

    def _tell_below(self, ref: int) -> None:
        batches = [
            [one.event for one in itertools.takewhile(lambda one: one.event.ref < ref, tail.waiting)] for tail in self._tails
        ]
        if not any(batches):
            return
        if self._feed.events == 0:
            self._set_origin(min(batch[0].ref for batch in batches if batch))
        self._place_of = {id(event): number for number, batch in enumerate(batches) for event in batch}
        Merge(batches, self._feed.fleet.message_of).drive(self._offer, self._refused)

    def _set_origin(self, first: int) -> None:
        if self._options.origin is None:
            self._feed.origin = origin_before(first)
        else:
            self._feed.origin = self._options.origin
        self._settings["origin"] = self._feed.origin
        self._write_settings()

    def _offer(self, event: LogEvent) -> Optional[Refusal]:
        number = self._place_of[id(event)]
        place = self._tails[number].waiting[0].place
        self._prefix = prefix_of(number, place, event.counter if event.word in ("start", "join") else None)
        try:
            refusal = self._feed.offer(event)
        except ToolError as fault:
            if fault.line is None:
                raise
            self._refused(event, Refusal(fault.reason))
            return None
        finally:
            self._prefix = OWN
        if refusal is None:
            self._taken(number)
            if event.word == "tick" and self._options.ask is not None:
                self._ask(event)
        return refusal

    def _refused(self, event: LogEvent, refusal: Refusal) -> None:
        number = self._place_of[id(event)]
        self._pass_over(number, Bad(self._tails[number].waiting[0].place, str(refusal)))
        self._taken(number)

    def _taken(self, number: int) -> None:
        for bad in self._tails[number].take().bad:
            self._pass_over(number, bad)

    def _ask(self, tick: LogEvent) -> None:
        """Asks a device that ticks, where its latest report is old."""
        asked = self._asked.get(tick.device)
        if asked is None or tick.ref - self._feed.origin - asked >= (self._options.ask or 0):
            self._feed.offer(LogEvent(
                "ask", tick.ref, tick.device, tick.counter, None, None, NONE, NONE, NO_STAMP, "", NONE, tick.source, tick.line
            ))

    # What the feed tells

    def is_due(self, line: int, ref: int) -> bool:
        return not self._restoring and line - self._first_line >= self._options.every

    def is_late(self, line: int) -> bool:
        return line - self._first_line >= min(2 * self._options.every, MOST_EVENTS // 4 * 3)

    def is_near(self, line: int) -> bool:
        return line - self._first_line >= self._options.every - self._lines_before

    def coming(self, event: Event) -> None:
        line = self._feed.fleet.line
        count = self._opening_lines + line - self._first_line + 1
        if count >= MOST_EVENTS:
            whys = "; ".join(f"{why} ({times} times)" for why, times in self._feed.fleet.cutter.refused.most_common(3))
            raise ToolError(f"part {self._part} has 2^26 events, which is as many as a replay takes, and no right cut came: {whys}")
        text = event_line(event)
        if not self._restoring:
            self._journal.append(f"{self._prefix} {text}")
        said = event if self._opening is None else self._opening.of(event)
        self._fed.append(text if said is event else event_line(said))
        self._refs[line] = event.ref
        if len(self._refs) > MOST_REFS:
            for old in list(itertools.islice(self._refs, MOST_REFS // 2)):
                del self._refs[old]
        if event.word == "ask" and event.device is not None:
            self._asked[event.device] = event.ref

    def found(self, event: Event) -> None:
        prefix, self._prefix = self._prefix, OWN
        self.coming(event)
        self._prefix = prefix

    def happened(self, done: str) -> None:
        self.metrics.happened(done)

    def cut(self, opening: Opening) -> None:
        """A part ends, and the next one begins with the opening."""
        self._flush()
        self._feed_replay(f"end {self._feed.schedule_last}\n")
        self._replaying.finish()
        self._part, self._first_line, self._opening = self._part + 1, self._feed.fleet.line, opening
        self._save()
        for file in self._files:
            os.close(file)
        self._files, self._skip, self._passed = [], 0, 0
        for name in os.listdir(self._options.state):
            found = PART.fullmatch(name)
            if found and int(found[1]) <= self._part - self._options.keep:
                os.unlink(self._file(name))
        self._begin()

    # Files

    def _file(self, name: str) -> str:
        return os.path.join(self._options.state, name)

    def _part_file(self, kind: str, part: Optional[int] = None) -> str:
        return self._file(f"part-{part or self._part:04}.{kind}")

    def _hold_state(self) -> None:
        """Where a watch was killed while it began a replay, that one holds the state until it is a program of its own."""
        end = time.monotonic() + SECONDS_OF_A_START
        while True:
            try:
                fcntl.flock(self._held, fcntl.LOCK_EX | fcntl.LOCK_NB)
                return
            except BlockingIOError:
                if time.monotonic() > end:
                    raise ToolError("another sundial-watch works there", self._options.state) from None
            time.sleep(0.05)

    def _hold(self) -> None:
        """Takes the state for this process alone, and compares the inputs with those of earlier runs."""
        self._hold_state()
        options = self._options
        said: Dict[str, Any] = {"logs": options.logs, "counters": "life" if options.from_life else "keep"}
        for key, path in [("topology", options.topology), *((f"plan {place}", it) for place, it in enumerate(options.plans, 1))]:
            with open(path, encoding="utf-8") as file:
                said[key] = file.read()
        self._settings, before = said, {}
        with contextlib.suppress(FileNotFoundError):
            before = read_state(self._file(SETTINGS))
        for key, value in said.items():
            # (plans that came since then are new ones behind those that were there)
            if before and before.get(key, value) != value:
                raise ToolError(f"{key} was another one when this state was begun", self._options.state)
        if any(key not in said for key in before if key not in ("origin", "files")):
            raise ToolError("a plan is missing with which this state was begun", self._options.state)
        if "origin" in before:
            self._feed.origin = said["origin"] = before["origin"]
        said["files"] = before.get("files", {})
        self._write_settings()

    def _write_settings(self) -> None:
        write_state(self._file(SETTINGS), self._settings)

    def _save(self) -> None:
        assert self._opening is not None
        write_state(self._part_file("start"), {
            "feed": self._feed.state(), "metrics": self.metrics.state(), "asked": self._asked, "first_line": self._first_line,
            "opening": self._opening.state(), "logs": [[it.done, it.told] for it in self._tails],
        })

    def _resume(self) -> None:
        """Takes up the part that was begun last."""
        found = [int(it[1]) for it in map(PART.fullmatch, os.listdir(self._options.state)) if it and it[2] == "start"]
        if not found:
            return
        self._part = max(found)
        kept = read_state(self._part_file("start"))
        self._feed.resume(kept["feed"])
        self.metrics.resume(kept["metrics"])
        self._asked = {int(device): ref for device, ref in kept["asked"].items()}
        self._first_line, self._opening = kept["first_line"], opening_of_state(kept["opening"])
        for tail, (place, ref) in zip(self._tails, kept["logs"]):
            tail.move_to(Place(*place), ref)

    def _begin(self) -> None:
        """Begins the replay of the part, and opens its files."""
        opening, options = self._opening, self._options
        plans = plans_of(options.plans, opening.epoch, opening.copies) if opening else options.plans
        self._files = [
            os.open(self._part_file(kind), os.O_RDWR | os.O_CREAT | os.O_APPEND, 0o666) for kind in ("journal", "told")
        ]
        self._files.append(os.open(self._part_file("txt"), os.O_WRONLY | os.O_CREAT | os.O_TRUNC, 0o666))
        events = opening.events if opening else []
        self._opening_lines = len(events)
        self._heard = 0
        self._replaying = Replaying([*options.replay, options.topology, *plans, "/dev/stdin"], self._heard_line)
        if events:
            self._feed_replay("".join(map(event_line, events)))

    def _restore(self) -> None:
        """Takes the events of the part that earlier runs told."""
        rows = [json.loads(line) for line in _whole_lines(self._files[1])]
        self._restoring = True
        told_passed = sum(row["kind"] == "passed over" for row in rows)
        self._skip = len(rows) - told_passed
        for row in rows:
            self.metrics.tell(row)
            self._told_line = row["line"] if row["kind"] == "report" else self._told_line
        passed = 0
        for text in _whole_lines(self._files[0]):
            prefix, _, said = text.partition(" ")
            number, place, raw = read_prefix(prefix)
            if said.startswith("!"):
                self._tails[number or 0].move_to(place, None)
                passed += 1
                if passed > told_passed:
                    self._tell(self._passing(number or 0, Bad(place, said[1:])))
            else:
                event = parse_event(said)
                self._feed.restore(event, raw)
                if number is not None:
                    self._tails[number].move_to(place, event.ref + self._feed.origin)
            if len(self._fed) > 4096:
                self._flush()
        self._passed = passed
        self._flush()
        self._restoring = False

    def _flush(self) -> None:
        """What is told comes into the journal before the replay knows of it."""
        if self._journal:
            _write(self._files[0], "".join(self._journal))
            self._journal = []
        if self._fed:
            text, self._fed = "".join(self._fed), []
            self._feed_replay(text)

    def _feed_replay(self, text: str) -> None:
        _write(self._files[2], text)
        self._replaying.feed(text)

    # What is told

    def _pass_over(self, number: int, bad: Bad) -> None:
        self._journal.append(f"{prefix_of(number, bad.place, None)} !{bad.reason}\n")
        self._flush()
        self._tell(self._passing(number, bad))

    def _passing(self, number: int, bad: Bad) -> Dict[str, Any]:
        return {"kind": "passed over", "log": self._options.logs[number], "line": bad.place.line, "reason": bad.reason}

    def _heard_line(self, text: str) -> None:
        """A line of the replay. Those that an earlier run told are passed over."""
        line = parse_line(text)
        if line is None or line.kind.startswith(("refused", "input")):
            raise ToolError(f"the replay says: {text}")
        if line.kind == "done":
            return
        number = line.fields["line"]
        in_opening = number <= self._opening_lines
        if in_opening and line.kind == "report":
            return  # (it was asked for there anew)
        whole = self._first_line + (0 if in_opening else number - self._opening_lines - 1)
        if whole >= self._feed.fleet.line:
            return  # (of an `end` that no log has)
        self._heard += 1
        if self._heard <= self._skip:
            return
        ref = self._refs.get(whole)
        row = {"kind": line.kind, **line.fields, "line": whole, "part": self._part}
        row["ref"] = line.fields["ref"] if line.kind == "alarm interval" else ref
        if in_opening:
            row["opening"] = True
        self._tell(row)
        if line.kind == "report":
            self._told_line = whole

    def _tell(self, row: Dict[str, Any]) -> None:
        text = json.dumps(row, separators=(",", ":"))
        with self._lock:
            _write(self._files[1], text + "\n")
            self.metrics.tell(row)
            self.has_news |= row["kind"] != "report"
            self._options.follow(text)

    def metrics_text(self) -> str:
        feed, fleet = self._feed, self._feed.fleet.fleet
        names = [device.name for device in self._topology.devices]
        greatest = self._greatest or 0
        with self._lock:
            return self.metrics.text({
                "told_ref": feed.schedule_last if feed.events else None, "events": feed.events, "part": self._part,
                "part_events": self._opening_lines + feed.fleet.line - self._first_line, "told_line": self._told_line,
                "epoch": fleet.in_force, "window": int(bool(fleet.staged)), "roots": [names[it] for it in self._topology.roots],
                "acting": [names[it] for it, state in fleet.up.items() if state.mode == ACTING],
                "failed": {"device": len(fleet.failed_devices), "link": len(fleet.failed_links)},
                "logs": {tail.path: greatest - tail.last if tail.last is not None else greatest for tail in self._tails},
                "lag": max(0, greatest - feed.last) if feed.last is not None else 0, "time": time.time(),
            })


def _whole_lines(file: int) -> Iterator[str]:
    """The lines of a file that was written to its end. A last line that is torn is taken away."""
    with os.fdopen(os.dup(file), "r", encoding="utf-8", newline="\n") as text:
        text.seek(0)
        whole = 0
        torn = False
        for line in text:
            if line.endswith("\n"):
                whole += len(line.encode("utf-8"))
                yield line[:-1]
            else:
                torn = True
    if torn:
        os.ftruncate(file, whole)


def _write(file: int, text: str) -> None:
    data = memoryview(text.encode("utf-8"))
    try:
        while data:
            data = data[os.write(file, data):]
    except OSError as fault:
        raise ToolError(fault.strerror or "cannot be written", "the state") from None
