"""The words of sundial-watch report: a window of time out of the kept parts, as files, a page and words."""

from __future__ import annotations

import argparse
import os
from datetime import datetime, timedelta, timezone
from typing import Callable, Iterator, List

from sundial_tools.cut.parts import plans_of
from sundial_tools.errors import ToolError
from sundial_tools.outputs import parse_line
from sundial_tools.plan import read_plan
from sundial_tools.report.main import main as report_main
from sundial_tools.safe_write import whole_output
from sundial_tools.times import picoseconds
from sundial_tools.topology import read_topology, sundial_program
from sundial_tools.watch.window import Kept, Window
from sundial_tools.whatif.program import replay
from sundial_tools.why.main import Why

EPOCH = datetime(1970, 1, 1, tzinfo=timezone.utc)
MICROSECOND = 10**6
# Of the kinds of lines that are told by the thousand.
USUAL = ("report", "done")


Moment = Callable[[int], int]


def main(words: List[str]) -> int:
    said = _parser().parse_args(words)
    program = sundial_program()
    if not program:
        raise ToolError("sundial-watch report needs sundial on the path, or the variable SUNDIAL")
    kept = Kept(said.state)
    folder = _Folder(said.output, kept)
    topology = read_topology(folder.topology)
    plans = [read_plan(path, topology) for path in folder.plans]
    since, until = (None if it is None else it(kept.origin) for it in (said.since, said.until))
    window = Window(kept, topology, plans, since, until, folder.file("schedule.txt"))
    files = [folder.topology, *plans_of(folder.plans, window.epoch, window.copies)]
    status = replay(program, [*files, folder.file("schedule.txt")], folder.file("lines.txt"))
    report_main([*files, "--replay", folder.file("schedule.txt"), folder.file("lines.txt"), "-o", folder.file("page.html")])
    lines = list(_lines(window, folder.file("lines.txt"), Why(files[0], [*files[1:], folder.file("schedule.txt")], None), said.reports))
    with whole_output(folder.file("why.txt")) as text:
        text.writelines(line + "\n" for line in lines)
    print("\n".join(lines))
    return status


class _Folder:
    """The folder of the window. It gets the topology and the plans that the state was begun with."""

    def __init__(self, path: str, kept: Kept) -> None:
        self._path = path
        os.makedirs(path, exist_ok=True)
        self.topology = self._write("topology.toml", kept.settings["topology"])
        self.plans = [self._write(f"plan-{place}.json", text) for place, text in enumerate(kept.plans, 1)]

    def file(self, name: str) -> str:
        return os.path.join(self._path, name)

    def _write(self, name: str, content: str) -> str:
        with whole_output(self.file(name)) as text:
            text.write(content)
        return self.file(name)


def _lines(window: Window, told: str, why: Why, with_reports: bool) -> Iterator[str]:
    """What the window has, and each line in words."""
    row = window.row
    behind = row.first_line - row.opening - 1
    yield f"{row.opening + row.lines} lines, from {window.first_ref} to {window.last_ref} ps of the reference. Plans from {window.epoch} on."
    yield f"Line N of schedule.txt is line N + {behind} of the whole." if behind >= 0 else f"Line N of schedule.txt is line N - {-behind} of the whole."
    count = 0
    with open(told, encoding="utf-8") as file:
        for text in file:
            line = parse_line(text.rstrip("\n"))
            if line is None or (line.kind in USUAL and not (with_reports and line.kind == "report")):
                continue
            count += line.kind != "report"
            yield text.rstrip("\n")
            yield from (f"    {words}" for words in why.say(line))
    for one in window.passed_over:
        count += 1
        yield f"passed over {one.log}:{one.line}: {one.reason}"
    if not count:
        yield "No premise broke, no alarm came, and no line was passed over."


def moment(word: str) -> Moment:
    """A reference of the schedule, as 12.5s, or a date, as 2026-11-30T14:05:00Z. Answers it by the origin of the schedule."""
    reference = picoseconds(word)
    if reference is not None and (reference == 0 or not word.isdigit()):
        said = reference
        return lambda origin: said
    try:
        date = datetime.fromisoformat(word)
    except ValueError:
        raise argparse.ArgumentTypeError(f"{word!r} is neither a time with a unit, as 12.5s, nor a date, as 2026-11-30T14:05:00Z") from None
    if date.tzinfo is None:
        date = date.replace(tzinfo=timezone.utc)
    since_1970 = (date - EPOCH) // timedelta(microseconds=1) * MICROSECOND
    return lambda origin: since_1970 - origin


def _parser() -> argparse.ArgumentParser:
    parser = argparse.ArgumentParser(
        prog="sundial-watch report",
        description="Replays a window of time out of the parts that a watch has kept, and says each of its lines in words.",
        epilog="The watch may go on meanwhile. docs/WATCH.md says what the folder has.",
    )
    parser.add_argument("state", metavar="STATE", help="the state of the watch")
    parser.add_argument("--from", dest="since", type=moment, metavar="TIME", help="a reference, as `ref` of a line that was told, with a unit; or a date in UTC, where the logs count from 1970 (default: as far as the parts go back)")
    parser.add_argument("--to", dest="until", type=moment, metavar="TIME", help="the same (default: as far as was told)")
    parser.add_argument("--reports", action="store_true", help="say the reports in words, too")
    parser.add_argument("--output", "-o", required=True, metavar="DIRECTORY", help="where the schedule, its lines, the page and the words go")
    return parser
