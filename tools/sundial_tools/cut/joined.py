"""From the lines of the replays of parts to those of the whole schedule."""

from __future__ import annotations

from typing import Iterable, Iterator, List, Optional, Set, Tuple

from sundial_tools.cut.parts import Row

DONE, REFUSED, BROKEN = 0, 3, 7
AT = {"report": 1, "broken": 1, "alarm": 1, "input": 2}


class Joined:
    """Takes the lines of each part in turn. `status` is that of the whole so far.

    A premise that broke is named once. A line of an opening is none of the whole: a report is asked for there anew, and what
    breaks there follows from what broke before. `left_out` has what is no report.
    """

    def __init__(self) -> None:
        self.status = DONE
        self.left_out: List[str] = []
        self._named: Set[str] = set()
        self._lines = self._reports = 0
        self._over = False

    def lines(self, row: Row, told: Iterable[str]) -> Iterator[str]:
        """The lines of the whole, of those that a part printed, without their newlines."""
        if self._over:
            return
        self._lines += row.lines
        for line in told:
            words = line.split(" ")
            if words[0] == "done":
                continue
            if words[0] not in AT or (words[0] == "input" and words[1] != "schedule"):
                self.status, self._over = 1 if words[0] == "refused" else REFUSED, True
                yield line
                return
            text = self._counted(words, row)
            if text is not None:
                yield text
            if self._over:
                return

    def end(self) -> Iterator[str]:
        if not self._over:
            yield f"done {self._lines} {self._reports}"

    def _counted(self, words: List[str], row: Row) -> Optional[str]:
        """The line with the number and the times of the whole, where it is one of the whole. What follows from it is kept."""
        at, kind = AT[words[0]], words[0]
        number = int(words[at]) - row.opening
        words[at] = str(row.first_line + number - 1)
        if number < 1 and kind != "input":
            if kind != "report":
                self.left_out.append(" ".join(words))
            return None
        if kind == "report":
            words[3] = str(int(words[3]) + row.moved)
            self._reports += 1
        elif kind == "alarm" and words[2] == "interval":
            words[4] = str(int(words[4]) + row.moved)
        elif kind == "broken" and words[2] in self._named:
            return None
        if kind == "broken":
            self._named.add(words[2])
        self._over = kind == "input"
        self.status = REFUSED if self._over else BROKEN if kind != "report" else self.status
        return " ".join(words)


def joined(parts: Iterable[Tuple[Row, Iterable[str]]]) -> Tuple[int, List[str]]:
    """Status and lines of the whole."""
    whole = Joined()
    lines: List[str] = []
    for row, told in parts:
        lines += whole.lines(row, told)
    lines += whole.end()
    return whole.status, lines
