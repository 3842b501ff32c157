"""Rows of the table that bench/all writes, and their Markdown."""
from dataclasses import dataclass
from typing import List, Optional

from .measuring import Comparison

HEADS = (
    "Work", "Size", "Beside", "`sundial`", "The other", "Ratio, median", "Ratio of the least",
    "Instructions an event", "Peak memory",
)


@dataclass(frozen=True)
class Row:
    """What one work took, and where there is one, what the other program took."""

    work: str
    size: str
    beside: str = "–"
    seconds: float = 0.0
    comparison: Optional[Comparison] = None
    events: Optional[int] = None
    """How many events, lines or messages the work has; times are then told for each of them."""
    instructions: Optional[float] = None
    memory: Optional[int] = None


def count(number: int) -> str:
    return f"{number:,}"


def time_text(seconds: float, events: Optional[int]) -> str:
    if events:
        nanoseconds = seconds * 1e9 / events
        return f"{nanoseconds:.0f} ns" if nanoseconds >= 20 else f"{nanoseconds:.1f} ns"
    if seconds >= 0.1:
        return f"{seconds:.2f} s"
    return f"{seconds * 1000:.1f} ms"


def memory_text(kibibytes: Optional[int]) -> str:
    if kibibytes is None:
        return "–"
    return f"{kibibytes / 1024:.0f} MiB" if kibibytes >= 10240 else f"{kibibytes / 1024:.1f} MiB"


def cells(row: Row) -> List[str]:
    compared = row.comparison
    ours = compared.ours if compared else row.seconds
    return [
        row.work, row.size, row.beside, time_text(ours, row.events),
        time_text(compared.theirs, row.events) if compared else "–",
        f"{compared.median:.2f}" if compared else "–",
        f"{compared.least:.2f}" if compared else "–",
        "–" if row.instructions is None else f"{row.instructions:,.0f}",
        memory_text(row.memory),
    ]


def table(rows: List[Row]) -> str:
    lines = ["| " + " | ".join(HEADS) + " |", "|---" * 3 + "|---:" * 6 + "|"]
    lines += ["| " + " | ".join(cells(row)) + " |" for row in rows]
    return "\n".join(lines)
