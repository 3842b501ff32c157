"""Standard input as a file: for a text that is read twice, or that `sundial` reads too."""

from __future__ import annotations

import argparse
import contextlib
import os
import shutil
import sys
import tempfile
from typing import Iterator, List, Sequence

from sundial_tools.errors import ToolError, decoded

NAME = "standard input"


@contextlib.contextmanager
def as_files(options: argparse.Namespace, *names: str, streams: Sequence[str] = ()) -> Iterator[None]:
    """Within the block, these options name a file with what standard input brings where they said `-`.

    An option is a path, several, or none. Those of `streams` may say `-` too, and stay as they are.
    """
    said = [path for name in (*names, *streams) for path in _paths(getattr(options, name, None))]
    if said.count("-") > 1:
        raise ToolError("only one file can be -, which is standard input")
    if not any("-" in _paths(getattr(options, name, None)) for name in names):
        yield
        return
    with tempfile.TemporaryDirectory() as folder:
        kept = os.path.join(folder, NAME)
        with open(kept, "wb") as file:
            shutil.copyfileobj(sys.stdin.buffer, file)
        for name in names:
            value = getattr(options, name, None)
            paths = [kept if path == "-" else path for path in _paths(value)]
            if paths:
                setattr(options, name, paths if isinstance(value, list) else paths[0])
        try:
            yield
        except ToolError as fault:
            if fault.source != kept:
                raise
            raise ToolError(fault.reason, NAME, fault.line) from None


def _paths(value: object) -> List[str]:
    # (an option of another command of the tool may have the name of a text, and be a number)
    return value if isinstance(value, list) else [value] if isinstance(value, str) else []


def read_lines(path: str) -> Iterator[str]:
    """The lines of a file with their ends, or of standard input for `-`. A line that is not UTF-8 is told with its place."""
    with open(sys.stdin.fileno() if path == "-" else path, "rb", closefd=path != "-") as file:
        for number, line in enumerate(file, 1):
            yield decoded(line, NAME if path == "-" else path, number)


def shown(path: str) -> str:
    """The path for people: a kept standard input is called that."""
    return NAME if os.path.basename(path) == NAME else path
