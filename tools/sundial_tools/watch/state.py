"""The state of a watch: files of data, each with the version of their form."""

from __future__ import annotations

import contextlib
import json
import os
import re
from typing import Any, Dict, Iterator

from sundial_tools.errors import ToolError

VERSION = 2
SETTINGS = "settings.json"
PART = re.compile(r"part-(\d{4,})\.(start|journal|txt|told)")


def write_state(path: str, said: Dict[str, Any]) -> None:
    write_renamed(path, (json.dumps({"version": VERSION, **said}, indent=1) + "\n").encode())


def read_state(path: str) -> Dict[str, Any]:
    """What `write_state` wrote. Raises ToolError where another version did, or where it is none."""
    with open(path, "rb") as file:
        text = file.read()
    try:
        said = json.loads(text)
    except (ValueError, RecursionError):
        said = {}
    if not isinstance(said, dict) or said.pop("version", None) != VERSION:
        raise ToolError(f"the state is not of version {VERSION}, which this sundial-watch writes: begin a new state", path)
    return said


@contextlib.contextmanager
def judged(path: str) -> Iterator[None]:
    """Within the block, what a state has and no watch has written there is told as that."""
    try:
        yield
    except (KeyError, IndexError, TypeError, ValueError, AttributeError):
        raise ToolError("the state is not one that sundial-watch wrote: begin a new state", path) from None


def write_renamed(path: str, content: bytes) -> None:
    """Puts a file into its place at once: a reader sees the old one or the new one."""
    temporary = f"{path}.new"
    try:
        with open(temporary, "wb") as file:
            file.write(content)
        os.replace(temporary, path)
    except OSError as fault:
        raise ToolError(fault.strerror or "cannot be written", path) from None
