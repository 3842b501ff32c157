"""Files as they are, right or wrong, and where in them something stands."""

from __future__ import annotations

import difflib
import json
import re
import tomllib
from typing import Any, Dict, List, Optional, Sequence, Tuple

from sundial_tools.topology import open_bytes

MOST_BYTES = 2**26
_TABLE = re.compile(r"\s*\[")


class Text:
    """The bytes of a file, and the same as a text where they are UTF-8."""

    def __init__(self, path: str) -> None:
        self.path = path
        with open_bytes(path) as file:
            self.bytes = file.read(MOST_BYTES + 1)
        self.text = self.bytes.decode("utf-8", "replace")
        self.not_text = _first_bad_byte(self.bytes)

    @property
    def has_mark(self) -> bool:
        return self.bytes.startswith(b"\xef\xbb\xbf")

    def place(self, offset: int) -> str:
        """Line and column of a place in the text, from 1."""
        before = self.text[:offset]
        return f"{self.path}, line {before.count(chr(10)) + 1}, column {offset - (before.rfind(chr(10)) + 1) + 1}"


def _first_bad_byte(data: bytes) -> Optional[int]:
    try:
        data.decode("utf-8")
    except UnicodeDecodeError as fault:
        return fault.start
    return None


def is_plan(path: str) -> bool:
    """The file is a plan: its name ends in .json, or it begins with a brace."""
    with open(path, "rb") as file:
        return path.endswith(".json") or file.read(4096).lstrip(b"\xef\xbb\xbf \t\r\n").startswith(b"{")


def is_exchanges(path: str) -> bool:
    with open(path, "rb") as file:
        return file.read(9) == b"exchange "


def near(name: str, names: Sequence[str]) -> Optional[str]:
    """The name that is most like one that there is not."""
    same = [it for it in names if it.lower() == name.lower()]
    return next(iter(same or difflib.get_close_matches(name, names, 1, 0.5)), None)


class TomlText:
    """A topology as a tree, where it is TOML, and the lines of its keys."""

    def __init__(self, text: Text) -> None:
        self.text = text
        self.tree: Dict[str, Any] = {}
        self.fault: Optional[str] = None
        try:
            self.tree = tomllib.loads(text.text.removeprefix("\ufeff"))
        except (tomllib.TOMLDecodeError, RecursionError) as fault:
            self.fault = str(fault)

    def value(self, key: str, entry: int) -> Any:
        """What the text has for a key of an entry, or None."""
        kind, _, inner = key.partition(".")
        found = self.tree.get(kind)
        if not entry:
            return found
        if not isinstance(found, list) or entry > len(found):
            return None
        row = found[entry - 1]
        return row.get(inner) if inner and isinstance(row, dict) else row

    def names(self, kind: str) -> List[str]:
        rows = self.tree.get(kind)
        rows = rows if isinstance(rows, list) else []
        return [row["name"] for row in rows if isinstance(row, dict) and isinstance(row.get("name"), str)]

    def line(self, key: str, entry: int) -> Optional[int]:
        """The line of a key in its entry, or that where the entry begins."""
        kind, _, inner = key.partition(".")
        lines = self.text.text.splitlines()
        tables = [at for at, line in enumerate(lines) if _TABLE.match(line) and "=" not in line.partition("#")[0]]
        if not entry:
            return _line_of(lines, kind, 0, tables[0] if tables else len(lines))
        heads = [at for at in tables if re.match(rf"\s*\[\[\s*\"?{kind}\"?\s*\]\]", lines[at])]
        if len(heads) < entry:
            return None
        start = heads[entry - 1]
        end = next((at for at in tables if at > start), len(lines))
        return (_line_of(lines, inner, start + 1, end) if inner else None) or start + 1


def _line_of(lines: Sequence[str], key: str, start: int, end: int) -> Optional[int]:
    found = (at + 1 for at in range(start, end) if re.match(rf"\s*\"?{re.escape(key)}\"?\s*=", lines[at]))
    return next(found, None)


class JsonText:
    """A plan or an absent text as a tree, where it is JSON, and the places of its rows."""

    def __init__(self, text: Text) -> None:
        self.text = text
        self.tree: Any = None
        self.fault: Optional[Tuple[str, int]] = None
        try:
            self.tree = json.loads(text.text)
        except json.JSONDecodeError as fault:
            self.fault = (fault.msg, fault.pos)
        except RecursionError:
            self.fault = ("it nests too deep", 0)

    def value(self, key: str, entry: int) -> Any:
        first, _, inner = key.partition(".")
        found = self.tree.get(first) if isinstance(self.tree, dict) else None
        if not entry:
            return found
        if not isinstance(found, list) or entry > len(found):
            return None
        row = found[entry - 1]
        return row.get(inner) if inner and isinstance(row, dict) else row

    def numbers(self, key: str, known: Dict[str, int]) -> List[int]:
        """The numbers of the names of an array."""
        names = self.value(key, 0)
        return [known[name] for name in names if isinstance(name, str) and name in known] if isinstance(names, list) else []

    def place(self, key: str, entry: int) -> str:
        """Where a key stands: its line and column in the text."""
        first, _, inner = key.partition(".")
        found = re.search(rf'"{re.escape(first)}"\s*:\s*', self.text.text)
        if found is None:
            return self.text.path
        if not entry:
            return self.text.place(found.start())
        at = self._row(found.end(), entry)
        within = re.search(rf'"{re.escape(inner)}"\s*:', self.text.text[at:]) if inner and self.value(key, entry) is not None else None
        return self.text.place(at + (within.start() if within else 0))

    def _row(self, at: int, entry: int) -> int:
        """Where a row begins, in an array that begins at a place."""
        decoder, at = json.JSONDecoder(), at + 1
        for number in range(1, entry + 1):
            at += len(self.text.text[at:]) - len(self.text.text[at:].lstrip(" \t\r\n,"))
            if number == entry:
                return at
            try:
                _, at = decoder.raw_decode(self.text.text, at)
            except (json.JSONDecodeError, RecursionError):
                return at  # (there is no such row)
        return at
