"""Elements of HTML and SVG as text. Every value is escaped here, and nowhere else."""

from __future__ import annotations

import json
import pathlib
import re
from functools import cache
from html import escape
from string import Template
from typing import Dict, Iterable, List, Union

Value = Union[str, int, float, bool, None]
HERE = pathlib.Path(__file__).resolve().parent
EMPTY = frozenset(("meta", "br", "input", "link", "hr"))


class Raw(str):
    """Text that is markup already."""


def _attributes(values: "dict[str, Value]") -> str:
    parts: List[str] = []
    for name, value in values.items():
        if value is None or value is False:
            continue
        name = name.rstrip("_").replace("_", "-")
        parts.append(f" {name}" if value is True else f' {name}="{escape(_text(value))}"')
    return "".join(parts)


def _text(value: Value) -> str:
    if isinstance(value, float):
        return f"{value:.1f}".rstrip("0").rstrip(".")
    return str(value)


def element(tag: str, *content: Union[str, Iterable[str]], **attributes: Value) -> Raw:
    """An element. `class_` is the attribute class, and `data_device` the attribute data-device."""
    inner = "".join(_inner(part) for part in content)
    if tag in EMPTY:
        return Raw(f"<{tag}{_attributes(attributes)}>")
    return Raw(f"<{tag}{_attributes(attributes)}>{inner}</{tag}>")


def _inner(part: Union[str, Iterable[str]]) -> str:
    if isinstance(part, Raw):
        return part
    if isinstance(part, str):
        return escape(part)
    return "".join(_inner(piece) for piece in part)


def filled(template: str, **values: Union[str, Iterable[str]]) -> Raw:
    """A part of the page, by its template of templates.html."""
    return Raw(_templates()[template].substitute({key: _inner(value) for key, value in values.items()}))


@cache
def _templates() -> Dict[str, Template]:
    parts = re.split("^<!-- (.*) -->\n", (HERE / "templates.html").read_text(encoding="utf-8"), flags=re.MULTILINE)[1:]
    return {name: Template(text.strip()) for name, text in zip(parts[::2], parts[1::2])}


def title(text: str) -> Raw:
    """What a browser shows where the mouse rests."""
    return element("title", text)


def region(label: str, *content: Union[str, Iterable[str]], class_: str = "") -> Raw:
    """A part of the page that scrolls sideways, and that the keyboard reaches."""
    return element("div", *content, class_=f"scroll {class_}".strip(), role="region", aria_label=label, tabindex=0)


def folded(caption: str, *content: Union[str, Iterable[str]], is_open: bool = False, **more: Value) -> Raw:
    return element("details", element("summary", caption), *content, open=is_open, **more)


def as_json(value: object) -> Raw:
    """Data for the script, which ends no element."""
    return Raw(json.dumps(value, separators=(",", ":")).replace("<", "\\u003c"))


def joined(parts: Iterable[str]) -> Raw:
    """Parts of markup as one."""
    return Raw("".join(parts))
