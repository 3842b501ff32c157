"""The page: one file, with its style and script inside, that reads nothing else."""

from __future__ import annotations

import hashlib
from typing import List, Sequence, Tuple

from sundial_tools.inputs import shown
from sundial_tools.report.markup import HERE, Raw, element, filled, folded
from sundial_tools.report.tables import Cell, table


def sources_table(sources: Sequence[Tuple[str, str]], made: str) -> Raw:
    """The files that the page was made of: what each is, its name, its bytes, and the first digits of its SHA-256."""
    rows: List[List[Cell]] = []
    for what, path in sources:
        with open(path, "rb") as file:
            digest, size = hashlib.file_digest(file, "sha256").hexdigest(), file.tell()
        rows.append([what, shown(path), (f"{size:,}", size), digest[:16]])
    head = ("what", "file", "bytes", "SHA-256 begins with")
    return folded(f"Made of {len(sources)} files{made}", table("files", head, rows), class_="files")


def contents(links: Sequence[Tuple[str, str]]) -> Raw:
    """Links to the parts of the page."""
    items = [element("li", element("a", text, href=f"#{anchor}")) for anchor, text in links]
    return element("nav", element("ul", items), aria_label="Contents")


def page(heading: str, word: str, opening: Sequence[Raw], sections: Sequence[Raw]) -> str:
    style, script = (Raw((HERE / name).read_text(encoding="utf-8")) for name in ("style.css", "script.js"))
    return filled("page", word=word, heading=heading, style=style, opening=opening, sections=sections, script=script) + "\n"
