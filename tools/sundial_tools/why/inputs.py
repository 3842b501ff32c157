"""A file that is refused: docs/RULES.md, Topologies and Plans."""

from __future__ import annotations

from typing import Any, Iterator, List, Optional, Sequence, Tuple, Union

from sundial_tools.plan import is_of
from sundial_tools.topology import Topology
from sundial_tools.why.texts import JsonText, Text, TomlText, near

NAME = "1 to 64 ASCII letters, digits, `-`, `_` and `.`"
RANGES = {
    "version": "1 or 2", "ppm": "0 to 100000", "grain": "0 to 10^12", "period": "1 to 10^12", "tick": "1 to 10^12",
    "loss": "0 to 100", "depth": "1 to 64", "device": "at least one entry", "roots": "at least one name",
    "device.name": NAME, "link.name": NAME, "domain.name": NAME, "device.side": '"root" or "backup"',
    "device.ppm": "0 to 100000", "device.grain": "0 to 10^12", "link.ends": "two names", "link.min": "0 to 10^12",
    "link.max": "`min` to 10^12", "link.back_min": "0 to 10^12", "link.back_max": "`back_min` to 10^12",
    "wait_first": "0 to 2^60", "wait_second": "0 to 2^60", "wait": "0 to 2^60",
}
KINDS = {
    "device": "an array of tables, `[[device]]`", "link": "an array of tables, `[[link]]`",
    "domain": "an array of tables, `[[domain]]`", "roots": "an array of names in quotes",
    "link.ends": "an array of two names in quotes", "domain.devices": "an array of names in quotes",
    "domain.links": "an array of names in quotes", "rows": "an array of objects", "absent_devices": "an array of names",
    "absent_links": "an array of names",
}
LIMITS = {"device": 4096, "link": 32768, "domain": 4096, "item": 262144}
_TEXTS = ("name", "side", "root", "parent", "backup", "link")
_NUMBERS = ("version", "ppm", "grain", "period", "tick", "loss", "depth", "min", "max", "wait")


def say_not_read(text: Text, kind: str, fault: Optional[Tuple[str, str]]) -> Iterator[str]:
    """Why a text is no TOML or no JSON. `fault` is where, and what."""
    if text.not_text is not None:
        yield f"{text.path}: byte {text.not_text + 1} is not UTF-8."
    elif text.has_mark and kind == "JSON":  # (that of a TOML text is passed over)
        yield f"{text.path} begins with a byte order mark. Save it as UTF-8 without one."
    elif fault is not None:
        yield f"{fault[0]}: {fault[1]}."
    else:
        yield f"{text.path} reads here. `sundial` takes {kind}: look for what the two readers take differently."


def topology_reason(words: Sequence[str], toml: TomlText) -> Iterator[str]:
    name, rest = words[0], list(words[1:])
    text = toml.text
    if name == "NotToml":
        yield from say_not_read(text, "TOML 1.1", (text.path, toml.fault) if toml.fault else None)
        if toml.fault is None and not text.bytes.strip():
            yield "The file is empty."
        yield "Change: what stands there. Names have quotes, an entry begins with `[[device]]`, a comment with `#`."
    elif name == "TooLong":
        yield f"{text.path} has more than 2^26 bytes. Change: cut the network into several (docs/SCALE.md)."
    elif name == "Limit":
        yield f"There are more than {LIMITS.get(rest[0], 0)} of {'the things that domains list' if rest[0] == 'item' else rest[0]}."
        yield "Change: cut the network into several (docs/SCALE.md)."
    else:
        key, entry = rest[0], int(rest[1])
        line = toml.line(key, entry)
        where = f"{text.path}, line {line}" if line else text.path
        yield from _fault(name, key, where, _entry(toml, key, entry), toml.value(key, entry), _names_for(key, toml))


def plan_reason(words: Sequence[str], said: JsonText, topology: Optional[Topology]) -> Iterator[str]:
    name, rest = words[0], list(words[1:])
    text = said.text
    if name == "NotJson":
        fault = (text.place(said.fault[1]), said.fault[0]) if said.fault else None
        yield from say_not_read(text, "JSON", fault)
        if not text.bytes.strip():
            yield "The file is empty: look at the status of the `sundial plan` that wrote it."
        elif text.text.startswith(("refused", "input", "usage")):
            yield f"It holds a line that `sundial` printed in place of a plan: {text.text.splitlines()[0]}"
        yield "Change: give it the text that `sundial plan` printed with status 0."
    elif name == "TooLong":
        yield f"{text.path} has more than 2^26 bytes."
    elif name == "Version":
        yield f"{text.path} is a plan of version {rest[0]}. Change: make it again; only version 1 is known."
    elif rest[0] in ("plan", "absent") and rest[1] == "0":
        yield f'{text.path} is JSON, and no object. Change: a plan is {{"version":1, ..}}, an absent text {{"absent_devices":[], "absent_links":[]}}.'
    else:
        key, entry = rest[0], int(rest[1])
        names: List[str] = []
        if name == "UnknownName" and topology is not None and not is_of(said.tree, topology):
            yield f"{text.path} is a plan of another topology: most of its devices are not in this one."
        if topology is not None:
            is_link = key.endswith("link") or key.endswith("links")
            names = list(topology.link_numbers if is_link else topology.device_numbers)
        what = f" of row {entry}{_of(said.value('rows.device', entry))}" if entry else ""
        yield from _fault(name, key, said.place(key, entry), what, said.value(key, entry), names)


def _of(name: Any) -> str:
    return f", that of {name}" if isinstance(name, str) else ""


def _entry(toml: TomlText, key: str, entry: int) -> str:
    """Which entry it is, by number and by name."""
    if not entry:
        return ""
    kind = key.partition(".")[0]
    name = toml.value(f"{kind}.name", entry)
    return f" of {kind} {entry}" + (f", {name}" if isinstance(name, str) else "")


def _names_for(key: str, toml: TomlText) -> List[str]:
    return toml.names("link" if key == "domain.links" else "device")


def _fault(name: str, key: str, where: str, what: str, value: Any, names: Sequence[str]) -> Iterator[str]:
    short = key.rpartition(".")[2]
    if name == "Missing":
        yield f"{where}: there is no `{short}`{what}."
        yield f"Change: add `{short}`{_should(key)}."
    elif name == "WrongKind":
        inside = isinstance(value, list) and key in KINDS
        yield f"{where}: `{short}`{what} {'has another element in' if inside else 'is'} {_kind(value)}, and has to be {_wanted(key)}."
        yield "Change: whole numbers have no quotes and no point; names have quotes."
    elif name == "Range":
        yield f"{where}: `{short}`{what} is {_shown(value)}. It has to be {RANGES.get(key, 'in range')}."
        yield "Change: a value in that range."
    elif name == "UnknownName":
        yield from _unknown(where, short, what, value, names)
    elif name == "TwiceNamed":
        yield f"{where}: {_twice(value)} stands twice{what and f', the second time in `{short}`{what}'}."
        yield "Change: rename one of them, or remove the repeat."
    elif name == "SelfLink":
        yield f"{where}: both ends{what} are {_shown(value[0] if isinstance(value, list) and value else value)}."
        yield "Change: the two ends of a link are two devices."
    else:
        yield f"{where}: {name}."


def _unknown(where: str, short: str, what: str, value: Any, names: Sequence[str]) -> Iterator[str]:
    given = [it for it in (value if isinstance(value, list) else [value]) if isinstance(it, str)]
    wrong = next((it for it in given if it not in names), given[0] if given else str(value))
    kind = "link" if short.startswith(("link", "backup_link", "absent_link")) else "device"
    yield f"{where}: `{short}`{what} has {wrong!r}, and there is no {kind} of that name."
    nearest = near(wrong, names)
    yield f"Change: did you mean {nearest!r}?" if nearest else "Change: names count capital letters; the topology lists them."


def _twice(value: Any) -> str:
    rows = value if isinstance(value, list) else [value]
    found: Union[str, None] = next((it for at, it in enumerate(rows) if it in rows[:at]), None)
    return repr(found if found is not None else value)


def _should(key: str) -> str:
    return f", {RANGES[key]}" if key in RANGES else f", {KINDS[key]}" if key in KINDS else ""


def _wanted(key: str) -> str:
    if key in KINDS:
        return KINDS[key]
    short = key.rpartition(".")[2]
    return "a whole number" if short.startswith(_NUMBERS) or short.endswith(("min", "max")) else "a name in quotes"


def _kind(value: Any) -> str:
    kinds = {bool: "true or false", int: "a number", float: "a number with a point", str: "a text in quotes", list: "an array", dict: "a table"}
    return f"{kinds.get(type(value), 'something else')} ({_shown(value)})"


def _shown(value: Any) -> str:
    text = "nothing" if value is None else repr(value) if isinstance(value, str) else str(value)
    return text if len(text) <= 60 else text[:57] + "..."
