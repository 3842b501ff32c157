"""The lines that `sundial` and `sundialctl` print: docs/RULES.md, docs/REPLAY.md, docs/CONDITIONS.md, docs/DRILL.md."""

from __future__ import annotations

import re
from typing import Any, Callable, Dict, Iterable, Iterator, List, NamedTuple, Optional, Tuple

from sundial_tools.errors import ToolError
from sundial_tools.topology import NAME

# (a carriage return is none: an output that went through another system is not what was printed)
TEXT = re.compile(r"[ -~]+")
PREMISES = ("start", "drift", "delay", "tick", "loss", "domain", "renew")
VERDICTS = ("inside", "outside")
# In what a schedule and an opening differ (man/sundialctl.1), each with the kind of thing whose number stands behind it.
FACTS: Dict[str, str] = {
    "network": "", "window": "", "time": "", "plan": "", "end": "", "messages": "", "opening-sends": "", "message": "message",
    "up": "device", "device": "device", "link": "link", "counter": "device", "duty": "device", "given": "device",
    "mode": "device", "sealed": "device", "rates": "device", "stamp": "device", "last": "device", "sent": "device",
    "estimate": "device", "broken": "", "drift": "device", "tick": "device", "awaited": "device", "untouched": "device",
    "failed-device": "device", "failed-link": "link",
}
# (what is printed is of at most 128 bits)
NUMBER = re.compile(r"0|[1-9][0-9]{0,39}")


class OutputLine(NamedTuple):
    """One printed line: its kind and its fields by name. `line` is the N of the schedule or exchanges."""

    kind: str
    fields: Dict[str, Any]


# Of each sort of field: how it is written, and what is made of it. `d` is a domain, or one thing of it; `+` is one or more names.
_SORTS: Dict[str, Tuple[str, Callable[[str], object]]] = {
    "n": (NUMBER.pattern, int), "s": (NAME.pattern, str), "p": ("|".join(PREMISES), str), "v": ("|".join(VERDICTS), str),
    "d": (f"(?:listed|device|link) {NAME.pattern}", lambda text: dict(zip(("kind", "name"), text.split(" ")))),
    "+": (f"{NAME.pattern}(?: {NAME.pattern})*", lambda text: text.split(" ")), "r": ("[ -~]*", str),
}


class _Form:
    """A form of lines, of words that are fixed and of fields, each as its sort and its name: `report n:line`."""

    def __init__(self, kind: str, text: str, fixed: Dict[str, Any]) -> None:
        fields = [word.partition(":") for word in text.split(" ") if ":" in word]
        self._names = [name for _, _, name in fields]
        self._made_of = [_SORTS[sort][1] for sort, _, _ in fields]
        self._pattern = re.compile(" ".join(f"({_SORTS[word[0]][0]})" if ":" in word else re.escape(word) for word in text.split(" ")))
        self._kind, self._fixed = kind, fixed

    def line(self, text: str) -> Optional[OutputLine]:
        found = self._pattern.fullmatch(text)
        if found is None:
            return None
        return OutputLine(self._kind, {**self._fixed, **{name: made(said) for name, made, said in zip(self._names, self._made_of, found.groups())}})


def _forms() -> Dict[str, List[_Form]]:
    """The forms of lines by their first words. The kind of a line is its first word, and of some the word that says which."""
    forms: Dict[str, List[_Form]] = {}
    for kind, text in (
        ("report", "report n:line s:device n:clock n:eps"),
        ("broken", "broken n:line p:premise"),
        ("alarm loop", "alarm n:line loop s:device"),
        ("alarm roots", "alarm n:line roots s:device s:other"),
        ("alarm interval", "alarm n:line interval s:device n:ref"),
        ("ended", "ended n:line n:begin"),
        ("disorder", "disorder n:line n:begin"),
        ("begin", "begin n:line s:device n:stamp"),
        ("waits", "waits n:begun n:ended n:disorders"),
        ("done", "done n:first n:second"),
        ("link", "link s:link n:min n:max n:count v:verdict"),
        ("bound", "bound d:domain s:device n:eps"),
        ("nobound", "nobound d:domain s:device"),
        ("nobound", "nobound d:domain s:device n:calm"),
        ("bounds", "bounds d:domain s:device n:drill n:tight n:calm"),
        ("agree", "agree n:lines n:opening"),
        ("accepted", "accepted n:devices n:links n:domains"),
        ("case", "case n:events n:reports n:eps n:broken n:alarms"),
        ("refused structure", "refused plan n:plan structure n:rule device s:device"),
        ("refused ancestor", "refused plan n:plan ancestor device s:device"),
        ("refused timing", "refused plan n:plan timing n:rule n:left n:right"),
        ("refused root", "refused plan n:plan root d:domain at d:at"),
        ("refused loop", "refused plan n:plan loop d:domain cycle +:cycle"),
        ("refused domain", "refused plan n:plan domain d:domain device s:device"),
        ("refused reach", "refused plan n:plan reach d:domain chain +:chain"),
        ("impossible candidates", "impossible candidates n:count"),
        ("impossible timing", "impossible timing"),
        ("impossible shared", "impossible shared s:listed"),
        ("impossible apart", "impossible apart s:device"),
        ("impossible deep", "impossible deep s:candidate s:device n:hops n:depth"),
        ("impossible few", "impossible few n:links n:bridges n:devices n:needed"),
        ("impossible nocycle", "impossible nocycle"),
        ("impossible blocks", "impossible blocks"),
        ("impossible orphans", "impossible orphans"),
        ("impossible orphans", "impossible orphans +:devices"),
        ("open", "open"),
        ("input topology", "input topology r:reason"),
        ("input plan", "input plan n:plan r:reason"),
        ("input absent", "input absent r:reason"),
        *((f"input {what}", f"input {what} n:line r:reason") for what in ("schedule", "opening", "log", "feed", "exchanges")),
    ):
        forms.setdefault(text.partition(" ")[0], []).append(_Form(kind, text, {}))
    forms["differ"] = [
        _Form("differ", f"differ {fact}" + (" n:number" if thing else ""), {"fact": fact, **({"thing": thing} if thing else {})})
        for fact, thing in FACTS.items()
    ]
    return forms


_FORMS = _forms()


def parse_line(text: str) -> Optional[OutputLine]:
    """The printed line without its newline, or None where it is of no form."""
    if text.startswith("usage: ") and TEXT.fullmatch(text):
        return OutputLine("usage", {"text": text})
    return next(filter(None, (form.line(text) for form in _FORMS.get(text.partition(" ")[0], ()))), None)


def read_output(lines: Iterable[str], source: Optional[str] = None) -> Iterator[OutputLine]:
    """The printed lines one after the other. Raises ToolError at a line of no form, or one that is cut short."""
    for number, line in enumerate(lines, 1):
        if not line.endswith("\n"):
            raise ToolError("the output is cut short: its last line has no newline", source, number)
        parsed = parse_line(line[:-1])
        if parsed is None:
            raise ToolError(f"no line that sundial prints: {line[:-1][:80]!r}", source, number)
        yield parsed


class NotComputed(Exception):
    """The line with which a command says why it computed nothing: its plan or an input was refused."""

    def __init__(self, line: OutputLine, text: str) -> None:
        super().__init__(text)
        self.line, self.text = line, text


def read_numbers(lines: Iterable[str], what: str, has_number: Callable[[OutputLine], bool], source: str) -> Iterator[Tuple[int, OutputLine]]:
    """The lines of a drill or of bounds, and last the line `done`, each with its number. `has_number` says what else stands there."""
    number, line = 0, None
    for number, text in enumerate(lines, 1):
        if not text.endswith("\n"):
            raise ToolError("it is cut short: its last line has no newline", source, number)
        if line is not None and line.kind == "done":
            raise ToolError(f"a line after the last one of {what}", source, number)
        line = parse_line(text[:-1])
        if line is not None and line.kind.split(" ")[0] in ("refused", "input") and number == 1:
            raise NotComputed(line, text[:-1])
        if line is None or not (line.kind == "done" or has_number(line)):
            raise ToolError(f"no line of {what}: {text[:80].strip()!r}", source, number)
        yield number, line
    if line is None or line.kind != "done":
        raise ToolError("it is cut short: it has no line done", source, number or None)
