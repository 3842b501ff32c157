"""The panels of a replay over one time axis: tracks of devices, eps, and how far reports were off.

Each picture is as wide as its panel: it is drawn 1000 units wide and stretched. Text and marks stand beside it as HTML,
at a place that is a part of the whole (--x). So a script zooms all of them by two numbers, and none is needed to see all.
"""

from __future__ import annotations

import math
from typing import Dict, Iterable, List, Sequence, Tuple

from sundial_tools.report.markup import Raw, element, joined, title
from sundial_tools.report.replay import Mark
from sundial_tools.report.replay_view import WIDE, ReplayView, greatest
from sundial_tools.report.series import Interval, Report
from sundial_tools.report.tracks import MEANING, STATES, Span, Tracks
from sundial_tools.units import clear, count, human, round_steps, unit_of

TRACK, EPS, OFF = 20.0, 220.0, 120.0
# Height of a state within its track: from and to. Who reads no colours tells them by these.
SHAPES = {
    "acting": ((1.0, 19.0),), "primary": ((6.0, 14.0),), "backup": ((4.0, 8.0), (12.0, 16.0)), "waiting": ((9.0, 11.0),),
    "down": (),
}
SIGNS = {"fail": "\u00d7", "mend": "+", "join": "\u2191", "move": "\u25b8", "takeover": "\u25c6", "alarm": "!", "broken": "\u25b2",
         "disorder": "!", "stage": "\u258f", "commit": "\u25a0", "close": "\u2016"}
MOST_SIGNS, MOST_BANDS, MOST_SINGLE_TRACKS, MOST_SAID = 400, 200, 24, 6
STEPS = 500
OTHERS = 99
# Past this part of the time the text of a mark stands before it.
LAST_TICK = 0.9
# Into so many parts the time is divided where tracks are compared.
ALIKE = 200


def panels(view: ReplayView) -> Raw:
    """All panels. The script gives them zoom and a cursor."""
    rows = [axis(view, "top"), _broken_row(view), _plan_row(view), *_tracks(view)]
    if view.replay.peaks.of:
        rows.append(_eps(view))
    if view.reports:
        rows.append(_off(view))
    rows.append(axis(view, "bottom"))
    return element(
        "div", _bands(view), rows, element("div", class_="cursor", hidden=True), class_="panels",
        role="region", aria_label="Panels over the time from the first event. Plus and minus zoom, the arrows move, 0 shows all, and the arrows with Shift move a cursor", tabindex=0,
        data_first=view.first, data_last=view.last,
    )


def axis(view: ReplayView, where: str) -> Raw:
    ticks = [element("span", text, style=f"--x:{share:.5f}", class_="end" if share > LAST_TICK else None) for share, text in view.ticks()]
    return _row("axis " + where, element("span", "from the first event"), element("div", ticks, class_="ticks"))


def _row(kind: str, name: Raw, *strip: "str | Iterable[str]", **more: "str | int | None") -> Raw:
    return element("div", element("div", name, class_="name"), element("div", *strip, class_="strip"), class_=f"row {kind}", **more)


def _picture(height: float, label: str, *content: "str | Iterable[str]", class_: "str | None" = None) -> Raw:
    return element(
        "svg", *content, viewBox=f"0 0 {WIDE:.0f} {height:.0f}", preserveAspectRatio="none", role="img", aria_label=label,
        class_=class_,
    )


# Bands over all panels


def _bands(view: ReplayView) -> Raw:
    """Where a premise broke or an alarm was raised. From the first broken premise on nothing is promised."""
    begins = [view.share(mark.ref) for mark in view.replay.marks["broken"][:1]]
    void = [element("div", class_="band void", style=f"--x:{begin:.5f};--w:{1 - begin:.5f}") for begin in begins]
    places = {(mark.kind, round(view.share(mark.ref) * STEPS)): mark for mark in reversed(_wrong(view))}
    bands = [element("div", class_=f"band {it.kind}", style=f"--x:{view.share(it.ref):.5f}") for it in list(places.values())[:MOST_BANDS]]
    return element("div", void, bands, class_="bands", aria_hidden="true")


def _wrong(view: ReplayView) -> List[Mark]:
    """Broken premises and alarms."""
    return view.replay.marks["broken"] + [mark for mark in view.replay.marks["alarm"] if mark.kind == "alarm"]


def _broken_row(view: ReplayView) -> Raw:
    """What the bands are of."""
    marks = _wrong(view)
    label = f"{count(view.replay.mark_counts['broken'], 'broken premise')} and {count(sum(mark.kind == 'alarm' for mark in marks), 'alarm')}"
    return _marks_row(view, "track wrong", "broken, alarms", f"{label}. The table of what happened has them", marks[:MOST_BANDS])


def _marks_row(view: ReplayView, kind: str, name: str, label: str, marks: Sequence[Mark]) -> Raw:
    return _row(kind, element("b", name), _picture(TRACK, label), _signs(view, marks)) if marks else Raw("")


# Signs on tracks


def _signs(view: ReplayView, marks: Sequence[Mark]) -> Raw:
    """Signs that would stand on each other are one."""
    places: Dict[Tuple[str, int], List[Mark]] = {}
    for mark in marks:
        places.setdefault((mark.kind, round(view.share(mark.ref) * STEPS)), []).append(mark)
    return joined(
        element(
            "b", SIGNS[kind], class_=f"mark {kind}", style=f"--x:{view.share(found[0].ref):.5f}", title=_said(found),
            data_line=found[0].line, data_count=len(found),
        )
        for (kind, _), found in places.items()
    )


def _said(marks: Sequence[Mark]) -> str:
    first, last = marks[0], marks[-1]
    text = f"line {first.line} at {clear(first.ref)}: {first.text}"
    return text if len(marks) == 1 else f"{len(marks)} times, from {text}, to line {last.line} at {clear(last.ref)}: {last.text}"


def _plan_row(view: ReplayView) -> Raw:
    """Stages, commits and closings, and what is of no one device: links that fail or are mended."""
    marks = view.replay.marks["plan"] + [mark for mark in view.replay.marks["failure"] if mark.device is None]
    marks += [mark for mark in view.replay.marks["alarm"] if mark.kind == "disorder"]
    label = f"{count(view.replay.mark_counts['plan'], 'event')} of renewals, and links that failed or were mended"
    return _marks_row(view, "track plans", "plans, links", label, marks[:MOST_SIGNS])


# Tracks


def _tracks(view: ReplayView) -> List[Raw]:
    tracks = view.replay.tracks
    if tracks is None:
        return []
    marks: Dict[int, List[Mark]] = {}
    for mark in (mark for lane in ("failure", "move", "takeover", "alarm") for mark in view.replay.marks[lane]):
        if mark.device is not None and mark.kind != "disorder":
            marks.setdefault(mark.device, []).append(mark)
    room, rows = MOST_SIGNS, []
    for devices in tracks_alike(view):
        found = [mark for device in devices for mark in marks.get(device, ())][:room]
        room -= len(found)
        rows.append(_track(view, devices, tracks.of[devices[0]], found))
    return rows


def _key(view: ReplayView, device: int, tracks: Tracks) -> Tuple[object, ...]:
    """Of many tracks those are one that differ by less than a part of the time that is shown."""
    if len(tracks.of) <= MOST_SINGLE_TRACKS:
        return (device,)
    return tuple((span.state, round(view.share(span.begin) * ALIKE), round(view.share(span.end) * ALIKE)) for span in tracks.of[device])


def tracks_alike(view: ReplayView) -> List[List[int]]:
    """The devices whose tracks are drawn as one."""
    tracks = view.replay.tracks
    alike: Dict[Tuple[object, ...], List[int]] = {}
    if tracks is not None:
        for device in sorted(tracks.of):
            alike.setdefault(_key(view, device, tracks), []).append(device)
    return list(alike.values())


def _track(view: ReplayView, devices: Sequence[int], spans: Sequence[Span], marks: Sequence[Mark]) -> Raw:
    name = view.name(devices[0]) + (f" +{len(devices) - 1}" if len(devices) > 1 else "")
    drawn = {state: "".join(_bar(view, span, *shape) for span in spans if span.state == state for shape in SHAPES[state]) for state in STATES}
    paths = [element("path", title(f"{name} {MEANING[state]}"), class_=f"state {state}", d=d) for state, d in drawn.items() if d]
    picture = _picture(TRACK, f"{view.names(devices)}: {spans_said(view, spans)}", paths)
    label = element("b", name, title=view.names(devices, 40) if len(devices) > 1 else None)
    return _row("track", label, picture, _signs(view, marks), data_devices=" ".join(map(str, devices)))


def _bar(view: ReplayView, span: Span, top: float, bottom: float) -> str:
    return f"M{view.x(span.begin)} {top:g}H{view.x(span.end)}V{bottom:g}H{view.x(span.begin)}Z"


def spans_said(view: ReplayView, spans: Sequence[Span]) -> str:
    """The spans in words, for who does not see them."""
    said = [f"{span.state} from {clear(span.begin)} to {clear(span.end)}" for span in spans[:MOST_SAID]]
    more = len(spans) - MOST_SAID
    return ", ".join(said) + (f", and {count(more, 'span')} more" if more > 0 else "")


# eps


class _Scale:
    """From a value to a height in the picture of eps, and the values that are marked."""

    def __init__(self, kind: str, least: int, most: int) -> None:
        self.kind, least, most = kind, max(1, least), max(2, most)
        self._base, self._range = (0.0, most) if kind == "linear" else (math.log(least), max(1e-9, math.log(most) - math.log(least)))
        size, decades = unit_of(most)[0], math.log10(most / least)
        factors = (1, 2, 5) if decades < 2 else (1, 3) if decades < 4 else (1,)
        self.marked = (
            [round(step * size) for step in round_steps(0, most / size, 4)] if kind == "linear"
            else [value for power in range(20) for value in (factor * 10**power for factor in factors) if least <= value <= most]
        )

    def y(self, value: float) -> float:
        part = ((value if self.kind == "linear" else math.log(max(1, value))) - self._base) / self._range
        return round(EPS * (0.97 - min(1.0, max(0.0, part)) * 0.93), 1)


def _eps(view: ReplayView) -> Raw:
    """Both scales are drawn; a choice above shows one."""
    kept = [found for intervals in view.replay.peaks.of.values() for found in intervals if found is not None]
    values = [value for found in kept for value in found] + [report.eps for report in view.reports] + list(view.calm.values())
    pictures, names = [], []
    for kind in "linear", "log":
        scale = _Scale(kind, min(values), max(values))
        label = f"eps of each device over time, up to {human(max(values))}. The table of percentiles has the numbers"
        pictures.append(_picture(EPS, label, _eps_marks(view, scale), class_=f"scaled-{kind}"))
        names.append(element("span", _levels(scale), class_=f"levels scaled-{kind}"))
    return _row("plot eps", joined([element("b", "eps"), *names]), pictures)


def _levels(scale: _Scale) -> List[Raw]:
    size, unit = unit_of(max(scale.marked, default=0))
    return [element("i", f"{value / size:g} {unit}" if value else "0", style=f"top:{scale.y(value) / EPS:.1%}") for value in scale.marked]


def _eps_marks(view: ReplayView, scale: _Scale) -> List[Raw]:
    parts = [element("path", class_="grid", d="".join(f"M0 {scale.y(value):g}H{WIDE:g}" for value in scale.marked))]
    parts.append(_envelope(view, scale))
    if view.calm:
        most = max(view.calm.values())
        said = title(f"{clear(most)}: while nothing has failed, and before the first renewal, no report is above the calm number of its device. This is the greatest")
        parts.append(element("path", said, class_="calm", d=f"M0 {scale.y(most):g}H{WIDE:g}"))
    for place, devices in enumerate(view.lines):
        d = _line(view, view.replay.peaks.of[devices[0]], scale)
        said = title(f"{view.names(devices, 12)}{': their lines coincide' if len(devices) > 1 else ''}")
        parts.append(element("path", said, class_=f"line c{place}" + " dashed" * view.dashed[place], d=d, data_devices=" ".join(map(str, devices))))
    return parts + _dots(view, [(report, scale.y(report.eps)) for report in view.reports])


def _envelope(view: ReplayView, scale: _Scale) -> Raw:
    """The greatest eps of all devices, down to the bottom."""
    values = greatest(view.replay.peaks.of.values())
    points = [f"{view.x(view.middle(place))} {scale.y(value):g}" for place, value in enumerate(values) if value is not None]
    if not points:
        return Raw("")
    begin, end = points[0].split(" ")[0], points[-1].split(" ")[0]
    said = title(f"the greatest eps of {count(len(view.replay.peaks.of), 'device')}")
    return element("path", said, class_="envelope", d=f"M{begin} {EPS:g}L{'L'.join(points)}L{end} {EPS:g}Z")


def _line(view: ReplayView, intervals: Sequence["Interval | None"], scale: _Scale) -> str:
    known = [(view.x(view.middle(place)), dict.fromkeys(interval)) for place, interval in enumerate(intervals) if interval is not None]
    return "M" + "L".join(f"{x} {scale.y(value):g}" for x, values in known for value in values)


def _dots(view: ReplayView, places: Sequence[Tuple[Report, float]]) -> List[Raw]:
    """The reports of one colour are one path, of points without a length. Wrong ones stand over all others."""
    paths: Dict[Tuple[bool, int], List[Tuple[Report, float]]] = {}
    for report, y in places:
        paths.setdefault((report.is_wrong, view.colour.get(report.device, OTHERS)), []).append((report, y))
    parts = []
    for (wrong, place), found in sorted(paths.items()):
        colour = "wrong" if wrong else "other" if place == OTHERS else f"c{place}"
        devices = dict.fromkeys(report.device for report, _ in found)
        said = title(f"reports of {view.names(devices)}" + (" that were off by more than their eps" if wrong else ""))
        points = "".join(f"M{view.x(report.ref)} {y:g}h0" for report, y in found)
        parts.append(element("path", said, class_=f"dots {colour}", d=points, data_devices=" ".join(map(str, devices)), data_count=len(found)))
    return parts


# How far off

LEAST_RANGE, MOST_RANGE = 1.15, 4.0


def _off(view: ReplayView) -> Raw:
    shares = [report.off / max(1, report.eps) for report in view.reports]
    limit = min(MOST_RANGE, max(LEAST_RANGE, 1.05 * max(abs(share) for share in shares)))

    def y(share: float) -> float:
        return round(OFF / 2 - max(-limit, min(limit, share)) * OFF / 2 / limit, 1)

    inside = element("path", class_="inside", d=f"M0 {y(1):g}H{WIDE:g}V{y(-1):g}H0Z")
    grid = element("path", class_="grid", d="".join(f"M0 {y(level):g}H{WIDE:g}" for level in (1, 0, -1)))
    levels = [element("i", text, style=f"top:{y(level) / OFF:.1%}") for level, text in ((1, "+eps"), (0, "0"), (-1, "\u2212eps"))]
    dots = _dots(view, [(report, y(share)) for report, share in zip(view.reports, shares)])
    label = f"how far {count(len(view.reports), 'report')} were off, as part of their eps. Within the band a report was right"
    name = joined([element("b", "off"), element("span", levels, class_="levels")])
    return _row("plot off", name, _picture(OFF, label, inside, grid, dots))
