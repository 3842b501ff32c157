"""The tables of a replay: what happened, percentiles of eps by device, reports, and the modes of devices."""

from __future__ import annotations

from typing import Dict, List

from sundial_tools.fleet.lineage import Told
from sundial_tools.report.markup import Raw, element, folded, joined
from sundial_tools.report.replay import LANES
from sundial_tools.report.replay_view import ReplayView
from sundial_tools.report.series import Report
from sundial_tools.report.tables import Cell, Column, by_columns, exact
from sundial_tools.report.tracks import MEANING
from sundial_tools.units import readable

OPEN_ROWS, MOST_LISTED = 20, 500
PERCENTS = (50, 90, 99)


def percentiles_table(view: ReplayView) -> Raw:
    if not view.replay.percentiles:
        return Raw("")
    found = dict(sorted(view.replay.percentiles.items(), key=lambda one: (-one[1].most, one[0])))
    of, worst = list(found.values()), [view.replay.worst_off[device] for device in found]
    eps = [[it.least or 0 for it in of], *([it.at(percent) for it in of] for percent in PERCENTS), [it.most for it in of]]
    widths, offsets = [value for values in eps for value in values], [report.off for report in worst]
    columns: List[Column] = [
        ("device", list(map(view.name, found))), ("reports", [str(it.count) for it in of]),
        *exact(["least eps, {}", *(f"{percent} %" for percent in PERCENTS), "greatest"], eps, beside=offsets),
        *exact(["worst offset, {}"], [offsets], "+", beside=widths), ("of its eps", list(map(_share, worst))),
    ]
    if view.calm:
        ((head, cells),) = exact(["calm number, {}"], [[view.calm.get(device, 0) for device in found]], beside=widths)
        columns.append((head, [cell if device in view.calm else "" for device, cell in zip(found, cells)]))
    rounded = any(it.is_rounded for it in of)
    return folded(
        f"Percentiles of eps: {len(found)} devices, the widest first", by_columns("percentiles", columns),
        element("p", "Percentiles are rounded up to three digits.", class_="note") if rounded else Raw(""), is_open=len(found) <= OPEN_ROWS,
    )


def _share(report: Report) -> Cell:
    share = abs(report.off) / max(1, report.eps)
    return (f"{share:.0%}", round(share * 1000))


def marks_table(view: ReplayView) -> Raw:
    """The first marks of all lanes, with who broke a premise."""
    marks = sorted((mark for lane in LANES for mark in view.replay.marks[lane]), key=lambda mark: mark.line)
    total = sum(view.replay.mark_counts.values())
    causes = {(mark.line, mark.text): readable(cause.text) for mark, cause in view.replay.causes}
    # (all broken premises and alarms are among the rows, whatever came before them)
    bad = [mark for mark in marks if mark.kind in ("broken", "alarm")][:MOST_LISTED]
    others = [mark for mark in marks if mark.kind not in ("broken", "alarm")][: MOST_LISTED - len(bad)]
    shown = sorted(bad + others, key=lambda mark: mark.line)
    firsts = {mark.line: place for place, mark in reversed(list(enumerate(shown)))}
    texts = [[element("span", mark.text), *(element("span", it, class_="cause") for it in [causes.get((mark.line, mark.text))] if it)] for mark in shown]
    columns: List[Column] = [
        ("line", [(element("span", str(it.line), id=f"line-{it.line}" if firsts[it.line] == place else None), it.line) for place, it in enumerate(shown)]),
        *exact(["from the first event, {}"], [[mark.ref for mark in shown]]), ("what", [mark.kind for mark in shown]),
        ("text, and who broke it", list(map(joined, texts))),
    ]
    caption = f"What happened: {total} marks" + (f", {len(shown)} of them" if len(shown) < total else "")
    return folded(caption, by_columns("marks", columns), is_open=total <= OPEN_ROWS or bool(bad))


def reports_table(view: ReplayView) -> Raw:
    """The reports that were wrong, and then those that were off by the greatest part of their eps."""
    if not view.reports:
        return Raw("")
    worst = sorted(view.reports, key=lambda report: (-abs(report.off) * 10**6 // max(1, report.eps), report.line))[:MOST_LISTED]
    of: Dict[str, List[int]] = {key: [getattr(report, key) for report in worst] for key in ("ref", "clock", "eps", "off")}
    columns: List[Column] = [
        ("line", [str(report.line) for report in worst]), *exact(["from the first event, {}"], [of["ref"]], beside=of["clock"]),
        ("device", [view.name(report.device) for report in worst]), *exact(["clock, {}"], [of["clock"]], beside=of["ref"]),
        *exact(["eps, {}"], [of["eps"]], beside=of["off"]), *exact(["off, {}"], [of["off"]], "+", beside=of["eps"]),
        ("of its eps", list(map(_share, worst))), ("rests on", [_lineage(view, report) for report in worst]),
    ]
    caption = f"Reports: {view.replay.reports.count}" + (f", {len(worst)} of them" if len(worst) < view.replay.reports.count else "")
    return folded(f"{caption}, the worst first", by_columns("reports", columns))


def _lineage(view: ReplayView, report: Report) -> Cell:
    """The clocks and links on which the interval rests, and behind them each part of the lineage in words."""
    if report.lineage is None:
        return ""
    told = Told(view.topology, report.lineage)
    names = ", ".join(told.devices) + (f" over {', '.join(told.links)}" if told.links else "")
    caption = joined([element("span", names), "" if told.is_honest else element("b", ": not honest", class_="unsound")])
    parts = [
        element("li", readable(text), class_=None if one.is_honest else "unsound") for one, text in zip(told.judged, told.texts())
    ]
    return folded(caption, element("ol", parts), class_="lineage")


def spans_table(view: ReplayView) -> Raw:
    """The tracks as a table."""
    tracks = view.replay.tracks
    if tracks is None or not tracks.of:
        return Raw("")
    found = [(device, span) for device in sorted(tracks.of) for span in tracks.of[device]]
    total, spans = len(found), [span for _, span in found[:MOST_LISTED]]
    columns: List[Column] = [
        ("device", [view.name(device) for device, _ in found[:MOST_LISTED]]), ("mode", [span.state for span in spans]),
        *exact(["from, {}", "to, {}"], [[span.begin for span in spans], [span.end for span in spans]]),
        *exact(["for, {}"], [[span.end - span.begin for span in spans]]),
    ]
    caption = f"Modes of devices: {total} spans" + (f", the first {MOST_LISTED}" if total > MOST_LISTED else "")
    meaning = element("p", "; ".join(f"{state}: {text}" for state, text in MEANING.items()) + ".", class_="note")
    return folded(caption, by_columns("spans", columns), meaning)
