"""The part of the page that shows a replay: panels over one time axis, and tables of all that they show."""

from __future__ import annotations

from typing import Dict, List

from sundial_tools.report.markup import Raw, as_json, element, filled, folded
from sundial_tools.report.panels import ALIKE, panels, tracks_alike
from sundial_tools.report.replay import Replay
from sundial_tools.report.replay_tables import marks_table, percentiles_table, reports_table, spans_table
from sundial_tools.report.replay_view import ReplayView
from sundial_tools.report.tracks import MEANING, STATES
from sundial_tools.topology import Topology
from sundial_tools.units import clear, count, human

def replay_section(topology: Topology, replay: Replay, calm: Dict[int, int]) -> Raw:
    view = ReplayView(topology, replay, calm)
    parts: List[Raw] = [element("h2", "Replay: what happened over time", id="replay")]
    parts.append(element("p", _facts(view), class_="facts"))
    if replay.refusal is not None:
        parts.append(element("p", element("code", replay.refusal), " The replay ends before this line.", class_="refused"))
    if replay.events:
        parts.append(filled("timed", panels=panels(view)))
        parts += [_legend(view), _lines(view), _alike(view), _data(view)]
    parts += [marks_table(view), percentiles_table(view), reports_table(view), spans_table(view)]
    return element("section", parts, class_="replay")


def _facts(view: ReplayView) -> str:
    replay = view.replay
    text = f"{count(replay.events, 'event')} over {clear(replay.last)}, the first at the reference {clear(replay.origin or 0)}, "
    text += f"{count(replay.reports.count, 'report')}."
    if replay.reports.count:
        text += f" Reports that were off by more than their eps: {replay.wrong}."
    text += f" Broken premises: {replay.mark_counts['broken']}. Alarms and disorders: {replay.mark_counts['alarm']}."
    if len(view.reports) < replay.reports.count:
        text += f" {len(view.reports)} reports are drawn: of neighbours of one device, the widest."
    if replay.tracks is not None and replay.tracks.left_out:
        text += f" Spans of tracks that are not drawn: {replay.tracks.left_out}."
    return text


def _legend(view: ReplayView) -> Raw:
    states = [filled("key", key=f"state {state}", text=f"{state}: {MEANING[state]}") for state in STATES]
    waits = view.replay.tracks.patience if view.replay.tracks is not None else 0
    return filled("legend", states=states, step=human(view.replay.peaks.step), waits=human(waits))


def _lines(view: ReplayView) -> Raw:
    items: List[Raw] = []
    for place, devices in enumerate(view.lines):
        text = view.names(devices) + (" (one line)" if len(devices) > 1 else "")
        key = element("i", class_=f"key line c{place}" + " dashed" * view.dashed[place])
        items.append(element("span", key, text, class_="item device", data_devices=" ".join(map(str, devices))))
    more = len(view.replay.peaks.of) - len(view.colour)
    items += [element("span", f"and {count(more, 'device')} more under the grey area", class_="item")] if more > 0 else []
    if view.calm:
        said = f"the greatest calm number of plan 1, {clear(max(view.calm.values()))}: a healthy fabric stays below"
        items.append(filled("key", key="calm", text=said))
    return element("p", items, class_="legend lines")


def _alike(view: ReplayView) -> Raw:
    """Which devices share a track, where there are many."""
    groups = [devices for devices in tracks_alike(view) if len(devices) > 1]
    if not groups:
        return Raw("")
    items = [element("li", element("b", view.name(devices[0])), " and ", view.names(devices[1:], len(devices))) for devices in groups]
    caption = f"Tracks that stand for several devices: {len(groups)}. They differ by less than {human((view.last - view.first) // ALIKE)}"
    return folded(caption, element("ul", items, class_="names"))


def _data(view: ReplayView) -> Raw:
    """What the script needs to say what was at the cursor: the eps of each line, and the spans of each track."""
    peaks = view.replay.peaks
    lines = [
        {"name": view.names(of), "eps": [it and it.peak for it in peaks.of[of[0]]], "last": [it and it.last for it in peaks.of[of[0]]]}
        for of in view.lines
    ]
    said = {"begin": peaks.first or 0, "step": peaks.step, "lines": lines}
    return element("script", as_json(said), type="application/json", class_="lines-data")
