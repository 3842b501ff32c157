"""What looks wrong in a topology that can be read: keys that nobody reads, and domains and numbers that cost a plan."""

from __future__ import annotations

import tomllib
from typing import Any, Dict, Iterator, List, Optional, Set, Tuple

from sundial_tools.errors import ToolError, decoded
from sundial_tools.network.absent import MOST_SHOWN, shown
from sundial_tools.things import nearest
from sundial_tools.topology import MOST_BYTES, Domain, Topology, open_bytes, parse_topology
from sundial_tools.units import few

Table = Dict[str, Any]
TOP = ("version", "ppm", "grain", "period", "tick", "loss", "depth", "roots", "device", "link", "domain")
KEYS: Dict[str, Tuple[str, ...]] = {
    "device": ("name", "side", "ppm", "grain"), "link": ("name", "ends", "min", "max", "back_min", "back_max"),
    "domain": ("name", "devices", "links"),
}
# Keys of version 2, and the key of version 1 that holds in their place.
NEWER = {("device", "ppm"): "ppm", ("device", "grain"): "grain", ("link", "back_min"): "min", ("link", "back_max"): "max"}
SECONDS = 10**12
DAY, YEAR = 86400.0, 86400.0 * 365
MOST_LOSS, MOST_YEARS = 100, 10**6


def findings(path: str, message_loss: float) -> List[str]:
    """What was found, a line each. Raises ToolError where the text is no topology."""
    with open_bytes(path) as file:
        text = decoded(file.read(MOST_BYTES), path)
    topology = parse_topology(text, path)
    table = tomllib.loads(text)
    found = [*_unknown(table), *_newer(table, topology)]
    found += [*_empty(topology), *_unlinked(topology), *_held(topology), *_untrayed(topology), *_candidates(topology), *_feeds(topology), *_loss(topology, message_loss)]
    return found


def _tables(table: Table) -> Iterator[Tuple[str, str, Table]]:
    """Each device, link and domain: its kind, how it is named, and its keys."""
    for kind in KEYS:
        for entry in table.get(kind, []):
            yield kind, f"{kind} {entry['name']}", entry


def _unknown(table: Table) -> Iterator[str]:
    yield from (_says(key, "the topology", TOP) for key in table if key not in TOP)
    for kind, name, entry in _tables(table):
        yield from (_says(key, name, KEYS[kind]) for key in entry if key not in KEYS[kind])


def _says(key: str, where: str, known: Tuple[str, ...]) -> str:
    near = nearest(key.replace("-", "_").lower(), known)
    return f"{where} has the key {key}, which nobody reads" + (f": did you mean {near}?" if near else "")


def _newer(table: Table, topology: Topology) -> Iterator[str]:
    """Keys of version 2 in a text of version 1: they are ignored, which is unsafe where they would say more."""
    if topology.version != 1:
        return
    for kind, name, entry in _tables(table):
        for (of, key), instead in NEWER.items():
            if of != kind or key not in entry:
                continue
            value, holds = entry[key], entry.get(instead) if kind == "link" else table[instead]
            wider = isinstance(value, int) and (value < holds if key == "back_min" else value > holds)
            unsafe = f". UNSAFE: it says {value}, and {holds} is taken" if wider else ""
            yield f"{name} has the key {key} of version 2, and the text has version 1, so it is ignored{unsafe}"


def _empty(topology: Topology) -> Iterator[str]:
    for domain in topology.domains:
        if not domain.devices and not domain.links:
            yield f"domain {domain.name} has no devices and no links"


def _links_of(topology: Topology) -> Dict[int, Set[int]]:
    """The links of each device."""
    found: Dict[int, Set[int]] = {device.number: set() for device in topology.devices}
    for link in topology.links:
        for end in link.ends:
            found[end].add(link.number)
    return found


def _unlinked(topology: Topology) -> Iterator[str]:
    alone = [device for device, links in _links_of(topology).items() if not links]
    if alone:
        yield f"{shown(topology, alone)} {'has' if len(alone) == 1 else 'have'} no link: no plan reaches {'it' if len(alone) == 1 else 'them'}"


def _held(topology: Topology) -> Iterator[str]:
    """Domains that hold all ways of a device which is not in them: it is cut off with them, and no plan can mend that."""
    links_of = _links_of(topology)
    for domain in topology.domains:
        taken = set(domain.links).union(*(links_of[device] for device in domain.devices))
        ends = {end for link in taken for end in topology.links[link].ends}.difference(domain.devices)
        held = sorted(device for device in ends if links_of[device] <= taken)
        if held:
            yield f"domain {domain.name} holds all ways of {shown(topology, held)}, which {'is' if len(held) == 1 else 'are'} not in it"


def _untrayed(topology: Topology) -> Iterator[str]:
    """Links that are in no domain of links alone, where most are in one."""
    trays = [it for it in topology.domains if it.links and not it.devices]
    within = {link for it in trays for link in it.links}
    joined = {frozenset(_kinds(topology, link)) for link in within}
    out = [it for it in topology.links if it.number not in within and frozenset(_kinds(topology, it.number)) in joined]
    if trays and out:
        yield f"links are in no tray, and others like them are in one: {few([it.name for it in out], MOST_SHOWN)}"


def _kinds(topology: Topology, link: int) -> List[str]:
    """The names of the ends of a link without their numbers: leaf and spine."""
    return [topology.devices[end].name.rstrip("0123456789-_.") for end in topology.links[link].ends]


def _candidates(topology: Topology) -> Iterator[str]:
    roots = topology.roots
    if len(roots) < 2:
        yield f"roots has {topology.devices[roots[0]].name} alone: a plan needs a backup root"
        return
    for domain in topology.domains:
        within = [it for it in roots if it in domain.devices]
        if set(roots[:2]) <= set(within):
            yield f"the first two candidates, {shown(topology, roots[:2])}, share the domain {domain.name}: the plan is refused by root"
        elif len(within) == len(roots) or (len(within) > 1 and len(roots) - len(within) < 2):
            left = len(roots) - len(within)
            yield f"domain {domain.name} has the candidates {shown(topology, within)}: without it {left} is left, and a plan needs 2"


def _feeds(topology: Topology) -> Iterator[str]:
    """Two feeds: what one of them supplies alone survives the other, and cannot be planned again after it."""
    feeds = [it for it in topology.domains if _is_feed(it)]
    if len(feeds) != 2:
        return
    single = sorted({it for feed in feeds for it in feed.devices} - set(topology.roots))
    ends: Set[int] = {end for link in topology.links for end in link.ends if set(link.ends) & set(topology.roots)}
    leaves = [it for it in single if it in ends]
    if leaves:
        yield (
            f"{shown(topology, leaves)} {'is' if len(leaves) == 1 else 'are'} on one of two feeds: after the loss of a feed all ways of a "
            "backup root share the other one, and nothing can be planned. Put them on both (list them in neither), or take three feeds"
        )


def _is_feed(domain: Domain) -> bool:
    return domain.name.lower().startswith(("feed", "power", "pdu")) and bool(domain.devices)


def messages_of_a_round(topology: Topology) -> int:
    """How many messages a round is at most: each member but the root hears over two links."""
    return 2 * (len(topology.devices) - 1)


def seconds_to_break(messages: int, period: int, loss: int, message_loss: float) -> Optional[float]:
    """After how many seconds `loss` + 1 rounds in a row are spoiled on average. None where nothing is lost."""
    spoiled = 1 - (1 - message_loss) ** messages
    if spoiled <= 0:
        return None
    # (the mean number of rounds until a run of that length)
    rounds = sum(spoiled ** -(it + 1) for it in range(loss + 1))
    return rounds * period / SECONDS


def _loss(topology: Topology, message_loss: float) -> Iterator[str]:
    messages = messages_of_a_round(topology)
    often = seconds_to_break(messages, topology.period, topology.loss, message_loss)
    if often is None or often >= DAY:
        return
    enough = next(
        (it for it in range(MOST_LOSS + 1) if (seconds_to_break(messages, topology.period, it, message_loss) or YEAR) >= YEAR), MOST_LOSS
    )
    yield (
        f"loss = {topology.loss} is little for {messages:,} messages a round: if one in {round(1 / message_loss):,} is lost, "
        f"the premise breaks every {span(often)}. loss = {enough} lasts {span(seconds_to_break(messages, topology.period, enough, message_loss) or 0)}"
    )


def span(seconds: float) -> str:
    """1.5 s, 6.3 hours, 40 years."""
    if seconds >= MOST_YEARS * YEAR:
        return "more than a million years"
    for size, name in (YEAR, "years"), (DAY, "days"), (3600.0, "hours"), (60.0, "minutes"), (1.0, "s"), (0.001, "ms"):
        if seconds >= size:
            value = seconds / size
            return f"{value:,.0f} {name}" if value >= 10 else f"{value:.1f} {name}"
    return f"{seconds * 10**6:.0f} us"


def rate_of(word: str) -> float:
    """A rate of lost messages, as 1e-6."""
    try:
        value = float(word)
    except ValueError:
        value = -1.0
    if not 0 <= value < 1:
        raise ToolError(f"{word!r} is no rate of lost messages from 0 to 1, as 1e-6")
    return value
