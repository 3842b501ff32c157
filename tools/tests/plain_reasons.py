"""Why a network has no plan: each kind of reason by a plain slow reading of its definition (docs/TROUBLESHOOTING.md, impossible).

A kind is a question about the topology alone. Where it holds, `sundialctl why` prints `impossible` and these words.
"""

from __future__ import annotations

import functools
from typing import Callable, Dict, Iterator, List, Optional, Set, Tuple

from decided import Group, Network
from decider import plan

from sundial_tools.plain.conditions import Conditions

Words = Optional[Tuple[object, ...]]
NOTHING = Group(frozenset(), frozenset())


def steps_from(net: Network, start: int, lost: Group = NOTHING) -> Dict[int, int]:
    """How many links each device is away from one, of those that are joined to it outside a domain."""
    found, order, hops = {start: 0}, [start], net.hops()
    for device in order:
        for hop in hops[device]:
            if hop.parent not in found and hop.parent not in lost.devices and hop.link not in lost.links:
                found[hop.parent] = found[device] + 1
                order.append(hop.parent)
    return found


@functools.lru_cache(maxsize=2)
def bridges(net: Network) -> Set[int]:
    """The links whose loss parts their two ends."""
    alone = (Group(frozenset(), frozenset([link])) for link in range(len(net.ends)))
    return {link for link, lost in enumerate(alone) if net.ends[link][1] not in steps_from(net, net.ends[link][0], lost)}


@functools.lru_cache(maxsize=2)
def blocks(net: Network) -> List[Set[int]]:
    """The links in classes: those of one class are on one side of each device."""
    sides: List[List[int]] = [[] for _ in net.ends]
    for lost in net.devices:
        side: Dict[int, int] = {}
        for first in net.devices:
            if first != lost and first not in side:
                side.update(dict.fromkeys(steps_from(net, first, Group(frozenset([lost]), frozenset())), first))
        for link, (one, other) in enumerate(net.ends):
            sides[link].append(side[other if one == lost else one])
    classes: Dict[Tuple[int, ...], Set[int]] = {}
    for link, signature in enumerate(sides):
        classes.setdefault(tuple(signature), set()).add(link)
    return list(classes.values())


def devices_of(net: Network, links: Set[int]) -> Set[int]:
    return {end for link in links for end in net.ends[link]}


def cut_devices(net: Network) -> Set[int]:
    """The devices whose links lie in two blocks or more."""
    parts = [devices_of(net, block) for block in blocks(net)]
    return {device for device in net.devices if sum(device in part for part in parts) > 1}


# Kinds without a pair, each with the words after its own.


def candidates(net: Network) -> Words:
    return (len(net.roots),) if len(net.roots) < 2 else None


def timing(net: Network) -> Words:
    """Rule 1 of timing is about the topology alone."""
    breach = Conditions(net.topology(), plan((0, 0), {})).timing()
    return () if breach and breach[1] == 1 else None


def shared(net: Network) -> Words:
    return next(((f"f{number}",) for number, group in enumerate(net.groups) if group.devices >= set(net.roots)), None)


def apart(net: Network) -> Words:
    there = steps_from(net, 0)
    return next(((f"d{device}",) for device in net.devices if device not in there), None)


def deep(net: Network) -> Words:
    """Each candidate has a device beyond the depth."""
    steps = steps_from(net, net.roots[0])
    far = max(steps, key=lambda it: (steps[it], -it))
    is_deep = all(max(steps_from(net, root).values()) > net.depth for root in net.roots)
    return (f"d{net.roots[0]}", f"d{far}", steps[far], net.depth) if is_deep else None


def needed(net: Network, cut: int) -> int:
    """How many links besides the bridges a plan needs: half as many again as devices that no bridge accounts for, less two."""
    return -(-3 * (net.count - cut) // 2) - 2


def few(net: Network) -> Words:
    cut = len(bridges(net))
    return (len(net.ends), cut, net.count, needed(net, cut)) if len(net.ends) - cut < needed(net, cut) else None


def nocycle(net: Network) -> Words:
    rings = [devices_of(net, block) for block in blocks(net) if len(block) > 1]
    return None if any(len(ring & set(net.roots)) > 1 for ring in rings) else ()


def blocks_apart(net: Network) -> Words:
    """Two blocks of three devices or more, none with two parallel links at a cut device."""
    parts, cut = [block for block in blocks(net) if len(devices_of(net, block)) > 2], cut_devices(net)

    def is_clean(block: Set[int]) -> bool:
        at_cut = [frozenset(net.ends[link]) for link in block if cut & set(net.ends[link])]
        return len(at_cut) == len(set(at_cut))

    return () if sum(map(is_clean, parts)) > 1 else None


def orphans(net: Network) -> Words:
    """The devices without a primary: all that each neighbour could offer it is its own backup. Two roots are not near all of them."""
    hops, cut = net.hops(), bridges(net)
    thin = {it for it in net.devices if len(hops[it]) == 2 and not any(hop.link in cut for hop in hops[it])}
    near = {it: {it, *(hop.parent for hop in hops[it])} for it in net.devices}
    sets = [near[it] for it in net.devices if near[it] - {it} <= thin]
    return None if any(all(set(pair) & one for one in sets) for pair in net.pairs) else ()


KINDS: Dict[str, Callable[[Network], Words]] = {
    "candidates": candidates, "timing": timing, "shared": shared, "apart": apart, "deep": deep, "few": few, "nocycle": nocycle,
    "blocks": blocks_apart, "orphans": orphans,
}


def reasons(net: Network) -> Iterator[str]:
    """The kinds that hold. The later ones are asked of connected networks alone, and of two candidates at least."""
    for kind, holds in KINDS.items():
        if holds(net) is not None:
            yield kind
            if kind in ("candidates", "apart"):
                return
