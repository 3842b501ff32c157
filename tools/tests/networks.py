"""Networks of many kinds and plans of them, by the tools alone."""

import json

from support import run

from sundial_tools.network.main import main as topology_main
from sundial_tools.topology import parse_topology
from sundial_tools.why.planned import planned

# (a wait that outlasts all silences of these networks)
WAITS = {"wait_first": 1345000000, "wait_second": 1345000000, "wait": 6730000000}


def made(*words):
    """The text of `sundial-topology make`, and the topology."""
    status, text, err = run("sundial-topology", topology_main, ["make", *words])
    if status:
        raise AssertionError(err)
    return text, parse_topology(text)


def plan_text(topology, devices=(), links=(), root=None):
    """The plan that the rule of the planner makes, as a text."""
    root = topology.roots[0] if root is None else root
    return text_of(topology, planned(topology, root, devices, links))


def text_of(topology, plan):
    names, links = [it.name for it in topology.devices], [it.name for it in topology.links]
    rows = []
    for row in plan.rows.values():
        said = {"device": names[row.device], "parent": names[row.primary.parent], "link": links[row.primary.link]}
        if row.backup:
            said.update(backup=names[row.backup.parent], backup_link=links[row.backup.link])
        rows.append(said)
    absent = {"absent_devices": [names[it] for it in plan.absent_devices], "absent_links": [links[it] for it in plan.absent_links]}
    said = {"version": 1, "root": names[plan.root], "backup_root": names[plan.backup_root], **WAITS, **absent, "rows": rows}
    return json.dumps(said) + "\n"


def written(path, *words, name=""):
    """The files of a network and of its plan, in a folder."""
    text, topology = made(*words)
    files = path / f"{name}topology.toml", path / f"{name}plan.json"
    files[0].write_text(text)
    files[1].write_text(plan_text(topology))
    return files
