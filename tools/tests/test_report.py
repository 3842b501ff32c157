"""sundial-report: what its pages show, asked of the tree of the page, over the examples and over bad inputs."""

import hashlib
import json
import os
import re
import subprocess
import sys
import unittest
from fractions import Fraction
from unittest import mock

import case
import networks
import worlds
from examples import EXAMPLES, outputs
from page_tree import parse
from support import PROGRAM, TOOLS, directory, needs_sundial, run
from test_bounds import Numbers, domains
from test_cut import plain

from sundial_tools.fleet.fleet import Fleet
from sundial_tools.plan import default_hold, read_plan
from sundial_tools.plan_table import HEADS, plan_rows, waits_said
from sundial_tools.readiness.main import main as readiness_main
from sundial_tools.effects import Effects
from sundial_tools.report.main import main
from sundial_tools.report.parts import Makeup
from sundial_tools.report.replay import Replay
from sundial_tools.report.replay_view import Drawn, ReplayView, greatest
from sundial_tools.report.series import MOST_INTERVALS, MOST_REPORTS, Interval, Peaks, Percentiles, Report, Reports
from sundial_tools.units import clear, column, human, in_unit, readable, round_steps
from sundial_tools.schedule import parse_event
from sundial_tools.things import all_named, find_named
from sundial_tools.topology import parse_topology, read_topology
from sundial_tools.tree import Tree
from sundial_tools.why.planned import planned

REPLAY = "sundial replay topology.toml plan.json plan-2.json schedule.txt"
DRILL = "sundial drill topology.toml plan.json 1000000 3000000000"


def tool(*words):
    return run("sundial-report", main, list(words))


def page(*words):
    status, out, err = tool(*words)
    if status:
        raise AssertionError(err)
    return parse(out)


def whole(name, path, *words):
    """The page of an example with its plans, its drill and its replay."""
    said, here = outputs(name), EXAMPLES / name
    (path / "drill").write_text(said[DRILL])
    (path / "replay").write_text(said[REPLAY])
    return page(
        here / "topology.toml",
        here / "plan.json",
        here / "plan-2.json",
        "--drill",
        path / "drill",
        "--hold",
        "3ms",
        "--replay",
        here / "schedule.txt",
        path / "replay",
        *words,
    )


def replayed(name, schedule, command, path, plans=1):
    """The page of a replay of an example by this command."""
    (path / "output").write_text(outputs(name)[command])
    here = EXAMPLES / name
    return page(here / "topology.toml", *[here / "plan.json"] * plans, "--replay", here / schedule, path / "output")


def microseconds(text):
    """The picoseconds of a number of microseconds, all of whose digits are there."""
    return int(Fraction(text.replace(",", "")) * 10**6)


def names(nodes, topology):
    return {topology.devices[int(node["data-device"])].name for node in nodes}


def numbers(text):
    """The numbers of ranges, as the script reads them: 3 7-12."""
    found = set()
    for part in (text or "").split():
        first, _, last = part.partition("-")
        found.update(range(int(first), int(last or first) + 1))
    return found


# Networks that fold by hosts, racks and pods, and one that does not.
KINDS = (
    ("leaf-spine", "--leaves", "12", "--spines", "4", "--hosts", "2"), ("leaf-spine", "--leaves", "60", "--spines", "8", "--hosts", "4"),
    ("three-tier", "--cores", "4", "--pods", "8", "--leaves", "12", "--hosts", "2"), ("three-tier", "--pods", "40", "--leaves", "3", "--hosts", "3"),
    ("mesh", "--devices", "10", "--links-each", "3", "--seed", "2"), ("mesh", "--devices", "60", "--links-each", "3"), ("mesh", "--devices", "70"),
    ("leaf-spine", "--leaves", "24", "--hosts", "3", "--host-links", "2"),
)


class Trees(unittest.TestCase):
    def check_plan(self, section, topology, plan):
        members = plan.members(topology)
        marks = section.one("svg", "tree").all("g", "device") + section.one("svg", "tree").all("rect", "device")
        self.assertEqual(sorted(int(node["data-device"]) for node in marks), members)
        box_of = {int(node["data-device"]): node.parent if node.tag == "rect" else node for node in marks}
        for kind in "primary", "backup":
            edges = section.all("path", "edge", kind)
            self.assertEqual(sum(len(numbers(edge["data-devices"])) for edge in edges), len({it for edge in edges for it in numbers(edge["data-devices"])}))
            drawn = [(device, edge) for edge in edges for device in numbers(edge["data-devices"])]
            rows = {row.device: row.primary if kind == "primary" else row.backup for row in plan.rows.values()}
            apart = {device for device, hop in rows.items() if hop is not None and box_of[device] is not box_of[hop.parent]}
            self.assertEqual({device for device, _ in drawn}, apart)
            for device, edge in drawn:
                self.assertIn(rows[device].link, numbers(edge["data-links"]))
                self.assertIn(rows[device].parent, numbers(edge["data-parents"]))
        self.assertEqual(names(section.all("g", "device", "root"), topology), {topology.devices[plan.root].name})
        self.assertEqual(names(section.all("g", "backup-root"), topology), {topology.devices[plan.backup_root].name})
        self.check_rows(section.one("div", "fabric"), topology, plan)

    def check_rows(self, fabric, topology, plan):
        """The list has each device once, below the one that it follows, with its hops."""
        devices, links = topology.devices, topology.links
        items = {int(item["id"].split("-")[2]): item for item in fabric.all("li") if item["id"]}
        self.assertEqual(sorted(items), plan.members(topology))
        for device, item in items.items():
            row, text = plan.rows.get(device), (item.children[0] if item.children[0].tag == "details" else item).children[0]
            text = text.text if text.tag == "summary" else item.text
            self.assertTrue(text.startswith(devices[device].name + " "), text)
            if row is None:
                continue
            above = item.parent
            while above.tag != "li" or not above["id"]:
                above = above.parent
            self.assertIs(above, items[row.primary.parent])
            backup = f"backup {devices[row.backup.parent].name} over {links[row.backup.link].name}" if row.backup else "no backup"
            self.assertIn(f"over {links[row.primary.link].name}, {backup}", text)

    def test_each_device_and_each_hop_is_drawn_once(self):
        for name in "triangle", "fabric":
            with self.subTest(name=name):
                here = EXAMPLES / name
                topology = read_topology(str(here / "topology.toml"))
                tree = page(here / "topology.toml", here / "plan.json", here / "plan-2.json")
                sections = tree.all("section", "plan")
                self.assertEqual([node["data-plan"] for node in sections], ["1", "2"])
                for section, file in zip(sections, ("plan.json", "plan-2.json")):
                    self.check_plan(section, topology, read_plan(str(here / file), topology))

    def test_the_page_of_a_plan_opens_with_its_table(self):
        """It is the table that sundial-why shows. Of a large plan it has the first rows, and says so."""
        with directory() as path:
            large = networks.written(path, *KINDS[1])
            found = [(EXAMPLES / "fabric" / "topology.toml", EXAMPLES / "fabric" / "plan.json", 11), (*large, 200)]
            for topology_path, plan_path, count in found:
                topology = read_topology(str(topology_path))
                plan = read_plan(str(plan_path), topology)
                section = page(topology_path, plan_path).one("section", "plan")
                table = section.one("table", "plan-rows")
                rows = [tuple(cell.text for cell in row.all("td")) for row in table.one("tbody").all("tr")]
                self.assertEqual(rows, list(plan_rows(Tree(topology, plan)))[:count])
                self.assertEqual([head.text for head in table.one("thead").all("th")], list(HEADS))
                caption = section.all("details")[0].one("summary").text
                self.assertTrue(caption.startswith("The table of ") and ("the first 200" in caption) == (count == 200), caption)
                tags = [node.tag for node in section.children]
                self.assertLess(tags.index("details"), tags.index("div"))
                self.assertIn(waits_said(plan, topology, human), section.one("p", "facts").text)

    def test_networks_of_many_kinds(self):
        """Each is drawn whole; no hop goes behind a box, no box lies on another, and the root is in sight on a narrow page."""
        for words in KINDS:
            with self.subTest(words), directory() as path:
                files = networks.written(path, *words)
                topology = read_topology(str(files[0]))
                plan = read_plan(str(files[1]), topology)
                section = page(*files).one("section", "plan")
                self.check_plan(section, topology, plan)
                picture = section.one("svg", "tree")
                self.check_hops(picture)
                self.check_sight(picture)

    def check_hops(self, picture):
        areas = boxes_of(picture)
        for place, (left, top, width, height) in enumerate(areas):
            for other in areas[place + 1 :]:
                self.assertFalse(left < other[0] + other[2] and other[0] < left + width and top < other[1] + other[3] and other[1] < top + height)
        for edge in picture.all("path", "edge"):
            for x, y in points(edge["d"]):
                for left, top, width, height in areas:
                    self.assertFalse(left + 1 < x < left + width - 1 and top + 1 < y < top + height - 1, (edge["d"], left, top))

    def check_sight(self, picture):
        """On a page of 390 pixels the picture is as narrow as it gets, and 366 of its pixels are seen."""
        (root,) = picture.all("g", "root")
        (rect,) = root.all("rect")
        least = float(picture["style"].removeprefix("min-width:").partition("px")[0]) / float(picture["viewbox"].split()[2])
        self.assertLessEqual((float(rect["x"]) + float(rect["width"])) * least, 366)

    def test_a_large_plan_folds_hosts_then_leaves_then_pods(self):
        def labels(*words):
            with directory() as path:
                picture = page(*networks.written(path, *words)).one("svg", "tree")
            return [text.text for box in picture.all("a", "box") for text in box.all("text", "count")]

        self.assertEqual(labels("leaf-spine", "--leaves", "6", "--hosts", "1"), [])
        self.assertEqual(labels(*KINDS[0]), [f"leaf{leaf}" for leaf in range(2, 13)])
        self.assertIn("59 alike", labels(*KINDS[1]))
        self.assertEqual(labels(*KINDS[2])[:8], ["agg1-2 +7", *(f"agg{pod}-1" for pod in range(2, 9))])
        self.assertIn("39 alike", labels(*KINDS[3]))

    def test_large_pages_are_small(self):
        for words in (*KINDS[:3], ("three-tier", "--cores", "4", "--pods", "31", "--leaves", "10", "--hosts", "12")):
            with self.subTest(words), directory() as path:
                files = networks.written(path, *words)
                status, out, err = tool(*files)
                self.assertEqual((status, err), (0, ""))
                self.assertLess(len(out.encode()), 1_000_000)
                picture = parse(out).one("svg", "tree")
                self.assertLess(len(picture.all("path", "edge")), 100)
                self.assertLessEqual(float(picture["width"]), 1000)

    def test_what_a_large_table_leaves_out_is_counted(self):
        with directory() as path:
            files = networks.written(path, *KINDS[2])
            topology = read_topology(str(files[0]))
            effects = Effects(topology, read_plan(str(files[1]), topology))
            tree = page(*files)
        found = {domain.text: effects.of(domain) for domain in all_named(topology)}
        rows = {row.all("td")[0].text for row in tree.one("table", "moves").one("tbody").all("tr")}
        out = {name for name, effect in found.items() if not effect.is_nothing} - rows
        self.assertIn(f"Left out here: {len(out)} links, each that of one device which nobody follows.", tree.text)
        for name in out:
            self.assertEqual((found[name].domain.kind, len(found[name].moves)), ("link", 1))

    def test_folded_boxes_lead_to_their_rows(self):
        with directory() as path:
            tree = page(*networks.written(path, *KINDS[1]))
        ids = {node["id"] for node in tree.walk() if node["id"]}
        links = [box["href"] for box in tree.one("svg", "tree").all("a", "box")]
        self.assertTrue(links and all(link.startswith("#plan-1-") and link[1:] in ids for link in links))
        self.assertTrue(tree.one("input", "find")["type"] == "search" and tree.one("input", "find").parent.tag == "label")

    def test_ranks_are_depths(self):
        here = EXAMPLES / "fabric"
        topology = read_topology(str(here / "topology.toml"))
        plan = read_plan(str(here / "plan.json"), topology)
        tree = page(here / "topology.toml", here / "plan.json")
        heights = {int(node["data-device"]): float(node.all("rect")[0]["y"]) for node in tree.all("g", "device")}
        for row in plan.rows.values():
            self.assertGreater(heights[row.device], heights[row.primary.parent])
        self.assertEqual(len(set(heights.values())), 3)

    def test_colour_tells_states_and_never_a_domain(self):
        here = EXAMPLES / "fabric"
        tree = page(here / "topology.toml", here / "plan.json")
        for node in tree.one("svg", "tree").walk():
            self.assertNotIn("fill", node.attributes)
        keys = {node.text for node in tree.all("span", "item")}
        self.assertLessEqual({"primary", "backup", "R root, B backup root", "moves to its backup"}, keys)

    def test_hops_within_a_row_do_not_hide_each_other(self):
        """Each such curve goes down to a level of its own, where it meets another one."""
        rows = [{"device": "m0", "parent": "r", "link": "a0", "backup": "m1", "backup_link": "c0"}]
        rows += [{"device": f"m{n}", "parent": "r", "link": f"a{n}", "backup": "m0", "backup_link": f"c{n - 1}"} for n in range(1, 7)]
        plan = {**json.loads((EXAMPLES / "triangle" / "plan.json").read_text()), "root": "r", "backup_root": "m0", "rows": rows}
        text = "version = 2\nppm = 1\ngrain = 1\nperiod = 9\ntick = 1\nloss = 1\ndepth = 3\nroots = [\"r\", \"m0\"]\n"
        text += "".join(f'[[device]]\nname = "{name}"\n' for name in ["r"] + [f"m{n}" for n in range(7)])
        links = [(f"a{n}", "r", f"m{n}") for n in range(7)] + [(f"c{n}", "m0", f"m{n + 1}") for n in range(6)]
        text += "".join(f'[[link]]\nname = "{name}"\nends = ["{one}", "{two}"]\nmin = 1\nmax = 2\n' for name, one, two in links)
        with directory() as path:
            (path / "t.toml").write_text(text)
            (path / "p.json").write_text(json.dumps(plan))
            tree = page(path / "t.toml", path / "p.json")
        curves = [node["d"] for node in tree.all("path", "edge", "backup")]
        depths = sorted(float(curve.replace("M", "").replace("C", " ").split()[3]) for curve in curves)
        self.assertEqual(len(depths), 7)
        self.assertGreaterEqual(min(after - before for before, after in zip(depths, depths[1:])), 12)

    def test_plans_stand_side_by_side_with_what_changed(self):
        here = EXAMPLES / "fabric"
        tree = page(here / "topology.toml", here / "plan.json", here / "plan-2.json")
        self.assertEqual(len(tree.one("div", "side-by-side").all("section", "plan")), 2)
        facts = [node.text for node in tree.one("section", "changes").all("li")]
        self.assertIn("The root is spine2 instead of spine1.", facts)
        self.assertIn("Left out: spine1.", facts)
        rows = [[cell.text for cell in row.all("td")] for row in tree.one("table", "changes-2").one("tbody").all("tr")]
        self.assertIn(["leaf1", "spine1 over leaf1-spine1", "spine2 over leaf1-spine2", "spine2 over leaf1-spine2", "spine3 over leaf1-spine3"], rows)
        first, second = tree.all("section", "plan")
        self.assertEqual(first.all("path", "changed"), [])
        changed = {(edge["data-devices"], "primary" in edge.classes) for edge in second.all("path", "changed")}
        topology = read_topology(str(here / "topology.toml"))
        before, after = (read_plan(str(here / name), topology) for name in ("plan.json", "plan-2.json"))
        self.assertEqual(
            changed,
            {(str(device), True) for device, row in after.rows.items() if row.primary != before.rows[device].primary}
            | {(str(device), False) for device, row in after.rows.items() if row.backup and row.backup != before.rows[device].backup},
        )

    def test_small_trees_stand_side_by_side_on_a_narrower_page(self):
        for name, plans, least in ("incident", ("plan.json", "plan.json"), "360"), ("fabric", ("plan.json", "plan-2.json"), "520"):
            here = EXAMPLES / name
            tree = page(here / "topology.toml", *(here / plan for plan in plans))
            self.assertEqual(tree.one("div", "side-by-side")["style"], f"--tree:{least}px")
            widest = max(float(node["width"]) for node in tree.one("section", "plans").all("svg"))
            self.assertEqual(int(least), max(360, min(520, widest)))

    def test_a_plan_that_goes_round_is_drawn_too(self):
        """Devices that no primary hop joins to the root are below all others, and are named."""
        here = EXAMPLES / "triangle"
        text = (here / "plan.json").read_text().replace('"link":"rb1","parent":"r"', '"link":"bx1","parent":"x"').replace('"link":"rx1","parent":"r"', '"link":"bx1","parent":"b"')
        with directory() as path:
            (path / "p.json").write_text(text)
            tree = page(here / "topology.toml", path / "p.json")
        self.assertEqual({int(node["data-device"]) for node in tree.one("svg", "tree").all("g", "device")}, {0, 1, 2})
        (lost,) = tree.all("ul", "lost")
        self.assertEqual([item.text.split(",")[0] for item in lost.all("li")], ["b backup root", "x follows b over bx1"])


def boxes_of(picture):
    """The boxes of a picture: left, top, width and height."""
    rects = [node.all("rect")[0] for node in picture.all("g", "device")] + picture.all("rect", "shared")
    return [tuple(float(rect[key]) for key in ("x", "y", "width", "height")) for rect in rects]


def points(path):
    """Points of a path of Bezier curves."""
    first, _, rest = path[1:].partition("C")
    numbers = [float(word) for word in f"{first} {rest}".split()]
    ends = list(zip(numbers[::2], numbers[1::2]))
    for place in range(0, len(ends) - 1, 3):
        for step in range(21):
            part = step / 20
            weights = (1 - part) ** 3, 3 * (1 - part) ** 2 * part, 3 * (1 - part) * part**2, part**3
            yield tuple(sum(weight * end[axis] for weight, end in zip(weights, ends[place : place + 4])) for axis in (0, 1))


def large_replay(path, plan_text):
    """The words for a page of a case of 256 leaves and 32 spines; its output is what the model of the tools says."""
    topology = parse_topology(case.network_text(256, 32))
    plan = {**json.loads(plan_text), "wait_first": 1345000000, "wait_second": 1345000000, "wait": 6730000000}
    (path / "topology").write_text(case.network_text(256, 32))
    (path / "plan").write_text(json.dumps(plan))
    plans = [read_plan(str(path / "plan"), topology)]
    made = case.Case(5, topology, plans, rounds=140)
    (path / "schedule").write_text(made.schedule())
    fleet, lines = Fleet(topology, plans), []
    for number, line in enumerate(made.lines, 1):
        event = parse_event(line)
        if event.word == "ask":
            lines.append("report {} {} {} {}".format(number, topology.devices[event.device].name, *fleet.report(event.device, event.counter)))
        fleet.happen(event)
    (path / "output").write_text("\n".join([*lines, f"done {len(made.lines)} {len(lines)}"]) + "\n")
    return [path / "topology", path / "plan", "--replay", path / "schedule", path / "output"]


def large(leaves, spines):
    """A topology of leaves and spines, a plan of it, and a drill in which each rack has a row of its own."""
    text = subprocess.run(
        [sys.executable, TOOLS.parent / "bench" / "schedule.py", "--network", str(leaves), str(spines)],
        stdout=subprocess.PIPE,
        text=True,
        check=True,
    ).stdout
    rows = [{"device": "s1", "parent": "l0", "link": "k0-1", "backup": "l1", "backup_link": "k1-1"}]
    rows += [
        {"device": f"s{n}", "parent": "l0", "link": f"k0-{n}", "backup": "l1", "backup_link": f"k1-{n}"}
        for n in range(2, spines)
    ]
    rows += [
        {"device": f"l{n}", "parent": "s0", "link": f"k{n}-0", "backup": "s1", "backup_link": f"k{n}-1"}
        for n in range(leaves)
    ]
    plan = {
        "version": 1,
        "root": "s0",
        "backup_root": "s1",
        "wait_first": 1,
        "wait_second": 1,
        "wait": 1,
        "absent_devices": [],
        "absent_links": [],
        "rows": rows,
    }
    devices = [f"s{n}" for n in range(spines)] + [f"l{n}" for n in range(leaves)]
    domains = [f"listed rack{n}" for n in range(leaves)] + ["link k0-0", "link k1-0"]
    lines = []
    for domain in domains:
        gone = domain.replace("listed rack", "l")
        lines += [
            f"nobound {domain} {name}" if name == gone else f"bound {domain} {name} {10**6 + len(name)}"
            for name in devices
        ]
    return text, json.dumps(plan), "\n".join(lines + [f"done {len(domains)} {len(devices)}"]) + "\n"


class UnderADomain(unittest.TestCase):
    def test_who_moves_is_marked(self):
        here = EXAMPLES / "triangle"
        topology = read_topology(str(here / "topology.toml"))
        tree = page(here / "topology.toml", here / "plan.json", "--domain", "device r")
        for state, expected in ("failed", {"r"}), ("moves", {"b", "x"}), ("acts", {"b"}), ("cut", set()):
            self.assertEqual(names(tree.all("g", "device", state), topology), expected, state)
        self.assertEqual(len(tree.all("path", "backup", "taken")), 2)
        self.assertEqual(len(tree.all("path", "primary", "left")), 2)
        (chosen,) = [node for node in tree.all("option") if "selected" in node.attributes]
        self.assertEqual(chosen.text, "device r")
        self.assertIn("2 of 2 devices may move to their backups. b takes over as root.", tree.one("p", "effect").text)

    def test_a_failed_link(self):
        here = EXAMPLES / "triangle"
        tree = page(here / "topology.toml", here / "plan.json", "--domain", "link rx1")
        (failed,) = tree.all("path", "edge", "failed")
        self.assertEqual((failed["data-devices"], "primary" in failed.classes), ("2", True))
        self.assertEqual([node["data-device"] for node in tree.all("g", "moves")], ["2"])

    def test_what_fails_is_seen_in_folded_boxes(self):
        with directory() as path:
            files = networks.written(path, *KINDS[2])
            topology = read_topology(str(files[0]))
            effect = Effects(topology, read_plan(str(files[1]), topology)).of(find_named(topology, "device agg3-1"))
            tree = page(*files, "--domain", "device agg3-1")
        picture = tree.one("svg", "tree")
        for state, devices in effect.states.items():
            self.assertEqual({int(node["data-device"]) for tag in ("g", "rect") for node in picture.all(tag, "device", state)}, devices, state)
        self.assertEqual((len(effect.moving), len(effect.cut)), (12, 0))

    def test_without_script_a_table_says_who_moves_where(self):
        here = EXAMPLES / "triangle"
        tree = page(here / "topology.toml", here / "plan.json")
        rows = [[cell.text for cell in row.all("td")] for row in tree.one("table", "moves").one("tbody").all("tr")]
        self.assertIn(["device r", "2", "r: b; b: x", "", "b", "", ""], rows)
        self.assertIn(["link rx1", "1", "b: x", "", "r", "", ""], rows)
        self.assertIn("hidden", tree.one("div", "chooser").attributes)

    def test_who_moves_has_a_backup(self):
        """Hosts hang on one leaf: they hear nothing, and do not move. The table, the sentence and readiness count alike."""
        with directory() as path:
            files = networks.written(path, "leaf-spine", "--leaves", "4", "--hosts", "2")
            tree = page(*files, "--domain", "device spine1")
            topology = read_topology(str(files[0]))
            effects = Effects(topology, read_plan(str(files[1]), topology))
        heads = [head.text for head in tree.one("table", "moves").all("th")]
        rows = {row.all("td")[0].text: dict(zip(heads, (cell.text for cell in row.all("td")))) for row in tree.one("table", "moves").one("tbody").all("tr")}
        self.assertEqual((rows["device spine1"]["who moves"], rows["link host2-1-leaf2"]["who moves"]), ("6", "0"))
        self.assertEqual((rows["link host2-1-leaf2"]["no backup"], rows["link host2-1-leaf2"]["cut off"]), ("host2-1", "host2-1"))
        self.assertIn("6 of 14 devices may move", tree.one("p", "effect").text)
        found = {domain.text: effects.of(domain) for domain in all_named(topology)}
        self.assertEqual({name for name, effect in found.items() if not effect.is_nothing}, set(rows))
        for name, row in rows.items():
            self.assertEqual(int(row["who moves"]), len(found[name].moving), name)
        moved = sum(bool(effect.moving) for effect in found.values())
        (caption,) = [node.text for node in tree.all("summary") if node.text.startswith("Who moves where")]
        self.assertEqual(caption, f"Who moves where, under each of {moved} domains")

    def test_the_script_has_the_same_marks(self):
        here = EXAMPLES / "fabric"
        tree = page(here / "topology.toml", here / "plan.json", "--domain", "listed feed-a")
        said = json.loads(tree.one("script", "effects").text)
        (chosen,) = [node for node in tree.all("option") if "selected" in node.attributes]
        sentence, states, _ = said[int(chosen["value"])]
        self.assertEqual(sentence, tree.one("p", "effect").text)
        for state, devices in states.items():
            self.assertEqual({int(node["data-device"]) for node in tree.all("g", "device", state)}, numbers(devices))

    def test_a_domain_that_is_not_there(self):
        here = EXAMPLES / "triangle"
        status, out, err = tool(here / "topology.toml", here / "plan.json", "--domain", "listed nowhere")
        self.assertEqual((status, out), (1, ""))
        self.assertIn("there is no fault domain 'listed nowhere'", err)

    def test_effects_are_those_of_the_conditions(self):
        for name, file, plan_file in (
            ("fabric", "topology.toml", "plan.json"),
            ("fabric", "topology.toml", "plan-2.json"),
            ("triangle", "topology.toml", "plan.json"),
            ("refused", "topology.toml", "reach.json"),
            ("refused", "topology.toml", "loop.json"),
            ("refused", "tray-domain.toml", "domain.json"),
        ):
            topology = read_topology(str(EXAMPLES / name / file))
            plan = read_plan(str(EXAMPLES / name / plan_file), topology)
            effects = Effects(topology, plan)
            for domain in all_named(topology):
                with self.subTest(plan=plan_file, domain=domain.text):
                    effect = effects.of(domain)
                    found = {move.device for move in effect.moves}, set(effect.cut), set(effect.silent)
                    self.assertEqual(found, slow_effect(topology, plan, domain))


def slow_effect(topology, plan, domain):
    """Who is hit, cut off, or joined and never fed, as docs/CONDITIONS.md says it."""
    members = set(plan.members(topology))
    acts = plan.root if plan.root not in domain.devices else plan.backup_root
    gone = set(domain.devices)
    hit = {device for device in members - gone if device in plan.rows and is_hit(plan, domain, device)}
    joined = {acts} - gone
    usable = [
        link
        for link in topology.links
        if link.number not in plan.absent_links
        and link.number not in domain.links
        and not members.isdisjoint(link.ends)
        and set(link.ends) <= members - gone
    ]
    fed = {device for device in members - gone if device in (acts, plan.backup_root) or device not in hit}
    for _ in members:
        for link in usable:
            if joined.intersection(link.ends):
                joined.update(link.ends)
        for device in hit:
            hop = plan.rows[device].backup or plan.rows[device].primary
            if hop.link not in domain.links and hop.parent in fed:
                fed.add(device)
    return (
        hit,
        {device for device in hit - fed if device not in joined},
        {device for device in hit - fed if device in joined},
    )


def is_hit(plan, domain, device):
    seen = 0
    while device in plan.rows and seen <= len(plan.rows):
        hop = plan.rows[device].primary
        if hop.link in domain.links or hop.parent in domain.devices:
            return True
        if hop.parent in (plan.root, plan.backup_root):
            return False
        device, seen = hop.parent, seen + 1
    return False


class Refused(unittest.TestCase):
    def refused(self, condition, topology="topology.toml"):
        here = EXAMPLES / "refused"
        text = outputs("refused")[f"sundial check {topology} {condition}.json"]
        with directory() as path:
            (path / "check").write_text(text)
            tree = page(here / topology, here / f"{condition}.json", "--check", path / "check")
        said = tree.one("p", "refused")
        self.assertEqual((said["data-condition"], said.one("code").text + "\n"), (condition, text))
        self.assertTrue(said.text.startswith(f"{text.strip()} "), said.text)
        marked = names(tree.all("g", "device", "breach"), read_topology(str(here / topology)))
        edges = [edge for edge in tree.all("path", "edge", "breach")]
        return tree, marked, edges

    def test_a_cycle(self):
        tree, marked, edges = self.refused("loop")
        self.assertEqual((marked, len(edges)), ({"l2", "l3"}, 2))
        self.assertEqual(
            {edge["data-parents"] for edge in edges},
            {device for edge in edges for device in edge["data-devices"].split()},
        )
        self.assertIn("Under device s1", tree.one("p", "effect").text)

    def test_a_chain(self):
        _, marked, _ = self.refused("reach")
        self.assertEqual(marked, {"l3"})

    def test_devices(self):
        for condition, topology in (
            ("structure", "topology.toml"),
            ("ancestor", "topology.toml"),
            ("domain", "tray-domain.toml"),
        ):
            with self.subTest(condition):
                text = outputs("refused")[f"sundial check {topology} {condition}.json"]
                _, marked, edges = self.refused(condition, topology)
                self.assertEqual((marked, edges), ({text.split()[-1]}, []))

    def test_a_link(self):
        _, marked, edges = self.refused("root", "tray-root.toml")
        self.assertEqual(marked, set())
        self.assertTrue(edges and all("b2:" in edge.title or " b2," in edge.title for edge in edges))

    def test_timing_marks_nothing(self):
        _, marked, edges = self.refused("timing")
        self.assertEqual((marked, edges), (set(), []))

    def test_a_refusal_in_a_drill_or_a_replay(self):
        here = EXAMPLES / "refused"
        with directory() as path:
            (path / "out").write_text("refused plan 1 loop device s1 cycle l2 l3\n")
            (path / "schedule").write_text("end 0\n")
            for words in ("--drill", path / "out"), ("--replay", path / "schedule", path / "out"):
                tree = page(here / "topology.toml", here / "loop.json", *words)
                self.assertEqual(len(tree.all("g", "device", "breach")), 2)

    def test_bad_refusals(self):
        here = EXAMPLES / "triangle"
        for text, reason in (
            ("refused plan 1 loop device s1 cycle l2 l3\n", "no such thing"),
            ("refused plan 3 ancestor device b\n", "the refusal is of plan 3, and there are 1"),
            ("refused plan 1 loop", "cut short"),
            ("done 3 1\n", "no line of a check"),
            ("refused\n", "no line that sundial prints"),
            ("", "it is empty"),
            (b"accepted 3 3 0\nrefused \xff\n", "check:2: not UTF-8: invalid start byte at byte 9 of the line"),
        ):
            with self.subTest(reason), directory() as path:
                (path / "check").write_bytes(text if isinstance(text, bytes) else text.encode())
                status, out, err = tool(here / "topology.toml", here / "plan.json", "--check", path / "check")
                self.assertEqual((status, out), (1, ""))
                self.assertIn(reason, err)


def numbered(topology, plan, base, hold):
    """What `sundial drill` and `sundialctl bounds` print, by the definitions."""
    bounds = list(Numbers(topology, plan, base, hold).lines())
    drill = []
    for line in bounds:
        words = line.split(" ")
        drill.append({"bounds": f"bound {' '.join(words[1:5])}", "nobound": " ".join(words[:4])}.get(words[0], line))
    return "".join(f"{line}\n" for line in drill), "".join(f"{line}\n" for line in bounds)


class Drills(unittest.TestCase):
    def setUp(self):
        self.lines = [line.split() for line in outputs("fabric")[DRILL].splitlines()]
        with directory() as path:
            self.tree = whole("fabric", path).one("section", "drill")

    def rows(self, name, tree=None):
        table = (tree or self.tree).one("table", name)
        heads = [head.text for head in table.one("thead").all("th")]
        return [dict(zip(heads, row.all("th") + row.all("td"))) for row in table.one("tbody").all("tr")]

    def hosts(self, *words):
        """The drill of a fabric with hosts."""
        with directory() as path:
            files = networks.written(path, "leaf-spine", "--leaves", "4", "--hosts", "3")
            topology = read_topology(str(files[0]))
            plan = read_plan(str(files[1]), topology)
            numbers = Numbers(topology, plan, 10**6, default_hold(topology, plan))
            (path / "drill").write_text(numbered(topology, plan, 10**6, default_hold(topology, plan))[0])
            (path / "bounds").write_text(numbered(topology, plan, 10**6, default_hold(topology, plan))[1])
            return page(*files, "--drill", path / "drill", "--bounds", path / "bounds", *words).one("section", "drill"), topology, numbers

    def test_the_map_has_a_cell_for_each_row_and_device(self):
        """Few devices have a column each, and all domains are counted."""
        rows = self.rows("heat")
        devices = [name for name in rows[0] if re.fullmatch("([RB] )?(leaf|spine)[0-9]", name)]
        self.assertEqual(devices, ["R spine1", "B spine2", *(f"leaf{leaf}" for leaf in range(1, 9)), "spine3"])
        self.assertEqual(sum(int(row["alike"].text) for row in rows), int(self.lines[-1][1]))
        said = {(f"{line[1]} {line[2]}", line[3]): int(line[4]) if line[0] == "bound" else None for line in self.lines[:-1]}
        for row in rows:
            for domain in row["domain"]["title"].split(" and ")[0].split(", "):
                for name in devices:
                    bound = said[domain, name.split(" ")[-1]]
                    self.assertEqual(row[name].text, "none" if bound is None else in_unit(bound, 10**6), (domain, name))

    def test_shades_go_from_the_least_to_the_greatest(self):
        bounds = [int(line[4]) for line in self.lines if line[0] == "bound"]
        shades = {}
        for row in self.rows("heat"):
            for cell in row.values():
                if "cell" in cell.classes:
                    shades.setdefault(cell.classes[-1], set()).add(cell.text)
        self.assertIn(in_unit(min(bounds), 10**6), shades["a0"])
        self.assertIn(in_unit(max(bounds), 10**6), shades["a8"])
        self.assertEqual(shades["hx"], {"none"})
        ramp = self.tree.one("p", "ramp").text
        self.assertTrue(ramp.startswith(f"{clear(min(bounds))} ") and clear(max(bounds)) in ramp, ramp)

    def test_base_and_hold_stand_with_the_numbers_and_make_them(self):
        self.assertTrue(self.tree.one("p", "facts").text.startswith("BASE 1 us, HOLD 3 ms. 46 domains, 11 devices."))
        worst = {}
        for line in self.lines:
            if line[0] == "bound":
                worst[line[3]] = max(worst.get(line[3], 0), int(line[4]))
        seen = set()
        for row in self.rows("by-device"):
            heads = {head.split(",")[0]: cell for head, cell in row.items()}
            bound = microseconds(heads["worst eps"].text)
            for name in row["device"].text.split(", "):
                self.assertEqual(worst[name], bound)
                seen.add(name)
            bar = row["what makes it"].one("span", "parts")
            self.assertEqual([part.classes[1] for part in bar.all("i", "part")], ["base", "roots", "hold", "way", "silence"])
            self.assertIn("BASE: 1 us; the way between the two roots: 1.2 us", bar["aria-label"])
            self.assertAlmostEqual(sum(float(part["style"][4:-1]) for part in bar.all("i", "part")), 100 * bound / max(worst.values()), 1)
        self.assertEqual(seen, set(worst))

    def test_the_parts_of_every_number(self):
        for words in (("leaf-spine", "--leaves", "2", "--hosts", "1", "--host-links", "2"), ("three-tier", "--pods", "2", "--leaves", "1"), ("mesh", "--links-each", "3")):
            text, topology = networks.made(*words)
            plan = planned(topology, topology.roots[0], (), ())
            numbers, makeup = Numbers(topology, plan, 700, 10**9), Makeup(topology, plan, 700, 10**9)
            for domain, named in zip(domains(topology), all_named(topology)):
                for device, both in numbers.under(domain):
                    if both is not None:
                        self.assertEqual(sum(makeup.of(named, device)), both[0], (words, named, device))

    def test_a_drill_of_another_base_or_hold(self):
        here = EXAMPLES / "fabric"
        with directory() as path:
            (path / "drill").write_text(outputs("fabric")[DRILL])
            files = [here / "topology.toml", here / "plan.json", "--drill", path / "drill"]
            section = page(*files).one("section", "drill")
            topology = read_topology(str(files[0]))
            hold = clear(default_hold(topology, read_plan(str(files[1]), topology)))
            self.assertTrue(section.one("p", "facts").text.startswith(f"BASE and HOLD are not BASE 1 us, HOLD {hold}: give --base and --hold"))
            self.assertEqual(section.all("span", "parts"), [])
            status, _, err = tool(*files, "--base", "2us")
        self.assertEqual(status, 1)
        self.assertIn(f"it is no drill of this plan with BASE 2 us, HOLD {hold}", err)

    def test_hosts_are_what_readers_ask_for(self):
        section, topology, numbers = self.hosts()
        heads = list(self.rows("heat", section)[0])
        self.assertEqual(heads[4:], [f"host{leaf}-{host}" for leaf in range(1, 5) for host in range(1, 4)])
        self.assertIn("Shown: 12 devices, the hosts", section.one("p", "facts").text)
        (row,) = self.rows("by-device", section)
        self.assertEqual(microseconds(row["calm, us"].text), numbers.calm(topology.device_numbers["host1-1"]))
        self.assertIn("host1-1, host1-2", row["device"].text)
        first = self.rows("heat", section)[0]
        self.assertEqual(first["domain"].text, "device spine1 and 2 alike")

    def test_of_which_devices(self):
        section, *_ = self.hosts("--of", "leaf[12]", "--of", "spine*")
        self.assertEqual(list(self.rows("heat", section)[0])[4:], ["R spine1", "B spine2", "leaf1", "leaf2", "spine3"])
        section, *_ = self.hosts("--of", "*")
        self.assertEqual(list(self.rows("heat", section)[0])[4:], ["R spine1", "B spine2", "host1-1 and 11 alike", "leaf1 and 3 alike", "spine3"])
        here = EXAMPLES / "fabric"
        with directory() as path:
            (path / "drill").write_text(outputs("fabric")[DRILL])
            err = tool(here / "topology.toml", here / "plan.json", "--drill", path / "drill", "--of", "nobody*")[2]
        self.assertIn("no device has a name like nobody*", err)

    def test_bad_drills(self):
        here, text = EXAMPLES / "fabric", outputs("fabric")[DRILL]
        lines = text.splitlines(keepends=True)
        for bad, reason in (
            (text[:-1], "cut short"),
            ("".join(lines[:-1]), "it has no line done"),
            ("", "cut short"),
            ("".join(lines[:20] + lines[21:]), "out of order"),
            ("".join(lines[:10] + lines[11:]), "out of order"),
            (text.replace(lines[-1], "done 1 1\n"), "done says 1 1"),
            (text + lines[0], "a line after the last one"),
            ("".join(lines[:5]) + "bound listed\n", "no line of a drill"),
            ("input plan 1 NotJson\n", "sundial refused its input"),
            (
                lines[0].replace("leaf1", "leaf99").replace("spine1", "spine99") + "done 1 1\n",
                "the topology has no device",
            ),
        ):
            with self.subTest(reason), directory() as path:
                (path / "drill").write_text(bad)
                status, _, err = tool(
                    here / "topology.toml", here / "plan.json", "--drill", path / "drill", "--output", path / "page"
                )
                self.assertEqual(status, 1)
                self.assertIn(reason, err)
                self.assertEqual([file.name for file in path.iterdir()], ["drill"])


class Replays(unittest.TestCase):
    def marks(self, tree):
        """How many marks of each kind stand in the table."""
        kinds = [row.all("td")[2].text for row in tree.one("table", "marks").one("tbody").all("tr")]
        return {kind: kinds.count(kind) for kind in kinds}

    def test_each_report_is_a_dot_in_both_panels_and_a_row(self):
        for name in "triangle", "fabric":
            with self.subTest(name), directory() as path:
                tree = whole(name, path)
                reports = [line.split() for line in outputs(name)[REPLAY].splitlines() if line.startswith("report")]
                (linear, log), (off,) = (tree.one("div", "plot", panel).all("svg") for panel in ("eps", "off"))
                for panel in linear, log, off:
                    dots = panel.all("path", "dots")
                    self.assertEqual(sum(int(node["data-count"]) for node in dots), len(reports))
                    self.assertEqual(sum(node["d"].count("h0") for node in dots), len(reports))
                    self.assertEqual(panel.all("path", "wrong"), [])
                rows = [[cell.text for cell in row.all("td")] for row in tree.one("table", "reports").one("tbody").all("tr")]
                self.assertEqual(
                    sorted((row[0], row[2], microseconds(row[4])) for row in rows),
                    sorted((line[1], line[2], int(line[4])) for line in reports),
                )
                heads = [node.text for node in tree.one("table", "reports").one("thead").all("th")]
                self.assertEqual(heads, ["line", "from the first event, ms", "device", "clock, ms", "eps, us", "off, us", "of its eps", "rests on"])
                for row in rows:
                    self.assertIn(row[2], row[7])

    def test_what_happened_is_marked_at_its_line(self):
        with directory() as path:
            tree = whole("triangle", path)
        self.assertEqual(self.marks(tree), {"fail": 1, "move": 1, "takeover": 1, "stage": 1, "commit": 1, "close": 1})
        schedule = (EXAMPLES / "triangle" / "schedule.txt").read_text().splitlines()
        failed = next(place for place, line in enumerate(schedule, 1) if line.startswith("fail"))
        (mark,) = tree.all("b", "mark", "fail")
        self.assertEqual((mark["data-line"], mark["data-count"]), (str(failed), "1"))
        moved, taken = (int(tree.one("b", "mark", kind)["data-line"]) for kind in ("move", "takeover"))
        self.assertTrue(failed < moved < taken)
        self.assertTrue(schedule[moved - 1].startswith("tick") and schedule[taken - 1].startswith("tick"))
        self.assertTrue(tree.one("b", "mark", "takeover")["title"].endswith(": takeover b"))

    def test_each_device_has_a_track_with_its_modes(self):
        with directory() as path:
            tree = whole("triangle", path)
        tracks = {row.one("div", "name").text: row for row in tree.all("div", "track")}
        self.assertEqual(set(tracks), {"plans, links", "r", "b", "x"})
        states = {name: {node.classes[-1] for node in row.all("path", "state")} for name, row in tracks.items()}
        self.assertEqual(states["r"], {"acting"})
        self.assertEqual(states["b"], {"primary", "waiting", "acting"})
        said = tracks["b"].one("svg")["aria-label"]
        self.assertTrue(said.startswith("b: primary from 0 to "), said)
        rows = [[cell.text for cell in row.all("td")] for row in tree.one("table", "spans").one("tbody").all("tr")]
        self.assertEqual([row[1] for row in rows if row[0] == "r"], ["acting", "down"])
        for before, after in zip(rows, rows[1:]):
            if before[0] == after[0]:
                self.assertEqual(before[3], after[2])

    def test_each_device_has_a_line_and_percentiles(self):
        with directory() as path:
            tree = whole("fabric", path)
        drawn = [device for node in tree.one("div", "eps").all("svg")[0].all("path", "line") for device in node["data-devices"].split()]
        self.assertEqual(sorted(map(int, drawn)), list(range(11)))
        rows = tree.one("table", "percentiles").one("tbody").all("tr")
        eps = {}
        for line in outputs("fabric")[REPLAY].splitlines():
            if line.startswith("report"):
                eps.setdefault(line.split()[2], []).append(int(line.split()[4]))
        self.assertEqual(
            {row.all("td")[0].text: int(row.all("td")[1].text) for row in rows},
            {name: len(found) for name, found in eps.items()},
        )
        for row in rows:
            cells = row.all("td")
            self.assertEqual(int(cells[2]["data-value"]), min(eps[cells[0].text]))
            self.assertEqual(int(cells[6]["data-value"]), max(eps[cells[0].text]))

    def bounded(self, name, path, *words):
        """The page of an example with its replay and the bounds of its plan, and the calm numbers."""
        here = EXAMPLES / name
        topology = read_topology(str(here / "topology.toml"))
        numbers = Numbers(topology, read_plan(str(here / "plan.json"), topology), 1000000, 3000000000)
        (path / "bounds").write_text("".join(f"{line}\n" for line in numbers.lines()))
        calm = {topology.devices[device].name: numbers.calm(device) for device in numbers.members}
        return whole(name, path, "--bounds", path / "bounds", *words), calm

    def test_what_a_healthy_fabric_stays_below(self):
        for name in "triangle", "fabric":
            with self.subTest(name), directory() as path:
                tree, calm = self.bounded(name, path)
                for panel in tree.one("div", "plot", "eps").all("svg"):
                    (line,) = panel.all("path", "calm")
                    self.assertTrue(line.one("title").text.startswith(clear(max(calm.values()))))
                    self.assertTrue(line["d"].endswith("H1000"))
                self.assertEqual(len(tree.one("p", "legend", "lines").all("i", "calm")), 1)
                heads = [node.text for node in tree.one("table", "percentiles").one("thead").all("th")]
                self.assertTrue(heads[-1].startswith("calm number, "))
                rows = [row.all("td") for row in tree.one("table", "percentiles").one("tbody").all("tr")]
                self.assertTrue(rows)
                self.assertEqual({row[0].text: int(row[-1]["data-value"]) for row in rows}, {row[0].text: calm[row[0].text] for row in rows})
                self.assertIn("output of bounds", [row.all("td")[0].text for row in tree.one("table", "files").one("tbody").all("tr")])
        with directory() as path:
            tree = whole("triangle", path)
        self.assertEqual(tree.all("path", "calm") + tree.all("i", "calm"), [])

    def test_bounds_of_a_refused_plan(self):
        here = EXAMPLES / "triangle"
        with directory() as path:
            (path / "bounds").write_text("refused plan 1 structure 6 device x\n")
            tree = page(here / "topology.toml", here / "plan.json", "--bounds", path / "bounds")
        self.assertEqual(tree.one("section", "verdict")["data-verdict"], "refused")

    def test_bad_bounds(self):
        here = EXAMPLES / "triangle"
        with directory() as path:
            self.bounded("triangle", path)
            text = (path / "bounds").read_text()
        lines = text.splitlines(keepends=True)
        for bad, reason in (
            (text[:-1], "cut short"),
            ("".join(lines[:-1]), "it has no line done"),
            ("", "cut short"),
            ("".join(lines[1:]), "done says"),
            (text + lines[0], "a line after the last one"),
            ("".join(lines[:3]) + "bounds listed\n", "no line of bounds"),
            (lines[0].replace(" r ", " y ", 1).replace(" r ", " y "), "the topology has no device"),
            (lines[0] + lines[0].replace("\n", "0\n"), "has two calm numbers"),
            (outputs("triangle")[DRILL], "no line of bounds"),
            ("input plan 1 NotJson\n", "sundial refused its input"),
        ):
            with self.subTest(reason), directory() as path:
                (path / "bounds").write_text(bad)
                status, _, err = tool(
                    here / "topology.toml", here / "plan.json", "--bounds", path / "bounds", "--output", path / "page"
                )
                self.assertEqual(status, 1)
                self.assertIn(reason, err)
                self.assertEqual([file.name for file in path.iterdir()], ["bounds"])

    def test_what_is_at_the_edge_is_seen_whole(self):
        with directory() as path:
            tree = whole("triangle", path)
        for node in tree.all("b", "mark") + tree.one("div", "axis", "top").all("span", "none"):
            self.assertTrue(0.005 < float(node["style"].removeprefix("--x:")) < 0.995)
        for panel in tree.one("div", "plot", "eps").all("svg") + tree.one("div", "plot", "off").all("svg"):
            for dots in panel.all("path", "dots"):
                for x, y in (dot[1:-2].split(" ") for dot in re.findall("M[^M]*h0", dots["d"])):
                    self.assertTrue(5 < float(x) < 995 and 3 < float(y) < 217, dots["d"])

    def test_times_are_from_the_first_event(self):
        """A schedule that begins at a reference of years has the times of one that begins at 0."""
        begin = 10**18
        here = EXAMPLES / "triangle"
        schedule = [line.split(" ") for line in (here / "schedule.txt").read_text().splitlines()]
        moved = []
        for words in schedule:
            words[1] = str(int(words[1]) + begin)
            if words[0] in ("start", "join", "fix"):
                words[4] = str(int(words[4]) + begin)
            moved.append(" ".join(words) + "\n")
        with directory() as path:
            said = [line.split(" ") for line in outputs("triangle")[REPLAY].splitlines()]
            for words in said:
                if words[0] == "report":
                    words[3] = str(int(words[3]) + begin)
            (path / "schedule").write_text("".join(moved))
            (path / "output").write_text("".join(" ".join(words) + "\n" for words in said))
            plans = [here / "topology.toml", here / "plan.json", here / "plan-2.json"]
            later = page(*plans, "--replay", path / "schedule", path / "output").one("section", "replay")
            tree = whole("triangle", path).one("section", "replay")
        self.assertIn("the first at the reference 1,000,000 s", later.one("p", "facts").text)
        for name in "marks", "reports", "spans":
            rows = [[cell.text for cell in row.all("td")][:7] for row in tree.one("table", name).one("tbody").all("tr")]
            self.assertEqual([[cell.text for cell in row.all("td")][:7] for row in later.one("table", name).one("tbody").all("tr")], rows)
        self.assertEqual([node["d"] for node in later.all("path", "line")], [node["d"] for node in tree.all("path", "line")])

    def test_lines_that_lie_on_each_other_are_told_apart(self):
        """Two lines that part at the end: the later one is dashed, so that the one below it is seen."""
        topology = read_topology(str(EXAMPLES / "triangle" / "topology.toml"))
        peaks = Peaks()
        for ref in range(0, 1000, 10):
            for device, value in (0, 1000), (1, 1000 + 3 * max(0, ref - 500)), (2, 5000):
                peaks.add(device, ref, value, value)
        view = ReplayView(topology, Replay(peaks=peaks, origin=0, last=1000))
        self.assertEqual((view.lines, view.dashed), ([[0], [1], [2]], [False, True, False]))

    def test_lines_that_coincide_are_told(self):
        peaks = Peaks()
        for ref in range(0, 1000, 10):
            for device in 0, 1:
                peaks.add(device, ref, ref, ref // 2)
            peaks.add(2, ref, ref, ref)
        topology = read_topology(str(EXAMPLES / "triangle" / "topology.toml"))
        view = ReplayView(topology, Replay(peaks=peaks, origin=0, last=1000))
        self.assertEqual(view.lines, [[0, 1], [2]])
        self.assertEqual(view.colour, {0: 0, 1: 0, 2: 1})

    def test_lines_that_nowhere_differ_visibly_are_one(self):
        """Devices tick at other moments, so that their eps is known in other intervals, and a fall comes one interval later."""
        one = Drawn([Interval(100, 100), None, Interval(140, 20), None, Interval(60, 60)])
        self.assertTrue(one.coincides(Drawn([Interval(101, 101), Interval(121, 121), None, Interval(142, 21), Interval(61, 61)]), 2))
        self.assertFalse(one.coincides(Drawn([Interval(100, 100), None, Interval(140, 140), None, Interval(180, 180)]), 2))
        self.assertFalse(one.coincides(Drawn([Interval(100, 100)]), 2))

    def test_the_envelope_is_the_greatest_of_all(self):
        rows = [[Interval(10, 4), None, None, Interval(10, 2)], [None, Interval(5, 5), Interval(9, 1)]]
        self.assertEqual(greatest(rows), [10, 6, 9, 10])

    def test_broken_premises_and_alarms(self):
        command = "sundial replay topology.toml plan.json plan.json schedule.txt"
        with directory() as path:
            tree = replayed("incident", "schedule.txt", command, path, plans=2)
        said = outputs("incident")[command].splitlines()
        marks = self.marks(tree)
        self.assertEqual(marks["broken"], sum(line.startswith("broken") for line in said))
        self.assertEqual(marks["alarm"], sum(line.startswith("alarm") for line in said))
        listed = [[cell.text for cell in row.all("td")] for row in tree.one("table", "marks").one("tbody").all("tr")]
        signs = " ".join(node["title"] for node in tree.one("div", "track", "wrong").all("b", "mark"))
        for line in said:
            if line.startswith(("broken", "alarm")):
                self.assertIn(line, signs)
                self.assertTrue([row for row in listed if row[3].startswith(line)])
        bands = [node.classes[-1] for node in tree.one("div", "bands").all("div", "band")]
        self.assertEqual((bands.count("void"), bands.count("broken"), bands.count("alarm")), (1, 2, 2))
        self.assertIn("spine1 reached leaf over spine1-leaf after 1.9 us", " ".join(row[3] for row in listed))
        wrong = sum(" interval " in line for line in said)
        dots = [node for node in tree.all("path", "dots", "wrong")]
        self.assertEqual(sum(int(node["data-count"]) for node in dots), 3 * wrong)

    def test_random_histories(self):
        """Of rings, meshes, stars and tiers, with failures and renewals; in half of them premises break."""
        for number in range(2 * len(worlds.KINDS)):
            made = worlds.World(number, rounds=10, bad=number >= len(worlds.KINDS))
            lines = plain(made.topology, made.plans, made.lines)
            with self.subTest(number), directory() as path:
                topology, plans = made.files(path)
                (path / "schedule").write_text("".join(made.lines))
                (path / "output").write_text("".join(f"{line}\n" for line in lines))
                tree = page(topology, *plans, "--replay", path / "schedule", path / "output")
            words = [line.split()[0] for line in lines]
            kind = next((kind for kind in ("alarm", "broken") if kind in words), "safe")
            self.assertEqual(tree.one("section", "verdict")["data-verdict"], kind)
            self.assertEqual(self.marks(tree).get("broken", 0), words.count("broken"))
            self.assertIn(f" {words.count('report')} reports.", tree.one("section", "replay").one("p", "facts").text)

    def test_outputs_of_order(self):
        for schedule in "schedule.txt", "lying.txt":
            command = f"sundial order topology.toml plan.json {schedule}"
            said = outputs("commit-wait")[command].splitlines()
            with self.subTest(schedule), directory() as path:
                tree = replayed("commit-wait", schedule, command, path)
                marks = self.marks(tree)
                for kind in "alarm", "disorder":
                    self.assertEqual(marks.get(kind, 0), sum(line.startswith(kind) for line in said))

    def test_a_replay_that_ends_at_a_refused_line(self):
        here = EXAMPLES / "triangle"
        lines = (here / "schedule.txt").read_text().splitlines(keepends=True)
        with directory() as path:
            (path / "schedule").write_text("".join(lines[:7]) + lines[0] + lines[8])
            (path / "output").write_text("input schedule 8 StartedTwice\n")
            tree = page(here / "topology.toml", here / "plan.json", "--replay", path / "schedule", path / "output")
            self.assertIn("input schedule 8 StartedTwice", tree.one("section", "replay").one("p", "refused").text)
            self.assertIn("7 events", tree.one("section", "replay").one("p", "facts").text)
            (path / "schedule").write_text("".join(lines[:7]))
            (path / "output").write_text("input schedule 8 NoEnd\n")
            tree = page(here / "topology.toml", here / "plan.json", "--replay", path / "schedule", path / "output")
            self.assertIn("NoEnd", tree.one("section", "replay").one("p", "refused").text)

    def test_bad_replays(self):
        here, said = EXAMPLES / "triangle", outputs("triangle")[REPLAY]
        schedule = (here / "schedule.txt").read_text()
        report = next(line for line in said.splitlines(keepends=True) if line.startswith("report"))
        other = (
            report.replace(" r ", " b ") if " r " in report else report.replace(" b ", " r ").replace(" x ", " r ")
        )
        eps = report.split()[4]
        for events, output, reason in (
            (schedule, said[:-1], "cut short"),
            (schedule, said.replace("done", "report"), "no line that sundial prints"),
            (schedule, "", "the output is empty"),
            (schedule, said.replace(report, ""), "no report of this ask"),
            (schedule, said.replace(report, other), "is no ask of"),
            (schedule, said.replace(eps, eps + "0"), "not that of these plans"),
            (schedule[:-5], said, "no replay accepts this line here"),
            (schedule.replace("tick", "tock"), said, ":4: UnknownWord"),
            (schedule.replace("fail", "fails", 1), said, "UnknownWord"),
            ("\n".join(schedule.splitlines()[:-1]) + "\n", said, "is it the output of this schedule"),
            (schedule.replace("start 0 2", "start 0 9"), said, "the topology has no device 9"),
            (schedule.replace("start 0 1", "start 0 2"), said, "no replay accepts this line here"),
        ):
            with self.subTest(reason), directory() as path:
                (path / "schedule").write_text(events)
                (path / "output").write_text(output)
                status, _, err = tool(
                    here / "topology.toml",
                    here / "plan.json",
                    here / "plan-2.json",
                    "--replay",
                    path / "schedule",
                    path / "output",
                    "--output",
                    path / "page",
                )
                self.assertEqual(status, 1)
                self.assertIn(reason, err)
                self.assertFalse((path / "page").exists())


class ReadinessOfLosses(unittest.TestCase):
    """The section of what `sundial-readiness --json` printed."""

    HERE = EXAMPLES / "fabric"

    def row(self, name, **more):
        said = {
            "kind": "device", "name": name, "takes_over": False, "moving": ["leaf1"], "base_ps": 10**6, "hold_ps": 2404700000, "bound_ps": 5583603, "bound_device": "spine3",
            "without_bound": 1, "cut_off": [], "planned_again": True, "refusal": None, "next_root": "spine1", "next_backup_root": "spine2",
        }
        return {**said, **more}

    def made(self, *rows):
        with directory() as path:
            (path / "readiness").write_text("".join(json.dumps(row) + "\n" for row in rows))
            return tool(self.HERE / "topology.toml", self.HERE / "plan.json", "--readiness", path / "readiness")

    def test_what_cannot_be_planned_again_comes_first_and_losses_alike_are_one_row(self):
        refused = "reach device spine1 chain leaf1"
        status, out, err = self.made(
            self.row("leaf2"), self.row("leaf3"), self.row("leaf4"), self.row("leaf5"), self.row("spine1", takes_over=True, moving=["leaf1", "leaf2"], next_root="spine2"),
            self.row("leaf1-spine2", kind="link", planned_again=False, refusal=refused, next_root=None, next_backup_root=None),
            self.row("feed-a", kind="listed", bound_ps=None, bound_device=None, cut_off=["leaf1", "leaf2"]),
        )
        self.assertEqual((status, err), (0, ""))
        tree = parse(out)
        section = tree.one("section", "readiness")
        self.assertEqual(section.one("p", "facts").text, "6 of 7 losses can be planned again. After 1 the rule of renew finds no plan: they come first.")
        heads = [node.text for node in section.one("thead").all("th")]
        self.assertEqual(heads, ["loss", "alike", "may move", "greatest eps, us", "at", "without bound", "cut off", "planned again"])
        rows = [[cell.text for cell in row.all("td")] for row in section.one("tbody").all("tr")]
        self.assertEqual(rows[0], ["link leaf1-spine2", "1", "1", "5.583603", "spine3", "1", "", f"no: {refused}With the domain down, the first of these devices never hears again."])
        self.assertEqual(rows[1][:4] + rows[1][7:], ["device spine1", "1", "2, takes over", "5.583603", "yes: spine2, spine2"])
        self.assertEqual(rows[2][0], "device leaf2, device leaf3, device leaf4and 1 moredevice leaf5")
        self.assertEqual(rows[3][:7], ["listed feed-a", "1", "1", "none", "", "1", "leaf1, leaf2"])
        self.assertEqual(tree.one("section", "verdict")["data-verdict"], "accepted")
        self.assertIn("#readiness", [node["href"] for node in tree.one("nav").all("a")])

    def test_what_a_search_said_is_shown(self):
        lost = {"planned_again": False, "refusal": "reach device spine1 chain leaf1", "next_root": None, "next_backup_root": None}
        found = {**lost, "found_by_search": True, "search_refusal": None, "next_root": "spine1", "next_backup_root": "spine3"}
        tree = parse(self.made(
            self.row("leaf1-spine1", kind="link", **found, bound_ps=9),
            self.row("leaf1-spine2", kind="link", **lost, found_by_search=False, search_refusal="loop device b cycle b"),
        )[1])
        section = tree.one("section", "readiness")
        self.assertTrue(section.one("p", "facts").text.endswith("After 1 of these the search finds one."))
        rows = [row.all("td")[7].text for row in section.one("tbody").all("tr")]
        self.assertTrue(rows[0].endswith("search: loop device b cycle b") and rows[1].endswith("by a search: spine1, spine3"), rows)

    def test_readiness_and_the_drill_have_one_base_and_hold(self):
        words = [self.HERE / "topology.toml", self.HERE / "plan.json"]
        with directory() as path:
            (path / "drill").write_text(outputs("fabric")[DRILL])
            words += ["--drill", path / "drill", "--readiness", path / "readiness"]
            (path / "readiness").write_text(json.dumps(self.row("leaf1", hold_ps=3 * 10**9)) + "\n")
            tree = page(*words)
            self.assertIn("with BASE 1 us and HOLD 3 ms", tree.one("section", "readiness").text)
            self.assertTrue(tree.one("section", "drill").one("p", "facts").text.startswith("BASE 1 us, HOLD 3 ms."))
            self.assertIn("make it and the drill with the same", tool(*words, "--hold", "2ms")[2])
            (path / "readiness").write_text(json.dumps(self.row("leaf1")) + "\n" + json.dumps(self.row("leaf2", hold_ps=1)) + "\n")
            self.assertIn("readiness:2: the losses have several BASE or HOLD", tool(*words)[2])
            (path / "readiness").write_text(json.dumps(self.row("leaf1")) + "\n")
            self.assertIn("it is no drill of this plan with BASE 1 us, HOLD 2.4047 ms", tool(*words)[2])

    def test_what_is_no_readiness(self):
        for row, reason in (
            (self.row("leaf99"), "readiness:1: the topology has no device leaf99"),
            (self.row("leaf1", kind="rack"), "readiness:1: the topology has no rack leaf1"),
            (self.row("leaf1", hold_ps=None), "readiness:1: no line of sundial-readiness --json"),
            (self.row("leaf1", bound_ps="5"), "readiness:1: no line of sundial-readiness --json"),
            (self.row("leaf1", moving=[1]), "readiness:1: no line of sundial-readiness --json"),
            (self.row("leaf1", search_refusal=None), "readiness:1: no line of sundial-readiness --json"),
            ([], "readiness:1: no line of sundial-readiness --json"),
        ):
            status, out, err = self.made(row)
            self.assertEqual((status, out), (1, ""))
            self.assertTrue(err.rstrip().endswith(reason), (err, reason))
        self.assertIn("there is no loss", self.made()[2])

    @needs_sundial
    def test_the_section_has_what_the_tool_printed(self):
        with directory() as path, mock.patch.dict(os.environ, {"SUNDIAL": str(PROGRAM)}):
            words = [self.HERE / "topology.toml", self.HERE / "plan.json"]
            status, out, err = run("sundial-readiness", readiness_main, [*words, "--json"])
            self.assertEqual(status, 0, err)
            (path / "readiness").write_text(out)
            tree = page(*words, "--readiness", path / "readiness", "--only", "readiness")
        rows = [[cell.text for cell in row.all("td")] for row in tree.one("table", "losses").one("tbody").all("tr")]
        self.assertEqual(sum(int(row[1]) for row in rows), 46)
        self.assertEqual(sum(int(row[1]) for row in rows if row[7].startswith("yes")), 38)
        self.assertEqual([node.classes[0] for node in tree.one("main").children], ["verdict", "readiness", "sources"])


class Verdicts(unittest.TestCase):
    def check(self, tree, kind, word, *texts):
        section = tree.one("section", "verdict")
        self.assertEqual((section["data-verdict"], section.one("h2").text), (kind, word))
        self.assertEqual(tree.one("main").children[0], section)
        for text in texts:
            self.assertIn(text, section.text)
        ids = {node["id"] for node in tree.walk() if node["id"]}
        for link in section.all("a"):
            self.assertIn(link["href"][1:], ids)
        return section

    def test_a_safe_replay(self):
        with directory() as path:
            tree = whole("fabric", path)
        self.check(tree, "safe", "Safe", "No premise broke and no alarm was raised: 732 events", "17 reports", "off by 49% of its eps")

    def test_alarms_after_broken_premises(self):
        with directory() as path:
            tree = replayed("incident", "schedule.txt", "sundial replay topology.toml plan.json plan.json schedule.txt", path, plans=2)
        section = self.check(
            tree, "alarm", "Alarms", "2 premises broke (tick, delay), the first at line 13, and 2 alarms followed, the first at line 21",
            "spine2, leaf, spine1 did not tick for 1.41 ms", "no promise was broken",
        )
        self.assertEqual([link.text for link in section.all("a")][:2], ["line 13, at 1.5 ms", "line 21, at 2.9 ms"])
        self.assertEqual([link["href"] for link in section.all("a")][:2], ["#line-13", "#line-21"])

    def test_the_verdict_as_text(self):
        here = EXAMPLES / "incident"
        command = "sundial replay topology.toml plan.json plan.json schedule.txt"
        with directory() as path:
            (path / "output").write_text(outputs("incident")[command])
            words = [here / "topology.toml", *[here / "plan.json"] * 2, "--replay", here / "schedule.txt", path / "output"]
            tree = page(*words, "--text", path / "text")
            text = (path / "text").read_text()
        self.assertTrue(text.startswith("Alarms. 2 premises broke (tick, delay), the first at line 13"))
        section = tree.one("section", "verdict")
        self.assertEqual(len(text.splitlines()), 2 + len(section.all("li")))
        self.assertIn("- line 13, at 1.5 ms: broken 13 tick. spine2, leaf, spine1 did not tick for 1.41 ms", text)
        self.assertEqual(tree.one("head").one("title").text, "Alarms. Sundial: a fabric and its plans")

    def test_broken_premises_alone(self):
        here = EXAMPLES / "triangle"
        with directory() as path:
            (path / "schedule").write_text("start 1001 0 0 0 1000\nend 1001\n")
            (path / "output").write_text("broken 1 start\ndone 2 0\n")
            tree = page(here / "topology.toml", here / "plan.json", "--replay", path / "schedule", path / "output")
        self.check(tree, "broken", "Premises broken", "1 premise broke (start), the first at line 1", "No alarm was raised", "1.001 ns off")

    def test_alarms_that_should_not_be(self):
        here = EXAMPLES / "triangle"
        with directory() as path:
            (path / "schedule").write_text("start 0 0 0 0 1000\nend 1001\n")
            (path / "output").write_text("alarm 1 roots r b\ndone 2 0\n")
            tree = page(here / "topology.toml", here / "plan.json", "--replay", path / "schedule", path / "output")
        self.check(tree, "alarm", "Alarms", "No premise broke", "against what is proved")

    def test_alarms_before_the_first_broken_premise(self):
        """Only what comes after a broken premise is without a promise."""
        here = EXAMPLES / "triangle"
        with directory() as path:
            (path / "schedule").write_text("start 0 0 0 0 1000\nstart 1001 1 0 0 1000\nend 1001\n")
            for output, text in (
                ("alarm 1 roots r b\nbroken 2 start\ndone 3 0\n", "against what is proved"),
                ("broken 2 start\nalarm 2 roots r b\ndone 3 0\n", "no promise was broken"),
            ):
                (path / "output").write_text(output)
                tree = page(here / "topology.toml", here / "plan.json", "--replay", path / "schedule", path / "output")
                self.check(tree, "alarm", "Alarms", "1 premise broke (start)", text)
                self.assertEqual("no promise was broken" in tree.one("section", "verdict").text, "no promise" in text)

    def test_a_refused_plan(self):
        here = EXAMPLES / "refused"
        for condition, texts in (
            ("loop", ["1 plan is refused: condition loop", "follow each other in a ring"]),
            ("timing", ["Rule 4: wait is 3.499299 ms at the least, and has to be at least 3.576668 ms: 77.369 us are missing"]),
        ):
            with self.subTest(condition), directory() as path:
                (path / "check").write_text(outputs("refused")[f"sundial check topology.toml {condition}.json"])
                tree = page(here / "topology.toml", here / f"{condition}.json", "--check", path / "check")
                self.check(tree, "refused", "Refused", *texts)
                if condition == "loop":
                    self.assertIn("The way that is marked: l2 follows l3 follows l2.", tree.one("p", "refused").text)

    def test_a_refused_line(self):
        here = EXAMPLES / "triangle"
        with directory() as path:
            (path / "schedule").write_text("start 0 0 0 0 1000\n")
            (path / "output").write_text("input schedule 2 NoEnd\n")
            tree = page(here / "topology.toml", here / "plan.json", "--replay", path / "schedule", path / "output")
        self.check(tree, "refused", "Refused", "input schedule 2 NoEnd", "What came after this line is not known")

    def test_an_accepted_plan_and_nothing_at_all(self):
        here = EXAMPLES / "triangle"
        with directory() as path:
            (path / "check").write_text("accepted 3 3 0\n")
            self.check(page(here / "topology.toml", here / "plan.json", "--check", path / "check"), "accepted", "Plan accepted")
        self.check(page(here / "topology.toml", here / "plan.json"), "none", "Nothing was judged", "Give --check, --drill or --replay")


class Pages(unittest.TestCase):
    def test_nothing_outside_is_read(self):
        with directory() as path:
            tree = whole("fabric", path)
        for node in tree.walk():
            self.assertNotIn(node.tag, ("link", "img", "iframe", "base", "object", "embed"))
            for name, value in node.attributes.items():
                self.assertNotIn(name, ("src", "action", "onclick"))
                self.assertNotIn("http", value or "")
                if name == "href":
                    self.assertTrue(value.startswith("#"))
        for node in tree.all("style") + tree.all("script"):
            for word in "http", "@import", "fetch", "XMLHttp", "import(":
                self.assertNotIn(word, node.text)
            self.assertNotIn("url(", node.text.replace("url(#", ""))

    def test_links_lead_to_places_and_places_are_one(self):
        with directory() as path:
            tree = whole("fabric", path)
        ids = [node["id"] for node in tree.walk() if node["id"]]
        self.assertEqual(len(ids), len(set(ids)))
        links = [node["href"] for node in tree.one("nav").all("a")]
        self.assertEqual(links, ["#verdict", "#replay", "#plans", "#drill", "#files"])
        self.assertLessEqual({link[1:] for link in links}, set(ids))

    def test_files_date_and_versions(self):
        here = EXAMPLES / "fabric"
        with directory() as path, mock.patch.dict(os.environ, {"SOURCE_DATE_EPOCH": "1000000000"}):
            tree = whole("fabric", path)
            again = whole("fabric", path)
        self.assertEqual(tree.text, again.text)
        self.assertIn("Made 2001-09-09 01:46 UTC by sundial-report", tree.one("p", "made").text)
        rows = {row.all("td")[0].text: row for row in tree.one("table", "files").one("tbody").all("tr")}
        self.assertEqual(
            list(rows),
            ["topology, version 1", "plan 1, version 1", "plan 2, version 1", "output of drill", "schedule", "output of replay or order"],
        )
        digest = hashlib.sha256((here / "schedule.txt").read_bytes()).hexdigest()
        self.assertEqual(rows["schedule"].all("td")[3].text, digest[:16])

    def test_who_sees_nothing_hears_all(self):
        """Pictures have names, what scrolls is reached by the keyboard, and every control has a label."""
        with directory() as path:
            tree = whole("fabric", path)
        for node in tree.all("svg"):
            if node["aria-hidden"] != "true":
                # (a picture with links in it is a group)
                self.assertEqual(node["role"], "group" if node.all("a") else "img")
                self.assertTrue(node["aria-label"])
        for node in tree.all("div", "scroll") + tree.all("div", "panels"):
            self.assertEqual((node["role"], node["tabindex"]), ("region", "0"))
            self.assertTrue(node["aria-label"])
        for node in tree.all("button"):
            self.assertTrue(node["aria-label"])
        labelled = {node["for"] for node in tree.all("label") if node["for"]}
        for node in tree.all("input"):
            self.assertTrue(node["id"] in labelled or node.parent.tag == "label")
        for node in tree.all("select"):
            self.assertEqual(node.parent.tag, "label")
        for table in tree.all("table"):
            for head in table.one("thead").all("th"):
                self.assertEqual(head["scope"], "col")

    def test_styles_for_dark_forced_colours_print_and_narrow_pages(self):
        here = EXAMPLES / "triangle"
        style = page(here / "topology.toml", here / "plan.json").one("style").text
        for rule in (
            "prefers-color-scheme:dark", "forced-colors:active", "@media print", "max-width:640px", "max-width:900px", ":focus-visible",
            "position:sticky",
        ):
            self.assertIn(rule, style)

    def test_what_needs_script_is_hidden_without_it(self):
        with directory() as path:
            tree = whole("fabric", path)
        for node in tree.all("div", "chooser") + tree.all("div", "controls") + tree.all("div", "cursor"):
            self.assertIn("hidden", node.attributes)

    def test_a_large_replay_is_small_and_quick(self):
        """256 leaves by 32 spines, with a schedule of some 80,000 lines: at most 5 MB, and few nodes."""
        topology_text, plan_text, drill_text = large(256, 32)
        with directory() as path:
            words = large_replay(path, plan_text)
            (path / "drill").write_text(drill_text)
            status, out, err = tool(*words, "--drill", path / "drill")
        self.assertEqual((status, err), (0, ""))
        self.assertLess(len(out.encode()), 5_000_000)
        tree = parse(out)
        self.check_few(tree)
        self.assertEqual(tree.one("section", "verdict")["data-verdict"], "safe")

    def check_few(self, tree):
        shown = [node for node in tree.one("div", "panels").walk()]
        self.assertLess(len(shown), 1000)
        self.assertLess(sum(1 for _ in tree.walk()), 40_000)
        alike = [row for row in tree.all("div", "track") if " +" in row.one("div", "name").text]
        self.assertTrue(alike)
        devices = sorted(int(device) for row in tree.all("div", "track") if row["data-devices"] for device in row["data-devices"].split())
        self.assertEqual(devices, list(range(288)))

    def test_names_are_escaped_and_the_heading_too(self):
        here = EXAMPLES / "triangle"
        tree = page(here / "topology.toml", here / "plan.json", "--title", '<b>&"</b>')
        self.assertEqual(tree.one("h1").text, '<b>&"</b>')

    def test_parts_alone(self):
        with directory() as path:
            parts = [node.classes[0] for node in whole("triangle", path, "--only", "replay").one("main").children]
            self.assertEqual(parts, ["verdict", "replay", "sources"])
            parts = [node.classes[0] for node in whole("triangle", path, "--only", "drill", "--only", "tree").one("main").children]
            self.assertEqual(parts, ["verdict", "plans", "drill", "sources"])

    def test_bad_topologies_and_plans(self):
        here = EXAMPLES / "triangle"
        for words, reason in (
            ((here / "none.toml", here / "plan.json"), "No such file"),
            ((here / "plan.json", here / "plan.json"), "no TOML"),
            ((here / "topology.toml", here / "topology.toml"), "no JSON"),
            ((here / "topology.toml", EXAMPLES / "fabric" / "plan.json"), "it is a plan of another topology"),
        ):
            with self.subTest(reason):
                status, out, err = tool(*words)
                self.assertEqual((status, out), (1, ""))
                self.assertIn(reason, err)
                self.assertEqual(len(err.splitlines()), 1)


class Series(unittest.TestCase):
    def test_intervals_double_and_keep_peaks(self):
        peaks = Peaks()
        for ref in range(10 * MOST_INTERVALS):
            peaks.add(0, 1000 + ref, ref, ref // 2)
        self.assertLessEqual(len(peaks.of[0]), MOST_INTERVALS)
        self.assertEqual(peaks.step, 16)
        self.assertEqual(peaks.of[0][:2], [Interval(15, 7), Interval(31, 15)])

    def test_reports_are_thinned_to_the_widest(self):
        reports = Reports()
        for line in range(5 * MOST_REPORTS):
            reports.add(Report(line, line % 3, line, line, line % 97))
        kept = reports.kept()
        self.assertEqual(reports.count, 5 * MOST_REPORTS)
        self.assertLessEqual(len(kept), MOST_REPORTS)
        self.assertEqual(max(report.eps for report in kept), 96)
        self.assertEqual(kept, sorted(kept))

    def test_percentiles(self):
        few, many = Percentiles(), Percentiles()
        for value in range(1, 101):
            few.add(value)
        self.assertEqual([few.at(percent) for percent in (50, 90, 99, 100)], [50, 90, 99, 100])
        for value in range(1, 100001):
            many.add(value)
        self.assertTrue(many.is_rounded)
        for percent in 50, 90, 99:
            self.assertTrue(percent * 1000 <= many.at(percent) <= percent * 1010)

    def test_units(self):
        self.assertEqual(
            [human(value) for value in (0, 999, 3202950, 10**9, 1345000000)],
            ["0 ps", "999 ps", "3.203 us", "1 ms", "1.345 ms"],
        )
        self.assertEqual(
            [clear(value) for value in (0, 999, 3202950, 3001900000, 2498679912, 86400 * 10**12 + 1, -1200000)],
            ["0", "999 ps", "3.20295 us", "3.0019 ms", "2.498679912 ms", "86,400.000000000001 s", "-1.2 us"],
        )

    def test_a_column_has_one_unit_and_all_digits(self):
        self.assertEqual(column([1500000000, 3001900000, 0]), ("ms", ["1.5000", "3.0019", "0.0000"]))
        self.assertEqual(column([-1200000, 100000], "+"), ("us", ["-1.2", "+0.1"]))
        self.assertEqual(column([12 * 10**15, 1]), ("s", ["12,000.000000000000", "0.000000000001"]))
        self.assertEqual(column([5], beside=[2000]), ("ns", ["0.005"]))
        self.assertEqual(column([]), ("ps", []))

    def test_a_sentence_in_the_units_that_fit(self):
        self.assertEqual(readable("after 1,900,000 ps, and 400,000 to 1,000,000 ps"), "after 1.9 us, and 400 ns to 1 us")
        self.assertEqual(readable("it takes 0 to 1,000 ps"), "it takes 0 to 1 ns")
        self.assertEqual(readable("line 30: fix set r 0 ps off, with an eps of 500 ps"), "line 30: fix set r 0 ps off, with an eps of 500 ps")
        self.assertEqual(round_steps(0, 3.2, 8), [0, 0.5, 1, 1.5, 2, 2.5, 3])


if __name__ == "__main__":
    unittest.main()
