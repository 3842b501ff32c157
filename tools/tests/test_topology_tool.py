"""sundial-topology: from LLDP, from NetBox and from tables, and back."""

import csv
import hashlib
import io
import json
import re
import shutil
import unittest

from support import DATA, NETWORK, directory, needs_sundial, run, sundial

from sundial_tools.network.main import main
from sundial_tools.times import written
from sundial_tools.topology import parse_topology

SETTINGS = (
    "--oscillators", NETWORK / "oscillators.csv", "--delays", NETWORK / "delays.csv", "--period", "100us", "--tick", "10us",
    "--loss", "1", "--depth", "3", "--root-role", "spine",
)
HOSTS = ("s1", "s2", "l1", "l2", "l3")


def lldp(files, *more):
    return run("sundial-topology", main, ["lldp", *files, "--devices", NETWORK / "devices.csv", *SETTINGS, *more])


def netbox(path, *more):
    files = [word for kind in ("devices", "interfaces", "cables") for word in (f"--{kind}", path / f"{kind}.json")]
    return run("sundial-topology", main, ["netbox", *files, *SETTINGS, *more])


def tables(devices, links, *more):
    return run("sundial-topology", main, ["tables", "--devices", devices, "--links", links, *SETTINGS, *more])


IGNORED = ("--ignore-role", "management", "--ignore", "pdu-r3", "--ignore", "panel-r5")


class Lldp(unittest.TestCase):
    FILES = [NETWORK / "lldp" / f"{host}.json" for host in HOSTS]

    def test_a_capture(self):
        status, out, err = lldp(self.FILES)
        self.assertEqual((status, err), (0, ""))
        topology = parse_topology(out)
        self.assertEqual(topology.version, 2)
        self.assertEqual(tuple(device.name for device in topology.devices), HOSTS)
        self.assertEqual([device.ppm for device in topology.devices], [50, 50, 200, 200, 200])
        self.assertEqual(topology.roots, (0, 1))
        self.assertEqual([link.ends for link in topology.links], [(0, 2), (0, 3), (0, 4), (1, 2), (1, 3), (1, 4)])
        self.assertEqual(topology.links[0].name, "s1-swp1-l1-eth1")
        self.assertEqual((topology.links[0].forth.max, topology.links[0].back.max), (1000000, 1100000))
        domains = {domain.name: domain.devices for domain in topology.domains}
        self.assertEqual(domains["rack-R3"], (2,))
        self.assertEqual((domains["feed-A"], domains["feed-B"]), ((2,), (3,)))

    def test_the_order_of_files_changes_nothing(self):
        self.assertEqual(lldp(self.FILES), lldp(self.FILES[::-1]))

    def test_each_feed_lists_its_devices_when_asked(self):
        domains = {domain.name: domain.devices for domain in parse_topology(lldp(self.FILES, "--every-feed")[1]).domains}
        self.assertEqual((domains["feed-A"], domains["feed-B"]), ((0, 1, 2, 4), (0, 1, 3, 4)))

    def test_names_with_a_domain(self):
        """Hosts that give their whole names, in the files' names and in what neighbours see of them, where the table has none."""
        with directory() as path:
            for file in self.FILES:
                text = re.sub(r'"(l[123])"', r'"\1.dc1.example.com"', file.read_text())
                (path / (file.name.replace(".json", ".dc1.example.com.json") if file.name[0] == "l" else file.name)).write_text(text)
            files = sorted(path.iterdir(), key=lambda file: HOSTS.index(file.name.split(".")[0]))
            status, out, err = lldp(files)
            self.assertEqual((status, out), (1, ""))
            self.assertIn("say --strip-domain dc1.example.com, since l1 is there; or --ignore l1.dc1.example.com", err)
            for domain in "dc1.example.com", ".dc1.example.com":
                self.assertEqual(lldp(files, "--strip-domain", domain), lldp(self.FILES))
            self.assertEqual(lldp(files, "--strip-domain", "example.com")[0], 1)
            self.assertEqual(lldp(files, "--strip-domain", "dc1.example.com", "--ignore", "l3"), lldp(self.FILES, "--ignore", "l3"))

    def test_a_cable_with_one_end(self):
        files = self.FILES[:4] + [NETWORK / "down" / "l3.json"]
        status, out, err = lldp(files)
        self.assertEqual((status, out), (1, ""))
        self.assertIn("a cable with one end: s2 sees l3 eth2 on swp3, and l3 sees nothing on eth2", err)

    def test_a_host_without_a_file(self):
        status, _, err = lldp(self.FILES[:4])
        self.assertEqual(status, 1)
        self.assertIn("s1 sees l3 on swp3, and there is no file of l3: add l3.json, or say --one-sided", err)
        self.assertEqual(lldp(self.FILES[:4], "--one-sided")[1], lldp(self.FILES)[1])

    def test_a_neighbour_that_is_in_no_table(self):
        with directory() as path:
            (path / "devices.csv").write_text((NETWORK / "devices.csv").read_text().replace("l3,", "l4,"))
            words = ["lldp", *self.FILES[:4], "--devices", path / "devices.csv", *SETTINGS]
            status, _, err = run("sundial-topology", main, words)
            self.assertEqual(status, 1)
            self.assertIn("add the line l3,KIND,ROLE,RACK,FEEDS, or say --ignore l3", err)
            refused = run("sundial-topology", main, words[:1] + [self.FILES[4]] + words[1:])[2]
            self.assertIn("a file of the host l3, which is not in the table of devices: add the line l3,KIND", refused)
            status, out, err = run("sundial-topology", main, words + ["--ignore", "l3"])
            self.assertEqual((status, err), (0, "sundial-topology: left out 2 neighbours of ignored devices\n"))
            self.assertEqual(len(parse_topology(out).links), 4)

    def test_a_file_that_is_cut_short(self):
        with directory() as path:
            for host in HOSTS:
                shutil.copy(NETWORK / "lldp" / f"{host}.json", path)
            text = (path / "l2.json").read_text()
            (path / "l2.json").write_text(text[: len(text) // 2])
            output = path / "topology.toml"
            status, _, err = lldp([path / f"{host}.json" for host in HOSTS], "--output", output)
            self.assertEqual(status, 1)
            self.assertRegex(err, r"l2\.json:\d+: no JSON, or cut short")
            self.assertFalse(output.exists())

    def test_what_is_not_lldp(self):
        with directory() as path:
            for text, reason in (
                ("[]", "no object lldp"),
                ('{"lldp": {"interface": {"eth0": {"via": "LLDP", "chassis": {"id": {}}}}}}', "gives no system name"),
                ('{"lldp": {"interface": {"eth0": {"via": "LLDP", "chassis": {"s1": {}}, "port": {}}}}}', "no name of its port"),
                ('{"lldp": {"interface": {"eth0": 3}}}', "the neighbour on eth0 is no object"),
            ):
                (path / "l1.json").write_text(text)
                status, _, err = lldp([path / "l1.json"])
                self.assertEqual(status, 1)
                self.assertIn(reason, err)

    def test_missing_lines_of_the_tables(self):
        for option, name, line in (
            ("--oscillators", "oscillators.csv", "add the line leaf-48,PPM,GRAIN"),
            ("--delays", "delays.csv", "add the line leaf-48,spine-32,MIN,MAX"),
        ):
            with directory() as path:
                kept = [row for row in (NETWORK / name).read_text().splitlines() if not row.startswith("leaf-48")]
                (path / name).write_text("\n".join(kept) + "\n")
                status, _, err = lldp(self.FILES, option, path / name)
                self.assertEqual(status, 1)
                self.assertIn(line, err)

    def test_a_role_that_nobody_has(self):
        status, _, err = lldp(self.FILES, "--root-role", "core")
        self.assertEqual(status, 1)
        self.assertIn("no device has the role core, of which roots are taken; there are leaf, spine", err)


def json0(said):
    """What lldpcli prints with -f json0 for what it prints with -f json."""
    def plain(value):
        return [{"value": value}]

    entries = []
    for entry in said["lldp"]["interface"]:
        ((port, told),) = entry.items()
        chassis = dict(told["chassis"])
        name, inner = (None, chassis) if "id" in chassis else next(iter(chassis.items()))
        far = {"id": [told["port"]["id"]], "descr": plain(told["port"].get("descr", ""))}
        whose = {"id": [inner["id"]], **({"name": plain(name)} if name else {})}
        entries.append({"name": port, "via": told["via"], "rid": "1", "chassis": [whose], "port": [far]})
    return {"lldp": [{"interface": entries}]}


class LldpOfSites(unittest.TestCase):
    """What real sites have: the form json0, neighbours without names, dumb switches, CDP and long names."""

    def lldp(self, change=lambda host, entries: None, *more, form=lambda said: said, devices=None):
        with directory() as path:
            files = []
            for host in HOSTS:
                said = json.loads((NETWORK / "lldp" / f"{host}.json").read_text())
                change(host, said["lldp"]["interface"])
                files.append(path / f"{host}.json")
                files[-1].write_text(json.dumps(form(said)))
            table = (NETWORK / "devices.csv").read_text() if devices is None else devices
            (path / "devices.csv").write_text(table)
            return run("sundial-topology", main, ["lldp", *files, "--devices", path / "devices.csv", *SETTINGS, *more])

    @staticmethod
    def seen(name, port, via="LLDP"):
        chassis = {"id": {"type": "mac", "value": "02:00:00:00:00:01"}}
        return {"via": via, "chassis": {name: chassis} if name else chassis, "port": {"id": {"type": "ifname", "value": port}}}

    def test_json0_gives_the_same(self):
        self.assertEqual(self.lldp(form=json0), self.lldp())
        self.assertEqual(self.lldp()[0], 0)

    def test_a_name_that_json_breaks(self):
        def change(host, entries):
            if host == "l1":
                entries.append({"eth9": self.seen('Printer "2nd floor"', "1")})

        status, _, err = self.lldp(change, form=json0)
        self.assertEqual(status, 1)
        self.assertIn('l1 sees Printer "2nd floor" on eth9, which is not in the table', err)
        status, _, err = self.lldp(change, "--ignore-port", "l1:eth9", form=json0)
        self.assertEqual((status, err), (0, "sundial-topology: left out 1 neighbours on ignored ports\n"))

    def test_a_neighbour_without_a_name(self):
        def change(host, entries):
            if host == "l1":
                entries.append({"eth9": self.seen(None, "1")})

        for form in json0, lambda said: said:
            status, _, err = self.lldp(change, form=form)
            self.assertEqual(status, 1)
            self.assertIn(
                "the neighbour on eth9 gives no system name (its chassis is 02:00:00:00:00:01): name it there, "
                "or say --ignore-port l1:eth9, or --ignore-chassis 02:00:00:00:00:01", err,
            )
            for more in ("--ignore-port", "l1:eth9"), ("--ignore-chassis", "02:00:00:00:00:01"):
                self.assertEqual(self.lldp(change, *more, form=form)[1], self.lldp()[1])

    def test_a_dumb_switch(self):
        def change(host, entries):
            for end, other in ("l1", "l2"), ("l1", "l3"), ("l2", "l1"), ("l2", "l3"), ("l3", "l1"), ("l3", "l2"):
                if host == end:
                    entries.append({"eth9": self.seen(other, "eth9")})

        status, _, err = self.lldp(change)
        self.assertEqual(status, 1)
        self.assertIn("l1 sees two devices on eth9: l2 and l3: a switch that hides from LLDP", err)
        self.assertIn("--ignore-port l1:eth9", err)
        words = [word for leaf in ("l1", "l2", "l3") for word in ("--ignore-port", f"{leaf}:eth9")]
        self.assertEqual(self.lldp(change, *words)[1], self.lldp()[1])
        # one port alone makes no cable of the two others: they are refused as well
        self.assertEqual(self.lldp(change, *words[:2])[0], 1)

    def test_a_cable_that_is_seen_by_cdp_alone(self):
        def change(host, entries):
            if host == "s1":
                entries.append({"swp7": self.seen("core", "Gi1/1", "CDPv2")})
                entries.append({"swp1": self.seen("l1", "eth1", "CDPv2")})

        status, out, err = self.lldp(change)
        self.assertEqual((status, out), (0, self.lldp()[1]))
        self.assertEqual(err, "sundial-topology: left out 1 neighbours that are seen by CDPv2 alone (the first: s1 swp7)\n")

    def test_long_names_are_shortened_and_told(self):
        port = "HundredGigabitEthernet1/0/47.with-a-description-that-goes-on"

        def change(host, entries):
            for entry in entries:
                for near in list(entry):
                    told = entry[near]
                    if host == "s1" and near == "swp1":
                        entry[port] = entry.pop(near)
                    if host == "l1" and told["port"]["id"]["value"] == "swp1" and "s1" in told["chassis"]:
                        told["port"]["id"]["value"] = port

        status, out, err = self.lldp(change)
        self.assertEqual(status, 0, err)
        name = parse_topology(out).links[0].name
        long = "s1-HundredGigabitEthernet1-0-47.with-a-description-that-goes-on-l1-eth1"
        digest = hashlib.sha256(long.encode()).hexdigest()[:8]
        self.assertEqual((name, len(name)), (f"{long[:55]}-{digest}", 64))
        self.assertEqual(err, f"sundial-topology: shortened {long} to {name}\n")


class Netbox(unittest.TestCase):
    PATH = NETWORK / "netbox"

    def test_an_export(self):
        status, out, err = netbox(self.PATH, *IGNORED)
        self.assertEqual(status, 0)
        self.assertIn("left out 1 cables that are planned", err)
        topology = parse_topology(out)
        self.assertEqual([device.name for device in topology.devices], ["spine1", "spine2", "leaf1", "leaf2", "leaf3"])
        self.assertEqual([link.ends for link in topology.links], [(0, 2), (0, 3), (0, 4), (1, 2), (1, 3), (1, 4)])
        self.assertEqual([link.name for link in topology.links][:2], ["spine1-Ethernet1-1-leaf1-Ethernet49-1", "F-17"])
        domains = {domain.name: domain.devices for domain in topology.domains}
        self.assertEqual(domains["rack-R1"], (0,))
        # leaf1 hangs on the feed over the outlet of its rack
        self.assertEqual(domains["feed-Feed-A"], (2,))

    def test_sides_of_a_custom_field(self):
        topology = parse_topology(netbox(self.PATH, *IGNORED, "--side-field", "sundial_side")[1])
        self.assertEqual([device.side for device in topology.devices], ["root", "backup", "root", "backup", "root"])

    def changed(self, kind, change, *more):
        """The answer over the export after `change` of one file."""
        with directory() as path:
            for name in "devices", "interfaces", "cables":
                shutil.copy(self.PATH / f"{name}.json", path)
            said = json.loads((path / f"{kind}.json").read_text())
            change(said)
            (path / f"{kind}.json").write_text(json.dumps(said))
            return netbox(path, *IGNORED, *more)

    def test_bad_exports(self):
        def results(change):
            return lambda said: change(said["results"])

        def drop(said):
            said["results"] = said["results"][1:]
            said["count"] -= 1

        for kind, change, reason in (
            ("cables", lambda said: said.update(next="https://netbox.example.com/api/dcim/cables/?offset=50"), "one page of several"),
            ("cables", results(lambda entries: entries.pop()), "19 results of 20"),
            ("cables", results(lambda entries: entries[0].pop("a_terminations")), "NetBox 3.3 or later"),
            ("cables", drop, "no cable 201, which the interface spine1 Ethernet1/1 has"),
            ("interfaces", drop, "no interface 101 (spine1 Ethernet1/1), where the cable 201 ends"),
            ("devices", drop, "no device spine1 (id 11), where the cable 201 ends"),
            ("devices", results(lambda entries: entries[2].update(rack=None)), "the device leaf1 (id 13) has no rack"),
            ("devices", results(lambda entries: entries[2].update(role=None)), "has no role or no device_type"),
            ("devices", results(lambda entries: entries[2].update(name="leaf 1")), "'leaf 1'"),
            ("devices", results(lambda entries: entries[2]["device_type"].pop("slug")), "KeyError at 'slug'"),
            ("cables", results(lambda entries: entries[0].update(id=[201])), "no results with an id, a whole number"),
            ("devices", results(lambda entries: entries[2].update(id=11)), "the id 11 is there twice"),
            ("devices", results(lambda entries: entries[2].update(name=None)), "the device 13 has no name"),
        ):
            with self.subTest(reason):
                status, out, err = self.changed(kind, change)
                self.assertEqual((status, out), (1, ""))
                self.assertIn(reason, err)

    def found(self, kind, change, *more):
        """The topology after a change, and what was said."""
        status, out, err = self.changed(kind, change, *more)
        self.assertEqual(status, 0, err)
        return parse_topology(out), err

    def test_one_bad_cable_does_not_stop_all(self):
        def end(number, kind="dcim.interface"):
            return {"object_type": kind, "object_id": number, "object": {"id": number, "name": "x"}}

        for change, said in (
            ({"b_terminations": []}, "left out 1 cables with one end (the first: cable 201)"),
            ({"b_terminations": [end(109), end(110)]}, "left out 1 cables with several ends on a side (the first: cable 201)"),
        ):
            with self.subTest(said):
                topology, err = self.found("cables", lambda said, change=change: said["results"][0].update(change))
                self.assertEqual([link.ends for link in topology.links], [(0, 3), (0, 4), (1, 2), (1, 3), (1, 4)])
                self.assertIn(said, err)
        # a cable from a power strip to several power ports
        strip = {"a_terminations": [end(451, "dcim.poweroutlet")], "b_terminations": [end(450, "dcim.powerport")] * 2}
        topology, _ = self.found("cables", lambda said: said["results"].append({"id": 999, **strip}) or said.update(count=21))
        self.assertEqual(len(topology.links), 6)

    def test_what_is_not_in_use_is_no_link(self):
        def offline(said):
            said["results"][2]["status"] = {"value": "offline", "label": "Offline"}

        topology, err = self.found("devices", offline)
        self.assertEqual([device.name for device in topology.devices], ["spine1", "spine2", "leaf2", "leaf3"])
        self.assertEqual(len(topology.links), 4)
        self.assertIn("left out 1 devices that are offline (the first: leaf1)", err)
        self.assertIn("cables of devices that are offline", err)
        self.assertEqual(len(self.found("devices", offline, "--status", "offline")[0].devices), 5)

        def disabled(said):
            next(port for port in said["results"] if port["id"] == 101)["enabled"] = False

        topology, err = self.found("interfaces", disabled)
        self.assertEqual(len(topology.links), 5)
        self.assertIn("left out 1 cables of interfaces that are disabled (the first: spine1 Ethernet1/1)", err)

        def planned(said):
            for port in said["results"]:
                port["connected_endpoints_reachable"] = False

        topology, err = self.found("interfaces", planned)
        self.assertEqual(len(topology.links), 5)
        self.assertIn("ways through patch panels with a cable that is not connected (the first: ", err)

    def test_an_ignored_role_drops_no_leaf_without_a_name(self):
        def unnamed(said):
            next(entry for entry in said["results"] if entry["name"] == "mgmt1")["name"] = None
            said["results"][2]["name"] = None

        status, _, err = self.changed("devices", unnamed)
        self.assertEqual(status, 1)
        self.assertIn("the device 13 has no name", err)

    def test_racks_and_feeds_that_are_named_alike_stay_apart(self):
        def racks(said):
            for place, rack, site in (2, 93, "dc1"), (3, 94, "dc2"):
                said["results"][place].update(rack={"id": rack, "name": "R9"}, site={"id": 1, "slug": site})

        domains = {domain.name: domain.devices for domain in self.found("devices", racks)[0].domains}
        self.assertEqual((domains["rack-dc1-R9"], domains["rack-dc2-R9"]), ((2,), (3,)))

        def same_site(said):
            racks(said)
            said["results"][3]["site"] = {"id": 1, "slug": "dc1"}

        domains = {domain.name: domain.devices for domain in self.found("devices", same_site)[0].domains}
        self.assertEqual((domains["rack-R9-id93"], domains["rack-R9-id94"]), ((2,), (3,)))

        def feeds(said):
            for cable in said["results"]:
                for end in cable["a_terminations"] + cable["b_terminations"]:
                    if end["object_type"] == "dcim.powerfeed":
                        end["object"]["name"] = "Feed 1"

        domains = {domain.name: domain.devices for domain in self.found("cables", feeds)[0].domains}
        self.assertEqual((domains["feed-Feed-1-id501"], domains["feed-Feed-1-id502"]), ((2,), (3,)))

    def test_a_list_of_several_pages(self):
        with directory() as path:
            said = json.loads((self.PATH / "cables.json").read_text())
            pages = []
            for place in range(0, 20, 7):
                pages.append(path / f"cables-{place}.json")
                page = {**said, "results": said["results"][place : place + 7], "next": "https://there" if place < 14 else None}
                pages[-1].write_text(json.dumps(page))
            files = ["--devices", self.PATH / "devices.json", "--interfaces", self.PATH / "interfaces.json"]

            def tool(cables):
                return run("sundial-topology", main, ["netbox", *files, "--cables", *cables, *SETTINGS, *IGNORED])

            whole = netbox(self.PATH, *IGNORED)
            self.assertEqual(tool(pages), whole)
            self.assertEqual(tool(pages[::-1]), whole)
            for cables, reason in (
                (pages[:1], "one page of several: the next is https://there. Give all pages, one file each"),
                (pages[:2], "one page of several"), (pages[1:], "13 results of 20"), (pages + pages[:1], "is there twice"),
            ):
                with self.subTest(reason):
                    status, out, err = tool(cables)
                    self.assertEqual((status, out), (1, ""))
                    self.assertIn(reason, err)

    def test_a_device_that_no_feed_supplies(self):
        status, _, err = netbox(self.PATH, "--ignore", "pdu-r3", "--ignore", "mgmt1")
        self.assertEqual(status, 1)
        self.assertIn("no cable leads from panel-r5 (id 18) to a power feed", err)

    def test_a_file_that_is_cut_short(self):
        with directory() as path:
            for name in "devices", "interfaces", "cables":
                shutil.copy(self.PATH / f"{name}.json", path)
            (path / "cables.json").write_text((path / "cables.json").read_text()[:20000])
            self.assertRegex(netbox(path)[2], r"cables\.json:\d+: no JSON, or cut short")


class Tables(unittest.TestCase):
    def test_two_tables(self):
        status, out, _ = tables(NETWORK / "devices.csv", NETWORK / "links.csv")
        self.assertEqual(status, 0)
        topology = parse_topology(out)
        self.assertEqual([link.name for link in topology.links], ["a1", "a2", "a3", "b1", "b2", "b3"])
        domains = {domain.name: domain.links for domain in topology.domains}
        self.assertEqual((domains["conduit-north"], domains["conduit-south"]), ((1, 2), (5,)))

    def test_bad_tables(self):
        devices, links = (NETWORK / "devices.csv").read_text(), (NETWORK / "links.csv").read_text()
        for bad_devices, bad_links, reason in (
            (devices, links.replace("b3,s2,l3", "b3,s2,l9"), "links.csv:7: the link ends at l9, and there is no such device"),
            (devices, links.replace("b3,s2,l3", "b3,s2,"), "links.csv:7: the link b3 has one end: the column second is empty"),
            (devices, links.replace("b3,s2,l3", "b3,s2,s2"), "links.csv:7: both ends of the link are at s2"),
            (devices, links.replace("b3,", "b2,"), "links.csv:7: the link's name b2 is that of"),
            (devices, links[:-12], "links.csv:7: 3 cells, and there are 5 columns"),
            (devices, links.replace("medium", "media"), "links.csv:1: unknown column 'media'"),
            (devices.replace("R5", ""), links, "devices.csv:6: the column rack is empty"),
            (devices.replace("l3,", "l2,"), links, "devices.csv:6: the device l2 is there twice"),
        ):
            with self.subTest(reason), directory() as path:
                (path / "devices.csv").write_text(bad_devices)
                (path / "links.csv").write_text(bad_links)
                status, out, err = tables(path / "devices.csv", path / "links.csv")
                self.assertEqual((status, out), (1, ""))
                self.assertIn(reason, err)

    def test_one_rule_for_times(self):
        for cell, reason in (
            ("8 ns", "grain '8 ns' is no time: write 8ns, without spaces and commas"), ("8", "grain '8' has no unit: write 8ps, 8ns, 8us, 8ms or 8s"),
            ("8,000", "grain '8,000' is no time: write 8000ns"), ("8nm", "grain '8nm' is no time: write a number and its unit"),
            ("2s", "grain '2s' has to be from 0 to 1s"), ("0.5ps", "grain '0.5ps' is no time"),
        ):
            with self.subTest(cell), directory() as path:
                (path / "o.csv").write_text(f'kind,ppm,grain\nspine-32,50,"{cell}"\nleaf-48,200,0\n')
                status, out, err = tables(NETWORK / "devices.csv", NETWORK / "links.csv", "--oscillators", path / "o.csv")
                self.assertEqual((status, out), (1, ""))
                self.assertIn(f"o.csv:2: {reason}", err)
        self.assertEqual([written(value) for value in (0, 1, 8000, 1500, 10**12, 3 * 10**12)], ["0", "1ps", "8ns", "1500ps", "1s", "3s"])

    def test_a_table_that_is_not_utf8_is_named(self):
        with directory() as path:
            (path / "o.csv").write_bytes(b"kind,ppm,grain\n\xe9,50,8ns\n")
            err = tables(NETWORK / "devices.csv", NETWORK / "links.csv", "--oscillators", path / "o.csv")[2]
            self.assertIn("o.csv:2: not UTF-8: invalid continuation byte at byte 1 of the line", err)

    def test_a_rack_has_the_links_inside_it(self):
        with directory() as path:
            (path / "devices.csv").write_text((NETWORK / "devices.csv").read_text().replace("R5", "R4"))
            (path / "links.csv").write_text((NETWORK / "links.csv").read_text() + "c,l2,l3,,\n")
            (path / "delays.csv").write_text((NETWORK / "delays.csv").read_text() + "leaf-48,leaf-48,1ns,2ns\n")
            out = tables(path / "devices.csv", path / "links.csv", "--delays", path / "delays.csv")[1]
            rack = next(domain for domain in parse_topology(out).domains if domain.name == "rack-R4")
            self.assertEqual((rack.devices, rack.links), ((3, 4), (6,)))

    def test_a_medium_has_delays_of_its_own(self):
        with directory() as path:
            (path / "delays.csv").write_text("from,to,min,max,medium\nspine-32,leaf-48,1ps,2ps,\nleaf-48,spine-32,3ps,4ps,\nspine-32,leaf-48,5ps,6ps,smf\n")
            out = tables(NETWORK / "devices.csv", NETWORK / "links.csv", "--delays", path / "delays.csv")[1]
            link = parse_topology(out).links[0]
            self.assertEqual((link.forth.min, link.back.min), (5, 3))


class Names(unittest.TestCase):
    def test_names_and_numbers(self):
        status, out, _ = run("sundial-topology", main, ["names", DATA / "triangle.toml"])
        self.assertEqual(status, 0)
        rows = list(csv.reader(io.StringIO(out)))
        self.assertEqual(rows[0], ["thing", "number", "name", "first", "second", "root"])
        self.assertEqual(rows[1], ["device", "0", "r", "", "", "1"])
        self.assertEqual(rows[6], ["link", "2", "bx", "b", "x", ""])

    def test_a_topology_that_is_none(self):
        with directory() as path:
            (path / "topology.toml").write_text((DATA / "triangle.toml").read_text()[:200])
            self.assertEqual(run("sundial-topology", main, ["names", path / "topology.toml"])[0], 1)


@needs_sundial
class Accepted(unittest.TestCase):
    """What the program itself says of the topologies."""

    def test_migrate_and_plan(self):
        answers = (lldp(Lldp.FILES), netbox(Netbox.PATH, *IGNORED), tables(NETWORK / "devices.csv", NETWORK / "links.csv"))
        for status, out, _ in answers:
            self.assertEqual(status, 0)
            with directory() as path:
                (path / "topology.toml").write_text(out)
                status, again = sundial("migrate", path / "topology.toml")
                self.assertEqual(status, 0)
                self.assertEqual(parse_topology(again), parse_topology(out))
                status, plan = sundial("plan", path / "topology.toml")
                self.assertEqual(status, 0, plan)


if __name__ == "__main__":
    unittest.main()
