"""Inputs that ended a tool with a traceback once: each is one clear line now."""

import json
import unittest

from support import DATA, EXAMPLES, NETWORK, directory, run
from test_topology_tool import IGNORED, SETTINGS

from sundial_tools.exchanges.main import main as exchanges
from sundial_tools.lines.main import main as lines
from sundial_tools.network.main import main as topology
from sundial_tools.plain.main import main as plain
from sundial_tools.record.main import main as record
from sundial_tools.report.main import main as report

DEEP, LONG = 100_000, "9" * 5000
TRIANGLE, PLAN = DATA / "triangle.toml", DATA / "triangle-1.json"
FABRIC = (EXAMPLES / "triangle" / "topology.toml", EXAMPLES / "triangle" / "plan.json")


class OneLine(unittest.TestCase):
    def refused(self, main, words, text, reason, name="bad"):
        """A tool over a file of this text, which the words name as FILE."""
        with directory() as path:
            (path / name).write_text(text)
            status, out, err = run("tool", main, [path / name if word == "FILE" else word for word in words])
        self.assertEqual((status, out), (1, ""))
        self.assertEqual(len(err.splitlines()), 1 + (main is plain), err)
        self.assertIn(reason, err)

    def test_deep_nesting(self):
        deep = "[" * DEEP + "]" * DEEP
        tables = ["--devices", NETWORK / "devices.csv", *SETTINGS]
        netbox = ["netbox", "--devices", "FILE", "--interfaces", "FILE", "--cables", "FILE", *SETTINGS]
        for main, words, text in (
            (topology, ["names", "FILE"], f"a = {deep}\n"),
            (topology, ["lldp", "FILE", *tables], deep),
            (topology, netbox, deep),
            (plain, [TRIANGLE, "FILE", "FILE"], deep),
            (report, [TRIANGLE, "FILE"], deep),
            (lines, ["FILE", "--topology", TRIANGLE], '{"a":' + deep + "}"),
            (record, [TRIANGLE, "FILE", "--plan", "FILE"], deep),
        ):
            with self.subTest(words):
                self.refused(main, words, text, "nested too deep")

    def test_numbers_of_thousands_of_digits(self):
        for main, words, text, reason in (
            (topology, ["names", "FILE"], f"ppm = {LONG}\n", "a number has too many digits"),
            (plain, [TRIANGLE, "FILE", "FILE"], f'{{"version": {LONG}}}', "a number has too many digits"),
            (report, [*FABRIC, "--drill", "FILE"], f"bound device r r {LONG}\n", "no line of a drill"),
            (report, [*FABRIC, "--check", "FILE"], f"accepted {LONG} 1 1\n", "no line that sundial prints"),
            (report, [*FABRIC, "--replay", "FILE", EXAMPLES / "triangle" / "output"], f"end {LONG}\n", ""),
            (lines, ["FILE"], f"done {LONG} 1\n", "no line that sundial prints"),
            (lines, ["FILE", "--schedule", "FILE"], f"report 1 r 1 {LONG}\n", "no line that sundial prints"),
        ):
            with self.subTest(words):
                self.refused(main, words, text, reason)

    def test_digits_that_are_no_ascii(self):
        for text in "kind,ppm,grain\nspine-32,\u00b2,1ns\n", f"kind,ppm,grain\nspine-32,{LONG},1ns\n":
            words = ["tables", "--devices", NETWORK / "devices.csv", "--links", NETWORK / "links.csv", *SETTINGS]
            self.refused(topology, [*words, "--oscillators", "FILE"], text, "ppm is ")
        self.refused(report, [*FABRIC, "--drill", "FILE"], "bound device r r \u00b2\n", "no line of a drill")
        neighbour = '{"via": "LLDP", "chassis": {"s1": {}}, "port": {"id": {"type": "ifname", "value": "swp\u00b2"}}}'
        text = f'{{"lldp": {{"interface": [{{"eth\u00b2": {neighbour}}}]}}}}'
        words = ["lldp", "FILE", "--devices", NETWORK / "devices.csv", *SETTINGS]
        self.refused(topology, words, text, "s1 on eth\u00b2, and there is no file of s1", name="l1.json")

    def test_what_an_input_brings_into_a_message_stays_one_line(self):
        self.refused(lines, ["FILE"], "done 1\r2 1\n", "no line that sundial prints")
        line = (EXAMPLES / "ptp" / "ntpdata.csv").read_text().splitlines()[0]
        words = ["chrony", EXAMPLES / "ptp" / "topology.toml", "FILE", "--device", "follower", "--link", "wire"]
        text = line.replace("10.9.6.1", "10.9.\r6.1", 1) + "\n" + line.replace("10.9.6.1", "10.9.\x1b[2J6.1", 1) + "\n"
        self.refused(exchanges, [*words, "--asymmetry", "1ps"], text, "a second peer, 10.9.\\x1b[2J6.1 beside 10.9.\\r6.1")

    def test_names_of_netbox_that_are_no_texts(self):
        for kind, change in (
            ("interfaces", lambda entry: entry.update(name=True)), ("devices", lambda entry: entry.update(name=5)),
            ("cables", lambda entry: entry.update(label=["x"])), ("devices", lambda entry: entry["rack"].update(name=[1])),
            ("devices", lambda entry: entry["site"].update(slug=7)), ("devices", lambda entry: entry["role"].update(slug={})),
        ):
            said = json.loads((NETWORK / "netbox" / f"{kind}.json").read_text())
            change(said["results"][0])
            files = {name: NETWORK / "netbox" / f"{name}.json" for name in ("devices", "interfaces", "cables")}
            words = ["netbox", *(word for name, file in files.items() for word in (f"--{name}", "FILE" if name == kind else file))]
            self.refused(topology, [*words, *SETTINGS, *IGNORED], json.dumps(said), "not what the REST API of NetBox gives: TypeError")

    def test_times_of_thousands_of_digits(self):
        text = f"from,to,min,max\nspine-32,leaf-48,{LONG},1us\n"
        words = ["tables", "--devices", NETWORK / "devices.csv", "--links", NETWORK / "links.csv", *SETTINGS]
        self.refused(topology, [*words, "--delays", "FILE"], text, "write a number and its unit, ps, ns, us, ms or s, as 8ns")

    def test_a_refusal_of_plan_0(self):
        self.refused(report, [*FABRIC, "--check", "FILE"], "refused plan 0 ancestor device b\n", "the refusal is of plan 0")

    def test_precisions_and_counts_of_chrony(self):
        line = (EXAMPLES / "ptp" / "ntpdata.csv").read_text().splitlines()[0].split(",")
        for place, word in (12, "abc"), (19, "\u00b2"), (21, LONG):
            words = ["chrony", EXAMPLES / "ptp" / "topology.toml", "FILE", "--device", "follower", "--link", "wire"]
            text = ",".join(line[:place] + [word] + line[place + 1 :]) + "\n"
            self.refused(exchanges, [*words, "--asymmetry", "1ps"], text, "is no number of seconds")


if __name__ == "__main__":
    unittest.main()
