"""What sundial-watch shows: metrics in a file and on a port; the alerts, the dashboard and the unit that stand on them."""

import io
import json
import os
import re
import shutil
import socket
import struct
import subprocess
import sys
import time
import unittest
import urllib.error
import urllib.request
from unittest import mock

from support import EXAMPLES, TOOLS, directory

from test_watch import Fabric, Played
from worlds import PERIOD, World

from sundial_tools.errors import ToolError
from sundial_tools.topology import read_topology
from sundial_tools.watch import watcher
from sundial_tools.watch.main import calm_numbers
from sundial_tools.watch.shown import Shown

PACKAGING = TOOLS.parent / "packaging"
RULES = PACKAGING / "prometheus" / "sundial.rules.yml"
SERIES = re.compile(r"sundial_[a-z_]+")


def there(program):
    return unittest.skipUnless(shutil.which(program), f"{program} is not there")


def free_port():
    with socket.socket() as one:
        one.bind(("127.0.0.1", 0))
        return one.getsockname()[1]


def fetched(port, path="/metrics"):
    with urllib.request.urlopen(f"http://127.0.0.1:{port}{path}", timeout=300) as answer:
        return answer.headers["Content-Type"], answer.read().decode()


class Port(unittest.TestCase):
    def test_the_port_and_the_file_have_the_text_that_was_shown_last(self):
        with directory() as path:
            port = free_port()
            shown = Shown(str(path / "m.prom"), port)
            try:
                with self.assertRaises(urllib.error.HTTPError) as none_yet:
                    fetched(port)
                self.assertEqual(none_yet.exception.code, 503)
                for text in "sundial_epoch 1\n", "sundial_epoch 2\n":
                    shown.show(text)
                    self.assertEqual(fetched(port), ("text/plain; version=0.0.4; charset=utf-8", text))
                    self.assertEqual((path / "m.prom").read_text(), text)
                with self.assertRaises(urllib.error.HTTPError) as other:
                    fetched(port, "/")
                self.assertEqual(other.exception.code, 404)
                with self.assertRaisesRegex(ToolError, f"127.0.0.1:{port}: Address already in use"):
                    Shown(None, port)
            finally:
                shown.close()
            self.assertEqual(os.listdir(path), ["m.prom"])

    def test_a_reader_that_goes_away_is_no_fault(self):
        port, error = free_port(), io.StringIO()
        shown = Shown(None, port)
        try:
            shown.show("# a comment\n" * 500_000)
            with mock.patch.object(sys, "stderr", error):
                for _ in range(3):
                    with socket.create_connection(("127.0.0.1", port)) as reader:
                        reader.setsockopt(socket.SOL_SOCKET, socket.SO_LINGER, struct.pack("ii", 1, 0))
                        reader.sendall(b"GET /metrics HTTP/1.0\r\n\r\n")
                        reader.recv(10)
                self.assertEqual(len(fetched(port)[1]), 6_000_000)
                time.sleep(0.2)
        finally:
            shown.close()
        self.assertEqual(error.getvalue(), "")

    def test_news_come_sooner(self):
        with mock.patch("time.monotonic") as now, directory() as path:
            now.return_value = 50.0
            shown = Shown(str(path / "m.prom"), None)
            self.assertTrue(shown.is_due(False))
            shown.show("")
            for later, usual, news in (0.05, False, False), (0.2, False, True), (1.1, True, True):
                now.return_value = 50.0 + later
                self.assertEqual((shown.is_due(False), shown.is_due(True)), (usual, news))
            self.assertFalse(Shown(None, None).is_due(True))


class Calm(unittest.TestCase):
    """What a healthy fabric stays below, as `sundialctl bounds` prints it."""

    def numbers(self, output, status=0):
        with directory() as path:
            program = path / "sundialctl"
            program.write_text(f"#!/bin/sh\n[ \"$*\" = 'bounds t p 7 8' ] || exit 2\nprintf '{output}'\nexit {status}\n")
            program.chmod(0o755)
            return calm_numbers(str(program), read_topology(str(EXAMPLES / "triangle" / "topology.toml")), "t", "p", 7, 8)

    def test_each_member_has_its_number(self):
        lines = "bounds link rx1 r 9 8 5\\nnobound link rx1 x 6\\ndone 1 2\\n"
        self.assertEqual(self.numbers(lines), {"r": 5, "x": 6})

    def test_a_refused_plan_ends_the_watch(self):
        with self.assertRaisesRegex(ToolError, "status 1"):
            self.numbers("refused 1 rates\\n", 1)


class Names(unittest.TestCase):
    """Alerts and panels name series and labels that the metrics have."""

    @classmethod
    def setUpClass(cls):
        with directory() as path, mock.patch.object(watcher, "Replaying", Played):
            fabric = Fabric(path, World(7, rounds=12, late=10 * PERIOD))
            fabric.write(fabric.lines)
            watch = fabric.watch(ask=PERIOD)
            watch.metrics.fabric, watch.metrics.bounds, watch.metrics.calm = 'of "mine"\\', {fabric.leaf: 10**6}, {fabric.leaf: 10**5}
            while watch.step():
                pass
            watch.step(is_last=True)
            cls.text, cls.has_news = watch.metrics_text(), watch.has_news
            watch.finish()
        cls.labels = {}
        for name, labels in re.findall(r"^(sundial_\w+)\{(.*)\} \S+$", cls.text, re.MULTILINE):
            cls.labels.setdefault(name, set()).update(re.findall(r'(\w+)="', labels))

    def test_each_series_has_the_fabric(self):
        for line in self.text.splitlines():
            self.assertTrue(line.startswith("#") or 'fabric="of \\"mine\\"\\\\"' in line, line)
        self.assertTrue(self.has_news)

    def test_alerts(self):
        text = RULES.read_text()
        for expr, summary in re.findall(r"expr: (.*)(?:\n.*?)*?summary: \"(.*)\"", text):
            names = SERIES.findall(expr)
            self.assertTrue(names and all(name in self.labels for name in names), expr)
            for label in re.findall(r"\$labels\.(\w+)", summary):
                self.assertTrue(any(label in self.labels[name] for name in names), (label, expr))
        self.assertEqual(text.count("- alert:"), text.count("expr: "))

    def test_the_dashboard(self):
        board = json.loads((PACKAGING / "grafana" / "sundial.json").read_text())
        ids, places = set(), []
        for panel in board["panels"]:
            ids.add(panel["id"])
            places.append({(x, y) for x in range(panel["gridPos"]["x"], panel["gridPos"]["x"] + panel["gridPos"]["w"]) for y in range(panel["gridPos"]["y"], panel["gridPos"]["y"] + panel["gridPos"]["h"])})
            for target in panel["targets"]:
                names = SERIES.findall(target["expr"])
                self.assertTrue(names and all(name in self.labels for name in names), target)
                self.assertEqual(target["expr"].count('{fabric=~"$fabric"}'), len(names), target)
                for label in re.findall(r"\{\{(\w+)\}\}", target["legendFormat"]):
                    self.assertTrue(any(label in self.labels[name] for name in names), target)
        self.assertEqual(len(ids), len(board["panels"]))
        self.assertEqual(len(set.union(*places)), sum(map(len, places)))
        self.assertEqual([it["name"] for it in board["templating"]["list"]], ["source", "fabric"])

    @there("promtool")
    def test_promtool_takes_the_text_and_the_alerts(self):
        done = subprocess.run(["promtool", "check", "metrics"], input=self.text, text=True, capture_output=True, check=False)
        self.assertEqual((done.returncode, done.stderr), (0, ""))
        done = subprocess.run(["promtool", "test", "rules", RULES.with_suffix(".test.yml")], text=True, capture_output=True, check=False)
        self.assertEqual(done.returncode, 0, done.stdout + done.stderr)


class Unit(unittest.TestCase):
    @there("systemd-analyze")
    def test_systemd_takes_the_unit(self):
        unit = PACKAGING / "systemd" / "sundial-watch@.service"
        with directory() as path:
            text = unit.read_text()
            self.assertEqual(text.count("/usr/bin/sundial-watch"), 1)
            (path / unit.name).write_text(text.replace("/usr/bin/sundial-watch", str(TOOLS / "sundial-watch")))
            done = subprocess.run(["systemd-analyze", "verify", "--man=no", path / unit.name], text=True, capture_output=True, check=False)
        self.assertEqual((done.returncode, done.stdout + done.stderr), (0, ""))


if __name__ == "__main__":
    unittest.main()
