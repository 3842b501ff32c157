"""sundial-topology lint: what it finds, and that it finds nothing in the examples."""

import re
import unittest

from support import EXAMPLES, directory, run

from sundial_tools.network.lint import seconds_to_break, span
from sundial_tools.network.main import main

FABRIC = (EXAMPLES / "fabric" / "topology.toml").read_text()


def lint(text, *more):
    with directory() as path:
        (path / "t.toml").write_text(text)
        status, out, err = run("sundial-topology", main, ["lint", path / "t.toml", *more])
        return status, out + err


class Lint(unittest.TestCase):
    def found(self, text, said, *more):
        status, out = lint(text, *more)
        self.assertEqual(status, 1, out)
        self.assertIn(said, out)

    def test_nothing_in_what_is_right(self):
        for file in sorted(EXAMPLES.glob("*/topology*.toml")):
            self.assertEqual(lint(file.read_text()), (0, ""), file)
        for kind in ("leaf-spine", "--hosts", "2", "--trays", "2"), ("three-tier",), ("leaf-spine", "--feeds", "2"):
            self.assertEqual(lint(run("sundial-topology", main, ["make", *kind])[1], "--message-loss", "1e-9"), (0, ""), kind)

    def test_keys_that_nobody_reads(self):
        self.found(FABRIC.replace('devices = ["leaf1"]', 'device = ["leaf1"]'), "domain rack1 has the key device, which nobody reads: did you mean devices?")
        self.found("backmin = 1\n" + FABRIC, "the topology has the key backmin, which nobody reads")
        self.found(FABRIC.replace("min = 400000", "backmin = 1\nmin = 400000", 1), "link leaf1-spine1 has the key backmin, which nobody reads: did you mean back_min?")
        self.found("root = []\n" + FABRIC, "the topology has the key root, which nobody reads: did you mean roots?")

    def test_keys_of_version_2(self):
        self.found(FABRIC.replace('name = "leaf1"', 'name = "leaf1"\nppm = 300', 1), "so it is ignored. UNSAFE: it says 300, and 200 is taken")
        status, out = lint(FABRIC.replace('name = "leaf1"', 'name = "leaf1"\nppm = 50', 1))
        self.assertIn("device leaf1 has the key ppm of version 2", out)
        self.assertNotIn("UNSAFE", out)
        self.found(FABRIC.replace("max = 1000000", "max = 1000000\nback_min = 300000\nback_max = 900000", 1), "UNSAFE: it says 300000, and 400000 is taken")

    def test_domains(self):
        self.found(FABRIC + '[[domain]]\nname = "hall"\n', "domain hall has no devices and no links")
        self.found(FABRIC + '[[domain]]\nname = "tray"\nlinks = ["leaf1-spine1"]\n', "links are in no tray, and others like them are in one: leaf1-spine2")
        self.found(FABRIC.replace('devices = ["spine1", ', 'devices = ["spine1", "spine2", ').replace('devices = ["spine2", ', "devices = ["),
                   "the first two candidates, spine1, spine2, share the domain feed-a")
        self.found(FABRIC.replace('"leaf7", "leaf8"]', '"leaf7", "leaf8", "spine1"]'), "domain feed-c has the candidates spine1, spine3: without it 1 is left")
        self.found(re.sub(r"^roots = .*", 'roots = ["spine1"]', FABRIC, flags=re.MULTILINE), "roots has spine1 alone")

    def test_devices_without_a_link(self):
        self.found(FABRIC.replace("[[link]]", '[[device]]\nname = "spare"\n\n[[link]]', 1), "spare has no link: no plan reaches it")

    def test_a_domain_that_holds_all_ways_of_a_device(self):
        hosts = run("sundial-topology", main, ["make", "leaf-spine", "--hosts", "1"])[1]
        self.assertEqual(lint(hosts, "--message-loss", "1e-9"), (0, ""))
        self.found(hosts.replace('devices = ["leaf2", "host2-1"]', 'devices = ["leaf2"]'), "domain rack2 holds all ways of host2-1, which is not in it")
        self.found(FABRIC + '[[domain]]\nname = "tray"\nlinks = ["leaf4-spine1", "leaf4-spine2", "leaf4-spine3"]\n', "domain tray holds all ways of leaf4")
        ends = "".join(f'"leaf{leaf}-spine{spine}", ' for leaf in (1, 2) for spine in (1, 2))
        out = lint(FABRIC + f'[[domain]]\nname = "tray"\nlinks = [{ends}]\n')[1]
        self.assertNotIn("holds all ways", out)

    def test_two_feeds(self):
        two = FABRIC[: FABRIC.index('[[domain]]\nname = "feed-c"')]
        self.found(two, "leaf1, leaf2, leaf3, leaf4, leaf5, leaf6 are on one of two feeds")

    def test_loss_against_the_size(self):
        self.assertEqual(span(seconds_to_break(8190, 100_000_000, 1, 1e-6)), "1.5 s")
        self.assertEqual(span(seconds_to_break(8190, 100_000_000, 3, 1e-6)), "6.3 hours")
        self.assertIsNone(seconds_to_break(20, 100_000_000, 1, 0.0))
        self.found(FABRIC, "loss = 1 is little for 20 messages a round: if one in 1,000 is lost, the premise breaks every 260 ms", "--message-loss", "1e-3")
        self.assertIn("is no rate", lint(FABRIC, "--message-loss", "2")[1])


if __name__ == "__main__":
    unittest.main()
