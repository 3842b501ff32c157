"""sundial-exchanges over a capture of tests/live_ptp, over lines of chronyc 4.3, and over bad inputs."""

import io
import os
import socket
import threading
import time
import unittest

from examples import EXAMPLES
from support import directory, run

from sundial_tools.exchanges.exchange import Exchange, ExchangeWriter, LeftOut
from sundial_tools.exchanges.main import main
from sundial_tools.exchanges.pairing import Pairing, Port
from sundial_tools.exchanges.ptp_events import DelayRequest, Sync, parse_datagram
from sundial_tools.topology import parse_topology

HERE = EXAMPLES / "ptp"
TOPOLOGY, CAPTURE, NTPDATA = HERE / "topology.toml", HERE / "ptp4l.capture", HERE / "ntpdata.csv"
PEER = "--peer"


def tool(*words):
    return run("sundial-exchanges", main, list(words))


def convert(kind, source, *words, device="follower", link=("--link", "wire")):
    return tool(kind, TOPOLOGY, source, "--device", device, *link, "--asymmetry", "100us", *words)


def first_datagram():
    return bytes.fromhex(CAPTURE.read_text().splitlines()[0])


class Steering(unittest.TestCase):
    def test_just_what_rates_grains_and_delays_allow(self):
        """A clock that went apart by so much is not told, and by 1 ps more it is."""
        topology = parse_topology(TOPOLOGY.read_text().replace("min = 0", "min = 30000000"))
        link = topology.links[0]
        ends = [topology.devices[end] for end in link.ends]
        passed = 10**12
        allowed = sum(end.ppm for end in ends) * passed // 10**6 + 2 * sum(end.grain for end in ends) + link.forth.max - link.forth.min
        for more, is_steered in (0, False), (1, True):
            for sign in 1, -1:
                writer = ExchangeWriter(topology, 10**8, 10**10, io.StringIO(), LeftOut())
                for line, (sent, late) in enumerate(((0, 0), (passed, sign * (allowed + more))), 1):
                    at = sent + 10**9 + late
                    times = (sent + 2 * 10**9, at + 2 * 10**9, at + 3 * 10**9, sent + 5 * 10**9)
                    writer.write(Exchange(line, link.ends[0], *times), link)
                self.assertEqual(writer.written, 2)
                self.assertEqual(writer.steered is not None, is_steered, (more, sign))


class Datagrams(unittest.TestCase):
    def test_the_first_event_of_the_capture(self):
        (event,) = parse_datagram(first_datagram(), 7)
        self.assertIsInstance(event, Sync)
        self.assertEqual((event.line, event.correction), (7, 0))
        self.assertTrue(0 < event.arrived - event.sent < 10**9)
        self.assertRegex(event.peer, r"^[0-9a-f]{6}\.[0-9a-f]{4}\.[0-9a-f]{6}-1$")

    def test_both_kinds_are_in_the_capture(self):
        kinds = {
            type(event) for line in CAPTURE.read_text().splitlines() for event in parse_datagram(bytes.fromhex(line))
        }
        self.assertEqual(kinds, {Sync, DelayRequest})

    def test_bad_datagrams_are_named(self):
        good = first_datagram()
        for bad, reason in (
            (good[:20], "at least 44"),
            (good[:-1], "bytes by its header"),
            (b"\x0b" + good[1:], "no signaling message"),
            (good[:2] + (len(good) - 4).to_bytes(2, "big") + good[4:-4], "past the end"),
            (good[:-4] + b"\xff\xff\xff\xff", "a second or more"),
        ):
            with self.subTest(reason), self.assertRaisesRegex(ValueError, reason):
                parse_datagram(bad)


class Pairs(unittest.TestCase):
    def setUp(self):
        self.left_out = LeftOut()
        self.pairing = Pairing(Port(0, 1), self.left_out)

    def pairs(self, *events):
        found = [pair for event in events for pair in self.pairing.take(event)]
        return found + list(self.pairing.end())

    def test_a_request_near_the_sync_before_it(self):
        pairs = self.pairs(
            Sync(1, "p", 1, 100, 1100, 0), DelayRequest(2, "p", 1, 1200, 300, 0), Sync(3, "p", 2, 900, 1900, 0)
        )
        self.assertEqual(pairs, [Exchange(2, 0, 100, 1100, 1200, 300)])
        self.assertEqual(pairs[0].hold, 100)

    def test_a_request_near_the_sync_behind_it(self):
        pairs = self.pairs(
            Sync(1, "p", 1, 100, 1100, 0), DelayRequest(2, "p", 1, 1800, 850, 0), Sync(3, "p", 2, 900, 1900, 0)
        )
        self.assertEqual(pairs, [Exchange(2, 1, 1800, 850, 900, 1900)])

    def test_a_request_that_waits_for_no_sync_is_paired_at_the_end(self):
        pairs = self.pairs(Sync(1, "p", 1, 100, 1100, 0), DelayRequest(2, "p", 1, 1200, 300, 0))
        self.assertEqual(len(pairs), 1)

    def test_what_is_left_out_has_its_reason(self):
        pairs = self.pairs(
            DelayRequest(1, "p", 1, 1200, 300, 0),
            DelayRequest(2, "p", 1, 1200, 300, 0),
            Sync(3, "p", 1, 100, 1100, 1 << 20),
        )
        self.assertEqual(pairs, [])
        self.assertEqual(
            self.left_out.lines(),
            [
                "1, the same message again (first at line 2)",
                "1, a transparent clock stood between, and corrected it (first at line 3)",
                "1, a delay request without a sync near it (first at line 1)",
            ],
        )


class Ptp(unittest.TestCase):
    def test_the_capture_of_the_live_test(self):
        status, out, err = convert("ptp", CAPTURE)
        self.assertEqual(status, 0, err)
        lines = out.splitlines()
        self.assertEqual(lines[-1], "end")
        self.assertGreater(len(lines), 5)
        for line in lines[:-1]:
            word, link, side, asymmetry, *times = line.split()
            self.assertEqual((word, link, asymmetry), ("exchange", "0", "100000000"))
            sent, arrived, answered, back = map(int, times)
            self.assertTrue(max(sent, arrived, answered, back) < 2**60)
            self.assertTrue(arrived <= answered <= arrived + 10**9 and sent <= back)
            self.assertIn(side, "01")
        self.assertIn(f"written: {len(lines) - 1} exchanges", err)
        self.assertNotIn("warning", err)

    def test_both_sides_begin(self):
        _, out, _ = convert("ptp", CAPTURE, "--hold", "10ms")
        self.assertEqual({line.split()[2] for line in out.splitlines()[:-1]}, {"0", "1"})

    def test_a_peer_by_its_name(self):
        (event,) = parse_datagram(first_datagram())
        status, out, _ = convert("ptp", CAPTURE, link=(PEER, f"{event.peer}=wire"))
        self.assertEqual(status, 0)
        self.assertEqual(out, convert("ptp", CAPTURE)[1])

    def test_nothing_left_is_an_error_that_says_why(self):
        status, out, err = convert("ptp", CAPTURE, "--hold", "1ps")
        self.assertEqual((status, out), (1, ""))
        self.assertIn("the shortest was held for", err)
        status, out, err = convert("ptp", CAPTURE, link=(PEER, "a-1=wire"))
        self.assertEqual((status, out), (1, ""))
        self.assertIn("for which no --peer names a link", err)

    def test_a_clock_that_was_set_is_warned_of(self):
        lines = CAPTURE.read_text().splitlines(keepends=True)
        # From the middle on the receiver's clock is 10 ms ahead: the arrival of each sync, the sending of each request.
        moved = [_ahead(line) for line in lines[len(lines) // 2 :]]
        with directory() as path:
            (path / "capture").write_text("".join(lines[: len(lines) // 2] + moved))
            status, _, err = convert("ptp", path / "capture", "--hold", "4ms")
        self.assertEqual(status, 0, err)
        self.assertIn("warning: at line", err)

    def test_bad_inputs_write_nothing(self):
        text = CAPTURE.read_text()
        for bad, reason in (
            (text[:-1], ":300: the capture is cut short"),
            (text + "xyz\n", ":301: a datagram of a capture is a line of hexadecimal digits"),
            (text + text.splitlines()[0][:-2] + "\n", ":301: the message has"),
            ("", "the input has no exchange"),
        ):
            with self.subTest(reason), directory() as path:
                (path / "capture").write_text(bad)
                status, _, err = convert("ptp", path / "capture", "--output", path / "out")
                self.assertEqual(status, 1)
                self.assertIn(reason, err)
                self.assertEqual([file.name for file in path.iterdir()], ["capture"])

    def test_names_that_are_not_there(self):
        for words, reason in (
            ({"device": "nobody"}, "no device nobody"),
            ({"link": ("--link", "none")}, "no link none"),
            ({"link": ("--link", "side")}, "the link side does not end at follower"),
            ({"link": (PEER, "wire")}, "not of the form PEER=LINK"),
            ({"link": (PEER, "a-1=wire", PEER, "a-1=wire")}, "names a-1 twice"),
        ):
            with self.subTest(reason):
                status, out, err = convert("ptp", CAPTURE, **words)
                self.assertEqual((status, out), (1, ""))
                self.assertIn(reason, err)

    def test_a_second_peer_needs_names(self):
        good = first_datagram()
        other = good[:48] + bytes([good[48] ^ 1]) + good[49:]
        with directory() as path:
            (path / "capture").write_text(CAPTURE.read_text() + other.hex() + "\n")
            status, _, err = convert("ptp", path / "capture")
        self.assertEqual(status, 1)
        self.assertIn("a second peer", err)


def _ahead(line):
    (event,) = parse_datagram(bytes.fromhex(line))
    datagram = bytearray.fromhex(line)
    place = len(datagram) - 10 if isinstance(event, Sync) else len(datagram) - 28
    seconds = int.from_bytes(datagram[place : place + 6], "big")
    nanoseconds = int.from_bytes(datagram[place + 6 : place + 10], "big") + 10**7
    datagram[place : place + 6] = (seconds + nanoseconds // 10**9).to_bytes(6, "big")
    datagram[place + 6 : place + 10] = (nanoseconds % 10**9).to_bytes(4, "big")
    return datagram.hex() + "\n"


class Chrony(unittest.TestCase):
    def test_the_lines_of_chronyc(self):
        status, out, err = convert("chrony", NTPDATA)
        self.assertEqual(status, 0, err)
        lines = out.splitlines()
        self.assertEqual(len(lines), 21)
        fields = NTPDATA.read_text().splitlines()[0].split(",")
        held, delay = (int(fields[place].replace(".", "")) * 1000 for place in (21, 19))
        self.assertEqual(lines[0], f"exchange 0 1 100000000 0 0 {held} {held + delay}")

    def test_what_is_left_out(self):
        line = NTPDATA.read_text().splitlines()[0].split(",")
        later = line[:31] + ["13", "13", "13"]

        def changed(place, value):
            return ",".join(later[:place] + [value] + later[place + 1 :])

        for text, reason in (
            (",".join(line), "the same measurement again"),
            (changed(32, line[32]), "no valid answer came since"),
            (changed(26, "Yes"), "interleaved"),
            (changed(7, "Active"), "not from a server"),
            (changed(24, "110"), "a test of the packet failed"),
            (changed(19, "0.000000050"), "its delay is not above the precision"),
        ):
            with self.subTest(reason), directory() as path:
                (path / "ntpdata").write_text(",".join(line) + "\n" + text + "\n")
                status, out, err = convert("chrony", path / "ntpdata")
                self.assertEqual((status, len(out.splitlines())), (0, 2))
                self.assertIn(f"left out: 1, {reason}", err)

    def test_lines_of_chrony_4_6(self):
        longer = "".join(f"{line},7,7,0,0\n" for line in NTPDATA.read_text().splitlines())
        with directory() as path:
            (path / "ntpdata").write_text(longer)
            self.assertEqual(convert("chrony", path / "ntpdata")[1], convert("chrony", NTPDATA)[1])

    def test_bad_lines(self):
        text = NTPDATA.read_text()
        for bad, reason in (
            (text[:-1], "cut short"),
            (text + "506 Cannot talk to daemon\n", "has 1 fields"),
            (text.replace("0.000013803", "13 us"), ":1: '13 us' is no number of seconds"),
            (text.replace("0.000000030", "abc", 1), ":1: 'abc' is no number of seconds"),
        ):
            with self.subTest(reason), directory() as path:
                (path / "ntpdata").write_text(bad)
                status, out, err = convert("chrony", path / "ntpdata")
                self.assertEqual((status, out), (1, ""))
                self.assertIn(reason, err)


class Capture(unittest.TestCase):
    def test_what_comes_is_kept(self):
        with directory() as path:
            sender = threading.Thread(target=_send, args=(str(path / "socket"), first_datagram()))
            sender.start()
            status, _, err = tool("capture", path / "socket", "--seconds", "1.5", "--output", path / "out")
            sender.join()
            self.assertEqual(status, 0, err)
            self.assertEqual((path / "out").read_text(), first_datagram().hex() + "\n")
            self.assertFalse(os.path.lexists(path / "socket"))

    def test_nothing_came_or_no_socket(self):
        with directory() as path:
            status, _, err = tool("capture", path / "socket", "--seconds", "0", "--output", path / "out")
            self.assertEqual(status, 1)
            self.assertIn("no datagram came", err)
            (path / "file").write_text("kept")
            status, _, err = tool("capture", path / "file", "--seconds", "0", "--output", path / "out")
            self.assertEqual(status, 1)
            self.assertIn("there is a file, and no socket", err)
            self.assertEqual([file.name for file in path.iterdir()], ["file"])


def _send(path, datagram):
    with socket.socket(socket.AF_UNIX, socket.SOCK_DGRAM) as sender:
        for _ in range(100):
            try:
                sender.sendto(datagram, path)
                return
            except OSError:
                time.sleep(0.01)


if __name__ == "__main__":
    unittest.main()
