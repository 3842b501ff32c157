"""The usual lines of logs: what a learned form reads is what the reader of JSON reads, and all else is left to that."""

import json
import random
import unittest

from support import DATA, directory

from sundial_tools.errors import ToolError
from sundial_tools.record.logs import MOST_SHAPES, Log
from sundial_tools.record.shapes import shape_of
from sundial_tools.topology import read_topology

TOPOLOGY = read_topology(str(DATA / "triangle.toml"))
UNITS = ("ps", "ns", "us", "ms", "s")


def line_of(draw, order=None):
    """A tick, an ask or a receipt, with its keys in some order."""
    word = draw.choice(("tick", "recv", "ask"))
    said = {"device": draw.choice("rbx"), "event": word}
    for stem in "reference", "counter":
        unit = draw.choice(UNITS) if order is None else order
        whole = draw.choice((0, 7, 90000000, 1767225601000090000, 10**21))
        said[f"{stem}_{unit}"] = whole if draw.random() < 0.5 else f"<{whole}.{draw.choice(('5', '25', '125', '0', '000000001', '50'))}>"
    if word == "recv":
        said.update(link=draw.choice(("rb", "rx", "bx")), epoch=draw.choice((1, 2)), term=draw.choice((0, 3)), round=draw.randint(0, 99))
    if draw.random() < 0.3:
        said["note"] = draw.choice(("warm", 41, True, None, "<41.5>", -3))
    keys = list(said)
    if order is None:
        draw.shuffle(keys)
    text = json.dumps({key: said[key] for key in keys}, separators=draw.choice(((", ", ": "), (",", ":"))) if order is None else None)
    return text.replace('"<', "").replace('>"', "") + "\n"


def changed(draw, text):
    """The line with one sign more, less or another."""
    place = draw.randrange(len(text))
    return text[:place] + draw.choice(("", "0", "-", ".", '"', "\\", "é", " ", ",", "}", "e1", "٣", "\x01")) + text[place + draw.choice((0, 1)):]


def read(read_line, text):
    try:
        return read_line(text, 1)
    except ToolError as fault:
        return str(fault)


class Shapes(unittest.TestCase):
    def both(self, log, text):
        """The line by the learned forms, and by the reader of JSON alone."""
        plain = Log("log", TOPOLOGY)
        self.assertEqual(read(log._event, text), read(plain._unusual_event, text), text)

    def test_random_lines(self):
        draw = random.Random(3)
        for _ in range(60):
            log = Log("log", TOPOLOGY)
            for _ in range(20):
                text = line_of(draw)
                self.both(log, text)
                for _ in range(3):
                    self.both(log, changed(draw, text))
            self.assertLessEqual(len(log._shapes), MOST_SHAPES)

    def test_a_log_is_read_by_its_forms(self):
        for unit in UNITS:
            draw, log = random.Random(unit), Log("log", TOPOLOGY)
            log._decoded_event = self.count(log._decoded_event)
            lines = [line_of(draw, unit) for _ in range(200)]
            kept = [line for line in lines if "note" not in line]
            for line in kept:
                read(log._event, line)
            self.assertLessEqual(len(log._shapes), 3)
            self.assertLess(self.counted, 120, unit)

    def count(self, call):
        self.counted = 0

        def counting(*words):
            self.counted += 1
            return call(*words)
        return counting

    def test_what_is_no_form_to_learn(self):
        ref, counter = ("reference_ps", 1), ("counter_ps", 1)
        good = '{"device": "b", "event": "tick", "reference_ps": 5, "counter_ps": 6}\n'
        self.assertIsNotNone(shape_of(good, "tick", ref, counter))
        for bad in (
            good.replace('"b"', '"\\u0062"'), good.replace("5,", '5, "more": [1],'), good.replace("5,", '5, "device": "b",'),
            good.replace("5,", '5, "more": 1e3,'), good.replace("}", ""), good.replace('"device": "b", ', ""),
        ):
            self.assertIsNone(shape_of(bad, "tick", ref, counter), bad)

    def test_equal_keys_are_read_as_before(self):
        log = Log("log", TOPOLOGY)
        first = '{"device": "b", "event": "tick", "reference_ps": 5, "counter_ps": 6, "device": "x"}\n'
        self.assertEqual(log._event(first, 1).device, 2)
        self.assertEqual(log._shapes, [])

    def test_whole_files(self):
        draw = random.Random(9)
        with directory() as path:
            lines = [
                f'{{"device": "b", "event": "{draw.choice(("tick", "ask"))}", "reference_ns": {number}.5, "counter_ns": {number}}}\n'
                for number in range(1000, 1400)
            ]
            (path / "log").write_text("\n".join(lines))
            events = list(Log(str(path / "log"), TOPOLOGY))
        self.assertEqual(len(events), 400)
        self.assertEqual({event.ref % 1000 for event in events}, {500})
        self.assertEqual(sorted(event.line for event in events), [event.line for event in events])


if __name__ == "__main__":
    unittest.main()
