"""The schemas of docs/schemas/ fit what the tools read and write, and nothing else."""

import json
import unittest

import case
from examples import EXAMPLES, outputs
from schema import Schema
from support import DATA, directory, run
from test_lines import KINDS
from test_record import made_case

from sundial_tools.lines.main import main
from sundial_tools.topology import read_topology, topology_text


class Lines(unittest.TestCase):
    schema = Schema("lines")

    def rows(self, text, *more):
        with directory() as path:
            (path / "output").write_text(text)
            status, out, err = run("sundial-lines", main, [path / "output", *more])
        self.assertEqual((status, err), (0, ""))
        return [json.loads(line) for line in out.splitlines()]

    def check(self, rows):
        for row in rows:
            self.assertTrue(self.schema.fits(row), row)

    def test_each_kind(self):
        for text in KINDS:
            self.check(self.rows(text))
        self.check(self.rows("report 1 b 9007199254740993 1\n", "--strings"))

    def test_plans_and_topologies(self):
        self.check(self.rows((DATA / "triangle-1.json").read_text(), "--topology", DATA / "triangle.toml"))
        self.check(self.rows(topology_text(read_topology(str(DATA / "triangle.toml")))))

    def test_the_examples(self):
        found = 0
        for name in "triangle", "fabric", "incident", "lying-clock", "commit-wait", "exchanges", "logs":
            for command, text in outputs(name).items():
                words = command.split()
                if words[:1] != ["sundial"] or words[1] not in ("check", "drill", "replay", "order", "twoway") or {">", "|"} & set(words):
                    continue
                here = EXAMPLES / name
                more = ["--topology", here / words[2], "--command", words[1]] if words[1] in ("drill", "replay", "order", "twoway") else []
                if words[1] in ("replay", "order"):
                    more += ["--schedule", here / words[-1]]
                    for plan in words[3:-1]:
                        more += ["--plan", here / plan]
                    more += ["--lineage"]
                if not text or not all((here / word).is_file() for word in words[2:4]):
                    continue
                self.check(self.rows(text, *more))
                found += 1
        self.assertGreater(found, 8)

    def test_what_is_no_row(self):
        good = {"kind": "report", "line": 1, "device": "b", "clock": 1, "eps": 2}
        self.assertTrue(self.schema.fits(good))
        for change in {"kind": "raport"}, {"line": "1"}, {"device": "a b"}, {"more": 1}, {"eps": None}, {"clock": 1.5}:
            self.assertFalse(self.schema.fits({**good, **change}), change)
        self.assertFalse(self.schema.fits({"kind": "broken", "line": 1, "premise": "clock"}))


class Logs(unittest.TestCase):
    schema = Schema("log")

    def test_logs_of_cases_and_examples(self):
        made = made_case(lost=(3,))
        for lines in [*made.logs.values(), made.world]:
            for said in lines:
                self.assertTrue(self.schema.fits(said), said)
        for file in (EXAMPLES / "logs").glob("*.jsonl"):
            for line in file.read_text().splitlines():
                self.assertTrue(self.schema.fits(json.loads(line)), line)
        self.assertTrue(case.PERIOD)

    def test_what_is_no_event(self):
        good = {"event": "tick", "device": "x", "reference_ns": 0, "counter_ns": 0}
        self.assertTrue(self.schema.fits({**good, "note": "more keys are ignored"}))
        for bad in (
            {"event": "send"}, {"counter_ps": 1}, {"device": 5}, {"reference_ns": "0"}, {"reference_ps": 1},
            {"event": "recv"}, {"event": "start"}, {"event": "fail", "link": "rb"},
        ):
            self.assertFalse(self.schema.fits({**good, **bad}), bad)
        for key in good:
            self.assertFalse(self.schema.fits({name: value for name, value in good.items() if name != key}), key)


if __name__ == "__main__":
    unittest.main()
