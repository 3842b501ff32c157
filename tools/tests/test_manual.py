"""What all tools have alike: the version, the letters of options, standard input, units, and a manual page each."""

import importlib.machinery
import importlib.util
import io
import os
import shutil
import subprocess
import sys
import unittest
from unittest import mock

from support import EXAMPLES, NETWORK, PROGRAM, TOOLS, directory, needs_sundial, run

from sundial_tools import __version__
from sundial_tools.network.main import main as topology_main
from sundial_tools.plain.main import main as replay_main
from sundial_tools.record.main import main as record_main
from sundial_tools.report.main import main as report_main

TRIANGLE = EXAMPLES / "triangle"
# What `sundial replay` prints of the triangle.
REPLAYED = """report 17 r 245004900 50501
report 18 b 245148133 351390
report 19 x 244972469 351355
report 88 b 2884989733 879359
report 89 x 2885262869 879413
report 108 b 3204970533 943355
report 109 x 3204971306 1244216
done 110 7
"""


def manual():
    """The script that makes the pages."""
    loader = importlib.machinery.SourceFileLoader("manual", str(TOOLS / "manual"))
    spec = importlib.util.spec_from_loader("manual", loader)
    module = importlib.util.module_from_spec(spec)
    with mock.patch.object(sys, "argv", ["manual", "--check"]), mock.patch.object(sys, "dont_write_bytecode", True):
        loader.exec_module(module)
    return module


class Manual(unittest.TestCase):
    def test_each_page_is_what_the_options_say(self):
        # (the script ends with a message where one is not)
        made = manual()
        entries = {it.name for it in TOOLS.iterdir() if it.name.startswith("sundial-")}
        self.assertEqual(entries, set(made.TOOL))

    def test_each_tool_tells_its_version(self):
        for name in manual().TOOL:
            self.assertEqual(run(name, lambda words: 2, ["--version"]), (0, f"{name} {__version__}\n", ""))

    def test_an_output_has_the_letter_o_everywhere(self):
        made = manual()
        for name in made.TOOL:
            parser = made.parser_of(name)
            for sub in [it for _, _, it in made.subparsers(parser)] or [parser, *(it for _, it in made.more_of(name))]:
                flags = next(it.option_strings for it in made.options(sub) if it.dest == "output")
                self.assertEqual(sorted(flags), ["--output", "-o"], (name, sub.prog))

    def test_a_letter_is_one_option_and_an_option_has_its_letter_everywhere(self):
        made = manual()
        flags = []
        for name in made.TOOL:
            parser = made.parser_of(name)
            for sub in [it for _, _, it in made.subparsers(parser)] or [parser]:
                flags += [frozenset(it.option_strings) for it in made.options(sub)]
        for one in flags:
            for other in flags:
                self.assertTrue(one == other or one.isdisjoint(other), (sorted(one), sorted(other)))


class Alike(unittest.TestCase):
    def test_a_schedule_from_standard_input(self):
        lines = io.TextIOWrapper(io.BytesIO((TRIANGLE / "schedule.txt").read_bytes()))
        words = [TRIANGLE / it for it in ("topology.toml", "plan.json", "plan-2.json")]
        with mock.patch.object(sys, "stdin", lines):
            status, out, _ = run("sundial-plain-replay", replay_main, [*words, "-"])
        self.assertEqual((status, out.splitlines()[-1]), (0, "done 110 7"))

    def test_a_topology_from_standard_input(self):
        lines = io.TextIOWrapper(io.BytesIO((TRIANGLE / "topology.toml").read_bytes()))
        with mock.patch.object(sys, "stdin", lines):
            status, out, _ = run("sundial-topology", topology_main, ["names", "-"])
        self.assertEqual((status, out.splitlines()[1]), (0, "device,0,r,,,1"))

    def same_from_standard_input(self, folder, program, words, made=None):
        """A run of the tool with each file by name, and one for each of them with `-` in its place. It makes the folder `made`."""
        environment = {**os.environ, "SUNDIAL": program, "SOURCE_DATE_EPOCH": "0"}

        def ran(words, source):
            with open(source) as file:
                command = [sys.executable, TOOLS / words[0], *words[1:]]
                done = subprocess.run(command, cwd=folder, env=environment, stdin=file, capture_output=True, text=True, check=False)
            if made:
                shutil.rmtree(folder / made)
            return done.returncode, done.stdout.replace("standard input", "FILE"), done.stderr.replace("standard input", "FILE")

        words = words.split()
        named = ran(words, os.devnull)
        self.assertNotIn(named[0], (1, 2), named)
        for place in [place for place, word in enumerate(words) if "." in word]:
            name = words[place]
            got = ran([*words[:place], "-", *words[place + 1:]], folder / name)
            self.assertEqual([it.replace(name, "FILE") for it in got[1:]], [it.replace(name, "FILE") for it in named[1:]], (words, name))
            self.assertEqual(got[0], named[0])

    def test_each_text_from_standard_input(self):
        with directory() as folder:
            for name in "topology.toml", "plan.json", "plan-2.json", "schedule.txt":
                shutil.copy(TRIANGLE / name, folder)
            (folder / "replay.txt").write_text(REPLAYED)
            (folder / "check.txt").write_text("accepted 3 6 9\n")
            for words in (
                "sundial-cut topology.toml plan.json plan-2.json schedule.txt --every 10",
                "sundial-duty topology.toml plan.json",
                "sundial-lines replay.txt -t topology.toml -s schedule.txt -p plan.json -p plan-2.json",
                "sundial-plain-replay topology.toml plan.json plan-2.json schedule.txt",
                "sundial-report topology.toml plan.json plan-2.json --check check.txt --replay schedule.txt replay.txt",
                "sundial-topology names topology.toml",
                "sundial-topology lint topology.toml",
                "sundial-topology absent topology.toml r -p plan.json",
                "sundial-whatif topology.toml plan.json --until 1ms",
                "sundial-why topology.toml plan.json plan-2.json schedule.txt -l replay.txt",
            ):
                self.same_from_standard_input(folder, "", words)

    def test_each_text_of_a_network_from_standard_input(self):
        with directory() as folder:
            shutil.copytree(NETWORK, folder, dirs_exist_ok=True)
            numbers = "--oscillators oscillators.csv --delays delays.csv --period 100us --tick 10us --loss 1 --depth 3 --root-role spine"
            parts = " ".join(f"--{kind} netbox/{kind}.json" for kind in ("devices", "interfaces", "cables"))
            ignored = "--ignore-role management --ignore-role pdu --ignore-role panel"
            self.same_from_standard_input(folder, "", f"sundial-topology tables --devices devices.csv --links links.csv {numbers}")
            self.same_from_standard_input(folder, "", f"sundial-topology netbox {parts} {ignored} {numbers}")

    def test_each_text_of_logs_and_captures_from_standard_input(self):
        with directory() as folder:
            shutil.copytree(EXAMPLES / "ptp", folder, dirs_exist_ok=True)
            to = "--device follower --link wire --asymmetry 20us"
            self.same_from_standard_input(folder, "", f"sundial-exchanges ptp topology.toml ptp4l.capture {to}")
            self.same_from_standard_input(folder, "", f"sundial-exchanges chrony topology.toml ntpdata.csv {to}")
            shutil.copytree(EXAMPLES / "logs", folder, dirs_exist_ok=True)
            self.same_from_standard_input(folder, "", "sundial-record topology.toml r.jsonl b.jsonl x.jsonl --plan plan.json --counters life")

    def test_each_text_of_a_watch_from_standard_input(self):
        with directory() as folder:
            shutil.copytree(EXAMPLES / "logs", folder, dirs_exist_ok=True)
            words = "topology.toml r.jsonl b.jsonl x.jsonl --plan plan.json --counters life -o state --once --follow"
            stand_in = TOOLS / "tests" / "plain_sundial.py"
            self.same_from_standard_input(folder, str(stand_in), f"sundial-watch {words}", "state")

    @needs_sundial
    def test_each_text_from_standard_input_where_sundial_reads_it_too(self):
        with directory() as folder:
            for name in "topology.toml", "plan.json", "plan-2.json", "schedule.txt":
                shutil.copy(TRIANGLE / name, folder)
            for words in (
                "sundial-cut topology.toml plan.json plan-2.json schedule.txt --every 10 --run",
                "sundial-readiness topology.toml plan.json",
                "sundial-whatif topology.toml plan.json --until 1ms",
            ):
                self.same_from_standard_input(folder, str(PROGRAM), words)

    def test_two_texts_from_standard_input_are_refused(self):
        status, out, err = run("sundial-report", report_main, ["-", "-"])
        self.assertEqual((status, out, err), (1, "", "sundial-report: only one file can be -, which is standard input\n"))

    def test_a_fault_of_standard_input_is_told_by_its_name(self):
        with mock.patch.object(sys, "stdin", io.TextIOWrapper(io.BytesIO(b"version = 1\n"))):
            status, _, err = run("sundial-report", report_main, ["-", TRIANGLE / "plan.json"])
        self.assertEqual(status, 1)
        self.assertTrue(err.startswith("sundial-report: standard input: "), err)

    def test_a_time_without_a_unit_is_refused(self):
        words = "tables --devices d --links l --oscillators o --delays d --tick 1us --loss 1 --depth 2 --root-role r --period".split()
        err = io.StringIO()
        with mock.patch.object(sys, "stderr", err), self.assertRaises(SystemExit):
            topology_main([*words, "100"])
        self.assertIn("'100' has no unit: write 100ps, 100ns, 100us, 100ms or 100s", err.getvalue())
        with mock.patch.object(sys, "stderr", err), self.assertRaises(SystemExit):
            record_main(["t", "l", "--plan", "p", "--origin", "7"])
        self.assertIn("'7' has no unit: write 7s, or 7ps", err.getvalue())


if __name__ == "__main__":
    unittest.main()
