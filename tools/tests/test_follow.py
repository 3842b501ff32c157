"""--follow: a reader of a pipe sees what a line brings before the next line is fed."""

import os
import select
import subprocess
import threading
import unittest

from support import EXAMPLES, PROGRAM, TOOLS, directory, needs_sundial

# (how long a busy machine may take: what is asked is the order, and not the time)
SECONDS = 600
INCIDENT, LOGS = EXAMPLES / "incident", EXAMPLES / "logs"


class Fed:
    """A tool whose standard input is fed line by line."""

    def __init__(self, program, *words):
        self.process = subprocess.Popen(
            [program, *map(str, words)], stdin=subprocess.PIPE, stdout=subprocess.PIPE, stderr=subprocess.DEVNULL
        )
        self._read = b""

    def feed(self, line):
        self.process.stdin.write(line.encode())
        self.process.stdin.flush()

    def line(self):
        """The next printed line, which has to come though nothing more is fed."""
        while b"\n" not in self._read:
            if not select.select([self.process.stdout], [], [], SECONDS)[0]:
                raise AssertionError("nothing comes")
            more = os.read(self.process.stdout.fileno(), 65536)
            if not more:
                raise AssertionError("the output has ended")
            self._read += more
        line, _, self._read = self._read.partition(b"\n")
        return line.decode()

    def end(self):
        """Status, and what was printed since the latest line."""
        out = self.process.communicate(timeout=SECONDS)[0]
        return self.process.returncode, (self._read + out).decode()

    def __enter__(self):
        return self

    def __exit__(self, *_):
        if self.process.poll() is None:
            self.process.kill()
            self.process.communicate()
        for stream in self.process.stdin, self.process.stdout:
            stream.close()


class Streams(unittest.TestCase):
    def test_lines_tells_each_line_as_it_comes(self):
        for more, header in ((), 0), (("--csv",), 1):
            with self.subTest(more), Fed(TOOLS / "sundial-lines", "--follow", *more) as tool:
                for place, line in enumerate(("report 11 b 1000120999000 326560\n", "broken 12 start\n", "done 13 1\n")):
                    tool.feed(line)
                    if place == 0 and header:
                        self.assertTrue(tool.line().startswith("kind,"))
                    self.assertIn(line.split()[0], tool.line())
                self.assertEqual(tool.end(), (0, ""))

    def test_lines_looks_into_a_schedule_that_comes_by_a_pipe(self):
        with directory() as path:
            pipe = path / "schedule"
            os.mkfifo(pipe)
            feeder = threading.Thread(target=lambda: pipe.write_bytes((LOGS / "schedule.txt").read_bytes()))
            feeder.start()
            with Fed(TOOLS / "sundial-lines", "--follow", "-s", pipe, "-t", LOGS / "topology.toml") as tool:
                tool.feed("report 11 b 1000120999000 326560\n")
                self.assertIn('"inside":true', tool.line())
                feeder.join()

    def test_why_says_each_line_as_it_comes_also_of_a_schedule_that_grows(self):
        lines = (INCIDENT / "schedule.txt").read_text().splitlines(keepends=True)
        told = [line for line in (INCIDENT / "output").read_text().splitlines() if line.startswith(("broken ", "alarm "))]
        self.assertGreater(len(told), 2)
        with directory() as path:
            growing = path / "schedule.txt"
            growing.write_text("".join(lines[:3]))
            with Fed(TOOLS / "sundial-why", INCIDENT / "topology.toml", INCIDENT / "plan.json", INCIDENT / "plan.json", growing, "--follow") as tool:
                for line in told:
                    number = int(line.split()[1])
                    growing.write_text("".join(lines[:number]))
                    tool.feed(line + "\n")
                    self.assertEqual(tool.line(), line)
                    said = [tool.line(), tool.line()]
                    self.assertEqual(said[1], f"    {growing}, line {number}: {lines[number - 1].strip()}")
                    while not tool.line().startswith(("    Change: ", "    It follows from")):
                        pass
                self.assertEqual(tool.end(), (0, ""))

    def test_record_writes_each_event_as_it_comes(self):
        lines = (LOGS / "r.jsonl").read_text().splitlines(keepends=True)
        events = [line for line in (LOGS / "schedule.txt").read_text().splitlines() if line.split()[2:3] == ["0"]]
        with Fed(
            TOOLS / "sundial-record", LOGS / "topology.toml", "-", "--plan", LOGS / "plan.json", "--counters", "life", "--follow"
        ) as tool:
            for line, event in zip(lines, events):
                tool.feed(line)
                self.assertEqual(tool.line(), event)
            self.assertEqual(tool.end(), (0, "end 1000110000000\n"))

    def test_a_plain_replay_goes_on_line_by_line(self):
        self.replays(TOOLS / "sundial-plain-replay", "--follow")

    @needs_sundial
    def test_the_program_goes_on_line_by_line(self):
        self.replays(PROGRAM.resolve(), "replay", source="/dev/stdin")

    def replays(self, program, *words, source="-"):
        files = [INCIDENT / name for name in ("topology.toml", "plan.json", "plan.json")]
        due = {}
        told = (INCIDENT / "output").read_text().split("plan.json plan.json schedule.txt\n", 1)[1].split("\n$ ")[0]
        for line in told.splitlines():
            words_of = line.split()
            if words_of[0] in ("report", "broken", "alarm"):
                due.setdefault(int(words_of[1]), []).append(line)
        self.assertGreater(len(due), 3)
        with Fed(program, *words, *files, source) as tool:
            for number, line in enumerate((INCIDENT / "schedule.txt").read_text().splitlines(keepends=True), 1):
                tool.feed(line)
                for expected in due.get(number, ()):
                    self.assertEqual(tool.line(), expected)
            status, out = tool.end()
            self.assertEqual((status, out.split()[0]), (7, "done"))


if __name__ == "__main__":
    unittest.main()
