"""Where output goes: nothing is replaced that should not be, and nothing is left behind."""

import os
import pathlib
import signal
import socket
import stat
import subprocess
import sys
import threading
import time
import unittest

from support import DATA, TOOLS, directory, run

from sundial_tools.errors import ToolError
from sundial_tools.exchanges.main import main as exchanges
from sundial_tools.network.main import main as topology
from sundial_tools.safe_write import whole_output


def write(path, text="all\n"):
    with whole_output(str(path)) as output:
        output.write(text)


def names(*words):
    """The tool that writes a table of names."""
    return run("sundial-topology", topology, ["names", DATA / "triangle.toml", *words])


class Files(unittest.TestCase):
    def test_a_file_is_whole_or_not_there(self):
        with directory() as path:
            write(path / "good")
            with self.assertRaises(ToolError), whole_output(str(path / "bad")) as text:
                text.write("half")
                raise ToolError("no")
            self.assertEqual(os.listdir(path), ["good"])
            self.assertEqual((path / "good").read_text(), "all\n")

    def test_a_new_file_has_the_usual_mode_and_an_old_one_its_own(self):
        with directory() as path:
            before = os.umask(0o027)
            try:
                write(path / "new")
            finally:
                os.umask(before)
            for mode in 0o600, 0o644, 0o664:
                (path / "old").write_text("before")
                (path / "old").chmod(mode)
                write(path / "old")
                self.assertEqual((path / "old").read_text(), "all\n")
                self.assertEqual(stat.S_IMODE((path / "old").stat().st_mode), mode)
            self.assertEqual(stat.S_IMODE((path / "new").stat().st_mode), 0o640)

    def test_a_link_stays_a_link(self):
        with directory() as path:
            (path / "there").mkdir()
            (path / "there" / "file").write_text("before")
            (path / "link").symlink_to("there/file")
            (path / "loose").symlink_to("there/new")
            write(path / "link")
            write(path / "loose")
            self.assertTrue((path / "link").is_symlink() and (path / "loose").is_symlink())
            self.assertEqual((path / "there" / "file").read_text(), "all\n")
            self.assertEqual((path / "there" / "new").read_text(), "all\n")
            self.assertEqual(sorted(os.listdir(path / "there")), ["file", "new"])

    def test_a_device_stays_a_device(self):
        self.assertEqual(names("--output", "/dev/null"), (0, "", ""))
        self.assertTrue(stat.S_ISCHR(os.stat("/dev/null").st_mode))
        status, _, err = names("--output", "/dev/full")
        self.assertEqual(status, 1)
        self.assertIn("No space left on device", err)
        self.assertTrue(stat.S_ISCHR(os.stat("/dev/full").st_mode))

    def test_a_fifo_stays_a_fifo_and_is_written_to(self):
        with directory() as path:
            os.mkfifo(path / "fifo")
            read = []
            reader = threading.Thread(target=lambda: read.append((path / "fifo").read_text()))
            reader.start()
            status, _, err = names("--output", path / "fifo")
            reader.join()
            self.assertEqual((status, err), (0, ""))
            self.assertEqual(read, [names()[1]])
            self.assertTrue(stat.S_ISFIFO(os.stat(path / "fifo").st_mode))

    def test_a_directory_is_refused(self):
        with directory() as path:
            status, _, err = names("--output", path)
            self.assertEqual((status, len(err.splitlines())), (1, 1))
            self.assertIn("Is a directory", err)


WRITER = """
import sys, time
sys.path.insert(0, sys.argv[1])
from sundial_tools.errors import run_tool
from sundial_tools.safe_write import whole_output
def main(words):
    with whole_output(words[0]) as text:
        text.write("half")
        print("begun", flush=True)
        time.sleep(60)
sys.exit(run_tool("writer", main, sys.argv[2:]))
"""


def unignore():
    for number in signal.SIGINT, signal.SIGHUP:
        signal.signal(number, signal.SIG_DFL)


class Signals(unittest.TestCase):
    def test_no_temporary_file_is_left(self):
        for number in signal.SIGTERM, signal.SIGHUP, signal.SIGINT:
            with self.subTest(number), directory() as path:
                words = [sys.executable, "-c", WRITER, TOOLS, path / "out"]
                # (who runs the tests in the background ignores SIGINT, or SIGHUP by nohup, and so would the tool)
                with subprocess.Popen(words, stdout=subprocess.PIPE, stderr=subprocess.PIPE, text=True, preexec_fn=unignore) as tool:
                    self.assertEqual(tool.stdout.readline(), "begun\n")
                    self.assertEqual(len(os.listdir(path)), 1)
                    tool.send_signal(number)
                    _, err = tool.communicate(timeout=600)
                self.assertEqual(os.listdir(path), [])
                self.assertNotIn("Traceback", err)
                self.assertEqual(tool.returncode, 1 if number == signal.SIGINT else -number)

    def test_a_signal_that_is_ignored_stays_ignored(self):
        words = ["nohup", sys.executable, "-c", WRITER.replace("60", "0.2")]
        with directory() as path:
            with subprocess.Popen([*words, TOOLS, path / "out"], stdout=subprocess.PIPE, stderr=subprocess.DEVNULL) as tool:
                tool.stdout.readline()
                tool.send_signal(signal.SIGHUP)
                tool.communicate(timeout=600)
            self.assertEqual((path / "out").read_text(), "half")


class Captures(unittest.TestCase):
    def test_what_came_is_kept_when_it_is_stopped(self):
        for number in signal.SIGINT, signal.SIGTERM:
            with self.subTest(number), directory() as path:
                words = [TOOLS / "sundial-exchanges", "capture", path / "socket", "--output", path / "out"]
                with subprocess.Popen(words, stderr=subprocess.PIPE, text=True) as tool:
                    send(path / "socket", b"\x01\x02")
                    tool.send_signal(number)
                    _, err = tool.communicate(timeout=600)
                self.assertEqual((tool.returncode, err), (0, "captured: 1 datagrams\n"))
                self.assertEqual((path / "out").read_text(), "0102\n")
                self.assertEqual(os.listdir(path), ["out"])

    def test_times_that_never_end_are_refused(self):
        for seconds in "nan", "inf", "-1", "1e300", "x":
            with self.subTest(seconds), directory() as path, self.assertRaises(SystemExit) as ended:
                run("sundial-exchanges", exchanges, ["capture", path / "socket", f"--seconds={seconds}"])
            self.assertEqual(ended.exception.code, 2)


def send(path: pathlib.Path, datagram: bytes) -> None:
    """Sends a datagram as soon as somebody listens."""
    with socket.socket(socket.AF_UNIX, socket.SOCK_DGRAM) as sender:
        for _ in range(6000):
            try:
                sender.sendto(datagram, str(path))
                return
            except OSError:
                time.sleep(0.02)


if __name__ == "__main__":
    unittest.main()
