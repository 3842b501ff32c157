"""A replay that is fed as it runs."""

from __future__ import annotations

import contextlib
import subprocess
import threading
from typing import Callable, List, Optional

from sundial_tools.errors import ToolError


class Replaying:
    """`told` is called for each line that the program prints, in a thread of its own."""

    def __init__(self, words: List[str], told: Callable[[str], None]) -> None:
        self._words, self._told = words, told
        self._process = subprocess.Popen(words, stdin=subprocess.PIPE, stdout=subprocess.PIPE)
        self._fault: Optional[BaseException] = None
        self._last = ""
        self._reader = threading.Thread(target=self._read, daemon=True)
        self._reader.start()

    def feed(self, text: str) -> None:
        assert self._process.stdin is not None
        try:
            self._process.stdin.write(text.encode("ascii"))
            self._process.stdin.flush()
        except BrokenPipeError:
            raise self._stopped() from None
        self.judge()

    def judge(self) -> None:
        """Raises where the program has ended, or what it said could not be told."""
        if self._fault is not None or not self._reader.is_alive():
            raise self._stopped()

    def finish(self) -> int:
        """Nothing more comes. Answers the status when all lines were told."""
        assert self._process.stdin is not None
        try:
            self._process.stdin.close()
        except BrokenPipeError:
            raise self._stopped() from None
        self._reader.join()
        status = self._process.wait()
        if self._fault is not None or status not in (0, 7):
            raise self._stopped()
        self._close()
        return status

    def kill(self) -> None:
        self._process.kill()
        self._process.wait()
        self._reader.join()
        self._close()

    def _close(self) -> None:
        for pipe in self._process.stdin, self._process.stdout:
            with contextlib.suppress(BrokenPipeError):
                pipe and pipe.close()

    def _stopped(self) -> BaseException:
        self._reader.join()
        if self._fault is not None:
            return self._fault
        status = self._process.wait()
        return ToolError(f"{self._words[0]} replay ended with status {status}" + (f": {self._last}" if self._last else ""))

    def _read(self) -> None:
        assert self._process.stdout is not None
        try:
            for line in self._process.stdout:
                self._last = line.decode("utf-8", "replace").rstrip("\n")
                self._told(self._last)
        except BaseException as fault:  # (told to who feeds)
            self._fault = fault
            self._process.kill()
