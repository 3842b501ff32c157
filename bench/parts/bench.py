"""What all works of bench/all share: the program, a folder for their files, and the plain programs."""
import shutil
import subprocess
from pathlib import Path
from typing import Dict, Iterable, Optional, Tuple

from .measuring import BenchFault, Command, Runner, say

BENCH = Path(__file__).resolve().parent.parent
PLAIN = BENCH / "plain"


class Bench:
    """One run of bench/all."""

    def __init__(self, program: Path, crates: Path, folder: Path, pairs: int, scale: float) -> None:
        self.program = program
        self.crates = crates
        self.folder = folder
        self.scale = scale
        self.runner = Runner(folder, pairs)
        self._built: Dict[str, Optional[Path]] = {}

    def count(self, most: int, least: int) -> int:
        """A size at this scale."""
        return max(least, int(most * self.scale))

    def file(self, name: str, pieces: Iterable[str]) -> str:
        """A text in the folder."""
        path = self.folder / name
        with open(path, "w", encoding="ascii") as text:
            text.writelines(pieces)
        return str(path)

    def answer(self, name: str, *words: str) -> str:
        """A file with what the program writes, which has to end with status 0."""
        path = self.folder / name
        with open(path, "wb") as out:
            status = subprocess.run((str(self.program),) + words, stdout=out, check=False).returncode
        if status != 0:
            raise BenchFault(f"{' '.join(words)}: status {status}")
        return str(path)

    def ours(self, *words: str, status: int = 0, first: str = "", base: Tuple[str, ...] = (),
             user_only: bool = False) -> Command:
        """A command of the program; `base` has the words of one that starts in the same way and does next to nothing."""
        program = (str(self.program),)
        return Command(program + words, status, first, program + base if base else None, user_only)

    def of(self, program: str, *words: str, status: int = 0) -> Command:
        """A command of one of the two programs: `sundialctl` is beside `sundial`, or where `./build` leaves it."""
        beside = self.program.with_name(program)
        built = self.program.parent.parent.parent / program / "out" / program
        return Command((str(beside if beside.exists() else built), *words), status)

    def plain(self, name: str) -> Optional[Path]:
        """A plain program, built by rustc where there is one: the file of its main module below bench/plain."""
        if name not in self._built:
            self._built[name] = self._build(name)
        return self._built[name]

    def _build(self, name: str) -> Optional[Path]:
        if not shutil.which("rustc"):
            say(f"no rustc: nothing is timed beside plain/{name}.rs")
            return None
        built = self.folder / f"plain_{name}"
        words = ("rustc", "-O", "--edition", "2021", "-o", str(built), str(PLAIN / f"{name}.rs"))
        subprocess.run(words, check=True)
        return built

    def instructions_each(self, few: Tuple[str, ...], more: Tuple[str, ...], events: int) -> Optional[float]:
        """The instructions of an event: of two runs that differ in so many events."""
        program = (str(self.program),)
        counted = self.runner.instructions(program + more)
        if counted is None:
            return None
        fewer = self.runner.instructions(program + few)
        return None if fewer is None else (counted - fewer) / events
