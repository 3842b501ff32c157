"""Clusters of PostgreSQL in a folder that goes away, with the extension, for the tests and the trial."""

from __future__ import annotations

import os
import pathlib
import pwd
import shutil
import signal
import subprocess
import tempfile
from types import TracebackType
from typing import Any, List, Optional, Type

HERE = pathlib.Path(__file__).resolve().parent
TOP = HERE.parents[1]
PROGRAM = pathlib.Path(os.environ.get("SUNDIAL", TOP / "crates/sundial/out/sundial"))
LIBRARY = pathlib.Path(os.environ.get("SUNDIAL_LIBRARY", TOP / "crates/sd_device_c/out/libsd_device_c.a"))
PG_CONFIG = os.environ.get("PG_CONFIG", "/usr/lib/postgresql/15/bin/pg_config")
LIMIT = 300  # s, for any program


def told(*words: Any, **more: Any) -> str:
    """What a program prints. It has to end well, and in time."""
    done: subprocess.CompletedProcess[str] = subprocess.run(
        [str(word) for word in words], stdin=subprocess.DEVNULL, stdout=subprocess.PIPE, stderr=subprocess.STDOUT, text=True, check=False,
        timeout=LIMIT, **more,
    )
    if done.returncode != 0:
        raise SystemExit(f"{' '.join(map(str, words))}: status {done.returncode}\n{done.stdout}")
    return done.stdout


def end(signal_number: int, _: object) -> None:
    raise SystemExit(f"it took too long, or was stopped: signal {signal_number}")


def missing() -> Optional[str]:
    """What there is not that all of this needs."""
    if not os.access(PG_CONFIG, os.X_OK):
        return "PostgreSQL 15 (postgresql-15)"
    needs = (pathlib.Path(told(PG_CONFIG, "--pgxs").strip()), pathlib.Path(told(PG_CONFIG, "--includedir-server").strip()) / "postgres.h")
    if not all(it.exists() for it in needs):
        return "header of its server (postgresql-server-dev-15)"
    if b"extension_destdir" not in (pathlib.Path(told(PG_CONFIG, "--bindir").strip()) / "postgres").read_bytes():
        return "a server of Debian, which takes an extension from any folder (extension_destdir)"
    return next((f"{name}" for name in ("make", os.environ.get("CC", "cc")) if shutil.which(name) is None), None)


class Room:
    """A folder with the extension as it is installed, and the clusters that use it. All ends with it, and after so many seconds."""

    def __init__(self, seconds: int) -> None:
        signal.signal(signal.SIGALRM, end)
        signal.signal(signal.SIGTERM, end)
        signal.alarm(seconds)
        self.bin = pathlib.Path(told(PG_CONFIG, "--bindir").strip())
        self.path = pathlib.Path(tempfile.mkdtemp(prefix="sundial-pg-"))
        # (hosts and pages wait for no disk)
        memory = pathlib.Path("/dev/shm")
        self.memory = pathlib.Path(tempfile.mkdtemp(prefix="sundial-pg-", dir=memory if os.access(memory, os.W_OK) else None))
        for folder in self.path, self.memory:
            folder.chmod(0o755)
        self.user: Optional[str] = None
        self.clusters: List[Cluster] = []
        self.processes: List[subprocess.Popen[Any]] = []
        if os.geteuid() == 0:  # (which PostgreSQL refuses)
            self.user = "postgres"
            os.chown(self.path, pwd.getpwnam(self.user).pw_uid, -1)

    def __enter__(self) -> Room:
        build = self.path / "build"
        build.mkdir()
        told("make", "-f", HERE / "Makefile", "install", f"PG_CONFIG={PG_CONFIG}", f"DESTDIR={self.path}", "with_llvm=no", cwd=build)
        return self

    def __exit__(self, kind: Optional[Type[BaseException]], error: Optional[BaseException], at: Optional[TracebackType]) -> None:
        signal.alarm(0)
        for process in self.processes:
            process.kill()
            process.wait()
        for cluster in self.clusters:
            cluster.stop("immediate")
        for folder in self.path, self.memory:
            shutil.rmtree(folder, ignore_errors=True)

    def begin(self, *words: Any, **more: Any) -> subprocess.Popen[Any]:
        """A program that ends with the room at the latest."""
        self.processes.append(subprocess.Popen([str(word) for word in words], **more))
        return self.processes[-1]

    def run(self, program: str, *words: Any) -> str:
        """A program of PostgreSQL, as the user of the clusters."""
        return told(self.bin / program, *words, user=self.user, cwd=self.path)

    def cluster(self, name: str, page: pathlib.Path, **settings: Any) -> Cluster:
        first = self.path / "first"
        if not first.exists():
            self.run("initdb", "--no-sync", "-A", "trust", "-U", "postgres", "-D", first)
        told("cp", "-a", first, self.path / name)
        return Cluster(self, name, {"sundial.page": page, **settings})


class Cluster:
    """One cluster, which runs."""

    def __init__(self, room: Room, name: str, settings: dict[str, Any]) -> None:
        self.room, self.name, self.data, self.port = room, name, room.path / name, str(6000 + len(room.clusters))
        fixed = {"listen_addresses": "", "unix_socket_directories": room.path, "port": self.port, "extension_destdir": room.path,
                 "dynamic_library_path": f"{room.path}{told(PG_CONFIG, '--pkglibdir').strip()}:$libdir", "shared_preload_libraries": "sundial",
                 "shared_buffers": "16MB", "max_connections": 40}
        with open(self.data / "postgresql.conf", "a", encoding="utf-8") as file:
            file.writelines(f"{key} = '{value}'\n" for key, value in {**fixed, **settings}.items())
        room.clusters.append(self)
        self.start()

    def start(self) -> None:
        try:
            self.room.run("pg_ctl", "-s", "-w", "-D", self.data, "-l", self.data / "log", "start")
        except SystemExit as why:
            raise SystemExit(f"{why}\n{(self.data / 'log').read_text()[-2000:]}") from why

    def stop(self, mode: str) -> None:
        if (self.data / "postmaster.pid").exists():
            self.room.run("pg_ctl", "-s", "-w", "-m", mode, "-D", self.data, "stop")

    def words(self, base: str = "postgres") -> List[str]:
        return [str(self.room.bin / "psql"), "-XqAt", "-h", str(self.room.path), "-p", self.port, "-U", "postgres", "-d", base]

    def ask(self, text: str, base: str = "postgres") -> str:
        """What this says. psql ends well only if no statement fails."""
        return told(*self.words(base), "-v", "ON_ERROR_STOP=1", "-c", text).strip()

    def session(self, base: str = "postgres") -> Session:
        return Session(self.words(base))


class Session:
    """A psql that stays: lines go in, and answers come out."""

    def __init__(self, words: List[str]) -> None:
        self.process = subprocess.Popen(words, stdin=subprocess.PIPE, stdout=subprocess.PIPE, stderr=subprocess.STDOUT, text=True, bufsize=1)

    def begin(self, text: str) -> None:
        assert self.process.stdin is not None
        self.process.stdin.write(f"{text}\n\\echo .\n")
        self.process.stdin.flush()

    def answer(self) -> List[str]:
        assert self.process.stdout is not None
        lines = []
        for line in self.process.stdout:
            if line == ".\n":
                break
            lines.append(line.rstrip("\n"))
        return lines

    def ask(self, text: str) -> List[str]:
        self.begin(text)
        return self.answer()

    def end(self) -> None:
        self.process.kill()
        self.process.communicate()
