"""The kind of machine that a table was made on."""
import os
import platform
import shutil
import subprocess
from typing import List


def _field(path: str, name: str) -> str:
    try:
        with open(path, encoding="utf-8") as lines:
            for line in lines:
                if line.split(":")[0].strip() == name:
                    return line.split(":", 1)[1].strip()
    except OSError:
        pass
    return ""


def _rust() -> str:
    if not shutil.which("rustc"):
        return "no rustc"
    told = subprocess.run(["rustc", "--version"], stdout=subprocess.PIPE, check=False).stdout.decode().split()
    return " ".join(told[:2])


def kind() -> str:
    """Processor, memory, system, and how busy it is."""
    flags = _field("/proc/cpuinfo", "flags").split()
    memory = _field("/proc/meminfo", "MemTotal").split()
    parts: List[str] = [
        ("virtual machine, " if "hypervisor" in flags else "")
        + f"{os.cpu_count()} processors ({_field('/proc/cpuinfo', 'model name') or platform.machine()},"
        + f" {float(_field('/proc/cpuinfo', 'cpu MHz') or 0) / 1000:.1f} GHz)",
        f"{int(memory[0]) / 2**20:.0f} GiB of memory" if memory else "",
        f"{platform.system()} {platform.release().split('-')[0]}",
        f"{_rust()}, Python {platform.python_version()}",
        f"load {os.getloadavg()[0]:.1f} when it ended",
    ]
    return "; ".join(part for part in parts if part)
