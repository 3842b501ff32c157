"""The entries of an installed package: one function a tool. In a checkout the programs tools/sundial-* do the same."""

from __future__ import annotations

import importlib

from sundial_tools.errors import run_tool


def _run(name: str, package: str) -> int:
    """Runs the `main` of the package of a tool. No other tool is loaded."""
    return run_tool(name, importlib.import_module(f"sundial_tools.{package}.main").main)


def cut() -> int:
    return _run("sundial-cut", "cut")


def duty() -> int:
    return _run("sundial-duty", "duty")


def exchanges() -> int:
    return _run("sundial-exchanges", "exchanges")


def lines() -> int:
    return _run("sundial-lines", "lines")


def plain_replay() -> int:
    return _run("sundial-plain-replay", "plain")


def readiness() -> int:
    return _run("sundial-readiness", "readiness")


def record() -> int:
    return _run("sundial-record", "record")


def report() -> int:
    return _run("sundial-report", "report")


def topology() -> int:
    return _run("sundial-topology", "network")


def watch() -> int:
    return _run("sundial-watch", "watch")


def why() -> int:
    return _run("sundial-why", "why")


def whatif() -> int:
    return _run("sundial-whatif", "whatif")
