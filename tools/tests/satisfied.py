"""Solves problems of satisfiability: by a program that reads DIMACS where one is there, else by a small search.

Debian has such programs: cadical, minisat, kissat, glucose. SAT names another one, and is empty for the search. A literal is a variable from 1,
or less than 0 where it is denied.
"""

from __future__ import annotations

import os
import shutil
import subprocess
import tempfile
from typing import Dict, List, Optional, Sequence, Set

Clause = Sequence[int]
SAT, UNSAT = 10, 20


def satisfied(variables: int, clauses: List[Clause]) -> Optional[Set[int]]:
    """The variables that are true in one solution, or None where there is none."""
    program = os.environ.get("SAT", shutil.which("cadical") or "")
    return _by_program(program, variables, clauses) if program else _Search(variables, clauses).solution()


def _by_program(program: str, variables: int, clauses: List[Clause]) -> Optional[Set[int]]:
    lines = [f"p cnf {variables} {len(clauses)}", *(" ".join(map(str, clause)) + " 0" for clause in clauses), ""]
    with tempfile.NamedTemporaryFile("w", suffix=".cnf") as file:
        file.write("\n".join(lines))
        file.flush()
        done = subprocess.run([program, "-q", file.name], stdout=subprocess.PIPE, text=True, check=False)
    if done.returncode not in (SAT, UNSAT):
        raise RuntimeError(f"{program} ended with status {done.returncode}")
    if done.returncode == UNSAT:
        return None
    values = [int(it) for line in done.stdout.splitlines() if line.startswith("v ") for it in line.split()[1:]]
    return {it for it in values if it > 0}


class _Search:
    """Tries values one after the other, and follows each clause that has one literal left."""

    def __init__(self, variables: int, clauses: List[Clause]) -> None:
        self._clauses, self._variables = clauses, variables
        self._value: Dict[int, bool] = {}
        self._trail: List[int] = []
        self._of: Dict[int, List[int]] = {}
        for number, clause in enumerate(clauses):
            for literal in clause:
                self._of.setdefault(-literal, []).append(number)

    def solution(self) -> Optional[Set[int]]:
        alone = [clause[0] for clause in self._clauses if len(clause) == 1]
        if not all(self._clauses) or not self._follow(alone) or not self._tried(1):
            return None
        return {it for it, value in self._value.items() if value}

    def _tried(self, variable: int) -> bool:
        while variable in self._value:
            variable += 1
        if variable > self._variables:
            return True
        for literal in variable, -variable:
            length = len(self._trail)
            if self._follow([literal]) and self._tried(variable + 1):
                return True
            while len(self._trail) > length:
                del self._value[self._trail.pop()]
        return False

    def _holds(self, literal: int) -> Optional[bool]:
        value = self._value.get(abs(literal))
        return None if value is None else value == (literal > 0)

    def _follow(self, waiting: List[int]) -> bool:
        """Sets these literals and all that follow, or answers that they contradict each other."""
        while waiting:
            literal = waiting.pop()
            if self._holds(literal) is not None:
                if not self._holds(literal):
                    return False
                continue
            self._value[abs(literal)] = literal > 0
            self._trail.append(abs(literal))
            for number in self._of.get(literal, ()):
                values = {it: self._holds(it) for it in self._clauses[number]}
                if True in values.values():
                    continue
                left = [it for it, value in values.items() if value is None]
                if not left:
                    return False
                if len(left) == 1:
                    waiting.append(left[0])
        return True
