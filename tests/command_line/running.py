"""A case of the command line, and whether the program does what it says."""

from __future__ import annotations

import os
import pathlib
import subprocess
from dataclasses import dataclass, field

TOP = pathlib.Path(__file__).resolve().parents[2]
PROGRAM = os.environ.setdefault("GTPSHOW", str(TOP / "crates/gtpshow/out/gtpshow"))
SECONDS = 300
SHOWN = 600


class Part(bytes):
    """Octets that have to stand in what is written, which may have more."""


class End(bytes):
    """Octets with which what is written has to end."""


@dataclass
class Case:
    """What a program is given, and what it has to write and to end with."""

    name: str
    words: list = field(default_factory=list)
    given: bytes = b""
    status: int = 0
    output: bytes = b""
    error: bytes = b""
    file: str = os.devnull  # standard input, where nothing is given
    most_lines: int | None = None
    most_columns: int | None = None
    program: str = PROGRAM


def run(words: list, given: bytes = b"", file: str = os.devnull, program: str = PROGRAM, **more) -> subprocess.CompletedProcess:
    """Runs a program with octets, or else a file, as standard input."""
    ends = {"stdout": subprocess.PIPE, "stderr": subprocess.PIPE, "timeout": SECONDS, **more}
    if given:
        return subprocess.run([program, *words], input=given, **ends)
    end = os.open(file, os.O_RDONLY)
    try:
        return subprocess.run([program, *words], stdin=end, **ends)
    finally:
        os.close(end)


def is_as(found: bytes, wanted: bytes) -> bool:
    """Whether what was written is what is wanted."""
    if isinstance(wanted, End):
        return found.endswith(wanted)
    return wanted in found if isinstance(wanted, Part) else found == wanted


def is_small(case: Case, output: bytes) -> bool:
    """Whether the output keeps to the limits of the case."""
    lines = output.decode(errors="replace").splitlines() if case.most_lines or case.most_columns else []
    return len(lines) <= (case.most_lines or len(lines)) and all(len(line) <= (case.most_columns or len(line)) for line in lines)


def difference(case: Case, status: int, output: bytes, error: bytes) -> str:
    """What a program wrote and ended with, in words, if it is not as the case says; else nothing."""
    if status == case.status and is_as(output, case.output) and is_as(error, case.error) and is_small(case, output):
        return ""
    return f"status {status}, wanted {case.status}; output {output[:SHOWN]!r}; error {error[:SHOWN]!r}"


def tried(case: Case) -> str:
    """What is wrong with what the program does in a case, or nothing."""
    done = run(case.words, case.given, case.file, case.program)
    return difference(case, done.returncode, done.stdout, done.stderr)
