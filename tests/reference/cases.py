"""What tests share: the program that they run, what is stored of datagrams and scenarios, and how the last line counts."""

from __future__ import annotations

import os
import pathlib
import subprocess
import sys
from collections.abc import Iterable, Iterator

TOP = pathlib.Path(__file__).resolve().parents[2]
# The environment may name another program in GTPSHOW.
PROGRAM = os.environ.get("GTPSHOW", str(TOP / "crates/gtpshow/out/gtpshow"))
PLANES = ("control", "user")


def is_there(test: str) -> None:
    """Ends a test, aloud, where there is no program."""
    if not os.access(PROGRAM, os.X_OK):
        sys.exit(f"{test}: there is no program at {PROGRAM}: scripts/prove builds it")


def ran(words: Iterable[str], given: bytes = b"") -> subprocess.CompletedProcess[bytes]:
    """The program, called with these words, and with octets on standard input."""
    return subprocess.run([PROGRAM, *words], input=given, capture_output=True, timeout=300)


def lines_of(done: subprocess.CompletedProcess[bytes]) -> list[str]:
    return done.stdout.decode().splitlines()


def finish(results: Iterable[bool]) -> int:
    """Prints the last line of a test, and gives its status: a test without a case fails."""
    results = list(results)
    print(f"{results.count(True)} passed, {results.count(False)} failed")
    return 0 if results and all(results) else 1


def worked(plane: str) -> list[pathlib.Path]:
    """The files of the worked datagrams of a plane."""
    return sorted((TOP / "examples/datagrams" / plane).glob("*.hex"))


def digits_of(file: pathlib.Path) -> str:
    """The digits of a worked datagram, without comments and blanks."""
    return "".join("".join(line.partition("#")[0].split()) for line in file.read_text().splitlines())


def blocks_of(name: str) -> Iterator[tuple[str, list[str]]]:
    """Of each block of a file of tests/lines the digits of its datagram, '-' where that is empty, and its lines. A block of comments
    alone has none of both."""
    for block in (TOP / "tests/lines" / name).read_text().split("\n\n"):
        digits, *lines = [line for line in block.splitlines() if line and not line.startswith("#")] or [""]
        yield digits, lines


def scenario_files() -> list[pathlib.Path]:
    """The scenarios that are kept."""
    return [file for folder in ("examples", "tests") for file in sorted((TOP / folder / "scenarios").rglob("*.json"))]
