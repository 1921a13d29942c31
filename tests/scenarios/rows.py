"""Files of rows. Each row is a text, and those of a group have the same outcome. A group is written so, and an empty
line ends it:
  # Comments stand where they like.
  in place of TEXT      the rows stand in place of this text in quiet.json; or else: the whole text
  | ROW
  | ROW
  status 2              the exit status, and after it the lines that are written
  bad json
In rows and lines <c3a9> stands for these octets, <> for none, and <9 times TEXT> for the text so often, where # in the
text is the number of the time, from 0; as a whole line it stands for so many lines. <filled to 99> ends a row whose
text gets blanks at its end, up to so many octets. A blank at the end of a row is written as <20>, and < as <3c>."""

from __future__ import annotations

import pathlib
import re
from collections.abc import Iterator
from dataclasses import dataclass

MARK = re.compile(r"<(?:(?P<count>\d+) times (?P<text>[^>]*)|(?P<octets>(?:[0-9a-f]{2})*))>")
FILLED = re.compile(r"(.*)<filled to (\d+)>")


@dataclass
class Case:
    """What the program is given, and what it has to write and to end with."""

    name: str
    text: bytes
    status: int
    output: bytes
    words: tuple[str, ...] = ()


def times_of(mark: re.Match[str]) -> list[str]:
    """The texts that a mark of so many times stands for."""
    return [mark["text"].replace("#", str(time)) for time in range(int(mark["count"]))]


def octets_of(text: str) -> bytes:
    """The octets that a text with marks stands for."""
    octets, at = b"", 0
    for mark in MARK.finditer(text):
        octets += text[at : mark.start()].encode()
        octets += bytes.fromhex(mark["octets"]) if mark["count"] is None else "".join(times_of(mark)).encode()
        at = mark.end()
    return octets + text[at:].encode()


def lines_of(text: str) -> list[bytes]:
    """The lines that a line with marks stands for."""
    mark = MARK.fullmatch(text)
    if mark and mark["count"]:
        return [line.encode() for line in times_of(mark)]
    return [octets_of(text)]


def text_of(place: str | None, row: str, quiet: bytes) -> bytes:
    """The text of a row: the row, or the quiet scenario with the row in this place."""
    filled = FILLED.fullmatch(row)
    row, size = filled.groups() if filled else (row, 0)
    if place is None:
        text = octets_of(row)
    else:
        before, found, after = quiet.partition(place.encode())
        if not found:
            raise ValueError(f"quiet.json has no text {place}")
        text = before + octets_of(row) + after
    if filled and len(text) > int(size):
        raise ValueError(f"the row has {len(text)} octets and is to be filled to {size}: {row}")
    return text.ljust(int(size))


GROUP = re.compile(r"(?:the whole text|in place of (?P<place>.+))\n(?P<rows>(?:\| .*\n)+)status (?P<status>\d)\n(?P<output>(?:.*\n)*)")


def cases_of(path: pathlib.Path, quiet: bytes) -> Iterator[Case]:
    """The cases of a file."""
    for text in path.read_text(encoding="utf-8").rstrip("\n").split("\n\n"):
        lines = [line for line in text.split("\n") if not line.startswith("# ")]
        group = GROUP.fullmatch("".join(f"{line}\n" for line in lines))
        if not group:
            raise ValueError(f"{path.name}: this is no group of rows: {text}")
        written = b"".join(line + b"\n" for line in group["output"].split("\n")[:-1] for line in lines_of(line))
        for row in group["rows"].split("\n")[:-1]:
            yield Case(f"{path.name}: {row}", text_of(group["place"], row[2:], quiet), int(group["status"]), written)
