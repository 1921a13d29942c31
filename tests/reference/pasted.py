"""What `decode -` reads on standard input: a datagram a line, the rows of a dump, and with --join lines up to one without digits.
Written after docs/FORMATS.md (Dumps) and not after the program."""

from __future__ import annotations

import re
from collections.abc import Iterator
from typing import Union

MOST = 1048576
BLANKS = b" \t\n\f\r"
OFFSET = re.compile(rb"[ \t\n\f\r]*(?:0[xX])?([0-9A-Fa-f]{3,8})(?::|[ \t\n\f\r]|$)[ \t\n\f\r]*")
COLUMN_END = re.compile(rb"[ \t\n\f\r]{3}|\|")
HEX = b"0123456789abcdefABCDEF"


# A character with its place; and what lines give: ('datagram', plane, octets), or ('bad', number of the line, reason).
Digit = tuple[int, int]
Reading = Union[tuple[str, str, bytes], tuple[str, int, str]]


def digits_of(text: bytes) -> list[Digit]:
    """The characters of a text that are not passed over, each with its place."""
    found = []
    place = 0
    while place < len(text):
        if text[place : place + 2].lower() == b"0x":
            place += 2
        elif text[place : place + 1] == b"#":
            break
        else:
            if text[place] not in BLANKS + b":,":
                found.append((place, text[place]))
            place += 1
    return found


def row_of(line: bytes) -> tuple[int, int, list[Digit]] | None:
    """The offset of a row, the place from which on it has its octets, and its digits; or None."""
    begin = OFFSET.match(line)
    if not begin:
        return None
    end = COLUMN_END.search(line, begin.end())
    column = line[begin.end() : end.start() if end else len(line)]
    return int(begin[1], 16), begin.end(), digits_of(column)[:32]


def reason_of(text: bytes, before: int) -> str:
    """Why a text with bad digits is bad, with so many octets of the line before it."""
    for place, octet in digits_of(text):
        if octet not in HEX:
            named = f"the character {chr(octet)}" if 33 <= octet <= 126 else f"the octet {octet}"
            return f"{named} at place {before + place} is no hexadecimal digit"
    return "an odd number of digits"


def plane_of(octets: bytes, asked: str | None) -> str:
    return asked or ("user" if octets and octets[0] >> 5 == 1 else "control")


def word_of(line: bytes) -> tuple[str | None, int]:
    for word in (b"control", b"user"):
        if line.startswith(word):
            return word.decode(), len(word)
    return None, 0


def one_line(number: int, line: bytes, asked: str | None) -> Reading | None:
    """What one line gives, if anything."""
    if len(line) > MOST:
        return "bad", number, f"more than {MOST} octets"
    word, size = word_of(line)
    digits = bytes(octet for _, octet in digits_of(line[size:]))
    if not digits:
        return None
    if len(digits) % 2 or any(octet not in HEX for octet in digits):
        return "bad", number, reason_of(line[size:], size)
    octets = bytes.fromhex(digits.decode())
    return "datagram", word or plane_of(octets, asked), octets


def several(number: int, parts: list[tuple[bytes, int, list[Digit]]], asked: str | None, rows: bool) -> Reading:
    """What lines give that are read together, of each line its text, its digits and where these begin."""
    size = 0
    for at, (line, begin, digits) in enumerate(parts):
        size += len(line)
        if size > MOST:
            return "bad", number + at, f"more than {MOST} octets"
        if any(octet not in HEX for _, octet in digits) or rows and len(digits) % 2:
            return "bad", number + at, reason_of(line[begin:], begin)
    text = bytes(octet for _, _, digits in parts for _, octet in digits)
    if len(text) % 2:
        return "bad", number, "an odd number of digits"
    octets = bytes.fromhex(text.decode())
    return "datagram", plane_of(octets, asked), octets


def readings(text: bytes, join: bool = False, asked: str | None = None) -> Iterator[Reading]:
    """What the lines of a text give, in order."""
    lines = [line for line in re.split(rb"(?<=\n)", text) if line]
    at = 0
    while at < len(lines):
        first = at
        row = row_of(lines[at])
        if row and row[0] == 0 and row[2]:
            parts, held = [], 0
            while at < len(lines) and (row := row_of(lines[at])) and row[0] == held:
                parts.append((lines[at], row[1], row[2]))
                held += (len(row[2]) + 1) // 2
                at += 1
            yield several(first + 1, parts, asked, True)
            continue
        parts = []
        while join and at < len(lines) and word_of(lines[at])[0] is None and digits_of(lines[at]):
            parts.append((lines[at], 0, digits_of(lines[at])))
            at += 1
        if parts:
            yield several(first + 1, parts, asked, False)
            continue
        at += 1
        reading = one_line(first + 1, lines[first], asked)
        if reading:
            yield reading
