"""Conversations with one gateway or with two: what goes into each, and what the second account answers. README.md has
the form."""

from __future__ import annotations

import hashlib
import json
import pathlib
import sys
from collections.abc import Iterator
from dataclasses import dataclass
from typing import Union

sys.path.append(str(pathlib.Path(__file__).resolve().parents[1] / "reference"))
from gateways import Json
from served import answer, line_of, station

ROLES = ("serving", "packet")
PORT = 40000
# Keys of an entry that no gateway reads.
OF_ENTRIES = ("says", "wanted", "at", "expect", "times", "datagram")
# A longer answer, and an entry that comes more often, are stored as digests.
MOST_OCTETS, MOST_TIMES = 4000, 3
BEGINNING = 200
# Octets in digits, by a name, or a list of these.
Written = Union[str, list]
# Of each time the lines, each with its gateway.
Times = list[list[tuple[str, str]]]


@dataclass
class Said:
    """A line that goes into a gateway, the line that comes out with its outcome, and the outcome that is expected."""

    role: str
    line: str
    answer: str
    outcome: str
    expect: str


class Conversation:
    """The gateways of the second account, what they sent, and what was said: of each entry a list of times, which are
    lists of lines."""

    def __init__(self, written: Json) -> None:
        self.heads = {role: written[role] for role in ROLES if role in written}
        self.gateways = {role: station(head) for role, head in self.heads.items()}
        self.named = written.get("named", {})
        self.sent: list[tuple[str, Json]] = []
        self.entries = [list(self.times(entry)) for entry in written["lines"]]

    def times(self, entry: Json) -> Iterator[list[Said]]:
        for number in range(entry.get("times", 1)):
            yield [self.say(line, number) for line in entry.get("lines", [entry])]

    def say(self, entry: Json, number: int) -> Said:
        role = entry["at"]
        request = self.request(entry, number)
        told = answer(self.gateways[role], request)
        self.sent += [(role, it) for it in told.get("sent", [])]
        return Said(role, line_of(request), line_of(told), outcome_of(told), entry.get("expect", ""))

    def request(self, entry: Json, number: int) -> Json:
        """An entry as its gateway reads it, where it came so many times before."""
        request = {key: value for key, value in entry.items() if key not in OF_ENTRIES}
        if entry["do"] == "deliver":
            request |= self.delivered(entry)
        if request["do"] == "receive":
            peer = self.heads[entry["at"]]["peer"][request["plane"]]
            request["from"] = entry.get("from", {"address": peer, "port": PORT})
            request["octets"] = octets_of(request["octets"], {**self.named, "round": f"{number:06x}"})
        return request

    def delivered(self, entry: Json) -> Json:
        """A datagram that the other gateway sent: as which one, or the last one."""
        sender, sent = self.sent[entry.get("datagram", -1)]
        if sender == entry["at"]:
            raise ValueError(f"the {sender} gateway sent this datagram itself: {entry}")
        return {"do": "receive", "plane": sent["plane"], "octets": sent["octets"]}


def octets_of(written: Written, named: dict[str, Written]) -> str:
    """The digits of what is written."""
    if isinstance(written, str):
        return octets_of(named[written], {}) if written in named else written
    return "".join(octets_of(part, named) for part in written)


# Outcomes, as reports have them.


def words_of(members: Json) -> str:
    details = [members[key] for key in ("teid", "limit", "cause", "fault") if key in members]
    return " ".join(map(str, [members["outcome"], *details]))


def outcome_of(told: Json) -> str:
    then = f" then {words_of(told['then'])}" if "then" in told else ""
    restart = f" restart {told['restart']}" if "restart" in told else ""
    return words_of(told) + then + restart


# Stored answers.


def digest(texts: list[str]) -> str:
    return hashlib.sha256("".join(f"{text}\n" for text in texts).encode()).hexdigest()


def shown(role: str, text: str) -> str:
    if len(text) > MOST_OCTETS:
        text = f"{text[:BEGINNING]}.. {len(text)} octets, sha256 {digest([text])}"
    return f"{role} {text}"


def stored_form(times: Times) -> list[str]:
    """The lines that are stored of an entry."""
    lines = [[shown(role, text) for role, text in time] for time in times]
    if len(times) <= MOST_TIMES:
        return [line for time in lines for line in time]
    between = [f"{role} {text}" for time in times[1:-1] for role, text in time]
    return [*lines[0], f"{len(times) - 2} more times, sha256 {digest(between)}", *lines[-1]]


def read(path: pathlib.Path) -> Conversation:
    """A conversation, played by the second account."""
    return Conversation(json.loads(path.read_text(encoding="utf-8")))
