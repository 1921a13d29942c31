"""What the octets of a datagram are: a message, or the first fault. Of any octets, from anywhere: written after the standard
and the protocol profile and not after the program. Clauses are those of TS 29.274 and, of the user plane, TS 29.281."""

from __future__ import annotations

from collections.abc import Callable
from dataclasses import dataclass
from typing import NoReturn, Optional, Union

from gateways import (AMBR, APN, CAUSE, CHARGING_ID, CONDITIONAL_IE_MISSING, CONTEXT, EBI, ERROR_INDICATION, FTEID, IMSI,
                      INVALID_LENGTH, MANDATORY_IE_INCORRECT, MANDATORY_IE_MISSING, PAA, PDN_TYPE, QOS, RAT, RECOVERY, SELECTION,
                      SERVING_NETWORK, TFT, Element, Message, accepts, elements_and_rest)

PTI = 100


class Fault(Exception):
    """The first fault of a datagram, by its code; of an element at fault in a message whose list is complete, the message, the
    element's type and instance and the cause that a refusal of it has (clause 7.7). Of an element in a bearer context, the number
    of that context in the message, from 1."""

    def __init__(self, code: str, message: Message | None = None, kind: int | None = None, instance: int = 0,
                 cause: int | None = None) -> None:
        super().__init__(code)
        self.code, self.message, self.kind, self.instance, self.cause = code, message, kind, instance, cause
        self.context: int | None = None


# Forms of elements (clause 8): whether a body is too short, and whether one that is long enough is bad.


def digits_are_bad(body: bytes) -> bool:
    """Clause 8.3: 6 to 15 digits, two an octet; the last half is 15 where their number is odd."""
    halves = [half for octet in body for half in (octet & 15, octet >> 4)]
    if halves[-1] == 15:
        halves.pop()
    return not 6 <= len(halves) <= 15 or any(half > 9 for half in halves)


def name_is_bad(body: bytes) -> bool:
    """Clause 8.6: labels, each its length and its octets."""
    if not 1 <= len(body) <= 100:
        return True
    rest = body
    while rest:
        size, label, rest = rest[0], rest[1 : 1 + rest[0]], rest[1 + rest[0] :]
        if not 1 <= size <= 63 or len(label) < size or any(not 0x21 <= it <= 0x7E or it == 0x2E for it in label):
            return True
    return False


def network_is_bad(body: bytes) -> bool:
    """Clause 8.18: three digits of a country, and two or three of a network."""
    low, high = [octet & 15 for octet in body[:3]], [octet >> 4 for octet in body[:3]]
    return any(half > 9 for half in (*low, high[0], high[2])) or (high[1] > 9 and high[1] != 15)


def least_end(body: bytes) -> int:
    """Clause 8.22."""
    return 5 + (4 if body[:1] and body[0] & 128 else 0) + (16 if body[:1] and body[0] & 64 else 0)


def least_allocation(body: bytes) -> int:
    """Clause 8.14."""
    return {1: 5, 2: 18, 3: 22}.get(body[0] & 7, 1) if body else 1


# The least size of a body, or what says it; and what says that a body is bad, if one can be.
Form = tuple[Union[int, Callable[[bytes], int]], Optional[Callable[[bytes], bool]]]
FORMS: dict[int, Form] = {
    IMSI: (3, digits_are_bad), CAUSE: (2, None), RECOVERY: (1, None), APN: (1, name_is_bad), AMBR: (8, None), EBI: (1, None),
    PAA: (least_allocation, None), QOS: (22, None), RAT: (1, None), SERVING_NETWORK: (3, network_is_bad),
    TFT: (0, lambda body: len(body) > 255), FTEID: (least_end, lambda body: body[0] & 192 == 0), CONTEXT: (0, None),
    CHARGING_ID: (4, None), PDN_TYPE: (1, None), PTI: (1, None), SELECTION: (1, None),
}


def defect_of(kind: int, body: bytes) -> int | None:
    """The cause of an element that cannot be read: too short, or bad."""
    least, is_bad = FORMS[kind]
    if len(body) < (least(body) if callable(least) else least):
        return INVALID_LENGTH
    return MANDATORY_IE_INCORRECT if is_bad is not None and is_bad(body) else None


# Rows of messages (clause 7): type and instance, mark, and of bearer contexts their rows. M: mandatory; C: conditional and
# required here; A: required where the message accepts; B: where the message and the context do; O: optional.
Row = tuple

SESSION_CONTEXT = [(EBI, 0, "M"), (QOS, 0, "M"), (FTEID, 2, "C")]
OPENED_CONTEXT = [(EBI, 0, "M"), (CAUSE, 0, "M"), (FTEID, 2, "B"), (QOS, 0, "O"), (CHARGING_ID, 0, "O")]
ASKED_CONTEXT = [(EBI, 0, "M"), (TFT, 0, "M"), (FTEID, 1, "C"), (QOS, 0, "M"), (CHARGING_ID, 0, "O")]
MADE_CONTEXT = [(EBI, 0, "M"), (CAUSE, 0, "M"), (FTEID, 2, "B"), (FTEID, 3, "B")]
ENDED_CONTEXT = [(EBI, 0, "M"), (CAUSE, 0, "M")]
ROWS: dict[int, list[Row]] = {
    1: [(RECOVERY, 0, "M")],
    2: [(RECOVERY, 0, "M")],
    3: [],
    32: [(IMSI, 0, "C"), (RAT, 0, "M"), (SERVING_NETWORK, 0, "O"), (FTEID, 0, "M"), (APN, 0, "M"), (SELECTION, 0, "O"),
         (PDN_TYPE, 0, "C"), (PAA, 0, "O"), (AMBR, 0, "O"), (CONTEXT, 0, "M", SESSION_CONTEXT), (RECOVERY, 0, "O")],
    33: [(CAUSE, 0, "M"), (FTEID, 1, "A"), (PAA, 0, "A"), (AMBR, 0, "O"), (CONTEXT, 0, "A", OPENED_CONTEXT), (RECOVERY, 0, "O")],
    36: [(EBI, 0, "O")],
    37: [(CAUSE, 0, "M"), (RECOVERY, 0, "O")],
    95: [(PTI, 0, "O"), (EBI, 0, "M"), (CONTEXT, 0, "M", ASKED_CONTEXT)],
    96: [(CAUSE, 0, "M"), (CONTEXT, 0, "A", MADE_CONTEXT), (RECOVERY, 0, "O")],
    99: [(EBI, 0, "O"), (EBI, 1, "O", None)],
    100: [(CAUSE, 0, "M"), (EBI, 0, "O"), (CONTEXT, 0, "O", ENDED_CONTEXT), (RECOVERY, 0, "O")],
}
WITHOUT_TEID = (1, 2, 3)

# Rows of messages between a mobility management entity and a serving gateway (clause 7.2).
WITH_IDENTITY = [(CONTEXT, 0, "M", [(EBI, 0, "M")])]
WITH_CAUSE: list[Row] = [(CAUSE, 0, "M")]
ENDED_CONTEXTS = (CONTEXT, 0, "A", ENDED_CONTEXT)
S11_ROWS: dict[int, list[Row]] = {
    **{kind: [(RECOVERY, 0, "M")] for kind in (1, 2)},
    **{kind: [] for kind in (3, 36, 99, 100, 162, 170, 176)},
    **{kind: WITH_CAUSE for kind in (35, 37, 39, 65, 70, 163, 165, 167, 169, 171, 177, 212)},
    32: [(IMSI, 0, "O"), (RAT, 0, "M"), (FTEID, 0, "M"), (APN, 0, "M"), (PDN_TYPE, 0, "O"),
         (CONTEXT, 0, "M", [(EBI, 0, "M"), (QOS, 0, "M")])],
    33: [*WITH_CAUSE, (FTEID, 0, "A"), (FTEID, 1, "A"), (PAA, 0, "O"), ENDED_CONTEXTS],
    34: [(CONTEXT, 0, "O", [(EBI, 0, "M")])],
    38: [(RAT, 0, "M")],
    64: [(AMBR, 0, "M"), *WITH_IDENTITY],
    66: WITH_IDENTITY,
    67: [*WITH_CAUSE, (CONTEXT, 0, "M", ENDED_CONTEXT)],
    68: [(EBI, 0, "M"), (PTI, 0, "M")],
    69: [*WITH_CAUSE, (EBI, 0, "M"), (PTI, 0, "M")],
    95: [(EBI, 0, "M"), (CONTEXT, 0, "M", [(EBI, 0, "M"), (TFT, 0, "M"), (FTEID, 0, "C"), (QOS, 0, "M")])],
    96: [*WITH_CAUSE, (CONTEXT, 0, "A", [*ENDED_CONTEXT, (FTEID, 0, "B"), (FTEID, 1, "B")])],
    97: [*WITH_IDENTITY, (AMBR, 0, "M")],
    98: [*WITH_CAUSE, ENDED_CONTEXTS],
}


@dataclass(frozen=True)
class Rules:
    """What is asked of datagrams on an interface."""

    rows: dict[int, list[Row]]
    # Whether messages of a type without rows are kept as octets.
    keeps_others: bool
    # The types of extension headers that are understood.
    understood: tuple[int, ...]


# The types that TS 29.281 figure 5.2.1-3 defines.
EXTENSIONS = (0x03, 0x20, 0x40, 0x81, 0x82, 0x83, 0x84, 0x85, 0xC0)
S5S8 = Rules(ROWS, True, ())
INTERFACES = {"s5s8": S5S8, "s11": Rules(S11_ROWS, False, EXTENSIONS), "any": Rules({kind: [] for kind in ROWS}, False, EXTENSIONS)}


def element_list(octets: bytes) -> list[Element] | None:
    """The elements of a list. None where the list is not complete."""
    found, rest = elements_and_rest(octets)
    return None if rest else found


@dataclass
class Reading:
    """A list of elements that is read by rows: those that count, in the order of the list."""

    message: Message
    found: list[Element]
    is_accepting: bool = True

    def every(self, kind: int, instance: int) -> list[bytes]:
        return [body for k, i, body in self.found if (k, i) == (kind, instance)]

    def drop(self, kind: int, instance: int) -> None:
        self.found = [it for it in self.found if it[:2] != (kind, instance)]

    def missing(self, kind: int, instance: int, mark: str) -> NoReturn:
        raise Fault("H6", self.message, kind, instance, MANDATORY_IE_MISSING if mark == "M" else CONDITIONAL_IE_MISSING)

    def defect(self, kind: int, instance: int, cause: int) -> NoReturn:
        raise Fault("H7", self.message, kind, instance, cause)

    def read(self, rows: list[Row]) -> None:
        for kind, instance, mark, *inner in rows:
            bodies = self.every(kind, instance)
            is_required = mark in "MC" or mark in "AB" and self.is_accepting
            if not bodies:
                if is_required:
                    self.missing(kind, instance, mark)
            elif kind == CONTEXT:
                self.read_contexts(instance, inner[0])
            elif inner:
                for body in bodies:
                    if (cause := defect_of(kind, body)) is not None:
                        self.defect(kind, instance, cause)
            elif (cause := defect_of(kind, bodies[0])) is not None:
                if is_required:
                    self.defect(kind, instance, cause)
                self.drop(kind, instance)
            if (kind, instance) == (CAUSE, 0):
                self.is_accepting = self.is_accepting and accepts(bodies[0][0])

    def read_context(self, body: bytes, rows: list[Row]) -> None:
        found = element_list(body)
        if found is None:
            raise Fault("H7", self.message)
        Reading(self.message, found, self.is_accepting).read(rows)

    def read_contexts(self, instance: int, rows: list[Row]) -> None:
        contexts = [it for it in self.found if it[0] == CONTEXT]
        for number, (_, its_instance, body) in enumerate(contexts, 1):
            try:
                if its_instance == instance:
                    self.read_context(body, rows)
            except Fault as fault:
                fault.context = number
                raise


def read_message(octets: bytes, rules: Rules = S5S8) -> Message:
    """A message that no other follows: clause 7.7, in the order of the profile."""
    if len(octets) < 4:
        raise Fault("H1")
    flags, kind = octets[0], octets[1]
    if flags >> 5 != 2:
        raise Fault("H2")
    if flags & 16:
        raise Fault("H5")
    if int.from_bytes(octets[2:4], "big") != len(octets) - 4:
        raise Fault("H3")
    has_teid = flags & 8 != 0
    size = 12 if has_teid else 8
    if len(octets) < size:
        raise Fault("H1")
    if kind in rules.rows and has_teid == (kind in WITHOUT_TEID):
        raise Fault("H4")
    teid = int.from_bytes(octets[4:8], "big") if has_teid else None
    message = Message(kind, teid, int.from_bytes(octets[size - 4 : size - 1], "big"), [])
    if kind not in rules.rows and rules.keeps_others:
        return message
    found = element_list(octets[size:])
    if found is None:
        raise Fault("H7")
    message.found = found
    reading = Reading(message, found)
    reading.read(rules.rows.get(kind, []))
    if rules == S5S8 and kind == 99 and not reading.every(EBI, 0) and not reading.every(EBI, 1):
        reading.missing(EBI, 0, "C")
    message.found = reading.found
    return message


def read_datagram(octets: bytes, rules: Rules = S5S8) -> list[Message]:
    """The messages of a datagram: one, or two (clause 5.5.1)."""
    if len(octets) < 4 or octets[0] >> 5 != 2 or octets[0] & 16 == 0:
        return [read_message(octets, rules)]
    size = 4 + int.from_bytes(octets[2:4], "big")
    if len(octets) < size:
        raise Fault("H3")
    front = read_message(bytes([octets[0] & ~16]) + octets[1:size], rules)
    if len(octets) == size:
        raise Fault("H5")
    return [front, read_message(octets[size:], rules)]


# The user plane.


@dataclass
class UserMessage:
    kind: int
    teid: int
    number: int
    body: bytes
    found: dict[int, bytes]


def behind_chain(octets: bytes, kind: int, rules: Rules) -> int:
    """The place behind the extension headers (clause 5.2.1), of which each that has to be understood is."""
    at = 12
    while kind != 0:
        if at >= len(octets):
            raise Fault("U6")
        if octets[at] == 0:
            raise Fault("U5")
        after = at + 4 * octets[at]
        if after > len(octets):
            raise Fault("U6")
        if kind & 128 and kind not in rules.understood:
            raise Fault("U7", kind=kind)
        kind, at = octets[after - 1], after
    return at


def user_elements(octets: bytes) -> dict[int, bytes]:
    """Clause 8: the first body of each type. Types below 128 have a size of their own, the others a length."""
    found = {}
    while octets:
        kind = octets[0]
        front = 1 if kind < 128 else 2 if kind == 141 else 3
        size = {14: 1, 16: 4}.get(kind) if kind < 128 else int.from_bytes(octets[1:front], "big")
        if size is None or len(octets) < front + size or (kind == 133 and size not in (4, 16)):
            raise Fault("U9")
        found.setdefault(kind, octets[front : front + size])
        octets = octets[front + size :]
    return found


NEEDED = {2: [14], ERROR_INDICATION: [16, 133], 31: [141]}


def read_user_datagram(octets: bytes, rules: Rules = S5S8) -> UserMessage:
    if len(octets) < 8:
        raise Fault("U1")
    flags, kind = octets[0], octets[1]
    if flags >> 5 != 1:
        raise Fault("U2")
    if flags & 16 == 0:
        raise Fault("U3")
    if int.from_bytes(octets[2:4], "big") != len(octets) - 8:
        raise Fault("U4")
    at, number = 8, 0
    if flags & 7:
        if len(octets) < 12:
            raise Fault("U1")
        at = behind_chain(octets, octets[11] if flags & 4 else 0, rules)
        number = int.from_bytes(octets[8:10], "big") if flags & 2 else 0
    body, found = octets[at:], {}
    if kind in NEEDED:
        found = user_elements(body)
        if any(it not in found for it in NEEDED[kind]):
            raise Fault("U8")
    return UserMessage(kind, int.from_bytes(octets[4:8], "big"), number, body, found)
