"""A second account of both gateways and of their world, in plain Python, written after the standard and the
protocol profile and not after the program. Reports of the program are compared with those of this account.

Here it takes what a world can show: scenarios that are well formed, and datagrams that a gateway sent, whole or cut. `served`
takes any octets from anywhere.
The clauses named are those of TS 29.274 and, of the user plane, TS 29.281."""

from __future__ import annotations

import re
from collections.abc import Iterable, Iterator
from dataclasses import dataclass, field, replace
from typing import Optional, Union

# An object of JSON.
Json = dict
# The type, instance and body of an element.
Element = tuple[int, int, bytes]
# An address and a port, and what an answer is held under: the octets of a request, and where it came from if that is known.
Source = tuple[bytes, int]
Request = Union[bytes, tuple[Source, bytes]]
# The TEID, cause and rows of an answer, and the request that goes along in its datagram, if one does.
Answer = Union[tuple[Optional[int], int, bytes], tuple[Optional[int], int, bytes, bytes]]

SERVING, PACKET = "serving", "packet"
PENDING, ACTIVE, CLOSING = "pending", "active", "closing"

IMSI, CAUSE, RECOVERY, APN, AMBR, EBI, PAA, QOS = 1, 2, 3, 71, 72, 73, 79, 80
RAT, SERVING_NETWORK, TFT, FTEID, CONTEXT, CHARGING_ID, PDN_TYPE, SELECTION = 82, 83, 84, 87, 93, 94, 99, 128

ECHO_REQUEST, ECHO_RESPONSE = 1, 2
CREATE_SESSION, DELETE_SESSION, CREATE_BEARER, DELETE_BEARER = 32, 36, 95, 99
REQUESTS = (CREATE_SESSION, DELETE_SESSION, CREATE_BEARER, DELETE_BEARER)
ERROR_INDICATION, END_MARKER, G_PDU = 26, 254, 255

# Cause values (table 8.4-1).
REQUEST_ACCEPTED, REQUEST_ACCEPTED_PARTIALLY, NEW_PDN_TYPE_DUE_TO_NETWORK_PREFERENCE = 16, 17, 18
CONTEXT_NOT_FOUND, INVALID_LENGTH, MANDATORY_IE_INCORRECT, MANDATORY_IE_MISSING = 64, 67, 69, 70
NO_RESOURCES_AVAILABLE, MISSING_OR_UNKNOWN_APN, PREFERRED_PDN_TYPE_NOT_SUPPORTED = 73, 78, 83
ALL_DYNAMIC_ADDRESSES_ARE_OCCUPIED, REQUEST_REJECTED, CONDITIONAL_IE_MISSING = 84, 94, 103

# Interface types of F-TEIDs (table 8.22-1).
S5S8_SGW_GTP_U, S5S8_PGW_GTP_U, S5S8_SGW_GTP_C, S5S8_PGW_GTP_C = 4, 5, 6, 7

MOST_SESSIONS, MOST_PENDING, MOST_HELD, MOST_PAYLOAD, MOST_RESTARTS = 1000, 256, 4096, 65000, 127


class Refused(Exception):
    """A command that is refused, or a datagram that is dropped: the outcome as it is printed."""


def accepts(cause: int) -> bool:
    return 16 <= cause <= 63


def age(known: int, new: int) -> str:
    """Whether a restart counter is the same, later or earlier (TS 23.007, clause 18, leaves the window to us)."""
    ahead = (new - known) % 256
    return "same" if ahead == 0 else "later" if ahead < 128 else "earlier"


# Elements (clause 8) and messages of the control plane (clause 5).


def element(kind: int, instance: int, body: bytes) -> bytes:
    return bytes([kind]) + len(body).to_bytes(2, "big") + bytes([instance]) + body


def elements_and_rest(octets: bytes) -> tuple[list[Element], bytes]:
    """The elements at the front of octets: their types, instances and bodies; and the octets that are left."""
    found = []
    while len(octets) >= (end := 4 + int.from_bytes(octets[1:3], "big")):
        found.append((octets[0], octets[3] & 15, octets[4:end]))
        octets = octets[end:]
    return found, octets


def elements(octets: bytes) -> list[Element]:
    """The elements of a list that is whole."""
    return elements_and_rest(octets)[0]


def first(found: list[Element], kind: int, instance: int) -> bytes | None:
    return next((body for k, i, body in found if (k, i) == (kind, instance)), None)


def every(found: list[Element], kind: int, instance: int) -> list[bytes]:
    return [body for k, i, body in found if (k, i) == (kind, instance)]


def cause_of(value: int, offending: int | None = None) -> bytes:
    """A Cause, and where an element is at fault its type (clause 8.4)."""
    return element(CAUSE, 0, bytes([value, 0]) + (b"" if offending is None else bytes([offending, 0, 0, 0])))


def number_of(kind: int, number: int, size: int = 1, instance: int = 0) -> bytes:
    return element(kind, instance, number.to_bytes(size, "big"))


def end_of(instance: int, interface: int, teid: int, address: bytes) -> bytes:
    """An F-TEID of one address, of version 4 or 6 (clause 8.22)."""
    version = {4: 128, 16: 64}[len(address)]
    return element(FTEID, instance, bytes([version | interface]) + teid.to_bytes(4, "big") + address)


def end_again(instance: int, body: bytes) -> bytes:
    """An F-TEID that is sent back: its flags, its TEID and the addresses that they announce (clause 8.22)."""
    return element(FTEID, instance, body[: 5 + (4 if body[0] & 128 else 0) + (16 if body[0] & 64 else 0)])


def quality_again(body: bytes) -> bytes:
    """A Bearer QoS that is sent back, without spare bits (clause 8.15)."""
    return element(QOS, 0, bytes([body[0] & 0x7D]) + body[1:22])


def teid_in(body: bytes) -> int:
    return int.from_bytes(body[1:5], "big")


def name_of(apn: str) -> bytes:
    return b"".join(bytes([len(label)]) + label for label in apn.encode().split(b"."))


def network_identifier(apn: str) -> str:
    """A name without an operator identifier, in lower case (TS 23.003 9.1)."""
    return re.sub(r"(?<=.)\.mnc[0-9]{3}\.mcc[0-9]{3}\.gprs$", "", apn.lower())


def text_of(name: bytes) -> str:
    labels = []
    while name:
        labels.append(name[1 : 1 + name[0]].decode())
        name = name[1 + name[0] :]
    return ".".join(labels)


def packed(digits: str) -> bytes:
    """Digits two an octet, the first in the low half (clause 8.3)."""
    filled = digits + "f" * (len(digits) % 2)
    return bytes(int(filled[k + 1] + filled[k], 16) for k in range(0, len(filled), 2))


def unpacked(octets: bytes) -> str:
    return "".join(f"{octet & 15:x}{octet >> 4:x}" for octet in octets).rstrip("f")


# Addresses of sessions. PDN types (clause 8.34) and PDN Address Allocations (clause 8.14) have the same numbers.

IPV4, IPV6, BOTH = 1, 2, 3
PREFIX = 64  # the length that is stated with an address of version 6, in bits


@dataclass(frozen=True)
class Address:
    """A part of version 4, one of version 6, or both."""

    v4: bytes | None = None
    v6: bytes | None = None

    @property
    def kind(self) -> int:
        return IPV6 if self.v4 is None else IPV4 if self.v6 is None else BOTH


def allocation(address: Address, prefix: int) -> bytes:
    network = b"" if address.v6 is None else bytes([prefix]) + address.v6
    return element(PAA, 0, bytes([address.kind]) + network + (address.v4 or b""))


def allocation_asked(pdn: int) -> bytes:
    """What a request says: no address yet, in the form of the PDN type, or else in that of version 4."""
    v4 = None if pdn == IPV6 else bytes(4)
    v6 = bytes(16) if pdn in (IPV6, BOTH) else None
    return allocation(Address(v4, v6), 0)


def address_in(body: bytes) -> Address | None:
    """The address of an allocation, whatever its prefix; none where it is of another kind."""
    kind = body[0] & 7
    if kind == IPV4:
        return Address(v4=body[1:5])
    if kind == IPV6:
        return Address(v6=body[2:18])
    if kind == BOTH:
        return Address(v4=body[18:22], v6=body[2:18])
    return None


def lowest_free(pool: Iterable[bytes], used: set[bytes | None]) -> bytes | None:
    return next((address for address in pool if address not in used), None)


RATES = element(AMBR, 0, (1000).to_bytes(4, "big") * 2)
QUALITY = element(QOS, 0, bytes([0x20, 9]) + bytes(20))


@dataclass
class Message:
    kind: int
    teid: int | None
    number: int
    found: list[Element]

    @property
    def cause(self) -> int | None:
        body = first(self.found, CAUSE, 0)
        return body[0] if body else None

    @property
    def contexts(self) -> list[list[Element]]:
        return [elements(body) for body in every(self.found, CONTEXT, 0)]


def control(kind: int, teid: int | None, number: int, body: bytes) -> bytes:
    """The octets of a message: the header has a TEID unless it is of an Echo (clause 5.1)."""
    rest = number.to_bytes(3, "big") + b"\0" + body
    if teid is not None:
        rest = teid.to_bytes(4, "big") + rest
    return bytes([64 if teid is None else 72, kind]) + len(rest).to_bytes(2, "big") + rest


def read_control(octets: bytes) -> Message:
    """The message, or its fault where it was cut."""
    if len(octets) < 4:
        raise Refused("X1 H1")
    if int.from_bytes(octets[2:4], "big") != len(octets) - 4:
        raise Refused("X1 H3")
    if octets[0] & 8:
        teid, rest = int.from_bytes(octets[4:8], "big"), octets[8:]
    else:
        teid, rest = None, octets[4:]
    return Message(octets[1], teid, int.from_bytes(rest[:3], "big"), elements(rest[4:]))


# A datagram is one message, or two: the first then has the flag P, and the second follows it at once (clause 5.5.1).

ANNOUNCES = 16


def announced(octets: bytes) -> bytes:
    """A message, as it is in front of another."""
    return bytes([octets[0] | ANNOUNCES]) + octets[1:]


def has_two(octets: bytes) -> bool:
    """Whether a datagram announces a second message. One that has no length yet is cut (H1) and announces none."""
    return len(octets) >= 4 and octets[0] & ANNOUNCES != 0


def both_messages(octets: bytes) -> tuple[bytes, bytes]:
    """The octets of each, or the fault where the datagram was cut before the second begins."""
    size = 4 + int.from_bytes(octets[2:4], "big")
    if len(octets) < size:
        raise Refused("X1 H3")
    if len(octets) == size:
        raise Refused("X1 H5")
    return bytes([octets[0] - ANNOUNCES]) + octets[1:size], octets[size:]


def last_message(octets: bytes) -> bytes:
    """The octets of the only message of a datagram that was sent, or of the second of two."""
    return both_messages(octets)[1] if has_two(octets) else octets


def user(kind: int, teid: int, rest: bytes = b"") -> bytes:
    return bytes([0x30, kind]) + len(rest).to_bytes(2, "big") + teid.to_bytes(4, "big") + rest


def error_indication(teid: int, address: bytes) -> bytes:
    """Clause 7.3.1 of TS 29.281: the TEID that is not known, and the address that it came to."""
    rest = bytes(4) + bytes([16]) + teid.to_bytes(4, "big") + bytes([133]) + len(address).to_bytes(2, "big") + address
    return bytes([0x32, ERROR_INDICATION]) + len(rest).to_bytes(2, "big") + bytes(4) + rest


def read_user(octets: bytes) -> tuple[int, int, bytes]:
    """The type, the TEID and what follows, or the fault where it was cut. An Error Indication is about the TEID
    in its first element."""
    if len(octets) < 8:
        raise Refused("X1 U1")
    if int.from_bytes(octets[2:4], "big") != len(octets) - 8:
        raise Refused("X1 U4")
    if octets[1] == ERROR_INDICATION:
        return octets[1], int.from_bytes(octets[13:17], "big"), b""
    return octets[1], int.from_bytes(octets[4:8], "big"), octets[8:]


# A gateway.


@dataclass
class Session:
    imsi: str
    apn: str
    identity: int
    state: str
    remote: int | None = None
    address: Address | None = None


@dataclass
class Bearer:
    session: int
    default: bool
    state: str
    identity: int | None = None
    remote: int | None = None
    ended: bool = False


@dataclass
class Pending:
    """A request that waits for its answer: what it is about, and how often and how long it waited."""

    number: int
    kind: int
    octets: bytes
    header: int | None
    session: int | None = None
    bearer: int | None = None
    ticks: int = 0
    again: int = 0


@dataclass
class Held:
    request: Request
    answer: bytes
    ticks: int = 0


@dataclass
class Setup:
    """What a gateway is set up with. Access points, templates and addresses are the packet gateway's; the template of
    an access point is the TFT of the bearer that each of its sessions gets at once. Access points are meant by their names
    as they are written, or by their network identifiers. What is of another version is answered, or not."""

    role: str
    control: bytes
    user: bytes
    counter: int
    access_points: list[str] = field(default_factory=list)
    templates: dict[str, bytes] = field(default_factory=dict)
    network_identifiers: bool = False
    version_not_supported: bool = False
    pool: int = 0
    count: int = 0
    pool6: bytes = bytes(16)
    count6: int = 0
    t3: int = 3
    n3: int = 3
    hold: int = 60

    def access_point_for(self, apn: str) -> str | None:
        """The access point that is written so, else, by the switch, the first with the same network identifier."""
        if apn in self.access_points:
            return apn
        meant = (own for own in self.access_points if network_identifier(own) == network_identifier(apn))
        return next(meant, None) if self.network_identifiers else None

    def addresses(self) -> Iterator[bytes]:
        """The pool of version 4."""
        return ((self.pool + k).to_bytes(4, "big") for k in range(self.count))

    def addresses6(self) -> Iterator[bytes]:
        """The pool of version 6: the same last eight octets in networks in a row."""
        network, rest = int.from_bytes(self.pool6[:8], "big"), self.pool6[8:]
        return ((network + k).to_bytes(8, "big") + rest for k in range(self.count6))

    def serves(self, pdn: int) -> bool:
        return pdn in (IPV4, BOTH) or pdn == IPV6 and self.count6 > 0


@dataclass
class Told:
    """What an event comes to; where two messages came in one datagram, each of them."""

    outcome: str = ""
    second: str | None = None
    restart: int | None = None
    sent: list[tuple[str, bytes]] = field(default_factory=list)
    gave_up: list[int] = field(default_factory=list)
    forgot: list[Request] = field(default_factory=list)
    accepted: tuple[int, bytes] | None = None
    by: str | None = None


class Gateway:
    def __init__(self, setup: Setup, counter: int) -> None:
        self.setup, self.counter = setup, counter
        self.drawn = self.next_number = 0
        self.known: int | None = None
        self.sessions: dict[int, Session] = {}
        self.bearers: dict[int, Bearer] = {}
        self.pending: list[Pending] = []
        self.held: list[Held] = []

    # Tables.

    def draw(self) -> int:
        self.drawn += 1
        return self.counter << 24 | self.drawn

    def has_draws(self, count: int) -> bool:
        return self.drawn + count <= 0xFFFFFF

    def bearers_of(self, session: int) -> dict[int, Bearer]:
        return {teid: b for teid, b in self.bearers.items() if b.session == session}

    def with_identity(self, session: int, identity: int) -> int | None:
        return next((t for t, b in self.bearers_of(session).items() if b.identity == identity), None)

    def free_identity(self, session: int) -> int | None:
        used = {b.identity for b in self.bearers_of(session).values()}
        return next((k for k in range(5, 16) if k not in used), None)

    def free_address(self, pdn: int) -> Address | None:
        """Each part that the PDN type asks for, if one is free; none where that leaves no part."""
        given = [s.address for s in self.sessions.values()]
        v4 = v6 = None
        if pdn in (IPV4, BOTH):
            v4 = lowest_free(self.setup.addresses(), {address.v4 for address in given})
        if pdn in (IPV6, BOTH):
            v6 = lowest_free(self.setup.addresses6(), {address.v6 for address in given})
        return None if v4 is None and v6 is None else Address(v4, v6)

    def remove_session(self, session: int) -> None:
        for bearer in self.bearers_of(session):
            self.remove_bearer(bearer)
        self.sessions.pop(session, None)
        self.pending = [p for p in self.pending if p.session != session]

    def remove_bearer(self, bearer: int) -> None:
        self.bearers.pop(bearer, None)
        self.pending = [p for p in self.pending if p.bearer != bearer]

    def close(self, session: int) -> None:
        self.sessions[session].state = CLOSING
        for bearer in self.bearers_of(session).values():
            bearer.state = CLOSING

    # Commands. Each sends one datagram or is refused.

    def ask(self, kind: int, header: int | None, body: bytes, session: int | None = None, bearer: int | None = None) -> Told:
        """Begins a request under the next free number."""
        while any(p.number == self.next_number for p in self.pending):
            self.next_number = (self.next_number + 1) % 8388608
        number = self.next_number
        self.next_number = (number + 1) % 8388608
        octets = control(kind, header, number, body)
        self.pending.append(Pending(number, kind, octets, header, session, bearer))
        return Told(sent=[("control", octets)])

    def room(self, draws: int = 0) -> None:
        if draws and not self.has_draws(draws):
            raise Refused("G4 S4")
        if len(self.pending) >= MOST_PENDING:
            raise Refused("G4 B1")

    def active_session(self, teid: int) -> Session:
        if teid not in self.sessions:
            raise Refused("G1")
        if self.sessions[teid].state != ACTIVE:
            raise Refused("G2")
        return self.sessions[teid]

    def create_session(self, imsi: str, apn: str, identity: int, pdn: int) -> Told:
        if len(self.sessions) >= MOST_SESSIONS:
            raise Refused("G4 S1")
        self.room(draws=2)
        session, bearer = self.draw(), self.draw()
        self.sessions[session] = Session(imsi, apn, identity, PENDING)
        self.bearers[bearer] = Bearer(session, True, PENDING, identity)
        context = number_of(EBI, identity) + QUALITY + end_of(2, S5S8_SGW_GTP_U, bearer, self.setup.user)
        body = element(IMSI, 0, packed(imsi)) + number_of(RAT, 6) + element(SERVING_NETWORK, 0, bytes.fromhex("00f110"))
        body += end_of(0, S5S8_SGW_GTP_C, session, self.setup.control) + element(APN, 0, name_of(apn)) + number_of(SELECTION, 0)
        body += number_of(PDN_TYPE, pdn) + allocation_asked(pdn) + RATES
        body += element(CONTEXT, 0, context) + number_of(RECOVERY, self.counter)
        told = self.ask(CREATE_SESSION, 0, body, session, bearer)
        return replace(told, outcome=f"begun {session:08x}")

    def end_session(self, teid: int, kind: int) -> Told:
        """Deletes a session at the serving gateway, or releases it at the packet gateway."""
        session = self.active_session(teid)
        self.room()
        self.close(teid)
        told = self.ask(kind, session.remote, number_of(EBI, session.identity), teid)
        return replace(told, outcome=f"begun {teid:08x}")

    def create_bearer(self, teid: int, tft: bytes) -> Told:
        self.active_session(teid)
        self.room(draws=1)
        return self.begin_bearer(teid, tft)

    def begin_bearer(self, teid: int, tft: bytes) -> Told:
        session, bearer = self.sessions[teid], self.draw()
        self.bearers[bearer] = Bearer(teid, False, PENDING)
        context = number_of(EBI, 0) + element(TFT, 0, tft) + end_of(1, S5S8_PGW_GTP_U, bearer, self.setup.user)
        context += QUALITY + number_of(CHARGING_ID, bearer, 4)
        body = number_of(EBI, session.identity) + element(CONTEXT, 0, context)
        told = self.ask(CREATE_BEARER, session.remote, body, teid, bearer)
        return replace(told, outcome=f"begun {bearer:08x}")

    def delete_bearer(self, teid: int, identity: int) -> Told:
        bearer = self.with_identity(teid, identity)
        if teid not in self.sessions or bearer is None or self.bearers[bearer].default:
            raise Refused("G1")
        if self.sessions[teid].state != ACTIVE or self.bearers[bearer].state != ACTIVE:
            raise Refused("G2")
        self.room()
        self.bearers[bearer].state = CLOSING
        told = self.ask(DELETE_BEARER, self.sessions[teid].remote, number_of(EBI, identity, instance=1), teid, bearer)
        return replace(told, outcome=f"begun {bearer:08x}")

    def sending(self, teid: int) -> Bearer:
        if teid not in self.bearers:
            raise Refused("G1")
        if self.bearers[teid].state != ACTIVE:
            raise Refused("G2")
        if self.setup.role == PACKET and self.bearers[teid].ended:
            raise Refused("G5")
        return self.bearers[teid]

    def end_marker(self, teid: int) -> Told:
        bearer = self.sending(teid)
        bearer.ended = True
        return Told("sent", sent=[("user", user(END_MARKER, bearer.remote))])

    def send(self, teid: int, payload: bytes) -> Told:
        bearer = self.sending(teid)
        if len(payload) > MOST_PAYLOAD:
            raise Refused("G7")
        return Told("sent", sent=[("user", user(G_PDU, bearer.remote, payload))])

    def echo(self) -> Told:
        self.room()
        told = self.ask(ECHO_REQUEST, None, number_of(RECOVERY, self.counter))
        return replace(told, outcome="begun")

    # Datagrams of the control plane.

    def receive_control(self, octets: bytes) -> Told:
        """What a datagram comes to. Two messages are taken one after the other, each as if it came alone: the second
        also where the first is dropped."""
        if not has_two(octets):
            return self.receive_message(octets)
        try:
            front, back = both_messages(octets)
            kinds = read_control(front).kind, read_control(back).kind
            if self.setup.role == PACKET or kinds != (CREATE_SESSION + 1, CREATE_BEARER):
                raise Refused("X9")
        except Refused as dropped:
            return Told(str(dropped))
        return self.receive_both(front, back)

    def receive_both(self, front: Request, back: Request) -> Told:
        told, after = self.receive_message(front), self.receive_message(back)
        return replace(told, second=after.outcome, sent=told.sent + after.sent)

    def repeated(self, request: Request) -> Told | None:
        """The answer again, if one is held for the request."""
        answer = next((held.answer for held in self.held if held.request == request), None)
        return None if answer is None else Told("repeated", sent=[("control", answer)])

    def receive_message(self, octets: bytes) -> Told:
        """What a message comes to. A later counter is told even where the message is then dropped."""
        if again := self.repeated(octets):
            return again
        told = Told()
        try:
            message = read_control(octets)
            self.hear(message, told)
            self.take(message, octets, told)
        except Refused as dropped:
            told.outcome = str(dropped)
        return told

    def hear(self, message: Message, told: Told) -> None:
        """The restart counter of the peer (clause 7.1)."""
        body = first(message.found, RECOVERY, 0)
        if body is None:
            return
        counter = body[0]
        heard = "first" if self.known is None else age(self.known, counter)
        if heard == "earlier":
            raise Refused("X2")
        if heard == "later":
            told.restart = counter
            for session in [t for t, s in self.sessions.items() if s.state != PENDING]:
                self.remove_session(session)
        if heard != "same":
            self.known = counter

    def take(self, message: Message, octets: Request, told: Told) -> None:
        if message.kind == ECHO_REQUEST:
            answer = control(ECHO_RESPONSE, None, message.number, number_of(RECOVERY, self.counter))
            told.sent, told.outcome = [("control", answer)], "echoed"
        elif message.kind in REQUESTS:
            self.answer(message, octets, told)
        else:
            told.outcome = self.take_response(message)

    # Requests (clauses 7.2.1 to 7.2.10). An answer is held under the request's octets, with the request that goes along
    # in its datagram, if one does.

    def answer(self, message: Message, octets: Request, told: Told) -> None:
        if len(self.held) >= MOST_HELD:
            raise Refused("X8")
        rules = {
            CREATE_SESSION: self.session_asked,
            DELETE_SESSION: self.session_deleted,
            CREATE_BEARER: self.bearer_asked,
            DELETE_BEARER: self.bearers_deleted,
        }
        header, cause, rows, *along = rules[message.kind](message)
        offending = EBI if cause == MANDATORY_IE_INCORRECT else None
        body = cause_of(cause, offending) + rows + number_of(RECOVERY, self.counter)
        answer = control(message.kind + 1, header, message.number, body)
        if along:
            answer = announced(answer) + along[0]
        self.held.append(Held(octets, answer))
        told.sent, told.outcome = [("control", answer)], f"answered {cause}"

    def session_asked(self, message: Message) -> Answer:
        found = message.found
        header = teid_in(first(found, FTEID, 0))
        apn = text_of(first(found, APN, 0))
        pdn = first(found, PDN_TYPE, 0)[0] & 7
        context, *others = message.contexts
        if others:
            return header, REQUEST_REJECTED, b""
        identity = first(context, EBI, 0)[0] & 15
        if identity < 5:
            return header, MANDATORY_IE_INCORRECT, b""
        own = self.setup.access_point_for(apn)
        if own is None:
            return header, MISSING_OR_UNKNOWN_APN, b""
        if not self.setup.serves(pdn):
            return header, PREFERRED_PDN_TYPE_NOT_SUPPORTED, b""
        if len(self.sessions) >= MOST_SESSIONS or not self.has_draws(2):
            return header, NO_RESOURCES_AVAILABLE, b""
        address = self.free_address(pdn)
        if address is None:
            return header, ALL_DYNAMIC_ADDRESSES_ARE_OCCUPIED, b""
        session, bearer = self.draw(), self.draw()
        imsi = unpacked(first(found, IMSI, 0))
        self.sessions[session] = Session(imsi, apn, identity, ACTIVE, header, address)
        self.bearers[bearer] = Bearer(session, True, ACTIVE, identity, teid_in(first(context, FTEID, 2)))
        made = number_of(EBI, identity) + cause_of(REQUEST_ACCEPTED) + end_of(2, S5S8_PGW_GTP_U, bearer, self.setup.user)
        made += quality_again(first(context, QOS, 0)) + number_of(CHARGING_ID, bearer, 4)
        rows = end_of(1, S5S8_PGW_GTP_C, session, self.setup.control) + allocation(address, PREFIX)
        rates = first(found, AMBR, 0)
        rows += (b"" if rates is None else element(AMBR, 0, rates[:8])) + element(CONTEXT, 0, made)
        cause = REQUEST_ACCEPTED if address.kind == pdn else NEW_PDN_TYPE_DUE_TO_NETWORK_PREFERENCE
        return header, cause, rows, *self.request_of_template(session, own)

    def request_of_template(self, session: int, access_point: str) -> list[bytes]:
        """The Create Bearer Request that goes along with the answer about a new session, if there is a template and
        room. Sent again it is alone, like every request."""
        tft = self.setup.templates.get(access_point)
        if tft is None or not self.has_draws(1) or len(self.pending) >= MOST_PENDING:
            return []
        return [octets for _, octets in self.begin_bearer(session, tft).sent]

    def session_deleted(self, message: Message) -> Answer:
        session = self.sessions.get(message.teid)
        if session is None:
            return 0, CONTEXT_NOT_FOUND, b""
        linked = first(message.found, EBI, 0)
        if linked is not None and linked[0] & 15 != session.identity:
            return session.remote, CONTEXT_NOT_FOUND, b""
        self.remove_session(message.teid)
        return session.remote, REQUEST_ACCEPTED, b""

    def bearer_asked(self, message: Message) -> Answer:
        session = self.sessions.get(message.teid)
        if session is None:
            return 0, CONTEXT_NOT_FOUND, b""
        if session.state != ACTIVE:
            raise Refused("X5")
        if len(message.contexts) > 1:
            return session.remote, REQUEST_REJECTED, b""
        if first(message.found, EBI, 0)[0] & 15 != session.identity:
            return session.remote, CONTEXT_NOT_FOUND, b""
        asked = first(message.contexts[0], FTEID, 1)
        identity = self.free_identity(message.teid)
        if identity is None or not self.has_draws(1):
            refused = number_of(EBI, 0) + cause_of(NO_RESOURCES_AVAILABLE) + end_again(3, asked)
            return session.remote, NO_RESOURCES_AVAILABLE, element(CONTEXT, 0, refused)
        bearer = self.draw()
        self.bearers[bearer] = Bearer(message.teid, False, ACTIVE, identity, teid_in(asked))
        made = number_of(EBI, identity) + cause_of(REQUEST_ACCEPTED) + end_of(2, S5S8_SGW_GTP_U, bearer, self.setup.user)
        made += end_again(3, asked)
        return session.remote, REQUEST_ACCEPTED, element(CONTEXT, 0, made)

    def bearers_deleted(self, message: Message) -> Answer:
        session = self.sessions.get(message.teid)
        if session is None:
            return 0, CONTEXT_NOT_FOUND, b""
        if session.state == PENDING:
            raise Refused("X5")
        linked = first(message.found, EBI, 0)
        if linked is not None:
            if linked[0] & 15 != session.identity:
                return session.remote, CONTEXT_NOT_FOUND, b""
            self.remove_session(message.teid)
            return session.remote, REQUEST_ACCEPTED, number_of(EBI, session.identity)
        causes, rows = [], b""
        if len(every(message.found, EBI, 1)) > 11:
            return session.remote, REQUEST_REJECTED, b""
        for body in every(message.found, EBI, 1):
            bearer = self.with_identity(message.teid, body[0] & 15)
            is_there = bearer is not None and not self.bearers[bearer].default
            causes.append(REQUEST_ACCEPTED if is_there else CONTEXT_NOT_FOUND)
            if is_there:
                self.remove_bearer(bearer)
            rows += element(CONTEXT, 0, number_of(EBI, body[0] & 15) + cause_of(causes[-1]))
        cause = CONTEXT_NOT_FOUND
        if CONTEXT_NOT_FOUND not in causes:
            cause = REQUEST_ACCEPTED
        elif REQUEST_ACCEPTED in causes:
            cause = REQUEST_ACCEPTED_PARTIALLY
        return session.remote, cause, rows

    # Responses.

    def take_response(self, message: Message) -> str:
        pending = next((p for p in self.pending if p.number == message.number), None)
        if pending is None:
            raise Refused("X3")
        refusal = message.teid == 0 and message.cause == CONTEXT_NOT_FOUND and pending.header != 0
        named = pending.kind == ECHO_REQUEST or message.teid == pending.session or refusal
        if message.kind != pending.kind + 1 or not named:
            raise Refused("X4")
        rules = {
            ECHO_REQUEST: lambda *_: "alive",
            CREATE_SESSION: self.session_answered,
            CREATE_BEARER: self.bearer_answered,
            DELETE_SESSION: self.ended,
            DELETE_BEARER: self.ended,
        }
        outcome = rules[pending.kind](message, pending)
        self.pending = [p for p in self.pending if p.number != pending.number]
        return outcome

    def session_answered(self, message: Message, pending: Pending) -> str:
        session = self.sessions[pending.session]
        if not accepts(message.cause):
            self.remove_session(pending.session)
            return f"rejected {message.cause}"
        address, contexts = address_in(first(message.found, PAA, 0)), message.contexts
        if len(contexts) != 1 or first(contexts[0], EBI, 0)[0] & 15 != session.identity or address is None:
            raise Refused("X4")
        cause = first(contexts[0], CAUSE, 0)[0]
        if not accepts(cause):
            self.remove_session(pending.session)
            return f"rejected {cause}"
        session.remote, session.state = teid_in(first(message.found, FTEID, 1)), ACTIVE
        session.address = address
        bearer = self.bearers[pending.bearer]
        bearer.remote, bearer.state = teid_in(first(contexts[0], FTEID, 2)), ACTIVE
        return "opened"

    def bearer_answered(self, message: Message, pending: Pending) -> str:
        if not accepts(message.cause):
            self.remove_bearer(pending.bearer)
            return f"rejected {message.cause}"
        if len(message.contexts) != 1:
            raise Refused("X4")
        context = message.contexts[0]
        cause = first(context, CAUSE, 0)[0]
        if not accepts(cause):
            self.remove_bearer(pending.bearer)
            return f"rejected {cause}"
        if teid_in(first(context, FTEID, 3)) != pending.bearer:
            raise Refused("X4")
        identity = first(context, EBI, 0)[0] & 15
        in_use = self.with_identity(pending.session, identity) is not None
        if not 5 <= identity <= 15 or in_use or self.sessions[pending.session].state == CLOSING:
            self.remove_bearer(pending.bearer)
            return "clash"
        bearer = self.bearers[pending.bearer]
        bearer.identity, bearer.remote, bearer.state = identity, teid_in(first(context, FTEID, 2)), ACTIVE
        return "opened"

    def ended(self, message: Message, pending: Pending) -> str:
        self.end(pending)
        return "closed"

    def end(self, pending: Pending) -> None:
        """Removes what a request was about: it was refused, given up, or answered by a deletion."""
        if pending.kind in (CREATE_BEARER, DELETE_BEARER) and pending.bearer is not None:
            self.remove_bearer(pending.bearer)
        elif pending.kind != ECHO_REQUEST:
            self.remove_session(pending.session)

    # The user plane.

    def receive_user(self, octets: bytes) -> Told:
        told = Told()
        try:
            self.take_user(*read_user(octets), told)
        except Refused as dropped:
            told.outcome = str(dropped)
        return told

    def take_user(self, kind: int, teid: int, payload: bytes, told: Told) -> None:
        """Takes a datagram of the user plane; the TEID of an Error Indication is the one that it is about."""
        bearer = self.bearers.get(teid)
        if kind == G_PDU:
            self.take_packet(teid, bearer, payload, told)
        elif kind == END_MARKER and self.setup.role == SERVING and bearer is not None:
            if bearer.state != ACTIVE:
                raise Refused("X5")
            bearer.ended, told.outcome = True, "ended"
        elif kind == ERROR_INDICATION:
            self.take_error(teid, told)
        else:
            raise Refused("X9")

    def take_packet(self, teid: int, bearer: Bearer | None, payload: bytes, told: Told) -> None:
        if bearer is None:
            told.sent = [("user", error_indication(teid, self.setup.user))]
            raise Refused("X6")
        if bearer.state != ACTIVE:
            raise Refused("X5")
        if self.setup.role == SERVING and bearer.ended:
            raise Refused("X7")
        told.outcome, told.accepted = "accepted", (teid, payload)

    def take_error(self, teid: int, told: Told) -> None:
        named = {t: b for t, b in self.bearers.items() if b.remote == teid}
        if not named:
            raise Refused("X9")
        for bearer, context in named.items():
            if context.default:
                self.remove_session(context.session)
            else:
                self.remove_bearer(bearer)
        told.outcome = "broken"

    # Ticks (clause 7.6).

    def tick(self) -> Told:
        told = Told("ticked")
        due = []
        for pending in self.pending:
            pending.ticks += 1
            if pending.ticks == self.setup.t3:
                due.append(pending)
        for pending in due:
            if pending.again < self.setup.n3:
                pending.again, pending.ticks = pending.again + 1, 0
                told.sent.append(("control", pending.octets))
            elif pending in self.pending:
                told.gave_up.append(pending.number)
                self.pending.remove(pending)
                self.end(pending)
        for held in self.held:
            held.ticks += 1
        told.forgot = [h.request for h in self.held if h.ticks >= self.setup.hold]
        self.held = [h for h in self.held if h.ticks < self.setup.hold]
        return told
