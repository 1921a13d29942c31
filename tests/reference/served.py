"""One gateway behind lines: a JSON object a line goes in, and one comes out. Datagrams may be any octets from anywhere."""

from __future__ import annotations

import json
from dataclasses import replace

from decoding import ROWS, Fault, defect_of, read_datagram, read_message, read_user_datagram
from gateways import (CREATE_BEARER, CREATE_SESSION, DELETE_BEARER, DELETE_SESSION, ECHO_REQUEST, ECHO_RESPONSE, ERROR_INDICATION, FTEID,
                      PACKET, PENDING, RECOVERY, SERVING, Gateway, Json, Message, Refused, Setup, Source, Told, control, element, first,
                      has_two, number_of, teid_in)
from run_json import bearer_object, if_known, outcome_members, session_object
from setups import COMMANDS, octets_of, other, setup_of, text_of

PORTS = {"control": 2123, "user": 2152}
TAKEN = {SERVING: (ECHO_REQUEST, ECHO_RESPONSE, CREATE_SESSION + 1, DELETE_SESSION + 1, CREATE_BEARER, DELETE_BEARER),
         PACKET: (ECHO_REQUEST, ECHO_RESPONSE, CREATE_SESSION, DELETE_SESSION, CREATE_BEARER + 1, DELETE_BEARER + 1)}
NOTIFICATION = bytes.fromhex("321f000700000000000000008d0140")
VERSION_NOT_SUPPORTED = bytes.fromhex("4003000400000000")


class Station(Gateway):
    """A gateway that knows its peer, and takes whatever comes."""

    def __init__(self, setup: Setup, counter: int, peer: dict[str, bytes]) -> None:
        super().__init__(setup, counter)
        self.peer = peer

    # Datagrams of the control plane, each with where it comes from.

    def receive(self, plane: str, source: Source, octets: bytes) -> Told:
        if source[0] != self.peer[plane]:
            return Told("X11")
        return self.receive_control((source, octets)) if plane == "control" else self.receive_user(octets)

    def receive_control(self, request: tuple[Source, bytes]) -> Told:
        source, octets = request
        if not has_two(octets) or octets[0] >> 5 != 2:
            return self.receive_message(request)
        try:
            front, back = read_datagram(octets)
        except Fault as fault:
            return Told(f"X1 {fault.code}")
        if self.setup.role == PACKET or (front.kind, back.kind) != (CREATE_SESSION + 1, CREATE_BEARER):
            return Told("X9")
        size = 4 + int.from_bytes(octets[2:4], "big")
        return self.receive_both((source, bytes([octets[0] & ~16]) + octets[1:size]), (source, octets[size:]))

    def receive_message(self, request: tuple[Source, bytes]) -> Told:
        if again := self.repeated(request):
            return again
        told = Told()
        try:
            message = read_message(request[1])
            if message.kind not in TAKEN[self.setup.role]:
                raise Refused("X9")
            self.hear(message, told)
            self.take(message, request, told)
        except Fault as fault:
            return self.version_told(request[1]) if fault.code == "H2" else self.at_fault(fault)
        except Refused as dropped:
            told.outcome = str(dropped)
        return told

    def hear(self, message: Message, told: Told) -> None:
        """A restart counter counts only where the message has one."""
        if any(row[:2] == (RECOVERY, 0) for row in ROWS[message.kind]):
            super().hear(message, told)

    def version_told(self, octets: bytes) -> Told:
        """What is of another version is answered by the own one (clause 7.7.2), and never such an answer."""
        if self.setup.version_not_supported and octets[1] != VERSION_NOT_SUPPORTED[1]:
            return Told("X12", sent=[("control", VERSION_NOT_SUPPORTED)])
        return Told("X1 H2")

    def at_fault(self, fault: Fault) -> Told:
        """A request with an element at fault is refused (clause 7.7); every other fault is dropped."""
        message = fault.message
        if fault.cause is None or message.kind not in TAKEN[self.setup.role] or message.kind not in (
                CREATE_SESSION, DELETE_SESSION, CREATE_BEARER, DELETE_BEARER):
            return Told(f"X1 {fault.code}")
        if message.kind == CREATE_SESSION:
            sender = first(message.found, FTEID, 0)
            header = 0 if sender is None or defect_of(FTEID, sender) else teid_in(sender)
        else:
            session = self.sessions.get(message.teid)
            header = 0 if session is None or session.state == PENDING else session.remote
        body = element(2, 0, bytes([fault.cause, 0, fault.kind, 0, 0, fault.instance])) + number_of(RECOVERY, self.counter)
        return Told(f"answered {fault.cause}", sent=[("control", control(message.kind + 1, header, message.number, body))])

    # The user plane.

    def receive_user(self, octets: bytes) -> Told:
        told = Told()
        try:
            message = read_user_datagram(octets)
            if message.kind == ECHO_REQUEST:
                answer = bytes.fromhex("3202000600000000") + message.number.to_bytes(2, "big") + bytes.fromhex("00000e00")
                return Told("echoed", sent=[("user", answer)])
            is_error = message.kind == ERROR_INDICATION
            teid = int.from_bytes(message.found[16], "big") if is_error else message.teid
            self.take_user(message.kind, teid, message.body, told)
        except Fault as fault:
            if fault.code != "U7":
                return Told(f"X1 {fault.code}")
            return Told("X10", sent=[("user", NOTIFICATION)])
        except Refused as dropped:
            told.outcome = str(dropped)
        return told

    # Commands.

    def do(self, request: Json) -> Told:
        word = request["do"]
        if word in COMMANDS[other(self.setup.role)]:
            raise Refused("G3")
        if word == "tick":
            told = self.tick()
            return replace(told, forgot=[octets for _, octets in told.forgot])
        if word == "echo":
            return self.echo()
        if word == "create_session":
            return self.create_session(request["imsi"], request["apn"], request["ebi"], request.get("pdn", 1))
        teid = int(request["teid"], 16)
        if word == "send":
            return self.send(teid, bytes.fromhex(request["payload"]))
        if word == "create_bearer":
            return self.create_bearer(teid, bytes.fromhex(request["tft"]))
        if word == "delete_bearer":
            return self.delete_bearer(teid, request["ebi"])
        if word == "end_marker":
            return self.end_marker(teid)
        return self.end_session(teid, DELETE_SESSION if word == "delete_session" else DELETE_BEARER)

    def handle(self, request: Json) -> Json:
        """What a request comes to, and where what is sent goes: an answer to where the request came from."""
        own = {"control": self.setup.control, "user": self.setup.user}
        source = None
        try:
            if request["do"] == "receive":
                source = (octets_of(request["from"]["address"]), request["from"]["port"])
                told = self.receive(request["plane"], source, bytes.fromhex(request["octets"]))
            else:
                told = self.do(request)
        except Refused as refused:
            told = Told(str(refused))
        last = told.second or told.outcome
        answers = source is not None and last.split()[0] in ("answered", "repeated", "echoed", "X12")
        sent = []
        for plane, octets in told.sent:
            to = source if answers else (self.peer[plane], PORTS[plane])
            sent.append({"plane": plane, "from": end(own[plane], PORTS[plane]), "to": end(*to), "octets": octets.hex()})
        accepted = None if told.accepted is None else {"teid": f"{told.accepted[0]:08x}", "payload": told.accepted[1].hex()}
        then = None if told.second is None else outcome_members(told.second)
        return (outcome_members(told.outcome) | if_known("then", then) | if_known("restart", told.restart) | {"sent": sent}
                | if_known("accepted", accepted)
                | {"gave_up": list(told.gave_up), "forgot": [request.hex() for request in told.forgot]})

    def contexts(self) -> Json:
        role = self.setup.role
        return {"outcome": "listed", "sessions": [session_object(role, *it) for it in sorted(self.sessions.items())],
                "bearers": [bearer_object(role, *it) for it in sorted(self.bearers.items())]}


def end(octets: bytes, port: int) -> Json:
    return {"address": text_of(octets), "port": port}


def station(head: Json) -> Station:
    """The gateway that a head says."""
    setup = setup_of(head["role"], head, head)
    peer = {plane: octets_of(head["peer"][plane]) for plane in PORTS}
    return Station(setup, setup.counter, peer)


def answer(gateway: Station, request: Json) -> Json:
    return gateway.contexts() if request["do"] == "contexts" else gateway.handle(request)


def line_of(value: Json) -> str:
    return json.dumps(value, separators=(",", ":"))
