"""The world of both gateways: scenarios are run in it, and its report is written."""

from __future__ import annotations

from collections.abc import Callable, Iterator
from dataclasses import dataclass
from typing import Optional, Union

from gateways import (ACTIVE, DELETE_BEARER, DELETE_SESSION, MOST_RESTARTS, PACKET, SERVING, Address, Bearer, Gateway, Json, Refused,
                      Session, Told, last_message)
from names import named, numbered
from setups import node_of, other, setup_of, text_of

Context = Union[Session, Bearer]
# A packet that was handed in or accepted: its gateway, TEID and payload; the subscriber, access point and bearer that it is for.
Packet = tuple[str, int, bytes, str, str, Optional[int]]


class World:
    def __init__(self, scenario: Json) -> None:
        self.setups = {role: setup_of(role, scenario[role], scenario) for role in (SERVING, PACKET)}
        self.gateways = {role: Gateway(setup, setup.counter) for role, setup in self.setups.items()}
        self.restarts = {SERVING: 0, PACKET: 0}
        self.forgotten: dict[str, list[bytes]] = {SERVING: [], PACKET: []}
        self.datagrams: list[tuple[str, str, bytes]] = []  # the gateway that sent it, its plane, its octets
        self.delivered: set[int] = set()  # the numbers of those that arrived whole
        self.handed_in: list[Packet] = []
        self.accepted: list[Packet] = []
        self.late = 0

    def entry(self, node: str, bearer: int, target: int, payload: bytes) -> Packet:
        """A packet: for which TEID, subscriber, access point and bearer."""
        gateway = self.gateways[node]
        context = gateway.bearers[bearer]
        session = gateway.sessions[context.session]
        return (node, target, payload, session.imsi, session.apn, context.identity)

    def step(self, event: Json) -> Told:
        """An event as a scenario has it: what it comes to."""
        node = node_of(event)
        try:
            told = getattr(self, event["do"])(event, node)
        except Refused as refused:
            told = Told(str(refused))
        self.datagrams += [(told.by or node, plane, octets) for plane, octets in told.sent]
        return told

    def create_session(self, event: Json, node: str) -> Told:
        return self.gateways[node].create_session(event["imsi"], event["apn"], event["ebi"], event.get("pdn", 1))

    def delete_session(self, event: Json, node: str) -> Told:
        return self.gateways[node].end_session(int(event["teid"], 16), DELETE_SESSION)

    def release_session(self, event: Json, node: str) -> Told:
        return self.gateways[node].end_session(int(event["teid"], 16), DELETE_BEARER)

    def create_bearer(self, event: Json, node: str) -> Told:
        return self.gateways[node].create_bearer(int(event["teid"], 16), bytes.fromhex(event["tft"]))

    def delete_bearer(self, event: Json, node: str) -> Told:
        return self.gateways[node].delete_bearer(int(event["teid"], 16), event["ebi"])

    def end_marker(self, event: Json, node: str) -> Told:
        return self.gateways[node].end_marker(int(event["teid"], 16))

    def echo(self, event: Json, node: str) -> Told:
        return self.gateways[node].echo()

    def send(self, event: Json, node: str) -> Told:
        bearer, payload = int(event["teid"], 16), bytes.fromhex(event["payload"])
        told = self.gateways[node].send(bearer, payload)
        target = self.gateways[node].bearers[bearer].remote
        self.handed_in.append(self.entry(node, bearer, target, payload))
        return told

    def tick(self, event: Json, node: str) -> Told:
        told = self.gateways[node].tick()
        self.forgotten[node] += told.forgot
        return told

    def restart(self, event: Json, node: str) -> Told:
        if self.restarts[node] == MOST_RESTARTS:
            raise Refused("N2")
        self.restarts[node] += 1
        counter = (self.gateways[node].counter + 1) % 256
        self.gateways[node] = Gateway(self.setups[node], counter)
        self.forgotten[node] = []
        return Told(f"restarted {counter}")

    def deliver(self, event: Json, node: str) -> Told:
        if event["datagram"] >= len(self.datagrams):
            raise Refused("N1")
        self.delivered.add(event["datagram"])
        sender, plane, octets = self.datagrams[event["datagram"]]
        if plane == "control" and last_message(octets) in self.forgotten[other(sender)]:
            self.late += 1
        return self.comes(sender, plane, octets)

    def cut(self, event: Json, node: str) -> Told:
        if event["datagram"] >= len(self.datagrams):
            raise Refused("N1")
        sender, plane, octets = self.datagrams[event["datagram"]]
        if event["length"] >= len(octets):
            raise Refused("N3")
        return self.comes(sender, plane, octets[: event["length"]])

    def comes(self, sender: str, plane: str, octets: bytes) -> Told:
        receiver = other(sender)
        gateway = self.gateways[receiver]
        told = gateway.receive_control(octets) if plane == "control" else gateway.receive_user(octets)
        told.by = receiver
        if told.accepted:
            teid, payload = told.accepted
            self.accepted.append(self.entry(receiver, teid, teid, payload))
        return told

    # What stands at the end.

    def is_owed(self, entry: Packet) -> bool:
        node, *rest = entry
        return any([other(node), *rest] == [*handed] for handed in self.handed_in)

    def mutual(self, contexts: Callable[[Gateway], dict[int, Context]]) -> Iterator[tuple[int, int]]:
        """The pairs of contexts that name each other, in order of the serving gateway's TEIDs."""
        serving, packet = (contexts(self.gateways[role]) for role in (SERVING, PACKET))
        for teid, context in sorted(serving.items()):
            peer = packet.get(context.remote)
            if peer is not None and context.state == peer.state == ACTIVE and peer.remote == teid:
                yield teid, context.remote

    def all_mutual(self) -> Iterator[tuple[str, int, int, bool]]:
        """Sessions and then bearers that name each other, and whether they agree."""
        kinds = ("session", lambda it: it.sessions, self.sessions_agree), ("bearer", lambda it: it.bearers, self.bearers_agree)
        for kind, contexts, agree in kinds:
            yield from ((kind, serving, packet, agree(serving, packet)) for serving, packet in self.mutual(contexts))

    def sessions_agree(self, serving: int, packet: int) -> bool:
        a, b = self.gateways[SERVING].sessions[serving], self.gateways[PACKET].sessions[packet]
        return (a.imsi, a.apn, a.identity, a.address) == (b.imsi, b.apn, b.identity, b.address)

    def bearers_agree(self, serving: int, packet: int) -> bool:
        a, b = self.gateways[SERVING].bearers[serving], self.gateways[PACKET].bearers[packet]
        return a.identity == b.identity and self.sessions_agree(a.session, b.session)


# The report.


def shown(number: int | None, form: str = "{}") -> str:
    return "-" if number is None else form.format(number)


def teid_text(teid: int | None) -> str:
    return shown(teid, "{:08x}")


def address_text(address: Address | None) -> str:
    if address is None:
        return "-"
    return "+".join(text_of(it) for it in (address.v4, address.v6) if it is not None)


def outcome_text(told: Told) -> str:
    second = "" if told.second is None else f" then {told.second}"
    return told.outcome + second + ("" if told.restart is None else f" restart {told.restart}")


def event_lines(happened: Happened) -> Iterator[str]:
    told = happened.told
    yield f"event {happened.number} {happened.event['do']} {outcome_text(told)}"
    for k, (plane, octets) in enumerate(told.sent, happened.before):
        yield f"  sent {k} {plane} {octets.hex()}"
    for number in told.gave_up:
        yield f"  gave-up {number}"
    for request in told.forgot:
        yield f"  forgot {request.hex()}"


def context_lines(node: str, gateway: Gateway) -> Iterator[str]:
    for teid, s in sorted(gateway.sessions.items()):
        subscriber = f"{s.imsi} {s.apn} {s.identity}"
        yield f"session {node} {teid:08x} {teid_text(s.remote)} {subscriber} {address_text(s.address)} {s.state}"
    for teid, b in sorted(gateway.bearers.items()):
        ended = " ended" if b.ended else ""
        yield f"bearer {node} {teid:08x} {teid_text(b.remote)} {b.session:08x} {shown(b.identity)} {b.state}{ended}"


def end_lines(world: World) -> Iterator[str]:
    for node in (SERVING, PACKET):
        yield from context_lines(node, world.gateways[node])
    for kind, serving, packet, agree in world.all_mutual():
        yield f"mutual {kind} {serving:08x} {packet:08x} {'agree' if agree else 'differ'}"
    for entry in world.accepted:
        node, target, payload = entry[:3]
        yield f"taken {node} {target:08x} {payload.hex() or '-'} {'owed' if world.is_owed(entry) else 'unowed'}"
    yield f"late {world.late}"


def report_lines(world: World, story: list[Happened]) -> Iterator[str]:
    for happened in story:
        yield from event_lines(happened)
    yield from end_lines(world)


# Runs.


@dataclass
class Happened:
    """An event, at which gateway it happened, what it came to, and how many datagrams had been sent before."""

    number: int
    event: Json
    node: str
    told: Told
    before: int


def run(scenario: Json) -> tuple[World, list[Happened]]:
    """The world that the events of a scenario leave, and what happened, event by event."""
    world, story = World(scenario), []
    for said in scenario["events"]:
        for entry in numbered(world, said):
            for _ in range(entry.get("times", 1)):
                before = len(world.datagrams)
                told = world.step(entry)
                story.append(Happened(len(story), entry, node_of(entry), told, before))
    return world, story


def with_names(scenario: Json) -> Json:
    """The same scenario, with a name in place of each number that one finds."""
    world, events = World(scenario), []
    for entry in scenario["events"]:
        events.append(named(world, entry))
        for _ in range(entry.get("times", 1)):
            world.step(entry)
    return scenario | {"events": events}


def is_met(happened: Happened) -> bool:
    """Whether an event came to what the scenario expects: of the first message, where two came. Without it neither may
    be refused."""
    told, expect = happened.told, happened.event.get("expect")
    if expect is not None:
        return told.outcome.split()[0] == expect
    return all(outcome[0] not in "GNX" for outcome in (told.outcome, told.second) if outcome)


def unmet_line(story: list[Happened]) -> str:
    """What standard error says of the first event that did not come to what is expected, if there is one."""
    for happened in story:
        if is_met(happened):
            continue
        event, expect = f"gtpshow: standard input: event {happened.number}", happened.event.get("expect")
        if expect is None:
            return f"{event} was refused, dropped or impossible, and its entry expects none of these\n"
        return f"{event} came to something else than \"{expect}\", which its entry expects\n"
    return ""
