"""A gateway for each of many peers, behind lines: a JSON object a line goes in, and one comes out. Random conversations with one."""

from __future__ import annotations

from random import Random

from conversations import Conversation, head
from gateways import PACKET, Json
from served import PORTS, answer, outcome_members, station
from setups import octets_of, text_of

PEERS = ["10.0.1.1", "10.0.1.2", "10.0.1.3", "10.0.1.1"]
STRANGER = "10.0.9.9"


def shifted(said: Json, place: int) -> Json:
    """The addresses of the gateway at a place: as many, behind those of the places before it."""
    pools = {}
    if "pool" in said:
        first = int.from_bytes(octets_of(said["pool"]), "big") + place * said["count"]
        pools["pool"] = text_of(first.to_bytes(4, "big"))
    if "pool6" in said:
        octets = octets_of(said["pool6"])
        prefix = int.from_bytes(octets[:8], "big") + place * said["count6"]
        pools["pool6"] = (prefix.to_bytes(8, "big") + octets[8:]).hex()
    return pools


class Node:
    """What the head of a node says."""

    def __init__(self, said: Json) -> None:
        self.said = {key: it for key, it in said.items() if key != "peers"}
        self.peers: list[Json] = []
        self.stations = []
        for peer in said["peers"]:
            self.add(peer)

    def head_of(self, place: int) -> Json:
        """The head of the gateway by itself."""
        return self.said | {"peer": self.peers[place]} | shifted(self.said, place)

    def add(self, peer: Json) -> int:
        self.peers.append(peer)
        self.stations.append(station(self.head_of(len(self.peers) - 1)))
        return len(self.peers) - 1

    def place_of(self, plane: str, address: str) -> int | None:
        """The first peer that has the address on the plane."""
        return next((place for place, peer in enumerate(self.peers) if octets_of(peer[plane]) == octets_of(address)), None)

    def at(self, place: int, request: Json) -> Json:
        return {"peer": place} | answer(self.stations[place], request)

    def answer(self, line: Json) -> Json:
        if "line" in line:
            place = line["peer"]
            return self.at(place, line["line"]) if place < len(self.stations) else {"outcome": "no peer"}
        if line["do"] == "add":
            return {"peer": self.add(line["peer"]), "outcome": "added"}
        place = self.place_of(line["plane"], line["from"]["address"])
        if place is None:
            return outcome_members("X11") | {"sent": [], "gave_up": [], "forgot": []}
        return self.at(place, line)


def node_head(rng: Random) -> Json:
    """A node of one to three peers, of which two may have one address on a plane."""
    said = {key: it for key, it in head(rng).items() if key != "peer"}
    peers = [{plane: address for plane in PORTS} for address in rng.sample(PEERS, rng.randint(1, 3))]
    if rng.random() < 0.2:
        peers[-1]["user"] = peers[0]["user"]
    return said | {"peers": peers}


def line_for(rng: Random, node: Node, place: int, request: Json) -> Json:
    """A line to a node that has what is asked of the gateway at a place."""
    if request["do"] != "receive" or rng.random() < 0.1:
        return {"peer": place, "line": request}
    if rng.random() < 0.05:
        # What a peer sends with what only another one knows, or a stranger.
        address = rng.choice([STRANGER, *(peer[request["plane"]] for peer in node.peers)])
        return request | {"from": request["from"] | {"address": address}}
    return request


def conversation(number: int, length: int = 150) -> tuple[Json, list[Json], list[Json]]:
    """A head, what is asked of a node, and what is answered."""
    rng = Random(number)
    said = node_head(rng)
    node = Node(said)
    talks: list[Conversation] = []
    lines, answers = [], []
    for _ in range(length):
        while len(talks) < len(node.stations):
            talk = Conversation(rng.randrange(1 << 30), node.head_of(len(talks)))
            talk.gateway = node.stations[len(talks)]
            talks.append(talk)
        place = rng.randrange(len(talks))
        line = line_for(rng, node, place, talks[place].any_line())
        if rng.random() < 0.02:
            peers = [{plane: address for plane in PORTS} for address in PEERS]
            fits = said["role"] != PACKET or len(talks) < 6
            line = {"do": "add", "peer": rng.choice(peers)} if fits else {"peer": 99, "line": {"do": "tick"}}
        lines.append(line)
        answers.append(node.answer(line))
    for place in range(len(node.stations)):
        lines.append({"peer": place, "line": {"do": "contexts"}})
        answers.append(node.answer(lines[-1]))
    return said, lines, answers
