"""The run of a scenario as JSON, an object a line."""

from __future__ import annotations

import json
from collections.abc import Iterator

from gateways import PACKET, SERVING, Bearer, Json, Session
from world import Happened, World, address_text

# What follows the first word of an outcome.
DETAILS = {"begun": "teid", "G4": "limit", "X1": "fault", "restarted": "counter", "answered": "cause", "rejected": "cause"}


def outcome_members(text: str) -> Json:
    """An outcome of a report, as members of an object."""
    word, *details = text.split()
    numbers = DETAILS.get(word) in ("cause", "counter")
    return {"outcome": word} | {DETAILS[word]: int(detail) if numbers else detail for detail in details}


def if_known(name: str, value: object) -> Json:
    return {} if value is None else {name: value}


def event_object(happened: Happened) -> Json:
    told = happened.told
    then = None if told.second is None else outcome_members(told.second)
    sent = [{"datagram": k, "plane": plane, "octets": octets.hex()}
            for k, (plane, octets) in enumerate(told.sent, happened.before)]
    return ({"event": happened.number, "do": happened.event["do"]} | outcome_members(told.outcome)
            | if_known("then", then) | if_known("restart", told.restart)
            | {"sent": sent, "gave_up": list(told.gave_up), "forgot": [request.hex() for request in told.forgot]})


def ends(node: str, teid: int, context: Session | Bearer) -> Json:
    remote = None if context.remote is None else f"{context.remote:08x}"
    return {"node": node, "local": f"{teid:08x}"} | if_known("remote", remote)


def session_object(node: str, teid: int, session: Session) -> Json:
    address = None if session.address is None else address_text(session.address)
    return (ends(node, teid, session) | {"imsi": session.imsi, "apn": session.apn, "ebi": session.identity}
            | if_known("address", address) | {"state": session.state})


def bearer_object(node: str, teid: int, bearer: Bearer) -> Json:
    return (ends(node, teid, bearer) | {"session": f"{bearer.session:08x}"} | if_known("ebi", bearer.identity)
            | {"state": bearer.state, "ended": bearer.ended})


def end_object(world: World) -> Json:
    """What stands at the end."""
    gateways = [(node, world.gateways[node]) for node in (SERVING, PACKET)]
    mutual = [{"kind": kind, "serving": f"{serving:08x}", "packet": f"{packet:08x}", "agree": agree}
              for kind, serving, packet, agree in world.all_mutual()]
    accepted = [{"node": entry[0], "teid": f"{entry[1]:08x}", "payload": entry[2].hex(), "owed": world.is_owed(entry)}
                for entry in world.accepted]
    return {"sessions": [session_object(node, *it) for node, g in gateways for it in sorted(g.sessions.items())],
            "bearers": [bearer_object(node, *it) for node, g in gateways for it in sorted(g.bearers.items())],
            "mutual": mutual, "accepted": accepted, "late": world.late}


def json_lines(world: World, story: list[Happened]) -> Iterator[str]:
    for value in [*map(event_object, story), end_object(world)]:
        yield json.dumps(value, separators=(",", ":"))
