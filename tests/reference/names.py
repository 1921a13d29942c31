"""Names that entries have in place of numbers: of the datagram that was sent last, of all that wait, of sessions and of bearers."""

from __future__ import annotations

from collections.abc import Iterator
from typing import TYPE_CHECKING

from gateways import Gateway, Json
from setups import node_of

if TYPE_CHECKING:
    from world import World


class Nothing(Exception):
    """A name that finds nothing."""


def without(entry: Json, key: str) -> Json:
    return {k: value for k, value in entry.items() if k != key}


def last(teids: list[int]) -> int:
    """The highest of some TEIDs: what was begun last."""
    if not teids:
        raise Nothing
    return max(teids)


def session_of(gateway: Gateway, name: Json) -> int:
    return last([teid for teid, s in gateway.sessions.items() if (s.imsi, s.apn) == (name["imsi"], name["apn"])])


def bearer_of(gateway: Gateway, name: Json) -> int:
    session = session_of(gateway, name)
    return last([teid for teid, b in gateway.bearers.items() if (b.session, b.identity) == (session, name["ebi"])])


def gateway_of(world: World, entry: Json) -> Gateway:
    return world.gateways[node_of(entry)]


def waiting(world: World) -> list[int]:
    """The datagrams that were sent and not delivered, in order."""
    return [number for number in range(len(world.datagrams)) if number not in world.delivered]


def all_that_wait(world: World, entry: Json) -> Iterator[Json]:
    """One entry for each, while they are delivered."""
    while found := waiting(world):
        yield entry | {"datagram": found[0]}


def newest(world: World) -> int:
    if not world.datagrams:
        raise Nothing
    return len(world.datagrams) - 1


def numbered(world: World, entry: Json) -> Iterator[Json]:
    """The entries with numbers that an entry stands for; each is made where the one before it has happened."""
    if entry["do"] == "deliver" and "datagram" not in entry:
        yield entry | {"datagram": newest(world)}
    elif entry["do"] == "deliver" and entry["datagram"] == "all":
        yield from all_that_wait(world, entry)
    elif "session" in entry:
        yield without(entry, "session") | {"teid": f"{session_of(gateway_of(world, entry), entry['session']):08x}"}
    elif "bearer" in entry:
        yield without(entry, "bearer") | {"teid": f"{bearer_of(gateway_of(world, entry), entry['bearer']):08x}"}
    else:
        yield entry


# Names for numbers.


def session_name(gateway: Gateway, teid: int) -> Json | None:
    """The name of a session, if it finds it."""
    session = gateway.sessions.get(teid)
    name = session and {"imsi": session.imsi, "apn": session.apn}
    return name if name and session_of(gateway, name) == teid else None


def bearer_name(gateway: Gateway, teid: int) -> Json | None:
    bearer = gateway.bearers.get(teid)
    session = bearer and bearer.identity and session_name(gateway, bearer.session)
    name = session and session | {"ebi": bearer.identity}
    return name if name and bearer_of(gateway, name) == teid else None


def named(world: World, entry: Json) -> Json:
    """The entry with a name in place of its number, where a name finds it."""
    if entry["do"] == "deliver":
        return without(entry, "datagram") if entry["datagram"] == len(world.datagrams) - 1 else entry
    if "teid" not in entry:
        return entry
    key, name_of = ("bearer", bearer_name) if entry["do"] in ("send", "end_marker") else ("session", session_name)
    name = name_of(gateway_of(world, entry), int(entry["teid"], 16))
    return without(entry, "teid") | {key: name} if name else entry
