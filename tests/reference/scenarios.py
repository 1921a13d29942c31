"""Random scenarios: a number always gives the same one. What happens next is chosen by what stands, so that most
datagrams come at once and in order, and the others late, repeated, cut or never."""

from __future__ import annotations

from collections.abc import Callable, Iterator, Mapping
from random import Random

from gateways import ACTIVE, PACKET, SERVING, Bearer, Json, Session, has_two, last_message
from setups import SWITCHES
from world import World


def networks(rng: Random) -> Json:
    """A pool of version 6: far from a carry, just before one, or up to the last network."""
    count = rng.randint(0, 3)
    first = rng.choice([0x20010DB800000000, 0x20010DB8FFFFFFFF, 0xFFFFFFFE, 2**64 - max(count, 1)])
    return {"pool6": f"{first:016x}" + rng.choice(["0000000000000001", "f" * 16]), "count6": count}


def templates(rng: Random) -> Json:
    """Mostly of one access point, else of both, of none, or twice of one, where the last counts."""
    names = rng.choice([["internet"], ["internet"], ["ims.example"], ["internet", "ims.example"], [], ["internet"] * 2])
    return {"templates": [{"apn": name, "tft": rng.choice(["21", "21", "", "210a0b", "ff" * 255])} for name in names]}


def head(rng: Random) -> Json:
    addresses = {"control": "10.0.0.1", "user": "10.0.0.3"}, {"control": "10.0.0.2", "user": "10.0.0.4"}
    serving, packet = (dict(a, counter=rng.choice([0, 1, 7, 254, 255])) for a in addresses)
    packet |= {"apns": ["internet", "ims.example"], "pool": "10.1.0.254", "count": rng.choice([0, 1, 2, 3, 5])}
    packet |= networks(rng) if rng.random() < 0.5 else {}
    packet |= templates(rng) if rng.random() < 0.6 else {}
    for gateway in serving, packet:
        gateway |= {"switches": rng.sample(SWITCHES, rng.randint(0, 2))} if rng.random() < 0.5 else {}
    timers = {"t3": rng.randint(1, 4), "n3": rng.randint(0, 3), "hold": rng.randint(1, 20)}
    return {"serving": serving, "packet": packet, "events": []} | (timers if rng.random() < 0.8 else {})


def teid(rng: Random, contexts: Mapping[int, Session | Bearer]) -> str:
    """Mostly one that is active, else any that stands, and seldom one at all."""
    active = [t for t, context in contexts.items() if context.state == ACTIVE]
    known = active if active and rng.random() < 0.8 else list(contexts)
    if known and rng.random() < 0.95:
        return f"{rng.choice(known):08x}"
    return f"{rng.randint(0, 3) << 24 | rng.randint(0, 6):08x}"


def written(rng: Random, apn: str) -> str:
    """Mostly as it is, else in capitals or with an operator identifier behind it, or what is nearly one."""
    if rng.random() < 0.8:
        return apn
    behind = rng.choice(["", ".mnc001.mcc001.gprs", ".mnc901.mcc70.gprs", ".mnc26.mcc262.gprs"])
    return rng.choice([str.upper, str.title, str])(apn + behind)


def create_session(rng: Random, world: World) -> Json:
    event = {"imsi": rng.choice(["001010123456789", "262019876543", "123456"])}
    event |= {"apn": written(rng, rng.choice(["internet"] * 6 + ["ims.example"] * 2 + ["other"])), "ebi": rng.randint(5, 15)}
    return event | ({"pdn": rng.choice([1, 2, 2, 3, 3, 3, rng.randint(0, 7)])} if rng.random() < 0.5 else {})


def of_session(role: str) -> Callable[[Random, World], Json]:
    return lambda rng, world: {"teid": teid(rng, world.gateways[role].sessions)}


def create_bearer(rng: Random, world: World) -> Json:
    return of_session(PACKET)(rng, world) | {"tft": rng.choice(["21", "", "210a0b"])}


def delete_bearer(rng: Random, world: World) -> Json:
    dedicated = [b for b in world.gateways[PACKET].bearers.values() if b.identity and not b.default]
    if dedicated and rng.random() < 0.8:
        bearer = rng.choice(dedicated)
        return {"teid": f"{bearer.session:08x}", "ebi": bearer.identity}
    return of_session(PACKET)(rng, world) | {"ebi": rng.randint(5, 15)}


def end_marker(rng: Random, world: World) -> Json:
    return {"teid": teid(rng, world.gateways[PACKET].bearers)}


def at_node(rng: Random, world: World) -> Json:
    return {"node": rng.choice([SERVING, PACKET])}


def tick(rng: Random, world: World) -> Json:
    return at_node(rng, world) | {"times": rng.randint(1, 6)}


def send(rng: Random, world: World) -> Json:
    node = rng.choice([SERVING, PACKET])
    payload = rng.choice(["", "00", "616263", "ff" * 40])
    return {"node": node, "teid": teid(rng, world.gateways[node].bearers), "payload": payload}


def deliver(rng: Random, world: World) -> Json:
    count = len(world.datagrams)
    recent = max(0, count - rng.choice([1, 1, 1, 1, 1, 2, 3, 8]))
    return {"datagram": rng.choice([recent] * 12 + [rng.randint(0, count), rng.randint(0, max(0, count - 1))])}


def cut(rng: Random, world: World) -> Json:
    count = len(world.datagrams)
    return {"datagram": rng.randint(0, count), "length": rng.randint(0, 220)}


EVENTS = {
    create_session: 12,
    deliver: 60,
    send: 12,
    tick: 8,
    create_bearer: 8,
    delete_bearer: 3,
    end_marker: 3,
    at_node: 2,
    cut: 2,
}


# Events in a row that random choice alone hardly ever makes.


def delivery(number: int) -> Json:
    return {"do": "deliver", "datagram": number}


def last_number(world: World) -> int:
    """The number of the datagram that was sent last."""
    return max(0, len(world.datagrams) - 1)


def newest(world: World) -> Json:
    return delivery(last_number(world))


def more_bearers_than_identities(rng: Random, world: World) -> Iterator[Json]:
    session = of_session(PACKET)(rng, world)
    for _ in range(12):
        yield {"do": "create_bearer"} | session | {"tft": "21"}
        yield newest(world)
        yield newest(world)


def more_requests_than_can_wait(rng: Random, world: World) -> Iterator[Json]:
    node = at_node(rng, world)
    for _ in range(257):
        yield {"do": "echo"} | node


def more_restarts_than_can_be(rng: Random, world: World) -> Iterator[Json]:
    node = at_node(rng, world)
    for _ in range(128):
        yield {"do": "restart"} | node


def payload_too_long(rng: Random, world: World) -> Iterator[Json]:
    yield {"do": "send"} | send(rng, world) | {"payload": "00" * 65001}


def user_datagrams_cut(rng: Random, world: World) -> Iterator[Json]:
    for number, (_, plane, octets) in enumerate(world.datagrams):
        if plane == "user":
            yield {"do": "cut", "datagram": number, "length": rng.randint(0, len(octets))}


def pairs_cut(rng: Random, world: World) -> Iterator[Json]:
    """Each pair is cut somewhere, and about where its second message begins."""
    for number, (_, plane, octets) in enumerate(world.datagrams):
        if plane == "control" and has_two(octets):
            begins = len(octets) - len(last_message(octets))
            for length in rng.randint(0, len(octets)), begins + rng.randint(-1, 5):
                yield {"do": "cut", "datagram": number, "length": length}


def ticks(node: str, times: int) -> Json:
    return {"do": "tick", "node": node, "times": times}


def answer_to_new_session(rng: Random, world: World) -> Iterator[Json]:
    yield {"do": "create_session"} | create_session(rng, world)
    yield newest(world)


def pair_again(rng: Random, world: World) -> Iterator[Json]:
    """A pair, the request in it alone, when it is sent again, and the pair again."""
    yield from answer_to_new_session(rng, world)
    pair, setup = last_number(world), world.setups[SERVING]
    if rng.random() < 0.8:
        yield delivery(pair)
    yield ticks(SERVING, rng.randint(1, setup.hold))
    yield ticks(PACKET, setup.t3)
    yield newest(world)
    yield delivery(pair)


def pair_of_earlier_start(rng: Random, world: World) -> Iterator[Json]:
    """A pair comes when the serving gateway has heard of the packet gateway's restart."""
    yield from answer_to_new_session(rng, world)
    pair = last_number(world)
    yield {"do": "restart", "node": PACKET}
    yield {"do": "echo", "node": PACKET} if rng.random() < 0.5 else delivery(max(0, pair - 1))
    yield newest(world)
    yield delivery(pair)


def session_while_most_requests_wait(rng: Random, world: World) -> Iterator[Json]:
    """No further request has room, unless the restart of the serving gateway ends one of those that wait."""
    yield {"do": "create_bearer"} | create_bearer(rng, world)
    for _ in range(256):
        yield {"do": "echo", "node": PACKET}
    if rng.random() < 0.5:
        yield {"do": "restart", "node": SERVING}
    yield from answer_to_new_session(rng, world)
    yield newest(world)


ROWS = [
    more_bearers_than_identities,
    more_requests_than_can_wait,
    more_restarts_than_can_be,
    payload_too_long,
    user_datagrams_cut,
    pairs_cut,
    pair_again,
    pair_of_earlier_start,
    session_while_most_requests_wait,
]


def random_events(rng: Random, world: World) -> Iterator[Json]:
    """Mostly one event, and seldom a row of them. Each is chosen after the one before it has happened."""
    if rng.random() < 0.995:
        yield random_event(rng, world)
    else:
        yield from rng.choice(ROWS)(rng, world)


def random_event(rng: Random, world: World) -> Json:
    make = rng.choices(list(EVENTS), EVENTS.values())[0]
    name = make.__name__
    if make is at_node:
        name = rng.choice(["echo", "restart"])
    if rng.random() < 0.03:
        role, name = rng.choice([(SERVING, "delete_session"), (PACKET, "release_session")])
        make = of_session(role)
    return {"do": name} | make(rng, world)


def scenario(number: int) -> Json:
    rng = Random(number)
    made = head(rng)
    world = World(made)
    for _ in range(rng.choice([20, 60, 200])):
        for event in random_events(rng, world):
            for _ in range(event.get("times", 1)):
                told = world.step(event)
            if rng.random() < 0.9:
                event["expect"] = told.outcome.split()[0]
            made["events"].append(event)
    return made
