"""Scenarios that are not kept, since they are long or only other scenarios with a bearer at once. Each says of its events
what they have to come to."""

from __future__ import annotations

from collections.abc import Iterable, Iterator
from dataclasses import dataclass

# An object of JSON.
Json = dict


@dataclass
class Made:
    """A scenario, and the exit status of its replay."""

    name: str
    scenario: Json
    status: int = 0


def head() -> Json:
    own = {"control": "10.0.0.1", "user": "10.0.0.1", "counter": 1}
    peer = {"control": "10.0.0.2", "user": "10.0.0.2", "counter": 1}
    return {"serving": own, "packet": {**peer, "apns": ["internet"], "pool": "10.1.0.1", "count": 10}}


def made(name: str, *parts: Iterable[Json], status: int = 0, **others: object) -> Made:
    """A scenario of these events. Its head has these other values."""
    return Made(name, {**head(), **others, "events": [event for part in parts for event in part]}, status)


def with_template() -> Json:
    """The packet gateway's head, where each session gets a bearer at once."""
    return {**head()["packet"], "templates": [{"apn": "internet", "tft": "21"}]}


def deliver(number: int, expect: str) -> Json:
    return {"do": "deliver", "datagram": number, "expect": expect}


def ticks(node: str, times: int) -> Json:
    return {"do": "tick", "node": node, "times": times, "expect": "ticked"}


CREATE = {"do": "create_session", "imsi": "001010123456789", "apn": "internet", "ebi": 5}
OPENED = [{**CREATE, "expect": "begun"}, deliver(0, "answered"), deliver(1, "opened")]
ECHO_OF_SERVING = {"do": "echo", "node": "serving", "expect": "begun"}
ECHO_OF_PACKET = {"do": "echo", "node": "packet", "expect": "begun"}


def refused(event: Json, code: str) -> Json:
    return {**event, "expect": code}


NONE_MORE = [
    refused(ECHO_OF_SERVING, "G4"),
    refused(ECHO_OF_PACKET, "G4"),
    refused(CREATE, "G4"),
    {"do": "delete_session", "teid": "01000001", "expect": "G4"},
    {"do": "create_bearer", "teid": "01000001", "tft": "21", "expect": "G4"},
    {"do": "release_session", "teid": "01000001", "expect": "G4"},
    {"do": "delete_session", "teid": "01000009", "expect": "G1"},
]


def most_pending() -> Made:
    """256 requests are pending at each gateway, and one more is refused (G4 B1). One answer, to the serving gateway's
    first Echo Request, makes room for one request, with the next number. In the 3rd, 6th and 9th tick of the packet
    gateway all of its requests are sent again; in the 12th all are given up, and the next one has the next number."""
    answered = [deliver(2, "echoed"), deliver(2 + 512, "alive")]
    given_up = [ticks("packet", 2), ticks("packet", 1)] * 4
    return made(
        "256 requests are pending",
        OPENED,
        [ECHO_OF_SERVING] * 256,
        [ECHO_OF_PACKET] * 256,
        NONE_MORE,
        answered,
        [ECHO_OF_SERVING, refused(CREATE, "G4")],
        given_up,
        [ECHO_OF_PACKET],
    )


def mixed(first: int) -> Iterator[Json]:
    """Ten events, of which the first sends the datagram of this number: a packet each way, an Echo path, a tick, and
    what cannot happen."""
    send = {"do": "send", "teid": "01000002", "expect": "sent"}
    yield {**send, "node": "serving", "payload": "616263"}
    yield deliver(first, "accepted")
    yield {**send, "node": "packet", "payload": "646566"}
    yield deliver(first + 1, "accepted")
    yield ECHO_OF_SERVING
    yield deliver(first + 2, "echoed")
    yield deliver(first + 3, "alive")
    yield ticks("serving", 1)
    yield deliver(18446744073709551615, "N1")
    yield {"do": "end_marker", "teid": "01000009", "expect": "G1"}


def ten_thousand_events() -> Made:
    return made("10,000 mixed events", OPENED, *(mixed(2 + 4 * time) for time in range(1000)))


def asked(first: int, pdn: int, *expect: str) -> Iterator[Json]:
    """A session of this PDN type is asked for, by the datagram with this number; what that and the answer come to."""
    yield {**CREATE, "pdn": pdn, "expect": "begun"}
    yield from (deliver(number, word) for number, word in enumerate(expect, first))


def given_up(times: Iterable[int]) -> Iterator[Json]:
    """Sessions at the packet gateway alone. The serving gateway gets no answer, and gives its requests up in one tick."""
    for time in times:
        yield from asked(2 * time, 3 if time == 0 else 1, "answered")
    yield ticks("serving", 1)


def most_sessions() -> Made:
    """The packet gateway has 1,000 sessions, which have all of its addresses, the first one the only one of version 6. One
    more is refused with cause 83 if it is of type 7. If not, it is refused with cause 73, which comes before cause 84.
    When a session has been released, its address is given again."""
    rounds = [given_up(range(first, first + 250)) for first in range(0, 1000, 250)]
    more = [asked(2000 + 2 * time, pdn, "answered", "rejected") for time, pdn in enumerate([1, 2, 3, 7])]
    release = {"do": "release_session", "teid": "01000001", "expect": "begun"}
    return made(
        "1,000 sessions",
        *rounds,
        *more,
        [release, deliver(2008, "answered"), deliver(2009, "closed")],
        asked(2010, 3, "answered", "opened"),
        packet={**head()["packet"], "count": 1000, "pool6": "20010db8000000000000000000000001", "count6": 1},
        t3=1,
        n3=0,
    )


def most_pending_with_template() -> Made:
    """While 256 requests are pending at the packet gateway, a session gets no bearer of the template. When one has been
    answered the next session gets one, and its request is the 256th again, so that the third session gets none. The
    restart of the serving gateway ends that request, so that the next session gets a bearer."""
    answered = [deliver(0, "echoed"), deliver(258, "alive")]
    restart = {"do": "restart", "node": "serving", "expect": "restarted"}
    return made(
        "256 requests are pending, and sessions get a bearer at once",
        [ECHO_OF_PACKET] * 256,
        asked(256, 1, "answered", "opened"),
        answered,
        asked(259, 1, "answered", "opened"),
        asked(262, 1, "answered", "opened"),
        [restart],
        asked(264, 1, "answered", "opened", "opened"),
        packet=with_template(),
    )


FIRST6 = "20010db8000000000000000000000001"
LAST6 = "ffffffffffffffffffffffffffffffff"
CARRY6 = "20010db8ffffffff00000000000000ff"


def given(first: int, pdn: int) -> Iterator[Json]:
    """A session that is granted, with a bearer at once: three datagrams."""
    return asked(first, pdn, "answered", "opened", "opened")


def deleted(first: int) -> Iterator[Json]:
    """The first session is deleted, by the datagram with this number."""
    yield {"do": "delete_session", "teid": "01000001", "expect": "begun"}
    yield deliver(first, "answered")
    yield deliver(first + 1, "closed")


def versions_with_template() -> list[Made]:
    """Sessions of each IP version that get a bearer at once, and those that get no address and so no bearer."""

    def case(name: str, count: int, networks: Json, *parts: Iterable[Json]) -> Made:
        return made(f"sessions with a bearer at once: {name}", *parts, packet={**with_template(), "count": count, **networks})

    def pool6(count: int, first: str = FIRST6) -> Json:
        return {"pool6": first, "count6": count}

    none = ["answered", "rejected"]
    return [
        case("no address of either version", 0, pool6(0), asked(0, 3, *none)),
        case("no further address of version 6", 10, pool6(1), given(0, 2), asked(3, 2, *none)),
        case("no pool of version 6", 10, {}, asked(0, 2, *none), given(2, 3)),
        case("both parts are given again", 1, pool6(1), given(0, 3), deleted(3), given(5, 3)),
        case("parts are given again apart", 10, pool6(10), given(0, 3), given(3, 1), deleted(6), given(8, 2), given(11, 3)),
        case("networks past a carry", 10, pool6(10, CARRY6), given(0, 2), given(3, 2)),
        case("the last network", 10, pool6(1, LAST6), given(0, 2)),
    ]


def bearer_asked(first: int, answer: str) -> Iterator[Json]:
    """A dedicated bearer is asked for, by the datagram with this number; what the answer comes to."""
    yield {"do": "create_bearer", "teid": "01000001", "tft": "21", "expect": "begun"}
    yield deliver(first, "answered")
    yield deliver(first + 1, answer)


def most_held(name: str, expected: Json, status: int) -> Made:
    """The serving gateway holds 4,096 answers: to the request of a pair, to nine more for which the session has room,
    and to those that it refuses. Of the next pair, which is expected so, it takes the first message and drops the second
    (X8), and when that request is sent again alone it drops it too."""
    more = [bearer_asked(3 + 2 * time, "opened" if time < 9 else "rejected") for time in range(4095)]
    again = [ticks("packet", 3), deliver(8195, "X8")]
    return made(
        name,
        OPENED,
        [deliver(2, "opened")],
        *more,
        asked(8193, 1, "answered"),
        [{"do": "deliver", "datagram": 8194, **expected}],
        again,
        packet=with_template(),
        status=status,
    )


def scenarios() -> list[Made]:
    return [
        most_pending(),
        most_pending_with_template(),
        most_held("4,096 answers are held, and the first outcome is expected", {"expect": "opened"}, 0),
        most_held("4,096 answers are held, and nothing is expected", {}, 1),
        ten_thousand_events(),
        most_sessions(),
        *versions_with_template(),
    ]
