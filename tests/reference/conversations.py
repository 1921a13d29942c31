"""Random conversations with one gateway, friendly and hostile: commands, ticks, messages of its peer, the same with octets changed,
cut, added or sent from elsewhere, messages of every kind that fit no request, pairs, and user datagrams of every form."""

from __future__ import annotations

from random import Random

from decoding import ROWS
from gateways import (APN, BOTH, CAUSE, CHARGING_ID, CONTEXT, CREATE_BEARER, CREATE_SESSION, DELETE_BEARER, DELETE_SESSION, EBI, FTEID,
                      IMSI, IPV4, IPV6, PACKET, PDN_TYPE, QUALITY, RAT, RATES, RECOVERY, REQUESTS, S5S8_PGW_GTP_C, S5S8_PGW_GTP_U,
                      S5S8_SGW_GTP_C, S5S8_SGW_GTP_U, SELECTION, SERVING, SERVING_NETWORK, TFT, Address, Json, allocation, announced,
                      cause_of, control, element, end_of, error_indication, name_of, number_of, packed, user)
from scenarios import written
from served import answer, station
from setups import SWITCHES, octets_of, other

V4, V6 = {SERVING: "10.0.0.1", PACKET: "10.0.0.2"}, {SERVING: "20010db8" + 22 * "0" + "01", PACKET: "20010db8" + 22 * "0" + "02"}
NAMES = ["internet", "ims", "a.b"]


def head(rng: Random) -> Json:
    """A gateway: small pools, short times, ends of either version."""
    role = rng.choice([SERVING, PACKET])
    ends = rng.choice([V4, V4, V6])
    own, peer = ends[role], ends[other(role)]
    said = {"role": role, "control": own, "user": own, "peer": {"control": peer, "user": peer},
            "counter": rng.choice([0, 1, 128, 255]), "t3": rng.randint(1, 4), "n3": rng.randint(0, 2), "hold": rng.randint(1, 12)}
    if role == PACKET:
        said |= {"apns": rng.sample(NAMES, rng.randint(1, 3)), "pool": "10.1.0.1", "count": rng.choice([0, 1, 3, 50])}
        if rng.random() < 0.6:
            said |= {"pool6": "20010db8" + 22 * "0" + "10", "count6": rng.choice([0, 1, 3])}
        if rng.random() < 0.5:
            said["templates"] = [{"apn": said["apns"][0], "tft": "2110"}]
    if rng.random() < 0.5:
        said["switches"] = rng.sample(SWITCHES, rng.randint(0, 2))
    return said


class Conversation:
    def __init__(self, number: int, said: Json | None = None) -> None:
        self.rng = Random(number)
        self.head = said or head(self.rng)
        self.gateway = station(self.head)
        self.requests: list[Json] = []
        self.answers: list[Json] = []
        self.sent: list[tuple[str, bytes, str, int]] = []  # what came from the peer: plane, octets, address and port
        self.counter = self.rng.choice([1, 127, 255])
        # In half of them the peer's sequence numbers pass 2^24 - 1.
        self.number = self.rng.choice([(1 << 24) - 5, self.rng.randrange(1 << 24)])

    @property
    def role(self) -> str:
        return self.gateway.setup.role

    def any_line(self) -> Json:
        kinds = [self.command] * 4 + [self.friendly] * 8 + [self.response] * 5 + [self.mutated] * 5 + [self.repeated] * 2
        kinds += [self.user_datagram] * 4 + [self.noise, self.other_version, self.pair, self.quiet, self.quiet]
        return self.rng.choice(kinds)()

    def run(self, length: int) -> tuple[Json, list[Json], list[Json]]:
        for _ in range(length):
            self.do(self.any_line())
        self.do({"do": "contexts"})
        return self.head, self.requests, self.answers

    def do(self, request: Json) -> None:
        self.requests.append(request)
        self.answers.append(answer(self.gateway, request))

    # Values.

    def session(self) -> int:
        known = [*self.gateway.sessions] * 3 + [0, 1, self.rng.randrange(1 << 32)]
        return self.rng.choice(known)

    def bearer(self) -> int:
        known = [*self.gateway.bearers] * 3 + [0, self.rng.randrange(1 << 32)]
        return self.rng.choice(known)

    def next_number(self) -> int:
        self.number = (self.number + 1) % (1 << 24)
        return self.number

    def recovery(self) -> bytes:
        """Mostly the counter that is known; a restart now and then, and sometimes an earlier one."""
        if self.rng.random() < 0.02:
            self.counter = (self.counter + 1) % 256
        counter = (self.counter - 1) % 256 if self.rng.random() < 0.03 else self.counter
        return b"" if self.rng.random() < 0.2 else number_of(RECOVERY, counter)

    def identity(self) -> int:
        return self.rng.choice([5, 5, 5, 6, 7, 15, 4, 0])

    def peer_end(self, instance: int, interface: int) -> bytes:
        """An F-TEID of the peer, of one address or of both."""
        teid = self.rng.choice([1, 2, 3, self.rng.randrange(1 << 32)])
        body = end_of(instance, interface, teid, octets_of(V4[other(self.role)]))
        if self.rng.random() < 0.1:
            both = bytes([192 | interface]) + teid.to_bytes(4, "big") + bytes(20)
            body = element(FTEID, instance, both + bytes(self.rng.randint(0, 2)))
        return body

    def shuffled(self, *rows: bytes) -> bytes:
        """Elements in their order or in another, some missing, some twice, and some that nobody knows."""
        rows = [row for row in rows if self.rng.random() > 0.02]
        if self.rng.random() < 0.1:
            kind, instance = self.rng.choice([200, 255, EBI, CAUSE]), self.rng.randrange(16)
            rows.append(element(kind, instance, self.rng.randbytes(self.rng.randint(0, 5))))
        if self.rng.random() < 0.1:
            self.rng.shuffle(rows)
        if self.rng.random() < 0.05 and rows:
            rows.append(self.rng.choice(rows))
        return b"".join(rows)

    def allocation(self, pdn: int) -> bytes:
        v4 = self.rng.randbytes(4) if pdn != IPV6 else None
        v6 = self.rng.randbytes(16) if pdn in (IPV6, BOTH) else None
        return allocation(Address(v4, v6), self.rng.choice([0, 64, 128]))

    # Requests of the peer.

    def session_asked(self) -> bytes:
        identity, pdn = self.identity(), self.rng.choice([IPV4, IPV4, IPV6, BOTH, 0, 5])
        context = element(CONTEXT, 0, self.shuffled(number_of(EBI, identity), QUALITY, self.peer_end(2, S5S8_SGW_GTP_U)))
        contexts = context * (2 if self.rng.random() < 0.05 else 1)
        imsi = "".join(self.rng.choice("0123456789") for _ in range(self.rng.choice([6, 14, 15, 15])))
        name = written(self.rng, self.rng.choice(NAMES + ["other"]))
        return control(CREATE_SESSION, self.rng.choice([0, 0, 7]), self.next_number(), self.shuffled(
            element(IMSI, 0, packed(imsi)), number_of(RAT, 6), element(SERVING_NETWORK, 0, bytes.fromhex("00f110")),
            self.peer_end(0, S5S8_SGW_GTP_C), element(APN, 0, name_of(name)), number_of(SELECTION, 0), number_of(PDN_TYPE, pdn),
            self.allocation(IPV4), RATES, contexts, self.recovery()))

    def session_deleted(self) -> bytes:
        session = self.session()
        known = self.gateway.sessions.get(session)
        identity = known.identity if known and self.rng.random() < 0.8 else self.identity()
        return control(DELETE_SESSION, session, self.next_number(), self.shuffled(number_of(EBI, identity)))

    def bearer_asked(self) -> bytes:
        session = self.session()
        known = self.gateway.sessions.get(session)
        linked = known.identity if known and self.rng.random() < 0.9 else self.identity()
        template, charging = element(TFT, 0, self.rng.randbytes(3)), number_of(CHARGING_ID, 9, 4)
        rows = number_of(EBI, 0), template, self.peer_end(1, S5S8_PGW_GTP_U), QUALITY, charging
        contexts = element(CONTEXT, 0, self.shuffled(*rows)) * (2 if self.rng.random() < 0.05 else 1)
        return control(CREATE_BEARER, session, self.next_number(), self.shuffled(number_of(EBI, linked), contexts))

    def bearers_deleted(self) -> bytes:
        session = self.session()
        known = self.gateway.sessions.get(session)
        linked = known.identity if known else self.identity()
        some = b"".join(number_of(EBI, self.rng.randint(0, 15), instance=1) for _ in range(self.rng.choice([1, 1, 2, 3, 12])))
        rows = number_of(EBI, linked) if self.rng.random() < 0.3 else some
        return control(DELETE_BEARER, session, self.next_number(), self.shuffled(rows))

    def asked(self) -> bytes:
        """A request of the peer, or one that only this gateway could send."""
        mine, others = [self.bearer_asked, self.bearers_deleted], [self.session_asked, self.session_asked, self.session_deleted]
        likely, unlikely = (mine, others) if self.role == SERVING else (others, mine)
        if self.rng.random() < 0.1:
            return control(1, None, self.next_number(), self.recovery())
        return self.rng.choice(unlikely if self.rng.random() < 0.05 else likely)()

    # Responses.

    def cause(self) -> bytes:
        return cause_of(self.rng.choice([16, 16, 16, 16, 18, 64, 73, 0]))

    def answered(self) -> bytes:
        """A response to a request that waits, or to none."""
        rng, waiting = self.rng, self.gateway.pending
        pending = rng.choice(waiting) if waiting and rng.random() < 0.95 else None
        kind = pending.kind if pending and rng.random() < 0.95 else rng.choice([1, *REQUESTS])
        number = pending.number if pending else rng.randrange(1 << 24)
        session = pending.session if pending and pending.session is not None and rng.random() < 0.95 else rng.choice([0, 0, self.session()])
        known = self.gateway.sessions.get(session)
        identity = known.identity if known and rng.random() < 0.95 else self.identity()
        if kind == 1:
            return control(2, None, number, self.recovery())
        if kind == CREATE_SESSION:
            rows = number_of(EBI, identity), self.cause(), self.peer_end(2, S5S8_PGW_GTP_U), QUALITY, number_of(CHARGING_ID, 1, 4)
            contexts = element(CONTEXT, 0, self.shuffled(*rows)) * (2 if rng.random() < 0.05 else 1)
            rows = (self.cause(), self.peer_end(1, S5S8_PGW_GTP_C), self.allocation(rng.choice([IPV4, IPV6, BOTH])), RATES, contexts,
                    self.recovery())
        elif kind == CREATE_BEARER:
            bearer = pending.bearer if pending and pending.bearer is not None and rng.random() < 0.95 else self.bearer()
            mine = end_of(3, S5S8_PGW_GTP_U, bearer, octets_of(V4[self.role]))
            rows = number_of(EBI, rng.choice([6, 7, 8, 5, 0])), self.cause(), self.peer_end(2, S5S8_SGW_GTP_U), mine
            contexts = element(CONTEXT, 0, self.shuffled(*rows)) * (2 if rng.random() < 0.05 else 1)
            rows = self.cause(), contexts, self.recovery()
        elif kind == DELETE_SESSION:
            rows = self.cause(), self.recovery()
        else:
            context = element(CONTEXT, 0, self.shuffled(number_of(EBI, identity), self.cause()))
            rows = self.cause(), number_of(EBI, identity), context, self.recovery()
        return control(kind + 1, session, number, self.shuffled(*rows))

    # Lines.

    def received(self, plane: str, octets: bytes, address: str | None = None, port: int | None = None) -> Json:
        address = self.head["peer"][plane] if address is None else address
        port = port or self.rng.choice([2123, 2123, 2123, 40000])
        self.sent.append((plane, octets, address, port))
        return {"do": "receive", "plane": plane, "from": {"address": address, "port": port}, "octets": octets.hex()}

    def command(self) -> Json:
        rng = self.rng
        teid, bearer = f"{self.session():08x}", f"{self.bearer():08x}"
        commands = [
            {"do": "echo"},
            {"do": "send", "teid": bearer, "payload": rng.randbytes(rng.randint(0, 30)).hex()},
            {"do": "delete_session", "teid": teid},
            {"do": "release_session", "teid": teid},
            {"do": "create_bearer", "teid": teid, "tft": rng.randbytes(rng.choice([0, 3, 255])).hex()},
            {"do": "delete_bearer", "teid": teid, "ebi": rng.randint(5, 8)},
            {"do": "end_marker", "teid": bearer},
        ]
        imsi = f"00101{rng.randrange(10 ** 10):010}"
        sessions = {"do": "create_session", "imsi": imsi, "apn": rng.choice(NAMES), "ebi": rng.randint(5, 15)}
        if rng.random() < 0.5:
            sessions["pdn"] = rng.randint(0, 7)
        return rng.choice(commands + [sessions] * (6 if self.role == SERVING else 1))

    def friendly(self) -> Json:
        return self.received("control", self.asked())

    def response(self) -> Json:
        return self.received("control", self.answered())

    def mutated(self) -> Json:
        """A message with octets changed, cut, added, or from elsewhere."""
        rng = self.rng
        octets = bytearray(rng.choice([self.asked, self.answered])())
        for _ in range(rng.randint(1, 3)):
            place = rng.randrange(len(octets))
            octets[place] = rng.choice([0, 1, 255, octets[place] ^ 1 << rng.randrange(8), rng.randrange(256)])
        if rng.random() < 0.3:
            del octets[rng.randrange(len(octets)) :]
        if rng.random() < 0.1:
            octets += rng.randbytes(rng.randint(1, 5))
        if rng.random() < 0.5 and len(octets) >= 4:
            octets[2:4] = (len(octets) - 4).to_bytes(2, "big")
        address = rng.choice(["10.0.0.9", V6[SERVING], None, None, None])
        return self.received(rng.choice(["control"] * 9 + ["user"]), bytes(octets), address)

    def repeated(self) -> Json:
        """What came before, once more, from the same port or from another."""
        if not self.sent:
            return self.quiet()
        plane, octets, address, port = self.rng.choice(self.sent[-20:])
        return self.received(plane, octets, address, self.rng.choice([port, port, port, 40001]))

    def pair(self) -> Json:
        """Two messages in a datagram."""
        first = self.rng.choice([self.answered, self.answered, self.asked])()
        second = self.rng.choice([self.bearer_asked, self.bearer_asked, self.asked, lambda: b""])()
        octets = announced(first) + second
        if self.rng.random() < 0.2:
            octets = octets[: self.rng.randrange(len(octets))]
        return self.received("control", octets)

    def noise(self) -> Json:
        """A message of any type, whose list may be any octets."""
        rng = self.rng
        kind = rng.choice([*ROWS, 34, 35, 170, rng.randrange(256)])
        body = rng.randbytes(rng.randint(0, 12)) if rng.random() < 0.5 else self.recovery()
        octets = control(kind, rng.choice([None, 0, self.session()]), rng.randrange(1 << 24), body)
        return self.received("control", rng.choice([octets, rng.randbytes(rng.randint(0, 20))]))

    def other_version(self) -> Json:
        """A message of another version, and of few octets, or none."""
        rng = self.rng
        octets = control(rng.choice([1, 2, 3, 3, 16, rng.randrange(256)]), None, rng.randrange(1 << 24), self.recovery())
        octets = bytes([rng.choice([0, 0x30, 0x32, 0x60, 0xE0]) | octets[0] & 15]) + octets[1:]
        return self.received("control", octets[: rng.choice([len(octets), len(octets), rng.randrange(9)])])

    def user_datagram(self) -> Json:
        rng, teid = self.rng, self.bearer()
        named = rng.choice([b.remote for b in self.gateway.bearers.values() if b.remote is not None] or [1])
        error = error_indication(rng.choice([named, rng.randrange(1 << 32)]), octets_of(rng.choice([V4, V6])[other(self.role)]))
        chain = bytes([0, 7, 0, rng.choice([0, 64, 133, 192])])
        chain += rng.choice([b"", bytes([1, 9, 9, 0]), bytes([1, 9, 9, 32, 0]), bytes([0])])
        numbered = user(rng.choice([1, 255, 2, 31]), teid, bytes([0, 5, 0, 0]) + rng.choice([b"", bytes([14, 3]), bytes([141, 1, 64])]))
        octets = rng.choice([
            user(255, teid, rng.randbytes(rng.randint(0, 20))), user(255, teid, b"ip"), user(254, teid), error,
            bytes([0x34]) + user(255, teid, chain)[1:], bytes([0x32]) + numbered[1:], user(1, teid), user(rng.randrange(256), teid),
        ])
        if rng.random() < 0.2:
            changed = bytearray(octets)
            changed[rng.randrange(len(changed))] ^= 1 << rng.randrange(8)
            octets = bytes(changed[: rng.choice([len(changed), len(changed), rng.randrange(len(changed))])])
        return self.received("user", octets, rng.choice([None] * 9 + ["10.0.0.9"]), rng.choice([2152, 2152, 50000]))

    def quiet(self) -> Json:
        return self.rng.choice([{"do": "tick"}] * 5 + [{"do": "contexts"}])


def conversation(number: int, length: int = 150) -> tuple[Json, list[Json], list[Json]]:
    """A head, what is asked, and what is answered."""
    return Conversation(number).run(length)
