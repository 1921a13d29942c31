"""Frames with datagrams: UDP, IPv4, IPv6 and several kinds of link, by the figures of RFC 768, 791 and 8200; what a pcap file is made of;
and frames at random."""

from __future__ import annotations

import dataclasses
import struct
from random import Random

from cases import PLANES, digits_of, worked

TAGS = [0x8100, 0x88A8, 0x9100]
TYPES = {4: 0x0800, 6: 0x86DD}
FAMILIES = {4: [2], 6: [24, 28, 30]}
# The kinds of link that captures at random have: 147 is none that carries IP, 1 and 101 are the common ones.
LINKS = [1, 1, 101, 12, 14, 113, 276, 0, 108, 228, 229, 147]
PORTS = [(2123, 2123), (40000, 2123), (2123, 50000), (2152, 2152), (2152, 60001), (60001, 2152), (2123, 2152),
         (2152, 2123), (53, 1053), (2124, 2153)]
MAGIC = {"microseconds": 0xA1B2C3D4, "nanoseconds": 0xA1B23C4D}


def udp_of(ports: tuple[int, int], octets: bytes, checksum: int = 0) -> bytes:
    """A user datagram."""
    return struct.pack(">HHHH", *ports, 8 + len(octets), checksum) + octets


def ipv4_of(source: bytes, destination: bytes, inside: bytes, number: int = 0, fragment: int = 0, protocol: int = 17,
            options: bytes = b"") -> bytes:
    """A packet of IPv4: its number, and its flags with the offset of a fragment."""
    words = 5 + len(options) // 4
    head = struct.pack(">BBHHHBBH", 0x40 + words, 0, 4 * words + len(inside), number, fragment, 64, protocol, 0)
    return head + source + destination + options + inside


def pcap_head(link: int, order: str = "<", unit: str = "microseconds") -> bytes:
    """What a pcap file begins with."""
    return struct.pack(order + "IHHiIII", MAGIC[unit], 2, 4, 0, 0, 262144, link)


def pcap_record(frame: bytes, seconds: int, fraction: int = 0, order: str = "<", held: int | None = None) -> bytes:
    """A record of a pcap file, which holds all octets of a frame, or so many."""
    held = len(frame) if held is None else held
    return struct.pack(order + "IIII", seconds, fraction, held, len(frame)) + frame[:held]


@dataclasses.dataclass
class Datagram:
    """A datagram that a frame carries, or its first fragment: its ends, and the octets that are carried."""
    source: bytes
    source_port: int
    destination: bytes
    destination_port: int
    octets: bytes
    is_fragment: bool = False


@dataclasses.dataclass
class Frame:
    """The octets of a frame, and the datagram that it carries for GTP, if it carries one: that begins at a place."""
    octets: bytes
    datagram: Datagram | None
    place: int = 0


class Maker:
    """Makes frames at random."""

    def __init__(self, seed: int) -> None:
        self.random = Random(seed)
        self.worked = [bytes.fromhex(digits_of(file)) for plane in PLANES for file in worked(plane)]

    def octets(self, count: int) -> bytes:
        return self.random.randbytes(count)

    def payload(self) -> bytes:
        """Octets of a user datagram: a worked datagram, or one that is cut or changed, or any octets."""
        octets = bytearray(self.random.choice(self.worked))
        form = self.random.randrange(4)
        if form == 1:
            del octets[self.random.randrange(len(octets) + 1):]
        if form == 2 and octets:
            octets[self.random.randrange(len(octets))] = self.random.randrange(256)
        return bytes(octets) if form < 3 else self.octets(self.random.choice([0, 1, 8, 200]))

    def udp(self, source: bytes, destination: bytes) -> tuple[bytes, Datagram | None]:
        """A user datagram between two addresses, and what it is for GTP: one of its ports is 2123 or 2152."""
        ports = self.random.choice(PORTS)
        octets = self.payload()
        datagram = Datagram(source, ports[0], destination, ports[1], octets)
        known = datagram if {2123, 2152} & set(ports) else None
        return udp_of(ports, octets, self.random.randrange(65536)), known

    def first_fragment(self, inside: bytes, datagram: Datagram | None) -> tuple[bytes, Datagram | None]:
        """The first octets of a user datagram, maybe all, and what a fragment of these shows: nothing without its head."""
        held = self.random.choice([len(inside), self.random.randrange(len(inside) + 1), self.random.randrange(8)])
        if datagram is None or held < 8:
            return inside[:held], None
        return inside[:held], dataclasses.replace(datagram, octets=inside[8:held], is_fragment=True)

    def version_4(self) -> tuple[bytes, Datagram | None]:
        """A packet of IPv4, and its datagram: none in a later fragment or beside another protocol."""
        source, destination = self.octets(4), self.octets(4)
        inside, datagram = self.udp(source, destination)
        words = self.random.choice([5, 5, 5, 6, 15])
        fragment = self.random.choice([0, 0, 0, 0x4000, 0x2000, 0x2000, 0x6000, 0xA000, 0x0010, 0x2010, 0x1000, 0x3FFF])
        protocol = self.random.choice([17, 17, 17, 17, 6])
        if fragment & 0x2000:
            inside, datagram = self.first_fragment(inside, datagram)
        if fragment & 0x1FFF or protocol != 17:
            datagram = None
        number, options = self.random.randrange(65536), b"\1" * (4 * words - 20)
        return ipv4_of(source, destination, inside, number, fragment, protocol, options), datagram

    def version_6(self) -> tuple[bytes, Datagram | None]:
        """A packet of IPv6 with up to three headers before what it carries, and its datagram: none in a later fragment or
        beside another protocol."""
        source, destination = self.octets(16), self.octets(16)
        inside, datagram = self.udp(source, destination)
        last = self.random.choice([17, 17, 17, 17, 6, 51])
        kinds = [self.random.choice([0, 43, 60, 44, 44]) for _ in range(self.random.choice([0, 0, 1, 2, 3]))] + [last]
        # The offset, thirteen bits, two bits that do not count, and whether more fragments follow.
        places = {at: self.random.choice([0, 6, 1, 1, 7, 8, 9, 0x8001]) for at, kind in enumerate(kinds) if kind == 44}
        if any(place & 1 for place in places.values()):
            inside, datagram = self.first_fragment(inside, datagram)
        if last != 17 or any(place >> 3 for place in places.values()):
            datagram = None
        for at in reversed(range(len(kinds) - 1)):
            if kinds[at] == 44:
                inside = struct.pack(">BBH", kinds[at + 1], self.random.randrange(256), places[at]) + self.octets(4) + inside
                continue
            size = 8 * self.random.choice([0, 1, 2]) + 6
            # A routing header for experiments (RFC 4727) with no segment left, or one option of padding (PadN).
            content = bytes([253, 0]) + bytes(size - 2) if kinds[at] == 43 else bytes([1, size - 2]) + bytes(size - 2)
            inside = bytes([kinds[at + 1], size // 8]) + content + inside
        return struct.pack(">IHBB", 0x60000000, len(inside), kinds[0], 64) + source + destination + inside, datagram

    def packet(self, version: int | None = None) -> tuple[int, bytes, Datagram | None]:
        version = version or self.random.choice([4, 4, 6])
        octets, datagram = self.version_4() if version == 4 else self.version_6()
        return version, octets, datagram

    def before(self, link: int, version: int) -> bytes:
        """What stands in a frame of a link before a packet of this version."""
        kind = TYPES[version]
        if link == 1:
            tags = b"".join(struct.pack(">HH", self.random.choice(TAGS), self.random.randrange(4096))
                            for _ in range(self.random.choice([0, 0, 0, 1, 2, 3])))
            return self.octets(12) + tags + struct.pack(">H", kind)
        if link == 113:
            return struct.pack(">HHH", 0, 1, 6) + self.octets(8) + struct.pack(">H", kind)
        if link == 276:
            return struct.pack(">HHIHBB", kind, 0, 1, 1, 0, 6) + self.octets(8)
        if link in (0, 108):
            order = ">" if link == 108 else self.random.choice("<>")
            return struct.pack(order + "I", self.random.choice(FAMILIES[version]))
        return b""

    def frame(self, link: int) -> Frame:
        version, packet, datagram = self.packet({228: 4, 229: 6}.get(link))
        before = self.before(link, version)
        padding = self.octets(self.random.choice([0, 0, 6]))
        place = len(before) + len(packet) - len(datagram.octets) if datagram else 0
        return Frame(before + packet + padding, datagram, place)
