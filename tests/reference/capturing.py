"""Captures at random, pcap and pcapng, of frames whose datagrams are known: their octets, and what the program has to show of them in
each form."""

from __future__ import annotations

import copy
import dataclasses
import json
import struct

import heads
from cases import lines_of, ran
from named_elements import are_same
from frames import LINKS, MAGIC, Datagram, Frame, Maker, pcap_head, pcap_record
from setups import text_of

# An address and a port, as they are shown.
End = tuple[str, int]
# What is shown, the exit status, and the first line of standard error.
Outcome = tuple[list[str], int, str]


def shown(plane: str, octets: bytes) -> tuple[list[str], bool]:
    """What the program shows of one datagram, and whether it is a fault."""
    program = ran(["decode", *(["--user"] if plane == "user" else []), octets.hex()])
    return lines_of(program), program.returncode == 1


@dataclasses.dataclass
class Seen:
    """A datagram of a capture: its frame, time, and how many octets of it are held."""
    number: int
    time: str
    datagram: Datagram
    held: int

    @property
    def plane(self) -> str:
        return "control" if 2123 in (self.datagram.source_port, self.datagram.destination_port) else "user"

    def part(self) -> str:
        """What is told of one that is not whole."""
        if self.datagram.is_fragment:
            return "fragment"
        return f"cut {self.held} of {len(self.datagram.octets)}" if self.held < len(self.datagram.octets) else ""

    def ends(self) -> tuple[End, End]:
        it = self.datagram
        return (text_of(it.source), it.source_port), (text_of(it.destination), it.destination_port)

    def line(self) -> str:
        (source, source_port), (destination, destination_port) = self.ends()
        path = f"from {source} {source_port} to {destination} {destination_port}"
        return f"frame {self.number} time {self.time} {path} {self.plane} {self.part()}".rstrip()

    def plain(self) -> tuple[list[str], bool]:
        """Its lines, and whether they are a fault's."""
        lines, faulty = ([], False) if self.part() else shown(self.plane, self.datagram.octets)
        return [self.line()] + lines, faulty

    def brief(self, plain: list[str]) -> str:
        """Its line of --brief. The numbers in the line of a fault are those of the plain lines."""
        end = self.part()
        if not end:
            code = heads.fault_of(self.plane, self.datagram.octets)
            end = f"fault {code}" if code else heads.brief_end(self.plane, self.datagram.octets)
            end = plain[1] if plain[1].split()[:2] == end.split() else end
        (source, source_port), (destination, destination_port) = self.ends()
        return f"{self.number} {self.time} {source} {source_port} {destination} {destination_port} {end}"

    def json(self, of_datagram: str) -> str:
        """Its line of --json, by that of its datagram alone."""
        ends = [f'{{"address":"{address}","port":{port}}}' for address, port in self.ends()]
        front = f'{{"frame":{self.number},"time":"{self.time}","from":{ends[0]},"to":{ends[1]}'
        if not self.part():
            return f"{front},{of_datagram[1:]}"
        part = f'"cut":{{"held":{self.held},"of":{len(self.datagram.octets)}}}'
        return f'{front},"plane":"{self.plane}",{"" if self.datagram.is_fragment else part}' + (
            '"fragment":true}' if self.datagram.is_fragment else "}")


@dataclasses.dataclass
class Told:
    """What is to be shown of a record or block, whether it is a fault, whether it is a frame, and its datagram."""
    lines: list[str]
    faulty: bool = False
    is_frame: bool = False
    seen: Seen | None = None


def told_of(number: int, frame: Frame, link: int, held: int, seconds: int, fraction: int, digits: int) -> Told:
    """What is to be shown of a frame of which so many octets are held."""
    # A user datagram whose own head is not held carries nothing that could be told.
    datagram = frame.datagram if link != 147 and held >= frame.place else None
    if datagram is None:
        return Told([], is_frame=True)
    seconds, fraction = seconds + fraction // 10 ** digits, fraction % 10 ** digits
    seen = Seen(number, f"{seconds}.{fraction:0{digits}}", datagram, min(held - frame.place, len(datagram.octets)))
    return Told(*seen.plain(), True, seen)


def empty(form: str, plane: str) -> list[str]:
    """What is shown in a form of a datagram without octets, which no line of a dump spells."""
    code = {"control": "H1", "user": "U1"}[plane]
    octets, at = ('"datagram":"",', ',"at":0') if "--places" in form else ("", "")
    return [f'{{"plane":"{plane}",{octets}"fault":{{"code":"{code}","held":0{at}}}}}' if "--json" in form else f"fault {code} held 0"]


def alone(form: str, datagrams: list[tuple[str, bytes]]) -> list[list[str]]:
    """What the program shows in a form of each of some datagrams, a plane and octets, as lines of a dump: lists of lines."""
    dump = "".join(f"{plane} {octets.hex()}\n" for plane, octets in datagrams if octets)
    found: list[list[str]] = []
    for line in lines_of(ran(["decode", *form.split(), "-"], dump.encode())):
        if line.startswith("datagram ") or "--json" in form:
            found.append([])
        if not line.startswith("datagram "):
            found[-1].append(line)
    found.reverse()
    return [found.pop() if octets else empty(form, plane) for plane, octets in datagrams]


class Pieces:
    """A capture in octets, where each of its records or blocks begins, and what is to be shown of each."""

    def __init__(self, number: int) -> None:
        self.maker = Maker(number)
        self.random = self.maker.random
        self.octets = b""
        self.starts: list[int] = []
        self.told: list[Told] = []
        self.form = ""
        # Frames whose time tshark 4.0 reads otherwise: a fraction of 2^31 or more is negative there, and the fraction of a clock
        # whose units are smaller than nanoseconds is another.
        self.untimed: list[int] = []

    def first(self, count: int) -> tuple[list[str], int]:
        """The lines of the first records or blocks, and the exit status that they have."""
        told = self.told[:count]
        return [line for it in told for line in it.lines], int(any(it.faulty for it in told))

    def counted(self) -> str:
        """The last line of the whole capture, which counts."""
        parts = [it.seen.part() for it in self.told if it.seen]
        counts = {"frames": sum(it.is_frame for it in self.told), "gtp": len(parts),
                  "faults": sum(it.faulty for it in self.told), "cut": sum(it.startswith("cut ") for it in parts),
                  "fragments": parts.count("fragment")}
        if "--json" in self.form:
            return json.dumps(counts, separators=(",", ":"))
        return " ".join(f"{name} {count}" for name, count in counts.items())

    def in_form(self, form: str) -> Pieces:
        """The same capture in another form."""
        other = copy.copy(self)
        other.form = form
        is_whole = [bool(it.seen) and not it.seen.part() for it in self.told]
        datagrams = [(it.seen.plane, it.seen.datagram.octets) for it, whole in zip(self.told, is_whole) if whole]
        found = iter(alone(form, datagrams) if form != "--brief" else [[]] * len(datagrams))
        other.told = []
        for told, whole in zip(self.told, is_whole):
            of_datagram, lines = next(found) if whole else [], []
            if told.seen and form == "--brief":
                lines = [told.seen.brief(told.lines)]
            elif told.seen and form == "--all":
                lines = [told.seen.line()] + of_datagram
            elif told.seen:
                lines = [told.seen.json("".join(of_datagram))]
            other.told.append(dataclasses.replace(told, lines=lines))
        return other

    def is_as_heads_say(self) -> bool:
        """Whether what the program shows of each whole datagram, in forms that have values of elements, has the heads, elements
        and faults of the second account."""
        ok = True
        for every, it, both in zip(*(self.in_form(form).told for form in ("--all", "--json", "--all --json"))):
            if not it.seen or it.seen.part():
                continue
            what = it.seen.plane, it.seen.datagram.octets
            plain, shown = json.loads(it.lines[0]), json.loads(both.lines[0])
            for ours, theirs in ((heads.outline_of_lines(it.seen.plane, every.lines[1:]), heads.outline(*what)),
                                 (heads.members_of_json(plain), heads.members(*what)),
                                 (heads.all_members_of_json(shown), heads.all_members(*what)),
                                 (heads.words_of_lines(every.lines[1:]), heads.words_in_all(*what)),
                                 (heads.words_of_json(plain), heads.words_in_plain(*what)),
                                 (heads.words_of_json(shown), heads.words_in_all(*what))):
                is_same = are_same(ours, theirs) if isinstance(theirs, list) else ours == theirs
                if not is_same:
                    print(f"{what[0]} {what[1].hex()}\n  the program: {ours}\n  the second account: {theirs}")
                    ok = False
        return ok

    def broken(self, place: int) -> Outcome:
        """The lines, the exit status and the error where nothing stands at the start of a record or block."""
        return self.first(place)[0], 2, f"bad capture at {self.starts[place]}"

    def cut(self, size: int) -> Outcome:
        """Of the first so many octets: the lines, the exit status, and the error."""
        if size < self.head_size():
            return [], 2, "bad capture"
        ends = self.starts[1:] + [len(self.octets)]
        whole = sum(end <= size for end in ends)
        lines, status = self.first(whole)
        start = self.starts[whole] if whole < len(self.starts) else len(self.octets)
        if size != start:
            return lines, 2, f"bad capture at {start}"
        return lines + [self.front(whole).counted()], status, ""

    def front(self, count: int) -> Pieces:
        """The first so many records or blocks."""
        front = copy.copy(self)
        front.told = self.told[:count]
        return front


class Capture(Pieces):
    """A pcap file."""

    def __init__(self, number: int) -> None:
        super().__init__(number)
        self.link = self.random.choice(LINKS)
        self.order = self.random.choice("<>")
        self.unit = self.random.choice(list(MAGIC))
        link = self.link + self.random.choice([0, 0, 0x10000000])
        self.octets = pcap_head(link, self.order, self.unit)
        for place in range(1, 1 + self.random.choice([0, 1, 5, 12])):
            self.add(place, self.maker.frame(self.link))

    def add(self, number: int, frame: Frame) -> None:
        seconds, fraction = self.random.randrange(1 << 32), self.random.choice([0, 7, 123456, 999999, 1000000, (1 << 32) - 1])
        if fraction >> 31:
            self.untimed.append(number)
        held = len(frame.octets)
        if self.random.randrange(5) == 0:
            held = self.random.randrange(held + 1)
        self.starts.append(len(self.octets))
        self.octets += pcap_record(frame.octets, seconds, fraction, self.order, held)
        digits = 6 if self.unit == "microseconds" else 9
        self.told.append(told_of(number, frame, self.link, held, seconds, fraction, digits))

    def head_size(self) -> int:
        return 24


@dataclasses.dataclass
class Interface:
    """What a block says of an interface."""
    link: int
    snap: int
    resolution: int
    offset: int


def filled(octets: bytes) -> bytes:
    """Octets up to a multiple of four."""
    return octets + b"\0" * (-len(octets) % 4)


def second_of(interface: Interface) -> tuple[int, int]:
    """How many units of an interface a second has, and how many digits its fraction is shown with."""
    if interface.resolution < 128:
        return 10 ** interface.resolution, 6 if interface.resolution == 6 else 9
    return 2 ** (interface.resolution - 128), 9


def time_of(interface: Interface, count: int) -> tuple[int, int, int]:
    """Seconds, a fraction, and its digits, of a count of an interface's units."""
    second, digits = second_of(interface)
    return (count // second + interface.offset) % 2 ** 32, count % second * 10 ** digits // second, digits


class Blocks(Pieces):
    """A pcapng file."""

    def __init__(self, number: int) -> None:
        super().__init__(number)
        self.order = ">"
        self.interfaces: list[Interface] = []
        self.frames = 0
        # Of each packet the number of its block, the order of octets, the type of block, its interface, and how many are known.
        self.packets: list[tuple[int, str, int, int, int]] = []
        for _ in range(self.random.choice([1, 1, 2, 3])):
            self.add_section()
            for _ in range(self.random.choice([0, 1, 2, 8, 16])):
                self.random.choice([self.add_interface, self.add_other, self.add_packet, self.add_packet, self.add_packet])()

    def head_size(self) -> int:
        return self.starts[1] if len(self.starts) > 1 else len(self.octets)

    def pack(self, form: str, *numbers: int) -> bytes:
        return struct.pack(self.order + form, *numbers)

    def option(self, code: int, octets: bytes) -> bytes:
        return self.pack("HH", code, len(octets)) + filled(octets)

    def options(self, known: list[bytes]) -> bytes:
        """Some options, among them those that are known, and maybe their end, behind which nothing counts."""
        comment = self.option(1, self.maker.octets(self.random.choice([0, 3, 4, 9])))
        options = [*known, *self.random.choice([[], [comment], [self.option(2989, b"x" * 7)]])]
        self.random.shuffle(options)
        if not options:
            return b""
        end = self.random.choice([b"", self.option(0, b""), self.option(0, b"") + self.option(9, b"\3")])
        return b"".join(options) + end

    def add(self, kind: int, body: bytes, told: Told | None = None) -> None:
        """A block, and what is to be shown of it."""
        size = self.pack("I", 12 + len(body))
        self.starts.append(len(self.octets))
        self.octets += self.pack("I", kind) + size + body + size
        self.told.append(told or Told([]))

    def add_section(self) -> None:
        self.order = self.random.choice("<>")
        self.interfaces = []
        size = self.random.choice([-1, 0, 400])
        self.add(0x0A0D0D0A, self.pack("IHHq", 0x1A2B3C4D, 1, 0, size) + self.options([]))

    def add_interface(self) -> None:
        interface = Interface(self.random.choice(LINKS), self.random.choice([0, 0, 262144, 60]), 6, 0)
        known = []
        if self.random.randrange(2):
            interface.resolution = self.random.choice([6, 9, 0, 3, 7, 12, 19, 28, 29, 127, 128, 138, 158, 191, 221, 222, 255])
            known.append(self.option(9, bytes([interface.resolution])))
        if self.random.randrange(4) == 0:
            interface.offset = self.random.choice([0, 1, -1, 3600, -(1 << 40), (1 << 63) - 1])
            known.append(self.option(14, self.pack("q", interface.offset)))
        self.add(1, self.pack("HHI", interface.link, 0, interface.snap) + self.options(known))
        self.interfaces.append(interface)

    def add_other(self) -> None:
        """A block of a type that is passed over."""
        kind = self.random.choice([4, 0xABCD, 0x80001234])
        body = bytes(4) if kind == 4 else self.maker.octets(4 * self.random.choice([0, 1, 7, 127, 128, 129, 1000]))
        self.add(kind, body)

    def add_packet(self) -> None:
        if not self.interfaces:
            self.add_interface()
        kind = self.random.choice([6, 6, 6, 3, 2])
        number = 0 if kind == 3 else self.random.randrange(len(self.interfaces))
        interface = self.interfaces[number]
        frame = self.maker.frame(interface.link)
        had = len(frame.octets)
        held = had if self.random.randrange(5) else self.random.randrange(had + 1)
        count = self.random.choice([0, 7, 1699999999123456, self.random.randrange(1 << 64), (1 << 64) - 1])
        time = time_of(interface, count)
        if kind == 3:
            held, time = min(had, interface.snap or had), (0, 0, 6)
            body = self.pack("I", had)
        elif kind == 6:
            body = self.pack("IIIII", number, count >> 32, count % (1 << 32), held, had)
        else:
            body = self.pack("HHIIII", number, 3, count >> 32, count % (1 << 32), held, had)
        tail = self.options([]) if kind != 3 else b""
        self.frames += 1
        if second_of(interface)[0] > 10 ** 9:
            self.untimed.append(self.frames)
        self.add(kind, body + filled(frame.octets[:held]) + tail,
                 told_of(self.frames, frame, interface.link, held, *time))
        self.packets.append((len(self.starts) - 1, self.order, kind, number, len(self.interfaces)))

    def faulty(self) -> tuple[bytes, int] | None:
        """The octets with a fault in one block that is not the first: these, and its place."""
        places = range(1, len(self.starts))
        if not places:
            return None
        place = self.random.choice(places)
        start = self.starts[place]
        end = (self.starts + [len(self.octets)])[place + 1]
        octets = bytearray(self.octets)
        packets = [packet for packet in self.packets if packet[0] == place and packet[2] != 3]
        form = self.random.randrange(5 if packets else 3)
        if form == 0:
            octets[end - 1 - self.random.randrange(4)] ^= 1 << self.random.randrange(8)
        elif form == 1:
            octets[start + 4 + self.random.randrange(4)] ^= 1 << self.random.randrange(8)
        elif form == 2:
            size = self.random.choice([0, 4, 8, 11])
            octets[start + 4:start + 8] = octets[end - 4:end] = self.size_as_in(place, size)
        else:
            _, order, kind, number, known = packets[0]
            if form == 3:
                wide, at = ("I", start + 8) if kind == 6 else ("H", start + 8)
                octets[at:at + struct.calcsize(wide)] = struct.pack(order + wide, known + self.random.choice([0, 1, 99]))
            else:
                above = self.random.choice([end - start - 32 + 1, 262145, (1 << 32) - 1])
                octets[start + 20:start + 24] = struct.pack(order + "I", above)
        return bytes(octets), place

    def size_as_in(self, place: int, size: int) -> bytes:
        """A size in the order of the section that a block stands in."""
        start = max(it for it in self.starts[:place + 1] if self.octets[it:it + 4] == b"\x0a\x0d\x0d\x0a")
        order = ">" if self.octets[start + 8] == 0x1A else "<"
        return struct.pack(order + "I", size)
