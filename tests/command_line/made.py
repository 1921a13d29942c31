"""Cases whose input is made: long datagrams, packets and texts, captures that are broken, a node of many peers, little memory."""

from __future__ import annotations

import os
import struct
import subprocess
import tempfile
from collections.abc import Iterator
from pathlib import Path

from running import PROGRAM, Case, End, Part

ATTACH = Path("examples/captures/attach.pcap")
ATTACH_LINES = ATTACH.with_suffix(".lines")
SCENARIO = Path("examples/scenarios/attach.json")
GATEWAYS = (
    b'{"serving":{"control":"10.0.0.1","user":"10.0.0.1","counter":1},"packet":{"control":"10.0.0.2","user":"10.0.0.2",'
    b'"counter":1,"apns":["internet"],"pool":"10.1.0.1","count":10},"events":['
)
ECHO = b"40010009000001000300010007"
ECHOED, PEERS = "40020009000001000300010001", 2000
MOST_PAYLOAD, MOST_RECORD = 65000, 262144
SECTION = bytes.fromhex("0a0d0d0a0000001c1a2b3c4d00010000ffffffffffffffff0000001c")
NO_SECTION = bytes.fromhex("0a0d0d0a0000001c") + 20 * b"0"
COMPRESSED = "is compressed: 'zcat FILE | gtpshow capture -' shows a compressed capture\n"
UNFIT = ": the block at octet 28 has a length that does not fit, an interface that is not described, or no order of octets\n"


def nested() -> Case:
    """Sixteen thousand bearer contexts, each in the one before it."""
    deep = "".join(f"5d{4 * level:04x}00" for level in reversed(range(16000)))
    lines = f"""\
gtpv2 type 33 create-session-response teid 00000001 seq 1
ie 2 0 cause 73
ie 93 0 bearer-context
  ie 73 0 ebi 5
  ie 2 0 cause 73
  ie 93 0 octets {deep[8:]}
"""
    digits = f"4821fa1d00000001000001000200020049005dfa0b004900010005020002004900{deep}"
    return Case("sixteen thousand nested groups", ["decode", digits], output=lines.encode())


def longest_packets() -> Case:
    """Packets as long as they may be, and one octet longer: that is refused, and changes nothing."""
    first = SCENARIO.read_bytes().partition(b'"events": [\n')[2].partition(b'"datagram": 1},')
    longer, longest = (2 * size * b"0" for size in (MOST_PAYLOAD + 1, MOST_PAYLOAD))
    send = b'{"do":"send","node":"serving","teid":"01000002","payload":"%b"'
    events = b"".join(first[:2]) + send % longer + b',"expect":"G7"},' + send % longest + b'},{"do":"deliver","datagram":2}]}\n'
    opened, _, rest = SCENARIO.with_suffix(".report").read_bytes().partition(b"event 3 ")
    kept = b"".join(line for line in rest.splitlines(True) if line.startswith((b"session ", b"bearer ", b"mutual ")))
    output = b"%bevent 3 send G7\nevent 4 send sent\n  sent 2 user 30fffde801000002%b\nevent 5 deliver accepted\n" % (opened, longest)
    output += kept + b"taken packet 01000002 %b owed\nlate 0\n" % longest
    return Case("packets as long as they may be", ["replay"], GATEWAYS + events, output=output)


def many_peers() -> Case:
    """A node of two thousand peers, each of which asks whether it is alive, the last one first."""
    addresses = [f"10.2.{number // 256}.{number % 256}" for number in range(PEERS)]
    peers = ",".join(f'{{"control":"{it}","user":"{it}"}}' for it in addresses)
    lines = [f'{{"role":"serving","control":"10.0.0.1","user":"10.0.0.1","counter":1,"peers":[{peers}]}}']
    answers = ['{"outcome":"started"}']
    for place, address in reversed(list(enumerate(addresses))):
        source = f'{{"address":"{address}","port":2123}}'
        lines.append(f'{{"do":"receive","plane":"control","from":{source},"octets":"{ECHO.decode()}"}}')
        sent = f'{{"plane":"control","from":{{"address":"10.0.0.1","port":2123}},"to":{source},"octets":"{ECHOED}"}}'
        answers.append(f'{{"peer":{place},"outcome":"echoed","sent":[{sent}],"gave_up":[],"forgot":[]}}')
    given, output = ("".join(f"{line}\n" for line in it).encode() for it in (lines, answers))
    return Case("a node of two thousand peers", ["node"], given, output=output)


def long_node_head() -> Case:
    """The first line of a node, an octet longer than a line may be."""
    error = b"bad node head\ngtpshow: the first line of standard input: more than 1048576 octets\n"
    return Case("a first line that is too long for a node", ["node"], b"{" + b" " * 1_048_575 + b"}\n", 2, error=error)


def moved() -> bytes:
    """The capture with other ports: 2123 and 2152 are 084b and 0868."""
    return bytes.fromhex(ATTACH.read_bytes().hex().replace("084b", "1a0b").replace("0868", "1b58"))


def with_record(size: int) -> bytes:
    """A capture with one record, of so many octets, all of which are there."""
    return ATTACH.read_bytes()[:24] + struct.pack("!4I", 0, 0, size, size) + bytes(size)


def compressed() -> bytes:
    """The capture as gzip writes it."""
    return subprocess.run(["gzip", "-c", ATTACH], stdout=subprocess.PIPE, check=True).stdout


def broken() -> Iterator[tuple[str, bytes, str, str]]:
    """Captures of which nothing is shown: the name of the case, the octets, where it is broken, and why."""
    yield "a capture that ends in its head", ATTACH.read_bytes()[:10], "", " ends after 10 octets, inside its head\n"
    yield "a section of no order of octets", NO_SECTION, "", " begins as a capture does, but its head is none\n"
    too_long = ": the record at octet 24 states more than 262144 octets\n"
    yield "a record that is too long", with_record(MOST_RECORD + 1), " at 24", too_long
    # Behind the header of a section: a block that is cut, one whose length is no multiple of four, one of an interface that is not
    # described, and a section without an order of octets.
    cut = SECTION + bytes.fromhex("0000000b0000001001")
    yield "a block that is cut", cut, " at 28", " ends after 37 octets, inside the block at octet 28\n"
    yield "a block of thirteen octets", SECTION + bytes.fromhex("0000000b0000000d010000000d"), " at 28", UNFIT
    yield "a packet of no interface", SECTION + struct.pack("!2I20xI", 6, 32, 32), " at 28", UNFIT
    yield "a second section of no order of octets", SECTION + NO_SECTION, " at 28", UNFIT
    yield "a compressed capture", compressed(), "", f" {COMPRESSED}"


def captures(file: Path) -> Iterator[Case]:
    """Captures with other ports, with the longest record, cut, compressed and broken, of which each is written to this file."""
    file.write_bytes(moved())
    lines = ATTACH_LINES.read_bytes()
    yield Case("a capture with other ports", ["capture", file], output=b"frames 4 gtp 0 faults 0 cut 0 fragments 0\n")
    words = ["capture", "--control-port", "6667", "--user-port", "7000", file]
    yield Case("further ports", words, output=lines.replace(b" 2123 ", b" 6667 ").replace(b" 2152 ", b" 7000 "))
    cut = b"bad capture at 214\ngtpshow: standard input ends after 300 octets, inside the record at octet 214\n"
    output = b"".join(lines.splitlines(True)[:16])
    yield Case("a capture that is cut", ["capture", "-"], ATTACH.read_bytes()[:300], 2, output, cut)
    for name, octets, place, reason in broken():
        file.write_bytes(octets)
        yield Case(name, ["capture", file], status=2, error=f"bad capture{place}\ngtpshow: {file}{reason}".encode())
    error = f"bad capture\ngtpshow: standard input {COMPRESSED}".encode()
    yield Case("a compressed capture on standard input", ["capture", "-"], compressed(), 2, error=error)
    octets = subprocess.run(["zcat"], input=compressed(), stdout=subprocess.PIPE, check=True).stdout
    yield Case("a capture that zcat writes", ["capture", "-"], octets, output=lines)
    file.write_bytes(with_record(MOST_RECORD))
    yield Case("a record of the most octets", ["capture", file], output=b"frames 1 gtp 0 faults 0 cut 0 fragments 0\n")


def limited(kilobytes: int, *words: str) -> dict:
    """A call of the program with so much memory."""
    return {"program": "bash", "words": ["-c", 'ulimit -v "$0" && exec "$@"', str(kilobytes), PROGRAM, *words]}


def little_memory() -> Iterator[Case]:
    """Memory does not grow with a line of 100 MB or a capture of 105 MB; where a text with a million objects wants more, that is told."""
    given = 100_000_000 * b"4" + b"\n" + ECHO + b"\n"
    output, error = End(b"\nie 3 0 recovery 7\n"), Part(b"more than 1048576 octets")
    yield Case("a line of 100 MB in 60", given=given, status=2, output=output, error=error, **limited(60000, "decode", "-"))
    octets, counts = ATTACH.read_bytes(), End(b"\nframes 800000 gtp 800000 faults 0 cut 0 fragments 0\n")
    given = octets[:24] + 200_000 * octets[24:]
    yield Case("a capture of 105 MB in 60", given=given, output=counts, **limited(60000, "capture", "--brief", "-"))
    # The module of the page runs in another process.
    if not os.environ.get("GTPSHOW_SOCKET"):
        given = GATEWAYS + 1_000_000 * b'{"a":0},\n'
        yield Case("no memory", given=given, status=3, error=b"no memory\n", **limited(100000, "replay"))


def cases() -> Iterator[Case]:
    """All cases of this file."""
    yield nested()
    yield longest_packets()
    yield many_peers()
    yield long_node_head()
    with tempfile.TemporaryDirectory() as folder:
        yield from captures(Path(folder, "capture"))
    yield from little_memory()
