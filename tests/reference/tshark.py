"""What tshark finds in a capture, beside what the program shows of it."""

from __future__ import annotations

import dataclasses
import ipaddress
import subprocess
from collections.abc import Collection

from capturing import alone


@dataclasses.dataclass
class Found:
    """A GTP datagram that tshark finds: frame and ends, time, length of the user datagram, and octets that are held of it."""
    ends: str
    time: str
    length: int
    payload: bytes


def datagrams_of_tshark(file: str) -> list[Found]:
    """Each GTP datagram that tshark finds, whole or not, but for later fragments."""
    names = ["frame.number", "ip.src", "ipv6.src", "udp.srcport", "ip.dst", "ipv6.dst", "udp.dstport", "udp.length",
             "ip.frag_offset", "ipv6.fraghdr.offset", "udp.checksum", "frame.time_epoch", "udp.payload"]
    words = ["tshark", "-r", file, "-o", "ip.defragment:FALSE", "-o", "ipv6.defragment:FALSE", "--disable-protocol",
             "gtp", "--disable-protocol", "gtpv2", "-T", "fields", "-E", "separator=|", "-E", "occurrence=f"]
    words += [word for name in names for word in ("-e", name)]
    found = []
    for line in subprocess.run(words, capture_output=True, check=True).stdout.decode().splitlines():
        frame, from4, from6, source, to4, to6, destination, length, offset4, offset6, head, time, payload = line.split("|")
        is_later = any(offset not in ("", "0") for offset in (offset4, offset6))
        if head and not is_later and {source, destination} & {"2123", "2152"}:
            ends = f"{frame} {from4 or from6} {source} {to4 or to6} {destination}"
            found.append(Found(ends, time, int(length, 0), bytes.fromhex(payload)))
    return found


def ends_of_lines(words: list[str]) -> str:
    """Frame and ends of a datagram, as tshark writes them, of the words of its first line."""
    source, destination = (word if "." in word else str(ipaddress.ip_address(bytes.fromhex(word))) for word in (words[5], words[8]))
    return f"{words[1]} {source} {words[6]} {destination} {words[9]}"


def datagrams_of_lines(lines: list[str]) -> list[list[str]]:
    """The lines of each datagram that the program shows."""
    found: list[list[str]] = []
    for line in lines:
        if line.startswith("frame "):
            found.append([])
        if not line.startswith("frames "):
            found[-1].append(line)
    return found


def is_time(ours: str, theirs: str) -> bool:
    """Whether a time is that of tshark, which has nanoseconds, no bound of the seconds, and none for a frame without a time."""
    seconds, fraction = (theirs or "0.0").split(".")
    seconds, fraction = int(seconds) + int(fraction) // 10 ** 9, int(fraction) % 10 ** 9
    digits = len(ours.partition(".")[2])
    return ours == f"{seconds % 2 ** 32}.{f'{fraction:09}'[:digits]}" and not f"{fraction:09}"[digits:].strip("0")


def difference(lines: list[str], file: str, untimed: Collection[int] = ()) -> str | None:
    """What the lines of a capture say of its datagrams that tshark does not: ends, time (but of some frames), length and octets.
    None for nothing. The lines of a datagram that is whole have to be those of tshark's octets."""
    ours, theirs = datagrams_of_lines(lines), datagrams_of_tshark(file)
    heads_of_ours = [it[0].split() for it in ours]
    if [ends_of_lines(words) for words in heads_of_ours] != [it.ends for it in theirs]:
        return f"the program has {[ends_of_lines(words) for words in heads_of_ours]}, tshark {[it.ends for it in theirs]}"
    decoded = alone("", [(words[10], it.payload) for words, it in zip(heads_of_ours, theirs)])
    for words, (_, *of_datagram), it, lines_of_octets in zip(heads_of_ours, ours, theirs, decoded):
        held, size = len(it.payload), it.length - 8
        if int(words[1]) not in untimed and not is_time(words[3], it.time):
            return f"frame {words[1]} has the time {words[3]}, and of tshark {it.time}"
        if words[11:] == ["fragment"]:
            continue
        if words[11:] != (["cut", str(held), "of", str(size)] if held < size else []) or held > size:
            return f"frame {words[1]} has {words[11:]}, and of tshark {held} octets of {size}"
        if held == size and of_datagram != lines_of_octets:
            return f"frame {words[1]} has {of_datagram}, and the octets of tshark {lines_of_octets}"
    return None
