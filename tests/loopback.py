#!/usr/bin/env python3
"""Two gateways as programs, over UDP sockets of the loopback device: a session opens, packets pass both ways, and the session ends. What
each of them says is left in FOLDER/packet and FOLDER/serving.

  tests/loopback.py FOLDER PACKET OWN SERVING OWN

PACKET and SERVING are programs with the words and commands of examples/c/gateway.c, and OWN is the address of each. PACKET may be the
word bridge: examples/bridge with its packet.json, whose gateway is the program that GTPSHOW names. What should come is waited for,
with a deadline. A gateway that says something else than it should is left to the test that reads the files."""

from __future__ import annotations

import re
import socket
import subprocess
import sys
import time
from collections.abc import Callable
from pathlib import Path
from typing import IO

TOP = Path(__file__).resolve().parents[1]
BRIDGE = "bridge"
PORTS = (2123, 2152)
SECONDS = 10.0
# So long the program of the bridge may have to be built.
SECONDS_OF_BRIDGE = 300.0
LOOK = 0.02
# Within this time a tick passes at each gateway, of which it says nothing.
TICK = 1.1
OPENED = r"received (Opened|status 0 outcome 7 .*)"
CLOSED = r"received (Closed|status 0 outcome 8 .*)"


def until(check: Callable[[], bool], seconds: float = SECONDS) -> bool:
    """Whether something holds within a time."""
    end = time.monotonic() + seconds
    while not check():
        if time.monotonic() > end:
            return False
        time.sleep(LOOK)
    return True


def is_bound(address: str, port: int) -> bool:
    """Whether a program has a UDP socket of this address and port, as the system tells."""
    wanted = f"{int.from_bytes(socket.inet_aton(address), sys.byteorder):08X}:{port:04X}"
    return any(line.split()[1] == wanted for line in Path("/proc/net/udp").read_text().splitlines()[1:])


class Program:
    """A program that is told lines, and whose own are kept in a file."""

    def __init__(self, words: list, kept: Path, given: int | IO = subprocess.PIPE) -> None:
        self.kept, self.at = kept, 0
        with kept.open("wb") as file:
            self.process = subprocess.Popen(words, stdin=given, stdout=file, stderr=subprocess.STDOUT)

    def has_ended(self) -> bool:
        """Whether it runs no longer."""
        return self.process.poll() is not None

    def found(self, line: str) -> re.Match | None:
        """Its first line of this form after the one that was waited for before."""
        return re.compile(f"^{line}$", re.M).search(self.kept.read_text(errors="replace"), self.at)

    def says(self, line: str, seconds: float = SECONDS) -> str | None:
        """Waits for its next line of this form; there is none if it ends, or none comes in time."""
        until(lambda: self.has_ended() or self.found(line) is not None, seconds)
        found = self.found(line)
        if found is None:
            return None
        self.at = found.end()
        return found[0]

    def opens(self, address: str) -> None:
        """Waits until its sockets are there."""
        until(lambda: self.has_ended() or all(is_bound(address, port) for port in PORTS))

    def tell(self, line: str) -> None:
        """Tells it a line, if it still runs."""
        try:
            self.process.stdin.write(f"{line}\n".encode())
            self.process.stdin.flush()
        except BrokenPipeError:
            pass

    def end(self) -> None:
        """Ends its input, at which it should end too."""
        try:
            self.process.stdin.close()
            self.process.wait(SECONDS)
        except (BrokenPipeError, subprocess.TimeoutExpired):
            self.stop()

    def stop(self) -> None:
        """Ends it, if it has not ended."""
        self.process.kill()
        self.process.wait()


def send_down(packet: Program, is_bridge: bool) -> None:
    """Has the packet gateway send a packet on its bearer."""
    if not is_bridge:
        packet.tell("send down")
        return
    packet.tell('{"do":"contexts"}')
    bearer = re.search(r'"bearers": \[\{[^}]*"local": "([0-9a-f]*)"', packet.says('.*"listed".*') or "")
    if bearer:
        packet.tell(f'{{"do":"send","teid":"{bearer[1]}","payload":"{b"down".hex()}"}}')


def talk(packet: Program, serving: Program, is_bridge: bool) -> None:
    """A session opens, packets pass both ways, and the session ends."""
    serving.tell("create 001010123456789 internet")
    serving.says(OPENED)
    serving.tell("send up")
    serving.tell("list")
    packet.says('.*"accepted".*' if is_bridge else "packet up")
    send_down(packet, is_bridge)
    serving.says("packet down")
    time.sleep(TICK)
    serving.tell("delete")
    serving.says(CLOSED)
    serving.tell("list")


def main() -> None:
    """Runs both gateways."""
    folder, packet_program, packet_own, serving_program, serving_own = sys.argv[1:]
    is_bridge = packet_program == BRIDGE
    bridge = [sys.executable, TOP / "examples/bridge/bridge.py", TOP / "examples/bridge/packet.json", "--counter", Path(folder, "counter")]
    packet = Program(bridge if is_bridge else [packet_program, "packet", packet_own, serving_own], Path(folder, "packet"))
    try:
        if is_bridge:
            packet.says('.*"started".*', SECONDS_OF_BRIDGE)
        packet.opens(packet_own)
        serving = Program([serving_program, "serving", serving_own, packet_own], Path(folder, "serving"))
        try:
            serving.opens(serving_own)
            talk(packet, serving, is_bridge)
            serving.end()
        finally:
            serving.stop()
        if not is_bridge:
            packet.end()
    finally:
        packet.stop()


if __name__ == "__main__":
    main()
