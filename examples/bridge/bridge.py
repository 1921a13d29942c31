#!/usr/bin/env python3
"""Joins one gateway, or a node of many peers, to UDP and to the clock. It runs `gtpshow gateway`, or `gtpshow node` where HEAD has
`peers`, hands in each datagram that arrives and a tick each second, and sends what it is told to send. It moves octets and knows
nothing of GTP.

  examples/bridge/bridge.py HEAD [--counter FILE] [--tick SECONDS] [--lose SHARE] [--repeat SHARE] [--delay SECONDS]

HEAD is a file with the first line of the program, without `counter`: the restart counter is kept in FILE (HEAD.counter),
since it has to outlive the gateway, and is one higher at each start (TS 23.007 18). The ends in HEAD are IPv4 addresses.
Standard input, which may be a terminal, a pipe or a file, has further lines: commands. At its end the
gateway goes on. Standard output has a line for each answer but those of ticks in which nothing happened. For tests,
a share of the datagrams that arrive is lost or comes twice, and each is held back for a random time up to a delay.
The environment may name the program in GTPSHOW; else it is scripts/gtpshow, or, where that is not there, gtpshow."""

import argparse
import asyncio
import json
import os
import pathlib
import random
import sys
import threading

TOP = pathlib.Path(__file__).resolve().parents[2]
SCRIPT = TOP / "scripts/gtpshow"
PROGRAM = os.environ.get("GTPSHOW", str(SCRIPT) if SCRIPT.exists() else "gtpshow")
PORTS = {"control": 2123, "user": 2152}
# The longest line that the gateway writes: each octet of a tick's datagrams and forgotten requests is two digits.
LONGEST = 1 << 28


def next_counter(path):
    """The restart counter of this start, which the file keeps."""
    try:
        counter = (int(path.read_text()) + 1) % 256
    except FileNotFoundError:
        counter = 0
    fresh = path.with_suffix(path.suffix + ".new")
    fresh.write_text(f"{counter}\n")
    fresh.replace(path)
    return counter


class Plane(asyncio.DatagramProtocol):
    """The socket of one plane."""

    def __init__(self, bridge, name):
        self.bridge, self.name = bridge, name

    def connection_made(self, transport):
        self.transport = transport

    def datagram_received(self, octets, source):
        self.bridge.arrives(self.name, octets, source)


class Bridge:
    def __init__(self, head, tick=1.0, lose=0.0, repeat=0.0, delay=0.0, tell=None):
        self.head, self.tick, self.lose, self.repeat, self.delay = head, tick, lose, repeat, delay
        self.tell = tell or (lambda line, answer: None)
        self.requests, self.planes = asyncio.Queue(), {}
        # The peers of a node, which each have ticks of their own.
        self.peers = len(head["peers"]) if "peers" in head else None

    def put(self, request, done=None):
        """Asks the gateway for something, after all that was asked before."""
        line = request if isinstance(request, str) else json.dumps(request)
        self.requests.put_nowait((line, done))

    async def ask(self, request):
        """The answer of the gateway."""
        done = asyncio.get_running_loop().create_future()
        self.put(request, done)
        return await done

    def arrives(self, plane, octets, source):
        """A datagram arrives, as often and as late as the network of a test lets it."""
        request = {"do": "receive", "plane": plane, "from": {"address": source[0], "port": source[1]}, "octets": octets.hex()}
        if random.random() < self.lose:
            return
        for _ in range(2 if random.random() < self.repeat else 1):
            if self.delay > 0:
                asyncio.get_running_loop().call_later(random.uniform(0, self.delay), self.put, request)
            else:
                self.put(request)

    def send(self, datagram):
        to = datagram["to"]
        self.planes[datagram["plane"]].transport.sendto(bytes.fromhex(datagram["octets"]), (to["address"], to["port"]))

    async def answer_to(self, line):
        self.process.stdin.write(line.encode() + b"\n")
        await self.process.stdin.drain()
        answer = await self.process.stdout.readline()
        if not answer:
            raise EOFError("the gateway has ended")
        return json.loads(answer)

    async def open(self):
        """Binds the sockets and starts the gateway."""
        loop = asyncio.get_running_loop()
        for name, port in PORTS.items():
            _, self.planes[name] = await loop.create_datagram_endpoint(
                lambda name=name: Plane(self, name), local_addr=(self.head[name], port))
        pipe = asyncio.subprocess.PIPE
        command = "gateway" if self.peers is None else "node"
        self.process = await asyncio.create_subprocess_exec(PROGRAM, command, stdin=pipe, stdout=pipe, limit=LONGEST)
        return await self.answer_to(json.dumps(self.head))

    async def ticks(self):
        while True:
            await asyncio.sleep(self.tick)
            if self.peers is None:
                self.put({"do": "tick"})
            for place in range(self.peers or 0):
                self.put({"peer": place, "line": {"do": "tick"}})

    async def serve(self):
        """Answers until it is cancelled, or the gateway ends."""
        ticking = asyncio.create_task(self.ticks())
        try:
            while True:
                line, done = await self.requests.get()
                answer = await self.answer_to(line)
                if answer["outcome"] == "added":
                    self.peers = answer["peer"] + 1
                for datagram in answer.get("sent", []):
                    self.send(datagram)
                self.tell(line, answer)
                if done is not None and not done.done():
                    done.set_result(answer)
        finally:
            ticking.cancel()
            self.close()

    def close(self):
        for plane in self.planes.values():
            plane.transport.close()
        if self.process.returncode is None:
            self.process.kill()


def is_quiet(answer):
    """Whether nothing happened in a tick."""
    return answer["outcome"] == "ticked" and not (answer["sent"] or answer["gave_up"] or answer["forgot"])


def show(line, answer):
    if not is_quiet(answer):
        print(json.dumps(answer), flush=True)


def read_commands(loop, bridge):
    """Hands the lines of standard input to the bridge. A thread of its own waits for them, since a file cannot be awaited."""
    for line in sys.stdin:
        if line.strip():
            loop.call_soon_threadsafe(bridge.put, line.strip())


async def main():
    parser = argparse.ArgumentParser(description="Joins one gateway, or a node, to UDP and to the clock.")
    parser.add_argument("head", type=pathlib.Path)
    parser.add_argument("--counter", type=pathlib.Path)
    for name, default in ("tick", 1.0), ("lose", 0.0), ("repeat", 0.0), ("delay", 0.0):
        parser.add_argument(f"--{name}", type=float, default=default)
    asked = parser.parse_args()
    counter = next_counter(asked.counter or asked.head.with_suffix(".counter"))
    head = json.loads(asked.head.read_text()) | {"counter": counter}
    bridge = Bridge(head, asked.tick, asked.lose, asked.repeat, asked.delay, show)
    print(json.dumps(await bridge.open()), flush=True)
    threading.Thread(target=read_commands, args=(asyncio.get_running_loop(), bridge), daemon=True).start()
    await bridge.serve()


if __name__ == "__main__":
    try:
        asyncio.run(main())
    except KeyboardInterrupt:
        pass
