"""What scenarios and heads say of gateways: which one an event concerns, its addresses, and what it is set up with."""

from __future__ import annotations

from ipaddress import ip_address

from gateways import PACKET, SERVING, Json, Setup

# The commands that one gateway alone takes.
COMMANDS = {SERVING: ("create_session", "delete_session"),
            PACKET: ("create_bearer", "delete_bearer", "release_session", "end_marker")}
# What a gateway does only where its head says so.
SWITCHES = ("network_identifiers", "version_not_supported")


def other(role: str) -> str:
    return PACKET if role == SERVING else SERVING


def node_of(event: Json) -> str:
    """The gateway that a command, a tick or a restart concerns."""
    return event.get("node") or (PACKET if event["do"] in COMMANDS[PACKET] else SERVING)


def octets_of(text: str) -> bytes:
    """An address: dotted decimal, or 32 hexadecimal digits."""
    return bytes.fromhex(text) if len(text) == 32 else ip_address(text).packed


def text_of(octets: bytes) -> str:
    """An address as it is written."""
    return str(ip_address(octets)) if len(octets) == 4 else octets.hex()


def setup_of(role: str, head: Json, said: Json) -> Setup:
    """What the head of a gateway sets up, with the times that are said beside it or in it."""
    timers = {key: said[key] for key in ("t3", "n3", "hold") if key in said}
    setup = Setup(role, octets_of(head["control"]), octets_of(head["user"]), head["counter"], **timers)
    switches = head.get("switches", [])
    setup.network_identifiers, setup.version_not_supported = (word in switches for word in SWITCHES)
    if role == PACKET:
        setup.access_points, setup.count = head["apns"], head["count"]
        setup.pool = int.from_bytes(octets_of(head["pool"]), "big")
        setup.templates = {it["apn"]: bytes.fromhex(it["tft"]) for it in head.get("templates", [])}
        if "pool6" in head:
            setup.pool6, setup.count6 = bytes.fromhex(head["pool6"]), head["count6"]
    return setup
