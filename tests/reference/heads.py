"""What can be said of a datagram beside the values of its elements: names, TEIDs and sequence numbers of its messages, the types
and instances of their elements, the words of what these say, octets that are left, the code of its first fault, and the bearer
context in which that lies. Of any octets, from anywhere: written after the standard and docs/FORMATS.md and not after the
program."""

from __future__ import annotations

import re
from collections.abc import Iterator
from typing import Optional

from decoding import ROWS, S5S8, Fault, Rules, element_list, read_datagram, read_message, read_user_datagram
from gateways import CONTEXT, FTEID, IMSI, Json, elements_and_rest, packed
from named_elements import (element_json, element_lines, extension_headers, extension_json, extension_line, front_lines, front_members,
                            has_headers, message_name, without_values)
from words import MESSAGES, words_of

CONTROL, USER = MESSAGES["control"], MESSAGES["user"]


# The type, TEID, sequence number, priority and size of a header.
Head = tuple[int, Optional[str], int, Optional[int], int]


def first_fault(plane: str, octets: bytes, rules: Rules = S5S8) -> Fault | None:
    """The first fault, or None."""
    try:
        (read_user_datagram if plane == "user" else read_datagram)(octets, rules)
    except Fault as fault:
        return fault
    return None


def fault_of(plane: str, octets: bytes) -> str | None:
    """Its code, or None."""
    fault = first_fault(plane, octets)
    return fault.code if fault else None


def context_of(plane: str, octets: bytes) -> int | None:
    """The number of the bearer context in which an element at fault lies or is missing, or None."""
    fault = first_fault(plane, octets)
    return fault.context if fault and plane == "control" else None


def message_at_fault(octets: bytes) -> int:
    """Where the message at fault begins: the second one, if the first announces it and is right."""
    if len(octets) < 4 or octets[0] >> 5 != 2 or octets[0] & 16 == 0:
        return 0
    size = 4 + int.from_bytes(octets[2:4], "big")
    try:
        read_message(bytes([octets[0] & ~16]) + octets[1:size])
    except Fault:
        return 0
    return size


def context_at(octets: bytes, begin: int, number: int) -> int:
    """Where the bearer context of this number begins, counted from 1, in the message that begins there."""
    at = begin + (12 if octets[begin] & 8 else 8)
    while octets[at] != CONTEXT or number > 1:
        number -= octets[at] == CONTEXT
        at += 4 + int.from_bytes(octets[at + 1 : at + 3], "big")
    return at


def needed_extension_at(octets: bytes) -> int:
    """Where the first extension header begins that has to be understood: the highest bit of its type is set (TS 29.281 5.2.1)."""
    kind, at = octets[11], 12
    while kind < 128:
        at += 4 * octets[at]
        kind = octets[at - 1]
    return at


def fault_place(plane: str, octets: bytes) -> int | None:
    """Where the fault of a datagram lies, or None: it has none, or what follows its code has a place."""
    fault = first_fault(plane, octets)
    if fault is None or fault.code in ("H5", "H7", "U5", "U6", "U9"):
        return None
    if plane == "user":
        return needed_extension_at(octets) if fault.code == "U7" else 0
    begin = message_at_fault(octets)
    return context_at(octets, begin, fault.context) if fault.context else begin


def control_head(octets: bytes) -> Head | None:
    """The type, TEID, sequence number, priority and size of the header at the front of octets, if there is one (TS 29.274 5.1)."""
    if len(octets) < 8 or octets[0] >> 5 != 2:
        return None
    if octets[0] & 8 == 0:
        return octets[1], None, int.from_bytes(octets[4:7], "big"), None, 8
    if len(octets) < 12:
        return None
    return octets[1], octets[4:8].hex(), int.from_bytes(octets[8:11], "big"), octets[11] >> 4 if octets[0] & 4 else None, 12


def messages_of(octets: bytes) -> tuple[bytes, bytes]:
    """The octets of the first message of a datagram, and those of a second one that it announces, if it is held whole."""
    size = 4 + int.from_bytes(octets[2:4], "big")
    if len(octets) >= 4 and octets[0] & 16 and len(octets) >= size and control_head(octets[:size]):
        return octets[:size], octets[size:]
    return octets, b""


def whole_elements(octets: bytes) -> tuple[list[tuple[int, int]], bytes]:
    """Type and instance of each element at the front of octets, and the octets that are left."""
    found, rest = elements_and_rest(octets)
    return [(kind, instance) for kind, instance, _ in found], rest


def named(names: dict[int, str], kind: int) -> str:
    return names.get(kind, f"type {kind}")


def brief_message(octets: bytes) -> str:
    kind, teid, seq, _, _ = control_head(octets)
    return (message_name(kind) or f"type {kind}") + (f" teid {teid}" if teid else "") + f" seq {seq}"


def user_number(octets: bytes) -> int | None:
    """The sequence number, if the flag S is set and it is there (TS 29.281 5.1)."""
    return int.from_bytes(octets[8:10], "big") if octets[0] & 2 and len(octets) >= 12 else None


def brief_end(plane: str, octets: bytes) -> str:
    """The end of the line of --brief of a datagram without a fault."""
    if plane == "control":
        return " then ".join(brief_message(it) for it in messages_of(octets) if it)
    kind, number = octets[1], user_number(octets)
    teid = "" if kind in (1, 2, 26, 31) else f" teid {octets[4:8].hex()}"
    return named(USER, kind) + teid + (f" seq {number}" if number is not None else "")


def outline_of_message(octets: bytes) -> list[str]:
    head = control_head(octets)
    if head is None:
        return [f"rest {octets.hex()}"] if octets else []
    kind, teid, seq, priority, size = head
    line = (f"gtpv2 type {kind} {message_name(kind) or 'other'}" + (f" teid {teid}" if teid else "") + f" seq {seq}"
            + (f" priority {priority}" if priority is not None else ""))
    found, rest = elements_and_rest(octets[size:])
    return [line] + [line for it in found for line in element_lines(it, kind)] + ([f"rest {rest.hex()}"] if rest else [])


def outline(plane: str, octets: bytes) -> list[str] | None:
    """The lines of --all without the values of elements, and of a fault its code; of a user datagram without a fault those of its
    extension headers."""
    code, context = fault_of(plane, octets), context_of(plane, octets)
    end = ([f"fault {code}"] if code else []) + ([f"in bearer-context {context}"] if context else [])
    if plane == "control":
        if control_head(octets) is None:
            return end
        return [line for message in messages_of(octets) for line in outline_of_message(message)] + end
    if not code:
        return [line for it in extension_headers(octets) for line in extension_line(*it)]
    if len(octets) < 8 or octets[0] >> 4 != 3:
        return end
    number = user_number(octets)
    rest = octets[8 if number is None else 12:]
    line = f"gtpu type {octets[1]} {USER.get(octets[1], 'other')} teid {octets[4:8].hex()}"
    behind = front_lines(octets) if has_headers(octets) else [f"rest {rest.hex()}"] if rest else []
    return [line + (f" seq {number}" if number is not None else ""), *behind, *end]


def outline_of_lines(plane: str, lines: list[str]) -> list[str]:
    """Lines of --all, of a fault its code alone, and of a user datagram without one its extension headers."""
    is_fault = any(line.startswith("fault ") for line in lines)
    if plane == "user" and not is_fault:
        first = next((place for place, line in enumerate(lines) if line.startswith("ext ")), len(lines))
        last = max((place for place, line in enumerate(lines) if line.startswith(("ext ", "  "))), default=first - 1)
        return lines[first : last + 1]
    return [" ".join(line.split()[:2]) if line.startswith("fault ") else line for line in lines]


def members_of_message(octets: bytes) -> Json:
    kind, teid, seq, priority, size = control_head(octets)
    members = {"type": kind, "name": CONTROL.get(kind), "teid": teid, "seq": seq, "priority": priority}
    if kind in ROWS:
        members["elements"] = whole_elements(octets[size:])[0]
    else:
        members["octets"] = octets[size:].hex()
    return members


def members(plane: str, octets: bytes) -> Json:
    """The members of the JSON of a datagram, of elements their type and instance, of a fault its code and its bearer context."""
    code = fault_of(plane, octets)
    if code:
        return {"plane": plane, "fault": (code, context_of(plane, octets))}
    if plane == "user":
        kind = octets[1]
        found = {"type": kind, "name": USER.get(kind), "teid": None if kind in (1, 2, 26, 31) else octets[4:8].hex(),
                 "seq": user_number(octets)}
    else:
        first, second = messages_of(octets)
        found = members_of_message(first)
        if second:
            found["second"] = {key: it for key, it in members_of_message(second).items() if it is not None}
    return {"plane": plane, **{key: it for key, it in found.items() if it is not None}}


def shown_of_message(octets: bytes) -> Json:
    """The members of a message of --all: those of its header, its whole elements without their values, and the octets that are left."""
    head = control_head(octets)
    if head is None:
        return {"rest": octets.hex()} if octets else {}
    kind, teid, seq, priority, size = head
    found, rest = elements_and_rest(octets[size:])
    shown = {"type": kind, "name": message_name(kind), "teid": teid, "seq": seq, "priority": priority,
             "elements": [element_json(it, kind) for it in found], "rest": rest.hex() or None}
    return {key: it for key, it in shown.items() if it is not None}


def is_pair(octets: bytes) -> bool:
    """Whether a second message is announced, and the first one is held whole and has a header."""
    size = 4 + int.from_bytes(octets[2:4], "big")
    return len(octets) >= max(4, size) and octets[0] & 16 != 0 and control_head(octets[:size]) is not None


def shown_of_user(octets: bytes) -> Json:
    if len(octets) < 8 or octets[0] >> 4 != 3:
        return {}
    number = user_number(octets)
    rest = octets[8 if number is None else 12:]
    shown = {"type": octets[1], "name": USER.get(octets[1]), "teid": octets[4:8].hex(), "seq": number, "rest": rest.hex() or None,
             **(front_members(octets) if has_headers(octets) else {})}
    return {key: it for key, it in shown.items() if it is not None}


def all_members(plane: str, octets: bytes) -> Json:
    """The members of the JSON of --all, of elements their type and instance, of a fault its code and its bearer context."""
    code = fault_of(plane, octets)
    if plane == "user" and not code:
        return {**members(plane, octets), "extensions": [extension_json(*it) for it in extension_headers(octets)]}
    if plane == "user":
        shown = shown_of_user(octets)
    elif is_pair(octets):
        first, second = messages_of(octets)
        shown = {**shown_of_message(first), "second": shown_of_message(second)}
    else:
        shown = shown_of_message(octets) if control_head(octets) else {}
    return {"plane": plane, **shown} | ({"fault": (code, context_of(plane, octets))} if code else {})


def all_members_of_json(it: Json) -> Json:
    """The members of an object of JSON that `all_members` has too."""
    kept = members_of_json(it)
    if "elements" in it:
        kept["elements"] = [without_values(element) for element in it["elements"]]
    if "extensions" in it:
        kept["extensions"] = it["extensions"]
    if "extensions" in it and "payload" in it and "fault" in it:
        kept["payload"] = it["payload"]
    if "second" in it:
        kept["second"] = all_members_of_json(it["second"])
    return kept


def members_of_json(it: Json) -> Json:
    """The members of an object of JSON that `members` has too."""
    kept = {key: it[key] for key in ("plane", "type", "name", "teid", "seq", "priority") if key in it}
    if "fault" in it:
        kept["fault"] = it["fault"]["code"], it["fault"].get("bearer_context")
    if "elements" in it:
        kept["elements"] = [(element["type"], element["instance"]) for element in it["elements"]]
    if "octets" in it and it.get("plane", "control") == "control":
        kept["octets"] = it["octets"]
    if "rest" in it:
        kept["rest"] = it["rest"]
    if "second" in it:
        kept["second"] = members_of_json(it["second"])
    return kept


def elements_behind(octets: bytes) -> list[tuple[int, bytes]]:
    """Type and body of each element in octets; none where one is not whole."""
    return [(kind, body) for kind, _, body in element_list(octets) or []]


def is_tunnel_end(body: bytes) -> bool:
    """Whether a body is an F-TEID with an address and all of its octets (clause 8.22)."""
    return len(body) >= 5 and body[0] & 0xC0 != 0 and len(body) >= 5 + 4 * (body[0] >> 7) + 16 * (body[0] >> 6 & 1)


def names_elsewhere(elements: list[tuple[int, bytes]]) -> bool:
    """Whether one of these elements, or of those inside bearer contexts, is an F-TEID whose interface is none of S5/S8 (clause 8.22)."""
    return any(kind == FTEID and is_tunnel_end(body) and body[0] & 63 not in (4, 5, 6, 7)
               or kind == CONTEXT and names_elsewhere([it for it in elements_behind(body) if it[0] != CONTEXT])
               for kind, body in elements)


def is_elsewhere(plane: str, octets: bytes) -> bool:
    """Whether a datagram names an interface other than S5/S8: an F-TEID of one, or a PDU session container as its fault."""
    if plane == "user":
        fault = first_fault(plane, octets)
        return fault is not None and (fault.code, fault.kind) == ("U7", 0x85)
    messages = messages_of(octets) if is_pair(octets) else [octets]
    heads = [(it, control_head(it)) for it in messages]
    return any(head is not None and names_elsewhere(elements_behind(it[head[4]:])) for it, head in heads)


def teids_among(elements: list[tuple[int, bytes]]) -> Iterator[str]:
    """The TEIDs of elements, with those inside bearer contexts."""
    for kind, body in elements:
        if kind == FTEID and is_tunnel_end(body):
            yield body[1:5].hex()
        if kind == CONTEXT:
            yield from (inner[1:5].hex() for inner_kind, inner in elements_behind(body) if inner_kind == FTEID and is_tunnel_end(inner))


def message_has(octets: bytes, kind: int | None, imsi: str | None, teid: str | None) -> bool:
    """Whether a message of the control plane has this type, tells this subscriber and has this TEID, of those that are asked for."""
    head = control_head(octets)
    if head is None:
        return False
    elements = elements_behind(octets[head[4]:])
    return (kind in (None, head[0]) and (imsi is None or (IMSI, packed(imsi)) in elements)
            and (teid is None or teid == head[1] or teid in teids_among(elements)))


def is_chosen(plane: str, octets: bytes, kind: int | None = None, imsi: str | None = None, teid: str | None = None) -> bool:
    """Whether one message of a datagram has all that is asked for."""
    if kind is None and imsi is None and teid is None:
        return True
    if plane == "control":
        front, back = messages_of(octets)
        return any(message_has(it, kind, imsi, teid) for it in (front, back) if it)
    has_head = len(octets) >= 8 and octets[0] >> 4 == 3
    return bool(has_head and kind in (None, octets[1]) and imsi is None and teid in (None, octets[4:8].hex()))


def words_in_all(plane: str, octets: bytes) -> list[str]:
    """The words of --all: those of the elements of each message, in order."""
    if plane == "user" or control_head(octets) is None:
        return []
    messages = messages_of(octets) if is_pair(octets) else [octets]
    return [word for it in messages if control_head(it) for word in words_of(it[control_head(it)[4]:])]


def words_in_plain(plane: str, octets: bytes) -> list[str]:
    """The words of JSON without --all, which has no elements of a datagram with a fault, nor of a type without a table."""
    if plane == "user" or fault_of(plane, octets):
        return []
    return [word for it in messages_of(octets) if it and it[1] in ROWS for word in words_of(it[control_head(it)[4]:])]


def words_of_lines(lines: list[str]) -> list[str]:
    """The words that end lines of --all."""
    ends = [re.search(r" \((.*)\)$", line) for line in lines if line.lstrip().startswith("ie ")]
    return [end.group(1) for end in ends if end]


def words_of_json(it: object) -> list[str]:
    """The words in an object of JSON, in order, but for those of fields."""
    if isinstance(it, list):
        return [word for each in it for word in words_of_json(each)]
    if not isinstance(it, dict):
        return []
    said = [(key, each) for key, each in it.items() if key != "fields"]
    return [word for key, each in said for word in ([each] if key.endswith("_name") else words_of_json(each))]
