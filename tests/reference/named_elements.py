"""What `--all` shows of elements and of extension headers by their names and forms, as lines and as JSON; of elements that the library
has a type of its own for, whose values other tests compare, the name alone. Written after the standards and docs/FORMATS.md and not
after the program."""

from __future__ import annotations

from collections.abc import Iterator

from decoding import FORMS as VALUES
from decoding import defect_of
from form_steps import Reading, lines_of, object_of
from form_tables import ELEMENTS, EXTENSIONS, FORMS, FROM_NETWORK, GROUPS, MESSAGES
from gateways import CONTEXT, TFT, Element, Json, elements_and_rest
from words import MESSAGES as TYPED

# More than the rank of any group.
TOP_RANK = 3
EPCO = 197


def message_name(kind: int) -> str | None:
    return TYPED["control"].get(kind, MESSAGES.get(kind))


def name_of(kind: int) -> str | None:
    """The name of a type of elements that hold none."""
    return ELEMENTS[kind][0] if kind in ELEMENTS else None


def form_of(kind: int, message: int) -> str | None:
    """The form of a type of elements in a message."""
    if kind == EPCO and message in FROM_NETWORK:
        return "epco_down"
    return ELEMENTS[kind][1] if kind in ELEMENTS else None


def has_value(kind: int, body: bytes) -> bool:
    """Whether the library has a type for elements of this type, and the body reads as one."""
    return kind in VALUES and kind != CONTEXT and defect_of(kind, body) is None


def inner_elements(kind: int, body: bytes, outer: int) -> list[Element] | None:
    """The elements of a group that opens: it stands in one of a higher rank, or in none, and is whole."""
    if kind not in GROUPS or GROUPS[kind][1] >= outer:
        return None
    found, left = elements_and_rest(body)
    return None if left else found


def fields_lines(head: str, form: str, body: bytes, depth: int) -> list[str]:
    return lines_of(" " * depth + head, Reading(FORMS, body).whole(form), depth).split("\n")


def value_lines(head: str, kind: int, body: bytes, depth: int) -> list[str]:
    """The lines of an element with a value, which is left out, but for that of a TFT."""
    if kind != TFT:
        return [f"{' ' * depth}{head}{name_of(kind)} =value"]
    return [f"{' ' * depth}{head}tft {body.hex() or '-'}", *fields_lines("fields", "tft", body, depth + 2)]


def element_lines(element: Element, message: int, depth: int = 0, outer: int = TOP_RANK) -> list[str]:
    """The lines of an element in a message; `=value` stands for a value."""
    kind, instance, body = element
    head = f"ie {kind} {instance} "
    inner = inner_elements(kind, body, outer)
    if inner is not None:
        return [f"{' ' * depth}{head}{GROUPS[kind][0]}",
                *(line for it in inner for line in element_lines(it, message, depth + 2, GROUPS[kind][1]))]
    if has_value(kind, body):
        return value_lines(head, kind, body, depth)
    name, form = name_of(kind), form_of(kind, message)
    if form is not None:
        return fields_lines(head + str(name), form, body, depth)
    return [f"{' ' * depth}{head}{f'{name} ' if name else ''}octets {body.hex() or '-'}"]


def fields_of(form: str | None, body: bytes) -> Json:
    return {"fields": object_of(Reading(FORMS, body).whole(form))} if form else {}


def element_json(element: Element, message: int, outer: int = TOP_RANK) -> Json:
    """The object of an element in a message, without its value."""
    kind, instance, body = element
    shown = {"type": kind, "instance": instance}
    inner = inner_elements(kind, body, outer)
    if inner is not None:
        octets = {} if kind == CONTEXT else {"octets": body.hex()}
        return {**shown, **octets, "name": GROUPS[kind][0], "elements": [element_json(it, message, GROUPS[kind][1]) for it in inner]}
    named = {"name": name_of(kind)} if name_of(kind) else {}
    if has_value(kind, body):
        return {**shown, **named, **fields_of(form_of(kind, message), body)}
    return {**shown, "octets": body.hex(), **named, **fields_of(form_of(kind, message), body)}


def without_values(shown: Json) -> Json:
    """An object of an element as the program writes it, without its value and the word beside that."""
    kept = {key: it for key, it in shown.items() if key not in ("value", "value_name", "at", "length")}
    if "elements" in kept:
        kept["elements"] = [without_values(it) for it in kept["elements"]]
    return kept


def are_same(ours: list[str], theirs: list[str]) -> bool:
    """Whether lines of the program are those that are wanted, whatever the values."""
    return len(ours) == len(theirs) and all(
        it == wanted or wanted.endswith(" =value") and it.startswith(wanted[:-6]) for it, wanted in zip(ours, theirs))


def extension_line(kind: int, content: bytes) -> list[str]:
    """The lines of an extension header."""
    if kind not in EXTENSIONS:
        return [f"ext {kind:02x} {content.hex() or '-'}"]
    name, form = EXTENSIONS[kind]
    return fields_lines(f"ext {kind:02x} {name}", form, content, 0)


def extension_json(kind: int, content: bytes) -> Json:
    shown = {"type": kind, "octets": content.hex()}
    if kind not in EXTENSIONS:
        return shown
    name, form = EXTENSIONS[kind]
    return {**shown, "name": name, **fields_of(form, content)}


def extension_headers(octets: bytes) -> Iterator[tuple[int, bytes]]:
    """The extension headers of a whole datagram (TS 29.281 5.2.1)."""
    kind, at = octets[11] if octets[0] & 4 else 0, 12
    while kind:
        after = at + 4 * octets[at]
        yield kind, octets[at + 1 : after - 1]
        kind, at = octets[after - 1], after


def front_headers(octets: bytes) -> tuple[list[tuple[int, bytes]], int, bytes]:
    """The extension headers of a datagram that says it has some, as far as they are whole; the type of the next one, or 0; and the octets
    that are left."""
    found, kind, rest = [], octets[11], octets[12:]
    while kind and rest and rest[0] and len(rest) >= 4 * rest[0]:
        size = 4 * rest[0]
        found.append((kind, rest[1 : size - 1]))
        kind, rest = rest[size - 1], rest[size:]
    return found, kind, rest


def has_headers(octets: bytes) -> bool:
    """Whether a datagram of the user plane says that extension headers follow: E is set, and the type of the first is not 0."""
    return len(octets) >= 12 and octets[0] & 4 != 0 and octets[11] != 0


def front_lines(octets: bytes) -> list[str]:
    """The lines of extension headers of a datagram at fault, and of what follows them."""
    found, kind, rest = front_headers(octets)
    mark = f"ext {kind:02x} short rest" if kind else "payload" if octets[1] == 255 else "rest"
    return [line for it in found for line in extension_line(*it)] + [f"{mark} {rest.hex() or '-'}"]


def front_members(octets: bytes) -> Json:
    """The same as JSON."""
    found, kind, rest = front_headers(octets)
    packet = {"payload": rest.hex()} if not kind and octets[1] == 255 else {}
    return {"extensions": [extension_json(*it) for it in found], **packet}
