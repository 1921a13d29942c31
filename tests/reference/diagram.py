"""The run of a scenario as a sequence diagram, in plain text and as a picture (SVG)."""

from __future__ import annotations

from collections.abc import Iterator
from typing import Union

from gateways import PACKET, SERVING, Told, has_two, last_message
from setups import text_of
from words import MESSAGES
from world import Happened, World, outcome_text

HEAD = "event  serving                                                     packet  outcome"
WIDTH = 64  # of what stands between the lines of both gateways


def datagram_name(number: int, plane: str, octets: bytes) -> str:
    """The number of a datagram, the names of its messages, and the TEID of the first header, where it has one."""
    kind = octets[1]
    name = MESSAGES[plane][kind]
    if plane == "control" and has_two(octets):
        name += f" + {MESSAGES[plane][last_message(octets)[1]]}"
    has_teid = octets[0] & 8 if plane == "control" else kind in (254, 255)
    return f"{number} {name}" + (f" {octets[4:8].hex()}" if has_teid else "")


def line(place: int | str, middle: str, outcome: str = "") -> str:
    return f"{place:>5}  {middle}" + (f"  {outcome}" if outcome else "")


def mark(node: str, sign: str, label: str) -> str:
    """What happens at one gateway."""
    if node == SERVING:
        return f"{sign} {label:{WIDTH - 1}}|"
    return f"|{label:>{WIDTH - 1}} {sign}"


def arrow(sender: str, label: str) -> str:
    if sender == SERVING:
        return f"|--- {label} ".ljust(WIDTH, "-") + ">|"
    return f"|<-- {label} ".ljust(WIDTH + 1, "-") + "|"


def lost(sender: str, label: str) -> str:
    if sender == SERVING:
        return f"|--- {label} ---x".ljust(WIDTH + 1) + "|"
    return "|" + f"x--- {label} ---|".rjust(WIDTH + 1)


def brought(happened: Happened) -> int | None:
    """The number of the datagram that comes by an event, if one does."""
    comes = happened.event["do"] in ("deliver", "cut") and happened.told.outcome not in ("N1", "N3")
    return happened.event["datagram"] if comes else None


def is_quiet(happened: Happened) -> bool:
    told = happened.told
    return happened.event["do"] == "tick" and not (told.sent or told.gave_up or told.forgot)


def label_of(world: World, number: int, ending: str = "") -> str:
    return datagram_name(number, *world.datagrams[number][1:]) + ending


def coming_of(happened: Happened, came: set[int | None]) -> tuple[str, str]:
    """How a datagram comes by an event, where these came before: a word for it, and how its label ends."""
    if happened.event["do"] == "cut":
        return "cut", f" (cut to {happened.event['length']})"
    return ("again", " (again)") if brought(happened) in came else ("", "")


def event_label(happened: Happened) -> str:
    """What an event is, by which no datagram comes."""
    if happened.event["do"] == "tick":
        told = happened.told
        counts = {"sends again": told.sent, "gives up": told.gave_up, "forgets": told.forgot}
        return ", ".join(["tick"] + [f"{word} {len(those)}" for word, those in counts.items() if those])
    number = happened.event.get("datagram")
    return happened.event["do"] + ("" if number is None else f" {number}")


# How many ticks a row stands for; or how a datagram comes and how its label ends; or nothing more.
More = Union[int, tuple[str, str], None]
# What a row is, the event or the number of the datagram that it is made from, and what more.
Row = tuple[str, Union[Happened, int], More]


def in_groups(story: list[Happened]) -> Iterator[list[Happened]]:
    """The events one by one, but ticks at one gateway in which nothing was due together."""
    group = []
    for happened in story:
        if group and not (is_quiet(happened) and is_quiet(group[0]) and happened.node == group[0].node):
            yield group
            group = []
        group.append(happened)
    if group:
        yield group


def rows(world: World, story: list[Happened]) -> Iterator[Row]:
    """The rows of a diagram: what each is, and what it is made from."""
    comes, came = {brought(happened) for happened in story}, set()
    for first, *others in in_groups(story):
        if is_quiet(first):
            yield "idles", first, len(others) + 1
        elif brought(first) is not None:
            yield "comes", first, coming_of(first, came)
        else:
            yield "happens", first, None
        came.add(brought(first))
        for number in range(first.before, first.before + len(first.told.sent)):
            if number not in comes:
                yield "lost", number, None


def text_line(world: World, kind: str, what: Happened | int, more: More) -> str:
    """A row as a line of text."""
    if kind == "lost":
        return line("", lost(world.datagrams[what][0], label_of(world, what)), "lost")
    if kind == "comes":
        number = brought(what)
        label = label_of(world, number, more[1])
        return line(what.number, arrow(world.datagrams[number][0], label), outcome_text(what.told))
    if kind == "idles":
        return line(what.number, mark(what.node, "~", "1 tick" if more == 1 else f"{more} ticks"))
    do = what.event["do"]
    middle = mark(what.node, {"restart": "#", "tick": "~"}.get(do, "o"), event_label(what))
    return line(what.number, middle, "" if do == "tick" else outcome_text(what.told))


def diagram_lines(world: World, story: list[Happened]) -> Iterator[str]:
    yield HEAD
    yield from (text_line(world, *row) for row in rows(world, story))


# ---- as a picture

STYLE = ("<style>path{stroke:#333;fill:none}.user path{stroke:#06c;stroke-dasharray:6 3}.again path{stroke:#999}"
         ".lost path,.cut path{stroke:#b00}.life{stroke:#bbb}.label{text-anchor:middle}.place,.end{text-anchor:end}"
         ".place,.tick text{fill:#777}.tick rect{fill:#bbb}.restart rect,.refused{fill:#b00}</style>")
ARROWS = ('<defs><marker id="arrow" viewBox="0 0 8 8" refX="8" refY="4" markerWidth="8" markerHeight="8" orient="auto">'
          '<path d="M0 0L8 4L0 8"/></marker><marker id="cross" viewBox="0 0 8 8" refX="4" refY="4" markerWidth="8" '
          'markerHeight="8"><path d="M0 0L8 8M8 0L0 8"/></marker></defs>')


def arrow_svg(world: World, number: int, kind: str, label: str) -> str:
    """The arrow of a datagram, whose octets are its tooltip."""
    sender, plane, octets = world.datagrams[number]
    start, end, short = (150, 650, 600) if sender == SERVING else (650, 150, 200)
    way = f'M{start} 0H{short}" marker-end="url(#cross)' if kind == "lost" else f'M{start} 0H{end}" marker-end="url(#arrow)'
    return (f'<g class="{" ".join([plane, kind]).strip()}"><title>{octets.hex() or "-"}</title><path d="{way}"/>'
            f'<text class="label" x="400" y="-8">{label}</text></g>')


def mark_svg(node: str, kind: str, label: str) -> str:
    """What happens at one gateway."""
    x, text = (145, '<text x="162" y="4">') if node == SERVING else (645, '<text class="end" x="638" y="4">')
    return f'<g class="{kind}"><rect x="{x}" y="-5" width="10" height="10"/>{text}{label}</text></g>'


def outcome_svg(told: Told) -> str:
    kind = "refused" if told.outcome[0] in "GXN" else "outcome"
    return f'<text class="{kind}" x="680" y="4">{outcome_text(told)}</text>'


def row_svg(world: World, kind: str, what: Happened | int, more: More) -> str:
    """A row as a group of a picture, without its place in it."""
    if kind == "lost":
        return arrow_svg(world, what, "lost", label_of(world, what))
    place = f'<text class="place" x="60" y="4">{what.number}</text>'
    if kind == "comes":
        number = brought(what)
        return place + arrow_svg(world, number, more[0], label_of(world, number, more[1])) + outcome_svg(what.told)
    if kind == "idles":
        return place + mark_svg(what.node, "tick", "1 tick" if more == 1 else f"{more} ticks")
    do = what.event["do"]
    seen = mark_svg(what.node, do if do in ("tick", "restart") else "event", event_label(what))
    return place + seen + ("" if do == "tick" else outcome_svg(what.told))


def sample(kind: str, x: int, y: int, mark: str, label: str, at: int) -> str:
    return f'<g class="{kind}" transform="translate({x},{y})">{mark}<text x="{at}" y="4">{label}</text></g>'


def legend() -> Iterator[str]:
    """What lines and squares mean, and the heads of the columns."""
    arrow, square = '<path d="M0 0H40" marker-end="url(#arrow)"/>', '<rect x="0" y="-5" width="10" height="10"/>'
    cross = '<path d="M0 0H36" marker-end="url(#cross)"/>'
    lines = [("control", 150), ("user", 270), ("again", 370), ("cut", 470), ("lost", 570)]
    yield "".join(sample(kind, x, 20, cross if kind == "lost" else arrow, kind, 48) for kind, x in lines)
    yield ("".join(sample(kind, x, 40, square, kind, 18) for kind, x in [("event", 150), ("restart", 270), ("tick", 370)])
           + '<text class="refused" x="470" y="44">refused or dropped</text>')
    yield ('<text class="place" x="60" y="66">event</text><text class="label" x="150" y="66">serving</text>'
           '<text class="label" x="650" y="66">packet</text><text x="680" y="66">outcome</text>')


def address_of(world: World, node: str, plane: str) -> str:
    return text_of(getattr(world.setups[node], plane))


def svg_lines(world: World, story: list[Happened]) -> Iterator[str]:
    groups = [row_svg(world, *row) for row in rows(world, story)]
    height = 130 + 30 * len(groups)
    yield f'<svg xmlns="http://www.w3.org/2000/svg" width="1000" height="{height}" font-family="monospace" font-size="12">'
    yield STYLE
    yield ARROWS
    yield '<rect width="100%" height="100%" fill="#fff"/>'
    yield from legend()
    for x, node in (150, SERVING), (650, PACKET):
        for y, plane in (82, "control"), (98, "user"):
            yield f'<text class="label" x="{x}" y="{y}">{plane} {address_of(world, node, plane)}</text>'
    yield f'<path class="life" d="M150 105V{height}M650 105V{height}"/>'
    for index, group in enumerate(groups):
        yield f'<g transform="translate(0,{130 + 30 * index})">{group}</g>'
    yield "</svg>"
