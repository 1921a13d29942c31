"""Forms of values as data; one reader of octets by all of them; and what it tells, as lines and as JSON. Written after the standards
and not after the program."""

from __future__ import annotations

from collections.abc import Iterator
from dataclasses import dataclass, field as by_default
from typing import Optional, Union

# How many forms may stand in one another.
DEEPEST = 8

Json = dict[str, object]


@dataclass(frozen=True)
class View:
    """How octets are seen, and the name of that: bits of a number from a place on, or a text."""

    how: str
    name: str = ""
    begin: int = 0
    count: int = 0
    words: dict[int, str] = by_default(default_factory=dict)

    def number(self, octets: bytes) -> int:
        """Its bits of the number in octets."""
        return int.from_bytes(octets, "big") >> self.begin & (1 << self.count) - 1


@dataclass(frozen=True)
class Field:
    """So many octets, or all that are left."""

    size: Optional[int]
    views: tuple[View, ...]


@dataclass(frozen=True)
class Keep:
    """The number in octets is kept, without passing them."""

    size: int


@dataclass(frozen=True)
class May:
    """The reading may end here."""


@dataclass(frozen=True)
class Choose:
    """The part and the form of bits of the kept number, or of any other."""

    begin: int
    count: int
    cases: dict[int, tuple[str, str]]
    other: Optional[tuple[str, str]]


@dataclass(frozen=True)
class Items:
    """Items of a form in a list: to the end, or as many as bits of the kept number say."""

    bits: Optional[tuple[int, int]]
    name: str
    form: str


@dataclass(frozen=True)
class Sized:
    """Octets that state a length, which counts some octets before its contents."""

    size: int
    form: str
    less: int


Step = Union[Field, Keep, May, Choose, Items, Sized]
Form = list[Step]

MAY = May()
NETWORK = View("network")
SPARE = View("spare")


def number(name: str, begin: int, count: int) -> View:
    return View("number", name, begin, count)


def named(name: str, begin: int, count: int, words: dict[int, str]) -> View:
    return View("number", name, begin, count, words)


def flag(name: str, bit: int) -> View:
    return View("flag", name, bit, 1)


def digits(name: str) -> View:
    return View("digits", name)


def address(name: str) -> View:
    return View("address", name)


def labels(name: str) -> View:
    return View("labels", name)


def text(name: str) -> View:
    return View("text", name)


def zone(name: str) -> View:
    return View("zone", name)


def octets(name: str) -> View:
    return View("octets", name)


def field(size: int, *views: View) -> Field:
    return Field(size, views)


def flags(names: str) -> Field:
    """An octet of flags from bit 8 down; a dot is a spare bit."""
    return Field(1, tuple(flag(name, 7 - place) for place, name in enumerate(names.split()) if name != "."))


def rest(view: View) -> Field:
    return Field(None, (view,))


def keep(size: int) -> Keep:
    return Keep(size)


def choose(begin: int, count: int, cases: dict[int, tuple[str, str]], other: Optional[tuple[str, str]] = None) -> Choose:
    return Choose(begin, count, cases, other)


def when(bit: int, part: str, form: str) -> Choose:
    return Choose(bit, 1, {1: (part, form)}, None)


def each(name: str, form: str) -> Items:
    return Items(None, name, form)


def times(begin: int, count: int, name: str, form: str) -> Items:
    return Items((begin, count), name, form)


def sized(size: int, form: str, less: int = 0) -> Sized:
    return Sized(size, form, less)


# ---- Reading


@dataclass(frozen=True)
class Value:
    """Octets, and how they are seen."""

    views: tuple[View, ...]
    octets: bytes


@dataclass(frozen=True)
class Part:
    """What a part tells."""

    name: str
    told: Told


@dataclass(frozen=True)
class Listed:
    """What each item of a list tells."""

    name: str
    items: list[Told]


@dataclass(frozen=True)
class Missing:
    """Octets are missing here."""


@dataclass(frozen=True)
class Left:
    """Octets are left here."""

    octets: bytes


Told = list[Union[Value, Part, Listed, Missing, Left]]


class Reading:
    """The octets that are left, and whether some are missing."""

    def __init__(self, forms: dict[str, Form], octets: bytes) -> None:
        self.forms, self.left, self.is_short = forms, octets, False

    def passed(self, size: int) -> bytes:
        front, self.left = self.left[:size], self.left[size:]
        return front

    def lacks(self, size: int) -> bool:
        self.is_short = len(self.left) < size
        return self.is_short

    def form(self, name: str, kept: int, depth: int = DEEPEST) -> Told:
        """What a form tells; a number that it keeps is its own."""
        told: Told = []
        if depth == 0:
            self.is_short = True
            return told
        for step in self.forms[name]:
            if isinstance(step, May):
                if not self.left:
                    break
            elif isinstance(step, Keep):
                if not self.lacks(step.size):
                    kept = int.from_bytes(self.left[: step.size], "big")
            else:
                told += self.step(step, kept, depth - 1)
            if self.is_short:
                break
        return told

    def step(self, step: Step, kept: int, depth: int) -> Told:
        if isinstance(step, Field):
            size = len(self.left) if step.size is None else step.size
            return [] if self.lacks(size) else [Value(step.views, self.passed(size))]
        if isinstance(step, Choose):
            chosen = step.cases.get(bits(kept, step.begin, step.count), step.other)
            if chosen is None:
                return []
            told = self.form(chosen[1], kept, depth)
            return [Part(chosen[0], told)] if chosen[0] else told
        if isinstance(step, Items):
            return [Listed(step.name, self.items(step, kept, depth))]
        assert isinstance(step, Sized)
        return self.sized(step, kept, depth)

    def items(self, step: Items, kept: int, depth: int) -> list[Told]:
        found: list[Told] = []
        while not self.is_short and (self.left if step.bits is None else len(found) < bits(kept, *step.bits)):
            found.append(self.form(step.form, kept, depth))
        return found

    def sized(self, step: Sized, kept: int, depth: int) -> Told:
        size = int.from_bytes(self.left[: step.size], "big") - step.less
        if self.lacks(step.size) or size < 0 or self.lacks(step.size + size):
            self.is_short = True
            return []
        head = Value((), self.passed(step.size))
        inner = Reading(self.forms, self.passed(size))
        return [head, *inner.whole(step.form, kept, depth)]

    def whole(self, name: str, kept: int = 0, depth: int = DEEPEST) -> Told:
        """What a form tells of all octets."""
        told = self.form(name, kept, depth)
        if self.is_short:
            told.append(Missing())
        if self.left:
            told.append(Left(self.left))
        return told


def bits(of: int, begin: int, count: int) -> int:
    return of >> begin & (1 << count) - 1


# ---- Texts


def is_printable(octets: bytes) -> bool:
    return all(32 < octet < 127 for octet in octets)


def digits_text(octets: bytes) -> str:
    halves = "".join(f"{octet & 15:x}{octet >> 4:x}" for octet in octets)
    return halves[:-1] if halves.endswith("f") else halves


def labels_text(octets: bytes) -> Optional[str]:
    """Labels with dots between them, or None."""
    found, left = [], octets
    while left:
        size, label = left[0], left[1 : 1 + left[0]]
        if size == 0 or len(label) < size or not is_printable(label):
            return None
        found.append(label.decode("ascii"))
        left = left[1 + size :]
    return ".".join(found)


def zone_text(octets: bytes) -> str:
    quarters = 10 * (octets[0] & 7) + (octets[0] >> 4)
    return f"{'-' if octets[0] & 8 else '+'}{quarters // 4:02}:{quarters % 4 * 15:02}"


def text_of(how: str, octets: bytes) -> str:
    if how == "digits":
        return digits_text(octets)
    if how == "address" and len(octets) == 4:
        return ".".join(map(str, octets))
    if how == "labels":
        found = labels_text(octets)
        return octets.hex() if found is None else found
    if how == "text" and is_printable(octets):
        return octets.decode("ascii")
    return zone_text(octets) if how == "zone" else octets.hex()


# A name, a value, and the word of that: of a flag True.
Seen = tuple[str, Union[int, str, bool], Optional[str]]


def seen(view: View, octets: bytes) -> Iterator[Seen]:
    """What a view sees in octets."""
    if view.how == "number":
        found = view.number(octets)
        yield view.name, found, view.words.get(found)
    elif view.how == "flag":
        if view.number(octets):
            yield view.name, True, None
    elif view.how == "network":
        first, second, third = octets
        yield "mcc", f"{first & 15:x}{first >> 4:x}{second & 15:x}", None
        yield "mnc", f"{third & 15:x}{third >> 4:x}" + ("" if second >> 4 == 15 else f"{second >> 4:x}"), None
    elif view.how == "spare":
        if any(octets):
            yield "spare", octets.hex(), None
    else:
        yield view.name, text_of(view.how, octets), None


# ---- JSON and lines


def object_of(told: Told) -> Json:
    """The members of what is told."""
    members: Json = {}
    for it in told:
        if isinstance(it, Value):
            for view in it.views:
                for name, value, word in seen(view, it.octets):
                    members[name or "value"] = value
                    if word:
                        members[f"{name or 'value'}_name"] = word
        elif isinstance(it, Part):
            members[it.name] = object_of(it.told)
        elif isinstance(it, Listed):
            members[it.name] = [object_of(item) for item in it.items]
        elif isinstance(it, Missing):
            members["short"] = True
        else:
            members["rest"] = it.octets.hex()
    return members


# Lists whose items have no name.
BARE = {"components"}


class Lines:
    """Text of lines: the last one is open while what follows belongs to it."""

    def __init__(self, head: str) -> None:
        self.text, self.is_open = head, True

    def begin(self, depth: int, name: str) -> None:
        self.text += "\n" + depth * " " + name
        self.is_open = True

    def say(self, depth: int, words: str) -> None:
        if not self.is_open:
            self.begin(depth + 1, "")
        self.text += words

    def inner(self, depth: int, told: Told) -> None:
        self.put(depth, told)
        self.is_open = False

    def put(self, depth: int, told: Told) -> None:
        for it in told:
            if isinstance(it, Value):
                words = [shown(*one) for view in it.views for one in seen(view, it.octets)]
                if words:
                    self.say(depth, "".join(words))
            elif isinstance(it, Part):
                self.begin(depth + 2, it.name)
                self.inner(depth + 2, it.told)
            elif isinstance(it, Listed):
                self.items(depth, it)
            elif isinstance(it, Missing):
                self.say(depth, " short")
            else:
                self.say(depth, f" rest {it.octets.hex()}")

    def items(self, depth: int, listed: Listed) -> None:
        for item in listed.items:
            if listed.name in BARE:
                self.is_open = False
                self.inner(depth, item)
            else:
                self.begin(depth + 2, listed.name.removesuffix("s"))
                self.inner(depth + 2, item)


def shown(name: str, value: Union[int, str, bool], word: Optional[str]) -> str:
    if value is True:
        return f" {name}"
    named_value = f" {name}" if name else ""
    return f"{named_value} {'-' if value == '' else value}" + (f" {word}" if word else "")


def lines_of(head: str, told: Told, depth: int = 0) -> str:
    """The head, and the lines of what is told behind it."""
    lines = Lines(head)
    lines.put(depth, told)
    return lines.text
