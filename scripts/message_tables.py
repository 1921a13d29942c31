"""The tables of messages in crates/gtp_v2/specs: what they say of each message, and how they are read."""

from __future__ import annotations

import re
from collections.abc import Iterable, Iterator
from dataclasses import dataclass
from pathlib import Path

TOP = Path(__file__).resolve().parent.parent
CRATE = Path("crates/gtp_v2")
WRITTEN = "Written by scripts/messages from"


class Fault(Exception):
    """A table that cannot be read, or a list that is not found."""


def snake(name: str) -> str:
    return re.sub(r"(?<!^)(?=[A-Z])", "_", name).lower()


def require(holds: object, why: str) -> None:
    if not holds:
        raise Fault(why)


def text_of(path: Path, otherwise: str = "") -> str:
    """The text of a file, or another where there is no file."""
    return path.read_text(encoding="utf-8") if path.exists() else otherwise


def lines_of(lines: Iterable[str]) -> str:
    return "".join(f"{line}\n" for line in lines)


@dataclass(frozen=True)
class Element:
    """A type of element: what the standard calls it, its number, the type of its values, the crate that has that,
    and how a contract reads the number in it (nothing where it takes the value whole)."""

    name: str
    number: int
    type: str
    crate: str
    number_in: str = ""

    @property
    def form(self) -> str:
        """The name of its form in a specification."""
        return self.type.removesuffix("Value")

    @property
    def constant(self) -> str:
        """The name of its number in the program."""
        return self.snake.upper()

    @property
    def antt_number(self) -> str:
        return GROUP if self.crate == "gtp_v2" else f"(number_of {self.form})"

    @property
    def value(self) -> str:
        return f"Of{self.form}"

    @property
    def value_of(self) -> str:
        return f"(λ x. {self.value} x{self.number_in})" if self.number_in else self.value

    @property
    def snake(self) -> str:
        return "fteid" if self.type == "FTeid" else snake(self.form)

    @property
    def same(self) -> str:
        """The lemma that `==` of its values decides whether contracts see the same value."""
        return f"{self.snake}_same"

    @property
    def one(self) -> str:
        """That two values are one where contracts see the same."""
        return f"{self.snake}_one" if self.number_in else "(λ x y d. cc)"


# TS 29.274 8.1.
GROUP = "bearer_context"
ELEMENTS = {
    element.antt_number: element
    for element in [
        Element("IMSI", 1, "Imsi", "gtp_values"),
        Element("Cause", 2, "Cause", "gtp_values"),
        Element("Recovery", 3, "Recovery", "gtp_ie", ".0.0"),
        Element("APN", 71, "Apn", "gtp_values"),
        Element("AMBR", 72, "Ambr", "gtp_values"),
        Element("EPS Bearer ID", 73, "EbiValue", "gtp_ie", ".0"),
        Element("PAA", 79, "Paa", "gtp_values"),
        Element("Bearer QoS", 80, "Qos", "gtp_values"),
        Element("RAT Type", 82, "Rat", "gtp_ie", ".0"),
        Element("Serving Network", 83, "Plmn", "gtp_values"),
        Element("Bearer TFT", 84, "Tft", "gtp_values"),
        Element("F-TEID", 87, "FTeid", "gtp_values"),
        Element("Bearer Context", 93, "BearerContext", "gtp_v2"),
        Element("Charging ID", 94, "ChargingId", "gtp_ie", ".0"),
        Element("PDN Type", 99, "PdnType", "gtp_ie", ".0"),
        Element("PTI", 100, "Pti", "gtp_ie", ".0"),
        Element("Selection Mode", 128, "Selection", "gtp_ie", ".0"),
    ]
}

# The kinds whose struct is large: a body keeps it in memory of its own, and is small. Contracts see this as `boxed` in
# specs/Tables.antt: memory is allocated for each message of such a kind.
BOXED = ["CreateSessionRequest", "CreateSessionResponse"]

# The marks by the letters of PROTOCOL, which has B for the rows of a bearer context and A for those of a message.
MARKS = {"M": "Mandatory", "C": "Conditional", "A": "Accepted", "B": "Accepted", "O": "Optional"}


@dataclass(frozen=True)
class Row:
    """A row of at most one value."""

    field: str
    mark: str
    element: Element
    instance: int
    comment: str

    @property
    def is_option(self) -> bool:
        return self.mark in "ABO"

    @property
    def printed(self) -> str:
        return f"{self.element.number}/{self.instance} {self.mark}"


@dataclass(frozen=True)
class Several(Row):
    """A row of any number of values; it needs one where the rows before it have none, and then the first of
    these is told as missing."""

    before: tuple[Row, ...]

    is_option = False

    @property
    def printed(self) -> str:
        return f"{super().printed} L"

    @property
    def printed_after(self) -> str:
        """What PROTOCOL says after the rows."""
        places = [f"{row.element.number}/{row.instance}" for row in (*self.before, self)]
        return f"; {' or '.join(places)} must be there, else H6 for {places[0]}, conditional"


@dataclass(frozen=True)
class Group(Row):
    """A row of bearer contexts, in a message with a cause or without one."""

    context: Context
    accepting: str

    is_option = False

    @property
    def printed(self) -> str:
        return f"{super().printed} L {{{', '.join(row.printed for row in self.context.rows)}}}"


@dataclass(frozen=True)
class Part:
    """A message, or the bearer context in one: its name, what it is, and its rows."""

    name: str
    about: str
    rows: tuple[Row, ...]

    def __post_init__(self) -> None:
        places = [(row.element.number, row.instance) for row in self.rows]
        require(len(set(places)) == len(places), f"{self.name}: two rows of one type and instance")
        fields = [row.field for row in self.rows]
        require(len(set(fields)) == len(fields), f"{self.name}: two rows of one field")
        causes = [row for row in self.rows if row.element.number == 2]
        require(len(causes) < 2 and all(row.mark == "M" for row in causes), f"{self.name}: one cause, which is Mandatory")
        by_cause = [row for row in self.rows if row.mark in ("A", "B")]
        require(causes or not by_cause, f"{self.name}: Accepted wants a cause")
        decided = [self.rows.index(row) for row in [*by_cause, *self.groups]]
        is_before = all(self.rows.index(row) < min(decided, default=len(self.rows)) for row in causes)
        require(is_before, f"{self.name}: the cause stands before what it decides")

    @property
    def snake(self) -> str:
        return snake(self.name)

    @property
    def lists(self) -> list[Several | Group]:
        return [row for row in self.rows if isinstance(row, (Several, Group))]

    @property
    def groups(self) -> list[Group]:
        return [row for row in self.rows if isinstance(row, Group)]

    @property
    def checked(self) -> list[Row]:
        """The rows that are checked: an optional one is never at fault, but a list after it may depend on it."""
        after = [self.rows[place:] for place, _ in enumerate(self.rows, 1)]
        decides = [any(isinstance(row, Several) for row in rows) for rows in after]
        return [row for row, does in zip(self.rows, decides) if row.mark != "O" or row in self.lists or does]

    @property
    def accepted(self) -> list[Row]:
        """The rows that are needed where the causes accept."""
        return [row for row in self.rows if row.mark in ("A", "B") and row.is_option]

    @property
    def cause(self) -> Row | None:
        """The cause, where something depends on it."""
        causes = [row for row in self.rows if row.element.number == 2]
        return causes[0] if causes and (self.accepted or self.groups) else None


@dataclass(frozen=True)
class Context(Part):
    """The bearer context of a message."""


@dataclass(frozen=True)
class Message(Part):
    """A kind of message: what the standard calls it, its clause, its type, its name and its form of header."""

    title: str
    clause: str
    kind: int
    printed: str
    has_teid: bool

    @property
    def contexts(self) -> list[Context]:
        return [row.context for row in self.groups]

    @property
    def all_rows(self) -> list[Row]:
        return [row for part in [self, *self.contexts] for row in part.rows]

    @property
    def types(self) -> list[str]:
        return [part.name for part in [self, *self.contexts]]

    @property
    def constant(self) -> str:
        """The name of its type in the program."""
        return self.snake.upper()

    @property
    def is_boxed(self) -> bool:
        return self.name in BOXED


# The tables as they stand in specs/.

TITLE = re.compile(r"-- (.+)\.\n")
TABLE = re.compile(r"^((?:-- .*\n)*)abbrev pub (\w+) : (?:List Row|Table)\n\2 =\n((?:.+\n)+)", re.M)
RECORD = re.compile(
    r'\s*record \{\s*kind = (\d+);\s*name = codes "([a-z-]+)";\s*has_teid = (true|false);\s*lines =(.*);\s*\}\s*', re.S
)
SAYS = re.compile(r".+ \(TS 29\.274 (7[\d.]+)\)\..*")
CONTEXT_SAYS = re.compile(r".+ \(TS 29\.274 table (7[\d.]+)-\d+\)\..*")
LINE = re.compile(r"Single \((.+)\)|Grouped \((.+)\) (\w+)|Several (.+) (\d+)")
ROW = re.compile(r"(\w+) (\(number_of \w+\)|\w+) (\d+)")
COMMENT = re.compile(r"(\w+)(?: \(([^)]+)\))?: (.+)")


def members_of(text: str) -> Iterator[tuple[str, str]]:
    """The members of a list, each with the comment beside it."""
    *members, end = text.split("∷")
    require(end.strip() == "[]", "a list ends with []")
    for member in members:
        yield " ".join(re.sub("--.*", "", member).split()), " ".join(re.findall("-- *(.*)", member))


def row_of(row: str, comment: str, marks: str, is_group: bool = False) -> Row:
    said, noted = ROW.fullmatch(row), COMMENT.fullmatch(comment)
    require(said, f"{row}: a row is a mark, a type of element and an instance")
    require(noted, f"{row}: beside it stand its field and what that is for")
    mark, element, instance = said.groups()
    field, name, about = noted.groups()
    letters = {MARKS[letter]: letter for letter in marks}
    require(mark in letters, f"{field}: a mark among {', '.join(letters)}")
    require(element in ELEMENTS and (element == GROUP) == is_group, f"{field}: no row of {element} can stand here")
    require(int(instance) < 16, f"{field}: an instance below 16")
    require(name in (None, ELEMENTS[element].name), f"{field}: {element} is not {name}")
    return Row(field, letters[mark], ELEMENTS[element], int(instance), about)


def context_of(rows: str, about: str, body: str, clause: str) -> Context:
    name = "".join(word.capitalize() for word in rows.removesuffix("_rows").split("_"))
    said = CONTEXT_SAYS.fullmatch(about)
    require(said and said[1] == clause, f"{name}: a sentence that names its table, of the message's clause")
    context = Context(name, about, tuple(row_of(*member, "MCBO") for member in members_of(body)))
    require(context.rows and f"{context.snake}_rows" == rows, f"{name}: rows")
    return context


def line_of(line: str, comment: str, before: list[Row], contexts: list[Context]) -> Row:
    """A line of a message's table, after other lines."""
    said = LINE.fullmatch(line)
    require(said, f"{line}: a line is Single, Grouped or Several")
    single, grouped, rows, several, missed = said.groups()
    if single:
        return row_of(single, comment, "MCAO")
    if grouped:
        row = row_of(grouped, comment, "MCAO", is_group=True)
        is_one = row.instance == 0 and [f"{context.snake}_rows" for context in contexts] == [rows]
        require(is_one, f"{row.field}: bearer contexts of instance 0, and one table of what is in them")
        accepting = "accepting" if any(row.element.number == 2 for row in before) else "true"
        return Group(**vars(row), context=contexts[0], accepting=accepting)
    others = f", else {' or '.join(row.field for row in before)}"
    row = row_of(f"Optional {several}", comment.replace(f"{others}:", ":"), "O")
    require(before and all(row.mark == "O" for row in before), f"{row.field}: after optional rows alone")
    is_same = before[0].element is row.element and before[0].instance == int(missed)
    require(is_same, f"{row.field}: after a row of the same type, which is told as missing")
    require(f"{others}:" in comment, f"{row.field}: a field{others}")
    return Several(**vars(row), before=tuple(before))


def message_of(name: str, text: str) -> Message:
    title = TITLE.match(text)
    require(title and title[1].replace(" ", "").lower().startswith(name.lower()), "the file's name begins its title")
    tables = {named: (" ".join(re.findall("-- (.*)", about)), body) for about, named, body in TABLE.findall(text)}
    about, body = tables.pop(snake(name), ("", ""))
    said, record = SAYS.fullmatch(about), RECORD.fullmatch(body)
    require(record, f"a record {snake(name)} of kind, name, has_teid and lines")
    require(said, "above the table a sentence that names its clause")
    kind, printed, has_teid, lines = record.groups()
    contexts = [context_of(rows, *table, said[1]) for rows, table in tables.items()]
    rows: list[Row] = []
    for member in members_of(lines):
        rows.append(line_of(*member, rows, contexts))
    message = Message(name, about, tuple(rows), title[1], said[1], int(kind), printed, has_teid == "true")
    require(message.contexts == contexts, "a row of bearer contexts for each table of what is in them")
    for row in message.lists:
        following = rows[rows.index(row) + 1 :]
        harmless = all(other.mark == "O" and other not in message.lists for other in following)
        require(harmless, f"{row.field}: after a list a row that can be at fault")
    return message


def all_messages() -> list[Message]:
    messages: list[Message] = []
    for path in sorted((TOP / CRATE / "specs").glob("*.antt")):
        text = text_of(path)
        if not re.search(r"^abbrev pub \w+ : Table$", text, re.M):
            continue
        try:
            messages.append(message_of(path.stem, text))
        except Fault as fault:
            raise Fault(f"{path.name}: {fault}") from fault
    for several in ([message.kind for message in messages], [name for message in messages for name in message.types]):
        twice = sorted(one for one in set(several) if several.count(one) > 1)
        require(not twice, f"{twice} stands in two tables")
    require(all(0 < message.kind < 256 for message in messages), "a type is one octet, and not 0")
    others = sorted({*BOXED} - {message.name for message in messages})
    require(not others, f"{others} has no table, and is among BOXED")
    return sorted(messages, key=lambda message: message.kind)
