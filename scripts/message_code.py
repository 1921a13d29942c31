"""The Rattle code of messages, from their tables: the struct of each with its methods, and what a datagram is checked by."""

from __future__ import annotations

import textwrap
from collections.abc import Callable, Iterable

from message_tables import MARKS, WRITTEN, Group, Message, Part, Row, Several, lines_of

# The types whose values are more than a few octets.
LARGE = ["Apn", "FTeid", "Paa", "Qos", "Tft"]


class SingleCode:
    """The code of a row of at most one value."""

    def __init__(self, row: Row) -> None:
        self.row = row

    @property
    def type(self) -> str:
        return f"Option<{self.row.element.type}>" if self.row.is_option else self.row.element.type

    @property
    def functions(self) -> dict[str, set[str]]:
        """The functions that read, measure and write it, by their modules."""
        return {"single_rows": {self.builder, self.reader}, "encoded_length": {f"after_{self.shape}"}, "writing": {f"put_{self.shape}"}}

    @property
    def shape(self) -> str:
        return "option" if self.row.is_option else "row"

    @property
    def builder(self) -> str:
        """The function that builds its value, of elements that pass."""
        return {"M": "mandatory", "C": "conditional", "O": "optional"}.get(self.row.mark, "needed_if")

    @property
    def reader(self) -> str:
        """The function that reads its value, of any elements."""
        return {"M": "read", "C": "read_conditional", "O": "optional"}.get(self.row.mark, "read_if")

    def call(self, function: str) -> str:
        given = "accepting, " if self.row.mark in "AB" else ""
        return f"{function}::<{self.row.element.type}>({given}elements, {self.row.instance})"

    @property
    def build(self) -> str:
        return f"let {self.row.field} = {self.call(self.builder)};"

    @property
    def read(self) -> str:
        """The same of any elements, in a function that answers an option."""
        return f"let {self.row.field} = {self.call(self.reader)}{'' if self.row.mark == 'O' else '?'};"

    @property
    def read_apart(self) -> str:
        """The same, a large value checked first and then built: so it is not moved out of an option."""
        if self.row.mark == "O" or self.row.element.type not in LARGE:
            return self.read
        return f"let Some(_) = {self.call(self.reader)} else {{ return None; }}; {self.build}"

    def passes(self, named: bool) -> str:
        """The same in a function that answers whether the elements pass, and its value has a name where it is used."""
        if self.row.mark == "O":
            return f"let {'' if named else '_'}{self.row.field} = {self.call(self.reader)};"
        return f"let Some({self.row.field if named else '_'}) = {self.call(self.reader)} else {{ return false; }};"

    @property
    def write(self) -> str:
        return f"put_{self.shape}(out, {self.row.instance}, &self.{self.row.field})?;"

    @property
    def room(self) -> str:
        return f"after_{self.shape}(room, &self.{self.row.field})"

    @property
    def is_there(self) -> str:
        return f"self.{self.row.field}.is_some()"

    @property
    def code_row(self) -> str:
        return f"Row::{MARKS[self.row.mark]}({self.row.element.constant}, {self.row.instance})"

    @property
    def code_line(self) -> str:
        return f"Line::Single({self.code_row})"


class SeveralCode(SingleCode):
    """The code of a row of any number of values."""

    row: Several
    reading = "several_at"

    @property
    def missed(self) -> Row:
        return self.row.before[0]

    @property
    def type(self) -> str:
        return f"Listed<{self.row.element.type}>"
    @property
    def functions(self) -> dict[str, set[str]]:
        return {"list_rows": {"read_several", "several", "several_pass"}, "encoded_length": {"after_several"}, "writing": {"put_several"}}

    @property
    def build(self) -> str:
        return f"let {self.row.field} = several::<{self.row.element.type}>(alloc, elements, {self.row.instance})?;"

    @property
    def is_needed(self) -> str:
        return " && ".join(f"{row.field}.is_none()" for row in self.row.before)

    @property
    def read_apart(self) -> str:
        return f"let {self.row.field} = read_several::<{self.row.element.type}>(alloc, {self.is_needed}, elements, {self.row.instance})?;"

    @property
    def passed(self) -> str:
        """Whether all its values read, and there is one where that is needed."""
        return f"several_pass::<{self.row.element.type}>({self.is_needed}, elements, {self.row.instance})"

    @property
    def write(self) -> str:
        return f"put_several(out, {self.row.instance}, self.{self.row.field}.as_slice())?;"

    @property
    def room(self) -> str:
        return f"after_several(room, self.{self.row.field}.as_slice())"

    @property
    def asks(self) -> str:
        return " || ".join([row.is_there for row in codes_of(self.row.before)] + [f"!self.{self.row.field}.as_slice().is_empty()"])

    @property
    def code_line(self) -> str:
        return f"Line::Several({self.row.element.constant}, {self.row.instance}, {self.missed.instance})"


class GroupCode(SingleCode):
    """The code of a row of bearer contexts."""

    row: Group
    reading = "some_groups"

    @property
    def type(self) -> str:
        return f"Listed<{self.row.context.name}>"

    @property
    def functions(self) -> dict[str, set[str]]:
        return {"grouped_rows": {"contexts", "contexts_pass", "read_contexts"}, "encoded_length": {"after_contexts"}, "writing": {"put_contexts"}}

    @property
    def need(self) -> str:
        """Who needs one; where the causes accept, in a variable of its own."""
        return {"A": "need", "O": "Need::Optional"}.get(self.row.mark, f"Need::{MARKS[self.row.mark]}")

    @property
    def let_need(self) -> str:
        return "let need = Need::where_accepting(accepting);" if self.row.mark == "A" else ""

    @property
    def build(self) -> str:
        return f"let {self.row.field} = contexts::<{self.row.context.name}>(alloc, {self.row.accepting}, elements)?;"

    @property
    def read_apart(self) -> str:
        given = f"alloc, {self.need}, {self.row.accepting}, elements"
        return f"{self.let_need} let {self.row.field} = read_contexts::<{self.row.context.name}>({given})?;"

    @property
    def passed(self) -> str:
        """Whether all of them have what their rows ask, and there is one where that is needed."""
        return f"contexts_pass::<{self.row.context.name}>({self.need}, {self.row.accepting}, elements)"

    @property
    def write(self) -> str:
        return f"put_contexts(out, self.{self.row.field}.as_slice())?;"

    @property
    def room(self) -> str:
        return f"after_contexts(room, self.{self.row.field}.as_slice())"

    @property
    def asks(self) -> str:
        return f"contexts_meet({self.need}, {self.row.accepting}, self.{self.row.field}.as_slice())"

    @property
    def code_line(self) -> str:
        return f"Line::Grouped({self.code_row}, {self.row.context.snake.upper()}_ROWS)"


def code_of(row: Row) -> SingleCode:
    return {Row: SingleCode, Several: SeveralCode, Group: GroupCode}[type(row)](row)


def codes_of(rows: Iterable[Row]) -> list[SingleCode]:
    return [code_of(row) for row in rows]


class PartCode:
    """The code of a message, or of the bearer context in one."""

    def __init__(self, part: Part) -> None:
        self.part = part
        self.rows, self.accepted = codes_of(part.rows), codes_of(part.accepted)
        self.lists = [row for row in self.rows if isinstance(row, (SeveralCode, GroupCode))]
        self.groups = [row for row in self.lists if isinstance(row, GroupCode)]

    @property
    def accepted_are_there(self) -> str:
        are_there = " && ".join(row.is_there for row in self.accepted)
        return f"({are_there})" if len(self.accepted) > 1 else are_there

    @property
    def of_fields(self) -> str:
        """One, from variables that are called as its fields."""
        return f"{self.part.name} {{ {', '.join(row.field for row in self.part.rows)} }}"

    def struct(self) -> str:
        derived = "Debug, Drop, PartialEq, Eq" if self.lists else "Clone, Copy, Debug, PartialEq, Eq"
        fields = "".join(documented(it.row.comment) + f"pub {it.row.field}: {it.type},\n" for it in self.rows)
        return f"{documented(self.part.about)}#[derive({derived})]\npub struct {self.part.name} {{\n{fields}}}\n"

    def with_cause(self, rows: list[SingleCode], accepting: str, statement: Callable[[SingleCode], str]) -> str:
        """A statement a row, and after the cause whether it accepts."""
        said = f" let accepting = {accepting.format(self.part.cause.field)};" if self.part.cause else ""
        return "".join(statement(it) + (said if it.row is self.part.cause else "") for it in rows)

    def methods(self, build: str, built: str, accepting: str, passing: str, marks: str) -> str:
        """The methods of a part, from how it is built, what its cause says, whether it passes, and what its marks ask."""
        statements = self.with_cause(self.rows, accepting, lambda row: row.build)
        rooms = [row.room for row in self.rows]
        room = "".join(f"let room = {left}?;" for left in rooms[:-1]) + (rooms or ["Some(room)"])[-1]
        return f"""
            {build} {{
                {statements}
                {built.format(self.of_fields)}
            }}

            {passing}

            #[tactic(auto, using(crate::proofs::Appends::appending))]
            fn write(&self, {'out' if self.rows else '_out'}: &mut Vec<u8>) -> Result<(), AllocError> {{
                {''.join(row.write for row in self.rows)}
                Ok(())
            }}

            #[tactic(auto, using(crate::proofs::Measured::measuring))]
            fn room_after(&self, room: usize) -> Option<usize> {{
                {room}
            }}

            {marks}
        }}
        """


class ContextCode(PartCode):
    """The code of the bearer context of a message."""

    def code(self) -> str:
        accepting = "accepting" if self.accepted else "_accepting"
        asked = "true"
        if self.accepted:
            asked = f"!(accepting && self.{self.part.cause.field}.is_accepting()) || {self.accepted_are_there}"
        build = f"""
            #[inline(always)]
            #[tactic(auto, unfolding(crate::specs::reading::Rows::rows_at))]
            fn build({accepting}: bool, elements: &Indexed) -> {self.part.name}"""
        is_accepting = "accepting && {}.is_accepting()"
        read = self.with_cause(self.rows, is_accepting, lambda row: row.read)
        reading = f"""
            #[inline(always)]
            #[tactic(auto, unfolding(crate::specs::reading::Rows::rows_at))]
            fn read({accepting}: bool, elements: &Indexed) -> Option<{self.part.name}> {{
                {read}
                Some({self.of_fields})
            }}"""
        marks = f"fn meets_marks(&self, {accepting}: bool) -> bool {{ {asked} }}"
        return f"""{self.struct()}
        impl Context for {self.part.name} {{
            ghost rows = {{ {self.part.snake}_rows }};

            ghost values = {{ {self.part.snake}_values }};
            {self.methods(build, "{}", is_accepting, reading, marks)}"""


class MessageCode(PartCode):
    """The code of a message."""

    part: Message

    @property
    def built(self) -> str:
        """The datagram, from what its struct says."""
        value = "Boxed::new(alloc, {})?" if self.part.is_boxed else "{}"
        return f"let body = Body::{self.part.name}({value}); Ok(Datagram::of(header, body))"

    def reading(self) -> str:
        """What any elements say, where they have what the rows ask."""
        statements = self.with_cause(self.rows, "{}.is_accepting()", lambda row: row.read_apart)
        value = f"Boxed::new(alloc, {self.of_fields}).ok()?" if self.part.is_boxed else self.of_fields
        unfolded = ["lines_at", *sorted({row.reading for row in self.lists if isinstance(row, SeveralCode)})]
        return f"""

            #[inline(never)]
            #[tactic(auto, unfolding({', '.join(f'crate::specs::reading::Rows::{name}' for name in unfolded)}))]
            fn read({self.alloc}: Global, {'elements' if self.rows else '_elements'}: &Indexed) -> Option<Body> {{
                {statements}
                Some(Body::{self.part.name}({value}))
            }}"""

    @property
    def alloc(self) -> str:
        return "alloc" if self.lists or self.part.is_boxed else "_alloc"

    def marks(self) -> str:
        asked = [f"(!accepting || {self.accepted_are_there})"] if self.accepted else []
        asked += [row.asks for row in self.lists]
        accepting = f"let accepting = self.{self.part.cause.field}.is_accepting();" if self.part.cause else ""
        needs = "".join(row.let_need for row in self.groups)
        return f"fn meets_marks(&self) -> bool {{ {accepting} {needs} {' && '.join(asked) or 'true'} }}"

    @property
    def asking(self) -> list[SingleCode]:
        """The rows up to the last that can be at fault, without the list."""
        rows, lists = self.part.rows, self.part.lists
        can_fail = [place for place, row in enumerate(rows) if row.mark != "O" or row in lists]
        return codes_of(row for row in rows[: max(can_fail, default=-1) + 1] if row not in lists)

    def passing(self) -> str:
        """Whether elements have what the rows ask: each row that is needed in order, and the list at the end."""
        used = [row for several in self.part.lists if isinstance(several, Several) for row in several.before]
        used += [self.part.cause] if self.part.cause else []
        statements = self.with_cause(self.asking, "{}.is_accepting()", lambda it: it.passes(it.row in used))
        passed = "".join(row.passed for row in self.lists) or "true"
        needs = "".join(row.let_need for row in self.groups)
        unfolded = ["lines_at", *sorted({row.reading for row in self.lists if isinstance(row, SeveralCode)})]
        return f"""
            #[inline(never)]
            #[tactic(auto, unfolding({', '.join(f'crate::specs::reading::Rows::{name}' for name in unfolded)}))]
            fn passes({'elements' if self.asking or self.lists else '_elements'}: &Indexed) -> bool {{
                {statements} {needs}
                {passed}
            }}"""

    def imports(self) -> str:
        names: dict[str, set[str]] = {}
        for it in codes_of(self.part.all_rows):
            for module, functions in it.functions.items():
                names.setdefault(f"crate::{module}", set()).update(functions)
            element = it.row.element
            if element.crate != "gtp_v2":
                names.setdefault(element.crate, set()).add(element.type)
        names.setdefault("gtp_ie", set()).add("Indexed")
        names |= {
            "crate::body": {"Body"},
            "crate::fault": {"V2Fault"},
            "crate::header": {"Header"},
            "crate::kinds": {self.part.constant},
            "crate::message": {"Datagram"},
            "crate::message_table": {"HasTable"},
            "std::alloc": {"AllocError", "Global"},
        }
        if self.lists:
            names["crate::list"] = {"Listed"}
        if self.part.is_boxed:
            names["crate::boxed"] = {"Boxed"}
        if self.part.contexts:
            names["crate::fault"].add("Need")
            names["crate::grouped_rows"].add("Context")
            names["crate::presence"] = {"contexts_meet"}
        return lines_of(f"use {path}::{{{', '.join(sorted(names[path]))}}};" for path in sorted(names))

    def ghost_imports(self) -> str:
        contexts = [f"{context.snake}_{word}" for context in self.part.contexts for word in ("rows", "values")]
        names = {
            "std.specs.Prelude": [antt_bool(self.part.has_teid)],
            f"gtp_v2.specs.{self.part.name}": [self.part.snake, f"{self.part.snake}_fields", *contexts],
        }
        return lines_of(f"ghost use Rattle.{path}.{{{', '.join(names[path])}}};" for path in names if names[path])

    def code(self) -> str:
        elements = "elements" if self.rows else "_elements"
        unfolded = ["lines_at", *sorted({row.reading for row in self.lists})]
        build = f"""
            #[inline(never)]
            #[tactic(auto, unfolding({', '.join(f'crate::specs::reading::Rows::{name}' for name in unfolded)}))]
            fn build({self.alloc}: Global, header: &Header, {elements}: &Indexed) -> Result<Datagram, V2Fault>"""
        return f"""\
//! {self.part.title} (TS 29.274 {self.part.clause}).
//!
//! {WRITTEN} specs/{self.part.name}.antt.

{self.ghost_imports()}
{self.imports()}
{self.struct()}
        impl HasTable for {self.part.name} {{
            const KIND: u8 = {self.part.constant};

            ghost KIND = {{ {self.part.snake}.kind }};

            const HAS_TEID: bool = {antt_bool(self.part.has_teid)};

            ghost HAS_TEID = {{ {antt_bool(self.part.has_teid)} }};

            ghost named = {{ {self.part.snake}.name }};

            ghost lines = {{ {self.part.snake}.lines }};

            ghost fields = {{ {self.part.snake}_fields }};

            fn name() -> &'static str {{
                "{self.part.printed}"
            }}

            {self.methods(build, self.built, "{}.is_accepting()", self.passing() + self.reading(), self.marks())}
{''.join(ContextCode(context).code() for context in self.part.contexts)}"""


def documented(text: str) -> str:
    """A doc comment."""
    return lines_of(textwrap.wrap(text, 100, initial_indent="/// ", subsequent_indent="/// "))


def antt_bool(value: bool) -> str:
    """As antt and Rust both write it."""
    return "true" if value else "false"


def required_rows(messages: list[Message]) -> str:
    """What each type of message asks, as constants that the program checks a datagram by: the rows that can be at fault,
    and those on which a list depends."""

    def constant(name: str, type: str, rows: list[Row], item: Callable[[SingleCode], str]) -> str:
        items = "".join(f"{item(code_of(row))}, // {row.element.name}\n" for row in rows)
        return f"const {name}: &[{type}] = &[{items}];\n\n"

    kinds = ", ".join(message.constant for message in messages)
    text = "//! What each type of message asks (TS 29.274 7): the lines of its table that can be at fault, or that others "
    text += f"depend on.\n//!\n//! {WRITTEN} the tables in specs/.\n\n"
    text += "ghost use Rattle.std.specs.Prelude.{◌≡◌, option_map};\n"
    text += "ghost use Rattle.gtp_v2.specs.reading.Lines.{shape_of, shape_in};\n"
    text += "ghost use Rattle.gtp_v2.specs.Tables.{table_of};\n\n"
    rows = [row for message in messages for part in [message, *message.contexts] for row in part.checked]
    elements = ", ".join(sorted({row.element.constant for row in rows}))
    text += f"use crate::asked::{{Asked, Others, Tables}};\nuse crate::kinds::{{{kinds}}};\nuse crate::table::{{Line, Row, Shape}};\n"
    text += f"use gtp_ie::kinds::{{{elements}}};\n\n"
    for message in messages:
        for context in message.contexts:
            text += constant(f"{context.snake.upper()}_ROWS", "Row", context.checked, lambda row: row.code_row)
        text += constant(f"{message.constant}_LINES", "Line", message.checked, lambda row: row.code_line)
    text += "/// What each type of message asks that has a table here.\nconst TABLES: &[Asked] = &["
    for message in messages:
        text += f"Asked {{ kind: {message.constant}, has_teid: Some({antt_bool(message.has_teid)}), lines: {message.constant}_LINES }}, "
    text += "];\n\n/// What S5/S8 asks: the tables here; of a message of another type nothing, and it is octets.\n"
    text += "pub const S5S8: Tables = Tables { tables: TABLES, others: Others::Octets };\n\n"
    text += "/// What a type of message asks, where it has a table.\npub fn asked_of(kind: u8) -> Option<Shape>\n"
    text += "ensures { option_map shape_of result ≡ option_map shape_in (table_of kind) }\n{\nmatch kind {\n"
    for message in messages:
        text += f"{message.constant} => Some(Shape {{ has_teid: {antt_bool(message.has_teid)}, lines: {message.constant}_LINES }}),\n"
    return text + "_ => None,\n}\n}\n"
