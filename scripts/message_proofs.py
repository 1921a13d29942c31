"""The proofs about messages, from their tables: that `==` of messages decides whether contracts see the same message, and that elements
pass where there are bearer contexts."""

from __future__ import annotations

from collections.abc import Callable

from message_tables import WRITTEN, Group, Message, Part, Row, Several, lines_of

IN_A_LINE = 12  # so many names of an import


def same(row: Row) -> str:
    """That two are equal."""
    one = f"{row.element.same} a.{row.field} b.{row.field}"
    if isinstance(row, Several):
        return f"list_same {one}"
    return f"option_same {one}" if row.is_option else f"row_same ({one})"


def same_field(row: Row) -> str:
    if isinstance(row, Group):
        return f"groups_same (list_same {row.context.snake}_same a.{row.field} b.{row.field})"
    return f"plain_same ({same(row)})"


def one(row: Row, alike: str) -> str:
    """That two are one, where contracts see the same."""
    form = "list_one" if isinstance(row, Several) else "option_one" if row.is_option else "row_one"
    return f"{form} a.{row.field} b.{row.field} {row.element.value_of} {row.element.one} {alike}"


def one_field(row: Row, alike: str) -> str:
    if isinstance(row, Group):
        context = row.context.snake
        return f"list_one a.{row.field} b.{row.field} {context}_values {context}_one (groups_one {alike})"
    return one(row, f"(plain_one {alike})")


def equality(part: Part, values: str, lines: list[str]) -> str:
    """The proof that `==` decides whether two have the same values, from a line a row."""
    each = [f"(first_same ({line})" for line in lines[:-1]] + [f"(last_same ({line})" for line in lines[-1:]]
    proof = "\n    ".join(each) + ")" * len(each) if each else "(λ e. refl, λ e. refl)"
    return f"""\
pub {part.snake}_same : (a b : {part.name}) → Decides (({part.snake}_eq.ghosts).eq a b) ({values} a ≡ {values} b)
{part.snake}_same a b =
    {proof}
"""


def identity(part: Part, values: str, one_of: Callable[[Row, str], str]) -> str:
    """The proof that two of which contracts see the same are one, from a line a row: what it shows of the row,
    from a proof that the lists of values are the same from there on."""
    head = f"pub {part.snake}_one : (a b : {part.name}) → {values} a ≡ {values} b → a ≡ b\n{part.snake}_one a b e ="
    if not part.rows:
        return f"{head} refl\n"
    proof = ""
    for place, row in enumerate(part.rows):
        alike = f"e{place}" if place else "e"
        proof += f"    let p{place} : a.{row.field} ≡ b.{row.field} = {one_of(row, f'(first_one {alike})')} in\n"
        if place + 1 < len(part.rows):
            proof += f"    let e{place + 1} = others_one {alike} in\n"
    fields = lines_of(f"      {row.field} = a.{row.field};" for row in part.rows)
    parts = ", ".join(f"p{place}" for place in range(len(part.rows)))
    parts = f"({parts})" if len(part.rows) > 1 else parts
    return f"{head}\n{proof}    let whole : b ≡ record {{\n{fields}    }} = rw {parts} refl in\n    sym whole\n"


def antt_case(message: Message) -> str:
    """What a body of this kind says."""
    return f"said_of (bodies.{message.name} m) = by {message.snake} ({message.snake}_fields m)"


def passing_answer(message: Message) -> str:
    """The proof that elements pass, where the checker is told what the bearer contexts are."""
    return f"""\
-- {WRITTEN} specs/{message.name}.antt.
use Rattle.std.proofs.Common.{{rules}}
use Rattle.gtp_v2.specs.reading.Rows.{{lines_at}}
use Rattle.gtp_v2.proofs.Passing.{{ok_is}}
use Rattle.gtp_v2.proofs.body.{message.snake}.{message.name}HasTable.passes.Goals as goal

pub returns : goal.returns
unfolding lines_at
returns c = λ pass.
    let groups = ok_is _ (c.contexts_pass.ensures pass) in
    search (rules, groups.1)
"""


def equalities(messages: list[Message]) -> str:
    """The proof that `==` of messages decides whether contracts see the same message."""
    parts = [part for message in messages for part in [*message.contexts, message]]
    owners = {part.name: message for message in messages for part in [*message.contexts, message]}
    rows = [row for message in messages for row in message.all_rows if not isinstance(row, Group)]
    lemmas = sorted({row.element.same for row in rows} | {row.element.one for row in rows if row.element.number_in})
    values = sorted({row.element.value for row in rows})
    uses = [
        "Rattle.std.proofs.Common.{◌≡◌, ◌∙◌, ℕ, Option, Some, None, ap, refl, sym}",
        "Rattle.std.specs.Bool.{Decides}",
        "Rattle.std.specs.Cmp.Lexicographic.{bytes_decides}",
        "Rattle.std.proofs.lemmas.Bool.Decides.{Decides-eqb}",
        f"Rattle.gtp_ie.specs.Value.{{{', '.join(values)}}}",
        *(f"Rattle.gtp_ie.proofs.Same.{{{', '.join(lemmas[at : at + IN_A_LINE])}}}" for at in range(0, len(lemmas), IN_A_LINE)),
        "Rattle.gtp_v2.specs.declared.body.Body.{Body}",
        "Rattle.gtp_v2.specs.declared.body.Body.TheVariants as bodies",
        "Rattle.gtp_v2.specs.contracts.body.BodyPartialEq.TheImpl as body_eq",
        "Rattle.gtp_v2.specs.Body.{said_of}",
        "Rattle.gtp_v2.proofs.Same.{row_same, option_same, list_same, plain_same, groups_same, last_same, first_same, kind_same, "
        "kept_same, tag_of, tags_apart, apart_same}",
        "Rattle.gtp_v2.proofs.One.{first_one, others_one, plain_one, groups_one, row_one, option_one, list_one, kind_one, kept_one}",
    ]
    for part in parts:
        place = f"body.{owners[part.name].snake}"
        uses += [
            f"Rattle.gtp_v2.specs.declared.{place}.{part.name}.{{{part.name}}}",
            f"Rattle.gtp_v2.specs.contracts.{place}.{part.name}PartialEq.TheImpl as {part.snake}_eq",
        ]
    for message in messages:
        names = [f"{context.snake}_values" for context in message.contexts] + [message.snake, f"{message.snake}_fields"]
        uses.append(f"Rattle.gtp_v2.specs.{message.name}.{{{', '.join(names)}}}")
    text = "-- Where `==` of what messages carry is true, contracts see the same; and then it is the same. "
    text += f"{WRITTEN} the tables in specs/.\n"
    text += lines_of(f"use {use}" for use in uses) + "\n"
    for message in messages:
        for context in message.contexts:
            values = f"{context.snake}_values"
            text += equality(context, values, [same(row) for row in context.rows]) + "\n"
            text += identity(context, values, one) + "\n"
        fields = f"{message.snake}_fields"
        text += equality(message, fields, [same_field(row) for row in message.rows]) + "\n"
        text += identity(message, fields, one_field) + "\n"
    text += "-- the type of a body that has a table\nabbrev tag : Body → Option ℕ\n"
    text += lines_of(f"tag (bodies.{message.name} m) = Some {message.kind}" for message in messages)
    text += "tag (bodies.Other kind octets) = None\n\ntagged : (x : Body) → tag_of (said_of x) ≡ tag x\n"
    text += lines_of(f"tagged (bodies.{message.name} m) = refl" for message in messages)
    text += "tagged (bodies.Other kind octets) = refl\n\n"
    text += "same_tag : (x y : Body) → said_of x ≡ said_of y → tag x ≡ tag y\n"
    text += "same_tag x y e = sym (tagged x) ∙ (ap tag_of e ∙ tagged y)\n\n"
    text += "pub bodies_same : (x y : Body) → Decides ((body_eq.ghosts).eq x y) (said_of x ≡ said_of y)\n"
    for message in messages:
        kind = f"kind_same {message.snake} ({message.snake}_same a b)"
        text += f"bodies_same (bodies.{message.name} a) (bodies.{message.name} b) = {kind}\n"
    text += "bodies_same (bodies.Other k xs) (bodies.Other l ys) = kept_same (Decides-eqb k l) (bytes_decides xs ys)\n"
    text += "bodies_same x y = apart_same (tags_apart (tag x) (tag y) refl) (same_tag x y)\n\n"
    text += "pub bodies_one : (x y : Body) → said_of x ≡ said_of y → x ≡ y\n"
    for message in messages:
        are_one = f"{message.snake}_one a b (kind_one {message.snake} e)"
        text += f"bodies_one (bodies.{message.name} a) (bodies.{message.name} b) e = ap (λ m. bodies.{message.name} m) ({are_one})\n"
    text += "bodies_one (bodies.Other k xs) (bodies.Other l ys) e = let p = kept_one e in rw (p.0, p.1) refl\n"
    return text + "bodies_one x y e = absurd (tags_apart (tag x) (tag y) refl (same_tag x y e))\n"
