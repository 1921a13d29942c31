"""Cases of what is stored: worked datagrams, scenarios with their reports, and the lines of datagrams."""

from __future__ import annotations

import re
import sys
from collections.abc import Iterator
from pathlib import Path

from running import TOP, Case, Part

sys.path.append(str(TOP / "tests/reference"))
from heads import context_of, is_elsewhere

MOST_COLUMNS = 100
FILES = ["control", "control-lengths", "control-all", "user", "user-all", "control-json", "user-json", "control-all-json", "user-all-json"]
OTHER_PLANE = [
    ("control", r"3.*", "fault H2 version 1\n", b"gtpshow: version 1 is GTP-U"),
    ("user", r"[45].*", "fault U2 version 2\n", b"gtpshow: version 2 is GTPv2-C"),
]


def context_hint(number: object) -> bytes:
    """What standard error says of a fault in a bearer context."""
    return f"gtpshow: the fault is in bearer-context {number}\n".encode()


ELSEWHERE = b"gtpshow: 1 datagram at fault names another interface: with --all, --interface s11 judges by the rules of S11, any by headers and lengths alone\n"
HINTS = {"control/create-session-request-nested-length": context_hint(1)}


def datagrams() -> Iterator[Case]:
    """The worked datagrams: each is shown as its lines, with status 1 where they are a fault's."""
    for file in sorted(Path("examples/datagrams").glob("*/*.lines")):
        name, lines = f"{file.parent.name}/{file.stem}", file.read_bytes()
        case = Case(f"the datagram {name}", [name], status=int(lines.startswith(b"fault")), output=lines, program="examples/datagrams/show")
        case.error = HINTS.get(name, b"")
        yield case


def sent(report: str) -> list[tuple[str, str]]:
    """The plane and the digits of each datagram of a report."""
    return re.findall(r"^  sent \d+ (\w+) (.*)$", report, re.M)


def decode(plane: str, digits: str) -> list[str]:
    """The words that show a datagram of a report."""
    return ["decode", *(["--user"] if plane == "user" else []), digits]


def reports() -> Iterator[Case]:
    """The scenarios to copy: each has its report, and some a diagram; and `decode` takes each datagram of a report."""
    folder, found = Path("examples/scenarios"), set()
    for file in sorted(folder.glob("*.report")):
        yield Case(str(file), ["replay", str(file.with_suffix(".json"))], output=file.read_bytes())
        found |= set(sent(file.read_text()))
    for file in sorted(folder.glob("*.diagram")):
        words = ["replay", "--diagram", str(file.with_suffix(".json"))]
        yield Case(str(file), words, output=file.read_bytes(), most_columns=MOST_COLUMNS)
    for plane, digits in sorted(found):
        yield Case(f"decode {plane} {digits}", decode(plane, digits), output=Part(b"gtp"))


def cut_request() -> Case:
    """The fault that a report names is the one that `decode` tells of the octets: here of a request that was cut by one octet."""
    digits = dict(sent(Path("examples/scenarios/what-cannot-happen.report").read_text())[:1])["control"]
    return Case("a request that was cut by one octet", decode("control", digits[:290]), status=1, output=b"fault H3 stated 142 held 141\n")


def stored_lines(name: str) -> Iterator[tuple[str, str]]:
    """The digits of each datagram of a file of tests/lines, '-' for no octets, with the lines after it."""
    for part in Path("tests/lines", name).read_text(encoding="utf-8").split("\n\n"):
        digits, *lines = [line for line in part.splitlines() if line and not line.startswith("#")] or [""]
        if digits:
            yield digits, "".join(f"{line}\n" for line in lines)


def hint(name: str, digits: str, lines: str) -> bytes:
    """What standard error says of a datagram: its version, the bearer context of a fault, which the second implementation finds, or, with
    --all, that it names another interface."""
    for plane, begin, fault, said in OTHER_PLANE:
        if name == plane and re.fullmatch(begin, digits) and lines == fault:
            return Part(said)
    plane, _, form = name.partition("-")
    if form.startswith("all"):
        return ELSEWHERE if is_fault(lines) and is_elsewhere(plane, bytes.fromhex(digits)) else b""
    if name not in ("control", "control-lengths") or digits == "-":
        return b""
    number = context_of("control", bytes.fromhex(digits))
    return b"" if number is None else context_hint(number)


def is_fault(lines: str) -> bool:
    """Whether lines, or an object, tell of a fault."""
    return bool(re.search(r'^fault|,"fault":', lines, re.M))


def shown(name: str, digits: str, lines: str) -> Case:
    """A datagram is shown as its lines, with status 1 where a fault is one of them; '=' says only that there is none."""
    plane, *forms = name.replace("-lengths", "").split("-")
    octets = digits.replace("-", "")
    words = ["decode", *(["--user"] if plane == "user" else []), *(f"--{form}" for form in forms), f"{plane} {octets}" if forms else octets]
    output = Part(b"") if lines == "=\n" else lines.encode()
    return Case(f"{name} {digits}", words, status=int(is_fault(lines)), output=output, error=hint(name, digits, lines))


def cases() -> Iterator[Case]:
    """All cases of this file."""
    yield from datagrams()
    yield from reports()
    yield cut_request()
    for name in FILES:
        yield from (shown(name, *row) for row in stored_lines(name))
