#!/usr/bin/env python3
"""The structs of include/gtp.h.

  tests/c_programs/structs.py            whether they are those of the library, field by field: names, types, order. A line for
                                         each that is not.
  tests/c_programs/structs.py --layout   a C program that prints the size of each struct and the place of each of its fields, a
                                         line each: the test in rust/gtp/src/ffi.rs compares them with those of the Rust crate."""

from __future__ import annotations

import re
import sys
from collections.abc import Iterator
from pathlib import Path

TOP = Path(__file__).resolve().parents[2]
NAMES = dict(address="Address", end="End", fault="Fault", head="Head", element="Element", user_head="UserHead", imsi="Identity",
             cause="CauseSaid", apn="Name", ambr="TotalRates", paa="Allocation", quality="Quality", network="NetworkCodes",
             fteid="Tunnel", template="Template", setup="Setup", outcome="ToldOutcome", told="Told", datagram="Datagram",
             session="Session", session_row="SessionRow", bearer_row="BearerRow", gateway="Handle", places="PlacesHandle")
TYPES = {"uint8_t": "u8", "uint16_t": "u16", "uint32_t": "u32", "uint64_t": "u64", "bool": "bool", "void *": "*mut u8"}
# Structs of one pointer, which are a pointer in the header.
POINTERS = ["OwnedPointer", "PlacesPointer"]
Fields = list[tuple[str, str]]


def of_header() -> Iterator[tuple[str, Fields]]:
    """The name of each struct of the header, with the names and types of its fields."""
    text = re.sub(r"/\*.*?\*/", "", (TOP / "include/gtp.h").read_text(), flags=re.S)
    for name, body in re.findall(r"struct gtp_(\w+) \{(.*?)\}", text, re.S):
        fields = []
        for kind, rest in re.findall(r"(struct gtp_\w+|void \*|\w+)\s*([\w\[\], ]+);", body):
            kind = TYPES.get(kind) or NAMES[kind.removeprefix("struct gtp_")]
            for it in rest.split(","):
                field, size = re.fullmatch(r"\s*(\w+)(?:\[(\d+)\])?\s*", it).groups()
                fields.append((field, f"[{kind}; {size}]" if size else kind))
        yield name, fields


def of_library() -> Iterator[tuple[str, Fields]]:
    """The same of the library."""
    for file in sorted((TOP / "crates/gtp_c/src").glob("*.rt")):
        text = file.read_text()
        numbers = dict(re.findall(r"^const (\w+): usize = (\d+);", text, re.M))
        for name, body in re.findall(r"#\[repr\(C\)\]\s(?:#\[[^\n]*\s)*pub struct (\w+) \{(.*?)\n\}", text, re.S):
            fields = re.findall(r"^    pub(?:\(crate\))? (\w+): ([^,\n]+),", body, re.M)
            fields = [(field, "*mut u8" if kind in POINTERS else kind) for field, kind in fields]
            yield name, [(field, re.sub(r"; (\w+)\]", lambda m: f"; {numbers.get(m[1], m[1])}]", kind)) for field, kind in fields]


def layout() -> str:
    """The C program that prints sizes and places."""
    lines = []
    for name, fields in of_header():
        lines.append(f'    printf("gtp_{name} %zu\\n", sizeof(struct gtp_{name}));\n')
        lines += [f'    printf("gtp_{name}.{field} %zu\\n", offsetof(struct gtp_{name}, {field}));\n' for field, _ in fields]
    return f'#include "gtp.h"\n#include <stddef.h>\n#include <stdio.h>\n\nint main(void) {{\n{"".join(lines)}    return 0;\n}}\n'


def main() -> int:
    """Prints the program, or compares."""
    if sys.argv[1:] == ["--layout"]:
        sys.stdout.write(layout())
        return 0
    library, header = dict(of_library()), {NAMES[name]: fields for name, fields in of_header()}
    assert all(library.pop(name) == [("at", "*mut u8")] for name in POINTERS)
    others = [name for name in sorted(library.keys() | header.keys()) if library.get(name) != header.get(name)]
    for name in others:
        print(name, header.get(name), library.get(name))
    return int(bool(others) or not header)


sys.exit(main())
