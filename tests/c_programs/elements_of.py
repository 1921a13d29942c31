#!/usr/bin/env python3
"""Reads objects of datagrams, a line each, and prints 'datagram N' before the elements of each, an element a line. Lines that are that already
are printed in the same form."""

import json
import sys

number = 0
for line in sys.stdin:
    if line.startswith("datagram "):
        print(line, end="")
        continue
    value = json.loads(line)
    elements = [value]
    if "plane" in value:
        print(f"datagram {number}")
        number += 1
        elements = value.get("elements", [])
    for element in elements:
        print(json.dumps(element, separators=(",", ":")))
