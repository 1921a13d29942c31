"""What a script prints, as a page has it between two marks."""

from __future__ import annotations

import sys
from collections.abc import Callable

from proving import TOP, read


def main(script: str, page: str, words: list[str], text_of: Callable[[], str], last: str = "") -> int:
    """Prints the text, puts it into the page, or compares it with that, as the words say; gives the status."""
    if words not in ([], ["--write"], ["--check"]):
        sys.exit(f"usage: scripts/{script} [--write | --check]")
    text = text_of()
    if not words:
        print(text, end=last)
        return 0
    begin_mark, end_mark = f"<!-- scripts/{script}: begin -->", f"<!-- scripts/{script}: end -->"
    front, begin, rest = read(f"{TOP}/{page}").partition(begin_mark)
    old, end, back = rest.partition(end_mark)
    if not begin or not end:
        sys.exit(f"{script}: {page} lacks the line {begin_mark} or {end_mark}")
    if words == ["--write"]:
        with open(f"{TOP}/{page}", "w", encoding="utf-8") as file:
            file.write(f"{front}{begin_mark}\n{text}{end_mark}{back}")
        return 0
    is_so = old == f"\n{text}"
    if not is_so:
        print(f"{page} does not show what 'scripts/{script}' prints: 'scripts/{script} --write' puts it there")
    print(f"{int(is_so)} passed, {int(not is_so)} failed")
    return 0 if is_so else 1
