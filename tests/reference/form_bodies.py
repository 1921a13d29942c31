"""Bodies of elements at random, by the forms of the second account: whole ones, and such as are cut, changed, or go on."""

from __future__ import annotations

import random

from form_steps import Choose, Field, Form, Items, Keep, May, Sized
from form_tables import FORMS


class Bodies:
    """A source of bodies."""

    def __init__(self, number: int) -> None:
        self.random = random.Random(number)

    def octets(self, size: int) -> bytes:
        """Octets, of which some kinds come often: zeros, text, small numbers."""
        if self.random.randrange(4) == 0:
            return bytes(size)
        if self.random.randrange(4) == 0:
            return bytes(self.random.choice(b"abcxyz019.-\"\\") for _ in range(size))
        return bytes(self.random.randrange(256) for _ in range(size))

    def kept(self, form: Form, at: int, size: int) -> bytes:
        """Octets whose number is kept: often one for which a choice behind it has a case."""
        number = int.from_bytes(self.octets(size), "big")
        for step in form[at:]:
            if isinstance(step, Choose) and step.cases and self.random.randrange(3):
                bits = (1 << step.count) - 1 << step.begin
                number = number & ~bits | self.random.choice(list(step.cases)) << step.begin & bits
        return (number % (1 << 8 * size)).to_bytes(size, "big")

    def whole(self, name: str, kept: int = 0, depth: int = 8) -> bytes:
        """A body of a form; items are few."""
        found, ahead = b"", b""
        form = FORMS[name]
        for at, step in enumerate(form):
            if depth == 0:
                break
            if isinstance(step, May):
                if not ahead and self.random.randrange(4) == 0:
                    break
            elif isinstance(step, Keep):
                ahead = self.kept(form, at, step.size)
                kept = int.from_bytes(ahead, "big")
            elif isinstance(step, Field):
                size = self.random.randrange(9) if step.size is None else step.size
                found += (ahead + self.octets(size))[:size]
                ahead = ahead[size:]
            elif isinstance(step, Choose):
                chosen = step.cases.get(kept >> step.begin & (1 << step.count) - 1, step.other)
                found += self.whole(chosen[1], kept, depth - 1) if chosen else b""
            elif isinstance(step, Items):
                count = self.random.randrange(3) if step.bits is None else kept >> step.bits[0] & (1 << step.bits[1]) - 1
                found += b"".join(self.whole(step.form, kept, depth - 1) for _ in range(min(count, 4)))
            elif isinstance(step, Sized):
                inner = self.whole(step.form, kept, depth - 1)
                found += ((len(inner) + step.less) % (1 << 8 * step.size)).to_bytes(step.size, "big") + inner
        return found

    def body(self, name: str) -> bytes:
        """A whole body, or one that is cut, has a bit turned, or goes on."""
        whole = self.whole(name)
        how = self.random.randrange(5)
        if how == 0:
            return whole[: self.random.randrange(len(whole) + 1)]
        if how == 1 and whole:
            changed = bytearray(whole)
            changed[self.random.randrange(len(changed))] ^= 1 << self.random.randrange(8)
            return bytes(changed)
        return whole + self.octets(self.random.randrange(4)) if how == 2 else whole
