"""Texts as they are drawn: which parts of them are a resource, and how long ones are broken into lines."""

import re
from typing import List, NamedTuple

from front.drawing.accesses import BASE

NAMES = re.compile(r"[A-Za-z_$][\w.$]*")
GUARD = re.compile(r"\([^)]*\)")
# Names of registers that have others: those of the canonical text.
ALIASES = {"gp": "r1", "sp": "r12", "tp": "r13", "rp": "b0", **{f"ret{number}": f"r{8 + number}" for number in range(4)},
           **{f"ar.{name}": name for name in ("unat", "pfs", "lc", "ec")}}
WRITTEN, READ = "written", "read"


class Span(NamedTuple):
    """A part of a text, from one index up to another."""
    start: int
    end: int


def resource_spans(text, resource, role):
    """Where a text names a resource that it writes or reads: left of `=`, or else in the brackets of a base, what it writes; all
    but what stands left of `=` outside of brackets what it reads."""
    named = [Span(*found.span()) for found in NAMES.finditer(text) if ALIASES.get(found[0], found[0]) == resource]
    guard = GUARD.match(text)
    body = guard.end() if guard else 0
    equals = text.find("=")
    bases = [found.span() for found in BASE.finditer(text)]

    def is_left(span):
        return body <= span.start < equals and not in_base(span)

    def in_base(span):
        return any(start <= span.start < end for start, end in bases)

    if role == READ:
        return [span for span in named if not is_left(span)]
    return [span for span in named if is_left(span)] or [span for span in named if in_base(span)]


def broken(text, width) -> List[Span]:
    """The lines of a text, none of them longer than this: broken behind a comma, a blank or a mark, where one is in its second
    half, and else anywhere."""
    lines, start = [], 0
    while len(text) - start > width:
        end = max((start + index + 1 for index, mark in enumerate(text[start:start + width]) if mark in ",= ;:"), default=0)
        if end <= start + width // 2:
            end = start + width
        lines.append(Span(start, end))
        start = end
    return [*lines, Span(start, len(text))]


def wrapped(text, width):
    """The lines of a sentence, without the blanks between them."""
    return [text[span.start:span.end].strip() for span in broken(text, width)]
