"""What a page has of the run of a program: what `trace` prints of its first groups, and the same in lines."""

import json
from typing import NamedTuple, Tuple

from front.files import Kind
from front.messages import counted
from front.ordering.answers import LIMIT, Answers
from front.tracing import lines
from front.tracing.code import Code
from front.tracing.steps import GROUP, groups_of_a_piece, steps

# A page has so many bytes of printed states at most.
MOST_BYTES = 2_000_000


class Run(NamedTuple):
    """The first groups of a run: as they are printed, in lines, how many they are, and whether the run ends with them."""
    printed: str
    lines: Tuple[str, ...]
    count: int
    is_whole: bool


def run_of(file, source, program, count):
    """The first groups of the run of an accepted program: at most so many, and as many as a page has room for."""
    status, printed = Answers(program).raw(["trace", "0", str(min(count, groups_of_a_piece(file.data)))], file.data)
    text = printed.decode("latin-1")
    ends = [found.start() for found in GROUP.finditer(text)] + [len(text)]
    kept = [end for end in ends if end <= MOST_BYTES]
    told = max(len(kept) - 1, 0)
    code = Code(program, file.data, source.data if source.kind is Kind.TEXT else None)
    found = list(steps(program, file.data, 1, told, code)) if told else []
    rows = [line for step in found for line in lines.group_lines(step, code)]
    rows += [lines.said_end(step.end, step.number, code) for step in found[-1:] if step.how == "ends"]
    return Run(text[:kept[-1]] if told else "", tuple(rows), told, status != LIMIT and kept == ends)


def said(run):
    """How much of a run there is."""
    if not run.count:
        return "No group of its run is in this page: the states are too long for it."
    groups = counted(run.count, "group")
    return f"Its run has {groups}." if run.is_whole else f"The page has the first {groups} of its run."


def as_data(figure, run, prefix):
    """A run for the script of a page, with what that wants to know of the program, as JSON that may stand in a page."""
    rows = [{"labels": row.labels, "slots": [{"place": slot.place, "text": slot.text, "canonical": slot.canonical}
                                             for slot in row.slots]} for row in figure.rows]
    return json.dumps({"prefix": prefix, "trace": run.printed, "rows": rows}).replace("<", "\\u003c")
