"""What is printed of the groups of a run:

  group 3: 2.0 to 2.2, then a branch to 1.0 (loop)
    2.0  line 39  (p6) adds r9=1,r9       // p6 is 0
    2.1  line 40  add r8=r8,r9
    2.2  line 41  br.cloop.sptk.few loop
      r8 (ret0)  0x0 -> 0x1
      ar.lc      0x9 -> 0x8

The slots of a group stand there but for `nop`s, and below them what the group changed. The last line says how the run ended, or
where it goes on.
"""

from front.loosen import is_nop
from front.messages import counted
from front.tracing.changes import line_name
from front.usage import GROUP_LIMIT

# What a branch or a check is called that was taken, by how its word begins.
TURNS = (("br.call", "a call of"), ("br.ret", "a return to"), ("chk", "a check to"), ("br", "a branch to"))

# What the kinds of faults mean; docs/use/commands.md, "The printed state", has them whole.
FAULTS = {
    "OutOfFrame": "a general register outside the frame is named",
    "NatConsumed": "a register with NaT is used where none may be",
    "Unaligned": "the address isn't a multiple of how many bytes are reached",
    "BadAddress": "the bytes that are reached aren't all data",
    "BadFrame": "the value of ar.pfs names no frame",
    "ReservedField": "bits of ar.pfs that have to be zero aren't, or sor changes while a rename base isn't 0",
    "Underflow": "a return reaches below cell 0",
    "StackLimit": "the frame would end past cell 65,535",
    "BadLanding": "an indirect branch goes to no entry",
    "BadRelation": "an indirect branch goes to an entry of which a relation is broken: both predicates are 1",
    "FellOff": "the last slot of the program falls through",
}


def heading(step, code):
    """The line of a group: its number, its first and its last place, and how it ended."""
    last = f" to {code.named(step.last)}" * (step.last != step.first)
    return f"group {step.number}: {code.said(step.first)}{last}, then {ended(step, code)}"


def ended(step, code):
    """How a group ended."""
    if step.how == "falls":
        return "a stop"
    if step.how == "ends":
        return code.end(step.end)
    word = code.word(step.last)
    return f"{next(said for begin, said in TURNS if word.startswith(begin))} {code.said(step.place)}"


def columns(rows, gap="  "):
    """Rows of cells as lines, each column as wide as its longest cell; a column of nothing is left out."""
    kept = [column for column in zip(*rows) if any(column)]
    widths = [max(map(len, column)) for column in kept]
    return [gap.join(cell.ljust(width) for cell, width in zip(row, widths)).rstrip() for row in zip(*kept)]


def slot_lines(step, code):
    """The slots of a group but for nops, each with its place and its line, and with its predicate where that is 0; all of them
    where they are all nops."""
    off = dict(step.off)
    rows = [(code.named(place), code.source(place), code.text(place), f"// {off.get(place)} is 0" * (place in off))
            for place in step.slots]
    return columns([row for row in rows if not is_nop(row[2])] or rows)


def change_lines(step):
    """What a group changed; names that mean another register than before are in one line."""
    names = ", ".join(f"{change.old} -> {change.new}" for change in step.changes if change.name == RENAMED)
    rows, is_told = [], False
    for change in step.changes:
        if change.name != RENAMED:
            rows.append((change.name, f"{change.old} -> {change.new}"))
        elif not is_told:
            rows.append((RENAMED, names))
            is_told = True
    return columns(rows) or ["nothing changes"]


RENAMED = "renamed"


def group_lines(step, code):
    """The lines of a group."""
    return [heading(step, code), *(f"  {line}" for line in slot_lines(step, code)),
            *(f"    {line}" for line in change_lines(step))]


# ---- The end ---------------------------------------------------------------------------------------------

def said_end(end, groups, code):
    """How a run ended, by the words of the line `end` and how many groups there were."""
    kind, *more, _, place = end.split(" ")
    place = code.named(tuple(map(int, place.split("."))))
    behind = f"after {counted(groups, 'group')}"
    if kind == "fault":
        return f"the run ended at {place} with the fault {more[0]}, {behind}: {FAULTS.get(more[0], 'unknown here')}"
    return f"the run ended at {place} with break {more[0]}, {behind}"


def closing(run, code):
    """The last lines: whether what was waited for came, and how the run ended or where it goes on."""
    if run.groups < run.first:
        yield f"there is no group {run.first}: {said_end(run.end, run.groups, code)}"
        return
    if run.names and not run.told:
        yield f"no group that was looked at changed {', '.join(line_name(name, code) for name in run.names)}"
    if run.until is not None and not run.is_reached:
        yield f"{code.said(run.until)} wasn't reached: no group from number {run.first + 1} on began there" + (
            "" if run.is_over else f", up to number {run.groups + 1}")
    if run.is_over:
        yield said_end(run.end, run.groups, code)
    else:
        more = f": --from {run.groups + 1} tells it" * (run.groups < GROUP_LIMIT)
        yield f"the run goes on at {code.said(run.place)} with group {run.groups + 1}{more}"
