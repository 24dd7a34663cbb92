"""What would be right in a line of a text that the proved program refuses: found by asking the program about texts like it.

- `slot kind`: the units in whose slots it takes the instruction.
- `template`: how many slots it takes in a bundle of this template, and behind which it takes a stop.
- `range`: the numbers that it takes in the place of the one that it refuses.
"""

import re

from front.refusals import REFUSAL_OF_TEXT
from front.texts import LABEL, OPENING, OUTSIDE, lines_of_text, parts_of, without_stop

# A bundle for an instruction of each unit.
BUNDLES = {"M": "{{ .mii\n{}\nnop 0\nnop 0\n}}\n", "I": "{{ .mii\nnop 0\n{}\nnop 0\n}}\n", "F": "{{ .mfi\nnop 0\n{}\nnop 0\n}}\n",
           "B": "{{ .mib\nnop 0\nnop 0\n{}\n}}\n", "X": "{{ .mlx\nnop 0\n{}\n}}\n"}
NUMBER = re.compile(r"(?<![\w.$])-?(?:0x[0-9a-fA-F]+|[0-9]+)(?![\w.$])")
# Numbers of which each field takes one, and how far from it numbers are tried.
FIRST_TRIED, FARTHEST = (0, 1, 8, -1), 1 << 64
# Of these numbers each is tried, and of others so many between the ends.
NEAR, SAMPLES = range(-64, 65), 16


def remedy(program, data, line, reason):
    """What would be right at a line, from 1, behind a semicolon, or nothing where it isn't found."""
    lines = lines_of_text(data)
    said = parts_of(lines[line - 1])[0] if 0 < line <= len(lines) else ""
    name = without_stop(said)[0]
    if reason == "template":
        return template_remedy(program, lines[:line])
    if not name or OUTSIDE.match(name) or LABEL.match(name) or name.startswith(("{", "}")):
        return ""
    found = {"slot kind": unit_remedy, "range": range_remedy}.get(reason)
    return found(program, name) if found else ""


# What isn't known where the program gives no answer.
NO_ANSWER = "no answer"


def reason_of(program, word, text):
    """The reason why the program refuses a text, or nothing where it takes it."""
    status, printed = program.raw([word], text.encode("latin-1"))
    found = re.fullmatch(REFUSAL_OF_TEXT, printed.decode("latin-1").rstrip("\n")) if status == 3 else None
    return "" if status == 0 else found[2] if found else NO_ANSWER


def either(words):
    """Words, as one of them is meant."""
    return " or ".join(filter(None, (", ".join(words[:-1]), words[-1])))


def unit_remedy(program, said):
    """A label that the instruction names may be missing here, which is said only of an instruction that fits."""
    units = [unit for unit, bundle in BUNDLES.items() if reason_of(program, "build", bundle.format(said)) in ("", "no label")]
    return f"; it fits a slot of unit {either(units)}" if units else ""


def template_remedy(program, lines):
    """That of the bundle which the last of these lines ends."""
    opening = next(filter(None, (OPENING.match(parts_of(line)[0]) for line in reversed(lines))), None)
    if opening is None:
        return ""

    def is_taken(count, stop=None):
        slots = "".join(f"nop 0{' ;;' * (slot == stop)}\n" for slot in range(count))
        return not reason_of(program, "build", f"{{ .{opening[1]}\n{slots}}}\n")

    count = next((count for count in (3, 2) if is_taken(count)), 0)
    stops = [str(slot) for slot in range(count) if is_taken(count, slot)]
    return f"; .{opening[1]} has {count} slots, and a stop may stand behind slot {either(stops)}" if stops else ""


def range_remedy(program, said):
    """Where more than one number, or none, can be changed so that the line is taken, none is told."""
    fields = []
    for found in NUMBER.finditer(said):
        def is_taken(number, start=found.start(), end=found.end()):
            return reason_of(program, "stops", f"{said[:start]}{number}{said[end:]}\n") in ("", "no label")

        first = next(filter(is_taken, FIRST_TRIED), None)
        if first is not None:
            fields.append((found[0], first, is_taken))
    if len(fields) != 1:
        return ""
    spelled, first, is_taken = fields[0]
    lowest, highest = (first + sign * farthest(lambda away, sign=sign: is_taken(first + sign * away)) for sign in (-1, 1))
    near = list(filter(is_taken, NEAR))
    if -highest in NEAR and near != list(range(lowest, highest + 1)):
        return f"; in place of {spelled} may stand {either(list(map(str, near)))}"
    if not all(map(is_taken, range(lowest, highest, max(1, (highest - lowest) // SAMPLES)))):
        return ""
    return f"; in place of {spelled} may stand {lowest} to {highest}"


def farthest(is_taken):
    """The largest distance that is taken, where all smaller ones are."""
    low, high = 0, FARTHEST
    while high - low > 1:
        middle = (low + high) // 2
        low, high = (middle, high) if is_taken(middle) else (low, middle)
    return low
