"""The bundles into which the assembler puts instructions."""

from dataclasses import dataclass

from front.faults import Unread
from front.functions import MOST_BUNDLES
from front.sources.instructions import IN_LAST_SLOT, STANDS, UNITS, Alignment, Instruction


@dataclass
class Bundle:
    """A bundle of the text. One without instructions fills the room up to an alignment."""
    template: str
    line: int                                    # that of its selector or of its first instruction
    slots: dict                                  # the instructions by their slots
    stops: set                                   # the slots behind which a stop stands


def placed(units, run):
    """The instructions of a bundle by their slots, as the assembler puts them there, and the slots behind which a stop
    stands. What doesn't fit is left out."""
    slots, stops, at, is_stopped = {}, set(), 0, False
    for instruction in run:
        is_last_slot = instruction.kind == "loop" or IN_LAST_SLOT.fullmatch(instruction.mnemonic)
        at = max(at, 2) if is_last_slot else at
        while at < 3:
            if is_stopped and (at, units) in MIDDLE and not (units == "mii" and instruction.mnemonic == "alloc"):
                if MIDDLE[at, units] is None:
                    at += 1
                    continue
                stops.add(MIDDLE[at, units])
                is_stopped = False
            elif is_stopped:
                return slots, stops | {last_slot(units)}
            if units[at] in STANDS[instruction.kind]:
                break
            at += 1
        else:
            break
        slots[at] = instruction
        is_stopped = instruction.stops
        at += 1 + (units[at] == "l")
    return slots, stops | ({last_slot(units)} if is_stopped else set())


# With a stop before the instruction for a slot: behind which slot the template can have it, or None where the next slot can.
MIDDLE = {(1, "mmi"): 0, (2, "mii"): 1, (1, "mii"): None}
NOP_NUMBER = 1 << 20
MOST_HINTS = 16


def last_slot(units):
    return 1 if units == "mlx" else 2


def joins(item):
    """Whether the assembler puts an item into the bundle of the one before it, if it fits."""
    return isinstance(item, Instruction) and not (item.template or item.opens or any(line for _, line in item.labels))


def laid_out(items):
    """The bundles of a section, and how many of them stand before each item."""
    bundles, before, at = [], [], 0
    while at < len(items):
        before += [len(bundles)] * (at - len(before) + 1)
        item = items[at]
        if isinstance(item, Alignment):
            is_before_alloc = at + 1 < len(items) and getattr(items[at + 1], "mnemonic", "") == "alloc"
            bundles += fill(item, len(bundles), is_before_alloc)
            at += 1
            if len(bundles) > MOST_BUNDLES:
                raise Unread(item.line, f"more than {MOST_BUNDLES:,} bundles")
            continue
        run = [item]
        for following in items[at + 1:at + 3]:
            if run[-1].ends or run[-1].closed or not joins(following):
                break
            run.append(following)
        bundle = bundled(run, items[at:at + 3])
        bundles.append(bundle)
        at += len(bundle.slots)
    return bundles, before + [len(bundles)] * (len(items) - len(before) + 1)


def fill(alignment, count, is_before_alloc):
    """The bundles that fill the room up to an alignment."""
    wanted = -count % max(alignment.size // 16, 1)
    if alignment.most and wanted * 16 > alignment.most:
        return []
    stops = {2} if alignment.is_plain and is_before_alloc else set()
    return [Bundle("mmi", 0, {}, stops) for _ in range(wanted)]


def chosen(items):
    """The template that the assembler chooses for an instruction, by what it has read: that and up to two more behind it."""
    kinds = []
    for item in items:
        if not isinstance(item, Instruction) or kinds and any(line for _, line in item.labels):
            break
        kinds.append("any" if item.kind == "check" else item.kind)
        if item.ends:
            break
    kinds += [None] * (3 - len(kinds))
    return max(UNITS, key=lambda units: goodness(units, *kinds))


def goodness(units, first, second, third):
    """What the assembler thinks of a template for three instructions, where a `nop` is better in units M and I."""
    def fits(kind, slot):
        return kind is not None and units[slot] in STANDS[kind]

    fill = [2 * (unit in "mi") for unit in units]
    if fits(first, 0) and fits(second, 1):
        return 9 if second == "x" or fits(third, 2) else 6 + fill[2]
    if fits(first, 0):
        return 6 + fill[1] if fits(second, 2) else 3 + fill[1] + fill[2]
    if fits(first, 1):
        return 6 if first == "x" or fits(second, 2) else 3 + fill[2]
    return 3 + fill[1] if fits(first, 2) else 0


def bundled(run, items):
    """The bundle of the first of some instructions, with those of them that fit."""
    first = run[0]
    template, line = first.template or (None, first.line)
    if template is None:
        if first.opens:
            raise Unread(first.line, "a bundle without a template, which the assembler chooses")
        if not first.ends and len(items) > 1 and joins(items[1]):
            raise Unread(first.line, "instructions in no bundle, which the assembler packs")
        template, run = chosen(items), [first]
    slots, stops = placed(template, run)
    if not slots:
        raise Unread(first.line, f"'{first.mnemonic}' doesn't fit a bundle .{template}")
    last = list(slots.values())[-1]
    if first.opens and not last.closed:
        raise Unread(last.line, "a bundle that isn't closed, or has more instructions than fit")
    for slot, instruction in slots.items():
        settle(instruction, template[slot])
    return Bundle(template, line, slots, stops)


def settle(instruction, unit):
    """Gives the number of a `nop`, a `break` or a `hint` the form that it has in a slot's unit."""
    if instruction.word is not None:
        return
    word, number = instruction.mnemonic.split(".")[0], instruction.number
    if word == "hint" and (unit in "fbl" or unit == "m" and number >= MOST_HINTS):
        raise Unread(instruction.line, f"'hint {number}' in unit {unit.upper()}")
    if number is not None and unit == "l" and number >= NOP_NUMBER:
        high, middle = number >> 21, number >> 20 & 1
        instruction.operands = hex(middle << 61 | (high & (1 << 41) - 1) << 20 | number & NOP_NUMBER - 1)
