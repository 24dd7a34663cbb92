#!/usr/bin/env python3
"""Makes rows of the program `vectors`: bundles, and what each has to decode to.

  python3 generate/make_bundle_rows.py

It runs in any folder, writes its part of `crates/vectors/stdin`, and prints what that covers. The same tools give the same rows.
The gate reads what it wrote, and doesn't call it.

It needs Python 3.9 or later, with its standard library alone, and the GNU assembler, objcopy and objdump for IA-64
(`ia64-linux-gnu-as` and so on, of Debian's package binutils-ia64-linux-gnu). Version 2.40 made the files that are here.

A row has the word `bundle`, the sixteen bytes of a bundle as 32 hexadecimal digits, and what they are. That is the code of the
template and then, with a `|` before each, the canonical lines of its slots with their stops, as they are in bundle 2^20 of a
text. Or it is the name of a fault, and the slot that has it.

The bytes are those of the GNU assembler. The lines are made of the operands that the assembler was given. So nothing comes from
the decoder and the printer that `vectors` tries. `instruction_rows.py` is the table of instructions, with a row for each operation
and form: a new operation is a new row there.

The rows in their order:

- every template;
- the A, I, M, B, F and X instructions of the profile;
- what decodes to nothing: reserved templates, bits that have to be zero, codes that no instruction has, operands out of range,
  targets r0, equal predicate targets, loop branches outside slot 2, words of another unit, instructions that the profile leaves
  out, and words that the disassembler doesn't know;
- last, rows that are wrong on purpose.

Of what decodes to nothing the bundle is the assembler's with one slot spoilt. The fault is at that slot, whatever stands after
it: a long instruction counts as slot 1. `fault_rows.py` has the codes and the instructions that are left out.

The disassembler is a second witness. It has to know each instruction before the fault, and each one of a bundle without a fault.

Where the assembler differs from the manual or from the profile:

- The number of `nop.x` and `break.x` has the L slot above bit 36 of the X slot; the profile has bit 36 highest. They differ from
  2^20 on, and `long_number` turns one into the other.
- `hint.m` has 19 bits of a number, with bits 11:10 of the word left out. So from 16 on the number is another
  (`memory_hint_number`). With these bits the assembler spells `mov dahr` of later processors. That is a hint here, as it is for
  earlier ones; it is not tried.
- Displacements and tags are given in bytes; here they count bundles of sixteen bytes.
- `alloc` has to be first in its group. So outside slot 0 the assembler puts a stop before it or refuses it. `clrrrb` has to be
  last, so it needs a stop after it. Both are assembled where they may stand, and the word is moved. So are loop branches outside
  slot 2 and what the profile leaves out.
- It warns of a target r0, of equal predicate targets and of a load that updates its target. These words are made of others by
  changing the field.
"""

import collections
import itertools
import random as randoms
import re
import sys

sys.dont_write_bytecode = True

import gnu_as
import vector_rows
from fault_rows import MAJOR, SWEEPS, field, left_out, out_of_range
from gnu_as import RESERVED, TEMPLATES, WORD, nops, stop, units, word_index
from instruction_rows import ROWS, Instruction, combinations, in_slot_2, rows_of

# How many instructions of each row have drawn operands, besides those that try its ends.
DRAWN = 6

# How many bundles of each template have drawn instructions.
DRAWN_BUNDLES = 16

# The slots of each unit, as a template's code and a slot.
PLACES = {unit: [(code, slot) for code in TEMPLATES for slot, own in enumerate(units(code))
                 if own == unit] for unit in "mifbx"}


class Case:
    """A bundle to be made: a template's code and the instructions of its slots; which words are
    changed then, as pairs of an index and a function of the word; the code that it gets in the end;
    and its fault, if it is to have one."""

    def __init__(self, code, slots, edits=(), made_code=None, fault=None):
        self.code, self.slots, self.edits = code, slots, edits
        self.made_code = code if made_code is None else made_code
        self.fault = fault

    def answer(self):
        """What the bundle is, as `vectors` reads it."""
        if self.fault is not None:
            return self.fault
        last = len(self.slots) - 1
        stops = [(2 if number == last else number) in TEMPLATES[self.code][1] for number in range(last + 1)]
        lines = [slot.line + (" ;;" if stop else "") for slot, stop in zip(self.slots, stops)]
        return "|".join((str(self.code), *lines))


def make(cases):
    """The bytes of each case: the assembler's, with the words moved in that it makes elsewhere alone,
    and with the edits."""
    bundles, moves = [], []
    for case in cases:
        texts = nops(case.code)
        for slot, instruction in enumerate(case.slots):
            home = instruction.home(case.code, slot)
            if home == (case.code, slot):
                texts[slot] = instruction.text
            else:
                moves.append((len(bundles), slot, home, instruction.text))
        bundles.append((case.code, texts))
    for _, _, (code, slot), text in moves:
        texts = nops(code)
        texts[slot] = text
        bundles.append((code, texts))
    words = [words for _, words in gnu_as.assemble(bundles)]
    for (case, slot, (code, from_slot), _), made in zip(moves, words[len(cases):]):
        words[case][word_index(cases[case].code, slot)] = made[word_index(code, from_slot)]
        if units(code)[from_slot] == "x":
            words[case][1] = made[1]
    for case, own in zip(cases, words):
        for index, edit in case.edits:
            own[index] = edit(own[index]) & WORD
    return [gnu_as.join(case.made_code, own) for case, own in zip(cases, words)]


def filled(random, code, given):
    """Instructions for all slots: those given, and drawn ones."""
    return [given[slot] if slot in given else random.choice(rows_of(unit, code, slot)).draw(random)
            for slot, unit in enumerate(units(code))]


# What decodes to a bundle.


def every_template(random):
    nop = {row.family.lower(): row.spell({"qp": 0, "imm": 0}) for row in ROWS if row.name == "Nop"}
    for code in TEMPLATES:
        yield Case(code, [nop[unit] for unit in units(code)])
        for _ in range(DRAWN_BUNDLES):
            yield Case(code, filled(random, code, {}))


# The templates, in turn, for the instructions of a family.
CODES = {
    "A": (0x00, 0x08, 0x01, 0x09, 0x02, 0x0A, 0x03, 0x0B),
    "I": (0x00, 0x01, 0x02, 0x03, 0x00, 0x01, 0x02, 0x03, 0x08, 0x0D, 0x11),
    "M": (0x08, 0x09, 0x0A, 0x0B, 0x0E, 0x0F, 0x18, 0x19),
    "B": (0x16, 0x12, 0x17, 0x13, 0x10, 0x18, 0x1C, 0x11, 0x19, 0x1D),
    "F": (0x0C, 0x0D, 0x0E, 0x0F, 0x1C, 0x1D),
    "X": (0x04, 0x05),
}


def family(letter):
    """The section that tries each row of a family, in each of its units."""
    def cases(random):
        queue = [(unit, instruction) for row in ROWS if row.family == letter
                 for instruction in row.cases(random, DRAWN) for unit in row.units]
        for code in itertools.cycle(CODES[letter]):
            if not queue:
                break
            yield Case(code, filled(random, code, taken_from(queue, code)))
    return cases


def taken_from(queue, code):
    """Takes the first instruction that goes there out of the queue, for each slot of the template."""
    given = {}
    for slot, unit in enumerate(units(code)):
        found = next((item for item in queue if item[0] == unit and item[1].goes(code, slot)), None)
        if found:
            queue.remove(found)
            given[slot] = found[1]
    return given


# What decodes to nothing.


def unlisted(slot):
    return f"Unlisted {{ slot: {slot} }}"


def spoilt(random, unit, instruction=None, edit=None, place=None):
    """A bundle in which this instruction, or a drawn one, stands in a slot of the unit, its word
    changed by the edit, so that no instruction that fits there has it. Before it stands what decodes,
    and after it not always."""
    code, slot = place or random.choice(
        [place for place in PLACES[unit] if instruction is None or instruction.goes(*place)])
    slots = filled(random, code, {slot: instruction} if instruction else {})
    spoilt_word = word_index(code, slot)
    edits = [(spoilt_word, edit)] if edit else []
    for later in range(spoilt_word + 1, 3):
        if random.randrange(4) == 0:
            edits.append((later, constant(random.getrandbits(41))))
    return Case(code, slots, edits, fault=unlisted(slot))


def constant(word):
    return lambda _: word


def reserved_templates(random):
    for reserved in RESERVED:
        for code in random.sample(sorted(TEMPLATES), 5):
            yield Case(code, filled(random, code, {}), (), reserved, "ReservedTemplate")
        edits = [(index, constant(random.getrandbits(41))) for index in range(3)]
        yield Case(0x01, filled(random, 0x01, {}), edits, reserved, "ReservedTemplate")


def bits_that_are_zero(random):
    for row in ROWS:
        for bit in row.zero:
            yield spoilt(random, random.choice(row.units), row.draw(random), field(bit, 1, 1))


def codes_of_nothing(random):
    for sweep_units, fixed, (low, width), listed in SWEEPS:
        values = sorted(set(range(1 << width)) - listed)
        for unit in sweep_units:
            for value in values:
                word = swept_word(random, unit, {**fixed, low: value}, low)
                yield spoilt(random, unit, edit=constant(word))


def swept_word(random, unit, fields, low):
    """A word with these fields, one of which is swept. Where that is not the major opcode, registers
    stand where they don't meet it, and the other bits are zero."""
    word = sum(value << bit for bit, value in fields.items()) | random.getrandbits(6)
    if low == 37:
        return word | random.getrandbits(31) << 6
    operands = ((6, 3), (12, 1), (13, 3)) if unit == "b" else ((6, 7), (13, 7), (20, 7))
    for bit, width in operands[:random.randrange(1, 4)]:
        if bit not in fields:
            word |= random.randrange(1, 1 << width) << bit
    return word


def operands_out_of_range(random):
    for row in ROWS:
        for edit in out_of_range(row):
            for _ in range(5):
                yield spoilt(random, row.units[0], row.draw(random), edit)


def targets_r0(random):
    for row in ROWS:
        if row.has_target:
            for unit in row.units * 2:
                yield spoilt(random, unit, row.draw(random), field(6, 7, 0))


def equal_predicates(random):
    for row in ROWS:
        if row.has_predicates:
            for fixed in combinations(row.operands):
                number = random.choice((0, 63, random.randrange(64)))
                first, second = field(6, 6, number), field(27, 6, number)
                yield spoilt(random, random.choice(row.units), row.draw(random, **fixed),
                             lambda word, first=first, second=second: first(second(word)))


def loop_branches_outside_slot_2(random):
    for row in ROWS:
        if row.goes is in_slot_2:
            for kind in row.operands["kind"].all():
                for place in (place for place in PLACES["b"] if place[1] != 2):
                    yield spoilt(random, "b", row.draw(random, kind=kind), place=place)


def words_of_another_unit(random):
    candidates = [
        (unit, spoilt(random, unit, row.draw(random), place=random.choice(PLACES[unit])))
        for row in ROWS if row.family != "X" for unit in PLACES if unit not in row.units]
    for (unit, case), made in zip(candidates, make([case for _, case in candidates])):
        words = gnu_as.split(made)[1]
        slot = next(slot for slot in range(3) if case.fault == unlisted(slot))
        if words[word_index(case.code, slot)] >> 37 not in MAJOR[unit]:
            yield case


def left_out_of_the_profile(random):
    for unit, text in left_out():
        yield spoilt(random, unit, Instruction(None, text, None))


def unknown_to_the_disassembler(random):
    candidates = [spoilt(random, unit, edit=constant(random.getrandbits(41)))
                  for unit in PLACES for _ in range(400)]
    illegal = gnu_as.illegal_slots(make(candidates))
    unknown = [case for case, slots in zip(candidates, illegal)
               if slots and case.fault == unlisted(min(slots))]
    return random.sample(unknown, 300)


# The name of a section is the seed of what it draws.
SECTIONS = (
    ("every template", every_template),
    *((f"{letter} instructions", family(letter)) for letter in CODES),
    ("reserved templates", reserved_templates),
    ("bits that have to be zero", bits_that_are_zero),
    ("codes of nothing", codes_of_nothing),
    ("operands out of range", operands_out_of_range),
    ("targets r0", targets_r0),
    ("equal predicate targets", equal_predicates),
    ("loop branches outside slot 2", loop_branches_outside_slot_2),
    ("words of another unit", words_of_another_unit),
    ("left out of the profile", left_out_of_the_profile),
    ("unknown to the disassembler", unknown_to_the_disassembler),
)


def witnessed(cases, made):
    """Stops where the disassembler doesn't know an instruction that has to be one, and answers how
    many of the faults it sees too."""
    seen = 0
    for case, data, illegal in zip(cases, made, gnu_as.illegal_slots(made)):
        if case.fault == "ReservedTemplate":
            seen += illegal == {0, 1, 2}
            continue
        fault = next((slot for slot in range(3) if case.fault == unlisted(slot)), 3)
        if any(slot < fault for slot in illegal):
            stop(f"the disassembler knows no instruction in slots {illegal} of {data.hex()}, which is "
                 f"to be {case.answer()}")
        seen += fault in illegal
    return seen


# A difference of two registers in a line.
DIFFERENCE = re.compile(r" sub (?=r\d+=r)")


def wrong_on_purpose(rows):
    """Rows that a program which always agrees would not tell from the others: of a bundle and of a
    fault, with one digit, with one word of the text and with the slot changed, and one without a text."""
    bundle = next(row for row in rows if DIFFERENCE.search(row))
    fault = next(row for row in rows if "slot: 1" in row)
    kind, digits, text = bundle.split(" ", 2)
    changed = format(int(digits, 16) ^ 1 << 96, "032x")
    return [
        f"{kind} {changed} {text}",
        DIFFERENCE.sub(" add ", bundle, 1),
        fault.replace("slot: 1", "slot: 2"),
        fault.replace("Unlisted", "Listed"),
        f"{kind} {digits}",
    ]


def main():
    gnu_as.require_tools()
    rows, operations = [], collections.Counter()
    for section, make_cases in SECTIONS:
        cases = list(make_cases(randoms.Random(section)))
        made = make(cases)
        seen = witnessed(cases, made)
        witness = f", {seen} of whose faults the disassembler sees too" if cases[0].fault else ""
        print(f"{section}: {len(cases)} rows{witness}")
        rows += [f"bundle {data.hex()} {case.answer()}" for case, data in zip(cases, made)]
        operations.update(
            f"{unit.upper()} {instruction.row.name}" for case in cases if case.fault is None
            for instruction, unit in zip(case.slots, units(case.code)))
    vector_rows.write("bundle", rows + [f"not {row}" for row in wrong_on_purpose(rows)])
    print(f"{len(rows)} rows, {sum(operations.values())} instructions in bundles, of which each unit has:")
    for operation, count in sorted(operations.items()):
        print(f"  {operation} {count}")


if __name__ == "__main__":
    main()
