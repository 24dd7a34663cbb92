#!/usr/bin/env python3
"""Makes rows of the program `vectors`: lines of text, and what each has to be read as.

  python3 generate/make_line_rows.py

It runs in any folder, writes its part of `crates/vectors/stdin`, and prints what that covers. The same tools give the same rows.
It needs what `make_bundle_rows.py` needs. The gate doesn't call it.

The rows are:

- `slot HEX SLOT TEXT`, or `slot HEX SLOT:LABEL TEXT` where the text names a label: the sixteen bytes of a bundle as 32
  hexadecimal digits, a slot from 0 to 2, and the text of a slot's line. The text has to be read as the instruction of that slot,
  with a stop where the bundle has one after it. The bytes are those of the GNU assembler. The label is that of the text's own
  bundle, so a displacement is 0. The address that a `movl` names is 0 until the linker puts one in. A long instruction has
  slot 1.
- `FAULT TEXT`: a line with this fault: char, name, register, number, range or form. `line_faults.py` has them, but for numbers
  past their edges, which are made here. The specification says what the fault is, and not the assembler.
- `line WHAT|TEXT`: a line that isn't a slot's, and what it is (`line_texts.py`).
- `words WORDS|TEXT`: a line and its lexemes. `token WHAT|TEXT`: a line of one lexeme, and the debug text of what that may be read
  as (`line_texts.py`).

The last rows are wrong on purpose.

The assembler is given the text of a row as it stands, but where it doesn't take it or means something else by it. There it is
given the same in its own words (`said`), and a comment says why:

- It counts tags in bytes, has other numbers for `nop.x`, `break.x` and `hint.m`, as `make_bundle_rows.py` tells, and takes a
  leading 0 for octal. A `nop` or `break` without a unit letter has 21 bits for it.
- It makes `addl` of `add r1=imm,r3` where r3 is r0 to r3, for numbers of 14 bits too.
- It wants the number of `nop`, `break` and `hint`, the tag of a `mov` with completers, and the *bwh* of a branch that names its
  kind (`br x` it takes, and `br.cond x` it doesn't).
- It refuses some blanks round the qualifying predicate in its parentheses, and takes names of registers for registers where the
  text form takes labels.

Of a pseudo-operation, and of what is left out, the assembler is given the instruction that is meant too, and has to make the same
of both.
"""

import collections
import itertools
import random as randoms
import re
import sys
from string import Template

sys.dont_write_bytecode = True

import gnu_as
import line_texts
import vector_rows
from gnu_as import SEPARATOR, TEMPLATES, nops, stop, units
from instruction_rows import ROWS, combinations, last_of_a_group
from line_faults import FAULTS
from line_texts import EDGES, LINES, LONG, OTHERWISE, ODD_LABELS, PSEUDO, SHORT_SUM, TAG, WORD_TOKENS, WORDS, numbered
from make_bundle_rows import PLACES

# How often a row of each table is drawn.
DRAWN = 1
DRAWN_PSEUDO = 2
STYLED = 5

LINE = 240


class Slot:
    """The text of a slot's line and, where the assembler is given other words, these, and what a
    pseudo-operation means. `%` stands for the label of the text's bundle in all three. `places` are
    those, as a template's code and a slot, where the assembler takes it. `tail` is what stands after
    the stop, and `label` the label that it names if it isn't `%`."""

    def __init__(self, text, places, said=None, meaning=None, tail="", label=None):
        self.text, self.places, self.said, self.meaning = text, places, said, meaning
        self.tail, self.label = tail, label


class Placed:
    """A slot's text in its bundle, with the name of the bundle and a way to write the stop."""

    def __init__(self, slot, random, index):
        self.slot = slot
        self.code, self.number = random.choice(slot.places)
        self.name = name(random, index)
        self.stop = random.choice((" ;;", " ;;", " ;;", ";;", "\t;;", "  ;; ")) if self.stops() else ""
        self.text = slot.text.replace("%", self.name) + self.stop + slot.tail
        if len(self.text) > LINE:
            stop(f"a text has {len(self.text)} bytes: {self.text}")

    def stops(self):
        return self.stops_after(self.number)

    def stops_after(self, number):
        last = number == len(units(self.code)) - 1
        return (2 if last else number) in TEMPLATES[self.code][1]

    def source(self, text=None):
        """The bundle in the assembler's language, with this text in place of the row's own."""
        if text is None:
            text = self.slot.said
        given = self.text if text is None else text.replace("%", self.name) + self.stop
        lines = [f" {nop}{' ;;' if self.stops_after(number) else ''}"
                 for number, nop in enumerate(nops(self.code))]
        lines[self.number] = given
        body = "\n".join(lines)
        return f"{self.name}:\n{{ .{TEMPLATES[self.code][0]}\n{body}\n}}\n{SEPARATOR}"

    def row(self, data):
        label = self.slot.label or (self.name if "%" in self.slot.text else None)
        return f"slot {data.hex()} {self.number}{f':{label}' if label else ''} {self.text}"


def name(random, index):
    """A name of a bundle: names of all kinds that neither assembler takes for a register."""
    return random.choice((
        f"bundle{index}", f".L{index}", f"_Z{index}v", f"$code.{index}", f"Here_{index}",
        f"r{1000 + index}", f"p0.{index}", f"L{index}", f"a.b$c_{index}",
        f"long_{index}_".ljust(63, "x")))


def made(sources, codes):
    """The bundles of these sources."""
    text = "".join(sources)
    data = gnu_as.assembled(text)
    if len(data) != 32 * len(sources):
        stop(f"{len(sources)} bundles and their separators have {len(data)} bytes")
    bundles = [data[32 * index:32 * index + 16] for index in range(len(sources))]
    for bundle, code, source in zip(bundles, codes, sources):
        if gnu_as.split(bundle)[0] != code:
            stop(f"the assembler took another template in place of {code:02x}:\n{source}")
    return bundles


# Where the assembler takes a text.


def places_of(units_of, gnu=None):
    return [place for unit in units_of for place in PLACES[unit] if gnu is None or gnu(*place)]


def places_of_text(units_of, text):
    """Those of a text: `alloc` has to be first in its group, `clrrrb` last, and a loop branch in
    slot 2."""
    word = re.sub(r"^\(\w+\) *", "", text)
    if word.startswith("alloc"):
        return places_of(units_of, lambda code, slot: slot == 0)
    if word.startswith("clrrrb"):
        return places_of(units_of, last_of_a_group)
    if re.match(r"br\.(wexit|wtop|cloop|cexit|ctop)", word):
        return places_of(units_of, lambda code, slot: slot == 2)
    return places_of(units_of)


# The table of instructions.


def of_row(row, values):
    """The text of an instruction of the table with these values, and what the assembler is given."""
    texts = {key: operand.text(values[key]) for key, operand in row.operands.items()}
    given = dict(texts)
    if "disp" in texts:
        texts["disp"] = given["disp"] = "%"
    if "tag" in texts:
        texts["tag"] = row.operands["tag"].line(values["tag"])
    if row.name in ("Break", "Nop", "Hint"):
        # in the profile's number, where the assembler's is another
        texts["imm"] = row.operands["imm"].line(values["imm"])
    predicate = f"(p{values['qp']}) " if values["qp"] else ""
    more = row.more(values)
    text, said = (predicate + row.text.substitute(own, **more) for own in (texts, given))
    return text, None if said == text else said


def slot_of_row(row, values):
    text, said = of_row(row, values)
    return Slot(text, places_of(row.units, row.gnu), said)


def every_row(random):
    """Each row with each combination of its completers, each operand at its ends, at 0 and at -1, and
    drawn ones."""
    for row in ROWS:
        fixed = {"disp": 0} if "disp" in row.operands else {}
        for completers in combinations(row.operands):
            yield slot_of_row(row, row.draw_values(random, **completers, **fixed))
        for key, operand in row.operands.items():
            if key != "disp" and not operand.is_choice:
                for value in sorted({operand.low, operand.high, 0, -1}):
                    if operand.low <= value <= operand.high and value % operand.step == 0:
                        yield slot_of_row(row, row.draw_values(random, **{**fixed, key: value}))
        for _ in range(DRAWN):
            yield slot_of_row(row, row.draw_values(random, **fixed))


# The other tables.


def drawn(random, text):
    """Values for the names in a text, as the text shows them. Two predicates differ."""
    names = sorted(set(re.findall(r"\$([a-z]+[0-9]*)", text)))
    while True:
        values = {key: line_texts.OPERANDS[key].text(line_texts.OPERANDS[key].draw(random))
                  for key in names}
        if "p1" not in values or values["p1"] != values["p2"]:
            return values


def pseudo_operations(random):
    for units_of, text, meaning in PSEUDO:
        for choices in combinations({key: line_texts.OPERANDS[key] for key in ("four", "unc")
                                     if f"${key}" in text}):
            fixed = {key: line_texts.OPERANDS[key].text(value) for key, value in choices.items()}
            for _ in range(DRAWN_PSEUDO):
                values = {**drawn(random, text), **fixed}
                predicate = random.choice(("", "", f"(p{random.randrange(1, 64)}) "))
                if text.startswith("("):
                    predicate = ""
                yield Slot(predicate + Template(text).substitute(values),
                           places_of_text(units_of, text),
                           meaning=predicate + Template(meaning).substitute(values))


def left_out_completers(random):
    """Branches without one or more of their completers."""
    forms = (("", "%"), (".cond", "%"), (".wexit", "%"), (".wtop", "%"), (".cloop", "%"),
             (".cexit", "%"), (".ctop", "%"), (".call", "$b1=%"), ("", "$b2"), (".cond", "$b2"),
             (".ret", "$b2"), (".call", "$b1=$b2"))
    completers = (("", ".sptk", ".spnt", ".dptk", ".dpnt"), ("", ".few", ".many"), ("", ".clr"))
    for (kind, operands), (wh, ph, clr) in itertools.product(forms, itertools.product(*completers)):
        if kind and wh and ph:
            continue
        operands_drawn = Template(operands).substitute(drawn(random, operands))
        text = f"br{kind}{wh}{ph}{clr} {operands_drawn}"
        full = f"br{kind or '.cond'}{wh or '.sptk'}{ph or '.few'}{clr} {operands_drawn}"
        places = places_of_text("b", text)
        if kind and not wh:
            yield Slot(text, places, said=full)
        else:
            yield Slot(text, places, meaning=full)


def in_other_words(random):
    for units_of, text, said in OTHERWISE:
        for _ in range(2 if "$" in text else 1):
            values = drawn(random, text)
            yield Slot(Template(text).substitute(values), places_of_text(units_of, text),
                       Template(said).substitute(values))


def odd_labels(_random):
    for units_of, text, said, label in ODD_LABELS:
        yield Slot(text, places_of_text(units_of, text), said, label=label)


def inside(low, high, step):
    return [value for value in sorted({low, -step, 0, high})
            if low <= value <= high]


def spelled(number, base):
    return str(number) if base == 10 else f"{'-' if number < 0 else ''}{hex(abs(number))}"


def said_otherwise(text, number, what):
    """What the assembler is given for a text with this number, or nothing where it has none for it."""
    if what == TAG:
        return text.replace("$n", f"%{16 * number:+d}")
    if what == SHORT_SUM:
        # it takes the long form for each number
        word = "adds" if -8192 <= number <= 8191 else "addl"
        return text.replace("add ", f"{word} ").replace("$n", str(number))
    if what == LONG:
        # bit 36 of the X slot, which is the highest here, stands below the L slot there
        high, rest = number >> 61, number & (1 << 61) - 1
        given = hex(rest >> 20 << 21 | high << 20 | rest & 0xFFFFF)
        return re.sub(r"^(nop|break) ", r"\1.x ", text).replace("$n", given)
    # `hint.m`: it leaves out two bits of the word
    if number & 0x30:
        return None
    return text.replace("$n", hex(number >> 20 << 18 | number >> 6 << 4 & 0x3FFF0 | number & 0xF))


def numbers_at_edges(_random):
    for units_of, text, low, high, step, _, otherwise in EDGES:
        for number, base in zip(inside(low, high, step), itertools.cycle((10, 16))):
            said = said_otherwise(text, number, otherwise) if otherwise else None
            if said or not otherwise:
                yield Slot(text.replace("$n", spelled(number, base)),
                           places_of_text(units_of, text), said)


def past_edges():
    """Fault rows of numbers out of their field: just past each edge, and far past it. Where the
    instruction is two, by its number, what is past the first one's edge has a fault of its own."""
    for units_of, text, low, high, step, fault, _ in EDGES:
        past = {low - 1, high + 1} if step == 1 else {low - step, low + 1, high - 1, high + step}
        for number in sorted(past):
            yield fault, text.replace("$n", str(number))
        yield "range", text.replace("$n", hex(1 << 64))


# Ways to write a text.

ALIASES = {"r1": "gp", "r12": "sp", "r13": "tp", "r8": "ret0", "r9": "ret1", "r10": "ret2",
           "r11": "ret3", "b0": "rp"}
TOKENS = re.compile(r"[A-Za-z_.$][A-Za-z0-9_.$]*|-?[0-9][0-9a-fx]*|.")
COMMENTS = ("// a comment", "//", "// ;; }", "//// nop.i 0", "//\t\"'@`~ {")


def respelled(random, token):
    """A token of an operand in another spelling of the same."""
    if token in ALIASES and random.randrange(3):
        return ALIASES[token]
    if re.fullmatch(r"-?[0-9]+", token) and random.randrange(2):
        digits = f"{abs(int(token)):x}"
        digits = "0" * random.randrange(3) + "".join(random.choice((c, c.upper())) for c in digits)
        return f"{'-' if token[0] == '-' else ''}0x{digits}"
    if token == "%" and random.randrange(2):
        return "%#"
    return token


def styled(random, text):
    """The text with other spellings of its operands and with other blanks, and what the assembler is
    given: it refuses some blanks round the qualifying predicate itself."""
    def blank():
        return random.choice(("", "", "", " ", "\t", "  ", " \t "))

    predicate, word, operands = re.fullmatch(r"(\(p\d+\) )?([^ ]+) ?(.*)", text).groups()
    pieces, inner = [blank()], ("", "")
    if predicate:
        if random.randrange(4) == 0:
            inner = blank(), blank()
        pieces += ["(", inner[0], predicate[1:-2], inner[1], ")", blank()]
    elif random.randrange(8) == 0 and not word.startswith(("alloc", "clrrrb", "br.c")):
        pieces += ["(p0)", blank()]
    pieces.append(word)
    if operands:
        pieces.append(random.choice((" ", " ", "\t", "   ")))
    for token in TOKENS.findall(operands):
        pieces += [respelled(random, token), blank()]
    text = "".join(pieces)
    tight = "".join((*pieces[:2], *pieces[3:4], *pieces[5:])) if any(inner) else None
    return text, tight


def every_style(random):
    """Drawn instructions, written in all ways, with registers that have an alias among them."""
    for row in ROWS:
        for _ in range(STYLED):
            text, said = of_row(row, row.draw_values(random, **with_aliases(random, row)))
            if said is not None and row.name != "MovToBr":
                continue
            if said is not None:
                # the tag is left out, which the assembler takes where there is no completer
                text = text.rsplit(",", 1)[0]
                if "mov b" not in text:
                    continue
            text, said = styled(random, text)
            yield Slot(text, places_of(row.units, row.gnu), said, tail=blank_and_comment(random))


def with_aliases(random, row):
    """Values for some registers of a row that have an alias, and no displacement and no tag."""
    fixed = {key: 0 for key in ("disp", "tag") if key in row.operands}
    for key, operand in row.operands.items():
        if key in ("r1", "r2", "r3") and operand.high == 127 and random.randrange(2):
            fixed[key] = random.choice((1, 8, 9, 10, 11, 12, 13))
        if key in ("b1", "b2") and random.randrange(2):
            fixed[key] = 0
    if "r1" in fixed and fixed["r1"] == fixed.get("r3"):
        # a load with base update would update its target
        del fixed["r3"]
    return fixed


def blank_and_comment(random):
    if random.randrange(3):
        return random.choice(("", "", " ", "\t"))
    return random.choice(("", " ", "\t")) + random.choice(COMMENTS)


def longest_lines(_random):
    """Lines of 240 bytes, which end with blanks, a comment or an operand."""
    places = [(0x00, 1)]
    text = "(p6) add r8=r9,r10"
    room = LINE - len(text)
    for tail in (" ".ljust(room), "\t".ljust(room, "\t"), "//".ljust(room, "/"), " // x".ljust(room, "x")):
        yield Slot(text, places, tail=tail)
    yield Slot(text.replace("=", " " * room + "="), places)


SECTIONS = (
    ("every row", every_row),
    ("pseudo-operations and what is left out", pseudo_operations),
    ("left out completers", left_out_completers),
    ("in other words", in_other_words),
    ("odd labels", odd_labels),
    ("numbers at edges", numbers_at_edges),
    ("every style", every_style),
    ("longest lines", longest_lines),
)


def vectors():
    """The rows of slots."""
    placed, counts = [], {}
    for section, slots in SECTIONS:
        random = randoms.Random(section)
        before = len(placed)
        for slot in slots(random):
            placed.append(Placed(slot, random, len(placed)))
        counts[section] = len(placed) - before
    bundles = made([one.source() for one in placed], [one.code for one in placed])
    meant = [(one, bundle) for one, bundle in zip(placed, bundles) if one.slot.meaning]
    again = made([one.source(one.slot.meaning) for one, _ in meant], [one.code for one, _ in meant])
    for (one, bundle), other in zip(meant, again):
        if bundle != other:
            stop(f"the assembler doesn't take {one.text} for {one.slot.meaning}")
    for section, count in counts.items():
        print(f"{section}: {count} lines")
    otherwise = sum(one.slot.said is not None for one in placed)
    print(f"{len(placed)} lines of slots, of which the assembler is given {otherwise} in other words, "
          f"and {len(meant)} of which it has to take for an instruction that is meant")
    return list(dict.fromkeys(one.row(bundle) for one, bundle in zip(placed, bundles)))


def faults():
    rows = list(dict.fromkeys((*FAULTS, *past_edges())))
    for fault, count in sorted(collections.Counter(fault for fault, _ in rows).items()):
        print(f"fault {fault}: {count} lines")
    texts = collections.Counter(text for _, text in rows)
    for text, count in texts.items():
        if count > 1:
            stop(f"two faults for {text}")
        if len(text) > LINE:
            stop(f"a text has {len(text)} bytes: {text}")
    return [f"{fault} {text}" for fault, text in rows]


def lines():
    print(f"lines that aren't slots: {len(LINES)}")
    return [f"line {what}|{text}" for what, text in LINES]


def words():
    print(f"lines and their words: {len(WORDS)}, and words and their tokens: {len(WORD_TOKENS)}")
    return [f"{kind} {what}|{text}" for kind, rows in (("words", WORDS), ("token", WORD_TOKENS))
            for what, text in rows]


# A bundle of three nops.
NOPS = "00000000010000000002000000000400"


def wrong_on_purpose(rows):
    """Rows that a program which looks at less than it has to would not tell from the others: another
    instruction, another label, another fault, another line, a stop that isn't there, another number or
    size of data, another count, another template, another number without a unit letter, another end of
    a word, and another register."""
    plain = re.compile(r"slot \w{32} \d (\(p\d+\) )?add r\d+=r\d+,r\d+")
    place, text = re.match(r"(\w+ \w+ \w+) (.*)", next(row for row in rows if plain.fullmatch(row))).groups()
    named = next(row for row in rows if ":bundle" in row)
    fault = next(row for row in rows if row.startswith("register add"))
    return [
        f"{place} {text.replace('add ', 'sub ')}",
        named.replace(":bundle", ":bundles", 1),
        fault.replace("register", "number", 1),
        "line label loop|loops:",
        f"{place} {text} ;;",
        "line numbers 1 2|data1 1",
        "line numbers 2 1|data1 1",
        "line skip 5|.skip 6",
        "line open mii|{ .mmi",
        f"slot {NOPS} 1 nop 1",
        "words name 0 2|a",
        f"token {numbered('Gr', 2)}|gp",
    ]


def main():
    gnu_as.require_tools()
    rows = [*vectors(), *faults(), *lines(), *words()]
    vector_rows.write("line", rows + [f"not {row}" for row in wrong_on_purpose(rows)])
    print(f"{len(rows)} rows")


if __name__ == "__main__":
    main()
