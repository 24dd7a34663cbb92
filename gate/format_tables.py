#!/usr/bin/env python3
"""Checks what is said of instructions elsewhere against the rows that the program decodes and encodes by.

  gate/format_tables.py            checks, and ends with status 1 where something isn't so
  gate/format_tables.py --write    writes the lines of docs/use/formats.md

It says

- which lines of docs/use/formats.md aren't what the rows say;
- of which row of words not just one row of instruction_rows.py is, by the ends of its operands and by what is chosen in its
  opcode;
- which zeros of that table are bits that a word may have, and which of its words no printed form has;
- which printed forms have their completers or operands in the order of none of its lines;
- which forms write a value in another way than its operand in a word is coded.

A table of the page has a line for each format of a family. Its first column has the instructions as a user writes them, and
stands in the page alone. The other columns are made here. It needs no built program.
"""

import re
import sys
from collections import Counter
from itertools import product
from pathlib import Path
from string import Template

sys.dont_write_bytecode = True
ROOT = Path(__file__).resolve().parent.parent
sys.path.append(str(ROOT / "generate"))

from instruction_rows import ROWS, combinations  # noqa: E402
from row_sources import (  # noqa: E402
    FAMILIES, Operand, completer_texts, fields, formats, forms, operand_names, operands, printed_forms, rows,
)

PAGE = ROOT / "docs" / "use" / "formats.md"
# The tables of the page, by their headings, with the families of each.
TABLES = {
    "### A: M and I slots": "A",
    "### I slots": "I",
    "### M slots": "M",
    "### B and F slots, and long instructions": "BFX",
}
HEAD = "| Instruction | Format | Fields of the opcode | Operands |"
RULE = "|---|---|---|---|"


# ---- What a line says ------------------------------------------------------------------------------------------------------


def span(low, width):
    return str(low) if width == 1 else f"{low + width - 1}:{low}"


def bits(operand):
    return " \\| ".join(span(*field) for field in operand.fields)


def power(exponent, less=0):
    """2 to a power, less a number, as it is read best."""
    return str((1 << exponent) - less) if exponent < 20 else f"2^{exponent}" + f" - {less}" * (less > 0)


def signed(width):
    return f"-{power(width - 1)} to {power(width - 1, 1)}"


def sizes(least, most):
    found = [str(1 << n) for n in range(4) if least <= 1 << n <= most]
    return " or ".join([", ".join(found[:-1]), found[-1]] if found[1:] else found)


# The letters of registers, by their codings, and what they are.
REGISTERS = {"Gr": "r", "LowGr": "r", "Target": "r", "Pr": "p", "Br": "b"}
KINDS = {"r": "a general register", "p": "a predicate", "b": "a branch register"}
# Of a coding which values an operand of so many bits may have, where its kind doesn't say it, and how they are coded where
# they aren't their codes.
VALUES = {
    **dict.fromkeys(("Gr", "Pr", "Br", "Flag"), lambda width: ""),
    "NoPredicate": lambda width: "p0",
    "LowGr": lambda width: "r0 to r3",
    "Target": lambda width: "not r0",
    "Small": lambda width: f"0 to {power(width, 1)}",
    "UpTo": lambda width, most: f"0 to {most}",
    "LoadHint": lambda width: "0, 1, 3",
    "StoreHint": lambda width: "0, 3",
    "LessOne": lambda width: f"1 to {power(width)}, as one less",
    "From63": lambda width: "0 to 63, as 63 less it",
    "Size": lambda width, least, most: f"{sizes(least, most)}, as the logarithm",
    "Increment": lambda width: "16, 8, 4, 1 as 0 to 3, with a sign",
    "Wide": lambda width: f"0 to {power(width, 1)}",
    "PredicateMask": lambda width: f"{width + 1} bits, the lowest zero and left out",
    "Signed": signed,
    "RotatingMask": lambda width: f"{width + 16} bits, signed, the lowest 16 zero and left out",
    "Short": signed,
    "Displacement": lambda width: f"{signed(width)}, in bundles",
}


def values(name, operand):
    """Which values an operand may have, where its kind doesn't say it, and that it is a register, where its name doesn't."""
    letter = REGISTERS.get(operand.coding)
    kind = KINDS[letter] if letter and not re.fullmatch(rf"{letter}\d", name) else ""
    return ", ".join(filter(None, (kind, VALUES[operand.coding](operand.width(), *operand.told))))


def check(form, names):
    """What the values of operands must be to each other."""
    told = [names[int(it)] for it in re.findall(r"\d+", form.check)]
    if form.check.startswith("Differ"):
        return f"{told[0]} and {told[1]} differ"
    if form.check.startswith("Frame"):
        sof, sol, sor = told
        return f"{sof} to 96, {sol} to {sof}, 8·{sor} to {sof}"
    if form.check != "Free":
        raise ValueError(f"a check of another kind: {form.check}")
    return ""


# The qualifying predicate, as most formats have it.
QUALIFIER = Operand("Pr", (), ((0, 6),))


class Tables:
    """What the sources say."""

    def __init__(self):
        self.fields, self.operands, self.formats, self.names = fields(), operands(), formats(), operand_names()

    def operand_texts(self, form, variant):
        """Of each operand of a format its name, its bits and its values."""
        names = ("qp", *self.names[variant])
        for name, key in zip(names, form.operands):
            operand = self.operands[key]
            if (name, operand) != ("qp", QUALIFIER):
                where, what = bits(operand), values(name, operand)
                yield name + f"@{where}" * bool(where) + f" ({what})" * bool(what)
        told = check(form, names)
        if told:
            yield told

    def operand_cell(self, group):
        """The operands of the rows under one heading, and which are other ones in some of the rows."""
        own = [list(self.operand_texts(self.formats[row.format], variant(row))) for row in group]
        other = {}
        for name, texts in zip(names_of(group), own):
            for text in texts:
                if text not in own[0]:
                    other.setdefault(text, []).append(name)
        return ", ".join(own[0] + [f"of {' and '.join(names)} {text}" for text, names in other.items()])

    def field_cell(self, group):
        """The fields of the rows under one heading: those that are the same in all, and then those of each."""
        keys = list(dict.fromkeys(name for row in group for name in row.fields))
        same = [key for key in keys if len({row.fields.get(key) for row in group}) == 1]
        other = [key for key in keys if key not in same]
        text = ", ".join(f"{self.field(key)} {group[0].fields[key]:X}" for key in same)
        if not other:
            return text
        heads = ", ".join(map(self.field, other))
        cases = ", ".join(
            f"{name} {'/'.join(number(row.fields.get(key)) for key in other)}" for name, row in zip(names_of(group), group)
        )
        return "; ".join(filter(None, (text, f"{heads}: {cases}")))

    def field(self, key):
        name = re.sub(r"_[A-Z]\d+$", "", key).lower().replace("wh_lowest", "wh lowest")
        return f"{'op' if name == 'major' else name}@{self.fields[key]}"

    def lines(self, family):
        """A line for each heading of a family's rows, but for its first cell."""
        found = rows(FAMILIES[family])
        for heading in dict.fromkeys(row.heading for row in found):
            group = [row for row in found if row.heading == heading]
            yield heading, f"{self.field_cell(group)} | {self.operand_cell(group)}"


def number(value):
    return "-" if value is None else f"{value:X}"


def names_of(group):
    """The opcodes of rows by what tells them apart: the operation, or the choices in it."""
    parts = [re.findall(r"^\w+|(?<=::)\w+", row.opcode) for row in group]
    return [" ".join(it for place, it in enumerate(own) if any(it not in other[place : place + 1] for other in parts)) for own in parts]


# ---- The page ----------------------------------------------------------------------------------------------------------------


def tables_of(page):
    """The page with its tables made anew, each line under the first cell that the page has for its format."""
    made = Tables()
    for heading, families in TABLES.items():
        start = page.index(f"\n{heading}\n")
        begin = page.index("\n| Instruction |", start) + 1
        end = page.index("\n\n", begin)
        firsts = {cells[1]: cells[0] for cells in map(cells_of, page[begin:end].splitlines()[2:])}
        lines = [HEAD, RULE]
        for family in families:
            for format_name, rest in made.lines(family):
                lines.append(f"| {firsts.get(format_name, '')} | {format_name} | {rest} |")
        page = page[:begin] + "\n".join(lines) + page[end:]
    return page


def cells_of(line):
    return [cell.strip() for cell in re.split(r"(?<!\\)\|", line.strip().strip("|"))]


# ---- The rows of texts ---------------------------------------------------------------------------------------------------------

# Of a coding the lowest and the highest value of an operand of so many bits, as instruction_rows.py has them: of choices among
# words the first one is 0.
ENDS = {
    "NoPredicate": lambda width: (0, 0),
    "Target": lambda width: (1, (1 << width) - 1),
    "UpTo": lambda width, most: (0, most),
    "LoadHint": lambda width: (0, 2),
    "StoreHint": lambda width: (0, 1),
    "LessOne": lambda width: (1, 1 << width),
    "Size": lambda width, least, most: (0, sum(least <= 1 << n <= most for n in range(4)) - 1),
    "PredicateMask": lambda width: (-(1 << width), (1 << width) - 2),
    "RotatingMask": lambda width: (-(1 << width + 15), (1 << width + 15) - (1 << 16)),
    **dict.fromkeys(("Signed", "Short", "Displacement"), lambda width: (-(1 << width - 1), (1 << width - 1) - 1)),
}
# What the assembler is given with other ends: of the sizes of a frame those that go together, the numbers of long instructions
# whole, and of `hint.m` the bits that it sets.
OTHERS = {
    *(("M", "Alloc", size) for size in ("sof", "sol", "sor")),
    *(("X", name, "imm") for name in ("Movl", "Break", "Nop")),
    ("M", "Hint", "imm"),
}


def ends(operand):
    told = ENDS.get(operand.coding, lambda width, *_: (0, (1 << width) - 1))
    return told(operand.width(), *operand.told)


class Texts:
    """What the rows of texts say, beside the rows of words."""

    def __init__(self):
        self.fields, self.operands, self.formats, self.names = fields(), operands(), formats(), operand_names()
        self.rows = {family: rows(path) for family, path in FAMILIES.items()}

    def ends(self, row):
        """The ends of each operand of a row, by the names that a row of texts has for them."""
        names = ("qp", *self.names[variant(row)])
        for name, key in zip(names, self.formats[row.format].operands):
            operand = self.operands[key]
            yield {"update": "imm" if operand.coding == "Short" else "r2"}.get(name, name), ends(operand)

    def chosen(self, text):
        """The rows of words of a row of texts."""
        found = [row for row in self.rows[text.family] if variant(row) == text.name]
        return chosen_rows(text, [row for row in found if agree(text, dict(self.ends(row)))])

    def faults(self):
        """Each row of words that another number of rows of texts than one is of, by its operands and by what is chosen in its
        opcode, and each row of texts that is of none."""
        chosen = Counter()
        for text in ROWS:
            own = self.chosen(text)
            chosen.update((text.family, row.opcode) for row in own)
            if not own:
                yield f"no row has the operands and the opcodes of {text.text.template}"
        for family, found in self.rows.items():
            for row in found:
                if chosen[family, row.opcode] != 1:
                    yield f"{chosen[family, row.opcode]} rows of texts are of the {family} row of {row.opcode}"

    def field_faults(self):
        """Each form that writes a value in another way than the operand with its number is coded."""
        for form in forms():
            found = [row for own in self.rows.values() for row in own if variant(row) == form.opcode]
            same = [row for row in found if f"UpdateKind::{form.update}" in row.opcode] if form.update else found
            for place, kind in form.written:
                codings = {self.coding(row, place) for row in same}
                if not codings <= WRITTEN[kind]:
                    yield f"the form {form.name} writes value {place} by {kind}, and its operand is coded as {sorted(codings)}"

    def zero_faults(self):
        """Each bit that a row of texts says to be zero, and to make a word none if it is set, that isn't or doesn't."""
        words = {family: [self.word(row) for row in found] for family, found in self.rows.items()}
        for text in ROWS:
            beside = words[text.family] + (words["A"] if text.family in "IM" else [])
            for row in self.chosen(text):
                fixed, mask = self.word(row)
                for bit in text.zero:
                    one = 1 << bit
                    if fixed & one or not mask & one or any((fixed | one) & other & mask == its & mask for its, other in beside):
                        yield f"bit {bit} of {text.text.template} is no zero that makes a word none, as {row.opcode} has it"

    def word(self, row):
        """The bits of a row that are the same in each of its words, and which these are."""
        fixed = sum(value << self.fields[name] for name, value in row.fields.items())
        own = sum(((1 << width) - 1) << low for name in self.formats[row.format].operands for low, width in self.operands[name].fields)
        return fixed, (1 << 41) - 1 & ~own

    def coding(self, row, place):
        """The coding of an operand of a row, with its width where it is a number."""
        names = self.formats[row.format].operands
        operand = self.operands[names[place]] if place < len(names) else Operand("Absent", (), ())
        return operand.coding + (str(operand.width()) if operand.coding in SIZED else "")


# The codings whose numbers have the width of their operand.
SIZED = {"Small", "LessOne", "Signed", "Short"}
# How the values are coded that a set of completers, a kind of operands or a field of numbers writes, or no line. Of a long
# instruction the word has a part of the number.
WRITTEN = {
    "Gr": {"Gr", "LowGr", "Target"},
    "Pr": {"Pr"},
    "Br": {"Br"},
    "Label": {"Displacement"},
    **dict.fromkeys(("Flag", "TestUnc", "U", "Ret", "Imp", "DeallocClr", "Prefetch", "SemaphoreType", "ZeroOrMinusOne"), {"Flag"}),
    "MoveWhether": {"UpTo"},
    "Whether": {"Small2"},
    "LoadHint": {"LoadHint"},
    "StoreHint": {"StoreHint"},
    "Small": {"Size"},
    **dict.fromkeys(("Imm8", "Less8"), {"Signed8"}),
    "Imm14": {"Signed14"},
    "Imm22": {"Signed22"},
    **dict.fromkeys(("Imm9", "Tag"), {"Short9"}),
    **dict.fromkeys(("Imm21", "Imm62", "Imm64"), {"Wide"}),
    "Count": {"LessOne2"},
    "Position": {"From63", "Small6"},
    "Length": {"LessOne6"},
    "Length16": {"LessOne4"},
    **dict.fromkeys(("Mask", "PredicateMask"), {"PredicateMask"}),
    "RotatingMask": {"RotatingMask"},
    "Increment": {"Increment"},
}


def line_faults():
    """Each form that is printed whose completers and operands stand in the order of no line of its operation."""
    printed = printed_forms()
    for form in forms():
        if form.name in printed and not any(is_line(text.line.template, form) for text in ROWS if text.name == form.opcode):
            yield f"no line of {form.opcode} has the order of the form {form.name}: {' '.join((*form.completers, form.operands))}"


def word_faults():
    """Each word of a line, with its completers, that no form of its operation has which is printed."""
    texts, printed, words = completer_texts(), printed_forms(), {}
    for form in forms():
        if form.name in printed:
            found = words.setdefault(form.opcode, set())
            found.update(form.word + "".join(own) for own in product(*(texts[name] for name in form.sets)))
    for text in ROWS:
        word = Template(text.line.template.split(" ")[0])
        for values in combinations(text.operands):
            told = word.substitute({name: text.operands[name].text(value) for name, value in values.items()})
            if text.name != "Alloc" and told not in words[text.name]:
                yield f"no form of {text.name} that is printed has the word {told}"


def is_line(line, form):
    word, _, operands = line.partition(" ")
    told = tuple(name for name in re.findall(r"\$(\w+)", word) if name in form.completers)
    return (told, operands) == (form.completers, form.operands)


# What rows of texts choose in the opcode.
CHOSEN = {"f", "rel", "kind", "ar"}


def chosen_rows(text, found):
    """Of rows of words with the operands of a row of texts those of the opcodes that it chooses, or names in its line."""
    last = "1" * text.line.template.endswith(",1")
    told = [plain(text.operands[name].text(value)) + last for name in CHOSEN & set(text.operands) for value in text.operands[name].all()]
    line = re.split(r"[.$ =]", text.line.template)
    parts = {row.opcode: [it.lower() for it in re.findall(r"(?<=::)\w+", row.opcode)] for row in found}
    named = max((sum(it in line for it in own) for own in parts.values()), default=0)
    free = ("none", "reg", "imm") + (("plain", "normal") if "" in told or not told else ())
    return [
        row
        for row in found
        if sum(it in line for it in parts[row.opcode]) == named
        and all(it in line or it in free or any(map(it.endswith, filter(None, told))) for it in parts[row.opcode])
    ]


def plain(word):
    return re.sub(r"^ar\.|\.", "", word)


def agree(text, row):
    """Whether the operands of a row of texts are those of a row of words, and what is chosen in the opcode."""
    own = {name: (operand.low, operand.high) for name, operand in text.operands.items()}
    return set(row) <= set(own) | {"size"} and set(own) - set(row) <= CHOSEN and all(
        (text.family, text.name, name) in OTHERS or own.get(name, value) == value for name, value in row.items()
    )


def variant(row):
    return re.match(r"\w+", row.opcode).group()


def main():
    page = PAGE.read_text("utf-8")
    made = tables_of(page)
    missing = [line for line in made.splitlines() if line.startswith("|  | ")]
    for line in missing:
        print(f"format_tables: no instruction is named in the line of {cells_of(line)[1]}")
    if sys.argv[1:] == ["--write"]:
        PAGE.write_text(made, "utf-8")
        return 1 if missing else 0
    texts = Texts()
    faults = [*texts.faults(), *texts.field_faults(), *texts.zero_faults(), *word_faults(), *line_faults()]
    for fault in faults:
        print(f"format_tables: {fault}")
    old, new = page.splitlines(), made.splitlines()
    for line in new:
        if line not in old:
            print(f"format_tables: the rows say {line}")
    for line in old:
        if line not in new or old.count(line) > new.count(line):
            print(f"format_tables: no row says {line}")
    return 1 if faults or missing or made != page else 0


if __name__ == "__main__":
    sys.exit(main())
