"""Reads the rows of instructions of the crates from their sources: which operands each has, in which bits, with which values,
and how it is written. It is imported, and not called.

The rows of words stand in formats_*/src, and what they are made of in insn_rows/src: formats, operands, fields and the operations'
names of their operands. The rows of texts stand in asm_forms/src.
"""

import re
from pathlib import Path
from typing import NamedTuple

CRATES = Path(__file__).resolve().parent.parent / "crates"
# The files of rows of each family.
FAMILIES = {
    "A": "formats_a/src/rows.rt",
    "I": "formats_i/src/rows.rt",
    "M": "formats_m/src/rows.rt",
    **{family: f"formats_b/src/family_{family.lower()}/rows.rt" for family in "BFX"},
}


class Operand(NamedTuple):
    """An operand: its coding, what that is told, and its fields as lowest bit and width, from the top down."""
    coding: str
    told: tuple
    fields: tuple

    def width(self):
        return sum(width for _, width in self.fields)


class Format(NamedTuple):
    """A format: what is checked, and the names of its operands, the qualifying predicate first."""
    check: str
    operands: tuple


class Row(NamedTuple):
    """A row: its heading, its opcode, the name of its format, and its fields with their values."""
    heading: str
    opcode: str
    format: str
    fields: dict


class Form(NamedTuple):
    """A form of a text: its name, its operation, what it adds to its base register, its word, the sets of the word's completers,
    the names of the values that these say, its operands as they are written, each value by its name, and each number of a value
    with the set, the kind or the field by which it is written, or the kind of value that no line writes."""
    name: str
    opcode: str
    update: str
    word: str
    sets: tuple
    completers: tuple
    operands: str
    written: tuple


def source(path):
    return (CRATES / path).read_text("utf-8")


def constants(path, kind):
    """The constants of a type in a file, each with its value as it stands there, on one line."""
    found = re.findall(rf"pub const (\w+): {kind} =\s*(.*?);\n\n?(?=///|//|macro|pub|$)", source(path) + "\n", re.S)
    return {name: " ".join(value.split()) for name, value in found}


def fields():
    """The lowest bit of each field of opcodes."""
    return {name: int(value) for name, value in constants("insn_rows/src/fields.rt", "u32").items()}


def operands():
    answer = {}
    for name, value in constants("insn_rows/src/operands.rt", "Operand").items():
        coding, told, bits = re.fullmatch(r"operand!\(Coding::(\w+)(?:\(([\d, ]+)\))?,?\s*([\d, ]*)\)", value).groups()
        pairs = tuple(tuple(map(int, pair.split())) for pair in bits.split(",") if pair.strip())
        answer[name] = Operand(coding, tuple(map(int, told.split(","))) if told else (), pairs)
    return answer


def formats():
    answer = {}
    for name, value in constants("insn_rows/src/formats.rt", "Format").items():
        check, names = re.fullmatch(r"picture!\(0x[\da-f_]+; Check::(.*?); ([\w, ]+)\)", value).groups()
        answer[name] = Format(check, tuple(names.split(", ")))
    return answer


def operand_names():
    """The names of the operands of each operation but the qualifying predicate, in the order of its format."""
    lines = re.findall(r"^        (\w+) \{([\w ]*)\} =>", source("insn_rows/src/arms.rt"), re.M)
    return {name: tuple(names.split()) for name, names in lines}


def rows(path):
    """The rows of a family, each under its heading. One that isn't written on a line of its own, or isn't counted, is an error."""
    heading, answer, text = None, [], source(path)
    for line in text.splitlines():
        found = re.match(r"    // (\w+): ", line)
        heading = found.group(1) if found else heading
        found = re.match(r"    row!\(Opcode::(.*), (\w+); (.*)\),$", line)
        if found:
            opcode, form, values = found.groups()
            pairs = (it.split(" = ") for it in values.split(", "))
            answer.append(Row(heading, opcode, form, {name: int(value, 0) for name, value in pairs}))
    declared = int(re.search(r"\[Row; (\d+)\]", text).group(1))
    if {declared, text.count("row!(")} != {len(answer)}:
        raise ValueError(f"{path}: {declared} rows are declared, and {len(answer)} are read of {text.count('row!(')}")
    return answer


def kinds():
    """The kinds of operands, or their fields for numbers, by the names that the rows of texts have for them."""
    found = re.findall(r"\((\w+)\) => \{ Kind::(?:Number\(NumberField::)?(\w+)\)? \};", source("asm_forms/src/rows.rt"))
    return dict(found)


def forms():
    """The forms of instructions, but for the frame's, which is written by other numbers than those of its word."""
    text, names, fields, answer = source("asm_forms/src/rows.rt"), operand_names(), kinds(), []
    for line in text.splitlines():
        found = re.match(r'    row!\((\w+), Opcode::(\w+)(.*?); b"([\w.]+)", \[(.*?)\](?:, (.*))?\),$', line)
        if not found:
            continue
        name, variant, rest, word, sets, items = found.groups()
        if variant == "Alloc":
            continue

        def value(place, kind, own=("qp", *names[variant])):
            told = own[int(place)] if int(place) else kind.lower()
            return {"update": "imm" if kind == "Imm9" else "r2"}.get(told, told)

        said, named = (re.findall(r"(\w+)\((\d)\)", it or "") for it in (sets, items))
        taken = [(fields[own], place) for own, place in named]
        fixed = ((kind, place) for place, kind in re.findall(r", (\d): (\w+)", rest))
        written = tuple((int(place), kind) for kind, place in (*said, *taken, *fixed) if int(place))
        told = tuple(value(place, kind) for kind, place in said)
        operands = re.sub(r"(\w+)\((\d)\)", lambda it: "$" + value(it[2], fields[it[1]]), items or "")
        update = "".join(re.findall(r"UpdateKind::(\w+)", rest))
        answer.append(Form(name, variant, update, word, tuple(re.findall(r"\.?[A-Z]\w*", sets)), told, re.sub(r" ?([=,]) ?", r"\1", operands), written))
    if text.count("    row!(") != len(answer) + 1:
        raise ValueError(f"asm_forms/src/rows.rt: {len(answer)} rows are read of {text.count('    row!(')}")
    return answer


def printed_forms():
    """The names of the forms that instructions are printed with."""
    return set(re.findall(r"Form::(\w+)", source("asm_canonical/src/forms.rt")))


def completer_texts():
    """The texts of the completers of each set, and of each suffix that stands alone."""
    source_text = source("asm_forms/src/completer.rt")
    texts = dict(re.findall(r'Suffix::(\w+) => b"([\w.]*)"', source_text))
    sets = re.findall(r"CompleterSet::(\w+) =>\s+completers!\(((?:\s*\w+ => \w+(?:\([\w:]+\))?,?)*)\s*\)", source_text)
    alone = {f".{suffix}": [text] for suffix, text in texts.items()}
    return {**alone, **{name: [texts[it] for it in re.findall(r"(\w+) =>", members)] for name, members in sets}}
