#!/usr/bin/env python3
"""Tries that gate/format_tables.py refuses a row that is wrong.

  gate/turned_rows.py

A row of words or of texts is code and definition at once. So no proof tells its operands from exchanged ones. Each edit here
turns a row in a copy of the sources, and gate/format_tables.py has to say which one. Of the sources as they are it has to say
nothing. The status is 1 where a turned row isn't refused, or an edit can't be applied. It needs no built program.
"""

import shutil
import subprocess
import sys
import tempfile
from pathlib import Path

TOP = Path(__file__).resolve().parent.parent
READ = [
    "docs/use/formats.md",
    "gate/format_tables.py",
    *(f"generate/{name}.py" for name in ("row_sources", "instruction_rows", "gnu_as")),
    *(f"crates/{name}/src" for name in ("insn_rows", "formats_a", "formats_i", "formats_m", "formats_b", "asm_forms", "asm_canonical")),
]
TEXTS = "crates/asm_forms/src/rows.rt"
# What is turned: a file, a text of it and what stands there in its place, and what is said.
EDITS = {
    "operands exchanged": (
        TEXTS, 'b"sub", [], r1(1) = r2(2), r3(3))', 'b"sub", [], r1(1) = r2(3), r3(2))', "form Sub"
    ),
    "base and source exchanged": (
        TEXTS, "[StoreTypeSpill, StoreHint(2)], [r3(3)] = r2(4))", "[StoreTypeSpill, StoreHint(2)], [r3(4)] = r2(3))", "form St8"
    ),
    "completers exchanged": (
        TEXTS, "Ret(3), MoveWhether(5), Imp(4)], b1(1) = r2(2), t", "Ret(4), MoveWhether(5), Imp(3)], b1(1) = r2(2), t", "form MovToBrTag"
    ),
    "a value of another kind": (TEXTS, 'b"mov", [], r1(2) = r3(4))', 'b"mov", [], r1(2) = r3(3))', "form MovGr"),
    "a field that is too narrow": (TEXTS, 'b"mov", [], r1(1) = imm22(2))', 'b"mov", [], r1(1) = imm14(2))', "form MovImm"),
    "a size at another place": (TEXTS, '1: Small(8); b"xchg8"', '2: Small(8); b"xchg8"', "form Xchg8"),
    "a completer with another text": (
        "crates/asm_forms/src/completer.rt", 'Suffix::F => b".f"', 'Suffix::F => b".g"', "word break.f"
    ),
    "operands of a word exchanged": (
        "crates/insn_rows/src/formats.rt", "QP, R1, R2, R3, COUNT6)", "QP, R1, R3, R2, COUNT6)", "no row says"
    ),
    "an operand one bit off": (
        "crates/insn_rows/src/operands.rt", "pub const BR2: Operand = operand!(Coding::Br, 13 3);",
        "pub const BR2: Operand = operand!(Coding::Br, 14 3);", "no row says"
    ),
}


def copy(to):
    for name in READ:
        place = to / name
        place.parent.mkdir(parents=True, exist_ok=True)
        (shutil.copytree if (TOP / name).is_dir() else shutil.copyfile)(TOP / name, place)


def said(top):
    """The status of the tool in a copy, and what it says."""
    told = subprocess.run(
        [sys.executable, str(top / "gate/format_tables.py")], stdout=subprocess.PIPE, stderr=subprocess.STDOUT, universal_newlines=True
    )
    return told.returncode, told.stdout


def turned(path, old, new, want):
    """What is wrong with how an edit is refused."""
    with tempfile.TemporaryDirectory() as folder:
        top = Path(folder)
        copy(top)
        text = (top / path).read_text("utf-8")
        if text.count(old) != 1:
            return f"{path} has {text.count(old)} times, and not once: {old}"
        (top / path).write_text(text.replace(old, new), "utf-8")
        status, told = said(top)
        return "" if status == 1 and want in told else f"it isn't said of {want!r}, and the status is {status}"


def main():
    with tempfile.TemporaryDirectory() as folder:
        copy(Path(folder))
        faults = [] if said(Path(folder)) == (0, "") else ["the sources as they are: they aren't taken"]
    faults += [f"{name}: {fault}" for name, edit in EDITS.items() for fault in [turned(*edit)] if fault]
    for fault in faults:
        print(f"turned_rows: {fault}")
    print(f"turned_rows: {len(EDITS)} rows turned, {len(faults)} not refused")
    return 1 if faults else 0


if __name__ == "__main__":
    sys.exit(main())
