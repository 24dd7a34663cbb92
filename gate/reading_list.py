#!/usr/bin/env python3
"""Checks docs/trust/reading.md against the sources: the files to read, their lines, and the clauses that it names.

  gate/reading_list.py            checks, and ends with status 1 where something isn't so
  gate/reading_list.py --write    writes the counts of lines into the page

A row of a list of files is `| PATH | LINES | .. |`. PATH is `crate/specs/File`, or `crate/src/file` where code is the
definition. Lines that are blank, comments or imports aren't counted. Each file of definitions of this repository that a listed
one imports has to be listed too, and above it where it stands in the same list. So has each that the clauses of the top crate
import.

A row of the table of claims is `| CLAIM | FUNCTION | CLAUSE | PATH |`. PATH is `crate/src/file.rt`: the function has to stand
there and have the clause. The row `| in all | LINES | |` adds up the rows above it, since the last heading.

It prints what isn't so. It needs no built program.
"""

import pathlib
import re
import sys

ROOT = pathlib.Path(__file__).resolve().parent.parent
PAGE = ROOT / "docs" / "trust" / "reading.md"
TOP = "ia64_top"


def file_of(name):
    """The file of a name as the page has it."""
    return ROOT / "crates" / (f"{name}.rt" if "/src/" in name else f"{name}.antt")


def counted(path):
    """The lines of a file of definitions that say something."""
    lines = [line.strip() for line in path.read_text().splitlines()]
    passed = ("//",) if path.suffix == ".rt" else ("--",)
    passed += ("use ", "ghost use ", "pub use ", "pub mod ")
    return sum(1 for line in lines if line and not line.startswith(passed))


def imported(path):
    """The files of definitions of this repository that a file imports, as the page names them."""
    found = re.findall(r"^(?:ghost )?use Rattle\.(\w+)\.specs\.(?!declared\b|contracts\b)(\w+)", path.read_text(), re.M)
    return {f"{crate}/specs/{name}" for crate, name in found if (ROOT / "crates" / crate).is_dir()}


def signature(text, function):
    """The text from a function's head to its body, without comments, or None."""
    found = re.search(rf"\bfn {function}\b.*?(?=^\s*\{{)", text, re.S | re.M)
    return found and re.sub(r"//.*", "", found.group(0))


def has_clause(path, function, clause):
    """Whether the function stands in the file and has the clause; `-` is a lone clause without a name."""
    head = signature(path.read_text(), function)
    if head is None:
        return False
    wanted = r"ensures \{" if clause == "-" else rf"ensures {clause} \{{"
    return re.search(wanted, head) is not None


def cells(line):
    """The cells of a row, without their quotes."""
    return [cell.strip().strip("`") for cell in line.strip().strip("|").split("|")]


def main():
    write = sys.argv[1:] == ["--write"]
    faults, out, total, heading, listed, wanted = [], [], 0, "", {}, []
    for line in PAGE.read_text().splitlines():
        row = cells(line) if line.startswith("|") else []
        if line.startswith("#"):
            total, heading = 0, line
        if len(row) == 3 and (row[1].isdigit() or row[1] == "?"):
            if row[0] == "in all":
                count = total
            else:
                path = file_of(row[0])
                count = counted(path) if path.exists() else 0
                total += count
                if path.exists():
                    if path.suffix == ".antt":
                        wanted += [(name, row[0]) for name in sorted(imported(path))]
                    faults += [f"{name}: listed above {row[0]}, which it imports" for name, at in listed.items()
                               if at == heading and row[0] in imported(file_of(name))]
                    listed[row[0]] = heading
                else:
                    faults.append(f"{row[0]}: no such file")
            if row[1] != str(count):
                faults.append(f"{row[0]}: {count} lines, and the page says {row[1]}")
                line = line.replace(f"| {row[1]} |", f"| {count} |", 1)
        elif len(row) == 4 and row[3].endswith(".rt"):
            path = ROOT / "crates" / row[3]
            if path.exists() and path.parts[-3] == TOP:
                wanted += [(name, row[3]) for name in sorted(imported(path))]
            if not path.exists() or not has_clause(path, row[1], row[2]):
                faults.append(f"{row[3]}: no function {row[1]} with the clause {row[2]}")
        out.append(line)
    faults += [f"{name}: not listed, and {by} imports it" for name, by in wanted if name not in listed]
    if write:
        PAGE.write_text("\n".join(out) + "\n")
        faults = [fault for fault in faults if "the page says" not in fault]
    for fault in faults:
        print(f"reading_list: {fault}")
    return 1 if faults else 0


if __name__ == "__main__":
    sys.exit(main())
