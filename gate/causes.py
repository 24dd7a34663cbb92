#!/usr/bin/env python3
"""Checks the table "Answers and their causes" of docs/trust/claims.md against the sources.

  gate/causes.py

It checks that

- each call that the table names is a public one, and each clause is one of that call;
- a call has a line for AllocError exactly where its signature has it;
- each public call is there that answers a Result, an Option or a bool, or that is handed something to change.

A row is `| CALLS | ANSWER | COMES | CLAUSES |`. A row without calls is of the calls above it. A row in bold names the crates of
the rows below it. A lone clause without a name is `the clause`. `none` says that no clause speaks of the answer.

It prints what isn't so, and ends with status 1 where something isn't. It needs no built program.
"""

import pathlib
import re
import sys

ROOT = pathlib.Path(__file__).resolve().parent.parent
HEADING = "## Answers and their causes"
ITEM = re.compile(r"^(?:(?:pub )?(?:impl|trait)\b[^{]*|\}|[ ]*(?:pub |final )?fn (?:.|\n)*?(?=\{$|\{\}$|;$|^ *\{))", re.M)
OWNER = re.compile(r"(?:pub )?(?:impl|trait)(?:<[^ ]*(?: [^ >]*)*?>)? (?:[\w:<>]+ for )?(\w+)")


def functions(text):
    """Each function of a file: the `impl` or trait that it stands in, its head, and the names of its clauses."""
    place = ""
    for item in ITEM.findall(re.sub(r"[ \t]*//.*", "", text)):
        if re.match(r"\s*(pub |final )?fn ", item):
            clauses = re.findall(r"\bensures (\w*) ?\{", item)
            yield place, re.split(r"\b(?:requires|ensures) ", item.strip())[0], {name or "the clause" for name in clauses}
        else:
            place = item


def calls_of(crate):
    """The public calls of a library by name: whether they have to be listed, whether they answer AllocError, their clauses."""
    source, calls = ROOT / "crates" / crate / "src", {}
    root = (source / "lib.rt").read_text()
    names = set(re.findall(r"\w+", " ".join(re.findall(r"^pub use (?:\w+::)+(\{[^}]*\}|\w+);", root, re.M))))
    modules = {"lib", *re.findall(r"^pub mod (\w+);", root, re.M)}
    for path in sorted(source.glob("*.rt")):
        for place, head, clauses in functions(path.read_text()):
            name, owner = re.search(r"fn (\w+)", head).group(1), OWNER.match(place)
            is_public = head.startswith("pub ") or (clauses and (" for " in place or place.startswith("pub trait")))
            if is_public and (path.stem in modules or (owner.group(1) if owner else name) in names):
                is_listed = re.search(r"-> (Result|Option|bool)\b|&mut ", head) is not None
                calls[f"{owner.group(1)}::{name}" if owner else name] = (is_listed, "AllocError" in head, clauses)
    return calls


def main():
    crates = re.findall(r"^(\w+)(?=[ \w=]*:)", (ROOT / "crates.txt").read_text(), re.M)
    known = {crate: calls_of(crate) for crate in crates if (ROOT / "crates" / crate / "src" / "lib.rt").exists()}
    table = (ROOT / "docs" / "trust" / "claims.md").read_text().split(HEADING)[1].split("\n## ")[0]
    faults, calls, answers = [], [], {}
    known_words = {word for path in ROOT.glob("crates/*/src/*.rt") for word in re.findall(r"\w+", path.read_text())}
    for row in re.findall(r"^\|.*", table, re.M)[2:]:
        cells = [cell.strip() for cell in row[1:].rstrip("|").split("|")]
        if len(cells) != 4 or not row.endswith("|"):
            faults.append(f"no row of four cells: {row}")
            continue
        if cells[0].startswith("**"):
            crates = re.findall(r"\w+", cells[0])
            continue
        calls = re.findall(r"`([\w:]+)`", cells[0]) or calls
        for call in calls:
            crate = next((crate for crate in crates if call in known.get(crate, {})), None)
            answers.setdefault((crate, call), []).append(cells[1])
            faults += [f"{call}: no answer {word}" for word in re.findall(r"`(\w+)", cells[1]) if word not in known_words]
            wanted = {name or "the clause" for name in re.findall(r"`(\w+)`|the clause", cells[3])}
            if crate is None:
                faults.append(f"{', '.join(crates)}: no public call {call}")
            elif wanted - known[crate][call][2]:
                faults.append(f"{crate}::{call}: no clause {', '.join(sorted(wanted - known[crate][call][2]))}")
    for crate, call in ((crate, call) for crate in known for call in known[crate]):
        is_listed, wants_memory, _ = known[crate][call]
        if is_listed and (crate, call) not in answers:
            faults.append(f"{crate}::{call}: not listed")
        elif wants_memory != ("`AllocError`" in answers.get((crate, call), [])):
            faults.append(f"{crate}::{call}: {'no' if wants_memory else 'a'} line for AllocError")
    print("\n".join(f"causes: {fault}" for fault in faults), end="\n" if faults else "")
    return 1 if faults else 0


if __name__ == "__main__":
    sys.exit(main())
