"""Reads and writes the input of the program `vectors`, and what it answers. It is imported, and not called.

The input has a part for each script that makes rows, behind a heading. A row behind `not` is wrong on purpose. So is the last row
of all, without that word, which `stdout` has the program name.
"""

import re
import sys
from pathlib import Path

FOLDER = Path(__file__).resolve().parent.parent / "crates" / "vectors"

# The parts in their order, each made by generate/make_PART_rows.py, and how many right and wrong rows each has. docs/trust/claims.md
# names these numbers.
PARTS = {"bundle": (6417, 5), "line": (5152, 12), "text": (254, 6), "call": (1172, 8)}

# A word whose end is another.
WRONG = "words name 0 2|a"

# What a row looks like, which the program can read: `not` shows nothing of one that it can't.
ROW = re.compile(r"(?:not )?(?:bundle [0-9a-f]{32}(?: .*)?|slot [0-9a-f]{32} [0-2](?::\S+)? .*|(?:line|words|token) [^|]*\|.*|"
                 r"(?:char|name|register|number|range|form) .*|call [^\t]*(?:\t[^\t]*){5})")


def heading(part):
    return f"# {part} rows, by generate/make_{part}_rows.py"


def parts():
    """The rows of each part, as they stand."""
    lines = (FOLDER / "stdin").read_text(encoding="utf-8").split("\n")[:-1]
    headings = list(map(heading, PARTS))
    if [line for line in lines if line.startswith("#")] != headings or lines[:1] != headings[:1] or lines[-1] != WRONG:
        sys.exit("crates/vectors/stdin hasn't each heading once, in order, and the wrong row at its end")
    starts = [*map(lines.index, headings), len(lines) - 1]
    return {part: lines[start + 1:end] for part, start, end in zip(PARTS, starts, starts[1:])}


def files(part, rows):
    """The two files of the program by their names, where a part has these rows, and the others have what they have."""
    made = {**parts(), part: rows}
    lines = [line for one in PARTS for line in (heading(one), *made[one])] + [WRONG]
    return {"stdin": "".join(f"{line}\n" for line in lines),
            "stdout": f"row {len(lines)} differs\n{len(lines)} rows, 1 differ\n"}


def faults(made):
    """What is wrong with the parts: rows that the program can't read, and other numbers of rows than are stated."""
    for part, rows in made.items():
        wrong = sum(row.startswith("not ") for row in rows)
        if (len(rows) - wrong, wrong) != PARTS[part]:
            yield f"{part}: {len(rows) - wrong} rows, and {wrong} wrong ones, and generate/vector_rows.py says {PARTS[part]}"
        yield from (f"{part}: no row that the program can read: {row!r}" for row in rows if not ROW.fullmatch(row))


def stale(part, rows):
    """In what the files aren't what the scripts make them, as far as it can be seen without the GNU tools."""
    found = [f"crates/vectors/{name} isn't what generate/make_{part}_rows.py makes" for name, text in files(part, rows).items()
             if (FOLDER / name).read_text(encoding="utf-8") != text]
    return found + list(faults(parts()))


def write(part, rows):
    for fault in faults({part: rows}):
        print(f"vector_rows: {fault}", file=sys.stderr)
    for name, text in files(part, rows).items():
        (FOLDER / name).write_text(text, encoding="utf-8")
