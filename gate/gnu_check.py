#!/usr/bin/env python3
"""Compares the texts of tests/gnu/, on which `check` and the GNU assembler for IA-64 differ, with both.

  gate/gnu_check.py [PROGRAM]      runs both on each text; PROGRAM is the built one where none is named
  gate/gnu_check.py --table        prints the texts as a Markdown table, and runs nothing
  gate/gnu_check.py --manual FILE  says in what the table of the file differs from this one, with status 1 where it does

The first line of a text says what the two answer, and the second why they differ:

    // check: accepted; GNU as: may be RAW unat
    // A fill reaches UNAT in program order ...

Of `check` these are the rules and the resources of its verdict, each once. Of GNU as -xexplicit they are those of its warnings:
`RAW r8` where it says that an instruction violates a dependency, `may be RAW r8` where it may, and ` at label x` where it says
so of an entry at the label. Without any it is `accepted`, and `nothing`.

It prints a line for each answer that differs from the text's, and a count, and ends with status 1 where one differs. Without the
GNU assembler it compares the texts with `check` alone, and says so.
"""

import argparse
import os
import re
import shutil
import subprocess
import sys
from itertools import takewhile
from pathlib import Path

ROOT = Path(__file__).resolve().parent.parent
sys.path.append(str(ROOT / "generate"))

from gnu_as import PREFIX, stop  # noqa: E402

TEXTS = ROOT / "tests" / "gnu"
PROGRAM = ROOT / "crates" / "ia64_cli" / "out" / "ia64_cli"
ASSEMBLER = PREFIX + "as"

FIRST_LINE = re.compile(r"// check: (?P<check>[^;]+); GNU as: (?P<gnu>[^;]+)")
HEAD = ["| Text | Program | `check` | GNU `as` | Why |", "|---|---|---|---|---|"]
NOP = re.compile(r"nop\.[mibf] 0")

# A warning of the GNU assembler, and what it says beside them of the same clash.
WARNING = re.compile(
    r"Use of '\S+' (?P<verb>violates|may violate) (?P<rule>\w+) dependency '(?P<resource>.+)' \(\w+\)"
    r"(?: when entry is at label '(?P<label>\S+)')?(?:, specific resource number is (?P<number>\d+))?")
BESIDE = ("This is the location of the conflicting usage",
          "Only the first path encountering the conflict is reported")

# How the GNU assembler's names of resources begin, and the names of `check`. Where the assembler
# says which one of them it is, the number comes behind.
RESOURCES = {"GR%": "r", "PR%": "p", "PR63": "p63", "BR%": "b", "AR[UNAT]": "unat", "AR[PFS]": "pfs",
             "AR[LC]": "lc", "AR[EC]": "ec", "CFM": "cfm", "RSE": "rse"}


class Try:
    """A text of tests/gnu/: its name and its path, what the two tools answer, why, and its program."""

    def __init__(self, path):
        first, second, *self.lines = path.read_text().splitlines()
        says = FIRST_LINE.fullmatch(first)
        if says is None or not second.startswith("// "):
            stop(f"{path}: the first two lines don't say what the tools answer, and why")
        self.name, self.path = path.stem, path
        self.check, self.gnu = says["check"], says["gnu"]
        self.why = second[len("// "):]

    def kind(self):
        """Where it stands in the table: what GNU as alone finds first, what `check` alone finds last."""
        return (self.gnu == "nothing") - (self.check == "accepted")

    def program(self):
        """The program in one line, without what does nothing: `/` between slots, `;;` for a stop."""
        pieces = []
        for line in self.lines:
            text, stopped, _ = line.strip().partition(" ;;")
            if not NOP.fullmatch(text) and text[0] not in "{}":
                pieces.append(text)
            if stopped:
                pieces.append(";;")
        joined = " / ".join(pieces[:-1] if pieces[-1] == ";;" else pieces)
        return joined.replace(" / ;;", " ;;").replace(";; / ", ";; ").replace(": / ", ": ")

    def row(self):
        return f"| `{self.name}` | `{self.program()}` | {self.check} | {self.gnu} | {self.why} |"


def listed(answers, without):
    """Answers as a text has them: each once, in their order, or the word for none of them."""
    return ", ".join(dict.fromkeys(answers)) or without


def verdict(program, path):
    """What `check` answers."""
    with open(path, "rb") as source:
        done = subprocess.run([program, "check"], stdin=source, capture_output=True, text=True, check=False)
    if done.returncode not in (0, 1):
        return done.stdout.strip()
    return listed((" ".join(line.split()[:2]) for line in done.stdout.splitlines()[1:]), "accepted")


def warnings(path):
    """What the GNU assembler answers."""
    done = subprocess.run([ASSEMBLER, "-xexplicit", "-o", os.devnull, str(path)],
                          capture_output=True, text=True, check=False)
    return listed(map(warning, said(done.stderr)), "nothing")


def said(text):
    """The messages of the GNU assembler, without their places and what stands beside a warning."""
    messages = re.findall(r":\d+: (?:Warning|Error): (.*)", text)
    return [message for message in messages if message not in BESIDE]


def warning(message):
    """A warning as a text has it, any other message as it is."""
    parts = WARNING.fullmatch(message)
    if parts is None:
        return message
    sure = "may be " if parts["verb"] == "may violate" else ""
    label = f" at label {parts['label']}" if parts["label"] else ""
    return f"{sure}{parts['rule']} {resource(parts['resource'])}{parts['number'] or ''}{label}"


def resource(name):
    """What `check` calls a resource, which the GNU assembler names as `GR%, % in 1 - 127`."""
    return next((ours for theirs, ours in RESOURCES.items() if name.startswith(theirs)), name)


def hold(tries, program):
    """Prints what differs from the texts, and a count. Whether nothing differs."""
    tools = {"check": lambda path: verdict(program, path)}
    if shutil.which(ASSEMBLER):
        tools["gnu"] = warnings
    else:
        print("Without the GNU assembler for ia64, which is not installed.")
    differ = 0
    for each in tries:
        for tool, answer in tools.items():
            wanted, got = getattr(each, tool), answer(each.path)
            if got != wanted:
                differ += 1
                print(f"{each.name}: {tool} says {got} in place of {wanted}")
    print(f"{len(tries)} texts, {len(tries) * len(tools)} answers, {differ} differ")
    return differ == 0


def table(tries):
    """The lines of the table."""
    return [*HEAD, *(each.row() for each in tries)]


def stands_in(tries, manual):
    """Prints in what the manual's table differs from that of the texts. Whether it doesn't."""
    lines, wanted = manual.read_text().splitlines(), table(tries)
    first = lines.index(HEAD[0]) if HEAD[0] in lines else len(lines)
    there = list(takewhile(lambda line: line.startswith("|"), lines[first:]))
    for line in [line for line in wanted if line not in there]:
        print(f"{manual} lacks: {line}")
    for line in [line for line in there if line not in wanted]:
        print(f"{manual} has, and no text says: {line}")
    return there == wanted


def main():
    words = argparse.ArgumentParser(description=__doc__, formatter_class=argparse.RawDescriptionHelpFormatter)
    words.add_argument("program", nargs="?", default=PROGRAM, help="the built program")
    words.add_argument("--table", action="store_true", help="print the table")
    words.add_argument("--manual", type=Path, metavar="FILE", help="look for the table's rows in a file")
    given = words.parse_args()
    tries = sorted(map(Try, TEXTS.glob("*.s")), key=lambda each: (each.kind(), each.name))
    if not tries:
        stop(f"{TEXTS} has no texts")
    if given.table:
        print("\n".join(table(tries)))
    elif given.manual:
        sys.exit(0 if stands_in(tries, given.manual) else 1)
    elif shutil.which(given.program) is None:
        stop(f"{given.program} is not there: call ./build, which proves and builds it")
    else:
        sys.exit(0 if hold(tries, given.program) else 1)


if __name__ == "__main__":
    main()
