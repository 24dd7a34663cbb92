#!/usr/bin/env python3
"""Runs the commands of pages, and compares what they print with what the pages say.

  gate/try_page.py [--section HEADING].. [--root FOLDER] [--answers] PAGE..

Commands are blocks ```sh of a page. What they print is the block without a language that stands directly behind one. With
--section only the sections with these headings are tried.

The blocks of a page run in its order, in a folder that stands for the root of the repository. It has the examples and the tests.
`./ia64` there is the built program by itself (by default that of this repository, which has to be built), or, where files are
arguments, the front, which asks it. With --root they run in that folder as it is, as an unpacked release.

A page says what comes on standard output. Nothing may come on standard error, but for the line by which the wrapper says what a
refusal is. With --answers each line of a block is a command of its own, which has to end with an answer, whatever that is: with
the status of one, and nothing on standard error.

It prints each block, or line, that does something else, and a count. The status is 1 where there is one, and where there is no
block at all.
"""

import argparse
import contextlib
import difflib
import os
import re
import shlex
import shutil
import subprocess
import sys
import tempfile
from pathlib import Path

ROOT = Path(__file__).resolve().parent.parent
PROGRAM = ROOT / "crates" / "ia64_cli" / "out" / "ia64_cli"

BLOCK = re.compile(r"^```sh\n(?P<commands>.*?)^```\n(?:\n```\n(?P<printed>.*?)^```\n)?", re.S | re.M)
FENCED = re.compile(r"^```.*?^```$", re.S | re.M)
HEADING = re.compile(r"^(?P<marks>#+) (?P<words>.*)$", re.M)
REFUSAL = re.compile(r"ia64: '\w+' refused its input; the reason went to standard output\n")

# The statuses of answers, as docs/use/commands.md has them under "Exit statuses", but for those of refusals.
ANSWERS = (0, 1, 8, 9)


# `./ia64` of a page: the program, or the front.
CALL = """#!/bin/sh
case $#:$1:$2 in
  1:* | 2:run:* | 2:watch:* | 3:groups:* | 3:trace:[0-9]* | 3:trial:*) exec {program} "$@" ;;
  *) IA64_PROGRAM={program} exec {python} -E {front} "$@" ;;
esac
"""


def outline(folder, program):
    """What commands of a page find at the root of the repository."""
    for name in ("examples", "tests"):
        (folder / name).symlink_to(ROOT / name)
    words = {"program": program, "python": sys.executable, "front": ROOT / "front"}
    (folder / "ia64").write_text(CALL.format(**{name: shlex.quote(str(word)) for name, word in words.items()}))
    (folder / "ia64").chmod(0o755)


def section(text, words):
    """What stands under a heading, up to the next one that isn't below it; None where there is no such heading."""
    headings = list(HEADING.finditer(FENCED.sub(lambda block: " " * len(block[0]), text)))
    for number, heading in enumerate(headings):
        if heading["words"] == words:
            ends = (other.start() for other in headings[number + 1:] if len(other["marks"]) <= len(heading["marks"]))
            return text[heading.end():next(ends, len(text))]
    return None


def parts(page, headings):
    """The sections of a page with these headings, or all of it where there are none, by what they are called."""
    text = page.read_text()
    return {f'{page}, "{words}"': section(text, words) for words in headings} or {str(page): text}


@contextlib.contextmanager
def standing_in(root, program):
    """The folder in which the commands of a page run."""
    if root:
        yield root
        return
    with tempfile.TemporaryDirectory() as folder:
        outline(Path(folder), program)
        yield folder


def run(commands, folder):
    return subprocess.run(["bash", "-c", commands], cwd=folder, stdin=subprocess.DEVNULL, stdout=subprocess.PIPE,
                          stderr=subprocess.PIPE, text=True, errors="backslashreplace", check=False)


def differences(block, folder):
    """The commands of a block and in what they differ from what it says, if they do."""
    done = run(block["commands"], folder)
    said, got = (block["printed"] or "").splitlines(), (done.stdout + REFUSAL.sub("", done.stderr)).splitlines()
    if said != got:
        yield block["commands"] + "\n".join(difflib.unified_diff(said, got, "page", "program", lineterm="", n=0))


def unanswered(block, folder):
    """The lines of a block that have no answer, each with its status and what it says."""
    for line in block["commands"].splitlines():
        done = run(line, folder)
        if done.returncode not in ANSWERS or done.stderr:
            yield f"{line}\nstatus {done.returncode}\n{done.stderr}"


def main():
    words = argparse.ArgumentParser(description=__doc__, formatter_class=argparse.RawDescriptionHelpFormatter)
    words.add_argument("pages", nargs="+", type=Path, metavar="PAGE")
    words.add_argument("--section", action="append", default=[], metavar="HEADING",
                       help="the sections with these headings alone")
    words.add_argument("--program", default=PROGRAM, metavar="PATH",
                       help="another program than the built one of this repository")
    words.add_argument("--root", type=Path, metavar="FOLDER", help="where `./ia64`, the examples and the tests stand")
    words.add_argument("--answers", action="store_true", help="each line has to end with an answer, whatever that is")
    options = words.parse_args()
    if options.root is None and shutil.which(options.program) is None:
        sys.exit(f"try_page: {options.program} is not there: call ./build, which proves and builds it")
    if options.root and not os.access(options.root / "ia64", os.X_OK):
        sys.exit(f"try_page: there is no command ia64 in {options.root}")
    wrong = 0
    for name, text in (part for page in options.pages for part in parts(page, options.section).items()):
        if text is None:
            sys.exit(f"try_page: {name}: no such heading")
        blocks, wrongs = list(BLOCK.finditer(text)), unanswered if options.answers else differences
        with standing_in(options.root, os.path.abspath(options.program)) as folder:
            found = [each for block in blocks for each in wrongs(block, folder)]
        wrong += len(found) + (not blocks)
        for each in found:
            print(f"{name}: {'no answer' if options.answers else 'other lines than it says'}:\n{each}")
        print(f"{name}: {len(blocks)} blocks, {len(found)} times something else")
    sys.exit(1 if wrong else 0)


if __name__ == "__main__":
    main()
