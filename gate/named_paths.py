#!/usr/bin/env python3
"""Checks that what the documents name is there: paths, headings, links, lines of sources and crates.

  gate/named_paths.py

A path is what stands in backticks and begins with the name of a crate or of a folder at the top, and a slash. The path of a
crate may leave `crates/` and the ending of the file out, and `*` stands for any name. Of a command the first word is looked at.
A heading is what stands in quotes behind the path of a page, as `docs/use/check.md`, "Seven exceptions".
A link is one of Markdown to another file, by its path from the page, or to a heading behind `#`.
A block of differences names a file behind `+++`; each line of it that is added or stays has to stand in that file.
The table of layers in docs/build/architecture.md has to name each crate of crates.txt just once, and no other.

It prints what isn't there, and ends with status 1 where something isn't.
"""

import fnmatch
import pathlib
import re
import sys

ROOT = pathlib.Path(__file__).resolve().parent.parent
LAYERS = ROOT / "docs" / "build" / "architecture.md"
CRATES = re.findall(r"^(\w+):", (ROOT / "crates.txt").read_text(), re.M)
MADE = ("out", "__pycache__")   # made by calls, and not in the repository
FOLDERS = sorted(path.name for path in ROOT.iterdir() if path.is_dir() and not path.name.startswith(".") and path.name not in MADE)
ENDINGS = ("", ".rt", ".antt")


def documents():
    """The pages, the README of each folder, and what stands at the top."""
    return sorted({*ROOT.glob("*.md"), *ROOT.glob("*/README.md"), *ROOT.glob("examples/**/*.md"), *ROOT.glob("docs/**/*.md")})


def prose(text):
    """The text without its blocks of code, whose lines stay as empty ones."""
    return re.sub(r"^```.*?^```", lambda block: "\n" * block.group(0).count("\n"), text, flags=re.S | re.M)


def is_named(path):
    """Whether a path begins with the name of a crate or of a folder at the top, which may have a `*` in it."""
    first, slash, _ = path.partition("/")
    return slash and any(fnmatch.fnmatch(name, first) for name in (*CRATES, *FOLDERS))


def is_there(path):
    """Whether there is a file or a folder of this path, in the repository or among the crates."""
    return any(found for root in (ROOT, ROOT / "crates") for ending in ENDINGS for found in root.glob(path.rstrip("/") + ending))


def headings(page):
    """The headings of a page, without their backticks."""
    return {line.lstrip("#").strip().replace("`", "") for line in prose(page.read_text()).splitlines() if line.startswith("#")}


def anchors(page):
    """What links to the headings of a page have behind `#`."""
    return {re.sub(r"[^\w -]", "", heading.lower()).replace(" ", "-") for heading in headings(page)}


def dead_links(document):
    """The links of a document whose file or heading isn't there."""
    for number, line in enumerate(prose(document.read_text()).splitlines(), 1):
        for path, anchor in re.findall(r"\]\(([^)#:\s]*)(?:#([^)\s]+))?\)", line):
            page = document.parent / path if path else document
            if not page.exists() or anchor and page.suffix == ".md" and anchor not in anchors(page):
                yield f"{document.relative_to(ROOT)}:{number}: no {path}{'#' * bool(anchor)}{anchor}"


def faults_of(document):
    """What a document names that isn't there."""
    for number, line in enumerate(prose(document.read_text()).splitlines(), 1):
        at = f"{document.relative_to(ROOT)}:{number}"
        for quoted in re.findall(r"`([^`\s]+)[^`]*`", line):
            if is_named(quoted) and not is_there(quoted):
                yield f"{at}: no {quoted}"
        for name, quoted in re.findall(r"`(docs/[\w/]+\.md)`,? \(?((?:\"[^\"]+\"(?:, | and )?)+)", line):
            page = ROOT / name
            for heading in re.findall(r"\"([^\"]+?),?\"", quoted) if page.exists() else ():
                if heading.replace("`", "") not in headings(page):
                    yield f"{at}: {name} has no heading \"{heading}\""


def missing_lines(document):
    """The lines that a block of differences has and its file hasn't. `...` stands for lines that are left out."""
    path, lines, is_inside = "", set(), False
    for number, line in enumerate(document.read_text().splitlines(), 1):
        at = f"{document.relative_to(ROOT)}:{number}"
        if line.startswith("```"):
            is_inside = line == "```diff"
        elif is_inside and line.startswith("+++ "):
            path = line[4:]
            if not (ROOT / path).is_file():
                yield f"{at}: no {path}"
            lines = {text.strip() for text in (ROOT / path).read_text().splitlines()} if (ROOT / path).is_file() else set()
        elif is_inside and line[:1] in ("+", " ") and line[1:].strip() not in {"", "...", *lines}:
            yield f"{at}: {path} has no such line"


def layer_faults():
    """In what the table of layers differs from crates.txt."""
    section = LAYERS.read_text().partition("\n## The crates\n")[2].partition("\n## ")[0]
    named = [name for row in re.findall(r"^\|.*", section, re.M) for name in re.findall(r"`(\w+)`", row.split("|")[2])]
    for name in sorted({*CRATES, *named}):
        if named.count(name) != CRATES.count(name):
            yield f"{LAYERS.relative_to(ROOT)}: the table of layers has {name} {named.count(name)} times, crates.txt {CRATES.count(name)} times"


def main():
    faults = [fault for document in documents() for fault in (*faults_of(document), *dead_links(document), *missing_lines(document))]
    faults += layer_faults()
    for fault in faults:
        print(f"named_paths: {fault}")
    return 1 if faults else 0


if __name__ == "__main__":
    sys.exit(main())
