#!/usr/bin/env python3
"""Checks that each lemma and each definition in proofs/ and specs/ of the crates is cited, and that no lemma is stated twice.

  gate/said_once.py

What the sources name, the answers to the goals of functions and the worked examples stand for themselves. All else has to be
cited by one of these, or by what they cite in turn. The answers are the `pub` names of the files Answers, Invariants and Proof.

Two lemmas of different files are one where their statements are equal but for white space and the names of bound variables. They
have to be stated once where one file can import the other: in one crate, or where crates.txt has the one crate below the other.
A name in a statement is what its file means by it, so lemmas over different definitions of one name aren't equal.

It prints what isn't so, and ends with status 1 where something isn't. It needs no built program.
"""

import collections
import itertools
import pathlib
import re
import sys

CRATES = pathlib.Path(__file__).resolve().parent.parent / "crates"
HEADER = re.compile(r"((?:(?:pub|abbrev|unfoldable) )*)(?:([^\s(){}]+) :(?: |$)|(?:record|data) (\S+) .*where$|ruleset (\S+) = )")
MODULE = re.compile(r"\bmodule _ (\(.*?) where$", re.M | re.S)
USE = re.compile(r"^ *(?:ghost |pub )*use (?:Rattle\.)?([^{}\s;]+?)(?:\.\{([^}]*)\}| as (\w+))?;?$", re.M)
TOKEN = re.compile(r"\.?[^\s(){}\[\],;.]+|[(){}\[\],;.]")


class Lemma:
    """A lemma or a definition: where it stands, what the names in its file mean, its tokens, and those of its statement."""

    def __init__(self, path, line, names, header, over):
        self.path, self.line, self.names, self.tokens, self.statement = path, line, names, [*over], [*over]
        self.crate, *self.folders = path.relative_to(CRATES).with_suffix("").parts
        self.name = header.group(2) or header.group(3) or header.group(4)
        self.whole = ".".join((self.crate, *self.folders, self.name))
        is_answer = self.folders[-1] in ("Answers", "Invariants", "Proof") and "pub" in header.group(1)
        self.stands = is_answer or self.folders[-1] == "Examples"
        is_definition = header.group(2) is None or "abbrev" in header.group(1)
        self.is_stated = self.folders[0] == "proofs" and not (self.stands or is_definition)

    def __str__(self):
        return f"{self.path.relative_to(CRATES.parent)}:{self.line}: {self.name}"


def meanings(text):
    """What the names mean that a file imports: a name of the library stands for itself, whatever file it came by."""
    found = {}
    for module, items, alias in USE.findall(text):
        for item in filter(None, map(str.strip, items.split(","))):
            name, _, other = item.partition(" as ")
            found[(other or name).replace("◌", "")] = name if module.startswith("std.") else f"{module}.{name}"
        if alias:
            found[alias] = module
    return found


def cited(tokens, names):
    """What the tokens mean: a name by itself, and one of a module whose name stands before it."""
    for token, after in zip(tokens, [*tokens[1:], ""]):
        if token in names:
            yield from (names[token], names[token] + after)


def lemmas_of(path):
    """Each lemma and definition of a file. What stands in a module without a name has the parameters of the module too."""
    text = re.sub(r'--.*|"[^"\n]*"', "", path.read_text())
    text = MODULE.sub(lambda it: it.group(0).replace("\n", " ") + "\n" * it.group(0).count("\n"), text)
    names, over, found, in_statement = meanings(text), [], [], False
    for number, line in enumerate(USE.sub("", text).splitlines(), 1):
        if line.strip():
            del over[(len(line) - len(line.lstrip())) // 2:]
        inner = line[2 * len(over):]
        header, module = HEADER.match(inner), MODULE.match(inner)
        if header:
            found.append(Lemma(path, number, names, header, sum(over, [])))
        in_statement = bool(header) or in_statement and inner.startswith(" ")
        if module:
            over.append(TOKEN.findall(module.group(1)) + ["→"])
        elif found:
            found[-1].tokens += TOKEN.findall(inner)
            found[-1].statement += TOKEN.findall(inner[header.end():] if header else inner) if in_statement else []
    names.update((lemma.name.replace("◌", ""), lemma.whole) for lemma in found)
    return found


def named_in_sources():
    """What the sources name, by `ghost use` or by its path."""
    for path in CRATES.glob("*/src/**/*.rt"):
        text = re.sub(r"\bcrate::", f"{path.relative_to(CRATES).parts[0]}::", path.read_text())
        yield from cited(TOKEN.findall(USE.sub("", text)), meanings(text))
        yield from (it.replace("::", ".") for it in re.findall(r"\b\w+::(?:proofs|specs)::[\w:-]+", text))


def uncited(lemmas):
    """Those that nothing cites which stands for itself or is cited."""
    waiting, left = [*named_in_sources(), *(lemma.whole for lemma in lemmas if lemma.stands)], collections.defaultdict(list)
    for lemma in lemmas:
        left[lemma.whole].append(lemma)
    while waiting:
        for lemma in left.pop(waiting.pop(), []):
            waiting.extend(cited(lemma.tokens, lemma.names))
    return itertools.chain(*left.values())


def statement(tokens, names, numbers):
    """The tokens of a statement: bound variables as numbers, each with a binder of its own, and other names as what is meant."""
    at = 0
    while at < len(tokens):
        end = next((i for i in range(at + 1, len(tokens)) if tokens[i] in "(){}[],;.:→λ"), at + 1)
        close, kind = end - 1, []
        if tokens[at] in "({" and end > at + 1 and tokens[end:end + 1] == [":"]:
            depths = itertools.accumulate((it in "({") - (it in ")}") for it in tokens[at:])
            close = at + next(i for i, depth in enumerate(depths) if not depth)
            kind = [*statement(tokens[end + 1:close], names, numbers)]
        elif tokens[at] != "λ":
            yield names.get(tokens[at], tokens[at])
            end = close = at
        for name in tokens[at + 1:end]:
            names[name] = next(numbers)
            yield from ("(", names[name], *kind, ")")
        at = close + 1


def twice(lemmas):
    """Each pair of lemmas that are one, the one that may be cited first."""
    below, stated = {}, collections.defaultdict(list)
    for name, others in re.findall(r"^(\w+):(.*)", (CRATES.parent / "crates.txt").read_text(), re.M):
        below[name] = {name}.union(*(below.get(other, ()) for other in others.split()))
    for lemma in filter(lambda it: it.is_stated, lemmas):
        stated[" ".join(statement(lemma.statement, dict(lemma.names), map(str, itertools.count())))].append(lemma)
    for one, other in itertools.chain(*(itertools.permutations(group, 2) for group in stated.values())):
        if one.path != other.path and one.crate in below[other.crate] and (one.crate != other.crate or one.path < other.path):
            yield one, other


def main():
    paths = sorted(path for path in CRATES.glob("*/*/**/*.antt") if "out" not in path.parts and path.name != "Lib.antt")
    lemmas = [lemma for path in paths for lemma in lemmas_of(path)]
    wrong = [f"{lemma}: nothing cites it" for lemma in uncited(lemmas)]
    wrong += [f"{other}: stated already at {one}" for one, other in twice(lemmas)]
    print(*wrong, sep="\n", end="\n" if wrong else "")
    return 1 if wrong else 0


if __name__ == "__main__":
    sys.exit(main())
