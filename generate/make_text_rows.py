#!/usr/bin/env python3
"""Makes rows of the program `vectors`: whole texts, and the images that `build` makes of them.

  python3 generate/make_text_rows.py

It runs in any folder, writes its part of `crates/vectors/stdin`, and prints what that covers. The same tools give the same rows.
They are calls of `build`, in the form of those of `make_call_rows.py`. It needs what `gnu_as.py` needs, and `ia64-linux-gnu-ld`
and `-nm` of the same package. The gate doesn't call it.

The bundles and the data of an image are those of the GNU assembler, which is given the text with a label before each line of
relations. Its linker puts the bundles at 0x10000 and the data at 0x100000. So it makes the displacements and the addresses of the
labels. The numbers of the declared entries, and of the bundles that lines of relations speak of, are read off the linker's
table of symbols. So an image has nothing of the program that it is compared with.

In the last rows one thing of a text is changed on purpose, and the image is that of the text before: a label stands a bundle
later, two bundles are exchanged, an entry isn't declared, a word of data is left out, a relation stands a bundle later, or one of
its predicates is left out.
"""

import itertools
import os
import random as randoms
import re
import struct
import subprocess
import sys
import tempfile
from pathlib import Path

sys.dont_write_bytecode = True

import vector_rows
from gnu_as import OPTIONS, PREFIX, TEMPLATES, nops, run, units
from make_call_rows import Row, line_of

ROOT = Path(__file__).resolve().parent.parent

CODE, DATA = 0x10000, 0x100000

# Where programs are kept.
PROGRAMS = ("examples", "tests/run", "tests/check", "tests/gnu")

# How many texts are drawn, and the most bundles of one.
DRAWN, MOST = 120, 12

# Slot lines by their unit. `%` stands for a label of the text, `@` for one of its data.
SLOTS = {
    "m": ["nop.m 0", "add r14=r15,r16", "(p6) adds r8=-1,r9", "ld8 r20=[r21],8", "st4 [r22]=r23",
          "chk.s.m r8,%", "chk.a.clr r9,%", "mov.m ar.unat=r0", "(p7) cmp.eq p6,p7=r8,r9"],
    "i": ["nop.i 0", "shl r8=r9,3", "extr.u r10=r11,4,8", "mov r8=b0", "(p9) mov.i ar.lc=20", "chk.s.i r8,%",
          "addl r24=100000,r1", "tbit.z p8,p9=r10,5"],
    "f": ["nop.f 0", "break.f 3"],
    "b": ["nop.b 0", "br.cond.sptk.few %", "(p6) br.cond.dptk.many %", "br.call.sptk.many b0=%", "br.ret.sptk.few b0",
          "(p8) br.cond.spnt.few.clr %"],
    "x": ["nop.x 0", "movl r8=0x123456789abcdef0", "movl r9=%", "(p6) movl r10=@", "break.x 1"],
}

# What may stand between the lines of a bundle, and between bundles.
BLANKS = ["", "  ", "// a comment", "\t// { .mii"]


def bundle(code, texts):
    """The lines of a bundle with the template of this code, each stop at the end of a slot's line."""
    name, stops = TEMPLATES[code]
    last = len(texts) - 1
    slots = (text + (" ;;" if (2 if slot == last else slot) in stops else "") for slot, text in enumerate(texts))
    return [f"{{ .{name}", *slots, "}"]


# Texts for one thing each.
WRITTEN = {
    "one bundle": ["{ .mii", "nop.m 0", "nop.i 0", "nop.i 0 ;;", "}"],
    "each template": [line for code in TEMPLATES for line in bundle(code, nops(code))] + bundle(0x01, nops(0x01)),
    "labels forwards and backwards": [
        "start:", "{ .mib", "nop.m 1", "nop.i 1", "br.cond.sptk.few end ;;", "}",
        "middle:", "{ .mbb", "chk.s.m r8,start", "(p6) br.cond.sptk.few end", "br.call.sptk.few b0=middle ;;", "}",
        "{ .mfb", "nop.m 2", "nop.f 2", "br.cond.sptk.few start ;;", "}",
        "end:", "{ .mib", "nop.m 3", "nop.i 3", "br.cond.sptk.few middle ;;", "}"],
    "labels without a use, two of one bundle": [
        "a:", "b.1:", "{ .mii", "nop.m 0", "nop.i 0", "nop.i 0", "}", "c$:", "", "_d:", "// e:",
        "{ .bbb", "br.cond.sptk.few b.1", "br.cond.sptk.few c$", "br.cond.sptk.few _d ;;", "}"],
    "entries": [
        ".entry third", ".entry first", "first:", "{ .mii", "nop.m 0", "nop.i 0", "nop.i 0 ;;", "}",
        "second:", "{ .mii", "nop.m 0", "nop.i 0", "nop.i 0 ;;", "}", ".entry fourth",
        "third:", "{ .mii", "nop.m 0", "nop.i 0", "nop.i 0 ;;", "}",
        "fourth:", "{ .mii", "nop.m 0", "nop.i 0", "nop.i 0 ;;", "}", ".data", ".entry second", "x:", "data1 1"],
    "relations": [
        '.pred.rel "mutex",p6,p7', ".entry third", "{ .mib", "(p6) adds r8=1,r0", "(p7) adds r8=2,r0",
        "br.call.sptk.few b0=third ;;", "}",
        '\t.pred.rel "mutex" , p15,p1,p8 // p1, p8 and p15', "", '.pred.rel "mutex",p8,p15',
        "{ .mii", "nop.m 0", "nop.i 0", "nop.i 0 ;;", "}",
        '.pred.rel "mutex",p2,p3', "third:", ".data", "x:", "data8 1", ".text", '.pred.rel "mutex",p1,p2',
        "{ .mii", "nop.m 0", "nop.i 0", "nop.i 0 ;;", "}",
        ".entry last", "last:", '.pred.rel "mutex",p1,p2,p3,p4,p5,p6,p7,p8,p9,p10,p11,p12,p13,p14,p15',
        "{ .mii", "nop.m 0", "nop.i 0", "nop.i 0 ;;", "}"],
    "data of all sizes": [
        "{ .mlx", "nop.m 0", "movl r8=bytes ;;", "}", "{ .mlx", "nop.m 0", "movl r9=end ;;", "}",
        ".data", "bytes:", "data1 1,-1,255,-128", "data1 0,0,0,0", "data2 0x1234,-32768", "data4 0x89abcdef",
        "words:", "data8 0x0123456789abcdef,-1", ".skip 3", "data1 7", "end:",
        ".text", "{ .mlx", "nop.m 0", "movl r10=words ;;", "}"],
    "data beside code, in turn": [
        ".data", "a:", "data8 1", ".text", "one:", "{ .mlx", "nop.m 0", "movl r8=a ;;", "}",
        ".data", "b:", "data8 2,3", ".text", "{ .mlx", "nop.m 0", "movl r8=b", ";;", "}",
        "{ .mlx", "nop.m 0", "movl r9=one ;;", "}"],
    "stops on lines of their own": [
        "{ .mmi", "nop.m 0", ";;", "", "nop.m 1", "nop.i 0", "// a comment", ";;", "}",
        "{ .mii", "nop.m 0", "nop.i 0 ;;", "nop.i 1", "}", "{ .mii", "nop.m 0", "nop.i 0", ";;", "nop.i 1 ;;", "}"],
    "blanks": [
        "  start :  // first", "\t{ .mib", "\t(p6)  add  r8 = r9 , r10", "", "nop.i 0", "\tbr.cond.sptk.few\tstart ;;",
        "  }  ",
        "// end"],
    "ignored lines": [
        ".global main#", ".text", ".proc main#", "main:",
        "{ .mib", "nop.m 0", "nop.i 0", "br.call.sptk.few b0=main# ;;", "}",
        "{ .mii", "nop.m 0", "nop.i 0", "nop.i 0 ;;", "}", ".endp main#"],
    "a far label": ["first:"] + 300 * ["{ .mii", "nop.m 0", "nop.i 0", "nop.i 0 ;;", "}"] + [
        "{ .mib", "nop.m 0", "nop.i 0", "br.cond.sptk.few first ;;", "}"],
}


def linked(text):
    """The bundles, the data and the addresses of the labels of a text, as the GNU tools make them."""
    with tempfile.TemporaryDirectory() as folder:
        source, made, whole, raw = (Path(folder) / name for name in ("text.s", "text.o", "text", "raw"))
        source.write_text(text)
        run("as", *OPTIONS, str(source), "-o", str(made))
        run("ld", "-e", "0", f"-Ttext={CODE:#x}", f"-Tdata={DATA:#x}", str(made), "-o", str(whole))
        parts = []
        for section in (".text", ".data"):
            raw.unlink(missing_ok=True)
            run("objcopy", "-O", "binary", "-j", section, str(made if section == ".data" else whole), str(raw))
            parts.append(raw.read_bytes() if raw.exists() else b"")
        symbols = (line.split() for line in run("nm", str(whole)).splitlines())
        return (*parts, {name: int(address, 16) for address, _, name in symbols})


def predicates(line):
    """The predicates of a line that declares relations, and none of any other line."""
    text = line.partition("//")[0].strip()
    return sorted(int(number) for number in re.findall(r"\bp(\d+)", text)) if text.startswith(".pred.rel") else []


def image(lines):
    """The image of a text. Before each line of relations a label is put, so that the linker says which bundle is next."""
    related = {f"relation.{n}": predicates(line) for n, line in enumerate(lines) if predicates(line)}
    marked = (f"relation.{n}:\n" * (f"relation.{n}" in related) + line + "\n" for n, line in enumerate(lines))
    code, data, labels = linked("".join(marked))
    named = {line.split()[1] for line in lines if line.startswith(".entry ")}
    entries = sorted({(labels[name] - CODE) // 16 for name in named} - {0})
    relations = sorted({((labels[name] - CODE) // 16, *pair)
                        for name, ps in related.items() for pair in itertools.combinations(ps, 2)})
    data += bytes(-len(data) % 8)
    magic = b"IA64IMG2" if relations else b"IA64IMG1"
    head = struct.pack("<8s4I", magic, len(code) // 16, len(entries), len(data), len(relations))
    pairs = b"".join(struct.pack("<I2B2x", *relation) for relation in relations)
    return head + struct.pack(f"<{len(entries)}I", *entries) + pairs + code + data


def kept():
    """The lines of the programs of `examples` and `tests` that have bundles, and that the assembler takes and gives no
    stop more."""
    paths = [path for folder in PROGRAMS for path in sorted((ROOT / folder).glob("*.s")) if "\n{" in path.read_text()]
    texts = [path.read_text().splitlines() for path in paths if is_taken(path)]
    return [lines for lines in texts if not gets_stops(lines)]


def is_taken(path):
    """Whether the assembler takes a text as it stands, without a word."""
    done = subprocess.run([PREFIX + "as", *OPTIONS, str(path), "-o", os.devnull], capture_output=True, check=False)
    return done.returncode == 0 and not done.stderr


def gets_stops(lines):
    """Whether the assembler puts in a stop: behind the last bundle before a line that ends a section or a
    procedure, before an `alloc`, or behind a `clrrrb`."""
    stopped, clears = True, False
    for line in [*lines, ".text"]:
        text = line.partition("//")[0].strip()
        words = text.split()
        if text == ";;":
            stopped = True
        elif text[:1] in ("", "{", "}") or text.endswith(":"):
            continue
        elif not stopped and (clears or words[0] in (".text", ".data", ".proc", ".endp") or "alloc" in words):
            return True
        elif text[0] != "." and not words[0].startswith("data"):
            stopped, clears = text.endswith(";;"), "clrrrb" in text
    return False


def drawn(random):
    """A text of some bundles, each perhaps with labels, of which some are entries, and of data."""
    count = random.randint(1, MOST)
    names = [f"L{n}" for n in range(count)]
    data = [f"D{n}" for n in range(random.randint(1, 4))]
    entries = {name: random.choice(names) for name in names if random.random() < 0.2}
    turns = [random.random() < 0.2 for _ in names] + [True]
    lines = []
    for name, turn, next_turn in zip(names, turns, turns[1:]):
        maybe_blank(random, lines)
        lines += [f".entry {entry}" for entry, place in entries.items() if place == name]
        if turn:
            lines += [".data", f"data8 {random.getrandbits(64):#x}", ".text"]
        lines.append(f"{name}:")
        lines += drawn_bundle(random, names, data, next_turn)
    lines.append(".data")
    for name in data:
        lines += [f"{name}:", f"data8 {','.join(str(random.randint(-9, 9)) for _ in range(random.randint(1, 5)))}"]
        maybe_blank(random, lines)
    return lines


def drawn_bundle(random, names, data, last):
    """A bundle. The assembler puts a stop after the last one before it turns to data, so that has one here."""
    code = random.choice([code for code, (_, stops) in TEMPLATES.items() if not last or 2 in stops])
    texts = [random.choice(SLOTS[unit]).replace("%", random.choice(names)).replace("@", random.choice(data))
             for unit in units(code)]
    lines = []
    for line in bundle(code, texts):
        text = line[:-3] if line.endswith(" ;;") else line
        lines += [text, ";;"] if text != line and random.random() < 0.3 else [line]
        if line != "}":
            maybe_blank(random, lines)
    return lines


def related(random, lines):
    """The lines with relations before some of the bundles that are entries."""
    entries = {line.split()[1] for line in lines if line.startswith(".entry ")}
    made, is_entry = [], True
    for line in lines:
        if line.startswith("{"):
            while is_entry and random.random() < 0.6:
                some = random.sample(range(1, 16), random.choice((2, 2, 3, 15)))
                made.append('.pred.rel "mutex"' + "".join(f",p{p}" for p in some))
            is_entry = False
        is_entry = is_entry or line[:-1] in entries or "br.call" in line
        made.append(line)
    return made


def maybe_blank(random, lines):
    if random.random() < 0.15:
        lines.append(random.choice(BLANKS))


def row(made, lines):
    return line_of(Row("build", "".join(f"{line}\n" for line in lines), 0, made))


def wrong():
    """Rows with one thing changed."""
    lines = WRITTEN["labels forwards and backwards"]
    at = lines.index("middle:")
    yield image(lines), lines[:at] + lines[at + 1:at + 6] + ["middle:"] + lines[at + 6:]
    yield image(lines), lines[at + 6:at + 11] + lines[at:at + 6] + lines[:at] + lines[at + 11:]
    lines = WRITTEN["entries"]
    yield image(lines), [line for line in lines if line != ".entry second"]
    lines = WRITTEN["data of all sizes"]
    yield image(lines), [line for line in lines if line != ".skip 3"]
    lines = WRITTEN["relations"]
    at = lines.index('.pred.rel "mutex",p1,p2')
    yield image(lines), lines[:at] + lines[at + 1:at + 8] + [lines[at]] + lines[at + 8:]
    yield image(lines), [line.replace(",p14,", ",") for line in lines]


def main():
    random, other = randoms.Random(1), randoms.Random(2)
    programs = kept()
    texts = [*WRITTEN.values(), *programs, *(related(other, drawn(random)) for _ in range(DRAWN))]
    rows = [row(image(lines), lines) for lines in texts]
    changed = [f"not {row(made, lines)}" for made, lines in wrong()]
    vector_rows.write("text", rows + changed)
    print(f"{len(WRITTEN)} written texts, {len(programs)} programs, {DRAWN} drawn, {len(changed)} changed")


if __name__ == "__main__":
    main()
