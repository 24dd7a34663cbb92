#!/usr/bin/env python3
"""Looks for damaged files on which the readers of the front end in another way than with an answer or a refusal.

  fuzz/fuzz_files.py [--seed S] [--cases N] [--only N] [--keep FOLDER]

It is called by hand. Case n of a seed is the same on every machine. The files are ELF files of each class and order, PE files,
COFF object files and archives, as front/tests/writers.py writes them, damaged: bytes, fields of the headers and the tables (0, 1,
the highest, the file's length, another field's number), rows of tables exchanged and doubled, parts cut, put in and left out. Each
is read whole.

A case goes wrong where another exception than a Fault comes, where it takes more than SECONDS, or where MEMORY bytes aren't
enough. It prints a line for each of those, and at the end how many ended how. The status is 1 where one went wrong. With --only N
it runs one case, with the traceback. --keep keeps the file of each wrong one.
"""

import argparse
import os
import random as randoms
import resource
import signal
import struct
import sys
import tempfile
import traceback
from collections import Counter
from pathlib import Path

import places

from front import archive, elf, pe
from front.faults import Fault
from front.tests import writers
from front.tests.writers import BASE, DATA_FLAGS, NOP, RDATA_FLAGS, READ_ONLY, RETURN, WRITABLE_FLAGS

SECONDS, MEMORY = 5, 1 << 29
TEXT, DATA, MORE = 0x1000, 0x2000, 0x3000


class TimedOut(Exception):
    """A case that takes too long."""


# The files that are damaged.


def elf_object(bits, order):
    made = writers.Elf(bits=bits, order=order)
    text, data = made.section(".text", NOP + 3 * RETURN), made.section(".rodata", bytes(16), READ_ONLY)
    made.section(".bss", b"", DATA_FLAGS, writers.NOBITS, size=64)
    first, other = made.symbol("f", text, 0, 32), made.symbol("memcpy", 0, kind=0)
    section = made.symbol("", text, kind=3, binding=0)
    made.symbol("g", 0xFFFF, 32, 16)
    made.section(".symtab_shndx", made.packed("5I", 0, 0, 0, 0, text), 0, writers.SYMTAB_SHNDX, link=6)
    made.relocation(text, 2, writers.PCREL21B, other)
    made.relocation(data, 0, writers.DIR64, section, 0x20)
    made.relocation(data, 8, writers.DIR64, first, 16)
    return made.data()


def elf_program(bits, order):
    made = writers.Elf(writers.SHARED, TEXT, bits, order)
    text = made.section(".text", NOP + 3 * RETURN, address=TEXT)
    data = made.section(".data", made.words(TEXT + 16, 5, TEXT + 32), DATA_FLAGS, address=DATA)
    made.section(".rodata", made.words(0, TEXT - MORE, 7) + b"rest", READ_ONLY, address=MORE)
    made.section(".IA_64.unwind", made.words(0, 16, 0, 16, 64, 0), READ_ONLY, writers.UNWIND, address=MORE + 64)
    made.segment(TEXT)
    made.segment(DATA, flags=6)
    made.relocation(data, DATA, writers.DIR64, made.symbol("f", text, TEXT, 16))
    made.relocation(data, DATA + 8, writers.REL64, 0, TEXT + 16)
    return made.data(headers_first=bits == 32)


def pe_program():
    made = writers.Pe(entry=DATA)
    made.section(".text", NOP + writers.long_move(BASE + TEXT + 32) + 2 * RETURN)
    made.section(".rdata", struct.pack("<QQQQ", BASE + TEXT, BASE, BASE + TEXT + 16, BASE), RDATA_FLAGS)
    table = writers.export_directory(MORE, [DATA, DATA + 16, MORE + 60], [("one", 0), ("two", 1), ("other.dll", 2)])
    made.section(".edata", table, RDATA_FLAGS)
    made.directory(0, MORE, len(table))
    made.section("a_table_for_unwinding", struct.pack("<6I", TEXT, TEXT + 32, 0, TEXT + 32, TEXT + 64, 0), RDATA_FLAGS)
    made.directory(3, 0x4000, 24)
    moves = writers.base_relocations(TEXT, (9, 16)) + writers.base_relocations(DATA, (10, 0), (10, 16), (3, 8))
    made.section(".reloc", moves, 0x42000040)
    made.directory(5, 0x5000, len(moves))
    made.section(".bss", b"", writers.BSS_FLAGS, memory=0x100)
    made.symbol("a_name_of_more_bytes", 1, 0, further=writers.size_of_function(32))
    made.symbol("g", 1, 32)
    return made.data()


def coff_object():
    made = writers.Pe(linked=False)
    made.section(".text$one", NOP + 3 * RETURN)
    made.section(".rdata", struct.pack("<qii", 16, 32, 0), RDATA_FLAGS)
    made.section(".data", b"", WRITABLE_FLAGS, memory=64)
    made.symbol("f", 1, 0, further=writers.size_of_function(32))
    other = made.symbol("a_name_of_more_bytes", 0)
    made.relocation(1, 2, 6, other)
    made.relocation(1, 18, 0x16, 0)
    made.relocation(2, 0, 5, 0)
    made.relocation(2, 8, 0x10, 0)
    return made.data()


def files():
    """Each file with the kind that it's counted as."""
    forms = [(bits, order) for bits in (64, 32) for order in "<>"]
    objects = [(f"ELF object {bits} {order}", elf_object(bits, order)) for bits, order in forms]
    programs = [(f"ELF program {bits} {order}", elf_program(bits, order)) for bits, order in forms]
    others = [("PE program", pe_program()), ("COFF object", coff_object())]
    long_names = writers.member("//", b"a_name_of_more_than_15_bytes.o/\nother_name_of_many_bytes.obj\0")
    members = [writers.member("/", b"table"), long_names, writers.member("/0", objects[0][1]),
               writers.member("#1/20", b"x" * 33), writers.member("/32", others[1][1])]
    thin = writers.thin_archive("a.o", "none", ".", "thin.a", "a.o")
    return objects + programs + 3 * others + [("archive", writers.archive(*members)), ("thin archive", thin)]


# Damage.


def numbers(data, size):
    """Numbers for a field of so many bytes."""
    most = (1 << 8 * size) - 1
    return (0, 1, most, most >> 1, (most >> 1) + 1, most - 1, len(data) & most, len(data) - 1 & most, len(data) // 2 & most)


def field_edit(random, data):
    """A field of any of the usual sizes, most often near the start or the end, where the headers are."""
    size = random.choice((1, 2, 4, 4, 8, 8))
    part = random.choice((min(len(data), 512), len(data), len(data)))
    at = random.choice((0, len(data) - part)) + random.randrange(part) // size * size
    if at + size > len(data):
        return data
    number = random.choice((*numbers(data, size), random.getrandbits(8 * size)))
    return data[:at] + number.to_bytes(size, random.choice(("little", "little", "big"))) + data[at + size:]


def step_edit(random, data):
    """A small number becomes a little larger or smaller."""
    at = random.randrange(len(data))
    return data[:at] + bytes([data[at] + random.choice((-16, -8, -4, -1, 1, 4, 8, 16)) & 0xFF]) + data[at + 1:]


def other_field_edit(random, data):
    """A field has the number of another one: tables point at one another."""
    size = random.choice((2, 4, 8))
    first, second = (random.randrange(len(data)) // size * size for _ in range(2))
    return data[:first] + data[second:second + size] + data[first + size:]


def row_edit(random, data):
    """A row of a table is put in place of another, or the two are exchanged."""
    size = random.choice((10, 12, 16, 18, 24, 32, 40, 56, 60, 64))
    start = random.randrange(min(size, len(data)))
    rows = range(start, len(data) - size + 1, size)
    if len(rows) < 2:
        return data
    first, second = sorted(random.sample(rows, 2))
    one, other = data[first:first + size], data[second:second + size]
    return data[:first] + other + data[first + size:second] + random.choice((one, other)) + data[second + size:]


def flip(random, data):
    at = random.randrange(len(data))
    return data[:at] + bytes([data[at] ^ 1 << random.randrange(8)]) + data[at + 1:]


def cut(random, data):
    return data[:random.randrange(len(data))]


def shift(random, data):
    """Bytes left out, or put in."""
    at, size = random.randrange(len(data)), random.choice((1, 2, 8, 40, 64))
    return data[:at] + random.choice((data[at + size:], bytes(size) + data[at:], b"A" * size + data[at:]))


def filled(random, data):
    """A long run of one byte, without an end to a name in it."""
    at, size = random.randrange(len(data)), random.choice((16, 100, 1000))
    return (data[:at] + random.choice((b"A", b"\xff", b"\0", b"/")) * size + data[at + size:])[:len(data)]


EDITS = (*[field_edit] * 3, *[other_field_edit] * 2, *[step_edit] * 2, *[row_edit] * 2, *[flip] * 2, cut, shift, filled)


def damaged(random, data):
    for _ in range(random.choice((1, 1, 2, 3, 5, 8))):
        data = random.choice(EDITS)(random, data) if data else data
    return data


# The cases.


def read_whole(path, data):
    """All that the readers tell of a file."""
    if data.startswith((archive.ARCHIVE, archive.THIN_ARCHIVE)):
        for _, body in archive.members(path, data):
            if not isinstance(body, Fault) and not body.startswith((archive.ARCHIVE, archive.THIN_ARCHIVE)):
                read_member(path, body)
        return
    if not data.startswith(elf.MAGIC) and not pe.is_pe(data):
        raise Fault("no file of code")
    file = elf.Elf(data) if data.startswith(elf.MAGIC) else pe.Pe(data)
    for section in file.sections:
        if len(file.content(section)) != (section.size if section.is_stored else 0):
            raise AssertionError(f"section {section.index} hasn't {section.size} bytes")
    symbols, stretches = file.symbols(), list(file.stretches())
    relocations, pointed = list(file.relocations()), list(file.pointed())
    places = [symbol.place for symbol in symbols] + [(stretch.section, stretch.start) for stretch in stretches]
    places += [place for relocation in relocations for place in (relocation.at, relocation.to)] + pointed + [file.entry()]
    for place in places:
        if place is not None and not 0 <= place[0] < len(file.sections):
            raise AssertionError(f"{place} is in no section")
    for name in [section.name for section in file.sections] + [symbol.name for symbol in symbols]:
        if name and not name.isprintable():
            raise AssertionError(f"the name {name!r}")


def read_member(path, data):
    try:
        read_whole(path, data)
    except Fault:
        pass


def late(_signal, _frame):
    raise TimedOut


def run(path, data):
    """How it ended: `answered`, `refused`, or the exception."""
    signal.setitimer(signal.ITIMER_REAL, SECONDS)
    try:
        read_whole(path, data)
        return "answered"
    except Fault:
        return "refused"
    except Exception as fault:
        return fault
    finally:
        signal.setitimer(signal.ITIMER_REAL, 0)


def where(fault):
    """The last lines that an exception comes of."""
    frames = traceback.extract_tb(fault.__traceback__)[-3:]
    return " < ".join(f"{Path(frame.filename).name}:{frame.lineno}" for frame in reversed(frames))


def main():
    words = argparse.ArgumentParser(description=__doc__, formatter_class=argparse.RawDescriptionHelpFormatter)
    words.add_argument("--seed", type=int, default=0)
    words.add_argument("--cases", type=int, default=1000)
    words.add_argument("--only", type=int, metavar="N")
    words.add_argument("--keep", metavar="FOLDER")
    options = words.parse_args()
    resource.setrlimit(resource.RLIMIT_AS, (MEMORY, resource.getrlimit(resource.RLIMIT_AS)[1]))
    signal.signal(signal.SIGALRM, late)
    made, ended, wrong = files(), Counter(), 0
    with tempfile.TemporaryDirectory() as folder:
        path = os.path.join(folder, "thin.a")
        Path(folder, "a.o").write_bytes(made[0][1])
        for number in range(options.cases) if options.only is None else [options.only]:
            random = randoms.Random(f"{options.seed} {number}")
            kind, data = random.choice(made)
            data = damaged(random, data)
            Path(path).write_bytes(data)
            end = run(path, data)
            ended[kind, end if isinstance(end, str) else "wrong"] += 1
            if not isinstance(end, str):
                wrong += 1
                print(f"seed {options.seed} case {number}, {kind}: {type(end).__name__}: {end} ({where(end)})")
                if options.keep:
                    Path(options.keep, f"{options.seed}-{number}").write_bytes(data)
            if options.only is not None:
                print(f"{kind}: {end!r}")
                if not isinstance(end, str):
                    traceback.print_exception(type(end), end, end.__traceback__)
    for kind in dict.fromkeys(kind for kind, _ in made):
        print(f"{kind}: " + ", ".join(f"{ended[kind, how]} {how}" for how in ("answered", "refused", "wrong")))
    print(f"{sum(ended.values())} cases of seed {options.seed}, {wrong} went wrong")
    return 1 if wrong else 0


if __name__ == "__main__":
    sys.exit(main())
