"""Tries of the reader of PE files and COFF object files."""

import shutil
import struct
import subprocess
import tempfile
import unittest
from pathlib import Path

from front.code_file import Rank, Stretch
from front.faults import Fault
from front.pe import Pe, is_pe
from front.tests import writers
from front.tests.writers import BASE, LABEL, NOP, RDATA_FLAGS, RETURN, STATIC, WRITABLE_FLAGS, base_relocations

HAS_GNU = all(shutil.which(f"ia64-linux-gnu-{tool}") for tool in ("as", "ld", "objcopy", "strip"))
needs_gnu = unittest.skipUnless(HAS_GNU, "GNU binutils for ia64 are missing")
TEXT, DATA, MORE = 0x1000, 0x2000, 0x3000              # addresses of the first three sections
BLANK = {"kind": 0}


def read(writer):
    return Pe(writer.data())


def read_all(file):
    return ([file.content(section) for section in file.sections], file.symbols(), list(file.stretches()),
            list(file.relocations()), list(file.pointed()), file.entry())


def patched(data, at, form, *numbers):
    broken = bytearray(data)
    struct.pack_into(form, broken, at, *numbers)
    return bytes(broken)


class Case(unittest.TestCase):
    def refused(self, file, said):
        """The file is refused with these words, where it's opened or where all that it has is read."""
        data = file if isinstance(file, bytes) else file.data()
        with self.assertRaises(Fault) as caught:
            read_all(Pe(data))
        self.assertEqual(str(caught.exception), said)


class Linked(Case):
    """What linked files have."""

    def program(self, more=b"", flags=RDATA_FLAGS, **form):
        """A program with code, and data with a descriptor of the code at +0x20."""
        pe = writers.Pe(**form)
        pe.section(".text", 2 * NOP + 2 * RETURN)
        pe.section(".rdata", struct.pack("<QQ", pe.base + TEXT + 0x20, pe.base + DATA) + more, flags)
        return pe

    def test_sections(self):
        pe = self.program()
        pe.section(".bss", b"", writers.BSS_FLAGS, memory=0x7FFFFFF0)
        pe.section(".data", b"abc" + bytes(509), WRITABLE_FLAGS, memory=3)
        pe.section(".tail", bytes(16), WRITABLE_FLAGS, memory=64)
        pe.section("executed", RETURN, 0x20000000)
        pe.section("a_name_of_more_bytes", RETURN, 0x20)
        file = read(pe)
        self.assertTrue(file.linked)
        self.assertEqual([section.index for section in file.sections], list(range(7)))
        self.assertEqual([section.name for section in file.sections],
                         [".text", ".rdata", ".bss", ".data", ".tail", "executed", "a_name_of_more_bytes"])
        self.assertEqual([section.size for section in file.sections], [64, 16, 0x7FFFFFF0, 3, 16, 16, 16])
        self.assertEqual([section.is_code for section in file.sections], [True] + 4 * [False] + 2 * [True])
        self.assertEqual([section.is_stored for section in file.sections], 2 * [True] + [False] + 4 * [True])
        self.assertEqual([section.address - BASE for section in file.sections[:2]], [TEXT, DATA])
        self.assertEqual([file.content(file.sections[at]) for at in (0, 2, 3)], [2 * NOP + 2 * RETURN, b"", b"abc"])
        self.assertEqual(file.addresses.location(BASE + DATA + 1), (1, 1))

    def test_a_long_name_without_a_table_of_strings(self):
        pe = writers.Pe()
        pe.section("/77", NOP)
        self.assertEqual(read(pe).sections[0].name, "/77")

    def test_entry(self):
        """It's told by a descriptor; where code is in its place it's that."""
        for start, place in ((DATA, (0, 0x20)), (TEXT + 0x10, (0, 0x10)), (DATA + 8, None), (0, None), (0x9000, None)):
            self.assertEqual(read(self.program(entry=start)).entry(), place, hex(start))

    def test_a_descriptor_among_code(self):
        pe = writers.Pe(entry=TEXT + 16)
        pe.section(".text", NOP + struct.pack("<QQ", BASE + TEXT + 32, BASE) + RETURN)
        self.assertEqual(read(pe).entry(), (0, 32))

    def test_the_highest_addresses(self):
        for base in ((1 << 64) - 0x2000, (1 << 64) - 0x1800, (1 << 64) - 1):
            pe = writers.Pe(entry=DATA, base=base)
            pe.section(".text", 4 * RETURN)
            pe.section(".rdata", struct.pack("<QQ", base + TEXT + 16 & (1 << 64) - 1, 0), RDATA_FLAGS)
            self.assertEqual(read(pe).entry(), (0, 16))

    def test_functions_of_the_table_for_unwinding(self):
        rows = struct.pack("<12I", TEXT, TEXT + 0x20, 7, TEXT + 0x20, TEXT + 0x40, 7, DATA, DATA + 0x10, 7, TEXT, TEXT, 7)
        pe = self.program()
        pe.section(".pdata", rows + b"rest", RDATA_FLAGS)
        self.assertEqual(list(read(pe).stretches()), [])
        pe.directory(3, MORE, len(rows) + 4)
        self.assertEqual(list(read(pe).stretches()), [Stretch(0, 0, 0x20), Stretch(0, 0x20, 0x40)])

    def test_symbols(self):
        pe = self.program()
        pe.symbol("f", 1, 0, further=writers.size_of_function(0x20))
        pe.symbol("local", 1, 0x20, storage=STATIC)
        pe.symbol(".text", 1, 0, **BLANK, storage=STATIC, further=bytes(18))
        pe.symbol("a_label_of_more_bytes", 1, 0x10, **BLANK)
        pe.symbol("inner", 1, 0x30, **BLANK, storage=LABEL)
        pe.symbol(".bf", 1, 0, **BLANK, storage=101, further=bytes(18))
        pe.symbol("row", 2, 0, **BLANK)
        pe.symbol("outside", 0)
        pe.symbol("absolute", -1, 7, **BLANK)
        pe.symbol(".file", -2, 0, **BLANK, storage=103, further=b"source.c".ljust(18, b"\0"))
        self.assertEqual([tuple(symbol) for symbol in read(pe).symbols()], [
            ("f", Rank.GLOBAL, (0, 0), 0x20, True), ("local", Rank.LOCAL, (0, 0x20), 0, True),
            ("a_label_of_more_bytes", Rank.GLOBAL, (0, 0x10), 0, False), ("inner", Rank.LOCAL, (0, 0x30), 0, False)])

    def test_symbols_without_types(self):
        pe = self.program()
        pe.symbol("f", 1, 0, **BLANK)
        pe.symbol("inner", 1, 0x10, **BLANK, storage=STATIC)
        self.assertEqual([tuple(symbol) for symbol in read(pe).symbols()],
                         [("f", Rank.GLOBAL, (0, 0), 0, True), ("inner", Rank.LOCAL, (0, 0x10), 0, False)])

    def exporting(self, functions, names, first=1):
        pe = self.program(struct.pack("<QQ", BASE + TEXT + 0x10, BASE))
        table = writers.export_directory(MORE, functions, names, first)
        pe.section(".edata", table, RDATA_FLAGS)
        pe.directory(0, MORE, len(table))
        return pe

    def test_exports(self):
        """Two names of one, one without a name, a variable, another library's function, and code without a descriptor."""
        pe = self.exporting([DATA, DATA + 16, DATA + 8, MORE + 50, TEXT, 0],
                            [("one", 0), ("same", 0), ("variable", 2), ("other.dll", 3), ("direct", 4)], first=10)
        self.assertEqual([tuple(symbol) for symbol in read(pe).symbols()], [
            (name, Rank.GLOBAL, (0, at), 0, True)
            for name, at in (("one", 0x20), ("same", 0x20), ("ordinal 11", 0x10), ("direct", 0))])

    def test_words_that_point_into_code(self):
        back = TEXT + 0x30 - (DATA + 16 + 8)
        more = struct.pack("<QqQ", BASE + TEXT + 0x10, back, BASE + TEXT + 0x40)
        for flags, name, places in ((RDATA_FLAGS, ".rdata", (0x20, 0x10, 0x30)), (WRITABLE_FLAGS, ".data", (0x20, 0x10)),
                                    (WRITABLE_FLAGS, ".rodata", (0x20, 0x10, 0x30)), (RDATA_FLAGS, ".xdata", ()),
                                    (RDATA_FLAGS | 0x800, ".rdata", ())):
            pe = writers.Pe()
            pe.section(".text", 4 * NOP)
            pe.section(name, struct.pack("<QQ", BASE + TEXT + 0x20, BASE + DATA) + more + b"rest", flags)
            self.assertEqual(list(read(pe).pointed()), [(0, at) for at in places], name)

    def test_base_relocations(self):
        pe = writers.Pe()
        pe.section(".text", NOP + writers.long_move(BASE + TEXT + 0x20) + writers.long_move(BASE + DATA) + RETURN)
        pe.section(".data", struct.pack("<QQIQ", BASE + TEXT + 0x10, BASE + DATA, BASE + TEXT + 0x30, BASE + TEXT + 0x30),
                   WRITABLE_FLAGS)
        table = base_relocations(TEXT, (9, 0x10), (9, 0x21)) + base_relocations(
            DATA, (10, 0), (10, 8), (3, 16), (10, 20), (10, 28), (0, 0), (1, 0)) + base_relocations(0x9000, (10, 0)) + bytes(8)
        pe.section(".reloc", table + b"more", 0x42000040)
        pe.directory(5, MORE, len(table))
        self.assertEqual([tuple(relocation) for relocation in read(pe).relocations()], [
            ((0, 0x10), False, (0, 0x20), ""), ((1, 0), False, (0, 0x10), ""), ((1, 16), False, (0, 0x30), ""),
            ((1, 20), False, (0, 0x30), "")])

    def test_no_relocations(self):
        self.assertEqual(list(read(self.program()).relocations()), [])


class Objects(Case):
    """What COFF object files have."""

    def one(self):
        pe = writers.Pe(linked=False)
        pe.section(".text", RETURN + NOP + RETURN)
        pe.symbol("f", 1, 0, further=writers.size_of_function(16))
        return pe

    def test_sections_and_symbols(self):
        pe = self.one()
        pe.section(".bss", b"", writers.BSS_FLAGS, memory=64)
        pe.section(".text$a_longer_name", RETURN, address=0x77)
        pe.symbol("static_of_more_bytes", 3, 0, storage=STATIC)
        pe.symbol("weak", 1, 16, storage=writers.WEAK)
        file = read(pe)
        self.assertFalse(file.linked)
        self.assertIsNone(file.entry())
        self.assertEqual([tuple(section) for section in file.sections], [
            (0, ".text", 0, 48, True, True), (1, ".bss", 0, 64, False, False), (2, ".text$a_longer_name", 0, 16, True, True)])
        self.assertEqual([file.content(section) for section in file.sections], [RETURN + NOP + RETURN, b"", RETURN])
        self.assertEqual([tuple(symbol) for symbol in file.symbols()], [
            ("f", Rank.GLOBAL, (0, 0), 16, True), ("static_of_more_bytes", Rank.LOCAL, (2, 0), 0, True),
            ("weak", Rank.WEAK, (0, 16), 0, True)])
        self.assertEqual((list(file.stretches()), list(file.pointed())), ([], []))

    def test_relocations(self):
        """Those of branches, with the slot; of words of data, with what is added in the word; and those that tell nothing."""
        pe = self.one()
        pe.section(".rdata", struct.pack("<qii", 0x10, -0x10, 0), RDATA_FLAGS)
        pe.section(".pdata", bytes(12), RDATA_FLAGS)
        other, section = pe.symbol("memcpy", 0), pe.symbol(".text", 1, 0, **BLANK, storage=STATIC, further=bytes(18))
        pe.relocation(1, 2, 6, other)
        pe.relocation(1, 0x12, 7, section)
        pe.relocation(1, 0x22, 0x16, 0)
        pe.relocation(1, 0x20, 3, section)
        pe.relocation(2, 0, 5, section)
        pe.relocation(2, 8, 0x10, 0)
        pe.relocation(2, 0, 0xB, 0)
        pe.relocation(2, 0, 0, 999)
        pe.relocation(3, 0, 0x10, 0)
        self.assertEqual([tuple(relocation) for relocation in read(pe).relocations()], [
            ((0, 2), True, None, "memcpy"), ((0, 0x12), True, (0, 0), ".text"), ((0, 0x22), True, (0, 0), "f"),
            ((0, 0x20), False, (0, 0), ".text"), ((1, 0), False, (0, 0x10), ".text"), ((1, 8), False, (0, -0x10), "f")])

    def test_more_relocations_than_a_header_counts(self):
        pe = writers.Pe(linked=False)
        pe.section(".text", RETURN, writers.TEXT_FLAGS | 0x1000000)
        pe.symbol("f", 1)
        pe.relocation(1, 3, 0, 0)
        pe.relocation(1, 2, 6, 0)
        pe.relocation(1, 2, 6, 0)
        data = patched(pe.data(), 20 + 32, "<H", 0xFFFF)
        self.assertEqual(len(list(Pe(data).relocations())), 2)

    def test_what_a_program_imports(self):
        """A library has a row for each function of another one, without code."""
        file = Pe(struct.pack("<HHHHIIHH", 0, 0xFFFF, 0, 0x200, 0, 8, 0, 4) + b"f\0a.dll\0")
        self.assertEqual(read_all(file), ([], [], [], [], [], None))

    def test_how_files_begin(self):
        for data, said in ((self.one().data(), True), (writers.Pe().data(), True), (b"\0\0\xff\xff", True), (b"", False),
                           (b"MZ is a text", False), (b"\x7fELF\0\2", False)):
            self.assertEqual(is_pe(data), said, data[:8])


class Refusals(Case):
    """Each way to be refused."""

    HEADER, OPTIONAL, SECTIONS = 0x84, 0x98, 0x98 + 240     # where they are in a linked file of the writer

    def one(self):
        pe = writers.Pe(entry=TEXT)
        pe.section(".text", NOP + RETURN)
        return pe

    def test_other_files(self):
        self.refused(writers.Pe(machine=0x8664), "a PE file for x86-64; only those for IA-64 are read")
        self.refused(writers.Pe(machine=0x7777), "a PE file for machine 0x7777; only those for IA-64 are read")
        self.refused(writers.Pe(linked=False, machine=0x1C4), "a COFF object file for ARM; only those for IA-64 are read")
        self.refused(writers.Pe(magic=0x10B), "its optional header has the magic number 0x10b, and for IA-64 it is 0x20b")
        self.refused(patched(self.one().data(), 0x80, "<H", 0x454E), "a program for DOS, or cut or damaged: it has no PE header")
        imported = struct.pack("<HHHHIIHH", 0, 0xFFFF, 0, 0x14C, 0, 0, 0, 0)
        self.refused(imported, "a COFF object file for 80386; only those for IA-64 are read")
        self.refused(patched(imported, 4, "<H", 2), "a COFF object file with more sections than most, or whose code isn't "
                                                    "generated yet; it isn't read")

    def test_headers(self):
        data = self.one().data()
        self.refused(b"MZ\0", "cut or damaged: the DOS header ends at byte 64, and the file at byte 3")
        self.refused(patched(data, 60, "<I", 0xFFFFFFFF),
                     f"cut or damaged: the PE header ends at byte 4294967299, and the file at byte {len(data)}")
        for size in (0, 111):
            self.refused(patched(data, self.HEADER + 16, "<H", size),
                         f"cut or damaged: its optional header has {size} bytes, and at least 112 are needed")
        self.refused(patched(data, self.HEADER + 16, "<H", 239),
                     "cut or damaged: its optional header has 239 bytes, and 16 directories in it")
        end = self.SECTIONS + 40 * 0xFFFF
        self.refused(patched(data, self.HEADER + 2, "<H", 0xFFFF),
                     f"cut or damaged: the table of section headers ends at byte {end}, and the file at byte {len(data)}")
        self.refused(patched(data, self.SECTIONS + 20, "<I", 5 + len(data)),
                     f"cut or damaged: section 0, .text, ends at byte {len(data) + 37}, and the file at byte {len(data)}")
        Pe(patched(data, self.OPTIONAL + 108, "<I", 0xFFFFFFFF))

    def test_sections_over_one_another(self):
        pe = self.one()
        pe.section(".more", 100 * NOP)
        pe.section(".most", b"")
        data = pe.data()
        data = data[:self.SECTIONS + 80] + data[self.SECTIONS + 40:self.SECTIONS + 80] + data[self.SECTIONS + 120:]
        self.refused(data, "cut or damaged: its sections have more bytes than the file")

    def test_directories(self):
        for number, what in ((3, "the exception directory"), (5, "the table of base relocations")):
            pe = self.one()
            pe.directory(number, TEXT + 16, 17)
            self.refused(pe, f"cut or damaged: {what} is at 0x1010, and no section stores 17 bytes there")

    def test_exports(self):
        no_section = "the table of exports{} is at {:#x}, and no section stores {} bytes there".format
        for form, said in (((1, 9, 0, DATA + 40, 0, 0), no_section("", DATA + 40, 36)),
                           ((1, 1, 1, DATA + 40, 0, 0), no_section("' names", 0, 4)),
                           ((1, 1, 1, DATA + 40, DATA + 44, 0x20000), no_section("' numbers", 0x20000, 2)),
                           ((1, 1, 1, DATA + 40, DATA + 44, DATA + 52), "a name at 0x2000 for export 1, of 1"),
                           ((1, 1, 1, DATA + 40, DATA + 48, DATA + 54), "a name at 0x9000 for export 0, of 1")):
            pe = self.one()
            pe.section(".edata", struct.pack("<16x6I", *form) + struct.pack("<IIIHH", TEXT, DATA, 0x9000, 1, 0), RDATA_FLAGS)
            pe.directory(0, DATA, 40)
            self.refused(pe, f"cut or damaged: {said}")
        pe = self.one()
        pe.section(".edata", bytes(39), RDATA_FLAGS)
        pe.directory(0, DATA, 39)
        self.refused(pe, "cut or damaged: the export directory is at 0x2000, and no section stores 40 bytes there")

    def test_base_relocations(self):
        for table, said in ((struct.pack("<II", 0, 7), "a block of base relocations has 7 bytes, and 8 are left"),
                            (struct.pack("<II", 0, 12), "a block of base relocations has 12 bytes, and 8 are left"),
                            (base_relocations(TEXT, *[(10, 0)] * 999), "it has more base relocations than words")):
            pe = self.one()
            pe.section(".reloc", table, RDATA_FLAGS)
            pe.directory(5, DATA, len(table))
            self.refused(pe, f"cut or damaged: {said}")

    def test_symbols(self):
        pe = self.one()
        pe.symbol("g", 2)
        self.refused(pe, "symbol 0 names section 2, and there are 1")
        pe = self.one()
        pe.symbol("g", 1, further=bytes(36))
        data = pe.data()
        self.refused(patched(data, len(data) - 4 - 3 * 18 + 17, "B", 3),
                     "cut or damaged: symbol 0 has 3 further rows, and the table ends before")
        pe = self.one()
        pe.symbol("a_name_of_more_bytes", 1)
        data = pe.data()
        at = struct.unpack_from("<I", data, self.HEADER + 8)[0]
        self.refused(patched(data, at + 4, "<I", 3), "cut or damaged: the name of symbol 0 is at byte 3 of the table of strings, "
                                                     "which has 25")
        self.refused(patched(data, self.HEADER + 12, "<I", 2 * len(data)),
                     f"cut or damaged: the table of symbols, with the size of that of strings behind it, ends at byte "
                     f"{at + 36 * len(data) + 4}, and the file at byte {len(data)}")

    def test_names_over_one_another(self):
        """Each of many symbols has a long name that begins a byte later."""
        pe = self.one()
        place = pe.string("x" * 1000)
        for number in range(1000):
            pe.symbols.append(struct.pack("<IIIhHBB", 0, place + number, 0, 1, 0x20, 2, 0))
        self.refused(pe, "cut or damaged: its names have more bytes than the file")

    def test_relocations(self):
        for row, said in (((2, 6, 1), "names symbol 1, which is none"), ((2, 6, 9), "names symbol 9, which is none"),
                          ((32, 6, 0), "is at 0x20, and the section has 0x20 bytes"),
                          ((25, 5, 0), "is at 0x19, and the section has 0x20 bytes")):
            pe = writers.Pe(linked=False)
            pe.section(".text", NOP + RETURN)
            pe.symbol("f", 1, further=writers.size_of_function(32))
            pe.relocation(1, *row)
            self.refused(pe, f"relocation 0 of section 0, .text, {said}")
        pe = writers.Pe(linked=False)
        for _ in range(8):
            pe.section(".text", RETURN)
            pe.relocation(len(pe.sections), 0, 0, 0)
        data = pe.data()
        for section in range(8):
            data = patched(data, 20 + 40 * section + 32, "<H", len(data) // 40)
        self.refused(data, "cut or damaged: its relocations have more bytes than the file")

    def test_every_cut(self):
        """A file of which the end is missing is refused, and in no other way."""
        for linked in (True, False):
            pe = writers.Pe(linked, entry=TEXT if linked else 0)
            pe.section(".text", NOP + RETURN)
            pe.symbol("a_name_of_more_bytes", 1)
            pe.relocation(1, 2, 6, 0)
            data = pe.data()
            for length in range(64 if linked else 2, len(data) - 22):
                with self.assertRaises(Fault):
                    read_all(Pe(data[:length]))
            read_all(Pe(data))


@needs_gnu
class Gnu(Case):
    """Files that GNU's tools make of linked ELF programs."""

    SOURCE = """
        .text
        .global f#, start#, long_name_of_a_function#
        .proc f#
f:
{ .mib
        nop.m 0
        nop.i 0
        br.call.sptk.few b0=long_name_of_a_function# ;;
}
        br.ret.sptk.few b0 ;;
        .endp f#
        .proc long_name_of_a_function#
long_name_of_a_function:
        nop.m 1 ;;
.Lrow:  br.ret.sptk.few b0 ;;
        .endp long_name_of_a_function#
        .section .pdata, "a"
        data4 f#, long_name_of_a_function#, 0, long_name_of_a_function#, long_name_of_a_function# + 32, 0
        .section .rodata
        .align 8
        data8 @pcrel(.Lrow)
        .data
        .align 16
start:  data8 f#, @gprel(f#)
"""

    def test_a_program(self):
        with tempfile.TemporaryDirectory() as folder:
            def gnu(tool, *words):
                done = subprocess.run([f"ia64-linux-gnu-{tool}", *words], cwd=folder, capture_output=True, text=True,
                                      check=False)
                self.assertEqual(done.returncode, 0, done.stderr)

            Path(folder, "s.s").write_text(self.SOURCE)
            gnu("as", "-xexplicit", "-o", "s.o", "s.s")
            gnu("ld", "-e", "start", "-Ttext=0x1000", "--section-start=.pdata=0x2000", "--section-start=.rodata=0x3000",
                "-Tdata=0x4000", "-o", "linked", "s.o")
            gnu("objcopy", "-O", "pei-ia64", "linked", "s.exe")
            gnu("objcopy", "-O", "pei-ia64", "-S", "linked", "stripped.exe")
            for name in ("s.exe", "stripped.exe"):
                file = Pe(Path(folder, name).read_bytes())
                sections = {section.name: section for section in file.sections}
                text = sections[".text"].index
                self.assertEqual((sections[".text"].address, sections[".text"].size), (0x1000, 64))
                self.assertEqual(len(file.content(sections[".text"])), 64)
                self.assertEqual(file.entry(), (text, 0))
                self.assertEqual(list(file.stretches()), [Stretch(text, 0, 32), Stretch(text, 32, 64)])
                self.assertEqual(list(file.pointed()), [(text, 0x30), (text, 0)])
                named = {("f", (text, 0), True), ("long_name_of_a_function", (text, 32), True)} if name == "s.exe" else set()
                self.assertEqual({(symbol.name, symbol.location, symbol.is_function) for symbol in file.symbols()}, named)


if __name__ == "__main__":
    unittest.main()
