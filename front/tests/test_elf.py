"""Tries of the reader of ELF files."""

import functools
import shutil
import struct
import subprocess
import tempfile
import unittest
from pathlib import Path

from front.code_file import Rank, Stretch
from front.elf import Elf
from front.faults import Fault
from front.tests import writers
from front.tests.writers import DATA_FLAGS, NOP, READ_ONLY, RETURN

FORMS = [(bits, order) for bits in (64, 32) for order in "<>"]
HAS_GNU = all(shutil.which(f"ia64-linux-gnu-{tool}") for tool in ("as", "ld", "objcopy", "strip"))
needs_gnu = unittest.skipUnless(HAS_GNU, "GNU binutils for ia64 are missing")
TEXT, DATA = 0x4000, 0x6000                            # addresses of linked files


def read(writer):
    return Elf(writer.data())


def by_name(file):
    return {section.name: section for section in file.sections}


def in_each_form(kind=writers.OBJECT, **more):
    """The test with a writer of each class and order."""
    def decorate(test):
        @functools.wraps(test)
        def tries(self):
            for bits, order in FORMS:
                with self.subTest(bits=bits, order=order):
                    test(self, writers.Elf(kind, bits=bits, order=order, **more))
        return tries
    return decorate


class Case(unittest.TestCase):
    def refused(self, file, said):
        """The file is refused with these words, where it's opened or where all that it has is read."""
        data = file if isinstance(file, bytes) else file.data()
        with self.assertRaises(Fault) as caught:
            read_all(Elf(data))
        self.assertEqual(str(caught.exception), said)


def read_all(file):
    return ([file.content(section) for section in file.sections], file.symbols(), list(file.stretches()),
            list(file.relocations()), list(file.pointed()), file.entry())


def header_place(data, number, field=0):
    """Where a section header's field of a 64-bit file stands."""
    return struct.unpack_from("<Q", data, 40)[0] + 64 * number + field


def patched(data, at, form, *numbers):
    broken = bytearray(data)
    struct.pack_into(form, broken, at, *numbers)
    return bytes(broken)


class Objects(Case):
    """What object files have."""

    @in_each_form()
    def test_sections(self, elf):
        elf.section(".text", NOP + RETURN)
        elf.section(".data", bytes(8), DATA_FLAGS)
        elf.section(".bss", b"", DATA_FLAGS, writers.NOBITS, size=0x7FFFFFF0)
        elf.section(".comment", b"x", 0)
        for headers_first in (False, True):
            file = Elf(elf.data(headers_first))
            self.assertFalse(file.linked)
            self.assertIsNone(file.entry())
            text, data, bss, comment = file.sections[1:5]
            self.assertEqual((text.index, text.name, text.address, text.size), (1, ".text", 0, 32))
            self.assertEqual([section.is_code for section in file.sections[:5]], [False, True, False, False, False])
            self.assertEqual([section.is_stored for section in (text, data, bss, comment)], [True, True, False, True])
            self.assertEqual([file.content(section) for section in (text, data, bss, comment)],
                             [NOP + RETURN, bytes(8), b"", b"x"])

    @in_each_form()
    def test_symbols(self, elf):
        text, data = elf.section(".text", 4 * NOP), elf.section(".data", bytes(8), DATA_FLAGS)
        elf.symbol("f", text, 0, 32)
        elf.symbol("weak", text, 0, 32, binding=2)
        elf.symbol("local", text, 32, 16, binding=0)
        elf.symbol("label", text, 48, kind=0)
        elf.symbol("", text, kind=3, binding=0)
        elf.symbol("object", data, 0, 8, kind=1)
        elf.symbol("outside", 0)
        elf.symbol("absolute", 0xFFF1, 5)
        self.assertEqual([tuple(symbol) for symbol in read(elf).symbols()], [
            ("f", Rank.GLOBAL, (text, 0), 32, True), ("weak", Rank.WEAK, (text, 0), 32, True),
            ("local", Rank.LOCAL, (text, 32), 16, True), ("label", Rank.GLOBAL, (text, 48), 0, False)])

    def test_a_name_that_no_terminal_prints(self):
        elf = writers.Elf()
        elf.symbol("a\x1b[1m\u200b\udcff".encode("utf-8", "replace").decode(), elf.section("\n", NOP), 0, 16)
        file = read(elf)
        self.assertEqual((file.sections[1].name, file.symbols()[0].name), ("?", "a?[1m??"))

    @in_each_form()
    def test_relocations(self, elf):
        text, data = elf.section(".text", RETURN + NOP + RETURN), elf.section(".rodata", bytes(16), READ_ONLY)
        unread = [elf.section(name, bytes(8), READ_ONLY) for name in (".gcc_except_table", ".IA_64.unwind.text")]
        first, other = elf.symbol("f", text, 0, 16), elf.symbol("memcpy", 0, kind=0)
        section = elf.symbol("", text, kind=3, binding=0)
        elf.relocation(text, 2, writers.PCREL21B, other)
        elf.relocation(text, 0x12, writers.PCREL21M, first, 16)
        elf.relocation(data, 0, writers.DIR64, section, 0x20)
        elf.relocation(data, 8, writers.DIR64, first, -16)
        elf.relocation(data, 8, 0, first)
        for number in unread:
            elf.relocation(number, 0, writers.DIR64, first)
        self.assertEqual([tuple(relocation) for relocation in read(elf).relocations()], [
            ((text, 2), True, None, "memcpy"), ((text, 0x12), True, (text, 16), "f+0x10"),
            ((data, 0), False, (text, 0x20), ".text+0x20"), ((data, 8), False, (text, -16), "f-0x10")])

    @in_each_form()
    def test_what_linked_files_alone_have(self, elf):
        elf.section(".text", 4 * NOP)
        elf.section(".IA_64.unwind", elf.words(0, 32, 0), READ_ONLY, writers.UNWIND)
        elf.section(".rodata", elf.words(0, 0), READ_ONLY)
        file = read(elf)
        self.assertEqual((list(file.stretches()), list(file.pointed())), ([], []))

    def test_more_sections_than_a_header_counts(self):
        """The count and the number of the names' section stand in the first header, and those of symbols in a table."""
        elf = writers.Elf()
        text = elf.section(".text", NOP)
        elf.symbol("f", 0xFFFF, 0, 16)
        table = len(elf.sections) + 2
        elf.section(".symtab_shndx", struct.pack("<2I", 0, text), 0, writers.SYMTAB_SHNDX, link=table)
        data = elf.data()
        count, names = struct.unpack_from("<2H", data, 60)
        data = patched(data, 60, "<2H", 0, 0xFFFF)
        data = patched(data, header_place(data, 0, 32), "<QI", count, names)
        file = Elf(data)
        self.assertEqual((len(file.sections), file.sections[1].name), (count, ".text"))
        self.assertEqual([symbol.location for symbol in file.symbols()], [(text, 0)])


class Linked(Case):
    """What linked files have."""

    def linked(self, elf):
        text = elf.section(".text", 4 * NOP + 2 * RETURN, address=TEXT)
        elf.segment(0x100, flags=4)
        elf.segment(TEXT)
        elf.segment(DATA, flags=6)
        return text

    @in_each_form(writers.EXECUTABLE, entry=TEXT + 0x20)
    def test_addresses_and_entry(self, elf):
        text = self.linked(elf)
        elf.section(".tbss", b"", DATA_FLAGS | 0x400, writers.NOBITS, address=TEXT, size=0x100)
        elf.symbol("f", text, TEXT + 0x10, 16)
        elf.symbol("before", text, TEXT - 0x10, 16)
        file = read(elf)
        self.assertTrue(file.linked)
        self.assertEqual(file.entry(), (text, 0x20))
        self.assertEqual([symbol.location for symbol in file.symbols()], [(text, 0x10), (text, -0x10)])
        self.assertEqual([file.addresses.location(address) for address in (TEXT, TEXT + 0x5F, TEXT + 0x60, 0)],
                         [(text, 0), (text, 0x5F), None, None])

    @in_each_form(writers.SHARED)
    def test_functions_of_the_table_for_unwinding(self, elf):
        text = self.linked(elf)
        elf.section(".IA_64.unwind", elf.words(0, 0x20, 7, 0x20, 0x40, 7, 0x40, 0x40, 7, 0x2000, 0x2010, 7, 1)[:-1],
                    READ_ONLY, writers.UNWIND, address=DATA)
        self.assertEqual(list(read(elf).stretches()), [Stretch(text, 0, 0x20), Stretch(text, 0x20, 0x40)])

    def test_the_table_for_unwinding_without_segments(self):
        elf = writers.Elf(writers.SHARED)
        text = elf.section(".text", 2 * NOP, address=TEXT)
        elf.section(".IA_64.unwind", elf.words(TEXT + 16, TEXT + 32, 0), READ_ONLY, writers.UNWIND, address=DATA)
        self.assertEqual(list(read(elf).stretches()), [Stretch(text, 16, 32)])

    @in_each_form(writers.EXECUTABLE)
    def test_words_that_point_into_code(self, elf):
        text, width = self.linked(elf), elf.bits // 8
        elf.section(".data", elf.words(0, TEXT + 0x10, 5) + b"x", DATA_FLAGS, address=DATA)
        back = TEXT + 0x20 - (DATA + 0x100 + width)
        elf.section(".rodata", elf.words(TEXT + 0x60, back), READ_ONLY, address=DATA + 0x100)
        elf.section(".data1", elf.words(0, back), DATA_FLAGS, address=DATA + 0x100)
        elf.section(".init_array", elf.words(TEXT + 0x30), DATA_FLAGS, 14, address=DATA + 0x200)
        elf.section(".unaligned", b"xy" + bytes(width - 2) + elf.words(TEXT + 0x40), DATA_FLAGS, address=DATA + 0x300)
        elf.section(".skewed", b"xy" + elf.words(TEXT + 0x50), DATA_FLAGS, address=DATA + 0x400 - 2)
        for name, flags in ((".eh_frame", READ_ONLY), (".comment", 0)):
            elf.section(name, elf.words(TEXT), flags, address=DATA + 0x500)
        self.assertEqual(list(read(elf).pointed()), [(text, at) for at in (0x10, 0x20, 0x30, 0x40, 0x50)])

    @in_each_form(writers.SHARED)
    def test_relocations(self, elf):
        text = self.linked(elf)
        data = elf.section(".data", bytes(32), DATA_FLAGS, address=DATA)
        symbol, thread = elf.symbol("f", text, TEXT + 0x10, 16), elf.symbol("t", text, TEXT, kind=6)
        elf.relocation(0, DATA, writers.DIR64, symbol, 0x10)
        elf.relocation(0, DATA + 8, writers.REL64, 0, TEXT + 0x30)
        elf.relocation(0, DATA + 16, writers.DIR64, thread)
        elf.relocation(0, DATA + 0x1000, writers.DIR64, symbol)
        self.assertEqual([tuple(relocation) for relocation in read(elf).relocations()], [
            ((data, 0), False, (text, 0x20), "f+0x10"), ((data, 8), False, (text, 0x30), ""),
            ((data, 16), False, None, "t")])

    @in_each_form(writers.SHARED, table=writers.DYNSYM)
    def test_the_dynamic_symbols_where_there_are_no_others(self, elf):
        elf.symbol("f", self.linked(elf), TEXT, 16)
        self.assertEqual([symbol.name for symbol in read(elf).symbols()], ["f"])


class Refusals(Case):
    """Each way to be refused."""

    def one(self):
        elf = writers.Elf()
        elf.symbol("f", elf.section(".text", RETURN), 0, 16)
        return elf

    def test_other_files(self):
        for bits, order, said in ((64, "<", "little-endian ELF file of 64"), (32, ">", "big-endian ELF file of 32")):
            self.refused(writers.Elf(bits=bits, order=order, machine=62),
                         f"a {said} bits for x86-64; only those for IA-64 are read")
        self.refused(writers.Elf(machine=999),
                     "a little-endian ELF file of 64 bits for machine 999; only those for IA-64 are read")
        self.refused(writers.Elf(kind=4), "an ELF file of type 4, neither an object file nor linked")
        data = self.one().data()
        self.refused(patched(data, 4, "B", 3), "an ELF file of class 3 and byte order 1, which are none")
        self.refused(patched(data, 5, "B", 0), "an ELF file of class 2 and byte order 0, which are none")

    def test_tables_of_sections(self):
        data = self.one().data()
        for at, form in ((40, "<Q"), (58, "<H")):
            with self.assertRaises(Fault):
                Elf(patched(data, at, form, 0))
        self.refused(patched(data, 62, "<H", 9), "its section names are in section 9, and there are 4")
        self.refused(data[:-1], f"cut or damaged: the table of section headers ends at byte {len(data)}, and the file at byte "
                                f"{len(data) - 1}")
        self.refused(patched(data, header_place(data, 1, 24), "<Q", len(data)),
                     f"cut or damaged: section 1, .text, ends at byte {len(data) + 16}, and the file at byte {len(data)}")

    def test_sections_over_one_another(self):
        elf = writers.Elf()
        elf.section(".text", 100 * RETURN)
        data = bytearray(elf.data())
        data[header_place(data, 2):header_place(data, 3)] = data[header_place(data, 1):header_place(data, 2)]
        self.refused(bytes(data), "cut or damaged: its sections have more bytes than the file")

    def test_symbols_and_relocations(self):
        elf = self.one()
        elf.symbol("g", 44, 0, 16)
        self.refused(elf, "symbol 2 names section 44, and there are 4")
        for what, said in (((1, 2, writers.PCREL21B, 9), "relocation 0 of .rela names symbol 9, and there are 2"),
                           ((1, 16, writers.PCREL21B, 1), "relocation 0 of .rela is at 0x10, and .text has 0x10 bytes"),
                           ((77, 2, writers.PCREL21B, 1), ".rela names section 77, and there are 5")):
            elf = self.one()
            elf.relocation(*what)
            self.refused(elf, said)
        elf = self.one()
        elf.relocation(1, 2, writers.PCREL21B, 1)
        data = elf.data()
        self.refused(patched(data, header_place(data, 4, 4), "<I", writers.REL),
                     ".rela has relocations without addends, which aren't read")
        self.refused(patched(data, header_place(data, 4, 40), "<I", 1), "section 1, .text, is no table of symbols")
        self.refused(patched(data, header_place(data, 4, 32), "<Q", 23), "section 4, .rela, has 23 bytes, no multiple of 24")
        self.refused(patched(data, header_place(data, 3, 32), "<Q", 23), "section 3, , has 23 bytes, no multiple of 24")

    def test_every_cut(self):
        """A file of which the end is missing is refused, and in no other way."""
        for bits, order in FORMS:
            elf = writers.Elf(writers.EXECUTABLE, TEXT, bits, order)
            text = elf.section(".text", NOP + RETURN, address=TEXT)
            elf.section(".IA_64.unwind", elf.words(0, 32, 0), READ_ONLY, writers.UNWIND, address=DATA)
            elf.symbol("f", text, TEXT, 32)
            elf.segment(TEXT)
            for headers_first in (False, True):
                data = elf.data(headers_first)
                for length in range(4, len(data) - 16, 5):
                    with self.assertRaises(Fault):
                        read_all(Elf(data[:length]))
                read_all(Elf(data))


@needs_gnu
class Gnu(Case):
    """Files of the GNU assembler and linker."""

    SOURCE = """
        .text
        .global f#, g#
        .proc f#
f:      .prologue
        .save rp, r31
{ .mib
        nop.m 0
        mov r31=b0
        br.call.sptk.few b0=g# ;;
}
        .body
        br.ret.sptk.few b0 ;;
        .endp f#
        .proc g#
g:      .prologue
        .save rp, r31
        mov r31=b0 ;;
        .body
.Lrow:  br.ret.sptk.few b0 ;;
        .endp g#
        .section .rodata
        .align 8
        data8 @pcrel(.Lrow)
        .data
        data8 .Lrow
"""

    def made(self, *flags):
        folder = tempfile.TemporaryDirectory()
        self.addCleanup(folder.cleanup)
        self.folder = Path(folder.name)
        (self.folder / "s.s").write_text(self.SOURCE)
        self.gnu("as", *flags, "-o", "s.o", "s.s")
        return Elf((self.folder / "s.o").read_bytes())

    def gnu(self, tool, *words):
        done = subprocess.run([f"ia64-linux-gnu-{tool}", *words], cwd=self.folder, capture_output=True, text=True, check=False)
        self.assertEqual(done.returncode, 0, done.stderr)

    def test_objects_of_both_orders(self):
        for flag in ("-mle", "-mbe"):
            file = self.made("-xexplicit", flag)
            text = by_name(file)[".text"]
            self.assertEqual(sorted((symbol.name, symbol.location[1], symbol.is_function) for symbol in file.symbols()),
                             [("f", 0, True), ("g", 0x20, True)])
            self.assertEqual(len(file.content(text)), 64)
            self.assertEqual([(relocation.at[0] == text.index, relocation.is_branch, relocation.to)
                              for relocation in file.relocations()],
                             [(True, True, (text.index, 0x20))] + 2 * [(False, False, (text.index, 0x30))])

    def test_a_stripped_program(self):
        self.made("-xexplicit")
        self.gnu("ld", "-e", "f", "-o", "linked", "s.o")
        for strip in (False, True):
            if strip:
                self.gnu("strip", "linked")
            file = Elf((self.folder / "linked").read_bytes())
            text = by_name(file)[".text"].index
            self.assertEqual({symbol.name for symbol in file.symbols()}, set() if strip else {"f", "g"})
            self.assertEqual(list(file.stretches()), [Stretch(text, 0, 0x20), Stretch(text, 0x20, 0x40)])
            self.assertEqual(file.entry(), (text, 0))
            self.assertEqual(list(file.pointed()), [(text, 0x30)] * 2)


if __name__ == "__main__":
    unittest.main()
