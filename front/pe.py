"""PE files for IA-64, as Windows and EFI have them: programs, libraries and drivers; and COFF object files.

In a linked file the entry point and the exports are no code but descriptors of functions, two words in data: the address of the
code, and the global pointer (Microsoft's description of PE and COFF). Addresses in the tables count from the image's base on;
the words that the loader may move, those of descriptors among them, are whole addresses.
"""

import struct
from typing import Dict, List, NamedTuple, Optional

from front.bundle import split
from front.code_file import WORD64, Addresses, CodeFile, Rank, Relocation, Section, Stretch, Symbol
from front.faults import Fault
from front.content import part, string, unpacked

LINKED, OBJECT, ANONYMOUS = b"MZ", b"\x00\x02", b"\0\0\xff\xff"       # how files begin
IA64 = 0x200
MACHINES = {0x14C: "80386", 0x166: "MIPS", 0x184: "Alpha", 0x1A2: "SH-3", 0x1C0: "ARM", 0x1C4: "ARM", 0x1F0: "PowerPC",
            0x200: "IA-64", 0x284: "64-bit Alpha", 0xEBC: "EFI byte code", 0x5064: "RISC-V", 0x6264: "LoongArch",
            0x8664: "x86-64", 0xAA64: "AArch64"}
PE32_PLUS = 0x20B
EXPORTS, EXCEPTIONS, BASE_RELOCATIONS = 0, 3, 5                        # data directories
DIRECTORIES = 16                                                       # so many are known

CODE, UNINITIALIZED, INFO, REMOVED = 0x20, 0x80, 0x200, 0x800          # of sections
MANY_RELOCATIONS, EXECUTED, WRITABLE = 0x1000000, 0x20000000, 0x80000000
ESCAPE = 0xFFFF                                                        # a number that doesn't fit stands elsewhere
READ_ONLY = (".rodata", ".rdata")                                      # which objcopy makes writable
UNREAD = (".pdata", ".xdata", ".reloc", ".rsrc", ".debug", ".drectve", ".IA_64.un")

EXTERNAL, STATIC, LABEL, WEAK = 2, 3, 6, 105                           # storage classes of symbols
RANKS = {EXTERNAL: Rank.GLOBAL, WEAK: Rank.WEAK}

# Relocations of object files. Those of direct branches: PCREL21B, PCREL21M, PCREL21F, PCREL60X, PCREL60B, PCREL60F, PCREL60I,
# PCREL60M. Their address is the bundle's with the slot in the low two bits. In a word of data stands what is added.
BRANCHES = (6, 7, 8, 0x15, 0x16, 0x17, 0x18, 0x19)
ADDENDS = {4: "<i", 5: "<q", 0x10: "<i", 0x13: "<i", 0x14: "<i"}       # DIR32, DIR64, DIR32NB, SREL32, UREL32
NO_ADDRESSES = (0, 0xB, 0xE, 0x1B, 0x1F)                               # ABSOLUTE, SECTION, SECREL32, TOKEN, ADDEND

PADDING, HALF, LONG_MOVE, WORD = 0, 3, 9, 10                           # base relocations

HEADER = "<HHIIIHH"
OPTIONAL_HEADER = "<H14xI4xQ76xI"
SECTION_HEADER = struct.Struct("<8sIIIIIIHHI")
SYMBOL = struct.Struct("<8sIhHBB")
RELOCATION = struct.Struct("<IIH")
EXPORT_DIRECTORY = struct.Struct("<16x6I")
STRETCH = struct.Struct("<3I")


def is_pe(data):
    """Whether a file begins as PE files and COFF object files for IA-64 do. That of a text with these letters has no zeros."""
    return data.startswith((LINKED, OBJECT, ANONYMOUS)) and b"\0" in data[:64]


class Header(NamedTuple):
    """A section header, with its number, from 0 on, and the section's name."""
    index: int
    name: str
    address: int                       # in a linked file, from the image's base on
    size: int
    offset: int
    relocations_at: int
    relocation_count: int
    flags: int
    is_stored: bool

    @property
    def is_code(self):
        return self.flags & (CODE | EXECUTED) != 0

    @property
    def is_read_for_addresses(self):
        """Whether addresses of code in it may say that code is reached: not those of tables for unwinding, and not those of
        what isn't loaded."""
        return self.flags & (INFO | REMOVED) == 0 and not self.name.startswith(UNREAD)

    @property
    def is_only_read(self):
        return self.flags & WRITABLE == 0 or self.name.startswith(READ_ONLY)


class TableSymbol(NamedTuple):
    """A symbol as the table has it."""
    name: str
    storage: int
    section: Optional[int]             # None where it is undefined, or in no section
    value: int
    size: int
    is_function: bool
    is_section: bool


class Pe(CodeFile):
    """A PE file or a COFF object file: its sections, and on demand its symbols and relocations. Each offset and size is
    checked."""

    def __init__(self, data):
        self.data, self.linked = data, data.startswith(LINKED)
        at = self.find_header() if self.linked else 0
        machine, count, self.symbols_at, self.symbol_count, more = self.read_header(at)
        if machine != IA64:
            raise Fault(f"a {'PE' if self.linked else 'COFF object'} file for "
                        f"{MACHINES.get(machine, f'machine {machine:#x}')}; only those for IA-64 are read")
        at += struct.calcsize(HEADER)
        self.start, self.base, self.directories = self.read_optional_header(at, more) if self.linked else (0, 0, [])
        self.names: Dict[int, str] = {}
        self.name_bytes = 0
        self.symbol_table: Optional[List[Optional[TableSymbol]]] = None
        self.strings_at = self.symbols_at + SYMBOL.size * self.symbol_count
        self.strings_size = self.read_strings_size()
        table = part(data, at + more, SECTION_HEADER.size * count, "the table of section headers")
        self.headers = [self.read_section(index, fields) for index, fields in enumerate(SECTION_HEADER.iter_unpack(table))]
        if sum(header.size for header in self.headers if header.is_stored) > len(data):
            raise Fault("cut or damaged: its sections have more bytes than the file")
        self.sections = [Section(header.index, header.name, self.base + header.address & WORD64, header.size, header.is_code,
                                 header.is_stored) for header in self.headers]
        self.addresses = Addresses(self.sections)

    def find_header(self):
        """The place of the COFF header, which stands behind a program for DOS."""
        at, = unpacked("<60xI", self.data, 0, "the DOS header")
        if part(self.data, at, 4, "the PE header") != b"PE\0\0":
            raise Fault("a program for DOS, or cut or damaged: it has no PE header")
        return at + 4

    def read_header(self, at):
        """The machine, how many sections there are, the place and the number of the symbols, and the size of the optional
        header. A library has such files without sections too, which name what a program imports."""
        if self.data.startswith(ANONYMOUS):
            version, machine = unpacked("<4xHH", self.data, at, "the COFF header")
            if version:
                raise Fault("a COFF object file with more sections than most, or whose code isn't generated yet; it isn't read")
            return machine, 0, 0, 0, 0
        machine, count, _, symbols_at, symbol_count, more, _ = unpacked(HEADER, self.data, at, "the COFF header")
        return machine, count, symbols_at, symbol_count, more

    def read_optional_header(self, at, size):
        """The address of the entry point, the image's base, and the directories: the address and the size of each."""
        least = struct.calcsize(OPTIONAL_HEADER)
        if size < least:
            raise Fault(f"cut or damaged: its optional header has {size} bytes, and at least {least} are needed")
        magic, start, base, count = unpacked(OPTIONAL_HEADER, self.data, at, "the optional header")
        if magic != PE32_PLUS:
            raise Fault(f"its optional header has the magic number {magic:#x}, and for IA-64 it is {PE32_PLUS:#x}")
        if size < least + 8 * min(count, DIRECTORIES):
            raise Fault(f"cut or damaged: its optional header has {size} bytes, and {count} directories in it")
        table = part(self.data, at + least, 8 * min(count, DIRECTORIES), "the table of directories")
        return start, base, list(struct.iter_unpack("<II", table))

    def read_strings_size(self):
        """The size of the table of strings, which stands behind the symbols where the file has one."""
        if self.symbols_at == 0 or self.strings_at == len(self.data):
            return 0
        size, = unpacked("<I", self.data, self.strings_at, "the table of symbols, with the size of that of strings behind it,")
        return size

    def read_section(self, index, fields):
        name, memory, address, stored, offset, relocations_at, _, relocation_count, _, flags = fields
        is_stored = offset > 0 and stored > 0 and (self.linked or flags & UNINITIALIZED == 0)
        size = stored
        if self.linked and memory > 0:
            size = min(memory, stored) if is_stored else memory
        return Header(index, self.section_name(index, name), address if self.linked else 0, size, offset, relocations_at,
                      relocation_count, flags, is_stored)

    # ---- Names and locations

    def section_name(self, index, name):
        """A name of more than eight bytes stands in the table of strings, where there is one."""
        start = name.rstrip(b"\0")[1:]
        if name.startswith(b"/") and start.isdigit() and self.strings_size:
            return self.table_string(int(start), f"the name of section {index}")
        return string(name, 0)

    def table_string(self, start, what):
        if not 4 <= start < self.strings_size:
            raise Fault(f"cut or damaged: {what} is at byte {start} of the table of strings, which has {self.strings_size}")
        return self.string(self.strings_at + start, what)

    def string(self, at, what):
        """The string that begins at a byte of the file. Each is read once: where they lie over one another, there would be
        more of them than of the file."""
        if at not in self.names:
            part(self.data, at, 1, what)
            self.names[at] = string(self.data, at)
            self.name_bytes += len(self.names[at])
            if self.name_bytes > len(self.data):
                raise Fault("cut or damaged: its names have more bytes than the file")
        return self.names[at]

    def content(self, section):
        header = self.headers[section.index]
        what = f"section {header.index}, {header.name},"
        return part(self.data, header.offset, header.size, what) if header.is_stored else b""

    def stored_at(self, address, size):
        """The byte of the file where what is at an address begins, or None where not so many bytes of it are stored."""
        location = self.addresses.location(self.base + address)
        header = self.headers[location[0]] if location else None
        if header is None or not header.is_stored or location[1] + size > header.size:
            return None
        at = header.offset + location[1]
        return at if at + size <= len(self.data) else None

    def stored(self, address, size, what):
        """The bytes at an address."""
        at = self.stored_at(address, size)
        if at is None:
            raise Fault(f"cut or damaged: {what} is at {address:#x}, and no section stores {size} bytes there")
        return self.data[at:at + size]

    def directory(self, number, what):
        address, size = self.directories[number] if number < len(self.directories) else (0, 0)
        return self.stored(address, size, what) if address and size else b""

    def code_at(self, address):
        """The location that has this whole address, where it is in code, or None."""
        location = self.addresses.location(address)
        return location if location and self.headers[location[0]].is_code else None

    def function_at(self, address):
        """The code of a function that is told by its descriptor there, or None. Where no descriptor is there, but code, as
        other linkers than Microsoft's have it, it is that."""
        at = self.stored_at(address, 16)
        code = self.code_at(*struct.unpack_from("<Q", self.data, at)) if at is not None else None
        return code if code and code[1] % 16 == 0 else self.code_at(self.base + address)

    # ---- Symbols

    def read_symbols(self):
        """The symbols of the table, and None for the rows that tell more of the symbol before them."""
        if self.symbol_table is None:
            size = SYMBOL.size * self.symbol_count if self.symbols_at else 0
            table, found = part(self.data, self.symbols_at, size, "the table of symbols"), []
            while len(found) < size // SYMBOL.size:
                at = SYMBOL.size * len(found)
                fields = SYMBOL.unpack_from(table, at)
                further = table[at + SYMBOL.size:at + SYMBOL.size * (1 + fields[-1])]
                if len(further) < SYMBOL.size * fields[-1]:
                    raise Fault(f"cut or damaged: symbol {len(found)} has {fields[-1]} further rows, and the table ends before")
                found += [self.read_symbol(len(found), fields, further)] + [None] * fields[-1]
            self.symbol_table = found
        return self.symbol_table

    def read_symbol(self, number, fields, further):
        """A section's symbol has a row that tells of the section, and a function's one with the size of its code."""
        field, value, section, kind, storage, _ = fields
        if section > len(self.headers):
            raise Fault(f"symbol {number} names section {section}, and there are {len(self.headers)}")
        zeros, start = struct.unpack("<II", field)
        name = self.table_string(start, f"the name of symbol {number}") if zeros == 0 and start else string(field, 0)
        is_function = kind >> 4 & 3 == 2
        size = struct.unpack_from("<4xI", further)[0] if is_function and further and section > 0 else 0
        return TableSymbol(name, storage, section - 1 if section > 0 else None, value, size, is_function,
                           storage == STATIC and bool(further) and not is_function)

    def symbols(self):
        """Those of the table in code, and the exports. Where the table tells no types, as that of a file which was an ELF file
        once, the global ones are of functions."""
        found = [symbol for symbol in self.read_symbols()
                 if symbol and symbol.storage in (EXTERNAL, STATIC, LABEL, WEAK) and not symbol.is_section
                 and symbol.section is not None and self.headers[symbol.section].is_code]
        # Those that a linker sets at a section's end, as `__bss_start`, are none of code.
        found = [symbol for symbol in found if symbol.is_function or symbol.value < self.headers[symbol.section].size]
        typed = any(symbol.is_function for symbol in found)
        return [Symbol(symbol.name, RANKS.get(symbol.storage, Rank.LOCAL), (symbol.section, symbol.value), symbol.size,
                       symbol.is_function if typed else symbol.storage == EXTERNAL) for symbol in found] + self.exports()

    def exports(self):
        """The functions that other files may call. Each has a number, and none, one or more names. What an address in the
        directory itself points to is the name of another library's function."""
        start, size = self.directories[EXPORTS] if self.directories else (0, 0)
        if not start or not size:
            return []
        head = self.stored(start, EXPORT_DIRECTORY.size, "the export directory")
        first, count, name_count, addresses, names, numbers = EXPORT_DIRECTORY.unpack(head)
        table, found = self.stored(addresses, 4 * count, "the table of exports") if count else b"", []
        named = self.names_of_exports(count, name_count, names, numbers) if name_count else {}
        for index, (address,) in enumerate(struct.iter_unpack("<I", table)):
            location = None if start <= address < start + size else self.function_at(address)
            if location:
                found += [Symbol(name, Rank.GLOBAL, location, 0, True)
                          for name in named.get(index, [f"ordinal {first + index}"])]
        return found

    def names_of_exports(self, count, name_count, names, numbers):
        """The names of each export that has some: a table has their addresses, and another one the exports' indices."""
        table = self.stored(names, 4 * name_count, "the table of exports' names")
        indices = self.stored(numbers, 2 * name_count, "the table of exports' numbers")
        named: Dict[int, List[str]] = {}
        for (address,), (index,) in zip(struct.iter_unpack("<I", table), struct.iter_unpack("<H", indices)):
            at = self.stored_at(address, 1)
            if index >= count or at is None:
                raise Fault(f"cut or damaged: a name at {address:#x} for export {index}, of {count}")
            named.setdefault(index, []).append(self.string(at, "an export's name"))
        return named

    def stretches(self):
        """A table for unwinding has three addresses a function: its start, its end, and where more is told of it."""
        table = self.directory(EXCEPTIONS, "the exception directory") if self.linked else b""
        for start, end, _ in STRETCH.iter_unpack(table[:len(table) - len(table) % STRETCH.size]):
            location = self.code_at(self.base + start)
            if location and start < end:
                yield Stretch(*location, location[1] + end - start)

    def entry(self):
        return self.function_at(self.start) if self.linked and self.start else None

    # ---- What points into code

    def relocations(self):
        return self.base_relocations() if self.linked else self.object_relocations()

    def base_relocations(self):
        """The words that the loader moves, those with addresses of code: a table has a block for each page, and in it the kind
        of each word and its place in the page. No two words of a file are one over another."""
        table, at, most = self.directory(BASE_RELOCATIONS, "the table of base relocations"), 0, len(self.data) // 4
        while at < len(table):
            page, size = unpacked("<II", table, at, "a block of base relocations")
            if size == 0:
                return
            if size < 8 or size % 2 or size > len(table) - at:
                raise Fault(f"cut or damaged: a block of base relocations has {size} bytes, and {len(table) - at} are left")
            for row, in struct.iter_unpack("<H", table[at + 8:at + size]):
                most -= row >> 12 != PADDING
                if most < 0:
                    raise Fault("cut or damaged: it has more base relocations than words")
                found = self.base_relocation(row >> 12, page + (row & 0xFFF))
                if found:
                    yield found
            at += size

    def base_relocation(self, kind, address):
        if kind == LONG_MOVE:
            address &= ~15
        at = self.stored_at(address, {HALF: 4, WORD: 8, LONG_MOVE: 16}.get(kind, len(self.data) + 1))
        if at is None:
            return None
        if kind == LONG_MOVE:
            word = long_immediate(split(self.data[at:at + 16]))
        else:
            word, = struct.unpack_from("<Q" if kind == WORD else "<I", self.data, at)
        to = self.code_at(word)
        return Relocation(self.addresses.location(self.base + address), False, to, "") if to else None

    def object_relocations(self):
        """Those of all sections whose addresses are read."""
        tables = [(header, *self.relocation_table(header)) for header in self.headers if header.relocation_count]
        if sum(RELOCATION.size * count for _, _, count in tables) > len(self.data):
            raise Fault("cut or damaged: its relocations have more bytes than the file")
        for header, at, count in tables:
            if header.is_read_for_addresses:
                table = part(self.data, at, RELOCATION.size * count, f"the table of relocations of section {header.index}")
                for number, fields in enumerate(RELOCATION.iter_unpack(table)):
                    found = self.relocation(f"relocation {number} of section {header.index}, {header.name},", header, fields)
                    if found:
                        yield found

    def relocation_table(self, header):
        """The place and the number of a section's relocations. Where they are too many for the header, the first one tells how
        many there are, itself among them."""
        at, count = header.relocations_at, header.relocation_count
        if header.flags & MANY_RELOCATIONS and count == ESCAPE:
            count = max(unpacked("<I", self.data, at, "the number of relocations")[0], 1) - 1
            at += RELOCATION.size
        return at, count

    def relocation(self, what, header, fields):
        offset, number, kind = fields
        if kind in NO_ADDRESSES:
            return None
        symbols = self.read_symbols()
        symbol = symbols[number] if number < len(symbols) else None
        if symbol is None:
            raise Fault(f"{what} names symbol {number}, which is none")
        form = ADDENDS.get(kind)
        if offset + (struct.calcsize(form) if form else 1) > header.size or not header.is_stored:
            raise Fault(f"{what} is at {offset:#x}, and the section has {header.size:#x} bytes")
        addend = unpacked(form, self.data, header.offset + offset, what)[0] if form else 0
        to = (symbol.section, symbol.value + addend) if symbol.section is not None else None
        return Relocation((header.index, offset), kind in BRANCHES, to, symbol.name)

    def pointing(self):
        return [(section, header.is_only_read) for header, section in zip(self.headers, self.sections)
                if not header.is_code and header.is_read_for_addresses]


def long_immediate(bundle):
    """The number that a `movl` moves."""
    word = bundle.words[2]
    low = (word >> 21 & 1) << 21 | (word >> 22 & 31) << 16 | (word >> 27 & 0x1FF) << 7 | word >> 13 & 0x7F
    return (word >> 36 & 1) << 63 | bundle.words[1] << 22 | low
