"""ELF files for IA-64: object files, linked programs and shared libraries, of 64 and of 32 bits and of both byte orders.

Bundles are little-endian whatever the file's order is. The tables follow the order and the class of the file's header; files
of HP-UX are big-endian, and of 32 bits where their programs are (System V ABI, and its supplement for Itanium).
"""

import struct
from typing import Dict, List, NamedTuple

from front.code_file import TABLE_SECTIONS, Addresses, CodeFile, Rank, Relocation, Section, Stretch, Symbol
from front.faults import Fault
from front.content import part, rows, string, unpacked

MAGIC = b"\x7fELF"
IA64 = 50
MACHINES = {2: "SPARC", 3: "80386", 8: "MIPS", 15: "PA-RISC", 20: "PowerPC", 21: "PowerPC64", 22: "S/390",
            40: "ARM", 43: "SPARC V9", 50: "IA-64", 62: "x86-64", 183: "AArch64", 243: "RISC-V", 258: "LoongArch"}
RELOCATABLE, EXECUTABLE, SHARED = 1, 2, 3          # types of files
UNUSED, PROGBITS, SYMTAB, RELA, NOBITS, REL, DYNSYM, SYMTAB_SHNDX = 0, 1, 2, 4, 8, 9, 11, 18
ARRAYS = (14, 15, 16)                              # of functions to call at start and end
UNWIND = 0x70000001
WRITABLE, ALLOCATED, CODE, THREAD_LOCAL = 1, 2, 4, 0x400
LABEL, FUNCTION, SECTION, THREAD = 0, 2, 3, 6      # types of symbols
LOAD, EXECUTED = 1, 1                              # of segments: the type, and the flag
RANKS = {0: Rank.LOCAL, 1: Rank.GLOBAL, 2: Rank.WEAK}
ESCAPE = 0xFFFF                                    # a number that doesn't fit stands elsewhere
RESERVED = 0xFF00                                  # no section has this number or a higher one

# Relocations of direct branches: PCREL60B, PCREL21B, PCREL21M, PCREL21F, PCREL21BI. Their offset is the bundle's with
# the slot in the low two bits.
BRANCHES = (0x48, 0x49, 0x4A, 0x4B, 0x79)

# The fields of the tables, as format characters of `struct`, for files of 32 and of 64 bits. Those of a symbol come in
# another order in each: `SYMBOL_FIELDS`.
HEADER = {4: "16xH6xIII4xHHHHHH", 8: "16xH6xQQQ4xHHHHHH"}
SECTION_HEADER = {4: "IIIIIIIIII", 8: "IIQQQQIIQQ"}
SYMBOL = {4: "IIIBBH", 8: "IBBHQQ"}
SYMBOL_FIELDS = {4: (0, 3, 5, 1, 2), 8: (0, 1, 3, 4, 5)}     # name, info, section, value, size
RELOCATION = {4: "IIi", 8: "QQq"}
SEGMENT = {4: "I4xI8xII4x", 8: "II8xQ16xQ8x"}          # type, flags, address, size in memory; flags last in 32 bits
WORD = {4: "I", 8: "Q"}


class Header(NamedTuple):
    """A section header, with its number and the section's name."""
    index: int
    name: str
    kind: int
    flags: int
    address: int
    offset: int
    size: int
    link: int
    info: int

    @property
    def is_code(self):
        return self.kind != UNUSED and self.flags & CODE != 0 and self.flags & ALLOCATED != 0

    @property
    def is_stored(self):
        return self.kind not in (UNUSED, NOBITS)

    @property
    def is_read_for_addresses(self):
        """Whether addresses of code in it may say that code is reached: not those of tables for unwinding and
        exceptions, and not those of what isn't loaded."""
        return self.flags & ALLOCATED != 0 and self.kind != UNWIND and not self.name.startswith(TABLE_SECTIONS)

    def section(self):
        return Section(self.index, self.name, self.address, self.size, self.is_code, self.is_stored)


class TableSymbol(NamedTuple):
    """A symbol as a table has it: its value is an address in a linked file, and else an offset in its section."""
    name: str
    kind: int
    rank: Rank
    section: int                       # 0 where it is undefined, or in no section
    value: int
    size: int


class Elf(CodeFile):
    """An ELF file: its sections, and on demand its symbols and relocations. Each offset and size is checked."""

    def __init__(self, data):
        part(data, 0, 16, "the ELF header")
        self.width, self.order = {1: 4, 2: 8}.get(data[4], 0), {1: "<", 2: ">"}.get(data[5], "")
        if not self.width or not self.order:
            raise Fault(f"an ELF file of class {data[4]} and byte order {data[5]}, which are none")
        machine, = unpacked(f"{self.order}18xH", data, 0, "the ELF header")
        if machine != IA64:
            raise Fault(f"{self.said_form()} for {MACHINES.get(machine, f'machine {machine}')}; only those for IA-64 are read")
        self.data = data
        kind, self.start, self.segments_at, headers_at, *sizes = self.unpacked(HEADER, 0, "the ELF header")
        _, self.segment_size, self.segment_count, header_size, count, names = sizes
        if kind not in (RELOCATABLE, EXECUTABLE, SHARED):
            raise Fault(f"an ELF file of type {kind}, neither an object file nor linked")
        if headers_at == 0:
            raise Fault("it has no section headers")
        if header_size != self.row(SECTION_HEADER).size:
            raise Fault(f"cut or damaged: its section headers have {header_size} bytes each, no {self.row(SECTION_HEADER).size}")
        self.linked, self.word = kind != RELOCATABLE, self.row(WORD)
        self.headers = self.read_headers(headers_at, count, names)
        if sum(header.size for header in self.headers if header.is_stored) > len(data):
            raise Fault("cut or damaged: its sections have more bytes than the file")
        self.sections = [header.section() for header in self.headers]
        self.addresses = Addresses([header for header in self.headers
                                    if header.flags & ALLOCATED and not header.flags & THREAD_LOCAL])
        self.tables: Dict[int, List[TableSymbol]] = {}
        self.strings: Dict[int, bytes] = {}
        self.further = {header.link: header for header in reversed(self.headers) if header.kind == SYMTAB_SHNDX}

    def said_form(self):
        return f"a {'little' if self.order == '<' else 'big'}-endian ELF file of {8 * self.width} bits"

    def row(self, forms):
        """The struct of a table's rows in this file."""
        return struct.Struct(self.order + forms[self.width])

    def unpacked(self, forms, start, what):
        return unpacked(self.order + forms[self.width], self.data, start, what)

    def read_headers(self, at, count, names):
        row = self.row(SECTION_HEADER)
        first = row.unpack(part(self.data, at, row.size, "the first section header"))
        count, names = count or first[5], first[6] if names == ESCAPE else names
        found = list(row.iter_unpack(part(self.data, at, row.size * count, "the table of section headers")))
        if names >= count:
            raise Fault(f"its section names are in section {names}, and there are {count}")
        table = part(self.data, found[names][4], found[names][5], "the table of section names") if names else b""
        return [Header(index, string(table, fields[0]), *fields[1:8]) for index, fields in enumerate(found)]

    def header(self, index, what):
        if index >= len(self.headers):
            raise Fault(f"{what} names section {index}, and there are {len(self.headers)}")
        return self.headers[index]

    def content(self, section):
        header = self.headers[section.index]
        return part(self.data, header.offset, header.size, f"section {header.index}, {header.name},") if header.is_stored else b""

    def table_rows(self, header, forms):
        return rows(self.row(forms), self.content(header), f"section {header.index}, {header.name},")

    # ---- Symbols

    def symbol_table(self, index):
        """The symbols of a table, the section with this number: name, type, rank, section, value and size of each."""
        if index not in self.tables:
            header = self.header(index, "a section")
            if header.kind not in (SYMTAB, DYNSYM):
                raise Fault(f"section {index}, {header.name}, is no table of symbols")
            names = self.string_table(self.header(header.link, header.name))
            further = self.further_numbers(index)
            self.tables[index] = [self.table_symbol(number, fields, names, further)
                                  for number, fields in enumerate(self.table_rows(header, SYMBOL))]
        return self.tables[index]

    def string_table(self, header):
        """A section's bytes, taken out once for all tables of symbols that name it."""
        if header.index not in self.strings:
            self.strings[header.index] = self.content(header)
        return self.strings[header.index]

    def further_numbers(self, index):
        """The numbers of sections that don't fit into a table of symbols."""
        content = self.content(self.further[index]) if index in self.further else b""
        return [number for number, in struct.iter_unpack(f"{self.order}I", content[:len(content) & ~3])]

    def table_symbol(self, number, fields, names, further):
        name, info, section, value, size = (fields[at] for at in SYMBOL_FIELDS[self.width])
        if section == ESCAPE and number < len(further):
            section = further[number]
        elif section >= RESERVED:
            section = 0
        home = self.header(section, f"symbol {number}")
        kind = info & 15
        return TableSymbol(home.name if kind == SECTION else string(names, name), kind, RANKS.get(info >> 4, Rank.GLOBAL),
                           section, value, size)

    def symbols(self):
        """Those in code of the ordinary table of symbols, and where there is none of the dynamic one."""
        for kind in (SYMTAB, DYNSYM):
            for header in self.headers:
                if header.kind == kind:
                    return [self.symbol(symbol) for symbol in self.symbol_table(header.index)
                            if symbol.kind in (LABEL, FUNCTION) and self.headers[symbol.section].is_code]
        return []

    def symbol(self, symbol):
        start = self.headers[symbol.section].address if self.linked else 0
        return Symbol(symbol.name, symbol.rank, (symbol.section, symbol.value - start), symbol.size, symbol.kind == FUNCTION)

    # ---- What points into code

    def relocations(self):
        """Those of all sections whose addresses are read."""
        for header in self.headers:
            if header.kind not in (RELA, REL):
                continue
            home = self.header(header.info, header.name)
            if not self.linked and not home.is_read_for_addresses:
                continue
            if header.kind == REL:
                raise Fault(f"{header.name} has relocations without addends, which aren't read")
            symbols = self.symbol_table(header.link) if header.link else []
            for number, fields in enumerate(self.table_rows(header, RELOCATION)):
                found = self.relocation(f"relocation {number} of {header.name}", home, symbols, fields)
                if found:
                    yield found

    def relocation(self, what, home, symbols, fields):
        offset, info, addend = fields
        at = self.addresses.location(offset) if self.linked else (home.index, offset)
        number, kind = (info >> 32, info & 0xFFFFFFFF) if self.width == 8 else (info >> 8, info & 0xFF)
        if number and number >= len(symbols):
            raise Fault(f"{what} names symbol {number}, and there are {len(symbols)}")
        if not self.linked and offset >= home.size:
            raise Fault(f"{what} is at {offset:#x}, and {home.name} has {home.size:#x} bytes")
        if at is None or kind == 0 or not self.headers[at[0]].is_read_for_addresses:
            return None
        symbol = symbols[number] if number else None
        name = symbol.name + (f"{addend:+#x}" if addend else "") if symbol and symbol.name else ""
        return Relocation(at, kind in BRANCHES, self.location(symbol, addend), name)

    def location(self, symbol, addend):
        """Where a symbol and an addend are, or in a linked file an addend alone, or None."""
        if symbol is None:
            return self.addresses.location(addend & (1 << 8 * self.width) - 1) if self.linked else None
        if symbol.section == 0 or symbol.kind == THREAD:
            return None
        if self.linked:
            return self.addresses.location(symbol.value + addend & (1 << 8 * self.width) - 1)
        return symbol.section, symbol.value + addend

    def pointing(self):
        return [(header.section(), not header.flags & WRITABLE) for header in self.headers
                if header.kind in (PROGBITS, *ARRAYS) and not header.is_code and header.is_read_for_addresses]

    def entry(self):
        return self.addresses.location(self.start) if self.linked else None

    def stretches(self):
        """A table for unwinding has three words a function: its start, its end, and where more is told of it, each from
        the start of its segment on. It stays in a linked file whose symbols are stripped."""
        if not self.linked:
            return
        segments = self.code_segments()
        for header in self.headers:
            if header.kind == UNWIND:
                base = self.base_of(header, segments)
                content = self.content(header)
                row = struct.Struct(f"{self.order}3{WORD[self.width]}")
                for start, end, _ in row.iter_unpack(content[:len(content) - len(content) % row.size]):
                    location = self.addresses.location(base + start)
                    if location and self.headers[location[0]].is_code and start < end:
                        yield Stretch(*location, location[1] + end - start)

    def base_of(self, table, segments):
        """The start of the segment that a table for unwinding counts from: that of the code that it is of, which it names as
        its link, or else the first one with code."""
        code = self.headers[table.link] if table.link < len(self.headers) else table
        below = [start for start, end in segments if code.is_code and start <= code.address < end]
        return below[0] if below else segments[0][0] if segments else 0

    def code_segments(self):
        """The first and the last address of each segment with code."""
        row = self.row(SEGMENT)
        if self.segment_count and self.segment_size != row.size:
            raise Fault(f"cut or damaged: its program headers have {self.segment_size} bytes each, no {row.size}")
        table = part(self.data, self.segments_at, row.size * self.segment_count, "the table of segments")
        found = []
        for kind, *fields in row.iter_unpack(table):
            flags, address, size = fields if self.width == 8 else (fields[2], fields[0], fields[1])
            if kind == LOAD and flags & EXECUTED:
                found.append((address, address + size))
        return found
