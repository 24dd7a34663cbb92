"""Writers of files for the tests: ELF files of each class and order, PE files, COFF object files, and archives.

They write what they are given, right or wrong, and put the tables round it.
"""

import struct

# ---- Bundles

NOP = bytes.fromhex("01000000010000000002000000000400")              # { .mii nop.m 0; nop.i 0; nop.i 0 ;; }
RETURN = bytes.fromhex("11000000010000000002008000008400")           # { .mib nop.m 0; nop.i 0; br.ret.sptk.few b0 ;; }
BRANCH = bytes.fromhex("11000000010000000002000000000040")           # { .mib nop.m 0; nop.i 0; br.cond.sptk.few . ;; }


def long_move(value):
    """{ .mlx nop.m 0; movl r8=VALUE ;; }"""
    word = 6 << 37 | 8 << 6 | (value >> 63) << 36 | (value >> 7 & 0x1FF) << 27 | (value >> 16 & 31) << 22
    word |= (value >> 21 & 1) << 21 | (value & 0x7F) << 13
    return (5 | 1 << 32 | (value >> 22 & (1 << 41) - 1) << 46 | word << 87).to_bytes(16, "little")


# ---- ELF

OBJECT, EXECUTABLE, SHARED = 1, 2, 3
CODE_FLAGS, DATA_FLAGS, READ_ONLY = 6, 3, 2
PROGBITS, SYMTAB, STRTAB, RELA, NOBITS, REL, DYNSYM, SYMTAB_SHNDX = 1, 2, 3, 4, 8, 9, 11, 18
UNWIND = 0x70000001
PCREL21B, PCREL21M, DIR64, PCREL64, REL64 = 0x49, 0x4A, 0x27, 0x4F, 0x6F


class Elf:
    """A writer of ELF files: the sections, symbols, relocations and segments that it is given, and the tables that hold
    them."""

    def __init__(self, kind=OBJECT, entry=0, bits=64, order="<", machine=50, table=SYMTAB):
        self.kind, self.entry, self.bits, self.order, self.machine, self.table = kind, entry, bits, order, machine, table
        self.sections = [(0, b"", 0, 0, 0, 0, 0, 0)]   # name, content, kind, flags, address, size, link, info
        self.strings = b"\0"
        self.symbols = []
        self.relocations = {}
        self.segments = []

    def packed(self, form, *numbers):
        return struct.pack(self.order + form, *numbers)

    def words(self, *numbers):
        """Words of data of the file's order and width."""
        return self.packed(("Q" if self.bits == 64 else "I") * len(numbers), *(number % (1 << self.bits) for number in numbers))

    def string(self, text):
        self.strings += text.encode() + b"\0"
        return len(self.strings) - len(text.encode()) - 1

    def section(self, name, content, flags=CODE_FLAGS, kind=PROGBITS, address=0, link=0, info=0, size=None):
        """Answers its number."""
        size = len(content) if size is None else size
        self.sections.append((self.string(name), content, kind, flags, address, size, link, info))
        return len(self.sections) - 1

    def symbol(self, name, section, value=0, size=0, kind=2, binding=1):
        """Answers its number."""
        name = self.string(name) if name else 0
        info = binding << 4 | kind
        self.symbols.append(self.packed("IBBHQQ", name, info, 0, section, value, size) if self.bits == 64 else
                            self.packed("IIIBBH", name, value, size, info, 0, section))
        return len(self.symbols)

    def relocation(self, section, offset, kind, symbol, addend=0):
        self.relocations.setdefault(section, []).append(
            self.packed("QQq", offset, symbol << 32 | kind, addend) if self.bits == 64 else
            self.packed("IIi", offset, symbol << 8 | kind, addend))

    def segment(self, address, flags=5, kind=1):
        self.segments.append(self.packed("IIQQQQQQ", kind, flags, 0, address, address, 0, 0, 16) if self.bits == 64 else
                             self.packed("IIIIIIII", kind, 0, address, address, 0, 0, flags, 16))

    def data(self, headers_first=False):
        """The file: its header, the segments, and the sections, with their headers before or behind them."""
        wide = self.bits == 64
        head, header_size, row, symbol = (64, 64, 56, 24) if wide else (52, 40, 32, 16)
        strings, number = len(self.sections), len(self.sections) + 1
        sections = self.sections + [None, (0, bytes(symbol) + b"".join(self.symbols), self.table, 0, 0, None, strings, 0)]
        for section, rows in self.relocations.items():
            sections.append((self.string(".rela"), b"".join(rows), RELA, 0, 0, None, number, section))
        sections[strings] = (0, self.strings, STRTAB, 0, 0, None, 0, 0)
        body, headers, segments = b"", b"", b"".join(self.segments)
        at = head + len(segments) + (header_size * len(sections) if headers_first else 0)
        for name, content, kind, flags, address, size, link, info in sections:
            size = len(content) if size is None else size
            headers += self.packed("IIQQQQIIQQ" if wide else "IIIIIIIIII", name, kind, flags, address, at + len(body), size,
                                   link, info, 16, 0)
            body += content + bytes(-len(content) % 16)
        headers_at = head + len(segments) + (0 if headers_first else len(body))
        header = b"\x7fELF" + bytes((2 if wide else 1, 1 if self.order == "<" else 2, 1)) + bytes(9) + self.packed(
            "HHIQQQIHHHHHH" if wide else "HHIIIIIHHHHHH", self.kind, self.machine, 1, self.entry, head if segments else 0,
            headers_at, 0, head, row if segments else 0, len(self.segments), header_size, len(sections), strings)
        return header + segments + (headers + body if headers_first else body + headers)


# ---- PE and COFF

TEXT_FLAGS, RDATA_FLAGS, WRITABLE_FLAGS, BSS_FLAGS = 0x60000020, 0x40000040, 0xC0000040, 0xC0000080
FUNCTION, EXTERNAL, STATIC, LABEL, WEAK = 0x20, 2, 3, 6, 105           # the type of functions, and storage classes
BASE = 0x400000


class Pe:
    """A writer of PE files, and where `linked` is false of COFF object files. Sections are numbered from 1 on, and their
    addresses count from the image's base on."""

    def __init__(self, linked=True, entry=0, base=BASE, machine=0x200, magic=0x20B):
        self.linked, self.entry, self.base, self.machine, self.magic = linked, entry, base, machine, magic
        self.sections = []                             # name, content, flags, address, memory
        self.symbols = []
        self.relocations = {}
        self.directories = [(0, 0)] * 16
        self.strings = b""

    def string(self, text):
        self.strings += text.encode() + b"\0"
        return 4 + len(self.strings) - len(text.encode()) - 1

    def section(self, name, content, flags=TEXT_FLAGS, address=None, memory=None):
        """Answers its number."""
        if address is None:
            address = 0x1000 * (len(self.sections) + 1) if self.linked else 0
        name = name.encode() if len(name) <= 8 else b"/%d" % self.string(name)
        self.sections.append((name, content, flags, address, len(content) if memory is None else memory))
        return len(self.sections)

    def directory(self, number, address, size):
        self.directories[number] = address, size

    def symbol(self, name, section, value=0, kind=FUNCTION, storage=EXTERNAL, further=b""):
        """Answers its number. Further rows belong to it."""
        field = name.encode() if len(name) <= 8 else struct.pack("<II", 0, self.string(name))
        self.symbols.append(struct.pack("<8sIhHBB", field, value, section, kind, storage, len(further) // 18) + further)
        return sum(map(len, self.symbols)) // 18 - 1 - len(further) // 18

    def relocation(self, section, offset, kind, symbol):
        self.relocations.setdefault(section, []).append(struct.pack("<IIH", offset, symbol, kind))

    def data(self):
        head = b"MZ" + bytes(58) + struct.pack("<I", 0x80) + bytes(64) + b"PE\0\0" if self.linked else b""
        optional = b"" if not self.linked else b"".join([
            struct.pack("<HBBIIIIIQ", self.magic, 8, 0, 0, 0, 0, self.entry, 0, self.base), bytes(76),
            struct.pack("<I", len(self.directories)), *(struct.pack("<II", *row) for row in self.directories)])
        at = len(head) + 20 + len(optional) + 40 * len(self.sections)
        headers = body = b""
        for number, (name, content, flags, address, memory) in enumerate(self.sections, 1):
            rows = b"".join(self.relocations.get(number, []))
            place = at + len(body)
            headers += struct.pack("<8sIIIIIIHHI", name, memory if self.linked else 0, address, len(content) or memory,
                                   place if content else 0, place + len(content) if rows else 0, 0, len(rows) // 10, 0, flags)
            body += content + rows
        symbols = b"".join(self.symbols)
        strings = struct.pack("<I", 4 + len(self.strings)) + self.strings if symbols or self.strings else b""
        header = struct.pack("<HHIIIHH", self.machine, len(self.sections), 0, at + len(body) if strings else 0,
                             len(symbols) // 18, len(optional), 2)
        return head + header + optional + headers + body + symbols + strings


def size_of_function(size):
    """The further row of a function's symbol."""
    return struct.pack("<IIII2x", 0, size, 0, 0)


def export_directory(address, functions, names, first=1):
    """An export directory that stands at this address: addresses, and for each name the index of one."""
    at = address + 40 + 4 * len(functions) + 6 * len(names)
    texts, places = b"", []
    for name, _ in names:
        places.append(at + len(texts))
        texts += name.encode() + b"\0"
    return b"".join([
        struct.pack("<16x6I", first, len(functions), len(names), address + 40, address + 40 + 4 * len(functions),
                    address + 40 + 4 * len(functions) + 4 * len(names)),
        struct.pack(f"<{len(functions)}I", *functions), struct.pack(f"<{len(places)}I", *places),
        struct.pack(f"<{len(names)}H", *(index for _, index in names)), texts])


def base_relocations(page, *rows):
    """A block of base relocations: the kind and the place in the page of each."""
    rows += ((0, 0),) * (len(rows) % 2)
    return struct.pack(f"<II{len(rows)}H", page, 8 + 2 * len(rows), *(kind << 12 | place for kind, place in rows))


# ---- Archives

def head_of_member(name, size):
    return name.ljust(16).encode() + b"0".ljust(32) + str(size).ljust(10).encode() + b"`\n"


def member(name, data):
    return head_of_member(name, len(data)) + data + b"\n" * (len(data) % 2)


def archive(*members):
    return b"!<arch>\n" + b"".join(members)


def thin_archive(*names):
    """A thin archive of files, each by its name in the table of long names."""
    table = "".join(f"{name}/\n" for name in names)
    heads, at = [], 0
    for name in names:
        heads.append(head_of_member(f"/{at}", 1))
        at += len(f"{name}/\n".encode())
    return b"!<thin>\n" + member("//", table.encode()) + b"".join(heads)
