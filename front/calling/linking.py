"""Object files, linked by GNU's linker at the addresses of an image.

The linker is asked for the relocations too (`--emit-relocs`): they tell what code is reached by its address. What is missing
gets an address in the code, one bundle each, at which a run ends. What is missing and weak has the address 0, as in a program,
and such a bundle behind the code, to which its branches are led.
"""

import os
import re
import subprocess
import tempfile
from bisect import bisect_right
from contextlib import contextmanager
from pathlib import Path
from typing import NamedTuple, Optional

from front import archive, elf, gnu
from front.code_file import Rank
from front.content import read_file
from front.faults import Fault, printable
from front.files import Kind, is_source, kind_of
from front.functions import MOST_BUNDLES, no_function
from front.program import CODE_AT, DATA_AT

# How many bytes of code and of data an image has room for.
CODE_BYTES, DATA_BYTES = 16 * MOST_BUNDLES, 1 << 20
# How many bundles the caller has room for, where those of missing names begin, and the global pointer.
CALLER_BUNDLES, GLOBAL_POINTER = 16, 0x180000
STUBS_AT = CODE_AT + 16 * CALLER_BUNDLES

# How many names may be missing, how many seconds the linker may take, and how many lines of it are said.
MOST_MISSING, SECONDS, LINES = 8192, 120, 10

SCRIPT = """\
__gp = {gp:#x};
{missing}
SECTIONS {{
  . = {code:#x};
  .text : {{ *(.text .text.* .gnu.linkonce.t.*) }}
  . = {data:#x};
  .rodata : {{ *(.rodata .rodata.* .gnu.linkonce.r.*) }}
  .data : {{ *(.data .data.* .gnu.linkonce.d.*) }}
  .got : {{ *(.got.plt) *(.got) }}
  .opd : {{ *(.opd) }}
  .srodata : {{ *(.srodata .srodata.* .sdata2 .sdata2.* .gnu.linkonce.s2.*) }}
  .sdata : {{ *(.sdata .sdata.* .gnu.linkonce.s.*) }}
  .sbss : {{ *(.sbss .sbss.* .gnu.linkonce.sb.*) *(.scommon) }}
  .bss : {{ *(.dynbss) *(.bss .bss.* .gnu.linkonce.b.*) *(COMMON) }}
  /DISCARD/ : {{ *(.IA_64.unwind* .gnu.linkonce.ia64unw* .eh_frame .gcc_except_table* .note* .comment) }}
}}
"""


# ---- What is given ---------------------------------------------------------------------------------------

class Given(NamedTuple):
    """A file that is to be linked: what messages call it, its bytes, and where the linker finds it, an archive in its place."""
    label: str
    data: bytes
    path: Optional[str] = None


def given(path, flags, complain, say):
    """A file that is to be linked: an object file, an archive, or what the GNU assembler makes of a source."""
    label, data = printable(path), read_file(path)
    if archive.is_archive(data):
        return Given(label, data, os.path.abspath(path))
    kind = kind_of(data)
    if kind is Kind.IMAGE:
        raise Fault("an image, which has no names of functions: `ia64 run` runs it")
    if kind is None or kind is Kind.TEXT and path != "-" and not is_source(path):
        raise Fault("neither an object file for Itanium, nor an archive, nor a source (.s)" if data else "empty")
    if kind is Kind.TEXT:
        try:
            data = gnu.assembled(path, data, flags, complain, say)
        except gnu.NotAssembled as none:
            say("\n".join(none.lines))
            raise
    return Given(label, object_file(data))


def object_file(data):
    """The bytes of an object file that can be linked here."""
    if not data.startswith(elf.MAGIC):
        raise Fault("a PE file, and only ELF object files are linked")
    file = elf.Elf(data)
    if file.linked:
        raise Fault("a linked file, whose addresses can't be moved: give the object files, or the archive, that it was linked of")
    if file.width != 8 or file.order != "<":
        raise Fault(f"{file.said_form()}, and only little-endian ones of 64 bits are linked")
    return data


def chosen(file, function):
    """The files to link so that a function of a file is there: the file itself; of an archive the member with the function, and
    the archive, from which the linker takes what that needs. Also whether the function's name is a local one."""
    if file.path is None:
        return [file], local_name(functions_of(file.data), function)
    names = {}
    for name, data in archive.members(file.path, file.data):
        label = printable(f"{file.label}:{name}")
        if isinstance(data, Fault) or not data.startswith(elf.MAGIC):
            continue
        found = functions_of(object_file(data))
        if function in found:
            return [Given(label, data), file], found[function]
        names.update(found)
    return [], local_name(names, function)


def functions_of(data):
    """The names of the functions of an object file, and of its labels in code, and whether each is a local one."""
    found, labels = {}, {}
    for symbol in elf.Elf(data).symbols():
        names = found if symbol.is_function else labels
        names[symbol.name] = names.get(symbol.name, True) and symbol.rank is Rank.LOCAL
    labels.update(found)
    return {name: is_local for name, is_local in labels.items() if name and (name in found or not name.startswith((".L", "$")))}


def local_name(functions, wanted):
    """Whether the name of a function is a local one."""
    if wanted in functions:
        return functions[wanted]
    raise Fault(no_function(wanted, functions))


# ---- Linking ---------------------------------------------------------------------------------------------

class Symbol(NamedTuple):
    """A symbol of the linked file."""
    address: int
    size: int
    name: str
    rank: Rank
    is_code: bool
    is_named: bool                     # whether it is one of a function or a variable, and no label


class Linked:
    """The linked file, and the names that nothing defines, by the addresses of their bundles; `start` is where the linked code
    begins, `stop` where the bundles of the missing weak names do, and `code_end` where these end."""

    def __init__(self, data, missing):
        self.data, self.elf, self.start = data, elf.Elf(data), STUBS_AT + 16 * len(missing)
        self.stop = self.end(True, self.start) + 15 & ~15
        calls = list(self.weak_branches())
        weak = {name: self.stop + 16 * number for number, name in enumerate(sorted({name for _, name in calls}))}
        self.missing = {**missing, **{address: name for name, address in weak.items()}}
        self.code_end = self.stop + 16 * len(weak)
        self.led = {place: weak[name] for place, name in calls}           # branches to missing weak names, and to where
        self.symbols = list(symbols_of(self.elf))
        self.rows = {is_code: by_address(symbol for symbol in self.symbols if symbol.is_code is is_code)
                     for is_code in (False, True)}
        self.starts = {is_code: [symbol.address for symbol in rows] for is_code, rows in self.rows.items()}

    def sections(self, is_code):
        """The sections with code, or with data, that a program has in memory."""
        return [header for header in self.elf.headers if header.flags & elf.ALLOCATED and header.size
                and bool(header.flags & elf.CODE) is is_code]

    def end(self, is_code, start):
        """The address behind the last section with code, or with data."""
        return max((header.address + header.size for header in self.sections(is_code)), default=start)

    def symbol_at(self, address, is_code):
        """The symbol of code, or of data, at an address or the last one before it, or None."""
        at = bisect_right(self.starts[is_code], address) - 1
        return self.rows[is_code][at] if at >= 0 else None

    def function(self, name, is_local):
        """The address of the function of this name: of several local ones, that of the file linked first."""
        found = [symbol for symbol in self.symbols if symbol.name == name and symbol.is_code]
        wanted = [symbol for symbol in found if (symbol.rank is Rank.LOCAL) is is_local]
        return (wanted or found)[0].address if found else None

    def relocations(self):
        """The relocations of what is in memory: where each stands, its kind, the symbol, and what is added to that."""
        for header in self.elf.headers:
            if header.kind != elf.RELA or not self.elf.header(header.info, header.name).flags & elf.ALLOCATED:
                continue
            symbols = self.elf.symbol_table(header.link)
            for offset, info, addend in self.elf.table_rows(header, elf.RELOCATION):
                number, kind = info >> 32, info & 0xFFFFFFFF
                if kind and number < len(symbols):
                    yield offset, kind, symbols[number], addend

    def references(self):
        """What relocations name but those of branches: the address where each stands, and the address that it names."""
        return ((at, symbol.value + addend) for at, kind, symbol, addend in self.relocations() if kind not in elf.BRANCHES)

    def weak_branches(self):
        """The branches to weak names that nothing defines: the address of the bundle, the slot, and the name."""
        for at, kind, symbol, _ in self.relocations():
            if kind in elf.BRANCHES and symbol.section == 0 and symbol.rank is Rank.WEAK:
                yield (at & ~15, at & 15), symbol.name


def symbols_of(file):
    """The symbols of a linked file that stand in memory, in the order of its table."""
    for header in file.headers:
        if header.kind == elf.SYMTAB:
            for symbol in file.symbol_table(header.index):
                home = file.header(symbol.section, f"the symbol {symbol.name}")
                if symbol.name and symbol.kind in (elf.LABEL, OBJECT, elf.FUNCTION) and home.flags & elf.ALLOCATED:
                    is_code = bool(home.flags & elf.CODE)
                    yield Symbol(symbol.value, symbol.size, symbol.name, symbol.rank, is_code, symbol.kind != elf.LABEL)


# The type of a symbol of a variable.
OBJECT = 1


def by_address(symbols):
    """Symbols by their addresses, one for each: one of a function or a variable before a label, a global one before others."""
    rows = {}
    for symbol in symbols:
        if symbol.name.startswith((".L", "$")):
            continue
        known = rows.get(symbol.address)
        if known is None or (not symbol.is_named, symbol.rank) < (not known.is_named, known.rank):
            rows[symbol.address] = symbol
    return [rows[address] for address in sorted(rows)]


def link(files, stack):
    """The files, linked: the data begin behind so many bytes of stack. What is missing is put in at a second try."""
    tool = gnu.installed("ld")
    if tool is None:
        raise Fault("GNU ld for ia64 isn't installed, which links what is called (Debian's package binutils-ia64-linux-gnu)")
    with tempfile.TemporaryDirectory() as folder, placed(files, Path(folder)) as (paths, labels):
        status, said = linked(tool, paths, folder, [], stack)
        missing = sorted(set(UNDEFINED.findall(said))) if status > 0 else []
        if len(missing) > MOST_MISSING:
            raise Fault(f"{len(missing)} names that nothing defines, and there may be {MOST_MISSING}")
        if any('"' in name for name in missing):
            raise Fault("nothing defines a name that has a quote in it, which can't be put in")
        if missing:
            status, said = linked(tool, paths, folder, missing, stack)
        if status < 0:
            raise Fault(f"GNU ld ended with signal {-status}")
        if status:
            raise Fault(f"GNU ld refuses it: {said_by_linker(said, folder, labels)}")
        data = read_file(os.path.join(folder, "linked"))
    file = Linked(data, {STUBS_AT + 16 * number: name for number, name in enumerate(missing)})
    fits(file, stack)
    return file


# How the linker says that nothing defines a name.
UNDEFINED = re.compile(r"undefined reference to `([^'\n]+)'")


@contextmanager
def placed(files, folder):
    """The paths that the linker gets for files, and what messages call them."""
    paths, labels = [], {}
    for number, file in enumerate(files):
        path = file.path or str(folder / f"{number}.o")
        if file.path is None:
            Path(path).write_bytes(file.data)
        labels[path] = file.label
        paths.append(path)
    yield paths, labels


def linked(tool, paths, folder, missing, stack):
    """The status of a call of the linker, and what it says."""
    script, to = os.path.join(folder, "script"), os.path.join(folder, "linked")
    rows = "\n".join(f'"{name}" = {STUBS_AT + 16 * number:#x};' for number, name in enumerate(missing))
    Path(script).write_text(SCRIPT.format(gp=GLOBAL_POINTER, missing=rows, code=STUBS_AT + 16 * len(missing),
                                          data=DATA_AT + stack))
    words = [tool, "-static", "--emit-relocs", "--no-relax", "--no-demangle", "-e", "0", "-T", script, "-o", to,
             "--start-group", *paths, "--end-group"]
    try:
        done = subprocess.run(words, stdin=subprocess.DEVNULL, stdout=subprocess.PIPE, stderr=subprocess.STDOUT, timeout=SECONDS,
                              env={**os.environ, "LC_ALL": "C"}, preexec_fn=gnu.limit_memory, check=False)
    except subprocess.TimeoutExpired:
        raise Fault(f"GNU ld came to no end in {SECONDS} seconds") from None
    return done.returncode, done.stdout.decode("utf-8", "replace")


def said_by_linker(said, folder, labels):
    """The lines of the linker, with the files by their names."""
    for path, label in labels.items():
        said = said.replace(path, label)
    lines = [printable(re.sub(r"^\S*ld: ", "", line)) for line in said.replace(folder, "").splitlines() if line.strip()]
    return "\n  ".join(lines[:LINES]) or "without a word"


def fits(file, stack):
    """Whether an image has room for the code and the data that were linked."""
    code, data = file.code_end - CODE_AT, file.end(False, DATA_AT) - DATA_AT
    if code > CODE_BYTES or any(header.address < CODE_AT for header in file.sections(True)):
        raise Fault(f"{code // 16:,} bundles of code with the caller, and an image has room for {CODE_BYTES // 16:,}")
    if data > DATA_BYTES:
        raise Fault(f"{data - stack:,} bytes of data and {stack:,} of stack (--stack), and an image has room for {DATA_BYTES:,}")
    if any(header.address < DATA_AT + stack for header in file.sections(False)):
        raise Fault("the linker put data among the code")
