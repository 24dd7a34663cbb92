"""Files of every kind in which code for Itanium stands, told by what stands in them."""

import os
from dataclasses import dataclass, field
from enum import Enum
from typing import List, NamedTuple, Optional

from front import archive, elf, gnu, pe
from front.code_file import CodeFile
from front.faults import Fault, ProgramFault, printable
from front.functions import Function, functions_of
from front.content import opened
from front.isolation import isolate

IMAGES = (b"IA64IMG1", b"IA64IMG2")
# How many bytes the proved program takes.
LONGEST_INPUT = 16_777_216
TOO_LONG_SAID = f"longer than {LONGEST_INPUT:,} bytes, the most that a text or an image may have"


class Kind(Enum):
    CODE = "code"                      # an object file, a linked program or a shared library
    ARCHIVE = "archive"
    IMAGE = "image"                    # of the proved program
    TEXT = "text"                      # of the proved program, or a source for the GNU assembler


@dataclass
class File:
    """A file, or a member of an archive."""
    label: str                                       # what messages call it
    path: str                                        # of the file
    kind: Optional[Kind] = None
    data: bytes = b""
    fault: Optional[str] = None                      # why it can't be read
    code: Optional[CodeFile] = None
    functions: List[Function] = field(default_factory=list)
    reading: str = ""                                # of a source: by which reading it is code


def kind_of(data):
    """What stands in a file, or None in an empty one. What is nothing else is a text: the program says why it is none."""
    if data.startswith(elf.MAGIC) or pe.is_pe(data):
        return Kind.CODE
    if data.startswith(IMAGES):
        return Kind.IMAGE
    if archive.is_archive(data):
        return Kind.ARCHIVE
    return Kind.TEXT if data else None


def read_code(label, path, data, syscalls):
    """A file of code with its functions."""
    try:
        code = elf.Elf(data) if data.startswith(elf.MAGIC) else pe.Pe(data)
        return with_functions(label, path, data, code, syscalls)
    except Fault as fault:
        return File(label, path, Kind.CODE, fault=str(fault))


def with_functions(label, path, data, code, syscalls):
    """A file of code with its functions, their ties cut."""
    functions = functions_of(code)
    isolate(code, functions, syscalls)
    return File(label, path, Kind.CODE, data, None, code, functions)


def read_member(label, path, data, syscalls):
    """What stands in a file or a member of an archive."""
    kind = kind_of(data)
    if kind is Kind.CODE:
        return read_code(label, path, data, syscalls)
    if kind is None:
        return File(label, path, fault="empty")
    if kind is Kind.ARCHIVE:
        return File(label, path, fault="an archive in an archive, which isn't read")
    if len(data) > LONGEST_INPUT:
        return File(label, path, kind, fault=TOO_LONG_SAID)
    return File(label, path, kind, data)


class Item(NamedTuple):
    """The bytes of a file or of a member of an archive, or why they can't be read."""
    path: str                          # of the file
    label: str
    data: bytes
    fault: Optional[str] = None

    def read(self, syscalls=False):
        if self.fault:
            return File(self.label, self.path, fault=self.fault)
        return read_member(self.label, self.path, self.data, syscalls)


def items(path):
    """What a path has: one file, or the members of an archive, one after the other."""
    label = printable(path)
    try:
        with opened(path) as data:
            if not archive.is_archive(data[:len(archive.ARCHIVE)]):
                yield Item(path, label, data[:])
                return
            for name, body in archive.members(path, data):
                name = printable(f"{path}:{name}")
                yield Item(path, name, b"", str(body)) if isinstance(body, Fault) else Item(path, name, body)
    except Fault as fault:
        yield Item(path, label, b"", str(fault))


def assemble(file, path, options, complain, say):
    """The code that the GNU assembler makes of a source. What that says is said, and what there is to complain of is
    complained of."""
    made = read_code(file.label, path, gnu.assembled(path, file.data, options.as_flags, complain, say), options.syscalls)
    made.reading = "the GNU assembler makes it"
    return made


def read_source(file, program, syscalls):
    """The code of a source as it is read without the GNU assembler, or `Unread`."""
    from front import sources  # which takes longer to load than most answers
    read = sources.read(file.data)
    status, printed = program.raw(["build"], read.text)
    if status == 3:
        raise read.refusal(printed.decode("latin-1"))
    if status != 0:
        raise ProgramFault(f"`{program.path} build` ended with status {status}")
    code = sources.SourceCode(read, printed)
    made = with_functions(file.label, file.path, file.data, code, syscalls)
    made.reading = "it is read without the GNU assembler"
    for function in made.functions:
        function.texts = code.texts(function)
    return made


def is_source(path):
    return os.path.splitext(path)[1] in (".s", ".S", ".asm")
