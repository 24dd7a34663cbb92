"""Parts of a file's bytes, each looked for within the file; and files as a whole, read and written."""

import contextlib
import os
import stat
import struct
import sys
from pathlib import Path

from front.faults import Fault, printable

# So many bytes of a name are read, and no more.
LONGEST_NAME = 1000

# So many bytes are read of what is no regular file, as a pipe.
MOST_STREAMED = 1 << 28


def part(data, start, size, what):
    """A part of a file's bytes."""
    if start + size > len(data):
        raise Fault(f"cut or damaged: {what} ends at byte {start + size}, and the file at byte {len(data)}")
    return data[start:start + size]


def rows(row, data, what):
    """A table's rows of this struct."""
    if len(data) % row.size:
        raise Fault(f"{what} has {len(data)} bytes, no multiple of {row.size}")
    return row.iter_unpack(data)


def unpacked(form, data, start, what):
    """The numbers of a struct that begins there."""
    return struct.unpack(form, part(data, start, struct.calcsize(form), what))


def string(table, start):
    """The string of a table that begins there, without bytes that a terminal wouldn't print."""
    end = table.find(b"\0", start, start + LONGEST_NAME)
    return printable(table[start:end if end >= 0 else start + LONGEST_NAME].decode("utf-8", "replace"))


class Stored:
    """The bytes of a regular file, of which each part is read when it is wanted."""

    def __init__(self, file):
        self.file, self.size = file, os.fstat(file.fileno()).st_size

    def __len__(self):
        return self.size

    def __getitem__(self, wanted):
        start, stop, _ = wanted.indices(self.size)
        self.file.seek(start)
        data = self.file.read(max(stop - start, 0))
        if len(data) < stop - start:
            raise Fault("it was cut while it was read")
        return data


@contextlib.contextmanager
def opened(path):
    """The bytes of a file, read when they are wanted where it is a regular one; `-` is standard input."""
    with refusing():
        if path == "-" and sys.stdin is None:
            raise Fault("standard input is closed")
        file = sys.stdin.buffer if path == "-" else open(path, "rb")
        with contextlib.nullcontext() if path == "-" else file:
            is_regular = path != "-" and stat.S_ISREG(os.fstat(file.fileno()).st_mode)
            yield Stored(file) if is_regular else read_stream(file)


def read_stream(file):
    """The bytes of what is no regular file, to its end."""
    data = file.read(MOST_STREAMED + 1)
    if len(data) > MOST_STREAMED:
        raise Fault(f"more than {MOST_STREAMED:,} bytes, and it is no regular file")
    return data


@contextlib.contextmanager
def refusing():
    """What the system refuses is a fault of the file."""
    try:
        yield
    except (OSError, ValueError) as fault:
        raise Fault(getattr(fault, "strerror", None) or str(fault)) from None


def read_file(path):
    """All bytes of a file; `-` is standard input."""
    with opened(path) as data:
        return data[:]


def write_file(path, data):
    """Puts bytes into a file."""
    try:
        Path(path).write_bytes(data)
    except OSError as fault:
        raise Fault(f"it can't be written: {fault.strerror}", printable(path)) from None
