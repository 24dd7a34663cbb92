"""Archives of object files, as `ar` makes them, thin ones too (System V ABI, and the forms of GNU and BSD)."""

import os
import re
import stat

from front.faults import Fault
from front.content import LONGEST_NAME, part, read_file

ARCHIVE, THIN_ARCHIVE = b"!<arch>\n", b"!<thin>\n"
SYMBOL_TABLES = (b"/", b"/SYM64/", b"__.SYMDEF", b"__.SYMDEF SORTED", b"__.SYMDEF_64")
HEAD = 60


def is_archive(data):
    return data.startswith((ARCHIVE, THIN_ARCHIVE))


def members(path, data):
    """The names and the bytes of an archive's members, in order. Where a thin archive's member can't be read, its
    Fault stands in place of the bytes."""
    thin, long_names, at = data[:len(THIN_ARCHIVE)] == THIN_ARCHIVE, b"", len(ARCHIVE)
    while at < len(data):
        head = part(data, at, HEAD, f"the head of the member at byte {at}")
        name, size = head[:16].rstrip(b" "), head[48:58].strip()
        if head[58:] != b"`\n" or not size.isdigit():
            raise Fault(f"cut or damaged: no head of a member at byte {at}")
        stored = not thin or name in SYMBOL_TABLES or name == b"//"
        body = part(data, at + HEAD, int(size) if stored else 0, f"the member at byte {at}")
        at += HEAD + len(body) + len(body) % 2
        if name.startswith(b"#1/") and name[3:].isdigit():
            length = int(name[3:])
            name, body = body[:length].rstrip(b"\0"), body[length:]
        if name == b"//":
            long_names = body
        elif name not in SYMBOL_TABLES:
            name = member_name(name, long_names)
            yield name, body if stored else thin_member(path, name)


def member_name(name, long_names):
    """A name of at most 15 bytes stands in the head, a longer one in the table of long names, where a line ends it, or in
    libraries of Windows a zero."""
    if name[1:].isdigit() and name.startswith(b"/"):
        start = int(name[1:])
        name = re.split(b"[\n\0]", long_names[start:start + LONGEST_NAME], 1)[0]
    return os.fsdecode(name[:-1] if name.endswith(b"/") else name)


def thin_member(path, name):
    """The file of a member, which is neither a device, which might have no end, nor the archive itself."""
    member = os.path.join(os.path.dirname(path), name)
    try:
        if not stat.S_ISREG(os.stat(member).st_mode):
            raise Fault("no regular file")
        if os.path.exists(path) and os.path.samefile(path, member):
            raise Fault("the archive itself")
        return read_file(member)
    except Fault as fault:
        return fault
    except (OSError, ValueError) as fault:
        return Fault(getattr(fault, "strerror", None) or str(fault))
