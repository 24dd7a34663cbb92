"""How a run ended, by the state that the program prints, and what data it changed."""

import re
import struct
from bisect import bisect_right
from enum import Enum
from typing import NamedTuple, Optional

from front import elf, gnu
from front.bundle import branches, with_branch
from front.calling.arguments import IN_REGISTERS
from front.calling.image import FRONT, GAP
from front.calling.linking import GLOBAL_POINTER
from front.faults import ProgramFault
from front.ordering.states import lines_of
from front.program import CODE_AT, DATA_AT, Refusal, image


class End(Enum):
    """How a call ends."""
    RETURNED = "returned"
    OUTSIDE = "outside the profile"
    MISSING = "missing"
    ASTRAY = "astray"
    BREAK = "break"
    FAULT = "fault"
    LIMIT = "limit"
    VIOLATED = "violated"


class State:
    """A printed state: how the run ended and where, the registers that aren't 0, and those that are no number, by their names,
    and the data."""

    def __init__(self, text, size):
        rows = lines_of(text)
        found = re.fullmatch(r"(break (0x[0-9a-f]+)|fault (\w+)|limit) at (\d+)\.(\d)", rows.get("end", ""))
        if not found:
            raise ProgramFault(f"a run answered what isn't known here: {text[:100]!r}")
        self.is_limit, self.number, self.fault = found[1] == "limit", int(found[2] or "0", 16), found[3]
        self.place = int(found[4]), int(found[5])
        self.groups, self.frame = int(rows["groups"]), [int(word) for word in rows["frame"].split() if word.isdigit()]
        self.registers, self.nats, data = {}, set(), bytearray(size)
        for name, value in rows.items():
            if name.startswith("m "):
                struct.pack_into("<Q", data, int(name[2:], 16) - DATA_AT, int(value, 16))
            elif re.fullmatch(r"[rb]\d+", name):
                self.registers[name] = int(value.split()[0], 16)
                self.nats.update([name] * value.endswith(" nat"))
        self.data = bytes(data)

    def register(self, name):
        """What a register holds, None where it has no number."""
        return None if name in self.nats else self.registers.get(name, 0)

    @property
    def is_rotated(self):
        return any(self.frame[4:])

    @property
    def outputs(self):
        """The registers of the frame, which are the arguments right behind a call."""
        return [self.register(f"r{32 + at}") for at in range(min(self.frame[1], IN_REGISTERS))]


class Change(NamedTuple):
    """Bytes that a run changed, what they are of, where in that and where in the data; `block` is the argument's number, or
    None."""
    name: str
    offset: int
    start: int
    before: bytes
    after: bytes
    block: Optional[int]
    is_past: bool                      # whether they are behind the end of what they are of
    is_kept: bool = False              # whether they are in a section that a program may only read


# ---- Names -----------------------------------------------------------------------------------------------

class Names:
    """What stands at the addresses of an image."""

    def __init__(self, linked, made):
        self.linked, self.made = linked, made
        self.data_sections = sorted(linked.sections(False), key=lambda header: header.address)
        self.data_starts = [header.address for header in self.data_sections]

    def code(self, bundle):
        """What stands at a bundle, by the name of its function and the offset there."""
        address = CODE_AT + 16 * bundle
        if address in self.linked.missing:
            return self.linked.missing[address]
        symbol = self.linked.symbol_at(address, True)
        if bundle <= self.made.back or symbol is None:
            return "the caller" if bundle <= self.made.back else f"{address:#x}"
        return f"{symbol.name}+{address - symbol.address:#x}"

    def target(self, bundle):
        """The same of a target, without an offset where a function begins there."""
        return re.sub(r"\+0x0$", "", self.code(bundle))

    def data(self, address):
        """What a byte of the data is of, where that begins and ends, and the number of the block where it is one. What is in
        front of a block ends where that begins, and is counted from there."""
        for block in self.made.blocks:
            name = f"argument {block.number}" if block.number else "structure"
            if block.start - FRONT <= address < block.start:
                return f"before {name}", block.start, block.start, None
            if block.start <= address < block.start + block.size + GAP:
                return name, block.start, block.start + block.size, block.number
        if self.made.stack[0] <= address < self.made.stack[1]:
            return "the stack", *self.made.stack, None
        header, symbol = self.section(address), self.linked.symbol_at(address, False)
        if header is None:
            starts = [block.start - FRONT for block in self.made.blocks if block.start > address]
            return "data", DATA_AT, min(starts, default=DATA_AT + len(self.made.data)), None
        end = header.address + header.size
        if symbol is None or symbol.address < header.address or symbol.size and address >= symbol.address + symbol.size:
            return header.name, header.address, self.next_symbol(address, end), None
        return symbol.name, symbol.address, symbol.address + symbol.size if symbol.size else self.next_symbol(address, end), None

    def section(self, address):
        """The section of data that an address is in, or None."""
        at = bisect_right(self.data_starts, address) - 1
        header = self.data_sections[at] if at >= 0 else None
        return header if header and address < header.address + header.size else None

    def is_kept(self, address):
        """Whether an address is in a section that a program may only read."""
        header = self.section(address)
        return header is not None and not header.flags & elf.WRITABLE

    def next_symbol(self, address, end):
        """Where the next symbol of data stands behind an address, but before an end."""
        starts = self.linked.starts[False]
        at = bisect_right(starts, address)
        return min(starts[at], end) if at < len(starts) else end

    def said_address(self, value):
        """What an address is of, or None where it is none."""
        if value is None:
            return None
        if DATA_AT <= value < DATA_AT + len(self.made.data):
            name, start, _, _ = self.data(value)
            function = self.described(value)
            return f"{function}, by its descriptor" if function else name if value == start else f"{name}{value - start:+#x}"
        if value % 16 == 0 and 0 < value - CODE_AT < 16 * len(self.made.bundles):
            name = self.code((value - CODE_AT) // 16)
            return name[:-4] if name.endswith("+0x0") else None
        return None

    def described(self, address):
        """The function whose descriptor stands at an address, or None."""
        at = address - DATA_AT
        if address % 16 or at + 16 > len(self.made.data):
            return None
        code, pointer = struct.unpack_from("<QQ", self.made.data, at)
        is_entry = code % 16 == 0 and (code - CODE_AT) // 16 in self.made.entries
        return self.target((code - CODE_AT) // 16) if is_entry and pointer == GLOBAL_POINTER else None


# ---- Changes ---------------------------------------------------------------------------------------------

def changes(made, after, names):
    """What of the data was changed, but for the stack: neighbours of one thing in one row."""
    found = []
    for start, end in changed_words(made.data, after, made.stack[1] - DATA_AT):
        at = start
        while at < end:
            name, first, last, block = names.data(DATA_AT + at)
            is_past = DATA_AT + at >= last
            stop = min(end, end if is_past else last - DATA_AT)
            row = trimmed(Change(name, DATA_AT + at - first, at, made.data[at:stop], after[at:stop], block, is_past,
                                 names.is_kept(DATA_AT + at)))
            found += [row] * bool(row.before)
            at = stop
    return found


def changed_words(before, after, start):
    """Where words of eight bytes differ, neighbours together."""
    first = None
    for page in range(start - start % 4096, len(before), 4096):
        if first is None and before[page:page + 4096] == after[page:page + 4096]:
            continue
        for at in range(max(page, start), min(page + 4096, len(before)), 8):
            if before[at:at + 8] != after[at:at + 8]:
                first = at if first is None else first
            elif first is not None:
                yield first, at
                first = None
    if first is not None:
        yield first, len(before)


def trimmed(change):
    """The change without the bytes at its ends that are as they were."""
    differ = [at for at, (old, new) in enumerate(zip(change.before, change.after)) if old != new]
    if not differ:
        return change._replace(before=b"", after=b"")
    first, last = differ[0], differ[-1] + 1
    return change._replace(offset=change.offset + first, start=change.start + first,
                           before=change.before[first:last], after=change.after[first:last])


# ---- Texts of instructions -------------------------------------------------------------------------------

def slot_text(program, bundle, slot, away):
    """The text of a slot: as the program lists it, or GNU's disassembler, or its word. `away` says what stands so many bundles
    from it."""
    probe = gnu.probe(bundle, slot)
    targets = dict(branches(bundle))
    for at, _ in branches(probe):
        probe = with_branch(probe, at, 0)
    rows = program.listing(image([(probe.packed(), [])]))
    if not isinstance(rows, Refusal):
        text = rows[0][slot]
        return re.sub(r"L0$", lambda _: away(targets[slot]), text) if slot in targets else text
    text = gnu.slot_texts([(bundle, slot)]).get((bundle, slot))
    if text is None:
        return f"word {bundle.words[2 if bundle.units[slot] == 'l' else slot]:#013x}"
    return text.replace(f"{16 * targets[slot]:+#x}", away(targets[slot]), 1) if slot in targets else text
