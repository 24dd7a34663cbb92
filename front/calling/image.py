"""One image of a linked file, with a caller in front: its code, its data, and what has to be declared.

- **Code.** Bundle 0 begins the caller; behind it stand a bundle for each missing name, and then the linked code. Bundles that
  no walk from the caller reaches are left out, so that a fault in what isn't called refuses nothing. Walks follow branches, what
  relocations of the code on a walk name, and what relocations of data name.
- **Entries.** Code whose address a relocation names, but for branches, is declared, as a function whose address is taken and
  the cases of a `switch`. What stands behind a call is an entry anyway.
- **Data.** First the stack, so that one that is too small ends below the data and with a fault; then the linked data; then what
  arguments point to.
- **Breaks.** In the place of what the program doesn't take stands a `break` with a number of its own: under the predicate that
  stood there, so that a run passes it where the instruction would do nothing, and under none where it does something in any case.
  So does one stand in what is left out, for each missing name, and for a branch that leads out of the code.
"""

import struct
from dataclasses import dataclass, field
from enum import Enum
from typing import Dict, List, NamedTuple, Optional, Tuple

from front.bundle import NOPS, Bundle, branches, split_all, with_branch
from front.calling.arguments import IN_REGISTERS
from front.calling.hints import without_hint
from front.calling.linking import DATA_BYTES, GLOBAL_POINTER, STUBS_AT
from front.faults import Fault, ProgramFault, printable
from front.flow import turns_of
from front.functions import MOST_ENTRIES
from front.program import CODE_AT, DATA_AT, refusal_of
from front.stand_ins import Effect, rows_of

# Bytes at the top of the stack that a called function may use, and behind and in front of what each argument points to.
SCRATCH, GAP, FRONT = 16, 16, 64
# How many slots that no table knows the program is asked about, one after the other.
MOST_UNKNOWN = 1000


class Stop(Enum):
    """Why a run ends at a break that was put in."""
    OUTSIDE = "outside"                # an instruction outside the profile
    MISSING = "missing"                # a name that nothing defines
    ASTRAY = "astray"                  # a branch that leads out of the code


class Stopped(NamedTuple):
    """A slot in whose place a break stands: what stood there, and of a missing name that."""
    why: Stop
    bundle: Optional[Bundle] = None
    name: str = ""


class Refused(Fault):
    """The program refuses the image, for another reason than an instruction."""


class Block(NamedTuple):
    """Bytes that an argument points to, or that a structure is put into; that has the number 0."""
    number: int
    start: int
    size: int


@dataclass
class Cut:
    """What is cut out, and what was put in its place."""
    bundles: List[Bundle]
    entries: List[int]
    data: bytes
    back: int                                                    # the bundle to which the function comes back
    stack: Tuple[int, int]                                       # where the stack begins and ends
    blocks: List[Block]
    stops: Dict[Tuple[int, int], Stopped] = field(default_factory=dict)

    def image(self):
        head = struct.pack(f"<4I{len(self.entries)}I", len(self.bundles), len(self.entries), len(self.data), 0, *self.entries)
        return b"".join([b"IA64IMG2", head, *(bundle.packed() for bundle in self.bundles), self.data])

    def put_break(self, index, slot, stopped, always=False):
        """Puts a break into a slot: under the predicate that stands there, or always."""
        bundle = self.bundles[index]
        number = len(self.stops) + 1
        if not bundle.units:
            self.bundles[index] = with_break(number)
            slot = 0
        elif bundle.units[slot] == "l":
            guard = 0 if always else bundle.words[2] & 63
            self.bundles[index] = bundle.with_word(1, 0).with_word(2, break_word(number, guard))
        else:
            self.bundles[index] = bundle.with_word(slot, break_word(number, 0 if always else bundle.words[slot] & 63))
        self.stops[index, slot] = stopped._replace(bundle=bundle)


def break_word(number, guard=0):
    """A `break`, which has the same fields in each unit."""
    return (number & 0xFFFFF) << 6 | (number >> 20 & 1) << 36 | guard


def with_break(number):
    """A bundle of a break, two nops and a stop."""
    return Bundle(0x01, (break_word(number), NOPS["i"], NOPS["i"]))


# ---- The caller ------------------------------------------------------------------------------------------

def caller(numbers, stack_pointer, structure):
    """The text of the caller: it sets the stack pointer, the global pointer, the arguments that are in registers, and r8 where a
    structure is put into memory; it calls, and ends. The call leads to its own end until the function is put in."""
    moves = [(12, stack_pointer), (1, GLOBAL_POINTER), *enumerate(numbers, 33)] + [(8, structure)] * (structure is not None)
    return "".join([f"{{ .mii\nalloc r32=ar.pfs,0,1,{IN_REGISTERS},0\nnop.i 0\nnop.i 0 ;;\n}}\n",
                    *(f"{{ .mlx\nnop.m 0\nmovl r{register}={number:#x}\n}}\n" for register, number in moves),
                    "{ .mib\nnop.m 0\nnop.i 0\nbr.call.sptk.many b0=back ;;\n}\n",
                    "back:\n{ .mii\nbreak.m 0\nnop.i 0\nnop.i 0 ;;\n}\n"])


def caller_bundles(program, text, function):
    """The bundles of the caller, as the program builds them, with the function as what it calls."""
    status, built = program.raw(["build"], text.encode())
    if status:
        raise ProgramFault(f"`{program.path} build` refuses the caller: {built[:100]!r}")
    bundles = split_all(built[24:])
    call = len(bundles) - 2
    bundles[call] = with_branch(bundles[call], 2, (function - CODE_AT) // 16 - call)
    return bundles


# ---- Data ------------------------------------------------------------------------------------------------

class Layout:
    """The data of an image: the stack, the linked data, and behind them what arguments point to."""

    def __init__(self, linked, stack):
        self.linked, self.stack = linked, stack
        self.data = bytearray(linked.end(False, DATA_AT + stack) - DATA_AT)
        self.blocks: List[Block] = []
        self.descriptors: Dict[int, int] = {}                    # of functions, by the addresses of these
        for header in linked.sections(False):
            content = linked.elf.content(header)
            self.data[header.address - DATA_AT:header.address - DATA_AT + len(content)] = content

    def put(self, content):
        """The address of bytes that are put behind the data, at a multiple of 16."""
        self.data += bytes(-len(self.data) % 16)
        self.data += content
        return DATA_AT + len(self.data) - len(content)

    def block(self, number, content):
        """The address of what an argument points to, with zeros in front of it and behind it."""
        self.data += bytes(-len(self.data) % 16 + FRONT)
        self.blocks.append(Block(number, self.put(content), len(content)))
        self.data += bytes(GAP)
        return self.blocks[-1].start

    def value(self, number, argument):
        """What is passed for an argument."""
        if argument.content is not None:
            return self.block(number, argument.content)
        return argument.number if argument.symbol is None else self.address(argument.symbol)

    def address(self, name):
        """The address of a variable, or of the descriptor of a function: that of the linked code, or one that is made here."""
        found = sorted((symbol for symbol in self.linked.symbols if symbol.name == name), key=lambda symbol: symbol.rank)
        if not found:
            raise Fault(f"&{printable(name)}: nothing that was linked has this name")
        if not found[0].is_code:
            return found[0].address
        function = found[0].address
        if function % 16 or not STUBS_AT <= function < self.linked.end(True, CODE_AT):
            raise Fault(f"&{printable(name)}: at no bundle of what was linked")
        if function not in self.descriptors:
            made = struct.pack("<QQ", function, GLOBAL_POINTER)
            self.descriptors[function] = self.linked_descriptor(made) or self.put(made)
        return self.descriptors[function]

    def linked_descriptor(self, descriptor):
        """The address of the first descriptor with these bytes among the linked ones, or None. Code that compares the addresses
        of functions finds the one that is passed equal to its own."""
        for header in self.linked.sections(False):
            if header.name == ".opd":
                for at in range(-(-header.address // 16) * 16, header.address + header.size - 15, 16):
                    if self.data[at - DATA_AT:at - DATA_AT + 16] == descriptor:
                        return at
        return None

    def push(self, values):
        """The stack pointer, with values in the slots above the scratch area."""
        top = DATA_AT + self.stack - (SCRATCH + 8 * len(values) + 15 & ~15)
        if top - SCRATCH < DATA_AT:
            raise Fault(f"a stack of {self.stack} bytes has no room for the arguments")
        struct.pack_into(f"<{len(values)}Q", self.data, top + SCRATCH - DATA_AT, *values)
        return top

    def finished(self):
        self.data += bytes(-len(self.data) % 8)
        if len(self.data) > DATA_BYTES:
            raise Fault(f"{len(self.data) - self.stack:,} bytes of data and arguments and {self.stack:,} of stack (--stack), and "
                        f"an image has room for {DATA_BYTES:,}")
        return bytes(self.data)


# ---- Cutting ---------------------------------------------------------------------------------------------

def cut(program, linked, function, arguments, stack, structure, skip_hints=False):
    """The image of a call: of the function at an address, with these arguments, on a stack of so many bytes, that may answer
    a structure of so many; with hints left out where that is wanted."""
    layout = Layout(linked, stack)
    values = [layout.value(number, argument) for number, argument in enumerate(arguments, 1)]
    into = layout.block(0, bytes(structure)) if structure > IN_RESULTS else None
    text = caller(values[:IN_REGISTERS], layout.push(values[IN_REGISTERS:]), into)
    first = caller_bundles(program, text, function)
    made = Cut(all_bundles(linked, first), [], layout.finished(), len(first) - 1, (DATA_AT, DATA_AT + stack), layout.blocks)
    reached, entries = walk(made.bundles, linked, layout.descriptors)
    if len(entries) > MOST_ENTRIES:
        raise Fault(f"{len(entries)} places in the code whose addresses are used, and an image has room for {MOST_ENTRIES}")
    made.entries = sorted(entries)
    for address, name in linked.missing.items():
        made.put_break((address - CODE_AT) // 16, 0, Stopped(Stop.MISSING, name=name))
    for index in range((linked.start - CODE_AT) // 16, (linked.stop - CODE_AT) // 16):
        if reached[index]:
            put_breaks(made, index, skip_hints)
        else:
            made.bundles[index] = LEFT_OUT
    return made


# A structure of at most so many bytes is answered in r8 to r11.
IN_RESULTS = 32
# What stands where no walk comes.
LEFT_OUT = Bundle(0x01, (break_word(0), NOPS["i"], NOPS["i"]))


def all_bundles(linked, first):
    """The caller's bundles, room for missing names, and the linked code at its place, with its branches to weak names that
    are missing led to the bundles of these."""
    code = bytearray((linked.code_end - CODE_AT) // 16 * LEFT_OUT.packed())
    for at, bundle in enumerate(first):
        code[16 * at:16 * at + 16] = bundle.packed()
    for header in linked.sections(True):
        content = linked.elf.content(header)
        code[header.address - CODE_AT:header.address - CODE_AT + len(content)] = content
    bundles = split_all(code)
    for (address, slot), target in linked.led.items():
        index = (address - CODE_AT) // 16
        if slot in dict(branches(bundles[index])):
            bundles[index] = with_branch(bundles[index], slot, (target - address) // 16)
    return bundles


def walk(bundles, linked, functions):
    """Which bundles a walk from the caller reaches, and those of them whose addresses are used."""
    count, reached = len(bundles), [False] * len(bundles)
    named = named_code(linked, count)
    entries = {*named.pop(None, ()), *((address - CODE_AT) // 16 for address in functions)}
    waiting = [0, *entries]
    while waiting:
        index = waiting.pop()
        if 0 <= index < count and not reached[index]:
            reached[index] = True
            entries.update(named.get(index, ()))
            waiting += [*named.get(index, ()), *ways_on(index, bundles[index])]
    return reached, entries


def ways_on(index, bundle):
    """The bundles to which a walk may go on behind one, or come back to it from a call."""
    turns = turns_of(index, bundle)
    found = [turn.target for turn in turns if turn.target is not None]
    if any(turn.calls for turn in turns) or all(turn.falls for turn in turns):
        found.append(index + 1)
    return found


def named_code(linked, count):
    """The bundles that relocations name, by the bundle in which one stands, and under None those that data name."""
    found = {}
    for at, address in linked.references():
        index = (address - CODE_AT) // 16
        if address % 16 == 0 and (STUBS_AT - CODE_AT) // 16 <= index < count:
            found.setdefault((at - CODE_AT) // 16 if at < DATA_AT else None, []).append(index)
    return found


def put_breaks(made, index, skip_hints):
    """Puts breaks into a bundle, in the place of what the program doesn't take and of branches that lead out of the code."""
    bundle = made.bundles[index]
    if not bundle.units:
        made.put_break(index, 0, Stopped(Stop.OUTSIDE))
        return
    for slot, row in rows_of(bundle).items():
        without = without_hint(made.bundles[index], slot) if skip_hints else None
        if without is not None:
            made.bundles[index] = without
            continue
        made.put_break(index, slot, Stopped(Stop.OUTSIDE), row.effect is Effect.UNC or "qp" not in row.pattern.fields)
    for slot, away in branches(bundle):
        if (index, slot) not in made.stops and not 0 <= index + away < len(made.bundles):
            made.put_break(index, slot, Stopped(Stop.ASTRAY))


# ---- Running ---------------------------------------------------------------------------------------------

def run(program, made, words):
    """The status of the program on the image, and what it prints. Where it refuses a slot that no table knows, a break is put
    there, and it is asked once more."""
    for _ in range(MOST_UNKNOWN):
        status, printed = program.raw(words, made.image())
        text = printed.decode("latin-1")
        refusal = refusal_of(text) if status == 3 else None
        if refusal is None or refusal.slot is None or refusal.why != "unlisted":
            return status, text
        made.put_break(refusal.bundle, refusal.slot, Stopped(Stop.OUTSIDE), True)
    raise Fault(f"more than {MOST_UNKNOWN} slots have no instruction that is known here")
