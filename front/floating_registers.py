"""Floating-point registers, mapped to general registers, so that a verdict looks at them too.

A stand-in has no floating-point registers, since the profile has none. But groups have the same rules for them as for general
registers. So each that a function names is mapped to a general register that it doesn't name: what reads or writes the one
reads or writes the other. So do `ar.ccv` and `ar.csd`, which have the same rules as well. One instruction of the profile can't
read and write all that, so each slot that names something mapped becomes pieces: a few slots, each in a bundle of its own with
nops beside it.

Why the verdict on the mapped function is that on the function, with what is mapped looked at:

- Pieces stand where their slot stood, in the order of the slots. A stop behind a slot is one behind its last piece, and there
  is no other stop. Only the last piece may branch or be a check, and a branch leads to the first piece of its target. So the
  walks are the same, and so are their groups. A place where a walk may begin is the first piece of a bundle, as it was one of
  the function: what stands behind a call in its bundle stays in the call's new bundle, and the bundle behind that is the one
  that the call comes back to.
- Together the pieces of a slot read and write what its stand-in does, and the registers to which is mapped what else it reads
  and writes, each under the slot's guard, or under none where the slot does it in any case. None reads what an earlier one has
  written. So pieces of one slot don't clash, and those of two slots clash on a register exactly where the slots do, or on one
  to which something is mapped where they clash on that.
- Of the pieces of a slot only the last writes predicates or tells something of them. So at each piece is known what was known
  at the slot, and the same pairs are excused.
- A slot that names a general register from r32 up reads the frame. So does one that names f32 or above, which are mapped to r32
  and above, and f2 to f31 are mapped below. Where there is no room, a register is mismatched: mapped to one of the other kind.
  That is done only in a function in which nothing stands behind a write of the frame in its group, so that no read of it
  clashes.
- A branch may read a predicate that an integer compare of its group has written, but not one that a floating-point instruction
  has. So a predicate that branches and floating-point instructions both name is mapped to a register too: these write that, and
  a piece before the branch reads it, under no guard as the branch reads its predicate. No other compare writes it.
- A branch that rotates registers ends its group: so each name stands for one register in all of a group, and so does what it is
  mapped to. A function that goes on in the group isn't mapped.
- Nops read and write nothing. `ALLOC` and `CLEAR` are violations of neighbours, and a nop beside a piece stands for its slot.

So a place of a violation is mapped back (`Mapped.places`), and a register to what is mapped to it (`Mapped.resource`). Several
violations may become one, since pieces of a slot have its guard each.
"""

import functools
from typing import Dict, List, NamedTuple, Tuple

from front.bundle import NOPS, UNITS, Bundle, branches, slots_of, stops_behind, with_branch
from front.stand_ins import (ADD, COMPARES, REMEMBERED, STORE, Effect, NoStandIn, Pattern, Row, operand, row_of, rows_of,
                             stand_in, stood_in)

# So many slots the program takes without a stop.
LONGEST_RUN = 192
FIRST_STACKED, LAST_REGISTER = 32, 127
FIRST_ROTATING_PREDICATE = 16

Place = Tuple[int, int]


class NotMapped(Exception):
    """Why a function can't be mapped."""


class Mapped(NamedTuple):
    """A function whose floating-point registers are mapped."""
    bundles: List[Bundle]
    starts: List[int]                  # the number of the first bundle in the place of each old one, and how many there are
    places: Dict[Place, Place]         # of each slot, nops too, the bundle and the slot that it stands for
    rows: Dict[Place, Row]             # of the slots of the function that are outside the profile
    originals: Dict[int, str]          # what is mapped to a general register
    mismatched: Tuple[str, ...]        # what is mapped to a register of the other kind

    def resource(self, name):
        """What a resource of a violation stands for: `f6` of the register to which f6 is mapped."""
        return self.originals.get(int(name[1:]), name) if name[0] == "r" and name[1:].isdigit() else name


# ---- Which registers a function names -------------------------------------------------------------------------------------

class Naming(NamedTuple):
    """Words of the profile, and by their format where they name general registers."""
    units: str
    pattern: Pattern


def naming(units, layout, text):
    return Naming(units, Pattern(layout, text))


# What names general registers in the profile; blank bits aren't looked at. Of `fetchadd` a field may be taken for one that is
# none, which only leaves less room.
NAMINGS = (
    naming("mi", "op _ x2a:2 ve x4:4 x2b:2 r3 r2 r1 qp", "op 8, x2a 0, x4 0-8"),                  # A1, A2
    naming("mi", "op s x2a:2 ve x4:4 x2b:2 r3 imm7b:7 r1 qp", "op 8, x2a 0, x4 9-F"),             # A3
    naming("mi", "op za x2a:2 zb x4:4 x2b:2 r3 r2 r1 qp", "op 8, x2a 1"),                         # A9
    naming("mi", "op s x2a:2 ve imm6d:6 r3 imm7b:7 r1 qp", "op 8, x2a 2/3"),                      # A4
    naming("mi", "op s imm9d:9 imm5c:5 r3:2 imm7b:7 r1 qp", "op 9"),                              # A5
    *(naming("mi", "op tb x2:2 ta p2 r3 r2 c p1 qp", f"op {op}, x2 0/1") for op in "CDE"),        # A6, A7
    *(naming("mi", "op s x2:2 ta p2 r3 imm7b:7 c p1 qp", f"op {op}, x2 2/3") for op in "CDE"),    # A8
    naming("i", "op za x2a:2 zb ve x2c:2 x2b:2 _ r3 r2 r1 qp", "op 7"),                           # I5, I7, I9
    naming("i", "op _ x2:2 x count6d:6 r3 r2 r1 qp", "op 5, x2 3, x 0"),                          # I10
    naming("i", "op _ x2:2 x len6d:6 r3 pos6b:6 y r1 qp", "op 5, x2 1, x 0"),                     # I11
    naming("i", "op _ x2:2 x len6d:6 y cpos6c:6 r2 r1 qp", "op 5, x2 1, x 1, y 0"),               # I12
    naming("i", "op s x2:2 x len6d:6 y cpos6c:6 imm7b:7 r1 qp", "op 5, x2 1, x 1, y 1"),          # I13
    naming("i", "op s x2:2 x len6d:6 r3 cpos6b:6 _ r1 qp", "op 5, x2 3, x 1"),                    # I14
    naming("i", "op cpos6d:6 len4d:4 r3 r2 r1 qp", "op 4"),                                       # I15
    naming("i", "op tb x2:2 ta p2 r3 pos6b:6 y c p1 qp", "op 5, x2 0"),                           # I16, I17
    naming("i", "op s x3:3 imm13c:13 r2 imm7a:7 qp", "op 0, x3 1"),                               # I20
    naming("i", "op _ x3:3 timm9c:9 ih x wh:2 r2 _:4 b1 qp", "op 0, x3 7"),                       # I21
    naming("i", "op s x3:3 _ mask8c:8 _:4 r2 mask7a:7 qp", "op 0, x3 3"),                         # I23
    naming("i", "op _ x3:3 x6:6 _:14 r1 qp", "op 0, x3 0, x6 30/31/33"),                          # I22, I25
    naming("i", "op _ x3:3 x6:6 ar3 r2 _:7 qp", "op 0, x3 0, x6 2A"),                             # I26
    naming("i", "op _ x3:3 x6:6 ar3 _:7 r1 qp", "op 0, x3 0, x6 32"),                             # I28
    naming("i", "op _ x3:3 x6:6 r3 _:7 r1 qp", "op 0, x3 0, x6 10-16"),                           # I29
    naming("m", "op m x6:6 hint:2 x r3 r2 r1 qp", "op 4"),                                        # M1, M2, M4, M16, M17
    naming("m", "op s x6:6 hint:2 i r3 imm7b:7 r1 qp", "op 5, x6 0-2F"),                          # M3
    naming("m", "op s x6:6 hint:2 i r3 r2 imm7a:7 qp", "op 5, x6 30-3F"),                         # M5
    naming("m", "op s x3:3 imm13c:13 r2 imm7a:7 qp", "op 1, x3 1"),                               # M20
    naming("m", "op s x3:3 imm20b:20 r1 qp", "op 0, x3 4/5"),                                     # M22
    naming("m", "op _ x3:3 x2:2 x4:4 _:14 r1 qp", "op 0, x3 0, x2 1, x4 2"),                      # M26
    naming("m", "op _ x3:3 x6:6 ar3 r2 _:7 qp", "op 1, x3 0, x6 2A"),                             # M29
    naming("m", "op _ x3:3 x6:6 ar3 _:7 r1 qp", "op 1, x3 0, x6 22"),                             # M31
    naming("m", "op _ x3:3 _:2 sor:4 sol:7 sof:7 r1 qp", "op 1, x3 6"),                           # M34
    naming("x", "op i imm9d:9 imm5c:5 ic vc imm7b:7 r1 qp", "op 6"),                              # X2
)


GENERAL = ("r1", "r2", "r3")


@functools.lru_cache(maxsize=REMEMBERED)
def general_registers(unit, word):
    """The general registers that an instruction names, by its row where it is outside the profile."""
    row = row_of(unit, word)
    if row:
        return frozenset(operand(name, word) for name in row.writes + row.reads if name in GENERAL)
    known = next((known for known in NAMINGS if unit in known.units and known.pattern.has(word)), None)
    fields = [known.pattern.fields[name] for name in GENERAL if name in known.pattern.fields] if known else ()
    return frozenset(word >> low & (1 << bits) - 1 for low, bits in fields)


# ---- What slots do --------------------------------------------------------------------------------------------------------

LONG, BRANCHES = 0x04, 0x16                            # the templates MLX and BBB


def is_call(unit, word):
    return unit == "b" and word >> 37 in (1, 5) or unit == "x" and word >> 37 == 0xD


def is_return_or_jump(unit, word):
    """Whether this is a `br.ret`, or a `br.cond` by a register."""
    return unit == "b" and word >> 37 == 0 and word >> 27 & 0x3F in (0x20, 0x21)


def is_branch(unit, word):
    """Whether this is a branch that may see its guard as an integer compare of its group wrote it."""
    is_direct = unit == "b" and word >> 37 == 4 and word >> 6 & 7 == 0 or unit == "x" and word >> 37 == 0xC
    return is_direct or is_call(unit, word) or is_return_or_jump(unit, word)


def rotates(unit, word):
    """Whether this is a branch that rotates registers: `ctop`, `cexit`, `wtop` and `wexit`."""
    return unit == "b" and word >> 37 == 4 and word >> 6 & 7 in (2, 3, 6, 7)


def writes_frame_and_goes_on(unit, word):
    """Whether a walk may go on to the next slot behind a write of the frame: a call or a return with a guard, or `cover`,
    `clrrrb` or `clrrrb.pr`."""
    leaves = is_call(unit, word) or is_return_or_jump(unit, word) and word >> 27 & 1
    return leaves and operand("qp", word) != 0 or unit == "b" and word >> 37 == 0 and word >> 27 & 0x3F in (2, 4, 5)


def instructions(bundle):
    """The unit and the word of each slot. A long instruction is that of slot 1, by the word of its X slot."""
    units, words = UNITS[bundle.template & ~1], bundle.words
    return list(zip(units, words)) if units != "mlx" else [("m", words[0]), ("x", words[2])]


def slots(bundles):
    """Each slot of a function: its bundle's number, its own, its unit and its word."""
    for index, bundle in enumerate(bundles):
        for slot, (unit, word) in enumerate(instructions(bundle)):
            yield index, slot, unit, word


# ---- What is mapped where ------------------------------------------------------------------------------------------------------

APPLICATION = ("ar.ccv", "ar.csd")
FLOATING = ("f1", "f2", "f3", "f4")


class Operands(NamedTuple):
    """What an instruction outside the profile reads and writes of general registers, but for r0, and of what is mapped, by
    its names. f0 and f1 are constants."""
    reads: Tuple[int, ...]
    writes: Tuple[int, ...]
    mapped_reads: Tuple[str, ...]
    mapped_writes: Tuple[str, ...]
    predicates: Tuple[str, ...]        # that a floating-point instruction writes


@functools.lru_cache(maxsize=REMEMBERED)
def operands_of(unit, word):
    """That of an instruction, or None where it has no row."""
    row = row_of(unit, word)
    if row is None:
        return None
    written = [operand(name, word) for name in row.writes if name in ("p1", "p2") and unit == "f"]
    return Operands(registers(row.reads, word), registers(row.writes, word), mapped_names(row.reads, word),
                    mapped_names(row.writes, word), tuple(f"p{number}" for number in written if number))


def registers(names, word):
    return tuple(operand(name, word) for name in names if name in GENERAL and operand(name, word))


def mapped_names(names, word):
    return tuple(name if name in APPLICATION else f"f{operand(name, word)}" for name in names
                 if name in APPLICATION or name in FLOATING and operand(name, word) > 1)


def all_mapped(bundles):
    """All that is mapped in a function, in the order in which it names them."""
    found, written, guards = [], [], set()
    for _, _, unit, word in slots(bundles):
        operands = operands_of(unit, word)
        if operands:
            found += operands.mapped_reads + operands.mapped_writes
            written += operands.predicates
        if is_branch(unit, word):
            guards.add(f"p{operand('qp', word)}")
    return list(dict.fromkeys(found + [name for name in written if name in guards]))


def floating_guards(bundles):
    """The predicates that branches and floating-point instructions both name: unless they are mapped, a branch seems to see them
    as an integer compare of its group wrote them."""
    return [name for name in all_mapped(bundles) if name[0] == "p"]


def is_named_by_frame(name):
    first = {"f": FIRST_STACKED, "p": FIRST_ROTATING_PREDICATE}.get(name[0])
    return first is not None and int(name[1:]) >= first


def mapping_of(bundles):
    """The general register to which each name is mapped, and which of them are mismatched."""
    named = {register for _, _, unit, word in slots(bundles) for register in general_registers(unit, word)}
    free = {stacked: [register for register in range(first, last) if register not in named]
            for stacked, first, last in ((False, 1, FIRST_STACKED), (True, FIRST_STACKED, LAST_REGISTER + 1))}
    wanted = all_mapped(bundles)
    room = len(free[False]) + len(free[True])
    if len(wanted) > room:
        raise NotMapped(f"it leaves {room} general registers free for {len(wanted)} others")
    found, left_over = {}, []
    for name in wanted:
        if free[is_named_by_frame(name)]:
            found[name] = free[is_named_by_frame(name)].pop()
        else:
            left_over.append(name)
    if left_over and frame_matters(bundles):
        raise NotMapped(f"it leaves too few general registers free for {left_over[0]}, and reads of its frame matter")
    for name in left_over:
        found[name] = free[not is_named_by_frame(name)].pop()
    return found, tuple(left_over)


def frame_matters(bundles):
    """Whether in some group a slot may stand behind a write of the frame."""
    return any(writes_frame_and_goes_on(unit, word) and slot not in stops_behind(bundles[index])
               for index, slot, unit, word in slots(bundles))


# ---- Pieces ---------------------------------------------------------------------------------------------------------------

# The template and the slot where a piece for each unit stands.
PIECE_SLOTS = {"m": (0x00, 0), "i": (0x00, 1), "f": (0x0C, 1), "b": (0x10, 2), "x": (LONG, 2)}


class Piece(NamedTuple):
    """An instruction of the profile. `low` is the word of the L slot of a long one."""
    unit: str
    word: int
    low: int = 0


def reading(first, second=0, guard=0):
    """`st8 [first]=second`: it reads two general registers, and writes none."""
    return Piece("m", STORE | first << 20 | second << 13 | guard)


def writing(target, sources=(), guard=0):
    """`add target=first,second`."""
    first, second = (*sources, 0, 0)[:2]
    return Piece("m", ADD | first << 20 | second << 13 | target << 6 | guard)


def transfers(sources, targets, guard):
    """Pieces that read these registers and then write those. The first that writes reads the last two."""
    early = max(0, len(sources) - 2) if targets else len(sources)
    reads = [reading(*sources[at:min(at + 2, early)], guard=guard) for at in range(0, early, 2)]
    return reads + [writing(target, () if number else sources[early:], guard) for number, target in enumerate(targets)]


class Mapper:
    """A function on its way to a mapped one."""

    def __init__(self, bundles):
        self.old = bundles
        self.registers, self.mismatched = mapping_of(bundles)
        self.bundles: List[Bundle] = []
        self.places: Dict[Place, Place] = {}
        self.starts: List[int] = []
        self.origins: List[int] = []                   # of each new bundle the number of the old one

    def pieces(self, unit, word):
        """The pieces of an instruction that names something mapped; of another one, none."""
        operands, guard = operands_of(unit, word), operand("qp", word)
        predicates = [self.registers[name] for name in operands.predicates if name in self.registers] if operands else []
        if not predicates and not (operands and (operands.mapped_reads or operands.mapped_writes)):
            return []
        sources, targets = (list(dict.fromkeys([*own, *(self.registers[name] for name in names)])) for own, names in
                            ((operands.reads, operands.mapped_reads), (operands.writes, operands.mapped_writes)))
        effect, last = row_of(unit, word).effect, Piece(*stand_in(unit, word))
        if effect is Effect.CHECK:
            return [last._replace(word=last.word | sources[0] << 13)]
        made = transfers(sources, targets, guard)
        if effect in COMPARES:
            made += [writing(register, guard=0 if effect is Effect.UNC else guard) for register in predicates] + [last]
        return made

    def guard_reads(self, unit, word):
        """A piece before a branch that reads what its guard is mapped to, where that is."""
        register = self.registers.get(f"p{operand('qp', word)}") if is_branch(unit, word) else None
        return [reading(0, register)] if register else []

    # ---- Bundles

    def add_bundle(self, index):
        """Adds what comes in the place of a bundle."""
        bundle = self.old[index]
        self.starts.append(len(self.bundles))
        words, stood = instructions(bundle), stood_in(bundle)
        pieces, before = ([make(unit, word) for unit, word in words] for make in (self.pieces, self.guard_reads))
        if not any(pieces) and not any(before):
            self.add(index, stood.bundle, stood.slots)
            return
        for together in slot_groups(bundle):
            first = together[0]
            if any(before[slot] for slot in together[1:]):
                raise NotMapped("a branch stands behind a call in its bundle")
            stop = together[-1] in stops_behind(bundle)
            own = [[piece] for piece in pieces[first]] or [[own_piece(stood, slot) for slot in together]]
            made = [[piece] for piece in before[first]] + own
            for number, group in enumerate(made):
                self.add_pieces(index, together, group, stop and number == len(made) - 1)

    def add_pieces(self, index, together, pieces, stop):
        """Adds a bundle for a piece, or for those of a call and what stands behind it. Nops beside a piece stand for its
        slot."""
        template, at = PIECE_SLOTS[pieces[0].unit] if len(pieces) == 1 else (BRANCHES, 3 - len(pieces))
        words = [NOPS[unit] for unit in UNITS[template]]
        words[at:at + len(pieces)] = [piece.word for piece in pieces]
        if template == LONG:
            words[1] = pieces[0].low
        bundle, owners = Bundle(template | stop, tuple(words)), together if len(pieces) > 1 else together[:1]
        self.add(index, bundle, {slot: owners[min(max(0, slot - at), len(owners) - 1)] for slot in slots_of(bundle)})

    def add(self, index, bundle, places):
        for slot, old in places.items():
            self.places[len(self.bundles), slot] = index, old
        self.bundles.append(bundle)
        self.origins.append(index)

    def set_displacements(self):
        """Gives each branch and check the displacement of its new target. One that leads out of the function leads behind
        it."""
        count = len(self.old)
        for number, (bundle, index) in enumerate(zip(self.bundles, self.origins)):
            for slot, away in branches(bundle):
                target = index + away if 0 <= index + away <= count else count
                self.bundles[number] = with_branch(self.bundles[number], slot, self.starts[target] - number)


def slot_groups(bundle):
    """The slots of a bundle, parted into those that each have bundles of their own. What stands behind a call stays with
    it: the call comes back to the bundle behind its own."""
    calls = [slot for slot, (unit, word) in enumerate(instructions(bundle)) if is_call(unit, word)]
    own = calls[0] if calls else slots_of(bundle)[-1]
    return [[slot] for slot in range(own)] + [list(slots_of(bundle)[own:])]


def own_piece(stood, slot):
    """What stands for a slot that names nothing mapped."""
    at = max(new for new, old in stood.slots.items() if old == slot)
    if stood.bundle.units[at] == "l":
        return Piece("x", stood.bundle.words[2], stood.bundle.words[1])
    return Piece(stood.bundle.units[at], stood.bundle.words[at])


def on_general_registers(bundles) -> Mapped:
    """The mapped function. Its bundles have their displacements in bundles, where how many there are is behind it. NoStandIn
    where nothing stands in for a slot, and NotMapped where the function can't be mapped; then it has plain stand-ins."""
    rows = {(index, slot): row for index, bundle in enumerate(bundles) for slot, row in rows_of(bundle).items()}
    for (_, slot), row in rows.items():
        if row.none:
            raise NoStandIn(slot, row, row.none)
    if any(rotates(unit, word) and slot not in stops_behind(bundles[index]) for index, slot, unit, word in slots(bundles)):
        raise NotMapped("it rotates registers within a group")
    made = Mapper(bundles)
    for index in range(len(bundles)):
        made.add_bundle(index)
    made.starts.append(len(made.bundles))
    made.set_displacements()
    require_short_runs(made.bundles)
    originals = {register: name for name, register in made.registers.items()}
    return Mapped(made.bundles, made.starts, made.places, rows, originals, made.mismatched)


def require_short_runs(bundles):
    """NotMapped where more slots stand without a stop than the program takes, one behind the function among them."""
    run = 0
    for bundle in bundles:
        for slot in slots_of(bundle):
            run = 0 if slot in stops_behind(bundle) else run + 1
            if run >= LONGEST_RUN:
                raise NotMapped("it would have too many slots without a stop")
