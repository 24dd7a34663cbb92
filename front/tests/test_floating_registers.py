"""Floating-point registers as general ones, on small functions that the proved program judges, and on random ones.

The path of the program is in IA64_PROGRAM. GNU objdump for ia64 is asked where it is installed."""

import random
import re
import struct
import unittest

from front import floating_registers
from front.bundle import NOPS, UNITS, Bundle, Layout, branches, with_branch, with_displacement
from front.floating_registers import NotMapped, on_general_registers
from front.stand_ins import FORMATS, INDEX, PLACES, ROWS, WITHOUT_F, Effect, NoStandIn, Pattern, row_of, stood_in
from front.tests.test_stand_ins import (HOMES, ask, gnu_texts, home, in_profile, needs_objdump, needs_program, of_row,
                                        random_word)

MII, MI_I, MLX, MMI, M_MI, MFI, MMF, MIB, MBB, BBB, MMB, MFB = 0, 2, 4, 8, 10, 12, 14, 16, 18, 22, 24, 28
STOP = 1
END = Bundle(MII | STOP, (0, NOPS["i"], NOPS["i"]))


# ---- Words ----------------------------------------------------------------------------------------------------------------

def out(mnemonic, form="", **operands):
    """A word outside the profile: of the first row with this mnemonic, and this format where it's given."""
    row = next(row for row in ROWS if mnemonic in row.mnemonic.split("/") and form in ("", row.format))
    word = row.pattern.fixed
    for low, _, values in row.pattern.choices:
        word |= min(values) << low
    for name, number in operands.items():
        word |= number << PLACES[name]
    return word


def of_profile(layout, text, **operands):
    """A word of the profile."""
    pattern = Pattern(layout, text)
    return pattern.fixed | sum(number << pattern.fields[name][0] for name, number in operands.items())


def add(r1, r2, r3, qp=0):
    return of_profile(FORMATS["A9"], "op 8", r1=r1, r2=r2, r3=r3, qp=qp)


def compare(p1, p2, r2, r3, unc=0, qp=0):
    """`cmp.eq p1,p2=r2,r3`."""
    return of_profile("op tb x2:2 ta p2 r3 r2 c p1 qp", "op E", p1=p1, p2=p2, r2=r2, r3=r3, c=unc, qp=qp)


def branch(away, qp=0):
    return with_displacement(Layout.BRANCH, 4 << 37 | qp, away)


def call(away, qp=0):
    return with_displacement(Layout.BRANCH, 5 << 37 | qp, away)


RETURN = 0x21 << 27 | 4 << 6
FMA = {"f1": 6, "f2": 7, "f3": 8, "f4": 9}


def bundle(template, *words):
    """A bundle; None stands for a nop."""
    return Bundle(template, tuple(NOPS[unit] if word is None else word for unit, word in zip(UNITS[template & ~1], words)))


def fp(word, template=MFI | STOP):
    """A bundle with an F instruction."""
    return bundle(template, None, word, None)


# ---- Verdicts -------------------------------------------------------------------------------------------------------------

def check(bundles, entries=()):
    """What the program reports of a function with an end bundle behind it."""
    code = b"".join(bundle.packed() for bundle in [*bundles, END])
    head = struct.pack(f"<8s4I{len(entries)}I", b"IA64IMG2", len(bundles) + 1, len(entries), 0, 0, *entries)
    status, text = ask("check", head + code)
    lines = text.decode().splitlines()
    if status == 3 or len(lines) > 100:
        raise AssertionError(lines[0])
    rows = [line.split(" ") for line in lines[1:]]
    return [(rule, resource, *(tuple(map(int, place.split("."))) for place in places)) for rule, resource, *places in rows]


def mapped_verdict(bundles, entries=()):
    """That of the mapped function, mapped back."""
    mapped = on_general_registers(bundles)
    places = {**mapped.places, **{(len(mapped.bundles), slot): (len(bundles), slot) for slot in range(3)}}
    return {(rule, mapped.resource(resource), places[first], places[second])
            for rule, resource, first, second in check(mapped.bundles, [mapped.starts[entry] for entry in entries])}


def plain_verdict(bundles, entries=()):
    """That of the function with plain stand-ins, mapped back."""
    stood = [stood_in(bundle) for bundle in [*bundles, END]]
    return {(rule, resource, *((index, stood[index].slots[slot]) for index, slot in places))
            for rule, resource, *places in check([found.bundle for found in stood[:-1]], entries)}


@needs_program
class Verdicts(unittest.TestCase):
    """What is found, and what isn't."""

    def finds(self, bundles, *wanted, entries=()):
        self.assertEqual(mapped_verdict(bundles, entries), set(wanted))

    def test_two_writes(self):
        fma = out("fma", **FMA)
        self.finds([fp(fma, MFI), fp(fma)], ("WAW", "f6", (0, 1), (1, 1)))
        self.finds([fp(fma), fp(fma)])
        self.assertEqual(plain_verdict([fp(fma, MFI), fp(fma)]), set())

    def test_write_and_read(self):
        load = out("ldfd", "M6", f1=6, r3=32)
        for number, operand in ((6, "f2"), (6, "f3"), (6, "f4"), (40, "f4")):
            load = out("ldfd", "M6", f1=number, r3=32)
            fma = out("xma", **{**FMA, "f1": 10, operand: number})
            self.finds([bundle(MFI | STOP, load, fma, None)], ("RAW", f"f{number}", (0, 0), (0, 1)))
            self.finds([bundle(MFI | STOP, load, None, None), fp(fma)])

    def test_one_instruction(self):
        """What an instruction reads itself, it may write; and f0 and f1 are constants."""
        self.finds([fp(out("fma", f1=6, f2=6, f3=6, f4=6))])
        self.finds([fp(out("fma", f1=6, f2=0, f3=1, f4=1), MFI), fp(out("fma", f1=7, f2=0, f3=1, f4=1))])
        self.finds([fp(out("frcpa", f1=6, p2=6, f2=6, f3=6, qp=6))])

    def test_moves(self):
        setf, getf = out("setf", f1=6, r2=8), out("getf", r1=9, f2=6)
        self.finds([bundle(MMI | STOP, setf, getf, None)], ("RAW", "f6", (0, 0), (0, 1)))
        self.finds([bundle(M_MI | STOP, setf, getf, None)])
        self.finds([bundle(MMI | STOP, getf, setf, add(10, 9, 0))], ("RAW", "r9", (0, 0), (0, 2)))

    def test_bases(self):
        """A base that is updated is read and written, beside what is loaded."""
        load = out("ldfpd", "M12", f1=6, f2=7, r3=8)
        for word in (load, out("ldfd", "M8", f1=6, r3=8), out("ldfd", "M7", f1=6, r3=8, r2=10),
                     out("stfd", "M10", f2=6, r3=8), out("lfetch", "M14", r3=8, r2=10)):
            self.finds([bundle(MMI | STOP, word, None, add(9, 8, 0))], ("RAW", "r8", (0, 0), (0, 2)))
            self.finds([bundle(MMI | STOP, None, word, None)])
        self.finds([bundle(MMI | STOP, load, out("getf", r1=9, f2=7), None)], ("RAW", "f7", (0, 0), (0, 1)))
        self.finds([bundle(MMI | STOP, load, out("stfd", "M9", f2=6, r3=9), None)], ("RAW", "f6", (0, 0), (0, 1)))

    def test_floating_compare_before_a_branch(self):
        """A branch may see what an integer compare of its group has written, and not what a floating-point one has."""
        for name, more in (("fcmp", {"p1": 6, "p2": 7, "f2": 8, "f3": 9}), ("fclass", {"p1": 7, "p2": 6, "f2": 8}),
                           ("frcpa", {"p2": 6, "f1": 10, "f2": 8, "f3": 9}), ("frsqrta", {"p2": 6, "f1": 10, "f3": 9})):
            word = out(name, **more)
            self.finds([bundle(MFB | STOP, None, word, branch(1, 6))], ("RAW", "p6", (0, 1), (0, 2)))
            self.finds([bundle(MFB | STOP, None, word, branch(1, 8))])
            self.finds([fp(word), bundle(MFB | STOP, None, None, branch(0, 6))])
            self.assertEqual(plain_verdict([bundle(MFB | STOP, None, word, branch(1, 6))]), set())
        self.finds([bundle(MIB | STOP, None, compare(6, 7, 8, 9), branch(1, 6)),
                    bundle(MFB | STOP, None, out("fcmp", p1=6, p2=7), None)])
        self.finds([bundle(MFI, None, out("fcmp", p1=6, p2=20), None), bundle(MBB | STOP, None, branch(1, 20), call(1, 6))],
                   ("RAW", "p20", (0, 1), (1, 1)), ("RAW", "p6", (0, 1), (1, 2)))

    def test_excused(self):
        """What excuses a clash of registers excuses one of floating-point registers."""
        both = bundle(MFI, None, out("fma", **FMA, qp=6), None), fp(out("fma", **FMA, qp=7))
        for excused, word in ((True, compare(6, 7, 8, 9)), (True, compare(6, 7, 8, 9, 1, 5)),
                              (False, compare(6, 7, 8, 9, 0, 5))):
            self.finds([bundle(MII | STOP, None, word, None), *both], *() if excused else [("WAW", "f6", (1, 1), (2, 1))])
        for excused, word in ((True, out("fcmp", p1=6, p2=7)), (False, out("fcmp", p1=6, p2=7, qp=5))):
            self.finds([fp(word), *both], *() if excused else [("WAW", "f6", (1, 1), (2, 1))])

    def test_guards_of_floating_compares(self):
        """Behind a branch that falls through, its guard is 0, and a compare under it has written nothing but with `unc`."""
        branches_behind = bundle(MBB | STOP, None, branch(1, 8), branch(1, 6))
        for unc, name, more in ((0, "fcmp", {"p1": 6, "p2": 7}), (1, "fcmp", {"p1": 6, "p2": 7}),
                                (1, "frcpa", {"p2": 6, "f1": 10})):
            word = out(name, qp=8, **more) | (unc and name == "fcmp") << 12
            self.finds([fp(word, MFI), branches_behind], *[("RAW", "p6", (0, 1), (1, 2))] * unc)

    def test_estimates_tell_of_one_predicate(self):
        """That `frcpa` clears its predicate where its guard is 0 isn't taken for more."""
        both = bundle(MFI, None, out("fma", **FMA, qp=6), None), fp(out("fma", **FMA, qp=6))
        self.finds([fp(out("frcpa", f1=10, p2=6)), *both], ("WAW", "f6", (1, 1), (2, 1)))

    def test_application_registers(self):
        """ar.ccv and ar.csd are mapped too."""
        move, swap = out("mov.m", "M29", r2=8), out("cmpxchg8", r1=9, r3=10, r2=11)
        self.finds([bundle(MMI | STOP, move, swap, None)], ("RAW", "ar.ccv", (0, 0), (0, 1)))
        self.finds([bundle(M_MI | STOP, move, swap, None)])
        load, store = out("ld16", r1=8, r3=9), out("st16", r3=9, r2=10)
        self.finds([bundle(MMI | STOP, load, store, None)], ("RAW", "ar.csd", (0, 0), (0, 1)))
        self.finds([bundle(MMI, load, None, None), bundle(MMI | STOP, out("ld16", r1=11, r3=9), store, None)],
                   ("WAW", "ar.csd", (0, 0), (1, 0)), ("RAW", "ar.csd", (0, 0), (1, 1)), ("RAW", "ar.csd", (1, 0), (1, 1)))

    def test_around_a_loop(self):
        """A pair on the way back to the head of a loop."""
        head = bundle(MFI, None, out("fma", **FMA), None)
        self.finds([head, bundle(MIB | STOP, None, None, branch(-1, 6)), bundle(MIB | STOP, None, None, RETURN)])
        self.finds([head, bundle(MFB, None, out("fma", **{**FMA, "f1": 10}), branch(-1, 6)), fp(out("fma", **FMA))],
                   ("WAW", "f6", (0, 1), (2, 1)))

    def test_neighbours(self):
        """The rules of neighbours are mapped back through the nops."""
        alloc = of_profile("op _ x3:3 _:2 sor:4 sol:7 sof:7 r1 qp", "op 1, x3 6", r1=32, sof=2)
        setf = out("setf", f1=6, r2=8)
        self.finds([bundle(MMI | STOP, setf, alloc, None)], ("ALLOC", "cfm", (0, 0), (0, 1)))
        self.finds([bundle(M_MI | STOP, setf, alloc, None)])
        self.finds([bundle(MFI | STOP, alloc, out("fma", **FMA), None)])
        for word in (4 << 27, out("cover")):
            self.finds([bundle(MMB, setf, None, word), fp(out("xma", **{**FMA, "f1": 10}))],
                       ("CLEAR", "cfm", (0, 2), (1, 0)))
            self.finds([bundle(MMB | STOP, setf, None, word), fp(out("fma", **FMA))])

    def test_frame(self):
        """Registers that the frame names are mapped to such ones: f40 and f6 behind a call that falls through."""
        after = bundle(MMB, None, out("setf", f1=10, r2=8), call(1, 16))
        high = [after, fp(out("fma", f1=40, f2=2, f3=2, f4=2))]
        self.finds([after, fp(out("fma", f1=6, f2=2, f3=2, f4=2))])
        self.finds(high, ("RAW", "cfm", (0, 2), (1, 1)))


def is_floating(bundles, violation):
    """Whether it is of a branch and a floating-point instruction that writes its predicate."""
    rule, resource, (index, slot), (last, at) = violation
    return (rule == "RAW" and re.match(r"p\d", resource) is not None
            and bundles[index].units[slot] == "f" and bundles[last].units[at] == "b")


@needs_program
class AgainstPlainStandIns(unittest.TestCase):
    """Random functions: what isn't of what is mapped is as with plain stand-ins, and what is, is as the rows say."""

    def setUp(self):
        self.draw = random.Random(3)
        self.rows = {unit: [row for row in ROWS if unit in row.units and row.effect is not Effect.NONE] for unit in "mifb"}
        self.mapped = {unit: [row for row in rows if any(name[0] == "f" or name in floating_registers.APPLICATION
                                                         for name in row.writes + row.reads)] or rows
                       for unit, rows in self.rows.items()}

    def narrowed(self, unit, word, guards):
        """A word with few different registers, and one of these guards."""
        row = row_of(unit, word)
        for name in {*row.writes, *row.reads} & set(PLACES):
            low, bits = row.pattern.fields[name]
            word = word & ~((1 << bits) - 1 << low) | self.draw.randrange(*(6, 9) if name[0] == "p" else (8, 14)) << low
        if "qp" in row.pattern.fields:
            word = word & ~63 | self.draw.choice(guards)
        return word if row.is_of(word) else NOPS[unit]

    def random_bundle(self, guards):
        template = self.draw.choice((MII, MI_I, MMI, M_MI, MFI, MMF, MIB, MMB, MFB, MBB, BBB)) | (self.draw.random() < 0.2)
        return bundle(template, *(self.random_slot(unit, guards) for unit in UNITS[template & ~1]))

    def random_slot(self, unit, guards):
        what = self.draw.random()
        if unit == "b" and what < 0.8:
            return self.draw.choice((None, branch(1, self.draw.choice((6, 7))), call(1, self.draw.choice((6, 7)))))
        if unit in "mi" and what < 0.2:
            return add(*(self.draw.randrange(8, 14) for _ in range(3)), self.draw.choice(guards))
        if unit in "mi" and what < 0.3:
            return compare(6, 7, 8, 9, self.draw.randrange(2), self.draw.choice(guards))
        return self.narrowed(unit, self.random_word(unit), guards)

    def random_word(self, unit):
        return random_word(self.draw.choice((self.mapped if self.draw.random() < 0.7 else self.rows)[unit]), self.draw)

    def settled(self, bundles):
        """The bundles with all branches and checks within them, or behind them."""
        made = []
        for index, part in enumerate(bundles):
            for slot, _ in branches(part):
                target = min(max(0, index + self.draw.randrange(-2, 3)), len(bundles))
                part = with_branch(part, slot, target - index)
            made.append(part)
        return made

    def test_random_functions(self):
        found = 0
        for _ in range(80):
            bundles = self.settled([self.random_bundle((0, 0, 6, 7)) for _ in range(4)])
            try:
                mapped = mapped_verdict(bundles)
            except NotMapped as reason:
                self.assertIn("behind a call", str(reason))
                continue
            more = {row for row in mapped if row[1][0] == "f" or row[1] in floating_registers.APPLICATION or is_floating(bundles, row)}
            self.assertEqual(mapped - more, plain_verdict(bundles), bundles)
            found += len(more)
        self.assertGreater(found, 20)

    def test_random_groups(self):
        """Without guards and branches, by the rows alone: a pair of slots of a group of which the first writes what the second
        reads or writes."""
        found = 0
        for _ in range(60):
            bundles = [bundle(self.draw.choice((MFI, MMF, MMI, M_MI)) | (self.draw.random() < 0.2), None, None, None)
                       for _ in range(4)]
            bundles = self.settled([Bundle(part.template, tuple(self.without_check(unit) for unit in part.units))
                                    for part in bundles])
            wanted = self.clashes(bundles)
            self.assertEqual({row for row in mapped_verdict(bundles) if row[1][0] not in "rp"}, wanted, bundles)
            found += len(wanted)
        self.assertGreater(found, 60)

    def without_check(self, unit):
        while True:
            word = self.narrowed(unit, self.random_word(unit), (0,))
            row = row_of(unit, word)
            if row and row.effect is not Effect.CHECK:
                return word

    def clashes(self, bundles):
        group, found = [], set()
        for index, part in enumerate(bundles):
            for slot, (unit, word) in enumerate(zip(part.units, part.words)):
                writes, reads = (names - in_profile(names) for names in of_row(row_of(unit, word), word))
                for place, written in group:
                    found |= {("RAW", name, place, (index, slot)) for name in written & reads}
                    found |= {("WAW", name, place, (index, slot)) for name in written & writes}
                group.append(((index, slot), writes))
                if slot in floating_registers.stops_behind(part):
                    group = []
        return found


@needs_program
class AgainstGeneralRegisters(unittest.TestCase):
    """Random functions with floating-point instructions, and the same ones with integer instructions of the same reads and
    writes in their place: the verdicts are the same, under all guards and on all ways."""

    def setUp(self):
        self.draw = random.Random(5)

    def guard(self):
        return self.draw.choice((0, 0, 6, 7, 8))

    def pair(self):
        """A floating-point instruction and an integer one."""
        one, two, three = (self.draw.randrange(8, 12) for _ in range(3))
        guard, unc = self.guard(), self.draw.randrange(2)
        first, second = self.draw.choice(((6, 7), (7, 8), (8, 6)))
        return self.draw.choice((
            (out("xma", f1=one, f3=two, f4=three, qp=guard), add(one, two, three, guard)),
            (out("fcmp", f2=two, f3=three, p1=first, p2=second, qp=guard) | unc << 12,
             compare(first, second, two, three, unc, guard))))

    def integer(self, unit, index):
        first, second = self.draw.choice(((6, 7), (7, 8), (8, 6)))
        test = compare(first, second, 20, 21, self.draw.randrange(2), self.guard())
        leave = self.draw.choice((branch, call))(self.draw.randrange(6) - index, self.guard())
        return self.draw.choice((test, None, None)) if unit != "b" else self.draw.choice((leave, leave, None))

    def bundles(self, index):
        """A bundle of each of the two functions."""
        template = self.draw.choice((MFI, MMF, MFB, MFI, MMF, MFB, MMB)) | (self.draw.random() < 0.1)
        slots = [self.pair() if unit == "f" else 2 * (self.integer(unit, index),) for unit in UNITS[template & ~1]]
        return tuple(bundle(new, *words) for new, words in zip((template, WITHOUT_F.get(template & ~1, MMB) | template & 1),
                                                               zip(*slots)))

    def test_verdicts(self):
        found = floating = 0
        for _ in range(80):
            these, those = zip(*(self.bundles(index) for index in range(5)))
            got = mapped_verdict(these)
            more = {row for row in got if is_floating(these, row)}
            wanted = {(rule, re.sub(r"^r(?=\d)", "f", resource), *places) for rule, resource, *places in check(those)}
            self.assertEqual(got - more, wanted, these)
            found, floating = found + len(wanted), floating + len(more)
        self.assertGreater(found, 300)
        self.assertGreater(floating, 20)


class Bundles(unittest.TestCase):
    """The mapped bundles, without a program."""

    def test_nothing_is_mapped(self):
        bundles = [bundle(MIB, out("lfetch", r3=8), None, branch(0, 6)), bundle(MIB | STOP, None, None, RETURN)]
        mapped = on_general_registers(bundles)
        self.assertEqual((mapped.bundles, mapped.starts), ([stood_in(part).bundle for part in bundles], [0, 1, 2]))
        self.assertEqual((mapped.originals, mapped.mismatched, list(mapped.rows)), ({}, (), [(0, 0)]))

    def test_constants(self):
        """f0 and f1 aren't mapped."""
        mapped = on_general_registers([fp(out("fma", f1=6, f2=0, f3=1, f4=1)), bundle(MMI | STOP, out("stfd", "M9", f2=1, r3=8), None, None)])
        self.assertEqual(set(mapped.originals.values()), {"f6"})

    def test_places(self):
        """Each slot of each new bundle stands for one of the old one, in order, and each old one has slots."""
        bundles = [bundle(MFI, out("setf", f1=6, r2=8), out("fma", **FMA), None), bundle(MLX | STOP, None, 5, NOPS["x"]),
                   bundle(MMF | STOP, out("lfetch", r3=8), None, out("fma", **FMA))]
        mapped = on_general_registers(bundles)
        places = [mapped.places[index, slot] for index, part in enumerate(mapped.bundles) for slot in floating_registers.slots_of(part)]
        self.assertEqual(places, sorted(places))
        self.assertEqual(len(places), len(mapped.places))
        self.assertEqual(set(places), {(index, slot) for index, part in enumerate(bundles) for slot in floating_registers.slots_of(part)})
        self.assertEqual(mapped.starts, [0, 4, 5, 9])
        self.assertEqual({name for name in mapped.originals.values()}, {"f6", "f7", "f8", "f9"})

    def test_stops(self):
        """A stop behind a slot is one behind its last piece, and there is no other."""
        for template, behind in ((MFI, []), (MFI | STOP, [2]), (MI_I, [1]), (MI_I | STOP, [1, 2]), (M_MI, [0]),
                                 (MLX | STOP, [1]), (MMB | STOP, [2]), (MFB, [])):
            words = [out("setf", f1=6, r2=8)] + [None, None]
            mapped = on_general_registers([bundle(template, *words)])
            stops = [mapped.places[index, slot] for index, part in enumerate(mapped.bundles)
                     for slot in floating_registers.stops_behind(part)]
            self.assertEqual(stops, [(0, slot) for slot in behind])
            for index, part in enumerate(mapped.bundles):
                for slot in floating_registers.stops_behind(part):
                    self.assertEqual(slot, floating_registers.slots_of(part)[-1])

    def test_branches(self):
        """Branches and checks lead to the first bundle of their target."""
        bundles = [fp(out("fma", **FMA)), with_branch(bundle(MFB | STOP, None, out("fchkf"), branch(1, 6)), 1, -1),
                   fp(out("fma", **FMA)),
                   with_branch(with_branch(bundle(MLX | STOP, out("chk.s", f2=6), 0, 0xC << 37 | 6), 0, 1), 1, -3)]
        mapped = on_general_registers(bundles)
        found = [(mapped.places[index, slot], mapped.starts.index(index + away)) for index, part in enumerate(mapped.bundles)
                 for slot, away in branches(part)]
        self.assertEqual(found, [((1, 1), 0), ((1, 2), 2), ((3, 0), 4), ((3, 1), 0)])
        self.assertEqual(mapped.starts[-1], len(mapped.bundles))

    def test_calls(self):
        """Behind a bundle with a call comes what stood behind it."""
        setf = out("setf", f1=6, r2=8)
        for template, words in ((MIB, (setf, None, call(1))), (MBB, (setf, call(1, 6), None)),
                                (MBB, (setf, call(1, 6), branch(1, 7)))):
            mapped = on_general_registers([bundle(template, *words), bundle(MII | STOP, None, None, None)])
            calls = [index for index, part in enumerate(mapped.bundles) for unit, word in zip(part.units, part.words)
                     if floating_registers.is_call(unit, word)]
            self.assertEqual(calls, [mapped.starts[1] - 1])
        fcmp = fp(out("fcmp", p1=6, p2=7), MFI)
        mapped = on_general_registers([fcmp, bundle(MBB | STOP, None, call(1, 6), branch(1, 8)), fcmp])
        self.assertEqual([mapped.places[mapped.starts[1] + 2, slot] for slot in range(3)], [(1, 1), (1, 1), (1, 2)])
        with self.assertRaisesRegex(NotMapped, "behind a call"):
            on_general_registers([fcmp, bundle(MBB | STOP, None, call(1, 8), branch(1, 6)), fcmp])

    def test_rotation(self):
        """A branch that rotates has to end its group."""
        for kind in (2, 3, 5, 6, 7):
            on_general_registers([fp(out("fma", **FMA)), bundle(MIB | STOP, None, None, branch(-1) | kind << 6)])
            goes_on = [fp(out("fma", **FMA)), bundle(MIB, None, None, branch(-1) | kind << 6), bundle(MII | STOP, None, None, None)]
            if kind == 5:
                on_general_registers(goes_on)
            else:
                with self.assertRaisesRegex(NotMapped, "rotates registers within a group"):
                    on_general_registers(goes_on)

    def naming(self, registers):
        return [bundle(MII | STOP, None, add(register, 0, 0), None) for register in registers]

    def test_room(self):
        """Registers below r32 are for what the frame doesn't name. Others are taken only where no read of the frame
        clashes."""
        fma = [fp(out("fma", f1=6, f2=7, f3=40, f4=40))]
        mapped = on_general_registers(self.naming(range(1, 30)) + fma)
        self.assertEqual(({name: register for register, name in mapped.originals.items()}, mapped.mismatched),
                         ({"f40": 127, "f7": 31, "f6": 30}, ()))
        mapped = on_general_registers(self.naming(range(1, 31)) + fma)
        self.assertEqual((set(mapped.originals), mapped.mismatched), ({31, 127, 126}, ("f6",)))
        mapped = on_general_registers(self.naming(range(32, 128)) + fma)
        self.assertEqual((mapped.mismatched, max(mapped.originals)), (("f40",), 31))
        behind = [bundle(MMB, None, None, call(1, 6)), bundle(MII | STOP, None, None, None)]
        on_general_registers(self.naming(range(1, 30)) + fma + behind)
        with self.assertRaisesRegex(NotMapped, "frame"):
            on_general_registers(self.naming(range(1, 31)) + fma + behind)
        with self.assertRaisesRegex(NotMapped, "2 general registers free for 3 others"):
            on_general_registers(self.naming(range(1, 126)) + fma)

    def test_long_runs(self):
        """The program takes 192 slots without a stop, and one stands behind the function."""
        part = fp(out("fma", **FMA), MFI)
        self.assertEqual(len(on_general_registers([part] * 15).bundles), 60)
        with self.assertRaisesRegex(NotMapped, "without a stop"):
            on_general_registers([part] * 16)

    def test_none(self):
        with self.assertRaises(NoStandIn):
            on_general_registers([bundle(MMI | STOP, out("flushrs"), out("setf", f1=6), None)])


class Names(unittest.TestCase):
    """Which general registers an instruction names."""

    @needs_objdump
    def test_general_registers(self):
        """All that GNU names in random words, but in such as have a blank bit set and are of no row."""
        draw, words = random.Random(4), []
        for unit, operations in (("m", (0, 1, 4, 5, 8, 9, 12, 13, 14)), ("i", (0, 4, 5, 7, 8, 9, 12, 13, 14)), ("x", (6,))):
            words += [(unit, op << 37 | draw.getrandbits(37)) for op in operations for _ in range(300)]
            words += [(unit, op << 37 | high << 27 | draw.getrandbits(27)) for op in (0, 1) for high in range(512)
                      if unit != "x"]
        words = [(unit, word) for unit, word in words if row_of(unit, word)
                 or not any(row.pattern.has(word) for row in INDEX.get((unit, word >> 37), ()))]
        found = 0
        for (unit, word), texts in zip(words, gnu_texts([home(unit, word) for unit, word in words])):
            text = texts[1 if unit == "x" else HOMES[unit][1]]
            named = {int(number) for number in re.findall(r"\br(\d+)\b", text)} - {0}
            self.assertLessEqual(named, floating_registers.general_registers(unit, word), text)
            found += bool(named)
        self.assertGreater(found, 2000)


if __name__ == "__main__":
    unittest.main()
