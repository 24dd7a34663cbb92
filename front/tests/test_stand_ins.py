"""The rows of `stand_ins`, held against what GNU objdump prints of random words and against what the proved program takes.

The path of the program is in IA64_PROGRAM. GNU objdump for ia64 is asked where it is installed."""

import os
import random
import re
import shutil
import subprocess
import tempfile
import unittest
from typing import FrozenSet, NamedTuple, Optional

from front.bundle import NOPS, UNITS, Bundle, branches, long_displacement, split, with_branch, with_long_displacement
from front.stand_ins import COMPARES, FORMATS, PLACES, ROWS, SEEN, WIDTHS, Effect, NoStandIn, operand, row_of, stood_in

PROGRAM = os.environ.get("IA64_PROGRAM")
OBJDUMP = shutil.which("ia64-linux-gnu-objdump")
needs_program = unittest.skipUnless(PROGRAM, "IA64_PROGRAM names no program")
needs_objdump = unittest.skipUnless(OBJDUMP, "GNU objdump for ia64 isn't installed")
WORDS_OF_A_ROW = 12

# A bundle for an instruction of each unit, and the slot of it there.
HOMES = {"m": (0x01, 0), "i": (0x01, 1), "f": (0x0D, 1), "b": (0x11, 2), "x": (0x05, 2)}


def home(unit, word, low=0):
    """A bundle with this instruction, nops beside it and a stop behind it; `low` is the word of the L slot."""
    template, slot = HOMES[unit]
    words = tuple(NOPS[other] for other in UNITS[template & ~1])
    bundle = Bundle(template, words).with_word(slot, word)
    return bundle.with_word(1, low) if unit == "x" else bundle


def random_word(row, draw):
    """A word of a row, with random operands."""
    pattern = row.pattern
    while True:
        word = draw.getrandbits(41) & ~pattern.blank & ~pattern.mask | pattern.fixed
        for low, mask, values in pattern.choices:
            word = word & ~(mask << low) | draw.choice(sorted(values)) << low
        if row.is_of(word):
            return word


def random_words(count=WORDS_OF_A_ROW):
    """(row, unit, word, word of the L slot) for words of all rows, always the same ones."""
    draw = random.Random(1)
    return [(row, unit, random_word(row, draw), draw.getrandbits(39) << 2)
            for row in ROWS for unit in row.units for _ in range(count)]


def ask(word, data):
    """What the program prints, and its status."""
    done = subprocess.run([PROGRAM, word], input=data, stdout=subprocess.PIPE, check=False)
    return done.returncode, done.stdout


def listed(bundles):
    """The texts of the slots of bundles, as `ia64 list` prints them."""
    status, image = ask("wrap", b"".join(bundle.packed() for bundle in bundles))
    if status != 0:
        raise AssertionError(f"wrap: {image.decode()}")
    rows = []
    for line in ask("list", image)[1].decode().splitlines():
        if line.startswith("  "):
            rows[-1].append(line[2:].replace(" ;;", ""))
        else:
            rows.append([])
    return rows


def gnu_texts(bundles):
    """The texts of the slots of bundles, as GNU objdump prints them: three for each, of which the last one of a long
    instruction is empty."""
    with tempfile.TemporaryDirectory() as folder:
        path = os.path.join(folder, "code")
        with open(path, "wb") as file:
            file.write(b"".join(bundle.packed() for bundle in bundles))
        text = subprocess.run([OBJDUMP, "-D", "-z", "-b", "binary", "-m", "ia64-elf64", path],
                              stdout=subprocess.PIPE, check=True).stdout.decode()
    texts = [re.sub(r"^(\[\w+\])? *", "", found[1]).replace(";;", "").strip()
             for found in re.finditer(r"^ *[0-9a-f]+:\t[0-9a-f ]+\t?(.*)$", text, re.M)]
    return [texts[at:at + 3] for at in range(0, len(texts), 3)]


# ---- A reader of texts, of GNU's and of the program's ---------------------------------------------------------------------

class Text(NamedTuple):
    """What an instruction reads and writes by its text."""
    mnemonic: str
    guard: int
    writes: FrozenSet[str]
    reads: FrozenSet[str]
    kind: Optional[str]                # of a compare
    way: Optional[str]                 # a branch, a call or a check
    target: Optional[int]


ESTIMATES = ("frcpa", "frsqrta", "fprcpa", "fprsqrta")           # they write their predicate under each guard
WAYS = (("brl.call", "call"), ("br.call", "call"), ("brl", "branch"), ("br.cond", "branch"), ("chk", "check"),
        ("fchkf", "check"))
REGISTER = r"\b(?:[rfpb]\d+|ar\.\w+|ar\d+)\b"
NO_REGISTERS = {"r0", "p0", "f0", "f1"}


def registers(text):
    return set(re.findall(REGISTER, text)) - NO_REGISTERS


def read_text(text):
    """The accesses of `(p6) mnemonic targets=sources`. What is in brackets is read on both sides."""
    found = re.match(r"(?:\(p(\d+)\) )?(\S+) ?(.*)$", text)
    guard, mnemonic, operands = int(found[1] or 0), found[2], found[3]
    left, equals, right = operands.partition("=")
    writes = registers(re.sub(r"\[.*?\]", "", left)) if equals else set()
    reads = registers(right if equals else operands) | {name for part in re.findall(r"\[(.*?)\]", left)
                                                        for name in registers(part)}
    updated = re.search(r"\[(r\d+)\](=[rf]\d+)?,(-?\d+|r\d+)$" if mnemonic.startswith(("st", "lfetch")) else
                        r"^f?[rf]\d+(?:,f\d+)?=\[(r\d+)\],", operands)
    if updated and not mnemonic.startswith(("cmp", "xchg", "fetchadd", "lfetch.count")):
        writes.add(updated[1])
    if mnemonic.startswith(("chk.a", "invala")):
        reads = set()
    if mnemonic in ("cover", "clrrrb"):
        writes.add("cfm")
    if mnemonic.startswith("ld8.fill"):
        reads.add("ar.unat")
    if mnemonic.startswith("st8.spill"):
        writes.add("ar.unat")
    target = re.search(r"\b0x([0-9a-f]+)$", operands)
    return Text(mnemonic, guard, frozenset(writes), frozenset(reads), kind_of(mnemonic, writes),
                next((way for start, way in WAYS if mnemonic.startswith(start)), None), target and int(target[1], 16))


def kind_of(mnemonic, writes):
    """How a compare writes, by its completers."""
    if not any(name.startswith("p") for name in writes):
        return None
    if mnemonic.split(".")[0] in ESTIMATES:
        return "unc"
    found = re.search(r"\.(unc|and|or\.andcm|or)(?=\.s[0-3]$|$)", mnemonic)
    return found[1] if found else "normal"


def in_profile(names):
    """Those of the registers that the profile has."""
    return {name for name in names if name[0] in "rpb" or name in ("cfm", "ar.unat", "ar.pfs", "ar.lc", "ar.ec")}


def of_row(row, word):
    """What a row says of a word, by the names of registers: the written and the read ones, but for what has no name in a
    text."""
    def names(operands):
        named = {f"{name[0]}{operand(name, word)}" if name in PLACES else name for name in operands}
        return named - NO_REGISTERS - {"fpsr", "system", "ar3"}
    return names(row.writes), names(row.reads)


def is_named(mnemonic, row):
    return any(mnemonic == name or mnemonic.startswith(f"{name}.") for name in row.mnemonic.split("/"))


def without_target(bundle):
    """The bundle with a displacement of 0 for each branch and check."""
    for slot, _ in branches(bundle):
        bundle = with_branch(bundle, slot, 0)
    return bundle


def texts_of_the_profile():
    """Instructions of the profile by their units, of all kinds of which a row has a neighbour."""
    sizes, hints = (1, 2, 4, 8), ("", ".nt1", ".nta")
    loads = [f"ld{size}{kind}" for size in sizes for kind in
             ("", ".s", ".a", ".sa", ".bias", ".acq", ".c.clr", ".c.nc", ".c.clr.acq")] + ["ld8.fill"]
    stores = [f"st{size}{kind}" for size in sizes for kind in ("", ".rel")] + ["st8.spill"]
    yield from (("m", f"{load}{hint} r8=[r9]{more}") for load in loads for hint in hints for more in ("", ",r10", ",-7"))
    yield from (("m", f"{store}{hint} [r9]=r8{more}") for store in stores for hint in ("", ".nta") for more in ("", ",-7"))
    yield from (("m", f"xchg{size}{hint} r8=[r9],r10") for size in sizes for hint in hints)
    yield from (("m", f"fetchadd{size}.{kind}{hint} r8=[r9],-4") for size in (4, 8) for kind in ("acq", "rel")
                for hint in hints)
    yield from (("m", text) for text in (
        "chk.s.m r8,here", "chk.a.nc r8,here", "chk.a.clr r8,here", "invala", "invala.e r8", "mf", "mov.m ar.unat=r8",
        "mov.m r8=ar.unat", "mov.m ar.unat=5", "alloc r8=ar.pfs,1,2,3,0", "break.m 5", "nop.m 5", "hint.m 5"))
    pairs = [f"{name}{size}{kind}" for size in (1, 2, 4) for name, kind in
             (("padd", ""), ("psub", ""), ("pcmp", ".eq"), ("pcmp", ".gt"))]
    shared = [f"{name} r8=r9,r10" for name in ("add", "sub", "addp4", "and", "andcm", "or", "xor", *pairs)]
    shared += [f"{name} r8=-5,r10" for name in ("sub", "and", "andcm", "or", "xor", "adds", "addp4")]
    shared += [f"{name} r8=r9,{count},r10" for name in ("shladd", "shladdp4") for count in (1, 2, 3, 4)]
    shared += ["add r8=r9,r10,1", "sub r8=r9,r10,1", "addl r8=-70000,r3"]
    shared += [f"cmp{size}.{kind} p6,p7={one},r9" for size in ("", "4") for one in ("r8", "-5") for kind in
               [f"{name}{unc}" for name in ("lt", "ltu", "eq") for unc in ("", ".unc")]
               + [f"{name}.{kind}" for name in ("eq", "ne") for kind in ("and", "or", "or.andcm")]]
    shared += [f"cmp{size}.{name}.{kind} p6,p7=r0,r9" for size in ("", "4") for name in ("gt", "le", "ge", "lt")
               for kind in ("and", "or", "or.andcm")]
    yield from ((unit, text) for unit in "mi" for text in shared)
    yield from (("i", f"{name} r8=r9,r10") for name in ("shr", "shr.u", "shl"))
    yield from (("i", f"{name} r8=r9") for name in ("popcnt", "zxt1", "zxt2", "zxt4", "sxt1", "sxt2", "sxt4"))
    yield from (("i", text) for text in (
        "shrp r8=r9,r10,40", "extr r8=r9,7,20", "extr.u r8=r9,7,20", "dep.z r8=r9,7,20", "dep.z r8=-5,7,20",
        "dep r8=-1,r9,7,20", "dep r8=r9,r10,7,16", "tbit.z p6,p7=r9,5", "tbit.z.unc p6,p7=r9,5",
        "tnat.z p6,p7=r9", "tnat.z.unc p6,p7=r9",
        "chk.s.i r8,here", "mov b6=r8", "mov.ret.sptk.imp b6=r8,3", "mov r8=b6", "mov pr=r8,0x1fffe", "mov pr.rot=0x10000",
        "mov r8=ip", "mov r8=pr", "break.i 5", "nop.i 5", "hint.i 5"))
    yield from (("i", f"mov.i {text}") for name in ("ar.pfs", "ar.lc", "ar.ec")
                for text in (f"{name}=r8", f"r8={name}", f"{name}=5"))
    yield from (("f", text) for text in ("break.f 5", "nop.f 5"))
    yield from (("b", text) for text in (
        "br.cond.sptk.few here", "br.wexit.dptk.many here", "br.wtop.sptk.few here", "br.cloop.sptk.few here",
        "br.cexit.sptk.few here", "br.ctop.sptk.few here", "br.call.sptk.many.clr b6=here", "br.cond.spnt.few b6",
        "br.ret.sptk.many b0", "br.call.sptk.many b6=b7", "clrrrb", "clrrrb.pr", "break.b 5", "nop.b 5", "hint.b 5"))
    yield from (("x", text) for text in ("movl r8=-5", "break.x 5", "nop.x 5"))


def words_of_the_profile():
    """The words of those, as the program assembles them: unit, word and text."""
    shapes = {"m": "mii", "i": "mii", "f": "mfi", "b": "mib", "x": "mlx"}
    wanted = [(unit, text) for unit, text in texts_of_the_profile()]
    lines = ["here:"]
    for unit, text in wanted:
        slots = ["nop"] * (2 if unit == "x" else 3)
        slots[1 if unit == "x" else HOMES[unit][1]] = text
        lines += ["{ ." + shapes[unit], *slots, ";;", "}"]
    status, image = ask("build", "\n".join(lines).encode())
    if status != 0:
        raise AssertionError(image.decode())
    bundles = [split(image[at:at + 16]) for at in range(24, len(image), 16)]
    return [(unit, bundle.words[HOMES[unit][1]], text) for (unit, text), bundle in zip(wanted, bundles)]


# The mnemonics in the profile that no row has, of all opcodes without a large immediate.
IN_PROFILE = {"mi": "add addp4 adds and andcm break hint nop or padd4 pcmp1 pcmp2 pcmp4 psub4 shladd shladdp4 sub xor",
              "m": "alloc fetchadd4 fetchadd8 xchg1 xchg2 xchg4 xchg8",
              "i": "chk dep extr popcnt shl shr shrp sxt1 sxt2 sxt4 zxt1 zxt2 zxt4",
              "f": "break nop", "b": "break clrrrb hint nop", "x": "break nop"}


class StandIns(unittest.TestCase):
    """Each row by random words of it."""

    @classmethod
    def setUpClass(cls):
        cls.words = random_words()
        cls.bundles = [home(unit, word, low) for _, unit, word, low in cls.words]
        cls.gnu = []
        if OBJDUMP:
            texts = gnu_texts(cls.bundles)
            cls.gnu = [read_text(text[1 if unit == "x" else HOMES[unit][1]])
                       for (_, unit, _, _), text in zip(cls.words, texts)]

    def test_formats(self):
        """Each format has 41 bits, and each operand stands in its place."""
        for row in ROWS:
            pattern = row.pattern
            bits = sum(width for _, width in pattern.fields.values()) + bin(pattern.blank).count("1")
            self.assertEqual(bits, 41, row.format)
            for name in set(pattern.fields) & set(PLACES):
                self.assertEqual(pattern.fields[name], (PLACES[name], WIDTHS[name]), row.format)
            for name in row.writes + row.reads:
                self.assertTrue(name not in PLACES or name in pattern.fields, f"{row.mnemonic} has no {name}")
        self.assertEqual({row.format for row in ROWS}, set(FORMATS))

    def test_one_row(self):
        """A word is of one row, and `row_of` finds it."""
        for row, unit, word, _ in self.words:
            self.assertEqual([other for other in ROWS if unit in other.units and other.is_of(word)], [row], hex(word))
            self.assertIs(row_of(unit, word), row)

    def test_no_instruction(self):
        """Nops, words of the profile and words that no instruction has are of no row."""
        for unit, nop in NOPS.items():
            self.assertIsNone(row_of(unit, nop))
        fcmp = 4 << 37 | 6 << 27 | 8 << 13 | 9 << 20
        self.assertIsNotNone(row_of("f", fcmp | 7 << 6))
        for unit, word in (("f", fcmp | 6 << 6),                                    # fcmp.eq p6,p6=f8,f9
                           ("m", 4 << 37 | 0x1C << 30 | 1 << 27),                   # getf.sig r0=f0
                           ("m", 6 << 37 | 1 << 36 | 2 << 30 | 8 << 6),             # ldfs f8=[r0],r0
                           ("m", 6 << 37 | 2 << 30 | 1 << 6 | 9 << 20),             # ldfs f1=[r9]
                           ("m", 6 << 37 | 2 << 30 | 8 << 6 | 9 << 20 | 1 << 13),   # ldfs f8=[r9] with a bit in a blank
                           ("i", 5 << 37 | 1 << 36 | 6 << 6 | 6 << 27),             # tbit.z.and p6,p6=r0,0
                           ("m", 1 << 37 | 0x2A << 27 | 17 << 20 | 8 << 13),        # mov.m ar.bsp=r8
                           ("m", 1 << 37 | 0x2A << 27 | 36 << 20 | 8 << 13),        # mov.m ar.unat=r8
                           ("i", 0x2A << 27 | 64 << 20 | 8 << 13),                  # mov.i ar.pfs=r8
                           ("l", fcmp)):
            self.assertIsNone(row_of(unit, word), hex(word))

    def test_unseen(self):
        """A row says of all that it names beside the registers of the profile that it isn't looked at."""
        for row in ROWS:
            self.assertEqual(bool(row.unseen), bool(set(row.writes + row.reads) - SEEN), row.mnemonic)

    @needs_objdump
    def test_mnemonics(self):
        """GNU calls each word what its row does."""
        for (row, _, word, _), text in zip(self.words, self.gnu):
            self.assertTrue(is_named(text.mnemonic, row), f"{row.format} {row.mnemonic}: {text.mnemonic} {word:#x}")

    @needs_objdump
    def test_accesses(self):
        """By GNU's text each word reads and writes what its row says, floating-point registers too."""
        for (row, _, word, _), text in zip(self.words, self.gnu):
            with self.subTest(row=row.mnemonic, form=row.format, text=text):
                writes, reads = of_row(row, word)
                written = {name for name in text.writes if not re.match(r"ar\.(?!ccv|csd)|ar\d|cfm", name)}
                read = {name for name in text.reads if not re.match(r"ar\.(?!ccv|csd)|ar\d", name)}
                self.assertEqual((writes, reads), (written, read))

    @needs_objdump
    @needs_program
    def test_stand_ins(self):
        """A stand-in reads and writes by the program's text what GNU's text says of the instruction, of the registers that
        the profile has; it has the same guard, the same kind of compare, and the same way and target. The program takes
        it."""
        rows = [(bundle, text, row, stood_in(bundle)) for bundle, text, (row, *_) in
                zip(self.short_bundles(), self.gnu, self.words) if not row.none]
        texts = listed([without_target(found.bundle) for *_, found in rows])
        for (bundle, text, row, found), slots in zip(rows, texts):
            (old, of), = found.rows.items()
            self.assertIs(of, row)
            slot = max(new for new, at in found.slots.items() if at == old)
            made = read_text(slots[slot])
            with self.subTest(row=row.mnemonic, form=row.format, text=text, made=made):
                self.assertEqual(in_profile(made.writes), in_profile(text.writes))
                self.assertEqual(in_profile(made.reads), in_profile(text.reads) if text.mnemonic[:3] != "brp" else set())
                self.assertEqual((made.guard, made.kind, made.way), (text.guard, text.kind, text.way))
                self.assertEqual(dict(branches(found.bundle)).get(slot), dict(branches(bundle)).get(old))

    def short_bundles(self):
        """The bundles, with near targets of long branches."""
        return [with_long_displacement(bundle, -5) if row.effect in (Effect.BRANCH, Effect.CALL) else bundle
                for bundle, (row, *_) in zip(self.bundles, self.words)]

    @needs_objdump
    def test_targets(self):
        """The targets of floating-point checks are where GNU finds them."""
        checks = [(text, bundle, number) for number, (text, bundle, (row, *_)) in
                  enumerate(zip(self.gnu, self.bundles, self.words)) if row.effect is Effect.CHECK]
        self.assertTrue(checks)
        for text, bundle, number in checks:
            (_, away), = branches(bundle)
            self.assertEqual(16 * (number + away) % (1 << 64), text.target, text)

    @needs_objdump
    def test_nothing_is_left_out(self):
        """Each mnemonic that GNU finds for any opcode is of a row or of the profile."""
        words = [(unit, op << 37 | high << 27 | low) for unit, operations, step in
                 (("m", range(9), 1), ("i", range(9), 1), ("f", (0, 1, 4, 5), 1), ("f", range(8, 15), 128), ("b", range(8), 1),
                  ("x", (0, 6, 0xC, 0xD), 1)) for op in operations for high in range(0, 1024 if unit in "mif" else 64, step)
                 for low in (5 << 6 | 6 << 13 | 7 << 20,)]
        words += [(unit, word | 1 << 26) for unit in "mifbx" for word in (1 << 27, 2 << 37)]
        words += [("i", 5 << 37 | high << 33 | 1 << 19 | 1 << 13 | 7 << 6) for high in (0, 1, 8, 9)]
        texts = gnu_texts([home(unit, word) for unit, word in words])
        found = {(unit, read_text(text[1 if unit == "x" else HOMES[unit][1]]).mnemonic.split(".")[0])
                 for (unit, _), text in zip(words, texts)} - {(unit, "data8") for unit in "mifbx"}
        known = {(unit, name.split(".")[0]) for row in ROWS for unit in row.units for name in row.mnemonic.split("/")}
        wanted = {(unit, name) for units, names in IN_PROFILE.items() for unit in units for name in names.split()}
        self.assertEqual(found - known, wanted)

    @needs_objdump
    def test_application_registers(self):
        """Moves of all that have a name for GNU, but in the profile, and of those that are ignored. Two can't be written."""
        ignored = {*range(48, 64), *range(112, 128)}
        for read, x6 in ((True, 0x22), (False, 0x2A)):
            words = [1 << 37 | x6 << 27 | number << 20 | 8 << (6 if read else 13) for number in range(128)]
            texts = [text[0] for text in gnu_texts([home("m", word) for word in words])]
            named = {number for number, text in enumerate(texts) if not re.search(r"\bar(\d|\.(unat|pfs|lc|ec))", text)}
            self.assertEqual({number for number, word in enumerate(words) if row_of("m", word)},
                             (named | ignored) - (set() if read else {17, 45}))

    @needs_program
    def test_words_of_the_profile(self):
        """No row has words of the profile."""
        words = words_of_the_profile()
        self.assertGreater(len(words), 600)
        for unit, word, text in words:
            self.assertIsNone(row_of(unit, word), text)

    @needs_program
    def test_no_row_is_of_the_profile(self):
        """The program refuses words of each row where they stand."""
        draw = random.Random(2)
        for row in ROWS:
            for unit in row.units:
                bundle = without_target(home(unit, random_word(row, draw)))
                slot = {"x": 1}.get(unit, HOMES[unit][1])
                self.assertEqual(ask("wrap", bundle.packed()), (3, f"image: bundle 0 slot {slot}: unlisted\n".encode()),
                                 row.mnemonic)

    def test_kinds_of_compares(self):
        """A compare writes predicates, and nothing else does."""
        for row in ROWS:
            self.assertEqual(row.effect in COMPARES, "p2" in row.writes, row.mnemonic)


class StoodInBundles(unittest.TestCase):
    """Whole bundles."""

    def test_nothing_to_do(self):
        bundle = Bundle(0x11, (NOPS["m"], NOPS["i"], NOPS["b"]))
        self.assertEqual(stood_in(bundle), (bundle, {}, {0: 0, 1: 1, 2: 2}))
        long = Bundle(0x05, (NOPS["m"], 0, NOPS["x"]))
        self.assertEqual(stood_in(long), (long, {}, {0: 0, 1: 1}))

    def test_several(self):
        """Two slots, one of which changes the template; stops stay."""
        setf = 6 << 37 | 0x1C << 30 | 1 << 27 | 33 << 13 | 6 << 6 | 7          # (p7) setf.sig f6=r33
        fcmp = 4 << 37 | 9 << 27 | 6 << 13 | 7 << 20 | 8 << 6                  # fcmp.eq p8,p9=f6,f7
        add = 8 << 37 | 32 << 20 | 32 << 6
        for template, new in ((0x0C, 0x00), (0x0D, 0x01)):
            found = stood_in(Bundle(template, (setf, fcmp, add)))
            self.assertEqual(found.bundle.template, new)
            self.assertEqual({slot: row.mnemonic for slot, row in found.rows.items()}, {0: "setf", 1: "fcmp"})
            self.assertEqual(found.slots, {0: 0, 1: 1, 2: 2})
            self.assertEqual(found.bundle.words[2], add)

    @needs_program
    def test_texts(self):
        """Some stand-ins as they print."""
        setf = 6 << 37 | 0x1C << 30 | 1 << 27 | 33 << 13 | 6 << 6 | 7          # (p7) setf.sig f6=r33
        frcpa = 1 << 33 | 6 << 27 | 9 << 20 | 8 << 13 | 10 << 6 | 5            # (p5) frcpa.s0 f10,p6=f8,f9
        update = 7 << 37 | 3 << 30 | 40 << 20 | 8 << 13 | 6 << 6               # ldfd f6=[r40],8
        call = 0xD << 37                                                       # brl.call.sptk.few b0=.
        cases = ((home("m", setf), 0, "(p7) st8 [r0]=r33"),
                 (home("m", update), 0, "st8 [r40]=r0,0"),
                 (home("f", frcpa), 1, "(p5) cmp.eq.unc p0,p6=r0,r0"),
                 (home("f", frcpa & ~(63 << 27)), 1, "(p5) nop.f 0x0"),
                 (home("x", call), 2, "br.call.sptk.few b0=L4"),
                 (home("b", 2 << 27), 2, "clrrrb"))
        for (_, slot, text), texts in zip(cases, listed([stood_in(bundle).bundle for bundle, *_ in cases])):
            self.assertEqual(texts[slot], text)

    def test_long_branches(self):
        """A long branch is at slot 1, and its stand-in at slot 2 of another template."""
        bundle = with_long_displacement(Bundle(0x05, (NOPS["m"], 0, 0xC << 37 | 6)), -7)
        found = stood_in(bundle)
        self.assertEqual((found.bundle.template, found.slots), (0x11, {0: 0, 1: 1, 2: 1}))
        word = found.bundle.words[2]
        self.assertEqual((word >> 37, word & 63, list(branches(found.bundle))), (4, 6, [(2, -7)]))
        for value in (1 << 20, -(1 << 20) - 1, 1 << 58):
            self.assertEqual(long_displacement(with_long_displacement(bundle, value)), value)
            with self.assertRaises(NoStandIn) as raised:
                stood_in(with_long_displacement(bundle, value))
            self.assertEqual((raised.exception.slot, raised.exception.row.mnemonic), (1, "brl"))

    def test_none(self):
        """Where nothing stands in for an instruction, its slot, its row and the reason are said."""
        flushrs = 0xC << 27
        with self.assertRaises(NoStandIn) as raised:
            stood_in(Bundle(0x08, (NOPS["m"], flushrs, NOPS["i"])))
        self.assertEqual((raised.exception.slot, raised.exception.row.mnemonic), (1, "flushrs"))
        self.assertIn("first", raised.exception.why)


if __name__ == "__main__":
    unittest.main()
