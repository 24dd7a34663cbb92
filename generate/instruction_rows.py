"""The table of instructions: one row for each operation and form. It is imported, and not called.

It is made by hand from the manual (volume 3, chapter 4), and never from the program. The formats and their numbers are the
manual's. A row says how the GNU assembler is given the instruction, how its canonical line differs from that, and between which
values each operand lies. Both texts are made of the same values.

The canonical line has the assembler's text, but for

- masks, which are 17 bits in hexadecimal there,
- tags, which count bundles,
- targets, which are labels,
- the numbers that the assembler reads otherwise (`long_number`, `memory_hint_number`),
- `alloc`, which has no inputs there.
"""

from string import Template

from gnu_as import HOMES, units

# The number of the bundle where a canonical line stands, so that no target is before bundle 0.
HERE = 1 << 20


class Operand:
    """An operand: its lowest and highest value, the step between two values, and how the assembler and
    the canonical line write one, which do so alike if nothing else is said. Of a choice among words,
    each word has to be tried."""

    def __init__(self, low, high, text=str, line=None, step=1, is_choice=False):
        self.low, self.high, self.step = low, high, step
        self.text, self.line, self.is_choice = text, line or text, is_choice

    def draw(self, random):
        return self.low + self.step * random.randrange((self.high - self.low) // self.step + 1)

    def all(self):
        return range(self.low, self.high + 1, self.step)

    def single_bits(self):
        """Where the operand has more than 8 bits: the values with just one of them."""
        wide = self.high - self.low > 255
        powers = (1 << bit for bit in range(64)) if wide else ()
        return [power for power in powers if power < self.high and power % self.step == 0]


def choice(*words):
    """One of some words."""
    return Operand(0, len(words) - 1, lambda n: words[n], is_choice=True)


def register(letter, low, high):
    return Operand(low, high, lambda n: f"{letter}{n}")


def signed(bits):
    return Operand(-(1 << bits - 1), (1 << bits - 1) - 1)


def unsigned(bits, line=hex):
    return Operand(0, (1 << bits) - 1, hex, line)


def bundles_away(bits, line):
    """A distance in bundles, which the assembler is given in bytes. `%` is the bundle's address."""
    here = signed(bits)
    return Operand(here.low, here.high, lambda n: f"%{16 * n:+d}", line)


def label(distance):
    """The label of the bundle so many bundles away from the one where a canonical line stands."""
    return f"L{HERE + distance}"


def long_number(number):
    """The number of `nop.x` and `break.x` whose parts the assembler puts where it puts those of this
    number: there the L slot stands above bit 36 of the X slot, and in the profile below it."""
    high, middle, low = number >> 21, number >> 20 & 1, number & 0xFFFFF
    return hex(middle << 61 | high << 20 | low)


def memory_hint_number(number):
    """The number of `hint.m` whose bits the assembler sets for this number: it leaves out bits 11:10
    of the word, and has 19 bits in place of 21."""
    sign, middle, low = number >> 18, number >> 4 & 0x3FFF, number & 0xF
    return hex(sign << 20 | middle << 6 | low)


GR, TARGET, LOW_GR = (register("r", low, high) for low, high in ((0, 127), (1, 127), (0, 3)))
PR, P0 = register("p", 0, 63), register("p", 0, 0)
BR = register("b", 0, 7)
COUNT, POSITION, LENGTH = Operand(0, 63), Operand(0, 63), Operand(1, 64)
FOUR = choice("", "4")
UNC = choice("", ".unc")
LOAD_HINT = choice("", ".nt1", ".nta")
STORE_HINT = choice("", ".nta")
SIZE = choice("1", "2", "4", "8")
PART_SIZE = choice("1", "2", "4")
LOAD_KIND = choice("", ".s", ".a", ".sa", ".bias", ".acq", ".c.clr", ".c.nc", ".c.clr.acq")
STORE_KIND = choice("", ".rel")
SEMAPHORE = choice(".acq", ".rel")
INCREMENT = choice("1", "4", "8", "16", "-1", "-4", "-8", "-16")
COMPARED = choice("lt", "ltu", "eq")
EQUAL = choice("eq", "ne")
SIGN = choice("gt", "le", "ge", "lt")
WRITTEN = choice("", ".unc")
PARALLEL = choice(".and", ".or", ".or.andcm")
WH = choice(".sptk", ".spnt", ".dptk", ".dpnt")
PH = choice(".few", ".many")
CLR = choice("", ".clr")
I_AR = choice("ar.pfs", "ar.lc", "ar.ec")
AFTER_BRANCH = {"wh": WH, "many": PH, "clr": CLR}
NUMBER = unsigned(21)
LONG_NUMBER = unsigned(62, long_number)
TO_BUNDLE = bundles_away(21, label)


class Row:
    """An operation in one form.

    `family` is the letter of the formats, `name` that of the operation, and `zero` names bits that have
    to be zero in each word of the row and make it no other row's if they are set. `goes` says of a
    template's code and a slot whether the instruction may stand there, and `gnu` whether the assembler
    takes it there. `keep` refuses values that do not go together, and `more` makes further texts of the
    values. `line` is the canonical line where it has other parts than the assembler's text."""

    def __init__(self, family, name, text, zero="", qualified=True, goes=None, gnu=None, keep=None,
                 more=None, line=None, **operands):
        self.family, self.name = family, name
        self.text, self.line = Template(text), Template(line or text)
        self.zero = [bit for span in zero.split() for bit in bits_of(span)]
        self.operands = {"qp": PR if qualified else P0, **operands}
        self.goes = goes or anywhere
        self.gnu = gnu or self.goes
        self.keep, self.more = keep or anything, more or nothing
        self.units = "mi" if family == "A" else family.lower()
        self.has_target = operands.get("r1") is TARGET
        self.has_predicates = "p1" in operands

    def spell(self, values):
        """The instruction with these values of its operands."""
        texts = {name: operand.text(values[name]) for name, operand in self.operands.items()}
        canonical = {name: operand.line(values[name]) for name, operand in self.operands.items()}
        more = self.more(values)
        qp = f"(p{values['qp']}) " if values["qp"] else ""
        return Instruction(
            self, qp + self.text.substitute(texts, **more),
            f"  {qp}{self.line.substitute(canonical, **more)}")

    def draw(self, random, **fixed):
        """An instruction with these values for some operands, and drawn ones for the others."""
        return self.spell(self.draw_values(random, **fixed))

    def draw_values(self, random, **fixed):
        """Values that go together: these for some operands, and drawn ones for the others."""
        while True:
            values = {name: fixed.get(name, operand.draw(random))
                      for name, operand in self.operands.items()}
            if self.keep(values):
                return values

    def draw_ends(self, random, **fixed):
        """An instruction with these values for some operands, and the others at an end each."""
        while True:
            values = {name: fixed.get(name, random.choice((operand.low, operand.high)))
                      for name, operand in self.operands.items()}
            if self.keep(values):
                return self.spell(values)

    def cases(self, random, drawn):
        """The instructions that try the row: each combination of choices twice, with drawn operands
        and with operands at their ends, each operand at its ends and at single bits, all operands at
        their lowest and all at their highest value where they go together, and some drawn ones."""
        cases = []
        for fixed in combinations(self.operands):
            cases.append(self.draw(random, **fixed))
            cases.append(self.draw_ends(random, **fixed))
        for name, operand in self.operands.items():
            if not operand.is_choice and operand.low != operand.high:
                for value in (operand.low, operand.high, *operand.single_bits()):
                    cases.append(self.draw(random, **{name: value}))
        for end in ("low", "high"):
            values = {name: getattr(operand, end) for name, operand in self.operands.items()}
            if self.keep(values):
                cases.append(self.spell(values))
        cases.extend(self.draw(random) for _ in range(drawn))
        return cases


class Instruction:
    """An instruction, as the assembler's text and as the canonical line, without a stop. One that the
    profile leaves out has neither a row nor a line."""

    def __init__(self, row, text, line):
        self.row, self.text, self.line = row, text, line

    def goes(self, code, slot):
        """Whether it may stand in this slot, as far as its row says."""
        return self.row is None or self.row.goes(code, slot)

    def home(self, code, slot):
        """Where the assembler takes it, as a template's code and a slot: in this slot, if may be."""
        unit = units(code)[slot]
        if self.row is None:
            return HOMES[unit]
        if unit in self.row.units:
            return (code, slot) if self.row.gnu(code, slot) else HOMES[unit]
        return HOMES[self.row.units[0]]


def combinations(operands):
    """Each combination of the values of the choices among these operands."""
    answers = [{}]
    for name, operand in operands.items():
        if operand.is_choice:
            answers = [{**answer, name: value} for answer in answers for value in operand.all()]
    return answers


def bits_of(span):
    first, _, last = span.partition("-")
    return range(int(first), int(last or first) + 1)


def anywhere(_code, _slot):
    return True


def anything(_values):
    return True


def nothing(_values):
    return {}


def in_slot_2(_code, slot):
    return slot == 2


def in_slot_0(_code, slot):
    return slot == 0


def last_of_a_group(code, slot):
    """In slot 2, with a stop after it."""
    return slot == 2 and code % 2 == 1


def differ(*names):
    return lambda values: values[names[0]] != values[names[1]]


def fits_frame(values):
    return values["sol"] <= values["sof"] and 8 * values["sor"] <= values["sof"]


def frame(values):
    """The frame as the assembler has it: inputs, locals, outputs and rotating registers."""
    inputs = values["sol"] // 3
    return {"inputs": inputs, "locals": values["sol"] - inputs,
            "outputs": values["sof"] - values["sol"], "rotating": 8 * values["sor"]}


FRAME = Operand(0, 96)
MASK = Operand(-(1 << 16), (1 << 16) - 2, str, lambda n: hex(n & 0x1FFFE), step=2)
ROTATING = Operand(-(1 << 43), (1 << 43) - (1 << 16), step=1 << 16)
TWO_REGISTERS = {"r1": TARGET, "r2": GR, "r3": GR}
PREDICATES = {"p1": PR, "p2": PR, "keep": differ("p1", "p2")}
FIELD = {"pos": POSITION, "len": LENGTH}
UPDATED = {"r1": TARGET, "r3": TARGET, "keep": differ("r1", "r3")}

ROWS = [
    # A1
    Row("A", "Alu", "$f $r1=$r2,$r3", "33 36",
        f=choice("add", "sub", "addp4", "and", "andcm", "or", "xor"), **TWO_REGISTERS),
    Row("A", "Alu", "$f $r1=$r2,$r3,1", "33 36", f=choice("add", "sub"), **TWO_REGISTERS),
    # A2
    Row("A", "ShlAdd", "shladd$p4 $r1=$r2,$count,$r3", "33 36", p4=choice("", "p4"),
        count=Operand(1, 4), **TWO_REGISTERS),
    # A3
    Row("A", "AluImm8", "$f $r1=$imm,$r3", "33", f=choice("sub", "and", "andcm", "or", "xor"),
        r1=TARGET, imm=signed(8), r3=GR),
    # A4
    Row("A", "AddImm14", "$p4 $r1=$imm,$r3", "33", p4=choice("adds", "addp4"), r1=TARGET,
        imm=signed(14), r3=GR),
    # A5
    Row("A", "AddImm22", "addl $r1=$imm,$r3", r1=TARGET, imm=signed(22), r3=LOW_GR),
    # A6
    Row("A", "Cmp", "cmp$four_bytes.$rel$kind $p1,$p2=$r2,$r3", four_bytes=FOUR, rel=COMPARED, kind=WRITTEN,
        r2=GR, r3=GR, **PREDICATES),
    Row("A", "Cmp", "cmp$four_bytes.$rel$kind $p1,$p2=$r2,$r3", four_bytes=FOUR, rel=EQUAL, kind=PARALLEL,
        r2=GR, r3=GR, **PREDICATES),
    # A7
    Row("A", "CmpZero", "cmp$four_bytes.$rel$kind $p1,$p2=r0,$r3", "13-19", four_bytes=FOUR, rel=SIGN,
        kind=PARALLEL, r3=GR, **PREDICATES),
    # A8
    Row("A", "CmpImm", "cmp$four_bytes.$rel$kind $p1,$p2=$imm,$r3", four_bytes=FOUR, rel=COMPARED, kind=WRITTEN,
        imm=signed(8), r3=GR, **PREDICATES),
    Row("A", "CmpImm", "cmp$four_bytes.$rel$kind $p1,$p2=$imm,$r3", four_bytes=FOUR, rel=EQUAL, kind=PARALLEL,
        imm=signed(8), r3=GR, **PREDICATES),
    # A9
    Row("A", "Lane", "$f$size $r1=$r2,$r3", f=choice("padd", "psub"), size=PART_SIZE,
        **TWO_REGISTERS),
    Row("A", "Lane", "pcmp$size.$f $r1=$r2,$r3", f=choice("eq", "gt"), size=PART_SIZE,
        **TWO_REGISTERS),
    # I5 and I7
    Row("I", "ShiftVar", "$f $r1=$value,$count", "27 32 34 35", f=choice("shr", "shr.u", "shl"),
        r1=TARGET, value=GR, count=GR),
    # I9
    Row("I", "Popcnt", "popcnt $r1=$r3", "13-19 27 29 30 32 35 36", r1=TARGET, r3=GR),
    # I10
    Row("I", "Shrp", "shrp $r1=$r2,$r3,$count", "36", count=COUNT, **TWO_REGISTERS),
    # I11
    Row("I", "Extr", "extr$signed $r1=$r3,$pos,$len", "36", signed=choice(".u", ""), r1=TARGET,
        r3=GR, **FIELD),
    # I12
    Row("I", "DepZ", "dep.z $r1=$r2,$pos,$len", "36", r1=TARGET, r2=GR, **FIELD),
    # I13
    Row("I", "DepZImm", "dep.z $r1=$imm,$pos,$len", r1=TARGET, imm=signed(8), **FIELD),
    # I14
    Row("I", "DepImm", "dep $r1=$ones,$r3,$pos,$len", "13", ones=choice("0", "-1"), r1=TARGET,
        r3=GR, **FIELD),
    # I15
    Row("I", "Dep", "dep $r1=$r2,$r3,$pos,$len", pos=POSITION, len=Operand(1, 16), **TWO_REGISTERS),
    # I16
    Row("I", "Tbit", "tbit.z$unc $p1,$p2=$r3,$pos", "33 35 36", unc=UNC, r3=GR, pos=POSITION,
        **PREDICATES),
    # I17
    Row("I", "Tnat", "tnat.z$unc $p1,$p2=$r3", "14-19 33 35 36", unc=UNC, r3=GR, **PREDICATES),
    # I29
    Row("I", "Ext", "${signed}xt$size $r1=$r3", "13-19 36", signed=choice("z", "s"),
        size=choice("1", "2", "4"), r1=TARGET, r3=GR),
    # I20
    Row("I", "ChkS", "chk.s.i $r2,$disp", r2=GR, disp=TO_BUNDLE),
    # I21
    Row("I", "MovToBr", "mov$ret$wh$imp $b1=$r2,$tag", "9-12 36", ret=choice("", ".ret"),
        wh=choice(".sptk", "", ".dptk"), imp=choice("", ".imp"), b1=BR, r2=GR,
        tag=bundles_away(9, str)),
    # I22
    Row("I", "MovFromBr", "mov $r1=$b2", "16-26 36", r1=TARGET, b2=BR),
    # I23
    Row("I", "MovToPr", "mov pr=$r2,$mask", "20-23 32", r2=GR, mask=MASK),
    # I24
    Row("I", "MovToPrRot", "mov pr.rot=$imm", imm=ROTATING),
    # I25
    Row("I", "MovFromIp", "mov $r1=ip", "13-26 36", r1=TARGET),
    Row("I", "MovFromPr", "mov $r1=pr", "13-26 36", r1=TARGET),
    # I26
    Row("I", "MovToAr", "mov.i $ar=$r2", "6-12 36", ar=I_AR, r2=GR),
    # I27
    Row("I", "MovToArImm", "mov.i $ar=$imm", "6-12", ar=I_AR, imm=signed(8)),
    # I28
    Row("I", "MovFromAr", "mov.i $r1=$ar", "13-19 36", ar=I_AR, r1=TARGET),
    # I19 and I18
    Row("I", "Break", "break.i $imm", "26", imm=NUMBER),
    Row("I", "Nop", "nop.i $imm", imm=NUMBER),
    Row("I", "Hint", "hint.i $imm", imm=NUMBER),
    # M1: with bit 27 some of these are semaphores
    Row("M", "Load", "ld$size$kind$hint $r1=[$r3]", "13-19", size=SIZE, kind=LOAD_KIND,
        hint=LOAD_HINT, r1=TARGET, r3=GR),
    Row("M", "Load", "ld8.fill$hint $r1=[$r3]", "13-19 27", hint=LOAD_HINT, r1=TARGET, r3=GR),
    # M2
    Row("M", "Load", "ld$size$kind$hint $r1=[$r3],$r2", "27", size=SIZE, kind=LOAD_KIND,
        hint=LOAD_HINT, r2=GR, **UPDATED),
    Row("M", "Load", "ld8.fill$hint $r1=[$r3],$r2", "27", hint=LOAD_HINT, r2=GR, **UPDATED),
    # M3
    Row("M", "Load", "ld$size$kind$hint $r1=[$r3],$imm", size=SIZE, kind=LOAD_KIND, hint=LOAD_HINT,
        imm=signed(9), **UPDATED),
    Row("M", "Load", "ld8.fill$hint $r1=[$r3],$imm", hint=LOAD_HINT, imm=signed(9), **UPDATED),
    # M4
    Row("M", "Store", "st$size$kind$hint [$r3]=$r2", "6-12 27 36", size=SIZE, kind=STORE_KIND,
        hint=STORE_HINT, r3=GR, r2=GR),
    Row("M", "Store", "st8.spill$hint [$r3]=$r2", "6-12 27 36", hint=STORE_HINT, r3=GR, r2=GR),
    # M5
    Row("M", "Store", "st$size$kind$hint [$r3]=$r2,$imm", size=SIZE, kind=STORE_KIND,
        hint=STORE_HINT, r3=TARGET, r2=GR, imm=signed(9)),
    Row("M", "Store", "st8.spill$hint [$r3]=$r2,$imm", hint=STORE_HINT, r3=TARGET, r2=GR,
        imm=signed(9)),
    # M16
    Row("M", "Xchg", "xchg$size$hint $r1=[$r3],$r2", "36", size=SIZE, hint=LOAD_HINT,
        **TWO_REGISTERS),
    # M17
    Row("M", "FetchAdd", "fetchadd$size$release$hint $r1=[$r3],$inc", "16-19 36",
        size=choice("4", "8"), release=SEMAPHORE, hint=LOAD_HINT, inc=INCREMENT, r1=TARGET, r3=GR),
    # M20
    Row("M", "ChkS", "chk.s.m $r2,$disp", r2=GR, disp=TO_BUNDLE),
    # M22
    Row("M", "ChkA", "chk.a.$clear $r1,$disp", clear=choice("nc", "clr"), r1=GR, disp=TO_BUNDLE),
    # M24 and M26
    Row("M", "Invala", "invala", "6-26 36"),
    Row("M", "InvalaE", "invala.e $r1", "13-26 36", r1=GR),
    Row("M", "Mf", "mf", "6-26 36"),
    # M29
    Row("M", "MovToAr", "mov.m ar.unat=$r2", "6-12 36", r2=GR),
    # M30
    Row("M", "MovToArImm", "mov.m ar.unat=$imm", "6-12", imm=signed(8)),
    # M31
    Row("M", "MovFromAr", "mov.m $r1=ar.unat", "13-19 36", r1=TARGET),
    # M34: the assembler takes it only first in its group
    Row("M", "Alloc", "alloc $r1=ar.pfs,$inputs,$locals,$outputs,$rotating", "0-5 31 32 36",
        qualified=False, gnu=in_slot_0, keep=fits_frame, more=frame,
        line="alloc $r1=ar.pfs,0,$sol,$outputs,$rotating", r1=TARGET, sof=FRAME, sol=FRAME,
        sor=Operand(0, 12)),
    # M37 and M48
    Row("M", "Break", "break.m $imm", "26", imm=NUMBER),
    Row("M", "Nop", "nop.m $imm", imm=NUMBER),
    Row("M", "Hint", "hint.m $imm", imm=unsigned(19, memory_hint_number)),
    # B1
    Row("B", "Br", "br.cond$wh$many$clr $disp", "9-11", disp=TO_BUNDLE, **AFTER_BRANCH),
    Row("B", "Br", "br.$kind$wh$many$clr $disp", "9-11", goes=in_slot_2,
        kind=choice("wexit", "wtop"), disp=TO_BUNDLE, **AFTER_BRANCH),
    # B2
    Row("B", "Br", "br.$kind$wh$many$clr $disp", "0-5 9-11", qualified=False, goes=in_slot_2,
        kind=choice("cloop", "cexit", "ctop"), disp=TO_BUNDLE, **AFTER_BRANCH),
    # B3
    Row("B", "BrCall", "br.call$wh$many$clr $b1=$disp", "9-11", b1=BR, disp=TO_BUNDLE,
        **AFTER_BRANCH),
    # B4
    Row("B", "BrInd", "br.cond$wh$many$clr $b2", "9-11 16-26 36", b2=BR, **AFTER_BRANCH),
    Row("B", "BrRet", "br.ret$wh$many$clr $b2", "9-11 16-26 36", b2=BR, **AFTER_BRANCH),
    # B5
    Row("B", "BrCallInd", "br.call$wh$many$clr $b1=$b2", "9-11 16-31 36", b1=BR, b2=BR,
        **AFTER_BRANCH),
    # B8: the assembler takes it only last in its group
    Row("B", "Clrrrb", "clrrrb$pred_only", "0-26 33-36", qualified=False, gnu=last_of_a_group,
        pred_only=choice("", ".pr")),
    # B9
    Row("B", "Break", "break.b $imm", "26 33-35", imm=NUMBER),
    Row("B", "Nop", "nop.b $imm", "26 33-35", imm=NUMBER),
    Row("B", "Hint", "hint.b $imm", "26 33-35", imm=NUMBER),
    # F15 and F16
    Row("F", "Break", "break.f $imm", "26 33-35", imm=NUMBER),
    Row("F", "Nop", "nop.f $imm", "26 33-35", imm=NUMBER),
    # X2
    Row("X", "Movl", "movl $r1=$imm", "20", r1=TARGET, imm=unsigned(64)),
    # X1 and X5
    Row("X", "Break", "break.x $imm", "26 33-35", imm=LONG_NUMBER),
    Row("X", "Nop", "nop.x $imm", "26 33-35", imm=LONG_NUMBER),
]


def rows_of(unit, code=None, slot=None):
    """The rows whose instructions stand in a slot of this unit, and in this slot of this template."""
    return [row for row in ROWS
            if unit in row.units and (code is None or row.goes(code, slot))]
