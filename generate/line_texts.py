"""The table of texts of slot lines beside those of the table of instructions, of lines that aren't slots, and of the lexemes
of lines. It is imported, and not called.

In a text `$name` stands for an operand that is drawn (`OPERANDS`), `$n` for the number that is tried, and `%` for the label of the
text's own bundle.
"""

from instruction_rows import BR, GR, I_AR, LOW_GR, PR, TARGET, Operand, choice, register, signed

OPERANDS = {
    "r1": TARGET, "r2": GR, "r3": GR, "low": LOW_GR,
    "high": register("r", 4, 127), "p1": PR, "p2": PR, "b1": BR, "b2": BR,
    "ar": I_AR, "n": Operand(0, 63), "imm8": signed(8), "imm14": signed(14), "imm22": signed(22),
    "less8": Operand(-127, 128), "above14": Operand(8192, (1 << 21) - 1),
    "below14": Operand(-(1 << 21), -8193), "number": Operand(0, (1 << 21) - 1, hex),
    "four": choice("", "4"), "unc": choice("", ".unc"),
}

# What a pseudo-operation means: the units, its text, and the text of the instruction that it is.
PSEUDO = (
    ("mi", "mov $r1=$r3", "adds $r1=0,$r3"),
    ("mi", "mov $r1=$imm22", "addl $r1=$imm22,r0"),
    ("mi", "add $r1=$imm14,$high", "adds $r1=$imm14,$high"),
    ("mi", "add $r1=$above14,$low", "addl $r1=$above14,$low"),
    ("mi", "add $r1=$below14,$low", "addl $r1=$below14,$low"),
    ("mi", "add $r1=8192,$low", "addl $r1=8192,$low"),
    ("mi", "add $r1=-8193,$low", "addl $r1=-8193,$low"),
    ("mi", "cmp$four.ne$unc $p1,$p2=$r2,$r3", "cmp$four.eq$unc $p2,$p1=$r2,$r3"),
    ("mi", "cmp$four.ne$unc $p1,$p2=$imm8,$r3", "cmp$four.eq$unc $p2,$p1=$imm8,$r3"),
    ("mi", "cmp$four.le$unc $p1,$p2=$r2,$r3", "cmp$four.lt$unc $p2,$p1=$r3,$r2"),
    ("mi", "cmp$four.leu$unc $p1,$p2=$r2,$r3", "cmp$four.ltu$unc $p2,$p1=$r3,$r2"),
    ("mi", "cmp$four.gt$unc $p1,$p2=$r2,$r3", "cmp$four.lt$unc $p1,$p2=$r3,$r2"),
    ("mi", "cmp$four.gtu$unc $p1,$p2=$r2,$r3", "cmp$four.ltu$unc $p1,$p2=$r3,$r2"),
    ("mi", "cmp$four.ge$unc $p1,$p2=$r2,$r3", "cmp$four.lt$unc $p2,$p1=$r2,$r3"),
    ("mi", "cmp$four.geu$unc $p1,$p2=$r2,$r3", "cmp$four.ltu$unc $p2,$p1=$r2,$r3"),
    ("mi", "cmp$four.ge$unc $p1,$p2=$imm8,$r3", "cmp$four.lt$unc $p2,$p1=$imm8,$r3"),
    ("mi", "cmp$four.geu$unc $p1,$p2=$imm8,$r3", "cmp$four.ltu$unc $p2,$p1=$imm8,$r3"),
    ("mi", "cmp$four.le$unc $p1,$p2=$less8,$r3", "cmp$four.lt$unc $p1,$p2=($less8-1),$r3"),
    ("mi", "cmp$four.gt$unc $p1,$p2=$less8,$r3", "cmp$four.lt$unc $p2,$p1=($less8-1),$r3"),
    ("i", "shl $r1=$r2,$n", "dep.z $r1=$r2,$n,(64-$n)"),
    ("i", "shr $r1=$r3,$n", "extr $r1=$r3,$n,(64-$n)"),
    ("i", "shr.u $r1=$r3,$n", "extr.u $r1=$r3,$n,(64-$n)"),
    ("i", "tbit.nz$unc $p1,$p2=$r3,$n", "tbit.z$unc $p2,$p1=$r3,$n"),
    ("i", "tnat.nz$unc $p1,$p2=$r3", "tnat.z$unc $p2,$p1=$r3"),
    # a missing unit letter, and numbers and operands that are left out
    ("i", "mov $ar=$r2", "mov.i $ar=$r2"),
    ("i", "mov $r1=$ar", "mov.i $r1=$ar"),
    ("m", "mov ar.unat=$r2", "mov.m ar.unat=$r2"),
    ("m", "mov $r1=ar.unat", "mov.m $r1=ar.unat"),
    ("m", "chk.s $r2,%", "chk.s.m $r2,%"),
    ("i", "chk.s $r2,%", "chk.s.i $r2,%"),
    *((unit, f"{word} $number", f"{word}.{unit} $number")
      for word, its_units in (("nop", "mifb"), ("break", "mifb"), ("hint", "ib")) for unit in its_units),
    ("i", "mov $b1=$r2", "mov $b1=$r2,%"),
    ("i", "mov pr=$r2", "mov pr=$r2,0x1fffe"),
    # the bits of a mask that don't count
    ("i", "mov pr=$r2,-1", "mov pr=$r2,0x1fffe"),
    ("i", "mov pr=$r2,0x1ffff", "mov pr=$r2,0x1fffe"),
    ("i", "mov pr=$r2,-65535", "mov pr=$r2,0x10000"),
    ("i", "mov pr=$r2,3", "mov pr=$r2,2"),
    ("i", "mov pr=$r2,1", "mov pr=$r2,0"),
    # the predicate p0 before what takes no other
    ("b", "(p0) br.cloop.sptk.few %", "br.cloop.sptk.few %"),
    ("b", "(p0) br.ctop.sptk.few %", "br.ctop.sptk.few %"),
    ("b", "(p0) clrrrb", "clrrrb"),
    ("m", "(p0) alloc $r1=ar.pfs,1,2,3,0", "alloc $r1=ar.pfs,1,2,3,0"),
)

# Texts that the assembler takes in other words alone: the units, the text, and the assembler's text.
OTHERWISE = (
    # it wants the number of these
    *((unit, f"{word}{letter}", f"{word}.{unit} 0")
      for word, its_units in (("nop", "mifbx"), ("break", "mifbx"), ("hint", "mib"))
      for unit in its_units for letter in ("", f".{unit}")),
    # and the tag where there is a completer
    *(("i", f"mov{ret}{wh}{imp} $b1=$r2", f"mov{ret}{wh}{imp} $b1=$r2,%")
      for ret in ("", ".ret") for wh in ("", ".sptk", ".dptk") for imp in ("", ".imp")),
    # it takes `addl` for each number, where r3 is r0 to r3
    *(("mi", f"add $r1={number},$low", f"adds $r1={number},$low")
      for number in ("$imm14", "0", "8191", "-8192")),
    # numbers with a leading 0, and the negative zero
    ("i", "nop.i 010", "nop.i 10"),
    ("i", "nop.i 08", "nop.i 8"),
    ("m", "nop.m 000", "nop.m 0"),
    ("mi", "adds $r1=-010,$r3", "adds $r1=-10,$r3"),
    ("mi", "adds $r1=0100,$r3", "adds $r1=100,$r3"),
    ("mi", "adds $r1=-0,$r3", "adds $r1=0,$r3"),
    ("mi", "adds $r1=-0x0,$r3", "adds $r1=0,$r3"),
    ("i", "dep $r1=-0,$r3,0,8", "dep $r1=0,$r3,0,8"),
    ("i", "dep $r1=-0x0,$r3,63,64", "dep $r1=0,$r3,63,64"),
    ("i", "shl $r1=$r2,063", "shl $r1=$r2,63"),
    ("x", "movl $r1=0123456789", "movl $r1=123456789"),
    ("x", "movl $r1=-0", "movl $r1=0"),
    ("b", f"break.b {'0' * 100}5", "break.b 5"),
    ("b", f"break.b 0x{'0' * 100}5", "break.b 5"),
    ("m", f"ld8 r8=[r9],-{'0' * 60}8", "ld8 r8=[r9],-8"),
)

# Labels that are spelled as something else: the units, the text with the label in place of `%`, the
# assembler's text, and the label.
ODD_LABELS = tuple(
    (unit, text.replace("%", label), text, label)
    for unit, text, labels in (
        ("b", "br.cond.sptk.few %", ("r8", "r127", "p6", "b8", "b00", "sp", "gp", "ret0", "ar.lc",
                                     "pr", "pr.rot", "ip", "add", "br.cond", ".text", "data8", "_",
                                     "$", ".", "x.y$z_0")),
        ("b", "br.sptk.many %", ("r0", "tp")),
        ("b", "br.call.sptk.many b1=%", ("r8", "sp", "p0", "pr", "alloc")),
        ("b", "br.wtop.sptk.few %", ("b0", "b7", "rp", "r1")),
        ("b", "br.ctop.dptk.many %", ("b6", "rp")),
        ("m", "chk.s.m r8,%", ("r8", "b0", "rp", "p6", "nop")),
        ("i", "chk.s.i r8,%", ("r9", "ip")),
        ("m", "chk.a.nc r8,%", ("b0", "mov")),
        ("m", "chk.a.clr r8,%", ("r8", "ret3")),
        ("x", "movl r8=%", ("r9", "sp", "p6", "b0", "pr.rot", "movl")),
    )
    for label in labels)

TAG, LONG, MEMORY_HINT, SHORT_SUM = "tag", "long", "memory hint", "short sum"
NUMBER = (0, (1 << 21) - 1)
LONG_NUMBER = (0, (1 << 62) - 1)


def edges(unit, texts, low, high, step=1, past="range", otherwise=None):
    """A number's edges: the units, a text, the lowest and highest number, the step from one to the
    next, the fault of what is past an edge, and what the assembler has otherwise."""
    return [(unit, text, low, high, step, past, otherwise) for text in texts]


FIELD = ("extr r8=r9", "extr.u r8=r9", "dep.z r8=r9", "dep.z r8=5", "dep r8=-1,r9", "dep r8=r9,r10")

EDGES = [
    *edges("mi", ["add r8=r9,r10,$n", "sub r8=r9,r10,$n"], 1, 1),
    *edges("mi", ["shladd r8=r9,$n,r10", "shladdp4 r8=r9,$n,r10"], 1, 4),
    *edges("mi", ["sub r8=$n,r9", "and r8=$n,r9", "andcm r8=$n,r9", "or r8=$n,r9", "xor r8=$n,r9"],
           -128, 127),
    *edges("mi", ["adds r8=$n,r9", "addp4 r8=$n,r9"], -8192, 8191),
    *edges("mi", ["add r8=$n,r4"], -8192, 8191, past="form"),
    *edges("mi", ["addl r8=$n,r3", "mov r8=$n"], -(1 << 21), (1 << 21) - 1),
    *edges("mi", ["add r8=$n,r3"], -(1 << 21), (1 << 21) - 1, otherwise=SHORT_SUM),
    *edges("mi", ["cmp.eq p6,p7=$n,r9", "cmp.lt.unc p6,p7=$n,r9", "cmp.ltu p6,p7=$n,r9",
                  "cmp4.eq.unc p6,p7=$n,r9", "cmp4.lt p6,p7=$n,r9", "cmp4.ltu p6,p7=$n,r9",
                  "cmp.eq.or p6,p7=$n,r9", "cmp.ne.and p6,p7=$n,r9", "cmp4.ne.or.andcm p6,p7=$n,r9",
                  "cmp.ne p6,p7=$n,r9", "cmp.ge p6,p7=$n,r9", "cmp4.geu.unc p6,p7=$n,r9"], -128, 127),
    *edges("mi", ["cmp.le p6,p7=$n,r9", "cmp.gt p6,p7=$n,r9", "cmp4.le.unc p6,p7=$n,r9",
                  "cmp4.gt p6,p7=$n,r9"], -127, 128),
    *edges("i", ["shl r8=r9,$n", "shr r8=r9,$n", "shr.u r8=r9,$n", "shrp r8=r9,r10,$n",
                 "tbit.z p6,p7=r8,$n", "tbit.nz.unc p6,p7=r8,$n"], 0, 63),
    *edges("i", [f"{text},$n,1" for text in FIELD], 0, 63),
    *edges("i", [f"{text},0,$n" for text in FIELD[:-1]], 1, 64),
    *edges("i", ["dep r8=r9,r10,0,$n"], 1, 16),
    *edges("i", ["dep.z r8=$n,0,1"], -128, 127),
    *edges("i", ["dep r8=$n,r9,0,1"], -1, 0),
    *edges("i", ["mov b0=r8,$n", "mov.ret.sptk.imp b7=r8,$n"], -256, 255, otherwise=TAG),
    *edges("i", ["mov pr=r8,$n"], -65536, 131071),
    *edges("i", ["mov pr.rot=$n"], -(1 << 43), (1 << 43) - (1 << 16), 1 << 16),
    *edges("i", ["mov.i ar.pfs=$n", "mov.i ar.lc=$n", "mov.i ar.ec=$n"], -128, 127),
    *edges("m", ["mov.m ar.unat=$n"], -128, 127),
    *edges("m", ["ld8 r8=[r9],$n", "ld1.c.clr.acq.nta r8=[r9],$n", "ld8.fill r8=[r9],$n",
                 "st8 [r9]=r8,$n", "st2.rel.nta [r9]=r8,$n", "st8.spill [r9]=r8,$n"], -256, 255),
    *(edge for n in (1, 4, 8, 16, -1, -4, -8, -16)
      for edge in edges("m", ["fetchadd4.acq r8=[r9],$n", "fetchadd8.rel.nta r8=[r9],$n"], n, n)),
    *edges("m", [f"alloc r8=ar.pfs,{numbers}" for numbers in ("$n,0,0,0", "0,$n,0,0", "0,0,$n,0")],
           0, 96),
    *edges("m", ["alloc r8=ar.pfs,0,96,0,$n", "alloc r8=ar.pfs,50,20,26,$n"], 0, 96, 8),
    *(edge for word in ("nop", "break") for unit in "mifb"
      for edge in edges(unit, [f"{word}.{unit} $n"], *NUMBER)),
    *(edge for unit in "ib" for edge in edges(unit, [f"hint.{unit} $n"], *NUMBER)),
    *edges("m", ["hint.m $n"], *NUMBER, otherwise=MEMORY_HINT),
    *edges("i", ["hint $n"], *NUMBER),
    *edges("x", ["nop.x $n", "break.x $n", "nop $n", "break $n"], *LONG_NUMBER, otherwise=LONG),
    *edges("x", ["movl r8=$n"], -(1 << 63), (1 << 64) - 1),
]

# Lines that aren't slots, and what they are.
LONGEST = "n" + "a" * 62
LINES = (
    ("empty", ""),
    ("empty", " \t "),
    ("empty", "// a comment"),
    ("empty", "\t//"),
    ("empty", "//// ;; }"),
    ("empty", '// "'),
    ("empty", '// "mutex"'),
    ("label loop", "loop:"),
    ("label loop", "\tloop : // a comment"),
    ("label loop", "loop#:"),
    ("label loop", "loop# :"),
    ("label add", "add:"),
    ("label br.cond", "br.cond :"),
    ("label .text", ".text:"),
    ("label data8", "data8:"),
    ("label .pred.rel", ".pred.rel:"),
    ("label nop", "nop :"),
    ("label sp", "sp:"),
    ("label rp", "rp:"),
    ("label ret0", "ret0:"),
    ("label ar.lc", "ar.lc:"),
    ("label pr", "pr:"),
    ("label ip", "ip:"),
    ("label r08", "r08:"),
    ("label r128", "r128:"),
    ("label p64", "p64:"),
    ("label b8", "b8:"),
    ("label R8", "R8:"),
    ("label _", "_:"),
    ("label $", "$:"),
    ("label .", ".:"),
    ("label a.b$c_9", "a.b$c_9:"),
    (f"label {LONGEST}", f"{LONGEST}:"),
    ("text", ".text"),
    ("text", "\t.text // code"),
    ("text", ".text#"),
    ("data", ".data"),
    ("data", " .data\t"),
    ("entry f", ".entry f"),
    ("entry f", ".entry f#"),
    ("entry r8", ".entry r8"),
    ("entry rp", "\t.entry\trp // later no label"),
    (f"entry {LONGEST}", f".entry {LONGEST}"),
    ("relation 6 7", '.pred.rel "mutex",p6,p7'),
    ("relation 6 7", '.pred.rel "mutex",p7,p6'),
    ("relation 1 15", '.pred.rel"mutex",p15,p1//'),
    ("relation 2 6 7", '\t.pred.rel\t"mutex" , p7 ,p2, p6 // of the next bundle'),
    ("relation 8 9", '.pred.rel# "mutex",p8#,p9 // "imply"'),
    ("relation " + " ".join(str(n) for n in range(1, 16)),
     '.pred.rel "mutex"' + "".join(f",p{n}" for n in range(15, 0, -1))),
    ("ignored", ".global main"),
    ("ignored", ".global main#"),
    ("ignored", ".proc main# // begins"),
    ("ignored", "\t.endp\tmain"),
    ("ignored", ".proc r8"),
    ("ignored", f".global {LONGEST}"),
    ("numbers 1 0", "data1 0"),
    ("numbers 1 255 128 127", "data1 255,-128,127"),
    ("numbers 1 255", "data1 -1"),
    ("numbers 1 1 2 3", "data1 1 , 2,3 // three"),
    ("numbers 2 65535 32768", "data2 0xffff,-32768"),
    ("numbers 2 10", "data2 010"),
    ("numbers 4 4294967295 2147483648", "data4 4294967295,-0x80000000"),
    ("numbers 8 18446744073709551615 9223372036854775808", "data8 0xFFFFffffFFFFffff,-9223372036854775808"),
    ("numbers 8 18446744073709551615 0", "data8 -1,-0"),
    ("numbers 8 10 20 30 40", "  data8 10, 20, 30, 40"),
    ("numbers 1 " + " ".join(str(n) for n in range(32)), "data1 " + ",".join(str(n) for n in range(32))),
    ("numbers 8 " + " ".join("5" for _ in range(32)), "data8 " + ",".join("5" for _ in range(32))),
    ("skip 0", ".skip 0"),
    ("skip 1048576", ".skip 1048576"),
    ("skip 16", "\t.skip 0x10 // bytes"),
    ("skip 0", ".skip -0"),
    *((f"open {name}", f"{{ .{name}")
      for name in ("mii", "mlx", "mmi", "mfi", "mmf", "mib", "mbb", "bbb", "mmb", "mfb")),
    ("open mii", "{.mii"),
    ("open mib", "\t{\t.mib // a bundle"),
    ("open mlx", "{ .mlx#"),
    ("stop", ";;"),
    ("stop", " ;; // a stop"),
    ("close", "}"),
    ("close", "\t} //"),
)

# Lines and their words: of each its kind, its start and its end.
WORDS = (
    ("", ""),
    ("", " \t // add r1"),
    ("name 1 4 name 5 7 mark 7 8 name 8 10 mark 11 13", "\tadd r1=r2 ;;// r3"),
    ("name 0 3 mark 4 5 number 5 7 mark 8 9 number 10 11", "_a$#=-5 - 5"),
    ("name 0 1 mark 2 3 number 3 6", "a##1x."),
    ("name 0 1 quoted 1 6 number 6 7 mark 8 9", 'a"// "1 "'),
    ("quoted 0 2 mark 2 3", '"",// "'),
    ("name 0 1 mark 2 3 mark 3 4", "a #/"),
    ("number 0 1 mark 1 2 mark 2 4 mark 4 5", "1#;;;"),
)


def numbered(name, number):
    return f"{name}({name} {{ number: {number} }})"


def signed_number(negative, magnitude):
    return f"Number {{ negative: {str(negative).lower()}, magnitude: {magnitude} }}"


# Words, and what each may be read as, as the derived `Debug` prints it.
WORD_TOKENS = (
    (numbered("Gr", 1), "gp"),
    (numbered("Gr", 12), "sp"),
    (numbered("Gr", 13), "tp"),
    *((numbered("Gr", 8 + n), f"ret{n}") for n in range(4)),
    ("Name", "ret4"),
    (numbered("Br", 0), "rp"),
    *((f"Ar({name.capitalize()})", f"ar.{name}") for name in ("unat", "pfs", "lc", "ec")),
    ("Predicates", "pr"),
    ("RotatingPredicates", "pr.rot"),
    ("Ip", "ip"),
    (numbered("Gr", 0), "r0"),
    (numbered("Gr", 127), "r127"),
    *(("Name", name) for name in ("r128", "r08", "r", "R8")),
    (numbered("Pr", 63), "p63"),
    ("Name", "p64"),
    (numbered("Br", 7), "b7"),
    ("Name", "b8"),
    ("Symbol", ".b7"),
    ("Symbol", "_"),
    (signed_number(False, 16), "0x10"),
    (signed_number(False, 255), "0xfF"),
    ("Malformed", "0X10"),
    (signed_number(False, 8), "08"),
    (signed_number(False, 0), "0"),
    *(("Malformed", word) for word in ("0x", "1x", "12q", "1.5")),
    (signed_number(False, (1 << 64) - 1), "18446744073709551615"),
    ("TooLarge", "18446744073709551616"),
    ("TooLarge", "0x10000000000000000"),
    (signed_number(True, 1), "-1"),
    (signed_number(True, 0), "-0"),
    (signed_number(True, 16), "-0x10"),
    ("Mutex", '"mutex"'),
    ("Quoted", '"imply"'),
    ("Equals", "="),
    ("Comma", ","),
    ("OpenBracket", "["),
    ("CloseBracket", "]"),
    ("OpenParenthesis", "("),
    ("CloseParenthesis", ")"),
    ("OpenBrace", "{"),
    ("CloseBrace", "}"),
    ("Colon", ":"),
    ("Stop", ";;"),
    ("OtherMark", ";"),
    ("LongName", "a" * 64),
    ("Name", "a" * 63),
    ("LongSymbol", "." * 64),
    ("Symbol", "." * 63),
)
