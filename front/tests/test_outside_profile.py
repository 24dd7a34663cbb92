"""Instructions outside the profile in sources: by what GNU objdump prints of words of every row of the table."""

import re
import unittest

from front import sources
from front.bundle import UNITS
from front.stand_ins import COMPARES, LAST, ROWS, Effect, operand, row_of
from front.tests.test_stand_ins import HOMES, gnu_texts, home, needs_objdump, of_row, random_words

TARGET = re.compile(r"((?:\(p\d+\) )?(?:brl|f?chk)\S* .*?)0x[0-9a-f]+$")
# What has other registers than the rows name, and what is left to the GNU assembler.
UNNAMED = re.compile(r"\b(?:psr|cr)[.\d]|\bpsr$|\b(?:[id][bt]r|[rp]kr|rr|pm[cd]|dahr|cpuid)\[|lfetch\.count")


def slot_of(unit):
    """The slot of an instruction in its home. A long one is slot 1."""
    return 1 if unit == "x" else HOMES[unit][1]


def read_slot(text, unit):
    """What is read of an instruction in a slot of this unit."""
    slot = slot_of(unit)
    lines = [f".{UNITS[HOMES[unit][0] & ~1]}", *["nop 0"] * slot, text, ";;"]
    return sources.read("\n".join(lines).encode()).codes[0].bundles[0].slots[slot]


def said_by(row, word):
    """All that a verdict asks of the word of a row."""
    guard = operand("qp", word) if "qp" in row.pattern.fields else 0
    register = word >> 20 & 127 if "ar3" in row.writes + row.reads else None
    writes, reads = of_row(row, word)
    ordered = [operand(name, word) for name in ("p1", "p2") if name in row.writes and row.effect is Effect.OR_ANDCM]
    return writes, reads, guard, register, row.effect, ordered, set(row.unseen)


@needs_objdump
class Outside(unittest.TestCase):
    def test_every_row(self):
        """The word that is made of the text of a word has its row, its registers and its guard."""
        words, count, rows = random_words(4), 0, set()
        texts = gnu_texts([home(unit, word, low) for _, unit, word, low in words])
        for (row, unit, word, _), text in zip(words, texts):
            if row.effect is Effect.HINT or row.none == LAST:
                continue
            text = re.sub(r"^\(p0(\d)\)", r"(p\1)", " ".join(text[slot_of(unit)].split()))
            if not text or text.startswith("data8") or UNNAMED.search(text):
                continue
            made = read_slot(TARGET.sub(r"\1there", text), unit)
            self.assertIsNotNone(made.word, text)
            self.assertEqual(said_by(row_of(unit, made.word), made.word), said_by(row, word), text)
            count, rows = count + 1, rows | {row}
        self.assertGreater(count, 600)
        self.assertGreater(len(rows), len(ROWS) * 9 // 10)


class Forms(unittest.TestCase):
    """Forms that the assembler takes for others."""

    def same(self, text, other, unit):
        words = [read_slot(each, unit).word for each in (text, other)]
        said = [said_by(row_of(unit, word), word) for word in words]
        self.assertEqual(*said, text)

    def test_forms(self):
        for text, other, unit in (
                ("fmpy.d f8=f9,f10", "fma.d f8=f9,f10,f0", "f"), ("fadd f8=f9,f10", "fma f8=f9,f1,f10", "f"),
                ("fnorm f8=f9", "fma f8=f9,f1,f0", "f"), ("xmpy.l f8=f9,f10", "xma.l f8=f9,f10,f0", "f"),
                ("mov f8=f9", "fmerge.s f8=f9,f9", "f"), ("fabs fret0=farg1", "fmerge.s f8=f0,f9", "f"),
                ("fcmp.lt p6=f8,f9", "fcmp.lt p6,p0=f8,f9", "f"), ("mov ar32=sp", "mov.m ar.ccv=r12", "m"),
                ("tbit.z.andcm p6,p7=r8,3", "tbit.nz.and p6,p7=r8,3", "i"), ("tbit.z.orcm p6,p7=r8,3", "tbit.nz.or p6,p7=r8,3", "i"),
                ("tbit.z.and.orcm p6,p7=r8,3", "tbit.nz.or.andcm p7,p6=r8,3", "i")):
            self.same(text, other, unit)

    def test_kinds_of_compares(self):
        for text, kind in (("fcmp.eq.unc.s1", Effect.UNC), ("fcmp.eq.s1", Effect.NORMAL), ("frcpa.s1", Effect.UNC)):
            word = read_slot(f"{text} {'f6' if 'rcpa' in text else 'p6'},p7=f8,f9", "f").word
            self.assertIs(row_of("f", word).effect, kind)
            self.assertIn(kind, COMPARES)

    def test_texts(self):
        """As GNU's disassembler has them."""
        for text, unit, printed in (("(p6) fma.d f8 = f9, f10, f11", "f", "(p6) fma.d.s0 f8=f9,f10,f11"),
                                    ("mov ar.ccv = ret0", "m", "mov.m ar.ccv=r8"), ("ldfd f8 = [sp], 8", "m", "ldfd f8=[r12],8"),
                                    ("chk.s f8, there", "m", "chk.s f8,L"), ("fwb", "m", "fwb"), ("mov ar60 = r8", "i", "mov.i ar60=r8")):
            self.assertEqual(read_slot(text, unit).text, printed)

    def test_what_is_none(self):
        for text, unit in (("fma.d f8=f9,f10,f11,f12", "f"), ("fma.d f8=f9,f10,5", "f"), ("fma.d r8=f9,f10,f11", "f"), ("fma f8=", "f"),
                           ("fma.d f0=f9,f10,f11", "f"), ("ldfd f8=[r9],r10,8", "m"), ("ldfd f8=r9", "m"), ("fma.bogus f8=f9", "f"),
                           ("fclass.m p6,p7=f8", "f"), ("fclass.m p6,p6=f8,1", "f"), ("chk.s f8", "m"), ("mov f8=f9,f10,f11", "f"),
                           ("mov ar.xyz=r8", "m"), ("mov ar.fpsr=r8,r9", "m"), ("lfetch r8", "m"), ("(p6) flushrs", "m"),
                           ("ld8.d3 r8=[r9]", "m"), ("fma.d f8=f9,f10,f128", "f"), ("mov f8=farg8", "f")):
            with self.assertRaises(sources.Unread, msg=text):
                read_slot(text, unit)


if __name__ == "__main__":
    unittest.main()
