"""Pictures: what stands in them, and that it is what the program says."""

import os
import re
import subprocess
import sys
import unittest
import unittest.mock
import xml.etree.ElementTree as tree

from front import command, drawing, gnu, texts, usage
from front.drawing import accesses, figures, geometry, lanes, markup, relations, style, svg, words
from front.drawing.figure import Pair, ranges
from front.drawing.lanes import Stretch
from front.program import Program
from front.tests import probes, writers
from front.tests.case import FRONT, PROGRAM, ROOT, Case, needs_gnu
from front.tests.test_programs import example

SVG = "{http://www.w3.org/2000/svg}"
END = "{ .mii\nnop.m 0\nnop.i 0\nbreak.i 0 ;;\n}\n"


def text_of(element):
    return "".join(element.itertext())


def built(path):
    """The image of a text."""
    return subprocess.run([PROGRAM, "build"], input=path.read_bytes(), stdout=subprocess.PIPE, check=True).stdout


def classes(root, name):
    """The elements of a class."""
    return [element for element in root.iter() if name in element.get("class", "").split()]


def slot_texts(root):
    """The texts of the slots of a picture, by their places, without the letters of units."""
    found = {}
    for slot in classes(root, "slot"):
        parts = [text_of(part) for part in slot.findall(f"{SVG}text") if part.get("class") in ("text", "nop")]
        found[tuple(map(int, re.findall(r"\d+", slot.get("id"))[-2:]))] = "".join(parts)
    return found


class Draw(Case):
    """Calls of `ia64 draw`."""

    def put(self, data, name="x.s"):
        (self.folder / name).write_bytes(data.encode() if isinstance(data, str) else data)
        return name

    def svg(self, *words):
        """The tree of a picture."""
        status, printed, error = self.ia64("draw", *words)
        self.assertEqual((status, error), (0, ""))
        return tree.fromstring(printed)

    def page(self, *words):
        """A page as text."""
        status, printed, error = self.ia64("draw", *words, "-o", "x.html")
        self.assertEqual((status, printed, error), (0, b"", ""))
        return (self.folder / "x.html").read_text("utf-8")


class Pictures(Draw):
    """What stands in a picture of a program."""

    def test_slots(self):
        """Each slot's text is there once, as it stands in the source."""
        root = self.svg(example("count.s"))
        self.assertEqual(slot_texts(root)[2, 2], "br.cloop.sptk.few loop")
        self.assertEqual(len(slot_texts(root)), 12)
        self.assertEqual([text_of(label) for label in classes(root, "label")], ["loop:"])
        self.assertIn("line 28", {slot.get("id"): slot.get("aria-label") for slot in classes(root, "slot")}["f0-slot-1-0"])

    def test_every_example(self):
        """Each example is drawn: its slots, and as many violations as `check` prints."""
        for path in sorted((ROOT / "examples").glob("*.s")):
            done = subprocess.run([PROGRAM, "build"], input=path.read_bytes(), stdout=subprocess.PIPE, check=False)
            if done.returncode == 0:
                listing = Program(lambda: PROGRAM).listing(done.stdout)
                checked = subprocess.run([PROGRAM, "check"], input=done.stdout, stdout=subprocess.PIPE, check=False).stdout
                root = self.svg(path)
                self.assertEqual(len(slot_texts(root)), sum(map(len, listing)), path)
                said = sum(line.get("aria-label").count("; ") + 1 for line in classes(root, "is-violation"))
                self.assertEqual(said, len(checked.splitlines()) - 1, path)

    def test_violations(self):
        """Each violation that `check` prints is a line between its slots, with its rule and its resource."""
        path = ROOT / "tests" / "check" / "every_rule.s"
        lines = subprocess.run([PROGRAM, "check"], input=path.read_bytes(), stdout=subprocess.PIPE, check=False).stdout.decode()
        wanted = sorted(tuple(line.split(" ")) for line in lines.splitlines()[1:])
        root = self.svg(path)
        found = [(*line.get("aria-label").split(": ")[0].split(" "),
                  *(".".join(name.split("-")[2:]) for name in line.get("data-slots").split(" ")))
                 for line in classes(root, "is-violation")]
        self.assertEqual(sorted(found), wanted)
        labels = [text_of(part) for part in classes(root, "red-label")]
        self.assertEqual(sorted(labels), sorted(" ".join(row[:2]) for row in wanted))

    def test_red_names(self):
        """The resource is red in both texts: where it is written, and where it is read."""
        root = self.svg(self.put("{ .mii\nadds r9=1,r9\nadd r8=r9,sp\nadds r10=0,r9\n}\n"
                                 "{ .mii\nadds sp=1,r0\nnop.i 0\nnop.i 0\n}\n" + END))

        def red_of(slot):
            text = text_of(slot.findall(f"{SVG}text")[1])
            return [(text_of(part), text.index(text_of(part))) for part in classes(slot, "red")]

        red = {slot.get("id"): red_of(slot) for slot in classes(root, "slot")}
        self.assertEqual((red["f0-slot-0-0"], red["f0-slot-0-1"], red["f0-slot-0-2"]), ([("r9", 5)], [("r9", 7)], [("r9", 11)]))
        self.assertEqual(red["f0-slot-1-0"], [])

    def test_excused_pairs(self):
        root = self.svg(example("predicated.s"))
        self.assertEqual(len(classes(root, "is-excused")), 1)
        self.assertEqual([text_of(part) for part in classes(root, "why") if part.tag == f"{SVG}text"],
                         ["WAW r10: p6 and p7 are never both 1"])
        self.assertEqual(classes(root, "is-violation"), [])

    def test_the_way(self):
        """A branch by which alone a pair clashes is marked, and says so."""
        root = self.svg(example("loop_edge.s"))
        edge, = classes(root, "is-way")
        self.assertEqual(edge.get("data-place"), "2.2")
        self.assertIn("WAW r10 clashes only by this way", edge.get("aria-label"))
        self.assertIn("only by this way:", [text_of(part) for part in classes(root, "red-label")])
        self.assertEqual(classes(self.svg(example("count.s")), "is-way"), [])

    def test_entries(self):
        root = self.svg(example("behind_a_call.s"))
        self.assertEqual([text_of(part) for part in classes(root, "entry") if part.tag == f"{SVG}text"],
                         ["entry: the start", "entry: behind a call", "promises: p2 and p3 are never both 1"])

    def test_branches(self):
        """Branches lead to their bundles; a line has its end at the row of its target."""
        root = self.svg(example("count.s"))
        edge, = classes(root, "is-branch")
        self.assertEqual(edge.get("aria-label"), "branch from 2.2 to bundle 1")

    def test_an_image(self):
        """Of an image the texts are canonical, and labels those of `show`."""
        root = self.svg(self.put(built(example("count.s")), "x.image"))
        self.assertEqual((slot_texts(root)[2, 2], [text_of(label) for label in classes(root, "label")]),
                         ("br.cloop.sptk.few L1", ["L1:"]))

    def test_hostile_names(self):
        """What stands in a source or a path is text everywhere."""
        (self.folder / "<script>&\"'").mkdir()
        label = "x$.script_alert"
        path = self.put(f"{label}:\n{{ .mib\nnop.m 0\n(p6)   add \t r8 = r9,r10\n"
                        f"br.cond.sptk.few {label} ;; // <script>\n}}\n" + END, "<script>&\"'/]]><b>.s")
        root = self.svg(path)
        self.assertIn("<script>&\"'/]]><b>.s", text_of(root.find(f"{SVG}title")))
        self.assertEqual(slot_texts(root)[0, 1], "(p6) add r8 = r9,r10")
        page = self.page(path)
        self.assertEqual((page.count("<script>"), page.count("<b>")), (1, 0))

    def test_names_of_functions(self):
        """A name in a symbol table may be anything."""
        made = writers.Elf()
        code = made.section(".text", writers.BRANCH + writers.RETURN)
        made.symbol("<script>&\u202e\x01\"']]>", code, 0, 32)
        (self.folder / "x.o").write_bytes(made.data())
        root = self.svg("x.o")
        self.assertEqual(text_of(classes(root, "title")[0]), "x.o: <script>&??\"']]>")
        self.assertEqual(self.page("x.o").count("<script>"), 1)

    def test_nothing_from_elsewhere(self):
        """A picture has no script, and neither form takes anything from elsewhere."""
        _, picture, _ = self.ia64("draw", example("loop_edge.s"))
        page = self.page(example("loop_edge.s"))
        self.assertNotIn(b"<script", picture)
        for text in (picture.decode(), page):
            self.assertLessEqual(set(re.findall(r"https?://[^\"' ]*", text)), {"http://www.w3.org/2000/svg"})
            self.assertIsNone(re.search(r"<(link|image|img|iframe|use|foreignObject)|@import|url\(|\b(src|href)=", text))

    def test_for_screen_readers(self):
        root = self.svg(example("loop_edge.s"))
        self.assertEqual((root[0].tag, root[1].tag), (f"{SVG}title", f"{SVG}desc"))
        self.assertIn("2 violations", root[0].text)
        self.assertEqual(root.get("role"), "graphics-document document")
        self.assertTrue(all(slot.get("aria-label") and slot.find(f"{SVG}title").text for slot in classes(root, "slot")))
        ids = [element.get("id") for element in root.iter() if element.get("id")]
        self.assertEqual(len(ids), len(set(ids)))

    def test_a_page(self):
        page = self.page(example("loop_edge.s"))
        self.assertTrue(page.startswith("<!DOCTYPE html>\n"))
        body = tree.fromstring(re.sub(r"<script>.*?</script>", "", page[page.index("<body>"):page.index("</html>")], flags=re.S))
        rows = [list(map(text_of, row)) for row in body.iter("tr")]
        self.assertEqual(rows[0][:5], ["Place", "Unit", "Instruction", "Reads", "Writes"])
        self.assertIn(["1.2", "I", "(p7) add r10=r10,r10 ;;", "r10, p7", "r10", "2", "line 32"], rows)
        self.assertEqual(len([part for part in body.iter() if part.get("id") == "panel"]), 1)

    def test_sizes(self):
        """Pictures of 5 and of 200 bundles: each slot within its row, and so many bytes a bundle."""
        for count in (5, 200):
            text = "".join(f"x{at}:\n{{ .mib\nld8 r8=[r9],8\nadd r10=r8,r11\n(p6) br.cond.sptk.few x{at * 7 % count} ;;\n}}\n"
                           for at in range(count)) + END
            _, picture, _ = self.ia64("draw", self.put(text))
            root = tree.fromstring(picture)
            self.assertEqual((len(slot_texts(root)), len(classes(root, "is-violation")), len(classes(root, "is-branch"))),
                             (3 * count + 3, min(count, 100), count))
            self.assertLess(len(picture), 8000 + 4500 * count)
            self.assertLess(int(root.get("width")), 2600)
            self.assertLess(int(root.get("height")), 300 + 90 * count)

    def test_more_than_a_hundred(self):
        """The first hundred are drawn; what predicates excuse isn't looked for then."""
        text = "{ .mii\ncmp.eq p6,p7=r8,r9\nnop.i 0\nnop.i 0 ;;\n}\n{ .mii\nnop.m 0\n(p6) mov r9=1\n(p7) mov r9=2 ;;\n}\n"
        text += "".join("{ .mii\nadds r8=1,r0\nadds r8=2,r0\nadds r8=3,r0 ;;\n}\n" for _ in range(60)) + END
        root = self.svg(self.put(text))
        self.assertEqual((len(classes(root, "is-violation")), classes(root, "is-excused")), (100, []))
        self.assertTrue(any("lists 100 of the 180 violations" in text_of(note) for note in classes(root, "note")))

    def test_many_resources_of_one_pair(self):
        """Violations of one rule between the same slots are one line, where they are many."""
        root = self.svg(self.put("{ .mii\nnop.m 0\nmov pr=r8,0x1fe\nmov pr=r9,0x1fe ;;\n}\n" + END))
        line, = classes(root, "is-violation")
        self.assertEqual(line.get("aria-label").count("; "), 7)
        self.assertEqual([text_of(part) for part in classes(root, "red-label")], ["WAW p1 to p8"])

    def test_a_source_that_is_read(self):
        """Without the GNU assembler a source is read, and its functions have their lines."""
        path = self.put("\t.file \"x.c\"\n\t.text\n\t.proc main#\nmain:\n\t.mib\n\tmov r9 = r8\n\tmov ar.lc = r8\n"
                        "\tbr.few main ;;\n\t.endp main#\n")
        with unittest.mock.patch.dict("os.environ", {"PATH": ""}):
            root = self.svg(path)
        self.assertEqual([text_of(label) for label in classes(root, "label")], ["main:"])
        self.assertEqual(slot_texts(root)[0, 2], "br.cond.sptk.few +0x0")
        self.assertIn("lines 6-8", [text_of(part) for part in classes(root, "quiet")])

    def test_off_walks(self):
        root = self.svg(self.put(END + END))
        self.assertIn("on no walk", [text_of(part) for part in classes(root, "quiet")])
        self.assertTrue(any(text_of(note).startswith("1 of 2 bundles are on a walk.") for note in classes(root, "note")))

    def test_a_pair_behind_the_end(self):
        """A last slot that would clash only with a slot behind it is in no excused pair."""
        path = self.put("{ .mib\n(p6) adds r8=1,r0\nnop.i 0\nclrrrb\n}\n")
        self.assertEqual(classes(self.svg(path), "pair"), [])
        self.assertEqual(self.ia64("check", "-v", path), (0, b"x.s: note: accepted\n1 accepted, 0 violated, 0 not judged\n", ""))

    def test_a_terminal(self):
        """A picture isn't printed to a terminal."""
        own, its = os.openpty()
        done = subprocess.run([sys.executable, FRONT, "draw", example("count.s")], stdout=its, stderr=subprocess.PIPE,
                              check=False)
        os.close(own)
        os.close(its)
        self.assertEqual(done.returncode, 2)
        self.assertIn(b"a picture is no text for a terminal", done.stderr)

    def test_what_is_proved(self):
        """The head says what is proved, and what isn't, by the program that was asked."""
        notes = [text_of(note) for note in classes(self.svg(example("count.s")), "note")]
        self.assertEqual(notes[0], "Nothing is known to be proved of the program that gave the verdict.")
        self.assertTrue(any(note.startswith("Not proved: the drawing") for note in notes))
        for wanted, total in ((figures.ACCEPTS, 0), (figures.CLASHES, 2)):
            self.assertEqual(drawing.of_programs.notes(total, total, [True], True)[0], wanted)


class Functions(Draw):
    """Functions of files of code."""

    def test_all_functions(self):
        root = self.svg(ROOT / "examples" / "functions.o")
        self.assertEqual([text_of(title).split(": ")[1] for title in classes(root, "title")], ["swap", "twice", "sum"])
        self.assertEqual([line.get("data-slots") for line in classes(root, "is-violation")], ["f0-slot-1-1 f0-slot-2-0"])
        self.assertIn("RAW r9: written by 'adds r9=0,r8' (+0x10 slot 1) and read by 'st8 [r33]=r9' (+0x20 slot 0)",
                      classes(root, "is-violation")[0].get("aria-label"))

    def test_branches_and_starts(self):
        """A branch says where it leads, and each function has its start."""
        made = writers.Elf()
        code = made.section(".text", writers.NOP + writers.BRANCH + writers.RETURN)
        made.symbol("f", code, 0, 48)
        (self.folder / "x.o").write_bytes(made.data())
        root = self.svg("x.o")
        self.assertEqual([edge.get("aria-label") for edge in classes(root, "is-branch")], ["branch from +0x10 slot 2 to f+0x10"])
        self.assertEqual([part.tag for part in classes(root, "entry")].count(f"{SVG}polygon"), 2)      # and in the legend

    def test_one_function(self):
        """What stood in is marked, and has what it reads and writes of the table of stand-ins."""
        root = self.svg(ROOT / "examples" / "functions.o", "sum")
        self.assertEqual([text_of(part) for part in classes(root, "verdict")], ["\u2713 accepted; 1 instruction stood in for"])
        self.assertEqual([text_of(part) for part in classes(root, "mark")], ["\u2248", "\u2248"])      # and in the legend
        self.assertIn("reads r33, the frame; writes nothing", classes(root, "slot")[0].get("aria-label"))
        self.assertIn(("lfetch.nta [r33]" if self.has_gnu() else "word "), slot_texts(root)[0, 0])

    @staticmethod
    def has_gnu():
        return gnu.installed("objdump") is not None

    @needs_gnu
    def test_lines(self):
        labels = [slot.get("aria-label") for slot in classes(self.svg(ROOT / "examples" / "functions.o", "swap"), "slot")]
        self.assertIn("functions.s:13", labels[0])

    def test_not_judged(self):
        """A function that isn't judged is drawn, with the reason."""
        made = writers.Elf()
        code = made.section(".text", bytes([6]) + bytes(15) + writers.RETURN)
        made.symbol("f", code, 0, 32)
        (self.folder / "x.o").write_bytes(made.data())
        root = self.svg("x.o")
        self.assertEqual([text_of(part) for part in classes(root, "verdict")], ["? not judged"])
        self.assertIn("reserved template 0x06", [text_of(part) for part in classes(root, "nop")])

    def test_no_bundles_and_long_runs(self):
        """A function of which nothing can be read has a row that says so; what is too long without a stop isn't outside the
        profile."""
        made = writers.Elf()
        code = made.section(".text", writers.RETURN + (b"\0" + writers.NOP[1:]) * 65)
        made.symbol("outside", code, 0x9000, 16)
        made.symbol("odd", code, 8, 8)
        made.symbol("long", code, 16, 16 * 65)
        (self.folder / "x.o").write_bytes(made.data())
        for name in ("outside", "odd"):
            self.assertIn("no bundle of it can be read", [text_of(part) for part in classes(self.svg("x.o", name), "nop")])
        root = self.svg("x.o", "long")
        self.assertEqual((len(classes(root, "bundle")), classes(root, "mark")), (65, []))
        self.assertTrue(any("more than 192 slots without a stop" in text_of(note) for note in classes(root, "note")))

    @needs_gnu
    def test_what_rides(self):
        """Pairs on floating-point registers are drawn as others are."""
        root = self.svg(self.put(".text\n.explicit\n.proc f#\nf:\n{ .mfi\nldfd f8=[r32]\nfma.d f9=f8,f8,f0\nnop.i 0 ;;\n}\n"
                                 "{ .mib\nnop.m 0\nnop.i 0\nbr.ret.sptk.many b0 ;;\n}\n.endp f#\n"))
        self.assertEqual([text_of(part) for part in classes(root, "red-label")], ["RAW f8"])
        self.assertEqual([text_of(part) for part in classes(root, "red") if part.tag == f"{SVG}tspan"], 3 * ["f8"])

    def test_refusals(self):
        """Which functions there are is said, where none is named of many, and where one isn't there."""
        object_file = str(ROOT / "examples" / "functions.o")
        self.assertEqual(self.ia64("draw", object_file, "sums"),
                         (2, b"", f"ia64: {object_file}: no function sums; it has sum\n"))
        made = writers.Elf()
        code = made.section(".text", writers.RETURN * 30)
        for at in range(30):
            made.symbol(f"f{at}", code, 16 * at, 16)
        (self.folder / "x.o").write_bytes(made.data())
        status, _, error = self.ia64("draw", "x.o")
        self.assertEqual((status, error.split("; ")[0]), (2, "ia64: x.o: 30 functions, and without a name 10 are drawn at most"))
        self.assertTrue(error.endswith("f18, f19 ..\n"))
        self.assertEqual(len(classes(self.svg("x.o", "f3", "f29"), "title")), 2)

    def test_wrong_words(self):
        """Bad input gets a refusal."""
        self.put("nop.i 0\n", "x.text")
        self.put(b"IA64IMG1", "x.image")
        self.put("{ .mii\nnop.m 0\nnop.i 0\nnop.i 0\n}\n" * 9 + END, "y.s")
        for called, said in ((("nothing.s",), "nothing.s: No such file"), (("x.text",), "x.text: refused, line 1: misplaced"),
                             (("x.image",), "x.image: refused, image: short"),
                             (("y.s", "f"), "y.s: a program, which has no functions with names"),
                             (("y.s", "-o", "no/x.svg"), "ia64: no/x.svg: it can't be written")):
            status, printed, error = self.ia64("draw", *called)
            self.assertEqual((status, printed), (2, b""), called)
            self.assertIn(said, error)
        status, _, error = self.ia64("draw", "y.s", "-o", "x.png")
        self.assertEqual(status, 2)
        self.assertIn("x.png ends with none of .svg, .html", error)

    def test_too_many_bundles(self):
        self.put(b"IA64IMG2" + bytes.fromhex("d1070000") + bytes(12) + writers.NOP * 2000 + writers.RETURN, "x.image")
        self.assertEqual(self.ia64("draw", "x.image"),
                         (2, b"", "ia64: x.image: 2,001 bundles, and a picture has 2,000 at most\n"))

    def test_in_the_words(self):
        self.assertIn("draw FILE [FUNCTION..]", usage.USAGE)
        self.assertIn("draw", command.COMMANDS)

    def test_called(self):
        """The front as a program writes the picture, and nothing else."""
        done = subprocess.run([sys.executable, FRONT, "draw", example("count.s")], stdout=subprocess.PIPE,
                              stderr=subprocess.PIPE, env={"IA64_PROGRAM": PROGRAM, "PATH": ""}, check=True)
        self.assertEqual((done.stderr, done.stdout[:4], done.stdout[-7:]), (b"", b"<svg", b"</svg>\n"))


    def test_the_same_each_time(self):
        """A picture doesn't depend on the process that makes it."""
        made = {subprocess.run([sys.executable, FRONT, "draw", example("loop_edge.s")], stdout=subprocess.PIPE, check=True,
                               env={"IA64_PROGRAM": PROGRAM, "PATH": "", "PYTHONHASHSEED": seed}).stdout for seed in "123"}
        self.assertEqual(len(made), 1)


class WhatIsAccessed(unittest.TestCase):
    """What slots read and write, against the program."""

    def test_every_form(self):
        """A slot that writes a resource clashes with one behind it in its group exactly where that is said to read it, and not
        as its group wrote it, or to write it."""
        program = Program(lambda: PROGRAM)
        for unit, text in probes.examples():
            status, image = program.raw(["build"], probes.probe(unit, text))
            self.assertEqual(status, 0, text)
            slot = "mibfx".index(unit) if unit in "mib" else 1
            said = accesses.accesses_of(program.listing(image)[1][slot])
            names, found = list(probes.WRITERS), {"RAW": set(), "WAW": set()}
            total, rows = program.check(image)
            self.assertEqual(total, len(rows), text)
            for row in rows:
                is_tried = row.second == (row.first[0] + 1, slot) and names[row.first[0] // 2] == row.resource
                if is_tried and row.rule in found:
                    found[row.rule].add(row.resource)
            self.assertEqual(found, {"RAW": (said.reads - said.seen) & set(names), "WAW": said.writes & set(names)}, text)

    def test_the_examples_have_every_mnemonic(self):
        """Those of the tables of docs/use/text.md, but for pseudo-operations."""
        page = (ROOT / "docs" / "use" / "text.md").read_text()
        tables = page.split("## Mnemonics and operands")[1].split("**Without a unit letter**")[0]
        wanted = {re.match(r"[a-z]+", word)[0] for row in re.findall(r"^\| (`.*?) \|", tables, re.M)
                  for word in re.findall(r"`([a-z][^`]*)`", row)} - {"r"}                    # of `with r1=r3`
        known = {re.match(r"[a-z]+", re.sub(r"^\(p\d+\) ", "", text))[0] for _, text in probes.examples()}
        self.assertEqual(wanted - known, set())

    def test_outside_the_profile(self):
        def said(unit, word):
            row = drawing.of_functions.stand_ins.row_of(unit, word)
            found = accesses.accesses_outside(row, word)
            return accesses.in_order(found.reads), accesses.in_order(found.writes), found.guard

        fma = 8 << 37 | 8 << 6 | 9 << 13 | 10 << 20 | 33 << 27 | 6
        self.assertEqual(said("f", fma), (["p6", "f9", "f10", "f33", "cfm", "ar.fpsr"], ["f8", "ar.fpsr"], "p6"))
        fetch, fill, exchange = 7 << 37 | 0x2C << 30 | 9 << 20, 4 << 37 | 0x1B << 30 | 2 << 28, 4 << 37 | 1 << 27
        self.assertEqual(said("m", fetch)[:2], (["r9"], ["r9"]))
        self.assertEqual(said("m", fill | 9 << 20 | 8 << 6)[:2], (["r9", "unat"], ["r8"]))
        self.assertEqual(said("m", exchange | 2 << 20 | 3 << 13 | 8 << 6)[:2], (["r2", "r3", "ar.ccv"], ["r8"]))


class Parts(unittest.TestCase):
    """The parts that a picture is made of."""

    def test_labels(self):
        text = b"a: // b:\n.entry a\n{ .mii\n nop 0\n nop 0\n nop 0\n}\n.data\nc:\ndata8 1\n.text\nd#:\ne :\n{ .mii\n"
        self.assertEqual(texts.labels_of_text(text), {0: ["a"], 1: ["d", "e"]})

    def test_lanes(self):
        """What is within another one is further in, and what meets shares no lane."""
        self.assertEqual(lanes.lanes([Stretch(0, 9), Stretch(2, 3), Stretch(4, 8), Stretch(5, 6)]), [2, 0, 1, 0])
        self.assertEqual(lanes.lanes([Stretch(0, 2), Stretch(2, 4), Stretch(5, 6)]), [0, 1, 0])

    def test_names_of_resources(self):
        found = [words.resource_spans("(p6) ld8 r8=[r9],r8", name, role) for name, role in
                 (("r8", words.WRITTEN), ("r8", words.READ), ("r9", words.WRITTEN), ("r9", words.READ), ("p6", words.READ))]
        self.assertEqual(found, [[(9, 11)], [(17, 19)], [(13, 15)], [(13, 15)], [(1, 3)]])
        self.assertEqual(words.resource_spans("mov ret0=rp", "b0", words.READ), [(9, 11)])

    def test_broken_lines(self):
        text = "br.call.sptk.many b0=a_name_that_is_very_long_indeed"
        lines = words.broken(text, 24)
        self.assertEqual("".join(text[line.start:line.end] for line in lines), text)
        self.assertTrue(all(line.end - line.start <= 24 for line in lines))

    def test_relations(self):
        self.assertEqual(relations.cliques([(1, 2), (1, 3), (2, 3), (3, 4)]), [("p1", "p2", "p3"), ("p3", "p4")])
        self.assertEqual(relations.cliques([]), [])

    def test_ranges(self):
        self.assertEqual(ranges(["p1", "p2", "p3", "p6", "p7", "b0"]), "p1 to p3, p6, p7, b0")

    def test_markup(self):
        self.assertEqual(markup.text_element("a", "<&>\x00\ud800", b_="\"'"), "<a b=\"&quot;&#39;\">&lt;&amp;&gt;??</a>")

    def test_a_line_behind_the_function(self):
        """A pair whose second slot is behind the function has a row there."""
        pair = Pair("CLEAR", ("cfm",), (0, 2), (1, 0), ("",))
        row, = figures.behind(("a row",), [pair], "+0x10")
        self.assertEqual((row.said, row.slots), ("what is behind the function", ()))

    def test_nothing_overlaps(self):
        """In a picture with many lines no label meets another, and none a slot or a caption."""
        program = Program(lambda: PROGRAM)
        file = command.files.File("x", "x", command.Kind.IMAGE, built(ROOT / "tests" / "check" / "every_rule.s"))
        shape = geometry.geometry(drawing.of_program(file, file, program, False))
        labels = [wire.label for wire in shape.wires]
        for at, label in enumerate(labels):
            for other in labels[at + 1:] + list(shape.rows):
                self.assertFalse(meets(label, other), (label, other))
        for rows in zip(shape.rows, shape.rows[1:]):
            self.assertFalse(meets(*rows))

    def test_contrast(self):
        """Texts can be read on what they stand on, in light and in dark: 4.5 to 1, as WCAG has it for level AA."""
        backs = [style.PAPER, *style.TINTS]
        for colours in (style.INK, style.QUIET, style.RED, style.GREY, style.ENTRY):
            for back in backs:
                for front, behind in zip(colours, back):
                    self.assertGreaterEqual(contrast(front, behind), 4.5, (front, behind))
        for colours in style.UNITS.values():
            for colour in colours:
                self.assertGreaterEqual(contrast("#ffffff", colour), 4.5, colour)

    def test_forms(self):
        self.assertEqual(drawing.DRAWERS, {".svg": svg.document, ".html": drawing.page.document})


def meets(one, other):
    return one.x < other.right and other.x < one.right and one.y < other.bottom and other.y < one.bottom


def contrast(one, other):
    """The contrast of two colours (WCAG 2.1, relative luminance)."""
    def luminance(colour):
        parts = [int(colour[at:at + 2], 16) / 255 for at in (1, 3, 5)]
        red, green, blue = (part / 12.92 if part <= 0.03928 else ((part + 0.055) / 1.055) ** 2.4 for part in parts)
        return 0.2126 * red + 0.7152 * green + 0.0722 * blue

    dark, light = sorted(map(luminance, (one, other)))
    return (light + 0.05) / (dark + 0.05)


if __name__ == "__main__":
    unittest.main()
