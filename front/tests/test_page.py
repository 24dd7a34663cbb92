"""The page that runs the program: what it is made of, and, by `node`, where it is installed, what its scripts find."""

import base64
import functools
import gzip
import hashlib
import json
import math
import re
import shutil
import subprocess
import sys
import tempfile
import unittest
import zlib
from html.parser import HTMLParser
from importlib.machinery import SourceFileLoader
from importlib.util import module_from_spec, spec_from_loader
from pathlib import Path

from front import files, loosen, programs
from front.faults import Fault
from front.ordering import split, writes
from front.ordering.states import State
from front.program import Program
from front.tests import test_orders, test_page_drawing
from front.messages import Severity
from front.tests.case import PROGRAM, ROOT
from front.tests.test_drawing import END
from front.tests.test_page_drawing import as_bytes, chance_text, needs_node
from front.tracing import steps

PAGE = ROOT / "docs" / "page" / "index.html"
LARGEST = 700_000
# What may lead out of a page.
LEADING = ("src", "href", "action", "data", "poster", "srcset", "background", "ping")
# Elements that have no end.
VOID = ("meta", "input", "br", "hr", "img", "link")


@functools.lru_cache(maxsize=None)
def maker():
    """What makes the page."""
    sys.path.insert(0, str(ROOT / "generate"))
    spec = spec_from_loader("make_page", SourceFileLoader("make_page", str(ROOT / "generate" / "make_page")))
    module = module_from_spec(spec)
    spec.loader.exec_module(module)
    return module


class Parts(HTMLParser):
    """The elements of a page, each as its name and attributes, with the text in it."""

    def __init__(self, text):
        super().__init__()
        self.found, self.open = [], []
        self.feed(text)
        self.close()

    def handle_starttag(self, tag, attrs):
        made = (tag, dict(attrs), [])
        self.found.append(made)
        if tag not in VOID:
            self.open.append(made)

    def handle_endtag(self, tag):
        assert self.open and self.open[-1][0] == tag, f"</{tag}> ends {self.open[-1][0] if self.open else 'nothing'}"
        self.open.pop()

    def handle_data(self, data):
        for _, _, texts in self.open[-1:]:
            texts.append(data)


class Made(unittest.TestCase):
    """What stands in docs/page/index.html."""

    @classmethod
    def setUpClass(cls):
        cls.text = PAGE.read_text("utf-8")
        cls.parts = Parts(cls.text)
        cls.by_id = {attrs["id"]: "".join(texts) for _, attrs, texts in cls.parts.found if "id" in attrs}
        cls.record = json.loads(cls.by_id["record"])

    def of(self, *tags):
        return [(attrs, "".join(texts)) for tag, attrs, texts in self.parts.found if tag in tags]

    def test_size(self):
        self.assertLess(len(self.text.encode()), LARGEST)

    def test_all_is_closed(self):
        self.assertEqual(self.parts.open, [])

    def test_nothing_leads_out(self):
        """It has all that it shows, and its rules let it take nothing from elsewhere."""
        self.assertEqual([attrs for _, attrs, _ in self.parts.found if set(attrs) & set(LEADING)], [])
        rules = [attrs["content"] for attrs, _ in self.of("meta") if attrs.get("http-equiv") == "Content-Security-Policy"]
        self.assertEqual(rules, ["default-src 'none'; script-src 'unsafe-inline' 'wasm-unsafe-eval'; style-src 'unsafe-inline'"])
        self.assertEqual(set(re.findall(r"https?://[^\s\"'<>)]*", self.text)), {"http://www.w3.org/2000/svg"})
        self.assertNotRegex(self.text, r"@import|\burl\(")

    def test_parts(self):
        """It is made of the sources as they are, and of nothing else."""
        made = maker()
        scripts = {attrs["data-part"]: text for attrs, text in self.of("script") if "data-part" in attrs}
        self.assertEqual(list(scripts), list(made.SCRIPTS))
        for name, text in scripts.items():
            self.assertEqual(text, "\n" + (ROOT / "front" / "page" / name).read_text("utf-8"), name)
        self.assertEqual(made.made_before(), (self.by_id["module"], made.Record(**self.record)))
        self.assertEqual(self.text, made.page(*made.made_before()))

    def test_examples(self):
        """The texts of the menu are those of the files, and all files but the source for another assembler are there."""
        texts = json.loads(self.by_id["texts"])
        found = {("lessons/" if each["group"] == "Lessons" else "") + each["name"]: each["text"] for each in texts}
        folder = ROOT / "examples"
        paths = [path for path in [*folder.glob("*.s"), *folder.glob("lessons/*.s")] if path.name != "functions.s"]
        self.assertEqual(found, {str(path.relative_to(folder)): path.read_text() for path in paths})
        self.assertTrue(all(each["title"] for each in texts))

    def test_lessons(self):
        """Each question has an answer, which is closed, and each lesson its program."""
        lessons = [attrs for attrs, _ in self.of("section") if attrs.get("class") == "lesson"]
        self.assertEqual([each["data-name"] for each in lessons], sorted(path.name for path in
                                                                          (ROOT / "examples" / "lessons").glob("*.s")))
        self.assertTrue(all("hidden" in each for each in lessons))
        said = (ROOT / "examples" / "lessons" / "README.md").read_text()
        questions = re.findall(r"^\d+\. ", said.split("## Answers")[0], re.M)
        self.assertEqual(self.text.count("<summary>Answer</summary>"), len(questions))
        self.assertEqual(self.text.count(maker().page_texts.HERE), len(lessons))
        self.assertEqual([attrs for attrs, _ in self.of("details") if "open" in attrs], [])

    def test_the_module(self):
        """It has the sum that is said of it, and imports nothing: it has no section of imports."""
        self.assertRegex(self.by_id["module"], r"^[A-Za-z0-9+/]+=*$")
        data = gzip.decompress(base64.b64decode(self.by_id["module"]))
        self.assertEqual(hashlib.sha256(data).hexdigest(), self.record["module"])
        self.assertEqual(data[:8], b"\0asm\1\0\0\0")
        at, sections = 8, []
        while at < len(data):
            sections.append(data[at])
            size, at = number_in(data, at + 1)
            at += size
        self.assertEqual(at, len(data))
        self.assertIn(10, sections)                                                     # code
        self.assertNotIn(2, sections)                                                   # imports

    def test_the_record(self):
        """It says from what it is made."""
        for name in ("sources", "kit", "shim", "module"):
            self.assertRegex(self.record[name], r"^[0-9a-f]{64}$")
        self.assertRegex(self.record["logic"], r"^rattle-kit-\w+ logic [0-9a-f]{16}$")
        self.assertEqual(self.record["shim"], hashlib.sha256((ROOT / "front" / "page" / "shim.c").read_bytes()).hexdigest())
        self.assertIs(type(self.record["proved"]), bool)

    def test_names(self):
        """No two elements have one id, all that the scripts look for are there, and each field is called something."""
        ids = [attrs["id"] for _, attrs, _ in self.parts.found if "id" in attrs]
        self.assertEqual(len(ids), len(set(ids)))
        script = (ROOT / "front" / "page" / "app.js").read_text()
        self.assertEqual(set(re.findall(r'\bat\("(\w+)"\)', script)) - set(ids), set())
        called = {attrs["for"] for attrs, _ in self.of("label")}
        for attrs, _ in self.of("input", "select", "textarea"):
            self.assertTrue("aria-label" in attrs or attrs["id"] in called or "hidden" in attrs, attrs)
        self.assertEqual([attrs for attrs, text in self.of("button") if not text.strip()], [])


def number_in(data, at):
    """A number of WebAssembly, in sevens of bits, and what stands behind it."""
    value = shift = 0
    while True:
        value |= (data[at] & 127) << shift
        shift += 7
        at += 1
        if not data[at - 1] & 128:
            return value, at


class Texts(unittest.TestCase):
    """What is made of the documents."""

    def test_markdown(self):
        made = maker().page_texts
        self.assertEqual(made.inline("a `b<c>**d**` **e** [f](g.md) & h"),
                         "a <code>b&lt;c&gt;**d**</code> <b>e</b> f &amp; h")
        self.assertEqual(made.blocks("one\n\n![a picture](../x.svg)\n\ntwo\n\n```sh\na < b\n```\nthree\n"),
                         "<p>one</p><p>two</p><pre>a &lt; b\n</pre><p>three</p>")

    def test_a_question_without_an_answer(self):
        with self.assertRaises(ValueError):
            maker().page_texts.lesson("1 x", "1. one?\n2. two?\n", "01_x.s", ["one"])


@unittest.skipUnless(shutil.which("rt"), "the kit is missing")
class Bitcodes(unittest.TestCase):
    """Which of the bitcodes that were kept is the program."""

    def setUp(self):
        self.kit = Path(shutil.which("rt")).resolve().parent.parent
        folder = tempfile.TemporaryDirectory()
        self.addCleanup(folder.cleanup)
        self.folder = Path(folder.name)

    def bitcode(self, name, text):
        """That of a text in C."""
        path = self.folder / f"{name}.bc"
        subprocess.run([self.kit / "toolchain" / "bin" / "clang", "-x", "c", "-", "-O1", "-c", "-emit-llvm", "-o", path],
                       input=text.encode(), check=True)
        return path

    def test_the_program(self):
        made = maker()
        program = self.bitcode("b", "int main(void) { return 0; }")
        library = self.bitcode("c", "int main(void); int other[5000] = {1}; int last(void) { return main(); }")
        self.assertGreater(library.stat().st_size, program.stat().st_size)
        self.assertEqual(made.the_program(self.kit, [library, program]), program)
        again = self.folder / "d.bc"
        again.write_bytes(program.read_bytes())
        self.assertEqual(made.the_program(self.kit, [library, program, again]), program)
        other = self.bitcode("e", "int main(void) { return 1; }")
        for bitcodes, said in (([library], "of 1 kept bitcodes 0 different ones"), ([program, other], "of 2 kept bitcodes 2")):
            with self.assertRaisesRegex(made.Failure, said):
                made.the_program(self.kit, bitcodes)


def called(*calls):
    """What functions of the page's scripts give."""
    scripts = tuple(name[:-3] for name in maker().SCRIPTS if name not in ("stepping.js", "slots.js", "app.js"))
    return test_page_drawing.called(*calls, scripts=scripts)


@needs_node
class Scripts(unittest.TestCase):
    """What the scripts find, against the Python and the program."""

    @classmethod
    def setUpClass(cls):
        cls.program = Program(lambda: PROGRAM)
        folders = ("examples", "examples/lessons", "tests/run", "tests/check")
        cls.texts = {str(path.relative_to(ROOT)): path.read_text() for folder in folders
                     for path in sorted((ROOT / folder).glob("*.s"))}
        cls.images = {name: cls.raw(["build"], text.encode())[1] for name, text in cls.texts.items()
                      if cls.raw(["build"], text.encode())[0] == 0}

    @classmethod
    def raw(cls, words, data):
        return cls.program.raw(words, data)

    def test_split(self):
        """Texts are taken apart as in Python."""
        texts = {name: self.texts[name] for name in self.images}
        texts["a call"] = "x:\r\n{ .bbb // {\n(p6) br.call.sptk.few b0=x\nnop 0\nbr.few x ;;\n}\n"
        texts["units"] = (".data\n{ .mii\n.text\n{ .mlx\nnop 0 ;; // ;;\nmovl r8=\"a;;\"\n;;\n}\n"
                          "{.mib\nchk.s r8,x\nhint 0\nbreak 1\n}")
        for (name, text), found in zip(texts.items(), called(*(("splitting.split", [text]) for text in texts.values()))):
            try:
                wanted = split.split(text.encode())
            except Fault:
                self.assertIsNone(found, name)
                self.assertEqual(name, "a call")
                continue
            self.assertEqual(found["text"].encode(), wanted.text, name)
            self.assertEqual(found["places"], ["{0[0]}.{0[1]}".format(places[0]) for places in wanted.positions], name)

    def figures(self, names):
        found = called(*(("figures.of_text", [name, self.texts[name], {"ask": True}]) for name in names))
        return [each["figure"] for each in found]

    def accepted(self):
        return [name for name, image in self.images.items() if self.raw(["check"], image)[0] == 0]

    def violated(self):
        return [name for name, image in self.images.items() if self.raw(["check"], image)[0] == 1]

    def traces_in(self, names, count, number):
        """The figures of programs, and of each the trace in an order."""
        figures = self.figures(names)
        return figures, called(*(("orders.trace_in", [{"ask": True}, as_bytes(self.images[name]), figure, count, number])
                                 for name, figure in zip(names, figures)))

    def test_the_run_in_an_order(self):
        """Of an accepted program it is the trace that the program prints, whatever the order is, but where the states round a
        group don't tell how it ended."""
        names = self.accepted()
        self.assertGreater(len(names), 40)
        left = 0
        for name, found in zip(names, self.traces_in(names, 12, "7")[1]):
            wanted = self.raw(["trace", "0", "12"], self.images[name])[1].decode()
            for line in re.findall(r"^\d+ \d+\.\d \d+\.\d left$", found, re.M):
                start, reached = re.match(r"(\d+ \d+\.\d) (\d+\.\d)", line).groups()
                its = re.search(rf"^{re.escape(start)} (\d+\.\d) (taken|falls)$", wanted, re.M)
                self.assertGreaterEqual(its[1], reached, name)
                wanted, left = wanted.replace(its[0], line), left + 1
            self.assertEqual(found, wanted, name)
        self.assertIn(left, range(1, 20))

    def group_of(self, image, before, after):
        """How a group ends, and its writes, by the Python, or why one of these isn't told."""
        rows, before, after = writes.read_listing(self.raw(["list"], image)[1].decode()), State(before), State(after)
        try:
            group = writes.group_between(rows, before, after)
        except Fault as fault:
            return None, str(fault)
        last, how = (group.ended, "ends") if group.ended else (group.slots[-1], "taken" if group.taken else "falls")
        try:
            return (last.named(), how), [[write.target, write.slot.named()] for write in writes.writes_of(group, before)]
        except Fault as fault:
            return (last.named(), how), str(fault)

    def hold_groups(self, rows):
        """How the groups between states end, each given by an image, its figure and the states, and their writes in an order,
        as in Python. It gives how many groups end in which way."""
        found, ends = called(*(("orders.writes_in", [figure, before, after, "5"]) for _, figure, before, after, _ in rows)), {}
        for (image, _, before, after, own), (made, why) in zip(rows, (each.values() for each in found)):
            end, told = self.group_of(image, before, after)
            self.assertEqual(own, end or (own[0], "left"))
            if isinstance(told, str):
                self.assertEqual((made, why), ([], told))
            else:
                order = [told[at] for at in writes.arranged(5, len(told))]
                self.assertEqual(([[each["target"], each["slot"]] for each in made], why), (order, ""))
            ends[own[1]] = ends.get(own[1], 0) + 1
        return ends

    def groups_of(self, images, figures, traces):
        """The groups of traces, as `hold_groups` takes them."""
        rows = []
        for image, figure, trace in zip(images, figures, traces):
            before, *parts = re.split(r"^\d+ \d+\.\d (\d+\.\d) (\w+)\n", trace, flags=re.M)
            for last, how, after in zip(*(parts[at::3] for at in range(3))):
                rows.append((image, figure, before, after, (last, how)))
                before = after
        return rows

    def test_groups_in_an_order(self):
        """How groups of all programs end, the wrong ones too, and their writes."""
        names = self.accepted() + self.violated()
        self.assertGreater(len(self.violated()), 20)
        rows = self.groups_of(map(self.images.get, names), *self.traces_in(names, 8, "1"))
        ends = self.hold_groups(rows)
        self.assertEqual(set(ends), {"falls", "taken", "ends", "left"})

    def test_writes(self):
        """The writes of all forms of slots, and what isn't told of them."""
        forms, texts = test_orders.Writes, []
        for units, slots in forms.SLOTS.items():
            texts += [forms.text_of(units, slot, forms.SECOND) for slot in slots]
        for slot in (*forms.BRANCHES, *forms.LOOPS):
            texts += [forms.text_of("mib", forms.SECOND, slot, counters) for counters in ((0, 0), (0, 1), (0, 2), (3, 0))]
        head = "{ .mlx\nnop 0\nmovl r14=0x100000\n}\n{ .mib\ncmp.eq p8,p9=r0,r0\nnop 0\nnop 0 ;;\n}\n"
        texts += [f"{head}{group}{forms.END}" for group in (
            "{ .mmi\nst8 [r14]=r0\nld8.c.clr r8=[r14]\nnop 0 ;;\n}\n",
            "{ .mib\ncmp.eq p6,p7=r0,r0\nnop 0\n(p6) br.wtop.sptk.few z ;;\n}\n")]
        images = [self.raw(["build"], text.encode())[1] for text in texts]
        figures = [each["figure"] for each in called(*(("figures.of_text", ["", text, {"ask": True}]) for text in texts))]
        traces = called(*(("orders.trace_in", [{"ask": True}, as_bytes(image), figure, 3, "0"])
                          for image, figure in zip(images, figures)))
        self.assertGreater(sum(self.hold_groups(self.groups_of(images, figures, traces)).values()), 150)

    def test_branches_whose_predicate_is_0(self):
        """They aren't taken for what led elsewhere; where a predicate may have been written before, nothing is said."""
        texts = ["{ .mii\nadds r8=1,r0\nadds r8=2,r0\n%s\n}\n{ .mbb\nnop.m 0\n(p6) br.ret.sptk.few b0\n"
                 "br.cond.sptk.few out ;;\n}\nout:\n" % slot + END for slot in ("nop.i 0", "cmp.ne p6,p7=r0,r0")]
        figures = [each["figure"] for each in called(*(("figures.of_text", ["", text, {"ask": True}]) for text in texts))]
        images = [self.raw(["build"], text.encode())[1] for text in texts]
        traces = called(*(("orders.trace_in", [{"ask": True}, as_bytes(image), figure, 1, "0"])
                          for image, figure in zip(images, figures)))
        self.assertEqual([re.findall(r"^1 .*", trace, re.M) for trace in traces], [["1 0.0 1.2 taken"], ["1 0.0 1.1 left"]])
        headings = called(*(("steps.heading", [run["steps"][0], figure]) for run, figure in zip(
            called(*(("steps.of_trace", [trace, figure]) for trace, figure in zip(traces, figures))), figures)))
        self.assertEqual(headings, ["group 1: 0.0 to 1.2, then a branch to 2.0 (out)",
                                    "group 1: 0.0 to 1.1, and perhaps more; it goes on at 2.0 (out)"])

    def test_slot_by_slot(self):
        """Of an accepted program the states slot by slot are those of its trace, a group for a group."""
        names = self.accepted()
        figures = self.figures(names)
        traces = [self.raw(["trace", "0", "12"], self.images[name])[1].decode() for name in names]
        states = [re.split(r"^\d+ \d+\.\d \d+\.\d \w+\n", trace, flags=re.M)[1:] for trace in traces]
        found = called(*(("orders.beside", [{"ask": True}, self.texts[name], figure, 12])
                         for name, figure in zip(names, figures)))
        wanted = [(name, alone, count, state) for name, alone, own in zip(names, found, states)
                  for count, state in enumerate(own, 1)]
        self.assertEqual([(name, alone["why"]) for name, alone in zip(names, found) if alone["why"]], [])
        told = called(*(("orders.told_beside", [{"ask": True}, alone, count, state]) for _, alone, count, state in wanted))
        for (name, _, count, state), lines in zip(wanted, told):
            self.assertEqual(lines, lines_of(state), f"{name}, group {count}")

    def beside(self, text, groups):
        """What is told slot by slot of a text, what the program was asked for it, and how many bytes it printed in all."""
        figure, = (each["figure"] for each in called(("figures.of_text", ["", text, {"ask": True}])))
        alone, asked = called(("orders.beside", [{"ask": True}, text, figure, groups]), ("asked", []))
        return alone, [" ".join(words) for words, _, _ in asked], sum(printed for _, _, printed in asked)

    def test_much_data_slot_by_slot(self):
        """Of a program with much data the states slot by slot don't take long: its image is asked about, and not its text, and of
        long states only few."""
        for words, most in ((1024, 45), (8192, 10), (65536, 10)):
            alone, asked, printed = self.beside(violated(words, "br.cond.sptk.few x"), 1000)
            self.assertEqual(asked[:2], ["build", "run 4096"])
            self.assertLess(len(asked), most, words)
            self.assertLess(printed, 20_000_000)
            self.assertEqual((alone["last"], alone["why"]), (None, "the states, with the data, are too long for that"))
            self.assertEqual(len(alone["ends"]) > 0, words < 65536)
            self.assertEqual(alone["ends"], [6 * group for group in range(1, len(alone["ends"]) + 1)])
        _, asked, _ = self.beside(violated(0, "br.cond.sptk.few x").replace("data8 1", ".skip 1000000"), 1000)
        self.assertLess(len(asked), 10)

    def test_a_run_slot_by_slot_that_ends(self):
        """Where no group is behind the last of the slots that are run first, the last state is theirs, however long it is."""
        for words, ends, why in ((8192, [6], ""), (65536, [], "the states, with the data, are too long for that")):
            text = violated(words, "break.b 0")
            alone, asked, _ = self.beside(text, 1000)
            parted, = called(("splitting.split", [text]))
            self.assertEqual(alone["last"], self.raw(["run", "4096"], parted["text"].encode())[1].decode())
            self.assertEqual((alone["ends"], alone["why"]), (ends, why))
            self.assertLess(len(asked), 5)
        alone, _, _ = self.beside(violated(0, "br.cond.sptk.few x"), 3)
        self.assertEqual((alone["ends"], alone["why"]), ([6, 12, 18], ""))
        self.assertEqual(alone["last"].split("\n")[1], "groups 18")

    def test_slots_that_run_long(self):
        text, more = violated(0, "br.cond.sptk.few x"), "more than 4,096 slots ran"
        for groups, count, asked in ((5000, 100, 8), (1000, 682, 43), (683, 682, 43), (682, 682, 43)):
            alone, calls, _ = self.beside(text, groups)
            self.assertEqual((len(alone["ends"]), alone["why"]), (count, "" if groups == 682 else more))
            self.assertEqual((alone["last"] is None, len(calls) < asked + 1), (groups != 682, True), calls[-1])

    def test_a_budget_of_orders(self):
        """Of long states those of the first numbers alone are asked for, and of the run in an order the first groups alone."""
        for words, numbers, groups in ((0, 24, 100), (8192, 24, 30), (65536, 6, 5)):
            text = violated(words, "br.cond.sptk.few x")
            image = self.raw(["build"], text.encode())[1]
            figure, = (each["figure"] for each in called(("figures.of_text", ["", text, {"ask": True}])))
            left, asked = called(("orders.left_by", [{"ask": True}, as_bytes(image), 1000, [*map(str, range(24))]]), ("asked", []))
            self.assertEqual(sorted(int(number) for each in left for number in each["numbers"]), [*range(len(asked))])
            self.assertTrue(1 < len(asked) <= numbers and sum(printed for _, _, printed in asked) < 12_000_000, words)
            trace, asked = called(("orders.trace_in", [{"ask": True}, as_bytes(image), figure, 1000, "1"]), ("asked", []))
            self.assertTrue(1 < len(asked) <= groups + 1 and sum(printed for _, _, printed in asked) < 15_000_000, words)
            self.assertEqual(trace.count("\nend "), len(asked) - 1)

    def test_numbers(self):
        """The page and docs/use/teach.md say what the scripts hold to."""
        names = ("orders.NUMBERS", "orders.MOST_SLOTS", "orders.MOST_STEPS", "orders.BUDGET", "reading.LONGEST", "reading.MOST_LINES")
        numbers, slots, steps_, budget, letters, lines = called(*((name, []) for name in names))
        self.assertEqual(numbers, math.factorial(4))
        page = (ROOT / "front" / "page" / "page.html").read_text()
        self.assertIn(f"the numbers 0 to {numbers - 1}\nhave all orders of up to four writes", page)
        said_of_it = (ROOT / "docs" / "use" / "teach.md").read_text()
        for said in (f"texts of up to {letters:,} letters and {lines:,} lines", f"slot by slot at most {slots:,} slots",
                     f"it shows the first {steps_} groups", f"come to more than {budget:,} bytes"):
            self.assertIn(said, said_of_it)

    def test_rows_of_a_state(self):
        """So many rows of a state are shown as docs/use/files.md says."""
        most = re.search(r"MOST_ROWS = (\d+)", (ROOT / "front" / "page" / "stepping.js").read_text())[1]
        self.assertIn(f"Of a state at most {most} rows are shown", (ROOT / "docs" / "use" / "files.md").read_text())

    def test_addresses_slot_by_slot(self):
        """A bundle that was taken apart has its address by its first slot; what is in another place than a branch register is
        an address where the other state has it too."""
        state = ("end limit at 3.0\ngroups 9\nr8 {3}\nr9 {3}\nr10 {1}\nb0 {3}\nb1 {1}\nb2 {4}\nm 0000000000100000 {3}\n"
                 "alat r8 {3} 8\n")
        other = "end limit at 1.0\ngroups 2\nr8 {1}\nm 0000000000100000 {1}\n"
        address = [f"{0x10000 + 16 * number:016x}" for number in range(5)]
        lines, = called(("splitting.told", [state.format(*address), ["0.0", "0.1", "0.2", "1.0"], other.format(*address)]))
        self.assertEqual(lines, lines_of("end limit at 1.0\ngroups 2\nr8 {1}\nr9 {3}\nr10 {1}\nb0 {1}\nb1 {1}\nb2 {4}\n"
                                         "m 0000000000100000 {1}\nalat r8 {3} 8\n".format(*address)))

    def test_states_of_orders(self):
        """The states that orders leave, each with its orders."""
        image = self.images["examples/override.s"]
        found, = called(("orders.left_by", [{"ask": True}, as_bytes(image), 5, ["0", "1", "2", "3"]]))
        self.assertEqual([each["numbers"] for each in found], [["0", "2"], ["1", "3"]])
        self.assertEqual([each["state"] for each in found], [self.raw(["groups", "5", number], image)[1].decode()
                                                             for number in "01"])

    def test_pieces(self):
        """So many groups of a trace are asked for at once that what is printed isn't large: as many as in Python, and no more than
        the program takes."""
        data = [self.raw(["build"], END.encode() + b".data\n" + b".skip 32768\n" * count)[1] for count in (0, 1, 6, 32)]
        found = called(*(("orders.groups_of_a_piece", [as_bytes(image)]) for image in data))
        self.assertEqual(found, [min(100, steps.groups_of_a_piece(image)) for image in data])
        self.assertEqual([self.raw(["trace", "0", str(each)], image)[0] for each, image in zip(found, data)], 4 * [0])
        self.assertLess(found[-1], 10)

    def test_answers(self):
        """Verdicts, refusals and comments on stops, as they are printed."""
        violated = self.raw(["check"], self.images["examples/lessons/05_loop_edge.s"])[1].decode()
        packed = self.raw(["stops"], self.texts["examples/loose.s"].encode())[1].decode()
        many = self.raw(["check"], b"{ .mii\nadds r8=1,r0\nadds r8=2,r0\nadds r8=3,r0 ;;\n}\n" * 60)[1].decode()
        verdict, accepted, cut_off, refusal, other, stops = called(
            ("reading.verdict_of", [violated]), ("reading.verdict_of", ["accepted\n"]), ("reading.verdict_of", [many]),
            ("reading.refusal_of", ["line 12: slot kind\n"]), ("reading.refusal_of", ["image: short\n"]),
            ("reading.stops_of", [packed]))
        self.assertEqual(verdict, {"total": 2, "rows": [{"rule": rule, "resource": "r8", "first": "1.0", "second": "1.1"}
                                                        for rule in ("RAW", "WAW")]})
        self.assertEqual(accepted, {"total": 0, "rows": []})
        self.assertEqual((cut_off["total"], len(cut_off["rows"])), (180, 100))
        self.assertEqual((refusal, other), ({"line": 12, "reason": "slot kind"}, {"line": None, "reason": "image: short"}))
        comments = [line[3:] for line in packed.splitlines() if line.startswith("// ")]
        self.assertEqual([f"{each['place']} {' '.join(each['words'])}" for each in stops], comments)
        self.assertGreater(len(comments), 2)

    def test_ways(self):
        """By which branches alone a violation comes is said as `check` says it."""
        names = self.violated()
        found = called(*(("figures.of_text", [name, self.texts[name], {"ask": True}]) for name in names))
        slots = called(*(("figures.slots_of_text", [self.texts[name]]) for name in names))
        rows = [(name, ways, own) for name, each, own in zip(names, found, slots) for ways in each["ways"]]
        said = called(*(("figures.said_ways", [ways, own]) for _, ways, own in rows))
        wanted = []
        for name in names:
            file = files.read_member(name, name, self.texts[name].encode(), False)
            errors = [each for each in programs.checked(file, self.program).findings if each.severity is Severity.ERROR]
            wanted += [(name, re.search(r"(; only by .*)?$", each.text)[0]) for each in errors]
        self.assertEqual([(name, each) for (name, _, _), each in zip(rows, said)], wanted)
        self.assertGreater(len([each for each in said if each]), 4)
        self.assertEqual(called(("figures.said_ways", [[[[2, 2], 1], [[3, 1], 5]], None])),
                         ["; only by the way back from 2.2 and the branch at 3.1"])

    def test_loose_texts(self):
        """The bundles and the stops of a text are taken out as in Python."""
        texts = [*self.texts.values(), *(path.read_text() for path in (ROOT / "tests" / "loose").glob("*.s")),
                 *(chance_text(seed).decode() for seed in range(20)), "", "\n", "x:\n;; // a\nnop 0 ;;\n}\nnop.m 0 // b\n",
                 ".data\n{ .mii\n.text\r\n { .mlx // c\n\tnop 0 ;;\n( p0 )nop.x  0x0\n}\n"
                 "y:\n{ .mib\nchk.s r8,y\nhint 0\nbreak 1\n}"]
        self.assertEqual(called(*(("loosening.loosened", [text]) for text in texts)),
                         [loosen.loosened(text.encode("latin-1")).decode("latin-1") for text in texts])

    def test_statuses(self):
        """Some statuses are those of answers, and each other one is called something."""
        nothing = {"output": as_bytes(b""), "why": "the stack ends"}
        said = {2: "the words are none that the program takes", 4: "the input is longer than 16,777,216 bytes",
                5: "the input could not be read", 6: "there was no room for the output", 7: "out of memory",
                125: "the program in this page failed (the stack ends)"}
        statuses = [*range(10), 125]
        found = called(*(("reading.is_answer", [{"status": status}]) for status in statuses))
        self.assertEqual([status for status, is_answer in zip(statuses, found) if is_answer], [0, 1, 3, 8, 9])
        self.assertEqual(called(*(("reading.why_none", [{"status": status, **nothing}]) for status in said)), [*said.values()])
        refused, unknown = called(("reading.why_none", [{"status": 3, "output": as_bytes(b"line 3: limit\n")}]),
                                  ("reading.why_none", [{"status": 10, "output": as_bytes(b"")}]))
        self.assertEqual((refused, unknown), ("line 3: limit", "the program in this page failed (status 10)"))

    def test_long_texts(self):
        """The page takes texts of so many letters and lines, and no longer ones, also from links."""
        why = "this page takes texts of 1,000,000 letters and 20,000 lines at most"
        texts = {"x" * 1_000_000: "", "x" * 1_000_001: why, "\n" * 19_999: "", "\n" * 20_000: why}
        self.assertEqual(called(*(("reading.why_long", [text]) for text in texts)), [*texts.values()])
        fragments = called(*(("sharing.fragment_of", [text, []]) for text in texts))
        self.assertEqual(called(*(("sharing.text_of", [f"#{fragment}", []]) for fragment in fragments)),
                         [{"text": None if said else text, "why": said} for text, said in texts.items()])

    def test_what_is_unpacked(self):
        """A text is unpacked no further than it may be long."""
        packing = zlib.compressobj(9, zlib.DEFLATED, -15)
        packed = packing.compress(b"\n" * 20_000_000) + packing.flush()
        text, = called(("engine.unpacked_text", [as_bytes(packed), "deflate-raw", 1000]))
        self.assertTrue(1000 < len(text) < 1_000_000, len(text))

    def test_a_byte_order_mark(self):
        """It is a letter of the text, which the program refuses, and no sign for who reads the text."""
        text = "\ufeff" + self.texts["examples/count.s"]
        self.assertEqual(self.raw(["check"], text.encode()), (3, b"line 1: char\n"))
        decoded, fragment = called(("reading.decoded", [as_bytes(text.encode())]), ("sharing.fragment_of", [text, []]))
        self.assertEqual(decoded, text)
        self.assertEqual(called(("sharing.text_of", [fragment, []])), [{"text": text, "why": ""}])

    def test_kinds_of_texts(self):
        names = ["examples/loose.s", "examples/count.s", "examples/loop_edge.s"]
        self.assertEqual(called(*(("reading.is_loose", [self.texts[name]]) for name in names)), [True, False, False])

    def test_sharing(self):
        """A text comes back from the address that it is put into; an example goes by its name."""
        examples = [{"name": "count.s", "text": self.texts["examples/count.s"]}]
        texts = ["", "nop 0\n", "{ .mii\n\tadd r8=r9,r10 // \u00e9\n", self.texts["tests/run/lanes.s"], examples[0]["text"]]
        fragments = called(*(("sharing.fragment_of", [text, examples]) for text in texts))
        self.assertEqual(fragments[-1], "example=count.s")
        for fragment in fragments:
            self.assertRegex(fragment, r"^(example|text)=[\w.-]+$")
        none = ("", "#text=!", "#example=none.s", "#text=AAAA", "#text=eJxLAAA", "#text", "#" + fragments[1][:-3])
        found = called(*(("sharing.text_of", [f"#{fragment}", examples]) for fragment in fragments),
                       *(("sharing.text_of", [fragment, examples]) for fragment in none))
        given, rest = found[:len(texts)], found[len(texts):]
        self.assertEqual(given, [{"text": text, "why": ""} for text in texts])
        cut_off, no_example = "this link has no whole text in it", "this page has no example none.s"
        self.assertEqual(rest, [{"text": None, "why": why} for why in ("", cut_off, no_example, *4 * [cut_off])])


@needs_node
class Engine(unittest.TestCase):
    """How the program in the page is called, by a module that stands in for it."""

    def asked(self, *calls):
        """What calls answer, each a word and its input, and what the module wrote down."""
        module = base64.b64encode(gzip.compress(b"module")).decode()
        wanted = [("ask", [words.split(" "), as_bytes(data)]) for words, data in calls]
        _, *answers, log = test_page_drawing.called(("engine.open", [module]), *wanted, ("log", []),
                                                    scripts=("../tests/fake_module", "engine"))
        return [(each["status"], base64.b64decode(each["output"]["bytes"])) for each in answers], log

    def test_calls(self):
        """Each call begins anew, gets its words and its input, and gives its status and its output."""
        answers, log = self.asked(("echo 1", b"abc"), ("echo", b""), ("echo", bytes(range(256))))
        self.assertEqual(answers, [(0, b"abc"), (0, b""), (0, bytes(range(256)))])
        self.assertEqual(log, ["made of module", "begin", "run echo;1;", "begin", "run echo;", "begin", "run echo;"])

    def test_a_module_that_is_kept(self):
        """It is kept up to so much memory, and made anew behind more, behind want of memory, and behind a trap."""
        for word, status, is_kept in (("much", 0, True), ("more", 0, False), ("full", 7, False), ("none", 7, False),
                                      ("trap", 125, False)):
            answers, log = self.asked((word, b"abc"), ("echo", b"x"))
            self.assertEqual([each for each, _ in answers], [status, 0])
            self.assertEqual((answers[1][1], log.count("made of module")), (b"x", 1 if is_kept else 2), word)
            self.assertEqual(log.count("begin"), 2)

    def test_another_browser(self):
        """What can't run the program says so."""
        said = test_page_drawing.called(*(("opened", [base64.b64encode(gzip.compress(data)).decode()])
                                          for data in (b"module", b"wrong")), scripts=("../tests/fake_module", "engine"))
        self.assertEqual([each.split(",")[0] for each in said], ["", "This browser can't run the program"])


def violated(words, end):
    """A text that isn't accepted, of two bundles, one group and six slots, with so many words of data."""
    return (f"x:\n{{ .mii\nadds r8=1,r8\nadds r8=2,r8\nnop.i 0\n}}\n{{ .mib\nnop.m 0\nnop.i 0\n{end} ;;\n}}\n"
            f"{{ .mib\nnop.m 0\nnop.i 0\nbreak.b 0 ;;\n}}\n.data\ndata8 1\n" + "data8 1,1,1,1,1,1,1,1\n" * (words // 8))


def lines_of(state):
    """The lines of a printed state as the scripts have them."""
    lines, entries = {}, 0
    for line in state.splitlines():
        name, value = re.fullmatch(r"(m \S+|\S+) (.*)", line).groups()
        if name == "alat":
            entries += 1
            name = f"alat {entries}"
        lines[name] = value
    return lines
