"""The scripts that draw in a page, held to the drawing in Python: by `node`, where it is installed."""

import base64
import functools
import json
import random
import re
import shutil
import subprocess
import unittest

from front import drawing, files, loosen, programs, rules, texts
from front.drawing import markup, style, svg
from front.drawing.accesses import accesses_of
from front.drawing.figure import STOOD_IN, UNKNOWN, Branch, Pair, Row, as_data
from front.drawing.relations import cliques
from front.drawing.routes import label_place
from front.faults import Fault
from front.files import Kind
from front.program import Program
from front.tracing import lines
from front.tracing.code import Code
from front.tracing.steps import steps
from front.tests import probes, writers
from front.tests.case import PROGRAM, ROOT
from front.tests.test_drawing import END

NODE = shutil.which("node")
SCRIPTS = ("drawing", "bundles", "figures", "steps")
needs_node = unittest.skipUnless(NODE, "node is missing")
FOLDERS = ("examples", "examples/lessons", "tests/check")
UNITS = ("mii", "mlx", "mmi", "mfi", "mib", "mbb", "bbb", "mmb", "mfb")
# The places behind which a template can have stops, by `;`.
STOPS = {"mii": ("   ", "  ;", " ; ", " ;;"), "mmi": ("   ", "  ;", ";  ", "; ;"), "mlx": (" ;", "  ")}
SLOTS = {unit: [text for of, text in probes.examples() if of == unit] for unit in "mibfx"}


def called(*calls, scripts=SCRIPTS):
    """What functions of the scripts give, each call a name and its arguments."""
    wanted = {"scripts": [str(ROOT / "front" / "page" / f"{name}.js") for name in scripts], "program": PROGRAM, "calls": calls}
    done = subprocess.run([NODE, ROOT / "front" / "tests" / "scripts.js"], input=json.dumps(wanted).encode(),
                          stdout=subprocess.PIPE, check=True)
    return json.loads(done.stdout)


def as_bytes(data):
    return {"bytes": base64.b64encode(data).decode()}


def program():
    return Program(lambda: PROGRAM)


def paths():
    """The texts of the repository that are drawn."""
    return [path for folder in FOLDERS for path in sorted((ROOT / folder).glob("*.s"))]


@functools.lru_cache(maxsize=None)
def figure(label, data, is_proved=False):
    """The figure of a text or an image, or why there is none."""
    source = file = files.read_member(label, label, data, False)
    if source.kind is Kind.TEXT:
        status, printed = program().raw(["build"], data)
        if status:
            finding, = programs.refused(source, printed.decode().strip()).answer.findings
            return finding.text
        file = files.File(label, label, Kind.IMAGE, printed)
    try:
        return drawing.of_program(file, source, program(), is_proved)
    except Fault as fault:
        return str(fault)


def chance_text(seed):
    """A text with slots of all forms by chance: with labels, entries, relations, comments, data and branches back and ahead."""
    chance = random.Random(seed)
    count, lines = chance.randrange(2, 25), []
    for index in range(count):
        if chance.random() < 0.2:
            lines += [f".entry x{index}", f'.pred.rel "mutex",p6,p{chance.randrange(7, 10)}']
        lines += [f"x{index}#: // a comment: \"{{ .mii\""] + [f"  again{index} :"] * (chance.random() < 0.1)
        units = chance.choice(UNITS)
        lines.append(f"{{ .{units}")
        stops = chance.choice(STOPS.get(units, ("  ;", "   ")))
        for slot, (unit, stop) in enumerate(zip(units.replace("lx", "x"), stops)):
            fitting = [text for text in SLOTS[unit] if slot == 2 or not re.search(r"br\.[cw](top|exit|loop)", text)]
            text = re.sub(r"\bx$", f"x{min(count, max(0, index + chance.randrange(-4, 5)))}", chance.choice(fitting))
            text = re.sub(r"^(?!\()(?=(add|ld|st|cmp|mov r|shl)\w*)", chance.choice(("", "(p6)\t", "(p7) ")), text)
            lines += ["  // nop.i 0", ""] * (chance.random() < 0.1) + [f"  {text}{stop.strip() * 2}  // {{ .mii"]
        lines += ["}", ".data", f"data{index}:", "data8 5", ".text"] if chance.random() < 0.1 else ["}"]
    return "\r\n".join([*lines, f"x{count}:", "{ .mii", "nop.m 0", "nop.i 0", "break.i 0 ;;", "}", ""]).encode()


def inputs():
    """The texts that are drawn, each with a label."""
    return [(path.name, path.read_bytes()) for path in paths()] + [(f"seed {seed}", chance_text(seed)) for seed in range(25)]


def figures():
    """The figures of all texts that have one."""
    found = [figure(*row) for row in inputs()]
    return [each for each in found if not isinstance(each, str)]


@needs_node
class Pictures(unittest.TestCase):
    """Pictures of figures."""

    def same(self, drawn):
        """Each of these figures as both draw it: as a part of a page, and as a picture."""
        calls = [call for each in drawn for call in (("drawing.inline", [as_data(each), "f0-"]),
                                                     ("drawing.document", [[as_data(each)], style.SHEET]))]
        found = called(*calls)
        for at, each in enumerate(drawn):
            self.assertEqual(found[2 * at:2 * at + 2], [svg.inline(each, "f0-"), svg.document([each])], each.file)

    def test_every_figure(self):
        drawn = figures()
        self.assertGreater(len(drawn), 50)
        self.same(drawn)

    def test_what_functions_have(self):
        """Marks of what is outside the profile, slots of which nothing is known, bundles without slots, ways out, names that
        have to be escaped and long ones."""
        drawn = figure("loop_edge", (ROOT / "examples" / "loop_edge.s").read_bytes())
        first, *others = drawn.rows
        texts_of_others = ("a,b" * 20, "fma.s0 f8=f9,f10,f11", "\x01 ==")
        slots = [slot._replace(mark=mark, accesses=None, canonical="<&>", text=text)
                 for slot, mark, text in zip(first.slots, (STOOD_IN, UNKNOWN, ""), texts_of_others)]
        rows = (first._replace(name="+0x123456", slots=tuple(slots), labels=("'a' \"b\"", "c" * 200)), *others,
                Row("+0x40", "", (), said="what is behind the function"), Row("+0x50", "", (), is_walked=False, said="reserved"))
        end = len(drawn.rows)
        pairs = (*drawn.pairs, Pair("CLEAR", ("cfm",), (2, 0), (end, 0), ("a", "b")),
                 Pair("RAW", ("f8",), (0, 1), (3, 1), ("c",)), Pair("WAR63", ("p63",), (0, 2), (1, 2), ()),
                 Pair("WAW", ("ar.fpsr", "system"), (0, 0), (1, 1), ("d",), "p6 is 0 there"))
        branches = (*drawn.branches, Branch((1, 2), None, "out", ("WAW r8", "RAW r9")), Branch((2, 1), None, "out"),
                    Branch((1, 0), 4, "ahead"))
        drawn = drawn._replace(file="\U0001f600" * 90, function="f\ud800", rows=rows, pairs=pairs, branches=branches,
                               said="a verdict in many words, and more; " * 9, notes=("a long note, " * 40, "", "short"))
        self.same([drawn._replace(verdict=verdict) for verdict in svg.GLYPHS])

    def test_labels_of_lines(self):
        """Where the label of a line stands: on it, beside it, or where there is no room for it."""
        chance = random.Random(3)
        rows = [(chance.choice((9.5, 80, 300.25, 900)), (chance.uniform(0, 600), chance.uniform(0, 600)),
                 (20.5, chance.randrange(90, 700))) for _ in range(500)]
        self.assertEqual(called(*(("drawing.label_place", row) for row in rows)), [label_place(*row) for row in rows])

    def test_numbers(self):
        """Numbers are told as Python tells them, those between two tenths too."""
        numbers = [at / 80 for at in range(-400, 4000)] + [at / 4 + 1e5 for at in range(9)]
        chance = random.Random(1)
        numbers += [chance.uniform(-1, 10 ** chance.randrange(7)) for _ in range(2000)]
        self.assertEqual(called(*(("drawing.number", [value]) for value in numbers)), list(map(markup.number, numbers)))


@needs_node
class Figures(unittest.TestCase):
    """Figures of programs."""

    def same(self, name, rows):
        """Of these labels and inputs both have the same figures, or the same faults, which the front also explains."""
        given = [data.decode("latin-1") if name == "of_text" else as_bytes(data) for _, data in rows]
        found = called(*((f"figures.{name}", [label, each, {"ask": True}]) for (label, _), each in zip(rows, given)))
        for (label, data), each in zip(rows, found):
            wanted = figure(label, data)
            if isinstance(wanted, str) and wanted.startswith(f"{each.get('fault')}: "):
                wanted = each["fault"]
            self.assertEqual(each.get("fault", each.get("figure")), wanted if isinstance(wanted, str) else as_data(wanted), label)
        return found

    def test_texts(self):
        found = self.same("of_text", inputs())
        self.assertGreater(sum("figure" in each for each in found), 80)

    def test_images(self):
        rows = [(label, program().raw(["build"], data)) for label, data in inputs()]
        images = [image for _, (status, image) in rows if status == 0]
        lifted = [program().raw(["lift"], image)[1] for image in images[:5]]
        self.same("of_image", [("an image", image) for image in images + lifted])

    def test_refused(self):
        """What is refused, with the line where it is one's, and what is too large."""
        found = self.same("of_text", [("x.s", text) for text in (b"nop.i 0\n", b"{ .mii\nnop.m 0\nadd r8\n", b"\x80\n", b"//\n")])
        self.assertEqual([each["line"] for each in found], [1, 3, 1, 2])
        nops = [count.to_bytes(4, "little") + bytes(12) + writers.NOP * count for count in (2000, 2001)]
        found = self.same("of_image", [("x.image", b"IA64IMG2" + each) for each in nops] + [("y.image", b"IA64IMG1")])
        self.assertEqual([each.get("fault") for each in found],
                         [None, "2,001 bundles, and a picture has 2,000 at most", "refused, image: short"])

    def test_more_than_a_hundred(self):
        """Of many violations those that are listed, and those of one pair as one."""
        rows = "".join("{ .mii\nadds r8=1,r0\nadds r8=2,r0\n(p6) adds r8=3,r0 ;;\n}\n" for _ in range(60))
        moves = "{ .mii\nnop.m 0\nmov pr=r8,0x1fe\nmov pr=r9,0x1fe ;;\n}\n"
        self.same("of_text", [("many", f"{rows}{END}".encode()), ("moves", f"{moves}{END}".encode())])

    def test_ways_of_some_violations(self):
        """By which branch alone pairs clash is looked for where there are few violations."""
        rows = "{ .mii\nadds r8=1,r0\nadds r8=2,r0\nadds r8=3,r0 ;;\n}\n"
        loop = (ROOT / "examples" / "loop_edge.s").read_text()
        found = self.same("of_text", [(f"{count}", f"{rows * count}{loop}".encode()) for count in (6, 7)])
        self.assertEqual([sum(bool(branch["only_by"]) for branch in each["figure"]["branches"]) for each in found], [1, 0])

    def test_a_pair_behind_the_end(self):
        self.same("of_text", [("x.s", b"{ .mib\n(p6) adds r8=1,r0\nnop.i 0\nclrrrb\n}\n")])

    def test_what_is_proved(self):
        """Where the program that is asked is proved, the figure says what that means."""
        for name in ("count", "loop_edge"):
            data = (ROOT / "examples" / f"{name}.s").read_bytes()
            found, = called(("figures.of_text", [name, data.decode(), {"ask": True}, True]))
            self.assertEqual(found["figure"]["notes"], list(figure(name, data, True).notes))

    def test_tables(self):
        self.assertEqual(called(("figures.RULES", []), ("figures.REASONS", []), ("drawing.MARKS", []), ("drawing.GLYPHS", [])),
                         [{name: rule.of_text for name, rule in rules.RULES.items()}, texts.REASONS, svg.MARKS, svg.GLYPHS])
        end, = called(("bundles.END", []))
        self.assertEqual((end["template"], tuple(map(int, end["words"]))), programs.END)

    def test_accesses(self):
        """What each form of an instruction reads and writes."""
        images = [program().raw(["build"], probes.probe(*example))[1] for example in probes.examples()]
        forms = [text for image in images for text in program().listing(image)[1]]
        wanted = [as_data(accesses_of(text)) for text in forms]
        self.assertEqual(called(*(("figures.accesses_of", [text]) for text in forms)), wanted)

    def test_relations(self):
        chance = random.Random(2)
        lists = [[sorted(chance.sample(range(1, 9), 2)) for _ in range(chance.randrange(14))] for _ in range(200)]
        wanted = [as_data(cliques(map(tuple, pairs))) for pairs in lists]
        self.assertEqual(called(*(("figures.cliques", [pairs]) for pairs in lists)), wanted)

    def test_nops(self):
        said = ("nop.m 0", "nop 0x0", "nop.i", "(p0) nop.b -0", "( p0 )nop.m 00", "(p6) nop.m 0", "nop.m 1", "nop.q 0",
                "nopped 0", "hint.m 0", "")
        self.assertEqual(called(*(("figures.is_nop", [text]) for text in said)), list(map(loosen.is_nop, said)))


@needs_node
class Steps(unittest.TestCase):
    """The groups of runs."""

    def code_of(self, data):
        image = program().raw(["build"], data)[1]
        return image, Code(program(), image, data)

    def run_of(self, data, first, count):
        """The groups of a run as the Python has them, with their words."""
        image, code = self.code_of(data)
        return [{**step._asdict(), "changes": [change._asdict() for change in step.changes], "heading": lines.heading(step, code)}
                for step in steps(program(), image, first + 1, count, code)]

    def same(self, rows):
        """Of these texts, each with a number of groups that have run before and how many are told, both have the same steps."""
        drawn = [as_data(figure("", data)) for data, _, _ in rows]
        traces = [program().raw(["trace", str(first), str(count)], data)[1].decode() for data, first, count in rows]
        found = called(*(("steps.of_trace", [*row, True]) for row in zip(traces, drawn)))
        headings = called(*(("steps.heading", [step, of]) for of, run in zip(drawn, found) for step in run["steps"]))
        for row, run in zip(rows, found):
            for step in run["steps"]:
                step["heading"] = headings.pop(0)
                del step["state"]
            self.assertEqual(run["steps"], json.loads(json.dumps(self.run_of(*row))), row)
        return found

    def test_runs(self):
        paths = [path for folder in (*FOLDERS, "tests/run") for path in sorted((ROOT / folder).glob("*.s"))]
        rows = [(path.read_bytes(), first, count) for path in paths for first, count in ((0, 60), (9, 5))]
        found = self.same([row for row in rows if program().raw(["run", "1"], row[0])[0] in (0, 8, 9)])
        told = [step for run in found for step in run["steps"]]
        self.assertGreater(len(told), 1000)
        self.assertGreater(sum(len(step["off"]) for step in told), 40)

    def test_predicates(self):
        """Which slots have a predicate that is 0, however they are spelled; of a program that isn't accepted it isn't told."""
        text = ("{ .mii\ncmp.eq p6,p7=r0,r0\nmov.i ar.ec=2\nmov pr.rot=0x20000 ;;\n}\n{ .mii\n( p7 )adds r8 = 1,r0\n"
                "(p6) adds r9=1,r0\n(p7) cmp.eq.unc p8,p9=r0,r0\n}\n"
                "{ .mbb\n(p16) nop.m 0\n(p7) nop.b 0\n(p7) br.cond.sptk.few x ;;\n}\nx:\n"
                "{ .mib\n(p17) adds r9=1,r9\n(p16) adds r8=1,r8\nbr.ctop.sptk.few y ;;\n}\ny:\n"
                f"{{ .mii\n(p18) adds r9=1,r9\n(p17) adds r8=1,r8\nnop.i 0 ;;\n}}\n{END}").encode()
        found, = self.same([(text, 0, 9)])
        off = [[[1, 0], "p7"], [[1, 2], "p7"], [[2, 0], "p16"], [[2, 1], "p7"]]
        self.assertEqual([step["off"] for step in found["steps"]], [[], off, [[[3, 1], "p16"]], [[[4, 1], "p17"]], []])
        printed, drawn = program().raw(["trace", "0", "9"], text)[1].decode(), as_data(figure("", text))
        said, *runs = called(("steps.said_off", [found["steps"][1]]), ("steps.of_trace", [printed, drawn, False]),
                             ("steps.of_trace", [printed, None, True]))
        self.assertEqual(said, "p7 is 0: 1.0, 1.2, 2.1; p16 is 0: 2.0")
        self.assertEqual([step["off"] for run in runs for step in run["steps"]], [[]] * 10)

    def test_no_figure(self):
        """Of a program that isn't drawn it is told where a group goes on, and not by what: that may be a call or a return."""
        data = (ROOT / "examples" / "call.s").read_bytes()
        run, = called(("steps.of_trace", [program().raw(["trace", "0", "60"], data)[1].decode(), None, True]))
        wanted = [re.sub(r" \(\w+\)", "", re.sub("then a .* (?:of|to) ", "then on to ", row["heading"]))
                  for row in self.run_of(data, 0, 60)]
        headings = called(*(("steps.heading", [step, {"rows": []}]) for step in run["steps"]))
        self.assertEqual(headings, wanted)
        self.assertGreater(sum(", then on to " in heading for heading in headings), 1)

    def test_many_changes_of_a_group(self):
        """Several changes of one group are in the order of the lines of a state, those too that had none before."""
        text = ("{ .mii\nnop.m 0\nnop.i 0 ;;\nnop.i 0 ;;\n}\n{ .mlx\nmov.m ar.unat=5\nmovl r14=w ;;\n}\n"
                "{ .mmi\nst8 [r14]=r14\nadds r15=-8,r14\nmov.i ar.lc=3 ;;\n}\n"
                "{ .mii\nmov.m ar.unat=9\nmov.i ar.lc=5\nnop.i 0\n}\n"
                "{ .mmb\nst8 [r15]=r14\nst8 [r14]=r15\nbr.call.sptk.few b0=x ;;\n}\n"
                f"x:\n{{ .mmi\nnop.m 0 ;;\nnop.m 0\nnop.i 0 ;;\n}}\n{END}.data\ndata8 0\nw:\ndata8 1\n")
        found, = self.same([(text.encode(), 0, 20)])
        self.assertEqual([change["name"] for change in found["steps"][4]["changes"]],
                         ["b0 (rp)", "ar.unat", "ar.pfs", "ar.lc", "[0x100000]", "[0x100008]"])

    def test_ends(self):
        _, code = self.code_of((ROOT / "examples" / "count.s").read_bytes())
        ends = [("break 0x0 at 3.2", 1), ("fault BadAddress at 2.1", 5), ("fault NoSuch at 0.0", 2)]
        wanted = [lines.said_end(end, groups, code) for end, groups in ends]
        self.assertEqual(called(*(("steps.said_end", list(end)) for end in ends), ("steps.FAULTS", [])), [*wanted, lines.FAULTS])


if __name__ == "__main__":
    unittest.main()
