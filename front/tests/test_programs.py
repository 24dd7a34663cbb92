"""Texts and images as files, and the command line."""

import json
import os
import shutil
import subprocess
import sys
import unittest
import unittest.mock

from front import texts
from front.tests.case import FRONT, HAS_GNU, PROGRAM, ROOT, Case, asked

WRONG = b"""// a text
{ .mii
  nop.m 0     // ;;
\tadd r8=r9,r10
  add r11=r8,r9 ;;
}
.data
x: // label
  data8 1
.text
{ .mlx
  nop.m 0
  movl r12=5 ;;
}
"""


def example(name):
    return ROOT / "examples" / name


class Slots(unittest.TestCase):
    """Where the slots of a text stand."""

    def test_places(self):
        self.assertEqual(texts.slots_of_text(WRONG.replace(b"x: // label\n", b"x:\n")), [
            [(3, 3, "nop.m 0"), (4, 2, "add r8=r9,r10"), (5, 3, "add r11=r8,r9")], [(12, 3, "nop.m 0"), (13, 3, "movl r12=5")]])

    def test_as_the_program_has_them(self):
        """Each example has as many slots as the program lists of it."""
        for path in sorted((ROOT / "examples").glob("*.s")):
            built = subprocess.run([PROGRAM, "build"], input=path.read_bytes(), stdout=subprocess.PIPE, check=False)
            if built.returncode == 0:
                listing = subprocess.run([PROGRAM, "list"], input=built.stdout, stdout=subprocess.PIPE, check=True).stdout.decode()
                wanted = [len(bundle.splitlines()) - 1 for bundle in listing.replace("\n  ", "\0  ").splitlines()]
                wanted = [bundle.count("\0  ") for bundle in listing.replace("\n  ", "\0  ").splitlines()]
                self.assertEqual(list(map(len, texts.slots_of_text(path.read_bytes()))), wanted, path)


class Programs(Case):
    """`ia64 check` of texts and images."""

    def put(self, data, name="x.s"):
        (self.folder / name).write_bytes(data)
        return name

    def test_a_text(self):
        wrong = self.put(WRONG.replace(b"x: // label", b"x:"))
        self.assertEqual(self.lines("check", wrong), (1, [
            "x.s:5:3: error: RAW r8: 'add r11=r8,r9' reads what 'add r8=r9,r10' writes in the same group",
            "x.s:4:2: note: 'add r8=r9,r10' is here", "0 accepted, 1 violated, 0 not judged"], ""))

    def test_a_refused_text(self):
        said = ": error: refused, form: an operand or a mark is missing or left over, or no instruction has these operands"
        counts = "0 accepted, 0 violated, 0 not judged"
        text = self.put(WRONG.replace(b"x: // label", b"x: y"), "x")
        said += ": 'x: y'"
        self.assertEqual(self.lines("check", text), (2, [f"x:8{said}", counts], ""))
        # What might be a source for the GNU assembler is refused by both, and each says why.
        status, lines, error = self.lines("check", self.put(WRONG.replace(b"x: // label", b"x: y")))
        self.assertEqual((status, lines[0], lines[-1], error), (2, f"x.s:8{said}", counts, ""))
        self.assertEqual(any("the GNU assembler: Unknown opcode `y'" in line for line in lines[1:-1]), HAS_GNU)
        self.assertEqual(self.lines("check", self.put(b"IA64IMG1", "x"))[1][0],
                         "x: error: refused, image: short: it has fewer than 24 bytes")

    def test_every_rule(self):
        """What is said of each rule, of a text and of its image."""
        for body, said in (("nop.m 0\nadds r8=1,r0\nadds r8=2,r0", "WAW r8: 'adds r8=2,r0' writes what 'adds r8=1,r0' writes in the same group"),
                           ("nop.m 0\nnop.i 0\nclrrrb", "CLEAR cfm: 'clrrrb' has to be the last of its group, and 'nop.m 0' stands behind it"),
                           ("nop.m 0\n(p63) br.cond.sptk.few x\nbr.ctop.sptk.few x",
                            "WAR63 p63: 'br.ctop.sptk.few x' writes what '(p63) br.cond.sptk.few x' reads in the same group")):
            names = {"W": "mii", "C": "mib", "A": "mbb"}["A" if "63" in said else said[0]]
            text = f"x:\n{{ .{names}\n{body}\n}}\n{{ .mii\nnop.m 0\nnop.i 0\nbreak.i 0\n}}\n"
            status, lines, _ = self.lines("check", self.put(text.encode()))
            self.assertEqual((status, lines[0].split(": error: ")[1].split("; ")[0]), (1, said))
            image = subprocess.run([PROGRAM, "build"], input=text.encode(), stdout=subprocess.PIPE, check=True).stdout
            status, lines, _ = self.lines("check", self.put(image, "x.image"))
            self.assertEqual((status, lines[0].split(": ")[2]), (1, said.split(":")[0]))

    def test_the_way(self):
        status, lines, _ = self.lines("check", example("loop_edge.s"))
        self.assertEqual((status, [line.rpartition("; ")[2] for line in lines[:3:2]]), (1, 2 * ["only by the way back from line 37"]))
        self.assertNotIn("only by", "".join(self.lines("check", example("read_after_write.s"))[1]))

    def test_what_predicates_excuse(self):
        status, lines, _ = self.lines("check", "-v", example("predicated.s"))
        self.assertEqual(status, 0)
        self.assertIn("note: excused by predicates: WAW r10: '(p7) add r10=r8,r0' writes what '(p6) add r10=r9,r0' writes in the "
                      "same group, in line 21", lines[0])
        self.assertEqual(len(self.lines("check", example("predicated.s"))[1]), 1)

    def test_what_is_excused_behind_a_break(self):
        """A `break` keeps its predicate, so the walk goes on behind it."""
        text = (b"{ .mii\nnop.m 0\ncmp.eq p6,p7=r8,r9\nnop.i 0 ;;\n}\n{ .mii\n(p8) break.m 0\n(p6) adds r10=1,r0\n"
                b"(p7) adds r10=2,r0 ;;\n}\n{ .mii\nnop.m 0\nnop.i 0\nbreak.i 0\n}\n")
        status, lines, _ = self.lines("check", "-v", self.put(text))
        self.assertEqual((status, lines[0]), (0, "x.s:9:1: note: excused by predicates: WAW r10: '(p7) adds r10=2,r0' writes what "
                                                 "'(p6) adds r10=1,r0' writes in the same group, in line 8"))

    def test_no_way_where_there_is_none(self):
        """A loop branch that isn't taken acts too; what a branch only leads to clashes by itself; a call comes back."""
        exits = (b"x:\n{ .mib\ncmp.eq p16,p17=r8,r9\nnop.i 0\nnop.b 0 ;;\n}\n{ .mib\nnop.m 0\nnop.i 0\nbr.ctop.sptk.few x ;;\n}\n"
                 b"{ .mii\nnop.m 0\n(p16) adds r10=1,r0\n(p17) adds r10=2,r0 ;;\n}\n{ .mii\nnop.m 0\nnop.i 0\nbreak.i 0\n}\n")
        behind = (b"{ .mib\nnop.m 0\nnop.i 0\nbr.cond.sptk.few x ;;\n}\nx:\n{ .mii\nadds r9=1,r0\nadds r10=1,r0\nadds r10=2,r0 ;;\n}\n"
                  b"{ .mii\nnop.m 0\nnop.i 0\nbreak.i 0\n}\n")
        call = example("behind_a_call.s").read_bytes().replace(b".pred.rel", b"// .pred.rel")
        for text in (exits, behind, call):
            status, lines, _ = self.lines("check", self.put(text))
            self.assertEqual((status, [line for line in lines if "only by" in line]), (1, []), text)

    def test_more_than_a_hundred(self):
        """What predicates excuse isn't told where not all violations are listed."""
        text = b"{ .mii\ncmp.eq p6,p7=r8,r9\nnop.i 0\nnop.i 0\n}\n" + b"".join(
            b"{ .mii\n(p6) adds r%d=1,r0\n(p6) adds r%d=1,r0\n(p6) adds r%d=1,r0\n}\n" % (n, n + 1, n + 2) for n in range(12, 120, 3))
        text += b"{ .mii\nnop.m 0\nadds r10=1,r0\nadds r10=2,r0 ;;\n}\n{ .mii\nnop.m 0\nnop.i 0\nbreak.i 0\n}\n"
        status, lines, _ = self.lines("check", "-v", self.put(text))
        self.assertEqual((status, [line for line in lines if "excused" in line]), (1, []))
        self.assertIn("x.s: note: 9 more violations", lines)

    def test_a_source_without_the_assembler(self):
        """It is read as far as it can be, and its lines are told."""
        source = example("functions.s").read_text()
        with unittest.mock.patch("front.gnu.installed", lambda tool: None):
            status, lines, said = self.lines("show", self.put(source.encode()), "sum")
            self.assertEqual((status, lines[1:4], said), (0, ["sum:".ljust(40) + "// .text+0x70, 0x30 bytes", "{ .mmi  // +0x70",
                                                              "  lfetch.nta [r33]"], ""))
            source = source.replace("lfetch.nta", "lfetch.x")
            status, lines, _ = self.lines("check", self.put(source.encode()))
            self.assertEqual((status, lines[0]), (
                2, "x.s:56: error: not read without the GNU assembler: 'lfetch.x' is outside the profile, or unknown"))
            status, lines, said = self.lines("show", "x.s")
            self.assertEqual((status, lines, said), (2, [], (
                "ia64: x.s: not read without the GNU assembler: line 56: 'lfetch.x' is outside the profile, or unknown\n")))
            text = self.put(WRONG.replace(b"x: // label", b"x: y"))
            self.assertEqual(self.lines("check", text)[1][0].split(": ")[:3], ["x.s:8", "error", "refused, form"])

    def test_a_mixture(self):
        got = self.lines("check", example("functions.o"), example("count.s"), example("three_nops.image"))
        self.assertEqual((got[0], got[1][-1], got[2]), (1, "4 accepted, 1 violated, 0 not judged (1 of these functions with stand-ins)", ""))


class Documents(Case):
    """JSON and SARIF."""

    def test_json(self):
        status, printed, _ = self.ia64("check", "--format=json", example("read_after_write.s"), example("functions.o"))
        got = json.loads(printed)
        self.assertEqual((status, got["accepted"], got["violated"]), (1, 2, 2))
        self.assertEqual([file["file"].rpartition("/")[2] for file in got["files"]], ["read_after_write.s", "functions.o"])
        self.assertEqual((got["files"][0]["verdict"], len(got["files"][0]["findings"])), ("violated", 2))
        self.assertEqual([function["verdict"] for function in got["files"][1]["functions"]], ["violated", "accepted", "accepted"])
        self.assertEqual(got["files"][1]["functions"][2]["stood_in"], [{"offset": 0x70, "slot": 0, "mnemonic": "lfetch"}])

    def test_nothing(self):
        """An archive without members has a whole document too."""
        (self.folder / "empty.a").write_bytes(b"!<arch>\n")
        for form in "json", "sarif":
            status, printed, _ = self.ia64("check", f"--format={form}", "empty.a")
            self.assertEqual((status, type(json.loads(printed))), (0, dict))

    def test_sarif(self):
        """It has what the schema of version 2.1.0 requires, and says where."""
        got = json.loads(self.ia64("check", "--format=sarif", example("read_after_write.s"), example("functions.o"))[1])
        self.assertEqual((got["version"], len(got["runs"])), ("2.1.0", 1))
        run = got["runs"][0]
        self.assertEqual(run["tool"]["driver"]["name"], "ia64")
        rules = {rule["id"] for rule in run["tool"]["driver"]["rules"]}
        for result in run["results"]:
            self.assertTrue(result["message"]["text"])
            self.assertIn(result["level"], ("error", "warning", "note"))
            self.assertIn(result.get("ruleId", "RAW"), rules)
            for location in result["locations"]:
                self.assertTrue(location["physicalLocation"]["artifactLocation"]["uri"])
        self.assertEqual(run["results"][0]["locations"][0]["physicalLocation"]["region"], {"startLine": 12, "startColumn": 3})


class Commands(Case):
    """The commands of the program on a file, and what is wrong with words."""

    def same(self, *words):
        """A command on a file answers what it answers on standard input."""
        *command, path = words
        wanted = subprocess.run([PROGRAM, *command], input=path.read_bytes(), stdout=subprocess.PIPE, check=False)
        self.assertEqual(self.ia64(*words)[:2], (wanted.returncode, wanted.stdout))

    def test_as_on_standard_input(self):
        self.same("run", "100", example("count.s"))
        self.same("run", "5", example("count.s"))
        self.same("watch", "100", example("count.s"))
        self.same("groups", "5", "1", example("override.s"))
        self.same("run", "100", example("read_after_write.s"))
        self.same("build", example("count.s"))
        self.same("wrap", example("three_nops.bundles"))
        self.same("lift", example("three_nops.image"))
        self.same("list", example("three_nops.image"))
        self.assertEqual(self.ia64("run", example("count.s"), "100"), self.ia64("run", "100", example("count.s")))

    def test_into_a_file(self):
        status, printed, _ = self.ia64("build", example("read_after_write.s"), "-o", "x.image")
        self.assertEqual((status, printed), (0, b""))
        self.assertEqual((self.folder / "x.image").read_bytes(), example("read_after_write.image").read_bytes())

    def test_listings(self):
        status, lines, _ = self.lines("show", example("functions.o"), "twice", "sum")
        self.assertEqual((status, lines[0].split()[0], [line for line in lines if line.endswith(":")]), (0, "twice:", ["swap:"]))
        self.assertIn("  br.call.sptk.many b0=swap ;;", lines)
        self.assertTrue(any("lfetch" in line or "word 0x" in line for line in lines))
        status, lines, said = self.lines("list", example("functions.o"), "twices", "nothing", "sum")
        self.assertEqual((status, lines[1].split()[0], said), (2, "sum:", "".join(
            f"ia64: {example('functions.o')}: no function {each}\n"
            for each in ("twices; it has twice", "nothing; it has sum, swap, twice"))))
        self.assertEqual(self.ia64("show", example("count.s"))[0], 0)

    def test_wrong_words(self):
        for words, said in (((), "a command is missing"), (("assemble",), "no command 'assemble'"),
                            (("run", "0", "x"), "run: it takes one number"), (("groups", "7", example("count.s")), "groups: it takes two numbers"),
                            (("Check", example("count.s")), f"perhaps: ia64 check {example('count.s')}"),
                            (("run", "100", "nowhere"), "nowhere: No such file or directory"),
                            (("list", "nowhere"), "nowhere: No such file or directory"), (("check",), "check: FILE is missing; `ia64 check"),
                            ((example("count.s"),), f"perhaps: ia64 check {example('count.s')}"),
                            (("check", "--no"), "ia64: check: FILE is missing; `ia64 check --help` says what it takes\n")):
            status, printed, error = self.ia64(*words)
            self.assertEqual((status, printed), (2, b""), words)
            self.assertIn(said, error)

    def test_help(self):
        status, printed, error = self.ia64("--help")
        self.assertEqual((status, error), (0, ""))
        for command in (b"check FILE", b"list FILE", b"trial SEED"):
            self.assertIn(command, printed)

    def test_a_named_program(self):
        """The program that the environment names answers on standard input too, unless that wants a proved one."""
        named, words = self.folder / "named", [str(ROOT / "ia64"), "run", "7"]
        named.write_text('#!/bin/sh\necho "named $*"\nexit 9\n')
        named.chmod(0o755)
        for proved, status, printed in (("", 9, b"named run 7\n"), ("0", 9, b"named run 7\n"), ("1", 125, b"")):
            on_files = [[*words, str(example("count.s"))]] * bool(shutil.which("python3"))
            for call in (words, *on_files, [sys.executable, FRONT, "run", "7", str(example("count.s"))]):
                done = subprocess.run(call, stdin=subprocess.DEVNULL, stdout=subprocess.PIPE, stderr=subprocess.PIPE, check=False,
                                      env={**os.environ, "IA64_PROGRAM": str(named), "IA64_PROVED": proved})
                self.assertEqual((done.returncode, done.stdout), (status, printed), call)
                self.assertEqual(b"IA64_PROVED wants a proved one" in done.stderr, proved == "1")
        done = subprocess.run(words, stdin=subprocess.DEVNULL, stdout=subprocess.PIPE, stderr=subprocess.PIPE, check=False,
                              env={**os.environ, "IA64_PROGRAM": str(self.folder / "none")})
        self.assertEqual((done.returncode, done.stdout), (125, b""))
        self.assertIn(b"IA64_PROGRAM names no program that can be called", done.stderr)

    def test_a_byte_0(self):
        """What has one is refused by the program, with its line, whatever is asked; and it is said to be nothing else."""
        char = "char: a byte that isn't a tab or one of 0x20 to 0x7e"
        nothing = "; the file is neither code for Itanium, nor an archive of it, nor an image"
        for name, data, line in (("first", b"\0int main;\n", 1), ("second", b"// a text\n\0\n", 2), ("late", b"\n" * 5000 + b"\0", 5001),
                                 ("first.s", b"\0int main;\n", 1)):
            (self.folder / name).write_bytes(data)
            with unittest.mock.patch("front.gnu.installed", lambda tool: None):
                self.assertEqual(self.lines("check", name)[:2], (2, [f"{name}:{line}: error: refused, {char}{nothing}",
                                                                     "0 accepted, 0 violated, 0 not judged"]), name)
            said = f"ia64: {name}: refused, line {line}: {char}{nothing}\n"
            for words in (("run", "5"), ("watch", "5"), ("groups", "5", "0"), ("build",), ("stops",), ("trace",)):
                self.assertEqual(self.ia64(*words, name), (3, f"line {line}: char\n".encode(), said), words)
            for word in ("show", "list", "draw", "orders", "loosen"):
                if not name.endswith(".s") or word in ("orders", "loosen"):
                    self.assertEqual(self.ia64(word, name), (2, b"", said), word)

    def test_the_lines_of_a_text_that_is_packed(self):
        """A refusal has the line of the file, also where the bundles of the text were taken out."""
        text = b"// a text\n{ .mii\n  nop.m 0\n  nop.i 0\n  nop.i 0 ;;\n}\n{ .mii\n  add r8=r9,r10\n%s\n  nop.i 0\n}\n%s"
        for said, more, line, reason in ((b"  foo r8", b"", 9, "name"), (b"  mf", b"x:\n", 13, "misplaced")):
            (self.folder / "x.s").write_bytes(text % (said, more))
            status, printed, error = self.ia64("stops", "x.s")
            self.assertEqual((status, printed), (3, f"line {line}: {reason}\n".encode()))
            self.assertIn(f"x.s: refused, line {line}: {reason}: ", error)

    def test_an_archive(self):
        """It is said to be one where a text or an image is wanted, as an object file is."""
        member = example("functions.o").read_bytes()
        head = "a.o/".ljust(48).encode() + str(len(member)).ljust(10).encode() + b"`\n"
        (self.folder / "x.a").write_bytes(b"!<arch>\n" + head + member)
        self.assertEqual(self.lines("check", "x.a")[:2][0], 1)
        self.assertEqual(self.ia64("show", "x.a", "swap")[0], 0)
        for words in (("run", "5"), ("groups", "5", "0"), ("trace",), ("orders",), ("stops",), ("loosen",)):
            status, printed, said = self.ia64(*words, "x.a")
            self.assertEqual((status, printed), (2, b""), words)
            self.assertRegex(said, "^ia64: x.a: an archive, and no (program|text)[:;] `")
        for word, said in (("build", "line 1: name: the leading word begins no line"), ("lift", "image: magic: it doesn't begin with IA64IMG1 "
                                                                                      "or IA64IMG2, as an image does")):
            self.assertEqual(self.ia64(word, "x.a")[::2], (
                3, f"ia64: x.a: refused, {said}; it is an archive: `ia64 check x.a` takes it, and `ar x` takes out its members\n"))
        (self.folder / "y.a").write_bytes(b"!<arch>\n" + 2 * (head + member))
        said = "ia64: y.a: an archive of several files, and one is wanted: `ar x` takes out its members\n"
        self.assertEqual(self.ia64("show", "y.a"), (2, b"", said))

    def test_as_a_program(self):
        with asked(PROGRAM):
            done = subprocess.run([sys.executable, FRONT, "run", "100", "-"], input=example("count.s").read_bytes(),
                                  stdout=subprocess.PIPE, check=False)
        self.assertEqual((done.returncode, done.stdout[:24]), (0, b"end break 0x0 at 3.2\ngro"))


if __name__ == "__main__":
    unittest.main()
