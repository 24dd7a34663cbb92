"""Pages that step through a run: what stands in them, and what a reader sees who steps, by Chromium, where that is installed."""

import html
import json
import re
import shutil
import subprocess
import unittest
import xml.etree.ElementTree as tree

from front.drawing import runs
from front.drawing.figure import Figure, Row
from front.tests.case import PROGRAM, ROOT
from front.tests.test_drawing import END, Draw, built, classes, text_of
from front.tests.test_programs import example

BROWSER = shutil.which("chromium") or shutil.which("google-chrome")
needs_browser = unittest.skipUnless(BROWSER, "Chromium is missing")

# What a test puts behind the scripts of a page: after each act of a reader it looks at what is shown.
LOOKING = """
const part = document.getElementById("stepping"), panel = document.getElementById("panel");
const named = (name) => [...part.querySelectorAll("button,input")].find((each) => [each.type, each.textContent].includes(name));
const rows = (place) => [...document.querySelectorAll(`#stepping ${place} tr`)].slice(1)
  .map((row) => [...row.cells].map((cell) => cell.textContent));
const ids = (kind) => [...document.querySelectorAll("." + kind)].map((each) => each.id);
const frame = document.querySelector("figure");
const out_of_sight = () => [...frame.querySelectorAll(".is-run,.is-next")].slice(0, 1).filter((each) => {
  const own = each.getBoundingClientRect(), its = frame.getBoundingClientRect();
  return own.top < its.top || own.bottom > its.bottom;
}).map((each) => each.id);
const look = () => ({
  told: part.querySelector(".told").textContent, end: [...part.querySelectorAll(".end")].map((each) => each.textContent),
  changes: rows(".news"), state: rows(".state"), fresh: part.querySelectorAll(".is-new").length,
  run: ids("is-run"), next: ids("is-next"), off: [...part.querySelectorAll(".off")].map((each) => each.textContent),
  pale: [...new Set([...document.querySelectorAll(".slot text")].filter((each) => getComputedStyle(each).opacity < 1)
    .map((each) => each.closest(".slot").id))], number: part.querySelector("[type=number]").value,
  slider: [part.querySelector("[type=range]").value, part.querySelector("[type=range]").getAttribute("aria-valuetext")],
  live: part.querySelector(".news").getAttribute("aria-live"), play: part.querySelectorAll("button")[4].textContent,
  panel: [...panel.querySelectorAll("h3,li")].map((each) => each.textContent).join("|") || panel.textContent,
  more: [...part.querySelectorAll(".state p")].map((each) => each.textContent), hidden: out_of_sight(),
  scrolled: [frame.scrollTop, scrollY],
  chosen: ids("is-chosen"), faint: ids("is-faint").length, focus: document.activeElement.id });
function act([name, value, on, held]) {
  const target = document.getElementById(on) || named(on);
  if (name === "key") { target.dispatchEvent(new KeyboardEvent("keydown", { key: value, bubbles: true, [held]: true })); }
  if (name === "click") { named(value).click(); }
  if (name === "focus") { document.getElementById(value).focus(); }
  if (name === "over") { document.getElementById(value).dispatchEvent(new MouseEvent("mouseover", { bubbles: true })); }
  if (name === "number" || name === "range") {
    named(name).value = value;
    named(name).dispatchEvent(new Event(name === "number" ? "change" : "input"));
  }
}
async function all(acts) {
  const found = [look()];
  for (const each of acts) {
    act(each);
    if (each[0] === "wait") { await new Promise((done) => setTimeout(done, each[1])); }
    found.push(look());
  }
  const seen = document.createElement("pre");
  seen.id = "seen";
  seen.textContent = JSON.stringify(found);
  document.body.append(seen);
}
"""


def printed(words, data):
    return subprocess.run([PROGRAM, *words], input=data, stdout=subprocess.PIPE, check=False).stdout.decode()


class Runs(Draw):
    """What a page has of a run."""

    def data(self, page):
        return json.loads(re.search(r'<script type="application/json" id="run">(.*)</script>', page)[1])

    def body(self, page):
        return tree.fromstring(re.sub(r"<script.*?</script>", "", page[page.index("<body>"):page.index("</html>")], flags=re.S))

    def test_the_run(self):
        """The page has what `trace` prints, and the same groups in lines."""
        path = example("count.s")
        page = self.page(path)
        data = self.data(page)
        self.assertEqual(data["trace"], printed(["trace", "0", "100"], path.read_bytes()))
        self.assertEqual([row["labels"] for row in data["rows"]], [[], ["loop"], [], []])
        self.assertEqual(data["rows"][2]["slots"][2],
                         {"place": [2, 2], "text": "br.cloop.sptk.few loop", "canonical": "br.cloop.sptk.few L1"})
        body = self.body(page)
        _, lines, _ = self.lines("trace", path, 100)
        self.assertEqual(text_of(classes(body, "listed")[0]).split("\n"), lines)
        self.assertIn("Its run has 22 groups. The states and how", "".join(text_of(part) for part in body.iter("p")))

    def test_some_groups(self):
        path = example("count.s")
        for count, said in ((3, "The page has the first 3 groups of its run."), (1, "The page has the first 1 group of its run."),
                            (22, "Its run has 22 groups."), (100, "Its run has 22 groups.")):
            page = self.page(path, "--trace", count)
            self.assertEqual(self.data(page)["trace"], printed(["trace", "0", str(count)], path.read_bytes()))
            self.assertIn(said, page)
            self.assertEqual(page.count("<script>"), 1)

    def test_no_groups(self):
        """None is there of a program that isn't run, of functions, and where none is wanted."""
        for words in ((example("count.s"), "--trace", 0), (example("loop_edge.s"),), (example("functions.o"), "swap")):
            page = self.page(*words)
            self.assertNotIn('id="run"', page)
            self.assertNotIn("stepping", page.replace("ia64.stepping", "").replace('"stepping"', ""))
            self.assertEqual(page.count("<script>"), 1)

    def test_an_image(self):
        data = self.data(self.page(self.put(built(example("count.s")), "x.image")))
        self.assertEqual((data["rows"][2]["labels"], data["rows"][1]["labels"]), ([], ["L1"]))

    def test_long_states(self):
        """Of states that are long as many are there as a page has room for."""
        def text(words):
            return f"{END}.data\n" + "".join(f"data8 {number + 1}\n" for number in range(words))

        loop = "x:\n{ .mib\nnop.m 0\nnop.i 0\nbr.cond.sptk.few x ;;\n}\n"
        row = "{ .mii\nnop.m 0\nnop.i 0\nnop.i 0 ;;\n}\n"
        for code, words, said in ((loop, 20_000, "The page has the first 1 group of its run."),
                                  (row * 2, 20_000, "The page has the first 1 group of its run."),
                                  (loop, 60_000, "No group of its run is in this page: the states are too long for it.")):
            page = self.page(self.put(code + text(words)), "--trace", 5)
            self.assertIn(said, page)
        self.assertNotIn('id="run"', page)

    def test_what_stands_in_a_script(self):
        """No text ends the element in which a run stands."""
        figure = Figure("x", "", "accepted", "accepted", (), (Row("0", "mii", (), ("</script><b>",)),), (), ())
        data = runs.as_data(figure, runs.Run("<!--", (), 1, True), "f0-")
        self.assertNotIn("<", data)
        self.assertEqual(json.loads(data)["rows"][0]["labels"], ["</script><b>"])

    def test_wrong_words(self):
        path = example("count.s")
        for words, said in (((path, "--trace", 3), "--trace tells a run in a page: -o x.html makes one"),
                            ((path, "--trace", 3, "-o", "x.svg"), "--trace tells a run in a page"),
                            ((path, "--trace", 101, "-o", "x.html"), "101 is no number from 0 to 100"),
                            ((path, "--trace", "03", "-o", "x.html"), "03 is no number from 0 to 100"),
                            ((example("functions.o"), "swap", "--trace", 3, "-o", "x.html"), "functions aren't run")):
            status, out, error = self.ia64("draw", *words)
            self.assertEqual((status, out), (2, b""))
            self.assertIn(said, error)


@needs_browser
class Stepping(Draw):
    """What a reader sees who steps."""

    def seen(self, path, acts, *words):
        """What is shown at first and after each act."""
        page = self.page(path, *words)
        looking = f"<script>{LOOKING}all({json.dumps(acts)});</script></body>"
        (self.folder / "y.html").write_text(page.replace("</body>", looking), "utf-8")
        done = subprocess.run([BROWSER, "--headless", "--no-sandbox", "--disable-gpu", "--virtual-time-budget=60000",
                               f"--user-data-dir={self.folder}", "--dump-dom", (self.folder / "y.html").as_uri()],
                              stdout=subprocess.PIPE, stderr=subprocess.DEVNULL, timeout=300, check=False)
        return json.loads(html.unescape(re.search(r'<pre id="seen">(.*?)</pre>', done.stdout.decode("utf-8"), re.S)[1]))

    def test_steps(self):
        acts = [["key", "ArrowRight", "stepping"], ["range", 3], ["click", "\u25c2 back"]]
        start, first, third, back = self.seen(example("count.s"), acts)
        self.assertEqual(start["told"], "The start: no group has run, and the run begins at 0.0.")
        self.assertEqual((start["changes"], start["run"], start["next"]), ([], [], ["f0-slot-0-0"]))
        self.assertEqual(start["slider"], ["0", "the start"])
        self.assertEqual(first["told"], "group 1: 0.0 to 0.2, then a stop.")
        self.assertEqual(first["changes"], [["ar.lc", "0x0", "0x9"]])
        self.assertEqual((first["run"], first["next"]), ([f"f0-slot-0-{slot}" for slot in range(3)], ["f0-slot-1-0"]))
        self.assertEqual(third["told"], "group 3: 2.0 to 2.2, then a branch to 1.0 (loop).")
        self.assertEqual(third["state"],
                         [["frame", "from cell 0, sof 0, sol 0", ""], ["rse", "cells 0 up to 0, spilled 0, filled 0", ""],
                          ["r8 (ret0)", "0x1", "0x0"], ["r9 (ret1)", "0x1", ""], ["predicates that are 1", "p0", ""],
                          ["ar.lc", "0x8", "0x9"]])
        self.assertEqual((third["fresh"], third["number"], third["slider"]), (2, "3", ["3", "group 3"]))
        self.assertEqual((back["told"], back["next"]), ("group 2: 1.0 (loop) to 1.2, then a stop.", ["f0-slot-2-0"]))
        self.assertEqual(back["run"], [f"f0-slot-1-{slot}" for slot in range(3)])

    def test_other_keys(self):
        """Keys with Ctrl, Alt or Meta are the browser's: Alt and Left, say, is the page before."""
        keys = [["key", key, "stepping", held] for held in ("ctrlKey", "altKey", "metaKey") for key in ("ArrowRight", "End", "p")]
        start, *seen, last = self.seen(example("count.s"), [*keys, ["key", "ArrowRight", "stepping", "shiftKey"]])
        self.assertEqual(seen, 9 * [start])
        self.assertEqual(last["number"], "1")

    def test_long_states(self):
        """Of a state with many rows so many are shown, and how many there are more."""
        count, most = 500, 400
        path = self.put(f"{END}.data\n" + "data8 1\n" * count)
        seen = self.seen(path, [["key", "ArrowRight", "stepping"]])
        for each in seen:
            self.assertEqual((len(each["state"]), each["more"]), (most, [f"and {count + 3 - most} rows more"]))

    def test_a_picture_that_scrolls(self):
        """A slot that is reached is brought into sight, in the picture alone."""
        path = self.put("{ .mii\nnop.m 0\nnop.i 0\nnop.i 0 ;;\n}\n" * 60 + END)
        start, last, home = self.seen(path, [["key", "End", "stepping"], ["key", "Home", "stepping"]])
        self.assertEqual((start["hidden"], last["hidden"], home["hidden"]), ([], [], []))
        self.assertEqual((start["scrolled"][0], home["run"], last["run"]), (0, [], [f"f0-slot-60-{slot}" for slot in range(3)]))
        self.assertGreater(last["scrolled"][0], 1000)
        self.assertLess(home["scrolled"][0], last["scrolled"][0])
        self.assertEqual([each["scrolled"][1] for each in (start, last, home)], [0, 0, 0])

    def test_predicates(self):
        """Slots whose predicate is 0 before the group are pale, and told in words, each predicate with its slots."""
        acts = [["range", number] for number in (3, 4, 7, 0)]
        seen = self.seen(example("pipelined_loop.s"), acts)
        self.assertEqual([each["off"] for each in seen], [[], ["p17 is 0: 3.1."], [], ["p16 is 0: 3.0."], []])
        self.assertEqual([each["pale"] for each in seen], [[], ["f0-slot-3-1"], [], ["f0-slot-3-0"], []])
        self.assertEqual(seen[1]["run"], [f"f0-slot-3-{slot}" for slot in range(3)])
        compared = "{ .mii\ncmp.eq p6,p7=r0,r0\ncmp.eq p9,p8=r0,r0\nnop.i 0 ;;\n}\n"
        slots = "{ .mii\n(p7) adds r8=1,r0\n(p8)  adds r9=1,r0\n(p6) adds r10=1,r0\n}\n{ .mib\n( p7 ) nop.m 0\nnop.i 0\n"
        path = self.put(f"{compared}{slots}(p7) br.cond.sptk.few x ;;\n}}\nx:\n{END}")
        _, seen = self.seen(path, [["range", 2]])
        self.assertEqual(seen["off"], ["p7 is 0: 1.0, 2.0; p8 is 0: 1.1."])
        self.assertEqual(seen["pale"], ["f0-slot-1-0", "f0-slot-1-1", "f0-slot-2-0"])

    def test_ends(self):
        """The bar doesn't leave the run, whose end is told."""
        acts = [["key", "End", "stepping"], ["click", "forward \u25b8"], ["number", "99"], ["number", "-1"], ["number", ""],
                ["click", "last"], ["key", "Home", "range"], ["key", "End", "number"]]
        _, end, on, over, under, none, last, home, written = self.seen(example("count.s"), acts)
        self.assertEqual(end["end"], ["The end: the run ended at 3.2 with break 0x0, after 22 groups."])
        self.assertEqual((end["changes"], end["next"]), ([], []))
        for same in (on, over, last):
            self.assertEqual(same, end)
        self.assertEqual([each["number"] for each in (under, none, home, written)], ["0", "0", "0", "0"])
        _, cut = self.seen(example("count.s"), [["key", "End", "stepping"]], "--trace", 3)
        self.assertEqual(cut["end"], ["The run goes on at 1.0 (loop); no more of it is told here."])

    def test_play(self):
        acts = [["key", "p", "stepping"], ["wait", 2000], ["key", "ArrowRight", "stepping"], ["wait", 2000], ["click", "play"],
                ["wait", 30000], ["click", "play"]]
        _, played, second, third, same, _, over, again = self.seen(example("count.s"), acts)
        self.assertEqual((played["play"], played["live"], played["number"]), ("stop", "off", "0"))
        self.assertEqual(second["number"], "2")
        self.assertEqual((third["number"], third["play"], third["live"], same["number"]), ("3", "play", "polite", "3"))
        self.assertEqual((over["number"], over["play"]), ("22", "play"))
        self.assertEqual((again["number"], again["play"]), ("0", "stop"))

    def test_other_states(self):
        """Frames, renamed registers, predicates and the ALAT in the table of the whole state."""
        seen = self.seen(example("pipelined_loop.s"), [["range", 4]])[-1]["state"]
        self.assertIn(["frame", "from cell 0, sof 8, sol 8, sor 1; rename bases r 6, f 94, p 46",
                       "from cell 0, sof 8, sol 8, sor 1; rename bases r 7, f 95, p 47"], seen)
        self.assertIn(["predicates that are 1", "p0, p16, p17, p18", "p0, p16, p17"], seen)
        _, seen, back = self.seen(example("call.s"), [["range", 2], ["range", 5]])
        for row in (["b0 (rp)", "0x10020 (bundle 2)", "0x0"], ["ar.pfs", "0xc000000000000082 (sof 2, sol 1)", "0x0"]):
            self.assertIn(row, seen["state"])
        self.assertIn(["r33 (out0)", "0x15 (21)", "0xc000000000000082"], back["state"])
        entries = [[row for row in each["state"] if row[0].startswith("alat")]
                   for each in self.seen(ROOT / "tests" / "run" / "alat_rules.s", [["range", number] for number in range(1, 60)])]
        self.assertIn([["alat r9", "[0x100008], 8 bytes", ""], ["alat r8", "no entry", "[0x100000], 8 bytes"]], entries)
        self.assertIn([["alat r8", "[0x100000], 8 bytes", "no entry"], ["alat r9", "no entry", "[0x100008], 8 bytes"]], entries)

    def test_slots(self):
        """A slot that has the focus or the pointer on it is told, and arrow keys go on from there."""
        excused = "{ .mii\n(p6) addl r%d=1,r0\n(p7) addl r%d=2,r0\nnop.i 0 ;;\n}\n"
        path = self.put("{ .mii\ncmp.eq p6,p7=r8,r9\nnop.i 0\nnop.i 0 ;;\n}\n" + excused % (10, 10) + excused % (11, 11) + END)
        acts = [["focus", "f0-slot-0-2"], ["key", "ArrowRight", "f0-slot-0-2"], ["key", "ArrowDown", "f0-slot-1-0"],
                ["over", "f0-slot-0-0"], ["key", "Escape", "f0-slot-0-0"], ["key", "ArrowUp", "f0-slot-0-0"],
                ["key", "ArrowUp", "f0-slot-2-0"], ["key", "ArrowLeft", "f0-slot-1-0"]]
        start, first, right, down, over, none, stays, up, left = self.seen(path, acts)
        hint = "Point at a slot, or go to it with Tab and the arrow keys, to see what it reads and writes."
        self.assertEqual((start["panel"], start["chosen"]), (hint, []))
        self.assertEqual(first["panel"], "0.2, unit I: nop.i 0 ;;|nop.i 0x0|reads nothing|writes nothing|group 1|line 4")
        self.assertEqual((right["focus"], right["chosen"]), ("f0-slot-1-0", ["f0-slot-1-0"]))
        self.assertIn("|reads p6|writes r10|group 2|line 7|WAW r10: '(p7) addl r10=2,r0' writes", right["panel"])
        self.assertEqual(right["faint"], 2)
        self.assertEqual((down["focus"], down["faint"]), ("f0-slot-2-0", 2))
        self.assertEqual((over["chosen"], over["faint"], over["focus"]), (["f0-slot-0-0"], 0, "f0-slot-2-0"))
        self.assertEqual((none["chosen"], none["panel"]), ([], hint))
        self.assertEqual(stays["focus"], "f0-slot-2-0")
        self.assertEqual((up["focus"], up["chosen"]), ("f0-slot-1-0", ["f0-slot-1-0"]))
        self.assertEqual((left["focus"], left["chosen"]), ("f0-slot-0-2", ["f0-slot-0-2"]))


if __name__ == "__main__":
    unittest.main()
