#!/usr/bin/env python3
"""Tries the page that runs the program, in Chromium.

  gate/try_page_in_browser.py [PAGE] [--pictures FOLDER]

It asks the program in the page what it asks the native one, of all examples, lessons and tests. Status and bytes have to be the
same. The native one is IA64_PROGRAM, or the built one. Then it uses the page by keyboard alone, and compares what is shown with
what the native program prints.

With --pictures it takes shots of the page as wide as a telephone, a tablet and a screen, in light and in dark, and as it is
printed, to be looked at by eye. It is called by hand, and by the tests of the front where Chromium is installed.
"""

import argparse
import base64
import fcntl
import itertools
import json
import os
import re
import signal
import subprocess
import sys
import tempfile
import time
import zlib
from pathlib import Path

ROOT = Path(__file__).resolve().parent.parent
PAGE = ROOT / "docs" / "page" / "index.html"
PROGRAM = os.environ.get("IA64_PROGRAM", str(ROOT / "crates" / "ia64_cli" / "out" / "ia64_cli"))
FOLDERS = ("examples", "examples/lessons", "tests/run", "tests/check", "tests/gnu", "tests/loose")
# What is asked of each text, and of the image that `build` makes of it.
OF_TEXTS = ("check", "run 100", "watch 100", "trace 0 50", "build", "stops", "groups 50 1")
OF_IMAGES = ("show", "list", "lift", "check")
WIDTHS, SCHEMES = (360, 800, 1024, 1366, 1400), ("light", "dark")
# How wide and how high the page is where one steps, and the least part of its width to which a picture shrinks.
SCREENS, SMALLEST = ((1024, 768), (1200, 768), (1366, 768), (1920, 1080)), 0.75
PATIENCE = 30
# Keys: their codes, their numbers, and what they write. So many presses of Tab go once through the page.
KEYS = {"Tab": ("Tab", 9, ""), "Enter": ("Enter", 13, "\r"), "Escape": ("Escape", 27, ""), "ArrowLeft": ("ArrowLeft", 37, ""),
        "ArrowUp": ("ArrowUp", 38, ""), "ArrowRight": ("ArrowRight", 39, ""), "ArrowDown": ("ArrowDown", 40, ""),
        "a": ("KeyA", 65, "")}
MOST_TABS = 120
# The button that goes a group forward, of a run that is stepped through.
FORWARD = ".stepping .bar button:nth-of-type(3)"
# Calls that no text of the repository makes: each its words and its input.
ODD = (([], b""), (["check"], b""), (["Check"], b""), (["run"], b""), (["run", "01"], b""), (["run", ""], b""),
       (["", "check"], b""), (["x" * 64], b""), (["x" * 65], b""), (["check", "x" * 65], b""), (["trial", "1", "64"], b""),
       (["trial", "7", "4096"], b""), (["check"], b"IA64IMG1"), (["show"], b"IA64IMG2" + bytes(16)), (["wrap"], bytes(16)),
       (["stops"], b"add r8=r9,r10\n" * 9000),
       (["check"], b"\xff\0\n"), (["check"], bytes(2**24)), (["check"], bytes(2**24 + 1)), (["check"], b"\n" * 2**24))


def high_pipe():
    """A pipe whose descriptors are none of those that the browser is given."""
    pipe = os.pipe()
    made = [fcntl.fcntl(end, fcntl.F_DUPFD_CLOEXEC, 10) for end in pipe]
    for end in pipe:
        os.close(end)
    return made


class Browser:
    """Chromium without a window, driven over two pipes: each message is a line of JSON that ends with a byte 0."""

    def __init__(self, folder):
        (taken, self.into), (self.out_of, given) = high_pipe(), high_pipe()
        words = [os.environ.get("CHROMIUM", "chromium"), "--headless=new", "--no-sandbox", "--disable-gpu", "--hide-scrollbars",
                 "--no-first-run", f"--user-data-dir={folder}", "--remote-debugging-pipe"]
        # The browser reads from descriptor 3 and writes to descriptor 4.
        joined = ["bash", "-c", f'exec "$@" 3<&{taken} 4>&{given}', "bash", *words]
        self.process = subprocess.Popen(joined, pass_fds=(taken, given), stdin=subprocess.DEVNULL, stdout=subprocess.DEVNULL,
                                        stderr=subprocess.DEVNULL, start_new_session=True)
        os.close(taken)
        os.close(given)
        self.number, self.rest, self.session, self.faults = 0, b"", None, []
        target = self.send("Target.createTarget", url="about:blank")["targetId"]
        self.session = self.send("Target.attachToTarget", targetId=target, flatten=True)["sessionId"]
        self.send("Page.enable")
        self.send("Runtime.enable")

    def send(self, method, **parameters):
        """What the browser answers."""
        self.number += 1
        message = {"id": self.number, "method": method, "params": parameters}
        if self.session:
            message["sessionId"] = self.session
        os.write(self.into, json.dumps(message).encode() + b"\0")
        while True:
            answer = self.message()
            if answer.get("id") == self.number:
                if "error" in answer:
                    raise RuntimeError(f"{method}: {answer['error']['message']}")
                return answer["result"]
            if answer.get("method") == "Runtime.exceptionThrown":
                self.faults.append(answer["params"]["exceptionDetails"])

    def message(self):
        while b"\0" not in self.rest:
            more = os.read(self.out_of, 1 << 20)
            if not more:
                raise RuntimeError("the browser is gone")
            self.rest += more
        first, _, self.rest = self.rest.partition(b"\0")
        return json.loads(first)

    def value(self, expression):
        """What an expression gives in the page; of a promise, what that gives."""
        answer = self.send("Runtime.evaluate", expression=expression, awaitPromise=True, returnByValue=True)
        if "exceptionDetails" in answer:
            raise RuntimeError(answer["exceptionDetails"].get("exception", {}).get("description", "") + f" in {expression[:200]}")
        return answer["result"].get("value")

    def wait(self, expression, what=""):
        until = time.time() + PATIENCE
        while not self.value(expression):
            if time.time() > until:
                raise RuntimeError(f"the page doesn't come to: {what or expression}")
            time.sleep(0.05)

    def press(self, key, control=False):
        """Presses a key and lets it go."""
        code, number, text = KEYS[key]
        for kind in ("keyDown", "keyUp"):
            self.send("Input.dispatchKeyEvent", type=kind, key=key, code=code, windowsVirtualKeyCode=number,
                      modifiers=2 * control, **({"text": text} if text and kind == "keyDown" else {}))

    def tab_to(self, selector):
        """Goes by the Tab key to what a selector finds, from where the focus is."""
        for _ in range(MOST_TABS):
            self.press("Tab")
            if self.value(f"document.activeElement.matches({json.dumps(selector)})"):
                return
        raise RuntimeError(f"the Tab key doesn't come to {selector}")

    def close(self):
        """Ends the browser: all of its processes, since the others still write into its folder."""
        os.killpg(self.process.pid, signal.SIGKILL)
        self.process.wait()
        until = time.time() + PATIENCE
        while running(self.process.pid) and time.time() < until:
            time.sleep(0.05)
        os.close(self.into)
        os.close(self.out_of)


def running(group):
    """The processes of a group that haven't ended."""
    listed = subprocess.run(["ps", "-e", "-o", "pgid=,stat=,pid="], stdout=subprocess.PIPE, check=True).stdout.decode()
    rows = [line.split() for line in listed.splitlines()]
    return [number for its, state, number in rows if its == str(group) and not state.startswith("Z")]


def native(words, data):
    done = subprocess.run([PROGRAM, *words], input=data, stdout=subprocess.PIPE, check=False)
    return [done.returncode, base64.b64encode(done.stdout).decode()]


# What asks the program in the page several things of one input, and answers as `native` does.
ASKING = """(function (calls, input) {
  const bytes = ia64.engine.bytes_of(input);
  return calls.map(function (words) {
    const answer = ia64.ask(words, bytes);
    return [answer.status, btoa(Array.from(answer.output, (byte) => String.fromCharCode(byte)).join(""))];
  });
}(%s, %s))"""


def asked(browser, calls, data):
    return browser.value(ASKING % (json.dumps(calls), json.dumps(base64.b64encode(data).decode())))


def inputs():
    """What is asked of both: calls, an input, and what it is called."""
    for path in (path for folder in FOLDERS for path in sorted((ROOT / folder).glob("*.s"))):
        text, name = path.read_bytes(), str(path.relative_to(ROOT))
        yield [words.split() for words in OF_TEXTS], text, name
        status, image = native(["build"], text)
        if status == 0:
            yield [words.split() for words in OF_IMAGES], base64.b64decode(image), f"the image of {name}"
    for words, data in ODD:
        yield [words], data, f"{len(data)} bytes"


def compare(browser):
    """How many answers of both differ."""
    count = differ = 0
    began = time.time()
    for calls, data, name in inputs():
        for words, own, its in zip(calls, asked(browser, calls, data), (native(words, data) for words in calls)):
            count += 1
            if own != its:
                differ += 1
                print(f"{name}: {words}: the page has status {own[0]}, the program {its[0]}")
    print(f"{count} calls, {differ} differ, {time.time() - began:.0f} s")
    return differ


# The shim's functions on numbers of 128 bits, each beside what it has to give, on numbers at the edges and some others. It gives
# how many answers there were, and those that are wrong.
WIDE = """(async function () {
  const bytes = await ia64.engine.unpacked(ia64.engine.bytes_of(document.getElementById("module").textContent), "gzip");
  const parts = (await WebAssembly.instantiate(bytes)).instance.exports, word = (number) => BigInt.asIntN(64, number);
  parts.begin();
  const at = parts.words_at(16n), numbers = [0n, 1n, 2n, 10n ** 38n], wrong = [];
  for (const power of [31n, 32n, 33n, 63n, 64n, 65n, 96n, 127n].map((bits) => 1n << bits)) {
    numbers.push(power, power - 1n, 3n * power + 5n);
  }
  for (let made = 1n, each = 0; each < 60; each += 1) {
    made = (made * 6364136223846793005n + 1442695040888963407n) % (1n << 128n);
    numbers.push(made);
  }
  let count = 0;
  function hold(name, wanted, ...given) {
    parts[name](at, ...given);
    const view = new DataView(parts.memory.buffer, Number(at));
    const found = view.getBigUint64(8, true) << 64n | view.getBigUint64(0, true);
    count += 1;
    if (found !== BigInt.asUintN(128, wanted)) { wrong.push(`${name} ${given}`); }
  }
  for (const one of numbers.map((each) => BigInt.asUintN(128, each))) {
    const [low, high] = [word(one), word(one >> 64n)];
    for (const other of numbers) { hold("__multi3", one * other, low, high, word(other), word(other >> 64n)); }
    for (let bits = 0; bits < 128; bits += 1) {
      hold("__ashlti3", one << BigInt(bits), low, high, bits);
      hold("__lshrti3", one >> BigInt(bits), low, high, bits);
    }
  }
  return [count, wrong];
}())"""


def compute(browser):
    """How many answers on numbers of 128 bits are wrong."""
    count, wrong = browser.value(WIDE)
    for call in wrong[:10]:
        print(f"wrong: {call}")
    print(f"{count} numbers of 128 bits, {len(wrong)} wrong")
    return len(wrong)


# ---- By keyboard ---------------------------------------------------------------------------------------------------------


class Tries:
    """Tries of the page by keyboard alone: what is shown is held to what the native program prints."""

    def __init__(self, browser, page):
        self.browser, self.page, self.failed = browser, page, 0

    def hold(self, name, own, wanted):
        if own != wanted:
            self.failed += 1
            print(f"{name}: {own!r}, and has to be {wanted!r}")

    def text_of(self, name):
        return self.browser.value(f"document.getElementById({json.dumps(name)}).textContent")

    def value_of(self, name):
        return self.browser.value(f"document.getElementById({json.dumps(name)}).value")

    def act(self, act):
        """Does what changes the text, and waits until the page has looked at it."""
        before = self.browser.value("document.body.dataset.looked")
        act()
        self.browser.wait(f"document.body.dataset.looked !== {json.dumps(before)}", "it looks at the text")

    def write(self, text):
        """Writes a text over what stands in the editor, where the focus is."""
        self.browser.press("a", control=True)
        self.act(lambda: self.browser.send("Input.insertText", text=text))

    def put(self, text):
        """The same of a text with many lines, at which a browser types long."""
        self.act(lambda: self.browser.value(f"""(function (field) {{
          field.value = {json.dumps(text)};
          field.dispatchEvent(new Event("input"));
        }}(document.getElementById("text")))"""))

    def verdict(self, name):
        """The verdict that is shown, and that which is printed."""
        text = self.value_of("text").encode()
        printed = base64.b64decode(native(["check"], text)[1]).decode().splitlines()
        wanted = "accepted" if printed[0] == "accepted" else f"{len(printed) - 1} violation{'s' * (len(printed) > 2)}"
        self.hold(name, self.text_of("verdict"), wanted)
        self.hold(f"{name}: pairs", self.browser.value("[...document.querySelectorAll('#pairs code')].map((e) => e.textContent)"),
                  printed[1:])

    def menu(self):
        self.browser.tab_to("#menu")
        before = self.value_of("menu")
        self.act(lambda: self.browser.press("ArrowDown"))
        self.hold("another text of the menu", self.value_of("menu") != before, True)
        own = next(path for path in (ROOT / "examples").rglob(self.value_of("menu")))
        self.hold("the text of the menu", self.value_of("text"), own.read_text())
        self.verdict("the verdict of the menu's text")

    def refusal(self):
        self.browser.tab_to("#text")
        self.write("{ .mii\n  nop.m 0\n  add r8=r9\n  nop.i 0\n}\n")
        printed = base64.b64decode(native(["build"], self.value_of("text").encode())[1]).decode().strip()
        self.hold("a refusal", self.text_of("verdict"), f"refused: {printed}")
        self.browser.tab_to("#pairs .jump")
        self.browser.press("Enter")
        self.hold("the way to its line", self.browser.value("[document.activeElement.id, document.activeElement.selectionStart]"),
                  ["text", len("{ .mii\n  nop.m 0\n")])

    def violations(self):
        """A wrong program, its orders, and the run in one of them."""
        self.write((ROOT / "examples" / "override.s").read_text())
        self.verdict("a wrong program")
        self.browser.tab_to("#number")
        self.browser.press("a", control=True)
        self.browser.send("Input.insertText", text="1")
        self.browser.press("Enter")
        image = base64.b64decode(native(["build"], self.value_of("text").encode())[1])
        registers = [next(line for line in base64.b64decode(native(["groups", "1000", number], image)[1]).decode().splitlines()
                          if line.startswith("r8 "))[3:] for number in "01"]
        cells = self.browser.value("[...document.querySelectorAll('#states td')].map((e) => e.textContent)")
        self.hold("the states of its orders", cells[:2], registers)
        self.hold("how many", self.text_of("left").split(";")[0], "The numbers 0 to 23 leave 2 states")
        self.browser.tab_to(f"#order_steps {FORWARD}")
        for _ in range(2):
            self.browser.press("Enter")
        state = base64.b64decode(native(["groups", "2", "1"], image)[1]).decode()
        self.hold("two groups in an order", self.value_in("#order_steps", "r8"), said(state, "r8"))
        self.hold("the writes in that order", self.text_of("writes"), "It writes r8 by 1.2, then r8 by 1.1.")

    def pairs(self):
        """What is said of pairs: the ways to those that clash, and what excuses the others."""
        self.browser.tab_to("#text")
        for name, element in (("05_loop_edge.s", "pairs"), ("04_predicates.s", "excused_pairs")):
            path = ROOT / "examples" / "lessons" / name
            self.write(path.read_text())
            printed = subprocess.run([sys.executable, ROOT / "front", "check", "-v", path], stdout=subprocess.PIPE, check=False,
                                     env={**os.environ, "IA64_PROGRAM": PROGRAM}).stdout.decode()
            wanted = {"pairs": r"error: (.*)", "excused_pairs": r"excused by predicates: (.*), in line"}[element]
            found = [re.sub(r"[\u2018\u2019]", "'", text) for text in self.browser.value(
                f"[...document.querySelectorAll('#{element} li')].map((e) => e.textContent)")]
            form = r"^(\w+ \w+) \d+\.\d \d+\.\d: (.*?)(; p\d.*)? line [\d.]+line [\d.]+$"
            rows = [re.sub(form, r"\1: \2", text) for text in found]
            self.hold(f"the {element} of {name}", rows, re.findall(wanted, printed))
        self.hold("the excuse", "; p6 and p7 are never both 1" in found[0], True)

    def value_in(self, container, register):
        """What the table of the state has of a register."""
        return self.browser.value(f"""(function () {{
          const row = [...document.querySelectorAll({json.dumps(container)} + " .state tr")]
            .find((each) => each.cells[0].textContent.split(" ")[0] === {json.dumps(register)});
          return row ? row.cells[1].textContent.split(" ")[0] : null;
        }})()""")

    def steps(self):
        """The run of an accepted program, forward and back."""
        self.browser.tab_to("#text")
        self.write((ROOT / "examples" / "count.s").read_text())
        self.verdict("an accepted program")
        self.browser.tab_to(f"#steps {FORWARD}")
        text = self.value_of("text").encode()
        for count, key in enumerate(("Enter", "Enter", "ArrowRight", "ArrowRight", "ArrowLeft"), 1):
            self.browser.press(key)
            groups = count if count < 5 else 3
            state = base64.b64decode(native(["run", str(groups)], text)[1]).decode()
            for register in ("r8", "r9"):
                self.hold(f"{register} after {groups} groups", self.value_in("#steps", register), said(state, register))
        marked = self.browser.value("[...document.querySelectorAll('#figure .is-run')].map((e) => e.id)")
        self.hold("the slots of group 3", marked, [f"f0-slot-2-{slot}" for slot in range(3)])

    def loose(self):
        """The bundles and the stops taken out."""
        self.browser.tab_to("#text")
        text = (ROOT / "examples" / "lessons" / "03_swap.s").read_text()
        self.write(text)
        self.browser.tab_to("#loosen")
        self.act(lambda: self.browser.press("Enter"))
        own = subprocess.run([sys.executable, ROOT / "front", "loosen", "-"], input=text.encode(), stdout=subprocess.PIPE,
                             check=True).stdout.decode()
        self.hold("a loose text", self.value_of("text"), own)
        self.hold("a loose text has no bundles", self.browser.value("document.getElementById('loosen').disabled"), True)
        self.browser.tab_to("#take")
        self.act(lambda: self.browser.press("Enter"))
        self.hold("it packed", self.value_of("text"), re.sub(r"(?m)^// .*\n", "", base64.b64decode(
            native(["stops"], own.encode())[1]).decode()))
        self.verdict("the verdict on it packed")

    def own_texts(self):
        """What was written is kept in the menu, and is there behind a reload."""
        first, second = (f"{{ .mii\nnop.m {number}\nnop.i 0\nbreak.i 0 ;;\n}}\n" for number in (1, 2))
        self.browser.tab_to("#text")
        self.write(first)
        self.browser.tab_to("#menu")
        self.act(lambda: self.browser.press("ArrowDown"))
        self.browser.tab_to("#text")
        self.write(second)
        self.browser.send("Page.reload")
        self.browser.wait("globalThis.ia64 && ia64.is_ready === true", "the program is there")
        self.hold("the text behind a reload", self.value_of("text"), second)
        self.browser.tab_to("#menu")
        for _ in range(MOST_TABS):
            self.act(lambda: self.browser.press("ArrowDown"))
            if self.value_of("text") == first:
                return
        self.hold("the text of the menu that was written before", self.value_of("text"), first)

    def played(self):
        """A run that plays doesn't go on in the picture of another program."""
        self.browser.tab_to("#text")
        self.write((ROOT / "examples" / "count.s").read_text())
        self.browser.tab_to("#steps .bar button:nth-of-type(5)")
        self.browser.press("Enter")
        self.browser.wait("document.querySelector('#figure .is-run') !== null", "it plays")
        self.browser.tab_to("#text")
        self.write((ROOT / "examples" / "deep_recursion.s").read_text())
        time.sleep(2)
        self.hold("slots that run", self.browser.value("document.querySelectorAll('#figure .is-run').length"), 0)

    def endless_run(self):
        """A run that goes on behind the last group that is told."""
        self.browser.tab_to("#text")
        self.write("x:\n{ .mib\nnop.m 0\nnop.i 0\nbr.cond.sptk.few x ;;\n}\n")
        self.browser.tab_to("#later")
        self.browser.press("Enter")
        self.browser.tab_to("#from")
        self.browser.press("a", control=True)
        self.browser.send("Input.insertText", text="10000000")
        self.browser.press("Enter")
        self.hold("the last groups", self.text_of("run_said"),
                  "Groups 10000000 to 10000099 of the run, which goes on; the groups behind aren't told.")
        self.hold("none behind them", self.browser.value("document.getElementById('later').disabled"), True)
        self.browser.value("ia64.ask_rightly = ia64.ask; ia64.ask = () => ({ status: 2, output: new Uint8Array(0) });")
        self.browser.tab_to("#earlier")
        self.browser.press("Enter")
        self.hold("a fault of the run", self.text_of("run_fault"), "no answer: the words are none that the program takes")
        self.hold("the verdict beside it", self.text_of("verdict"), "accepted")
        self.browser.value("ia64.ask = ia64.ask_rightly;")

    def in_sight(self):
        """What a step changed is in sight where one presses, with the picture, which isn't cut off but where it is small. Where
        all stands in one column, the questions of a lesson come last."""
        runs = (("06_pipelined_loop.s", "steps"), ("05_loop_edge.s", "order_steps"))
        for (width, height), (name, steps) in itertools.product(SCREENS, runs):
            open_page(self.browser, self.page, f"#example={name}", width, height=height)
            self.browser.tab_to(f"#{steps} {FORWARD}")
            for _ in range(2):
                self.browser.press("Enter")
            seen = self.browser.value("""["#%s .bar", "#%s .news", "#figure .is-run"].map((name) => {
              const box = document.querySelector(name).getBoundingClientRect();
              return box.top >= 0 && box.bottom <= innerHeight;
            })""" % (steps, steps))
            self.hold(f"the bar, what changed and the slots of {name} at {width}", seen, [True, True, True])
            places = self.browser.value("""[".lesson:not([hidden])", "#%s"].map((name) => {
              const box = document.querySelector(name).getBoundingClientRect();
              return [box.left, box.top];
            })""" % steps)
            self.hold(f"the questions at {width}", places[0][1] > places[1][1] or places[0][0] < places[1][0], True)
            drawn, room, natural = self.browser.value("""(function () {
              const drawn = document.querySelector("#figure svg");
              return [drawn.getBoundingClientRect().width, drawn.parentNode.clientWidth, drawn.viewBox.baseVal.width];
            }())""")
            self.hold(f"the picture's width at {width}", round(drawn), round(max(min(natural, room), SMALLEST * natural)))
        open_page(self.browser, self.page)

    def predicates(self):
        """Slots of an accepted program whose predicate is 0 are told, and of a wrong one nothing is said of them."""
        text = (ROOT / "examples" / "pipelined_loop.s").read_text()
        for name, own, told, slots in (("steps", text, ["p17 is 0: 3.1."], ["f0-slot-3-1"]),
                                       ("order_steps", text.replace("r9=r9,r33", "r9=r9,r32"), [], [])):
            self.browser.tab_to("#text")
            self.write(own)
            self.browser.tab_to(f"#{name} {FORWARD}")
            for _ in range(3):
                self.browser.press("Enter")
            seen = [self.browser.value(f"[...document.querySelectorAll({json.dumps(which)})].map((e) => e.textContent || e.id)")
                    for which in (f"#{name} .told", f"#{name} .off")]
            self.hold(f"predicates in {name}", (seen[0][0][:9], seen[1]), ("group 3: ", told))
            marked = self.browser.value("[...document.querySelectorAll('#figure .is-off')].map((e) => e.id)")
            self.hold(f"faint slots in {name}", marked, slots)

    def long_run(self):
        """A run that is told in pieces."""
        self.browser.tab_to("#text")
        self.write((ROOT / "examples" / "deep_recursion.s").read_text())
        self.browser.tab_to("#later")
        self.browser.press("Enter")
        self.hold("the next groups", self.text_of("run_said").startswith("Groups 101 to 200 of the run, which goes on"), True)
        self.browser.tab_to(f"#steps {FORWARD}")
        self.browser.press("Enter")
        state = base64.b64decode(native(["run", "101"], self.value_of("text").encode())[1]).decode()
        self.hold("r9 after 101 groups", self.value_in("#steps", "r9"), said(state, "r9"))
        self.browser.tab_to("#from")
        self.browser.press("a", control=True)
        self.browser.send("Input.insertText", text="9999999")
        self.browser.press("Enter")
        self.hold("behind the run", self.text_of("run_said").startswith("The run has no group 9999999"), True)

    def picture(self):
        self.browser.tab_to("#figure .slot")
        self.browser.press("ArrowRight")
        self.hold("the slot to the right", self.browser.value("document.activeElement.id"), "f0-slot-0-1")
        self.hold("what is told of it", self.text_of("panel").startswith("0.1, unit I: addl r9=0,r0"), True)
        self.browser.press("Escape")
        self.hold("the panel behind Escape", self.browser.value("document.getElementById('panel').hidden"), True)

    def is_panel_hidden(self):
        return self.browser.value("document.getElementById('panel').hidden")

    def panel(self):
        """What is told of a slot is there as long as its picture."""
        self.browser.tab_to("#text")
        self.write((ROOT / "examples" / "count.s").read_text())
        self.browser.tab_to("#figure .slot")
        self.browser.tab_to("#text")
        self.hold("the panel of a slot", self.is_panel_hidden(), False)
        self.write("no program")
        self.hold("the panel of a slot that is gone", self.is_panel_hidden(), True)

    def long_states(self):
        """A wrong program with much data, which runs on and on, is shown soon, and it is said what isn't."""
        self.browser.tab_to("#text")
        began = time.time()
        self.write("x:\n{ .mii\nadds r8=1,r8\nadds r8=2,r8\nnop.i 0\n}\n{ .mib\nnop.m 0\nnop.i 0\nbr.cond.sptk.few x ;;\n}\n.data\n"
                   + f"data8 {','.join(32 * '1')}\n" * 256)
        self.hold("64 KB of data take seconds", time.time() - began < 10, True)
        self.hold("what is said of them", self.text_of("left"), "The numbers 0 to 23 leave 2 states; slot by slot isn't shown: "
                                                                "the states, with the data, are too long for that.")

    def long_texts(self):
        """A text that is too long isn't put into the editor, and has no line numbers where it is written there."""
        why = "this page takes texts of 1,000,000 letters and 20,000 lines at most"
        for count in (300_000, 4_000_000):
            packing = zlib.compressobj(9, zlib.DEFLATED, -15)
            packed = packing.compress(b"\n" * count) + packing.flush()
            open_page(self.browser, self.page, f"#text={base64.urlsafe_b64encode(packed).decode().rstrip('=')}")
            self.hold("a link that is too long", self.text_of("note"), why)
            self.hold("the text beside it", len(self.value_of("text")) < 10_000, True)
        self.put("\n" * 20_000)
        self.hold("a text that is too long", (self.text_of("verdict"), self.text_of("numbers")), (why, ""))
        self.put("nop 0\nbreak 0\n")
        self.hold("the numbers of its lines", self.text_of("numbers"), "1\n2\n3")

    def other_files(self):
        """A byte order mark in a file is refused, as the program refuses it, and a file that is too long isn't taken."""
        document = self.browser.send("DOM.getDocument")["root"]["nodeId"]
        field = self.browser.send("DOM.querySelector", nodeId=document, selector="#file")["nodeId"]
        with tempfile.TemporaryDirectory() as folder:
            marked, long = Path(folder) / "marked.s", Path(folder) / "long.s"
            marked.write_bytes("\ufeffbreak 0\n".encode())
            long.write_bytes(b"\n" * 20_000)
            self.act(lambda: self.browser.send("DOM.setFileInputFiles", nodeId=field, files=[str(marked)]))
            self.hold("a byte order mark", self.text_of("verdict"), "refused: line 1: char")
            self.browser.send("DOM.setFileInputFiles", nodeId=field, files=[str(long)])
            self.browser.wait("document.getElementById('verdict').textContent.startsWith('this page takes texts of')")
        self.hold("the text beside it", self.value_of("text")[:20], "\ufeffbreak 0\n")

    def link(self):
        self.browser.tab_to("#text")
        self.write((ROOT / "examples" / "count.s").read_text())
        self.browser.tab_to("#link")
        self.browser.press("Enter")
        self.browser.wait("location.hash === '#example=count.s'", "a link with an example")
        self.browser.tab_to("#text")
        text = "add r8=r9,r10\nadd r11=r8,r9\nbreak.i 0\n"
        self.write(text)
        self.hold("the stops", self.text_of("stops").count("RAW r8 0.0 0.1"), 1)
        self.browser.tab_to("#link")
        self.browser.press("Enter")
        self.browser.wait("location.hash.startsWith('#text=')", "a link with a text")
        whole = self.browser.value("location.hash")
        open_page(self.browser, self.page, whole)
        self.hold("the text of a link", self.value_of("text"), text)
        cut_off = "this link has no whole text in it"
        for fragment, said in ((whole[:-4], cut_off), ("#text=eJxLAAA", cut_off),
                               ("#example=none.s", "this page has no example none.s"), ("", "")):
            open_page(self.browser, self.page, fragment)
            self.hold(f"the note of {fragment}", self.text_of("note"), said)

    def files(self):
        """Files that are opened, and what is saved."""
        document = self.browser.send("DOM.getDocument")["root"]["nodeId"]
        field = self.browser.send("DOM.querySelector", nodeId=document, selector="#file")["nodeId"]
        image, other = (ROOT / "examples" / name for name in ("read_after_write.image", "functions.o"))
        self.act(lambda: self.browser.send("DOM.setFileInputFiles", nodeId=field, files=[str(image)]))
        self.hold("an image", self.value_of("text"), base64.b64decode(native(["show"], image.read_bytes())[1]).decode())
        self.verdict("the verdict on an image")
        self.browser.value("URL.createObjectURL = (blob) => { ia64.saved = blob; return 'blob:'; }")
        for name, wanted in (("save_image", image.read_bytes()), ("save_text", self.value_of("text").encode())):
            self.browser.tab_to(f"#{name}")
            self.browser.press("Enter")
            saved = self.browser.value("ia64.saved.arrayBuffer().then((b) => Array.from(new Uint8Array(b)))")
            self.hold(name, bytes(saved), wanted)
        self.browser.tab_to("#save_picture")
        self.browser.press("Enter")
        drawn = subprocess.run([sys.executable, ROOT / "front", "draw", "-"], input=self.value_of("text").encode(),
                               stdout=subprocess.PIPE, env={**os.environ, "IA64_PROGRAM": PROGRAM}, check=True).stdout.decode()
        saved = self.browser.value("ia64.saved.text()")
        self.hold("save_picture: its slots", re.findall(r'<g id="[^"]*" class="slot.*?</g>', saved),
                  re.findall(r'<g id="[^"]*" class="slot.*?</g>', drawn))
        self.hold("save_picture: its note", saved.count("in a browser, as WebAssembly"), 2)
        self.browser.send("DOM.setFileInputFiles", nodeId=field, files=[str(other)])
        self.browser.wait("document.getElementById('verdict').textContent.startsWith('functions.o is an ELF file')")

    def focus(self):
        """Tab goes through the page and leaves it again, and what has the focus shows it."""
        open_page(self.browser, self.page, "#example=override.s")
        seen = []
        for _ in range(MOST_TABS):
            self.browser.press("Tab")
            name, has_outline = self.browser.value("""(function () {
              const own = document.activeElement, name = own.id || own.getAttribute("aria-label") || own.textContent;
              if (own === document.body) { return ["", true]; }
              const box = own.matches(".slot") ? own.querySelector(".box") : own, look = getComputedStyle(box);
              return [`${own.tagName} ${name}`, look.outlineStyle !== "none" || parseFloat(look.strokeWidth) >= 3];
            }())""")
            self.hold(f"the focus on {name} is seen", has_outline, True)
            if not name or name in seen[:1]:
                return self.hold("many stops of Tab", len(seen) > 15, True)
            seen.append(name)
        return self.hold("Tab leaves the page", seen[-3:], [])

    def faults(self):
        """Where the stack ends in a call, there is no answer, and the next call has one; and a browser that can't run the program
        says so."""
        statuses = self.browser.value("""(function () {
          const statuses = [], text = new TextEncoder().encode(document.getElementById("text").value);
          function deep() {
            try { deep(); } catch (fault) { /* the stack ends here */ }
            if (statuses[statuses.length - 1] !== 1) { statuses.push(ia64.ask(["check"], text).status); }
          }
          deep();
          return statuses;
        }())""")
        self.hold("a call at the end of the stack", (sorted(set(statuses)), statuses[-1]), ([1, 125], 1))
        script = self.browser.send("Page.addScriptToEvaluateOnNewDocument", source="WebAssembly.validate = () => false;")
        self.browser.send("Page.reload")
        self.browser.wait("(document.getElementById('trouble') || {hidden: true}).hidden === false", "the trouble is told")
        self.hold("what is told", "64-bit memory" in self.text_of("trouble"), True)
        self.browser.send("Page.removeScriptToEvaluateOnNewDocument", identifier=script["identifier"])

    def all(self):
        open_page(self.browser, self.page)
        for step in (self.menu, self.refusal, self.violations, self.pairs, self.steps, self.picture, self.predicates, self.played,
                     self.long_run, self.endless_run, self.loose, self.own_texts, self.panel, self.long_states, self.files,
                     self.other_files, self.link, self.long_texts, self.in_sight, self.focus, self.faults):
            step()
        self.hold("faults of the scripts", [fault["exception"]["description"] for fault in self.browser.faults], [])
        print(f"by keyboard: {self.failed} tries fail")
        return self.failed


def said(state, register):
    """A register of a printed state as the page says it; none where it has no line."""
    found = [line.split(" ")[1] for line in state.splitlines() if line.startswith(f"{register} ")]
    return f"{int(found[0], 16):#x}" if found else None


# ---- By eye --------------------------------------------------------------------------------------------------------------


def open_page(browser, page, fragment="", width=1400, scheme="light", height=900):
    """Shows the page anew, with a fragment in its address."""
    browser.send("Emulation.setDeviceMetricsOverride", width=width, height=height, deviceScaleFactor=1, mobile=width < 500)
    browser.send("Emulation.setEmulatedMedia", features=[{"name": "prefers-color-scheme", "value": scheme}])
    browser.send("Page.navigate", url="about:blank")
    browser.send("Page.navigate", url=page.resolve().as_uri() + fragment)
    browser.wait("globalThis.ia64 && ia64.is_ready === true", "the program is there")


# What is shot of the page: its fragments.
SHOWN = {"accepted": "#example=06_pipelined_loop.s", "violated": "#example=override.s", "lesson": "#example=05_loop_edge.s",
         "packed": "#example=loose.s"}


def shoot(browser, page, folder):
    """Shoots the page: whole, as wide as each of the widths, in light and in dark, and as it is printed."""
    folder.mkdir(parents=True, exist_ok=True)
    for name, fragment in SHOWN.items():
        for width in WIDTHS:
            for scheme in SCHEMES:
                open_page(browser, page, fragment, width, scheme)
                browser.value(f"for (const each of document.querySelectorAll('{FORWARD}')) {{ each.click(); each.click(); }}")
                shot(browser, folder / f"{name}.{width}.{scheme}.png")
                wide = browser.value("document.documentElement.scrollWidth")
                if wide > width:
                    print(f"{name}: {width} wide, and its content {wide}")
        browser.send("Emulation.setEmulatedMedia", media="print")
        shot(browser, folder / f"{name}.print.png")
        browser.send("Emulation.setEmulatedMedia", media="")


def shot(browser, path):
    """Shoots all of the page."""
    path.write_bytes(base64.b64decode(browser.send("Page.captureScreenshot", captureBeyondViewport=True)["data"]))


def main():
    parser = argparse.ArgumentParser(description=__doc__.split("\n")[0])
    parser.add_argument("page", nargs="?", type=Path, default=PAGE)
    parser.add_argument("--pictures", type=Path)
    words = parser.parse_args()
    with tempfile.TemporaryDirectory() as folder:
        browser = Browser(folder)
        try:
            open_page(browser, words.page)
            failed = compare(browser) + compute(browser) + Tries(browser, words.page).all()
            if words.pictures:
                shoot(browser, words.page, words.pictures)
        finally:
            browser.close()
    return 1 if failed else 0


if __name__ == "__main__":
    sys.exit(main())
