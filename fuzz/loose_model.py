"""A model of `ia64 stops`: what it prints of a right loose text. It is imported, and not called.

It is written apart and slow, and follows "How instructions are packed" of docs/use/text.md word by word. Of the rest it asks the
built program, by other commands than `stops`: which slots an instruction fits (`build`), the canonical text (`show`), and whether
a rule is broken (`check`).

Whether a rule is broken at an instruction it finds in a program that has what is packed so far, and behind it each other
instruction in a bundle of its own, with a stop at its end.
"""

import functools
import re
import subprocess

from gnu_as import TEMPLATES
from printed_forms import place, stopped_places

QUIET_LIMIT, BUNDLE_LIMIT = 63, 32768
RISING = ((0,), (0, 1), (0, 1, 2), (0, 2), (1,), (1, 2), (2,))
TRIALS = {("m", 0): ".mii", ("i", 1): ".mii", ("f", 1): ".mfi", ("b", 0): ".bbb", ("b", 2): ".bbb", ("x", 1): ".mlx"}


class Unknown(Exception):
    """What the model can't say."""


class Item:
    """An instruction: its text, the lines before it that part it from the one before, and whether a `;;` follows."""

    def __init__(self, text, parting):
        self.text, self.parting, self.written = text, parting, False
        self.is_call = re.match(r"(\([^)]*\)\s*)?br\.call\b", text) is not None


class Model:
    """A loose text, and the built program."""

    def __init__(self, program, text, loosen):
        self.program = program
        self.items, self.others, self.labels = [], [], []
        parting, is_data = [], False
        for line in text.split("\n"):
            said = loosen.parts_of(line)[0]
            name, stopped = loosen.without_stop(said)
            if is_data or said.startswith(".entry") or loosen.DATA.match(said):
                is_data = not loosen.TEXT.match(said) and (is_data or loosen.DATA.match(said) is not None)
                self.others.append(said)
            elif said.startswith(".pred.rel") or loosen.LABEL.match(said):
                parting.append(said)
            elif name and not loosen.OUTSIDE.match(said):
                unit = "m" if re.match(r"(\([^)]*\)\s*)?chk", name) else "i"
                self.items.append(Item(loosen.with_unit(name, unit), parting))
                parting = []
            if stopped:
                self.items[-1].written = True
        self.labels = [line for item in self.items for line in item.parting if line.endswith(":")]

    def call(self, word, text):
        done = subprocess.run([self.program, word], input=text if isinstance(text, bytes) else text.encode("latin-1"),
                              stdout=subprocess.PIPE, check=False)
        return done.returncode, done.stdout

    # ---- Layouts

    @functools.lru_cache(maxsize=None)
    def fits(self, text):
        """The units and slots of `TRIALS` that the instruction fits."""
        found = set()
        for (unit, slot), shape in TRIALS.items():
            slots = ["nop 0"] * (2 if shape == ".mlx" else 3)
            slots[slot] = text
            lines = [*self.labels, "{ " + shape, *slots, "}", *(line for line in self.others if not line.startswith(".entry"))]
            if self.call("build", "\n".join(lines))[0] == 0:
                found.add((unit, slot))
        return found

    def has_place(self, text, unit, slot):
        fits = self.fits(text)
        if unit in "lx":
            return slot == 1 and ("x", 1) in fits
        if unit == "b":
            return ("b", 2 if slot == 2 else 0) in fits
        return any(known == unit for known, _ in fits)

    def is_layout(self, code, wanted, end, slots):
        """Whether a template has the instructions, each with whether a stop is wanted before it, in these slots."""
        units, stops = TEMPLATES[code]

        def between(first, before):
            return sum(first <= stop < before for stop in stops)
        return (len(slots) == len(wanted)
                and all(self.has_place(text, units[slot], slot) for (text, _), slot in zip(wanted, slots))
                and between(0, slots[0]) == 0
                and all(between(slot, other) == gap for slot, other, (_, gap) in zip(slots, slots[1:], wanted[1:]))
                and between(slots[-1], 2) == 0 and between(2, 3) == end)

    @functools.lru_cache(maxsize=None)
    def laid_out(self, wanted, end):
        """The first template with a layout, and the least one in it; or None."""
        return next(((code, slots) for code in sorted(TEMPLATES) for slots in RISING
                     if self.is_layout(code, wanted, end, slots)), None)

    # ---- Texts of bundles

    def bundle(self, wanted, end):
        code, slots = self.laid_out(wanted, end)
        units, stops = TEMPLATES[code]
        texts = dict(zip(slots, (text for text, _ in wanted)))
        lines = [f"{{ .{units}"]
        for slot in range(2 if units == "mlx" else 3):
            stopped = (2 if units == "mlx" and slot == 1 else slot) in stops
            unit = "x" if units == "mlx" and slot == 1 else units[slot]
            lines.append(texts.get(slot, f"nop.{unit} 0") + " ;;" * stopped)
        return [*lines, "}"]

    def text(self, chunks):
        """The text of the program whose bundles hold these."""
        lines, number = [], 0
        for wanted, end in chunks:
            lines += self.items[number].parting + self.bundle(wanted, end)
            number += len(wanted)
        return "\n".join([*lines, *self.others, ""])

    # ---- Packing

    def is_pair(self, closed, current, number):
        """Whether a rule is broken at the instruction with this number, with the stops so far."""
        alone = [(((item.text, 0),), 1) for item in self.items[number:]]
        status, output = self.call("check", self.text([*closed, (current, 0), *alone]))
        if status == 0:
            return False
        if status != 1:
            raise Unknown(output.decode())
        second = place(output.decode().split("\n")[1].split()[3])[0]
        if second < len(closed) + 1:
            raise Unknown(f"a rule is broken before instruction {number}")
        return second == len(closed) + 1

    def packed(self):
        """What each bundle holds, and why there is a stop behind each instruction, where there is one."""
        closed, current, causes = [], ((self.items[0].text, 0),), []
        for number, (before, item) in enumerate(zip(self.items, self.items[1:]), 1):
            cause = "written" if before.written else "pair" if self.is_pair(closed, current, number) else None
            longer = (*current, (item.text, int(cause is not None)))
            if not item.parting and not before.is_call and len(longer) <= 3 and self.laid_out(longer, 0):
                current = longer
            else:
                last = [*closed[-QUIET_LIMIT + 1:], (current, 0)]
                if cause is None and len(last) == QUIET_LIMIT and not any(end or any(gap for _, gap in held) for held, end in last):
                    cause = "long"
                closed.append((current, int(cause is not None)))
                current = ((item.text, 0),)
            causes.append(cause)
        end = self.items[-1].written
        return [*closed, (current, int(end))], [*causes, "written" if end else None]

    def without(self, text, number):
        """The first violation of a canonical text without its stop of this number, from 0; or None, where its run is too
        long for a program."""
        parts = text.split(" ;;\n")
        front, back = parts[:number + 1], parts[number + 1:]
        status, output = self.call("check", " ;;\n".join(front) + "\n" + " ;;\n".join(back))
        return output.decode().split("\n")[1] if status == 1 else None

    def answer(self):
        """The lines that `stops` is to print, with None for a violation that isn't known."""
        chunks, causes = self.packed()
        if len(chunks) > BUNDLE_LIMIT:
            raise Unknown("too many bundles")
        shown = self.call("show", self.call("build", self.text(chunks))[1])[1]
        text = shown.decode()
        why = [cause for cause in causes if cause]
        stops = stopped_places(shown)
        if len(stops) != len(why):
            raise Unknown("other stops than wanted")
        lines = text.splitlines()
        for number, ((bundle, slot), cause) in enumerate(zip(stops, why)):
            reason = self.without(text, number) if cause == "pair" else cause
            lines.append(reason and f"// {bundle}.{slot} {reason}")
        return lines
