"""Loose texts: the bundles and the stops of a text taken out, so that `ia64 stops` can pack its instructions anew.

What is left are the instructions in their order, one on a line, with the labels, directives, relations, data and comments that
stand between them. Taken out are

- braces and templates. A `nop`, `break`, `hint` or `chk.s` without its unit letter gets that of its slot;
- each `;;`, unless stops are kept, all or those of some lines: one behind a `nop` that is taken out then stands on a line of its
  own;
- each `nop` with the number 0 and without a qualifying predicate, whatever its unit. One stays, the first, where
  nothing else would be left between a label, a relation line, a call or the start and the next label, relation line or
  the end: so each label keeps an instruction of its own, each relation its entry, and each call what it comes back to.

A label then names the first instruction that is left behind it. Slot by slot the program does what it did, but that
the places of its slots are others. So an address that is spelled as a number is that of something else afterwards, if
it is one of a bundle: `movl r8=0x10010`, or a word of a jump table. A label in its place follows its instruction;
`show` prints numbers, so of an image these lines have to be looked at. Data stay where they are.

A line that is none of a text is left as it is, and `ia64 stops` says what is wrong with it.
"""

import re

from front.texts import DATA, LABEL, OPENING, OUTSIDE, TEXT, lines_of_text, parts_of, without_stop

SLOT = re.compile(r"(?P<guard>\([^)]*\)\s*)?(?P<word>[\w.$]+)#?(?P<rest>.*)$")
BARE = ("nop", "break", "hint", "chk.s")
NO_GUARD = re.compile(r"(?:\(\s*p0\s*\)\s*)?$")
ZERO = re.compile(r"\s*(?:-?0+|0x0+)?$")
NOP = re.compile(r"nop(?:\.[mifbx])?$")


def lines_of(comment):
    """A comment as lines: one, or none."""
    return [comment] * bool(comment)


def with_unit(said, unit):
    """An instruction with the letter of its unit, if it lacks it."""
    slot = SLOT.match(said)
    if not slot or slot["word"] not in BARE or not unit:
        return said
    return f"{slot['guard'] or ''}{slot['word']}.{unit}{slot['rest']}"


def is_nop(said):
    """Whether an instruction is a `nop` with the number 0 that always does nothing."""
    slot = SLOT.match(said)
    return bool(slot and NOP.match(slot["word"]) and NO_GUARD.match(slot["guard"] or "") and ZERO.match(slot["rest"]))


def is_call(said):
    slot = SLOT.match(said)
    return bool(slot and re.match(r"br\.call(\.|$)", slot["word"]))


class Loosened:
    """What is left of the lines so far. A stretch goes from a label, a relation line, a call or the start to the next
    label, relation line or the end."""

    def __init__(self, keeps_stops=False, kept_lines=()):
        self.keeps_stops, self.kept_lines = keeps_stops, kept_lines
        self.left = []        # of each line the lines that are left
        self.undecided = []   # each nop since the last other instruction: the number of its line; front, stop, comment
        self.is_bare = True   # the stretch has nothing but nops so far
        self.has_slot = False  # an instruction is left
        self.is_data, self.units = False, []

    def add(self, line):
        """Takes one more line."""
        said, front, comment = parts_of(line)
        name, stopped = without_stop(said)
        opening = OPENING.match(said)
        if not said or self.is_data and not TEXT.match(said):
            self.left.append([line.rstrip()])
        elif opening or said == "}":
            self.units = list(opening[1].replace("mlx", "mx")) if opening else []
            self.left.append(lines_of(comment))
        elif not name:
            self.stop(front, comment)
        elif OUTSIDE.match(name) or LABEL.match(name):
            self.outside(line, name)
        else:
            self.slot(name, front, stopped, comment)

    def stop(self, front, comment):
        """Takes a stop on a line of its own."""
        if self.undecided and not self.has_slot:
            self.undecided.append((len(self.left), front, True, comment))
        self.left.append(self.without_nop(len(self.left), front, True, comment))

    def keeps_stop(self, number):
        """Whether the stop on the line with this number, from 0, is kept."""
        return self.keeps_stops or number in self.kept_lines

    def without_nop(self, number, front, stopped, comment):
        """What is left of a line without the nop on it."""
        if stopped and self.keeps_stop(number) and self.has_slot:
            return [f"{front};;{'  ' * bool(comment)}{comment}"]
        return lines_of(comment)

    def outside(self, line, said):
        """Takes a label, a directive, a relation line or a line of data."""
        self.is_data = not TEXT.match(said) and (self.is_data or DATA.match(said) is not None)
        if said.startswith(".pred.rel") or LABEL.match(said):
            self.end_stretch()
        self.left.append([line.rstrip()])

    def end_stretch(self):
        """Ends a stretch: where it would be bare, its first nop stays."""
        if self.is_bare and self.undecided:
            self.undecided.pop(0)
            self.has_slot = True
        self.take_out_nops()
        self.is_bare = True

    def take_out_nops(self):
        for number, *rest in self.undecided:
            self.left[number] = self.without_nop(number, *rest)
        self.undecided = []

    def slot(self, said, front, stopped, comment):
        """Takes an instruction."""
        said = with_unit(said, self.units.pop(0) if self.units else None)
        mark = " ;;" if stopped and self.keeps_stop(len(self.left)) else ""
        if is_nop(said):
            self.undecided.append((len(self.left), front, stopped, comment))
        else:
            self.take_out_nops()
            self.has_slot, self.is_bare = True, is_call(said)
        self.left.append([f"{front}{said}{mark}{'  ' * bool(comment)}{comment}"])

    def lines(self):
        """The lines that are left of a text that ends here."""
        self.end_stretch()
        return [line for lines in self.left for line in lines]


def has_bundles(data):
    """Whether a text has bundles, and not loose instructions alone."""
    return any(OPENING.match(parts_of(line)[0]) for line in lines_of_text(data))


def loosened(data, keeps_stops=False, kept_lines=()):
    """What is left of the bytes of a text: of its stops all, or those on the lines of these numbers, from 0."""
    return with_numbers(data, keeps_stops, kept_lines)[0]


def with_numbers(data, keeps_stops=False, kept_lines=()):
    """The same, and of each of its lines the number, from 1, of the line that it comes of."""
    left = Loosened(keeps_stops, kept_lines)
    for line in lines_of_text(data):
        left.add(line)
    text = "".join(f"{line}\n" for line in left.lines()).encode("latin-1")
    return text, [number for number, lines in enumerate(left.left, 1) for _ in lines]
