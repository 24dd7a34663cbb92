"""Makes random programs as texts, and such texts with one fault, of which it is known what is answered. It is imported, and
not called.

A program is made of every row of the table of instructions and of the other texts of slot lines, with labels, entries, relations,
data, predicates, stops and spellings at random. It is right but for runs of slots that may be too long. A text is a list of lines
without their ends.
"""

import re
from string import Template

from gnu_as import TEMPLATES, nops, units
from instruction_rows import GR, PR, TARGET, rows_of
from line_faults import FAULTS
from line_texts import OTHERWISE, PSEUDO
from make_line_rows import blank_and_comment, drawn, name, of_row, past_edges, places_of_text, styled
from printed_forms import BUNDLE_LIMIT, DATA_LIMIT, ENTRY_LIMIT, VERSION_1_BUNDLE_LIMIT, RELATION_LIMIT

RUN_LIMIT = 192
LINE_FAULTS = [*FAULTS, *past_edges()]
OTHERS = [(text, set(places_of_text(its_units, text))) for its_units, text, *_ in (*PSEUDO, *OTHERWISE)]
STOPS = {names: [set(own) for other, own in TEMPLATES.values() if other == names] for names, _ in TEMPLATES.values()}
FRAMES = ("0,48,0,0", "0,40,8,8", "4,40,4,48", "0,0,0,0")


class Shape:
    """How a program is made: its bundles, how often a slot does nothing and a bundle ends with a stop,
    which registers and predicates it names for the most, how often a bundle has a label and is an entry, and how
    often an entry has relations, whether its slots are spelled in all ways, and whether it begins with a frame and
    ends with a `break`."""

    def __init__(self, random, bundles=None, stops=None):
        few, some, many = random.randrange(1, 9), random.randrange(9, 40), random.randrange(40, 300)
        most = random.choice((VERSION_1_BUNDLE_LIMIT, VERSION_1_BUNDLE_LIMIT + 1, BUNDLE_LIMIT))
        self.bundles = bundles or random.choice([few] * 240 + [some] * 80 + [many] * 30 + [most])
        self.nops = random.choice((0, 0.3, 0.6, 0.9))
        self.stops = random.choice((0, 0.5, 0.9, 1, 1)) if stops is None else stops
        self.registers = random.choice((range(8, 12), range(8, 16), range(30, 40), range(128)))
        self.predicates = random.choice(((0,), (0, 0, 6, 7), (0, 6, 16, 17, 63)))
        self.labels, self.entries = random.choice((0.1, 0.5, 1)), random.choice((0, 0, 0.2))
        self.relations = random.choice((0, 0.2, 1))
        self.is_styled, self.is_framed = random.randrange(4) == 0, random.randrange(4) > 0

    def draw(self, random, operand):
        """A value of an operand: most often one that the program likes, else one at its ends, or any."""
        liked = self.predicates if operand is PR else self.registers if operand in (GR, TARGET) else ()
        if liked and random.randrange(16):
            return max(operand.low, random.choice(liked))
        return operand.draw(random) if random.randrange(4) else random.choice((operand.low, operand.high))

    def row_text(self, random, row):
        """A text of a row, with `%` for a label."""
        while True:
            values = {key: self.draw(random, operand) for key, operand in row.operands.items()}
            if row.keep(values):
                return of_row(row, values)[0]

    def code(self, random):
        """A template, with a stop at its end as often as the program has one."""
        return random.choice(list(TEMPLATES)) & 0x1E | (random.random() < self.stops)


class Names:
    """The labels of a program: those of some of its bundles, by number, and those of its data."""

    def __init__(self, random, shape):
        self.code = {n: name(random, n) for n in range(shape.bundles) if n == 0 or random.random() < shape.labels}
        self.data = [name(random, shape.bundles + n) for n in range(random.randrange(1, 4))]

    def target(self, random):
        return random.choice(list(self.code.values()))


def slot_text(random, shape, names, code, slot):
    """The text of an instruction for this slot of this template."""
    unit, others = units(code)[slot], ()
    if random.random() < shape.nops:
        return f"nop.{unit} 0"
    if unit == "x" and random.randrange(2):
        return f"movl r{random.choice((8, 9, 14))}={random.choice(names.data + [names.target(random)])}"
    if random.randrange(8) == 0:
        others = [text for text, places in OTHERS if (code, slot) in places]
    if others:
        text = random.choice(others)
        text = Template(text).substitute(drawn(random, text))
    else:
        text = shape.row_text(random, random.choice(rows_of(unit, code, slot)))
    if shape.is_styled:
        text = styled(random, text)[0]
    return text.replace("%", names.target(random))


def bundle_of(random, code, texts):
    """The lines of a bundle. A stop stands at the end of its slot's line, or in a line of its own."""
    names, stops = TEMPLATES[code]
    lines = [f"{{ .{names}"]
    for slot, text in enumerate(texts):
        stopped = (2 if slot == len(texts) - 1 else slot) in stops
        apart = stopped and random.randrange(8) == 0
        lines += [text, ";;"] if apart else [text + " ;;" * stopped]
    return [*lines, "}"]


def code_part(random, shape, names, n):
    """The lines of a bundle with those before it that name it and declare an entry."""
    code = shape.code(random)
    texts = [slot_text(random, shape, names, code, slot) for slot in range(len(units(code)))]
    if shape.is_framed and n == 0:
        code, texts = 5, [f"alloc r32=ar.pfs,{random.choice(FRAMES)}", f"movl r14={names.data[0]}"]
    elif shape.is_framed and n == shape.bundles - 1:
        code, texts = 0x11, [*nops(0x11)[:2], f"break.b {random.randrange(100)}"]
    entry = [f".entry {names.target(random)}"] * (random.random() < shape.entries)
    label = [f"{names.code[n]}:"] if n in names.code else []
    return entry + label + bundle_of(random, code, texts)


def data_part(random, label):
    """The lines of some data with a label."""
    lines = []
    for _ in range(random.randrange(4)):
        size = random.choice((1, 2, 4, 8, 8, 8))
        ends = (0, 1, -1, 100, -128, 255, (1 << 8 * size) - 1, -(1 << 8 * size - 1))
        numbers = ",".join(str(random.choice(ends)) for _ in range(random.randrange(1, 9)))
        lines.append(random.choice((f"data{size} {numbers}", f".skip {random.choice((0, 1, 8, 24, 1000))}")))
    return [".data", f"{label}:", *lines, ".text"]


def spaced(random, *words):
    """The words of a line with blanks between them that mean nothing, most often with none."""
    return "".join(word + random.choice(("", "", "", " ", "\t ")) for word in words).rstrip()


def relation_line(random, predicates):
    """A line that declares relations between each two of these predicates, in any order."""
    words = [word for p in random.sample(list(predicates), len(predicates)) for word in (",", f"p{p}")]
    return spaced(random, random.choice((".pred.rel", ".pred.rel#")) + " ", '"mutex"', *words)


def relation_part(random):
    """Up to three lines that declare relations of one bundle."""
    some = random.sample(range(1, 16), random.randrange(2, 16))
    count = random.choice((1, 1, 1, 2, 3))
    return [relation_line(random, random.choice(((6, 7), (6, 7), (6, 7, 8), some))) for _ in range(count)]


# How many relations such lines have at the most.
MOST_OF_A_PART = 3 * 105


def has_call(lines):
    return any(re.match(r"\s*(\([^)]*\)\s*)?br\.call\b[^:]*=", line) for line in lines)


def relate(random, shape, names, parts):
    """Puts relations before bundles that are entries: bundle 0, those that a line `.entry` names, and those behind a
    call. They stand before the labels and the line `.entry` of the bundle, or behind them."""
    declared = {line.split()[1] for lines in parts for line in lines if line.startswith(".entry ")}
    entries = [n for n in range(len(parts)) if n == 0 or names.code.get(n) in declared or has_call(parts[n - 1])]
    related = [n for n in entries if random.random() < shape.relations]
    for n in related[:RELATION_LIMIT // MOST_OF_A_PART]:
        first = next(number for number, line in enumerate(parts[n]) if line.startswith("{"))
        at = random.choice((0, first))
        parts[n][at:at] = relation_part(random)


def random_lines(random, shape):
    """The lines of a program."""
    names = Names(random, shape)
    parts = [code_part(random, shape, names, n) for n in range(shape.bundles)]
    relate(random, shape, names, parts)
    for label in names.data:
        parts.insert(random.randrange(len(parts) + 1), data_part(random, label))
    lines = [line for part in parts for line in part]
    return [line + blank_and_comment(random) for line in lines] if random.randrange(8) == 0 else lines


# Texts with one fault. Each function takes the lines of a right text, in which a stop follows each bundle,
# and gives those of one with a fault, the number of the line to be named, from 1, and the reason.


def gaps(lines, place):
    """Where a line may be put so that it stands in a bundle, in code outside of one, or in data."""
    here, answer = "code", []
    for number, line in enumerate([*lines, ""]):
        answer += [number] * (here == place)
        first = bare(line)
        here = {".data": "data", ".text": "code", "}": "code"}.get(first, "bundle" if first[:1] == "{" else here)
    return answer


def bare(line):
    return line.split("//")[0].strip()


def put(lines, at, *more):
    return [*lines[:at], *more, *lines[at:]]


class Bundle:
    """A bundle of a text: the numbers of its first and last line and of its slots', from 0, the units of
    its slots, its template's name, and the slots that a stop follows, as the table of templates has them."""

    def __init__(self, random, lines):
        self.first = random.choice([n for n, line in enumerate(lines) if bare(line)[:1] == "{"])
        self.last = next(n for n in range(self.first, len(lines)) if bare(lines[n]) == "}")
        self.slots = [n for n in range(self.first + 1, self.last) if bare(lines[n]) != ";;"]
        self.name = bare(lines[self.first])[-3:]
        self.units = "mx" if self.name == "mlx" else self.name
        ends = [slot + 1 for slot in self.slots if bare(lines[slot + 1]) == ";;" or bare(lines[slot]).endswith(";;")]
        self.stops = {2 if end - 1 == self.slots[-1] else self.slots.index(end - 1) for end in ends}


def line_by_itself(random, lines):
    wanted = random.choice(("char", "name", "register", "number", "range", "form"))
    reason, text = random.choice([row for row in LINE_FAULTS if row[0] == wanted])
    at = random.randrange(len(lines) + 1)
    return put(lines, at, text), at + 1, reason


def long_line(random, lines):
    at = random.randrange(len(lines) + 1)
    text = random.choice(("//", "nop.i 0 //", "\x7f", " ", "add"))
    return put(lines, at, text.ljust(random.randrange(241, 2000), random.choice(" x\t"))), at + 1, "limit"


MISPLACED = {
    "bundle": ("fresh:", ".text", ".data", ".entry x", ".global x", '.pred.rel "mutex",p6,p7', "{ .mii", "data1 0",
               ".skip 0"),
    "code": ("}", ";;", "nop.i 0", "data1 0", ".skip 0"),
    "data": ('.pred.rel "mutex",p1,p2,p3', "{ .mii", "}", ";;", "nop.m 0"),
}


def misplaced(random, lines):
    place = random.choice(list(MISPLACED))
    at = random.choice(gaps(lines, place))
    return put(lines, at, random.choice(MISPLACED[place])), at + 1, "misplaced"


def early_stop(random, lines):
    at = Bundle(random, lines).first + 1
    return put(lines, at, ";;"), at + 1, "misplaced"


def same_label(random, lines):
    label = random.choice([n for n, line in enumerate(lines) if bare(line)[-1:] == ":"])
    at = random.choice([n for n in gaps(lines, random.choice(("code", "data"))) if n > label] or [label + 1])
    return put(lines, at, lines[label]), at + 1, "twice"


def one_slot_more(random, lines):
    at = Bundle(random, lines).last
    return put(lines, at, "nop 0"), at + 1, "template"


def one_slot_less(random, lines):
    bundle = Bundle(random, lines)
    return [line for n, line in enumerate(lines) if n != bundle.slots[-1]], bundle.last, "template"


def wrong_stop(random, lines):
    while True:
        bundle = Bundle(random, lines)
        slot = random.randrange(len(bundle.slots) - 1)
        if bundle.stops | {slot} not in STOPS[bundle.name]:
            return put(lines, bundle.slots[slot] + 1, ";;"), bundle.last + 2, "template"


def wrong_kind(random, lines):
    bundle = Bundle(random, lines)
    slot = random.randrange(len(bundle.slots))
    unit, at = bundle.units[slot], bundle.slots[slot]
    texts = [f"nop.{other} 0" for other in "mifbx" if other != unit] + [f"nop {1 << 21}"] * (unit != "x")
    texts += ["br.cloop.sptk.few x", "br.wtop.dptk.many x"] * (unit == "b" and slot < 2)
    return [*lines[:at], random.choice(texts), *lines[at + 1:]], at + 1, "slot kind"


def past_data(random, lines):
    return [".data", f".skip {DATA_LIMIT}", "data1 0", ".text", *lines], 3, "limit"


NOPS = ["{ .mii", "nop.m 0", "nop.i 0", "nop.i 0", "}"]


def past_bundles(random, lines):
    more = BUNDLE_LIMIT - sum(bare(line)[:1] == "{" for line in lines)
    return [*lines, *NOPS * more, *NOPS], len(lines) + len(NOPS) * more + 1, "limit"


def past_entries(random, lines):
    text = [line for n in range(ENTRY_LIMIT + 2) for line in (f"x{n}:", *NOPS, f".entry x{n}")]
    return text, len(text), "limit"


STOPPED_NOPS = [*NOPS[:-2], "nop.i 0 ;;", "}"]


def past_relations(random, _lines):
    """39 entries with all 105 relations, and one with those that are too many; what is declared again doesn't count."""
    every = relation_line(random, range(1, 16))
    text = [line for n in range(39) for line in (f".entry x{n}", f"x{n}:", every, *STOPPED_NOPS)]
    twice = [relation_line(random, (14, 15)), relation_line(random, (14, 15)), relation_line(random, (13, 15))]
    text += random.choice((twice, [relation_line(random, (6, 7, 8))]))
    return [*text, "x:", *STOPPED_NOPS, ".entry x"], len(text), "limit"


def unrelated(lines):
    """The lines but those of relations, whose bundles would be others where bundles are put in."""
    return [line for line in lines if not line.startswith(".pred.rel")]


def no_entry(random, lines):
    """A relation of a bundle that is no entry, or behind the last bundle."""
    line = relation_line(random, random.choice(((6, 7), range(1, 16))))
    if random.randrange(2):
        return [*lines, line], len(lines) + 1, "relation"
    lines, more = unrelated(lines), [*STOPPED_NOPS, line, *random.choice(([], ["fresh:"])), *STOPPED_NOPS]
    at = random.choice(gaps(lines, "code"))
    return put(lines, at, *more), at + len(STOPPED_NOPS) + 1, "relation"


def open_bundle(random, lines):
    at = random.choice(gaps(lines, "bundle"))
    return lines[:at], at + 1, "misplaced"


def label_at_the_end(random, lines):
    more = ["fresh:", *random.choice(([], [".data"], ["// nothing", ""]))]
    return [*lines, *more], len(lines) + len(more) + 1, "misplaced"


def no_bundle(random, lines):
    text = [*[".global x"] * random.randrange(4), *data_part(random, "x"), *[""] * random.randrange(3)]
    return text, len(text) + 1, "empty"


def no_target(random, lines):
    name = random.choice(("nowhere", "there"))
    more = random.choice(([f".entry {name}"], ["{ .mib", "nop.m 0", "nop.i 0", f"br.few {name} ;;", "}"],
                          ["{ .mmi", f"chk.s.m r8,{name}", "nop.m 0", "nop.i 0 ;;", "}"]))
    at = random.choice(gaps(lines, "code"))
    number = next(n for n, line in enumerate(more) if name in line)
    return [*put(lines, at, *more), ".data", "there:"], at + number + 1, "no label"


def long_run(random, lines):
    lines = unrelated(lines)
    at = random.choice(gaps(lines, "code"))
    return put(lines, at, *NOPS * (RUN_LIMIT // 3 + 1)), at + len(NOPS) * (RUN_LIMIT // 3) + 2, "long run"


# Loose texts with one fault: each function takes the lines of a right loose text, which has an instruction.


def wide_bare_number(random, lines):
    at = random.randrange(len(lines) + 1)
    return put(lines, at, f"{random.choice(('nop', 'break'))} {random.choice((1 << 21, (1 << 62) - 1))}"), at + 1, "range"


LOOSE_MISPLACED = {"code": ("}", "{ .mii", "{ .bbb", "data1 0", ".skip 0"),
                   "data": ("}", "{ .mlx", ";;", "nop.i 0", "(p6) movl r8=1", '.pred.rel "mutex",p1,p2,p3')}


def loose_misplaced(random, lines):
    place = random.choice(list(LOOSE_MISPLACED))
    at = random.choice(gaps(lines, place))
    return put(lines, at, random.choice(LOOSE_MISPLACED[place])), at + 1, "misplaced"


def stop_before_all(random, lines):
    return [";;", *lines], 1, "misplaced"


def loose_target(random, lines):
    name = random.choice(("nowhere", "there"))
    more = random.choice((f".entry {name}", f"br.few {name} ;;", f"(p6) chk.s.m r8,{name}", f"br.call b0={name}"))
    at = random.choice(gaps(lines, "code"))
    return [*put(lines, at, more), ".data", "there:"], at + 1, "no label"


def no_instruction_behind(random, lines):
    """A relation behind the last instruction, which may be a call."""
    more = [*random.choice(([], ["br.call b0=fresh ;;"])), relation_line(random, (6, 7))]
    return ["fresh:", *lines, *more], len(lines) + len(more) + 1, "relation"


def past_loose_bundles(random, lines):
    empty = ["// nothing"] * random.randrange(3)
    return [*["nop.x 0"] * BUNDLE_LIMIT, *empty, "br nowhere"], BUNDLE_LIMIT + len(empty) + 1, "limit"


def past_packed_bundles(random, lines):
    """Three a bundle as if no stop were wanted, and each wants one."""
    return ["clrrrb"] * (BUNDLE_LIMIT + random.randrange(1, 100)), BUNDLE_LIMIT + 1, "limit"


LOOSE_FAULT_KINDS = [line_by_itself] * 20 + [
    long_line, wide_bare_number, loose_misplaced, stop_before_all, same_label, past_data, label_at_the_end, no_bundle,
    loose_target, no_instruction_behind] * 4 + [past_loose_bundles, past_packed_bundles]

FAULT_KINDS = [line_by_itself] * 20 + [
    long_line, misplaced, early_stop, same_label, one_slot_more, one_slot_less, wrong_stop, wrong_kind, past_data,
    open_bundle, label_at_the_end, no_bundle, no_target, no_entry, long_run] * 4 + [
    past_bundles, past_entries, past_relations]
