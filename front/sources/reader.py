"""What a source says, statement by statement: names, sections, directives, instructions."""

import re
from typing import NamedTuple, Optional, Tuple

from front.code_file import TABLE_SECTIONS, Rank
from front.faults import Unread
from front.sources.forms import rewritten
from front.sources.instructions import (FOLLOWED, OUTSIDE_TARGETED, PRECEDED, Alignment, Instruction, TARGETED, TEMPLATES,
                                        kind_of)
from front.sources.operands import (LINKED, MOST_IN_FRAME, NAME, OTHER_REGISTERS, REGISTERS, SPELLED,
                                    Named, is_branch_register, is_name, number_of, parted, sum_of, tokens_of, value_of)
from front.sources.outside_profile import NUMBERED, outside, outside_register
from front.sources.quoting import excerpt

# What may stand in front of a statement: a label, a tag, a bundle's selector.
FRONT = re.compile(rf"\s*(?:\.(?P<select>{'|'.join(TEMPLATES)})(?![\w.$:#])|(?P<label>{NAME})#?\s*:|(?P<local>\d{{1,9}})\s*:"
                   rf"|\[\s*(?P<tag>{NAME}#?|\d{{1,9}})\s*:\s*\])\s*", re.A)
ASSIGNED = re.compile(rf"({NAME})#?\s*=\s*([^=].*)", re.A | re.S)
GUARD = re.compile(r"\(\s*(p\d{1,2})\s*\)\s*", re.A)
WORD = re.compile(r"([A-Za-z.][\w.]*)#?\s*", re.A)
LOCAL = re.compile(r"(\d{1,9})([bf])", re.A)
NUMBER = re.compile(r"0[xX][0-9a-fA-F]+|0[bB][01]+|\d+", re.A)

VERSIONED = re.compile(rf"{NAME}@@?[\w.]+", re.A)
NAMES, ONE_NAME = re.compile(NAME, re.A), re.compile(rf"({NAME})#?", re.A)
SECTION = re.compile(r'\s*("[^"]*"|[^\s,]+)\s*(?:,\s*"([A-Za-z?]*)"\s*(,.*)?)?', re.S)
FUNCTION = re.compile(rf'\s*({NAME})#?\s*,\s*(?:[@%"](?:gnu_indirect_)?function|STT_FUNC)', re.A)

# Sections that the assembler knows by their names: those of code, and others that are loaded. Flags come on top.
OF_CODE = re.compile(r"\.(?:text(?:\.|$)|(?:init|fini|plt)$)")
LOADED = re.compile(r"\.(?:(?:data|rodata|bss|tdata|tbss|init_array|fini_array|preinit_array|persistent|noinit"
                    r"|gnu\.linkonce\.[bnp])(?:\.|$)|(?:data1|rodata1|got|hash|dynamic|dynsym|dynstr"
                    r"|gnu\.(?:hash|liblist|conflict))$|sdata|sbss)")
OF_HANDLERS = ".IA_64.unwind_info"
OTHER_SECTIONS = ("data", "bss", "sdata", "sbss", "rodata", "init_array", "fini_array")

# Directives that say nothing of code.
DROPPED = frozenset("""
    .file .loc .loc_mark_labels .ln .version .hidden .internal .protected .local .extern .comm .common .lcomm
    .prologue .body .save .save.f .save.g .save.b .save.gf .savesp .savepsp .vframe .vframesp .vframepsp .fframe
    .altrp .unwabi .unwentry .restore .restorereg .restorereg.p .spill .spillreg .spillreg.p .spillsp .spillsp.p
    .spillpsp .spillpsp.p .copy_state .label_state .personality .pred.safe_across_calls .pred.rel .pred.rel.clear
    .pred.rel.imply .pred.rel.mutex .mem.offset .reg.val .serialize.data .serialize.instruction .explicit .default .lsb .msb
    .psr .gnu_attribute
    """.split())
# Data. Names in those of the first table are addresses.
ADDRESSES = frozenset("""
    data1 data2 data4 data8 data16 data2.ua data4.ua data8.ua data16.ua .byte .short .hword .word .int .long .quad .octa
    .value .2byte .4byte .8byte .dc.a .xdata1 .xdata2 .xdata4 .xdata8 .xdata16 .xdata2.ua .xdata4.ua .xdata8.ua .xdata16.ua
    """.split())
OTHER_DATA = frozenset("""
    string stringz real4 real8 real10 real16 real4.ua real8.ua real10.ua real16.ua .string .stringz .ascii .asciz .skip
    .space .zero .fill .org .uleb128 .sleb128 .float .single .double .xstring .xstringz .incbin
    """.split())


class Reference(NamedTuple):
    """What is named elsewhere than as a target: an expression's names, and what it is, or None where it is no sum."""
    line: int
    said: str
    names: Tuple[str, ...]
    value: Optional[Named]


class Code:
    """A section of code: its instructions and alignments, and what waits for the next instruction."""

    def __init__(self):
        self.items, self.labels = [], []
        self.template, self.opened, self.is_open = None, False, False

    def last(self):
        return self.items[-1] if self.items and isinstance(self.items[-1], Instruction) else None

    def waiting(self):
        """The last instruction, where its bundle isn't ended yet. One that is gets no stop any more."""
        last = self.last()
        return last if last and not last.ends else None

    def stop(self):
        """A stop behind the last instruction."""
        last = self.waiting()
        if last:
            last.stops = True

    def end_bundle(self):
        last = self.waiting()
        if last:
            last.ends = True

    def flush(self):
        """What the assembler does before it turns to something else: it ends the group and the bundle."""
        self.stop()
        self.end_bundle()


class Reader:
    """Takes the statements of a source, one after the other."""

    def __init__(self):
        self.codes = {}                # sections of code by their names, in their order
        self.kinds = {}                # of each section that was declared its flags
        self.defined = {}              # names: the line where they are
        self.numbers = {}              # names that were assigned a number, or None where it isn't known
        self.parts = {}                # of each of the latter the names that are in it
        self.same = {}                 # names that were assigned another one and a number
        self.taken = {}                # of some of these whether they name a function, and have its size
        self.used = set()              # names in expressions of instructions
        self.reached = []              # references, of which each, where it is one to code, makes an entry
        self.sizes = {}                # of names: a number, or a reference, or a section and how many items end there
        self.functions = {}            # names of functions; where one has an end, its section and how many items end there
        self.handled = None            # the section of the function that has data of a handler
        self.begun = []                # those of the function that isn't ended
        self.ranks = {}                # names that the linker sees
        self.versions = set()             # names with versions of others, whose ranks they have
        self.locals = {}               # how often a local label stood so far
        self.frame = None
        self.section = self.previous = ".text"
        self.stack, self.line, self.code = [], 1, None
        self.settle_section()

    # -- Statements

    def take(self, line, said):
        """Takes one statement or mark."""
        self.line = line
        if said == ";;":
            if self.code:
                self.code.stop()
        elif said == "{":
            self.open(self.code)
        elif said == "}":
            self.close(self.code)
        else:
            self.statement(said)

    def fail(self, why, is_known=True):
        raise Unread(self.line, why, is_known)

    def settle_section(self):
        """Sets the section of code, or None in one of data."""
        if self.is_of_code(self.section):
            self.code = self.codes.get(self.section) or Code()
            self.codes[self.section] = self.code
        else:
            self.code = None

    def is_of_code(self, section):
        flags = self.kinds.get(section, "")
        return OF_CODE.match(section) is not None or "a" in flags and "x" in flags

    def is_loaded(self, section):
        """Whether names in a section say that what they name is reached."""
        is_loaded = LOADED.match(section) or OF_CODE.match(section) or "a" in self.kinds.get(section, "")
        return bool(is_loaded) and not section.startswith(TABLE_SECTIONS)

    def open(self, code):
        if not code or code.is_open:
            self.fail("'{' isn't wanted here")
        code.opened = code.is_open = True

    def close(self, code):
        if not code or not code.is_open or code.opened or not code.last():
            self.fail("'}' isn't wanted here")
        code.last().closed, code.is_open = self.line, False

    def statement(self, said):
        """Takes a statement: labels, tags and selectors, and one more thing behind them."""
        found, at = FRONT.match(said), 0
        while found:
            getattr(self, found.lastgroup)(found[found.lastgroup])
            at = found.end()
            found = FRONT.match(said, at)
        said = said[at:].strip()
        if said:
            self.rest(said)

    def rest(self, said):
        found = ASSIGNED.fullmatch(said)
        if found:
            self.assign(found[1], found[2])
            return
        guard = GUARD.match(said)
        word = WORD.match(said, guard.end() if guard else 0)
        if not word:
            self.fail(f"'{excerpt(said)}' isn't known here", False)
        rest, mnemonic = said[word.end():], word[1].lower()
        if guard or mnemonic[0] != "." and mnemonic not in ADDRESSES and mnemonic not in OTHER_DATA:
            self.instruction(guard[1] if guard else "", mnemonic, rest)
        else:
            self.directive(mnemonic, rest)

    # -- Names

    def define(self, name):
        if name in self.defined or name in self.numbers or name in self.same:
            self.fail(f"'{excerpt(name)}' stands there twice")
        self.defined[name] = self.line

    def label(self, name):
        self.define(name)
        if self.code:
            self.code.labels.append((name, self.line))

    def tag(self, name):
        """A tag, which names the next slot. One of a bundle's first slot names the bundle."""
        name = name.rstrip("#")
        if self.code and not name.isdigit():
            self.define(name)
            self.code.labels.append((name, 0))

    def local(self, digits):
        """A local label. Its name has a mark that no other label has."""
        self.locals[digits] = self.locals.get(digits, 0) + 1
        self.label(f"{digits}:{self.locals[digits]}")

    def meant(self, token):
        """The name that a token is, a local label too, or None."""
        found = LOCAL.fullmatch(token)
        if found:
            return f"{found[1]}:{self.locals.get(found[1], 0) + (found[2] == 'f')}"
        return token.rstrip("#") if is_name(token) else None

    def assign(self, name, said):
        """A name that gets a number, or is another name for something."""
        if name in self.defined or name in self.numbers or name in self.same:
            self.fail(f"'{excerpt(name)}' gets a value twice")
        tokens = tokens_of(said, self.line)
        value = sum_of(tokens, self.named)
        names = [other for other, count in value.counts.items() if count] if value else []
        if value and len(names) == 1 and value.counts[names[0]] == 1 and names[0] != ".":
            if self.code and self.code.waiting() and any(names[0] == label for label, _ in self.code.labels):
                self.fail(f"'{excerpt(name)}' gets the place of a label before the bundle in front of that is ended")
            self.same[name] = (names[0], value.number)
            if value.number or names[0] in self.defined or names[0] in self.taken:
                self.taken[name] = self.known_of(names[0])
            return
        if name in self.used:
            self.fail(f"'{excerpt(name)}' gets a value after it was used")
        self.numbers[name] = value.number if value and not names else None
        if self.numbers[name] is None:
            self.parts[name] = tuple(other for other in self.names_in(tokens) if other != "." or self.code)

    def known_of(self, name):
        """What another name for a name takes of it, as far as that is known so far: whether it is one of a function, and whether
        it has a size, which only a name has that is there already."""
        is_function, is_sized = self.taken.get(name, (False, False))
        is_sized = is_sized or name in self.defined and (name in self.sizes or self.functions.get(name) is not None)
        return is_function or name in self.functions, is_sized

    def named(self, token):
        """What a token of an expression is: a name or a number."""
        name = self.meant(token)
        if name is None:
            return number_of(token)
        number = self.numbers.get(name)
        return Named(0, {name: 1}) if number is None else number

    def names_in(self, tokens):
        return tuple(name for name in map(self.meant, tokens) if name is not None)

    def refer(self, tokens):
        """Takes an expression that says how code is reached, where it names any."""
        names = self.names_in(tokens)
        if names:
            value = Named(0, {names[0]: 1}) if len(tokens) == 1 else sum_of(tokens, self.named)
            self.reached.append(Reference(self.line, "".join(tokens), names, value))

    def settled(self, tokens):
        """Tokens of an expression, with the numbers that names were assigned in their places."""
        if not any(token.rstrip("#") in self.numbers for token in tokens):
            return tokens
        settled = []
        for token in tokens:
            number = self.numbers.get(token.rstrip("#"), token)
            if number is None:
                self.fail(f"'{excerpt(token)}' has a value that isn't known here")
            settled += [token] if number is token else ["(", "-", str(-number), ")"] if number < 0 else [str(number)]
        return settled

    # -- Directives

    def directive(self, word, rest):
        handler = getattr(self, HANDLERS.get(word, ""), None)
        if handler:
            handler(rest)
        elif word in ADDRESSES or word in OTHER_DATA:
            self.data(word, rest)
        elif word[1:] in OTHER_SECTIONS:
            self.turn(word)
        elif word not in DROPPED:
            self.fail(f"the directive '{excerpt(word)}' isn't known here")

    def data(self, word, rest):
        is_elsewhere = word.startswith(".x")
        if self.code and not is_elsewhere:
            self.fail(f"'{excerpt(word)}' in a section of code")
        section = self.section
        if is_elsewhere:
            section, _, rest = rest.partition(",")
            section = section.strip().strip('"')
            if self.is_of_code(section):
                self.fail(f"'{excerpt(word)}' for a section of code")
        if word in ADDRESSES and self.is_loaded(section):
            for tokens in parted(tokens_of(rest, self.line), ","):
                for token in tokens:
                    if token[0].isdigit() and not NUMBER.fullmatch(token) and not LOCAL.fullmatch(token):
                        self.fail(f"'{excerpt(token)}' as a number")
                self.refer(tokens)

    def select(self, name):
        if not self.code:
            self.fail("a bundle in a section of data")
        self.code.template = (TEMPLATES[name], self.line)

    def turn(self, name, flags=None):
        """Turns to another section."""
        self.flush("")
        self.enter(name, flags)

    def enter(self, name, flags=None):
        """Turns to another section, which keeps its flags."""
        before = name in self.kinds and (self.is_of_code(name), self.is_loaded(name))
        self.kinds.setdefault(name, flags or "")
        known, self.kinds[name] = self.kinds[name], flags or self.kinds[name]
        if before and before != (self.is_of_code(name), self.is_loaded(name)):
            self.fail(f"the section '{excerpt(name)}' with other flags than before")
        self.kinds[name] = known
        self.previous, self.section = self.section, name
        self.settle_section()

    def text(self, rest):
        if rest.strip() not in ("", "0"):
            self.fail("a subsection")
        self.turn(".text")

    def named_section(self, rest):
        found = SECTION.fullmatch(rest)
        if not found:
            self.fail("a section without a name, or with flags that aren't known here")
        self.turn(found[1].strip('"'), found[2])
        if self.code and "nobits" in (found[3] or ""):
            self.fail("a section of code without bytes")

    def push(self, rest):
        self.stack.append((self.section, self.previous))
        self.named_section(rest)

    def pop(self, _):
        if not self.stack:
            self.fail("no section to come back to")
        section, previous = self.stack.pop()
        self.turn(section)
        self.previous = previous

    def back(self, _):
        self.turn(self.previous)

    def handler_data(self, _):
        """Turns to the data of a function's handler, which ends a bundle and no group."""
        if self.begun:
            if self.code:
                self.code.end_bundle()
            self.handled = self.section
            self.enter(OF_HANDLERS)

    def flush(self, _):
        if self.code:
            self.code.flush()

    def reach(self, rest):
        for name in NAMES.findall(rest):
            self.refer([name])

    def show(self, rest):
        self.ranks.update((name, Rank.GLOBAL) for name in NAMES.findall(rest) if name not in self.ranks)

    def weaken(self, rest):
        self.ranks.update((name, Rank.WEAK) for name in NAMES.findall(rest))

    def begin(self, rest):
        self.begun = NAMES.findall(rest)
        self.functions.update((name, None) for name in self.begun if name not in self.functions)
        self.aligned(16, 0, False)

    def end(self, _):
        """The end of a function: of all names that its beginning has. It stands in the section that `.handlerdata` left."""
        if self.handled:
            self.section, self.handled = self.handled, None
            self.settle_section()
        self.flush("")
        if self.code:
            self.functions.update((name, (self.section, len(self.code.items))) for name in self.begun)
        self.begun = []

    def type_of(self, rest):
        found = FUNCTION.match(rest)
        if found:
            self.functions.setdefault(found[1], None)

    def size_of(self, rest):
        """The size of a name, which is that of a function whatever its end is. Where a bundle isn't ended yet, the assembler
        counts only those before it, which isn't followed."""
        name, _, said = rest.partition(",")
        name, tokens = name.strip().rstrip("#"), tokens_of(said, self.line)
        names, is_settled = self.names_in(tokens), not self.code or not self.code.waiting()
        if [token.rstrip("#") for token in tokens] == [".", "-", name] and self.code and is_settled:
            self.sizes[name] = (self.section, len(self.code.items))
        else:
            value = sum_of(tokens, self.named) if is_settled or not names else None
            self.sizes[name] = Reference(self.line, "".join(tokens), names, value)

    def version(self, rest):
        """One more name of a symbol, with a version."""
        name, _, other = (part.strip() for part in rest.partition(","))
        if not ONE_NAME.fullmatch(name) or not VERSIONED.fullmatch(other):
            self.fail("a version that isn't known here")
        self.same[other] = (name.rstrip("#"), 0)
        self.versions.add(other)

    def set_to(self, rest):
        name, _, said = rest.partition(",")
        found = ONE_NAME.fullmatch(name.strip())
        if not found or not said.strip():
            self.fail("a value that isn't known here")
        self.assign(found[1], said)

    def align(self, rest):
        self.alignment(rest, False, True)

    def align_to(self, rest):
        self.alignment(rest, False, False)

    def align_by_power(self, rest):
        self.alignment(rest, True, False)

    def alignment(self, rest, is_power, is_plain):
        if not self.code:
            return
        operands = [self.settled(part) for part in parted(tokens_of(rest, self.line), ",")]
        size, most = self.constant(operands[0]), self.constant(operands[2]) if len(operands) > 2 else 0
        size = 1 << size if is_power and 0 <= size <= 16 else size
        if not 0 < size <= 1 << 16 or size & (size - 1):
            self.fail("an alignment that isn't known here")
        self.aligned(size, most, is_plain)

    def aligned(self, size, most, is_plain):
        if self.code:
            self.code.flush()
            self.code.items.append(Alignment(self.line, size, most, is_plain, self.code.labels))
            self.code.labels = []

    def registers(self, rest):
        """The frame whose registers `in0`, `loc0` and `out0` name."""
        self.set_frame([self.constant(self.settled(part)) for part in parted(tokens_of(rest, self.line), ",")][:3])

    def set_frame(self, sizes):
        if len(sizes) < 3 or min(sizes) < 0 or sum(sizes) > MOST_IN_FRAME:
            self.fail("a frame that isn't known here")
        inputs, local, outputs = sizes
        self.frame = {"in": (32, inputs), "loc": (32 + inputs, local), "out": (32 + inputs + local, outputs)}

    # -- Instructions

    def instruction(self, guard, mnemonic, rest):
        code = self.code
        if not code:
            self.fail("an instruction in a section of data", kind_of(mnemonic) is not None)
        if guard and guard not in REGISTERS:
            self.fail(f"the predicate '{guard}'")
        made = self.made(guard, mnemonic, rest)
        made.guard, made.template, made.opens, made.labels = guard, code.template, code.opened, code.labels
        if mnemonic in PRECEDED:
            code.stop()
        made.stops = FOLLOWED.fullmatch(mnemonic) is not None
        code.items.append(made)
        code.labels, code.template, code.opened = [], None, False

    def made(self, guard, mnemonic, rest):
        """An instruction in the program's own form, or one outside the profile."""
        kind, sides = kind_of(mnemonic), parted(tokens_of(rest, self.line), "=") if rest else [[]]
        if len(sides) > 2:
            self.fail(f"'{excerpt(rest)}'")
        lists = [parted(side, ",") if side else [] for side in sides]
        left, right = lists if len(lists) == 2 else ([], lists[0])
        if kind is None or any(token not in REGISTERS and outside_register(token) for side in sides for token in side):
            found = self.outside(guard, mnemonic, left, list(right))
            if found:
                return found
            if kind is None:
                self.fail(f"'{excerpt(mnemonic)}' is outside the profile, or unknown", False)
        made = Instruction(self.line, kind, mnemonic, "")
        if mnemonic == "alloc":
            self.set_frame([self.constant(self.settled(part)) for part in right[-4:]][:3])
        if mnemonic == "ld8.mov":
            made.mnemonic, right = "ld8", right[:-1]
        if TARGETED.match(mnemonic) and right:
            made.target = self.target(right[-1])
            right = right[:-1] if made.target else right
        if kind == "move" and len(right) == 2 and left and is_branch_register(self.operand(left[0])):
            made.tag, right[1:] = self.tag_of(right[1])
        rewritten(self, made, [self.operand(part) for part in left], [self.operand(part) for part in right])
        return made

    def outside(self, guard, mnemonic, left, right):
        """An instruction of the table of stand-ins, or None."""
        target = self.target(right.pop()) if OUTSIDE_TARGETED.match(mnemonic) and right else None
        sides = [[self.outside_operand(part) for part in side] for side in (left, right)]
        found = outside(mnemonic, guard, *sides, target is not None)
        if found is None:
            return None
        return Instruction(self.line, found.kind, mnemonic, "", target, word=found.word, text=found.text)

    def outside_operand(self, tokens):
        """An operand of such an instruction: a register or a place in memory by its number, or something else as it stands."""
        if len(tokens) == 3 and tokens[0] == "[" and tokens[-1] == "]":
            return f"[{self.outside_operand(tokens[1:2])}]"
        if len(tokens) == 1 and outside_register(tokens[0]):
            return outside_register(tokens[0])
        if tokens and tokens[0][0] == "@" and "(" not in tokens:
            return "".join(tokens)
        operand = self.operand(tokens)
        return NUMBERED.get(operand, operand)

    def target(self, tokens):
        """The name of a target, or None where it is a register."""
        if len(tokens) != 1:
            self.fail("a target that is no label")
        if tokens[0] in REGISTERS or OTHER_REGISTERS.fullmatch(tokens[0]):
            if not is_branch_register(self.operand(tokens)):
                self.fail(f"'{tokens[0]}' as a target")
            return None
        name = self.meant(tokens[0])
        if name is None or name == "." or name in self.numbers:
            self.fail("a target that is no label")
        self.used.add(name)
        return name

    def tag_of(self, tokens):
        """The name of the tag of a move to a branch register and no operand, or none and the number of bundles."""
        name = self.meant(tokens[0]) if len(tokens) == 1 and tokens[0].rstrip("#") not in self.numbers else None
        if name is not None:
            self.used.add(name)
            return name, []
        return None, [[str(self.constant(self.settled(tokens)) >> 4)]]

    def operand(self, tokens):
        """An operand as the program reads it: a register, a place in memory, or a number."""
        if not tokens:
            self.fail("an operand is missing")
        if tokens[0] == "[" and tokens[-1] == "]" and len(tokens) == 3:
            return f"[{self.operand(tokens[1:2])}]"
        if len(tokens) == 1 and tokens[0] in REGISTERS:
            return REGISTERS[tokens[0]]
        if len(tokens) == 1 and OTHER_REGISTERS.fullmatch(tokens[0]):
            return self.framed(tokens[0])
        return self.number(tokens)

    def framed(self, token):
        """A register of the frame by its name."""
        name, number = token.rstrip("0123456789"), token.lstrip("inlocut")
        if self.frame and name in self.frame and str(int(number)) == number and int(number) < self.frame[name][1]:
            return f"r{self.frame[name][0] + int(number)}"
        return self.fail(f"the register '{token}' is outside the profile, or isn't there")

    def number(self, tokens):
        """A number as it is printed: 0 where the linker puts it in, and what is named in it is reached."""
        spelled = "".join(tokens)
        if len(tokens) == 1 + (tokens[0] == "-") and SPELLED.fullmatch(spelled):
            return spelled
        tokens = self.settled(tokens)
        names = {self.meant(token) for token in tokens} - {None}
        if not names and not any(token[0] == "@" and token != "@pause" for token in tokens):
            return str(self.constant(["0" if token == "@pause" else token for token in tokens]))
        if "." in names or "[" in tokens:
            self.fail(f"'{excerpt(spelled)}' in an operand")
        self.used |= names
        self.refer(tokens)
        return LINKED

    def constant(self, tokens):
        """The number that an expression of numbers is."""
        try:
            return value_of(tokens)
        except ValueError as none:
            return self.fail(excerpt(str(none)))


HANDLERS = {
    ".text": "text", ".section": "named_section", ".pushsection": "push", ".popsection": "pop", ".previous": "back",
    ".handlerdata": "handler_data", ".ident": "flush", ".stabs": "flush", ".stabn": "flush", ".stabd": "flush",
    ".proc": "begin", ".endp": "end", ".global": "show", ".globl": "show", ".weak": "weaken", ".entry": "reach",
    ".type": "type_of", ".size": "size_of", ".symver": "version", ".set": "set_to", ".equ": "set_to",
    ".equiv": "set_to", ".weakref": "set_to", ".align": "align", ".balign": "align_to", ".p2align": "align_by_power",
    ".regstk": "registers",
}
