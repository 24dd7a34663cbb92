"""Tokens, numbers and registers, as the assembler has them."""

import re

from front.code_file import WORD64
from front.faults import Unread

NAME = r"[A-Za-z_.$\x80-\xff][\w.$\x80-\xff]*"
TOKEN = re.compile(rf"\s*(?:({NAME}#?|\d[\w.$]*|@\w+|'(?:\\.|[^\\])'?|<<|>>|[-+*/%&|^~()\[\]=,])|(\S))", re.A)
SPELLED = re.compile(r"-?(?:0|[1-9]\d{0,19}|0x[0-9a-fA-F]{1,16})", re.A)
NUMBERS = ((re.compile(r"0[xX][0-9a-fA-F]{1,20}", re.A), 16), (re.compile(r"0[bB][01]{1,64}", re.A), 2),
           (re.compile(r"0[0-7]{1,22}", re.A), 8), (re.compile(r"0|[1-9]\d{0,19}", re.A), 10))
ESCAPES = {"n": "\n", "t": "\t", "r": "\r", "b": "\b", "f": "\f"}
# How tightly operators bind, in the assembler's order.
LEVELS = {"*": 3, "/": 3, "%": 3, "<<": 3, ">>": 3, "|": 2, "&": 2, "^": 2, "+": 1, "-": 1}
UNARY, UNARY_LEVEL = {"-": "minus", "+": "plus", "~": "not"}, 4


def tokens_of(text, line):
    """The tokens of operands."""
    tokens = []
    for found in TOKEN.finditer(text):
        if found[2]:
            raise Unread(line, f"{found[2]!a} in an operand")
        tokens.append(found[1])
    return tokens


def parted(tokens, mark):
    """Tokens, parted at a mark that stands in no parentheses."""
    lists, depth = [[]], 0
    for token in tokens:
        depth += (token in "([") - (token in ")]")
        if token == mark and depth == 0:
            lists.append([])
        else:
            lists[-1].append(token)
    return lists


def number_of(token):
    """The number that a token spells."""
    if token[0] == "'":
        return ord(ESCAPES.get(token[2], token[2]) if token[1] == "\\" else token[1])
    for form, base in NUMBERS:
        if form.fullmatch(token):
            return int(token, base)
    raise ValueError(f"'{token}' as a number")


class Named:
    """A number, and names of which each counts so often with it."""

    def __init__(self, number, counts):
        self.number, self.counts = number, counts

    def __neg__(self):
        return Named(-self.number, {name: -count for name, count in self.counts.items()})

    def __add__(self, other):
        if not isinstance(other, Named):
            return Named(self.number + other, self.counts)
        names = dict.fromkeys([*self.counts, *other.counts])
        return Named(self.number + other.number, {name: self.counts.get(name, 0) + other.counts.get(name, 0) for name in names})

    __radd__ = __add__

    def __sub__(self, other):
        return self + -other

    def __rsub__(self, other):
        return -self + other


def signed(value):
    """A sum within 64 bits, as the assembler has it."""
    if isinstance(value, Named):
        return Named(signed(value.number), value.counts)
    return value if -(1 << 63) <= value <= WORD64 else (value + (1 << 63) & WORD64) - (1 << 63)


def applied(mark, values):
    """Applies an operator to the last values."""
    last = values.pop()
    if mark in UNARY.values():
        values.append(signed({"minus": -last, "plus": last, "not": ~last}[mark]))
        return
    first = values.pop()
    if mark in "/%" and last == 0 or mark in ("<<", ">>") and not 0 <= last < 64:
        raise ValueError(f"'{mark} {last}'")
    if mark in "/%":
        size = abs(first) // abs(last)
        size = -size if (first < 0) != (last < 0) else size
        result = size if mark == "/" else first - size * last
    else:
        result = {"*": lambda: first * last, "<<": lambda: first << last, ">>": lambda: (first & WORD64) >> last,
                  "|": lambda: first | last, "&": lambda: first & last, "^": lambda: first ^ last,
                  "+": lambda: first + last, "-": lambda: first - last}[mark]()
    values.append(signed(result))


def sum_of(tokens, value):
    """The number and the names that an expression of numbers and names is, with what `value` says of each token of these, or
    None where it is something else. What a linker makes of it, as in `@gprel(x)`, is left out."""
    try:
        found = value_of(tokens, value)
    except (TypeError, ValueError):
        return None
    return found if isinstance(found, Named) else Named(found, {})


def value_of(tokens, value=number_of):
    """The number that an expression of numbers has. What isn't one is a `ValueError` with its reason."""
    values, marks, depth, wants = [], [], 0, True
    for token in tokens:
        if wants and token in UNARY:
            marks.append(UNARY[token])
        elif wants and token == "(":
            marks.append(token)
            depth += 1
        elif wants and token[0] == "@" and value is not number_of:
            continue
        elif wants:
            values.append(value(token))
            wants = False
        elif token == ")" and depth:
            while marks[-1] != "(":
                applied(marks.pop(), values)
            marks.pop()
            depth -= 1
        elif token in LEVELS:
            while marks and LEVELS.get(marks[-1], 0 if marks[-1] == "(" else UNARY_LEVEL) >= LEVELS[token]:
                applied(marks.pop(), values)
            marks.append(token)
            wants = True
        else:
            raise ValueError(f"'{token}' in a number")
    if wants or depth:
        raise ValueError("a number without an end")
    while marks:
        applied(marks.pop(), values)
    return values[0]


def is_name(token):
    return token[0] not in "@'" and not token[0].isdigit() and re.match(NAME, token) is not None


def is_branch_register(operand):
    return operand == "rp" or re.fullmatch(r"b\d", operand) is not None


OTHER_REGISTERS = re.compile(r"f\d{1,3}|farg[0-7]|fret[0-7]|(?:ar|cr)(?:\.\w+|\d{1,3})|psr(?:\.\w+)?"
                             r"|(?:in|loc|out)\d{1,2}", re.A)
APPLICATION = {f"ar{number}": name for number, name in ((36, "ar.unat"), (64, "ar.pfs"), (65, "ar.lc"), (66, "ar.ec"))}
REGISTERS = {f"{letter}{number}": f"{letter}{number}" for letter, count in (("r", 128), ("p", 64), ("b", 8))
             for number in range(count)}
REGISTERS.update({name: name for name in ("gp", "sp", "tp", "rp", "ret0", "ret1", "ret2", "ret3", "ip", "pr", "pr.rot")})
REGISTERS.update({name: name for name in APPLICATION.values()}, **APPLICATION)
GENERAL = re.compile(r"r\d+|gp|sp|tp|ret[0-3]")
FIRST_FOUR = ("r0", "r1", "r2", "r3", "gp")
MOST_IN_FRAME = 96
# What stands for a number that the linker puts in, until the operand is printed as 0.
LINKED = "linked"
