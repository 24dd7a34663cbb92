"""The arguments of a call, as the words that stand for them."""

import re
from typing import NamedTuple, Optional

from front.content import read_file
from front.faults import Fault, printable

# How many arguments a call may have, how many of them are in registers, and how many bytes a buffer may have.
MOST_ARGUMENTS, IN_REGISTERS, MOST_BYTES = 64, 8, 1 << 20

ARGUMENT_FORMS = """\
An ARG is
  a number         42, 0x2a, -7, or 'c' for that of a character
  "TEXT"           the address of the text with a zero behind it, with the escapes of C; in a shell '"TEXT"'
  str:TEXT         the same of the text as it stands, without escapes
  @N               the address of a buffer of N zero bytes
  hex:00ff2a       the address of these bytes
  data4:1,-2,0x3   the address of these numbers of 4 bytes each; so data1, data2 and data8
  file:PATH        the address of the bytes of a file
  &NAME            the address of the variable of this name; of a function that of its descriptor, as C has it
The first eight are in registers, and all others on the memory stack. Missing ones are 0.

  ia64 call crc.o crc32 '"123456789"' 9
  ia64 call sort.o sort data4:3,1,2 3 '&compare' --with more.o"""


class Argument(NamedTuple):
    """A number, or bytes whose address is passed, or a symbol whose address is. `unit` is the size of the numbers that the bytes
    are, `is_text` whether they were given as text."""
    word: str
    number: int = 0
    content: Optional[bytes] = None
    symbol: Optional[str] = None
    unit: int = 0
    is_text: bool = False


def arguments_of(words):
    """The arguments that words stand for."""
    if len(words) > MOST_ARGUMENTS:
        raise Fault(f"{len(words)} arguments, and a call may have {MOST_ARGUMENTS}")
    found = []
    for number, word in enumerate(words, 1):
        try:
            found.append(argument_of(word))
        except Fault as fault:
            raise Fault(f"argument {number}, {printable(word)}: {fault}") from None
    return found


def argument_of(word):
    kind, mark, rest = word.partition(":")
    if word.startswith('"'):
        return text_argument(word, escaped(quoted(word, '"')))
    if word.startswith("'"):
        return character(word)
    if word.startswith("@"):
        return Argument(word, content=bytes(size_of(word[1:])))
    if word.startswith("&"):
        return named(word)
    if mark and kind in READERS:
        return READERS[kind](word, rest)
    return Argument(word, number=number_of(word, 8))


# ---- Numbers ---------------------------------------------------------------------------------------------

def number_of(word, size):
    """A number of so many bytes, signed or not."""
    found = re.fullmatch(r"(-?)(?:0[xX]([0-9a-fA-F]{1,40})|([0-9]{1,40}))", word)
    if not found:
        raise Fault("neither a number nor another form of an argument; ia64 call --help lists them")
    number = int(found[2], 16) if found[2] else int(found[3])
    number = -number if found[1] else number
    if not -(1 << 8 * size - 1) <= number < 1 << 8 * size:
        raise Fault(f"{word} is no number of {size} bytes")
    return number & (1 << 8 * size) - 1


def size_of(word):
    try:
        number = number_of(word, 8)
    except Fault:
        number = 0
    if not 1 <= number <= MOST_BYTES:
        raise Fault(f"a buffer has 1 to {MOST_BYTES:,} bytes, as @64")
    return number


def character(word):
    text = escaped(quoted(word, "'"))
    if len(text) != 1:
        raise Fault("a character between quotes is one byte")
    return Argument(word, number=text[0])


def named(word):
    if not word[1:]:
        raise Fault("behind & stands the name of a variable or a function")
    return Argument(word, symbol=word[1:])


# ---- Bytes -----------------------------------------------------------------------------------------------

ESCAPES = {"n": b"\n", "t": b"\t", "r": b"\r", "0": b"\0", "a": b"\a", "b": b"\b", "f": b"\f", "v": b"\v", "e": b"\x1b",
           "\\": b"\\", '"': b'"', "'": b"'"}


def quoted(word, mark):
    if len(word) < 2 or not word.endswith(mark):
        raise Fault(f"the closing {mark} is missing")
    return word[1:-1]


def escaped(text):
    """The bytes of a text with the escapes of C."""
    found = []
    for part in re.findall(r"\\x[0-9a-fA-F]{1,2}|\\.?|[^\\]+", text, re.S):
        if part[0] != "\\":
            found.append(raw(part))
        elif part[1:2] == "x" and part[2:]:
            found.append(bytes([int(part[2:], 16)]))
        elif part[1:] in ESCAPES:
            found.append(ESCAPES[part[1:]])
        else:
            raise Fault(f"{printable(part)} is no escape")
    return b"".join(found)


def raw(text):
    """The bytes of a word as they were given."""
    return text.encode("utf-8", "surrogateescape")


def text_argument(word, content):
    return sized(Argument(word, content=content + b"\0", is_text=True))


def plain_text(word, rest):
    return text_argument(word, raw(rest))


def hexadecimal(word, rest):
    digits = rest.replace("_", "")
    if not re.fullmatch(r"([0-9a-fA-F]{2})+", digits):
        raise Fault("behind hex: stand pairs of hexadecimal digits, as hex:00ff2a")
    return sized(Argument(word, content=bytes.fromhex(digits)))


def numbers(unit):
    """The reader of numbers of so many bytes each."""
    def read(word, rest):
        content = b"".join(number_of(part, unit).to_bytes(unit, "little") for part in rest.split(","))
        return sized(Argument(word, content=content, unit=unit))
    return read


def from_file(word, rest):
    content = read_file(rest)
    if not content:
        raise Fault("the file is empty")
    return sized(Argument(word, content=content))


def sized(argument):
    if len(argument.content) > MOST_BYTES:
        raise Fault(f"it has {len(argument.content):,} bytes, and a buffer may have {MOST_BYTES:,}")
    return argument


READERS = {"str": plain_text, "hex": hexadecimal, "file": from_file, **{f"data{unit}": numbers(unit) for unit in (1, 2, 4, 8)}}
