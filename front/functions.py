"""The functions of a file of code, cut out.

A function is told by a symbol of a function; where no symbol tells one, by a table for unwinding; and code that neither covers
is taken as a function that is named by its section and offset. No two functions that are judged have a byte in common.
"""

from bisect import bisect_right
from dataclasses import dataclass, field
from typing import Dict, List, Tuple

from front.bundle import PADDING, Bundle, split_all
from front.code_file import Rank, Section, Symbol
from front.faults import Why, printable

# How many bundles and declared entries an image of version 2 has room for.
MOST_BUNDLES, MOST_ENTRIES = 32768, 1024


@dataclass
class Function:
    """A function of a file: from a function symbol on, or what a table for unwinding names, or bytes of code that neither
    covers.

    A function symbol inside another function is one more entry of that, and isn't judged by itself.
    """
    section: Section
    start: int
    size: int
    name: str
    names: List[str] = field(default_factory=list)               # of all function symbols at its start
    faults: List[Why] = field(default_factory=list)              # why it isn't judged
    bundles: List[Bundle] = field(default_factory=list)          # its branches settled
    code: bytearray = field(default_factory=bytearray)           # the same as bytes
    given: Dict[int, Bundle] = field(default_factory=dict)       # of bundles that were replaced those of the file
    entries: Dict[int, str] = field(default_factory=dict)        # declared ones: the bundle, and why it is one
    outside: Dict[Tuple[int, int], str] = field(default_factory=dict)   # slots that lead out of it, and where to
    texts: Dict[Tuple[int, int], str] = field(default_factory=dict)     # of slots outside the profile, where a source has them
    has_odd_relocation: bool = False                             # whether one points into a bundle of it

    @property
    def end(self):
        return self.start + self.size

    @property
    def count(self):
        """How many bundles it has."""
        return len(self.bundles)

    def replace(self, index, bundle):
        self.given.setdefault(index, self.bundles[index])
        self.bundles[index] = bundle
        self.code[16 * index:16 * index + 16] = bundle.packed()

    def offset(self, bundle):
        return self.start + 16 * bundle

    def outside_name(self, index, slot):
        """The name of what a slot leads to outside of it."""
        return self.outside.get((index, slot), "outside")


class Functions:
    """The functions of a file, to be found by what stands in them."""

    def __init__(self, functions):
        self.rows = {}
        for function in functions:
            self.rows.setdefault(function.section.index, []).append(function)
        self.starts = {index: [function.start for function in row] for index, row in self.rows.items()}

    def at(self, location):
        """The function that has a location, or None."""
        if location is None or location[0] not in self.rows:
            return None
        number = bisect_right(self.starts[location[0]], location[1]) - 1
        function = self.rows[location[0]][number] if number >= 0 else None
        return function if function and location[1] < function.end else None

    def name(self, location):
        """What stands there, by the name of its function."""
        function = self.at(location)
        return plus(function.name, location[1] - function.start) if function else None


def plus(name, offset):
    return name if offset == 0 else f"{name}{offset:+#x}"


def functions_of(file):
    """The functions of a file with their bundles."""
    symbols, functions = symbols_by_section(file), []
    for section in file.sections:
        if section.is_code and section.size > 0:
            content = file.content(section)
            found = functions_of_symbols(section, content, symbols.get(section.index, {}))
            found = sorted(found + uncovered(section, content, found), key=lambda function: function.start)
            for function, following in zip(found, found[1:] + [None]):
                cut_out(function, content, following.start if following else section.size)
            functions += found
    return functions


def symbols_by_section(file):
    """The symbols of functions by section and offset. What a table for unwinding names is one without a name, where no
    symbol stands."""
    found = {}
    for symbol in file.symbols():
        if symbol.is_function:
            found.setdefault(symbol.location[0], {}).setdefault(symbol.location[1], []).append(symbol)
    for stretch in file.stretches():
        symbol = Symbol("", Rank.LOCAL, (stretch.section, stretch.start), stretch.end - stretch.start, True)
        there = found.setdefault(stretch.section, {}).setdefault(stretch.start, [symbol])
        if not any(other.size for other in there):
            there[:] = [other._replace(size=symbol.size) for other in there]
    return found


def functions_of_symbols(section, content, symbols):
    """The functions of a section that have symbols, given by their offsets."""
    found, starts = [], sorted(symbols)
    for start, following in zip(starts, starts[1:] + [section.size]):
        rows = sorted(symbols[start], key=lambda symbol: symbol.rank)
        names = list(dict.fromkeys(symbol.name or f"{section.name}+{start:#x}" for symbol in rows))
        size = max(symbol.size for symbol in rows)
        if found and not found[-1].faults and start < found[-1].end:
            declare_inner(found[-1], start, names[0])
            if start + size <= section.size:
                found[-1].size = max(found[-1].end, start + size) - found[-1].start
                continue
        if size == 0 and 0 <= start < section.size:
            size = trimmed(content, start, min(following, section.size))[1] - start
        found.append(Function(section, start, size, names[0], names))
        if not 0 <= start < section.size:
            found[-1].faults.append(Why("its symbol points out of the section",
                                        f"its symbol points out of the section, which has {section.size:#x} bytes"))
        elif start + size > section.size:
            said = f"cut off: it has {size:#x} bytes, and the section ends at +{section.size:#x}"
            found[-1].faults.append(Why("cut off", said))
    return found


def declare_inner(function, start, name):
    """Declares the location of a function symbol inside a function as an entry of it."""
    if start % 16 == function.start % 16:
        function.entries[(start - function.start) // 16] = f"function symbol {name}"
    else:
        said = f"the symbol {name} inside it, {start:+#x}, is no bundle of it"
        function.faults.append(Why("a symbol inside it is no bundle", said))


def uncovered(section, content, found):
    """The code of a section that no function symbol covers, other than padding."""
    gaps, covered = [], 0
    for start, end in [(function.start, function.end) for function in found] + [(section.size, section.size)]:
        first, last = trimmed(content, -(-covered // 16) * 16, min(max(start, 0), section.size), both=True)
        if first < last:
            gaps.append(Function(section, first, last - first, f"{section.name}+{first:#x}"))
        covered = max(covered, min(end, section.size))
    return gaps


def trimmed(content, start, end, both=False):
    """A range of a section without the padding at its end (and its start): whole bundles of nops, and zeros."""
    first, last = start, end
    while both and content[first:first + 16] in PADDING and first + 16 <= last:
        first += 16
    if not any(content[last - last % 16:last]):
        last -= last % 16
    while last % 16 == 0 and last - 16 >= first and content[last - 16:last] in PADDING:
        last -= 16
    return (first, last) if both or first < last else (start, end)


def cut_out(function, content, following):
    """Takes a function's bundles out of its section, and says why it can't be judged where it can't. Its branches tell of
    other functions even then, as far as the start of the one that follows."""
    section, count = function.section, -(-function.size // 16)
    if function.start >= 0 and function.start % 16 == 0:
        last = min(function.end, len(content), following if function.faults else function.end)
        function.code = bytearray(content[function.start:last - (last - function.start) % 16])
        function.bundles = split_all(function.code)
    why = why_not(function, section, count) if not function.faults else None
    if why:
        function.faults.append(why)


def why_not(function, section, count):
    """Why a function can't be judged for its start and its size, or None."""
    if not section.is_stored:
        return Why("its section has no bytes in the file", "its section has no bytes in the file")
    if function.start % 16 or section.address % 16:
        return Why("its start isn't a multiple of 16", f"its start, {function.start:+#x}, isn't a multiple of 16")
    if function.size == 0:
        return Why("it has no bytes", "it has no bytes")
    if function.size % 16:
        return Why("cut off", f"cut off: its last bundle, {function.end & ~15:+#x}, has {function.size % 16} bytes")
    if count >= MOST_BUNDLES:
        return Why("too many bundles", f"{count} bundles, and it may have {MOST_BUNDLES - 1}")
    return None


# ---- Names -----------------------------------------------------------------------------------------------

# So many names are told of those that are near one; where none is, of all; and where none is wanted.
MOST_NEAR, MOST_NAMES, MOST_LISTED = 3, 10, 100


def chosen(functions, names):
    """The functions with these names, or all of them without one, and what is said of each name that none has."""
    known = {name for function in functions for name in (function.name, *function.names)}
    missing = [no_function(name, known) for name in names if name not in known]
    return [function for function in functions if not names or set(names) & {function.name, *function.names}], missing


def no_function(wanted, names):
    """What is said where none of the functions with these names has the one that is wanted, or none is wanted."""
    from difflib import get_close_matches
    most = MOST_NAMES if wanted else MOST_LISTED
    near = get_close_matches(wanted or "", names, MOST_NEAR, 0.6)
    shown = near or sorted(names)[:most]
    more = ", .." if not near and len(names) > most else ""
    has = f"it has {', '.join(map(printable, shown))}{more}" if shown else "it has none"
    return f"no function {printable(wanted)}; {has}" if wanted is not None else f"no FUNCTION is given; {has}"
