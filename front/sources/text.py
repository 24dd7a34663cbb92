"""The program that a source says: its bundles by sections, where its names are, and the text of the bundles."""

import re
from typing import List, NamedTuple, Optional

from front.code_file import Location
from front.faults import Unread
from front.functions import MOST_BUNDLES
from front.program import END_LINES
from front.sources.bundles import Bundle, laid_out, last_slot
from front.sources.instructions import Alignment
from front.sources.operands import Named
from front.sources.reader import Reference
from front.sources.quoting import excerpt
from front.refusals import explained

# The text has an end, a `break`, behind so many bundles, since the program takes no more than 64 without a stop, whatever a
# function has.
STRETCH = 50
END = "end"
MOST = MOST_BUNDLES * STRETCH // (STRETCH + 1) - 1
TAGS = range(-256, 256)


class Code(NamedTuple):
    """A section of code."""
    name: str
    bundles: List[Bundle]


class Program:
    """All bundles of a source, and where its names are. Every branch of the text leads to its end, whatever its target is."""

    def __init__(self, reader):
        self.reader, self.line = reader, max(reader.line, 1)
        self.codes: List[Code] = []
        self.locations = {}               # of names of bundles
        self.inside = {}               # of names of slots inside bundles
        self.ends = {}                 # of functions by their names, where one is known: a location
        for name, code in reader.codes.items():
            if code.items:
                self.lay_out(name, code)
        if not self.codes:
            raise Unread(self.line, "no code stands in it")
        self.symbols = {name: self.own_name(name) for name in [*reader.functions, *reader.ranks, *reader.same]}
        self.sizes = {name: self.size(name, said) for name, said in reader.sizes.items() if isinstance(said, Reference)}
        self.referred = [found for found in map(self.meant, reader.reached) if found]
        self.text, self.lines = self.printed()

    def lay_out(self, name, code):
        """Puts a section behind the others."""
        if code.is_open:
            raise Unread(self.reader.line, "a bundle that isn't closed")
        index = len(self.codes)
        bundles, before = laid_out(code.items)
        if len(bundles) + sum(len(other.bundles) for other in self.codes) > MOST:
            raise Unread(code.items[-1].line, f"more than {MOST:,} bundles")
        for number, bundle in enumerate(bundles):
            for count, (slot, instruction) in enumerate(bundle.slots.items()):
                locations, at = (self.inside, 16 * number + slot) if count else (self.locations, 16 * number)
                locations.update((name, (index, at)) for name, _ in instruction.labels)
        for number, item in enumerate(code.items):
            if isinstance(item, Alignment):
                self.locations.update((name, (index, 16 * before[number])) for name, _ in item.labels)
        self.locations.update((name, (index, 16 * len(bundles))) for name, _ in code.labels)
        for ends in (self.reader.functions, self.reader.sizes):
            self.ends.update((function, (index, 16 * before[end[1]])) for function, end in ends.items() if end and end[0] == name)
        self.codes.append(Code(name, bundles))

    def own_name(self, name):
        """The name that a name was assigned, or itself, and how many bytes behind that it is."""
        path, same, number = [], self.reader.same, 0
        while name in same and len(path) <= len(same):
            path.append((name, number))
            name, further = same[name]
            number += further
        if name in same:
            raise Unread(self.line, f"'{excerpt(path[0][0])}' is another name for itself")
        for other, before in path:
            same[other] = (name, number - before)
        return name, number

    def location(self, name, is_slot=False) -> Optional[Location]:
        """The location that a name names, by whatever other name it was assigned, or None; of a slot inside a bundle only if that
        is wanted."""
        name, number = self.own_name(name)
        location = self.locations.get(name) or is_slot and self.inside.get(name)
        return (location[0], location[1] + number) if location else None

    def is_code(self, name):
        """Whether a name names code, or something that isn't known and is made of a name of code."""
        names, seen = [name], set()
        while names:
            name, _ = self.own_name(names.pop())
            if name == "." or name in self.locations or name in self.inside:
                return True
            names += [part for part in self.reader.parts.get(name, ()) if part not in seen]
            seen.update(self.reader.parts.get(name, ()))
        return False

    def settled(self, value):
        """An expression with the names and numbers in it that others were assigned."""
        found = Named(value.number, {})
        for name, count in value.counts.items():
            own, number = self.own_name(name)
            known = self.reader.numbers.get(own)
            found += Named(number * count, {own: count}) if known is None else (number + known) * count
        return found

    def meant(self, reference):
        """What a reference names, its location and its name, or None where that isn't code. A difference of two names names the
        first one."""
        lost = [name for name in reference.names if ":" in name and name not in self.reader.defined]
        if lost:
            raise Unread(reference.line, f"'{lost[0].split(':')[0]}' names nothing")
        if not any(name != "." and self.is_code(name) for name in reference.names):
            return None
        value = self.settled(reference.value) if reference.value else Named(0, {})
        up, down = ([name for name, count in value.counts.items() if count == sign] for sign in (1, -1))
        is_known = sum(map(abs, value.counts.values())) == len(up + down) and not {*up} & {*self.reader.parts}
        if is_known and not up and down:
            return None
        if not is_known or len(up) != 1 or len(down) > bool(value.number == 0):
            raise Unread(reference.line, f"'{excerpt(reference.said)}', which names code")
        location = self.location(up[0], True)
        return ((location[0], location[1] + value.number), up[0].split(":")[0]) if location else None

    def size(self, name, said):
        """The size that a function was given, a number or the distance of two labels, or None for what is none."""
        if not self.location(name):
            return None
        value = self.settled(said.value) if said.value else Named(0, {".": 1})
        locations = [self.location(label) if abs(count) == 1 else None for label, count in value.counts.items() if count]
        if None in locations or sum(value.counts.values()) or len({location[0] for location in locations}) > 1:
            raise Unread(said.line, f"'{excerpt(said.said)}' as the size of '{excerpt(name)}'")
        return value.number + sum(count * self.location(label)[1] for label, count in value.counts.items() if count)

    def numbered(self):
        """Each bundle with its section and its number there."""
        for section, code in enumerate(self.codes):
            for number, bundle in enumerate(code.bundles):
                yield section, number, bundle

    # ---- The text

    def printed(self):
        """The text of all bundles, one section behind the other, and of each of its lines that of the source."""
        rows = []
        for count, (section, number, bundle) in enumerate(self.numbered()):
            rows += [(line, 0) for line in END_LINES] if count and count % STRETCH == 0 else []
            rows += self.bundle_rows(bundle, (section, 16 * number))
        rows += [(line, 0) for line in (f"{END}:", *END_LINES)]
        return "".join(f"{text}\n" for text, _ in rows).encode("latin-1"), [line for _, line in rows]

    def bundle_rows(self, bundle, location):
        yield f"{{ .{bundle.template}", bundle.line
        for slot in range(last_slot(bundle.template) + 1):
            instruction = bundle.slots.get(slot)
            stop = " ;;" if slot in bundle.stops else ""
            yield (f"  {self.said(instruction, location)}{stop}", instruction.line) if instruction else (f"  nop 0{stop}", 0)
        yield "}", 0

    def said(self, instruction, location):
        """An instruction as it is printed."""
        if instruction.target:
            self.require_bundle(instruction)
        if instruction.word is not None:
            return "nop 0"
        guard = f"({instruction.guard}) " if instruction.guard else ""
        said = f"{guard}{instruction.mnemonic} {instruction.operands}{END if instruction.target else ''}".rstrip()
        if instruction.tag:
            there = self.location(instruction.tag)
            if there is None or there[0] != location[0] or (there[1] - location[1]) // 16 not in TAGS:
                raise Unread(instruction.line, f"the tag '{excerpt(instruction.tag)}' is no bundle near here")
            said += f", {(there[1] - location[1]) // 16}"
        return said

    def refusal(self, said):
        """Why the source can't be read, by what the proved program says of the text."""
        found = re.fullmatch(r"line (\d+): (.*)\n", said)
        if not found:
            return Unread(self.line, f"refused, {said.strip()}")
        return Unread(self.lines[int(found[1]) - 1] or self.line, f"refused, {explained(found[2])}", False)

    def require_bundle(self, instruction):
        """A target that the source lacks is outside of it, and one that it has is a bundle."""
        name, location = instruction.target, self.location(instruction.target)
        if location and location[1] % 16 or location is None and (":" in name or self.own_name(name)[0] in self.inside):
            raise Unread(instruction.line, f"'{excerpt(name.split(':')[0])}' names no bundle")
