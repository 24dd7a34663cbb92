"""The code of a source, as an object file of it would have it: sections, symbols, and what points into code."""

from front.bundle import split
from front.code_file import CodeFile, Rank, Relocation, Section, Symbol
from front.sources.text import STRETCH

# Where the bundles of an image begin that has no entries.
HEAD = 24


class SourceCode(CodeFile):
    """The code of a program, in the image that the proved program makes of its text."""

    def __init__(self, program, image):
        self.program = program
        self.sections, self.contents, at = [], [], 0
        for index, (name, bundles) in enumerate(program.codes):
            self.contents.append(b"".join(with_outside(bundle_of(image, at + number), bundle.slots)
                                          for number, bundle in enumerate(bundles)))
            self.sections.append(Section(index, name, 0, 16 * len(bundles), True, True))
            at += len(bundles)

    def content(self, section):
        return self.contents[section.index]

    def symbols(self):
        """Functions, by whatever names they have, and the labels that the linker sees."""
        program, reader = self.program, self.program.reader
        for name, (function, _) in program.symbols.items():
            is_function, is_sized = reader.taken.get(name, (function in reader.functions, True))
            location, is_function = program.location(name), is_function or name in reader.functions
            rank = reader.ranks.get(function if name in reader.versions else name, Rank.LOCAL)
            if location and (is_function or rank is not Rank.LOCAL):
                yield Symbol(name, rank, location, self.size(name, function if is_sized else name), is_function)

    def size(self, name, function):
        """The size of a function that was given one or whose end is known, or 0."""
        for given in (name, function):
            if self.program.sizes.get(given) is not None:
                return self.program.sizes[given]
        end, location = self.program.ends.get(function), self.program.location(function)
        return end[1] - location[1] if end and end[0] == location[0] and end[1] > location[1] else 0

    def relocations(self):
        """Those of all branches, and of the names that are named elsewhere."""
        for section, number, bundle in self.program.numbered():
            for slot, instruction in bundle.slots.items():
                if instruction.target:
                    location = self.program.location(instruction.target)
                    yield Relocation((section, 16 * number + slot), True, location, instruction.target.split(":")[0])
        for location, name in self.program.referred:
            yield Relocation(location, False, location, name)

    def texts(self, function):
        """The texts of a function's slots outside the profile."""
        first = function.start // 16
        bundles = self.program.codes[function.section.index].bundles[first:first + function.count]
        return {(index, slot): instruction.text for index, bundle in enumerate(bundles)
                for slot, instruction in bundle.slots.items() if instruction.word is not None}

    def line(self, location):
        """The line at which a slot stands. A `nop` that was added has that of the slot before it in its bundle, or of the next
        one; what fills the room up to an alignment has none."""
        section, offset, slot = location
        bundles = self.program.codes[section].bundles
        slots = bundles[offset // 16].slots if offset // 16 < len(bundles) else {}
        before = [at for at in slots if at <= slot]
        return slots[max(before) if before else min(slots)].line if slots else None


def with_outside(code, slots):
    """The bytes of a bundle with the instructions outside the profile that stand in its slots."""
    for slot, instruction in slots.items():
        if instruction.word is not None:
            bundle = split(code)
            code = bundle.with_word(2 if bundle.units[slot] == "l" else slot, instruction.word).packed()
    return code


def bundle_of(image, number):
    """A bundle of the program, whose text has an end behind each stretch of them."""
    at = HEAD + 16 * (number + number // STRETCH)
    return image[at:at + 16]
