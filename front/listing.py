"""Functions of files of code, disassembled: the texts of their slots as the proved program lists them, and of what it doesn't
take as GNU's disassembler does, or as a word.

Functions that are listed together are one text of the program's own form, and a verdict on it is that on each of them. `image`
in front/program.py says why; what it asks for is here too:

- the start of each but the first is a declared entry, as are the entries of the functions;
- an end bundle stands behind a function where a walk falls out of it;
- what branches lead to outside of the functions are labels of an end bundle at the end of the text.

What keeps the program from taking the text is said in a comment, before the function that has it.
"""

import re

from front import flow, gnu, messages, stand_ins
from front.bundle import branches, slots_of, stops_behind
from front.functions import MOST_BUNDLES, MOST_ENTRIES
from front.judging import Unlisted, Verdict
from front.program import END_LINES, batches

# An end bundle, behind a comment.
END = ("// What stands elsewhere isn't looked at.", *END_LINES)

# What a label may be: no register, and not too long. One that is made is shorter, so that a number finds room behind it.
LABEL = re.compile(r"(?!(?:[rpb][0-9]+|rp)$)[A-Za-z_.$][\w.$]{0,62}$", re.A)
LONGEST_MADE = 50

# In which column a comment stands behind a label.
COMMENT_AT = 40


def texts_of(functions, judge):
    """The texts of the slots of each function. So many are asked about at once as an image has room for."""
    for batch in batches(functions, lambda function: (function.count, 0)):
        verdicts = list(map(unjudged, batch))
        judge.list_texts(verdicts)
        further = gnu.slot_texts((verdict.function.bundles[index], slot)
                                 for verdict in verdicts for index, slot in verdict.unread)
        yield from (messages.Texts(verdict, further) for verdict in verdicts)


def unjudged(function):
    """No verdict on a function, but what of it the program doesn't take."""
    verdict = Verdict(function)
    verdict.stood_in = {(index, slot): row for index, bundle in enumerate(function.bundles)
                        for slot, row in stand_ins.rows_of(bundle).items()}
    verdict.unlisted = [Unlisted(index, None, f"reserved template {bundle.template:#04x}")
                        for index, bundle in enumerate(function.bundles) if not bundle.units]
    return verdict


def listings(functions, judge, with_bytes):
    """The lines of each function, and of what stands before the first and behind the last."""
    listing = Listing(functions, with_bytes)
    for number, texts in enumerate(texts_of(functions, judge)):
        yield [*(() if number else listing.lines_before()), *listing.lines_of(number, texts)]
    yield from filter(None, [list(listing.lines_behind())])


# ---- Labels ----------------------------------------------------------------------------------------------

class Labels:
    """The labels of a text. Each is given once, and is the name of what it names where that can be one."""

    def __init__(self):
        self.given, self.numbers = set(), {}

    def give(self, name):
        """A label for what has this name: the name itself, or one like it."""
        if LABEL.match(name) and name not in self.given:
            self.given.add(name)
            return name
        plain = re.sub(r"[^\w.$]", "_", name, flags=re.A)[:LONGEST_MADE]
        if not LABEL.match(plain):
            plain = f"_{plain}"
        number = self.numbers[plain] = self.numbers.get(plain, 0) + 1
        return self.give(f"{plain}_{number}" if plain in self.given else plain)


def with_comment(line, said):
    """A line with a comment behind it, in the column in which they stand."""
    return f"{line.ljust(COMMENT_AT - 1)} // {said}" if said else line


# ---- Functions -------------------------------------------------------------------------------------------

class Listing:
    """Functions as one text: of each the number of its first bundle there, and the labels of its start."""

    def __init__(self, functions, with_bytes):
        self.functions, self.with_bytes = functions, with_bytes
        self.falls_out = [flow.walks(function).falls_out for function in functions]
        self.first, self.count = [], 0
        for function, falls_out in zip(functions, self.falls_out):
            self.first.append(self.count)
            self.count += function.count + falls_out
        self.labels, self.known, self.outside = Labels(), {}, {}
        self.starts = list(map(self.labels_of_start, functions))

    def labels_of_start(self, function):
        """The labels of a function's names. Where an earlier function has a name too, that name stands for the earlier one."""
        labels = {name: self.labels.give(name) for name in dict.fromkeys([function.name, *function.names])}
        for name, label in labels.items():
            self.known.setdefault(name, label)
        return list(labels.values())

    def lines_before(self):
        """Why all of it is no text for `build`, where it is too much."""
        entries = sum(len(function.entries) + 1 for function in self.functions) - 1
        if self.count >= MOST_BUNDLES or entries > MOST_ENTRIES:
            yield not_built(f"it has {self.count:,} bundles and {entries:,} declared entries, and a text {MOST_BUNDLES:,} and "
                            f"{MOST_ENTRIES:,} at most: name some of the functions")

    def lines_of(self, number, texts):
        """The lines of a function: why `build` doesn't take it, its name and place, and its bundles."""
        function, labels = self.functions[number], self.labels_inside(number)
        yield from (f"// `ia64 check` doesn't judge this: {why.said}" for why in function.faults)
        yield from map(not_built, why_not_built(texts))
        if number:
            yield f".entry {labels[0]}"
        named = f"{function.name}, " * bool(function.names and function.name != labels[0])
        yield with_comment(f"{labels[0]}:", f"{named}{function.section.name}{function.start:+#x}, {function.size:#x} bytes")
        yield from (f"{label}:" for label in self.starts[number][1:])
        for index in range(function.count):
            if index and index in labels:
                if index in function.entries:
                    yield with_comment(f".entry {labels[index]}", function.entries[index])
                yield f"{labels[index]}:"
            yield from self.lines_of_bundle(texts, index, labels)
        if self.falls_out[number] and number + 1 < len(self.functions):
            yield from END

    def labels_inside(self, number):
        """The labels of a function's bundles, by their numbers: its name, and `Ln` of bundle n of the text."""
        function = self.functions[number]
        targets = {index + target for index, bundle in enumerate(function.bundles) for _, target in branches(bundle)}
        named = sorted(index for index in targets | {*function.entries} if 0 < index < function.count)
        return {0: self.starts[number][0], **{index: self.labels.give(f"L{self.first[number] + index}") for index in named}}

    def lines_of_bundle(self, texts, index, labels):
        """The lines of a bundle, with its offset and, where they are wanted, its bytes in the file."""
        function = texts.verdict.function
        bundle, place = function.bundles[index], f"// {function.offset(index):+#x}"
        code = f"  {function.given.get(index, function.bundles[index]).packed().hex()}" * self.with_bytes
        if not bundle.units:
            yield f"{place}{code}  reserved template {bundle.template:#04x}"
            return

        def named(slot, to):
            return labels[to] if 0 <= to < function.count else self.label_outside(function.outside_name(index, slot))

        yield "{ ." + f"{bundle.units}  {place}{code}"
        stops = stops_behind(bundle)
        for slot in slots_of(bundle):
            yield f"  {texts.text((index, slot), named)}{' ;;' if slot in stops else ''}"
        yield "}"

    def label_outside(self, name):
        """The label of what is outside of a function and has this name. Another function of the text may be it."""
        if name in self.known:
            return self.known[name]
        if name not in self.outside:
            self.outside[name] = self.labels.give(name)
        return self.outside[name]

    def lines_behind(self):
        """What stands behind the last function: the end bundle, with the labels of what is outside, where it is wanted."""
        if self.outside or self.functions and self.falls_out[-1]:
            comment, *bundle = END
            labels = [with_comment(f"{label}:", name * (name != label)) for name, label in self.outside.items()]
            yield from (comment, *labels, *bundle)


# ---- What build doesn't take -----------------------------------------------------------------------------

def not_built(why):
    return f"// `ia64 build` doesn't take this: {why}"


def why_not_built(texts):
    """Why `build` doesn't take a function: a line, or none."""
    verdict = texts.verdict
    found = [verdict.refusal.said] if verdict.refusal else []
    found += [f"{slot.why} ({verdict.function.offset(slot.bundle):+#x})" for slot in verdict.unlisted]
    found += [f"{messages.said_slot(texts, place)} is outside the profile" for place in verdict.unread]
    return [", and ".join(found[:1] + [f"{len(found) - 1} more"] * (len(found) > 1))] * bool(found)
