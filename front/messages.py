"""What is said of a function's verdict, as compilers say it: an error for each violation, a warning where a function isn't
judged, and notes."""

from enum import Enum
from typing import NamedTuple, Tuple

from front import ways
from front.bundle import branches
from front.judging import NOT_JUDGED, UNKNOWN
from front.rules import RULES
from front.isolation import TABLES


class Severity(Enum):
    ERROR = "error"
    WARNING = "warning"
    NOTE = "note"


# By which rule a function isn't judged, beside those of groups.
UNJUDGED = "not-judged"


class Message(NamedTuple):
    """What is said: the offset that is shown, the offset and the slot whose source line is shown, and by which rule."""
    severity: Severity
    offset: int
    line_of: Tuple[int, int]
    text: str
    rule: str = ""


class Texts:
    """The texts of a function's slots: those that the proved program lists, and else GNU's, or the word."""

    def __init__(self, verdict, further):
        self.verdict, self.further = verdict, further
        self.last = None, {}

    def bundle(self, index):
        return self.verdict.function.bundles[index]

    def text(self, place, named=None):
        """A slot's text, with its target as an offset or as the name of what is there; or by `named`, which gives the name of
        the target of a slot, the bundle with this number from the function's start."""
        index, slot = place
        texts = self.verdict.texts
        own = texts[index][slot] if texts and slot < len(texts[index]) else None
        own = own or self.verdict.function.texts.get(place)
        bundle = self.bundle(index)
        text = own or self.further.get((bundle, slot)) or f"word {bundle.words[2 if bundle.units[slot] == 'l' else slot]:#013x}"
        target = self.targets(index).get(slot)
        if target is None or text.startswith("word "):
            return text
        name = named(slot, index + target) if named else self.target(index, slot, index + target)
        if own:
            return text[:text.rindex("L")] + name
        mark = f"{16 * target:+#x}"
        return text.replace(mark, name, 1) if text.endswith(mark) or f"{mark}," in text else text

    def targets(self, index):
        """By slots, where a bundle's branches lead to, in bundles. One bundle after the other is asked for."""
        if self.last[0] != index:
            self.last = index, dict(branches(self.bundle(index)))
        return self.last[1]

    def target(self, index, slot, to):
        """The target of a slot, a bundle from the function's start: its offset, or the name of what is outside."""
        function = self.verdict.function
        return f"{function.offset(to):+#x}" if 0 <= to < function.count else function.outside_name(index, slot)


def wanted_texts(verdict, verbose):
    """The slots of a function whose texts the proved program doesn't give: each as its bundle and slot."""
    places = {place for pair in verdict.violations + verdict.excused for place in (pair.first, pair.second)}
    wanted = [place for place in verdict.stood_in if place in places or verbose]
    wanted += [(slot.bundle, slot.slot) for slot in verdict.unlisted if slot.slot is not None]
    return [(verdict.function.bundles[index], slot) for index, slot in wanted]


def said_place(function, place):
    return f"({function.offset(place[0]):+#x} slot {place[1]})"


def said_slot(texts, place):
    """A slot's text and place. The one in the end bundle stands for what is behind the function."""
    function = texts.verdict.function
    if place[0] == function.count:
        return f"what is behind the function, at {function.end:+#x},"
    return f"'{texts.text(place)}' {said_place(function, place)}"


def said_violation(violation, texts):
    return said_clash(violation, *(said_slot(texts, place) for place in (violation.first, violation.second)))


def said_clash(violation, first, second):
    """What is said of a violation by what is said of its two slots."""
    return f"{violation.rule} {violation.resource}: {RULES[violation.rule].of_function.format(first, second)}"


def said_ways(verdict, violation):
    def name(place):
        return f"{verdict.function.offset(place[0]):+#x} slot {place[1]}"

    return ways.said(verdict.ways.get(violation, ()), name) + ways.said_calls(verdict.calls.get(violation, ()), name)


def mnemonic(text):
    """That of an instruction's text."""
    tokens = text.split(" ")
    return tokens[1] if tokens[0].startswith("(") and len(tokens) > 1 else tokens[0]


def said_unlisted(unlisted, texts):
    """What isn't taken, by its mnemonic, or its word, or its template."""
    if unlisted.slot is None:
        return unlisted.why
    text = texts.text((unlisted.bundle, unlisted.slot))
    return text if text.startswith("word ") else mnemonic(text)


def said_slot_outside(unlisted, texts):
    """A slot outside the profile by its text and place, and why nothing stands in for it."""
    if unlisted.slot is None:
        return f"{unlisted.why} {said_place(texts.verdict.function, (unlisted.bundle, 0))}"
    place = unlisted.bundle, unlisted.slot
    why = f": {unlisted.why}" if unlisted.why != UNKNOWN else ""
    return f"'{texts.text(place)}' {said_place(texts.verdict.function, place)}{why}"


def counted(count, what):
    return f"{count} {what}{'s' * (count != 1)}"


def qualified(verdict):
    """What a verdict isn't on, or rests on beside the proved program: nothing, or words behind a semicolon."""
    said = [f"{counted(len(verdict.stood_in), 'instruction')} stood in for"] * bool(verdict.stood_in)
    return "".join(f"; {each}" for each in said + [f"not looked at: {what}" for what in verdict.unlooked])


def verdict_messages(verdict, texts, verbose):
    """What is said of a function's verdict."""
    function = verdict.function
    start = function.start
    if verdict.faults:
        said = "; ".join(why.said for why in verdict.faults)
        yield Message(Severity.WARNING, start, (start, 0), f"{NOT_JUDGED}: {said}", UNJUDGED)
    elif verdict.unlisted:
        places = [(function.offset(slot.bundle), slot.slot or 0) for slot in verdict.unlisted]
        first, more = verdict.unlisted[0], len(verdict.unlisted) - 1
        slot = "" if first.slot is None else f" slot {first.slot}"
        text = f"{said_unlisted(first, texts)} at {places[0][0]:+#x}{slot}" + (f", and {more} more" if more else "")
        yield Message(Severity.WARNING, start, places[0], f"{NOT_JUDGED}: {text}", UNJUDGED)
        for slot, place in zip(verdict.unlisted, places) if verbose else []:
            yield Message(Severity.NOTE, place[0], place, f"outside the profile: {said_slot_outside(slot, texts)}")
    elif verbose:
        said = counted(verdict.total, "violation") if verdict.total else "accepted"
        yield Message(Severity.NOTE, start, (start, 0), said + qualified(verdict))
        for place, row in sorted(verdict.stood_in.items()):
            yield Message(Severity.NOTE, function.offset(place[0]), (function.offset(place[0]), place[1]),
                          f"stood in for: '{texts.text(place)}' {said_place(function, place)}")
    for violation in verdict.violations:
        offset = function.offset(violation.second[0])
        yield Message(Severity.ERROR, offset, (offset, violation.second[1]),
                      said_violation(violation, texts) + said_ways(verdict, violation), violation.rule)
    for pair in verdict.excused:
        offset = function.offset(pair.second[0])
        yield Message(Severity.NOTE, offset, (offset, pair.second[1]), f"excused by predicates: {said_violation(pair, texts)}")
    more = verdict.total - len(verdict.violations)
    if more and not verdict.faults:
        yield Message(Severity.NOTE, start, (start, 0), f"{counted(more, 'more violation')}")


def notes(verdict, verbose):
    """What else there is to know of a function."""
    function = verdict.function
    start, entries = function.start, sorted(function.entries.items())
    if not function.names:
        yield start, (start, 0), f"no function symbol covers these {function.size:#x} bytes"
    if verdict.off_walks:
        offsets = [function.offset(index) for index in verdict.off_walks]
        yield start, (offsets[0], 0), (f"{function.count - len(offsets)} of {function.count} bundles are on a walk; "
                                       f"the first that isn't is {offsets[0]:+#x}")
        if verbose:
            yield start, (offsets[0], 0), f"on no walk: {', '.join(f'{offset:+#x}' for offset in offsets)}"
    has_table = any(why in TABLES for why in function.entries.values())
    if len(verdict.indirect) > has_table:
        first = verdict.indirect[0]
        said = "no table of its targets was found" if not has_table else \
            f"{len(verdict.indirect) - 1} more, and perhaps not all tables of their targets were found"
        yield start, (function.offset(first[0]), first[1]), f"an indirect branch {said_place(function, first)}, and {said}"
    if verdict.falls_out:
        yield start, (function.end - 16, 2), f"it falls out of its end, {function.end:+#x}"
    if function.has_odd_relocation:
        yield start, (start, 0), ("a relocation points into a bundle of it: a table of differences, perhaps, whose targets "
                                  "aren't all found")
    if entries and verbose:
        said = ", ".join(f"{function.offset(index):+#x} ({why})" for index, why in entries)
        yield start, (start, 0), f"declared entries: {said}"


def messages(verdict, texts, verbose):
    return [*verdict_messages(verdict, texts, verbose),
            *(Message(Severity.NOTE, *note) for note in notes(verdict, verbose))]
