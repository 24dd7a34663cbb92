"""Programs of the proved program's own form, texts and images: its answers on them, with the lines and columns of slots."""

import re
import struct
from bisect import bisect_left

from front import flow, ways
from front.code_file import Section
from front.faults import ProgramFault
from front.files import Kind
from front.functions import Function
from front.gnu import Source
from front.judging import ACCEPTED, VIOLATED
from front.program import END, Parts, Refusal
from front.refusals import REFUSAL_OF_TEXT, RefusedInput, directive_at, explained_line, hinted
from front.reports import Answer, Finding
from front.rules import RULES
from front.texts import lines_of_text, parts_of, slots_of_text, without_stop
from front.messages import Severity, counted


class Refused(Exception):
    """A text or an image that the program refuses: the answer to it, and whether it is a directive that is refused, as those
    for the GNU assembler are."""

    def __init__(self, answer, is_at_directive, line=0):
        super().__init__(answer.file.fault)
        self.answer, self.is_at_directive, self.line = answer, is_at_directive, line

    def knows_less(self, none):
        """Whether the reason why a source isn't read tells more than this refusal: where the text is one of directives, or the
        source is read further, or its reason at the line is of something that the assembler knows."""
        return self.is_at_directive or (none.line, none.is_known) > (self.line, False)


def checked(file, program, verbose=False):
    """The answer on a text or an image; a refused one comes as `Refused`."""
    status, text = program.call(["check"], file.data)
    if status == 3:
        raise refused(file, text.rstrip("\n"), program)
    total, broken = program.verdict(text)
    built = Image(file, program)
    found = ways.ways(built.ask, built.code, broken) if broken and total == len(broken) else {}
    excused = ways.excused(built.ask, built.code, broken) if verbose and total == len(broken) else []
    calls = ways.calls(built.ask, built.code, broken) if verbose and total == len(broken) else {}
    slots = slots_of_text(file.data) if file.kind is Kind.TEXT and (broken or excused) else None
    if file.kind is Kind.TEXT:
        findings = list(text_findings(file, slots, broken, found, excused, calls))
    else:
        findings = list(image_findings(file, broken, found, excused, calls, program))
    if verbose and not total:
        findings.append(Finding(Severity.NOTE, None, file.label, "", ACCEPTED))
    findings += coverage(file, built, slots)
    if total > len(broken):
        findings.append(Finding(Severity.NOTE, None, file.label, "", counted(total - len(broken), "more violation")))
    return Answer(file, [], findings, {}, {}, VIOLATED if total else ACCEPTED, total - len(broken))


def refused(file, said, program=None):
    """The refusal of a text or an image, in the program's words and in more."""
    found = re.fullmatch(REFUSAL_OF_TEXT, said)
    if found:
        said_line = explained_line(found[2], file.data, int(found[1]), program)
        finding = Finding(Severity.ERROR, Source(file.label, int(found[1])), "", "",
                          f"refused, {hinted(said_line, file.path, file.data)}", "refused")
    else:
        said_image = hinted(str(RefusedInput(said, file.data)), file.path, file.data)
        finding = Finding(Severity.ERROR, None, file.label, "", said_image, "refused")
    file.fault = said
    return Refused(Answer(file, [], [finding], {}, {}), bool(directive_at(file.data, said)), int(found[1]) if found else 0)


def not_assembled(file, lines):
    """The answer on a source that the GNU assembler refuses: what it says of each line."""
    found = [re.fullmatch(r".*?:(\d+): (Error|Warning): (.*)", line) for line in lines]
    severities = {"Error": Severity.ERROR, "Warning": Severity.WARNING}
    findings = [Finding(severities[row[2]], Source(file.label, int(row[1])), "", "", f"the GNU assembler: {row[3]}", "refused")
                for row in found if row]
    file.fault = "the GNU assembler refuses it"
    return Answer(file, [], findings, {}, {})


def unread(file, none):
    """The answer on a source that isn't read, with the line and the reason."""
    file.fault = f"line {none.line}: {none.why}"
    return Answer(file, [], [Finding(Severity.ERROR, Source(file.label, none.line), "", "",
                                     f"not read without the GNU assembler: {none.why}", "refused")], {}, {})


def coverage(file, built, slots):
    """A note where walks miss some bundles of a program: its verdict says nothing of these. The slots of a text are found where
    they aren't known yet."""
    if not flow.may_miss(built.bundles):
        return
    function = function_of(built)
    walked = flow.walks(function).walked
    missed = flow.off_walks(function, walked)
    if missed:
        slots = slots or (slots_of_text(file.data) if file.kind is Kind.TEXT else [])
        at = slots[missed[0]][0].line if missed[0] < len(slots) and slots[missed[0]] else None
        where = f"is bundle {missed[0]}" if at is None else f"begins here, bundle {missed[0]}"
        yield Finding(Severity.NOTE, Source(file.label, at) if at else None, "" if at else file.label, "",
                      f"{sum(walked)} of {len(walked)} bundles are on a walk; the first that isn't {where}")


def stops_off_walks(data, program):
    """The numbers, from 0, of the lines of a text whose stops end groups of bundles on no walk: those of the bundles, and the
    first stop behind each that has none at its end. Where the bundles make no program the answer is None."""
    status, image = program.raw(["build"], data)
    slots = slots_of_text(data) if status == 0 else []
    built = Parts(image) if status == 0 else None
    if built is None or len(slots) != len(built.code) // 16 or not all(slots):
        return None
    lines, kept, function = lines_of_text(data), set(), function_of(built)
    stops = [number for number, line in enumerate(lines) if without_stop(parts_of(line)[0])[1]]
    for index in flow.off_walks(function, flow.walks(function).walked):
        first, last = slots[index][0].line - 1, slots[index][-1].line - 1
        kept.update(stops[bisect_left(stops, first):bisect_left(stops, last) + 1])
    return frozenset(kept)


def function_of(parts):
    """The program as a function, for its walks."""
    section = Section(0, "", 0, len(parts.code), True, True)
    return Function(section, 0, section.size, "", bundles=parts.bundles, entries=dict.fromkeys(parts.entries, "declared"))


class Image(Parts):
    """The image of a program, whose bundles can be changed."""

    def __init__(self, file, program):
        self.program = program
        super().__init__(file.data if file.kind is Kind.IMAGE else program.raw(["build"], file.data)[1])

    def ask(self, code):
        """What a check answers of the program with these bundles, and an end bundle behind them, where those branches lead that
        `ways` turns away. The image is of version 2, which has room for one more."""
        count = struct.pack("<I", len(code) // 16 + 1)
        return self.program.check(b"IA64IMG2" + count + self.head[12:] + code + END.packed() + self.rest)


def text_findings(file, slots, broken, found, excused, calls):
    """A message at the later slot of each pair, and a note at the earlier one. Where a pair shares its slots with a loop's
    edge, the later one in the group may stand before it in the text."""
    def slot(place):
        try:
            return slots[place[0]][place[1]]
        except IndexError:
            raise ProgramFault(f"the slots of {file.label} aren't where they were looked for") from None

    def said_line(place):
        return f"line {slot(place).line}"

    def finding(severity, at, text, rule="", is_further=False):
        return Finding(severity, Source(file.label, at.line, at.column), "", "", text, rule, is_further)

    for row in broken:
        first, second = slot(row.first), slot(row.second)
        only = ways.said(found.get(row, ()), said_line) + ways.said_calls(calls.get(row, ()), said_line)
        said = said_pair(row, first.text, second.text)
        yield finding(Severity.ERROR, second, f"{row.rule} {row.resource}: {said}{only}", row.rule)
        yield finding(Severity.NOTE, first, f"'{first.text}' is here", is_further=True)
    for row in excused:
        first, second = slot(row.first), slot(row.second)
        yield finding(Severity.NOTE, second, f"excused by predicates: {row.rule} {row.resource}: "
                                             f"{said_pair(row, first.text, second.text)}, in line {first.line}")


def said_pair(row, first, second):
    """What a pair of slots does, by their texts."""
    return RULES[row.rule].of_text.format(f"'{first}'", f"'{second}'")


def image_findings(file, broken, found, excused, calls, program):
    """A message for each pair, with the texts of its slots and their places."""
    rows = program.listing(file.data) if broken or excused else []
    if isinstance(rows, Refusal):
        raise ProgramFault(f"{file.label} is checked and not listed")

    def pair(row):
        first, second = (f"'{rows[bundle][slot]}' ({bundle}.{slot})" for bundle, slot in (row.first, row.second))
        return f"{row.rule} {row.resource}: {first} and {second} are in one group"

    for row in broken:
        only = ways.said(found.get(row, ()), "{0[0]}.{0[1]}".format) + ways.said_calls(calls.get(row, ()), "{0[0]}.{0[1]}".format)
        yield Finding(Severity.ERROR, None, file.label, "", pair(row) + only, row.rule)
    for row in excused:
        yield Finding(Severity.NOTE, None, file.label, "", f"excused by predicates: {pair(row)}")
