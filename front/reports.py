"""Answers on files, and these as lines. An answer is made of rows, which can be written as soon as they are known, between a head
and a tail, in this form and in others (`documents`)."""

import re
from collections import Counter
from typing import Dict, List, NamedTuple, Optional, Tuple

from front import gnu, messages
from front.files import File
from front.gnu import Source
from front.judging import ACCEPTED, MAPPED, NOT_JUDGED, UNKNOWN, VIOLATED, Verdict
from front.messages import Severity


class Finding(NamedTuple):
    """One message on a file, with where it is: the line of a source, or None; its origin, the object with its section and offset,
    or nothing; and the function's name, or nothing. `rule` is that which is broken, if one is."""
    severity: Severity
    source: Optional[Source]
    origin: str
    function: str
    text: str
    rule: str = ""
    is_further: bool = False           # a note that belongs to the error before it

    def line(self):
        """The line as compilers print it."""
        function = f"{self.function}: " if self.function else ""
        if self.source and self.origin:
            return f"{self.source}: {self.severity.value}: {self.origin} {function}{self.text}"
        return f"{self.source or self.origin}: {self.severity.value}: {function}{self.text}"


OFFSETS = re.compile(r" ?\(?[+-]0x[0-9a-f]+ slot \d\)?|\+0x[0-9a-f]+(?=\))|:\d+:\d+$")


def known_by(line):
    """What an error is known by in a baseline, by its line: the file, the section, the function and the text, but not the line
    of the source and the offsets, which change with each edit."""
    left, error, right = line.partition(f": {Severity.ERROR.value}: ")
    if not error:
        return None
    placed = re.match(r"(\S*\([^()]*\+0x[0-9a-f]+\)) (.*)", right)
    place, text = placed.groups() if placed else (left, right)
    return OFFSETS.sub("", place), OFFSETS.sub("", text)


class Answer(NamedTuple):
    """What is known of a file: its verdicts, or what is found in a program of the proved program's own form."""
    file: File
    verdicts: List[Verdict]
    findings: List[Finding]
    further: Dict[tuple, str]          # texts of slots that the proved program doesn't list
    lines: Dict[Tuple[int, int, int], Source]
    word: str = ""                     # the verdict on a text or an image
    more: int = 0                      # how many violations of it there are beside those that are listed


def code_answer(file, verdicts, options):
    """The answer on a file of code, with the lines of its source where they are known."""
    further = gnu.slot_texts(slot for verdict in verdicts for slot in messages.wanted_texts(verdict, options.verbose))
    rows = [(verdict, message) for verdict in verdicts
            for message in messages.messages(verdict, messages.Texts(verdict, further), options.verbose)]
    locations = [(verdict.function.section.index, *message.line_of) for verdict, message in rows]
    locations += [(verdict.function.section.index, verdict.function.offset(place[0]), place[1]) for verdict in verdicts
                  for violation in verdict.violations for place in violation[2:]] if options.format != "lines" else []
    lines = source_lines(file, list(dict.fromkeys(locations)))
    findings = [Finding(message.severity, lines.get((verdict.function.section.index, *message.line_of)),
                        f"{file.label}({verdict.function.section.name}{message.offset:+#x})", verdict.function.name,
                        message.text, message.rule) for verdict, message in rows]
    if not verdicts:
        findings.append(Finding(Severity.WARNING, None, file.label, "", f"{NOT_JUDGED}: no function is in it", messages.UNJUDGED))
    if options.verbose and file.reading:
        findings.insert(0, Finding(Severity.NOTE, None, file.label, "", f"judged as {file.reading}"))
    return Answer(file, verdicts, findings, further, lines)


def source_lines(file, locations):
    """The lines of its source of locations in a file of code, as far as they are known."""
    known = {location: Source(file.label, line) for location, line in zip(locations, map(file.code.line, locations)) if line}
    return known or gnu.source_lines(file.data, file.code, locations)


class Counts:
    """How many functions and programs there are of each verdict, why some aren't judged, how many errors a baseline knows, and
    how many files have no function."""

    def __init__(self):
        self.verdicts, self.reasons = Counter(), Counter()
        self.stood_in, self.unlooked, self.errors, self.known, self.bare = 0, 0, 0, 0, 0
        self.faults: List[str] = []

    def add(self, answer):
        self.faults += [f"{answer.file.label}: {answer.file.fault}"] if answer.file.fault is not None else []
        self.errors += sum(finding.severity is Severity.ERROR for finding in answer.findings) + answer.more
        self.errors += sum(verdict.total - len(verdict.violations) for verdict in answer.verdicts if not verdict.faults)
        self.bare += answer.file.fault is None and not answer.word and not answer.verdicts
        if answer.word:
            self.verdicts[answer.word] += 1
        for verdict in answer.verdicts:
            self.verdicts[verdict.word] += 1
            self.stood_in += verdict.word != NOT_JUDGED and bool(verdict.stood_in)
            self.unlooked += verdict.word != NOT_JUDGED and any(what.startswith(MAPPED) for what in verdict.unlooked)
            if verdict.word == NOT_JUDGED:
                self.reasons[self.reason(verdict, answer)] += 1

    def add_all(self, others):
        self.verdicts += others.verdicts
        self.reasons += others.reasons
        self.stood_in += others.stood_in
        self.unlooked += others.unlooked
        self.faults += others.faults
        self.errors += others.errors
        self.known += others.known
        self.bare += others.bare

    @staticmethod
    def reason(verdict, answer):
        """Why a function isn't judged, in the words that others share with it."""
        if verdict.faults:
            return verdict.faults[0].reason
        first = verdict.unlisted[0]
        said = messages.said_unlisted(first, messages.Texts(verdict, answer.further))
        if said.startswith("word "):
            said = "a word of no instruction"
        return said if first.slot is None or first.why == UNKNOWN else f"{said}: {first.why}"

    def lines(self):
        """The last lines of an answer."""
        if self.reasons:
            yield "not judged, by the first reason:"
            for reason, count in sorted(self.reasons.items(), key=lambda row: (-row[1], row[0])):
                yield f"{count:7} {reason}"
        unlooked = f", in {self.unlooked} of which not all registers are looked at" if self.unlooked else ""
        stood_in = f" ({self.stood_in} of these functions with stand-ins{unlooked})" if self.stood_in else ""
        if self.known:
            yield f"{messages.counted(self.known, 'error')} of the baseline left out"
        yield ", ".join(f"{self.verdicts[word]} {word}" for word in (ACCEPTED, VIOLATED, NOT_JUDGED)) + stood_in


# ---- Lines -----------------------------------------------------------------------------------------------

class Lines:
    """The answers as lines, a finding each, and the counts at the end."""

    head = first = between = ""

    @staticmethod
    def rows(answer):
        return [f"{finding.line()}\n" for finding in answer.findings]

    @staticmethod
    def tail(counts):
        return "".join(f"{line}\n" for line in counts.lines())


FORMATS = ("lines", "json", "sarif")


def writer_of(name):
    """How answers are written."""
    if name == "lines":
        return Lines
    from front import documents  # which most calls don't need
    return documents.WRITERS[name]
