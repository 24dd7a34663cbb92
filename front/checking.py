"""`check` of files: many at a time, one batch after the other or several side by side, and the answers in their order."""

import sys
from collections import Counter, deque
from dataclasses import replace
from typing import List, NamedTuple

from front import files, gnu, programs, reports
from front.faults import Fault, ProgramFault, Unread
from front.files import Kind
from front.judging import NOT_JUDGED, VIOLATED, Judge
from front.content import read_file
from front.reports import writer_of, known_by

# Statuses: as wanted; a violation; words or files that can't be read, or no answer; and not judged, where that is strict.
DONE, FOUND, WRONG, UNJUDGED = 0, 1, 2, 3

# So many bytes of files are a batch, or so many files.
BATCH_BYTES, BATCH_FILES = 1 << 20, 500


def complain(text):
    print(f"ia64: {text}", file=sys.stderr)


class BatchAnswer(NamedTuple):
    """What is answered on a batch: rows of the answer, counts, and what is said on standard error."""
    rows: List[str]
    counts: reports.Counts
    said: List[str]


def check(options, program):
    """The verdicts on files."""
    writer, counts, number, is_first = writer_of(options.format), reports.Counts(), 0, True
    try:
        known = baseline(options.baseline)
    except Fault as fault:
        complain(f"{options.baseline}: {fault}")
        return WRONG
    for number, given in enumerate(batch_answers(options, program, known), 1):
        clear_progress()
        if number == 1:
            sys.stdout.write(writer.head)
        for line in given.said:
            print(line, file=sys.stderr)
        for row in given.rows:
            sys.stdout.write((writer.first if is_first else writer.between) + row)
            is_first = False
        sys.stdout.flush()
        counts.add_all(given.counts)
        show_progress(number, counts)
    clear_progress()
    sys.stdout.write(("" if number else writer.head) + writer.tail(counts))
    return status(counts, options)


def status(counts, options):
    if counts.faults:
        return WRONG
    if counts.errors > counts.known if options.baseline else counts.verdicts[VIOLATED]:
        return FOUND
    return UNJUDGED if options.strict and (counts.verdicts[NOT_JUDGED] or counts.bare) else DONE


def baseline(path):
    """What the errors of an earlier answer are known by, and how often each is there."""
    text = read_file(path).decode("utf-8", "replace") if path else ""
    return Counter(filter(None, map(known_by, text.splitlines())))


def show_progress(batch, counts):
    """How far the work is, where standard error is a terminal and standard output is none."""
    if sys.stderr.isatty() and not sys.stdout.isatty():
        print(f"\r\033[Kia64: {batch} batches, {sum(counts.verdicts.values())} functions", end="", file=sys.stderr, flush=True)


def clear_progress():
    if sys.stderr.isatty() and not sys.stdout.isatty():
        print("\r\033[K", end="", file=sys.stderr, flush=True)


# ---- Batches ---------------------------------------------------------------------------------------------

def batches(paths):
    """What paths have, in order, so much at a time."""
    batch, size = [], 0
    for path in paths:
        for item in files.items(path):
            batch.append(item)
            size += len(item.data)
            if size >= BATCH_BYTES or len(batch) >= BATCH_FILES:
                yield batch
                batch, size = [], 0
    if batch:
        yield batch


def batch_answers(options, program, known):
    """The answers on all batches, in order. No more of them are under way than there are processes, and as many wait."""
    pool = processes(options.jobs)
    if pool is None:
        for batch in batches(options.files):
            yield answered(batch, options, program, known)
        return
    program.settle()
    with pool:
        waiting = deque()
        for batch in batches(options.files):
            waiting.append(pool.submit(answered, batch, options, program, known))
            if len(waiting) >= 2 * options.jobs:
                yield waiting.popleft().result()
        while waiting:
            yield waiting.popleft().result()


def processes(count):
    """So many processes that share the work; None for one, and where the system has no means for several."""
    if count == 1:
        return None
    from concurrent.futures import ProcessPoolExecutor  # which takes longer to load than most answers
    try:
        return ProcessPoolExecutor(count)
    except (ImportError, OSError):
        return None


def answered(batch, options, program, known):
    """The answer on a batch. Where the program gives none that can be used, each file is asked about by itself."""
    try:
        return answered_whole(batch, options, program, known)
    except ProgramFault as fault:
        if len(batch) == 1:
            return answered_whole([batch[0]._replace(fault=str(fault))], options, program, known)
    whole = BatchAnswer([], reports.Counts(), [])
    for item in batch:
        given = answered([item], options, program, known)
        whole.rows.extend(given.rows)
        whole.said.extend(given.said)
        whole.counts.add_all(given.counts)
    return whole


def answered_whole(batch, options, program, known):
    said, rows, counts = [], [], reports.Counts()
    for answer in answers(batch, options, program, lambda text: said.append(f"ia64: {text}"), said.append):
        if answer.file.fault is not None and not answer.findings:
            said.append(f"ia64: {answer.file.label}: {answer.file.fault}")
        counts.add(answer)
        rows += writer_of(options.format).rows(without_known(answer, known, counts))
    return BatchAnswer(rows, counts, said)


def without_known(answer, known, counts):
    """The answer without the errors that a baseline knows, as often as it knows them, and the notes that belong to these."""
    if not known:
        return answer
    left, new, is_left_out = Counter(), [], False
    for finding in answer.findings:
        key = known_by(finding.line())
        if key is not None:
            left[key] += 1
            is_left_out = left[key] <= known[key]
            counts.known += is_left_out
        if not (is_left_out and (key is not None or finding.is_further)):
            new.append(finding)
    return answer._replace(findings=new)


def answers(batch, options, program, complain_of, say):
    """The answers on a batch, whose functions are judged together."""
    judge = Judge(program, options.exact, options.verbose)
    found = [first_answer(item, options, program, complain_of, say) for item in batch]
    verdicts = iter(judge.judge([function for file in found if isinstance(file, files.File) for function in file.functions]))
    for file in found:
        if not isinstance(file, files.File):
            yield file
        elif file.fault is not None:
            yield reports.Answer(file, [], [], {}, {})
        else:
            own = [next(verdicts) for _ in file.functions]
            judge.list_texts([verdict for verdict in own if verdict.violations or verdict.unlisted or verdict.excused])
            yield reports.code_answer(file, own, options)


def first_answer(item, options, program, complain_of, say):
    """A file of code with its functions, or the answer on a text or an image. A source that is no text is assembled."""
    file = item.read(options.syscalls)
    if file.fault is not None or file.kind is Kind.CODE:
        return file
    try:
        return programs.checked(file, program, options.verbose)
    except programs.Refused as refusal:
        if file.kind is not Kind.TEXT or not files.is_source(item.path):
            return refusal.answer
        if not gnu.installed("as"):
            return read_answer(file, refusal, options, program)
        try:
            return files.assemble(file, item.path, options, complain_of, say)
        except gnu.NotAssembled as none:
            return not_assembled(refusal, none.lines)
        except Fault as fault:
            complain_of(f"{file.label}: {fault}")
            return refusal.answer


def not_assembled(refusal, lines):
    """The answer on what is neither a text nor a source that the GNU assembler takes: what that says of it, behind the refusal of
    the text unless that is only one of a directive."""
    answer = programs.not_assembled(refusal.answer.file, lines)
    own = [] if refusal.is_at_directive else refusal.answer.findings
    return answer._replace(findings=[*own, *answer.findings])


def read_answer(file, refusal, options, program):
    """A source with its functions as it is read without the GNU assembler, or the refusal of the text that it isn't."""
    source = replace(file, fault=None)
    try:
        return files.read_source(source, program, options.syscalls)
    except Unread as none:
        return programs.unread(source, none) if refusal.knows_less(none) else refusal.answer
