"""`call`: the words, and the call as a whole."""

import argparse
import re
import sys

from front import usage
from front.calling import answer as answers
from front.calling import image, linking
from front.calling.arguments import ARGUMENT_FORMS, arguments_of
from front.calling.ends import Names
from front.calling.call_trace import CallTrace
from front.checking import WRONG, complain
from front.content import write_file
from front.faults import Fault, ProgramFault, printable
from front.program import CODE_AT, refusal_of
from front.tracing.command import SHOWN

# The status where the program refuses the image, beside those of `answer`.
REFUSED = 3

# How many groups are run, and how many bytes the stack and a structure have, unless others are asked for.
GROUPS, STACK, LEAST_STACK, MOST_STACK, MOST_STRUCTURE = 1_000_000, 1 << 17, 64, 1 << 20, 1 << 20


def add_options(parser, number):
    """Adds the options of the command; `number` reads a number from one to another."""
    parser.formatter_class = argparse.RawDescriptionHelpFormatter
    parser.usage = f"{parser.prog} [OPTION..] FILE FUNCTION [ARG..]"
    parser.epilog = ARGUMENT_FORMS
    parser.add_argument("file", metavar="FILE",
                        help="an ELF object file of 64 bits, an archive of them, or a source for the GNU assembler")
    parser.add_argument("function", nargs="?", metavar="FUNCTION",
                        help="a function of it, a static one too; where none is given, it is said which there are")
    parser.add_argument("arguments", nargs="*", default=[], metavar="[ARG..]", help="what is passed, by the forms below")
    parser.add_argument("--with", action="append", default=[], dest="more", metavar="FILE",
                        help="one more file of the kinds of FILE, with what the function needs; may stand several times")
    parser.add_argument("-n", type=number(1, usage.GROUP_LIMIT), default=GROUPS, dest="limit", metavar="N",
                        help=f"run at most N groups, by default {GROUPS:,}, at most {usage.GROUP_LIMIT:,}")
    parser.add_argument("--groups", type=number(0, usage.NUMBER_LIMIT), metavar="K",
                        help="run it without a verdict, each group all at once and its writes in the order with the number K")
    parser.add_argument("--struct", type=number(1, MOST_STRUCTURE), default=0, metavar="BYTES",
                        help="the function answers a structure of so many bytes: of up to 32 in ret0 to ret3, of more in memory, "
                             "whose address it gets in r8")
    parser.add_argument("--stack", type=number(LEAST_STACK, MOST_STACK), default=STACK, metavar="BYTES",
                        help=f"of the memory stack, a multiple of 16, by default {STACK:,}")
    parser.add_argument("--skip-hints", action="store_true",
                        help="leave prefetches (lfetch), predictions (brp) and hints of loads and stores out, which the profile "
                             "doesn't have and which change no result; else the run ends there")
    parser.add_argument("--trace", type=number(1, usage.GROUP_LIMIT), nargs="?", const=SHOWN, metavar="N",
                        help=f"before the answer tell the first N groups of the run, by default {SHOWN}, with what each changed, "
                             "as `ia64 trace` does; N stands directly behind the word")
    parser.add_argument("--all", action="store_true", help="all that changed, and each change as a whole")
    parser.add_argument("--format", choices=("lines", "json"), default="lines", help="lines, or one JSON document")
    parser.add_argument("--image", metavar="PATH",
                        help="put the image that is run into a file, for run, watch, groups, trace and orders")
    parser.add_argument("--as-flags", default=[], type=str.split, metavar="FLAGS", help="more words for the GNU assembler")
    parser._negative_number_matcher = re.compile(r"-([0-9]+|0[xX][0-9a-fA-F]+)$")
    parser.parse_args = lambda words: parser.parse_intermixed_args(with_number(words))
    parser.set_defaults(run=call)


def with_number(words):
    """The words, where `--trace` has its number of groups also if none stands behind it: a file isn't taken for one."""
    found = list(words)
    for at, word in enumerate(found):
        is_trace = word.startswith("--t") and "--trace".startswith(word)
        if is_trace and not re.fullmatch("[-+]?[0-9]+", "".join(found[at + 1:at + 2])):
            found[at] = f"--trace={SHOWN}"
    return found


def call(options, program):
    """Links, runs, and says what came of it."""
    try:
        arguments = arguments_of(options.arguments)
        if options.stack % 16:
            raise Fault(f"--stack {options.stack}: no multiple of 16")
        if options.trace and options.groups is not None:
            raise Fault("--trace tells a run slot by slot, and with --groups there is none")
    except Fault as fault:
        complain(str(fault))
        return WRONG
    try:
        return answer_of(options, program, arguments)
    except image.Refused as refusal:
        complain(f"{options.file}: {refusal}")
        return REFUSED


def answer_of(options, program, arguments):
    """The status of a call with these arguments, whose answer is printed."""
    linked, function = linked_files(options)
    made = image.cut(program, linked, function, arguments, options.stack, options.struct, options.skip_hints)
    names = Names(linked, made)
    status, printed = image.run(program, made, run_words(options))
    if options.image is not None:
        write_file(options.image, made.image())
    teller = answers.Teller(program, linked, made, names)
    found = answered(teller, options, status, printed)
    trace = CallTrace(program, teller, min(options.trace, options.limit)) if options.trace and found.groups else None
    if options.format == "json":
        print(answers.document(found, names, printable(options.file), options.function, trace and trace.rows(),
                               options.groups is None))
    else:
        print(*(trace.lines() if trace else ()), *answers.Lines(names, arguments, options.all).of(found), sep="\n")
    return found.status


def run_words(options):
    if options.groups is None:
        return ["run", str(options.limit)]
    return ["groups", str(options.limit), str(options.groups)]


def answered(teller, options, status, printed):
    """What is said of what the program printed."""
    if status == 1:
        return teller.verdict(printed)
    if status in (0, 8, 9):
        return teller.state(printed, options.groups is not None, options.limit, options.struct)
    refusal = refusal_of(printed) if status == 3 else None
    if refusal is None:
        raise ProgramFault(f"`{teller.program.path} run` ended with status {status}: {printed[:100]!r}")
    why = "more than 192 slots without a stop" if refusal.why == "long run" else refusal.why
    raise image.Refused(f"the program refuses {teller.names.code(refusal.bundle)}: {why}")


def linked_files(options):
    """The linked file, and the address of the function in it."""
    def say(said):
        print(said, file=sys.stderr)

    files, is_local = linking.chosen(linking.given(options.file, options.as_flags, complain, say), options.function)
    for path in options.more:
        try:
            files.append(linking.given(path, options.as_flags, complain, say))
        except Fault as fault:
            raise Fault(f"--with {printable(path)}: {fault}") from None
    linked = linking.link(files, options.stack)
    function = linked.function(options.function, is_local)
    if function is None or function % 16 or not linking.STUBS_AT <= function < linked.end(True, CODE_AT):
        raise Fault(f"{printable(options.function)} is at no bundle of what was linked")
    return linked, function
