"""The command line with files: `ia64 COMMAND FILE..`. What one command alone needs is imported where it is used, since a call
takes longer to begin than most answers."""

import argparse
import itertools
import os
import re
import signal
import subprocess
import sys
from pathlib import Path

from front import VERSION, checking, files, gnu, reports, usage
from front.checking import DONE, WRONG, complain
from front.faults import Fault, ProgramFault, Unread
from front.files import Kind
from front.functions import chosen
from front.judging import Judge
from front.messages import counted
from front.content import read_file, write_file
from front.program import Program
from front.refusals import OF_A_CALL, OF_A_SOURCE, RefusedInput, at_lines, hinted, said_of_run, said_of_source

# ---- Words -----------------------------------------------------------------------------------------------

def between(lowest, highest):
    """A reader of a number from one to another, in decimal and without leading zeros."""
    def number(word):
        if not usage.is_number(word, lowest, highest):
            raise argparse.ArgumentTypeError(f"{word} is no number from {lowest} to {highest}")
        return int(word)
    return number


def order_list(text):
    return tuple(map(between(0, usage.NUMBER_LIMIT), text.split(",")))


def add_code_options(parser):
    """Those of all commands that take files of code."""
    parser.add_argument("--syscalls", action="store_true",
                       help="each `break` is a system call, which comes back to the slot after it")
    parser.add_argument("--as-flags", default=[], type=str.split, metavar="FLAGS",
                       help="more words for the GNU assembler, as in --as-flags=-xauto, by which it sets the stops of a "
                            "source without .explicit itself, as it does where it is called by hand")


def check_options(parser):
    parser.add_argument("files", nargs="+", metavar="FILE",
                       help="a text, an image, an object file, a linked program, a shared library or driver (ELF of 32 or "
                            "64 bits and either byte order, PE), an archive of them, or a source for the GNU assembler")
    parser.add_argument("-v", "--verbose", action="store_true",
                       help="a line for every function, every instruction outside the profile, every bundle on no "
                            "walk, and the declared entries")
    parser.add_argument("--format", choices=reports.FORMATS, default="lines",
                       help="lines as compilers print them, one JSON document, or a SARIF log")
    parser.add_argument("--baseline", metavar="PATH",
                       help="errors that are among the lines of this earlier answer are left out, and don't count for the status")
    parser.add_argument("-j", "--jobs", type=between(1, 256), default=1, metavar="N", help="so many processes, by default 1")
    parser.add_argument("--exact", action="store_true", help="nothing stands in for instructions outside the profile")
    parser.add_argument("--strict", action="store_true",
                        help="status 3 where a function isn't judged, or a file has none, and none is violated")
    add_code_options(parser)
    parser.set_defaults(run=checking.check)


def listing_options(parser):
    parser.add_argument("file", metavar="FILE", help="as of check, no archive")
    parser.add_argument("functions", nargs="*", default=[], metavar="FUNCTION", help="these functions of it alone")
    add_code_options(parser)
    parser.set_defaults(run=show)


def stops_options(parser):
    parser.add_argument("file", metavar="FILE", help="a text, with bundles or without")
    parser.add_argument("--keep-stops", action="store_true", help="leave each ;; of a text with bundles where it stands")
    parser.set_defaults(run=pack)


def loosen_options(parser):
    parser.add_argument("file", metavar="FILE", help="a text, with bundles or without")
    parser.add_argument("--keep-stops", action="store_true", help="leave each ;; where it stands")
    parser.set_defaults(run=loosened)


def draw_options(parser):
    parser.add_argument("file", metavar="FILE", help="as of check, no archive")
    parser.add_argument("functions", nargs="*", default=[], metavar="FUNCTION",
                        help=f"these functions of it; without one all, of a file that has {MOST_FIGURES} at most")
    parser.add_argument("-o", "--output", metavar="PATH", type=picture_path,
                        help="where the picture goes: x.svg, or x.html, a page; by default an SVG on standard output")
    parser.add_argument("--trace", type=between(0, usage.TRACE_LIMIT), metavar="N",
                        help=f"in a page of a program that runs, at most N groups of its run, which can be stepped through: by "
                             f"default {usage.TRACE_LIMIT}, which is the most, and 0 leaves the run out")
    add_code_options(parser)
    parser.set_defaults(run=draw, misused=parser.misused)


def picture_path(text):
    suffixes = pictures().DRAWERS
    if os.path.splitext(text)[1] not in suffixes:
        raise argparse.ArgumentTypeError(f"{text} ends with none of {', '.join(suffixes)}")
    return text


def pictures():
    """What draws: it takes as long to load as all else that a short answer needs, so only where it is wanted."""
    from front import drawing
    return drawing


def orders_options(parser):
    from front.ordering import lines, one_group
    parser.add_argument("file", metavar="FILE", help="a text or an image")
    parser.add_argument("group", nargs="?", type=between(1, usage.GROUP_LIMIT), metavar="GROUP",
                        help="the number of a group in the run, from 1: the orders of its writes alone, up to its end")
    parser.add_argument("--order", action="append", default=[], metavar="W,W,..",
                        help="with GROUP, this order of its writes, each by its number or by its slot, as in 0.2,0.0,0.1")
    parser.add_argument("-n", type=between(1, usage.GROUP_LIMIT), dest="limit", metavar="N",
                        help="without GROUP, run at most N groups, by default 1000")
    parser.add_argument("--orders", type=order_list, metavar="K,K,..",
                        help="without GROUP, these orders in place of the first seven")
    parser.add_argument("--random", type=between(0, 10**6), default=8, metavar="COUNT",
                        help="so many random orders more, by default 8; with GROUP, of more than "
                             f"{one_group.MOST_WRITES} writes alone")
    parser.add_argument("--seed", type=between(0, usage.NUMBER_LIMIT), default=1, metavar="S",
                        help="of the random orders, by default 1")
    parser.add_argument("--all", action="store_true", help=f"all lines that differ, and not the first {lines.LINES} alone")
    parser.set_defaults(run=run_orders, misused=parser.misused)


def trace_options(parser):
    from front.tracing import command
    command.add_options(parser, between)
    parser.set_defaults(run=run_trace, misused=parser.misused)


def call_options(parser):
    from front.calling import command
    command.add_options(parser, between)


def plain_options(parser):
    command = parser.prog.split()[1]
    numbers = " ".join(name for name, _ in zip(("N", "K"), usage.NUMBERS[command]))
    parser.usage = f"{parser.prog} [-h] [-o PATH] {numbers} FILE".replace("  ", " ")
    parser.add_argument("arguments", nargs="*", metavar=f"{numbers} FILE".strip(),
                       help=f"{usage.TAKES[command]}, in any order" if numbers else "what the command takes on standard input")
    parser.add_argument("-o", "--output", metavar="PATH", help="where the answer goes, in place of standard output")
    parser.set_defaults(run=plainly, misused=parser.misused)


# ---- Commands --------------------------------------------------------------------------------------------

def show(options, program):
    """The functions of a file of code, or the listing or the text of a program."""
    file = one_file(options.file, options.syscalls)
    if file.kind is Kind.TEXT:
        file = built(file, options, program)
    if file.kind is Kind.CODE:
        return show_functions(file, options, program)
    if options.functions:
        raise Fault("a program, which has no functions with names")
    return plain_answer(program, [options.command], file.data, options.file)


def built(file, options, program):
    """A text as an image, or the code that the GNU assembler makes of a source."""
    status, printed = program.raw(["build"], file.data)
    if status == 0:
        return files.File(file.label, file.path, Kind.IMAGE, printed)
    if not files.is_source(options.file):
        raise RefusedInput(printed.decode("latin-1"), file.data)
    if not gnu.installed("as"):
        return read_source(file, options, program)

    def say(said):
        print(said, file=sys.stderr)

    try:
        return files.assemble(file, options.file, options, complain, say)
    except gnu.NotAssembled as none:
        say("\n".join(none.lines))
        raise


def read_source(file, options, program):
    """A source with its functions as it is read without the GNU assembler."""
    try:
        return files.read_source(file, program, options.syscalls)
    except Unread as none:
        raise Fault(f"not read without the GNU assembler: {none}") from None


def show_functions(file, options, program):
    from front import listing
    wanted, missing = chosen(file.functions, options.functions)
    for number, lines in enumerate(listing.listings(wanted, Judge(program), options.command == "list")):
        print(*[""] * bool(number), *lines, sep="\n")
    for said in missing:
        complain(f"{options.file}: {said}")
    return WRONG if missing else DONE


def one_file(path, syscalls=False):
    found = list(itertools.islice(files.items(path), 2))
    if len(found) != 1:
        raise Fault(f"an archive of {'several files' if found else 'no file'}, and one is wanted: `ar x` takes out its members")
    file = found[0].read(syscalls)
    if file.fault is not None:
        raise Fault(file.fault)
    return file


def read_text(path):
    """The bytes of a text that is to be packed."""
    data = read_file(path)
    kind = files.kind_of(data)
    if kind in NO_TEXTS:
        raise Fault(NO_TEXTS[kind])
    return data


# What is said of files that are no texts.
NO_TEXTS = {Kind.IMAGE: "an image, and no text: `ia64 show FILE` prints its text",
            Kind.CODE: "an object file or a linked one, and no text: `ia64 show FILE FUNCTION` prints that of a function",
            Kind.ARCHIVE: "an archive, and no text: `ar x FILE` takes out its members"}


def pack(options, program):
    """A text packed anew. Of one without bundles the stops count as written, as on standard input. Of one with bundles so do
    those of bundles on no walk: no rule asks for a stop there."""
    from front import loosen
    data = read_text(options.file)
    loose, numbers = without_bundles(options, program, data) if loosen.has_bundles(data) else (data, None)
    return plain_answer(program, ["stops"], loose, options.file, numbers=numbers)


def without_bundles(options, program, data):
    """The instructions of a text with bundles, with the stops that are kept, the numbers of their lines, and a note of stops that
    no rule asks for."""
    from front import loosen, programs
    kept = () if options.keep_stops else programs.stops_off_walks(data, program)
    if kept is None:
        complain(f"{options.file}: note: its bundles make no program, so it isn't known which of them walks reach: the stops of "
                 "the others are taken out too. --keep-stops keeps all stops"
                 + f"; {hinted(OF_A_SOURCE, options.file)}" * files.is_source(options.file))
    elif kept:
        complain(f"{options.file}: note: some bundles are on no walk: {counted(len(kept), 'stop')} there, the first in line "
                 f"{min(kept) + 1}, {'is' if len(kept) == 1 else 'are'} kept. A line `.entry NAME` makes what a label names an entry")
    return loosen.with_numbers(data, options.keep_stops, kept or ())


def loosened(options, program):
    from front import loosen
    data = read_text(options.file)
    if b"\0" in data:  # which no text has: the program says where
        raise RefusedInput(program.call(["build"], data)[1], data)
    has_bundles = loosen.has_bundles(data)
    put_out(without_bundles(options, program, data)[0] if has_bundles else loosen.loosened(data, options.keep_stops))
    return DONE


def read_program(path):
    """The bytes of a text or an image that is to be run."""
    data = read_file(path)
    kind = files.kind_of(data)
    if kind in (Kind.CODE, Kind.ARCHIVE):
        what = "an object file or a linked one" if kind is Kind.CODE else "an archive"
        raise Fault(f"{what}, and no program; {OF_A_CALL}")
    return data


def run_orders(options, program):
    """The states of several orders of all groups of a run, or of the orders of one group."""
    if options.group is None and options.order:
        options.misused("--order names the writes of one group, so it takes its number: ia64 orders FILE GROUP --order W,W,..")
    if options.group is not None and (options.limit, options.orders) != (None, None):
        options.misused("-n and --orders are of all groups of a run, and GROUP is one of them: name orders of it by --order")
    data = read_program(options.file)
    try:
        return print_orders(options, program, data)
    except RefusedInput as refusal:
        raise Fault(said_of_run(refusal, data, files.is_source(options.file))) from None


def run_trace(options, program):
    """A run, group by group. What isn't accepted is answered as by `run`."""
    from front.tracing import command
    misuse = command.misuse_of(options)
    if misuse:
        options.misused(misuse)
    data = read_program(options.file)
    status = program.raw(["check"], data)[0]
    if status == DONE:
        return command.trace(options, program, data)
    if status == 1:
        complain(f"{options.file}: violated, and so it isn't run: `ia64 orders {options.file}` shows what its groups may do")
    return plain_answer(program, ["trace", "0", "1"], data, options.file)


def print_orders(options, program, data):
    """The status of a comparison of states, which is printed."""
    from front.ordering import lines, one_group, orders
    most = sys.maxsize if options.all else lines.LINES
    if options.group is not None:
        runs = one_group.run_all(program, data, options.group, options.order, options.random, options.seed)
        print("\n".join(lines.report_group(runs, most, bool(options.order))))
    else:
        wanted = orders.orders_of(options.orders or orders.ORDERS, options.random, options.seed)
        runs = orders.run_all(program, options.limit or 1000, wanted, data)
        print("\n".join(lines.report(runs, most)))
    return orders.status_of(runs)


def draw(options, program):
    """The picture of a program, or of functions of a file of code."""
    if not options.output and sys.stdout.isatty():
        raise Fault("a picture is no text for a terminal: -o x.svg or -o x.html says where it goes")
    if options.trace is not None and suffix_of(options) != ".html":
        options.misused("--trace tells a run in a page: -o x.html makes one")
    source = one_file(options.file, options.syscalls)
    file = built(source, options, program) if source.kind is Kind.TEXT else source
    picture = drawn_code(file, options, program) if file.kind is Kind.CODE else drawn_program(file, source, options, program)
    if options.output:
        write_file(options.output, picture.encode())
    else:
        put_out(picture.encode())
    return DONE


def suffix_of(options):
    """The suffix of the picture that is drawn."""
    return os.path.splitext(options.output)[1] if options.output else ".svg"


def drawn_code(file, options, program):
    """The picture of functions of a file of code."""
    if options.trace is not None:
        raise Fault(f"--trace tells a program's run, and functions aren't run; {OF_A_CALL}")
    functions, drawing = chosen_functions(file, options.functions), pictures()
    return drawing.DRAWERS[suffix_of(options)](drawing.of_code(file, functions, Judge(program, verbose=True), is_proved()))


def drawn_program(file, source, options, program):
    """The picture of a program."""
    if options.functions:
        raise Fault("a program, which has no functions with names")
    drawing, groups = pictures(), usage.TRACE_LIMIT if options.trace is None else options.trace
    figure = drawing.of_program(file, source, program, is_proved())
    if suffix_of(options) == ".html":
        return drawing.page_of_program(figure, file, source, program, groups)
    return drawing.DRAWERS[suffix_of(options)]([figure])


def chosen_functions(file, names):
    """The functions of a file with these names, or all of them where there are few."""
    found, missing = chosen(file.functions, names)
    if missing:
        raise Fault("; ".join(missing))
    if not found:
        raise Fault("no function is in it")
    if not names and len(found) > MOST_FIGURES:
        raise Fault(f"{len(found):,} functions, and without a name {MOST_FIGURES} are drawn at most; {some_of(found)}")
    return found


def some_of(functions):
    """The names of functions, the first ones where there are many."""
    names = [function.name for function in functions[:MOST_NAMES]]
    return f"it has {', '.join(names)}{' ..' if len(functions) > MOST_NAMES else ''}"


def plainly(options, program):
    """A command as on standard input, of a file. The numbers and the file come in any order."""
    numbers, paths = usage.parted(options.command, options.arguments)
    if len(paths) != 1 or not usage.are_numbers(options.command, numbers):
        options.misused(f"it takes {usage.TAKES[options.command]}: {usage.right_call(options.command, options.arguments)}")
    options.file = paths[0]
    data = read_program(paths[0]) if options.command in usage.LIMITS else read_file(paths[0])
    return plain_answer(program, [options.command, *numbers], data, paths[0], options.output)


def plain_answer(program, arguments, data, path, output=None, numbers=None):
    """The program's own status on the input that a file has, with what it prints handed on. Where the input has others than the
    lines of the file, `numbers` says which these are."""
    status, printed = program.raw(arguments, data)
    if status == REFUSED and numbers:
        printed = at_lines(printed, numbers)
    if output is not None and status == DONE:
        write_file(output, printed)
    else:
        put_out(printed)
    if status == REFUSED:
        said = said_of_run if arguments[0] in (*usage.LIMITS, "trace") else said_of_source
        refusal = RefusedInput(printed.decode("latin-1"), data, program)
        complain(f"{path}: {hinted(said(refusal, data, files.is_source(path)), path, data)}")
    elif status in SAID:
        complain(f"{path}: {SAID[status]}")
    return status


def put_out(data):
    """Puts bytes on standard output, behind the lines that are there."""
    sys.stdout.flush()
    sys.stdout.buffer.write(data)


# So many functions are drawn without a name, and so many names are told of those that a file has.
MOST_FIGURES, MOST_NAMES = 10, 20

# What a status of the program means: that of a refusal, and those that print nothing.
REFUSED, SAID = 3, {4: files.TOO_LONG_SAID, 7: "the program ran out of memory"}


# ---- The commands by their words -------------------------------------------------------------------------

COMMANDS = {
    "check": (check_options, "the verdict on every function and program of files"),
    "list": (listing_options, "the bundles of a file's functions, with their bytes"),
    "show": (listing_options, "the text of a file's functions"),
    "stops": (stops_options, "the instructions of a text packed anew into bundles, with the stops that they need"),
    "loosen": (loosen_options, "the instructions of a text, without bundles and stops"),
    "draw": (draw_options, "a picture of a program or of functions: bundles, groups, branches, and pairs that clash"),
    "orders": (orders_options, "which states the orders of a group's writes leave, and in what they differ"),
    "trace": (trace_options, "a run, group by group, with what each of them changed"),
    "call": (call_options, "what a compiled function answers to a call, and what data it changes"),
    "run": (plain_options, "the state after at most N groups of an accepted program"),
    "watch": (plain_options, "as run, behind its first eight groups"),
    "groups": (plain_options, "the state after at most N groups, each all at once, in the order with the number K"),
    "build": (plain_options, "the image of a text"),
    "wrap": (plain_options, "the image of bare bundles"),
    "lift": (plain_options, "the image of version 2 of an image"),
}


class Parser(argparse.ArgumentParser):
    """The library's, which passes over an output that fails, and says on one line what is wrong with words."""

    def print_help(self, file=None):
        (file or sys.stdout).write(self.format_help())

    def error(self, message):
        """What the library finds wrong with the words of a command."""
        missing = re.sub(r"^the following arguments are required: (.*)", r"\1 is missing", message)
        self.misused(f"{missing}; `{self.prog} --help` says what it takes")

    def misused(self, message):
        """Ends a call with wrong words."""
        complain(f"{self.prog.split()[1]}: {message}")
        sys.exit(WRONG)


def parser_of(name):
    """That of the words of a command."""
    add, said = COMMANDS[name]
    parser = Parser(prog=f"ia64 {name}", description=f"{said[0].upper()}{said[1:]}.")
    parser.set_defaults(command=name)
    add(parser)
    return parser


# ---- Calls -----------------------------------------------------------------------------------------------

WRAPPER = Path(__file__).resolve().parent.parent / "ia64"


def find_program():
    """The path of the program that is asked: that with which `./ia64` answers. It is the one that the environment names, unless
    that wants a proved one; this isn't asked for, to be fast."""
    path = os.environ.get("IA64_PROGRAM")
    if path and os.environ.get("IA64_PROVED", "0") in ("", "0"):
        return path
    done = subprocess.run([WRAPPER, "--program"], stdin=subprocess.DEVNULL, stdout=subprocess.PIPE, check=False)
    if done.returncode != 0:
        raise NoProgram(done.returncode)
    return os.fsdecode(done.stdout.rstrip(b"\n"))


class NoProgram(Exception):
    """There is no program to ask; why was said, and with what status."""


def said_version():
    """The version, and whether the program that is asked is proved."""
    if os.environ.get("IA64_PROGRAM"):
        return f"ia64 {VERSION}: answers come from {os.environ['IA64_PROGRAM']}, of which nothing is known to be proved\n"
    proved = "the program is proved and built" if is_proved() else "the program isn't built, and nothing is proved of its answers"
    return f"ia64 {VERSION}: {proved}\n"


def is_proved():
    """Whether the program that is asked is known to be proved."""
    if os.environ.get("IA64_PROGRAM"):
        return False
    done = subprocess.run([WRAPPER, "--program"], stdin=subprocess.DEVNULL, stdout=subprocess.DEVNULL, stderr=subprocess.DEVNULL,
                          env={**os.environ, "IA64_PROVED": "1"}, check=False)
    return done.returncode == 0


def main(arguments=None):
    arguments, options = sys.argv[1:] if arguments is None else arguments, None
    if arguments[:1] and arguments[0] in ("-h", "--help", "help"):
        sys.stdout.write(usage.USAGE)
        return DONE
    if arguments == ["--version"]:
        sys.stdout.write(said_version())
        return DONE
    if not arguments or arguments[0] not in COMMANDS:
        for line in [*usage.explained(arguments, COMMANDS), "ia64 --help lists the commands"]:
            complain(line)
        return WRONG
    try:
        options = parser_of(arguments[0]).parse_args(arguments[1:])
        return options.run(options, Program(find_program))
    except Fault as fault:
        path = fault.path or getattr(options, "file", arguments[0])
        complain(f"{path}: {hinted(str(fault), path, data_for_hints(path, str(fault)))}")
    except ProgramFault as fault:
        complain(str(fault))
    except NoProgram as none:
        return none.args[0]
    except MemoryError:
        complain("out of memory")
    return WRONG


def data_for_hints(path, said):
    """The bytes of a file of which a function is to be named, where they can be read once more."""
    try:
        return read_file(path) if "FUNCTION" in said and os.path.isfile(path) else b""
    except Fault:
        return b""


def closed_output():
    complain("standard output: it is closed")
    return WRONG


def status_of(call):
    """The status of a call, also where the options end it, as those for help do."""
    try:
        return call()
    except SystemExit as ended:
        return ended.code or DONE


def run():
    """The status of a call. Where the lines can't be written it is 2, as where a file can't be read."""
    signal.signal(signal.SIGTERM, lambda *_: sys.exit(143))
    for stream in (sys.stderr, sys.stdout):
        if stream is None:
            return WRONG if sys.stderr is None else closed_output()
        stream.reconfigure(errors="backslashreplace")
    try:
        ended = status_of(main)
        sys.stdout.flush()
        return ended
    except BrokenPipeError:
        os.dup2(os.open(os.devnull, os.O_WRONLY), sys.stdout.fileno())
    except OSError as fault:
        complain(f"standard output: it can't be written: {fault.strerror}")
        os.dup2(os.open(os.devnull, os.O_WRONLY), sys.stdout.fileno())
    except KeyboardInterrupt:
        return 130
    except Exception:  # a fault of the front: it must not end as if a function were violated
        import traceback
        traceback.print_exc()
    return WRONG
