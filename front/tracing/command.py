"""`trace`: the words, and the call as a whole."""

import argparse
import os
import re

from front import usage
from front.faults import Fault
from front.files import Kind, kind_of
from front.ordering.answers import Answers
from front.ordering.states import State, position_of
from front.tracing import document, lines, watching
from front.tracing.changes import changes
from front.tracing.code import Code
from front.tracing.steps import steps

# How many groups are told, and how many are run where some of them may be told alone or a place ends it.
SHOWN, LOOKED = 20, 10_000

# The statuses of a run, by the first of the words that say how it ended.
STATUSES = {"break": 0, "limit": 8, "fault": 9}

TAKES = ("a file, and perhaps how many groups are told; on standard input it takes two numbers, from 0 to "
         f"{usage.GROUP_LIMIT} groups and 1 to {usage.TRACE_LIMIT} behind them")


def add_options(parser, number):
    """Adds the options of the command; `number` reads a number from one to another."""
    parser.epilog = ("On standard input `ia64 trace FIRST COUNT` has the proved program's own words: the state after FIRST "
                     "groups, and that behind each of the next COUNT.")
    parser.add_argument("file", metavar="FILE", help="a text or an image")
    parser.add_argument("count", nargs="?", type=number(1, usage.GROUP_LIMIT), metavar="N",
                        help=f"run at most N groups from the first that is told, by default {SHOWN}, and with --until or --watch "
                             f"{LOOKED:,}")
    parser.add_argument("more", nargs="*", default=[], help=argparse.SUPPRESS)
    parser.add_argument("--from", type=number(1, usage.GROUP_LIMIT), default=1, dest="first", metavar="G",
                        help="begin with the group of this number, from 1")
    parser.add_argument("--until", metavar="PLACE", help="end where the next slot is this place: a bundle, as 2, or with a slot, "
                                                         "as 2.1, or a label")
    parser.add_argument("--watch", action="append", default=[], type=names, metavar="NAME,..",
                        help="only what these names read otherwise than before, and only groups that change one: "
                             f"{watching.WATCHED}")
    parser.add_argument("--format", choices=("lines", "json"), default="lines", help="lines, or one JSON document")
    parser.parse_args = parser.parse_intermixed_args


def misuse_of(options):
    """What is wrong with the words of a call that has more than a file and a number, or numbers alone; nothing of others."""
    is_number = re.fullmatch("[0-9]+", options.file) and not os.path.exists(options.file)
    return f"it takes {TAKES}: ia64 trace FILE {SHOWN}, or ia64 trace 0 {SHOWN} < FILE" if options.more or is_number else ""


def names(text):
    try:
        return watching.names_of(text)
    except Fault as fault:
        raise argparse.ArgumentTypeError(str(fault)) from None


class Run:
    """The groups of a run that are told: from one on, and at most so many, up to where the next slot is a place. Afterwards it
    knows how many groups have run, and how the run ended or where it goes on."""

    def __init__(self, program, image, options, code):
        self.first, self.names = options.first, list(dict.fromkeys(name for each in options.watch for name in each))
        watching.check(self.names, image)
        self.until = None if options.until is None else code.place_of(options.until)
        count = options.count or (LOOKED if self.names or self.until else SHOWN)
        look = watching.watching(self.names) if self.names else changes
        self.found = steps(program, image, self.first, count, code, look)
        self.program, self.image = program, image
        self.told, self.is_reached, self.groups, self.end = 0, False, 0, ""

    def steps(self):
        """The groups that are told."""
        for step in self.found:
            self.groups, self.end = step.number, step.end
            if step.changes or not self.names:
                self.told += 1
                yield step
            self.is_reached = not self.is_over and self.place == self.until
            if self.is_reached:
                return
        if not self.groups:
            self.look_before()

    def look_before(self):
        """Finds out how a run ended that has no group of the number from which on it was to be told."""
        state = State(Answers(self.program).raw(["run", str(self.first - 1)], self.image)[1].decode())
        self.groups, self.end = int(state.lines["groups"]), state.lines["end"]

    @property
    def is_over(self):
        return not self.end.startswith("limit")

    @property
    def place(self):
        return position_of(self.end.rsplit(" ", 1)[1])

    @property
    def status(self):
        return STATUSES[self.end.split(" ")[0]]


def trace(options, program, data):
    """Tells the run of a program, which is accepted."""
    is_text = kind_of(data) is not Kind.IMAGE
    image = program.raw(["build"], data)[1] if is_text else data
    code = Code(program, image, data if is_text else None)
    run = Run(program, image, options, code)
    if options.format == "json":
        for row in document.rows(run, code, options.file):
            print(row)
    else:
        for step in run.steps():
            print(*lines.group_lines(step, code), sep="\n")
        print(*lines.closing(run, code), sep="\n")
    return run.status
