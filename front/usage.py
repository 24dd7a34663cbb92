"""What is said of the command line as a whole, and of words that are no command."""

import os
import re

GROUP_LIMIT, NUMBER_LIMIT = 10**7, 2**64 - 1

# How many groups the program tells in one answer of `trace`.
TRACE_LIMIT = 100

USAGE = """\
usage: ia64 COMMAND [OPTION..] FILE..
       ia64 COMMAND < INPUT

Files: texts, images, object files, linked programs, libraries and drivers (ELF, PE), archives of them, and sources for the GNU
assembler.

  check FILE..    the verdict on each function and program: are the instructions of each group independent?
  list FILE [FUNCTION..]
                  the bundles of functions, or of a program, with their bytes
  show FILE [FUNCTION..]
                  the text of functions, or of a program
  stops FILE      the text of the program into which the instructions of a text are packed, with the stops that they need
  loosen FILE     the instructions of a text, without its bundles and stops
  draw FILE [FUNCTION..] -o x.svg
                  a picture of a program or of functions, or, with -o x.html, a page: bundles, groups, branches, pairs that
                  clash, and the run of a program, to be stepped through
  orders FILE [GROUP]
                  which states the orders of a group's writes leave, and in what they differ: those of all groups of a run, or
                  of the one with this number
  trace FILE [N]  a run, group by group: the instructions of each of its first N groups, how it ended and what it changed
  call FILE FUNCTION [ARG..]
                  what a function of an object file answers to a call with numbers, texts and buffers, and what data it changes;
                  with GNU ld for ia64

Programs, texts or images, from a FILE or from standard input:

  check           the verdict alone
  run N           the state after at most N groups, 1 to 10000000, of a program that check accepts
  watch N         as run N, and before the state a line for each of the first 8 groups, and how many groups and slots there were
  groups N K      the state after at most N groups of a program, accepted or not, each group all at once and its writes in the
                  order with the number K, below 2^64; K 0 is program order
  trace FIRST COUNT
                  the state after FIRST groups, 0 to 10000000, and that behind each of the next COUNT, 1 to 100
  build           the image of a text
  stops           the text of the program into which loose instructions are packed, with the stops that they need
  show            the text of an image
  list            the bundles of an image, with their bytes
  wrap            the image of bare bundles, sixteen bytes each
  lift            the image of version 2 of an image
  trial SEED BUNDLES
                  a stated program of 1 to 4096 bundles, checked and run; it reads nothing

  --help, --version, and COMMAND --help for the options of a command with files; -o PATH puts an answer of run, watch, groups,
  build, wrap, lift and draw into a file

What is asked of standard input alone is answered by the proved program as it is. Files are read by the part that isn't proved,
which asks that program. docs/use/README.md says where to begin, and docs/use/commands.md what each answer and status means.
"""

# The commands that take a file in place of standard input, with the numbers that their calls show.
NUMBERS = {"run": ("100",), "watch": ("100",), "groups": ("100", "0"), "build": (), "wrap": (), "lift": ()}
LIMITS = {"run": (GROUP_LIMIT,), "watch": (GROUP_LIMIT,), "groups": (GROUP_LIMIT, NUMBER_LIMIT)}
TAKES = {
    "run": "one number, from 1 to 10000000 without a leading zero, and a file",
    "watch": "one number, from 1 to 10000000 without a leading zero, and a file",
    "groups": "two numbers, from 1 to 10000000 groups and that of an order, below 2^64, each without a leading zero, and a file",
    "build": "a file", "wrap": "a file", "lift": "a file",
}
TRIAL = "two numbers, a seed below 2^64 and from 1 to 4096 bundles, each without a leading zero, and reads nothing"


def is_number(word, lowest, highest):
    """Whether a word is a number from one to another, in decimal and without leading zeros."""
    return re.fullmatch(r"0|[1-9][0-9]{0,19}", word) is not None and lowest <= int(word) <= highest


def are_numbers(command, numbers):
    """Whether these are the numbers that a command takes."""
    limits = LIMITS.get(command, ())
    return len(numbers) == len(limits) and all(
        is_number(word, 1 if at == 0 else 0, limit) for at, (word, limit) in enumerate(zip(numbers, limits)))


def parted(command, arguments):
    """The numbers and the paths among the words of a command. One that begins as a number counts as one, whether the command
    takes it or not, as long as it takes so many; behind these, what is the path of a file counts as one."""
    numbers, paths = [], []
    for word in arguments:
        if re.match(r"[-+]?[0-9]", word) and (len(numbers) < len(NUMBERS.get(command, ())) or not os.path.exists(word)):
            numbers.append(word)
        else:
            paths.append(word)
    return numbers, paths


def right_call(command, arguments=()):
    """The call of a command, with the numbers among these words as far as it takes them, and else with some that it takes."""
    numbers, paths = parted(command, arguments)
    if command == "trial":
        return "ia64 trial 1 100"
    shown = list(NUMBERS.get(command, ()))
    for at, limit in enumerate(LIMITS.get(command, ())):
        given = numbers[at] if at < len(numbers) else ""
        if is_number(given, 1 if at == 0 else 0, limit):
            shown[at] = given
        elif at == 0 and re.fullmatch(r"[1-9][0-9]*", given):
            shown[at] = str(limit)
    return " ".join(["ia64", command, *shown, paths[0] if paths else "FILE"])


def explained(arguments, commands):
    """What is wrong with words that are none of these commands, and the call that was meant."""
    if not arguments:
        return ["a command is missing"]
    if arguments[0] == "trial":
        return [f"trial: it takes {TRIAL}: {right_call('trial')}"]
    meant = re.sub(r".*-", "", arguments[0]).lower()
    if meant in (*commands, "trial"):
        perhaps = [f"perhaps: {right_call(meant, arguments[1:])}"]
    else:
        perhaps = [f"perhaps: ia64 check {arguments[0]}"] * os.path.exists(arguments[0])
    return [f"no command '{arguments[0]}'", *perhaps]
