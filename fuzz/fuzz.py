#!/usr/bin/env python3
"""Looks for inputs on which the built program doesn't keep docs/use/commands.md.

  fuzz/fuzz.py [--program FILE] [--seed S] [--cases N] [--processes P]
  fuzz/fuzz.py --only N [--keep FOLDER]    runs one case, prints each call, and keeps each input in the folder

It is called by hand, when the program is built. Case n of a seed is the same on every machine, as far as the program builds the
same images of the texts of tests/run/ and examples/.

The cases are of ten sorts by turns: random programs as texts, which have to be right; such texts and those of the repository,
damaged; images of both, damaged; such images with relations, of which one may be changed; bare bundles; bytes that are nothing;
words near the commands; texts with one fault, whose reason and line are known; loose texts, made of such texts as `ia64 loosen`
does, some of them damaged; and loose texts with one fault.

Of each call it looks at the status, the form of what is printed, that nothing is on standard error, that a refusal names a place
of the input, and at the processor time (`COMMANDS` of calls.py). Over several calls it looks at this:

- `build` of what `show` prints is the image again, in version 1 where that has room for it. The lines of relations are those of
  the image. `list` has the bundles' bytes and the lines of the slots. `wrap` of the bundles is refused as the image of them is, or
  gives it.
- `check`, `run N`, `watch N` and `groups N K` answer the same of a text, its image and the image's text. They refuse what `build`,
  or of an image `show`, refuses, in the same way. An image whose relation is refused is read without its relations.
- `run N`, `watch N` and `trace` print what `check` does exactly where that isn't `accepted`. `watch N` and a trace of the N-th
  group end with what `run N` prints, and its reports and the state are of one run. `groups N K` prints what `run N` does where
  `check` says `accepted`, and a state where it doesn't.
- What `stops` prints has a line for each of its stops, each with a violation round it. `check` accepts it, and `build` of it and
  then `show` gives its canonical text. A right loose text is packed, unless it is too long.

It doesn't know what a program means. Neither the verdict, nor the state, nor (but for the sorts with one fault) the reason of a
refusal is compared with anything from outside. Faults of reading and writing aren't tried, and want of memory isn't either: status
7 within the memory limit is a finding.

It prints a line for each finding: the seed, the case, the command and what differs. At the end it prints how many cases of each
sort ran, how long, and the slowest. The status is 1 where something was found.
"""

import argparse
import collections
import functools
import multiprocessing
import random as randoms
import shutil
import subprocess
import sys
import time
from pathlib import Path

from places import PROGRAM, ROOT

from damage import CODE_EDITS, IMAGE_EDITS, TEXT_EDITS, damaged, flip, random_bytes, relation_edit, relations_added
from gnu_as import stop
from calls import COMMANDS, DONE, INPUT_LIMIT, REFUSED, Answer, GivenUp, Calls
from printed_forms import MAGICS, Layout, head
from random_texts import FAULT_KINDS, LOOSE_FAULT_KINDS, Shape, random_lines
from front import loosen

Result = collections.namedtuple("Result", "number sort findings calls seconds slowest")


# The sorts of cases.


@functools.lru_cache(maxsize=None)
def texts():
    """The texts of the repository."""
    folders = ("examples", "tests/run", "tests/check", "tests/gnu")
    return [path.read_bytes() for folder in folders for path in sorted((ROOT / folder).glob("*.s"))]


@functools.lru_cache(maxsize=None)
def images(program):
    """The images of the repository, and of its texts."""
    own = [path.read_bytes() for path in sorted((ROOT / "examples").glob("*.image"))]
    built = [subprocess.run([program, "build"], input=text, stdout=subprocess.PIPE, check=False) for text in texts()]
    return own + [done.stdout for done in built if done.returncode == DONE]


def random_text(random, **fixed):
    return encoded(random, random_lines(random, Shape(random, **fixed)))


def encoded(random, lines):
    end = random.choice(("\n", "\n", "\n", "\r\n"))
    return (end.join(lines) + end * (random.randrange(4) > 0 or not lines or lines[-1] == "")).encode()


def some_text(random):
    return random_text(random) if random.randrange(2) else random.choice(texts())


def some_image(calls, random):
    """An image of the repository or of a random program."""
    if random.randrange(2):
        return random.choice(images(calls.options.program))
    built = calls.call("build", data=random_text(random, stops=1))
    if built.status != DONE:
        raise GivenUp
    return built.output


def programs(calls, random):
    """Random programs, whose texts are right but for long runs."""
    shape = Shape(random)
    data = encoded(random, random_lines(random, shape))
    refusal = None if calls.text(data) else calls.call("build", data=data).output
    if refusal and (shape.stops == 1 or not refusal.endswith(b": long run\n")):
        calls.note(["build"], f"a right text is refused: {refusal!r}")


def damaged_texts(calls, random):
    data = damaged(random, some_text(random), TEXT_EDITS)
    if random.randrange(8) == 0:
        calls.image(data)
    else:
        calls.text(data)


def damaged_images(calls, random):
    image = some_image(calls, random)
    calls.image(damaged(random, relations_added(random, image) if random.randrange(3) == 0 else image, IMAGE_EDITS))


def related_images(calls, random):
    """Images with relations, right or with one of them changed."""
    image = relations_added(random, some_image(calls, random))
    calls.image(relation_edit(random, image) if random.randrange(2) else image)


def bare_bundles(calls, random):
    image = some_image(calls, random)
    code = Layout(image).code_of(image) * random.choice((1, 1, 1, 1, 7, 100))
    made = calls.wrap(damaged(random, code, CODE_EDITS))
    if made:
        calls.image(made)


def any_bytes(calls, random):
    """Bytes of all kinds, and such that begin as an image; seldom more than a command takes."""
    data = random_bytes(random, random.choice((1, 16, 24, 100, 2000)))
    count, magic, version = random.randrange(1, 20), random.choice(MAGICS), random.randrange(1, 3)
    data = random.choice((
        data, magic + data, magic[:random.randrange(8)],
        head(count, version=version) + random_bytes(random, 16 * 20)[:16 * count],
        head(*(random.choice((0, 1, 2, 8, 1024, 4096, 1 << 15, 1 << 20, 2**32 - 1)) for _ in range(4)), version) + data,
        bytes(b % 95 + 32 for b in data), b"\n" * len(data), data.replace(b"\n", b"") * 3))
    if random.randrange(500) == 0:
        data = data or b"\n"
        data = (data * (INPUT_LIMIT // len(data) + 1))[:INPUT_LIMIT + random.choice((0, 1))]
    calls.text(data)
    calls.image(data)
    calls.wrap(data)


NUMBERS = [b"0", b"2", b"9", b"4097", b"10000001", b"18446744073709551615", b"18446744073709551616", b"9" * 40, b"01",
           b"00", b"+5", b"-5", b"-0", b"5 ", b" 5", b"5x", b"0x5", b"1e3", b"1.0", b"", b"5\n", "\uff15".encode(), b"\xff",
           b"x" * 100000]
GROUPS, SEEDS, BUNDLES = (1, 7, 8, 9, 100, 9999, 10**6, 10**7), (0, 1, 2**63, 2**64 - 1), (1, 2, 100, 4096)
WORDS = [word.encode() for word in COMMANDS]
NEAR = [b"help", b"--help", b"Check", b"check ", b"chec", b"checks", b"stop", b"stops ", b"-", b"", b"run 5", b"trial 1 1"]


def wide_number(random):
    """A number of 64 bits: that of an order, or a seed."""
    return random.choice((*SEEDS, random.getrandbits(64)))


def words(calls, random):
    """Words near the commands, with a text of the repository, with nothing, or seldom with too much to read."""
    given = [random.choice(WORDS)]
    if given[0] in (b"run", b"watch", b"groups"):
        given += [b"%d" % random.choice(GROUPS)]
        given += [b"%d" % wide_number(random)] if given[0] == b"groups" else []
    elif given[0] == b"trace":
        given += [b"%d" % random.choice((0, *GROUPS)), b"%d" % random.choice((1, 2, 100, random.randrange(1, 101)))]
    elif given[0] == b"trial":
        given += [b"%d" % wide_number(random)]
        given += [b"%d" % random.choice((*BUNDLES, random.randrange(1, 99)))]
    if random.randrange(3):
        at, more = random.randrange(len(given)), random.choice(NUMBERS + WORDS + NEAR)
        before, after = given[:at], given[at + 1:]
        flipped = [flip(random, word).replace(b"\0", b"") for word in given]
        given = random.choice((before + after, before + [more] + after, before + [more] + given[at:], given + [more],
                               given[::-1], given * 2, flipped))
    data = bytes(INPUT_LIMIT + 1) if random.randrange(50) == 0 else random.choice((b"", random.choice(texts())))
    calls.call(*given, data=data)


def single_faults(calls, random):
    """Texts with one fault, which has to be refused with its reason and line."""
    lines = random_lines(random, Shape(random, stops=1, bundles=random.randrange(1, 12)))
    lines, number, reason = random.choice(FAULT_KINDS)(random, lines)
    data, wanted = encoded(random, lines), Answer(REFUSED, f"line {number}: {reason}\n".encode())
    calls.same("build", calls.call("build", data=data), wanted, "the fault that was put in")
    answers = calls.verdicts(data)
    calls.all_same(answers, [wanted] * len(answers), "the fault that was put in")


def loosened(random, data):
    return loosen.loosened(data, random.randrange(2))


def loose_texts(calls, random):
    """Loose texts, or damaged ones. One of a text that `build` takes is right, but that it may have too many bundles, or a
    relation of a bundle behind a call that isn't its bundle's last instruction: packed anew, the call ends its bundle."""
    text = some_text(random)
    data = loosened(random, text)
    if random.randrange(3) == 0:
        calls.loose(damaged(random, data, TEXT_EDITS))
    elif not calls.loose(data) and calls.call("build", data=text).status == DONE:
        refusal = calls.call("stops", data=data).output
        if not refusal.endswith((b": limit\n", b": relation\n")):
            calls.note(["stops"], f"a right loose text is refused: {refusal!r}")


def loose_faults(calls, random):
    """Loose texts with one fault, which have to be refused with its reason and line; not those that have a relation behind a
    call besides, as in `loose_texts`."""
    text = loosened(random, random_text(random, bundles=random.randrange(1, 12))).decode("latin-1")
    if calls.call("stops", data=text.encode("latin-1")).output.endswith(b": relation\n"):
        return
    lines, number, reason = random.choice(LOOSE_FAULT_KINDS)(random, text.split("\n")[:-1])
    wanted = Answer(REFUSED, f"line {number}: {reason}\n".encode())
    calls.same("stops", calls.call("stops", data=encoded(random, lines)), wanted, "the fault that was put in")


SORTS = (programs, damaged_texts, damaged_images, related_images, bare_bundles, any_bytes, words, single_faults, loose_texts,
         loose_faults)


def run_case(options, number, kept=None):
    """A case by its number, and what came of it."""
    sort = SORTS[number % len(SORTS)]
    random = randoms.Random(f"{options.seed} {number}")
    calls = Calls(options, random.choice((1, 2, 3, 8, 9, 100, 5000)), wide_number(random), kept)
    try:
        sort(calls, random)
    except GivenUp:
        pass
    return Result(number, sort.__name__, calls.findings, len(calls.answers), calls.seconds, calls.slowest)


def numbers_of(options):
    return range(options.first, options.first + options.cases)


def run_all(options):
    """Runs the cases side by side, and prints the findings in the order of their numbers. The results."""
    results = []
    with multiprocessing.Pool(options.processes) as pool:
        for result in pool.imap(functools.partial(run_case, options), numbers_of(options), chunksize=8):
            results.append(result)
            for finding in result.findings:
                print(f"seed {options.seed} case {result.number} {result.sort}: {finding}", flush=True)
    return results


def summary(results, seconds):
    """The lines on all cases."""
    counts = collections.Counter(result.sort for result in results)
    slowest = max(results, key=lambda result: result.seconds)
    yield ", ".join(f"{counts[sort.__name__]} {sort.__name__.replace('_', ' ')}" for sort in SORTS)
    yield f"{len(results)} cases, {sum(result.calls for result in results)} calls, {seconds:.0f} seconds"
    yield (f"the slowest is case {slowest.number}, {slowest.sort}, with {slowest.seconds:.2f} seconds of the processor, "
           f"{slowest.slowest[0]:.2f} of them for {slowest.slowest[1]}")
    yield f"{sum(len(result.findings) for result in results)} findings"


def run_one(options):
    """Runs one case, prints its calls and keeps their inputs. The result."""
    kept, names = [], {}
    result = run_case(options, options.only, kept)
    for words, data, done, seconds in kept:
        if data not in names:
            names[data] = options.keep / f"{options.seed}-{options.only}-{len(names)}"
            names[data].write_bytes(data)
        print(f"{' '.join(words)[:60]} < {names[data]}: status {done.returncode}, {len(done.stdout)} bytes, "
              f"{seconds:.3f} seconds")
    for finding in result.findings:
        print(finding)
    return result


def main():
    words = argparse.ArgumentParser(description=__doc__, formatter_class=argparse.RawDescriptionHelpFormatter)
    words.add_argument("--program", default=str(PROGRAM), help="another program than the built one of this repository")
    words.add_argument("--seed", type=int, default=1)
    words.add_argument("--cases", type=int, default=7000, help="how many cases")
    words.add_argument("--first", type=int, default=0, help="the number of the first case")
    words.add_argument("--only", type=int, help="the number of the one case to run")
    words.add_argument("--keep", type=Path, default=Path("."), help="the folder for the inputs of that case")
    words.add_argument("--processes", type=int, default=2)
    words.add_argument("--memory", type=int, default=256, help="megabytes of addresses for a call, 0 for no limit")
    words.add_argument("--seconds", type=int, default=120, help="when a call is given up")
    words.add_argument("--slack", type=float, default=1, help="by how much more time than stated a call may take")
    options = words.parse_args()
    if shutil.which(options.program) is None:
        stop(f"{options.program} is not there: call ./build, which proves and builds it")
    if options.only is not None:
        sys.exit(1 if run_one(options).findings else 0)
    began = time.time()
    results = run_all(options)
    print("\n".join(summary(results, time.time() - began)))
    sys.exit(1 if any(result.findings for result in results) else 0)


if __name__ == "__main__":
    main()
