"""The proved program, as it is asked, and the images that it is asked about."""

import functools
import re
import struct
import subprocess
from typing import NamedTuple, Optional

from front.bundle import NOPS, Bundle, split_all
from front.faults import ProgramFault
from front.functions import MOST_BUNDLES, MOST_ENTRIES
from front.rules import RULES

# Where an image has its code and its data.
CODE_AT, DATA_AT = 0x10000, 0x100000

# Behind each function: `break.m 0`, two nops and a stop. And the lines of its text.
END = Bundle(0x01, (0, NOPS["i"], NOPS["i"]))
END_LINES = ("{ .mii", "  break.m 0x0", "  nop.i 0x0", "  nop.i 0x0 ;;", "}")


def image(pieces):
    """An image of functions, each given by its bundles and its declared entries, and each with an end bundle behind it. The
    start of each is an entry.

    Why the verdict on a function's own slots is that of the whole program:

    - A taken branch ends its group. So a walk that leaves the function by one has no more slots in that group, and
      the end bundle, to which it leads here, may stand for whatever is there: slot 0 of it is a `break` under p0,
      which reads and writes nothing and from which no edge leads on.
    - A call's return lands on the bundle after it, which is an entry, where a walk begins and nothing is known. In
      the image it is one too, since the call is still a call, and falls through as it did where it has a predicate.
    - A walk that falls out of the end reaches the end bundle, with its group open. It can come back into the function
      only by a branch, in another group. A `clrrrb` in last place without a stop is violated here as there: whatever
      stands behind it has to stand in another group.
    - A walk that comes into the function from elsewhere comes to its start, which may be called from anywhere and so
      is an entry, or to a declared entry (`isolate`). There nothing is known, whatever is known where the walk comes
      from; so a pair that only that would excuse is violated here.

    What isn't looked at: what other functions do, and pairs of slots of which one is in another function, which share
    a group only where a function falls out of its end (a note says so). And ways into the code that the file doesn't
    tell, as those into landing pads, whose addresses only the tables for exceptions have. Such code is judged as far as
    another walk reaches it, with what is known on that walk; notes tell of bundles on no walk, and of an indirect
    branch where no table of its targets was found.

    Why the verdicts on many functions in one image are those on each alone: walks begin at entries and follow edges.
    Each function's edges lead to its own bundles or to the end bundle behind it, from which none leads on. So the
    walks over a function's bundles are the same in all images that have it.
    """
    code, entries, first = [], [], 0
    for bundles, declared in pieces:
        entries += [first] * (first > 0) + [first + entry for entry in sorted(declared)]
        code += [bytes(bundles), END.packed()]
        first += len(bundles) // 16 + 1
    return b"".join([b"IA64IMG2", struct.pack(f"<4I{len(entries)}I", first, len(entries), 0, 0, *entries), *code])


class Parts:
    """The parts of an image: its head with entries and relations, its bundles, and its data."""

    def __init__(self, image):
        count, entries = struct.unpack_from("<2I", image, 8)
        relations = struct.unpack_from("<I", image, 20)[0] if image.startswith(b"IA64IMG2") else 0
        first = 24 + 4 * entries + 8 * relations
        self.entries = struct.unpack_from(f"<{entries}I", image, 24)
        self.head, self.code, self.rest = image[:first], image[first:first + 16 * count], image[first + 16 * count:]

    @functools.cached_property
    def bundles(self):
        return split_all(self.code)


def batches(pieces, size):
    """Parts pieces, in order, into lists that fit one image. `size` says of a piece how many bundles and declared entries it
    has."""
    batch, bundles, entries = [], 0, 0
    for piece in pieces:
        more, further = size(piece)
        if batch and (bundles + more + 1 > MOST_BUNDLES or entries + further + 1 > MOST_ENTRIES):
            yield batch
            batch, bundles, entries = [], 0, 0
        batch.append(piece)
        bundles, entries = bundles + more + 1, entries + further + 1
    if batch:
        yield batch


class Refusal(NamedTuple):
    """The first fault of an image, at a bundle, and a slot where the fault is one's."""
    bundle: int
    slot: Optional[int]
    why: str


def refusal_of(text):
    """The refusal of an image as it is printed, or None where a text is none."""
    found = re.fullmatch(r"image: bundle (\d+)(?: slot (\d))?: ([a-z ]+)\n", text)
    return Refusal(int(found[1]), int(found[2]) if found[2] else None, found[3]) if found else None


class Broken(NamedTuple):
    """A line of a verdict: two slots of an image, each as bundle and slot, that break a rule."""
    rule: str
    resource: str
    first: tuple
    second: tuple


VIOLATIONS = re.compile(rf"violations (\d+)\n((?:(?:{'|'.join(RULES)}) \w+ \d+\.\d \d+\.\d\n)+)")


class Program:
    """The built `ia64`. Its path is asked for when the program is first called."""

    def __init__(self, find):
        self.find, self.found = find, None

    @property
    def path(self):
        if self.found is None:
            self.found = self.find()
        return self.found

    def settle(self):
        """Asks for the path, so that no copy of this has to."""
        self.found = self.path

    def raw(self, arguments, data):
        """Its status and what it prints, as bytes."""
        try:
            done = subprocess.run([self.path, *arguments], input=data, stdout=subprocess.PIPE, stderr=subprocess.PIPE,
                                  check=False)
        except OSError as fault:
            raise ProgramFault(f"{self.path} can't be called: {fault.strerror}") from None
        if done.returncode < 0:
            raise ProgramFault(f"`{self.path} {arguments[0]}` ended with signal {-done.returncode}")
        return done.returncode, done.stdout

    def call(self, arguments, data):
        """Its status and what it prints. Another status than 0, 1 and 3 is no answer."""
        status, printed = self.raw(arguments, data)
        if status not in (0, 1, 3):
            raise ProgramFault(f"`{self.path} {arguments[0]}` ended with status {status}")
        return status, printed.decode("latin-1")

    def answer(self, word, data):
        """What it prints of an image, or its refusal."""
        status, text = self.call([word], data)
        if status != 3:
            return text
        refusal = refusal_of(text)
        if refusal is None:
            raise self.unknown(word, text)
        return refusal

    def check(self, data):
        """How many pairs of slots of an image break a rule, and the first hundred of them, or its refusal."""
        answer = self.answer("check", data)
        if isinstance(answer, Refusal):
            return answer
        return self.verdict(answer)

    def verdict(self, text):
        if text == "accepted\n":
            return 0, []
        found = VIOLATIONS.fullmatch(text)
        if not found:
            raise self.unknown("check", text)
        return int(found[1]), [self.broken(line) for line in found[2].splitlines()]

    @staticmethod
    def broken(line):
        rule, resource, *places = line.split(" ")
        return Broken(rule, resource, *(tuple(map(int, place.split("."))) for place in places))

    def listing(self, data):
        """The texts of the slots of each bundle of an image, or its refusal."""
        answer = self.answer("list", data)
        if isinstance(answer, Refusal):
            return answer
        rows = []
        for line in answer.splitlines():
            if not line.startswith("  "):
                rows.append([])
            elif rows:
                rows[-1].append(line[2:-3] if line.endswith(" ;;") else line[2:])
        if not all(text.strip() for texts in rows for text in texts):
            raise self.unknown("list", answer)
        return rows

    def unknown(self, word, text):
        return ProgramFault(f"`{self.path} {word}` answered what isn't known here: {text[:100]!r}")
