"""Inputs within the limits that take a command the longest, or the most memory.

  bench/inputs.py NAME      prints the input of this name, as `empty_lines`

Each function makes one, as the bytes of a text, and says what makes it the worst of its kind. `bench/run.py` measures them. The
commands that read an image or bare bundles are given what `build` makes of the text.
"""

import math
import sys

INPUT_LIMIT = 16777216
BUNDLE_LIMIT = 32768
ENTRY_LIMIT = 1024
DATA_LIMIT = 1048576
RELATION_LIMIT = 4096
LINE_LIMIT = 240
NAME_LIMIT = 63
GROUP_BUNDLES = 64  # 192 slots


# Parts of texts


def bundle(shape, *slots):
    """A bundle with these slot lines."""
    return "\n".join(["{ ." + shape, *slots, "}"]) + "\n"


def stopped(shape, *slots):
    """A bundle with these slot lines and a stop at its end."""
    return bundle(shape, *slots[:-1], slots[-1] + ";;")


NOPS = stopped("mii", "nop", "nop", "nop")
HALT = stopped("mib", "nop", "nop", "break")


def in_groups(count, shape, *slots):
    """So many bundles with these slot lines, in groups of 192 slots and one of what is left."""
    groups, rest = divmod(count, GROUP_BUNDLES)
    return "".join(
        bundle(shape, *slots) * (size - 1) + stopped(shape, *slots)
        for size in [GROUP_BUNDLES] * groups + [rest] * (rest > 0)
    )


def packed(slots):
    """Bundles of three of these slot lines each, with a stop at the end."""
    slots = slots + ["nop"] * (-len(slots) % 3)
    return "".join(stopped("mii", *slots[n : n + 3]) for n in range(0, len(slots), 3))


def spaced(slot):
    """A slot line made as long as a line may be."""
    return slot.replace("=", " " * (LINE_LIMIT - len(slot)) + "=", 1)


def filled(front, line, back=NOPS):
    """The longest text of a front, a line as often as there is room for it, spaces, and a back."""
    room = INPUT_LIMIT - 1 - len(front + back)
    lines = line * (room // len(line))
    return (front + lines + " " * (room - len(lines)) + "\n" + back).encode()


def numbered(n, length):
    """The n-th name of this length, in their order."""
    letters = "ABCDEFGHIJKLMNOPQRSTUVWXYZ_abcdefghijklmnopqrstuvwxyz"
    others = "$.0123456789" + letters
    name = ""
    for _ in range(length - 1):
        n, last = divmod(n, len(others))
        name = others[last] + name
    return letters[n] + name


def labels(count, length, prefix=""):
    """So many label lines, rising, with names of a prefix and so many bytes."""
    return [f"{prefix}{numbered(n, length)}:\n" for n in range(count)]


# Texts, for `build`


def empty_lines():
    """The most lines: all but those of a bundle are empty."""
    return filled("", "\n")


def stop_lines():
    """The most lines that change something: each is a stop, with which the open bundle is made anew."""
    return filled("{ .mii\nnop\nnop\n", ";;\n", "nop;;\n}\n")


def section_lines():
    """The most directives: each is looked up among the leading words, and then among their forms."""
    return filled("", ".data\n", ".text\n" + NOPS)


def ignored_lines():
    """The most lines with a name that isn't kept."""
    return filled("", ".endp a\n")


def skip_lines():
    """The most lines with a number."""
    return filled(".data\n", ".skip 0\n", ".text\n" + NOPS)


def comment_lines():
    """The longest comments: each byte is looked at."""
    return filled("", "//" + "~" * (LINE_LIMIT - 2) + "\n")


def blank_lines():
    """The longest lines without a word: each byte is looked at, and then passed over by itself."""
    return filled("", "\t" * LINE_LIMIT + "\n")


def numbers():
    """The most words: all data as numbers of a byte, as many on a line as may stand there."""
    line = "data1 " + ",".join("0" * 32) + "\n"
    return filled(".data\n" + line * (DATA_LIMIT // 32) + ".text\n", "\n")


def number_lines():
    """The most lines of data."""
    return filled(".data\n", "data1 0\n", ".text\n" + NOPS)


def long_numbers():
    """The longest numbers, which are read digit by digit."""
    return filled(".data\n", "data8 -" + "0" * (LINE_LIMIT - 7) + "\n", ".text\n" + NOPS)


def short_slots():
    """The most slots, as short as they may be, and so the most room for empty lines."""
    return filled(stopped("mii", "mf", "nop", "nop") * BUNDLE_LIMIT, "\n", "")


def long_slots():
    """The most slots that are as long as they may be, with the most completers and operands."""
    load = spaced("(p63)ld8.c.clr.acq.nta r127=[r126],-256")
    compare = spaced("(p63)cmp4.geu.unc p62,p61=-128,r127")
    deposit = spaced("(p63)dep r127=-1,r126,63,64;;")
    slots = bundle("mii", load, compare, deposit)
    return filled(slots * (INPUT_LIMIT // len(slots)), "\n", "")


def rising_labels():
    """The most labels, which take the most memory. They rise, so that the nodes of their tree stay half
    full."""
    lines = labels((INPUT_LIMIT - len(NOPS)) // 6, 4)
    return ("".join(lines) + NOPS).encode()


def scattered_labels():
    """The most labels, each far from the one before it."""
    lines = labels((INPUT_LIMIT - len(NOPS)) // 6, 4)
    step = next(n for n in range(round(0.618 * len(lines)), len(lines)) if math.gcd(n, len(lines)) == 1)
    return ("".join(lines[step * n % len(lines)] for n in range(len(lines))) + NOPS).encode()


def long_labels():
    """The most labels whose names differ in their last bytes alone, so that a comparison reads both whole."""
    lines = labels((INPUT_LIMIT - len(NOPS)) // 65, 4, "x" * (NAME_LIMIT - 4))
    return ("".join(lines) + NOPS).encode()


def late_labels():
    """As many labels as lines `.entry` that name one of them, which are looked up after the last line; and the
    very last of these lines is refused."""
    lines = labels(INPUT_LIMIT // 20, 4)
    entries = "".join(f".entry {line[:4]}\n" for line in lines)
    return filled("".join(lines) + NOPS + entries, "\n", ".entry missing\n")


def relation_lines():
    """The most lines that declare relations, whose bundle is looked up each time among the most entries, the last of them."""
    entries = "".join(f".entry L{n}\nL{n}:\n{NOPS}" for n in range(1, ENTRY_LIMIT + 1))
    return filled(NOPS + entries.removesuffix(NOPS), '.pred.rel"mutex",p1,p2\n')


def relation_pairs():
    """The most pairs: lines with all 105 of an entry, for so many entries that there are the most relations, which each
    pair is looked up among."""
    every = '.pred.rel"mutex"' + "".join(f",p{p}" for p in range(1, 16)) + "\n"
    entries = RELATION_LIMIT // 105
    count = (INPUT_LIMIT - entries * (len(NOPS) + len(".entry L99\nL99:\n"))) // (entries * len(every))
    return "".join(f".entry L{n}\nL{n}:\n{every * count}{NOPS}" for n in range(entries)).encode()


# Loose texts, for `stops`


def loose(text):
    """The instructions of a text of this file, without bundles, stops and the `nop`s that fill them."""
    lines = [line.removesuffix(";;") for line in text.decode().splitlines()]
    return "".join(line + "\n" for line in lines if line not in ("}", "nop", "") and line[0] != "{").encode()


def long_stretches():
    """The most instructions, three in each bundle, none of which wants a stop: each is held against 190 others."""
    return b"cmp.eq.or p6,p0=r8,r9\n" * (3 * BUNDLE_LIMIT)


def most_pairs():
    """The most stops of pairs, two in each bundle: each instruction reads what the one before it writes."""
    return b"adds r8=1,r8\n" * (2 * BUNDLE_LIMIT)


def loose_excuses():
    """The most clashes that are excused."""
    return loose(most_excuses())


def loose_losses():
    """Facts that are lost one by one, as in `losses_past_compares`, through fewer bundles, since stops part the others."""
    compares = ["cmp.eq.or.andcm p0,p1=r0,r0"] * 3
    return loose(losses_through(lambda count: in_groups(count - 2000, "mii", *compares)).encode())


def late_limit():
    """The most instructions of which the last doesn't fit: three in each bundle if no stop were wanted."""
    return b"clrrrb\n" * (3 * BUNDLE_LIMIT)


# Programs with a large image, for `show`, `list` and `wrap`


def most_bundles(related=0):
    """The most bundles, each of which is the target of branches, and has slots whose lines are long; and relations of
    the last ones, so many."""
    relations = "".join(f'.pred.rel "mutex",p{p},p15\n' for p in range(11, 15))
    load = "(p63)ld8.c.clr.acq.nta r127=[r126],-256"
    call = f"(p63)br.call.dptk.many.clr b7=L{BUNDLE_LIMIT - 1}"
    return "".join(
        f"L{n}:\n" + relations * (n >= BUNDLE_LIMIT - related) + stopped("mmb", load, f"(p63)chk.s.m r127,L{BUNDLE_LIMIT - 1 - n}", call)
        for n in range(BUNDLE_LIMIT)
    ).encode()


def largest_program():
    """The most bundles, declared entries, relations and data, with the longest canonical text and the longest listing."""
    entries = "".join(f".entry L{n}\n" for n in range(BUNDLE_LIMIT - ENTRY_LIMIT, BUNDLE_LIMIT))
    words = ("data8 " + ",".join(["-1"] * 32) + "\n") * (DATA_LIMIT // 256)
    return entries.encode() + most_bundles(RELATION_LIMIT // 4) + (".data\n" + words).encode()


# Programs with long groups, for `check`


def most_violations():
    """The most violations, 279 million. In each of 512 groups of 192 slots 128 move to all predicates under one
    of them: each two break 64 rules."""
    move = "(p1)mov pr=r1,-1"
    return in_groups(BUNDLE_LIMIT, "mii", "(p1)cmp.eq.unc p2,p3=r1,r1", move, move).encode()


def most_excuses():
    """The most clashes that are excused, 268 million: moves as in `most_violations`, under a predicate that
    they don't write and that is known to be 0. The program is accepted."""
    move = "(p1)mov pr=r1,-4"
    moves = in_groups(BUNDLE_LIMIT - 2, "mii", "(p1)cmp.eq p2,p3=r1,r1", move, move)
    return (stopped("mib", "nop", "nop", "(p1)br out") + moves + "out:\n" + HALT).encode()


# Programs whose facts on predicates are lost one by one, for `check`


def turned(predicates):
    """Slots that give each of these predicates what is known of the next one, with p2 as a stopover."""
    pairs = zip([2] + predicates, predicates + [2])
    return [f"(p{source})cmp.eq.unc p{target},p0=r0,r0" for target, source in pairs]


def exclusive():
    """Bundles behind which no two of p3 to p63 are both 1, and p1 is 0."""
    halves = [f"(p{2 - p % 2})cmp.eq.unc p{p},p{1 + p % 2}=r0,r0" for p in range(4, 64)]
    return packed(["cmp.eq p3,p2=r0,r0"] + halves) + stopped("mib", "nop", "nop", "(p1)br out")


def loop_of_losses(bit):
    """A loop that loses one fact in each turn, and hands what is left to `chain`. The predicates whose numbers
    have this bit go round by themselves, and so do the others, in numbers of turns without a common divisor:
    so one pair that isn't known at the beginning becomes each pair of one of these and one of the others."""
    ones = [p for p in range(3, 64) if p >> bit & 1]
    others = [p for p in range(3, 64) if not p >> bit & 1]
    return "".join([
        f"enter{bit}:\n" + packed([f"(p{ones[0]})cmp.eq.or p{others[0]},p0=r0,r0"]),
        f"loop{bit}:\n" + packed(turned(ones) + turned(others)),
        stopped("mbb", "nop", "(p2)br chain", f"br loop{bit}"),
    ])


def losses_through(chain):
    """The most visits of slots until facts are at their fixpoint, 181 million. All places but 500 are a chain, made for
    so many bundles, through which 1,859 losses go one by one: behind it stand loops that lose a fact in each
    turn, and the lowest place is gone on from first."""
    enters = "".join(stopped("mib", "nop", "nop", f"(p2)br enter{bit}") for bit in range(6))
    leave = stopped("mib", "nop", "nop", "br out")
    front = exclusive() + enters + leave + "chain:\n"
    back = leave + "".join(loop_of_losses(bit) for bit in range(6)) + "out:\n" + HALT
    return front + chain(BUNDLE_LIMIT - (front + back).count("{")) + back


def chain_of_losses(shape, *slots):
    """Losses through a chain of these slots, in order."""
    return losses_through(lambda count: in_groups(count, shape, *slots))


def zigzag(count):
    """A chain that goes back and forth between the bundles of a lower and of a higher half, and to `out`."""
    half = count // 2
    lower = [f"low{n}:\n" + stopped("bbb", f"br high{n}", "nop", "nop") for n in range(half)]
    higher = [f"high{n}:\n" + stopped("bbb", f"br low{n + 1}", "nop", "nop") for n in range(half)]
    return "".join(lower + higher).replace(f"br low{half}\n", "br out\n")


def losses_past_nops():
    """Losses past slots that leave what is known as it is."""
    return chain_of_losses("mii", "nop", "nop", "nop").encode()


def losses_past_compares():
    """Losses past compares, which leave what is known as it is, but whose targets have to be looked at."""
    return chain_of_losses("mii", *["cmp.eq.or.andcm p0,p1=r0,r0"] * 3).encode()


def losses_past_branches():
    """Losses past branches, each of which has a second edge."""
    return chain_of_losses("bbb", *["(p1)br out"] * 3).encode()


def losses_in_zigzag():
    """Losses through a chain in which the next place is far from the last one each time, and has to be found."""
    return losses_through(zigzag).encode()


def losses_past_violations():
    """All at once: losses past the groups of `most_violations`, and empty lines as in `empty_lines`."""
    move = "(p1)mov pr=r1,-1"
    return filled(chain_of_losses("mii", "(p1)cmp.eq.or p2,p0=r1,r1", move, move), "\n", "")


# Programs that run on, for `run` and `watch`


def endless_calls():
    """The deepest calls: down to the last of 65,536 cells and back, over and over. Each call spills a whole
    frame of 96 cells, and each return fills one."""
    back = stopped("mii", "add r10=r10,r127", "mov.i ar.pfs=r32", "mov b0=r33")
    return "".join([
        "up:\n" + stopped("mib", "adds r9=682,r0", "nop", "br.call b0=down"),
        stopped("mib", "nop", "nop", "br up"),
        "down:\n" + stopped("mii", "alloc r32=ar.pfs,0,96,0,0", "mov r33=b0", "adds r9=-1,r9"),
        stopped("mii", "adds r127=0,r9", "cmp.eq p6,p7=r0,r9", "nop"),
        stopped("mib", "nop", "nop", "(p7)br.call b0=down") + back + stopped("mib", "nop", "nop", "br.ret b0"),
    ]).encode()


def endless_stores():
    """The longest groups, 192 slots, and in them the most stores, each of which looks at 32 entries of the
    ALAT and spares them."""
    loads = "".join(stopped("mmi", f"ld8.a r{n}=[r8],8", "nop", "nop") for n in range(32, 64))
    stores = bundle("mmi", "st8 [r9]=r9", "st8 [r9]=r9", "nop") * (GROUP_BUNDLES - 1)
    return "".join([
        stopped("mlx", "alloc r31=ar.pfs,0,32,0,0", "movl r8=words") + stopped("mlx", "nop", "movl r9=last"),
        loads + "loop:\n" + stores + stopped("mmb", "st8 [r9]=r9", "st8 [r9]=r9", "br loop"),
        ".data\nwords:\n.skip 256\nlast:\n.skip 8\n",
    ]).encode()


def endless_writes():
    """The longest groups, and in them the most writes: 127 moves to all predicates, of 63 writes each."""
    moves = bundle("mii", "nop", "mov pr=r9,-2", "mov pr=r9,-2") * (GROUP_BUNDLES - 1)
    return (stopped("mlx", "nop", "movl r9=0x123456789abcdef") + "loop:\n" + moves + stopped("mib", "nop", "mov pr=r9,-2", "br loop")).encode()


def largest_state():
    """The longest printed state: all data, and a `break` at once."""
    words = ("data8 " + ",".join(["-1"] * 32) + "\n") * (DATA_LIMIT // 256)
    return (HALT + ".data\n" + words).encode()


def nothing():
    """A trial makes its own program, the longest where it has the most bundles."""
    return b""


if __name__ == "__main__":
    sys.stdout.buffer.write(globals()[sys.argv[1]]())
