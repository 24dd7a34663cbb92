"""Where walks go in a function: which of its bundles one reaches (volume 3, chapter 4, formats of branches).

It is read off the words, of those outside the profile too. Which bundles are on no walk only makes a note beside a verdict. But
by `turns_of` front/isolation.py also finds where code without symbols goes on behind an end, and declares an entry there:
without it a verdict would say nothing of what follows."""

from typing import List, NamedTuple, Optional

from front.bundle import PADDING, TRAPS, branches, is_break, may_turn

# Major opcodes of branches.
CONDITIONAL, RELATIVE_CALL, INDIRECT_CALL, LONG, LONG_CALL = 4, 5, 1, 0xC, 0xD
INDIRECT, RETURN = 0x20, 0x21                      # of major opcode 0 in unit B: bits 32:27


class Turn(NamedTuple):
    """Where a walk may go on behind a slot other than to the next one."""
    slot: int
    falls: bool
    calls: bool
    target: Optional[int]              # in bundles from the function's start


class Walks(NamedTuple):
    """Which bundles of a function are on a walk, whether one falls out of its end, and its indirect branches."""
    walked: List[bool]
    falls_out: bool
    indirect: List[tuple]


def turn_of(unit, word, slot, target):
    """The turn of a slot with this word, which is of major opcode 0 or a branch, or None."""
    major, guarded = word >> 37, word & 63 != 0
    if unit in "bx" and major in (RELATIVE_CALL, INDIRECT_CALL, LONG_CALL):
        return Turn(slot, guarded, True, target)
    if unit == "b" and major == CONDITIONAL:
        return Turn(slot, guarded or word >> 6 & 7 != 0, False, target)
    if unit == "x" and major == LONG:
        return Turn(slot, guarded, False, target)
    if unit == "b" and major == 0 and word >> 27 & 63 in (INDIRECT, RETURN):
        return Turn(slot, guarded, False, None)
    if is_break(unit, word):
        return Turn(slot, guarded, False, None)
    return Turn(slot, True, False, target) if target is not None else None


def is_indirect(unit, word):
    """Whether it is a branch by a register that is no call and no return."""
    return unit == "b" and word >> 37 == 0 and word >> 27 & 63 == INDIRECT


def turns_of(index, bundle):
    """The turns of a bundle's slots, in order."""
    found, targets = [], None
    for slot, unit in enumerate(bundle.units):
        word = bundle.words[slot]
        if may_turn(unit, word):
            targets = dict(branches(bundle)) if targets is None else targets
            at = 1 if unit == "x" else slot
            turn = turn_of(unit, word, at, index + targets[at] if at in targets else None)
            if turn:
                found.append(turn)
    return found


def walks(function):
    """Finds the bundles of a function that are on a walk: from its start, the declared entries and each bundle after
    one that holds a call, over each edge."""
    turns = [turns_of(index, bundle) for index, bundle in enumerate(function.bundles)]
    indirect = [(index, turn.slot) for index, slots in enumerate(turns) for turn in slots
                if is_indirect(function.bundles[index].units[turn.slot], function.bundles[index].words[turn.slot])]
    walked, falls_out = [False] * len(turns), False
    waiting = [0, *function.entries] + [at + 1 for at, slots in enumerate(turns) if any(turn.calls for turn in slots)]
    while waiting:
        at = waiting.pop()
        if not 0 <= at < len(turns) or walked[at]:
            continue
        walked[at] = True
        for turn in turns[at]:
            if turn.target is not None:
                waiting.append(turn.target)
            if not turn.falls:
                break
        else:
            waiting.append(at + 1)
            falls_out = falls_out or at + 1 == len(turns)
    return Walks(walked, falls_out, indirect)


def may_miss(bundles):
    """Whether walks may miss a bundle of a program: not where no slot holds a branch, a check or a break, as in straight code."""
    return any(may_turn(unit, word) for bundle in bundles for unit, word in zip(bundle.units, bundle.words))


def off_walks(function, walked):
    """The bundles that are on no walk, but for padding and traps, of which there is nothing to say."""
    found = []
    for index, is_walked in enumerate(walked):
        if not is_walked and not is_padding(function.bundles[index]):
            found.append(index)
    return found


def is_padding(bundle):
    """Whether a bundle only fills room, or traps."""
    packed = bundle.packed()
    return packed in PADDING or packed in TRAPS
