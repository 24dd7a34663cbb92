"""Why a pair clashes, and which pairs don't for the sake of predicates: both are asked of the proved program, of the same bundles
with a few words changed.

- *The way*: a branch is made to lead out of the program, to an end bundle behind it. Then the walks that take it are gone, and
  all others are as they were. A taken branch ends its group, so no pair shares a group for it; but what is known of predicates may
  be lost on it. So where a pair doesn't clash any more then, but does so still where no other slot has a qualifying predicate,
  the way over this branch is why the pair isn't excused.
- *The call*: a call becomes a `nop`. Then the bundle behind it is no entry for its sake, and what is known of predicates before
  it is known behind it too. So where a pair doesn't clash any more then, but does so still without qualifying predicates, this
  call is why the pair isn't excused.
- *What predicates excuse*: all slots but branches, checks and breaks get p0 for their qualifying predicate. They are on the same
  walks then, and what clashes now and didn't before was excused by predicates.
"""

from front.bundle import NOPS, branches, is_break, split_all, with_branch
from front.program import Refusal

# The major opcodes of calls in unit B, by a register and direct.
CALLS = (1, 5)

# Of a program with so many branches, violations and bundles ways are looked for, and so many bundles are checked for it.
MOST_BRANCHES, MOST_VIOLATIONS, MOST_BUNDLES, WORK = 200, 20, 5000, 100_000


def branch_positions(bundles):
    """The slots of a program's direct branches, each as bundle and slot, with how far it goes; checks don't count."""
    return [((index, slot), away) for index, bundle in enumerate(bundles) for slot, away in branches(bundle)
            if bundle.units[slot] == "b"]


def ways(ask, code, broken):
    """Of each pair the branches without which predicates excuse it, each with its target. `ask` answers on bundles, behind
    which it sets an end bundle, what a check of them answers; `broken` is what it answers on these."""
    bundles, found = split_all(code), {}
    places = branch_positions(bundles)
    if (not 0 < len(broken) <= MOST_VIOLATIONS or len(places) > MOST_BRANCHES or len(bundles) > MOST_BUNDLES
            or len(places) * len(bundles) > WORK):
        return found
    for (index, slot), away in places:
        turned = with_branch(bundles[index], slot, len(bundles) - index).packed()
        changed = code[:16 * index] + turned + code[16 * index + 16:]
        gone = set(broken) - set(violations(ask(changed)))
        for row in gone & set(violations(ask(without_guards(changed)))) if gone else ():
            found.setdefault(row, []).append(((index, slot), index + away))
    return found


def calls(ask, code, broken):
    """Of each pair the calls without which predicates excuse it, looked for as far as ways are."""
    bundles, found = split_all(code), {}
    places = [(index, slot) for index, bundle in enumerate(bundles) for slot, unit in enumerate(bundle.units)
              if unit == "b" and bundle.words[slot] >> 37 in CALLS]
    if (not 0 < len(broken) <= MOST_VIOLATIONS or len(places) > MOST_BRANCHES or len(bundles) > MOST_BUNDLES
            or len(places) * len(bundles) > WORK):
        return found
    for index, slot in places:
        without = bundles[index].with_word(slot, NOPS["b"]).packed()
        changed = code[:16 * index] + without + code[16 * index + 16:]
        gone = set(broken) - set(violations(ask(changed)))
        for row in gone & set(violations(ask(without_guards(changed)))) if gone else ():
            found.setdefault(row, []).append((index, slot))
    return found


def said_calls(places, name):
    """What is said of the calls of a pair behind it: nothing, or their places by their names."""
    return f"; not excused for the sake of the call at {' and '.join(map(name, places))}" if places else ""


def said(found, name):
    """What is said of the branches of a pair behind it: nothing, or their places by their names."""
    ways_of = [f"{'the way back from' if target <= place[0] else 'the branch at'} {name(place)}"
               for place, target in found]
    return f"; only by {' and '.join(ways_of)}" if ways_of else ""


def violations(answer):
    return () if isinstance(answer, Refusal) else answer[1]


def without_guards(code):
    """Bundles whose slots, but for branches, checks and breaks, which say where walks go, have p0 for their qualifying
    predicate."""
    made = []
    for bundle in split_all(code):
        kept = {slot for slot, _ in branches(bundle)}
        for slot, unit in enumerate(bundle.units):
            if unit not in "bl" and slot not in kept and not is_break(unit, bundle.words[slot]):
                bundle = bundle.with_word(slot, bundle.words[slot] & ~63)
        made.append(bundle.packed())
    return b"".join(made)


def excused(ask, code, broken):
    """The pairs of these bundles that predicates excuse, the first hundred at most. A last slot that clashes with the end bundle
    alone, which isn't theirs, is in none."""
    bare, known, count = without_guards(code), set(broken), len(code) // 16
    return [row for row in violations(ask(bare)) if row not in known and row.second[0] < count] if bare != code else []
