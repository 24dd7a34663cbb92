"""What figures of programs and of functions have in common: rows of bundles, branches, and pairs that are told as one."""

from typing import Dict, List

from front import flow, loosen
from front.bundle import slots_of, stops_behind
from front.drawing.accesses import in_order
from front.drawing.figure import STOOD_IN, UNKNOWN, Branch, Pair, Row, Slot
from front.drawing.relations import excuse

# So many bundles a picture has at most, and so many violations of a rule between two slots it tells apart.
MOST_BUNDLES, MOST_APART = 2000, 3

PROVED = "The verdict is the proved program's. "
CLASHES = f"{PROVED}Proved: each pair in red clashes on a walk, and nothing that is known of predicates excuses it there."
ACCEPTS = (f"{PROVED}Proved: on no walk two slots of one group break a rule; and from every start state at an entry that keeps "
           "what the entry promises, each group all at once, under seven exceptions, and in any order of its writes leaves what "
           "slot by slot leaves (docs/use/check.md, \"What accepted says\").")
DRAWN = "Not proved: the drawing, with its excused pairs, its ways, what slots read and write, names and lines of sources."
NOT_BUILT = "Nothing is known to be proved of the program that gave the verdict."


def calls(bundles):
    """The bundles that hold a call."""
    return {index for index, bundle in enumerate(bundles) if any(turn.calls for turn in flow.turns_of(index, bundle))}


class SlotMaker:
    """Makes the slots of bundles in order, and counts their groups."""

    def __init__(self):
        self.group = 0

    def slots(self, index, bundle, made):
        """The slots of a bundle. `made` gives of each place what stands there: its parts by their names."""
        stops, found = stops_behind(bundle), []
        for slot in slots_of(bundle):
            unit = "X" if bundle.units[slot] == "l" else bundle.units[slot].upper()
            parts = made((index, slot))
            found.append(Slot((index, slot), unit=unit, has_stop=slot in stops, group=self.group,
                              is_nop=loosen.is_nop(parts["text"]), **parts))
            self.group += slot in stops
        return tuple(found)


def said_lines(numbers):
    """Lines of a source, by their numbers."""
    if not numbers:
        return ""
    first, last = min(numbers), max(numbers)
    return f"line {first}" if first == last else f"lines {first}-{last}"


def pairs_of(violations, said, accesses, is_excused=False) -> List[Pair]:
    """Pairs to be drawn. Where more than a few are by one rule between the same two slots, as of two moves to all predicates,
    they are one."""
    between: Dict[tuple, list] = {}
    for row in violations:
        between.setdefault((row.rule, row.first, row.second), []).append(row)
    found = []
    for (rule, first, second), rows in between.items():
        parts = [rows] if len(rows) > MOST_APART else [[row] for row in rows]
        for part in parts:
            resources = tuple(in_order(row.resource for row in part))
            why = excuse(accesses.get(first), accesses.get(second), resources[0]) if is_excused else ""
            found.append(Pair(rule, resources, first, second, tuple(map(said, part)), why))
    return found


def only_by(ways):
    """The pairs that clash by each branch alone, of what is known of the ways to each."""
    found: Dict[tuple, List[str]] = {}
    for row in sorted(ways, key=lambda row: (row.second, row.first, row.rule, row.resource)):
        for place, _ in ways[row]:
            found.setdefault(place, []).append(f"{row.rule} {row.resource}")
    return {place: tuple(dict.fromkeys(names)) for place, names in found.items()}


def branch(place, target, said, ways):
    return Branch(place, target, said, ways.get(place, ()))


def behind(figure_rows, pairs, name):
    """The row behind the last one, where a pair needs it."""
    if any(place[0] >= len(figure_rows) for pair in pairs for place in (pair.first, pair.second)):
        return (Row(name, "", (), said="what is behind the function"),)
    return ()


def marked(row):
    """The mark of an instruction outside the profile that has this row, or that has none."""
    return STOOD_IN if row and not row.none else UNKNOWN
