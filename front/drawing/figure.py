"""What is drawn, as data: a program or a function, its bundles, their slots, and what goes from one slot to another."""

from typing import Dict, List, NamedTuple, Optional, Tuple

from front.drawing.accesses import Accesses, in_order

Place = Tuple[int, int]                # a bundle and a slot, from 0


class Slot(NamedTuple):
    """A slot: what stands there and what is known of it."""
    place: Place
    name: str                          # how messages call the place
    unit: str                          # its letter; of a long instruction X
    text: str                          # as it is shown
    canonical: str                     # as the proved program has it, where that is another text, or nothing
    accesses: Optional[Accesses]       # None where they aren't known
    has_stop: bool                     # whether a stop stands behind it
    group: int                         # the number of its group, counted by the stops from 0
    is_nop: bool = False
    mark: str = ""                     # of an instruction outside the profile `STOOD_IN` or `UNKNOWN`
    source: str = ""                   # where it stands in a source, or nothing


STOOD_IN, UNKNOWN = "\u2248", "?"


class Entry(NamedTuple):
    """A bundle where walks begin: what makes it one, and the predicates of which each list promises that no two are both 1."""
    why: str
    promises: Tuple[Tuple[str, ...], ...] = ()


class Row(NamedTuple):
    """A bundle. One without slots is said in words."""
    name: str                          # its number or its offset
    units: str                         # the name of its template
    slots: Tuple[Slot, ...]
    labels: Tuple[str, ...] = ()
    entry: Optional[Entry] = None
    lines: str = ""                    # of its source, or nothing
    is_walked: bool = True
    said: str = ""                     # in the place of slots


class Branch(NamedTuple):
    """A direct branch or a check: the bundle to which it leads, or None where that is outside, and the pairs that clash only on
    walks by this way."""
    place: Place
    target: Optional[int]
    said: str
    only_by: Tuple[str, ...] = ()


class Pair(NamedTuple):
    """Two slots that clash, by one rule: on the resources that are told, each a violation of its own or each excused."""
    rule: str
    resources: Tuple[str, ...]
    first: Place
    second: Place
    said: Tuple[str, ...]              # of each resource, in words
    excuse: str = ""                   # what predicates are known of, where that excuses it

    @property
    def label(self):
        names = f"{self.rule} {ranges(self.resources)}"
        return f"{names}: {self.excuse}" if self.excuse else names


class Figure(NamedTuple):
    """What is drawn of a program or a function."""
    file: str
    function: str                      # its name, or nothing of a program
    verdict: str                       # accepted, violated or not judged
    said: str                          # the verdict in more words
    notes: Tuple[str, ...]             # what is proved of it and what isn't, and what else there is to know
    rows: Tuple[Row, ...]
    branches: Tuple[Branch, ...]
    pairs: Tuple[Pair, ...]

    @property
    def title(self):
        return ": ".join(filter(None, (self.file, self.function)))

    @property
    def slots(self) -> List[Slot]:
        return [slot for row in self.rows for slot in row.slots]

    def touching(self) -> Dict[Place, List[Pair]]:
        """The pairs of each slot."""
        found: Dict[Place, List[Pair]] = {}
        for pair in self.pairs:
            for place in dict.fromkeys((pair.first, pair.second)):
                found.setdefault(place, []).append(pair)
        return found


def ranges(names):
    """Names of registers, those that follow one another as a range: `p1 to p15, b0`."""
    found: List[Tuple[str, str]] = []
    for name in names:
        if found and is_next(found[-1][1], name):
            found[-1] = found[-1][0], name
        else:
            found.append((name, name))
    return ", ".join(first if first == last else f"{first}{', ' if is_next(first, last) else ' to '}{last}"
                     for first, last in found)


def is_next(name, following):
    numbers = name[1:], following[1:]
    return name[0] == following[0] and all(map(str.isdigit, numbers)) and int(numbers[1]) == int(numbers[0]) + 1


def as_data(part):
    """A figure, or a part of one, as JSON can say it: named parts as objects, tuples as lists, and sets as lists in order."""
    if hasattr(part, "_asdict"):
        return {name: as_data(value) for name, value in part._asdict().items()}
    if isinstance(part, frozenset):
        return in_order(part)
    return list(map(as_data, part)) if isinstance(part, (tuple, list)) else part
