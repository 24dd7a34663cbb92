"""Lanes: what runs side by side gets numbers, so that nothing overlaps and nothing crosses needlessly."""

from typing import List, NamedTuple, Sequence


class Stretch(NamedTuple):
    """From one place on a line to another, both of it."""
    start: float
    end: float

    @property
    def length(self):
        return self.end - self.start

    def meets(self, other):
        return self.start <= other.end and other.start <= self.end


def lanes(stretches: Sequence[Stretch]) -> List[int]:
    """The lane of each stretch, from 0. The shortest come first and each takes the innermost lane that is free, so one that is
    within another is nearer to the code than that, and the two don't cross."""
    taken: List[List[Stretch]] = []
    found = [0] * len(stretches)
    for number in sorted(range(len(stretches)), key=lambda at: (stretches[at].length, stretches[at].start, at)):
        stretch = stretches[number]
        lane = next((at for at, others in enumerate(taken) if not any(map(stretch.meets, others))), len(taken))
        if lane == len(taken):
            taken.append([])
        taken[lane].append(stretch)
        found[number] = lane
    return found


def count(numbers):
    """How many lanes there are."""
    return max(numbers, default=-1) + 1
