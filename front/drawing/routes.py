"""The ways of the lines of pairs: where they touch their slots, and on which tracks they run between rows. How high anything
stands isn't known here, as gaps are as high as their tracks want."""

from typing import Dict, List, NamedTuple, Tuple

from front.drawing import lanes, words
from front.drawing.figure import Pair, Slot
from front.drawing.lanes import Stretch
from front.drawing.measures import BESIDE, CHARACTER, LABEL, TAB, TEXT_LEFT
from front.drawing.words import READ, WRITTEN


class Anchors:
    """Where lines touch the boxes of slots: over or below the name of a resource, and no two at one place."""

    def __init__(self, boxes, lines):
        self.boxes, self.lines, self.taken = boxes, lines, {}

    def at(self, slot: Slot, resource, role, is_above):
        """The x of a line that comes to a slot for this resource."""
        box = self.boxes[slot.place]
        spans = words.resource_spans(slot.text, resource, role) or words.resource_spans(slot.text, resource, other(role))
        x = self.middle(slot, spans[0]) if spans else box[0] + TEXT_LEFT + len(slot.text) * CHARACTER / 2
        used = self.taken.setdefault((slot.place, is_above), [])
        lowest, highest = box[0] + TAB + 4, box[0] + box[1] - 10
        for away in (step * sign for step in range(0, 200, 4) for sign in (1, -1)):
            tried = min(max(x + away, lowest), highest)
            if all(abs(tried - other_x) >= 8 for other_x in used):
                x = tried
                break
        used.append(x)
        return x

    def middle(self, slot, span):
        line = next(line for line in self.lines[slot.place] if span.start < line.end or line.end == len(slot.text))
        return self.boxes[slot.place][0] + TEXT_LEFT + ((span.start + span.end) / 2 - line.start) * CHARACTER


def other(role):
    return READ if role == WRITTEN else WRITTEN


def roles(rule):
    """What the two slots of a pair do with its resource."""
    return {"RAW": (WRITTEN, READ), "WAW": (WRITTEN, WRITTEN), "WAR63": (READ, WRITTEN)}.get(rule, (WRITTEN, READ))


class Route(NamedTuple):
    """The way of a pair: it leaves its first slot at `start`, above or below it, goes to a lane where the two are far apart, and
    comes to the second slot at `end`, from above."""
    pair: Pair
    start: float
    end: float
    is_near: bool                                  # both in one row or in two that follow each other
    label: Stretch                                 # on the track, or of no length


def label_width(text):
    return len(text) * LABEL + 10


def label_place(width, line, edges):
    """Where the label of a line stands that goes from one x to another: on it, or beside it where it would hide it."""
    (start, end), (left, right) = sorted(line), edges
    if width + 24 <= end - start:
        return (start + end - width) / 2
    if end + BESIDE + width <= right:
        return end + BESIDE
    if start - BESIDE - width >= left:
        return start - BESIDE - width
    return min(max((start + end - width) / 2, left), max(left, right - width))


def routes(figure, anchors, across):
    """The routes of the pairs. Where the first slot stands in the same row its line leaves it above, else below."""
    slots = {slot.place: slot for slot in figure.slots}
    edges = across[0][0], across[2][0] + across[2][1]
    found = []
    for pair in figure.pairs:
        near = is_near(pair)
        first, second = roles(pair.rule)
        start = anchor(anchors, slots, pair.first, pair.resources[0], first, pair.first[0] == pair.second[0], edges[0])
        end = anchor(anchors, slots, pair.second, pair.resources[0], second, True, edges[0])
        width = label_width(pair.label)
        begins = label_place(width, (start if near else edges[0], end), edges)
        found.append(Route(pair, start, end, near, Stretch(begins, begins + width)))
    return found


def is_near(pair):
    """Whether the slots of a pair stand in one row, or the second one in the next."""
    return pair.second[0] - pair.first[0] in (0, 1)


def anchor(anchors, slots, place, resource, role, is_above, left):
    """Where a line touches a slot, or a row that has none."""
    return anchors.at(slots[place], resource, role, is_above) if place in slots else left + 40


class Gaps:
    """The tracks in the gaps above rows: of what comes to the row, and of what leaves the one above it."""

    def __init__(self, count):
        self.coming: List[List[Tuple[int, Stretch]]] = [[] for _ in range(count)]
        self.leaving: List[List[Tuple[int, Stretch]]] = [[] for _ in range(count)]
        self.coming_tracks: Dict[int, int] = {}
        self.leaving_tracks: Dict[int, int] = {}

    def settle(self):
        """Gives all that runs in the gaps its track. Behind it `heights` are known."""
        for rows, tracks in ((self.coming, self.coming_tracks), (self.leaving, self.leaving_tracks)):
            for row in rows:
                tracks.update(zip((number for number, _ in row), lanes.lanes([stretch for _, stretch in row])))
        self.comes = [lanes.count([self.coming_tracks[number] for number, _ in row]) for row in self.coming]
        self.leaves = [lanes.count([self.leaving_tracks[number] for number, _ in row]) for row in self.leaving]
