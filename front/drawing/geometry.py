"""Where everything of a figure stands, in pixels.

A row has the box of a bundle: to its left its number, and the lanes of pairs that are several bundles apart; to its right the
lanes of branches. Above each row is a gap. In it stand, from the top down: the tracks of what leaves the row above, the captions
of the row (labels, what makes it an entry), and the tracks of what comes to the row. So no line runs over a text.
"""

from typing import Dict, List, NamedTuple, Optional, Tuple

from front.drawing import lanes, words
from front.drawing.figure import Figure, Place
from front.drawing.lanes import Stretch
from front.drawing.measures import (BRANCH_LANE, CAPTION_LINE, CORNER, ENTRY_MARK, EXIT_TRACK, FIRST_LANE, GAP, LEAST_WIDTH,
                                    LINE, MARGIN, PAIR_LANE, SLOT_PAD, SMALL, TRACK, caption_lines, characters_of, columns,
                                    is_long, slot_span)
from front.drawing.routes import Anchors, Gaps, is_near, routes
from front.drawing.words import Span


class Box(NamedTuple):
    x: float
    y: float
    width: float
    height: float

    @property
    def right(self):
        return self.x + self.width

    @property
    def bottom(self):
        return self.y + self.height


class Wire(NamedTuple):
    """A line through these points, with a label in a box, or None, and the ends of a short line to one that stands beside it."""
    points: Tuple[Tuple[float, float], ...]
    label: Optional[Box] = None
    tail: Tuple[Tuple[float, float], ...] = ()


class Geometry(NamedTuple):
    """Of a figure: the boxes of its slots and rows, the lines of their texts, its captions, and its lines."""
    width: float
    height: float
    left: float                                    # of the code
    right: float
    numbers: float                                 # where numbers of bundles end
    marks: float                                   # where marks of entries stand
    rows: Tuple[Box, ...]
    gaps: Tuple[Box, ...]                          # above each row, and behind the last
    slots: Dict[Place, Box]
    lines: Dict[Place, List[Span]]
    captions: Tuple[Tuple[Tuple[str, str, float], ...], ...]     # of each row: kind, text and base line
    wires: Tuple[Wire, ...]                        # of the pairs
    branches: Tuple[Wire, ...]
    ways: float                                    # where what is said of branches stands


def tail_to(label, points):
    """From a line on a track, given by the ends of its stretch there, to a label beside it."""
    (first, y), (last, _) = min(points), max(points)
    if label.x > last:
        return (last - CORNER, y), (label.x, y)
    return ((first + CORNER, y), (label.right, y)) if label.right < first else ()


def geometry(figure: Figure) -> Geometry:
    """Where everything of a figure stands."""
    return Drafting(figure).geometry()


class Drafting:
    """The steps to a geometry: columns, routes, tracks, heights, and then points."""

    def __init__(self, figure):
        self.figure = figure
        self.far = [pair for pair in figure.pairs if not is_near(pair)]
        self.far_lanes = lanes.lanes([Stretch(*sorted((pair.first[0], pair.second[0]))) for pair in self.far])
        name = max([len(row.name) + 5 for row in figure.rows] + [len(row.lines) for row in figure.rows])
        self.numbers = MARGIN + max(7, name) * SMALL
        self.marks = self.numbers + 5
        self.left = self.marks + ENTRY_MARK + lanes.count(self.far_lanes) * PAIR_LANE + 4
        self.across = columns(figure, self.left)
        self.right = self.across[2][0] + self.across[2][1]
        self.lay_out_texts()
        self.gaps = Gaps(len(figure.rows) + 1)
        self.routes = routes(figure, Anchors(self.boxes, self.lines), self.across)
        self.lay_out_branches()
        self.lay_out_tracks()
        self.ways = self.right + FIRST_LANE + self.lane_count * BRANCH_LANE + 4

    def lay_out_texts(self):
        self.lines, self.boxes = {}, {}
        for row in self.figure.rows:
            for slot in row.slots:
                span = self.boxes[slot.place] = slot_span(row, slot, self.across)
                self.lines[slot.place] = words.broken(slot.text, characters_of(span[1]))
        self.captions = [caption_lines(row, self.right - MARGIN) for row in self.figure.rows] + [[]]

    # ---- Branches

    def is_at_end(self, branch):
        """Whether a branch stands in the last column, from where its line leaves to the right."""
        index, slot = branch.place
        return slot == 2 or is_long(self.figure.rows[index]) and slot == 1

    def leaves_at(self, branch):
        """Where a branch leaves, on the scale of lanes: of each row three steps, where lines come, where they leave, and the gap
        below."""
        return 3 * branch.place[0] + (1 if self.is_at_end(branch) else 2)

    def lay_out_branches(self):
        """Branches to one bundle share a lane."""
        self.inside = [branch for branch in self.figure.branches if branch.target is not None]
        targets = list(dict.fromkeys(branch.target for branch in self.inside))
        stretches = []
        for target in targets:
            ends = [self.leaves_at(branch) for branch in self.inside if branch.target == target] + [3 * target]
            stretches.append(Stretch(min(ends), max(ends)))
        numbers = lanes.lanes(stretches)
        self.lane_of = dict(zip(targets, numbers))
        self.lane_count = lanes.count(numbers)

    def lane_x(self, branch):
        return self.right + FIRST_LANE + self.lane_of[branch.target] * BRANCH_LANE

    # ---- Tracks

    def lay_out_tracks(self):
        numbers = {id(pair): number for pair, number in zip(self.far, self.far_lanes)}
        self.lane_of_pair = {index: self.left - 6 - numbers[id(route.pair)] * PAIR_LANE
                             for index, route in enumerate(self.routes) if not route.is_near}
        for index, route in enumerate(self.routes):
            from_x = route.start if route.is_near else self.lane_of_pair[index]
            ends = sorted((from_x, route.end)) + [route.label.start, route.label.end]
            self.gaps.coming[route.pair.second[0]].append((index, Stretch(min(ends) - 4, max(ends) + 4)))
            if not route.is_near:
                self.gaps.leaving[route.pair.first[0] + 1].append((index, Stretch(*sorted((from_x, route.start)))))
        for number, branch in enumerate(self.figure.branches):
            if not self.is_at_end(branch):
                start = self.branch_x(branch)
                self.gaps.leaving[branch.place[0] + 1].append((-1 - number, Stretch(start - 2, self.right + FIRST_LANE)))
        self.gaps.settle()

    def branch_x(self, branch):
        x, width = self.boxes[branch.place]
        return x + width - 18

    # ---- Heights

    def lay_out_rows(self):
        """The boxes of rows and gaps. A gap has room for its tracks and captions."""
        rows, gaps, y = [], [], 0.0
        for index in range(len(self.figure.rows) + 1):
            captions = len(self.captions[index]) * CAPTION_LINE + (4 if self.captions[index] else 0)
            comes = self.gaps.comes[index] * TRACK
            height = GAP + self.gaps.leaves[index] * EXIT_TRACK
            height += max(captions, comes) if self.is_aside(index) else captions + comes
            gaps.append(Box(self.left, y, self.right - self.left, height))
            y += height
            if index < len(self.figure.rows):
                count = max([len(self.lines[slot.place]) for slot in self.figure.rows[index].slots] or [1])
                box = Box(self.left, y, self.right - self.left, count * LINE + SLOT_PAD)
                rows.append(box)
                y = box.bottom
        return rows, gaps, y

    def is_aside(self, index):
        """Whether the captions of a row have room beside its tracks."""
        return all(len(text) * SMALL < self.marks + ENTRY_MARK - MARGIN for _, text in self.captions[index])

    def coming_y(self, number, gap):
        return gap.bottom - GAP / 2 - (self.gaps.coming_tracks[number] + 0.5) * TRACK + 2

    def leaving_y(self, number, gap):
        return gap.y + 5 + (self.gaps.leaving_tracks[number] + 0.5) * EXIT_TRACK

    # ---- Points

    def pair_wire(self, index, route, rows, gaps):
        (first, _), (second, _) = route.pair.first, route.pair.second
        track = self.coming_y(index, gaps[second])
        end = rows[second].y
        if first == second:
            points = [(route.start, rows[first].y), (route.start, track), (route.end, track), (route.end, end)]
        elif route.is_near:
            points = [(route.start, rows[first].bottom), (route.start, track), (route.end, track), (route.end, end)]
        else:
            lane, leaving = self.lane_of_pair[index], self.leaving_y(index, gaps[first + 1])
            points = [(route.start, rows[first].bottom), (route.start, leaving), (lane, leaving), (lane, track),
                      (route.end, track), (route.end, end)]
        label = Box(route.label.start, track - 7.5, route.label.length, 15)
        return Wire(tuple(points), label, tail_to(label, [point for point in points if point[1] == track]))

    def branch_wire(self, number, branch, rows, gaps):
        row = rows[branch.place[0]]
        if self.is_at_end(branch):
            start = [(self.right + 3, row.y + row.height * 0.7)]
        else:
            x, y = self.branch_x(branch), self.leaving_y(-1 - number, gaps[branch.place[0] + 1])
            start = [(x, row.bottom), (x, y)]
        if branch.target is None:
            return Wire((*start, (self.right + FIRST_LANE - 4, start[-1][1])))
        lane, target = self.lane_x(branch), rows[branch.target]
        return Wire((*start, (lane, start[-1][1]), (lane, target.y + target.height * 0.3),
                     (self.right + 5, target.y + target.height * 0.3)))

    def geometry(self):
        rows, gaps, height = self.lay_out_rows()
        slots = {slot.place: Box(self.boxes[slot.place][0], rows[index].y, self.boxes[slot.place][1], rows[index].height)
                 for index, row in enumerate(self.figure.rows) for slot in row.slots}
        captions = []
        for index, texts in enumerate(self.captions[:-1]):
            bottom = gaps[index].bottom - GAP / 2 - (0 if self.is_aside(index) else self.gaps.comes[index] * TRACK)
            captions.append(tuple((kind, text, bottom - (len(texts) - 1 - line) * CAPTION_LINE - 4)
                                  for line, (kind, text) in enumerate(texts)))
        said = max([len(line) for branch in self.figure.branches for line in branch.only_by] + [0])
        said = max(said, len("only by this way:")) if said else 0
        width = max(LEAST_WIDTH, self.ways + said * SMALL + MARGIN)
        wires = (self.pair_wire(index, route, rows, gaps) for index, route in enumerate(self.routes))
        branches = (self.branch_wire(number, branch, rows, gaps) for number, branch in enumerate(self.figure.branches))
        return Geometry(width, height + MARGIN, self.left, self.right, self.numbers, self.marks, tuple(rows), tuple(gaps), slots,
                        self.lines, tuple(captions), tuple(wires), tuple(branches), self.ways)
