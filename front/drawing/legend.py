"""The legend of a figure: what occurs in it, drawn as it is drawn there, and in words."""

from typing import List, NamedTuple

from front.drawing.figure import STOOD_IN, UNKNOWN, Figure
from front.drawing.markup import Drawn, element, number, text_element
from front.drawing.measures import MARGIN

UNITS = {"M": "memory, integers", "I": "integers", "F": "floating point", "B": "branches", "X": "long"}
SAMPLE, CHARACTER, LINE, BETWEEN = 26, 6.3, 20, 18


class Sample(NamedTuple):
    markup: str                        # from (0, 0) to (26, 12)
    said: str


def samples(figure: Figure) -> List[Sample]:
    """What is explained: units, groups and stops always, and else what occurs."""
    slots, found = figure.slots, []
    for unit, said in UNITS.items():
        if any(slot.unit == unit for slot in slots):
            found.append(Sample(element("rect", x=4, width=17, height=13, rx=2, class_=f"unit-{unit.lower()}") +
                                text_element("text", unit, x=12.5, y=11, text_anchor="middle", class_="letter"), said))
    tints = "".join(element("rect", x=13 * at, width=12, height=13, class_=f"tint{at} box") for at in (0, 1))
    found.append(Sample(tints, "groups, in turn"))
    found.append(Sample(element("rect", x=11, y=-1, width=5, height=15, class_="stop"), "a stop: the group ends"))
    if any(row.entry for row in figure.rows):
        found.append(Sample(element("polygon", points="8,0 18,6.5 8,13", class_="entry"), "an entry: walks begin here"))
    if figure.branches:
        found.append(Sample(line("branch") + head("head"), "where a branch leads"))
    if any(branch.only_by for branch in figure.branches):
        found.append(Sample(line("way") + head("red"), "a pair clashes only by this way"))
    if any(not pair.excuse for pair in figure.pairs):
        found.append(Sample(line("violation") + head("red"), "a violation: rule and resource"))
    if any(pair.excuse for pair in figure.pairs):
        found.append(Sample(line("excused") + head("why"), "a pair that predicates excuse"))
    for mark, said in ((STOOD_IN, "outside the profile, stood in for"), (UNKNOWN, "outside the profile")):
        if any(slot.mark == mark for slot in slots):
            found.append(Sample(text_element("text", mark, x=9, y=11, class_="mark"), said))
    return found


def line(kind):
    return element("path", d="M0,6.5 L20,6.5", class_=f"line {kind}")


def head(kind):
    return element("polygon", points="26,6.5 19,3 19,10", class_=kind)


def legend(figure, width):
    """The samples side by side, in as many lines as they need."""
    parts, x, y = [], float(MARGIN), 4.0
    for sample in samples(figure):
        wide = SAMPLE + 7 + len(sample.said) * CHARACTER
        if x > MARGIN and x + wide > width - MARGIN:
            x, y = float(MARGIN), y + LINE
        parts.append(element("g", sample.markup, text_element("text", sample.said, x=SAMPLE + 6, y=10.5, class_="legend"),
                             transform=f"translate({number(x)} {number(y)})"))
        x += wide + BETWEEN
    return Drawn(element("g", *parts, class_="legends", role="graphics-object group", aria_label="legend"), width, y + LINE + 4)
