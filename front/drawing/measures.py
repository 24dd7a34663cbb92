"""The measures of a picture, in pixels, and columns and captions by them."""

from typing import List, Tuple

from front.drawing import words

# Of a character of a text, a caption or a number, and of a label of a pair.
CHARACTER, SMALL, LABEL = 7.83, 6.65, 6.65
LINE, CAPTION_LINE = 17, 16
TAB, TEXT_LEFT, TEXT_RIGHT = 18, 25, 14            # of a slot: the letter of its unit, and what stands beside its text
SLOT_PAD, GUTTER, MARGIN = 11, 7, 16
NARROWEST, WIDEST = 10, 34                         # of a column, in characters
TRACK, EXIT_TRACK, GAP = 19, 7, 9                  # heights: of a track with labels and without, and of an empty gap
PAIR_LANE, BRANCH_LANE, FIRST_LANE = 9, 10, 20
ENTRY_MARK = 16
BESIDE = 7                                         # between a line and a label that stands beside it
CORNER = 6                                         # the radius of a line's corners
LEAST_WIDTH = 640


def is_long(row):
    return row.units == "mlx"


def column_widths(figure):
    """The widths of the three columns in characters."""
    longest = [NARROWEST] * 3
    for row in figure.rows:
        for slot in row.slots:
            if not (is_long(row) and slot.place[1] == 1):
                longest[slot.place[1]] = max(longest[slot.place[1]], min(len(slot.text), WIDEST))
    return longest


def columns(figure, left):
    """Of each column where it begins and how wide it is."""
    found, x = [], left
    for characters in column_widths(figure):
        width = TEXT_LEFT + characters * CHARACTER + TEXT_RIGHT
        found.append((x, width))
        x += width + GUTTER
    return found


def slot_span(row, slot, across):
    """Where a slot begins and how wide it is: a long one takes two columns."""
    x, width = across[slot.place[1]]
    if is_long(row) and slot.place[1] == 1:
        return x, width + GUTTER + across[2][1]
    return x, width


def characters_of(width):
    return int((width - TEXT_LEFT - TEXT_RIGHT) / CHARACTER + 0.001)


def caption_texts(row):
    """The captions of a row, each with its kind."""
    found = [("label", f"{name}:") for name in row.labels]
    if row.entry:
        found.append(("entry", f"entry: {row.entry.why}"))
        found += [("promise", f"promises of {', '.join(names)}: no two are both 1" if len(names) > 2 else
                   f"promises: {names[0]} and {names[1]} are never both 1") for names in row.entry.promises]
    return found


def caption_lines(row, width):
    """The lines of a row's captions, each with its kind."""
    found: List[Tuple[str, str]] = []
    for kind, text in caption_texts(row):
        found += [(kind, line) for line in words.wrapped(text, max(20, int(width / SMALL)))]
    return found
