"""A figure as SVG: one that stands alone, or a part of a page."""

from typing import List

from front.drawing import words
from front.drawing.accesses import in_order, shown
from front.drawing.figure import STOOD_IN, UNKNOWN, Figure, ranges
from front.drawing.geometry import Box, geometry
from front.drawing.legend import legend
from front.drawing.measures import CORNER, LINE, MARGIN, TAB, TEXT_LEFT
from front.drawing.markup import Drawn, element, number, text_element
from front.drawing.routes import roles
from front.drawing.style import SHEET

TITLE_LINE, VERDICT_LINE, NOTE_LINE = 26, 24, 17
TITLE_CHARACTER, VERDICT_CHARACTER, NOTE_CHARACTER = 12.6, 8.8, 6.7          # of fonts that are wide
GLYPHS = {"accepted": "\u2713", "violated": "\u2717", "not judged": "?"}
MARKS = {STOOD_IN: "outside the profile, and another instruction stood in for it", UNKNOWN: "outside the profile"}


# ---- Lines -----------------------------------------------------------------------------------------------------------------

def path_of(points):
    """A way through points, with round corners."""
    parts = [f"M{spelled(points[0])}"]
    for before, corner, after in zip(points, points[1:], points[2:]):
        start, end = towards(corner, before), towards(corner, after)
        parts.append(f"L{spelled(start)} Q{spelled(corner)} {spelled(end)}")
    return " ".join([*parts, f"L{spelled(points[-1])}"])


def spelled(point):
    """A point, as attributes have it."""
    return f"{number(point[0])},{number(point[1])}"


def towards(corner, point):
    """A point near a corner, on the way to another one."""
    across, down = point[0] - corner[0], point[1] - corner[1]
    length = abs(across) + abs(down)
    part = min(CORNER, length / 2) / length if length else 0
    return corner[0] + across * part, corner[1] + down * part


def arrow(points, kind):
    """The head of an arrow at the end of a way."""
    (x0, y0), (x, y) = points[-2:]
    if abs(x - x0) > abs(y - y0):
        back = -6.5 if x > x0 else 6.5
        corners = ((x, y), (x + back, y - 3.6), (x + back, y + 3.6))
    else:
        back = -6.5 if y > y0 else 6.5
        corners = ((x, y), (x - 3.6, y + back), (x + 3.6, y + back))
    return element("polygon", points=" ".join(map(spelled, corners)), class_=kind)


def pair_line(pair, wire, prefix, at):
    """The line of a pair."""
    said = said_pair(pair)
    kind, head = ("excused", "why") if pair.excuse else ("violation", "red")
    way = " ".join(path_of(points) for points in (wire.points, wire.tail) if points)
    return element("g", text_element("title", said), element("path", d=way, class_=f"line {kind}"),
                   arrow(wire.points, head), id=f"{prefix}pair-{at}", class_=f"pair is-{kind}", role="graphics-symbol img",
                   aria_label=said, data_slots=slots_of(pair, prefix))


def pair_label(pair, wire, prefix):
    """The label of a pair, which stands over all lines."""
    box, (edge, label) = wire.label, ("box", "why") if pair.excuse else ("violation", "red-label")
    return element("g", text_element("title", said_pair(pair)),
                   element("rect", x=box.x, y=box.y, width=box.width, height=box.height, rx=4, class_=f"cased {edge}"),
                   text_element("text", pair.label, x=box.x + box.width / 2, y=box.y + 11.2, text_anchor="middle", class_=label),
                   class_="pair-label", aria_hidden="true", data_slots=slots_of(pair, prefix))


def said_pair(pair):
    """A pair in words, each of its resources by itself."""
    return "; ".join(pair.said) + (f"; excused: {pair.excuse}" if pair.excuse else "")


def slots_of(pair, prefix):
    return " ".join(slot_id(prefix, place) for place in (pair.first, pair.second))


def branch_line(branch, wire):
    kind = "way" if branch.only_by else "branch"
    said = f"branch from {branch.said}" + "".join(f"; {name} clashes only by this way" for name in branch.only_by)
    return element("g", text_element("title", said), element("path", d=path_of(wire.points), class_=f"line {kind}"),
                   arrow(wire.points, "red" if branch.only_by else "head"), class_=f"edge is-{kind}",
                   role="graphics-symbol img", aria_label=said, data_place="{0[0]}.{0[1]}".format(branch.place))


def way_words(branches, wires, at):
    """What is said of the branches by which alone pairs clash, at the right, in the height of their slots."""
    parts: List[str] = []
    for branch, wire in zip(branches, wires):
        if branch.only_by:
            x, y = wire.points[-3 if branch.target is not None else -1]
            lines = ["only by this way:", *branch.only_by]
            parts.append(element("path", d=f"M{number(x)},{number(y)} L{number(at - 3)},{number(y)}", class_="line way leader"))
            parts += [text_element("text", line, x=at, y=y + 4 + 13 * index, class_="red-label halo")
                      for index, line in enumerate(lines)]
    return "".join(parts)


# ---- Slots -----------------------------------------------------------------------------------------------------------------

def slot_id(prefix, place):
    return f"{prefix}slot-{place[0]}-{place[1]}"


def said_names(names):
    """Names of resources as they are told."""
    return ranges([shown(name) for name in in_order(names)]) or "nothing"


def said_slot(slot, pairs):
    """A slot in words, for those who don't see it."""
    parts = [f"{slot.name}, unit {slot.unit}: {slot.text}" + (" ;;" if slot.has_stop else ""), slot.canonical]
    if slot.accesses:
        parts += [f"reads {said_names(slot.accesses.reads)}", f"writes {said_names(slot.accesses.writes)}"]
    parts += [f"group {slot.group + 1}", MARKS.get(slot.mark), slot.source]
    parts += [said + (f" (excused: {pair.excuse})" if pair.excuse else "") for pair in pairs for said in pair.said]
    return "; ".join(filter(None, parts))


def red_spans(slot, pairs):
    """Where a slot's text names what it clashes on."""
    found = set()
    for pair in pairs:
        if not pair.excuse:
            for place, role in zip((pair.first, pair.second), roles(pair.rule)):
                if place == slot.place:
                    for resource in pair.resources:
                        found.update(words.resource_spans(slot.text, resource, role))
    return sorted(found)


def text_line(text, line, spans):
    """A line of a slot's text, with what it clashes on in red."""
    parts, at = [], line.start
    for span in spans:
        start, end = max(span.start, at), min(span.end, line.end)
        if start < end:
            parts += [text_element("tspan", text[at:start])] * (at < start)
            parts.append(text_element("tspan", text[start:end], class_="red"))
            at = end
    return "".join([*parts, *[text_element("tspan", text[at:line.end])] * (at < line.end)])


def slot_box(slot, box: Box, lines, pairs, prefix):
    """The box of a slot, with its unit, its text and the bar of its stop."""
    is_broken = any(not pair.excuse for pair in pairs)
    kinds = " ".join(["box"] + ["broken"] * is_broken + ["outside"] * bool(slot.mark))
    spans = red_spans(slot, pairs)
    first = box.y + box.height / 2 - (len(lines) - 1) * LINE / 2 + 4.5
    parts = [text_element("title", said_slot(slot, pairs)),
             element("rect", x=box.x, y=box.y, width=box.width, height=box.height, rx=3, class_=f"tint{slot.group % 2} {kinds}"),
             element("rect", x=box.x + 1, y=box.y + 1, width=TAB - 1, height=box.height - 2, rx=2,
                     class_=f"unit-{slot.unit.lower()}"),
             text_element("text", slot.unit, x=box.x + 1 + (TAB - 1) / 2, y=box.y + box.height / 2 + 4.3, text_anchor="middle",
                          class_="letter")]
    for index, line in enumerate(lines):
        parts.append(element("text", text_line(slot.text, line, spans), x=box.x + TEXT_LEFT, y=first + index * LINE,
                             class_="nop" if slot.is_nop else "text"))
    if slot.mark:
        parts.append(text_element("text", slot.mark, x=box.right - 12, y=box.y + 11, class_="mark"))
    if slot.has_stop:
        parts.append(element("rect", x=box.right - 2, y=box.y - 2.5, width=5, height=box.height + 5, rx=1, class_="stop"))
    return element("g", *parts, id=slot_id(prefix, slot.place), class_=f"slot group-{slot.group}", tabindex=0,
                   role="graphics-symbol img", aria_label=said_slot(slot, pairs), data_group=slot.group)


# ---- Rows ------------------------------------------------------------------------------------------------------------------

def bundle(row, index, shape, pairs, prefix):
    """A bundle with what stands beside it."""
    box, parts = shape.rows[index], [text_element("title", f"bundle {row.name}")]
    middle = box.y + box.height / 2
    parts.append(element("text", text_element("tspan", row.name, class_="number", font_weight="bold"),
                         text_element("tspan", f" .{row.units}" if row.units else "", class_="quiet"),
                         x=shape.numbers, y=middle + (0 if row.lines or not row.is_walked else 4), text_anchor="end"))
    below = "on no walk" if not row.is_walked else row.lines
    if below:
        parts.append(text_element("text", below, x=shape.numbers, y=middle + 12, text_anchor="end", class_="quiet"))
    if row.entry:
        corners = (shape.marks, middle - 6), (shape.marks + 10, middle), (shape.marks, middle + 6)
        parts.append(element("polygon", points=" ".join(map(spelled, corners)), class_="entry"))
    for kind, text, y in shape.captions[index]:
        classes = {"label": "label", "entry": "entry", "promise": "entry promise"}[kind]
        parts.append(text_element("text", text, x=MARGIN, y=y, class_=f"{classes} halo"))
    for slot in row.slots:
        touching = pairs.get(slot.place, [])
        parts.append(slot_box(slot, shape.slots[slot.place], shape.lines[slot.place], touching, prefix))
    if not row.slots:
        parts.append(element("rect", x=box.x, y=box.y, width=box.width, height=box.height, rx=3, class_="cased box outside"))
        parts.append(text_element("text", row.said, x=box.x + TEXT_LEFT, y=middle + 4.5, class_="nop"))
    return element("g", *parts, class_="bundle", role="graphics-object group",
                   aria_label=f"bundle {row.name} {row.units}".strip())


def bands(figure, shape):
    """Where a group goes on from a row to the next: the gap between them has its tint."""
    parts = []
    for index, (row, following) in enumerate(zip(figure.rows, figure.rows[1:])):
        if row.slots and following.slots and not row.slots[-1].has_stop:
            gap = shape.gaps[index + 1]
            parts.append(element("rect", x=gap.x + 2, y=gap.y - 1, width=gap.width - 4, height=gap.height + 2, opacity="0.55",
                                 class_=f"tint{row.slots[-1].group % 2}"))
    return "".join(parts)


def drawing(figure: Figure, prefix):
    """The bundles of a figure and its lines, without a head."""
    shape, pairs = geometry(figure), figure.touching()
    rows = [bundle(row, index, shape, pairs, prefix) for index, row in enumerate(figure.rows)]
    edges = sorted(zip(figure.branches, shape.branches), key=lambda edge: bool(edge[0].only_by))
    lines = [branch_line(*edge) for edge in edges]
    arcs = sorted(enumerate(zip(figure.pairs, shape.wires)), key=lambda row: not row[1][0].excuse)
    lines += [pair_line(pair, wire, prefix, at) for at, (pair, wire) in arcs]
    lines += [pair_label(pair, wire, prefix) for _, (pair, wire) in arcs]
    return Drawn("".join([bands(figure, shape), *rows, *lines, way_words(figure.branches, shape.branches, shape.ways)]),
                 shape.width, shape.height)


# ---- The whole -------------------------------------------------------------------------------------------------------------

def head(figure, width):
    """The head of a figure: what is drawn, the verdict, and what is proved of it."""
    parts, y = [], 0.0
    for line in words.wrapped(figure.title, int((width - 2 * MARGIN) / TITLE_CHARACTER)):
        y += TITLE_LINE
        parts.append(text_element("text", line, x=MARGIN, y=y, class_="title"))
    kind = figure.verdict.replace(" ", "-")
    for line in words.wrapped(f"{GLYPHS[figure.verdict]} {figure.said}", int((width - 2 * MARGIN) / VERDICT_CHARACTER)):
        y += VERDICT_LINE
        parts.append(text_element("text", line, x=MARGIN, y=y, class_=f"verdict {kind}"))
    y += 4
    for note in figure.notes:
        for line in words.wrapped(note, int((width - 2 * MARGIN) / NOTE_CHARACTER)):
            y += NOTE_LINE
            parts.append(text_element("text", line, x=MARGIN, y=y, class_="note"))
    return Drawn("".join(parts), width, y + 8)


def moved(drawn, y):
    return element("g", drawn.markup, transform=f"translate(0 {number(y)})")


def with_head(figure, prefix):
    """A figure with its head and its legend."""
    body = drawing(figure, prefix)
    top = head(figure, body.width)
    key = legend(figure, body.width)
    height = top.height + key.height
    return Drawn(element("g", top.markup, moved(key, top.height), moved(body, height), role="graphics-object group",
                         aria_label=f"{figure.title}: {figure.said}"), body.width, height + body.height)


def opening_of(width, height):
    return {"viewBox": f"0 0 {number(width)} {number(height)}", "width": round(width), "height": round(height),
            "role": "graphics-document document"}


def document(figures):
    """Figures, one below another, as a picture that stands alone."""
    drawn = [with_head(figure, f"f{number_}-") for number_, figure in enumerate(figures)]
    width, height, parts = max(part.width for part in drawn), 0.0, []
    for part in drawn:
        parts.append(moved(part, height))
        height += part.height + MARGIN
    title = ", ".join(f"{figure.title}: {figure.said}" for figure in figures)
    described = " ".join(dict.fromkeys(note for figure in figures for note in figure.notes))
    return element("svg", text_element("title", title, id="title"), text_element("desc", described, id="desc"),
                   element("style", SHEET), element("rect", width="100%", height="100%", class_="paper"), *parts,
                   xmlns="http://www.w3.org/2000/svg", aria_labelledby="title", aria_describedby="desc",
                   lang="en", **opening_of(width, height)) + "\n"


def inline(figure, prefix):
    """The bundles of a figure and its legend, as a part of a page that has its head in words."""
    body = drawing(figure, prefix)
    key = legend(figure, body.width)
    return element("svg", text_element("title", f"{figure.title}: {figure.said}"), key.markup, moved(body, key.height),
                   **opening_of(body.width, key.height + body.height))
