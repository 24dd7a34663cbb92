"""Figures as a page that stands alone: one file, with its style and its script in it.

A slot that the pointer is on, or that has the focus, is told in the panel, and its lines stand out. Arrow keys go from slot to
slot. A program that runs can be stepped through, group by group. Without the script all stands there too: in the titles of the
slots, in the table below each picture, and in the list of the groups.
"""

from front.drawing import runs, svg
from front.drawing.figure import Figure
from front.drawing.markup import element, escaped, text_element
from front.drawing.page_parts import LOOK, LOOK_OF_A_RUN, colours, part
from front.drawing.style import SHEET
from front.drawing.svg import said_names

# The scripts of each page, and those of one with a run.
SCRIPTS, OF_A_RUN = ("slots.js", "drawn.js"), ("slots.js", "steps.js", "stepping.js", "drawn.js")
OF_STATES = "The states and how each group ends are the program's, as ia64 trace prints them; what changed is told of them here."
HEADS = ("Place", "Unit", "Instruction", "Reads", "Writes", "Group", "More")


def more(slot):
    """What else there is to say of a slot."""
    return "; ".join(filter(None, (slot.canonical, slot.source, svg.MARKS.get(slot.mark))))


def table_row(slot, prefix):
    names = (said_names(slot.accesses.reads), said_names(slot.accesses.writes)) if slot.accesses else ("not known", "not known")
    cells = [text_element("td", slot.name), text_element("td", slot.unit),
             text_element("td", slot.text + " ;;" * slot.has_stop, class_="code"),
             *(text_element("td", text) for text in (*names, slot.group + 1, more(slot)))]
    return element("tr", *cells, id=f"row-{svg.slot_id(prefix, slot.place)}")


def table(figure: Figure, prefix):
    """The slots of a figure as a table, and its pairs as a list."""
    rows = element("tr", *(text_element("th", name, scope="col") for name in HEADS))
    rows += "".join(table_row(slot, prefix) for slot in figure.slots)
    pairs = [text_element("li", svg.said_pair(pair)) for pair in figure.pairs]
    listed = element("ul", *pairs) if pairs else ""
    return element("details", text_element("summary", "The same as a table"), listed, element("table", rows))


def picture(figure, prefix, run):
    """The picture of a figure, and beside it what steps through its run, if it has one."""
    drawn = element("figure", svg.inline(figure, prefix))
    if run is None:
        return drawn
    told = text_element("p", f"{runs.said(run)} {OF_STATES if run.count else ''}".strip())
    if not run.count:
        return told + drawn
    listed = element("details", text_element("summary", "The groups as a list"),
                     text_element("pre", "\n".join(run.lines), class_="listed"))
    return element("div", drawn, element("div", element("div", "", id="stepping"), told, listed), class_="beside")


def section(figure: Figure, prefix, run=None):
    kind = figure.verdict.replace(" ", "-")
    said = f"{svg.GLYPHS[figure.verdict]} {figure.said}"
    return element("section", text_element("h2", figure.title), text_element("p", said, class_=f"said {kind}"),
                   *(text_element("p", note) for note in figure.notes), picture(figure, prefix, run),
                   table(figure, prefix), class_="picture", aria_label=figure.title)


def data_of(figure, run, prefix):
    """The run of a figure for the script."""
    return f'<script type="application/json" id="run">{runs.as_data(figure, run, prefix)}</script>\n'


def document(figures, run=None):
    """Figures, one below another, as a page; of a single one there may be a run."""
    title = ", ".join(dict.fromkeys(figure.file for figure in figures))
    told = "Point at a slot, or go to it with Tab and the arrow keys, to see what it reads and writes."
    body = "".join(section(figure, f"f{number}-", run) for number, figure in enumerate(figures))
    has_run = run is not None and run.count > 0
    scripts = "".join(map(part, OF_A_RUN if has_run else SCRIPTS))
    look = colours() + LOOK + (LOOK_OF_A_RUN + part("stepping.css")) * has_run + SHEET
    return ("<!DOCTYPE html>\n<html lang=\"en\"><head><meta charset=\"utf-8\"/>"
            "<meta name=\"viewport\" content=\"width=device-width, initial-scale=1\"/>"
            f"<title>{escaped(title)}</title><style>{look}</style></head>\n<body><main>{body}</main>\n"
            f"<aside id=\"panel\" aria-live=\"polite\" aria-label=\"the slot that is chosen\">{escaped(told)}</aside>\n"
            f"{data_of(figures[0], run, 'f0-') if has_run else ''}<script>{scripts}</script></body></html>\n")
