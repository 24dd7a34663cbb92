"""How pictures look: colours in light and in dark, and the style sheet that both forms have.

Colours never say a thing alone: units have their letters, violations are bold and underlined, what is excused is dashed.
"""

from typing import NamedTuple

MONO = '"DejaVu Sans Mono","Liberation Mono",Menlo,Consolas,monospace'
SANS = 'system-ui,"Segoe UI","DejaVu Sans",Arial,sans-serif'


class Colour(NamedTuple):
    """Of a class: its property, in light and in dark."""
    name: str
    what: str
    light: str
    dark: str


PAPER, INK, QUIET = ("#ffffff", "#14181f"), ("#1a202c", "#e6e9ef"), ("#556070", "#a3adba")
RED, GREY, EDGE = ("#b3001b", "#ff8f8a"), ("#5b6472", "#a7b0bd"), ("#3d4a5c", "#b4bfcd")
GREEN, ENTRY = ("#1b6b3a", "#7fd69b"), ("#5a2d91", "#c9a6f5")
TINTS = (("#e4effb", "#1d3044"), ("#fdf1d3", "#39301a"))
UNITS = {"m": ("#2b6cb0", "#2b6cb0"), "i": ("#27734a", "#27734a"), "f": ("#6b46c1", "#7350c4"), "b": ("#a8420f", "#a8420f"),
         "x": ("#0f6670", "#0f6670")}

COLOURS = (
    Colour("paper", "fill", *PAPER),
    *(Colour(name, "fill", *INK) for name in ("text", "title", "number", "label")),
    *(Colour(name, "fill", *QUIET) for name in ("quiet", "nop", "note", "legend")),
    *(Colour(f"tint{number}", "fill", *tint) for number, tint in enumerate(TINTS)),
    *(Colour(f"unit-{unit}", "fill", *colours) for unit, colours in UNITS.items()),
    Colour("letter", "fill", "#ffffff", "#ffffff"),
    Colour("box", "stroke", "#b9c3d0", "#48566a"), Colour("broken", "stroke", *RED), Colour("stop", "fill", *INK),
    Colour("red", "fill", *RED), Colour("red-label", "fill", *RED), Colour("violation", "stroke", *RED),
    Colour("excused", "stroke", *GREY),
    Colour("why", "fill", *GREY), Colour("branch", "stroke", *EDGE), Colour("way", "stroke", *RED), Colour("head", "fill", *EDGE),
    Colour("entry", "fill", *ENTRY), Colour("accepted", "fill", *GREEN), Colour("violated", "fill", *RED),
    Colour("not-judged", "fill", *QUIET), Colour("halo", "stroke", *PAPER), Colour("cased", "fill", *PAPER),
    Colour("mark", "fill", *ENTRY), Colour("chosen", "stroke", *ENTRY),
)

SHAPES = f"""
text{{font-family:{MONO};font-size:13px;white-space:pre}}
.title{{font-family:{SANS};font-size:19px;font-weight:700}}
.verdict{{font-family:{SANS};font-size:15px;font-weight:700}}
.note,.legend{{font-family:{SANS};font-size:12px}}
.number{{font-size:11px}}.quiet,.label,.entry,.why,.red-label,.promise{{font-size:11px}}
.label{{font-weight:700}}.letter{{font-size:12px;font-weight:700}}
.red{{font-weight:700;text-decoration:underline}}.red-label{{font-weight:700}}
.pair-label .violation{{stroke-width:1.4px}}.halo{{stroke-width:4px;stroke-linejoin:round;paint-order:stroke}}
.line{{fill:none;stroke-linejoin:round;stroke-linecap:round}}
.violation{{stroke-width:2px}}.excused{{stroke-width:1.5px;stroke-dasharray:5 4}}
.branch{{stroke-width:1.4px}}.way{{stroke-width:2.6px}}.leader{{stroke-width:1px;stroke-dasharray:1 3}}
.box{{stroke-width:1px}}.broken{{stroke-width:2.2px}}.outside{{stroke-dasharray:3 2}}
.slot:focus,.slot:hover{{outline:none}}
"""


def rules(index, colours):
    """The rules of colours: those in light, or those in dark."""
    return "".join(f".{colour.name}{{{colour.what}:{colour[index]}}}" for colour in colours)


# Dark is for screens alone, so that what is printed is light.
SHEET = (f"{SHAPES.strip()}\n{rules(2, COLOURS)}\n"
         f"@media screen and (prefers-color-scheme:dark){{{rules(3, COLOURS)}}}\n")
