"""What a page has beside its figures: its style and its scripts, which stand in `front/page`."""

from pathlib import Path

from front.drawing.style import EDGE, ENTRY, GREEN, INK, MONO, PAPER, QUIET, RED, SANS, TINTS

# The colours of a page, by their names there; those of pictures.
COLOURS = {"ink": INK, "paper": PAPER, "quiet": QUIET, "red": RED, "green": GREEN, "branch": EDGE, "focus": ENTRY,
           "tint": TINTS[0]}


def colours():
    """The colours and the fonts as variables, in light, and in dark on screens."""
    light, dark = ("".join(f"--{name}:{pair[at]};" for name, pair in COLOURS.items()) for at in (0, 1))
    return (f":root{{color-scheme:light dark;{light}--sans:{SANS};--mono:{MONO}}}\n"
            f"@media screen and (prefers-color-scheme:dark){{:root{{{dark}}}}}\n")


def part(name):
    """A script or a style of a page."""
    return (Path(__file__).resolve().parent.parent / "page" / name).read_text("utf-8")


LOOK = """
body{margin:0;padding:1rem 1rem 9rem;font-family:var(--sans)}
body,#panel{color:var(--ink);background:var(--paper)}
.said.accepted{color:var(--green)}.said.violated{color:var(--red)}.said.not-judged{color:var(--quiet)}
h2{font-size:1.25rem;margin:1.4rem 0 .2rem;overflow-wrap:anywhere}section:first-child h2{margin-top:.2rem}
p{margin:.2rem 0;max-width:75rem;font-size:.85rem}
.said{font-weight:700;font-size:1rem}
figure{margin:.6rem 0;overflow-x:auto}
figure svg{display:block}
#panel{position:fixed;left:0;right:0;bottom:0;min-height:6.5rem;max-height:40vh;overflow:auto;box-sizing:border-box;
padding:.6rem 1rem;border-top:2px solid var(--quiet);font-size:.85rem}
#panel h3{margin:0 0 .2rem;font:700 .95rem monospace;overflow-wrap:anywhere}
#panel ul{margin:.2rem 0;padding-left:1.2rem}
table{border-collapse:collapse;font-size:.8rem}
td,th{text-align:left;padding:.1rem .8rem .1rem 0;vertical-align:top}
td.code{font-family:monospace;white-space:pre-wrap}
summary{cursor:pointer;font-size:.85rem}
.slot{cursor:pointer}
.slot.is-chosen .box,.slot:focus .box{stroke-width:3px}
.is-faint{opacity:.18}
@media print{#panel,details{display:none}body{padding:0}figure svg{max-width:100%;height:auto}h2{break-after:avoid}}
"""

# What a page with a run has beside that.
LOOK_OF_A_RUN = """
.listed{font:.8rem var(--mono);white-space:pre-wrap}
.beside figure{max-height:45vh;overflow:auto}
@media (min-width:75rem){.beside{display:grid;grid-template-columns:minmax(0,1fr) minmax(20rem,26rem);gap:1.2rem}
.beside figure,#stepping{max-height:calc(100vh - 9rem);overflow:auto}}
@media print{.beside{display:block}.beside figure{max-height:none}}
"""
