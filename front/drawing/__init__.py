"""`ia64 draw`: pictures of programs and functions.

A `figure.Figure` says what is drawn. `of_programs` and `of_functions` make it, and ask the proved program for all that can be
asked of it: the verdict, the texts, what predicates excuse and by which branches alone a pair clashes. From there on all is pure:
`geometry` (with `measures`, `routes`, `lanes` and `words`) says where everything stands, `svg` writes it as a picture, and `page`
as a page, which may have a run of the program too (`runs`).

Nothing is proved of a picture. It shows the pairs that `check` prints, and none other, in red.
"""

from front.drawing import of_functions, of_programs, page, runs, svg
from front.judging import ACCEPTED

# By the suffix of the file where a picture goes.
DRAWERS = {".svg": svg.document, ".html": page.document}


def of_program(file, source, program, is_proved):
    """The figure of the program of an image, which may be that of a source."""
    return of_programs.figure(file, source, program, is_proved)


def page_of_program(figure, file, source, program, groups):
    """The page of a program with this figure, with so many groups of its run where it runs."""
    run = runs.run_of(file, source, program, groups) if groups and figure.verdict == ACCEPTED else None
    return page.document([figure], run)


def of_code(file, functions, judge, is_proved):
    """The figures of functions of a file of code."""
    return of_functions.all_figures(file, functions, judge, is_proved)
