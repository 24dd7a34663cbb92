"""The statements of a source."""

import re

from front.faults import Unread

PIECE = re.compile(r"""(?P<code>[^"'/;{}\n]+)|(?P<mark>;;|[;{}\n])|(?P<comment>//[^\n]*)|(?P<block>/\*)
                       |(?P<quoted>"(?:[^"\\\n]|\\.)*"|'(?:\\.|[^\\\n])'?)|(?P<other>["'/])""", re.X)
LINE_COMMENT = re.compile(r"[ \t]*#[^\n]*")
# A line that is a statement, or a stop, or blank.
PLAIN_LINE = re.compile(r"""[ \t]*(?:(;;)[ \t]*|([^"'/;{}#\n \t][^"'/;{}\n]*)|)\n""")


def statements(text):
    """The statements of a source, without comments, and the marks `{`, `}` and `;;` between them, each with its line."""
    said, line, began, at, is_first = [], 1, 0, 0, True
    while at < len(text):
        plain = PLAIN_LINE.match(text, at) if is_first and not said else None
        if plain:
            if plain.lastindex:
                yield line, plain[plain.lastindex]
            line, at = line + 1, plain.end()
            continue
        comment = LINE_COMMENT.match(text, at) if is_first else None
        found = comment or PIECE.match(text, at)
        at, kind, piece, is_first = found.end(), "comment" if comment else found.lastgroup, found[0], False
        if kind == "mark":
            if said:
                yield began, "".join(said)
                said = []
            if piece in ("{", "}", ";;"):
                yield line, piece
            line += piece == "\n"
            is_first = piece == "\n"
        elif kind == "block":
            end = text.find("*/", at)
            if end < 0:
                raise Unread(line, "a comment without an end")
            line += text.count("\n", at, end)
            at = end + 2
            said += [" "] * bool(said)
        elif kind != "comment" and (said or not piece.isspace()):
            if piece in ('"', "'"):
                raise Unread(line, "a quotation without an end")
            began = began if said else line
            said.append(piece)
    if said:
        yield began, "".join(said)
