"""What is said of a text or an image that the proved program refuses: the reason that it prints, and what that means."""

import re
import shlex

from front.faults import Fault, printable
from front.files import Kind, kind_of, read_code
from front.texts import REASONS, lines_of_text, parts_of

# What the reasons of a refused image mean, in few words; docs/use/commands.md, "Printed texts", has them whole. Those of a text
# are `REASONS`.
REASONS_OF_IMAGES = {
    "short": "it has fewer than 24 bytes",
    "magic": "it doesn't begin with IA64IMG1 or IA64IMG2, as an image does",
    "counts": "a number of its head is out of its range",
    "length": "bytes are missing or left over",
    "template": "no bundle has this template",
    "unlisted": "no instruction of the profile has the word of this slot",
    "target": "the target of this branch or check is no bundle",
    "long run": REASONS["long run"],
}

# What is said beside of a file that is neither a text nor an image, by what stands in it; and of a byte 0, which no text has.
OTHERS = {Kind.CODE: "; it is an object file or a linked one: `ia64 show FILE FUNCTION` prints the text of a function",
          Kind.ARCHIVE: "; it is an archive: `ia64 check FILE` takes it, and `ar x` takes out its members"}
NOTHING_ELSE = "; the file is neither code for Itanium, nor an archive of it, nor an image"

REFUSAL_OF_TEXT = r"line (\d+): (.*)"


def directive_at(data, said):
    """The directive at which the program refuses a text, and nothing where it is none that is refused."""
    found = re.fullmatch(REFUSAL_OF_TEXT, said)
    lines = lines_of_text(data) if found else []
    line = lines[int(found[1]) - 1].lstrip() if found and int(found[1]) <= len(lines) else ""
    return line.split()[0] if line.startswith(".") else ""


def at_lines(printed, numbers):
    """A printed refusal of a text, by the lines of another one: these numbers have that of each line, and the first that is none
    stands behind the last."""
    found = re.fullmatch(rb"line (\d+)(: .*\n)", printed)
    return b"line %d%s" % ([*numbers, numbers[-1] + 1][int(found[1]) - 1], found[2]) if found else printed


class RefusedInput(Fault):
    """The program refuses a text or an image: what it prints, and that with what it means, and where a program is given that is
    asked, with what would be right."""

    def __init__(self, printed, data, program=None):
        self.printed = printed.rstrip("\n")
        place, _, reason = self.printed.rpartition(": ")
        found = re.fullmatch(REFUSAL_OF_TEXT, self.printed)
        said = (explained_line(reason, data, int(found[1]), program) if found else
                explained(reason, data, place.startswith("image")))
        super().__init__(f"refused, {place}: {said}")


# So many characters of a line are quoted.
MOST_QUOTED = 60


def quoted_line(data, number):
    """What stands at a line of a text, as it is quoted behind what is said of it: nothing of one that is none, or of a mark
    alone."""
    lines = lines_of_text(data)
    said = printable(parts_of(lines[number - 1])[0].expandtabs(1)) if 0 < number <= len(lines) and b"\0" not in data else ""
    return f": '{said[:MOST_QUOTED]}{'..' * (len(said) > MOST_QUOTED)}'" if len(said) > 2 else ""


def explained_line(reason, data, number, program=None):
    """The same of a line of a text, which is quoted."""
    from front.remedies import remedy  # which asks the program of refused texts alone
    right = remedy(program, data, number, reason) if program else ""
    return explained(reason, data) + quoted_line(data, number) * (kind_of(data) is Kind.TEXT) + right


def explained(reason, data=b"", is_image=False):
    """A reason why the program refuses an input, with what it means, and what else the input is."""
    meaning = (REASONS_OF_IMAGES if is_image else REASONS).get(reason)
    said = f"{reason}: {meaning}" if meaning else reason
    return said + OTHERS.get(kind_of(data), NOTHING_ELSE * (reason == "char" and b"\0" in data))


def hinted(text, path, data=b""):
    """What is said of a file, with its path, and the name of a function of it, in the hints what to call."""
    if path != "-" and "`" in text:
        text = re.sub(r"(`[^`]*)\bFILE\b", lambda found: found[1] + shlex.quote(printable(path)), text)
        function = a_function(data) if re.search(r"`[^`]*\bFUNCTION\b", text) else ""
        text = re.sub(r"(`[^`]*)\bFUNCTION\b", lambda found: found[1] + shlex.quote(function), text) if function else text
    return text


def a_function(data):
    """The name of a function of a file of code, or nothing."""
    functions = read_code("", "", data, False).functions if kind_of(data) is Kind.CODE else []
    return next((function.names[0] for function in functions if function.names), "")


# How what isn't run by itself is run.
OF_A_CALL = "`ia64 call FILE FUNCTION --image PATH` makes an image of a call, which run, watch, groups, trace and orders take"


def said_of_run(refusal, data, is_source):
    """What is said of a refused input that is to be run, which may be that of a source for the GNU assembler, as its name and a
    directive tell that no text has."""
    directive = directive_at(data, refusal.printed) if is_source and refusal.printed.endswith(": name") else ""
    return f"{refusal}; '{printable(directive)}' is of a source for the GNU assembler; {OF_A_CALL}" if directive else str(refusal)


# What is done with a source for the GNU assembler that is no text.
OF_A_SOURCE = ("`ia64 check FILE` judges it as a source for the GNU assembler, and `ia64 show FILE` prints the texts of its "
               "functions")


def said_of_source(refusal, data, is_source):
    """What is said of a refused text that is to be built or packed, which may be a source for the GNU assembler."""
    is_meant = is_source and kind_of(data) is Kind.TEXT and b"\0" not in data
    return f"{refusal}; {OF_A_SOURCE}" if is_meant else str(refusal)
