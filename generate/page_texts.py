"""Makes what the page has of the documents: the lessons with their questions and answers, as HTML, and the texts of all
examples. It is imported, and not called.

Of Markdown it knows what the lessons have: paragraphs, fenced code, lists with numbers, and in a line code, bold and links.
Pictures are left out, since the page draws the program itself.
"""

import html
import re
from pathlib import Path
from typing import List, NamedTuple

ROOT = Path(__file__).resolve().parent.parent
LESSONS, EXAMPLES = ROOT / "examples" / "lessons", ROOT / "examples"
FENCE = re.compile(r"```\w*\n(.*?)```\n", re.S)
PICTURE = re.compile(r"^!\[[^]]*\]\([^)]*\)\n+", re.M)
# How long the line of an example in the menu gets.
LONGEST = 60
# What stands below the questions of a lesson.
HERE = ("<p class=\"quiet\">Where an answer has commands of a shell, do this here: edit the text in place of <code>sed</code>, and "
        "look below it in place of <code>check</code>. Picture and run are those of <code>draw</code> and <code>trace</code>, and "
        "<i>What may this program do?</i> is <code>orders</code>. <code>stops FILE</code> is <i>Without bundles and stops</i>, and "
        "then <i>Take it into the editor</i>.</p>")
INLINE = ((r"`([^`]+)`", r"<code>\1</code>"), (r"\*\*([^*]+)\*\*", r"<b>\1</b>"), (r"\[([^]]+)\]\([^)]+\)", r"\1"))


class Question(NamedTuple):
    """A question of a lesson and its answer, both as HTML."""
    asked: str
    answer: str


class Lesson(NamedTuple):
    """A lesson: its number, its title, the name of its program, what it shows, and its questions."""
    number: int
    title: str
    name: str
    shown: str
    questions: List[Question]


def inline(text):
    """A line of Markdown as HTML. What stands in code isn't looked at again."""
    parts = re.split(r"(`[^`]+`)", html.escape(text, quote=False))
    for at, part in enumerate(parts):
        for pattern, made in INLINE[:1] if part.startswith("`") else INLINE[1:]:
            parts[at] = re.sub(pattern, made, parts[at])
    return "".join(parts)


def blocks(text):
    """Paragraphs and code as HTML."""
    made = []
    for at, part in enumerate(FENCE.split(PICTURE.sub("", text))):
        if at % 2:
            made.append(f"<pre>{html.escape(part, quote=False)}</pre>")
        else:
            made += [f"<p>{inline(each)}</p>" for each in part.strip().split("\n\n") if each]
    return "".join(made)


def sections(text, mark):
    """The parts of a text below headings with this mark: each with its heading."""
    found = re.split(rf"^{mark} (.*)\n", text, flags=re.M)
    return list(zip(found[1::2], found[2::2]))


def lessons():
    """All lessons, in their order."""
    parts = dict(sections((LESSONS / "README.md").read_text("utf-8"), "##"))
    answers = [re.split(r"^\*\*\d+\.\*\* ", text, flags=re.M)[1:] for _, text in sections(parts.pop("Answers"), "###")]
    names = sorted(path.name for path in LESSONS.glob("*.s"))
    return [lesson(title, text, name, own) for (title, text), name, own in zip(parts.items(), names, answers)]


def lesson(heading, text, name, answers):
    number, title = heading.split(" ", 1)
    questions = re.findall(r"^\d+\. (.*)\n", text, re.M)
    if len(questions) != len(answers) or not name.startswith(f"0{number}_"):
        raise ValueError(f"lesson {number} of {name} has {len(questions)} questions and {len(answers)} answers")
    shown = blocks(re.sub(r"^\d+\. .*\n", "", text, flags=re.M))
    return Lesson(int(number), title, name, shown, [Question(inline(each), blocks(own)) for each, own in zip(questions, answers)])


def lesson_html(found):
    """A lesson as a section of the page, which is hidden until it is chosen."""
    questions = "".join(f"<li>{each.asked}<details><summary>Answer</summary>{each.answer}</details></li>"
                        for each in found.questions)
    return (f'<section class="lesson" data-name="{found.name}" hidden aria-label="lesson {found.number}">'
            f"<h2>Lesson {found.number}: {inline(found.title)}</h2><ol>{questions}</ol>{HERE}"
            f"<details><summary>What it shows, and what to type at a command line</summary>{found.shown}</details></section>\n")


def example_title(path):
    """What an example is, by the first sentence of the comment at its head."""
    lines = []
    for line in path.read_text().splitlines():
        if not line.startswith("//") or not line[2:].strip():
            break
        lines.append(line[2:].strip())
    return shortened(re.split(r"(?<=[\w`)])[.:](?= |$)", " ".join(lines).replace("`", ""))[0])


def shortened(text):
    """A text that a line of the menu has room for."""
    return text if len(text) <= LONGEST else text[:LONGEST].rsplit(" ", 1)[0].rstrip(",") + " \u2026"


def texts(found):
    """The programs of the menu, by groups: the lessons, and the examples. A source for the GNU assembler is none."""
    rows = [("Lessons", f"{each.number} {each.title}", LESSONS / each.name) for each in found]
    rows += [("Examples", example_title(path), path) for path in sorted(EXAMPLES.glob("*.s")) if ".proc" not in path.read_text()]
    return [{"group": group, "name": path.name, "title": title, "text": path.read_text()} for group, title, path in rows]
