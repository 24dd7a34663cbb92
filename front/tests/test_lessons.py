"""The lessons of examples/lessons: their page has the questions that stand at their heads, and the verdict of each."""

import re
import subprocess
import unittest

from front.tests.case import PROGRAM, ROOT

LESSONS = ROOT / "examples" / "lessons"


def questions(lines):
    """The numbered questions among lines, each as one line."""
    found, is_open = [], False
    for line in lines:
        is_more = is_open and line.startswith("   ")
        is_open = is_more or re.match(r"\d\. ", line) is not None
        if is_more:
            found[-1] += " " + line.strip()
        elif is_open:
            found.append(line)
    return found


class Lessons(unittest.TestCase):
    def setUp(self):
        self.page = (LESSONS / "README.md").read_text()
        self.programs = sorted(LESSONS.glob("*.s"))

    def test_questions(self):
        self.assertEqual(len(self.programs), 8)
        for path in self.programs:
            lines = [line[3:] for line in path.read_text().splitlines() if line.startswith("//")]
            section = re.search(rf"(?ms)^## {int(path.name[:2])} .*?(?=^## )", self.page)[0]
            self.assertEqual(questions(lines), questions(section.splitlines()), path.name)
            answers = re.search(rf"(?ms)^### {int(path.name[:2])}$.*?(?=^### |\Z)", self.page)[0]
            self.assertEqual(re.findall(r"(?m)^\*\*(\d)\.\*\* ", answers), [line[0] for line in questions(lines)], path.name)

    def test_verdicts(self):
        for path in self.programs:
            with open(path, "rb") as text:
                done = subprocess.run([PROGRAM, "check"], stdin=text, stdout=subprocess.PIPE, check=False)
            verdict = re.search(rf"`{path.name}` \| (\w+)", self.page)[1]
            self.assertEqual((verdict, done.returncode), ("accepted", 0) if done.returncode == 0 else ("violated", 1), path.name)
            self.assertIn(f"This program is {verdict}", path.read_text())


if __name__ == "__main__":
    unittest.main()
