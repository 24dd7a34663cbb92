"""Tries of the reader of archives."""

import os
import shutil
import subprocess
import tempfile
import unittest
from pathlib import Path

from front.archive import members
from front.elf import Elf
from front.faults import Fault
from front.files import items
from front.tests.writers import archive, head_of_member, member, thin_archive

HAS_GNU = all(shutil.which(f"ia64-linux-gnu-{tool}") for tool in ("as", "ar"))
needs_gnu = unittest.skipUnless(HAS_GNU, "GNU binutils for ia64 are missing")


def read(data, path="l.a"):
    return list(members(path, data))


class Members(unittest.TestCase):
    """What archives have."""

    def test_names_in_the_heads(self):
        self.assertEqual(read(archive(member("a.o/", b"one"), member("b.o", b"four"), member("c.o/", b""))),
                         [("a.o", b"one"), ("b.o", b"four"), ("c.o", b"")])
        self.assertEqual(read(archive()), [])

    def test_long_names_of_gnu(self):
        table = b"a_name_of_many_bytes.o/\nother_name_of_many_bytes.o/\n"
        self.assertEqual(read(archive(member("//", table), member("/24", b"x"), member("/0", b"y"), member("/999", b"z"))),
                         [("other_name_of_many_bytes.o", b"x"), ("a_name_of_many_bytes.o", b"y"), ("", b"z")])

    def test_long_names_of_bsd(self):
        self.assertEqual(read(archive(member("#1/20", b"a name".ljust(20, b"\0") + b"body"), member("#1/99", b"short"))),
                         [("a name", b"body"), ("short", b"")])

    def test_tables_of_symbols(self):
        tables = [member(name, b"table") for name in ("/", "/", "/SYM64/", "__.SYMDEF", "__.SYMDEF SORTED", "__.SYMDEF_64")]
        self.assertEqual(read(archive(*tables, member("#1/20", b"__.SYMDEF SORTED\0\0\0\0table"), member("a.o/", b"body"))),
                         [("a.o", b"body")])

    def test_a_name_that_is_no_text(self):
        data = archive(member("a.o/", b"body")).replace(b"a.o", b"\xff.o")
        self.assertEqual(read(data), [(os.fsdecode(b"\xff.o"), b"body")])

    def test_a_last_member_without_its_last_byte(self):
        self.assertEqual(read(archive(member("a.o/", b"one"))[:-1]), [("a.o", b"one")])

    def test_a_file_is_read_as_it_is_wanted(self):
        """So a long archive takes no memory; what is cut off meanwhile is told."""
        with tempfile.TemporaryDirectory() as folder:
            path = Path(folder, "l.a")
            path.write_bytes(archive(*(member(f"{number}.o/", bytes(1 << 20)) for number in range(3))))
            found = items(str(path))
            self.assertEqual([next(found).label, next(found).fault], [f"{path}:0.o", None])
            os.truncate(path, 2 << 20)
            self.assertEqual([item.fault for item in found], ["it was cut while it was read"])

    def test_what_is_before_a_fault(self):
        found, rows = [], members("l.a", archive(member("a.o/", b"body"), b"x"))
        with self.assertRaises(Fault):
            for row in rows:
                found.append(row)
        self.assertEqual(found, [("a.o", b"body")])


class Thin(unittest.TestCase):
    """Thin archives, whose members stand in files beside them."""

    def setUp(self):
        folder = tempfile.TemporaryDirectory()
        self.addCleanup(folder.cleanup)
        self.folder = folder.name

    def test_members(self):
        Path(self.folder, "a_name_of_many_bytes.o").write_bytes(b"body")
        Path(self.folder, "inner").mkdir()
        Path(self.folder, "inner", "b.o").write_bytes(b"other")
        found = read(thin_archive("a_name_of_many_bytes.o", "none", "inner", "inner/b.o", "", "a\0b"),
                     os.path.join(self.folder, "thin.a"))
        self.assertEqual([name for name, _ in found[:5]], ["a_name_of_many_bytes.o", "none", "inner", "inner/b.o", ""])
        self.assertEqual([body for _, body in found if not isinstance(body, Fault)], [b"body", b"other"])
        self.assertEqual(str(found[1][1]), "No such file or directory")

    def test_tables_are_in_the_archive(self):
        Path(self.folder, "a.o").write_bytes(b"body")
        data = thin_archive("a.o").replace(b"!<thin>\n", b"!<thin>\n" + member("/", b"table"))
        self.assertEqual(read(data, os.path.join(self.folder, "thin.a")), [("a.o", b"body")])


class Refusals(unittest.TestCase):
    """Each way to be refused."""

    def refused(self, data, said):
        with self.assertRaises(Fault) as caught:
            read(data)
        self.assertEqual(str(caught.exception), said)

    def test_heads(self):
        good = member("a.o/", b"body")
        self.refused(archive(good, b"x" * 59),
                     "cut or damaged: the head of the member at byte 72 ends at byte 132, and the file at byte 131")
        self.refused(archive(good, b"x" * 60), "cut or damaged: no head of a member at byte 72")
        self.refused(archive(good.replace(b"`\n", b"`x")), "cut or damaged: no head of a member at byte 8")
        for size in ("", "-4", "4_0", "+4", "0x4", "4 4", "4.0"):
            self.refused(archive(head_of_member("a.o/", size) + b"body"), "cut or damaged: no head of a member at byte 8")
        self.refused(archive(head_of_member("a.o/", 9999999999)),
                     "cut or damaged: the member at byte 8 ends at byte 10000000067, and the file at byte 68")

    def test_every_cut(self):
        data = archive(member("//", b"a_name_of_many_bytes.o/\n"), member("/0", b"body"), member("b.o/", b"other"))
        whole = [len(data) - 1, len(data) - 66, len(data) - 66 - 64, 8]
        for length in range(8, len(data) - 1):
            if length not in whole:
                with self.assertRaises(Fault, msg=length):
                    read(data[:length])


@needs_gnu
class Gnu(unittest.TestCase):
    """Archives of the GNU archiver."""

    def test_archives(self):
        with tempfile.TemporaryDirectory() as folder:
            names = ["s.o", "a_name_that_is_too_long_for_a_head.o"]
            for name in names:
                source = b".global f#\nf: br.ret.sptk.few b0 ;;\n"
                done = subprocess.run(["ia64-linux-gnu-as", "-xexplicit", "-o", name], input=source, cwd=folder,
                                      capture_output=True, check=False)
                self.assertEqual((done.returncode, done.stderr), (0, b""))
            for flags in ("rcs", "rcsT"):
                path = os.path.join(folder, f"{flags}.a")
                done = subprocess.run(["ia64-linux-gnu-ar", flags, path, *names], cwd=folder, capture_output=True, check=False)
                self.assertEqual(done.returncode, 0, done.stderr)
                found = read(Path(path).read_bytes(), path)
                self.assertEqual([name for name, _ in found], names)
                for _, body in found:
                    self.assertEqual([symbol.name for symbol in Elf(body).symbols()], ["f"])


if __name__ == "__main__":
    unittest.main()
