"""The page that runs the program, used by keyboard as gate/try_page_in_browser.py does it, in Chromium, where that is installed."""

import contextlib
import importlib
import io
import os
import sys
import tempfile
import unittest
from pathlib import Path
from unittest import mock

from front.tests.case import ROOT
from front.tests.test_page import maker
from front.tests.test_stepping import BROWSER, needs_browser


@needs_browser
class Used(unittest.TestCase):
    """The page of the parts as they are, with the module of the page that is there."""

    def test_all(self):
        """All that is tried is as it has to be, and no process of the browser is left over."""
        sys.path.insert(0, str(ROOT / "gate"))
        tool, made, said = importlib.import_module("try_page_in_browser"), maker(), io.StringIO()
        with tempfile.TemporaryDirectory() as folder:
            page = Path(folder) / "index.html"
            page.write_text(made.page(*made.made_before()), "utf-8")
            with mock.patch.dict(os.environ, CHROMIUM=BROWSER), contextlib.redirect_stdout(said):
                browser = tool.Browser(Path(folder) / "profile")
                try:
                    failed = tool.Tries(browser, page).all()
                finally:
                    browser.close()
            self.assertEqual(tool.running(browser.process.pid), [])
        self.assertEqual(failed, 0, said.getvalue())


if __name__ == "__main__":
    unittest.main()
