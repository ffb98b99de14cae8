"""The form of all pages of man/: mandoc finds nothing in them, man shows them without a warning, no quote stands within
another one where they are shown, and a page of this repository that one names is there."""
import glob
import os
import re
import shutil
import subprocess
import unittest

from commands.tests.support import EXAMPLES

MAN = os.path.normpath(os.path.join(EXAMPLES, "..", "man"))
PAGES = sorted(glob.glob(os.path.join(MAN, "*.[1-9]")))
# Of the machine on which it is looked at: which other pages are installed there, and whether their list is new.
ELSEWHERE = re.compile(r"^mandoc: (?:outdated mandoc\.db .*|.*: STYLE: referenced manual not found: .*)\n",
                       re.MULTILINE)


def written(*words: str) -> str:
    """What a command writes to both outputs."""
    done = subprocess.run(words, stdin=subprocess.DEVNULL, stdout=subprocess.PIPE, stderr=subprocess.STDOUT, text=True,
                          check=False, env={**os.environ, "LC_ALL": "C.UTF-8"})
    return done.stdout


class Form(unittest.TestCase):
    def test_there_are_pages(self) -> None:
        self.assertGreaterEqual(len(PAGES), 13)

    @unittest.skipIf(shutil.which("mandoc") is None, "mandoc isn't there")
    def test_mandoc_finds_nothing(self) -> None:
        for path in PAGES:
            self.assertEqual(ELSEWHERE.sub("", written("mandoc", "-T", "lint", "-W", "style", path)), "", path)

    @unittest.skipIf(shutil.which("mandoc") is None, "mandoc isn't there")
    def test_no_quote_within_a_quote(self) -> None:
        for path in PAGES:
            shown = re.sub(".\b", "", written("mandoc", "-T", "utf8", path))
            self.assertIn("SEE ALSO", shown)
            for part in shown.split("\N{LEFT SINGLE QUOTATION MARK}")[1:-1]:
                self.assertIn("\N{RIGHT SINGLE QUOTATION MARK}", part, path)

    @unittest.skipIf(shutil.which("man") is None, "man isn't there")
    def test_man_has_no_warning(self) -> None:
        for path in PAGES:
            done = subprocess.run(["man", "--warnings", "-l", path], capture_output=True, text=True, check=False,
                                  stdin=subprocess.DEVNULL)
            self.assertEqual((done.returncode, done.stderr), (0, ""), path)
            self.assertIn("SEE ALSO", done.stdout)

    def test_pages_that_are_named_are_there(self) -> None:
        for path in PAGES:
            with open(path, encoding="ascii") as file:
                named = re.findall(r"^\.Xr (credaudit[\w-]*) (\d)\b", file.read(), re.MULTILINE)
            self.assertTrue(named, path)
            for name, section in named:
                self.assertIn(os.path.join(MAN, f"{name}.{section}"), PAGES, path)


if __name__ == "__main__":
    unittest.main()
