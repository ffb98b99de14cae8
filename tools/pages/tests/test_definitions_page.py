"""docs/DEFINITIONS.md is what definitions_page.py makes: each definition on which the clauses of the top call rest, and
no other, in the order in which to read them."""
import os
import re
import unittest

from gate import rests_on

from .. import definitions_page


class Page(unittest.TestCase):
    page: str

    @classmethod
    def setUpClass(cls) -> None:
        cls.page = definitions_page.page()

    def test_the_page_is_what_is_made(self) -> None:
        with open(definitions_page.PAGE, encoding="utf-8") as file:
            told, wanted = file.read().split("\n"), self.page.split("\n")
        self.assertEqual([line for line in wanted if line not in told], [], "definitions that the page lacks")
        self.assertEqual([line for line in told if line not in wanted], [], "what the page has and nothing reaches")
        self.assertEqual(told, wanted)

    def test_each_stands_once(self) -> None:
        items = re.findall(r"^- `([^`]+)`: ", self.page.partition("## The kit's libraries")[0], re.MULTILINE)
        self.assertEqual(sorted(items), sorted(row.name for row in rests_on.rows()))

    def test_the_order(self) -> None:
        """The machine before the verdict, the verdict before the words of the program; in a crate the files below
        another one before it."""
        places = [self.page.index(f"\n## `{name}`\n") for name in
                  ("cm_base", "model_cred", "model_rules", "model_run", "model_verdict", "model_report", "cm_cli")]
        self.assertEqual(places, sorted(places))
        files = re.findall(r"^`(crates/[^`]+)`$", self.page, re.MULTILINE)
        self.assertEqual(len(files), len(set(files)))
        for path in files:
            for each in re.findall(r"use Rattle\.(\w+)\.specs\.(\w+)", "\n".join(rests_on.lines_of(path))):
                below = "crates/{}/specs/{}.antt".format(*each)
                if below in files and os.path.dirname(below) == os.path.dirname(path):
                    self.assertLess(files.index(below), files.index(path), path)


if __name__ == "__main__":
    unittest.main()
