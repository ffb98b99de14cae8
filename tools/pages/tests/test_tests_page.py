"""docs/TESTING-tests.md is what tests_page.py makes, and what that counts: in a small tree, by hand."""
import os
import unittest

from commands.tests.support import EXAMPLES, Case

from .. import tests_page
from ..tests_page import Counts

TOP = os.path.normpath(os.path.join(EXAMPLES, ".."))
TREE = {
    "crates.txt": b"# a remark\nlow:\nlow_cases: low\nplain: low\n",
    "crates/low/src/lib.rt": b"fn f() {}\n\n#[test]\nfn one() {}\n",
    "crates/low/src/more/deep.rt": b"    #[test]\n#[test]\n",
    "crates/low/must-fail/a_bug.edit": b"file: x\n", "crates/low/must-fail/another_bug.edit": b"file: x\n",
    "crates/low/must-fail/remark.txt": b"", "crates/low/proofs/SomeCases.antt": b"one : x\none = refl\n\ntwo = refl\n",
    "crates/low/proofs/Lemmas.antt": b"three = refl\n",
    "crates/low_cases/stdin": b"case one\nrun x\nrun y\n# case two\ncase three\n", "crates/plain/src/lib.rt": b"",
    "crates/report_cases/stdin": b"case one\nrun x\nrun y\n",
    "tools/part/tests/test_it.py": b'"""What it\nholds."""\n\nclass A:\n    def test_a(self): pass\n'
                                   b'    def other(self): pass\n    def test_b(self): pass\n',
}


class Page(Case):
    def test_the_page_is_what_is_made(self) -> None:
        with open(tests_page.PAGE, encoding="utf-8") as file:
            told, wanted = file.read().split("\n"), tests_page.page().split("\n")
        self.assertEqual([line for line in told if line not in wanted], [], "run tools/pages/tests_page.py")
        self.assertEqual(told, wanted)

    def test_what_is_counted(self) -> None:
        for name, text in TREE.items():
            self.put(name, text)
        found = tests_page.crates(self.work)
        self.assertEqual(found["low"], Counts(tests=3, cases=0, worked=2, edits=2))
        self.assertEqual(found["low_cases"], Counts(tests=0, cases=2, worked=0, edits=0))
        page = tests_page.page(self.work)
        self.assertIn("\n| `low` | 3 |  | 2 | 2 |\n| `low_cases` |  | 2 |  |  |\n| all | 3 | 2 | 2 | 2 |\n", page)
        self.assertIn("There are 3 crates and 2 must-fail edits, in 1 of them.", page)
        self.assertIn("`5 passed, 0 failed`. The cases of `report_cases` are 2 runs.", page)
        self.assertTrue(page.endswith("\n- `tools/part/tests/test_it.py`, 2 tests. What it holds.\n"), page)

    def test_commands(self) -> None:
        """Each that can be executed, with its first sentence; a module isn't one."""
        texts = {"bench/time.py": b'#!/usr/bin/env python3\n"""Times a\nthing. And more.\n\n  time.py"""\n',
                 "tools/part/look.sh": b"#!/bin/sh\n# Looks at it.\n# More.\ntrue\n", "bench/module.py": b"x = 1\n"}
        for name, text in texts.items():
            os.chmod(self.put(name, text), 0o644 if "module" in name else 0o755)
        part = tests_page.command_part(self.work)
        self.assertTrue(part.endswith("\n\n- `bench/time.py`: Times a thing.\n- `tools/part/look.sh`: Looks at it.\n"))

    def test_each_file_says_something(self) -> None:
        """Of each file of tests stands what it says of itself, in at most four lines."""
        for item in tests_page.page().split("\n## Commands\n")[0].split("\n- `tools/")[1:]:
            self.assertRegex(item, r"tests?\. \w")
            self.assertLessEqual(len(item.split("\n")), 6, item)
            self.assertTrue(os.path.isfile(os.path.join(TOP, "tools", item.split("`")[0])), item)


if __name__ == "__main__":
    unittest.main()
