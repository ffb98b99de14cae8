"""Each block of README and of the documents: its commands are run (test_documents), or a remark before it says what
holds it or why nothing runs it. So many say that.
"""
import glob
import os
import unittest
from collections import Counter

from commands.tests.support import EXAMPLES

from ..blocks import PASTED, Block, blocks

TOP = os.path.normpath(os.path.join(EXAMPLES, ".."))
HELD, NOT_RUN = "held by ", "not run: "
# How many blocks nothing runs, and why.
MARKS = {
    "it takes hours": 1,
    "it takes minutes, and the program": 5,
    "PROGRAM and its like stand for what the reader has": 6,
}


def documents() -> dict[str, str]:
    """All documents with blocks, by their paths from the top on."""
    paths = [*glob.glob(os.path.join(TOP, "*.md")), *glob.glob(os.path.join(TOP, "docs", "**", "*.md"), recursive=True),
             *glob.glob(os.path.join(TOP, "crates", "*", "README.md")), os.path.join(TOP, "tools", "README.md")]
    found = {}
    for path in paths:
        with open(path, encoding="utf-8") as file:
            found[os.path.relpath(path, TOP)] = file.read()
    return found


class Blocks(unittest.TestCase):
    found: list[tuple[str, Block]]

    @classmethod
    def setUpClass(cls) -> None:
        cls.found = [(path, block) for path, text in documents().items() for block in blocks(text)]

    def test_all_are_found(self) -> None:
        """Each line of three backticks begins or ends one."""
        for path, text in documents().items():
            lines = sum(line.startswith("```") for line in text.split("\n"))
            self.assertEqual(lines, 2 * len(blocks(text)), path)

    def test_each_is_run_or_marked(self) -> None:
        for path, block in self.found:
            if block.commands():
                self.assertIn(path, PASTED)
            else:
                self.assertTrue((block.mark or "").startswith((HELD, NOT_RUN)), f"{path}:\n{block.text}")

    def test_what_holds_a_block_speaks_of_its_page(self) -> None:
        for path, block in self.found:
            if block.mark and block.mark.startswith(HELD):
                name = block.mark.removeprefix(HELD)
                with open(os.path.join(TOP, name), encoding="utf-8") as file:
                    self.assertIn(os.path.basename(path), file.read(), name)

    def test_so_many_are_not_run(self) -> None:
        marks = [block.mark.removeprefix(NOT_RUN) for _, block in self.found
                 if block.mark and block.mark.startswith(NOT_RUN)]
        self.assertEqual(dict(Counter(marks)), MARKS)


if __name__ == "__main__":
    unittest.main()
