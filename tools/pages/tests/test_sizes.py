"""Pages are for a reader: each says first for whom it is, none that is written by hand has more than 400 lines, and all
together have at most so many words by hand. Cells of tables are short."""
import glob
import os
import unittest

from commands.tests.support import EXAMPLES

TOP = os.path.normpath(os.path.join(EXAMPLES, ".."))
# Pages that scripts write, and where in others a table begins that one writes: neither counts as written by hand.
MADE = ("docs/DEFINITIONS.md", "docs/MODULES.md", "docs/TESTING-tests.md", "docs/TESTING-traps.md")
MADE_TABLES = {"docs/PREMISES.md": "| Premise |"}
MOST_LINES, MOST_IN_A_CELL = 400, 40
MOST_WORDS, MOST_WORDS_BESIDE = 60000, 5600     # README, docs/ and the examples' READMEs; all others
README_LINES, INDEX_LINES = 90, 250


def pages() -> dict[str, str]:
    """The pages that are written by hand, by their paths from the top on."""
    paths = [*glob.glob("*.md", root_dir=TOP), *glob.glob("docs/**/*.md", root_dir=TOP, recursive=True),
             *glob.glob("crates/*/README.md", root_dir=TOP), *glob.glob("examples/*/README.md", root_dir=TOP),
             "tools/README.md"]
    found = {}
    for path in paths:
        if path not in MADE:
            with open(os.path.join(TOP, path), encoding="utf-8") as file:
                found[path] = file.read()
    return found


def by_hand(path: str, text: str) -> str:
    """A page without the table that a script writes."""
    if path not in MADE_TABLES:
        return text
    front, head, rest = text.partition("\n" + MADE_TABLES[path])
    return front + rest.partition("\n\n")[2] if head else text


def long_cells(text: str) -> int:
    """How many cells of its tables have more words than they should."""
    cells = [cell for line in text.split("\n") if line.startswith("|") for cell in line.strip("|").split(" | ")]
    return sum(len(cell.split()) > MOST_IN_A_CELL for cell in cells)


class Sizes(unittest.TestCase):
    def test_each_says_for_whom(self) -> None:
        for path, text in pages().items():
            if path != "README.md":
                first = next(line for line in text.split("\n")[1:] if line)
                self.assertTrue(first.startswith("For "), f"{path}: {first}")

    def test_lines(self) -> None:
        limits = {"README.md": README_LINES, "docs/TESTING.md": INDEX_LINES}
        for path, text in pages().items():
            self.assertLessEqual(text.count("\n"), limits.get(path, MOST_LINES), path)

    def test_words(self) -> None:
        words = {path: len(by_hand(path, text).split()) for path, text in pages().items()}
        of_docs = sum(count for path, count in words.items()
                      if path == "README.md" or path.startswith(("docs/", "examples/")))
        self.assertLessEqual(of_docs, MOST_WORDS)
        self.assertLessEqual(sum(words.values()) - of_docs, MOST_WORDS_BESIDE)

    def test_cells(self) -> None:
        found = {path: long_cells(text) for path, text in pages().items()}
        self.assertEqual({path: count for path, count in found.items() if count}, {})


if __name__ == "__main__":
    unittest.main()
