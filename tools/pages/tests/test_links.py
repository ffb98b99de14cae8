"""What documents, pages of man/ and sources name of the documents is there: each page, and each section of a page that
stands between quotes after its name."""
import glob
import os
import re
import unittest

from commands.tests.support import EXAMPLES

TOP = os.path.normpath(os.path.join(EXAMPLES, ".."))
ENDS = (".md", ".py", ".rt", ".antt", ".c", ".h", ".sh", ".toml", ".txt", ".1", ".5")
DATA = "/data/"
# The beginning of a line that goes on: of a comment, of a text in columns.
FRONT = re.compile(r"\n\s*(?:///|//!|//|#|--|\|)?\s*")
PAGE = re.compile(r"(?<![\w/.])((?:docs/(?:\w+/)*|tools/|crates/\w+/)?)([A-Z][A-Za-z-]{2,})\.md\b"
                  r"(?:, \"([^\"\\()]{2,70})\"| \(\"([^\"\\()]{2,70})\"\))?")
SHORT = re.compile(r"(?<![\w/.\"])([A-Z][A-Z-]{3,}) \(\"([^\"]{2,70})\"")
# A file as code, and not the words behind it.
FILE = re.compile(r"`((?:tools|bench|examples|crates|docs|man|completion)/[\w./*-]*\w)")


def sources() -> list[str]:
    """The texts in which pages are named, by their paths from the top on; not the stored data of tests."""
    found = []
    for folder, folders, names in os.walk(TOP):
        folders[:] = [each for each in folders if each not in (".git", "out", "build", "__pycache__", ".mypy_cache")]
        found += [os.path.relpath(os.path.join(folder, name), TOP) for name in names
                  if name.endswith(ENDS) or name == "Makefile"]
    return [path for path in found if DATA not in f"/{path}"]


def read(path: str) -> str:
    """A text of the tree."""
    with open(os.path.join(TOP, path), encoding="utf-8", errors="replace") as file:
        return file.read()


def pages() -> dict[str, list[str]]:
    """The pages, by their names: of each its paths. README is of several folders."""
    found = dict[str, list[str]]()
    for path in (*glob.glob("*.md", root_dir=TOP), *glob.glob("docs/**/*.md", root_dir=TOP, recursive=True),
                 *glob.glob("tools/README.md", root_dir=TOP), *glob.glob("crates/*/README.md", root_dir=TOP)):
        found.setdefault(os.path.basename(path).removesuffix(".md"), []).append(path)
    return found


def sections(text: str) -> set[str]:
    """The headings of a page, and what stands in bold letters; of each also what stands before a bracket."""
    found = {re.sub(r"\s+", " ", each) for each in
             (*re.findall(r"^#+ (.*)$", text, re.MULTILINE), *re.findall(r"\*\*([^*]+)\*\*", text))}
    return found | {each.split(" (")[0] for each in found} | {each.rstrip(".:") for each in found}


class Links(unittest.TestCase):
    pages: dict[str, list[str]]
    sections: dict[str, set[str]]

    @classmethod
    def setUpClass(cls) -> None:
        cls.pages = pages()
        cls.sections = {name: set[str]().union(*(sections(read(path)) for path in paths))
                        for name, paths in cls.pages.items()}

    def test_pages_and_sections(self) -> None:
        named = 0
        for path in sources():
            text = FRONT.sub(" ", read(path))
            for folder, name, after, within in PAGE.findall(text):
                named += 1
                self.assertIn(name, self.pages, path)
                if folder:
                    self.assertIn(f"{folder}{name}.md", self.pages[name], path)
                if after or within:
                    self.assertIn(after or within, self.sections[name], f"{path}: {name}.md")
            for name, section in SHORT.findall(text):
                if name in self.pages and not section.endswith(".."):        # which is any of several
                    self.assertIn(section, self.sections[name], f"{path}: {name}")
        self.assertGreater(named, 300)

    def test_files(self) -> None:
        """Each file that a page names as code; a word in capitals stands for any name."""
        for paths in self.pages.values():
            for path in paths:
                for name in FILE.findall(read(path)):
                    found = glob.glob(os.path.join(TOP, re.sub(r"\b[A-Z][A-Z_]*\b", "*", name)) + "*")
                    self.assertTrue(found or name.split("/")[0] == "build" or "/out/" in f"{name}/", f"{path}: {name}")

    def test_links_within_a_page(self) -> None:
        """A page links its own headings alone, and shows pictures that are there; others it names."""
        for paths in self.pages.values():
            for path in paths:
                text = read(path)
                there = {re.sub(r"[^a-z0-9 -]", "", each.lower()).replace(" ", "-")
                         for each in re.findall(r"^#+ (.*)$", text, re.MULTILINE)}
                shown = set(re.findall(r"!\[[^]]*\]\(([^)]*)\)", text))
                self.assertEqual([each for each in shown if not os.path.isfile(os.path.join(TOP, each))], [], path)
                self.assertEqual(set(re.findall(r"\]\(#?([^)]*)\)", text)) - there - shown, set(), path)


if __name__ == "__main__":
    unittest.main()
