"""The drawings of docs/MAP.md, the ways of a line, of an audit and of a check: each function stands in its crate."""
import glob
import os
import re
import unittest

from commands.tests.support import EXAMPLES

from ..blocks import blocks

TOP = os.path.normpath(os.path.join(EXAMPLES, ".."))
MARK = "held by tools/pages/tests/test_map.py"
NAMES, CRATE = slice(0, 24), slice(25, 42)


def read(*parts: str) -> str:
    """A text of the repository."""
    with open(os.path.join(TOP, *parts), encoding="utf-8") as file:
        return file.read()


def drawn() -> list[tuple[str, str]]:
    """Each function of the drawings, with its crate: that of the line above, where its own line has none."""
    lines = [line for block in blocks(read("docs", "MAP.md")) if block.mark == MARK
             for line in block.text.split("\n") if line]
    found, crate = list[tuple[str, str]](), ""
    for line in lines:
        crate = line[CRATE].strip() or crate
        found += [(name.strip(), crate) for name in line[NAMES].split(",")]
    return found


class Map(unittest.TestCase):
    def test_there_are_drawings(self) -> None:
        self.assertGreaterEqual(len(drawn()), 40)

    def test_each_function_stands_in_its_crate(self) -> None:
        """One that is drawn with a module or a type before its name stands in a file that has that name, or tells of
        that type."""
        for name, crate in drawn():
            *front, own = name.split("::")
            files = glob.glob(os.path.join(TOP, "crates", crate, "src", "**", "*.rt"), recursive=True)
            found = [path for path in files if re.search(rf"\bfn {own}\b", read(path)) and all(
                os.path.basename(path) == f"{part}.rt" or re.search(rf"\bimpl {part}\b", read(path)) for part in front)]
            self.assertTrue(found, f"{name} of {crate}")


if __name__ == "__main__":
    unittest.main()
