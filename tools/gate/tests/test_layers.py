"""tools/layers.txt, who may import whom, is what the files import. The second writings and the witnesses stand apart
from the commands: neither uses the other, so that one can be held against the other; so does the checker of
certificates. What both need stands in each of them, on purpose: the names of the capabilities, the record of a
credential.
"""
import filecmp
import os
import unittest
from collections import Counter

from .. import layers

APART = ("plain", "witness")


class Layers(unittest.TestCase):
    table: dict[str, list[str]]
    files: list[str]

    @classmethod
    def setUpClass(cls) -> None:
        with open(layers.TABLE, encoding="ascii") as file:
            cls.table = layers.table(file.read())
        cls.files = list(layers.files())

    def below(self, part: str) -> set[str]:
        """What a line of the table allows."""
        found = set[str]()
        for each in self.table[part]:
            package = each.removesuffix(".*")
            found |= {name for name in self.table if name == package or each != package and
                      name.startswith(package + ".")}
        return found

    def test_there_are_enough(self) -> None:
        counts = Counter(layers.part_of(path).split(".")[0] for path in self.files)
        for part, least in (("credaudit_tools", 90), ("credaudit_check", 15), ("plain", 12), ("witness", 12)):
            self.assertGreaterEqual(counts[part], least, part)

    def test_each_part_has_its_line(self) -> None:
        self.assertEqual(set(self.table), set(layers.seen()) - {""})

    def test_a_line_names_parts_above_it(self) -> None:
        above = set[str]()
        for part, others in self.table.items():
            self.assertEqual({each for each in others if each.removesuffix(".*") not in above}, set(), part)
            above.add(part)

    def test_who_imports_whom(self) -> None:
        for part, found in layers.seen().items():
            if part:
                self.assertEqual(found - self.below(part), set(), part)
                named = {each for each in self.table[part] if not each.endswith(".*")}
                self.assertEqual(named - found, set(), f"{part} doesn't import these any more")

    def test_subpackages_are_small(self) -> None:
        folders = Counter(os.path.dirname(path) for path in self.files
                          if f"{os.sep}src{os.sep}" in path and os.path.basename(path) != "__init__.py")
        self.assertEqual({folder for folder, count in folders.items() if count > layers.MOST_MODULES}, set())

    def test_those_apart_use_nothing_of_the_commands(self) -> None:
        found = layers.reached([path for path in self.files if layers.part_of(path) in APART])
        self.assertEqual([path for path in found if layers.part_of(path).startswith("credaudit_")], [])

    def test_the_commands_use_nothing_of_them(self) -> None:
        found = layers.reached([path for path in self.files if path.startswith("commands/src/")])
        self.assertEqual({layers.part_of(path).split(".")[0] for path in found
                          if path.startswith("commands/src/credaudit_tools/")}, {"credaudit_tools"})
        self.assertEqual([path for path in found if not path.startswith("commands/src/")], [])

    def test_the_checker_stands_alone(self) -> None:
        found = layers.reached([path for path in self.files if path.startswith("checker/src/")])
        self.assertEqual([path for path in found if not path.startswith("checker/src/")], [])

    def test_scripts_find_the_folders_by_a_copy(self) -> None:
        """Beside each script that is run by its own path, and nowhere else: all copies are alike."""
        own = os.path.join(layers.TOOLS, layers.COPIED)
        folders = {os.path.dirname(path) for path in self.files
                   if layers.COPIED in layers.modules(path) and not path.startswith(os.path.join("..", "examples"))}
        self.assertGreaterEqual(len(folders), 10)
        self.assertEqual({os.path.dirname(path) for path in self.files if os.path.basename(path) == layers.COPIED},
                         folders | {""})
        for folder in folders:
            self.assertTrue(filecmp.cmp(os.path.join(layers.TOOLS, folder, layers.COPIED), own, shallow=False), folder)

    def test_no_file_is_a_link(self) -> None:
        """`rt ci` takes no repository with links."""
        for folder, folders, names in os.walk(os.path.dirname(layers.TOOLS)):
            folders[:] = [each for each in folders if each not in (".git", "out")]
            for name in folders + names:
                self.assertFalse(os.path.islink(os.path.join(folder, name)), os.path.join(folder, name))


if __name__ == "__main__":
    unittest.main()
