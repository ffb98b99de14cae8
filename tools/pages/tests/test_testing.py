"""docs/TESTING.md and its pages: the commands and the options that they name are there, each section names its command,
and each command of the repository stands in them; so do the crates of cases, whose README tells how to write one."""
import ast
import functools
import glob
import os
import re
import unittest

from commands.tests import support

from .. import tests_page

TOP = os.path.normpath(os.path.join(support.EXAMPLES, ".."))
FOLDERS = ("tools", "bench", "examples", "crates")
PATH = re.compile(r"(?:tools|bench|examples|crates)/[\w./-]*\w")
OPTION = re.compile(r"(?<![\w-])--[a-z][a-z-]*")
SECTION = re.compile(r"^\*\*([^*]+)\*\*(.*?)(?=^\*\*|^#|\Z)", re.MULTILINE | re.DOTALL)


def read(*parts: str) -> str:
    """A text of the repository."""
    with open(os.path.join(TOP, *parts), encoding="utf-8") as file:
        return file.read()


def pages() -> list[str]:
    """The texts of the index and of its pages, but that which is made (test_tests_page)."""
    return [read(path) for path in sorted(glob.glob("docs/TESTING*.md", root_dir=TOP)) if path != tests_page_name()]


def tests_page_name() -> str:
    """The page that is made, by its path from the top on."""
    return os.path.relpath(tests_page.PAGE, TOP)


def sections() -> dict[str, str]:
    """The sections that begin with a title in bold letters, by the title."""
    return {title: text for page in pages() for title, text in SECTION.findall(page)}


def code(text: str) -> list[str]:
    """What stands as code in a text: between backticks, and in its blocks."""
    blocks = re.findall(r"^```\n(.*?)^```$", text, re.MULTILINE | re.DOTALL)
    return blocks + re.findall(r"`([^`]+)`", re.sub(r"^```\n.*?^```$", "", text, flags=re.MULTILINE | re.DOTALL))


def commands(text: str) -> list[str]:
    """The files of the repository that a text names, by their paths."""
    return [path for part in code(text) for path in PATH.findall(part)]


def imported(node: ast.AST) -> list[str]:
    """The modules that a node of a program may import, as paths."""
    names = [each.name for each in node.names] if isinstance(node, (ast.Import, ast.ImportFrom)) else []
    front = f"{node.module}." if isinstance(node, ast.ImportFrom) and node.module else ""
    return [name.replace(".", "/") + ".py" for name in (*names, *(front + each for each in names), front.rstrip("."))]


@functools.cache
def looked_at(path: str) -> tuple[frozenset[str], frozenset[str]]:
    """The options that a script itself knows, and the files that it may import. Of Python these are those that
    begin a text, and names that a call takes as a tuple (recordings.py makes options of such); of others all."""
    text = read(path)
    if not text.startswith(("#!/usr/bin/env python3", '"""')):
        return frozenset(OPTION.findall(text)), frozenset()
    found, modules = set[str](), set[str]()
    folders = (os.path.dirname(path), "tools", "tools/commands/src", "tools/checker/src")
    for node in ast.walk(ast.parse(text)):
        if isinstance(node, ast.Constant) and isinstance(node.value, str) and (option := OPTION.match(node.value)):
            found.add(option[0])
        tuples = [each for each in node.args if isinstance(each, ast.Tuple)] if isinstance(node, ast.Call) else []
        found |= {f"--{each.value}" for one in tuples for each in one.elts if isinstance(each, ast.Constant)}
        modules |= {os.path.join(folder, name) for name in imported(node) for folder in folders}
    return frozenset(found), frozenset(modules)


def options(paths: list[str]) -> set[str]:
    """The options that commands know, with those of the modules that they import."""
    found, seen, waiting = set[str](), set[str](), list(paths)
    while waiting:
        path = waiting.pop()
        name = os.path.basename(path).removesuffix(".py")
        if path not in seen and "." not in name and os.path.isfile(os.path.join(TOP, path)):
            seen.add(path)
            own, modules = looked_at(path)
            found |= own
            waiting += modules
    return found


class Commands(unittest.TestCase):
    def test_there_are_sections(self) -> None:
        self.assertGreaterEqual(len(sections()), 40)

    def test_what_is_named_is_there(self) -> None:
        for path in commands("\n".join(pages())):
            self.assertTrue(glob.glob(os.path.join(TOP, re.sub(r"\b[A-Z]+\b", "*", path))), path)

    def test_each_section_names_its_command(self) -> None:
        """In brackets behind the title, or as a block there; below a heading of the third level, in the first words."""
        for title, text in sections().items():
            named = commands(text.split(")")[0]) if text.startswith(" (") else []
            self.assertTrue(named or re.match(r"[^\n]*:\n\n(?:<!-- .* -->\n)?```\n", text), title)
        for title, text in re.findall(r"^### (.*)\n\n(.*)$", "\n".join(pages()), re.MULTILINE):
            self.assertTrue(commands(text) and text.startswith("`"), title)

    def test_options_are_there(self) -> None:
        """Each that a section names is one of a command that it names too."""
        for title, text in sections().items():
            known = options(commands(text))
            own = [part for part in code(text) if not part.startswith(("rattle ", "mypy ", "systemd-analyze "))]
            self.assertEqual({option for part in own for option in OPTION.findall(part)} - known, set(), title)

    def test_each_command_stands_in_it(self) -> None:
        """Each program of tools/, bench/ and examples/ stands here, or in the page of speed; of a test in what its file
        says."""
        speed = map(read, glob.glob("docs/SPEED*.md", root_dir=TOP))
        text, lacking = "\n".join([*pages(), *speed, read(tests_page_name())]), []
        for folder in ("tools/*", "tools/*/*", "tools/*/tests/*", "tools/*/tests/*/*", "bench/*", "examples/*",
                       "examples/*/*"):
            for path in glob.glob(os.path.join(TOP, folder)):
                if os.path.isfile(path) and os.access(path, os.X_OK) and not path.endswith(".c"):
                    lacking += [path] if os.path.basename(path) not in text else []
        self.assertEqual(lacking, [])


class Cases(unittest.TestCase):
    def test_each_crate_of_cases_says_how_to_write_one(self) -> None:
        """TESTING.md names it, and its README tells both texts."""
        crates = [os.path.basename(os.path.dirname(path)) for path in glob.glob(os.path.join(
            TOP, "crates", "*_cases", "stdin")) if re.search("^case ", read(path), re.MULTILINE)]
        self.assertGreaterEqual(len(crates), 6)
        for crate in crates:
            self.assertIn(f"(`crates/{crate}`)", read("docs", "TESTING.md"))
            page = read("crates", crate, "README.md")
            for word in ("rt run < stdin", "`stdout`", "`case NAME`"):
                self.assertIn(word, page, crate)

    def test_cases_of_the_commands(self) -> None:
        """How many cases the stored data of tests have, as TESTING-tools.md says."""
        data = os.path.join("tools", "commands", "tests", "data")
        counts = {f"data/{name}": len(re.findall(r"^case ", read(data, name), re.MULTILINE))
                  for name in ("silent.txt", "altered.txt", "lint/mistakes.txt", "lint/doubts.txt")}
        counts["data/systems"] = len(os.listdir(os.path.join(TOP, data, "systems")))
        told = dict(re.findall(r"^- `(data/[\w./]+)`, (\d+) (?:cases|systems): ", read("docs", "TESTING-tools.md"),
                               re.MULTILINE))
        self.assertEqual({name: int(count) for name, count in told.items()}, counts)


if __name__ == "__main__":
    unittest.main()
