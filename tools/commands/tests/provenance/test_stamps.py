"""What a program is by its stamp, in stored cases (data/stamps.txt): what `--version` tells of each kind, and each
command. The sum of the sources, by hand and by the command line that docs/STAMPS.md has."""
import glob
import hashlib
import os
import re
import shutil
import subprocess
import unittest
from unittest import mock

from credaudit_tools import VERSION
from credaudit_tools.command_line import version
from credaudit_tools.provenance import places, programs, sources, stamp, trees
from credaudit_tools.provenance.stamp import Build, Tree

from .. import support
from ..support import Case

TOP = os.path.normpath(os.path.join(support.EXAMPLES, ".."))
PROGRAM = b"#!/bin/sh\nexit 0\n"
TREE = Tree("1", "unknown", "2" * 64)
NONE_NEEDED = "credaudit-check-certificate"


def sha256(data: bytes) -> str:
    """The SHA-256 of bytes."""
    return hashlib.sha256(data).hexdigest()


def laid_out(lines: list[tuple[str, str]], sum_of_sources: str) -> tuple[str | None, str, str]:
    """A stored case: the stamp's text, the logic, and what the program is."""
    by = {mark: [line for own, line in lines if own == mark] for mark in ("stamp", "logic", "is")}
    text = "".join(line + "\n" for line in by["stamp"])
    text = text.replace("PROGRAM", sha256(PROGRAM)).replace("SOURCES", sum_of_sources)
    return text or None, by["logic"][0], by["is"][0]


class Kinds(Case):
    """What `--version` tells."""

    def setUp(self) -> None:
        super().setUp()
        self.program = self.put("bin/credaudit", PROGRAM, 0o755)
        self.enterContext(mock.patch.dict(os.environ, {"CREDAUDIT": self.program}))
        self.own = self.enterContext(mock.patch.object(trees, "own", return_value=TREE))

    def stamped(self, text: str | None, place: str) -> None:
        """Puts a stamp in a place, or none."""
        if text is not None:
            self.put(place, text.encode())

    def told_of(self) -> tuple[str, str]:
        """The logic and what the program is, as `--version` tells them."""
        lines = version.text("name").split("\n")
        self.assertEqual((lines[0], lines[-1], len(lines)), (f"name {VERSION}", "", 5))
        self.assertEqual(lines[1], f"commit: {self.own().commit if self.own() else 'unknown'}")
        return lines[2].removeprefix("logic: "), lines[3].removeprefix(f"program: {self.program}: ")

    def test_stored(self) -> None:
        seen = set()
        for title, lines in support.cases("stamps.txt"):
            text, logic, kind = laid_out(lines, TREE.sources)
            for place in ("bin/credaudit.build", "lib/credaudit/credaudit.build"):
                with self.subTest(title, place=place):
                    self.stamped(text, place)
                    self.assertEqual(self.told_of(), (logic, kind))
                    if text is not None:
                        os.remove(os.path.join(self.work, place))
            seen.add(kind.partition(" (")[0])
        self.assertEqual(seen, {programs.THIS_TREE, programs.OTHER_TREE, programs.NOT_PROVED})

    def test_of_two_stamps_its_own_counts(self) -> None:
        stored = {title: laid_out(lines, TREE.sources) for title, lines in support.cases("stamps.txt")}
        wrong, _, _ = stored["a stamp with the sum of another program"]
        right, logic, kind = stored["proved of this tree"]
        self.stamped(wrong, "bin/credaudit.build")
        self.stamped(right, "lib/credaudit/credaudit.build")
        self.assertEqual(self.told_of(), (logic, kind))
        link = os.path.join(self.work, "link")
        os.symlink(self.program, link)
        with mock.patch.dict(os.environ, {"CREDAUDIT": link}):
            self.assertIn(f"program: {link}: {kind}", version.text("name"))

    def test_a_byte_more(self) -> None:
        stored = {title: laid_out(lines, TREE.sources) for title, lines in support.cases("stamps.txt")}
        self.stamped(stored["proved of this tree"][0], "bin/credaudit.build")
        self.assertEqual(self.told_of()[1], "proved, of this tree")
        self.put("bin/credaudit", PROGRAM + b"\n", 0o755)
        self.assertEqual(self.told_of(), ("unknown", "not proved (its stamp is another program's)"))

    def test_a_tree_that_is_not_known(self) -> None:
        stored = {title: laid_out(lines, TREE.sources) for title, lines in support.cases("stamps.txt")}
        self.stamped(stored["proved of this tree"][0], "bin/credaudit.build")
        self.own.return_value = None
        self.assertEqual(self.told_of()[1], "proved; which tree these commands are of isn't known (version 1, "
                                            "commit 940ac17681e3e46bf6afc684c63b09300cd5adf6)")

    def test_no_program(self) -> None:
        with mock.patch.dict(os.environ, {"CREDAUDIT": os.path.join(self.work, "none")}):
            self.assertEqual(version.text("name").split("\n")[2:], ["logic: unknown", "program: none", ""])
        odd = os.path.join(self.work, "odd\n\033")
        with mock.patch.object(places, "find", return_value=odd):
            self.assertIn("odd\\012\\033: not proved (it is no file)", version.text("name"))
        with mock.patch.object(programs, "look", side_effect=PermissionError(13, "Permission denied")):
            self.assertEqual(self.told_of(), ("unknown", "not proved (it can't be read: Permission denied)"))


class Commands(Case):
    """Each command, as it is called from a checkout."""

    def test_each(self) -> None:
        names = sorted(os.path.basename(path) for path in glob.glob(os.path.join(TOP, "tools", "credaudit-*")))
        self.assertEqual(len(names), 10)
        self.assertIn(NONE_NEEDED, names)
        program = self.put("credaudit", PROGRAM, 0o755)
        build = Build(Tree("1", "unknown", "3" * 64), sha256(PROGRAM), "dac8208d650f15bf", True, "logic=proved")
        self.put("credaudit.build", build.written().encode())
        commit = trees.commit(TOP)
        for name in names:
            with self.subTest(name):
                done = subprocess.run([os.path.join(TOP, "tools", name), "--version"], capture_output=True, text=True,
                                      check=False, env={**os.environ, "CREDAUDIT": program})
                lines = [f"{name} {VERSION}", "program: none is needed, certificates are judged by the documents alone"]
                if name != NONE_NEEDED:
                    lines[1:] = [f"commit: {commit}", "logic: dac8208d650f15bf",
                                 f"program: {program}: proved, of another tree (version 1, commit unknown)"]
                self.assertEqual((done.returncode, done.stdout.split("\n"), done.stderr), (0, [*lines, ""], ""))


class Stamps(Case):
    """Stamps as texts."""

    def test_there_and_back(self) -> None:
        for commit in ("unknown", "a" * 40, "b" * 64 + "-changed"):
            tree = Tree("1.2-rc.3+x", commit, "0" * 64)
            self.assertEqual(stamp.read_tree(tree.written()), tree)
            for proved in (True, False):
                build = Build(tree, "1" * 64, "2" * 16, proved, "a line: with = and \"'")
                self.assertEqual(stamp.read_build(build.written()), build)

    def test_no_tree(self) -> None:
        text = TREE.written()
        for odd in ("", "\n", text[:-1], text + "\n", text.replace("unknown", "A" * 40), text.replace(": ", ":"),
                    text.replace("unknown", "unknown "), text.replace("unknown", "a" * 41), text * 2):
            with self.subTest(odd), self.assertRaises(ValueError):
                stamp.read_tree(odd)

    def test_files(self) -> None:
        self.assertIsNone(stamp.text_of(self.work))
        self.assertIsNone(stamp.text_of(os.path.join(self.work, "none")))
        self.assertIsNone(stamp.text_of(self.put("long", b"x" * (stamp.MOST + 1))))
        self.assertEqual(stamp.text_of(self.put("odd", b"x\xff")), "x\ufffd")


class Sources(Case):
    """The sum of a tree's sources."""

    def setUp(self) -> None:
        super().setUp()
        for name, text in (("crates.txt", b"# a remark\nlow: # one\nab backend=llvm: low\n"), ("README.md", b"x"),
                           ("crates/low/src/lib.rt", b"1"), ("crates/low/specs/in/A.antt", b"2"),
                           ("crates/low/proofs/A.antt", b"3"), ("crates/low/out/low", b"4"), ("crates/low/args", b"5"),
                           ("crates/ab/src/main.rt", b"6"), ("crates/unlisted/src/lib.rt", b"7")):
            self.put(name, text)

    def test_by_hand(self) -> None:
        paths = ["crates.txt", "crates/ab/src/main.rt", "crates/low/proofs/A.antt", "crates/low/specs/in/A.antt",
                 "crates/low/src/lib.rt"]
        self.assertEqual(sources.files(self.work), paths)
        with open(os.path.join(self.work, "crates.txt"), "rb") as file:
            texts = [file.read(), b"6", b"3", b"2", b"1"]
        lines = "".join(f"{sha256(text)}  {path}\n" for text, path in zip(texts, paths))
        self.assertEqual(sources.sum_of(self.work), sha256(lines.encode()))

    def test_what_changes_it(self) -> None:
        before = sources.sum_of(self.work)
        for name in ("README.md", "crates/low/out/low", "crates/low/args", "crates/unlisted/src/lib.rt"):
            self.put(name, b"other")
            self.assertEqual(sources.sum_of(self.work), before, name)
        seen = {before}
        for name in ("crates.txt", "crates/low/src/lib.rt", "crates/low/specs/in/A.antt", "crates/low/proofs/A.antt",
                     "crates/low/src/new.rt"):
            self.put(name, b"low:\nab:\n# other\n")
            seen.add(sources.sum_of(self.work))
        os.rename(os.path.join(self.work, "crates/low/src/new.rt"), os.path.join(self.work, "crates/low/src/newer.rt"))
        seen.add(sources.sum_of(self.work))
        self.assertEqual(len(seen), 7)

    def test_what_is_missing(self) -> None:
        self.put("crates.txt", b"low:\nnone:\n")
        with self.assertRaises(FileNotFoundError):
            sources.sum_of(self.work)
        os.remove(os.path.join(self.work, "crates.txt"))
        with self.assertRaises(FileNotFoundError):
            sources.sum_of(self.work)

    @unittest.skipIf(shutil.which("bash") is None, "bash isn't there")
    def test_by_the_command_line(self) -> None:
        with open(os.path.join(TOP, "docs", "STAMPS.md"), encoding="utf-8") as file:
            found = re.search(r"^```\n(\{ echo crates\.txt;.*?)^```$", file.read(), re.MULTILINE | re.DOTALL)
        assert found is not None
        done = subprocess.run(["bash", "-c", found[1]], cwd=TOP, capture_output=True, text=True, check=True)
        self.assertEqual(done.stdout, f"{sources.sum_of(TOP)}  -\n")


class Trees(Case):
    """The commit of a folder, and the tree of these commands."""

    def git(self, *words: str) -> str:
        """What git answers in the folder of this test."""
        own = {"HOME": self.work, "PATH": os.environ["PATH"], "GIT_CONFIG_NOSYSTEM": "1"}
        own |= {f"GIT_{who}_{what}": "x" for who in ("AUTHOR", "COMMITTER") for what in ("NAME", "EMAIL")}
        return subprocess.run(["git", "-C", self.work, *words], env=own, capture_output=True, text=True,
                              check=True).stdout.strip()

    @unittest.skipIf(shutil.which("git") is None, "git isn't there")
    def test_commit(self) -> None:
        self.assertEqual(trees.commit(self.work), "unknown")
        self.git("init", "-q")
        self.assertEqual(trees.commit(self.work), "unknown")
        self.put("file", b"1")
        self.put("below/file", b"1")
        self.git("add", ".")
        self.git("commit", "-q", "-m", "x")
        head = self.git("rev-parse", "HEAD")
        self.git("tag", "-a", "-m", "x", "v1")
        self.assertEqual(trees.commit(self.work), head)
        self.assertEqual(trees.commit(os.path.join(self.work, "below")), "unknown")
        with mock.patch.dict(os.environ, {"GIT_DIR": "/nowhere"}):
            self.assertEqual(trees.commit(self.work), head)
        self.put("file", b"2")
        self.assertEqual(trees.commit(self.work), head + "-changed")

    def test_without_git(self) -> None:
        with mock.patch.dict(os.environ, {"PATH": self.work}):
            self.assertEqual(trees.commit(self.work), "unknown")

    def test_own(self) -> None:
        self.assertTrue(places.in_checkout())
        found = trees.own()
        assert found is not None
        self.assertEqual(found, trees.of(TOP))
        with mock.patch.object(places, "LIBRARY", self.work):
            self.assertIsNone(trees.own())
            self.put(places.TREE, TREE.written().encode())
            self.assertEqual(trees.own(), TREE)
            self.put(places.TREE, b"x\n")
            self.assertIsNone(trees.own())
        with mock.patch.object(sources, "sum_of", side_effect=PermissionError(13, "Permission denied")):
            self.assertIsNone(trees.own())


if __name__ == "__main__":
    unittest.main()
