"""The tarball and the package for Debian: each is the same byte for byte from the tree and from the tarball's own
folder, and what they hold is what `make install` puts in place. The versions and sums of CHANGELOG.md, and what
readers do.

The program is one of the machine's own (/bin/true), since only its bytes matter.
"""
import contextlib
import hashlib
import io
import os
import re
import shutil
import stat
import subprocess
import tarfile
import unittest
from collections.abc import Callable

import credaudit_check
import credaudit_tools
from commands.tests.support import EXAMPLES, Case
from credaudit_tools.provenance import sources, stamp, trees
from make import stamps
from make.kit import Failed
from pages.blocks import blocks

from .. import built, changes, deb, debian_texts, dist, roots, tree_files, try_deb, try_dist, version
from ..changes import Version
from ..debian_texts import Named

TOP = os.path.normpath(os.path.join(EXAMPLES, ".."))
PROGRAM, BUILT = "/bin/true", os.environ.get("CREDAUDIT_BUILT")
NEEDED = ("make", "dpkg-deb", "dpkg-shlibdeps")
TEXT = """# Changes

## 2027.10.9

- Program for amd64: SHA-256 `{0}`.
- Program for arm64: SHA-256
  `{1}`.
- One thing, on
  two lines.

## 2026.12.1

- Another one.
""".format("a" * 64, "b" * 64)
NAMED = Named("2027.10.9", "amd64", "A B <a@b.example>", "")


# The files of the smaller tree.
KEPT = re.compile(r"(?!examples/strace/)(?:[A-Z]|docs/|man/|completion/|examples/|crates/credaudit/"
                  r"|tools/(?:commands/src|checker/src|make|release)/|tools/(?:tools_path\.py|layers\.txt|credaudit-))")


class Versions(unittest.TestCase):
    def test_read(self) -> None:
        newest, first = changes.versions(TEXT)
        self.assertEqual((newest.name, newest.programs), ("2027.10.9", {"amd64": "a" * 64, "arm64": "b" * 64}))
        self.assertEqual(newest.items[2], "One thing, on two lines.")
        self.assertEqual((first.name, first.programs, first.items), ("2026.12.1", {}, ["Another one."]))
        self.assertEqual(newest.day().isoformat(), "2027-10-09T00:00:00+00:00")
        with self.assertRaisesRegex(ValueError, "no version"):
            changes.versions("# Changes\n")

    def test_named(self) -> None:
        newest = changes.versions(TEXT)[0]
        self.assertEqual(newest.named("amd64", "a" * 64), "2027.10.9")
        self.assertEqual(newest.named("arm64", "a" * 64), "2027.10.9+aaaaaaaa")
        self.assertEqual(Version("2026.1.2", {}, []).named("amd64", "c" * 64), "2026.1.2+cccccccc")

    def test_with_a_sum(self) -> None:
        """In the place of the old one, of the newest version alone; where there was none, before the rest."""
        for architecture, other in (("amd64", "arm64"), ("arm64", "amd64")):
            text = changes.with_sum(TEXT, architecture, "d" * 64)
            newest, first = changes.versions(text)
            before = changes.versions(TEXT)[0]
            self.assertEqual(newest.programs, {architecture: "d" * 64, other: before.programs[other]})
            self.assertEqual(newest.items[2:], before.items[2:])
            self.assertEqual(first.programs, {})
            self.assertEqual(changes.with_sum(text, architecture, "d" * 64), text)
        one = changes.with_sum("# C\n\n## 2026.1.2\n\n- One.\n", "amd64", "e" * 64)
        self.assertEqual(one, f"# C\n\n## 2026.1.2\n\n- Program for amd64: SHA-256 `{'e' * 64}`.\n- One.\n")
        with self.assertRaisesRegex(ValueError, "no version"):
            changes.with_sum("# Changes\n", "amd64", "e" * 64)

    def test_of_this_tree(self) -> None:
        """The newest version is the one that both packages tell; a version is later than the one below it."""
        found = changes.of(TOP)
        self.assertEqual({found[0].name}, {credaudit_tools.VERSION, credaudit_check.VERSION})
        days = [each.day() for each in found]
        self.assertEqual(days, sorted(set(days), reverse=True))
        for each in found:
            self.assertIn("amd64", each.programs, each.name)
            self.assertGreaterEqual(len(each.items), 2, each.name)


class Built(Case):
    def test_architectures(self) -> None:
        """By the front of an ELF file: e_machine stands at its byte 18 (elf(5))."""
        front = b"\x7fELF\x02\x01" + bytes(12)
        for machine, name in ((62, "amd64"), (183, "arm64")):
            path = self.put(name, front + bytes((machine, 0)))
            self.assertEqual(built.look(path).architecture, name)
        for text in (b"", front, front + b"\x03\x00", b"#!/bin/sh\n" + bytes(30)):
            with self.assertRaises(Failed):
                built.look(self.put("other", text))
        with self.assertRaisesRegex(Failed, "run make first"):
            built.look(os.path.join(self.work, "none"))


class Files(Case):
    def test_git_and_a_walk_agree(self) -> None:
        """Of a copy that is no checkout the same files are found as git knows here, and the same commit is told."""
        if not trees.is_checkout(TOP):
            self.skipTest("no checkout")
        copy = os.path.join(self.work, "copy")
        tree_files.copied(TOP, copy)
        for name in ("crates/credaudit/out/x", "build/x", "tools/release/__pycache__/x"):
            self.put(os.path.join("copy", name))
        self.assertEqual(tree_files.listed(copy), tree_files.listed(TOP))
        self.assertEqual(trees.commit(copy), trees.commit(TOP))
        self.assertRegex(trees.commit(copy), stamp.KEYS["commit"])
        self.put("copy/COMMIT", b"; rm -rf /\n")
        self.assertEqual(trees.commit(copy), "unknown")

    def test_settled(self) -> None:
        self.put("top/run", b"x", 0o700)
        self.put("top/below/plain", b"x", 0o666)
        self.link("top/link", "run")
        top = os.path.join(self.work, "top")
        tree_files.settled(top, 86400)
        modes = {name: stat.S_IMODE(os.lstat(os.path.join(top, name)).st_mode) for name in
                 ("run", "below", "below/plain")}
        self.assertEqual(modes, {"run": 0o755, "below": 0o755, "below/plain": 0o644})
        for name in ("", "run", "below", "below/plain", "link"):
            self.assertEqual(os.lstat(os.path.join(top, name)).st_mtime, 86400, name)


class Sums(Case):
    """version.py, with a program of the machine's own and a stamp by hand."""

    def setUp(self) -> None:
        super().setUp()
        self.put("CHANGELOG.md", TEXT.replace("2027.10.9", credaudit_tools.VERSION).encode())
        self.put("crates.txt", b"one:\n")
        self.put("crates/one/src/lib.rt", b"fn f() {}\n")
        self.program = os.path.join(self.work, dist.PLACE)
        os.makedirs(os.path.dirname(self.program))
        shutil.copy(PROGRAM, self.program)

    def stamped(self, proved: bool) -> None:
        """Stamps the program, as it is built of the tree now."""
        stamps.write(self.program, trees.of(self.work), "0" * 16, proved, "said")

    def refused(self, why: str) -> None:
        """Nothing is written, for this reason."""
        before = self.read("CHANGELOG.md")
        with self.assertRaisesRegex(Failed, why):
            version.written(self.work, self.program)
        self.assertEqual(self.read("CHANGELOG.md"), before)

    def read(self, name: str) -> str:
        """A text of this test."""
        with open(os.path.join(self.work, name), encoding="ascii") as file:
            return file.read()

    def test_written(self) -> None:
        self.refused("not proved")
        self.stamped(proved=False)
        self.refused("not proved")
        self.stamped(proved=True)
        with contextlib.redirect_stdout(io.StringIO()) as told:
            self.assertEqual(version.written(self.work, self.program), 0)
        program = built.look(self.program)
        newest = changes.of(self.work)[0]
        self.assertEqual(newest.named(program.architecture, program.sum), credaudit_tools.VERSION)
        self.assertIn(program.sum, told.getvalue())
        self.put("crates/one/src/lib.rt", b"fn g() {}\n")
        self.refused("of another tree")

    def test_another_version(self) -> None:
        self.stamped(proved=True)
        self.put("CHANGELOG.md", TEXT.encode())
        self.refused("the newest version")


class Readers(Case):
    def test_each_is_tried(self) -> None:
        """What readers do is done by one of both tries, and has commands."""
        self.assertEqual(sorted(os.listdir(roots.READERS)), sorted((*try_deb.WHO, try_dist.WHO)))
        for name in os.listdir(roots.READERS):
            with open(os.path.join(roots.READERS, name), encoding="utf-8") as file:
                self.assertGreater(sum(len(each.commands()) for each in blocks(file.read())), 5, name)

    def test_packages_are_named(self) -> None:
        """Those of CONTRIBUTING.md, by which the tarball is tried."""
        words = try_dist.needed()
        self.assertEqual(words[:2], ["apt-get", "install"])
        for name in ("python3", "strace", "make", "mypy", "flake8", "mandoc", "man-db"):
            self.assertIn(name, words)


class Texts(Case):
    def test_control(self) -> None:
        self.put("root/usr/bin/x", bytes(1025))
        self.link("root/usr/bin/y", "x")
        told = debian_texts.control(NAMED, os.path.join(self.work, "root"), "libc6 (>= 2.34)")
        # Two folders, a link, and two blocks.
        self.assertIn("\nArchitecture: amd64\nMaintainer: A B <a@b.example>\nInstalled-Size: 5\n", told)
        self.assertIn("\nDepends: python3 (>= 3.11), strace, libc6 (>= 2.34)\n", told)
        self.assertNotIn("Homepage", told)
        self.assertIn("\nHomepage: https://b.example\n", debian_texts.control(
            NAMED._replace(homepage="https://b.example"), self.work, "libc6"))
        self.assertEqual(debian_texts.sums(os.path.join(self.work, "root")),
                         f"{hashlib.md5(bytes(1025)).hexdigest()}  usr/bin/x\n")

    def test_changelog(self) -> None:
        told = debian_texts.changelog(changes.versions(TEXT), NAMED._replace(version="2027.10.9+cccccccc"))
        first = "credaudit (2027.10.9+cccccccc) unstable; urgency=medium\n\n  * Program"
        self.assertTrue(told.startswith(first), told)
        self.assertIn("\n -- A B <a@b.example>  Sat, 09 Oct 2027 00:00:00 +0000\n\ncredaudit (2026.12.1) ", told)

    def held(self) -> set[str]:
        """The libraries of the kit that have a stanza."""
        return set(re.findall(r"kit/(\w+)/", debian_texts.template("copyright")))

    @unittest.skipUnless(BUILT and shutil.which("nm"), "no built program, or nm isn't there")
    def test_the_licenses_of_what_is_linked(self) -> None:
        """A name of the program begins with the library that it is of; std's are std_alloc, std_io and their like."""
        done = subprocess.run(["nm", str(BUILT)], capture_output=True, text=True, check=True)
        found = {re.sub("^std_.*", "std", name) for name in re.findall(r" ([a-z][a-z0-9_]*)::", done.stdout)}
        self.assertIn("toml", found)
        self.assertEqual(found - set(sources.crates(self.text("crates.txt"))) - self.held(), set())

    def test_the_licenses_of_what_is_named(self) -> None:
        """Each library of the kit that a crate of the program names has its stanza, and MIT's text is the tree's."""
        own = set(sources.crates(self.text("crates.txt")))
        named = {word for line in self.text("crates.txt").splitlines() for word in line.partition("#")[0].replace(
            ":", " ").split()} - own
        told = debian_texts.template("copyright")
        self.assertEqual(named - self.held(), set())
        self.assertIn("std", self.held())
        for line in self.text("LICENSE-MIT").splitlines()[4:]:
            self.assertIn(line, told)

    def text(self, name: str) -> str:
        """A text at the top of the tree."""
        with open(os.path.join(TOP, name), encoding="utf-8") as file:
            return file.read()


class Made(Case):
    """Of a smaller tree: what is installed, and one crate."""

    def setUp(self) -> None:
        super().setUp()
        self.top = os.path.join(self.work, "top")
        for path in tree_files.listed(TOP):
            if KEPT.match(path):
                tree_files.copy_file(os.path.join(TOP, path), os.path.join(self.top, path))
        self.put("top/crates.txt", b"credaudit:\n")

    def with_umask(self, job: Callable[..., str], *words: object) -> str:
        """What a job makes for somebody whose files nobody else may read."""
        old = os.umask(0o077)
        try:
            return job(*words)
        finally:
            os.umask(old)

    def same(self, one: str, other: str) -> None:
        """Two files have the same bytes."""
        self.assertEqual(sources.sum_of_file(one), sources.sum_of_file(other))

    def test_tarball(self) -> None:
        program = built.look(PROGRAM)
        one = dist.made(self.top, program, os.path.join(self.work, "one"))
        with tarfile.open(one) as tarball:
            entries = tarball.getmembers()
        subprocess.run(["tar", "-xf", one, "-C", self.work], check=True)
        name = os.path.basename(one).removesuffix(".tar.xz")
        self.assertEqual({(each.uid, each.gid, each.mtime) for each in entries},
                         {(0, 0, changes.of(TOP)[0].day().timestamp())})
        self.assertEqual({each.mode for each in entries}, {0o755, 0o644})
        self.assertEqual({each.name.split("/")[0] for each in entries}, {name})
        tree = os.path.join(self.work, name)
        inner = built.look(os.path.join(tree, dist.PLACE))
        self.assertEqual(inner.sum, program.sum)
        self.same(one, self.with_umask(dist.made, tree, inner, os.path.join(self.work, "two")))

    @unittest.skipUnless(all(map(shutil.which, NEEDED)), "make or dpkg-dev isn't there")
    def test_package(self) -> None:
        program = built.look(PROGRAM)
        tree = os.path.join(self.work, "tree")
        dist.laid_out(self.top, program, tree)
        one = deb.made(self.top, program, os.path.join(self.work, "one"), deb.NOBODY, "")
        inner = built.look(os.path.join(tree, dist.PLACE))
        self.same(one, self.with_umask(deb.made, tree, inner, os.path.join(self.work, "two"), deb.NOBODY, ""))
        root = os.path.join(self.work, "root")
        subprocess.run(["dpkg-deb", "-x", one, root], check=True)
        self.held(root)

    def held(self, root: str) -> None:
        """What a package has to hold, and what it mustn't."""
        for path in ("bin/credaudit", "bin/credaudit-trace", "lib/credaudit/credaudit_tools/trace/recorder.py",
                     "lib/credaudit/credaudit_check/texts/world.py", "lib/credaudit/credaudit.tree",
                     "share/man/man1/credaudit.1.gz", "share/man/man5/credaudit-log.5.gz",
                     "share/bash-completion/completions/credaudit", "share/zsh/vendor-completions/_credaudit",
                     "share/fish/vendor_completions.d/credaudit-lint.fish", "share/doc/credaudit/README.md",
                     "share/doc/credaudit/CONTRIBUTING.md", "share/doc/credaudit/docs/timeline.svg",
                     "share/doc/credaudit/docs/TUTORIAL.md", "share/doc/credaudit/copyright",
                     "share/doc/credaudit/changelog.gz", "share/doc/credaudit/examples/saved_id_forgotten/world.toml"):
            self.assertTrue(os.path.exists(os.path.join(root, "usr", path)), path)
        for path in debian_texts.files(root):
            self.assertNotRegex(path, r"LICENSE|\.pyc$|COMMIT$|examples/run\.py$")
            full = os.path.join(root, path)
            if not os.path.islink(full):
                with open(full, "rb") as file:
                    self.assertFalse(file.read().startswith(b"#!/usr/bin/env"), path)


if __name__ == "__main__":
    unittest.main()
