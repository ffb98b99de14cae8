"""make, make try and make install in a small tree, with a stand-in for the kit (fake_rt): what stamps are written, what
install and `--version` tell of the program, and when there is no stamp. What the kit says was recorded of runs of it,
with names of crates changed.
"""
import contextlib
import functools
import io
import os
import re
import shutil
import subprocess
import unittest
from unittest import mock

from commands.tests import support
from commands.tests.support import Case
from credaudit_tools import VERSION
from credaudit_tools.provenance import sources, stamp
from credaudit_tools.provenance.stamp import Build, Tree
from make import prove, same_program, try_build
from make.kit import Failed
from make.same_program import Asked

TOP = os.path.normpath(os.path.join(support.EXAMPLES, ".."))
FAKE = os.path.join(os.path.dirname(os.path.abspath(__file__)), "fake_rt")
LOGIC, OTHER_LOGIC = "0123456789abcdef", "fedcba9876543210"
REST = "native=nat,char,string logic-built=trusted libraries-built=trusted statements=trusted incremental=trusted"
BELOW = f"logic=proved functions=1 sum={LOGIC} {REST}"
OWN = f"logic=proved functions=7 axioms=8 target=x86_64-unknown-linux-gnu cpu=x86-64-v2 sum={LOGIC} {REST}"
LINKED = "linked target=x86_64-unknown-linux-gnu loader=/lib64/ld-linux-x86-64.so.2 files=out/credaudit.o,libos_c.a"
RUNS = "rt: running out/credaudit; to give it other input, run that file yourself"
SAID = f"fn low::echo: proved\n{BELOW}\nfn credaudit::main: proved\n{OWN}\n{LINKED}\n{RUNS}\n"
SAME = "nothing has changed since the last proved build"
UNCHANGED = f"rt: {SAME}, by out/credaudit.stamp, so nothing is checked now\n{RUNS}\n"
TRIED = "run=ended status=0 runners=1 proved=no"
REPORT = b"> 100 init uid=0,0,0,0\nend 1\n"
TREE = {
    "crates.txt": b"low:\ncredaudit: low\n", "crates/low/src/lib.rt": b"low", "crates/low/specs/A.antt": b"A",
    "crates/credaudit/src/main.rt": b"main", "crates/credaudit/stdout": REPORT,
    "crates/credaudit/args": b"replay\nworld.toml\nlog\n",
    "crates/credaudit/data/world.toml": b"world\n", "crates/credaudit/data/log": b"log\n", "README.md": b"x",
    "docs/A.md": b"x", "docs/a.svg": b"x", "man/a.1": b"x", "man/a.5": b"x", "examples/x": b"x", "CHANGELOG.md": b"x",
    "CONTRIBUTING.md": b"x", "SECURITY.md": b"x",
    "completion/credaudit": b"x", "completion/credaudit.fish": b"x", "completion/_credaudit": b"x",
}


class Verdicts(unittest.TestCase):
    """Whether the kit says that the program is proved."""

    def test_said(self) -> None:
        for said, known, line in ((SAID, "", OWN), (SAID, "before", OWN), (UNCHANGED, "before", "before"),
                                  (UNCHANGED, "", SAME), (f"{OWN}\n{LINKED}\n", "", OWN)):
            with self.subTest(said):
                self.assertEqual(prove.verdict(said, LOGIC, known), line)

    def test_not_said(self) -> None:
        for said in ("", RUNS, f"{BELOW}\n{RUNS}\n", f"{LINKED}\n{RUNS}\n", f"{OWN}\nwarning: x\n{LINKED}\n",
                     SAID.replace(OWN, OWN.replace("logic=proved", "logic=unproved")), f"{LINKED}\n{OWN}\n",
                     SAID.replace(OWN, f"x {OWN}"), SAID.replace(f"sum={LOGIC} ", ""), UNCHANGED[4:]):
            with self.subTest(said), self.assertRaisesRegex(Failed, "doesn't say"):
                prove.verdict(said, LOGIC, "before")

    def test_another_logic(self) -> None:
        with self.assertRaisesRegex(Failed, f"by the logic {LOGIC}, but rt version tells {OTHER_LOGIC}"):
            prove.verdict(SAID, OTHER_LOGIC, "")


class SmallTree(Case):
    """A small tree with the Makefile and the commands of this one, and the stand-in for the kit."""

    def setUp(self) -> None:
        super().setUp()
        self.top, self.root = os.path.join(self.work, "tree"), os.path.join(self.work, "root")
        self.crate, self.kit = os.path.join(self.top, "crates", "credaudit"), os.path.join(self.work, "kit")
        self.built = os.path.join(self.crate, "out", "credaudit")
        for name, text in TREE.items():
            self.put(os.path.join("tree", name), text)
        for name in ("tools/commands/src", "tools/checker/src", "tools/make"):
            shutil.copytree(os.path.join(TOP, name), os.path.join(self.top, name),
                            ignore=shutil.ignore_patterns("__pycache__", "tests"))
        for name in ("Makefile", "LICENSE", "LICENSE-MIT", "LICENSE-APACHE", "tools/layers.txt",
                     "tools/tools_path.py"):
            shutil.copy(os.path.join(TOP, name), os.path.join(self.top, name))
        for name in ("credaudit-lint", "credaudit-check-certificate"):
            shutil.copy(os.path.join(TOP, "tools", name), os.path.join(self.top, "tools", name))
        os.makedirs(self.kit)
        shutil.copy(FAKE, os.path.join(self.kit, "rt"))
        self.kit_is(said=SAID)

    def kit_is(self, said: str = SAID, status: int = 0, before: str = "", more: str = "") -> None:
        """What the kit tells, its status, a script that it runs first, and lines more of the program."""
        for name, text in (("said", said), ("status", str(status)), ("before", before), ("more", more),
                           ("logic", LOGIC)):
            self.put(f"kit/{name}", text.encode())
        self.put("kit/report", REPORT)

    def make(self, *words: str, status: int = 0) -> tuple[str, str]:
        """What make writes to both outputs; its status must be this one."""
        environment = {key: value for key, value in os.environ.items() if key not in ("CREDAUDIT", "MAKEFLAGS")}
        done = subprocess.run(["make", "-s", "-C", self.top, *words], stdin=subprocess.DEVNULL, capture_output=True,
                              env={**environment, "PATH": f"{self.kit}:{os.environ['PATH']}"}, text=True, check=False)
        self.assertEqual(done.returncode, status, done.stderr)
        return done.stdout, done.stderr

    def installed(self, *words: str) -> str:
        """What make install tells of the program, without its path; `--version` of an installed command tells the
        same."""
        out, errors = self.make("install", f"DESTDIR={self.root}", "PREFIX=/usr", *words)
        program = os.path.join(self.root, "usr", "bin", "credaudit")
        self.assertEqual(errors, "")
        self.assertTrue(out.startswith(f"installed: {program}: "), out)
        kind = out.removeprefix(f"installed: {program}: ").removesuffix("\n")
        lint = os.path.join(self.root, "usr", "bin", "credaudit-lint")
        told = subprocess.run([lint, "--version"], env={"PATH": "/usr/bin:/bin"}, capture_output=True, text=True,
                              check=True).stdout
        stamped = os.path.exists(os.path.join(self.root, "usr", "lib", "credaudit", "credaudit.build"))
        shown = kind if stamped else "not proved (it has no stamp)"
        self.assertEqual(told, f"credaudit-lint {VERSION}\ncommit: unknown\nlogic: {LOGIC if stamped else 'unknown'}\n"
                               f"program: {program}: {shown}\n")
        return kind

    def build(self, name: str = "credaudit") -> Build:
        """The stamp of the program of that name."""
        return stamp.read_build(stamp.text_of(os.path.join(self.crate, "out", name + ".build")) or "")

    def wanted(self, proved: bool, said: str, name: str = "credaudit") -> Build:
        """The stamp that the program of that name should have."""
        program = sources.sum_of_file(os.path.join(self.crate, "out", name))
        return Build(Tree(VERSION, "unknown", sources.sum_of(self.top)), program, LOGIC, proved, said)

    def left(self) -> set[str]:
        """What stands in the program's folder."""
        return set(os.listdir(os.path.dirname(self.built)))


@unittest.skipIf(shutil.which("make") is None, "make isn't there")
class Proved(SmallTree):
    """make."""

    def test_proved_and_installed(self) -> None:
        out, errors = self.make()
        self.assertTrue(out.endswith("built: crates/credaudit/out/credaudit\n"), out)
        self.assertRegex(errors, rf"(?s)\Alibraries: 1, of which 0 .*\nlow: proved; .*\n{re.escape(SAID)}took 0\.\d "
                                 r"minutes by the clock and 0\.\d of processor, on \d+ processors, .*\n\Z")
        self.assertEqual(self.build(), self.wanted(True, OWN))
        self.assertEqual(self.installed(), "proved, of this tree")
        self.put("tree/README.md", b"changed")
        self.assertEqual(self.installed(), "proved, of this tree")
        self.put("tree/crates/low/specs/A.antt", b"changed")
        self.assertEqual(self.installed(), f"proved, of another tree (version {VERSION}, commit unknown)")
        os.rename(self.built + ".build", self.built + ".away")
        self.assertEqual(self.installed(), "not proved (it has no stamp)")
        os.rename(self.built + ".away", self.built + ".build")
        with open(self.built, "ab") as file:
            file.write(b"\n")
        self.assertEqual(self.installed(), "not proved (its stamp is another program's)")
        self.make("uninstall", f"DESTDIR={self.root}", "PREFIX=/usr")
        self.assertEqual([name for _, _, names in os.walk(self.root) for name in names], [])

    def test_from_elsewhere(self) -> None:
        self.make()
        other = os.path.join(self.work, "elsewhere")
        shutil.copy(self.built, other)
        self.assertEqual(self.installed(f"PROGRAM={other}"), "not proved (it has no stamp)")
        shutil.copy(self.built + ".build", other + ".build")
        self.assertEqual(self.installed(f"PROGRAM={other}"), "proved, of this tree")
        again = os.path.join(self.work, "again", "usr", "bin", "credaudit")
        self.assertEqual(self.make("install", f"DESTDIR={self.work}/again", "PREFIX=/usr",
                                   f"PROGRAM={self.root}/usr/bin/credaudit")[0],
                         f"installed: {again}: proved, of this tree\n")

    def test_without_a_program(self) -> None:
        self.assertIn("isn't built", self.make("install", f"DESTDIR={self.root}", status=2)[1])

    def test_unchanged(self) -> None:
        self.make()
        self.kit_is(said=UNCHANGED)
        self.make()
        self.assertEqual(self.build(), self.wanted(True, OWN))
        os.remove(self.built + ".build")
        self.make()
        self.assertEqual(self.build(), self.wanted(True, SAME))
        self.put("tree/crates/credaudit/out/credaudit.build", self.wanted(False, TRIED).written().encode())
        self.make()
        self.assertEqual(self.build(), self.wanted(True, SAME))

    def test_no_stamp(self) -> None:
        change = f"echo more >>{self.top}/crates/low/src/lib.rt"
        for why, said, status, before in (
                ("Error 1", "error: x\n", 1, ""), ("doesn't say", RUNS + "\n", 0, ""),
                ("were changed", SAID, 0, change), ("by the logic", SAID.replace(LOGIC, OTHER_LOGIC), 0, "")):
            with self.subTest(why):
                self.kit_is()
                self.make()
                self.assertIn("credaudit.build", self.left())
                self.kit_is(said, status, before)
                self.assertIn(why, self.make(status=2)[1])
                self.assertNotIn("credaudit.build", self.left())
        self.kit_is(more="echo more\n")
        self.make(status=2)

    def test_no_kit(self) -> None:
        os.remove(os.path.join(self.kit, "rt"))
        self.put("kit/rt", b"#!/bin/sh\nexit 1\n", 0o755)
        self.assertIn("rt version tells no sum of the logic", self.make(status=2)[1])


@unittest.skipIf(shutil.which("make") is None, "make isn't there")
class Tried(SmallTree):
    """make try."""

    def setUp(self) -> None:
        super().setUp()
        self.name = try_build.NAME
        self.kit_is(said=f"checked: ended status=0\n{TRIED}\n")

    def test_left_and_installed(self) -> None:
        out, errors = self.make("try")
        path = f"crates/credaudit/out/{self.name}"
        self.assertEqual(out, f"{REPORT.decode()}tried: the report is the stored one. This proves nothing\n"
                              f"left: {path}. It isn't proved, checks itself and is slower. To install it: "
                              f"make install PROGRAM={path}\n")
        self.assertEqual(errors, f"checked: ended status=0\n{TRIED}\n")
        self.assertEqual(self.left(), {self.name, self.name + ".build"})
        self.assertEqual(self.build(self.name), self.wanted(False, TRIED, self.name))
        self.assertEqual(self.installed(f"PROGRAM={path}"), "not proved (built by make try)")
        self.assertIn("isn't built", self.make("install", f"DESTDIR={self.root}", status=2)[1])

    def test_another_report(self) -> None:
        self.make("try")
        self.kit_is(said=f"{TRIED}\n", more="echo more\n")
        out, errors = self.make("try", status=2)
        self.assertIn("the report isn't the stored one", errors)
        self.assertTrue(out.startswith(REPORT.decode() + "more\n"), out)
        self.assertEqual(self.left(), set())

    def test_refused(self) -> None:
        none = "error: x\nrun=none proved=no\n"
        tried = f"{TRIED}\n"
        for said, status, before in ((none, 1, ""), (none, 0, ""), (tried + "more\n", 0, ""), (tried, 1, ""),
                                     (tried, 0, "exit 1")):
            with self.subTest(said, status=status):
                self.kit_is(said, status, before)
                self.assertIn("rt tried nothing", self.make("try", status=2)[1])
                self.assertEqual(self.left(), set())

    def test_a_build_that_needs_the_kit(self) -> None:
        self.kit_is(said=f"{TRIED}\n", more='[ -n "$KIT" ] || exit 1\n', before="export KIT=1")
        out, _ = self.make("try")
        self.assertTrue(out.endswith("no program is left: this kit's build can't be taken, or doesn't run without the"
                                     " kit\n"), out)
        self.assertEqual(self.left(), set())

    def test_two_that_could_be_it(self) -> None:
        self.kit_is(said=f"{TRIED}\n", before='mkdir "$TMPDIR/x"; build "$TMPDIR/x/other"')
        self.assertIn("no program is left", self.make("try")[0])
        self.assertEqual(self.left(), set())

    def test_a_file_that_is_opened_twice(self) -> None:
        self.kit_is(said=f"{TRIED}\n", before='cat "$4"')
        out, errors = self.make("try", status=2)
        self.assertTrue(out.startswith("world\n> 100"), out)
        self.assertIn("the report isn't the stored one", errors)

    def test_no_file(self) -> None:
        with self.assertRaisesRegex(Failed, "names a file"):
            try_build.tried(self.crate, ["drill", "1"], self.built)


@unittest.skipIf(shutil.which("make") is None, "make isn't there")
class SameProgram(SmallTree):
    """same_program.py, without other users."""

    def compared(self, said: str = SAID, before: str = "", keep: str | None = None,
                 at_once: bool = False) -> tuple[int, list[str]]:
        """The status of a comparison, and what it told."""
        self.kit_is(said=said, before=before)
        out = io.StringIO()
        with (mock.patch.dict(os.environ, {"PATH": f"{self.kit}:{os.environ['PATH']}"}),
              mock.patch.object(subprocess, "run", functools.partial(subprocess.run, capture_output=True)),
              contextlib.redirect_stdout(out)):
            status = same_program.compared(Asked(self.top, self.work, keep=keep, at_once=at_once), (None, None))
        return status, out.getvalue().splitlines()

    def test_same(self) -> None:
        status, told = self.compared()
        self.assertEqual((status, told[-1]), (0, "the programs are the same byte for byte"))
        self.assertEqual([line.split("/credaudit-same-")[0] for line in told[0:3:2]],
                         [f"you: make all in {self.work}"] * 2)
        self.assertEqual(told[1].split()[0], told[3].split()[0])

    def test_side_by_side(self) -> None:
        """Each waits until the other one's make runs too."""
        meets = """case $1 in run)
          touch "$here/run.$$"
          for _ in $(seq 600); do [ $(ls "$here"/run.* | wc -l) -ge 2 ] && break; sleep 0.05; done
          [ $(ls "$here"/run.* | wc -l) -ge 2 ] || exit ;;
        esac"""
        status, told = self.compared(before=meets, at_once=True)
        self.assertEqual((status, told[-1]), (0, "the programs are the same byte for byte"))

    def test_the_first_is_kept(self) -> None:
        keep = os.path.join(self.work, "first")
        self.assertEqual(self.compared(keep=keep)[0], 0)
        build = stamp.read_build(stamp.text_of(keep + ".build") or "")
        self.assertEqual((build.proved, build.program), (True, sources.sum_of_file(keep)))

    def test_other(self) -> None:
        status, told = self.compared(before='echo "# $PWD" >"$here/more"')
        self.assertEqual((status, told[-1]), (1, "the programs differ"))
        self.assertNotEqual(told[1].split()[0], told[3].split()[0])

    def test_not_made(self) -> None:
        with self.assertRaisesRegex(Failed, "make all ended with status 2"):
            self.compared(said="error: x\n")

    def test_words(self) -> None:
        script = os.path.join(TOP, "tools", "make", "same_program.py")
        done = subprocess.run([script, "--users", "nobody"], capture_output=True, text=True, check=False)
        self.assertEqual((done.returncode, done.stdout), (2, ""))
        self.assertIn("--users takes two names", done.stderr)


if __name__ == "__main__":
    unittest.main()
