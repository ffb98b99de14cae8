"""The blocks of README and of documents: each command, pasted at the top of the repository, writes what stands below
it.

By the stored answers of the program each is run, but those that record a program, of which the stored recordings stand
for what they make, and those of pages that ask a great many questions. Where the variable CREDAUDIT_BUILT names a
built program, and this runs as root with strace there, each block is run as an ordinary user with sudo(8) types it. And
what docs/PROVED.md and docs/LIBRARY.md name stands in the crates.
"""
import os
import re
import shutil
import subprocess
import tempfile
import unittest
from collections.abc import Callable

from commands.tests.support import EXAMPLES, STORED

from ..blocks import MANY_QUESTIONS, PASTED, PROGRESS, blocks

TOP = os.path.normpath(os.path.join(EXAMPLES, ".."))
# How many commands each document has at least.
LEAST = {"README.md": 7, "docs/TUTORIAL.md": 10, "docs/CHECKER.md": 2, "docs/CERTIFICATE.md": 2, "docs/COOKBOOK.md": 14}


def pasted(document: str) -> list[list[tuple[str, str]]]:
    """The blocks with commands of a document: in each the commands, and what each writes."""
    with open(os.path.join(TOP, document), encoding="utf-8") as file:
        return [found for found in (block.commands() for block in blocks(file.read())) if found]


# By name the stored recordings that stand for those which blocks make.
RECORDINGS = {"recording": "first_try", "recording-fixed": "first_try", "recording-late": "drops_too_late",
              "recording-late-fixed": "drops_too_late"}
COMMANDS = os.path.join(TOP, "tools")
BUILT = os.environ.get("CREDAUDIT_BUILT")
USER = 65533             # who may be nobody's: an ordinary user
# Of a block whose commands call the program many times: test_expected_classes and test_when_expected run them within
# the test.
ELSEWHERE = ("/tmp/rights.expected", "/tmp/told", "/tmp/late.expected", "/tmp/late.told")


def may_record() -> bool:
    """Whether programs can be recorded here, and the program is built."""
    return bool(BUILT) and os.geteuid() == 0 and bool(shutil.which("strace"))


def as_user(command: str) -> list[str]:
    """A command as an ordinary user types it: with sudo root runs it, with the variables that sudo sets, and without
    that user does."""
    if command.startswith("sudo "):
        return ["env", f"SUDO_UID={USER}", f"SUDO_GID={USER}", "bash", "-c", command.removeprefix("sudo ")]
    return ["setpriv", f"--reuid={USER}", f"--regid={USER}", "--clear-groups", "bash", "-c", command]


class Blocks(unittest.TestCase):
    def setUp(self) -> None:
        self.folder = tempfile.mkdtemp(prefix="credaudit-test-")
        os.chmod(self.folder, 0o1777)
        self.addCleanup(shutil.rmtree, self.folder)

    def environment(self, program: str) -> dict[str, str]:
        """Where credaudit is this program, and the commands around it are those of this checkout."""
        for name in os.listdir(COMMANDS):
            if name.startswith("credaudit-"):
                os.symlink(os.path.join(COMMANDS, name), os.path.join(self.folder, name))
        os.symlink(program, os.path.join(self.folder, "credaudit"))
        return {**os.environ, "CREDAUDIT": program, "PATH": self.folder + ":" + os.environ["PATH"]}

    def run_block(self, block: list[tuple[str, str]], environment: dict[str, str],
                  words: Callable[[str], list[str]] = lambda command: ["bash", "-c", command]) -> None:
        """Runs the commands of a block, with a folder of this test in the place of /tmp, and compares what they write,
        to both outputs."""
        for command, wanted in ((part.replace("/tmp/", self.folder + "/") for part in pair) for pair in block):
            with self.subTest(command=command):
                done = subprocess.run(words(command), cwd=TOP, env=environment, text=True, stdout=subprocess.PIPE,
                                      stderr=subprocess.STDOUT, check=False)
                self.assertEqual(PROGRESS.sub("", done.stdout), wanted)

    def test_there_are_blocks(self) -> None:
        self.assertEqual(set(LEAST), set(PASTED))
        for document, least in LEAST.items():
            self.assertGreaterEqual(sum(map(len, pasted(document))), least, document)

    def test_they_write_what_they_say(self) -> None:
        environment = self.environment(STORED)
        for name, folder in RECORDINGS.items():
            shutil.copytree(os.path.join(TOP, "examples", folder, name), os.path.join(self.folder, name))
        for document in (each for each in PASTED if each not in MANY_QUESTIONS):
            for block in pasted(document):
                kept = [part for part in block if not part[0].startswith("sudo ")
                        and not any(name in part[0] for name in ELSEWHERE)]
                self.run_block(kept, environment)

    @unittest.skipUnless(may_record(), "no built program, or programs can't be recorded here")
    def test_they_can_be_pasted(self) -> None:
        environment = self.environment(os.path.abspath(BUILT or ""))
        for document in PASTED:
            for block in pasted(document):
                self.run_block(block, environment, as_user)


def theorems() -> list[tuple[str, str]]:
    """The items of docs/PROVED.md: a theorem, and on a line of its own its contract."""
    with open(os.path.join(TOP, "docs", "PROVED.md"), encoding="utf-8") as file:
        items = re.findall(r"^- (.*?):\n  (`\w+::.*?)(?=\n-|\n\n)", file.read(), re.MULTILINE | re.DOTALL)
    return [(" ".join(theorem.split()), " ".join(contract.split())) for theorem, contract in items]


def source(crate: str) -> str:
    """All code of a crate."""
    folder = os.path.join(TOP, "crates", crate, "src")
    texts: list[str] = []
    for name in sorted(os.listdir(folder)):
        if name.endswith(".rt"):
            with open(os.path.join(folder, name), encoding="utf-8") as file:
                texts.append(file.read())
    return "\n".join(texts)


class Proved(unittest.TestCase):
    def test_a_theorem_is_a_short_sentence(self) -> None:
        self.assertGreater(len(theorems()), 40)
        for theorem, _ in theorems():
            self.assertLessEqual(len(theorem.split()), 40, theorem)

    def test_contracts_stand(self) -> None:
        for theorem, contract in theorems():
            named = re.findall(r"`(\w+)::(\w+)`(?:: ((?:`\w+`(?:, )?)+))?", contract)
            self.assertTrue(named, theorem)
            for crate, function, clauses in named:
                text = source(crate)
                self.assertTrue(re.search(rf"\bfn {function}\b", text), f"{crate}::{function}")
                for clause in re.findall(r"`(\w+)`", clauses):
                    self.assertTrue(re.search(rf"\bensures\*? {clause} ", text), f"{crate}::{function}: {clause}")


class Library(unittest.TestCase):
    def test_calls_stand(self) -> None:
        """Each call of docs/LIBRARY.md stands in its crate; a name without a crate is of the one before it."""
        with open(os.path.join(TOP, "docs", "LIBRARY.md"), encoding="utf-8") as file:
            rows = [line.split(" | ")[0] for line in file.read().split("\n") if line.startswith("| `")]
        self.assertGreater(len(rows), 15)
        for row in rows:
            crate = ""
            for name in re.findall(r"`([\w:]+)", row):
                *path, last = name.split("::")
                crate = path[0] if path and path[0].startswith("cm_") else crate
                self.assertRegex(source(crate), rf"\b(fn|struct) {last}\b", f"{crate}: {last}")


if __name__ == "__main__":
    unittest.main()
