"""The pages of the program, of worlds, logs and certificates: their tables beside docs/FORMATS.md and the crates. What
make install puts in place, make uninstall takes away. What bash, fish and zsh complete."""
import os
import re
import shutil
import subprocess
import unittest

from commands.tests.support import EXAMPLES, Case

TOP = os.path.normpath(os.path.join(EXAMPLES, ".."))
PAGES = {"credaudit.1": ("EXIT STATUS", "EXAMPLES"), "credaudit-world.5": ("EXAMPLES", "DIAGNOSTICS"),
         "credaudit-check-certificate.1": ("EXIT STATUS", "EXAMPLES"),
         "credaudit-log.5": ("EXAMPLES", "DIAGNOSTICS"), "credaudit-certificate.5": ("EXAMPLES", "DIAGNOSTICS")}


def text(*parts: str) -> str:
    """The text of a file below the top of the repository."""
    with open(os.path.join(TOP, *parts), encoding="utf-8") as file:
        return file.read()


def section(page: str, name: str) -> str:
    """A section of a page."""
    return page.split(f".Sh {name}\n")[1].split("\n.Sh ")[0]


def described(part: str) -> set[str]:
    """The words that the lists of a part of a page tell of, each by itself."""
    found = set[str]()
    for line in re.findall(r"^\.It (?:Ic )?(.*)$", part, re.MULTILINE):
        words = re.split(r" (?:Ar|No|Op|Cm) ", line)[0]
        found |= {word.strip().removeprefix("Ic ") for word in words.split(" , ")}
    return found


def table(document: str, heading: str) -> list[list[str]]:
    """The rows of the table of a document whose heading begins so, cell by cell."""
    lines = document.split("\n")
    first = next(place for place, line in enumerate(lines) if line.startswith(heading))
    rows: list[list[str]] = []
    for line in lines[first + 2:]:
        if not line.startswith("|"):
            break
        rows.append([cell.strip() for cell in line.strip("|").split(" |")])
    return rows


class ProgramPages(Case):
    def test_sections(self) -> None:
        for name, sections in PAGES.items():
            for each in ("NAME", "DESCRIPTION", *sections, "SEE ALSO"):
                self.assertIn(f".Sh {each}\n", text("man", name), name)

    def test_statuses(self) -> None:
        told = re.findall(r"^\.It (\d+)$", section(text("man", "credaudit.1"), "EXIT STATUS"), re.MULTILINE)
        self.assertEqual(told, [str(number) for number in range(13)])

    def test_commands(self) -> None:
        page, words = text("man", "credaudit.1"), text("docs", "FORMATS.md").split("```")[1]
        forms = [line.split("(")[0].split()[1:] for line in words.strip().split("\n")]
        self.assertEqual(re.findall(r"^\.Cm (\w+)\n\.Ar (.*)$", page.split(".Sh DESCRIPTION")[0], re.MULTILINE),
                         [(form[0], " ".join(form[1:]).lower()) for form in forms])

    def test_calls(self) -> None:
        rows = table(text("docs", "FORMATS.md"), "| Call | Arguments |")
        calls = {name for row in rows for name in re.findall(r"`(\w+)`", row[0])}
        self.assertEqual(len(calls), 27)
        page = section(text("man", "credaudit-log.5"), "DESCRIPTION").split(".Ss Calls")[1]
        self.assertEqual(described(page), calls)

    def test_errors(self) -> None:
        told = re.findall(r"\bE[A-Z0-9]{2,}\b", section(text("man", "credaudit-log.5"), "DESCRIPTION"))
        self.assertEqual(set(told), set(re.findall(r'"(E[A-Z0-9]+)"', text("crates", "cm_base", "src", "errno.rt"))))

    def test_faults(self) -> None:
        document = text("docs", "FORMATS.md")
        faults = [row[0].strip("` ") for row in table(document, "| Fault | The line")]
        others = table(document.split("three more; no script line has these:")[1], "| Fault |")
        told = described(section(text("man", "credaudit-log.5"), "DIAGNOSTICS"))
        self.assertEqual(told, set(faults) | {row[0].strip("` ") for row in others})
        words = {row[0].strip("` ") for row in table(document, "| WORD |")}
        self.assertEqual(described(section(text("man", "credaudit-world.5"), "DIAGNOSTICS")), words)

    def test_keys(self) -> None:
        rows = table(text("docs", "FORMATS.md"), "| Table | Key |")
        keys = {key for row in rows for key in re.findall(r"`(\w+)`", row[1])}
        self.assertEqual(described(section(text("man", "credaudit-world.5"), "DESCRIPTION")), keys)

    def test_refusals(self) -> None:
        told = described(section(text("man", "credaudit-certificate.5"), "DIAGNOSTICS"))
        self.assertEqual({" ".join(each.split()[:2]) for each in told},
                         {"refused json", "refused shape", "refused order", "refused not-start", "refused not-closed",
                          "refused meets"})


@unittest.skipIf(shutil.which("make") is None, "make isn't there")
class Installed(Case):
    def make(self, target: str) -> None:
        """Makes a target below the folder of this test, with a stand-in for the built program."""
        done = subprocess.run(["make", "-s", "-C", TOP, target, f"DESTDIR={self.work}", "PREFIX=/usr",
                               "PROGRAM=/bin/true"], capture_output=True, text=True, check=False)
        self.assertEqual((done.returncode, done.stderr), (0, ""))

    def left(self) -> set[str]:
        """The files below the folder of this test."""
        return {os.path.relpath(os.path.join(folder, name), self.work)
                for folder, _, names in os.walk(self.work) for name in names}

    def test_in_place_and_away(self) -> None:
        self.make("install")
        there = self.left()
        for name in ("bin/credaudit", "bin/credaudit-trace", "bin/credaudit-check-certificate",
                     "share/man/man1/credaudit.1",
                     "lib/credaudit/credaudit_tools/trace/recorder.py", "lib/credaudit/credaudit_check/texts/world.py",
                     "share/man/man5/credaudit-log.5", "share/bash-completion/completions/credaudit-lint",
                     "share/doc/credaudit/README.md", "share/doc/credaudit/examples/dropped_for_good/world.toml"):
            self.assertIn(f"usr/{name}", there)
        for name, status in (("credaudit-lint", 0), ("credaudit-check-certificate", 6)):
            linked = subprocess.run([os.path.join(self.work, "usr/bin", name), "--help"], capture_output=True,
                                    text=True, check=False)
            self.assertEqual((linked.returncode, linked.stderr), (status, ""))
        self.make("uninstall")
        self.assertEqual({name for name in self.left() if "__pycache__" not in name}, set())


@unittest.skipIf(shutil.which("bash") is None, "bash isn't there")
class Completed(Case):
    def completed(self, *words: str) -> list[str]:
        """What bash offers for the last of the words."""
        function = {"credaudit": "_credaudit"}.get(words[0], "_credaudit_check_certificate")
        script = (f"source {TOP}/completion/credaudit; compopt() {{ :; }}; COMP_WORDS=(\"$@\"); "
                  f"COMP_CWORD=$(($# - 1)); {function}; printf '%s\\n' \"${{COMPREPLY[@]}}\"")
        done = subprocess.run(["bash", "-c", script, "bash", *words], capture_output=True, text=True, check=True,
                              cwd=self.work)
        return done.stdout.split()

    def test_completed(self) -> None:
        self.put("world.toml", b"")
        self.assertEqual(self.completed("credaudit", ""), ["replay", "audit", "check", "confirm", "drill"])
        self.assertEqual(self.completed("credaudit", "c"), ["check", "confirm"])
        self.assertEqual(self.completed("credaudit", "audit", "wo"), ["world.toml"])
        self.assertEqual(self.completed("credaudit", "audit", "world.toml", "log", "100", "u"), ["uid:"])
        self.assertEqual(self.completed("credaudit", "replay", "a", "b", ""), [])
        self.assertEqual(self.completed("credaudit-check-certificate", "wo"), ["world.toml"])
        self.assertEqual(self.completed("credaudit-check-certificate", "world.toml", "log", "100", "c"), ["cap:CAP_"])


@unittest.skipIf(shutil.which("fish") is None, "fish isn't there")
class CompletedByFish(Case):
    def completed(self, line: str) -> list[str]:
        """What fish offers at the end of a line, without what it says of each."""
        done = subprocess.run(["fish", "--no-config", "-c", "source $argv[1]; complete -C $argv[2]",
                               os.path.join(TOP, "completion", "credaudit.fish"), line], capture_output=True, text=True,
                              check=True, cwd=self.work, env={**os.environ, "HOME": self.work,
                                                              "PATH": f"{TOP}/tools:{os.environ['PATH']}"})
        return [each.partition("\t")[0] for each in done.stdout.splitlines()]

    def test_completed(self) -> None:
        self.put("world.toml", b"")
        self.assertEqual(self.completed("credaudit "), ["audit", "check", "confirm", "drill", "replay"])
        self.assertEqual(self.completed("credaudit-audit c"), ["check", "confirm"])
        self.assertEqual(self.completed("credaudit audit wo"), ["world.toml"])
        self.assertEqual(self.completed("credaudit audit world.toml log 100 u"), ["uid:"])
        self.assertEqual(self.completed("credaudit replay a b "), [])
        self.assertEqual(self.completed("credaudit-check-certificate wo"), ["world.toml"])
        self.assertEqual(self.completed("credaudit-check-certificate world.toml log 100 c"), ["cap:CAP_"])
        self.assertEqual(self.completed("credaudit-lint --s"), ["--scanned"])


@unittest.skipIf(shutil.which("zsh") is None, "zsh isn't there")
class CompletedByZsh(Case):
    def asked(self, *words: str) -> str:
        """Of what zsh asks itself for the last of the words: files, these words, or what a command's help has."""
        script = ('_files() { print files }; _gnu_generic() { print generic }; compadd() { shift; print -- ${@:#} }; '
                  f"words=(\"$@\"); CURRENT=$#; service=$words[1]; source {TOP}/completion/_credaudit")
        done = subprocess.run(["zsh", "-f", "-c", script, "zsh", *words], capture_output=True, text=True, check=True)
        return done.stdout.strip()

    def test_asked(self) -> None:
        self.assertEqual(self.asked("credaudit", ""), "replay audit check confirm drill")
        for words in (("audit", ""), ("check", "a", ""), ("confirm", "a", "b", "100", "uid:0", "")):
            self.assertEqual(self.asked("credaudit", *words), "files")
        self.assertEqual(self.asked("credaudit-audit", "audit", "a", "b", "100", ""), "-- uid: gid: cap:CAP_")
        self.assertEqual(self.asked("credaudit", "replay", "a", "b", ""), "")
        self.assertEqual(self.asked("credaudit", "audit", "a", "b", ""), "")
        self.assertEqual(self.asked("credaudit-check-certificate", ""), "files")
        self.assertEqual(self.asked("credaudit-check-certificate", "a", "b", "100", ""), "-- uid: gid: cap:CAP_")
        self.assertEqual(self.asked("credaudit-lint", "--"), "generic")

    def test_it_is_of_each_command(self) -> None:
        with open(os.path.join(TOP, "completion", "_credaudit"), encoding="ascii") as file:
            named = file.readline().split()[1:]
        commands = {name for name in os.listdir(os.path.join(TOP, "tools")) if name.startswith("credaudit-")}
        self.assertEqual(set(named), {"credaudit", *commands})


if __name__ == "__main__":
    unittest.main()
