"""The stored cases of the lint: worlds, logs and recordings, what the program answers, and what has to be told.

`CREDAUDIT_STORE=PROGRAM PYTHONPATH=commands/src python3 -m commands.tests.lint.lint_cases`, in tools/, asks the program
for its answer to each case anew, and keeps them in commands/tests/data/lint/answers.json. mistakes.txt there says how
its cases are written; doubts.txt has three things more: `status` is a recording's status.txt, `tells nothing` says that
there is no finding but that of a world that no scan made, and `tells not TEXT` that none has this text.
"""
import json
import os
import subprocess
import tempfile
from dataclasses import dataclass, field

from credaudit_tools.formats import report

from .. import support

DATA = os.path.join(support.DATA, "lint")
ANSWERS = os.path.join(DATA, "answers.json")
WORLD = 'log = "script"\n\n[[process]]\npid = 100\n'
LOG = "100 setuid 1000 = 0\n"


@dataclass
class Case:
    """A case: texts are None for files that aren't there; `scan` has the doubts of a scan that made the world."""
    name: str
    world: bytes | None = WORLD.encode()
    log: bytes | None = LOG.encode()
    status: bytes | None = None
    answer: str | None = None
    scan: list[str] | None = None
    tells: list[tuple[str, str]] = field(default_factory=list)


def read(name: str) -> list[Case]:
    """The cases of a file."""
    with open(os.path.join(DATA, name), encoding="utf-8") as file:
        lines = file.read().split("\n")
    cases: list[Case] = []
    at = 0
    while at < len(lines):
        word, _, rest = lines[at].partition(" ")
        at += 1
        if word.startswith("#") or not word:
            continue
        if word == "case":
            cases.append(Case(rest))
        elif word in ("world", "log", "add", "status"):
            end = next(place for place in range(at, len(lines)) if lines[place] in ("end", "end without LF"))
            text = "\n".join(lines[at:end]) + ("" if lines[end] == "end without LF" else "\n")
            put(cases[-1], word, text)
            at = end + 1
        else:
            put_line(cases[-1], word, rest)
    return cases


def put(case: Case, word: str, text: str) -> None:
    if word == "add":
        case.world = (WORLD + text).encode()
    elif word == "world":
        case.world = text.encode()
    elif word == "status":
        case.status = text.encode()
    else:
        case.log = text.encode()


def put_line(case: Case, word: str, rest: str) -> None:
    if word == "line":
        case.log = rest.encode() + b"\n"
    elif word == "strace":
        case.world, case.log = WORLD.replace("script", "strace").encode(), rest.encode() + b"\n"
    elif word == "no":
        setattr(case, rest, None)
    elif word == "answer":
        case.answer = rest
    elif word == "scan":
        case.scan = [rest] if rest else []
    elif word == "tells":
        place, _, told = rest.partition(" ")
        case.tells.append((place, told))
    else:
        raise ValueError(f"a case has no line {word}")


def every() -> list[Case]:
    """All cases of both files."""
    return [*read("mistakes.txt"), *read("doubts.txt")]


def answers() -> dict[str, report.Report]:
    """What the program answered to the cases whose files are both there."""
    with open(ANSWERS, encoding="utf-8") as file:
        kept: dict[str, tuple[int, str]] = json.load(file)
    return {name: report.read(text, status) for name, (status, text) in kept.items()}


def asked(program: str) -> dict[str, tuple[int, str]]:
    """The program's answers, as they are kept."""
    found = {}
    with tempfile.TemporaryDirectory() as work:
        paths = [os.path.join(work, name) for name in ("world", "log")]
        for case in every():
            if case.world is None or case.log is None:
                continue
            for path, data in zip(paths, (case.world, case.log)):
                with open(path, "wb") as file:
                    file.write(data)
            done = subprocess.run([program, "replay", *paths], stdout=subprocess.PIPE, check=False)
            found[case.name] = done.returncode, done.stdout.decode("ascii")
    return found


def main() -> None:
    kept = asked(os.environ["CREDAUDIT_STORE"])
    with open(ANSWERS, "w", encoding="utf-8") as file:
        json.dump(kept, file, indent=0, sort_keys=True)
        file.write("\n")


if __name__ == "__main__":
    main()
