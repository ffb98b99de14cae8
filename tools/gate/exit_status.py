#!/usr/bin/env python3
"""Runs the built program for each status that it can end with, and with words of many kinds, and compares status and
bytes with what docs/FORMATS.md tells.

  exit_status.py [PROGRAM]

PROGRAM is credaudit; left out, the one that was built in this repository. The world, the log and the front of the
reports are those of the stored run (crates/credaudit). So it shows what no contract says of `main`: it carries out the
words once, all of them and in their order, writes nothing else, to standard output or standard error, and ends with the
number of the answer. For status 10 (no memory) the program gets less memory than a run takes, which is read whole.
Status 0: nothing differs; 1: something does; 2: there is no program.
"""
import argparse
import itertools
import os
import resource
import subprocess
import sys
import tempfile
from collections.abc import Callable, Sequence
from typing import BinaryIO, NamedTuple

import tools_path  # noqa: F401
from credaudit_tools.provenance.places import BUILT
from kernel.recordings import program_of
from plain import bounds as plain_bounds

CRATE = os.path.join(os.path.dirname(os.path.abspath(__file__)), "..", "..", "crates", "credaudit")
FORMS = ("replay WORLD LOG", "audit WORLD LOG PID RIGHT", "check WORLD LOG PID RIGHT CERT",
         "confirm WORLD LOG PID RIGHT RUN", "drill N")
# What the program gets, and a run past it that is within its limit.
MEMORY, LARGE = 32 << 20, 60 << 20
USAGE = "".join(f"usage: credaudit {form}\n" for form in FORMS)


class Row(NamedTuple):
    """The words of a run, and what it is to answer."""
    words: tuple[str, ...]
    status: int
    text: str


def of_crate(name: str) -> str:
    """The text of a file of the program's crate."""
    with open(os.path.join(CRATE, name)) as file:
        return file.read()


def verdict(world: str, log: str, right: str) -> str:
    """The lines of an audit of the process 100 by its bounds, worked out by plain Python."""
    lines = plain_bounds.answer("audit", world.encode(), log.encode(), b"100", right.encode()).lines
    return "".join(f"{line}\n" for line in lines)


def files(world: str, log: str) -> dict[str, str]:
    """The files of the runs: the stored world and log, and others."""
    return {
        "world": world,
        "log": log,
        # A process whose four user ids are 1000, without capabilities, may not become root: setresuid(2).
        "impossible": log + "100 setresuid 0 0 0 = 0\n",
        "faulty": log + "100 setresuid 0 0\n",
        "bad": world + "no = \"key\"\n",
        "long": "#" * 1048577,
        # A capability that is permitted and can't be raised: whether it is ever effective isn't told.
        "held": 'log = "script"\n[[process]]\npid = 100\nuid = 1000\npermitted = "CAP_KILL"\n'
                '[filter]\nexclude = ["capset"]\n',
        "empty": "",
        "a world": world,
        "-log\n": log,
        "large": "#" + "\n" * LARGE,
        "certificate": verdict(world, log, "uid:0").splitlines()[1],
    }


HELD = ("> 100 init uid=1000,1000,1000,1000 gid=0,0,0,0 groups=- inh=0000000000000000 prm=0000000000000020 "
        "eff=0000000000000000 bnd=000001ffffffffff amb=0000000000000000 sec=00 nnp=0\nend 0\n")


AUDIT = ("world", "log", "100", "uid:1000")
DRILL = "events 100000\nrefused 58478\nlive 11\nspaces 2\nverdict yes\n"     # by plain/drill.py


def start_of(report: str) -> str:
    """The lines of the start, which are written before the log is read."""
    return report[:report.index("1: ")]


def ordered(report: str, world: str, log: str, pid: str, right: str) -> tuple[int, str]:
    """Status and text of an audit by these words, which are those of AUDIT in some order."""
    if world == "log":
        return 4, "bad world whole 0: Toml\n"
    if world != "world" or log != "log":
        return 7, start_of(report) if world == "world" else ""
    return (1, report + "no 0\nholder 100\n") if pid == "100" else (12, report + "bad query: pid\n")


def rows(report: str, made: dict[str, str]) -> list[Row]:
    """The runs over these files; the stored run's report ends with a line `end 1`."""
    front = report[:report.index("end 1\n")]
    query, later = ("world", "log", "100", "uid:0"), ("world", "log", "100", "uid:1000", "log")
    least = verdict(made["world"], made["log"], "uid:0")
    below = verdict(made["held"], made["empty"], "cap:CAP_KILL@init")
    assert least.startswith("yes\n") and below.startswith("undecided start init\n")
    return [
        Row(("replay", "world", "log"), 0, report),
        Row(("audit", *query), 0, report + least),
        Row(("check", *query, "certificate"), 0, "holds\n"),
        Row(("confirm", *later), 0, "confirmed 100\n"),
        Row(("drill", "1"), 0, "events 1\nrefused 0\nlive 1\nspaces 1\nverdict no\n"),
        Row(("audit", "world", "log", "100", "uid:1000"), 1, report + "no 0\nholder 100\n"),
        Row(("audit", "held", "empty", "100", "cap:CAP_KILL@init"), 2, HELD + below),
        Row(("replay", "world", "impossible"), 3, front + "impossible line 2: the rules give EPERM\n"),
        Row(("replay", "bad", "log"), 4, "bad world process 1: UnknownKey\n"),
        Row(("replay", "world", "faulty"), 5, front + "bad log line 2: shape\n"),
        Row((), 6, USAGE),
        Row(("replay", "world"), 6, USAGE),
        Row(("replay", "missing", "log"), 7, ""),
        Row(("replay", "world", "missing"), 7, start_of(report)),
        *[Row((name, *query, "missing"), 7, "") for name in ("check", "confirm")],
        Row(("replay", "long", "log"), 9, "limit world 1048576\n"),
        Row(("audit", "world", "log", "7", "uid:0"), 12, report + "bad query: pid\n"),
        Row(("check", *later), 11, "refused json\n"),
        Row(("check", *later[:4], "certificate"), 11, "refused meets init\n"),
        Row(("confirm", *query, "empty"), 11, "refused end\n"),
        # Without an accepted log and a query that stands the last file isn't read.
        *[Row((name, "world", "log", "7", "uid:0", "missing"), 12, "bad query: pid\n")
          for name in ("check", "confirm")],
        *[Row((name, "world", "faulty", "100", "uid:0", "missing"), 5, "bad log line 2: shape\n")
          for name in ("check", "confirm")],
        # Each word counts, the empty one and the last one too, and their order does.
        *[Row(("audit", *words), *ordered(report, *words)) for words in itertools.permutations(AUDIT)],
        Row(("replay", "a world", "-log\n"), 0, report),
        Row(("replay", "", "log"), 7, ""),
        Row(("replay", "world", "log", ""), 6, USAGE),
        Row(("", "replay", "world", "log"), 6, USAGE),
        Row(("world", "replay", "log"), 6, USAGE),
        Row(("replay", "world", "log", *["log"] * 1000), 6, USAGE),
        # Words that aren't UTF-8 are answered as no words are.
        Row(("replay", "world", "log\udcff"), 6, USAGE),
        Row(("audit", *AUDIT[:3]), 6, USAGE),
        Row(("audit", *AUDIT, "log"), 6, USAGE),
        *[Row((name, *words), 6, USAGE) for name in ("check", "confirm") for words in (later[:4], (*later, "log"))],
        Row(("drill", "100000"), 0, DRILL),
        Row(("drill", "100001"), 6, USAGE),
        Row(("drill", "1", "1"), 6, USAGE),
    ]


def run(program: str, words: Sequence[str], work: str, out: int | BinaryIO,
        prepared: Callable[[], None] | None = None) -> subprocess.CompletedProcess[bytes]:
    """One run, within that folder; `prepared` is called in its process before it begins."""
    return subprocess.run([program, *words], cwd=work, stdin=subprocess.DEVNULL, stdout=out, stderr=subprocess.PIPE,
                          preexec_fn=prepared)


def with_less() -> None:
    """Leaves the process less memory than the run takes."""
    resource.setrlimit(resource.RLIMIT_AS, (MEMORY, MEMORY))


def differs(words: Sequence[str], wanted: object, got: object) -> bool:
    """Whether a run answers otherwise; that is told."""
    if wanted != got:
        print(ascii(f"credaudit {' '.join(words[:8])}: wanted {wanted}, got {got}"))
    return wanted != got


def main() -> None:
    """Compares all runs."""
    ask = argparse.ArgumentParser(usage="exit_status.py [PROGRAM]")
    ask.add_argument("program", nargs="?", default=BUILT)
    made, wrong = files(of_crate("data/world.toml"), of_crate("data/setresuid.log")), 0
    program, table = program_of(ask.parse_args()).path, rows(of_crate("stdout"), made)
    with tempfile.TemporaryDirectory() as work, open("/dev/full", "wb") as full:
        for name, text in made.items():
            with open(os.path.join(work, name), "w") as file:
                file.write(text)
        for words, status, text in table:
            got = run(program, words, work, subprocess.PIPE)
            wrong += differs(words, (status, text.encode(), b""), (got.returncode, got.stdout, got.stderr))
        # Nothing can be written to a full device.
        of_log = ("replay", "world", "log")
        got = run(program, of_log, work, full)
        wrong += differs(of_log, (8, b""), (got.returncode, got.stderr))
        of_large = ("confirm", "world", "log", "100", "uid:0", "large")
        got = run(program, of_large, work, subprocess.PIPE, with_less)
        wrong += differs(of_large, (10, b"", b""), (got.returncode, got.stdout, got.stderr))
    print(f"{len(table) + 2} runs, {wrong} differ")
    sys.exit(1 if wrong else 0)


if __name__ == "__main__":
    main()
