#!/usr/bin/env python3
"""Measures how certificates are read and checked. Needs Linux.

  certificates.py [--only reading|check] [--mib N] [--runs N] [--judge PROGRAM] [PROGRAM]

PROGRAM is credaudit, and --judge names the program of crates/judge_bench; left out, those that were built in this
repository. Times are seconds of processor, the least of N runs (3), the programs taking turns. Ends with status 1 past
a bar.

reading   Texts of N MiB (64), the limit of a certificate: one that holds, whose sets of user ids have single ids that
          alternate, as many as fit; and shapes that are refused, which cost more memory for their size than any
          certificate. Told are the time and the peak of memory of serde_json alone, of the reading as bounds, and of
          the whole `check`. The first text as bounds may take at most twice what serde_json alone takes. The last shape
          needs 11 GiB.
check     Of the audits at all limits (audits.py) that answer `yes` the slowest: `check` of the certificate that it
          prints may take at most a third of it.
"""
import argparse
import itertools
import os
import subprocess
import sys
import tempfile
from collections.abc import Iterable, Iterator
from dataclasses import dataclass

from audits import FIRST, LIMITS, asked_of

HERE = os.path.dirname(os.path.abspath(__file__))
CRATES = os.path.normpath(os.path.join(HERE, "..", "crates"))
JUDGE, BUILT = (os.path.join(CRATES, name, "out", name) for name in ("judge_bench", "credaudit"))
MOST_OF_JSON, MOST_OF_AUDIT = 2.0, 1 / 3
ALTERNATING, DEEP = "single ids that alternate", 126
# Shapes, by the name of their item. Objects of one key cost most, and where they are nested each has fewer bytes.
SHAPES = {"0": "0", "[0]": "[0]", '{"":0}': '{"":0}',
          f"{DEEP} such objects, nested": '{"":' * DEEP + "0" + "}" * DEEP}
# Of the example by hand of docs/CERTIFICATE.md the parts between which the sets eu, fu and u of its first row stand,
# and the world.
AROUND = ('{"format":1,"rows":[{"b":"0000000000000000","eg":[[1000,1000]],"eu":[',
          '],"fg":[[1000,1000]],"fu":[',
          '],"g":[[1000,1000]],"i":"0000000000000000","k":true,"mg":[[0,4294967294]],"mu":[[0,4294967294]],"n":true,'
          '"p":"0000000000000000","r":true,"s":[],"u":[',
          ']},{"b":"0000000000000000","eg":[],"eu":[],"fg":[],"fu":[],"g":[],"i":"0000000000000000","k":false,"mg":[],'
          '"mu":[],"n":true,"p":"0000000000000000","r":false,"s":[],"u":[]}]}')
WORLD = ('log = "script"\n[[process]]\npid = 100\nuid = 1000\ngid = 1000\nbounding = "none"\nno_new_privs = true\n'
         '[filter]\nexclude = ["unshare", "clone_user"]\n')
BLOCK = 4096


# ---- texts, in pieces: what this process holds would count as the peak of those that it starts -----------------------


def single_ids(size: int) -> Iterator[str]:
    """The id 1000 and others that alternate, each as an interval of its own, in at most so many bytes."""
    held, first = "[1000,1000]", 1000000000
    count = (size - len(held)) // len(f",[{first},{first}]")
    yield held
    for at in range(0, count, BLOCK):
        yield "".join(f",[{one},{one}]" for one in range(first + 2 * at, first + 2 * min(count, at + BLOCK), 2))


def alternating(size: int) -> Iterator[str]:
    """A certificate for that world, of at most so many bytes."""
    each = (size - sum(map(len, AROUND))) // (len(AROUND) - 1)
    for before in AROUND[:-1]:
        yield before
        yield from single_ids(each)
    yield AROUND[-1]


def repeated(item: str, size: int) -> Iterator[str]:
    """An array of one item again and again, of at most so many bytes."""
    blocks, left = divmod((size - 1) // (len(item) + 1) - 1, BLOCK)
    yield "["
    yield from itertools.repeat(f"{item}," * BLOCK, blocks)
    yield f"{item}," * left + item + "]"


def written(path: str, pieces: Iterable[str]) -> str:
    """The path of a file that has these pieces, which is made."""
    with open(path, "w", encoding="ascii") as file:
        file.writelines(pieces)
    return path


def log_in(folder: str) -> str:
    """The path of an empty log in that folder."""
    return written(os.path.join(folder, "log"), "")


# ---- runs ------------------------------------------------------------------------------------------------------------


@dataclass(frozen=True, order=True)
class Run:
    """Of a run the seconds of processor, the peak in KiB, the status, and what was told."""
    seconds: float
    peak: int
    status: int
    told: str

    def shown(self) -> str:
        """Time, peak and answer."""
        return f"{self.seconds:.2f} s, {self.peak / 1024:.0f} MiB, {self.told or f'status {self.status}'}"


def ran(words: list[str], given: str = os.devnull) -> Run:
    """One run, whose standard input is that file."""
    with open(given, "rb") as file:
        child = subprocess.Popen(words, stdin=file, stdout=subprocess.PIPE, text=True)
    assert child.stdout is not None
    told = child.stdout.read()
    _, status, usage = os.wait4(child.pid, 0)
    child.returncode = os.waitstatus_to_exitcode(status)
    return Run(usage.ru_utime + usage.ru_stime, usage.ru_maxrss, child.returncode, told.strip())


def least(every: list[list[str]], runs: int, given: str = os.devnull) -> list[Run]:
    """The quickest run of each of these words."""
    turns = [[ran(words, given) for words in every] for _ in range(runs)]
    return [min(of_one) for of_one in zip(*turns)]


def within(what: str, measured: float, bar: float) -> bool:
    """Whether a ratio is within its bar; that is told."""
    print(f"  {what}: {measured:.3f}, at most {bar:.3f}" + ("" if measured <= bar else ", past it"), flush=True)
    return measured <= bar


# ---- the two parts ---------------------------------------------------------------------------------------------------


def reading(program: str, judge: str, size: int, runs: int, folder: str) -> bool:
    """Measures all texts; whether the certificate is within its bar."""
    world, text, good = written(os.path.join(folder, "world"), WORLD), os.path.join(folder, "text"), True
    whole = [program, "check", world, log_in(folder), str(FIRST), "uid:0", text]
    shapes = {f"an array of {name}": repeated(item, size) for name, item in SHAPES.items()}
    for name, pieces in {ALTERNATING: alternating(size), **shapes}.items():
        written(text, pieces)
        alone, bounds, check = least([[judge, "json"], [judge, "certificate", "1"], whole], runs, text)
        print(f"{name}, {os.path.getsize(text):,} bytes\n  serde_json  {alone.shown()}\n  as bounds   {bounds.shown()}"
              f"\n  check       {check.shown()}", flush=True)
        is_read = name == ALTERNATING
        wanted = ("Read", "Read", "holds") if is_read else ("Read", "Refused", "refused shape document")
        if (alone.told, bounds.told, check.told) != wanted:
            sys.exit("certificates.py: it isn't read as it is made")
        if is_read:
            good = within("as bounds, of serde_json alone", bounds.seconds / alone.seconds, MOST_OF_JSON)
    return good


def checked(program: str, runs: int, folder: str) -> bool:
    """Whether `check` of the certificate of the slowest `yes` is within its bar."""
    every = [(name, made) for name, made in asked_of(LIMITS).items() if made.verdict == "yes"]
    words = [[written(os.path.join(folder, f"world{at}"), made.text), log_in(folder), str(FIRST), made.right]
             for at, (_, made) in enumerate(every)]
    audits = least([[program, "audit", *one] for one in words], runs)
    print(f"audits of {LIMITS.members} members, {LIMITS.files:,} files, {LIMITS.spaces} spaces that answer yes")
    for (name, _), audit in zip(every, audits):
        print(f"  {name:32}{audit.seconds:.3f} s", flush=True)
        if audit.status:
            sys.exit(f"certificates.py: status {audit.status} of an audit where the answer is yes")
    slowest = max(range(len(every)), key=lambda at: audits[at].seconds)
    bounds = audits[slowest].told.splitlines()[-1]
    certificate = written(os.path.join(folder, "certificate"), (bounds, "\n"))
    audit, check = least([[program, "audit", *words[slowest]], [program, "check", *words[slowest], certificate]], runs)
    print(f"{every[slowest][0]}, its certificate of {len(bounds) + 1:,} bytes\n  audit  {audit.seconds:.3f} s"
          f"\n  check  {check.seconds:.3f} s, {check.told}")
    if check.told != "holds":
        sys.exit("certificates.py: the certificate of an audit is refused")
    return within("check, of the audit", check.seconds / audit.seconds, MOST_OF_AUDIT)


def main() -> int:
    """Measures what the words ask for; the status."""
    parser = argparse.ArgumentParser(usage="certificates.py [--only reading|check] [--mib N] [--runs N]"
                                           " [--judge PROGRAM] [PROGRAM]")
    parser.add_argument("--only", choices=("reading", "check"))
    parser.add_argument("--mib", type=int, default=64)
    parser.add_argument("--runs", type=int, default=3)
    parser.add_argument("--judge", default=JUDGE)
    parser.add_argument("program", nargs="?", default=BUILT)
    asked, good = parser.parse_args(), True
    program, judge = os.path.abspath(asked.program), os.path.abspath(asked.judge)
    if not os.access(program, os.X_OK):
        sys.exit(f"certificates.py: {program} isn't there: build it first, with make at the top of the repository")
    if asked.only != "check" and not os.access(judge, os.X_OK):
        sys.exit(f"certificates.py: {judge} isn't there: build it first, by `rt run < stdin` in its crate's folder")
    with tempfile.TemporaryDirectory() as folder:
        if asked.only != "check":
            good = reading(program, judge, asked.mib << 20, asked.runs, folder)
        if asked.only != "reading":
            good = checked(program, asked.runs, folder) and good
    return 0 if good else 1


if __name__ == "__main__":
    sys.exit(main())
