#!/usr/bin/env python3
"""Readers meet strangers: changed worlds and logs are handed to the program, and its answers are judged.

  mutate.py [--cases N] [--seed S] [--first K] [--jobs J] [--judge SHARE] [--keep DIR] [PROGRAM]
  mutate.py --case K [--seed S] [--keep DIR] [PROGRAM]

For those who change a reader, beside the gate. PROGRAM is credaudit; left out, the one that was built in this
repository. N cases (100000) from number K (0) on are drawn by strangers.py; a case comes of the seed (1) and its number
alone, so it is the same with any number of processes J (as many as the machine has processors). One case in twelve is
an audit, the others are replays. Files stand in /dev/shm where there is such a folder.

Of each case is asked: the status is one of docs/FORMATS.md (but 7, 8 and 10, for which there is no cause here);
standard output ends as the status says; standard error is empty; the run takes less than a second (one that takes
longer is run again, twice at most). And, of the SHARE of them (1, all) that are judged, the whole report is compared
with that of plain/report.py; of an audit its front, and which query is bad. Where the plain reader can't say how TOML
is read, the case counts as not judged.

Told are the counts of statuses, of refusals and of cases that weren't judged, and the slowest run; of each kind of
wrong answer the first case. --keep DIR puts the files of these, or with --case of that one, into DIR. Status 0: no
answer is wrong; 1: some are; 2: there is no program.
"""
import argparse
import multiprocessing
import os
import random
import re
import subprocess
import sys
import tempfile
import time
from collections import Counter
from collections.abc import Mapping, Sequence
from dataclasses import dataclass, field

import tools_path  # noqa: F401
from credaudit_tools.provenance.places import BUILT
from kernel.recordings import program_of
from plain.reader import NotJudged
from plain.report import Report, bad_query, report
from strangers.strangers import PIDS, RIGHTS, Strangers

SLOW, GIVE_UP, TRIES = 1.0, 20, 3
AUDITS = 12
PIECE = 100
WORD, NUMBER = rb"[A-Za-z]+", rb"[0-9]+"
ERROR = rb"E[A-Z0-9]+"
USAGE = b"".join(b"usage: credaudit %s\n" % form for form in (
    b"replay WORLD LOG", b"audit WORLD LOG PID RIGHT", b"check WORLD LOG PID RIGHT CERT",
    b"confirm WORLD LOG PID RIGHT RUN", b"drill N"))
# How standard output ends at each status: of a replay, and of an audit besides.
ENDS = {
    0: rb"end %s\n" % NUMBER,
    3: rb"impossible line %s: (?:no process|no space|pid in use|the rules give (?:%s|%s))\n" % (NUMBER, NUMBER, ERROR),
    4: rb"bad world (?:whole|space|mount|file|process|filter) %s: %s\n" % (NUMBER, WORD),
    5: rb"bad log line %s: (?:pid|call|shape|count|argument %s|result|superseded|unfinished|descriptor)\n"
       % (NUMBER, NUMBER),
    9: rb"limit [a-z]+ %s\n" % NUMBER,
}
BOUNDS = rb'\{"format":1,"rows":\[.*\]\}\n'
AUDIT_ENDS = {
    **ENDS,
    0: rb"yes\n" + BOUNDS,
    1: rb"no %s\n(?:%s [a-z_]+ .*\n)*holder %s\n" % (NUMBER, NUMBER, NUMBER),
    2: rb"undecided [a-z_]+ .*\n" + BOUNDS,
    6: re.escape(USAGE),
    12: rb"bad query: (?:pid|right|space)\n",
}
REFUSAL = re.compile(rb"(?:impossible line \d+: .*|bad world .*|bad log line .*|limit .*|bad query.*)\n\Z")


# ---- one case ------------------------------------------------------------------------------------------------------


@dataclass
class Case:
    """A world and a log, and what is asked of them."""
    number: int
    world: bytes
    log: bytes
    query: tuple[bytes, ...]        # the PID and the RIGHT of an audit, else empty
    judged: bool


class Cases:
    """The cases of a seed."""

    def __init__(self, seed: int, share: float) -> None:
        self.seed, self.share, self.strangers = seed, share, Strangers()

    def case(self, number: int) -> Case:
        """The case of that number."""
        rng = random.Random(f"{self.seed}:{number}")
        world, log = self.strangers.draw(rng)
        query = (rng.choice(PIDS), rng.choice(RIGHTS)) if rng.randrange(AUDITS) == 0 else ()
        return Case(number, world, log, query, rng.random() < self.share)


@dataclass
class Answer:
    """What the program answered: status -1 where it came to no end."""
    status: int
    out: bytes
    err: bytes
    seconds: float


def run_once(words: Sequence[str | bytes]) -> Answer:
    """What a command answers."""
    begin = time.perf_counter()
    try:
        run = subprocess.run(words, stdin=subprocess.DEVNULL, capture_output=True, timeout=GIVE_UP)
    except subprocess.TimeoutExpired as late:
        return Answer(-1, late.stdout or b"", late.stderr or b"", GIVE_UP)
    return Answer(run.returncode, run.stdout, run.stderr, time.perf_counter() - begin)


def answer_of(program: str, case: Case, work: str) -> Answer:
    """What the program answers; of a slow one the least time of some runs."""
    files = [os.path.join(work, name) for name in ("world.toml", "log")]
    for name, text in zip(files, (case.world, case.log)):
        with open(name, "wb") as file:
            file.write(text)
    words: list[str | bytes] = [program, "audit" if case.query else "replay", *files, *case.query]
    answer = run_once(words)
    for _ in range(TRIES - 1):
        if answer.seconds >= SLOW and answer.status != -1:
            answer = min(answer, run_once(words), key=lambda one: one.seconds)
    return answer


def wrong_form(case: Case, answer: Answer) -> str | None:
    """What is wrong of an answer whatever the texts are, None where nothing is."""
    ends = (AUDIT_ENDS if case.query else ENDS).get(answer.status)
    if answer.status == -1:
        return "no end"
    if ends is None:
        return f"status {answer.status}"
    if answer.err:
        return "standard error isn't empty"
    if answer.seconds >= SLOW:
        return "slow"
    if not re.search(rb"(?:\A|\n)" + ends + rb"\Z", answer.out):
        return f"standard output doesn't end as status {answer.status} says"
    if answer.status in (4, 6) and not re.match(ends, answer.out):
        return f"standard output has more than status {answer.status} says"
    return None


def wrong_replay(seen: Report, answer: Answer) -> str | None:
    """What is wrong of a replay, None where it is the plain report."""
    if (answer.status, answer.out) == (seen.status, seen.text):
        return None
    return f"status {seen.status} wanted, {answer.status} told" if answer.status != seen.status else "another report"


def wrong_audit(case: Case, seen: Report, answer: Answer) -> str | None:
    """Wrong of an audit whose log is accepted: its front is that of the replay, and a bad query is told as bad."""
    if not answer.out.startswith(seen.text):
        return "audit: another front"
    tail, bad = answer.out[len(seen.text):], bad_query(seen, *case.query)
    if not re.fullmatch(AUDIT_ENDS[answer.status], tail):
        return "audit: another end"
    told = tail == b"bad query: %s\n" % bad.encode() if bad else not tail.startswith(b"bad query")
    return None if told else f"audit: bad query {bad} wanted"


def are_words(words: Sequence[bytes]) -> bool:
    """Whether each of them is UTF-8."""
    try:
        return all(word.decode() is not None for word in words)
    except UnicodeDecodeError:
        return False


def judge(case: Case, answer: Answer) -> str | None:
    """What is wrong of the answer by the plain report, None where nothing is."""
    if not are_words(case.query):
        return None if answer.status == 6 else "status 6 wanted"
    seen = report(case.world, case.log)
    return wrong_audit(case, seen, answer) if case.query and seen.status == 0 else wrong_replay(seen, answer)


# ---- many cases ----------------------------------------------------------------------------------------------------


@dataclass
class Tally:
    """What is counted of some cases."""
    cases: int = 0
    judged: int = 0
    slowest: tuple[float, int | None] = (0.0, None)     # seconds, and the number of the case
    statuses: Counter[int] = field(default_factory=Counter)
    refusals: Counter[str] = field(default_factory=Counter)
    spared: Counter[str] = field(default_factory=Counter)
    wrong: dict[str, tuple[int, int]] = field(default_factory=dict)     # of each kind how many, and the first case

    def add_wrong(self, kind: str, count: int, first: int) -> None:
        """Counts wrong answers of a kind, of which that case is the first."""
        before, number = self.wrong.get(kind, (0, first))
        self.wrong[kind] = before + count, min(number, first)

    def add(self, other: "Tally") -> None:
        """Counts what another one has."""
        self.cases, self.judged = self.cases + other.cases, self.judged + other.judged
        self.slowest = max(self.slowest, other.slowest, key=lambda one: one[0])
        self.statuses.update(other.statuses)
        self.refusals.update(other.refusals)
        self.spared.update(other.spared)
        for kind, (count, first) in other.wrong.items():
            self.add_wrong(kind, count, first)


def kind_of_refusal(out: bytes) -> str | None:
    """The last line of a refusal, without its numbers but those of a limit; None where it is none."""
    found = REFUSAL.search(out)
    if not found:
        return None
    line = found.group().decode(errors="replace").strip()
    return line if line.startswith("limit") else re.sub(r"\b\d+\b", "N", line)


def try_case(tally: Tally, program: str, case: Case, work: str) -> tuple[Answer, str | None]:
    """Hands a case to the program and counts it: the answer, and what is wrong of it."""
    answer = answer_of(program, case, work)
    tally.cases += 1
    tally.statuses[answer.status] += 1
    tally.slowest = max(tally.slowest, (answer.seconds, case.number), key=lambda one: one[0])
    refusal = kind_of_refusal(answer.out)
    if refusal:
        tally.refusals[refusal] += 1
    wrong = wrong_form(case, answer)
    if not wrong and case.judged:
        try:
            wrong = judge(case, answer)
            tally.judged += 1
        except NotJudged as reason:
            tally.spared[str(reason)] += 1
    if wrong:
        tally.add_wrong(wrong, 1, case.number)
    return answer, wrong


@dataclass
class Worker:
    """What a process has that tries some of the cases."""
    program: str
    work: str
    cases: Cases


WORKERS: list[Worker] = []      # of this process: none, or one


def begin_worker(program: str, folder: str, seed: int, share: float) -> None:
    """Makes this process one that tries cases, with a folder of its own below that one."""
    WORKERS.append(Worker(program, tempfile.mkdtemp(dir=folder), Cases(seed, share)))


def try_piece(numbers: Sequence[int]) -> Tally:
    """Tries the cases of these numbers."""
    tally, (worker,) = Tally(), WORKERS
    for number in numbers:
        try_case(tally, worker.program, worker.cases.case(number), worker.work)
    return tally


def ram_folder() -> str | None:
    """A folder in memory, where there is one."""
    return "/dev/shm" if os.access("/dev/shm", os.W_OK) else None


def try_all(program: str, asked: argparse.Namespace) -> Tally:
    """Tries all cases that the words ask for."""
    numbers = range(asked.first, asked.first + asked.cases)
    pieces, tally = [numbers[at:at + PIECE] for at in range(0, len(numbers), PIECE)], Tally()
    with tempfile.TemporaryDirectory(dir=ram_folder()) as folder:
        with multiprocessing.Pool(asked.jobs, begin_worker, (program, folder, asked.seed, asked.judge)) as pool:
            for one in pool.imap_unordered(try_piece, pieces):
                tally.add(one)
    return tally


# ---- what is told --------------------------------------------------------------------------------------------------


def keep(case: Case, folder: str) -> None:
    """Puts the files of a case into that folder."""
    os.makedirs(folder, exist_ok=True)
    for ending, text in (("toml", case.world), ("log", case.log)):
        with open(os.path.join(folder, f"{case.number}.{ending}"), "wb") as file:
            file.write(text)


def show_counts(title: str, counts: Mapping[str, int] | Mapping[int, int]) -> None:
    """Writes counts, the largest first."""
    print(title)
    for name, count in sorted(counts.items(), key=lambda one: (-one[1], str(one[0]))):
        print(f"  {count:8} {name}")


def show(tally: Tally, asked: argparse.Namespace) -> None:
    """Writes what was counted."""
    seconds, number = tally.slowest
    print(f"{tally.cases} cases of seed {asked.seed}, {tally.judged} of them judged; the slowest, case {number}, took"
          f" {seconds:.3f} s")
    show_counts("statuses", tally.statuses)
    show_counts("refusals", tally.refusals)
    show_counts("not judged", tally.spared)
    print(f"{sum(count for count, _ in tally.wrong.values())} answers are wrong")
    for kind, (count, first) in sorted(tally.wrong.items(), key=lambda one: one[1][1]):
        print(f"  {count:8} {kind}; the first is case {first}")


def first_difference(wanted: bytes, told: bytes) -> tuple[bytes, bytes]:
    """The first line in which two texts differ, of both."""
    pairs = zip(wanted.split(b"\n") + [b""], told.split(b"\n") + [b""])
    return next((pair for pair in pairs if pair[0] != pair[1]), (b"", b""))


def show_case(case: Case, answer: Answer, wrong: str | None) -> None:
    """Writes what a case is answered, and where that differs from the plain report."""
    print(f"case {case.number}: {' '.join(map(repr, case.query)) or 'replay'}; status {answer.status} in"
          f" {answer.seconds:.3f} s; {wrong or 'nothing is wrong'}")
    try:
        seen = report(case.world, case.log)
        wanted, told = first_difference(seen.text, answer.out)
        print(f"  status wanted {seen.status}\n  wanted {wanted!r}\n  told   {told!r}")
    except NotJudged as reason:
        print(f"  not judged: {reason}")
    if answer.err:
        print(f"  standard error: {answer.err[:300]!r}")


def try_one(program: str, asked: argparse.Namespace, number: int) -> str | None:
    """Tries one case, shows it, and gives what is wrong of it."""
    case = Cases(asked.seed, 1.0).case(number)
    with tempfile.TemporaryDirectory(dir=ram_folder()) as work:
        answer, wrong = try_case(Tally(), program, case, work)
    show_case(case, answer, wrong)
    if asked.keep:
        keep(case, asked.keep)
    return wrong


def main() -> None:
    """Tries the cases that the words ask for."""
    ask = argparse.ArgumentParser(usage="mutate.py [--cases N | --case K] [--seed S] [--first K] [--jobs J]"
                                        " [--judge SHARE] [--keep DIR] [PROGRAM]")
    ask.add_argument("--cases", type=int, default=100000)
    ask.add_argument("--case", type=int)
    ask.add_argument("--seed", type=int, default=1)
    ask.add_argument("--first", type=int, default=0)
    ask.add_argument("--jobs", type=int, default=os.cpu_count())
    ask.add_argument("--judge", type=float, default=1.0)
    ask.add_argument("--keep")
    ask.add_argument("program", nargs="?", default=BUILT)
    asked = ask.parse_args()
    program = program_of(asked).path
    if asked.case is not None:
        sys.exit(1 if try_one(program, asked, asked.case) else 0)
    tally = try_all(program, asked)
    show(tally, asked)
    for kind, (_, first) in tally.wrong.items():
        try_one(program, asked, first)
    sys.exit(1 if tally.wrong else 0)


if __name__ == "__main__":
    main()
