#!/usr/bin/env python3
"""Runs examples again and again, with one thing refused each time or with pipes for files, and counts what the program
answers.

  refusals.py [--only allocations|calls|pipes] [--form script|strace] [--command COMMAND] [PROGRAM]

PROGRAM is credaudit; left out, the one that was built in this repository. The examples are, of both forms of log,

  replay                  the program's stored run, of a script log, and data/strace_run, of a log of strace with
                          a birth, held lines, an unfinished call and a map
  audit, check, confirm   a yes, a no and an undecided, after a birth and an exit or that log of strace, and some calls:
                          what the audit answers, what `check` answers to its bounds (of a no to those before the
                          blame), and `confirm` to a run

the same but the undecided over a log of several pieces, whose lines that are no events fill it: one line is longer
than a piece, an event stands across the border of two, and the last line has no LF; and two drills, a yes and a no,
which read no file. What each is to answer is worked out by plain/report.py, plain/bounds.py and plain/drill.py; the run
of the no is written by hand. --form takes the examples of one form, --command those of one command.

allocations   Each of the allocations that the program asks for is refused, one a run (refuse.c, preloaded; needs
              cc, and a program with the C library's allocator).
calls         Each opening, read and write that the program makes of its files and of standard output ends in an error,
              one a run, by the fault injection of strace (needed for this part alone); then each is interrupted once
              (EINTR), which mustn't be seen.
pipes         All files are pipes, and then FIFOs, which can be read once and from their front alone; what they have
              comes byte by byte, in larger pieces, and at once. Then each second call on a FIFO is interrupted
              (strace). Then one pipe is both the world and the log, under one name and under two, and one FIFO is.
              Last, standard output is a pipe that nobody reads.

Right answers are: status 10 (no memory) or 8 (a write failed) with a front of the report; 7 (a read failed) with
nothing of it, but of a replay or an audit whose log can't be read on with all that the lines tell which were read
before, the start lines at least; or the whole report with its own status; with pipes the whole report, where one is
read twice status 7 with the start lines of a replay or an audit, and where nobody reads status 8. Any other one is
printed, and the script ends with status 1. The last line tells how many runs there were.
"""
import argparse
import os
import re
import subprocess
import sys
import tempfile
import threading
from collections import Counter
from collections.abc import Iterator, Sequence, Set
from dataclasses import dataclass

import tools_path  # noqa: F401
from credaudit_tools.formats import strace_lines
from credaudit_tools.provenance.places import BUILT
from gate.allocations import asked_in, environment, shim_in
from kernel.recordings import program_of
from plain import bounds as plain_bounds, drill as plain_drill
from plain.report import report

HERE = os.path.dirname(os.path.abspath(__file__))
CRATE = os.path.abspath(os.path.join(HERE, "..", "..", "crates", "credaudit"))
STRACE_RUN = os.path.join(HERE, "data", "strace_run")
OPEN, READ, WRITE = ("openat", "open"), ("read", "pread64", "readv"), ("write", "writev")
COMMANDS = ("replay", "audit", "check", "confirm", "drill")
PID, NO_CAPSET = "100", b'[filter]\nexclude = ["capset"]\n'
# A yes, a no and an undecided: what the process 100 does, which is root before, as a script has it; its right; what is
# behind the world; and a run. It keeps nothing; or its saved user id, with which it comes back by the two calls of a
# plan (docs/PLANS.md); or its permitted set, which it may not raise.
LEAVES, KEEPS_ID, KEEPS_CAPS = ("setresuid 1000 1000 1000",), ("setresuid 1000 1000 0",), (
    "keepcaps 1", "setresuid 1000 1000 1000")
BACK = b"100 capset 000001ffffffffff 000001ffffffffff 0000000000000000 = 0\n100 setresuid -1 0 -1 = 0\n"
REFUSED = b"100 fork = 102\n102 setresuid -1 0 -1 = EPERM\n"
VERDICTS = {"yes": (LEAVES, "uid:0", b"", REFUSED), "no": (KEEPS_ID, "uid:0", b"", BACK),
            "undecided": (KEEPS_CAPS, "cap:CAP_KILL@init", NO_CAPSET, REFUSED)}
DRILLS = {"no": 1, "yes": 100}       # none of the first 120 is undecided
LONG = ("yes", "no")                # the verdicts that are asked for over logs of several pieces too
PIECE, LONG_LINE, ACROSS = 1 << 16, 70000, 10      # of a log; a line past one; what of a line stands before a border
RUNS = Counter[str]()       # of each part


def of_file(*names: str) -> bytes:
    """The bytes of a file."""
    with open(os.path.join(*names), "rb") as file:
        return file.read()


class Example:
    """A run of the program: its words, the folder of its files, and what it is to answer."""

    def __init__(self, program: str, form: str, title: str, folder: str, words: Sequence[str], answer: bytes,
                 status: int) -> None:
        self.program, self.form, self.title, self.folder, self.words = program, form, title, folder, list(words)
        self.files = [word for word in words if os.path.exists(os.path.join(folder, word))]
        self.report, self.status = answer, status

    def answer(self, status: int, text: bytes, refusals: Set[int], told: bytes = b"") -> str | None:
        """What an answer is: one of the refusals, `whole`, or None where it is wrong. After a read that failed `told`
        is to be written."""
        if (status, text) == (self.status, self.report):
            return "whole report"
        if status not in refusals or not self.report.startswith(text) or (status == 7 and text != told):
            return None
        return f"status {status}, " + ("nothing written" if not text else "a front of the report")

    def told(self, read: int) -> bytes:
        """What is written where so many bytes of the log were read, and no more can be: in a replay and in an audit
        what the lines that are whole tell; else nothing."""
        if self.words[0] not in ("replay", "audit"):
            return b""
        world, log = (of_file(self.folder, name) for name in self.files[:2])
        *lines_told, end = report(world, log[:log.rfind(b"\n", 0, read) + 1]).text.splitlines(keepends=True)
        front = b"".join(lines_told)
        if not end.startswith(b"end ") or not self.report.startswith(front):
            sys.exit(f"refusals.py: a line is held at the byte {read} of the log: {self.title}")
        return front


def spelt(form: str, call: str) -> bytes:
    """The line of a call that is done, in that form of log."""
    name, *arguments = call.split()
    if form == "script":
        return f"{PID} {call} = 0\n".encode()
    inner = ", ".join(["PR_SET_KEEPCAPS", *arguments] if name == "keepcaps" else arguments)
    return f"{PID} {'prctl' if name == 'keepcaps' else name}({inner}) = 0\n".encode()


def stored(form: str) -> tuple[bytes, bytes]:
    """The world and the log of the stored run in that form."""
    if form == "script":
        return of_file(CRATE, "data", "world.toml"), of_file(CRATE, "data", "setresuid.log")
    return of_file(STRACE_RUN, "world.toml"), of_file(STRACE_RUN, "log")


def begun(form: str) -> bytes:
    """The log after which the process 100 is root still: of strace the stored one, a birth and an end as a script."""
    return b"100 fork = 101\n101 exit = 0\n" if form == "script" else stored(form)[1]


def filler(form: str, size: int) -> bytes:
    """So many bytes of lines that are no events, the first of them longer than a piece where it has room."""
    front, back = (b";", b"\n") if form == "script" else (f'{PID} write(1, "'.encode(), b'", 9) = 9\n')
    sizes = [LONG_LINE] * (size > LONG_LINE + 2000)
    while size - sum(sizes) > 2000:
        sizes.append(900 + len(sizes))
    return b"".join(front + b"x" * (each - len(front) - len(back)) + back for each in (*sizes, size - sum(sizes)))


def stretched(form: str, log: bytes) -> bytes:
    """The log in several pieces: lines that are no events stand before all others and before the last, each of which
    begins just before a border; and the last LF is gone."""
    *others, last = log.splitlines(keepends=True)
    front = filler(form, 2 * PIECE - ACROSS) + b"".join(others)
    return front + filler(form, 4 * PIECE - ACROSS - len(front)) + last.removesuffix(b"\n")


def text_of(told: Sequence[str]) -> bytes:
    """Lines as a report has them."""
    return "".join(f"{line}\n" for line in told).encode()


class Maker:
    """Makes examples, each with a folder for its files."""

    def __init__(self, program: str, work: str) -> None:
        self.program, self.work = program, work

    def made(self, form: str, title: str, words: Sequence[str], files: Sequence[bytes], answer: bytes,
             status: int) -> Example:
        """An example whose first words, after the command, name these files."""
        folder = tempfile.mkdtemp(dir=self.work)
        names = ("world.toml", "log", "third")[:len(files)]
        for name, data in zip(names, files):
            with open(os.path.join(folder, name), "wb") as file:
                file.write(data)
        command, *others = words
        all_words = [command, *names[:2], *others, *names[2:]]
        return Example(self.program, form, title, folder, all_words, answer, status)

    def replay(self, form: str, long: bool) -> Example:
        """The stored run, or the same over a log of several pieces."""
        world, log = stored(form)
        log = stretched(form, log) if long else log
        seen = report(world, log)
        return self.made(form, f"{form}{', long' * long}, replay", ["replay"], [world, log], seen.text, seen.status)

    def of_query(self, form: str, verdict: str, long: bool) -> Iterator[Example]:
        """The audit of that verdict, the check of its bounds, and the confirmation of its run; or the same over a log
        of several pieces."""
        calls, right, behind, run = VERDICTS[verdict]
        world = stored(form)[0] + behind
        log = begun(form) + b"".join(spelt(form, call) for call in calls)
        log = stretched(form, log) if long else log
        query = (world, log, PID.encode(), right.encode())
        ends = plain_bounds.answer("audit", *query)
        told, status = ends.lines, ends.status
        if verdict == "no":     # plain/bounds.py tries no plans
            told, status = ("no 2", *run.decode().split("\n")[:-1], f"holder {PID}"), 1
        front, title = report(world, log).text, f"{form}{', long' * long}, {{}}, {verdict}"
        yield self.made(form, title.format("audit"), ["audit", PID, right], query[:2], front + text_of(told), status)
        for command, third in (("check", ends.lines[-1].encode() + b"\n"), ("confirm", run)):
            judged = plain_bounds.answer(command, *query, third)
            yield self.made(form, title.format(command), [command, PID, right], [*query[:2], third],
                            text_of(judged.lines), judged.status)

    def drill(self, verdict: str) -> Example:
        """A drill of that verdict, by the plain one."""
        number = DRILLS[verdict]
        told = plain_drill.drill(number).report()
        if told[-1] != f"verdict {verdict}":
            sys.exit(f"refusals.py: the drill {number} is no {verdict}")
        return self.made("", f"drill {number}, {verdict}", ["drill", str(number)], [], text_of(told), 0)

    def examples(self, forms: Sequence[str], command: str | None, drills: bool) -> Iterator[Example]:
        """All examples of these forms, of one command or of all."""
        for form, long in ((form, long) for form in forms for long in (False, True)):
            verdicts = LONG if long else VERDICTS
            every = [self.replay(form, long), *(one for verdict in verdicts
                                                for one in self.of_query(form, verdict, long))]
            yield from (one for one in every if command in (None, one.words[0]))
        if drills and command in (None, "drill"):
            yield from map(self.drill, DRILLS)


def with_allocations(example: Example, shim: str, refused: int | None = None) -> tuple[int, bytes, int]:
    """The status, what was written, and how many allocations were asked for, where the one of that number is
    refused."""
    run = subprocess.run([example.program, *example.words], cwd=example.folder, stdin=subprocess.DEVNULL,
                         capture_output=True, env=environment(shim, ONE=refused))
    asked = asked_in(run.stderr)
    if asked is None:
        sys.exit("refusals.py: the program's allocations weren't counted: " + run.stderr.decode(errors="replace"))
    return run.returncode, run.stdout, asked


def allocations(example: Example) -> bool:
    """Refuses each allocation in turn, and tells what is answered: whether all of it is right."""
    counts, good, spared = Counter[str](), True, list[str]()
    with tempfile.TemporaryDirectory() as work:
        shim = shim_in(work)
        status, text, most = with_allocations(example, shim)
        if (status, text) != (example.status, example.report):
            sys.exit(f"refusals.py: the program doesn't answer this example: {example.title}: {status} {text!r}")
        if not most:
            sys.exit("refusals.py: the program asks the C library for no memory, so none of its allocations is refused")
        for number in range(1, most + 1):
            status, text, _ = with_allocations(example, shim, number)
            answer = example.answer(status, text, {10})
            if answer is None:
                print(f"allocation {number}: status {status}, {len(text)} bytes that are no right answer")
                good = False
            spared += [str(number)] if answer == "whole report" else []
            counts[answer or "wrong"] += 1
    show("allocations", f"{example.title}, allocations: {most} refused, one a run", counts)
    if spared:
        print("  (the whole report came where these were refused: " + ", ".join(spared) + ")")
    return good


@dataclass(frozen=True)
class Made:
    """A call that the program made: its name, how many of that name there were up to it, and of a call on the log how
    many bytes of it were read before."""

    name: str
    number: int
    read: int | None


OPENED = re.compile(rb'.*"([^"]+)".* = (\d+)$')
TAKEN = re.compile(rb"\w+\((\d+),.* = (\d+)$", re.DOTALL)


class Seen:
    """The calls on files and standard output that the program makes, after what the loader does before it."""

    def __init__(self, example: Example) -> None:
        self.files = [os.fsencode(file) for file in example.files]
        self.of_none = WRITE if not self.files else ()      # a run without files has its first call at its first write
        self.counts, self.calls = Counter[str](), list[Made]()
        self.opened: dict[bytes, bytes] = {}                # by its descriptor a file's name
        self.read = 0                                       # bytes of the log

    def add(self, name: str, line: bytes) -> None:
        """A call that strace tells of."""
        self.counts[name] += 1
        opened, taken = OPENED.match(line) if name in OPEN else None, TAKEN.match(line) if name in READ else None
        file = opened[1] if opened else self.opened.get(taken[1]) if taken else None
        if not (self.calls or name in self.of_none or file in self.files):
            return
        of_log = len(self.files) > 1 and file == self.files[1]
        self.calls.append(Made(name, self.counts[name], self.read if of_log else None))
        if opened:
            self.opened[opened[2]] = opened[1]
        elif taken and of_log:
            self.read += int(taken[2])


def calls_of(example: Example, work: str) -> list[Made]:
    """The calls that the program makes."""
    trace = os.path.join(work, "trace")
    run = subprocess.run(["strace", "-o", trace, "-e", "trace=" + ",".join(OPEN + READ + WRITE), example.program,
                          *example.words],
                         cwd=example.folder, stdout=subprocess.PIPE)
    if (run.returncode, run.stdout) != (example.status, example.report):
        sys.exit(f"refusals.py: the program doesn't answer this example under strace: {example.title}: {run.returncode}"
                 f" {run.stdout!r}")
    seen = Seen(example)
    with open(trace, "rb") as log:
        for line in log:
            name = strace_lines.name_of(line).decode()
            if name:
                seen.add(name, line.rstrip(b"\n"))
    if not seen.calls:
        sys.exit(f"refusals.py: no call of the program is seen in this example: {example.title}")
    return seen.calls


def refused_call(example: Example, made: Made, error: str) -> tuple[int, bytes]:
    """The status, and what was written, where that call ends in an error."""
    inject = f"inject={made.name}:error={error}:when={made.number}"
    words = ["strace", "-o", "/dev/null", "-e", f"trace={made.name}", "-e", inject]
    run = subprocess.run([*words, example.program, *example.words], cwd=example.folder, stdout=subprocess.PIPE)
    return run.returncode, run.stdout


def calls(example: Example) -> bool:
    """Ends each call in an error, one after another, and tells what is answered: whether all of it is right."""
    good = True
    with tempfile.TemporaryDirectory() as work:
        every = calls_of(example, work)
    for error in ("EIO", "EINTR"):
        counts = Counter[str]()
        for made in every:
            fault: set[int] = set() if error == "EINTR" else {8} if made.name in WRITE else {7}
            got = refused_call(example, made, error)
            told = b"" if made.read is None else example.told(made.read)
            answer = example.answer(*got, fault, told)
            if answer is None or (error == "EIO" and answer == "whole report"):
                print(f"{made.name} {made.number} with {error}: status {got[0]}, {len(got[1])} bytes that are no right"
                      " answer")
                answer, good = None, False
            counts[answer or "wrong"] += 1
        kinds = [sum(made.name in kind for made in every) for kind in (OPEN, READ, WRITE)]
        calls_made = "{} openings, {} reads and {} writes".format(*kinds)
        show("calls", f"{example.title}, calls: {calls_made} ended in {error}, one a run", counts)
    return good


class Pipe:
    """A text as a pipe, or as a FIFO of that path: `word` names it, and it is filled so many bytes at once."""

    def __init__(self, text: bytes, piece: int, path: str | None = None) -> None:
        self.ends = None if path else os.pipe()
        self.word = path or (f"/dev/fd/{self.ends[0]}" if self.ends else "")
        if path:
            os.mkfifo(path)
        threading.Thread(target=self.fill, args=(text, piece), daemon=True).start()

    def fill(self, text: bytes, piece: int) -> None:
        """Writes the text, until it is taken or nobody reads it any more."""
        try:
            with open(self.ends[1] if self.ends else self.word, "wb", buffering=0) as end:
                for at in range(0, len(text), piece):
                    end.write(text[at:at + piece])
        except BrokenPipeError:
            pass  # It was left unread: the answer shows it.


def of_pipes(example: Example, piece: int, fifos: bool, *before: str) -> tuple[int, bytes]:
    """The status and what was written where all files are pipes, or FIFOs, filled so many bytes at once; -1 where it
    didn't end."""
    with tempfile.TemporaryDirectory() as work:
        pipes = {}
        for name in example.files:
            with open(os.path.join(example.folder, name), "rb") as file:
                pipes[name] = Pipe(file.read(), piece, os.path.join(work, name) if fifos else None)
        words = [pipes[word].word if word in pipes else word for word in example.words]
        fds = [pipe.ends[0] for pipe in pipes.values() if pipe.ends]
        try:
            run = subprocess.run([*before, example.program, *words], stdin=subprocess.DEVNULL, stdout=subprocess.PIPE,
                                 pass_fds=fds, timeout=60)
        except subprocess.TimeoutExpired:
            return -1, b""
        finally:
            for fd in fds:
                os.close(fd)
    return run.returncode, run.stdout


def twice(example: Example) -> bool:
    """Whether a read fails where one pipe or one FIFO is both the world and the log."""
    world, good = of_file(example.folder, "world.toml"), True
    with tempfile.TemporaryDirectory() as work:
        fifo = os.path.join(work, "fifo")
        for names in (("/dev/stdin", "/dev/stdin"), ("/dev/stdin", "/dev/fd/0"), (fifo, fifo)):
            pipe = Pipe(world, 100, fifo if fifo in names else None)
            words = [example.words[0], *names, *example.words[3:]]
            end = pipe.ends[0] if pipe.ends else os.open(os.devnull, os.O_RDONLY)
            try:
                run = subprocess.run([example.program, *words], cwd=example.folder, stdin=end, stdout=subprocess.PIPE,
                                     timeout=60)
                status, text = run.returncode, run.stdout
            except subprocess.TimeoutExpired:
                status, text = -1, b""
            finally:
                os.close(end)
            RUNS["pipes"] += 1
            if status != 7 or text != example.told(0):
                print(f"{' '.join(words[:3])}: status {status}, {len(text)} bytes that are no right answer")
                good = False
    print(f"{example.title}, one pipe or FIFO for two files: {'status 7' if good else 'wrong'}")
    return good


def unread(example: Example) -> int:
    """The status where standard output is a pipe that nobody reads."""
    ends = os.pipe()
    os.close(ends[0])
    with open(ends[1], "wb") as out:
        run = subprocess.run([example.program, *example.words], cwd=example.folder, stdin=subprocess.DEVNULL,
                             stdout=out)
    return run.returncode


def interrupted(example: Example, work: str) -> list[str]:
    """The words before the program by which each second opening, read and write is interrupted, from its first on."""
    words = ["strace", "-o", "/dev/null"]
    first: dict[str, int] = {}
    for made in calls_of(example, work):
        first.setdefault(made.name, made.number)
    for name, number in first.items():
        words += ["-e", f"inject={name}:error=EINTR:when={number}+2"]
    return words


def pipes(example: Example) -> bool:
    """Whether the whole report comes of pipes and FIFOs, filled in pieces of each size, and status 8 where nobody
    reads."""
    counts: Counter[str] = Counter()
    good = True
    with tempfile.TemporaryDirectory() as work:
        runs: list[tuple[str, int, Sequence[str]]] = [(kind, piece, ()) for kind in ("pipes", "FIFOs")
                                                      for piece in (1, 100, 1 << 20)]
        runs.append(("FIFOs", 100, interrupted(example, work)))
    for kind, piece, before in runs:
        status, text = of_pipes(example, piece, kind == "FIFOs", *before)
        answer = example.answer(status, text, set())
        if answer is None:
            print(f"{kind}, {piece} bytes at once: status {status}, {len(text)} bytes that are no right answer")
            good = False
        counts[answer or "wrong"] += 1
    show("pipes", f"{example.title}, files that are pipes and FIFOs, the last ones with interruptions", counts)
    good = (not example.files or twice(example)) and good
    status = unread(example)
    RUNS["pipes"] += 1
    print(f"{example.title}, nobody reads: status {status}")
    return good and status == 8


def show(part: str, title: str, counts: Counter[str]) -> None:
    """Writes how often each answer came in a part."""
    RUNS[part] += counts.total()
    print(title)
    for answer, count in sorted(counts.items()):
        if count:
            print(f"  {count:4} {answer}")
    sys.stdout.flush()


def main() -> None:
    """Refuses what the words ask for."""
    parts = {"calls": calls, "allocations": allocations, "pipes": pipes}
    forms = ("script", "strace")
    ask = argparse.ArgumentParser(usage="refusals.py [--only allocations|calls|pipes] [--form script|strace]"
                                        " [--command COMMAND] [PROGRAM]")
    ask.add_argument("--only", choices=sorted(parts))
    ask.add_argument("--form", choices=forms)
    ask.add_argument("--command", choices=COMMANDS)
    ask.add_argument("program", nargs="?", default=BUILT)
    asked, good = ask.parse_args(), True
    with tempfile.TemporaryDirectory() as work:
        maker = Maker(program_of(asked).path, work)
        examples = list(maker.examples([asked.form] if asked.form else forms, asked.command, not asked.form))
        for part in [parts[asked.only]] if asked.only else parts.values():
            for example in examples:
                good = part(example) and good
    print(f"{len(examples)} examples; runs: " + ", ".join(f"{part} {count}" for part, count in sorted(RUNS.items()))
          + ("; none wrong" if good else "; some are wrong"))
    sys.exit(0 if good else 1)


if __name__ == "__main__":
    main()
