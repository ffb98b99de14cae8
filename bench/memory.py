#!/usr/bin/env python3
"""Measures the most memory that credaudit holds while it replays logs of 1 MiB, 64 MiB and 1 GiB.

  memory.py [--sizes MIB,..] [--runs N] [--form script|strace] [--kind KIND] [--work FOLDER] [PROGRAM]

PROGRAM is credaudit; left out, the one that was built in this repository. A log is one text again and again, as often
as it fits, so each of them has in it what the others have. It is written to FOLDER (left out, a new one below /dev/shm,
or where that isn't, below /tmp) and removed after its run. The kinds, of both forms of log:

  calls    births, calls on ids, refusals and exits of 200 children; of strace most lines are other calls, and 4,000
           lines come before the birth of their process
  groups   three processes of 1,024 groups, and calls that give them others
  lines    lines of 1,048,576 bytes: comments and blanks; of strace long texts, a list of arguments, and a call in two
           parts

The peak is VmHWM of /proc/PID/status, looked up as the program ends (ptrace(2)), the least of N runs (3): how many
pages of its own file it holds isn't the same in each. What the world takes is its peak with an empty log, less that of
a world without rows with an empty log. Beside it the peak is to be below 4 MiB, and the most of the sizes at most 1.1
times the least; of lines it is to be below 12 MiB. Past a bar, or where a log isn't accepted, the status is 1. With the
sizes 1, 64 and 1024 the folder needs 1 GiB.
"""
import argparse
import ctypes
import os
import signal
import subprocess
import sys
import tempfile
from collections.abc import Callable, Iterable, Iterator, Sequence
from dataclasses import dataclass

import tools_path  # noqa: F401
from credaudit_tools.formats.statuses import parts_of_file
from credaudit_tools.provenance.places import BUILT
from credaudit_tools.system.proc import Proc

HERE = os.path.dirname(os.path.abspath(__file__))
MIB = 1 << 20
SIZES = (1, 64, 1024)
FORMS = ("script", "strace")
MOST, MOST_OF_LINES, MOST_GROWTH = 4.0, 12.0, 1.1       # in MiB, and in times
CHILDREN, HELD, GROUPS, LINE = range(1000, 1200), 4000, 1024, 1 << 20

# ---- logs ----------------------------------------------------------------------------------------------------------


def world(form: str, rows: Iterable[str] = ()) -> str:
    """A world of that form of log, with these rows."""
    return f'log = "{form}"\n' + "".join(rows)


def process(pid: int, *keys: str) -> str:
    """The row of a process of root."""
    return "\n".join(("[[process]]", f"pid = {pid}", "uid = 0", *keys)) + "\n"


def script_calls() -> Iterator[str]:
    """Children that drop their ids, are refused a return and exit."""
    for pid in CHILDREN:
        yield from (f"100 fork = {pid}", f"{pid} setresuid {pid} {pid} {pid} = 0")
    for pid in CHILDREN:
        yield from (f"{pid} setuid 0 = EPERM", "100 setresuid -1 1000 -1 = 0", "100 setresuid -1 0 -1 = 0")
    yield from (f"{pid} exit = 0" for pid in CHILDREN)


def birth(pid: int) -> str:
    """The line of a birth, as strace writes it."""
    return f"100 clone(child_stack=NULL, flags=CLONE_CHILD_SETTID|SIGCHLD, child_tidptr=0x7f{pid:08x}10) = {pid}"


def end(pid: int) -> Iterator[str]:
    """The lines of an end, as strace writes it."""
    yield from (f"{pid} exit_group(0)                     = ?", f"{pid} +++ exited with 0 +++")


def strace_calls() -> Iterator[str]:
    """Children that read files and drop their ids, one of which is born after many of its lines."""
    yield from map(birth, CHILDREN)
    late = CHILDREN[-1] + 1
    yield from (f'{late} read({3 + n % 20}, "line {n}", 832) = 7' for n in range(HELD))
    yield birth(late)
    for turn in range(10):
        for pid in CHILDREN:
            yield f'{pid} openat(AT_FDCWD, "/usr/lib/library{turn}.so", O_RDONLY|O_CLOEXEC) = 3'
            yield f"{pid} futex(0x7f2a{pid:08x}, FUTEX_WAIT_PRIVATE, 0, NULL <unfinished ...>"
            yield from (f"{pid} <... futex resumed>) = 0", f"{pid} close(3) = 0")
    for pid in CHILDREN:
        yield f"{pid} setresuid({pid}, {pid}, {pid}) = 0"
    for pid in (*CHILDREN, late):
        yield from end(pid)


def groups_of(first: int) -> list[str]:
    """As many groups as there may be, in no order."""
    return [str(first + n * 7919 % 1000003) for n in range(GROUPS)]


def calls_on_groups(written: Callable[[int, Sequence[str]], str]) -> Iterator[str]:
    """Calls that set them, as `written` writes them."""
    for first in range(4000000000, 4000000008):
        yield from (written(pid, groups_of(first + pid)) for pid in (100, 101, 102))


def script_lines() -> Iterator[str]:
    """Comments, and calls among blanks, as long as a line may be."""
    for uid in (1000, 0):
        yield ";" * LINE
        yield f"100 setresuid -1 {uid} -1".ljust(LINE - 4) + " = 0"


def strace_lines() -> Iterator[str]:
    """Long texts, arguments, and a call in two parts."""
    def filled(front: str, back: str) -> str:
        return front + "x" * (LINE - len(front) - len(back)) + back
    yield filled('100 write(1, "', '", 1048576) = 1048576')
    yield filled('100 execve("/bin/tool", ["tool", "', '"], 0x7ffd00001000 /* 23 vars */) = 0')
    yield filled('100 write(1, "', '" <unfinished ...>')
    yield "100 <... write resumed>, 1048576) = 1048576"


@dataclass(frozen=True)
class Kind:
    """A kind of log: its world, one text of it, and what it may hold."""

    form: str
    name: str
    world: str
    text: bytes
    most: float

    def write(self, name: str, mib: int) -> None:
        """Writes the text as often as so many MiB have room for it, and once at least."""
        with open(name, "wb") as log:
            for _ in range(max(mib * MIB // len(self.text), 1)):
                log.write(self.text)


def kinds() -> Iterator[Kind]:
    """All of them."""
    one = [process(100)]
    many = [process(pid, f"groups = [{', '.join(groups_of(pid))}]") for pid in (100, 101, 102)]
    spelt: dict[str, Callable[[int, Sequence[str]], str]] = {
        "script": lambda pid, groups: f"{pid} setgroups {' '.join(groups)} = 0",
        "strace": lambda pid, groups: f"{pid} setgroups({len(groups)}, [{', '.join(groups)}]) = 0"}
    calls, lines = {"script": script_calls, "strace": strace_calls}, {"script": script_lines, "strace": strace_lines}
    for form in FORMS:
        yield kind(form, "calls", one, calls[form](), MOST)
        yield kind(form, "groups", many, calls_on_groups(spelt[form]), MOST)
        yield kind(form, "lines", one, lines[form](), MOST_OF_LINES)


def kind(form: str, name: str, rows: Iterable[str], lines: Iterable[str], most: float) -> Kind:
    """A kind of these rows and lines."""
    return Kind(form, name, world(form, rows), "".join(f"{line}\n" for line in lines).encode(), most)


# ---- peaks ---------------------------------------------------------------------------------------------------------

LIBC = ctypes.CDLL(None, use_errno=True)
LIBC.ptrace.argtypes = (ctypes.c_long, ctypes.c_long, ctypes.c_void_p, ctypes.c_void_p)
LIBC.ptrace.restype = ctypes.c_long
TRACE_ME, CONTINUE, SET_OPTIONS = 0, 7, 0x4200          # ptrace(2), as linux/ptrace.h has them
TRACE_EXIT, EXITS = 0x40, signal.SIGTRAP | 6 << 8       # the option, and the stop before an end
PROC = Proc()


def trace(request: int, pid: int = 0, data: int = 0) -> None:
    """One request of ptrace. Ends the measuring where it is refused."""
    if LIBC.ptrace(request, pid, None, data) < 0:
        sys.exit(f"memory.py: ptrace: {os.strerror(ctypes.get_errno())}")


def peak(words: Sequence[str]) -> tuple[int, float]:
    """The status of a command, and the most memory that it held, in MiB."""
    child = subprocess.Popen(words, stdin=subprocess.DEVNULL, stdout=subprocess.DEVNULL,
                             preexec_fn=lambda: trace(TRACE_ME))
    _, status = os.waitpid(child.pid, 0)        # it stops as it begins
    if os.WIFSTOPPED(status):
        trace(SET_OPTIONS, child.pid, TRACE_EXIT)
    kib = 0
    while os.WIFSTOPPED(status):
        caught = os.WSTOPSIG(status)
        if status >> 8 == EXITS:
            kib = int(parts_of_file(PROC.read(child.pid, "status") or b"")["VmHWM"].split()[0])
        trace(CONTINUE, child.pid, 0 if caught == signal.SIGTRAP else caught)
        _, status = os.waitpid(child.pid, 0)
    child.returncode = os.waitstatus_to_exitcode(status)
    return child.returncode, kib / 1024


@dataclass(frozen=True)
class Replays:
    """The program, how often each replay runs, and the folder of its files."""

    program: str
    runs: int
    work: str

    def peak(self, world_text: str, log: str) -> float:
        """The peak of the replay of a log. Ends the measuring where the log isn't accepted."""
        path = os.path.join(self.work, "world.toml")
        with open(path, "w") as file:
            file.write(world_text)
        every = [peak([self.program, "replay", path, log]) for _ in range(self.runs)]
        if any(status != 0 for status, _ in every):
            sys.exit(f"memory.py: status {every[0][0]} of a log of {os.path.getsize(log)} bytes")
        return min(mib for _, mib in every)


def within(replays: Replays, made: Kind, sizes: Sequence[int]) -> bool:
    """Whether the peaks of a kind are within their bars; they are shown."""
    log = os.path.join(replays.work, "log")
    open(log, "w").close()
    of_world = max(replays.peak(made.world, log) - replays.peak(world(made.form), log), 0.0)
    peaks = list[float]()
    for size in sizes:
        made.write(log, size)
        peaks.append(replays.peak(made.world, log))
        os.remove(log)
    beside, growth = max(peaks) - of_world, max(peaks) / min(peaks)
    grows = growth > MOST_GROWTH and made.most == MOST
    print(f"{made.form + ', ' + made.name:18}{of_world:9.2f}" + "".join(f"{mib:9.2f}" for mib in peaks)
          + f"{growth:9.2f}{made.most:9.0f}"
          + ("" if beside < made.most else f", past {made.most:.0f} MiB beside the world")
          + (f", past {MOST_GROWTH} times" if grows else ""), flush=True)
    return beside < made.most and not grows


def main() -> None:
    """Measures the kinds that the words name, all where they name none."""
    ask = argparse.ArgumentParser(usage="memory.py [--sizes MIB,..] [--runs N] [--form script|strace] [--kind KIND]"
                                        " [--work FOLDER] [PROGRAM]")
    ask.add_argument("--runs", type=int, default=3)
    ask.add_argument("--sizes", type=lambda words: tuple(map(int, words.split(","))), default=SIZES)
    ask.add_argument("--form", choices=FORMS)
    ask.add_argument("--kind", choices=("calls", "groups", "lines"))
    ask.add_argument("--work", default="/dev/shm" if os.path.isdir("/dev/shm") else None)
    ask.add_argument("program", nargs="?", default=BUILT)
    asked = ask.parse_args()
    program = os.path.abspath(asked.program)
    if not os.access(program, os.X_OK):
        sys.exit(f"memory.py: {program} isn't there: build it first, with make at the top of the repository")
    print(f"{'peak in MiB of':18}{'world':>9}" + "".join(f"{f'{size} MiB':>9}" for size in asked.sizes)
          + f"{'growth':>9}{'below':>9}")
    with tempfile.TemporaryDirectory(dir=asked.work) as work:
        good = [within(Replays(program, asked.runs, work), made, asked.sizes) for made in kinds()
                if asked.form in (None, made.form) and asked.kind in (None, made.name)]
    sys.exit(0 if all(good) else 1)


if __name__ == "__main__":
    main()
