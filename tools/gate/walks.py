#!/usr/bin/env python3
"""Tells through how many functions of this repository one line of a log goes, an audit, and a check of a certificate.

  walks.py [--list] [PROGRAM]

PROGRAM is a build with its symbols, as `make try` leaves it (out/credaudit-unproved of crates/credaudit, if none is
named); needs nm, and a processor of x86-64. Each walk is a run of it that is stopped at each function which it comes to
for the first time: of a line of each form, setresuid of one id that is told whole, what runs from one line's reading to
the next one's; of an audit that says yes, and of the check of its certificate, what runs from the end of a log without
lines to the end of the program. Functions are counted once, whatever types they are for, with the files and crates that
they stand in; what the kit's libraries do isn't counted, nor what drops values. --list shows each function.
"""
import argparse
import ctypes
import os
import re
import signal
import subprocess
import sys
import tempfile
from collections.abc import Iterator, Sequence
from contextlib import contextmanager
from dataclasses import dataclass

TOP = os.path.normpath(os.path.join(os.path.dirname(os.path.abspath(__file__)), "..", ".."))
UNPROVED = os.path.join(TOP, "crates", "credaudit", "out", "credaudit-unproved")
NEXT_LINE = "cm_io::cutter::LineCutter::next_line"       # each line of a log begins with it
SYMBOL = re.compile(r"(\w+) [tT] ([a-z]\w*::.*)")
PASSED = re.compile(r"\bDestruct\b")                      # what drops a value
GENERIC = re.compile(r"::<.*", re.DOTALL)
TRACE_ME, CONTINUE, ONE_STEP, GET_REGISTERS, SET_REGISTERS = 0, 7, 9, 12, 13
REGISTERS, AT = 27, 16                                    # of user_regs_struct, and where rip stands in it
BREAK = b"\xcc"
CALL = {"script": "100 setresuid 1000 1000 1000 = 0\n", "strace": "100 setresuid(1000, 1000, 1000) = 0\n"}
WORLD = """log = "{}"

[[process]]
pid = 100
uid = 0
"""
HELD = """log = "script"

[[process]]
pid = 100
uid = 1000
permitted = "0000000000000000"
effective = "0000000000000000"
bounding = "0000000000000000"
"""
LIBC = ctypes.CDLL(None, use_errno=True)
LIBC.ptrace.argtypes = [ctypes.c_long, ctypes.c_long, ctypes.c_void_p, ctypes.c_void_p]
LIBC.ptrace.restype = ctypes.c_long


class Failed(Exception):
    """Why there is no answer."""


@dataclass(frozen=True)
class Walk:
    """A run of the program, and the part of it that is looked at: from the reading of that line of the log, and to the
    reading of the next one, or to the end."""
    name: str
    words: tuple[str, ...]
    line: int
    to_end: bool = False


def functions(program: str, top: str = TOP) -> dict[int, str]:
    """The functions of this repository in a program: their addresses in the file, and names without types."""
    crates = set(os.listdir(os.path.join(top, "crates")))
    said = subprocess.run(["nm", program], capture_output=True, text=True, check=False)
    if said.returncode:
        raise Failed(said.stderr.strip())
    found = {}
    for address, symbol in SYMBOL.findall(said.stdout):
        name = GENERIC.sub("", symbol)
        if name.partition("::")[0] in crates and not PASSED.search(name):
            found[int(address, 16)] = name
    if NEXT_LINE not in found.values():
        raise Failed(f"{program} has no symbol {NEXT_LINE}")
    return found


def file_of(name: str, top: str = TOP) -> str:
    """The file that a function stands in, below crates/: that of its innermost module which has one."""
    crate, *modules = name.split("::")
    for length in range(len(modules), 0, -1):
        path = os.path.join(crate, "src", *modules[:length]) + ".rt"
        if os.path.isfile(os.path.join(top, "crates", path)):
            return path
    return os.path.join(crate, "src", "lib.rt")


def ask(request: int, pid: int, data: object = None) -> None:
    """A request of ptrace(2)."""
    if LIBC.ptrace(request, pid, None, data) == -1:
        raise Failed(f"ptrace: {os.strerror(ctypes.get_errno())}")


def loaded_at(pid: int, program: str) -> int:
    """Where the program's file begins in the memory of a process that has just executed it."""
    with open(f"/proc/{pid}/maps", encoding="utf-8", errors="surrogateescape") as maps:
        for line in maps:
            if line.rstrip("\n").endswith(os.path.realpath(program)):
                return int(line.partition("-")[0], 16)
    raise Failed(f"{program} isn't in its own memory")


class Stopped:
    """A process at a stop: its registers, and its memory."""

    def __init__(self, pid: int, program: str) -> None:
        self.pid = pid
        self.start = loaded_at(pid, program)
        self.memory = os.open(f"/proc/{pid}/mem", os.O_RDWR)
        self.kept: dict[int, bytes] = {}

    def put(self, addresses: Iterator[int]) -> None:
        """Sets a break at each of these addresses of the file."""
        for address in addresses:
            if address not in self.kept:
                self.kept[address] = os.pread(self.memory, 1, self.start + address)
                os.pwrite(self.memory, BREAK, self.start + address)

    def take(self) -> int:
        """Takes away the break at which the process stands; its address in the file."""
        registers = (ctypes.c_ulonglong * REGISTERS)()
        ask(GET_REGISTERS, self.pid, ctypes.addressof(registers))
        registers[AT] -= 1
        address = int(registers[AT]) - self.start
        os.pwrite(self.memory, self.kept.pop(address), self.start + address)
        ask(SET_REGISTERS, self.pid, ctypes.addressof(registers))
        return address


def go_on(pid: int, how: int) -> bool:
    """Lets a process run to its next break. Whether there is one: else it has ended, with status 0."""
    ask(how, pid)
    _, status = os.waitpid(pid, 0)
    if os.WIFSTOPPED(status):
        if os.WSTOPSIG(status) != signal.SIGTRAP:
            raise Failed(f"the program was stopped by signal {os.WSTOPSIG(status)}")
        return True
    if os.waitstatus_to_exitcode(status):
        raise Failed(f"the program ended with {os.waitstatus_to_exitcode(status)}")
    return False


@contextmanager
def started(program: str, words: Sequence[str], output: str) -> Iterator[int]:
    """The program, stopped where it begins; it is killed in the end, if it is there still."""
    pid = os.fork()
    if pid == 0:
        try:
            os.dup2(os.open(output, os.O_WRONLY | os.O_CREAT | os.O_TRUNC, 0o600), 1)
            ask(TRACE_ME, 0)
            os.execve(program, [program, *words], {"ASAN_OPTIONS": "detect_leaks=0"})
        finally:
            os._exit(127)
    os.waitpid(pid, 0)
    try:
        yield pid
    finally:
        try:
            os.kill(pid, signal.SIGKILL)
            os.waitpid(pid, 0)
        except (ProcessLookupError, ChildProcessError):
            pass


def walk(program: str, what: Walk, known: dict[int, str], output: str) -> set[str]:
    """The functions that a walk goes through."""
    marks = [address for address, name in known.items() if name == NEXT_LINE]
    found: set[str] = set()
    lines = 0
    with started(program, what.words, output) as pid:
        process = Stopped(pid, program)
        process.put(iter(marks))
        while go_on(pid, CONTINUE):
            address = process.take()
            if address not in marks:
                found.add(known[address])
                continue
            lines += 1
            if lines == what.line:
                found.add(NEXT_LINE)
                process.put(each for each in known if each not in marks)
            elif lines > what.line and not what.to_end:
                return found
            if not go_on(pid, ONE_STEP):
                break
            process.put(iter(marks))
    if not what.to_end or lines != what.line:
        raise Failed(f"{what.name}: the log ended at another line, {lines}")
    return found


def laid(folder: str, name: str, text: str) -> str:
    """A file with this text."""
    path = os.path.join(folder, name)
    with open(path, "w", encoding="utf-8") as file:
        file.write(text)
    return path


def walks(folder: str) -> Iterator[Walk]:
    """The walks, with their files in a folder. What the one before wrote is in the file `output`."""
    for form, line in CALL.items():
        world, log = laid(folder, "world", WORLD.format(form)), laid(folder, "log", 4 * line)
        yield Walk(f"a line of a {form} log", ("replay", world, log), 2)
    world, log = laid(folder, "world", HELD), laid(folder, "log", "")
    asked = (world, log, "100", "uid:0")
    yield Walk("an audit that says yes", ("audit", *asked), 1, True)
    with open(os.path.join(folder, "output"), encoding="utf-8") as file:
        certificate = file.read().split("\n")
    place = laid(folder, "certificate", certificate[-2] + "\n" if len(certificate) > 1 else "")
    yield Walk("a check that holds", ("check", *asked, place), 1, True)


def main(words: Sequence[str]) -> int:
    """Counts the walks, and with --list shows them; the status."""
    parser = argparse.ArgumentParser(description=__doc__, formatter_class=argparse.RawDescriptionHelpFormatter)
    parser.add_argument("--list", action="store_true", help="each function, too")
    parser.add_argument("program", nargs="?", default=UNPROVED, metavar="PROGRAM", help="a build with its symbols")
    given = parser.parse_args(words)
    try:
        known = functions(given.program)
        with tempfile.TemporaryDirectory(prefix="credaudit-walks-") as folder:
            for what in walks(folder):
                found = sorted(walk(given.program, what, known, os.path.join(folder, "output")))
                files = {file_of(name) for name in found}
                crates = {name.partition("::")[0] for name in found}
                print(f"{what.name}: {len(found)} functions in {len(files)} files of {len(crates)} crates")
                if given.list:
                    print(*(f"  {name}" for name in found), sep="\n")
    except (Failed, OSError) as why:
        print(f"walks.py: {why}", file=sys.stderr)
        return 1
    return 0


if __name__ == "__main__":
    sys.exit(main(sys.argv[1:]))
