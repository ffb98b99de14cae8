"""What makes a log of strace suspect that the program reads to its end: lines that it passes over and that may tell of
something, and what is missing (docs/STRACE.md, "What is passed over").

None of this is a proof. A log of credaudit-trace has none of these, since that looks while the program runs.
"""
import re
from collections.abc import Callable, Iterator
from dataclasses import dataclass, field

from ..command_line.command import Says, silent
from ..command_line.printable import few, quoted, shown
from ..filters import log_filters
from ..formats.report import Report
from ..formats.strace_lines import RESUMED, UNFINISHED, Call, call_of, flags_of, name_of, parted, text_of
from ..formats.worlds import World
from .findings import LOG, Finding, doubt, note

SHOWN, STEP = 100, 4096         # bytes of a line that are told; lines between two words of progress
MAP_NAME = re.compile(rb"(^|/)(uid_map|gid_map|setgroups)$")
PLAIN_MAP = re.compile(rb"/proc/([0-9]+|self|thread-self)/(task/[0-9]+/)?(uid_map|gid_map|setgroups)")
MAP_TEXT = re.compile(rb"\s*\d+ +\d+ +\d+\s*(\n\s*\d+ +\d+ +\d+\s*)*")
CREDENTIAL_CALLS = frozenset(
    b"setuid setreuid setresuid setfsuid setgid setregid setresgid setfsgid setgroups capset prctl fork vfork clone"
    b" clone3 unshare setns execve execveat".split())
BIRTHS = frozenset(b"fork vfork clone clone3".split())
OPENS = frozenset(b"open openat openat2 creat".split())
WRITES = frozenset(b"write pwrite64 writev pwritev pwritev2 sendfile splice".split())
READ_WRITES = frozenset(b"write pwrite64".split())
# Lines that aren't of the shape that is read, by what an option makes of them.
SHAPES = (
    (re.compile(rb"\d\d:\d\d:\d\d(\.\d+)? "), "the time stands before the call", "without -t, -tt and -ttt"),
    (re.compile(rb"\d{9,}\.\d+ "), "the time stands before the call", "without -t, -tt and -ttt"),
    (re.compile(rb" *\d+\.\d{6} "), "the time stands before the call", "without -r"),
    (re.compile(rb"\[[0-9a-f?]{8,}\] "), "the instruction pointer stands before the call", "without -i"),
    (re.compile(rb"\[ *\d+\] "), "the call's number stands before it", "without -n"),
)
RAW_FLAGS = re.compile(rb"clone\(.*\bflags=0x|clone3\(\{flags=0x")
RAW = re.compile(rb"(prctl|unshare|clone|clone3|setns)\((0x[0-9a-f]+)(?! *\|)|openat\((-100|0xffffff9c),")
REAPED = re.compile(rb"--- SIGCHLD \{.*\bsi_code=CLD_(?:EXITED|KILLED|DUMPED), si_pid=([0-9]{1,9})\b")
NOTED = re.compile(rb"0x[0-9a-f]+ /\* [A-Z][A-Z0-9_|]* \*/")      # with `???` strace says that it knows no name


@dataclass(frozen=True)
class Line:
    """A whole call of a log: the number of the line that ends it, and whether it gave an event."""
    number: int
    pid: int
    body: bytes
    call: Call | None
    event: bool

    def text(self) -> str:
        """Its front, as a message shows it."""
        return shown(self.body[:SHOWN])


Doubt = tuple[str, str, str]        # what tells it apart, why, what to do


# ---- one line --------------------------------------------------------------------------------------------------------


def odd_shape(line: Line) -> Iterator[Doubt]:
    """A line that is no call, no signal and no end."""
    if line.call is not None or line.body.startswith((b"---", b"+++")) or line.body == b"":
        return
    for pattern, why, hint in SHAPES:
        if pattern.match(line.body):
            yield why, why, hint
            return
    mode = re.match(rb"\[ Process PID=\d+ runs in (.*?) mode", line.body)
    if mode:
        yield ("mode",
               f"the process runs in {shown(mode.group(1))} mode, where calls can have names with 32 at their end",
               "record by pattern: -e trace='/^(set(re|res)?[ug]id|setfs[ug]id|setgroups)(32)?$'")
        return
    yield ("shape", "that is no line of strace's shape, and is passed over",
           "record anew with the options of docs/STRACE.md")


def raw_words(line: Line) -> Iterator[Doubt]:
    """Numbers in the place of names."""
    if line.call is None:
        return
    if line.call.name in BIRTHS and line.call.done is not None and (RAW.match(line.body) or RAW_FLAGS.match(line.body)):
        yield ("hidden flags",
               "the flags of a birth aren't shown: it is read as a fork, also where it makes a namespace",
               "without -X raw, -e raw= and -e verbose=none")
        return
    if line.event:
        return
    if RAW.match(line.body):
        yield ("raw", "numbers stand in the place of names: births, namespaces and prctl aren't read",
               "without -X raw and -e raw=")
    if NOTED.search(line.body) and line.call.name in CREDENTIAL_CALLS:
        yield "noted", "numbers stand before names: prctl and unshare aren't read", "without -X verbose"


def decorated(line: Line) -> Iterator[Doubt]:
    """Descriptors with the paths behind them."""
    if line.call is None or line.call.name not in WRITES | OPENS | {b"setns", b"execveat"} or not line.call.arguments:
        return
    if re.match(rb"(\d+|AT_FDCWD)<", line.call.arguments[0]):
        yield ("decorated", "paths stand behind descriptors: what is written to maps isn't read",
               "without -y and -yy, or record with credaudit-trace, which reads them and writes them plain")


def hexadecimal(line: Line) -> Iterator[Doubt]:
    """Texts that were written in hexadecimal."""
    if line.call is not None and any(re.match(rb'"(\\x[0-9a-f]{2})+"', each) for each in line.call.arguments):
        yield "hexadecimal", "texts are written in hexadecimal: paths of maps aren't known", "without -xx"


def odd_maps(line: Line) -> Iterator[Doubt]:
    """Maps that are opened or written by ways that aren't read."""
    call = line.call
    if call is None or call.done is None or line.event:
        return
    if call.name in OPENS:
        texts = [text_of(each) for each in call.arguments[:2]]
        paths = [text[0] for text in texts if text is not None]
        if any(MAP_NAME.search(path) and (call.name == b"openat2" or not PLAIN_MAP.fullmatch(path)) for path in paths):
            yield ("map", "a map may have been opened by a spelling that isn't followed",
                   "record with credaudit-trace, which knows files by their descriptors")
    if call.name in (b"writev", b"pwritev", b"pwritev2") and re.search(rb'iov_base="\s*\d+ ', line.body):
        yield ("writev", "this may be a map written in parts, which aren't read",
               "record with credaudit-trace, which joins them")
    if call.name in READ_WRITES and len(call.arguments) > 1:
        text = text_of(call.arguments[1])
        if text is not None and MAP_TEXT.fullmatch(text[0]) and text[0].strip():
            yield ("map text", "what is written looks like a map, and the descriptor isn't followed",
                   "record with credaudit-trace, which knows files by their descriptors")


def transferred(line: Line) -> Iterator[Doubt]:
    """Descriptors of another process."""
    call = line.call
    if call is not None and call.done is not None and (call.name == b"pidfd_getfd" or b"SCM_RIGHTS" in line.body):
        yield ("transferred", "a descriptor comes from another process: what is written to it isn't followed",
               "record with credaudit-trace, which tells whether it is a map")
    if call is not None and call.done is not None and call.name.startswith(b"io_uring_"):
        yield ("io_uring", "calls by io_uring leave no line",
               "record where io_uring is off (sysctl kernel.io_uring_disabled=2)")


def untraced(line: Line) -> Iterator[Doubt]:
    """A birth that isn't followed."""
    call = line.call
    if call is None or call.name not in BIRTHS or call.done is None:
        return
    if b"CLONE_UNTRACED" in (flags_of(call) or []):
        yield ("untraced", f"process {call.done} was born with CLONE_UNTRACED: what it does isn't in the log",
               "declare it in a world of its own, or run the program without that flag")


def filtered(line: Line) -> Iterator[Doubt]:
    """Filters that answer in the kernel's place."""
    told = log_filters.installing(line.call) if line.call is not None else None
    if told is not None:
        for why in log_filters.of_argument(line.pid, told.argument).doubts:
            yield ("filter: " + why, f"a filter of system calls {why}",
                   "what its process seemed to do afterwards isn't certain")


CHECKS: tuple[Callable[[Line], Iterator[Doubt]], ...] = (
    odd_shape, raw_words, decorated, hexadecimal, odd_maps, transferred, untraced, filtered)


# ---- executed files --------------------------------------------------------------------------------------------------


@dataclass
class Executed:
    """The spellings under which files are executed, against those that the world declares."""
    paths: frozenset[bytes]
    moved: dict[int, int] = field(default_factory=dict)         # by process the line of its chroot or pivot_root

    def doubts(self, line: Line) -> Iterator[Doubt]:
        """What is doubtful of a line, and what it changes of roots."""
        call = line.call
        if call is None or call.done is None:
            return
        if call.name in BIRTHS and line.pid in self.moved:
            self.moved[call.done] = self.moved[line.pid]
        if call.name in (b"chroot", b"pivot_root"):
            self.moved[line.pid] = line.number
        if call.name in (b"execve", b"execveat"):
            text = next((text for text in map(text_of, call.arguments[:2]) if text is not None), None)
            if text is not None:
                yield from self.path_doubts(line, text[0])

    def path_doubts(self, line: Line, path: bytes) -> Iterator[Doubt]:
        """What is doubtful of a path that was executed."""
        if line.pid in self.moved:
            yield ("chroot",
                   f"after line {self.moved[line.pid]} paths begin at another root, so {quoted(path)} may be another"
                   " file", "declare it under this spelling, as the file below the new root is")
        if path in self.paths:
            return
        plain = "an undeclared path is taken for a file without set-id bits and capabilities"
        if not path.startswith(b"/"):
            yield "relative " + repr(path), f"{quoted(path)} was executed, and isn't declared: {plain}", \
                "declare it under this spelling too"
        elif re.match(rb"/proc/(self|thread-self|\d+)/", path) or path.startswith(b"/dev/fd/"):
            yield "proc " + repr(path), f"{quoted(path)} was executed, which names no file: {plain}", \
                "declare it under this spelling, as the file behind it is"
        elif twin := next((other for other in self.paths if other.rpartition(b"/")[2] == path.rpartition(b"/")[2]),
                          None):
            yield "twin " + repr(path), f"{quoted(path)} was executed, and {quoted(twin)} is declared: {plain}", \
                "if a symbolic link makes them one file, declare it under both spellings"


# ---- the whole log ---------------------------------------------------------------------------------------------------


@dataclass
class Reader:
    """The lines, with calls of two lines joined."""
    events: frozenset[int]
    begun: dict[int, tuple[int, bytes]] = field(default_factory=dict)
    seen: dict[int, int] = field(default_factory=dict)          # of each pid its first line
    ended: set[int] = field(default_factory=set)
    leaving: dict[int, int] = field(default_factory=dict)       # of each pid the line of its exit_group
    reaped: dict[int, int] = field(default_factory=dict)        # of each pid the line of a signal that tells its end
    failed: int = 0                                             # calls that failed, and calls that didn't
    done: int = 0

    def line(self, number: int, text: bytes) -> Line | None:
        """The line with what it tells; None for one that begins with no pid, and for the front of a call."""
        split = parted(text)
        if split is None:
            return None
        pid, body = split
        self.seen.setdefault(pid, number)
        if body.startswith(b"+++"):
            self.ended.add(pid)
        if reaped := REAPED.match(body):
            self.reaped.setdefault(int(reaped[1]), number)
        if body.endswith(UNFINISHED):
            self.begun[pid] = number, body.removesuffix(UNFINISHED)
            return None
        resumed = RESUMED.fullmatch(body)
        if resumed and pid in self.begun:
            body = self.begun.pop(pid)[1] + resumed.group(2)
        if name_of(body) in (b"exit_group", b"exit"):
            self.leaving[pid] = number
        call = call_of(body)
        if call is not None:
            self.done += call.done is not None
            self.failed += call.result.startswith(b"-1 ")
        return Line(number, pid, body, call, number in self.events)


def collected(told: Iterator[tuple[int, str, Doubt]]) -> list[Finding]:
    """Each doubt once, at its first line, with the count of lines."""
    first: dict[str, tuple[int, str, Doubt]] = {}
    counts: dict[str, int] = {}
    for number, text, made in told:
        counts[made[0]] = counts.get(made[0], 0) + 1
        first.setdefault(made[0], (number, text, made))
    return [doubt(LOG, number, why + (f" ({counts[key]} lines)" if counts[key] > 1 else "") + f": {text}", hint)
            for key, (number, text, (_, why, hint)) in first.items()]


def line_doubts(log: bytes, reader: Reader, paths: frozenset[bytes], says: Says) -> Iterator[tuple[int, str, Doubt]]:
    """What is doubtful, line by line: the number, the line's front, and the doubt."""
    executed, lines = Executed(paths), log.split(b"\n")
    for number, text in enumerate(lines, 1):
        if number % STEP == 0:
            says(f"{number} of {len(lines)} lines looked at")
        line = reader.line(number, text)
        if line is None:
            continue
        for check in (*CHECKS, executed.doubts):
            for made in check(line):
                yield number, line.text(), made


def whole_doubts(log: bytes, reader: Reader, report: Report, world: World) -> Iterator[Finding]:
    """What is missing in the log as a whole: births, ends of calls, and ends of processes."""
    births = [event for event in report.events if event.call in ("fork", "clone_user") and event.result.isdigit()]
    known = {row.pid for row in world.processes} | {int(event.result) for event in births}
    strangers = sorted(set(reader.seen) - known)
    if strangers:
        yield doubt(LOG, reader.seen[strangers[0]], f"{len(strangers)} processes have lines and no birth, the first is"
                    f" {strangers[0]}: their lines are passed over",
                    "declare them, or keep the lines of births (-f, and fork, vfork, clone, clone3 in -e trace=)")
    if reader.failed and not reader.done:
        yield doubt(LOG, 1, "no call in it succeeded", "without -Z and -e status=failed, which leave out what was done")
    for pid, (number, body) in sorted(reader.begun.items()):
        if name_of(body) in CREDENTIAL_CALLS:
            yield doubt(LOG, number, f"the call never ended: {shown(body[:SHOWN])}",
                        "what it answered isn't known; the log may be cut")
    for pid, number in sorted(reader.leaving.items()):
        if pid not in reader.ended:
            yield doubt(LOG, number, f"process {pid} leaves, and its end isn't told: it is taken to live on",
                        "at most -q, and not -qq or --quiet=exit; the log may be cut")

    for pid, number in sorted(reader.reaped.items()):
        if pid not in reader.ended and pid in known:
            yield doubt(LOG, number, f"SIGCHLD tells that process {pid} ended, and no line of its own does: it is taken"
                        " to live on", "at most -q, and not -qq or --quiet=exit; the log may be cut")


def living(log: bytes, report: Report) -> Iterator[Finding]:
    """Who lives on because no line tells an end: of a log that strace wrote to a program's end, that is odd, and of one
    that ended before, it isn't. Which of both it is, the log doesn't say."""
    alive = [str(pid) for pid in sorted(report.alive())]
    if not alive or not log.strip():
        return
    if not re.search(rb"^ *[0-9]+ +\+\+\+ ", log, re.MULTILINE):
        yield note(LOG, None, f"no line tells an end: process {few(alive, 5)} is taken to live on",
                   "-qq and --quiet=exit leave ends out, and a log that was cut at a line's end has none either; if the"
                   " recording ended while they lived, all is well")
    else:
        yield note(LOG, None, f"process {few(alive, 5)} lives on at the log's end",
                   "if the program had ended before, the log was cut at a line's end")


def front_doubts(log: bytes, report: Report) -> Iterator[Finding]:
    """What is odd of a log of either form."""
    if log and not log.endswith(b"\n"):
        yield doubt(LOG, log.count(b"\n") + 1, "the last line has no line feed: the log may be cut",
                    "let strace end before the log is taken")
    if log.strip() and not report.events:
        yield doubt(LOG, 1, "the log isn't empty, and nothing in it is an event",
                    "docs/STRACE.md tells which options change lines (-t, -i, -n ..) and which calls are read")


def of_strace(log: bytes, report: Report, world: World, says: Says = silent) -> list[Finding]:
    """All doubts about a log as strace writes it, which the program accepted."""
    reader = Reader(frozenset(event.line for event in report.events))
    paths = frozenset(row.path.encode() for row in world.files)
    made = collected(line_doubts(log, reader, paths, says))
    return [*front_doubts(log, report), *made, *whole_doubts(log, reader, report, world)]
