"""credaudit-trace: records a program under strace as a world, a log, and what the kernel showed at its end."""
import argparse
import gc
import re
import sys
from collections.abc import Mapping, Sequence
from dataclasses import replace

from ..command_line import command
from ..command_line.command import FOUND, GOOD, USAGE, Failure, Progress, tell
from ..command_line.printable import few, plural, shown
from ..formats import worlds
from ..formats.marked_calls import NETWORK, ON_SOCKETS, is_call
from ..formats.plain_log import numbers_of, renumbered
from ..formats.statuses import Status
from ..replay import recording, scan_fits
from ..system import proc
from . import room, strace_options
from .recorder import Asked, Recorder

NAME = "credaudit-trace"
SAYS = """Records a program, processes that run already, or a service of systemd, under strace(1): the world before the
first line, a log that credaudit reads, and what the kernel showed of each process at the log's end. Then the recording
is verified."""
AFTER = """exit status:
  0  recorded, and the replay agrees with what the kernel showed
  1  recorded, and there is a doubt or a difference, or nothing was compared; each is told
  2  the words are wrong
  3  not recorded: no right, no strace, no such process; the reason is told
  4  recorded, and credaudit refuses the world or the log"""

UNATTENDED = 60.0               # seconds of a recording that nobody can end by Ctrl-C, and for which no end was named
UNATTENDED_SAYS = ("ended after 60 s: no terminal is there from which it could be ended, and neither --for nor --until"
                   " says when (--for 0 records to the program's own end)")
ADVICE = ('what was recorded ends there; docs/STRACE.md, "What stops a log", tells more. -p PID records from a later'
          ' moment on')


def pattern(text: str) -> re.Pattern[bytes]:
    """A regular expression over bytes."""
    try:
        return re.compile(text.encode())
    except re.error as error:
        raise argparse.ArgumentTypeError(f"no regular expression: {error}") from error


def marks_of(text: str) -> dict[str, bool]:
    """Calls that are kept as marks, by name whether on sockets alone. Of a call that is recorded anyway no mark is
    kept: its own line is one."""
    found = dict[str, bool]()
    for word in text.split(","):
        names = NETWORK if word == "network" else (word,)
        for name in names:
            if not is_call(name) or strace_options.is_traced(name):
                raise argparse.ArgumentTypeError(f"{name!r} is no call that can be marked: it is none, or its lines are"
                                                 " in the log or looked at anyway")
            found[name] = found.get(name, True) and word == "network" and name in ON_SOCKETS
    return found


def words() -> argparse.ArgumentParser:
    """The words of the command."""
    ask = command.parser(NAME, SAYS, AFTER)
    ask.add_argument("-o", "--output", metavar="DIR", required=True, help="the folder of the recording")
    ask.add_argument("-p", "--pid", type=command.pid_word, action="append", default=[], metavar="PID",
                     help="a process that runs already, with its threads and all that descends from it; can stand"
                          " repeatedly")
    ask.add_argument("--unit", metavar="NAME",
                     help="a service of systemd: it is started, and recorded from its program's first execve on")
    ask.add_argument("-u", "--user", help="the user who runs the program, by name or number")
    ask.add_argument("--for", type=command.seconds, dest="seconds", metavar="SECONDS",
                     help="ends after this time; 0: at the program's own end")
    ask.add_argument("--until", type=pattern, metavar="EXPR",
                     help="ends after a line of the log that this regular expression fits")
    ask.add_argument("--until-each", type=pattern, metavar="EXPR",
                     help="ends once each living process has had such a line, or comes of one that had it before")
    ask.add_argument("--keep", action="store_true", help="lets the program run on after the recording")
    ask.add_argument("--pids-from", type=command.pid_word, metavar="FIRST",
                     help="numbers the pids by birth, from FIRST on")
    ask.add_argument("--mark", metavar="CALL[,CALL]", type=marks_of, default={},
                     help="keeps each of these calls as a line of its name, its descriptor and its answer, which no"
                          " rule reads; network stands for those by which bytes of the network come in. With --times")
    ask.add_argument("--times", action="store_true", help="keeps the time of each line of the log, in times.txt")
    ask.add_argument("--force", action="store_true", help="writes over a recording that is in the folder already")
    ask.add_argument("--no-verify", action="store_true", help="doesn't compare the replay with what the kernel showed")
    ask.add_argument("--strace", metavar="COMMAND", help="another strace than the one in the PATH")
    ask.add_argument("command", nargs=argparse.REMAINDER, metavar="CMD ..", help="the program and its words")
    return ask


def main(given: Sequence[str]) -> int:
    """The whole command."""
    ask = words()
    asked = ask.parse_args(given)
    told = asked.command[1:] if asked.command[:1] == ["--"] else asked.command
    if [bool(told), bool(asked.pid), asked.unit is not None].count(True) != 1:
        ask.print_usage()
        tell(NAME, "name either a program, processes by -p, or a service by --unit")
        return USAGE
    if asked.user and not told:
        tell(NAME, "-u goes with a program alone")
        return USAGE
    return traced(asked, Asked(told, asked.pid, asked.user, limit(asked), asked.until, asked.until_each, asked.strace,
                               asked.keep, asked.unit, asked.mark, asked.times or bool(asked.mark)))


def is_unattended(options: argparse.Namespace) -> bool:
    """Whether nothing says when the recording ends, and nobody is there to end it."""
    says = any(each is not None for each in (options.seconds, options.until, options.until_each))
    return not says and not any(each.isatty() for each in (sys.stdin, sys.stdout, sys.stderr))


def limit(options: argparse.Namespace) -> float | None:
    """The most seconds of a recording, None where the program's end is waited for."""
    return UNATTENDED if is_unattended(options) else options.seconds or None


def traced(options: argparse.Namespace, asked: Asked) -> int:
    """Records, writes, and verifies; the exit status."""
    proc.needs_processor()
    proc.needs_root("an ordinary user's tracer takes the effect from set-user-ID bits (execve(2))")
    if not options.force and (there := recording.names_in(options.output)):
        raise Failure(f"{options.output} has {few(there)} already", "--force writes over them; or name another folder")
    with room.room(options.output) as place:
        found = Recorder(asked, Progress(NAME)).record()
        made = numbered(found, options.pids_from) if options.pids_from else found
        recording.write(place.path, made, place.owner)
        return told(options, found, made)


def told(options: argparse.Namespace, found: recording.Recording, made: recording.Recording) -> int:
    """Tells of what was recorded, `made` as it was written, and verifies it; the exit status."""
    doubts = found.made.doubts if found.made else []
    for doubt in doubts:
        tell(NAME, f"doubt: {doubt.text()}")
    end = found.made.end if found.made else ""
    if end == "stopped":
        tell(NAME, ADVICE)
    if end == "time" and is_unattended(options):
        tell(NAME, UNATTENDED_SAYS)
    print(f"{shown(options.output)}: {plural(len(made.log.splitlines()), 'line')},"
          f" {plural(len(made.statuses), 'process')} at the end ({end})")
    status = GOOD if options.no_verify else verified(options.output)
    return FOUND if doubts and status == GOOD else status


def verified(folder: str) -> int:
    """Verifies a recording, whose doubts are told already; the exit status."""
    from ..verify import verify_command        # once the recording is over, which it would only delay
    return verify_command.verified(NAME, folder, tell_doubts=False)


def numbered(found: recording.Recording, first: int) -> recording.Recording:
    """The recording with its pids numbered by birth."""
    world, log = worlds.read(found.world), found.log.split(b"\n")[:-1]
    numbers = numbers_of(log, [row.pid for row in world.processes], first)
    for each in found.statuses:
        numbers.setdefault(each.pid, first + len(numbers))
    world.processes = [replace(row, pid=numbers[row.pid], parent=None if row.parent is None else numbers[row.parent])
                       for row in world.processes]
    world.remarks = found.made.remarks() if found.made else []
    statuses = [replace(each, pid=numbers[each.pid]) for each in found.statuses]
    lines = renumbered(log, numbers)
    filters = [line.partition(":") for line in found.filters.splitlines()]
    changes = "pids below are those that the system had\n" + found.changes
    return replace(found, made=made_numbered(found.made, numbers), world=worlds.written(world),
                   log=b"".join(line + b"\n" for line in lines), changes=changes,
                   statuses=sorted(statuses, key=pid_of),
                   filters="".join(f"{numbers.get(int(pid), int(pid))}:{text}\n" for pid, _, text in filters))


def made_numbered(made: recording.Made | None, numbers: Mapping[int, int]) -> recording.Made | None:
    """How it was made, with what was seen of threads under their new numbers; texts keep those that the system had."""
    if made is None:
        return None
    return replace(made, evidence=replace(made.evidence, seen=scan_fits.renumbered(made.evidence.seen, numbers)))


def pid_of(status: Status) -> int:
    """The order of statuses."""
    return status.pid


def script() -> None:
    """The whole of the command. What was loaded stays, so no garbage is looked for in it (the launcher had that off
    meanwhile)."""
    gc.freeze()
    gc.enable()
    command.run(NAME, main)
