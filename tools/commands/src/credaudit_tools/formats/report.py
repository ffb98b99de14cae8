"""The one reader of reports, as docs/FORMATS.md, "Report", has them."""
import re
from dataclasses import dataclass, field

from ..command_line.command import Failure
from .credential import Credential, four

CREDENTIAL = re.compile(
    r"> (?P<pid>\d+) (?P<space>\S+) uid=(?P<uid>[\d,]+) gid=(?P<gid>[\d,]+) groups=(?P<groups>-|[\d,]+)"
    r" inh=(?P<inh>[0-9a-f]{16}) prm=(?P<prm>[0-9a-f]{16}) eff=(?P<eff>[0-9a-f]{16}) bnd=(?P<bnd>[0-9a-f]{16})"
    r" amb=(?P<amb>[0-9a-f]{16}) sec=(?P<sec>[0-9a-f]{2}) nnp=(?P<nnp>[01])")
EVENT = re.compile(r"(?P<line>\d+): (?P<pid>\d+) (?P<call>[a-z0-9_]+)(?P<arguments>( \S+)*) = (?P<result>\S+)")
IMPOSSIBLE = re.compile(r"impossible line (\d+): (.*)")
BAD_LINE = re.compile(r"bad log line (\d+): (.*)")
BIRTHS = ("fork", "clone_user")


@dataclass(frozen=True)
class Standing:
    """A credential line: where a process stands, and with what."""
    pid: int
    space: str
    credential: Credential


@dataclass(frozen=True)
class Event:
    """An event, the number of its line in the log, and the credential lines below it: the caller's, then the
    child's."""
    line: int
    pid: int
    call: str
    arguments: tuple[str, ...]
    result: str
    after: tuple[Standing, ...]


@dataclass
class Report:
    """A whole report. `ending` is what stands below the last event, `status` the program's exit status."""
    start: list[Standing] = field(default_factory=list)
    events: list[Event] = field(default_factory=list)
    ending: list[str] = field(default_factory=list)
    status: int = 0

    def alive(self) -> dict[int, Standing]:
        """By pid what the processes that live at the end are."""
        standing = {one.pid: one for one in self.start}
        for event in self.events:
            turn(standing, event)
        return standing


def turn(standing: dict[int, Standing], event: Event) -> None:
    """Takes the standing of the processes from before an event to after it."""
    standing.update((one.pid, one) for one in event.after)
    if event.call == "exit":
        standing.pop(event.pid, None)


def numbers(text: str) -> list[int]:
    """The numbers between commas, none for `-`."""
    return [] if text == "-" else [int(word) for word in text.split(",")]


def standing_in(line: str) -> Standing | None:
    """The standing that a credential line tells, None where it is none."""
    found = CREDENTIAL.fullmatch(line)
    return standing_of(found) if found else None


def standing_of(found: re.Match[str]) -> Standing:
    """A credential line."""
    sets = {name: int(found[name], 16) for name in ("inh", "prm", "eff", "bnd", "amb", "sec")}
    credential = Credential(uid=four(numbers(found["uid"])), gid=four(numbers(found["gid"])),
                            groups=frozenset(numbers(found["groups"])), nnp=found["nnp"] == "1", **sets)
    return Standing(int(found["pid"]), found["space"], credential)


def event_of(found: re.Match[str], after: list[Standing]) -> Event:
    """An event and the credential lines below it."""
    arguments = tuple(found["arguments"].split())
    return Event(int(found["line"]), int(found["pid"]), found["call"], arguments, found["result"], tuple(after))


def read(text: str, status: int) -> Report:
    """A report and the status that it came with. Fails where a line is none of a report's."""
    report = Report(status=status)
    open_event: tuple[re.Match[str], list[Standing]] | None = None
    for line in text.split("\n")[:-1]:
        if report.ending:
            report.ending.append(line)
        elif found := CREDENTIAL.fullmatch(line):
            (open_event[1] if open_event else report.start).append(standing_of(found))
        elif found := EVENT.fullmatch(line):
            if open_event:
                report.events.append(event_of(*open_event))
            open_event = found, []
        else:
            report.ending.append(line)
    if open_event:
        report.events.append(event_of(*open_event))
    if text and not text.endswith("\n"):
        raise Failure("the program's report ends within a line")
    return report
