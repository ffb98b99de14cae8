"""The start of a service under the eyes of a recorder: the service manager makes the process, with all that the unit
says, and executes a small program (stopper.py) that waits until the process is traced.

A drop-in has the unit's command begin with that program. It is there from before the start until the process is held,
and is taken back whatever happens. What can't be recorded so is refused before anything is changed.
"""
import os
import time
from collections.abc import Callable
from dataclasses import dataclass, field

from ..command_line.command import Failure
from ..command_line.printable import few, quoted
from ..formats.kernel_names import SECUREBITS
from ..system.proc import Proc
from ..unit import unit_files
from ..unit.unit_settings import SECURE
from . import stopper, unit_commands
from .service_manager import Manager

DROP_IN = "zzzz-credaudit-trace.conf"       # behind all others: of drop-ins the last one counts
PLACES = ("/run", "/dev/shm")
PATIENCE, STRAY_PATIENCE, PAUSE, LOOKS = 600.0, 10.0, 0.02, 0.5
MOST_LOOKS = 60         # of a service that is active already, as one of Type=simple is before its process executes it
# What would make the small program, or the program's execve by it, another than the service manager's own execve.
BARRED = {
    "RootDirectory": "the program that waits doesn't lie below it", "RootImage": "the program that waits isn't in it",
    "SELinuxContext": "it is given at the first execve", "AppArmorProfile": "it is given at the first execve",
    "SmackProcessLabel": "it is given at the first execve", "ExecSearchPath": "a name is looked for otherwise",
    "RestrictFileSystems": "it may bar the place of the program that waits"}
UNRESTRICTED = "~"                          # RestrictFileSystems= where it isn't set
REALTIME = ("1", "2")                       # SCHED_FIFO and SCHED_RR: what waits would keep its processor
BESIDE = ("ExecCondition", "ExecStartPre", "ExecStartPost", "ExecReload", "ExecStop", "ExecStopPost")
SHOWN = ("Id", "LoadState", "LoadError", "ActiveState", "NeedDaemonReload", "ExecStart", "SecureBits",
         "CPUSchedulingPolicy", "NoExecPaths", *BARRED, *BESIDE)
OTHERS = (".socket", ".timer", ".target", ".mount", ".automount", ".path", ".slice", ".scope", ".swap", ".device")
ENFORCED = "/sys/fs/selinux/enforce"


def full_name(word: str) -> str:
    """The name of a service. Fails where it is another unit's, or a template's."""
    name = word if "." in word and word.endswith(unit_files.SUFFIX) else word + unit_files.SUFFIX
    if "/" in word or not word or word.endswith(OTHERS):
        raise Failure(f"{quoted(word)} is no service", "name one, as cron or cron.service")
    if name.endswith("@" + unit_files.SUFFIX):
        raise Failure(f"{quoted(name)} is a template", "name an instance of it, as getty@tty1.service")
    return name


@dataclass
class UnitStart:
    """The start of one service."""
    word: str
    proc: Proc = field(default_factory=Proc)
    manager: Manager = field(default_factory=Manager)
    places: tuple[str, ...] = PLACES
    root: str = "/"
    pid: int = 0                            # of the process that is held
    freed: bool = False
    looks: int = 0                          # at which it was active, and nobody waited
    taken_back: bool = False                # the drop-in is, and the service manager knows

    def __post_init__(self) -> None:
        self.manager.check_is_there()
        told = self.manager.show(full_name(self.word), *SHOWN)
        self.told = {key: " ".join(values) for key, values in told.items()}
        self.name = self.told["Id"] or full_name(self.word)
        self.check()
        value = unit_commands.only_command(unit_files.named(self.name, self.root).values("ExecStart"))
        self.folder = os.path.join(self.place(), f"credaudit-trace-{os.getpid()}-{time.time_ns():x}")
        self.path = os.path.join(self.folder, stopper.NAME)
        self.command = unit_commands.behind(value, self.path)
        self.privileged = "+" in unit_commands.marks_of(value)
        self.above = os.path.join(self.manager.folder, self.name + ".d")
        self.drop_in = os.path.join(self.above, DROP_IN)
        if os.path.lexists(self.drop_in):
            raise Failure(f"{self.drop_in} is there: another recording of the unit runs, or was broken off",
                          "wait for its end, or remove the file, and then: systemctl daemon-reload")

    # ---- what is refused

    def check(self) -> None:
        """Fails where the unit can't be recorded so."""
        told = self.told
        if told["LoadState"] != "loaded":
            raise Failure(f"the unit {quoted(self.name)} is {told['LoadState'] or 'not there'}: systemd can't start it")
        if told["ActiveState"] not in ("inactive", "failed"):
            raise Failure(f"the unit {self.name} is {told['ActiveState']} already",
                          f"systemctl stop {self.name} ends it; -p records a process that runs")
        if told["NeedDaemonReload"] == "yes":
            raise Failure(f"the unit {self.name} was changed and isn't read again", "systemctl daemon-reload does that")
        for key, why in BARRED.items():
            if told[key] not in ("", UNRESTRICTED):
                raise Failure(f"the unit {self.name} has {key}=: {why}", unit_commands.APART)
        if told["CPUSchedulingPolicy"] in REALTIME:
            raise Failure(f"the unit {self.name} has CPUSchedulingPolicy=: what waits would keep its processor",
                          unit_commands.APART)
        if os.path.exists(ENFORCED):
            raise Failure("SELinux gives a service its domain at its first execve", unit_commands.APART)

    def place(self) -> str:
        """A folder of the memory in which programs can be executed. Fails where there is none."""
        for place in self.places:
            if os.path.isdir(place) and not os.statvfs(place).f_flag & os.ST_NOEXEC:
                return place
        raise Failure(f"in none of {few(list(self.places))} a program can be executed, so nothing can wait there")

    # ---- the start

    def text(self) -> str:
        """The drop-in."""
        more = [f"ExecPaths={self.folder}"] if self.told["NoExecPaths"] else []
        return "\n".join(["# made by credaudit-trace, which takes it back once the process is held", "[Service]",
                          "ExecStart=", f"ExecStart={self.command}", *more, ""])

    def put(self) -> None:
        """Makes the program that waits, and the drop-in. Fails where the service manager reads it otherwise."""
        os.mkdir(self.folder, 0o755)
        os.chmod(self.folder, 0o755)
        stopper.put(self.path)
        os.makedirs(self.above, 0o755, exist_ok=True)
        handle = os.open(self.drop_in, os.O_WRONLY | os.O_CREAT | os.O_EXCL | os.O_NOFOLLOW | os.O_CLOEXEC, 0o644)
        with os.fdopen(handle, "w", encoding="utf-8") as file:
            file.write(self.text())
        self.manager.reload()
        now = self.manager.show(self.name, "ExecStart")["ExecStart"]
        if len(now) != 1 or f"path={self.path} ;" not in now[0]:
            raise Failure(f"systemd reads the command of {self.name} otherwise than was written: {few(now)}",
                          "another drop-in may stand behind this one")

    def started(self, is_over: Callable[[], bool]) -> int:
        """The process of the service, which waits. Fails where it doesn't come."""
        self.put()
        self.manager.start(self.name)
        ends, look = time.monotonic() + PATIENCE, time.monotonic() + LOOKS
        while True:
            found = stopper.held(self.proc.root, self.path)
            if found:
                self.pid = found[0]
                return self.pid
            if is_over():
                raise Failure("a signal ended it before the unit's program began")
            if time.monotonic() > look:
                self.check_comes(time.monotonic() > ends)
                look = time.monotonic() + LOOKS
            time.sleep(PAUSE)

    def check_comes(self, late: bool) -> None:
        """Fails where the service doesn't start any more."""
        told = self.manager.show(self.name, "ActiveState", "SubState", "Job", "Result", "ConditionResult",
                                 "ExecMainStatus")
        one = {key: " ".join(values) for key, values in told.items()}
        waits = one["ActiveState"] == "activating" or one["Job"] not in ("", "0")
        self.looks = self.looks + 1 if one["ActiveState"] == "active" else 0
        about_to = one["ActiveState"] == "active" and self.looks < MOST_LOOKS
        if (waits or about_to or self.coming()) and not late or stopper.held(self.proc.root, self.path):
            return
        why = (f"{one['ActiveState']} ({one['SubState']}), result {one['Result'] or 'none'},"
               f" status {one['ExecMainStatus'] or 'none'}")
        why = "its conditions don't hold" if one["ConditionResult"] == "no" else why
        raise Failure(f"the unit {self.name} didn't come to its program: {why}",
                      f"systemctl status {self.name} tells more; 203 is a program that couldn't be executed, as where"
                      f" the unit hides {os.path.dirname(self.folder)}")

    # ---- what is known of it

    def securebits(self) -> int:
        """The securebits with which the program is executed: the unit's, but for a command with full privileges.
        KEEP_CAPS went by an execve."""
        if self.privileged:
            return 0
        told = self.told["SecureBits"]
        bits = int(told) if told.isdigit() else sum({SECURE[word] for word in told.split() if word in SECURE})
        return bits & ~SECUREBITS["KEEP_CAPS"]

    def notes(self) -> list[str]:
        """What the recording of it doesn't have."""
        beside = [key + "=" for key in BESIDE if self.told[key]]
        return [f"the unit {self.name}, from the execve of its program on, with what systemd had set for it",
                *([f"{', '.join(beside)}: what these execute isn't recorded"] if beside else [])]

    # ---- the end

    def take_back(self) -> None:
        """Takes back the drop-in, so that the unit is what it was. The service manager reads it again also where the
        file is gone already: a recorder may have been killed between the two."""
        if self.taken_back:
            return
        if os.path.lexists(self.drop_in):
            os.unlink(self.drop_in)
        try:
            os.rmdir(self.above)
        except OSError:
            pass                            # it isn't there, or others have something in it
        self.manager.reload()
        self.taken_back = True

    def free(self) -> None:
        """Sets the process free that is held."""
        if self.pid and not self.freed:
            self.freed = stopper.free(self.proc.root, self.path, self.pid)

    def coming(self) -> bool:
        """Whether a process is about to execute the program that waits: its name is that one's, in parentheses."""
        name = f"({stopper.NAME})\n".encode()
        return any(self.proc.read(pid, "comm") == name for pid in self.proc.pids())

    def strays(self) -> bool:
        """Sets all free that wait; whether there may be more."""
        for pid in stopper.held(self.proc.root, self.path):
            stopper.free(self.proc.root, self.path, pid)
        return self.coming()

    def clear(self) -> None:
        """Whatever was done, nothing is left of it: no drop-in, nobody who waits, no program to wait by."""
        try:
            self.take_back()
        finally:
            ends = time.monotonic() + STRAY_PATIENCE
            while self.strays() and time.monotonic() < ends:
                time.sleep(PAUSE)
            if os.path.lexists(self.path):
                os.unlink(self.path)
            if os.path.isdir(self.folder):
                os.rmdir(self.folder)
