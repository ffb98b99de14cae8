"""A case in namespaces of its own: pids, mounts and a folder that end with it, so that nothing of the machine changes.

try_traps.py calls this through unshare(1), as the first process of a PID namespace: what a case leaves behind
ends with that process. Each case is run twice, in two rooms: to show its danger, and to be recorded.
"""
import ctypes
import json
import os
import re
import signal
import subprocess
import sys
import time
import tomllib
from collections.abc import Iterator
from dataclasses import asdict
from typing import IO

from .altering import alter
from .judging import Seen
from .row import CAPTURED, LAUNCHED, Trap

TOOLS = os.path.dirname(os.path.dirname(os.path.abspath(__file__)))
PR_SET_PDEATHSIG, PR_CAPBSET_DROP = 1, 24
# The capabilities that a case has at its start, since fewer rights are asked about in less time: dac_override, kill,
# setgid, setuid, setpcap, sys_chroot, sys_ptrace, sys_admin; and where files are made chown, fowner, fsetid, net_raw,
# mknod, setfcap too.
FEW = {1, 5, 6, 7, 8, 18, 19, 21}
MORE = FEW | {0, 3, 4, 13, 27, 31}
WITH_FEW = ("ends", "filters", "rings", "siblings", "tracers", "waits")
PREMISE = re.compile(r"[a-z][a-z-]*(?=: )")


class Room:
    """A fresh folder with nothing in it, for the programs of `programs`; what is to outlast it goes to `kept`."""

    def __init__(self, trap: Trap, folder: str) -> None:
        self.trap, self.programs = trap, os.path.join(folder, "programs")
        self.room, self.kept = os.path.join(folder, "room"), os.path.join(folder, "kept", trap.name.replace("/", "-"))
        os.makedirs(self.kept, exist_ok=True)
        subprocess.run(["mount", "-t", "tmpfs", "-o", "mode=755", "tmpfs", self.room], check=True)
        os.chdir(self.room)
        os.umask(0o022)
        done = subprocess.run(self.words("prepare"), stdin=subprocess.DEVNULL, check=False)
        if done.returncode:
            raise SystemExit(f"{trap.name}: it can't be prepared")

    def words(self, *more: str) -> list[str]:
        """The program and its case."""
        return [os.path.join(self.programs, self.trap.program), self.trap.case, *more]

    def file(self, name: str) -> str:
        """The path of a file that is kept."""
        return os.path.join(self.kept, name)

    # ---- the danger

    def show(self) -> Seen:
        """What the kernel answers without a recorder."""
        with open(self.file("shown"), "w+", encoding="utf-8", errors="replace") as out:
            begun = subprocess.Popen(self.words("show"), stdin=subprocess.DEVNULL, stdout=out, stderr=out)
            try:
                status = begun.wait(self.trap.limit)
            except subprocess.TimeoutExpired:
                return Seen(shown=f"it didn't end within {self.trap.limit:g} s")
            out.seek(0)
            lines = [line for line in out.read().splitlines() if "shown: " in line]
        told = lines[-1] if lines else ""
        return Seen(danger=status == 0 and told.startswith("shown: "), shown=told.removeprefix("shown: "))

    # ---- the recording

    def tool(self, name: str, words: list[str], out: IO[str]) -> subprocess.Popen[str]:
        """A command of this repository."""
        return subprocess.Popen([sys.executable, os.path.join(TOOLS, name), *words], stdin=subprocess.DEVNULL,
                                stdout=out, stderr=out, text=True)

    def scan(self) -> None:
        """All programs that are there before the recording."""
        with open(self.file("scanning"), "w", encoding="utf-8") as out:
            if self.tool("credaudit-capture", ["-o", self.file("scan.toml"), "1"], out).wait(self.trap.limit):
                raise SystemExit(f"{self.trap.name}: no scan")

    def record(self) -> Seen:
        """What the recorder and the summary tell."""
        if self.trap.asked:
            self.scan()
        seen, service = Seen(), None if self.trap.how == LAUNCHED else self.service()
        target = ["--", *self.words()] if service is None else ["-p", str(service.pid)]
        if service is not None and self.trap.how == CAPTURED:
            return self.capture(service.pid)
        before = self.halted()
        with open(self.file("traced"), "w+", encoding="utf-8", errors="replace") as out:
            began = time.monotonic()
            tracing = self.tool("credaudit-trace", ["-o", self.file("recording"), *self.trap.options, *target], out)
            self.wait(tracing, service, began, seen)
            out.seek(0)
            seen.said = out.read()
        seen.left = [each for each in self.halted() if each not in before]
        if service is not None and service.poll() is not None:
            seen.left.append(f"the service has ended, with status {service.returncode}, and isn't there")
        if seen.ended and seen.status in (0, 1):
            if self.trap.altered:
                alter(self.trap.altered, self.file("recording"), self.file("scan.toml"))
            self.sum_up(seen)
        seen.secret = any(b"SECRET" in data for data in self.recorded())
        return seen

    def service(self) -> subprocess.Popen[bytes]:
        """The program, begun before the recorder, as far as it says that it is ready."""
        begun = subprocess.Popen(self.words(), stdin=subprocess.DEVNULL, stdout=subprocess.PIPE)
        assert begun.stdout is not None
        begun.stdout.readline()
        return begun

    def capture(self, pid: int) -> Seen:
        """A world of what lives, and whether each thread has a row with the kernel's ids and capabilities."""
        began, path = time.monotonic(), self.file("captured.toml")
        with open(self.file("traced"), "w", encoding="utf-8") as out:
            status = self.tool("credaudit-capture", ["-o", path, str(pid)], out).wait(self.trap.limit)
        with open(path, "rb") as file:
            rows = {row["pid"]: row for row in tomllib.load(file)["process"]}
        wrong = [str(task) for task, told in threads_below(pid).items() if differs(rows.get(task), told)]
        return Seen(ended=True, seconds=time.monotonic() - began, status=status, left=self.halted(),
                    said=f": {len(wrong)} differences\n" if wrong else "")

    def recorded(self) -> Iterator[bytes]:
        """The files of the recording, and what was said."""
        folder = self.file("recording")
        names = [self.file("traced"), *(os.path.join(folder, name) for name in os.listdir(folder))] \
            if os.path.isdir(folder) else []
        for name in names:
            with open(name, "rb") as file:
                yield file.read()

    def wait(self, tracing: subprocess.Popen[str], service: subprocess.Popen[bytes] | None, began: float,
             seen: Seen) -> None:
        """Waits for the recorder's end, and sends the signal that a case waits for."""
        try:
            if self.trap.go is not None and service is not None:
                while self.tracer_of(service.pid) == "0" and tracing.poll() is None:
                    time.sleep(0.05)
                time.sleep(self.trap.go)
                service.send_signal(signal.SIGUSR1)
            seen.status = tracing.wait(self.trap.limit)
            seen.ended = True
        except subprocess.TimeoutExpired:
            tracing.kill()
        seen.seconds = time.monotonic() - began

    def tracer_of(self, pid: int) -> str:
        """Who traces a process, `0` where nobody does."""
        return status_of(pid).get("TracerPid", "0")

    def halted(self) -> list[str]:
        """What stands still, or is traced."""
        time.sleep(0.1)
        found = []
        for pid in sorted(int(name) for name in os.listdir("/proc") if name.isdigit()):
            status = status_of(pid)
            if status.get("State", "-")[0] in "Tt":
                found.append(f"process {pid} ({status['Name']}) is stopped")
            elif status.get("TracerPid", "0") != "0":
                found.append(f"process {pid} ({status['Name']}) is traced")
        return found

    def sum_up(self, seen: Seen) -> None:
        """The classes of all rights, and the doubts."""
        made = os.path.join(self.file("recording"), "recording.toml")
        if os.path.exists(made):
            with open(made, "rb") as file:
                told = tomllib.load(file)
            seen.end = str(told.get("end", ""))
            seen.doubts += [each["premise"] for each in told.get("doubt", [])]
            seen.doubts += ["?" for _ in told.get("doubts", [])]
        if not self.trap.asked:
            return
        words = ["--json", "--files", self.file("scan.toml"), self.file("recording")]
        with open(self.file("summary.json"), "w+", encoding="utf-8") as out, \
                open(self.file("summing"), "w+", encoding="utf-8", errors="replace") as errors:
            done = subprocess.run([sys.executable, os.path.join(TOOLS, "credaudit-summary"), *words], stdout=out,
                                  stderr=errors, stdin=subprocess.DEVNULL, check=False)
            out.seek(0)
            errors.seek(0)
            text, said = out.read(), errors.read()
        if done.returncode in (3, 4):
            seen.broken = said.strip() or "no rights are told"
        if text.strip():
            collect(json.loads(text), seen)


def status_of(pid: int | str) -> dict[str, str]:
    """The lines of a process's status by their names, none where it has ended (proc(5))."""
    try:
        with open(f"/proc/{pid}/status", encoding="utf-8", errors="replace") as file:
            return dict(line.split(":\t", 1) for line in file.read().splitlines() if ":\t" in line)
    except OSError:
        return {}


def threads_below(pid: int) -> dict[int, dict[str, str]]:
    """The threads of a process and of all that descends from it, each with its status."""
    found, family = dict[int, dict[str, str]](), {pid}
    for each in sorted(int(name) for name in os.listdir("/proc") if name.isdigit()):
        if each in family or int(status_of(each).get("PPid", "0")) in family:
            family.add(each)
            found |= {int(task): status_of(f"{each}/task/{task}") for task in os.listdir(f"/proc/{each}/task")}
    return found


def differs(row: dict[str, object] | None, told: dict[str, str]) -> bool:
    """Whether a row of a captured world has other ids or capabilities than a status; in a user namespace of its own
    ids have other names, which are those of the initial one."""
    if row is None:
        return True
    sets = {"permitted": "CapPrm", "effective": "CapEff", "inheritable": "CapInh", "bounding": "CapBnd"}
    ids = {"uid": "Uid", "gid": "Gid"}
    return any(row[key] != told[name] for key, name in sets.items()) or any(
        row[key] != [int(word) for word in told[name].split()] for key, name in ids.items())


def collect(told: object, seen: Seen) -> None:
    """Takes classes, doubts and what would change from a summary as JSON, of however many processes."""
    if isinstance(told, list):
        for each in told:
            collect(each, seen)
    elif isinstance(told, dict):
        if "class" in told and "right" in told and "expected" not in told:
            seen.classes.setdefault(told["right"], []).append(told["class"])
            names = [PREMISE.match(each) for each in told.get("reasons", []) if told["class"] == "doubted"]
            seen.doubts += [name[0] for name in names if name]
        elif {"with", "gone", "of"} <= told.keys():
            seen.what_ifs.append((told["with"], told["gone"], told["of"]))
        else:
            for each in told.values():
                collect(each, seen)


def run(trap: Trap, phase: str, folder: str) -> None:
    """One of both runs of a case; what was seen goes into a file."""
    prctl = ctypes.CDLL(None).prctl
    prctl(PR_SET_PDEATHSIG, signal.SIGKILL)
    for capability in range(64):
        if capability not in (FEW if trap.program in WITH_FEW else MORE):
            prctl(PR_CAPBSET_DROP, capability, 0, 0, 0)
    room = Room(trap, folder)
    seen = room.show() if phase == "show" else room.record()
    with open(room.file(f"{phase}.seen"), "w", encoding="utf-8") as file:
        json.dump(asdict(seen), file)
