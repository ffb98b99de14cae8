#!/usr/bin/env python3
"""Records the programs of programs.py anew, each by credaudit-trace until it has dropped its privilege and waits.

  record.py [--strace COMMAND] [--into DIR] [NAME ..]     all of them where none is named

COMMAND is another strace than the machine's own; then a folder has its version after the program's name. The folders
stand beside this script, or in DIR. To be run as root. Needs strace, overlayfs and Debian's packages that programs.py
names. Nothing of the machine is changed: the programs run in namespaces of mounts, network, hostname and IPC of their
own, with copies of /etc and /var that go away, in which two users are made. Each program's folder gets a recording
(credaudit-trace(1)), which is verified.

One line for each program. Status 0: all are recorded, and none differs; 1: some aren't, or do.
"""
import argparse
import os
import signal
import subprocess
import sys
import tempfile
import time
from collections import Counter
from dataclasses import dataclass
from typing import NoReturn

HERE = os.path.dirname(os.path.abspath(__file__))
TOOLS = os.path.normpath(os.path.join(HERE, "..", "..", "tools"))
sys.path.insert(0, TOOLS)

import tools_path  # noqa: E402, F401
from credaudit_tools.command_line.command import Failure  # noqa: E402
from credaudit_tools.formats.statuses import from_file  # noqa: E402
from credaudit_tools.formats.worlds import remark  # noqa: E402
from credaudit_tools.replay import recording  # noqa: E402
from credaudit_tools.system.proc import Proc, needs_root  # noqa: E402
from credaudit_tools.trace import live_processes, strace_options  # noqa: E402
from credaudit_tools.verify import verify_command  # noqa: E402
from programs import PROGRAMS, USERS, Program  # noqa: E402

TRACE = os.path.join(TOOLS, "credaudit-trace")
CLEAN = {"PATH": "/usr/sbin:/usr/bin:/sbin:/bin", "LANG": "C"}
FIRST_PID, PATIENCE = 100, 75
PROC = Proc()


class Failed(Exception):
    """A program isn't recorded, for this reason."""


def give_up(why: str) -> NoReturn:
    """Ends with status 1, for this reason."""
    sys.exit("record.py: " + why)


# ---- a place of its own ----------------------------------------------------------------------------------------------


def run(*words: str, env: dict[str, str] | None = None) -> None:
    """Runs a command, with those variables where they are given. Gives up where it fails."""
    if subprocess.call(words, env=env) != 0:
        give_up("this failed: " + " ".join(words))


def go_apart() -> NoReturn:
    """The same program again in namespaces of its own."""
    try:
        needs_root()
    except Failure as failure:
        give_up(str(failure))
    os.execvp("unshare", ["unshare", "--mount", "--net", "--uts", "--ipc", "--propagation", "private",
                          sys.executable, os.path.abspath(__file__), "--apart", *sys.argv[1:]])


def furnish(work: str) -> None:
    """Copies of /etc and /var, an empty /run, the loopback device, and the users of the examples."""
    run("mount", "-t", "tmpfs", "tmpfs", work)
    for name in ("etc", "var"):
        above, between = (os.path.join(work, name + end) for end in ("", "-work"))
        os.mkdir(above)
        os.mkdir(between)
        layers = f"lowerdir=/{name},upperdir={above},workdir={between}"
        run("mount", "-t", "overlay", "overlay", "-o", layers, "/" + name)
    run("mount", "-t", "tmpfs", "-o", "mode=755", "tmpfs", "/run")
    run("hostname", "example")
    run("ip", "link", "set", "lo", "up")
    for words in USERS:
        run(*words, env=CLEAN)


# ---- what lives ------------------------------------------------------------------------------------------------------


def living(tracing: subprocess.Popen[bytes]) -> Counter[str]:
    """The names of the threads that the strace of a credaudit-trace traces."""
    threads = live_processes.all_threads(PROC)
    tracers = {each.tgid for each in threads.values() if each.parent == tracing.pid}
    traced = [tid for tid, each in threads.items() if each.tracer in tracers]
    found = [PROC.read(tid, "status") for tid in traced]
    return Counter(from_file(data).name.decode("latin-1") for data in found if data)


def wait_for(program: Program, tracing: subprocess.Popen[bytes]) -> None:
    """Waits until what lives is what the program says, and stays so for a while. Failed where that doesn't come."""
    last: Counter[str] | None = None
    ends = time.monotonic() + PATIENCE
    while time.monotonic() < ends and tracing.poll() is None:
        names = living(tracing)
        if names == Counter(program.lives) and names == last:
            return
        last = names
        time.sleep(1)
    raise Failed(f"what lives is {dict(last or {})}, not {program.lives}")


# ---- one program -----------------------------------------------------------------------------------------------------


@dataclass
class Recorder:
    """The strace that records, where the recordings are put, and a folder for the programs."""
    strace: str
    into: str
    work: str


def begin(recorder: Recorder, program: Program, place: str, folder: str) -> subprocess.Popen[bytes]:
    """The credaudit-trace that runs a program."""
    words = [sys.executable, TRACE, "-o", folder, "--no-verify", "--for", "0", "--pids-from", str(FIRST_PID),
             "--strace", recorder.strace, *program.as_user(), "--",
             *(word.replace("PLACE", place) for word in program.words)]
    tracing = subprocess.Popen(words, env=CLEAN, stdin=subprocess.PIPE, stdout=subprocess.DEVNULL, cwd="/",
                               stderr=subprocess.PIPE)
    assert tracing.stdin is not None
    tracing.stdin.write(program.input)
    tracing.stdin.flush()
    return tracing


def end(tracing: subprocess.Popen[bytes], client: subprocess.Popen[bytes] | None) -> str:
    """Ends a recording; what it said."""
    if tracing.poll() is None:
        tracing.send_signal(signal.SIGTERM)
    _, said = tracing.communicate()
    if client:
        client.wait()
    return said.decode("ascii", "backslashreplace")


def record(recorder: Recorder, program: Program) -> int:
    """Records a program; the status of its verification. Failed where there is no whole recording."""
    place = os.path.join(recorder.work, program.name)
    os.mkdir(place)
    os.chmod(place, 0o755)
    program.before(place)
    older = f"-{strace_options.version(recorder.strace)}" if recorder.strace != "strace" else ""
    folder = os.path.join(recorder.into, program.name + older)
    tracing = begin(recorder, program, place, folder)
    client = program.client(place)
    try:
        wait_for(program, tracing)
    finally:
        said = end(tracing, client)
    if tracing.returncode not in (0, 1):
        raise Failed(said.strip())
    # What the program is told stands above the rest of the world.
    kept = recording.read(folder)
    kept.world = remark(program.says).encode() + b"\n" + kept.world
    recording.write(folder, kept)
    return verify_command.verified("record.py", folder)


def is_recorded(recorder: Recorder, program: Program) -> bool:
    """Whether a program is recorded, and the recording verified."""
    try:
        return record(recorder, program) == 0
    except (Failed, Failure) as why:
        print(f"{program.name:22} not recorded: {why}", flush=True)
        return False


def main() -> None:
    """Records the programs that the words name."""
    ask = argparse.ArgumentParser(usage="record.py [--strace COMMAND] [--into DIR] [NAME ..]")
    ask.add_argument("--apart", action="store_true", help=argparse.SUPPRESS)
    ask.add_argument("--strace", default="strace")
    ask.add_argument("--into", default=HERE)
    ask.add_argument("names", nargs="*")
    asked = ask.parse_args()
    if not asked.apart:
        go_apart()
    unknown = set(asked.names) - {program.name for program in PROGRAMS}
    if unknown:
        give_up("no such program: " + ", ".join(sorted(unknown)))
    os.umask(0o022)
    with tempfile.TemporaryDirectory() as outer:
        work = os.path.join(outer, "work")
        os.mkdir(work)
        os.chmod(outer, 0o755)
        furnish(work)
        chosen = [program for program in PROGRAMS if not asked.names or program.name in asked.names]
        recorder = Recorder(asked.strace, os.path.abspath(asked.into), work)
        bad = [program for program in chosen if not is_recorded(recorder, program)]
        subprocess.call(["umount", "-l", work])
    sys.exit(1 if bad else 0)


if __name__ == "__main__":
    main()
