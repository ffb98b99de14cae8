#!/usr/bin/env python3
"""Within the machine of try_units.py, as root: records units by credaudit-trace --unit, and tells what was found.

  units_in_guest.py INTO UNIT ..

Of each UNIT are kept, in a folder below INTO: the world that credaudit-unit makes of it with its notes, the recording,
and what both said. Then, of the first one, recorders are killed by SIGKILL, one at each step of its start. A unit, or a
step, after which something is left of the recording is told, also in the file `left`. Each line of standard output is a
result (docs/TESTING-tools.md).
"""
import os
import re
import signal
import subprocess
import sys
import time
from collections.abc import Callable, Sequence

# tools/ of the machine, with the commands.
HERE = os.path.normpath(os.path.join(os.path.dirname(os.path.abspath(__file__)), "..", "..", ".."))
SECONDS = "12"
PATIENCE = 60.0


def asked(*words: str) -> tuple[int, str]:
    """The status of a command, and all that it wrote."""
    done = subprocess.run(words, stdin=subprocess.DEVNULL, stdout=subprocess.PIPE, stderr=subprocess.STDOUT, text=True,
                          check=False)
    return done.returncode, done.stdout


def waiting() -> dict[int, str]:
    """The processes that wait before their program: by pid the state and the tracer."""
    found = {}
    for pid in filter(str.isdigit, os.listdir("/proc")):
        try:
            if "ca-hold" in os.readlink(f"/proc/{pid}/exe"):
                with open(f"/proc/{pid}/status", encoding="utf-8", errors="replace") as file:
                    found[int(pid)] = " ".join(re.findall(r"^(?:State|TracerPid):\t(\S+)", file.read(), re.MULTILINE))
        except OSError:
            pass
    return found


def stopped() -> list[int]:
    """The processes that are stopped."""
    found = []
    for pid in filter(str.isdigit, os.listdir("/proc")):
        try:
            with open(f"/proc/{pid}/stat", encoding="utf-8", errors="replace") as file:
                found += [int(pid)] if file.read().rpartition(")")[2].split()[0] == "T" else []
        except OSError:
            pass
    return found


def left(unit: str) -> list[str]:
    """What is left of a recording: drop-ins, programs that wait and their folders, processes that are stopped."""
    found = [os.path.join(place, name) for place in ("/run", "/dev/shm") for name in os.listdir(place)
             if name.startswith("credaudit-trace-")]
    above = f"/run/systemd/system/{unit}.service.d"
    found += [above] if os.path.exists(above) else []
    found += ["ExecStart="] if "ca-hold" in asked("systemctl", "show", "-p", "ExecStart", unit)[1] else []
    return found + [f"process {pid} waits" for pid in waiting()] + [f"process {pid} is stopped" for pid in stopped()]


# The steps of a start, by what is there then.
STEPS: dict[str, Callable[[str], bool]] = {
    "the drop-in is there": lambda unit: os.path.exists(f"/run/systemd/system/{unit}.service.d"),
    "the program waits": lambda _: bool(waiting()),
    "it is stopped": lambda _: any(each.startswith("T ") for each in waiting().values()),
    "the drop-in was taken back": lambda unit: bool(waiting()) and not os.path.exists(
        f"/run/systemd/system/{unit}.service.d"),
    "it is traced": lambda _: any(not each.endswith(" 0") for each in waiting().values()),
    "it was set free": lambda _: not waiting()}


def keep(folder: str, name: str, text: str) -> None:
    """Puts a text into a file."""
    with open(os.path.join(folder, name), "w", encoding="utf-8") as file:
        file.write(text)


def record(into: str, unit: str) -> tuple[str, list[str]]:
    """Records a unit; the result, and what is left."""
    folder = os.path.join(into, unit)
    os.makedirs(folder)
    asked("systemctl", "stop", unit)
    asked("systemctl", "reset-failed", unit)
    done = subprocess.run([os.path.join(HERE, "credaudit-unit"), "--world", unit], stdout=subprocess.PIPE,
                          stderr=subprocess.PIPE, text=True, check=False)
    keep(folder, "unit.toml", done.stdout)
    keep(folder, "unit.notes", done.stderr)
    begun = time.monotonic()
    status, said = asked(os.path.join(HERE, "credaudit-trace"), "--unit", unit, "-o",
                         os.path.join(folder, "recording"), "--for", SECONDS, "--no-verify")
    keep(folder, "said", said)
    shown = "ActiveState,SubState,Result,ExecMainStatus,MainPID"
    keep(folder, "shown", asked("systemctl", "show", "-p", shown, unit)[1])
    found = left(unit)
    asked("systemctl", "stop", unit)
    return (f"{unit}: status {status}, {time.monotonic() - begun:.0f} s, left: {', '.join(found) or 'nothing'}: "
            + " | ".join(said.split("\n")[-3:]), found)


def reached(unit: str, steps: Sequence[str]) -> bool:
    """Whether these steps come one after another in time."""
    ends = time.monotonic() + PATIENCE
    for step in steps:
        while not STEPS[step](unit):
            if time.monotonic() > ends:
                return False
            time.sleep(0.001)
    return True


def killed(into: str, unit: str, step: str) -> tuple[str, list[str]]:
    """Kills a recorder at a step of its start; the result, and what is left."""
    asked("systemctl", "stop", unit)
    running = subprocess.Popen([os.path.join(HERE, "credaudit-trace"), "--unit", unit, "-o",
                                os.path.join(into, "killed"), "--for", "3", "--no-verify"],
                               stdout=subprocess.DEVNULL, stderr=subprocess.DEVNULL, start_new_session=True)
    steps = list(STEPS)[:list(STEPS).index(step) + 1]
    there = reached(unit, steps if step == "it was set free" else [step])
    running.send_signal(signal.SIGKILL)
    running.wait()
    begun = time.monotonic()
    while (found := left(unit)) and time.monotonic() < begun + PATIENCE:
        time.sleep(0.2)
    state = asked("systemctl", "show", "-p", "ActiveState", "--value", unit)[1].strip()
    when = step if there else f"never came: {step}"
    return (f"killed, {when}: {unit} is {state}, left after {time.monotonic() - begun:.1f} s: "
            f"{', '.join(found) or 'nothing'}", found if there else [when])


def main(words: Sequence[str]) -> None:
    """All of it."""
    into, *units = words
    rest = list[str]()
    with open("/proc/1/status", encoding="ascii") as file:
        keep(into, "manager", file.read())
    for unit in units:
        told, found = record(into, unit)
        print("unit", told, flush=True)
        rest += [f"{unit}: {each}" for each in found]
    for step in STEPS:
        told, found = killed(into, units[0], step)
        print("kill", told, flush=True)
        rest += [f"{step}: {each}" for each in found]
    keep(into, "left", "".join(each + "\n" for each in rest))


if __name__ == "__main__":
    main(sys.argv[1:])
