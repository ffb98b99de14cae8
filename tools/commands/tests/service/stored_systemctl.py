#!/usr/bin/env python3
"""A stand-in for systemctl, which knows units below the folder STAND_IN_ROOT: it reads them, with their drop-ins, as
credaudit-unit does, and starts a command by a plain execve. What a unit is besides stands in the file `told`, a line
for each key: `Starts=no` has the command not started, `NowState` is its state afterwards. Each call is noted in the
file `asked`."""
import os
import shlex
import subprocess
import sys

import tools_path  # noqa: F401
from credaudit_tools.unit import unit_files

ROOT = os.environ["STAND_IN_ROOT"]
NAME = "one.service"


def told() -> dict[str, str]:
    """What the unit is."""
    with open(os.path.join(ROOT, "told"), encoding="utf-8") as file:
        pairs = [line.rstrip("\n").partition("=") for line in file]
    return {"Id": NAME, "LoadState": "loaded", "ActiveState": "inactive",
            **{key: value for key, _, value in pairs if key}}


def command() -> str:
    """Its command, of the last file that has one."""
    values = unit_files.named(NAME, ROOT).values("ExecStart")
    return values[-1] if values else ""


def show(keys: str) -> None:
    """Writes what is asked for."""
    known = told()
    if os.path.exists(os.path.join(ROOT, "started")):
        known["ActiveState"] = known.get("NowState", "inactive")
    words = shlex.split(command())
    shown = f"{{ path={words[0].lstrip('@-:+!')} ; argv[]={' '.join(words)} ; ignore_errors=no }}" if words else ""
    known["ExecStart"] = shown
    for key in keys.split(","):
        print(f"{key}={known.get(key, '')}")


def start() -> None:
    """Starts the command."""
    with open(os.path.join(ROOT, "started"), "w", encoding="ascii"):
        pass
    if told().get("Starts") == "no":
        return
    words = shlex.split(command())
    words[0] = words[0].lstrip("@-:+!")
    front = ["sh", "-c", f'sleep {told().get("Late", "0")}; exec "$@"', "sh"]
    running = subprocess.Popen([*front, *words], cwd=ROOT, stdin=subprocess.DEVNULL,
                               stdout=subprocess.DEVNULL, stderr=subprocess.DEVNULL, start_new_session=True)
    with open(os.path.join(ROOT, f"pid-{running.pid}"), "w", encoding="ascii"):
        pass


def main() -> None:
    """One call."""
    words = sys.argv[1:]
    with open(os.path.join(ROOT, "asked"), "a", encoding="utf-8") as file:
        file.write(" ".join(words) + "\n")
    if words[0] == "show":
        show(next(word for word in words if word.startswith("--property=")).removeprefix("--property="))
    elif words[0] == "start":
        start()


if __name__ == "__main__":
    main()
