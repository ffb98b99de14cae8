#!/usr/bin/env python3
"""Captures a family that forks and drops all the time, and looks whether each captured one was there at some instant.

  try_capture.py [--times N] [--pause MICROSECONDS] [--freeze | --once]     to be run as root; needs cc

moving/moving.c says what is true of the family at each instant. A capture may fail, since the family doesn't hold
still; one that succeeds must show what is true. Status 0: none showed anything else; with --freeze all have to succeed.
--once takes a single reading, whatever moved meanwhile: so families are seen that never were.
"""
import argparse
import os
import subprocess
import sys
import tempfile
import time

import tools_path  # noqa: F401
from credaudit_tools.capture import family
from credaudit_tools.capture.capture import Wishes, captured
from credaudit_tools.capture.freezer import frozen
from credaudit_tools.command_line.command import Failure
from credaudit_tools.formats import worlds
from credaudit_tools.system.running_kernel import Live

HERE = os.path.dirname(os.path.abspath(__file__))


def wrong(world: worlds.World) -> str | None:
    """What of a captured family can't have been, None where all can."""
    top, *rest = world.processes
    dropped = [row for row in rest if row.credential.uid == (0, 1000, 0, 1000)]
    children = [row for row in rest if row.credential.uid[0] >= 2000]
    newborn = [row for row in rest if row not in dropped and row not in children and row.credential.uid[0] == 0]
    if len(dropped) > 1:
        return "both partners have the effective user id 1000"
    if any(len(set(row.credential.uid)) != 1 for row in children):
        return "a child has different user ids"
    if any(row.credential.gid != row.credential.uid for row in children):
        return "a child has another group id"
    if len(children) + len(dropped) + len(newborn) > 4:
        return f"{len(rest)} processes live below {top.pid}"
    numbers = [row.credential.uid[0] for row in sorted(children, key=lambda row: row.pid)]
    if len(numbers) == 2 and numbers[1] - numbers[0] not in (1, 2000 - 60000):
        return f"children {numbers} live together"
    return None


def attempt(pid: int, freeze: bool, once: bool) -> str:
    """One capture: `held`, `moved` or what is wrong with it."""
    live = Live()
    try:
        if once:
            seen = family.reading(live, pid)
            read = family.Family(pid, {tid: one.thread for tid, one in seen.items() if not one.thread.dead()}, 1)
        elif freeze:
            with frozen(live.proc, live.reader, pid, lambda: family.processes(live, pid)):
                read = family.settled(live, pid, False, 2.0)
        else:
            read = family.settled(live, pid, False, 0.3)
        made = captured(live, read, Wishes(files=False, own_spaces=True), lambda _: None)
        return wrong(made.world) or "held"
    except family.Moved:
        return "moved"
    except Failure as failure:
        if "never held still" not in str(failure):
            raise
        return "moved"
    finally:
        live.close()


def group_of_its_own(pid: int) -> str | None:
    """A control group of version 1 or 2 for the family."""
    for top in ("/sys/fs/cgroup/freezer", "/sys/fs/cgroup", "/sys/fs/cgroup/unified"):
        path = os.path.join(top, f"credaudit-{pid}")
        if not os.path.exists(os.path.join(top, "cgroup.procs")):
            continue
        os.mkdir(path)
        with open(os.path.join(path, "cgroup.procs"), "w", encoding="ascii") as file:
            file.write(str(pid))
        return path
    return None


def remove(group: str) -> None:
    """Takes a control group away, once the last process has left it."""
    for _ in range(300):
        try:
            os.rmdir(group)
            return
        except OSError:
            time.sleep(0.1)
    print(f"{group} is left", file=sys.stderr)


def main() -> int:
    ask = argparse.ArgumentParser()
    ask.add_argument("--times", type=int, default=200)
    ask.add_argument("--pause", default="20000")
    ask.add_argument("--freeze", action="store_true")
    ask.add_argument("--once", action="store_true")
    asked = ask.parse_args()
    with tempfile.TemporaryDirectory() as work:
        program = os.path.join(work, "moving")
        subprocess.run(["cc", "-O2", "-o", program, os.path.join(HERE, "moving", "moving.c")], check=True)
        # It waits for a line, so that it can be put into a group before it forks.
        words = ["sh", "-c", 'read line; exec "$0" "$1"', program, asked.pause]
        moving = subprocess.Popen(words, stdin=subprocess.PIPE, start_new_session=True)
        group = group_of_its_own(moving.pid) if asked.freeze else None
        assert moving.stdin is not None
        moving.stdin.write(b"\n")
        moving.stdin.flush()
        try:
            found: dict[str, int] = {}
            for _ in range(asked.times):
                told = attempt(moving.pid, asked.freeze, asked.once)
                found[told] = found.get(told, 0) + 1
        finally:
            moving.stdin.close()
            moving.wait()
            if group:
                remove(group)
    print(", ".join(f"{told}: {count}" for told, count in sorted(found.items())))
    return 0 if found.keys() <= {"held", "moved"} and not (asked.freeze and "moved" in found) else 1


if __name__ == "__main__":
    sys.exit(main())
