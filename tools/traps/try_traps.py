#!/usr/bin/env python3
"""Runs programs that were recorded or judged wrongly, and looks whether the commands tell each of them.

  try_traps.py [--jobs N] [--slow N] [--keep FOLDER] [NAME ..]    as root; needs cc, strace, unshare and credaudit
  try_traps.py --list | --page

Each case (tools/traps) runs twice, in namespaces of its own: alone, where the kernel's own answer must show that its
danger really happens, and under credaudit-trace with a scan of all files, whose summary must tell it. NAME is
PROGRAM/CASE, or PROGRAM for all of its cases. --slow gives each N times its time, on a machine with much other work: a
recording of two seconds may end there before its program has begun. --keep leaves recordings and what was said in
FOLDER. --page writes docs/TESTING-traps.md. Status 0: each danger happens, and each is told; 1: some
isn't; 2: it can't be tried.
"""
import argparse
import json
import os
import shutil
import subprocess
import sys
import tempfile
from concurrent.futures import ThreadPoolExecutor

import tools_path  # noqa: F401
from traps import inside, table
from traps.judging import Seen, faults, words
from traps.row import Trap, slowed

SOURCES = os.path.dirname(os.path.abspath(__file__))
ALONE = ["unshare", "--mount", "--pid", "--fork", "--kill-child", "--mount-proc"]
PATIENCE = 300.0


def compiled(folder: str) -> None:
    """Compiles all programs, static, so that they run in whatever root directory."""
    os.mkdir(folder)
    jobs = [subprocess.Popen(["cc", "-static", "-O1", "-Wall", "-Wextra", "-o", os.path.join(folder, name[:-2]),
                              os.path.join(SOURCES, name), "-lpthread"])
            for name in sorted(os.listdir(SOURCES)) if name.endswith(".c")]
    if any([job.wait() for job in jobs]):
        sys.exit("try_traps.py: a program can't be compiled")


def without_set_ids() -> None:
    """Takes set-id bits their effect on all mounts of this mount namespace, so that a scan has what a case makes."""
    with open("/proc/self/mountinfo", encoding="utf-8") as file:
        places = [line.split(" ")[4].encode().decode("unicode_escape") for line in file]
    for place in places:
        subprocess.run(["mount", "-o", "remount,bind,nosuid", place], stderr=subprocess.DEVNULL, check=False)


def seen_of(trap: Trap, folder: str, slow: float) -> Seen:
    """Both runs of a case."""
    found, patience = [], slow * PATIENCE
    for phase in ("show", "record"):
        path = os.path.join(folder, "kept", trap.name.replace("/", "-"), f"{phase}.seen")
        asked = [*ALONE, sys.executable, __file__, "--inside", phase, "--folder", folder, "--slow", str(slow),
                 trap.name]
        try:
            done = subprocess.run(asked, stdin=subprocess.DEVNULL, capture_output=True, text=True, timeout=patience,
                                  check=False)
        except subprocess.TimeoutExpired:
            return Seen(shown=f"it takes more than {patience:g} s", ended=True)
        if done.returncode or not os.path.exists(path):
            return Seen(shown=f"it can't be run: {done.stderr.strip()[-200:]}", ended=True)
        with open(path, encoding="utf-8") as file:
            found.append(Seen(**json.load(file)))
    found[1].danger, found[1].shown = found[0].danger, found[0].shown
    return found[1]


def tried(traps: list[Trap], folder: str, jobs: int, slow: float) -> int:
    """Runs cases, and writes the table of what was seen."""
    os.mkdir(os.path.join(folder, "room"))
    os.makedirs(os.path.join(folder, "kept"), exist_ok=True)
    compiled(os.path.join(folder, "programs"))
    without_set_ids()
    bad = 0
    with ThreadPoolExecutor(jobs) as pool:
        for trap, seen in zip(traps, pool.map(lambda each: seen_of(each, folder, slow), traps)):
            wrong = faults(trap, seen)
            bad += bool(wrong)
            print(f"{'WRONG' if wrong else 'told':5} | {trap.name:22} | {'; '.join(wrong) or ', '.join(trap.told)}"
                  f" | {words(seen)} | {seen.shown}", flush=True)
    print(f"{len(traps)} cases, {bad} wrong")
    return 1 if bad else 0


def chosen(names: list[str], slow: float) -> list[Trap]:
    """The cases that are named; all where none is."""
    found = [slowed(each, slow) for each in table.TRAPS if not names or each.name in names or each.program in names]
    unknown = [name for name in names if not any(name in (each.name, each.program) for each in found)]
    if unknown:
        sys.exit(f"try_traps.py: there is no case {unknown[0]}")
    return found


def main() -> int:
    ask = argparse.ArgumentParser()
    ask.add_argument("--jobs", type=int, default=3)
    ask.add_argument("--slow", type=float, default=1.0)
    ask.add_argument("--keep")
    ask.add_argument("--list", action="store_true")
    ask.add_argument("--page", action="store_true")
    ask.add_argument("--inside", choices=("show", "record"), help=argparse.SUPPRESS)
    ask.add_argument("--folder", help=argparse.SUPPRESS)
    ask.add_argument("names", nargs="*", metavar="NAME")
    asked = ask.parse_args()
    traps = chosen(asked.names, asked.slow)
    if asked.list or asked.page:
        print(table.document().rstrip("\n") if asked.page else "\n".join(each.name for each in traps))
        return 0
    if os.geteuid() != 0:
        sys.exit("try_traps.py: it is to be run as root")
    if asked.inside:
        inside.run(traps[0], asked.inside, asked.folder)
        return 0
    if not asked.folder:        # once more, in a mount namespace of its own
        with tempfile.TemporaryDirectory(prefix="credaudit-traps-") as folder:
            os.chmod(folder, 0o755)
            again = ["unshare", "--mount", "--propagation", "private", sys.executable, __file__, "--folder", folder,
                     "--jobs", str(asked.jobs), "--slow", str(asked.slow), *asked.names]
            status = subprocess.run(again, check=False).returncode
            if asked.keep:
                shutil.copytree(os.path.join(folder, "kept"), asked.keep, symlinks=True, dirs_exist_ok=True)
            return status
    return tried(traps, asked.folder, asked.jobs, asked.slow)


if __name__ == "__main__":
    sys.exit(main())
