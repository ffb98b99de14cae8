#!/usr/bin/env python3
"""Stands for an audit, to try the witnesses: `stand_in.py KIND audit WORLD LOG PID RIGHT`, or one of the other commands
of `credaudit`.

  always_yes   says yes to all, with bounds of no space, and that they hold
  idle_no      says no to all, with an empty run, and confirms it, and nobody holds anything by it: its replay shows a
               process of no right
  unsound      says yes to all, and that its bounds don't hold
  unconfirmed  says no to all, and confirms its empty run with another holder
  search EXE   says no where the plain search (EXE, a built plain_search) reaches the right, by its run, and yes else
"""
import subprocess
import sys

BOUNDS = '{"format":1,"rows":[]}'
NOBODY = "uid=9,9,9,9 gid=9,9,9,9 groups=- inh={0} prm={0} eff={0} bnd={0} amb={0} sec=00 nnp=1".format("0" * 16)


def searched(program: str, world: str, log: str, pid: str, right: str) -> tuple[int, list[str]]:
    """The status and the lines of an audit, as the plain search finds them."""
    query = f"{world} {log} {pid} {right} 1\n"
    told = subprocess.run([program], input=query, capture_output=True, text=True, check=True).stdout.rstrip("\n")
    head, *run = told.split("\t")
    found, *_, holder = head.split()
    return (1, [f"no {len(run)}", *run, f"holder {holder}"]) if found == "reached" else (0, ["yes", BOUNDS])


def judged(kind: str, command: str, verdict: list[str]) -> tuple[int, list[str]]:
    """The status and the line of a check or a confirmation of such a verdict."""
    if command == "check":
        return (11, ["refused meets init"]) if kind == "unsound" else (0, ["holds"])
    holder = "101" if kind == "unconfirmed" else verdict[-1].removeprefix("holder ")
    return 0, [f"confirmed {holder}"]


def answer(kind: str, words: list[str]) -> tuple[int, list[str]]:
    """The status and the lines of an answer."""
    if kind == "search":
        program, *words = words
        status, verdict = searched(program, *words[1:5])
    elif words[0] == "replay":
        return 0, [f"> 100 s9 {NOBODY}"]
    else:
        status, verdict = (0, ["yes", BOUNDS]) if kind in ("always_yes", "unsound") else (1, ["no 0", "holder 100"])
    return (status, ["end 0", *verdict]) if words[0] == "audit" else judged(kind, words[0], verdict)


def main() -> None:
    """Answers as the words ask."""
    status, lines = answer(sys.argv[1], sys.argv[2:])
    print("\n".join(lines))
    sys.exit(status)


if __name__ == "__main__":
    main()
