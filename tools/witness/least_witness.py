#!/usr/bin/env python3
"""Both ways to find the least bounds on drawn worlds: by changed rows and by rounds.

  least_witness.py [--count N] [--seed N] [PROGRAM]

PROGRAM is that of crates/bounds_cases; left out, the one that was built in this repository (`rt run < stdin` in its
folder). It works the least bounds out both ways at each line `close`, and answers `bad` where they differ. Here it is
given N worlds (2,000), drawn as bounds_witness.py draws them, each with the bounds at its start of the family that is
asked for, and of all processes. (That the least bounds are those of plain Python is tried by bounds_witness.py.) Ends
with status 1 where an answer is `bad`, where one is missing, and where fewer than one in ten have more than the start
bounds.
"""
import argparse
import subprocess
import sys
from pathlib import Path

import tools_path  # noqa: F401
from witness import worlds
from witness.bounds_witness import query_of

BUILT = Path(__file__).resolve().parents[2] / "crates" / "bounds_cases" / "out" / "bounds_cases"


def case_of(seed: int, number: int) -> str:
    """The lines of one world."""
    query = query_of(seed, number)
    pids = " ".join(str(process.pid) for process in query.world.processes)
    family = " ".join(str(process.pid) for process in worlds.family(query.world, query.pid))
    text = worlds.text(query.world)
    return f"world\n{text}end\ncase number_{number}\nstart {family}\nclose\nstart {pids}\nclose\n"


def wrong(answers: list[str], count: int) -> list[str]:
    """What is wrong with the answers."""
    closed = [line for line in answers if line.startswith("close = ")]
    names = [line for line in answers if line.startswith("case ")]
    bad = [line for line in answers if line.endswith(" = bad")]
    grown = sum(line != "close = nothing" for line in closed)
    return [*bad, *([f"{len(names)} of {count} cases"] if len(names) != count else []),
            *([f"{len(closed)} answers to close"] if len(closed) < 2 * count else []),
            *([f"{grown} of them have more than the start"] if 10 * grown < len(closed) else [])]


def main() -> None:
    """Tries the worlds that the words ask for."""
    ask = argparse.ArgumentParser(usage="least_witness.py [--count N] [--seed N] [PROGRAM]")
    ask.add_argument("--count", type=int, default=2000)
    ask.add_argument("--seed", type=int, default=1)
    ask.add_argument("program", nargs="?", default=str(BUILT))
    told = ask.parse_args()
    lines = "".join(case_of(told.seed, number) for number in range(told.count))
    ended = subprocess.run([told.program], input=lines, capture_output=True, text=True)
    if ended.returncode != 0:
        sys.exit(f"least_witness.py: status {ended.returncode}: {ended.stderr}")
    faults = wrong(ended.stdout.splitlines(), told.count)
    print(f"{told.count} worlds, {2 * told.count} least bounds, found both ways: {len(faults)} wrong")
    sys.exit("\n".join(faults[:20]) if faults else 0)


if __name__ == "__main__":
    main()
