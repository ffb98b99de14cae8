#!/usr/bin/env python3
"""Measures `least` of cm_maker (docs/VERDICT.md), which finds the least bounds by changed rows, beside the body by
rounds and a plain program. Needs rustc and Linux.

  least.py [--runs N] [--judge PROGRAM]

PROGRAM is that of crates/judge_bench; left out, the one that was built in this repository. What counts is processor
time from when the world is read until the bounds are found, the least of N runs (5), the programs taking turns. The
two bodies must print the same sums of the bounds. Ends with status 1 past a bar:

  bounds   256 members in 256 spaces with 4,096 files: at most 0.4 of plain_least.rs, which makes a world of its own of
           that size, and no longer than by rounds
  chain    a chain of 64 links of programs, 16 spaces (`links` of audits.py): at most half of by rounds
  hostile  2,048 links in 256 spaces, all that 4,096 files can be, the files in the chain's order, in the reversed one
           and in three drawn ones: at most 10 s each
"""
import argparse
import os
import subprocess
import sys
import tempfile

from audits import links
from passes import JUDGE, used
from worlds import bounds_of_all

HERE = os.path.dirname(os.path.abspath(__file__))
MOST_OF_PLAIN, MOST_OF_ROUNDS, MOST_OF_ROUNDS_ON_CHAIN, MOST_SECONDS = 0.4, 1.0, 0.5, 10.0
MORE, LIMIT = 9, ("256", "256", "4096")
DRAWS = 3


def found(judge: str, word: str, more: int, world: str) -> tuple[str, float]:
    """The line on the least bounds, and the seconds of a processor in which they were found so many times more than
    once, for each time."""
    with open(world) as text:
        child = subprocess.Popen([judge, word, str(more)], stdin=text, stdout=subprocess.PIPE, text=True)
    assert child.stdout is not None
    read = child.stdout.readline()
    begin = used(child)
    line = child.stdout.readline()
    seconds = used(child) - begin
    if child.wait() != 0 or read != "world\n" or not line.startswith("least "):
        sys.exit(f"least.py: status {child.returncode} of {judge} {word}, after {read!r} and {line!r}")
    return line, seconds / (1 + more)


def both(judge: str, more: int, world: str, runs: int) -> tuple[float, float]:
    """The least seconds by changed rows and by rounds. Ends the measuring where they find other bounds."""
    told, seconds = set[str](), {"least": list[float](), "rounds": list[float]()}
    for _ in range(runs):
        for word, every in seconds.items():
            line, one = found(judge, word, more, world)
            told.add(line)
            every.append(one)
    if len(told) != 1:
        sys.exit(f"least.py: the bounds of {world} differ: {told}")
    return min(seconds["least"]), min(seconds["rounds"])


def plain(work: str, runs: int) -> float:
    """The least seconds of the plain program, which prints them."""
    program = os.path.join(work, "plain_least")
    subprocess.run(["rustc", "-O", "-C", "target-cpu=native", os.path.join(HERE, "plain_least.rs"), "-o", program],
                   check=True)
    lines = [subprocess.run([program, *LIMIT], check=True, capture_output=True, text=True).stdout for _ in range(runs)]
    return min(float(line.split()[-2]) for line in lines) / 1000


def shown(name: str, measured: float, most: float) -> bool:
    """Whether it is within the bar; it is shown."""
    print(f"{name:56}{measured:9.3f}" + ("" if measured <= most else f", past {most:g}"))
    return measured <= most


def write(name: str, text: str) -> str:
    """Writes a file, and gives its name."""
    with open(name, "w") as file:
        file.write(text)
    return name


def measure(judge: str, runs: int, work: str) -> bool:
    """Whether all is within its bar."""
    rows, rounds = both(judge, MORE, write(os.path.join(work, "bounds.toml"), bounds_of_all()), runs)
    beside = plain(work, runs)
    print(f"bounds: {1000 * rows:.2f} ms, by rounds {1000 * rounds:.2f} ms, plain {1000 * beside:.2f} ms")
    good = [shown("bounds, of plain", rows / beside, MOST_OF_PLAIN),
            shown("bounds, of by rounds", rows / rounds, MOST_OF_ROUNDS)]
    rows, rounds = both(judge, MORE, write(os.path.join(work, "chain.toml"), links(64, 16).text), runs)
    print(f"chain: {1000 * rows:.2f} ms, by rounds {1000 * rounds:.2f} ms")
    good.append(shown("chain of 64 links in 16 spaces, of by rounds", rows / rounds, MOST_OF_ROUNDS_ON_CHAIN))
    orders: dict[str, int | str | None] = {"in order": None, "reversed": "reversed"}
    orders |= {f"shuffled, draw {n}": n for n in range(DRAWS)}
    for name, order in orders.items():
        world = write(os.path.join(work, "hostile.toml"), links(2048, 256, order).text)
        seconds = min(found(judge, "least", 0, world)[1] for _ in range(min(runs, 2)))
        good.append(shown(f"2,048 links in 256 spaces, files {name}, seconds", seconds, MOST_SECONDS))
    return all(good)


def main() -> None:
    """Measures, in a new folder."""
    ask = argparse.ArgumentParser(usage="least.py [--runs N] [--judge PROGRAM]")
    ask.add_argument("--runs", type=int, default=5)
    ask.add_argument("--judge", default=JUDGE)
    asked = ask.parse_args()
    if not os.access(asked.judge, os.X_OK):
        sys.exit(f"least.py: {asked.judge} isn't there: build it first, by `rt run < stdin` in its crate's folder")
    with tempfile.TemporaryDirectory() as work:
        if not measure(asked.judge, asked.runs, work):
            sys.exit("least.py: past a bar")


if __name__ == "__main__":
    main()
