#!/usr/bin/env python3
"""Shows that passes of `closed` and of `check` allocate nothing.

  no_allocation.py [--judge PROGRAM] [PASSES] [WORLD]

The built program of crates/judge_bench, or PROGRAM, finds the least closed bounds of WORLD (that in its file stdin),
and then runs each of the two tests PASSES times (100). Its requests of the C library's allocator are counted
(refuse.c; needs cc) in a run with no passes. With the passes it must ask for as many; it must come to its end
where each request past that number is refused, and stop as out of memory where the last one is too.
"""
import argparse
import os
import subprocess
import sys
import tempfile
from typing import NamedTuple

import tools_path  # noqa: F401
from gate.allocations import asked_in, environment, shim_in

HERE = os.path.dirname(os.path.abspath(__file__))
CRATE = os.path.join(HERE, "..", "..", "crates", "judge_bench")
PROGRAM = os.path.join(CRATE, "out", "judge_bench")


class Answer(NamedTuple):
    """Of a run the status, the lines, and how many allocations were asked for."""
    status: int
    lines: list[str]
    asked: int


def run(shim: str, words: argparse.Namespace, passes: int, most: int | None = None) -> Answer:
    """A run with so many passes of each test, where all allocations past the most are refused. Ends the script where
    none were counted."""
    with open(words.world) as text:
        child = subprocess.run([words.judge, str(passes), str(passes)], stdin=text, capture_output=True,
                               env=environment(shim, MOST=most))
    asked = asked_in(child.stderr)
    if asked is None:
        sys.exit("no_allocation.py: nothing was counted: " + child.stderr.decode(errors="replace"))
    return Answer(child.returncode, child.stdout.decode().splitlines(), asked)


def is_whole(answer: Answer, passes: int) -> bool:
    """Whether a run came to its end, with so many passes."""
    return answer.status == 0 and len(answer.lines) == 3 and answer.lines[1] == f"closed {passes}"


def main() -> None:
    """Shows it of the world that the words name."""
    parser = argparse.ArgumentParser(usage="no_allocation.py [--judge PROGRAM] [PASSES] [WORLD]")
    parser.add_argument("--judge", default=PROGRAM)
    parser.add_argument("passes", nargs="?", type=int, default=100)
    parser.add_argument("world", nargs="?", default=os.path.join(CRATE, "stdin"))
    words = parser.parse_args()
    passes, words.judge = words.passes, os.path.abspath(words.judge)
    if not os.access(words.judge, os.X_OK):
        sys.exit("no_allocation.py: the program isn't built: `rt run < stdin` in crates/judge_bench builds it")
    with tempfile.TemporaryDirectory() as work:
        shim = shim_in(work)
        without, with_ = run(shim, words, 0), run(shim, words, passes)
        count = without.asked
        seen = {
            "with no passes the run comes to its end": is_whole(without, 0),
            f"with {passes} passes of each test it asks for as many": is_whole(with_, passes) and with_.asked == count,
            "it comes to its end where all later ones are refused": is_whole(run(shim, words, passes, count), passes),
            "it stops where the last one is refused too": run(shim, words, passes, count - 1).status != 0,
        }
    print(f"{count} allocations")
    for what, so in seen.items():
        print(f"  {'yes' if so else 'NO '} {what}")
    sys.exit(0 if all(seen.values()) else 1)


if __name__ == "__main__":
    main()
