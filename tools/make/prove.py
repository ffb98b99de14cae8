#!/usr/bin/env python3
"""Proves, builds and stamps the program: `make` calls it.

  prove.py [--top FOLDER] [--jobs N] [WORD ..]

The kit proves and builds the libraries below crates/credaudit, side by side where none stands on the other, at most N
at once (else as many as there are processors). Then it proves and builds crates/credaudit itself over these, and runs
it with these words (`rt run`); a library that isn't of the text that stands there now it proves again. What all this
took is told, in minutes by the clock and of processor. Then the program's stamp is written beside it,
out/credaudit.build (docs/STAMPS.md), with `proved: yes`: the kit said logic=proved before it linked the
program, or that nothing has changed since. Where it says neither, or sources are changed meanwhile, no stamp is left
and the status is 1; so it is where a library isn't proved, which is named. Else the status is that of rt. FOLDER is
the repository, if it isn't this one.
"""
import argparse
import os
import resource
import signal
import sys
import time
from collections.abc import Sequence

import tools_path
from credaudit_tools.provenance import trees
from make import kit, libraries, machine, stamps
from make.kit import Failed


def verdict(said: str, logic: str, known: str) -> str:
    """The line by which the kit says that the program is proved; `known` is that of the stamp before, which still
    stands where nothing has changed. Fails where the kit says no such thing."""
    found = kit.PROVED.findall(said)
    if found:
        line, sum_of_logic = found[-1]
        if sum_of_logic != logic:
            raise Failed(f"rt proved by the logic {sum_of_logic}, but rt version tells {logic}")
        return str(line)
    same = kit.UNCHANGED.search(said)
    if same is None:
        raise Failed("rt doesn't say that the program is proved, so it gets no stamp")
    return known or same[1]


def took(begun: float, lanes: int) -> str:
    """What was taken since then, with all processes that were started."""
    used = resource.getrusage(resource.RUSAGE_CHILDREN)
    own = resource.getrusage(resource.RUSAGE_SELF)
    processor = used.ru_utime + used.ru_stime + own.ru_utime + own.ru_stime
    return (f"took {(time.monotonic() - begun) / 60:.1f} minutes by the clock and {processor / 60:.1f} of processor, "
            f"on {machine.processors()} processors, at most {lanes} libraries at once")


def proved(top: str, words: Sequence[str], lanes: int) -> int:
    """Makes and stamps the program of a repository; the status."""
    crate, begun = os.path.join(top, "crates", "credaudit"), time.monotonic()
    program = os.path.join(crate, "out", "credaudit")
    (version, logic), tree, before = kit.identity(), trees.of(top), stamps.earlier(program)
    stamps.removed(stamps.of(program))
    libraries.prove_below(top, "credaudit", lanes, version)
    said, status = kit.run(words, crate)
    print(took(begun, lanes), file=sys.stderr)
    if status:
        return status
    line = verdict(said, logic, before.said if before and before.proved and before.logic == logic else "")
    stamps.write(program, stamps.same_tree(top, tree), logic, True, line)
    return 0


def main() -> int:
    """The words of the script."""
    ask = argparse.ArgumentParser(description="Proves, builds and stamps the program.")
    ask.add_argument("--top", default=tools_path.TOP, metavar="FOLDER", help="the repository, if it isn't this one")
    ask.add_argument("--jobs", type=int, default=machine.processors(), metavar="N", help="how many libraries at once")
    ask.add_argument("words", nargs="*", metavar="WORD", help="words of the program, which is run at the end")
    asked = ask.parse_args()
    if asked.jobs < 1:
        ask.error("--jobs takes a number above 0")
    signal.signal(signal.SIGTERM, signal.default_int_handler)       # so that what it started is ended too
    return kit.carried_out(lambda: proved(asked.top, asked.words, asked.jobs))


if __name__ == "__main__":
    sys.exit(main())
