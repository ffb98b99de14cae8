"""The allocations of a program, counted and refused by refuse.c, which is preloaded. For refusals.py and
no_allocation.py; needs cc.
"""
import os
import re
import subprocess

HERE = os.path.dirname(os.path.abspath(__file__))


def shim_in(work: str) -> str:
    """The library that is to be preloaded, compiled into that folder."""
    shim = os.path.join(work, "refuse.so")
    subprocess.run(["cc", "-O2", "-shared", "-fPIC", os.path.join(HERE, "refuse.c"), "-o", shim], check=True)
    return shim


def environment(shim: str, **words: int | None) -> dict[str, str]:
    """The variables of a run with that library: ONE is the number of the allocation that is refused, MOST that of the
    last one that isn't; None of either refuses nothing."""
    refused = {name: str(number) for name, number in words.items() if number is not None}
    return {**os.environ, "LD_PRELOAD": shim, **refused}


def asked_in(errors: bytes) -> int | None:
    """How many allocations a run asked for, as the library told on standard error; None where it told nothing."""
    told = re.search(rb"^asked (\d+)$", errors, re.MULTILINE)
    return int(told.group(1)) if told else None
