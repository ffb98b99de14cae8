#!/usr/bin/env python3
"""Stands for credaudit in tests: answers each call with what the program answered when the call was stored.

A call is known by its words and by what the files hold that they name. Where the variable CREDAUDIT_STORE names the
program, it is called, and its answer is stored; without it a call that isn't stored ends with status 99.
"""
import hashlib
import json
import lzma
import os
import subprocess
import sys

# A link may name this program: its folder is found all the same.
REPORTS = os.path.join(os.path.dirname(os.path.realpath(__file__)), "data", "reports")
UNKNOWN, USAGE = 99, 6


def part(word: str) -> str:
    """A word as the store knows it: of a file what it holds."""
    if os.path.isfile(word) and os.access(word, os.R_OK):
        with open(word, "rb") as file:
            return "file " + hashlib.sha256(file.read()).hexdigest()
    return "no file" if "/" in word else word


def stored(words: list[str]) -> str:
    """Where the answer to a call is kept."""
    key = hashlib.sha256(json.dumps([part(word) for word in words]).encode()).hexdigest()
    return os.path.join(REPORTS, key[:20] + ".xz")


def called(program: str, words: list[str]) -> tuple[int, bytes]:
    """What the program answers now."""
    done = subprocess.run([program, *words], stdin=subprocess.DEVNULL, stdout=subprocess.PIPE, check=False)
    return done.returncode, done.stdout


def answer(words: list[str]) -> tuple[int, bytes]:
    """The status and the report of a call. Where the program is named it is asked too, and must answer the same. Words
    that aren't UTF-8 get the usage, of which no report is kept."""
    if any("\udc80" <= letter <= "\udcff" for word in words for letter in word):
        return USAGE, b""
    path, program = stored(words), os.environ.get("CREDAUDIT_STORE")
    if not os.path.exists(path):
        if program is None:
            print("the answer to this call isn't stored: " + " ".join(words), file=sys.stderr)
            return UNKNOWN, b""
        status, text = called(program, words)
        os.makedirs(REPORTS, exist_ok=True)
        with lzma.open(path, "wb", preset=9) as file:
            file.write(b"%d\n" % status + text)
        return status, text
    with lzma.open(path, "rb") as file:
        first, _, text = file.read().partition(b"\n")
    if program is not None and called(program, words) != (int(first), text):
        print("the program answers otherwise than what is stored: " + " ".join(words), file=sys.stderr)
        return UNKNOWN, b""
    return int(first), text


def main() -> None:
    status, text = answer(sys.argv[1:])
    sys.stdout.buffer.write(text)
    sys.exit(status)


if __name__ == "__main__":
    main()
