"""The kit's command rt, as `make` calls it: its output is passed on as it comes, and kept."""
import os
import re
import subprocess
import sys
from collections.abc import Callable, Sequence
from typing import IO, NamedTuple

IDENTITY = re.compile(r"^.* logic ([0-9a-f]{16})$", re.MULTILINE)
# The last lines of a run that proved its program: the verdict, and next that the program was linked.
PROVED = re.compile(r"^(logic=proved (?:.* )?sum=([0-9a-f]{16})(?: .*)?)\nlinked target=.*$", re.MULTILINE)
UNCHANGED = re.compile(r"^rt: (nothing has changed since the last proved build)\b.*$", re.MULTILINE)
TRIED = re.compile(r"^(run=ended status=0 .*proved=no)\n\Z", re.MULTILINE)
INTERRUPTED = 130


class Failed(Exception):
    """It can't be made, for this reason."""


class Kit(NamedTuple):
    """What `rt version` tells: its line, and the sum of the kit's logic in it."""

    line: str
    logic: str


def identity() -> Kit:
    """What the kit tells of itself. Fails where it tells no sum of the logic."""
    try:
        done = subprocess.run(["rt", "version"], stdin=subprocess.DEVNULL, capture_output=True, text=True,
                              check=False)
    except OSError as error:
        raise Failed(f"rt, the command of the kit, can't be started: {error.strerror}") from error
    found = IDENTITY.search(done.stdout)
    if done.returncode or found is None:
        raise Failed("rt version tells no sum of the logic")
    return Kit(found[0], found[1])


def logic() -> str:
    """The sum of the kit's logic."""
    return identity().logic


def passed_on(stream: IO[str]) -> str:
    """A stream, which is written to standard error line by line; its text."""
    found = []
    for line in stream:
        sys.stderr.write(line)
        sys.stderr.flush()
        found.append(line)
    return "".join(found)


def started(words: Sequence[str], crate: str, output: IO[bytes] | None = None,
            room: str | None = None) -> subprocess.Popen[str]:
    """rt, started in a crate's folder, with what it tells on a pipe. `output` takes what the program writes; temporary
    folders are made in `room`."""
    environment = {**os.environ, "TMPDIR": room} if room else None
    try:
        return subprocess.Popen(["rt", *words], cwd=crate, env=environment, stdin=subprocess.DEVNULL, stdout=output,
                                stderr=subprocess.PIPE, text=True, errors="backslashreplace")
    except OSError as error:
        raise Failed(f"rt, the command of the kit, can't be started: {error.strerror}") from error


def library(crate: str, jobs: int, said: IO[bytes]) -> subprocess.Popen[bytes]:
    """rt, started to prove and build the library in a folder, by so many jobs; what it tells goes to a file."""
    try:
        return subprocess.Popen(["rt", "lib", "--jobs", str(jobs)], cwd=crate, stdin=subprocess.DEVNULL, stdout=said,
                                stderr=subprocess.STDOUT)
    except OSError as error:
        raise Failed(f"rt, the command of the kit, can't be started: {error.strerror}") from error


def run(words: Sequence[str], crate: str) -> tuple[str, int]:
    """Proves, builds and runs a crate's program, with these words; what rt told, and its status."""
    with started(["run", "--", *words], crate) as running:
        assert running.stderr is not None
        said = passed_on(running.stderr)
    return said, running.returncode


def carried_out(job: Callable[[], int]) -> int:
    """The status of a job of `make`; why it failed is told."""
    try:
        return job()
    except Failed as failed:
        print(failed, file=sys.stderr)
    except KeyboardInterrupt:
        return INTERRUPTED
    except OSError as error:
        print(f"{error.strerror}: {error.filename}", file=sys.stderr)
    return 1
