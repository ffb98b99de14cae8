#!/usr/bin/env python3
"""Records daemons of Debian's packages, verifies each recording, and judges it.

  try_daemons.py [--jobs N] [--for SECONDS] [--keep DIR] [--judge HOW] [--install] [PACKAGE ..]

PACKAGE is one of data/daemons.txt; all that are installed where none is named. Each daemon runs in a network of its
own, with nothing but a loopback, and in a folder of its own; it is recorded by credaudit-trace for 6 seconds, or as
`--for` says, and then ended by SIGTERM. A recording that is whole is judged: by credaudit-summary, without a scan of
files, or, with HOW `root`, by the program alone, which is asked whether a process at the end can never get root's user
id or CAP_SYS_ADMIN; with HOW `no` it isn't. `--install` only prints the command that installs the packages without
starting one. To be run as root; needs strace, iproute2 and the program (CREDAUDIT). A daemon takes a minute at most,
beside other work more.

One line for each: what became of it, with the last words where something is wrong. Status 0: each is whole, or differs
by what a row of docs/KERNEL.md names; 1: one isn't; 2: nothing could be tried.

| Word | Means |
|---|---|
| whole | recorded, and the replay agrees with what the kernel showed |
| in doubt | the same, and a premise isn't established: the doubt is told |
| named | the replay differs by what docs/KERNEL.md has |
| stopped | the recording ended before its time, since it couldn't be told truly |
| differs | the replay differs |
| refused | the program refuses the world or the log |
| traceback | a tool failed |
| not begun | the daemon ended with an error of its own, and was recorded to that end |
| late | it didn't end in time |
| not judged | the program, or credaudit-summary, gave no answer |
"""
import argparse
import os
import re
import shlex
import shutil
import subprocess
import sys
import tempfile
import time
from collections import Counter
from concurrent.futures import ThreadPoolExecutor
from dataclasses import dataclass

import tools_path
from credaudit_tools.replay import recording
from credaudit_tools.replay.program import Program
from kernel.recordings import give_up

TABLE = os.path.join(tools_path.TOOLS, "commands", "tests", "data", "daemons.txt")
PATIENCE = 600.0
GOOD = ("whole", "in doubt", "named")
RIGHTS, ANSWERS = ("uid:0", "cap:CAP_SYS_ADMIN@init"), {0: "yes", 1: "no", 2: "undecided"}
RECORDING = ".recording"
ALONE = ("unshare", "--net", "--", "sh", "-c", 'ip link set lo up; exec "$@"', "sh")


@dataclass(frozen=True)
class Row:
    """A daemon: its package, its command, and what is done before it."""
    package: str
    command: str
    before: str


def table() -> list[Row]:
    """The daemons."""
    with open(TABLE, encoding="ascii") as file:
        lines = [line.rstrip("\n") for line in file if line.strip() and not line.startswith("#")]
    found = []
    for line in lines:
        package, _, rest = line.partition(": ")
        command, _, before = rest.partition(" # ")
        found.append(Row(package, command, before))
    return found


def placed(text: str, folder: str) -> str:
    """A text with the daemon's own folder."""
    return re.sub(r"(?<![-\w])W\b", folder, text)


def asked(words: list[str], seconds: float) -> tuple[int | None, str]:
    """The status of a command, None where it doesn't end in time, and all that it wrote."""
    with subprocess.Popen(words, stdin=subprocess.DEVNULL, stdout=subprocess.PIPE, stderr=subprocess.STDOUT,
                          start_new_session=True) as running:
        try:
            said, _ = running.communicate(timeout=seconds)
        except subprocess.TimeoutExpired:
            running.terminate()
            said, _ = running.communicate()
            return None, said.decode("utf-8", "replace")
    return running.returncode, said.decode("utf-8", "replace")


def recorded(row: Row, folder: str, seconds: str) -> tuple[str, str]:
    """Records and verifies a daemon; a word, and what was said."""
    os.chmod(folder, 0o755)
    if row.before:
        subprocess.call(["sh", "-c", placed(row.before, folder)], stdin=subprocess.DEVNULL,
                        stdout=subprocess.DEVNULL, stderr=subprocess.DEVNULL)
    words = [*ALONE, os.path.join(tools_path.TOOLS, "credaudit-trace"), "-o", folder + RECORDING, "--for", seconds,
             "--", *shlex.split(placed(row.command, folder))]
    status, said = asked(words, PATIENCE)
    return word_of(status, said), said


def word_of(status: int | None, said: str) -> str:
    """What became of a recording, by its status and what was said (the table above)."""
    if "Traceback (most recent call last)" in said:
        return "traceback"
    if status is None:
        return "late"
    if status == 4:
        return "refused"
    if "(stopped)" in said or status not in (0, 1):
        return "stopped"
    if re.search(r"\(program\)$", said, re.MULTILINE) and re.search(" 0 processes at the end", said):
        return "not begun"
    if re.search(r": [0-9]+ differences?\b|differs", said):
        return "named" if "docs/KERNEL.md" in said else "differs"
    return "in doubt" if status == 1 else "whole"


def judged(recording_of: str) -> tuple[bool, str]:
    """Whether credaudit-summary judges a recording, and its last line with a verdict, or all where it fails."""
    status, said = asked([os.path.join(tools_path.TOOLS, "credaudit-summary"), recording_of], PATIENCE)
    good = status in (0, 1) and "Traceback" not in said
    counts = re.findall(r"^process [0-9]+: (?:of|all|its) .*", said, re.MULTILINE)
    return good, counts[-1] if good and counts else said.strip().replace("\n", " | ")


def judged_alone(recording_of: str) -> tuple[bool, str]:
    """Whether the program judges the last process of a recording, and its answers. One in which none lives is judged by
    the replay, which was verified."""
    kept, program = recording.read(recording_of), Program()
    if not kept.statuses:
        return True, "no process lives"
    pid = str(kept.statuses[-1].pid)
    files = [os.path.join(recording_of, name) for name in ("world.toml", "log")]
    told = [(right, *program.answer("audit", *files, pid, right)) for right in RIGHTS]
    answers = [f"{right} {ANSWERS.get(status, text[-200:])}" for right, text, status in told]
    return all(status in ANSWERS for _, _, status in told), f"process {pid}: {', '.join(answers)}"


def tried(row: Row, work: str, options: argparse.Namespace) -> tuple[Row, str, str]:
    """All of one daemon: a word, and more."""
    folder = os.path.join(work, row.package)
    os.mkdir(folder)
    begun = time.monotonic()
    word, said = recorded(row, folder, options.seconds)
    lines = [line for line in said.split("\n") if line and "lines of strace" not in line]
    more = " | ".join(line for line in lines if word != "whole" or "recording:" in line)
    if word in GOOD and options.judge != "no":
        good, told = judged(folder + RECORDING) if options.judge == "all" else judged_alone(folder + RECORDING)
        word, more = word if good else "not judged", f"{more} | judged: {told}"
    return row, word, f"{more} ({time.monotonic() - begun:.0f} s)"


def main() -> int:
    """Tries all that are asked for; the status."""
    ask = argparse.ArgumentParser(usage="try_daemons.py [--jobs N] [--for SECONDS] [--keep DIR] [--judge HOW]"
                                        " [--install] [PACKAGE ..]")
    ask.add_argument("--jobs", type=int, default=2)
    ask.add_argument("--for", dest="seconds", default="6")
    ask.add_argument("--keep")
    ask.add_argument("--judge", choices=("all", "root", "no"), default="all")
    ask.add_argument("--install", action="store_true")
    ask.add_argument("packages", nargs="*")
    options = ask.parse_args()
    rows = [row for row in table() if not options.packages or row.package in options.packages]
    if options.install:
        print("apt-get install --no-install-recommends " + " ".join(row.package for row in rows))
        return 0
    there = [row for row in rows if os.path.exists(shlex.split(row.command)[0])]
    if os.geteuid() != 0 or not there:
        give_up("to be run as root, with some of the packages installed")
    counts = Counter[str]()
    with tempfile.TemporaryDirectory(prefix="credaudit-daemons-") as work, ThreadPoolExecutor(options.jobs) as pool:
        os.chmod(work, 0o755)
        for row, word, more in pool.map(lambda each: tried(each, work, options), there):
            print(f"{row.package}: {word}: {more}", flush=True)
            counts[word] += 1
        for name in sorted(os.listdir(work)) if options.keep else []:
            if name.endswith(RECORDING):
                shutil.copytree(os.path.join(work, name), os.path.join(options.keep, name.removesuffix(RECORDING)))
    absent = [row.package for row in rows if row not in there]
    print("; ".join([*(f"{count} {word}" for word, count in counts.most_common()),
                     *([f"not installed: {', '.join(absent)}"] if absent else [])]))
    return 0 if sum(counts[word] for word in GOOD) == len(there) else 1


if __name__ == "__main__":
    sys.exit(main())
