#!/usr/bin/env python3
"""Records the example anew: builds drop_uids.c, runs it under strace, and writes what credaudit reads.

  record.py

To be run as root. Needs a C compiler (cc) and strace. It writes beside itself:

  drop_uids.strace   what strace wrote, as it is
  drop_uids.log      its setresuid lines as a script log, one line for each
  world.toml         the process with its pid and its whole credential at the start
  status.txt         what the process saw of itself, at the start and after each call, one line each (drop_uids.c)
"""
import os
import re
import subprocess
import sys
import tempfile

from compare import HERE, seen_in

import tools_path  # noqa: E402, F401
from credaudit_tools.command_line.files import read_regular  # noqa: E402
from credaudit_tools.formats import strace_lines, worlds  # noqa: E402
from credaudit_tools.formats.strace_lines import Call  # noqa: E402

EXIT = b"+++ exited with 0 +++"


def run(words: list[str]) -> None:
    """Runs a command; ends the script where it fails."""
    if subprocess.call(words) != 0:
        sys.exit("record.py: this failed: " + " ".join(words))


def script_line(line: bytes) -> tuple[int, str] | None:
    """A line of strace as the pid and the script line, None for that of the exit. Ends the script at any other."""
    pid, body = strace_lines.parted(line) or (0, b"")
    call = strace_lines.call_of(body)
    if call is not None and call.name == b"setresuid":
        return pid, f"{pid} setresuid {b' '.join(call.arguments).decode()} = {answer(call)}"
    if body == EXIT:
        return None
    sys.exit("record.py: not a line of setresuid or of the exit: " + line.decode("ascii", "backslashreplace"))


def answer(call: Call) -> str:
    """`0`, or the name of the error."""
    failed = re.match(rb"-1 ([A-Z0-9]+)", call.result)
    return failed.group(1).decode() if failed else str(call.done)


def put(name: str, text: str) -> None:
    """Writes a file beside this script."""
    with open(os.path.join(HERE, name), "w") as out:
        out.write(text)


def main() -> None:
    """Records the example."""
    if os.geteuid() != 0:
        sys.exit("record.py: to be run as root, since the program drops root's ids")
    with tempfile.TemporaryDirectory() as work:
        program, trace, status = (os.path.join(work, name) for name in ("drop_uids", "trace", "status"))
        run(["cc", "-O2", "-o", program, os.path.join(HERE, "drop_uids.c")])
        run(["strace", "-f", "-e", "trace=setresuid", "-o", trace, program, status])
        log, seen = read_regular(trace), read_regular(status).decode("ascii")
    calls = [call for call in map(script_line, log.splitlines()) if call]
    pids = {pid for pid, _ in calls}
    if len(pids) != 1 or len(calls) + 1 != len(seen.splitlines()):
        sys.exit("record.py: more than one process, or another number of calls than of status lines")
    put("drop_uids.strace", log.decode("ascii"))
    put("drop_uids.log", "".join(line + "\n" for _, line in calls))
    process = worlds.Process(pids.pop(), seen_in(seen.splitlines())[0])
    put("world.toml", worlds.written(worlds.World("script", processes=[process])).decode())
    put("status.txt", seen)
    print(f"{len(calls)} calls recorded")


if __name__ == "__main__":
    main()
