#!/usr/bin/env python3
"""Times credaudit-capture on a family of many processes, without its scan of files.

  time_capture.py [PROCESSES [THREADS]]     200 processes, each with 2 threads beside its first, where no number is said

To be run as root. Needs cc. The family is made for it: a process and its children, half of which have another user's
ids, and all of which wait. Tells how many rows the world has, and the time by the clock and of the processors. Status
1: the world lacks a thread, or it took more than 10 seconds by the clock.
"""
import os
import subprocess
import sys
import tempfile

import tools_path
from credaudit_tools.command_line.command import Failure
from credaudit_tools.command_line.files import read_regular
from credaudit_tools.formats import worlds
from credaudit_tools.system.proc import needs_root
from time_trace import seconds

MOST = 10.0
PROGRAM = r"""
#include <pthread.h>
#include <stdlib.h>
#include <signal.h>
#include <sys/prctl.h>
#include <unistd.h>
static void *wait_on(void *unused)
{
    for (;;)
        pause();
    return unused;
}
static void have_threads(long threads)
{
    pthread_t thread;
    while (threads-- > 0)
        if (pthread_create(&thread, NULL, wait_on, NULL) != 0)
            _exit(1);
}
int main(int count, char **words)
{
    long processes = atol(words[count - 2]), threads = atol(words[count - 1]);
    int ready[2];
    char byte = 0;
    if (pipe(ready) != 0)
        return 1;
    for (long k = 1; k < processes; k++)
        if (fork() == 0) {
            if (k % 2 && (setgid(1000) != 0 || setuid(1000) != 0))
                _exit(1);
            if (prctl(PR_SET_PDEATHSIG, SIGKILL) != 0)      // a change of ids takes it back
                _exit(1);
            have_threads(threads);
            if (write(ready[1], &byte, 1) != 1)
                _exit(1);
            wait_on(NULL);
        }
    have_threads(threads);
    for (long k = 1; k < processes; k++)
        if (read(ready[0], &byte, 1) != 1)
            return 1;
    if (write(1, "ready\n", 6) != 6)
        return 1;
    wait_on(NULL);
}
"""


def main() -> int:
    """Times it; the status."""
    processes, threads = [int(word) for word in [*sys.argv[1:], *("200", "2")[len(sys.argv) - 1:]]]
    try:
        needs_root()
    except Failure as failure:
        print(f"time_capture.py: {failure}", file=sys.stderr)
        return 2
    with tempfile.TemporaryDirectory() as work:
        source, program, world = (os.path.join(work, name) for name in ("family.c", "family", "world.toml"))
        with open(source, "w", encoding="ascii") as file:
            file.write(PROGRAM)
        subprocess.run(["cc", "-O1", "-pthread", "-o", program, source], check=True)
        with subprocess.Popen([program, str(processes), str(threads)], stdout=subprocess.PIPE) as family:
            try:
                assert family.stdout is not None
                family.stdout.readline()
                command = os.path.join(tools_path.TOOLS, "credaudit-capture")
                capture = [sys.executable, command, "--no-files", "-o", world]
                clock, used = seconds([*capture, str(family.pid)], work, most=1)
            finally:
                family.kill()
        rows = len(worlds.read(read_regular(world)).processes)
    print(f"{processes} processes with {threads} threads each beside the first: {rows} rows")
    print(f"{clock:.1f} s by the clock, {used:.1f} s of processors")
    return 1 if clock > MOST or rows != processes * (threads + 1) else 0


if __name__ == "__main__":
    sys.exit(main())
