"""Draws recordings for certificate_trials.py: stored ones, whole, or with a line that is altered, lost or displaced."""
import os
import re

from checker.tests.certificate_draws import Draw

NUMBERS = ("0", "1", "33", "99", "100", "101", "102", "1000", "65534", "4294967294", "4294967295", "-1", "00", "x")
RESULTS = ("0", "1", "7", "-1 EPERM (Operation not permitted)", "-1 EINVAL (Invalid argument)",
           "-1 ENOENT (No such file or directory)", "-1 ENOMEM (Cannot allocate memory)", "?", "")
LINES = ("{pid} getuid() = 0", "{pid} +++ exited with 0 +++", "{pid} +++ killed by SIGKILL +++", "{pid} setuid(0) = 0",
         "{pid} unshare(CLONE_NEWUSER) = 0", "{pid} prctl(PR_SET_NO_NEW_PRIVS, 1, 0, 0, 0) = 0", "{pid} fork() = 900",
         "{pid} --- SIGCHLD ---", "{pid} vfork( <unfinished ...>", "{pid} <... vfork resumed>) = 900", "",
         "{pid} openat(AT_FDCWD, \"/proc/self/uid_map\", O_WRONLY) = 3", "{pid}  getuid() = 0", "{pid} close(3) = 0")


def altered(draw: Draw, lines: list[str]) -> list[str]:
    """The lines, one of them altered."""
    at = draw.randrange(len(lines))
    line = lines[at]
    other = draw.randrange(len(lines))
    number = draw.one(list(re.finditer("[0-9]+", line)) or [None])
    changed = line if number is None else line[:number.start()] + draw.one(NUMBERS) + line[number.end():]
    pid = line.split(" ")[0]
    new: list[list[str]] = [
        [], [line, line], [changed], [changed], [re.sub("= .*", f"= {draw.one(RESULTS)}", line)],
        [line, draw.one(LINES).format(pid=pid)], [draw.one(LINES).format(pid=pid)],
        [line[:draw.randrange(len(line) + 1)]], [line.replace(", ", draw.one((",", ",  ", ", 0, ")), 1)]]
    if draw.is_one_in(6):
        return [*lines[:at], *lines[at + 1:other], line, *lines[max(other, at + 1):]]
    return [*lines[:at], *draw.one(new), *lines[at + 1:]]


def drawn_recording(draw: Draw, folders: tuple[str, ...]) -> tuple[str, str]:
    """The world and the log of a recording; of two one as it is."""
    folder = draw.one(folders)
    texts = []
    for name in ("world.toml", "log"):
        with open(os.path.join(folder, name), encoding="ascii") as file:
            texts.append(file.read())
    world, log = texts
    lines = log.splitlines()
    while lines and draw.is_one_in(2):
        lines = altered(draw, lines)
    log = "".join(f"{line}\n" for line in lines)
    return world, log[:-1] if draw.is_one_in(40) else log
