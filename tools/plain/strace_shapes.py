#!/usr/bin/env python3
"""What stops a log of strace, and what is passed over in it: each shape of docs/STRACE.md, "Recording a log", as lines
that strace wrote, and what plain/strace.py reads of them.

  strace_shapes.py    compares each shape, and asks that docs/STRACE.md tells of it

The lines are those of real recordings (strace 6.1), shortened where no rule reads them, with other pids; those of a
row marked `made` are written by hand. A row is its name, the lines, the events that are read, and how the reading
ends. Status 0: all are read so; 1: some are read otherwise.
"""
import os
import sys

import tools_path  # noqa: F401
from plain.strace import Start, reading

HERE = os.path.dirname(os.path.abspath(__file__))
DOCUMENT = os.path.join(HERE, "..", "..", "docs", "STRACE.md")
WORLD = Start({100: "init"})
Row = tuple[str, list[str], list[str], str]     # its name, the lines, the events, and how the reading ends
LARGE_LIST = "[" + ", ".join(map(str, range(1, 33))) + ", ...]"
THREAD = "CLONE_VM|CLONE_FS|CLONE_FILES|CLONE_SIGHAND|CLONE_THREAD|CLONE_SYSVSEM"


def bad(line: int, fault: str) -> str:
    """How a reading ends at that line, by that fault."""
    return f"bad log line {line}: {fault}"


STOPS: list[Row] = [
    ("newuidmap", ['100 openat(3, "uid_map", O_WRONLY)    = 5'], [], bad(1, "descriptor")),
    ("bwrap", ['100 openat(4, "uid_map", O_RDWR|O_CLOEXEC) = 5'], [], bad(1, "descriptor")),
    ("runc", ['100 execveat(6, "", ["runc", "init"], 0x4dbc2e0 /* 8 vars */, AT_EMPTY_PATH) = 0'], [],
     bad(1, "descriptor")),
    ("a shell's redirection", [
        '100 openat(AT_FDCWD, "/proc/100/uid_map", O_WRONLY|O_CREAT|O_TRUNC, 0666) = 3',
        "100 fcntl(1, F_DUPFD, 10)             = 11",
        "100 dup2(3, 1)                        = 1"], [], bad(3, "descriptor")),
    ("nsenter -t PID", ['100 openat(AT_FDCWD, "/proc/4242/ns/user", O_RDONLY) = 3'], [], bad(1, "descriptor")),
    ("nsenter -t PID", ["100 setns(3, CLONE_NEWUSER)           = 0"], [], bad(1, "descriptor")),
    ("a thread and an open map file (made)", [
        '100 openat(AT_FDCWD, "/proc/self/uid_map", O_WRONLY) = 3',
        f"100 clone3({{flags={THREAD}, exit_signal=0}}, 88) = 101"], [], bad(2, "descriptor")),
    ("a thread and an open map file (made)", [
        f"100 clone3({{flags={THREAD}, exit_signal=0}}, 88) = 101",
        '101 openat(AT_FDCWD, "/proc/self/uid_map", O_WRONLY) = 3'], ["1: 100 fork = 101"], bad(2, "descriptor")),
    ("an execve by a thread that isn't the leader", [
        f"100 clone3({{flags={THREAD}, exit_signal=0}}, 88) = 101",
        '101 execve("/usr/bin/true", ["true"], 0x7ffd8990e358 /* 35 vars */ <pid changed to 100 ...>',
        "100 +++ superseded by execve in pid 101 +++",
        "100 <... execve resumed>)             = 0"], ["1: 100 fork = 101"], bad(2, "shape")),
    ("an execve by a thread that isn't the leader", [
        f"100 clone3({{flags={THREAD}, exit_signal=0}}, 88) = 101",
        '101 execve("/usr/bin/true", ["true"], 0x7ffd8990e358 /* 35 vars */ <unfinished ...>',
        "100 +++ superseded by execve in pid 101 +++"], ["1: 100 fork = 101"], bad(3, "superseded")),
    ("a detached tracer's last line", ['100 write(1, "\\0\\0"..., 131072 <detached ...>'], [], bad(1, "shape")),
    ("a child that closes thousands of descriptors before its birth is told (made)", [
        f"101 close({number})                   = 0" for number in range(3, 4100)], [], "limit held 4096"),
    ("lost lines (made)", ["100 vfork( <unfinished ...>", "100 vfork( <unfinished ...>"], [], bad(2, "unfinished")),
    ("lost lines (made)", ["100 <... vfork resumed>)              = 101"], [], bad(1, "unfinished")),
    ("without -v", [f"100 setgroups(40, {LARGE_LIST}) = 0"], [], bad(1, "argument 2")),
    ("a short -s", [
        "100 unshare(CLONE_NEWUSER)            = 0",
        '100 openat(AT_FDCWD, "/proc/self/uid_map", O_WRONLY|O_CLOEXEC) = 3',
        '100 write(3, "0 0"..., 6)             = 6'], ["1: 100 unshare = 0"], bad(3, "argument 2")),
    ("a capability that strace doesn't know (made)", [
        "100 capset({version=_LINUX_CAPABILITY_VERSION_3, pid=0}, {effective=1<<CAP_CHOWN|0x20000000000,"
        " permitted=1<<CAP_CHOWN, inheritable=0}) = 0"], [], bad(1, "argument 2")),
    ("a call that failed for its arguments", ["100 execve(0x1, NULL, NULL)           = -1 EFAULT (Bad address)"], [],
     bad(1, "argument 1")),
    ("a call that failed for its arguments", ["100 setgroups(70000, 0x7ffe0000)      = -1 EINVAL (Invalid argument)"],
     [],
     bad(1, "argument 2")),
    ("a call that failed for its arguments", [
        "100 capset({version=_LINUX_CAPABILITY_VERSION_3, pid=0}, NULL) = -1 EFAULT (Bad address)"], [],
     bad(1, "argument 2")),
    ("a call that failed for its arguments", [
        "100 prctl(PR_SET_KEEPCAPS, 18446744073709551615) = -1 EINVAL (Invalid argument)"], [], bad(1, "argument 2")),
    ("-xx", ['100 execve("\\x2f\\x62\\x69\\x6e\\x2f\\x69\\x64", ["\\x69\\x64"], 0x7ffd8990e358 /* 35 vars */) = 0'], [],
     bad(1, "argument 1")),
    ("-T", ["100 setuid(7)                         = 0 <0.000012>"], [], bad(1, "result")),
    ("--pidns-translation", [
        "100 vfork( <unfinished ...>",
        "100 <... vfork resumed>)              = 2 /* 27395 in strace's PID NS */"], [], bad(2, "result")),
    ("without -f or -o", ["setuid(7)                               = 0"], [], bad(1, "pid")),
    ("without -f or -o", ["[pid   100] setuid(7)                   = 0"], [], bad(1, "pid")),
    ("--decode-pids=comm", ["100<nginx> setuid(7)                   = 0"], [], bad(1, "pid")),
    ("-k", [
        "100 setuid(7)                         = 0",
        " > /usr/lib/x86_64-linux-gnu/libc.so.6(setuid+0x14) [0xd1594]"], ["1: 100 setuid 7 = 0"], bad(2, "pid")),
]
PASSED_OVER: list[Row] = [
    ("-t, -tt, -ttt, -r", ["100 00:13:52 setuid(7)                = 0"], [], "end"),
    ("-t, -tt, -ttt, -r", ["100 00:13:52.123456 setuid(7)         = 0"], [], "end"),
    ("-t, -tt, -ttt, -r", ["100 1790000000.123456 setuid(7)       = 0"], [], "end"),
    ("-t, -tt, -ttt, -r", ["100      0.000059 setuid(7)           = 0"], [], "end"),
    ("-i, -n", ["100 [00007f7d143bf594] setuid(7)      = 0"], [], "end"),
    ("-i, -n", ["100 [ 105] setuid(7)                  = 0"], [], "end"),
    ("-y, -yy", [
        "100 unshare(CLONE_NEWUSER)            = 0",
        '100 openat(AT_FDCWD</>, "/proc/self/uid_map", O_WRONLY|O_CLOEXEC) = 3</proc/100/uid_map>',
        '100 write(3</proc/100/uid_map>, "0 0 1\\n", 6) = 6'], ["1: 100 unshare = 0"], "end"),
    ("-y, -yy", ['100 openat(3</proc/100>, "uid_map", O_WRONLY|O_CLOEXEC) = 4</proc/100/uid_map>'], [], "end"),
    ("-xx and -p", [
        '100 openat(AT_FDCWD, "\\x2f\\x70\\x72\\x6f\\x63\\x2f\\x73\\x65\\x6c\\x66\\x2f\\x75\\x69\\x64\\x5f\\x6d\\x61'
        '\\x70", O_WRONLY) = 3',
        '100 write(3, "\\x30\\x20\\x30\\x20\\x31\\x0a", 6) = 6'], [], "end"),
    ("-X raw, -e raw=", [
        '100 openat(-100, "/proc/self/uid_map", 0x80001) = 3',
        '100 write(3, "0 0 1\\n", 6)            = 6'], [], "end"),
    ("-X raw, -e raw=", ["100 prctl(0x8, 1)                     = 0"], [], "end"),
    ("-X raw, -e raw=", ["100 unshare(0x10000000)               = 0"], [], "end"),
    ("-X raw, -e raw=", ["100 clone(child_stack=NULL, flags=0x10000000|17) = 101"], ["1: 100 fork = 101"], "end"),
    ("-e verbose=none", ["100 clone3(0x7ffd4821a2c0, 88) = 101"], ["1: 100 fork = 101"], "end"),
    ("-X verbose", ["100 prctl(0x8 /* PR_SET_KEEPCAPS */, 1) = 0"], [], "end"),
    ("-X verbose", ["100 unshare(0x10000000 /* CLONE_NEWUSER */) = 0"], [], "end"),
    ("-qq, --quiet=exit", ["100 fork()                            = 101"], ["1: 100 fork = 101"], "end"),
    ("-e signal=none, or a set without a signal that ends a process", ["100 fork()                            = 101"],
     ["1: 100 fork = 101"], "end"),
    ("-Z, -e status=failed", ["100 setuid(0)                         = -1 EPERM (Operation not permitted)"],
     ["1: 100 setuid 0 = EPERM"], "end"),
    ("fewer calls than CALLS", ['100 write(1, "hello\\n", 6)             = 6'], [], "end"),
    ("fewer calls than CALLS (made)", ["100 fork()                            = 101", "100 +++ exited with 0 +++"],
     ["1: 100 fork = 101", "2: 100 exit = 0"], "end"),
    ("lines cut or chosen by text (`grep`, `head`) (made)", ["100 setuid(7)                         = 0"],
     ["1: 100 setuid 7 = 0"], "end"),
    ("a process in a PID namespace", [
        "100 vfork()                           = 2",
        '27323 execve("/usr/bin/true", ["true"], 0x7ffdb75cf060 /* 35 vars */) = 0'],
     ["1: 100 fork = 2", "2: 27323 execve - = 0"], "end"),
    ("openat2, writev, close_range (made)", [
        '100 openat2(AT_FDCWD, "/proc/self/uid_map", {flags=O_WRONLY, resolve=0}, 24) = 3',
        '100 writev(3, [{iov_base="0 0 1\\n", iov_len=6}], 1) = 6',
        "100 close_range(3, 4294967295, 0)     = 0"], [], "end"),
    ("a map under another spelling (made)", [
        '100 openat(AT_FDCWD, "//proc/100/uid_map", O_WRONLY) = 3',
        '100 write(3, "0 0 1\\n", 6)            = 6'], [], "end"),
    ("a map under another spelling (made)", [
        '100 openat(AT_FDCWD, "/proc/self/../100/uid_map", O_WRONLY) = 3',
        '100 write(3, "0 0 1\\n", 6)            = 6'], [], "end"),
    ("a descriptor that was handed over (made)", [
        "100 pidfd_getfd(5, 3, 0)              = 4",
        '100 write(4, "0 0 1\\n", 6)            = 6'], [], "end"),
    ("fcntl64 (made)", [
        '100 openat(AT_FDCWD, "/proc/self/uid_map", O_WRONLY) = 3',
        "100 fcntl64(3, F_DUPFD, 10)           = 10",
        '100 write(10, "0 0 1\\n", 6)           = 6'], [], "end"),
    ("CLONE_UNTRACED (made)", [
        "100 clone(child_stack=NULL, flags=CLONE_UNTRACED|SIGCHLD) = 101"], ["1: 100 fork = 101"], "end"),
]


def read(lines: list[str]) -> tuple[list[str], str]:
    """The events of lines, and how their reading ends."""
    return reading(WORLD, "".join(line + "\n" for line in lines).encode())


def main() -> None:
    """Compares each row, and tells the ones that are read otherwise."""
    with open(DOCUMENT) as file:
        document = file.read()
    bad_rows = 0
    for name, lines, events, ending in STOPS + PASSED_OVER:
        found = read(lines)
        wrong = [] if found == (events, ending) else [f"read as {found}, not as {(events, ending)}"]
        wrong += [] if f"| {name.removesuffix(' (made)')} |" in document else ["docs/STRACE.md doesn't tell of it"]
        bad_rows += bool(wrong)
        print("".join(f"{name}: {one}\n" for one in wrong), end="")
    print(f"{len(STOPS)} rows that stop a log, {len(PASSED_OVER)} that are passed over: "
          + (f"{bad_rows} are read otherwise" if bad_rows else "all are read so"))
    sys.exit(1 if bad_rows else 0)


if __name__ == "__main__":
    main()
