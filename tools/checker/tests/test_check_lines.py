"""credaudit-check-certificate on the lines of recordings: what each kind of line of docs/CHECKER.md is read as, and
each refusal.
"""
import os
import re
import unittest

from commands.tests.support import EXAMPLES
from credaudit_check.replay import Replay
from credaudit_check.rules.ids import NO_ID
from credaudit_check.texts import recording
from credaudit_check.texts.ends import Ended
from credaudit_check.texts.script import Event, Value
from credaudit_check.texts.world import read_world

PAGE = os.path.join(EXAMPLES, "..", "docs", "CHECKER.md")
WORLD = b"""log = "strace"
[[space]]
name = "below"
parent = "init"
owner = 1000
[[process]]
pid = 100
[[process]]
pid = 200
space = "below"
"""
EPERM = "-1 EPERM (Operation not permitted)"
HEADER = "{version=_LINUX_CAPABILITY_VERSION_3, pid=0}"
THREE = "{effective=0, permitted=1<<CAP_KILL|1<<CAP_SETUID, inheritable=0}"


def events(log: str, world: bytes = WORLD) -> list[Event]:
    """The events of a recording, each a step before the next is read where the rules give its result; else the state
    stays."""
    replay, found = Replay(read_world(world)), list[Event]()
    for event in recording.events(log.encode("latin-1"), replay.state):
        found.append(event)
        before = dict(replay.state.processes), list(replay.state.spaces)
        try:
            replay.step(event)
        except Ended:
            replay.state.processes, replay.state.spaces = before
    return found


def refusal(log: str) -> str:
    """What a recording is refused with."""
    try:
        events(log)
    except Ended as ended:
        return ended.line or ""
    return "it is read"


# ---- kinds of lines

Told = tuple[str, str, tuple[Value, ...], int | str]
RESULTS: list[tuple[str, int | str]] = [("0", 0), (EPERM, "EPERM")]
ID_CALLS: list[Told] = [
    (f"{name}({', '.join(given[:many])}) = {result}", name, values[:many], told)
    for many, names in ((1, ("setuid", "setgid")), (2, ("setreuid", "setregid")), (3, ("setresuid", "setresgid")))
    for name in names
    for given, values in ((["33", "0", "4294967294"], (33, 0, 4294967294)), (["-1"] * 3, (NO_ID,) * 3))
    for result, told in RESULTS]
# A body, and the call, the values and the result of its event.
EVENTS: list[Told] = [
    *ID_CALLS,
    ("setfsuid(33) = 0", "setfsuid", (33,), 0), ("setfsgid(-1) = 4294967294", "setfsgid", (NO_ID,), 4294967294),
    ("setgroups(2, [27, 4]) = 0", "setgroups", (27, 4), 0),
    ("setgroups(1, [5]) = " + EPERM, "setgroups", (5,), "EPERM"), ("setgroups(0, []) = 0", "setgroups", (), 0),
    ("setgroups(0, NULL) = 0", "setgroups", (), 0), (f"capset({HEADER}, {THREE}) = 0", "capset", (0, 0xa0, 0), 0),
    (f"capset({HEADER}, {THREE}) = {EPERM}".replace("_3, pid=0", "_1, pid=100"), "capset", (0, 0xa0, 0), "EPERM"),
    ("prctl(PR_SET_KEEPCAPS, 1) = 0", "keepcaps", (1,), 0),
    ("prctl(PR_SET_NO_NEW_PRIVS, 1, 0, 0, 0) = 0", "no_new_privs", (1,), 0),
    ("prctl(PR_SET_NO_NEW_PRIVS, 2, 0x0, NULL, 0) = -1 EINVAL (Invalid argument)", "no_new_privs", (2,), "EINVAL"),
    ("prctl(PR_SET_SECUREBITS, 0) = 0", "securebits", (0,), 0),
    ("prctl(PR_SET_SECUREBITS, SECBIT_NOROOT|SECBIT_NOROOT_LOCKED|SECBIT_NO_SETUID_FIXUP|SECBIT_NO_SETUID_FIXUP_LOCKED|"
     "SECBIT_KEEP_CAPS|SECBIT_KEEP_CAPS_LOCKED|SECBIT_NO_CAP_AMBIENT_RAISE|SECBIT_NO_CAP_AMBIENT_RAISE_LOCKED) = 0",
     "securebits", (0xff,), 0),
    ("prctl(PR_SET_SECUREBITS, SECBIT_KEEP_CAPS) = " + EPERM, "securebits", (0x10,), "EPERM"),
    ("prctl(PR_CAPBSET_DROP, CAP_CHECKPOINT_RESTORE) = 0", "bset_drop", (40,), 0),
    ("prctl(PR_CAPBSET_DROP, 0x29 /* CAP_??? */) = -1 EINVAL (Invalid argument)", "bset_drop", (41,), "EINVAL"),
    ("prctl(PR_CAP_AMBIENT, PR_CAP_AMBIENT_RAISE, CAP_CHOWN, 0, 0) = " + EPERM, "amb_raise", (0,), "EPERM"),
    ("prctl(PR_CAP_AMBIENT, PR_CAP_AMBIENT_LOWER, CAP_KILL, 0, 0) = 0", "amb_lower", (5,), 0),
    ("prctl(PR_CAP_AMBIENT, PR_CAP_AMBIENT_CLEAR_ALL, 0, 0, 0) = 0", "amb_clear", (), 0),
    ('execve("/bin/sh", [], NULL) = 0', "execve", (b"/bin/sh",), 0),
    (r'execve("/a\"b\\\n\t\377 (x), [y", [], NULL) = -1 ENOENT (No such file or directory)', "execve",
     (b'/a"b\\\n\t\xff (x), [y',), "ENOENT"),
    ("fork() = 101", "fork", (), 101), ("vfork() = 4194304", "fork", (), 4194304),
    ("clone(flags=CLONE_VM|CLONE_VFORK|SIGCHLD) = 101", "fork", (), 101), ("clone(flags=0) = 101", "fork", (), 101),
    ("clone3({flags=CLONE_VM|CLONE_THREAD}, 88) = 101", "fork", (), 101),
    ("clone(flags=CLONE_NEWUSER|SIGCHLD) = 101", "clone_user", (), 101),
    ("clone3({flags=CLONE_NEWPID|CLONE_NEWUSER}, 88) = 101", "clone_user", (), 101),
    ("clone(flags=CLONE_NEWUSER) = " + EPERM, "clone_user", (), "EPERM"),
    ("clone3({flags=CLONE_NEWUSER}, 88) = -1 ENOSPC (No space left on device)", "clone_user", (), "ENOSPC"),
    ("unshare(CLONE_NEWNS|CLONE_NEWUSER) = 0", "unshare", (), 0),
    ("unshare(CLONE_NEWUSER) = " + EPERM, "unshare", (), "EPERM"), ("+++ exited with 0 +++", "exit", (), 0),
    ("+++ killed by SIGKILL +++", "exit", (), 0), ("+++ killed by SIGRT_3 (core dumped) +++", "exit", (), 0),
]
# Bodies that are no event.
NO_EVENTS = [
    "clone(flags=0x10000000000 /* CLONE_??? */) = -1 EINVAL (Invalid argument)",
    "clone3({flags=0}, 88) = -1 EAGAIN (Resource temporarily unavailable)",
    "fork() = -1 EAGAIN (Resource temporarily unavailable)", "vfork() = -1 ENOMEM (Cannot allocate memory)",
    "unshare(CLONE_NEWNS) = 0", "unshare(0) = 0", "unshare(CLONE_FS) = " + EPERM, "getuid() = 0", "geteuid() = 65534",
    "getgid() = 0", "getegid() = -1 ENOSYS (Function not implemented)", "getresuid([0], [33], [0]) = 0",
    "getresgid(0x1, NULL, NULL) = -1 EFAULT (Bad address)", "getgroups(65536, [0, 27]) = 2", "getgroups(0, NULL) = 2",
    f"capget({HEADER}, {THREE}) = 0", "capget({version=0 /* _LINUX_CAPABILITY_VERSION_??? */, pid=0}, NULL) = 0",
    "prctl(PR_GET_KEEPCAPS) = 1", "prctl(PR_GET_SECUREBITS) = 0x3 (SECBIT_NOROOT|SECBIT_NOROOT_LOCKED)",
    "prctl(PR_GET_NO_NEW_PRIVS, 0, 0, 0, 0) = 0", "prctl(PR_CAPBSET_READ, CAP_SYS_ADMIN) = 1",
    "prctl(PR_CAPBSET_READ, 0xffffffffffffffff /* CAP_??? */) = -1 EINVAL (Invalid argument)",
    "prctl(PR_CAP_AMBIENT, PR_CAP_AMBIENT_IS_SET, CAP_NET_RAW, 0, 0) = 1",
    "prctl(PR_CAP_AMBIENT, 0x9 /* PR_CAP_AMBIENT_??? */, 0x1, 0, 0) = -1 EINVAL (Invalid argument)",
    "accept4(3) = 5", "connect(4294967295) = -1 EBADF (Bad file descriptor)", "socket() = 4", "read(0) = 0",
]


def used(file: str, second: str, access: str = "O_WRONLY", pid: int = 200) -> str:
    """Three lines of a file: it is opened, used and closed."""
    return (f'100 open("/proc/{pid}/{file}", {access}) = 1000000\n100 {second}\n100 close(1000000) = 0\n')


def write(text: str, length: int, result: str | None = None) -> str:
    """A write of a text in quotes."""
    return f'write(1000000, "{text}", {length}) = {result or length}'


# The file, the second of the three lines, and the event; without values there is none.
USES: list[tuple[str, str, str, tuple[Value, ...], int | str]] = [
    ("uid_map", write(r"0 1000 1\n", 9), "write_uid_map", (1, 0, 1000, 1), 0),
    ("uid_map", write(r"  0\t1000 1 \n5 7 4294967295", 26), "write_uid_map", (1, 0, 1000, 1, 5, 7, NO_ID), 0),
    ("uid_map", write("", 0, "-1 EINVAL (Invalid argument)"), "write_uid_map", (1,), "EINVAL"),
    ("uid_map", write("0 0 1", 5, EPERM), "write_uid_map", (1, 0, 0, 1), "EPERM"),
    ("gid_map", write(r"1 2 3\r\n".replace("\\r", "\\015"), 7), "write_gid_map", (1, 1, 2, 3), 0),
    ("gid_map", write("0 0 4294967296", 14, EPERM), "", (), 0), ("gid_map", write("0 0", 3, EPERM), "", (), 0),
    ("setgroups", write("deny", 4), "write_setgroups", (1, "deny"), 0),
    ("setgroups", write(r"allow\n", 6, EPERM), "write_setgroups", (1, "allow"), "EPERM"),
    ("setgroups", write("no", 2, "-1 EINVAL (Invalid argument)"), "", (), 0),
]


class Lines(unittest.TestCase):
    """What each kind of line is read as."""

    def test_bodies(self) -> None:
        for body, call, values, result in EVENTS:
            self.assertEqual(events(f"100 {body}\n"), [Event(1, 100, call, values, result)], body)
        for body in NO_EVENTS:
            self.assertEqual(events(f"100 {body}\n"), [], body)

    def test_files(self) -> None:
        for file, second, call, values, result in USES:
            wanted = [Event(2, 100, call, values, result)] if values else []
            self.assertEqual(events(used(file, second)), wanted, second)
        self.assertEqual(events(used("ns/user", "setns(1000000, CLONE_NEWUSER) = 0", "O_RDONLY")),
                         [Event(2, 100, "setns", (1,), 0)])
        self.assertEqual(events(used("ns/user", "setns(1000000, CLONE_NEWUSER) = " + EPERM, "O_RDONLY", 100)),
                         [Event(2, 100, "setns", (0,), "EPERM")])

    def test_spaces_of_births(self) -> None:
        """A file means the namespace in which its process stands at that line."""
        log = "100 clone(flags=CLONE_NEWUSER) = 300\n300 fork() = 301\n" + used("uid_map", write("0 0 1", 5), pid=301)
        self.assertEqual(events(log)[-1], Event(4, 100, "write_uid_map", (2, 0, 0, 1), 0))
        log = "200 +++ exited with 0 +++\n100 fork() = 200\n" + used("gid_map", write("0 0 1", 5, EPERM))
        self.assertEqual(events(log)[-1], Event(4, 100, "write_gid_map", (0, 0, 0, 1), "EPERM"))

    def test_empty(self) -> None:
        self.assertEqual(events(""), [])


# ---- refusals

REFUSED = {
    "torn": ["100 setuid(0) = 0", "100 set", " "],
    "pid": ["\n", " 100 setuid(0) = 0\n", "setuid(0) = 0\n", "[pid 100] setuid(0) = 0\n", "0 setuid(0) = 0\n",
            "0100 setuid(0) = 0\n", "4194305 setuid(0) = 0\n", "99999999999 setuid(0) = 0\n", "100\tsetuid(0) = 0\n",
            "100  setuid(0) = 0\n", "100\n", "100<su> setuid(0) = 0\n", "-1 setuid(0) = 0\n", "\xff100 setuid(0) = 0\n",
            "; 100 setuid 0 = 0\n", "00:13:52 setuid(7) = 0\n"],
    "unfinished": ["100 vfork( <unfinished ...>\n", '100 write(1, ""..., 9 <detached ...>\n'],
    "resumed": ["100 <... vfork resumed>) = 101\n"],
    "signal": ["100 --- SIGCHLD {si_signo=SIGCHLD} ---\n", "100 --- stopped by SIGSTOP ---\n"],
    "superseded": ["100 +++ superseded by execve in pid 101 +++\n"],
    "end": ["100 +++ exited +++\n", "100 +++ exited with 0\n", "100 +++ killed by 9x +++\n", "100 +++\n"],
    "call": ["100 openat(AT_FDCWD, \"/proc/200/uid_map\", O_WRONLY) = 3\n", "100 setresuid32(0, 0, 0) = 0\n",
             "100 setuid 0 = 0\n", "100 strace: x\n", "100 execveat(AT_FDCWD, \"/x\", [], NULL, 0) = 0\n",
             "100 dup2(3, 1) = 1\n", "100 dup(3) = 1\n", "100 accept4(3, NULL, NULL, 0) = 5\n",
             "100 accept4(3) = ?\n", "100 accept4(03) = 5\n", "100 fchown32(3) = 0\n", "100 Accept(3) = 5\n",
             "100 accept4(-1) = 5\n", "100 accept4(3<socket:[7]>) = 5\n",
             "100 00:13:52 setuid(7) = 0\n", "100 syscall_0x1c4(0x3) = 0\n", "100 _exit\n"],
    "shape": ["100 setuid(0) =  \n".replace("  ", ""), "100 setuid(0)= 0\n", "100 setuid(0) 0\n", "100 setuid(0\n",
              "100 setuid( = 0\n", "100 setresuid(0,0,0) = 0\n", "100 setuid(0)  = 0\n", "100 setgroups(1, [5) = 0\n",
              '100 execve("/x, [], NULL) = 0\n', "100 setuid(0,) = 0\n", "100 setuid(f(0)) = 0\n"],
    "count": ["100 setuid() = 0\n", "100 setuid(0, 0) = 0\n", "100 getuid(0) = 0\n", "100 prctl() = 0\n",
              "100 prctl(PR_CAP_AMBIENT) = 0\n", "100 prctl(PR_SET_NO_NEW_PRIVS, 1) = 0\n", '100 execve("/x") = 0\n',
              "100 clone(child_stack=NULL, flags=SIGCHLD) = 101\n", "100 fork(0) = 101\n"],
    "argument 1": ["100 setuid(x) = 0\n", "100 setuid(00) = 0\n", "100 setuid(+1) = 0\n", "100 setuid(0x0) = 0\n",
                   "100 setuid(4294967295) = 0\n", "100 setuid(-2) = 0\n", "100 setuid(1.0) = 0\n",
                   "100 setuid( 0) = 0\n", "100 setresuid(root, 0, x) = 0\n", "100 setgroups([5], [5]) = 0\n",
                   f"100 capset({HEADER}, {THREE}) = 0\n".replace("pid=0", "pid=200"),
                   f"100 capset({HEADER}, {THREE}) = 0\n".replace("_3", "_4"),
                   "100 prctl(PR_SET_NAME, \"x\") = 0\n",
                   "100 prctl(PR_CAP_AMBIENT PR_CAP_AMBIENT_IS_SET, 1, 2, 3, 4) = 0\n",
                   "100 prctl(PR_SET_KEEPCAPS , 1) = 0\n", "100 prctl(0x8, 1) = 0\n", "100 clone(SIGCHLD) = 101\n",
                   "100 clone(flags=CLONE_VM|) = 101\n", "100 clone(flags=) = 101\n",
                   "100 clone3({exit_signal=0}, 88) = 101\n", "100 unshare(CLONE_NEWUSER|-) = 0\n",
                   r'100 execve("/\x41", [], NULL) = 0' + "\n", r'100 execve("/\400", [], NULL) = 0' + "\n",
                   r'100 execve("/\0", [], NULL) = 0' + "\n", '100 execve("/x"..., [], NULL) = 0\n',
                   '100 execve("/\xe9", [], NULL) = 0\n', "100 execve(0x1, [], NULL) = 0\n",
                   '100 open("/etc/passwd", O_RDONLY) = 3\n', '100 open("/proc/self/uid_map", O_WRONLY) = 3\n',
                   '100 open("/proc/0200/uid_map", O_WRONLY) = 3\n', '100 open("uid_map", O_WRONLY) = 3\n',
                   '100 open("/proc/200/ns/mnt", O_RDONLY) = 3\n',
                   "100 write(1</proc/200/uid_map>, \"0 0 1\", 5) = 5\n", "100 close(-1) = 0\n"],
    "argument 2": ["100 setgroups(2, [5]) = 0\n", "100 setgroups(1, NULL) = -1 EFAULT (Bad address)\n",
                   "100 setgroups(1, 0x7ffe) = -1 EFAULT (Bad address)\n", "100 setgroups(1, [x]) = 0\n",
                   "100 setgroups(40, [1, 2, ...]) = 0\n", "100 setgroups(1, [4294967295]) = 0\n",
                   f"100 capset({HEADER}, NULL) = -1 EFAULT (Bad address)\n",
                   f"100 capset({HEADER}, {THREE}) = 0\n".replace("CAP_KILL", "CAP_KIL"),
                   f"100 capset({HEADER}, {THREE}) = 0\n".replace("CAP_KILL", "CAP_KILL|0x20000000000"),
                   f"100 capset({HEADER}, {THREE}) = 0\n".replace("permitted=", "inheritable="),
                   "100 prctl(PR_SET_KEEPCAPS, 4294967296) = 0\n", "100 prctl(PR_SET_SECUREBITS, SECBIT_X) = 0\n",
                   "100 prctl(PR_SET_SECUREBITS, 0x100 /* SECBIT_??? */) = " + EPERM + "\n",
                   "100 prctl(PR_CAPBSET_DROP, CAP_X) = 0\n", "100 prctl(PR_CAPBSET_DROP, 41) = 0\n",
                   "100 prctl(PR_CAPBSET_DROP, 0x100000000 /* CAP_??? */) = 0\n", "100 prctl(PR_CAP_AMBIENT, 2) = 0\n",
                   "100 prctl(PR_CAP_AMBIENT, PR_CAP_AMBIENT_X, CAP_KILL, 0, 0) = 0\n",
                   "100 prctl(PR_CAP_AMBIENT, unknown, 0x1, 0, 0) = 0\n",
                   '100 execve("/x", ["x"], NULL) = 0\n', '100 open("/proc/200/uid_map", O_RDWR) = 3\n',
                   '100 open("/proc/200/ns/user", O_WRONLY) = 3\n', "100 clone3({flags=0}, 0x58) = 101\n",
                   used("ns/user", "setns(1000000, 0) = 0", "O_RDONLY"), used("uid_map", write("0 0 1 1", 7)),
                   used("uid_map", write(r"0 0 1\n\n", 7)), used("uid_map", write("0 -1 1", 6)),
                   used("uid_map", write("0 0 4294967296", 14)), used("gid_map", write(r"\n", 1)),
                   used("setgroups", write("Deny", 4)), used("setgroups", write(r"deny\n\n", 6)),
                   used("uid_map", 'write(1000000, "0 0 1"..., 5) = 5'), used("uid_map", "write(1000000, 0x1, 5) = 5")],
    "argument 3": ["100 setresuid(0, 0, 0000) = 0\n", '100 execve("/x", [], [\"A=1\"]) = 0\n',
                   "100 prctl(PR_SET_NO_NEW_PRIVS, 1, 1, 0, 0) = 0\n", used("uid_map", write("0 0 1", 6)),
                   "100 prctl(PR_CAP_AMBIENT, PR_CAP_AMBIENT_RAISE, 0x9, 0, 0) = 0\n"],
    "argument 5": ["100 prctl(PR_CAP_AMBIENT, PR_CAP_AMBIENT_RAISE, CAP_KILL, 0, 0x1) = 0\n"],
    "result": ["100 setuid(0) = 1\n", "100 setuid(0) = 00\n", "100 setuid(0) = ?\n", "100 setuid(0) = -1\n",
               "100 setuid(0) = -1 EPERM\n", "100 setuid(0) = -1 EBADF (Bad file descriptor)\n",
               "100 setuid(0) = 0 <0.000012>\n", f"100 setfsuid(0) = {EPERM}\n", "100 setfsuid(0) = -1\n",
               "100 setfsuid(0) = 4294967296\n", "100 fork() = 0\n", "100 fork() = 4194305\n",
               "100 fork() = 2 /* 101 in strace's PID NS */\n", "100 clone(flags=0) = -1 E2BIG\n",
               "100 getuid() = ?\n", "100 getuid() = x\n", "100 getuid() = 007\n",
               f'100 open("/proc/200/uid_map", O_WRONLY) = {EPERM}\n',
               '100 open("/proc/200/uid_map", O_WRONLY) = 3</proc/200/uid_map>\n',
               "100 unshare(CLONE_NEWUSER) = -1 ENOSYS (Function not implemented)\n",
               used("uid_map", write("0 0 1", 5, "4")), f"100 close(3) = {EPERM}\n", "100 close(3) = 1\n"],
    "process": ["300 setuid(0) = 0\n", "300 getuid() = 0\n", "300 +++ exited with 0 +++\n",
                used("uid_map", write("0 0 1", 5), pid=300), "300 close(3) = 0\n"],
    "apart": ["100 close(3) = 0\n", "100 write(3, \"0 0 1\", 5) = 5\n", "100 setns(3, CLONE_NEWUSER) = 0\n"],
}


class Refusals(unittest.TestCase):
    """Lines that a recording hasn't."""

    def test_words(self) -> None:
        """Each with its number, whatever stands after it."""
        for word, logs in REFUSED.items():
            for log in logs:
                number = 2 + (log.count("\n") == 3)
                if word == "process":
                    number = 2
                more = "" if word == "torn" else "x"
                self.assertEqual(refusal(f"100 setuid(0) = 0\n{log}{more}"), f"not judged: line {number}: {word}", log)

    def test_the_first_counts(self) -> None:
        self.assertEqual(refusal("100 getuid() = 0\n\n100 x() = 0\n"), "not judged: line 2: pid")
        self.assertEqual(refusal("100 setresuid(x, y, 0, 0) = z\n"), "not judged: line 1: count")
        self.assertEqual(refusal("300 setresuid(0, y, x) = z\n"), "not judged: line 1: argument 2")
        self.assertEqual(refusal("300 setuid(0) = z\n"), "not judged: line 1: result")
        self.assertEqual(refusal("300 close(3) = 0\n"), "not judged: line 1: process")

    def test_processes(self) -> None:
        """Births come before all lines of the child, and none after its end."""
        for log, number in (("101 getuid() = 0\n100 fork() = 101\n", 1), ("100 fork() = 101\n102 getuid() = 0\n", 2),
                            ("100 fork() = 101\n101 +++ exited with 0 +++\n101 getuid() = 0\n", 3),
                            ("200 +++ killed by SIGKILL +++\n" + used("uid_map", write("0 0 1", 5)), 2)):
            self.assertEqual(refusal(log), f"not judged: line {number}: process", log)

    def test_apart(self) -> None:
        whole = used("uid_map", write("0 1000 1", 8))
        first, second, third = whole.splitlines(keepends=True)
        other, asks = "100 setuid(0) = 0\n", "200 getuid() = 65534\n"
        for log, number in (
                (first, 1), (first + second, 2), (first + third, 2), (first + other, 2), (first + asks + second, 2),
                (first + second + asks + third, 3), (first + second + second, 3), (first + first, 2),
                (first + second.replace("100 ", "200 ", 1) + third, 2),
                (first + second + third.replace("100", "200", 1), 3),
                (first + second.replace("1000000", "1000001") + third, 2), (whole + third, 4), (second + third, 1),
                (first + "100 setns(1000000, CLONE_NEWUSER) = 0\n" + third, 2),
                (first + "100 +++ exited with 0 +++\n", 2),
                ('100 open("/proc/200/ns/user", O_RDONLY) = 1000000\n' + second + third, 2)):
            self.assertEqual(refusal(log), f"not judged: line {number}: apart", log)
        self.assertEqual(refusal(whole + whole), "it is read")

    def test_long_lines(self) -> None:
        """Whatever a line has, it is refused at once."""
        for line in ('"a"..., ' * 100000, '"' * 1000001, '["' * 500000, "\\" * 1000000, "a, " * 300000, "(" * 1000000):
            for front in ("", "[", "{", '"'):
                self.assertEqual(refusal(f"100 execve({front}{line}\n"), "not judged: line 1: shape")
        self.assertEqual(refusal(f"100 unshare({'A|' * 500000}) = 0\n"), "not judged: line 1: argument 1")
        self.assertEqual(refusal(f"100 setuid({'9' * 1000000}) = 0\n"), "not judged: line 1: argument 1")

    def test_limits(self) -> None:
        self.assertEqual(refusal("100 getuid() = 0\n" + "x" * 1048577), "limit line 1048576")
        self.assertEqual(refusal("x" * 1048577 + "\n"), "limit line 1048576")
        many = f"100 setgroups(1025, [{', '.join(['1'] * 1025)}]) = 0\n"
        self.assertEqual(refusal(many), "limit groups 1024")
        self.assertEqual(refusal(many.replace("100 ", "300 ", 1)), "not judged: line 1: process")


# ---- the page


def section(front: str, end: str) -> list[list[str]]:
    """The rows of the tables between two headings, each with its cells."""
    with open(PAGE, encoding="utf-8") as file:
        text = file.read()
    rows = text[text.index(front):text.index(end)].replace(r"\|", "\0").split("\n")
    return [[cell.strip().replace("\0", "|") for cell in row.strip("|").split("|")] for row in rows
            if row.startswith("| ")]


CAP = r"(?:CAP_[A-Z_]+|0x[0-9a-f]+ /\* CAP_\?\?\? \*/)"
SET = r"(?:0|1<<CAP_[A-Z_]+(?:\|1<<CAP_[A-Z_]+)*)"
DIGITS = "(?:0|[1-9][0-9]*)"
ERROR = r"-1 E[A-Z0-9]+ \([A-Za-z ]+\)"
KINDS = {
    "PID": DIGITS, "CHILD": DIGITS, "OTHER": DIGITS, "NUMBER": DIGITS, "LENGTH": DIGITS, "FD": DIGITS,
    "ID": f"(?:-1|{DIGITS})", "ZERO": "(?:0|0x0|NULL)", "CAP": CAP, "SET": SET, "DONE": f"(?:0|{ERROR})",
    "UNKNOWN": r"0x[0-9a-f]+ /\* PR_CAP_AMBIENT_\?\?\? \*/", "BITS": r"(?:0|SECBIT_\w+(?:\|SECBIT_\w+)*)",
    "VERSION": "_LINUX_CAPABILITY_VERSION_[123]", "OWN": DIGITS, "FLAGS": r"\w+(?:\|\w+)*(?: /\*.*?\*/)?",
    "TEXT": r'(?:[^"\\]|\\.)*', "ANY": rf"(?:{CAP}|\w+|\[[^]]*\]|\{{[^}}]*\}})", "ERROR": ERROR, "STATUS": "[0-9]+",
    "SIGNAL": "[A-Z0-9_]+", "ANSWER": rf"(?:{ERROR}|(?:{DIGITS}|0x[0-9a-f]+)(?: \([^()]+\))?)",
    "WRITTEN": f"(?:{DIGITS}|{ERROR})", "MARKED": "[a-z][a-z0-9_]*"}


def pattern(body: str) -> re.Pattern[str]:
    """A body of the page as a regular expression."""
    parts = re.split(r"(\b(?:" + "|".join(KINDS) + r")\b(?!_)|, \.\.)", body)
    return re.compile("".join(KINDS.get(part, f"(?:, {KINDS['ID']})*" if part == ", .." else re.escape(part))
                              for part in parts))


class Page(unittest.TestCase):
    """docs/CHECKER.md and the cases above have the same."""

    def test_bodies(self) -> None:
        """Each body of the page has a case, and each case a body."""
        bodies = [span for row in section("### Ends", "### Kinds") for span in re.findall("`([^`]*)`", row[0])
                  if " = " in span or span.startswith("+++")]
        patterns = {body: pattern(body) for body in bodies}
        self.assertGreater(len(bodies), 50)
        lines = NO_EVENTS + [body for body, *_ in EVENTS]
        for file, second, *_ in USES:
            lines += [line.partition(" ")[2] for line in used(file, second).splitlines()]
        lines += [line.partition(" ")[2] for line in used("ns/user", "setns(1000000, CLONE_NEWUSER) = 0",
                                                          "O_RDONLY").splitlines()]
        for line in lines:
            self.assertTrue(any(each.fullmatch(line) for each in patterns.values()), line)
        for body, each in patterns.items():
            self.assertTrue(any(map(each.fullmatch, lines)), body)

    def test_kinds(self) -> None:
        told = {kind for row in section("### Kinds", "## Refusals") for kind in re.findall("[A-Z]{2,}", row[0])}
        self.assertEqual(told - {"WRITTEN"}, set(KINDS) - {"WRITTEN"})

    def test_refusals(self) -> None:
        told = {row[0].strip("`") for row in section("## Refusals", "After these come")} - {"WORD"}
        self.assertEqual(told, {re.sub("[0-9]+", "N", word) for word in REFUSED})


if __name__ == "__main__":
    unittest.main()
