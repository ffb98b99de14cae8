"""Worlds and logs as strangers might bring them, for mutate.py: those of examples/ and some built-in ones, which use
every table, key and call and stand at the limits; and changes that cut, double, swap, flip and replace bytes, tokens,
keys and rows of them. Logs have both forms, script and strace; some of strace are drawn by draw_strace_logs.py.

All that is drawn comes of the random.Random that is handed in, so a case can be made again from its number.
"""
import glob
import os
import re
from collections.abc import Callable, Iterator, Sequence
from random import Random
from typing import TypeVar

from plain.reader import CALLS, ERRORS, KEYS
from plain.rules import CAPABILITIES
from strangers.draw_strace_logs import Draws
from strangers.odd_strace_logs import LOGS

EXAMPLES = os.path.normpath(os.path.join(os.path.dirname(os.path.abspath(__file__)), "..", "..", "examples"))
ATTRIBUTE = "0100000200200000000000000000000000000000"
ATTRIBUTE_3 = "0100000300200000000000000000000000000000a0860100"
Change = Callable[[Random, bytes], bytes]       # what is made of a text
Items = TypeVar("Items", bytes, list[bytes])    # a text, or its tokens, lines or rows

# ---- what is changed -----------------------------------------------------------------------------------------------

EVERY_TABLE = f"""log = "script"
[[space]]
name = "box"
parent = "init"
owner = 1000
uid_map = [[0, 100000, 65536]]
gid_map = [[0, 100000, 65536], [65536, 300000, 10]]
setgroups = "allow"
creator_setfcap = true
[[space]]
name = "inner.1"
parent = "box"
owner = 100000
uid_map = [[0, 1000, 1000]]
setgroups = "deny"
creator_setfcap = false
[[mount]]
name = "data"
space = "box"
nosuid = false
noexec = false
fs_uid_map = [[0, 0, 4294967295]]
fs_gid_map = [[0, 0, 1000], [2000, 1000, 5]]
uid_map = [[0, 100000, 65536]]
gid_map = [[0, 100000, 65536]]
[[mount]]
name = "usb"
nosuid = true
noexec = true
[[file]]
path = "/bin/su"
mount = "root"
uid = 0
gid = 0
mode = "4755"
[[file]]
path = "/data/ping"
mount = "data"
uid = 0
gid = 0
mode = "0755"
caps = "{ATTRIBUTE_3}"
[[file]]
path = "/usb/game"
mount = "usb"
uid = 0
gid = 60
mode = "2755"
caps = "{ATTRIBUTE}"
[[file]]
path = "/bin/script"
uid = 1000
gid = 1000
mode = "0755"
interpreter = "/bin/su"
[[process]]
pid = 100
uid = 0
gid = 0
[[process]]
pid = 101
parent = 100
space = "box"
uid = [100000, 100000, 100000, 100000]
gid = 100000
groups = [100005, 100001]
permitted = "all"
effective = "CAP_SETUID,CAP_SETGID,CAP_SYS_ADMIN,CAP_SETPCAP"
inheritable = "CAP_NET_RAW"
ambient = "0000000000002000"
bounding = "all"
securebits = 0
no_new_privs = false
[[process]]
pid = 102
parent = 101
space = "inner.1"
uid = 101005
gid = 100005
permitted = "none"
effective = "none"
[[process]]
pid = 103
uid = [1000, 1001, 1002, 1001]
gid = [1000, 1001, 1002, 1001]
[filter]
exclude = ["unshare", "clone_user", "setns"]
"""
EVERY_CALL = """; each call of the table
103 setuid 1000 = 0
103 setreuid -1 1001 = EPERM
103 setresuid 1002 -1 -1 = 0
103 setfsuid 1001 = 1000
103 setgid 1002 = 0
103 setregid 1000 1000 = 0
103 setresgid -1 -1 1000 = 0
103 setfsgid 5 = 1000

101 setgroups 5 1 65536 = 0
101 capset 00000000000020c0 CAP_NET_RAW,CAP_SETUID,CAP_SETGID none = 0
100 bset_drop CAP_SYS_TIME = 0
100 capset all all CAP_NET_RAW,CAP_KILL = 0
100 amb_raise CAP_KILL = 0
100 amb_raise 13 = 0
100 amb_lower 13 = 0
100 amb_lower 41 = EINVAL
100 amb_clear = 0
100 securebits 64 = 0
100 keepcaps 1 = 0
103 no_new_privs 1 = 0
100 fork = 104
104 clone_user = 105
104 unshare = 0
100 write_setgroups #3 deny = 0
104 write_uid_map #3 0 0 1 = EPERM
100 write_uid_map #4 0 0 1 10 1000 100 = 0
100 write_gid_map #4 0 0 4294967295 = 0
100 write_gid_map #4 = EPERM
100 write_gid_map #3 = EINVAL
104 setns #4 = EINVAL
100 setns box = 0
102 setns init = EPERM
103 execve /bin/su = 0
101 execve /data/ping = 0
102 execve /bin/script = 0
103 execve /usb/game = EACCES
103 install setfsuid setns setfsuid = 0
103 setfsuid 5 = EPERM
103 fork = 106
106 setns init = EPERM
106 install = 0
102 install setuid = EACCES
100 execve - = 0
104 fork = ENOMEM
104 exit = 0
105 exit = 0
"""
STRACE_TABLE = EVERY_TABLE.replace("script", "strace", 1)
EVERY_STRACE_CALL = r"""103 setuid32(1000)                    = 0
103 setreuid(-1, 1001)                = -1 EPERM (Operation not permitted)
103 setresuid(1002, -1, -1 <unfinished ...>
100 read(3,  <unfinished ...>
103 <... setresuid resumed>)          = 0
103 setfsuid(1001)                    = 1000
103 setgid(1002)                      = 0
103 setregid(1000, 1000)              = 0
103 setresgid(-1, -1, 1000)           = 0
103 setfsgid(5)                       = 1000
100 <... read resumed>"\177ELF"..., 832) = 832
101 setgroups(3, [5, 1, 65536])       = 0
""" + ("101 capset({version=V3, pid=0}, {effective=1<<CAP_SETUID|1<<CAP_KILL, permitted=1<<CAP_SETUID|1<<CAP_KILL,"
       " inheritable=0}) = 0\n") + r"""100 prctl(PR_CAPBSET_DROP, CAP_SYS_TIME) = 0
100 prctl(PR_CAPBSET_DROP, 0x2a /* CAP_??? */) = -1 EINVAL (Invalid argument)
100 prctl(PR_CAP_AMBIENT, PR_CAP_AMBIENT_RAISE, CAP_KILL, 0, 0) = -1 EPERM (Operation not permitted)
100 prctl(PR_CAP_AMBIENT, PR_CAP_AMBIENT_LOWER, CAP_KILL, 0, 0) = 0
100 prctl(PR_CAP_AMBIENT, PR_CAP_AMBIENT_CLEAR_ALL, 0, 0, 0) = 0
100 prctl(PR_SET_SECUREBITS, SECBIT_NO_SETUID_FIXUP|SECBIT_NO_CAP_AMBIENT_RAISE) = 0
100 prctl(PR_SET_KEEPCAPS, 1)         = 0
103 prctl(PR_SET_NO_NEW_PRIVS, 1, 0, 0, 0) = 0
100 clone(child_stack=NULL, flags=CLONE_CHILD_CLEARTID|CLONE_CHILD_SETTID|SIGCHLD <unfinished ...>
104 mmap(NULL, 8192, PROT_READ, MAP_PRIVATE, -1, 0) = 0x7f2a00000000
104 clone3({flags=CLONE_NEWUSER, exit_signal=SIGCHLD, stack=NULL}, 88 <unfinished ...>
105 execve("/bin/su", ["su", "a, b) = 0"], 0x7ffd /* 3 vars */) = 0
104 <... clone3 resumed>)             = 105
100 <... clone resumed>, child_tidptr=0x7f2a) = 104
100 openat(AT_FDCWD, "/proc/105/uid_map", O_WRONLY|O_CLOEXEC) = 3
100 write(3, "0 0 1\n10 1000 100\n", 18) = 18
100 openat(AT_FDCWD, "/proc/self/task/105/gid_map", O_RDWR) = 4
100 write(4, "", 0)                   = -1 EINVAL (Invalid argument)
100 openat(AT_FDCWD, "/proc/105/setgroups", O_WRONLY) = 5
100 write(5, "deny", 4)               = 4
100 openat(AT_FDCWD, "/proc/101/ns/user", O_RDONLY|O_CLOEXEC) = 6
100 setns(6, CLONE_NEWUSER)           = 0
100 close(4)                          = 0
103 execveat(AT_FDCWD, "/usr/game", [], NULL, 0) = -1 EACCES (Permission denied)
103 dup2(3, 1)                        = 1
103 fcntl(3, F_DUPFD_CLOEXEC, 0)      = 5
104 unshare(CLONE_NEWUSER|CLONE_NEWNS) = 0
105 --- SIGTERM {si_signo=SIGTERM} ---
105 +++ killed by SIGTERM +++
104 exit_group(0)                     = ?
104 +++ exited with 0 +++
"""
SMALL_STRACE = """1 setuid(5) = 0
2 setuid(5) = -1 EPERM (Operation not permitted)
3 exit_group(0) = ?
3 +++ exited with 0 +++
1 setfsuid(0) = 5
2 fork() = 3
"""
DRAWN_WORLD = """log = "strace"
[[file]]
path = "/bin/su"
uid = 0
gid = 0
mode = "4755"
[[process]]
pid = 200
uid = 0
gid = 0
"""
SMALL = 'log = "script"\n[[process]]\npid = 1\n[[process]]\npid = 2\nuid = 1000\n'
SMALL_LOG = "1 setuid 5 = 0\n2 setuid 5 = EPERM\n1 setfsuid 0 = 5\n2 fork = 3\n3 exit = 0\n"
WEAK_LOG = "1 setresuid -1 7 -1 = 0\n1 setresuid -1 0 -1 = 0\n1 setresuid 5 5 5 = 0\n"


def many(count: int, row: str) -> str:
    """A world of rows with the numbers from 1 on."""
    return 'log = "script"\n' + "".join(row % number for number in range(1, count + 1))


def chain(levels: int) -> str:
    """A world of spaces, each below the one before it."""
    names = ["init"] + [f"s{level}" for level in range(1, levels + 1)]
    row = '[[space]]\nname="{}"\nparent="{}"\nowner=0\n'
    return 'log = "script"\n' + "".join(row.format(name, above) for above, name in zip(names, names[1:]))


def at_the_limits() -> list[tuple[str, str]]:
    """Worlds and logs that stand at a limit or exceed it."""
    ids = " ".join(map(str, range(1024)))
    one = 'log = "script"\n[[process]]\npid = 1\n'
    return [
        (many(255, '[[space]]\nname="s%d"\nparent="init"\nowner=0\n') + "[[process]]\npid=1\n", "1 unshare = 0\n"),
        (many(254, '[[space]]\nname="s%d"\nparent="init"\nowner=0\n') + "[[process]]\npid=1\n",
         "1 unshare = 0\n1 unshare = EPERM\n"),
        (many(63, '[[mount]]\nname="m%d"\n'), ""),
        (many(4096, '[[file]]\npath="/%d"\nuid=0\ngid=0\nmode="1"\n'), ""),
        (many(4096, "[[process]]\npid=%d\n"), "1 fork = 5000\n"),
        (many(4095, "[[process]]\npid=%d\n"), "1 fork = 5000\n1 fork = EPERM\n"),
        (one + f"groups=[{ids.replace(' ', ',')}]\n", f"1 setgroups {ids} = 0\n1 setgroups {ids} = 0\n"),
        (one, ";" * 1048576 + "\n1 setuid 1 = 0\n" + " " * 1048560 + "1 setuid 0 = EPERM\n"),
        (one + "#" * (1048576 - len(one)), SMALL_LOG),
        (one + f"groups=[{'5,' * 1025}]\n", ""),
        (one, f"1 setgroups {ids} 1 = 0\n"),
        (one, ";" * 1048577 + "\n"),
        (chain(33), ""),
        (chain(32) + "[[process]]\npid=1\nspace=\"s32\"\n", "1 unshare = ENOSPC\n1 unshare = 0\n"),
        (one + f"uid = {'[' * 79}0{']' * 79}\n", SMALL_LOG),
        (one.replace("1\n", "1\n" + "".join(f"{'k' * at}=0\n" for at in range(1, 1000))), SMALL_LOG),
    ]


def strace_at_the_limits() -> list[str]:
    """Logs of strace that stand at a limit or exceed it, for a world with the process 200."""
    def groups(count: int) -> str:
        return f"200 setgroups({count}, [{', '.join(['7'] * count)}]) = 0\n"

    def opens(count: int) -> str:
        return "".join(f'200 openat(3, "/proc/self/ns/user", O_RDONLY) = {fd}\n' for fd in range(count))

    chain_of_births = "".join(f"{pid} fork() = {pid + 1}\n" for pid in range(300, 1800))
    return [
        "300 x\n" * 4096 + "200 fork() = 300\n" + "301 x\n" * 4096 + "200 fork() = 301\n", "300 x\n" * 4097,
        chain_of_births + "200 fork() = 300\n", groups(1024), groups(1025),
        opens(65536) + "200 setns(65535, 0) = -1 EINVAL\n", opens(65537), opens(32769) + "200 fork() = 300\n",
        "200 " + "x" * 1048572 + "\n200 setuid(0) = 0\n", "200 " + "x" * 1048573,
    ]


def read(path: str) -> bytes:
    """The bytes of a file."""
    with open(path, "rb") as file:
        return file.read()


def examples() -> Iterator[tuple[bytes, bytes]]:
    """Each world of examples/, with each log beside it."""
    for world in sorted(glob.glob(os.path.join(EXAMPLES, "*", "*.toml"))):
        folder = os.path.dirname(world)
        for log in sorted(glob.glob(os.path.join(folder, "log")) + glob.glob(os.path.join(folder, "*.log"))):
            yield read(world), read(log)


def recorded() -> Iterator[tuple[bytes, bytes]]:
    """Of each recording of strace in examples/ the world beside it, and the log."""
    logs = glob.glob(os.path.join(EXAMPLES, "*", "*.strace")) + glob.glob(os.path.join(EXAMPLES, "strace", "*", "log"))
    for log in sorted(logs):
        yield read(os.path.join(os.path.dirname(log), "world.toml")).replace(b'"script"', b'"strace"', 1), read(log)


class Strangers:
    """The texts that are changed, and what is drawn of them."""
    LIMITS = 0.005      # how often one of the large texts is drawn
    STRACE = 0.2        # how often a log of strace is, half of them by draw_strace_logs.py

    def __init__(self) -> None:
        built_in = [(EVERY_TABLE, EVERY_CALL)] * 3 + [(SMALL, SMALL_LOG), (SMALL[:SMALL.rindex("[[")], WEAK_LOG)]
        self.texts = [(world.encode(), log.encode()) for world, log in built_in] + list(examples())
        of_strace = [(STRACE_TABLE, EVERY_STRACE_CALL)] * 15 + [(SMALL.replace("script", "strace"), SMALL_STRACE)]
        self.large_strace = [log.encode() for log in strace_at_the_limits()]
        self.of_strace = [(world.encode(), log.encode()) for world, log in of_strace] + list(recorded())
        self.odd_strace = [log.encode("latin-1") for log in LOGS if len(log) < 20000]
        self.large = [(world.encode(), log.encode()) for world, log in at_the_limits()]

    def draw(self, rng: Random) -> tuple[bytes, bytes]:
        """A changed world and a changed log; one of the two may be as it was."""
        if rng.random() < self.STRACE:
            return self.draw_strace(rng)
        is_large, which = rng.random() < self.LIMITS, rng.random()
        world, log = rng.choice(self.large if is_large else self.texts)
        if which < 0.6:
            world = changed(rng, world, (of_rows,) if is_large else WORLD_CHANGES)
        if which >= 0.5 and not is_large:
            log = changed(rng, log, LOG_CHANGES)
        return world, log

    def draw_strace(self, rng: Random) -> tuple[bytes, bytes]:
        """A world and a log of strace, both changed or drawn, or as they were."""
        if rng.random() < self.LIMITS:
            return DRAWN_WORLD.encode(), rng.choice(self.large_strace)
        if rng.random() < 0.5:
            drawn = "".join(line + "\n" for line in Draws(rng.randrange(1 << 32), "any").log())
            return DRAWN_WORLD.encode(), drawn.encode("latin-1")
        if rng.random() < 0.3:
            log = rng.choice(self.odd_strace)
            return DRAWN_WORLD.encode(), changed(rng, log, STRACE_CHANGES) if rng.random() < 0.5 else log
        world, log = rng.choice(self.of_strace)
        if rng.random() < 0.2:
            world = changed(rng, world, WORLD_CHANGES)
        return world, changed(rng, log, STRACE_CHANGES)


# ---- bytes ---------------------------------------------------------------------------------------------------------


def span(rng: Random, items: Items) -> tuple[int, int]:
    """Where some items that follow one another begin and end; mostly few."""
    begin = rng.randrange(len(items) + 1)
    return begin, min(len(items), begin + 1 + int(rng.expovariate(0.5)))


def cut(rng: Random, items: Items) -> Items:
    """Some items go."""
    begin, end = span(rng, items)
    return items[:begin] + items[end:]


def double(rng: Random, items: Items) -> Items:
    """Some items stand twice."""
    begin, end = span(rng, items)
    return items[:end] + items[begin:]


def swap(rng: Random, items: Items) -> Items:
    """Some items and others change places."""
    (begin, end), (other, last) = sorted((span(rng, items), span(rng, items)))
    end = min(end, other)
    return items[:begin] + items[other:last] + items[end:other] + items[begin:end] + items[last:]


def move(rng: Random, items: Items) -> Items:
    """Some items come to another place."""
    begin, end = span(rng, items)
    rest = items[:begin] + items[end:]
    at = rng.randrange(len(rest) + 1)
    return rest[:at] + items[begin:end] + rest[at:]


def end_early(rng: Random, items: Items) -> Items:
    """What follows a place goes."""
    return items[:rng.randrange(len(items) + 1)]


def shaped(rng: Random, items: Items) -> Items:
    """One of these four changes."""
    shapes: Sequence[Callable[[Random, Items], Items]] = (cut, double, swap, move)
    return rng.choice(shapes)(rng, items)


def flip(rng: Random, text: bytes) -> bytes:
    """One bit is turned."""
    if not text:
        return text
    at = rng.randrange(len(text))
    return text[:at] + bytes([text[at] ^ 1 << rng.randrange(8)]) + text[at + 1:]


SOME_BYTES = (b"\x00", b"\t", b"\n", b"\x0b", b"\r", b"\r\n", b" ", b'"', b"#", b"'", b",", b";", b"=", b"[", b"]",
              b"\\", b"{", b"}", b".", b"-", b"_", b"0", b"9", b"\x7f", b"\x80", b"\xc3\xa4", b"\xef\xbb\xbf", b"\xff")


def insert(rng: Random, text: bytes) -> bytes:
    """Some bytes come in, at times in the place of one."""
    at = rng.randrange(len(text) + 1)
    return text[:at] + rng.choice(SOME_BYTES) + text[at + rng.randrange(2):]


def of_bytes(rng: Random, text: bytes) -> bytes:
    """A change of bytes."""
    ways: tuple[Change, ...] = (flip, insert, shaped, end_early)
    return rng.choice(ways)(rng, text)


# ---- tokens --------------------------------------------------------------------------------------------------------

NUMBERS = ("0 1 2 3 5 7 40 41 64 100 101 102 103 104 255 256 340 1000 65535 65536 100000 4194304 4194305 4294967294"
           " 4294967295 4294967296 -1 -0 +1 00 007 1_000 0x10 9223372036854775807 9223372036854775808"
           " -9223372036854775809 99999999999999999999").split()
NAMES = ["init", "root", "box", "inner.1", "data", "usb", "none", "all", "allow", "deny", "script", "strace", "a" * 32,
         "a" * 33, "#0", "#1", "#3", ""]
PATHS = ["/bin/su", "/bin/script", "/data/ping", "/usb/game", "-", "=", "/x y", "/\\u007f", "a" * 4095, "a" * 4096,
         "\u00e4"]
SETS = ["CAP_KILL", "CAP_SETUID,CAP_SETGID", "CAP_NO", "CAP_KILL,", "000001ffffffffff", "FFFFFFFFFFFFFFFF",
        "00000000000000000", "000000000000002g"] + ["CAP_" + name for name in CAPABILITIES[::8]]
MODES = ["4755", "0", "8", "77777", "7777", "2010", "1"]
ATTRIBUTES = [ATTRIBUTE, ATTRIBUTE_3, ATTRIBUTE[2:], ATTRIBUTE[:-1] + "g", "02" + ATTRIBUTE[2:]]
TEXTS = NAMES + PATHS + SETS + MODES + ATTRIBUTES
LISTS = ["[]", "[0]", "[1, 2, 3]", "[1, 2, 3, 4]", "[0, -1, 0, 0]", "[[0, 0, 1]]", "[[0, 100000, 65536]]",
         "[[0, 0, 0]]", "[[0, 0, 4294967295]]", "[[1, 0, 4294967295]]", "[[0, 0, 2], [1, 5, 1]]",
         "[[0, 0, 4294967296]]", "[[0, 0]]", "[[0, 1000, 65536]]", '["setuid"]', '["setuid", "no"]', '["x", 1]',
         "[1, \"x\"]", "[[]]"]
VALUES = NUMBERS + LISTS + [f'"{text}"' for text in TEXTS] + ["true", "false", "1.5", "{}", "inf", "''", '""""""']
LOG_TOKENS = [token.encode() for token in (
    NUMBERS + NAMES + PATHS + SETS + list(ERRORS) + ["=", ";", "#9", "#300", "#4294967296", "#"])]
LOG_TOKENS += list(CALLS) + [b"\xff", b"\x0b", b"x\x00y", b"\x7f"]

STRACE_TOKENS = [token.encode() for token in (
    NUMBERS + list(ERRORS) + PATHS
    + ["<unfinished ...>", "<... read resumed>", '"0 \\60 1"', '"\\400"', '"deny"', '"uid_map"']
    + ['"/proc/self/uid_map"', '"/proc/104/ns/user"'] + list("()[]{},|=?")
    + "0 = -1 NULL ... 104 201 +++ --- exited superseded CLONE_FILES CLONE_NEWUSER flags=CLONE_NEWUSER O_WRONLY O_RDWR"
      " O_CLOEXEC SIGCHLD AT_FDCWD CAP_KILL 1<<CAP_KILL SECBIT_NOROOT ENOSYS ESRCH fork clone3 setns dup write pwrite64"
      " open close setuid32 exit_group".split())]

# Values of the kind that a key asks for, not all of them good ones.
IDS = ["0", "1000", "100000", "100005", "4294967294", "4294967295", "-1"]
FLAGS, SETS_QUOTED = ["true", "false", "1"], [f'"{text}"' for text in ["all", "none", *SETS]]
SPACES = ['"init"', '"box"', '"inner.1"', '"nobody"', '"#1"']
MAPS = [one for one in LISTS if one.startswith("[[")] + ["[]"]
MAPS += ["[[0, 100000, 10], [20, 100020, 10]]", "[[0, 0, 10], [9, 20, 10]]", "[[7, 1500, 1]]", "[[0, 65530, 100]]"]
PLAUSIBLE = {
    "log": ['"script"', '"strace"', '"Script"'],
    "name": [f'"{text}"' for text in NAMES], "parent": SPACES + ["100", "101", "7"],
    "owner": IDS, "uid_map": MAPS, "gid_map": MAPS, "fs_uid_map": MAPS, "fs_gid_map": MAPS,
    "setgroups": ['"allow"', '"deny"', '"Deny"'], "creator_setfcap": FLAGS,
    "space": SPACES, "nosuid": FLAGS, "noexec": FLAGS,
    "path": [f'"{text}"' for text in PATHS], "mount": ['"root"', '"data"', '"usb"', '"init"'],
    "uid": IDS + ["[0, 1, 2, 3]", "[1, 2, 3]"], "gid": IDS + ["[0, 1, 2, 3]", "[0, 0, 0, -1]"],
    "mode": [f'"{text}"' for text in MODES], "interpreter": ['"/bin/su"', '"/bin/script"', '"/usb/game"', '"-"'],
    "caps": [f'"{text}"' for text in (*ATTRIBUTES, "")],
    "pid": ["1", "100", "101", "4194304", "4194305", "0"], "groups": ["[]", "[5, 5, 0]", "[4294967295]"],
    "securebits": ["0", "16", "255", "256", "-1"], "no_new_privs": FLAGS,
    "exclude": ['["setuid", "exit"]', '["setuid", "no"]', '["Exit"]', "[]", "[1]"],
    **dict.fromkeys(("permitted", "effective", "inheritable", "ambient", "bounding"), SETS_QUOTED),
}

WORLD_TOKEN = re.compile(rb'"[^"\n]*"|[A-Za-z0-9_.+-]+|\s+|.', re.DOTALL)
LOG_TOKEN = re.compile(rb"[^ \t\r\n]+|[ \t\r]+|\n")
STRACE_TOKEN = re.compile(rb'"(?:[^"\\\n]|\\.)*"|<?[A-Za-z0-9_.+-]+>?|[ \t\r]+|.', re.DOTALL)


def replaced(rng: Random, tokens: list[bytes], some: Sequence[bytes]) -> list[bytes]:
    """One token that isn't blank becomes another."""
    places = [at for at, token in enumerate(tokens) if token.strip()]
    if not places:
        return tokens
    at = rng.choice(places)
    return tokens[:at] + [rng.choice(some)] + tokens[at + 1:]


def of_tokens(pattern: re.Pattern[bytes], some: Sequence[bytes]) -> Change:
    """A change of tokens, as the pattern finds them, of which one may become one of these."""
    def change(rng: Random, text: bytes) -> bytes:
        tokens: list[bytes] = pattern.findall(text)
        return b"".join(replaced(rng, tokens, some) if rng.random() < 0.6 else shaped(rng, tokens))
    return change


# ---- keys ----------------------------------------------------------------------------------------------------------

KEY = re.compile(rb"(\w+)\s*=\s*(.*)")
ALL_KEYS = sorted({key.encode() for table in KEYS.values() for key in table.kinds} | {b"x"})
SOME_VALUES = [value.encode() for value in VALUES]


def of_keys(rng: Random, text: bytes) -> bytes:
    """A key is put in, taken out, doubled, renamed, or given another value or that of another key."""
    lines = text.split(b"\n")
    with_keys = {at: found for at, found in enumerate(map(KEY.match, lines)) if found}
    places = list(with_keys)
    if not places:
        return text
    at, other = rng.choice(places), rng.choice(places)
    key, value = with_keys[at].groups()
    how = rng.randrange(7)
    if how == 0:
        lines.insert(at, rng.choice(ALL_KEYS) + b" = " + rng.choice(SOME_VALUES))
    elif how == 1:
        del lines[at]
    elif how == 2:
        lines.insert(at, lines[other])
    elif how == 3:
        lines[at] = rng.choice(ALL_KEYS) + b" = " + value
    elif how == 4:
        lines[at], lines[other] = lines[other], lines[at]
    elif how == 5:
        lines[at] = key + b" = " + with_keys[other].group(2)
    else:
        lines[at] = key + b" = " + rng.choice(SOME_VALUES)
    return b"\n".join(lines)


TABLE = re.compile(rb"\[\[?(\w+)\]")


def of_kinds(rng: Random, text: bytes) -> bytes:
    """A key that its table may have gets a value of the right kind, in the place of what it has or as a new line."""
    lines = text.split(b"\n")
    at = rng.randrange(len(lines))
    headers = [found.group(1).decode() for found in map(TABLE.match, lines[:at + 1]) if found]
    table = headers[-1] if headers and headers[-1] in KEYS else "whole"
    key = rng.choice([key for key in KEYS[table].kinds if key in PLAUSIBLE] or ["log"])
    line = f"{key} = {rng.choice(PLAUSIBLE[key])}".encode()
    begin = next((place for place in range(at, -1, -1) if TABLE.match(lines[place])), -1)
    end = next((place for place in range(begin + 1, len(lines)) if TABLE.match(lines[place])), len(lines))
    own = next((place for place in range(begin + 1, end) if lines[place].split(b" ")[0] == key.encode()), None)
    if own is None:
        lines.insert(begin + 1, line)
    else:
        lines[own] = line
    return b"\n".join(lines)


# ---- rows ----------------------------------------------------------------------------------------------------------

HEADERS = [f"[[{table}]]".encode() for table in KEYS]
HEADERS += [b"[filter]", b"[process]", b"[[process.x]]", b"[]", b"[[space]"]


def of_rows(rng: Random, text: bytes) -> bytes:
    """A row of a world is cut, doubled, moved, or comes to another table."""
    rows = re.split(rb"(?m)^(?=\[)", text)
    if rng.random() < 0.7:
        return b"".join(shaped(rng, rows))
    at = rng.randrange(len(rows))
    rows[at] = re.sub(rb"^\[.*", lambda _: rng.choice(HEADERS), rows[at], count=1)
    return b"".join(rows)


def of_lines(rng: Random, text: bytes) -> bytes:
    """Lines are cut, doubled or moved."""
    return b"".join(shaped(rng, text.splitlines(keepends=True)))


def line_of(rng: Random, text: bytes) -> bytes:
    """A line of tokens that are drawn comes in."""
    lines = text.split(b"\n")
    call = rng.choice(list(CALLS))
    words = [b"%d" % rng.choice((1, 2, 100, 101, 102, 103)), call, *rng.choices(LOG_TOKENS, k=rng.randrange(4)), b"=",
             rng.choice((b"0", b"0", b"EPERM", b"EINVAL", b"7"))]
    lines.insert(rng.randrange(len(lines) + 1), b" ".join(words))
    return b"\n".join(lines)


# ---- changes -------------------------------------------------------------------------------------------------------

Changes = tuple[Change, ...]
WORLD_CHANGES: Changes = (of_bytes, of_tokens(WORLD_TOKEN, SOME_VALUES), of_keys, of_kinds, of_kinds, of_kinds, of_rows)
STRACE_CHANGES: Changes = (of_bytes, *[of_tokens(STRACE_TOKEN, STRACE_TOKENS)] * 3, of_lines, of_lines)
LOG_CHANGES: Changes = (of_bytes, *[of_tokens(LOG_TOKEN, LOG_TOKENS)] * 2, of_lines, line_of)


def changed(rng: Random, text: bytes, changes: Changes) -> bytes:
    """One to five changes, mostly one."""
    for _ in range(min(5, 1 + int(rng.expovariate(1.2)))):
        text = rng.choice(changes)(rng, text)
    return text


PIDS = (b"1", b"2", b"100", b"101", b"0100", b"104", b"0", b"x", b"-1", b"4194305", b"", b"4867")
RIGHTS = (b"uid:0", b"uid:7", b"uid:4294967294", b"uid:4294967295", b"uid:", b"uid:-1", b"gid:0", b"gid:100005",
          b"gid:x",
          b"cap:CAP_SYS_ADMIN@init", b"cap:CAP_KILL@box", b"cap:CAP_KILL@#1", b"cap:CAP_KILL@#00", b"cap:CAP_KILL@#9",
          b"cap:CAP_KILL@#4294967296", b"cap:CAP_KILL@nobody", b"cap:KILL@init", b"cap:CAP_KILL", b"cap:5@init",
          b"cap:@@", b"", b"uid", b"UID:0", b"uid:\xff")
