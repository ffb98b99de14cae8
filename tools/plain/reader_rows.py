"""Hand-made rows for plain/reader.py, and their reading: texts beside what they are by docs/FORMATS.md. For
`plain/reader.py --selftest`. What stands here was worked out by hand from the formats, never from a program's answer.
"""
from collections.abc import Callable
from functools import partial

from plain.reader import CALLS, NotJudged, Refused, World, read_line, read_world

SCRIPT = 'log = "script"\n'
SPACE = '[[space]]\nname = "box"\nparent = "init"\nowner = 1000\n'
BOTH = "uid_map = [[0, 100000, 65536]]\ngid_map = [[0, 100000, 65536]]\n"
MOUNT = '[[mount]]\nname = "m"\n'
FILE = '[[file]]\npath = "/su"\nuid = 0\ngid = 0\nmode = "4755"\n'
PROCESS = "[[process]]\npid = 100\n"
VERSION_2, VERSION_3 = "0100000200200000000000000000000000000000", "010000030020000000000000000000000000000000000000"


def inner(maps: str, parent: str = "box") -> str:
    """A space below another one, with these maps."""
    return f'[[space]]\nname = "inner"\nparent = "{parent}"\nowner = 0\n{maps}'


def chain(levels: int) -> str:
    """Spaces, each below the one before it."""
    names = ["init"] + [f"s{level}" for level in range(1, levels + 1)]
    return "".join(f'[[space]]\nname="{name}"\nparent="{above}"\nowner=0\n' for above, name in zip(names, names[1:]))


def many(count: int, row: str) -> str:
    """Rows with the numbers from 1 on."""
    return "".join(row % number for number in range(1, count + 1))


def extents(count: int) -> str:
    """A map of so many lines."""
    return "uid_map = [" + ", ".join(f"[{number}, {number}, 1]" for number in range(count)) + "]\n"


def bad(table: str, row: int, word: str) -> str:
    """What a report says of that fault."""
    return f"bad world {table} {row}: {word}"


WORLD = "world"
NOT_JUDGED = "not judged"
# What follows SCRIPT, and what the whole text is.
WORLDS = [
    ("", WORLD),
    ("process = []\nspace = []\n[filter]\n", WORLD),
    (SPACE + BOTH + inner("uid_map = [[5, 65535, 1]]\n") + MOUNT + FILE + PROCESS, WORLD),
    # whole
    ("[[process]\n", bad("whole", 0, "Toml")),
    ("x = \n", bad("whole", 0, "Toml")),
    (PROCESS + "uid = 9223372036854775808\n", bad("whole", 0, "Toml")),
    (PROCESS + "uid = 9223372036854775807\n", bad("process", 1, "BadNumber")),
    (PROCESS + "pid = 100\n", bad("whole", 0, "Toml")),
    ("colour = 1\n", bad("whole", 0, "UnknownKey")),
    ("[process]\npid = 1\n", bad("whole", 0, "WrongType")),
    ("[[filter]]\n", bad("whole", 0, "WrongType")),
    ("process = [1]\n", bad("process", 1, "WrongType")),
    ("filter = 1\ncolour = 1\n", bad("whole", 0, "UnknownKey")),
    ('log2 = "script"\n[[space]]\n', bad("whole", 0, "UnknownKey")),
    (PROCESS + "uid = 1979-05-27\n", NOT_JUDGED),
    ("process = [{ pid = 1,\n}]\n", NOT_JUDGED),
    ('process = [{ pid = 1, space = "\\x69" }]\n', NOT_JUDGED),
    ("process = " + "[" * 81 + "]" * 81 + "\n", NOT_JUDGED),
    ("process = [{ pid = 1 }]\n", WORLD),
    # space
    ("[[space]]\ncolour = 1\n", bad("space", 1, "UnknownKey")),
    ('[[space]]\nname = 1\nowner = "x"\n', bad("space", 1, "MissingKey")),
    ('[[space]]\nname = "init"\nparent = "init"\nowner = "x"\n', bad("space", 1, "WrongType")),
    (SPACE + 'setgroups = "Allow"\n', bad("space", 1, "WrongType")),
    (SPACE + "uid_map = [[0, 0]]\n", bad("space", 1, "WrongType")),
    (SPACE + "uid_map = [0, 0, 1]\n", bad("space", 1, "WrongType")),
    (SPACE + "creator_setfcap = 1\n", bad("space", 1, "WrongType")),
    (SPACE + "uid_map = [[0, 0, 4294967296]]\n", bad("space", 1, "BadNumber")),
    (SPACE + "uid_map = [[0, 0, 4294967295]]\n", WORLD),
    (SPACE + "uid_map = [[0, 1, 4294967295]]\n", bad("space", 1, "BadMap")),
    ('[[space]]\nname = "init"\nparent = "x"\nowner = -1\n', bad("space", 1, "BadNumber")),
    ('[[space]]\nname = "init"\nparent = "x"\nowner = 4294967295\n', bad("space", 1, "BadNumber")),
    ('[[space]]\nname = "init"\nparent = "x"\nowner = 4294967294\n', bad("space", 1, "BadName")),
    ('[[space]]\nname = "#1"\nparent = "init"\nowner = 0\n', bad("space", 1, "BadName")),
    (f'[[space]]\nname = "{"a" * 32}"\nparent = "init"\nowner = 0\n', WORLD),
    (f'[[space]]\nname = "{"a" * 33}"\nparent = "init"\nowner = 0\n', bad("space", 1, "BadName")),
    ('[[space]]\nname = "\u00e4"\nparent = "init"\nowner = 0\n', bad("space", 1, "BadName")),
    (SPACE + SPACE.replace("init", "none"), bad("space", 2, "TwiceNamed")),
    (SPACE.replace("init", "box"), bad("space", 1, "NoSuchParent")),
    (SPACE.replace("init", "#0"), bad("space", 1, "NoSuchParent")),
    (SPACE + "uid_map = []\n", bad("space", 1, "BadMap")),
    (SPACE + "uid_map = [[0, 0, 0]]\n", bad("space", 1, "BadMap")),
    (SPACE + "uid_map = [[0, 0, 2], [5, 1, 1]]\n", bad("space", 1, "BadMap")),
    (SPACE + extents(340), WORLD),
    (SPACE + extents(341), bad("space", 1, "BadMap")),
    (SPACE + BOTH + inner("uid_map = [[0, 65535, 2]]\n"), bad("space", 2, "NotMapped")),
    (SPACE + BOTH + inner("uid_map = [[0, 65535, 2]]\ngid_map = []\n"), bad("space", 2, "BadMap")),
    (SPACE + inner("uid_map = [[0, 0, 1]]\n"), bad("space", 2, "NotMapped")),
    (SPACE + "uid_map = [[0, 10, 5], [5, 20, 5]]\n" + inner("uid_map = [[0, 3, 4]]\n"), bad("space", 2, "NotMapped")),
    (chain(32), WORLD),
    (chain(33), bad("space", 33, "TooDeep")),
    (chain(32) + inner("uid_map = [[0, 0, 1]]\n", "s32"), bad("space", 33, "NotMapped")),
    (many(255, '[[space]]\nname="s%d"\nparent="init"\nowner=0\n'), WORLD),
    (many(256, '[[space]]\nname="s%d"\nparent="init"\n'), "limit spaces 256"),
    # mount
    ("[[mount]]\nnosuid = 1\n", bad("mount", 1, "MissingKey")),
    (MOUNT + "nosuid = 1\n", bad("mount", 1, "WrongType")),
    (MOUNT + "uid_map = [[0, 0, 1]]\n", bad("mount", 1, "MissingKey")),
    (MOUNT + "fs_uid_map = [[0, 0, 1]]\n", WORLD),
    (MOUNT + "fs_uid_map = [[0, 0, -1]]\n", bad("mount", 1, "BadNumber")),
    (MOUNT + "fs_gid_map = []\n", bad("mount", 1, "BadMap")),
    (MOUNT + 'space = "x"\nuid_map = []\ngid_map = []\n', bad("mount", 1, "NoSuchSpace")),
    (MOUNT.replace("m\"", "init\""), bad("mount", 1, "BadName")),
    (MOUNT.replace("m\"", "root\""), bad("mount", 1, "TwiceNamed")),
    (MOUNT + MOUNT, bad("mount", 2, "TwiceNamed")),
    (many(63, '[[mount]]\nname="m%d"\n'), WORLD),
    (many(64, '[[mount]]\nname="m%d"\n'), "limit mounts 64"),
    ("mount = [" + "1, " * 64 + "]\n", "limit mounts 64"),
    # file
    ('[[file]]\npath = "/x"\n', bad("file", 1, "MissingKey")),
    (FILE.replace('"4755"', "4755"), bad("file", 1, "WrongType")),
    (FILE.replace("uid = 0", "uid = -1").replace("/su", "-"), bad("file", 1, "BadNumber")),
    (FILE.replace("/su", "-"), bad("file", 1, "BadName")),
    (FILE.replace("/su", "="), bad("file", 1, "BadName")),
    (FILE.replace("/su", ""), bad("file", 1, "BadName")),
    (FILE.replace("/su", "/s u"), bad("file", 1, "BadName")),
    (FILE.replace("/su", "/\\u007f"), bad("file", 1, "BadName")),
    (FILE.replace("/su", "\u00e4"), WORLD),
    (FILE.replace("/su", "a" * 4095), WORLD),
    (FILE.replace("/su", "a" * 4096), bad("file", 1, "BadName")),
    (MOUNT + FILE + FILE + 'mount = "m"\n', bad("file", 2, "TwiceNamed")),
    (FILE + 'mount = "m"\ninterpreter = "/su"\n', bad("file", 1, "NoSuchMount")),
    (FILE + 'interpreter = "/su"\n', bad("file", 1, "NoInterpreter")),
    (FILE + FILE.replace("/su", "/a") + 'interpreter = "/su"\n', WORLD),
    (FILE + FILE.replace("/su", "/a") + 'interpreter = "/su"\n' + FILE.replace("/su", "/b") + 'interpreter = "/a"\n',
     bad("file", 3, "NoInterpreter")),
    (FILE.replace("4755", "47555"), bad("file", 1, "BadMode")),
    (FILE.replace("4755", ""), bad("file", 1, "BadMode")),
    (FILE.replace("4755", "8") + 'caps = "x"\n', bad("file", 1, "BadMode")),
    (FILE.replace("4755", "7"), WORLD),
    (FILE + 'caps = ""\n', bad("file", 1, "BadCaps")),
    (FILE + f'caps = "{VERSION_2}"\n', WORLD),
    (FILE + f'caps = "{VERSION_2.upper()}"\n', WORLD),
    (FILE + f'caps = "{VERSION_2[:-2]}"\n', bad("file", 1, "BadCaps")),
    (FILE + f'caps = "{VERSION_2[:-1]}g"\n', bad("file", 1, "BadCaps")),
    (FILE + f'caps = "{VERSION_2}00000000"\n', bad("file", 1, "BadCaps")),
    (FILE + f'caps = "{VERSION_3}"\n', WORLD),
    (FILE + f'caps = "02{VERSION_3[2:]}"\n', bad("file", 1, "BadCaps")),
    (many(4097, "[[file]]\nuid=%d\n"), "limit files 4096"),
    # process
    ("[[process]]\nuid = 0.5\n", bad("process", 1, "MissingKey")),
    ("[[process]]\npid = 0\nuid = [1, 2, 3]\n", bad("process", 1, "WrongType")),
    ("[[process]]\npid = true\n", bad("process", 1, "WrongType")),
    (PROCESS + "uid = [1, 2, 3, 4]\n", WORLD),
    (PROCESS + f"groups = [{'5, ' * 1024}]\n", WORLD),
    (PROCESS + f"groups = [{'5, ' * 1025}]\n", "limit groups 1024"),
    (PROCESS + f"groups = [{'-1, ' * 1025}]\n", "limit groups 1024"),
    (PROCESS + f"securebits = \"\"\ngroups = [{'5, ' * 1025}]\n", bad("process", 1, "WrongType")),
    ("[[process]]\npid = 0\n", bad("process", 1, "BadNumber")),
    ("[[process]]\npid = 4194304\n", WORLD),
    ("[[process]]\npid = 4194305\n", bad("process", 1, "BadNumber")),
    (PROCESS + "securebits = 256\n", bad("process", 1, "BadNumber")),
    (PROCESS + "parent = 0\n", bad("process", 1, "BadNumber")),
    (PROCESS + "groups = [4294967295]\n", bad("process", 1, "BadNumber")),
    (PROCESS + PROCESS, bad("process", 2, "TwiceNamed")),
    (PROCESS + "parent = 100\n", bad("process", 1, "NoSuchParent")),
    (PROCESS + "parent = 7\nspace = \"x\"\n", bad("process", 1, "NoSuchParent")),
    (PROCESS + 'space = "x"\nambient = "x"\n', bad("process", 1, "NoSuchSpace")),
    (PROCESS + 'ambient = "x"\npermitted = "none"\n', bad("process", 1, "BadCaps")),
    (PROCESS + 'ambient = ""\n', bad("process", 1, "BadCaps")),
    (PROCESS + 'permitted = "CAP_KILL, CAP_CHOWN"\n', bad("process", 1, "BadCaps")),
    (PROCESS + 'bounding = "CAP_KILL,CAP_KILL"\n', WORLD),
    (PROCESS + 'bounding = "FFFFFFFFFFFFFFFF"\n', WORLD),
    (PROCESS + 'bounding = "FFFFFFFFFFFFFFF"\n', bad("process", 1, "BadCaps")),
    (PROCESS + 'permitted = "none"\n', bad("process", 1, "NotIncluded")),
    (PROCESS + 'uid = [0, 5, 0, 0]\npermitted = "none"\n', WORLD),
    (PROCESS + 'inheritable = "CAP_KILL"\nambient = "CAP_KILL"\n', WORLD),
    (PROCESS + 'ambient = "CAP_KILL"\n', bad("process", 1, "NotIncluded")),
    (many(4096, "[[process]]\npid=%d\n"), WORLD),
    (many(4097, "[[process]]\npid=%d\n"), "limit processes 4096"),
    # filter
    ('[filter]\nexclude = ["setuid", "setuid", "exit", "install"]\n', WORLD),
    ('[filter]\nexclude = ["setuid", 1]\n', bad("filter", 0, "WrongType")),
    ('[filter]\nexclude = ["setuid", "Exit"]\n', bad("filter", 0, "NoSuchCall")),
    ('[filter]\nexcept = ["setuid"]\n', bad("filter", 0, "UnknownKey")),
    # one table after another
    (PROCESS + "uid = -1\n" + FILE + "owner = 1\n" + MOUNT + MOUNT, bad("mount", 2, "TwiceNamed")),
    (PROCESS + "uid = -1\n[filter]\nx = 1\n", bad("process", 1, "BadNumber")),
]
# Whole texts.
TEXTS = [
    (b"", bad("whole", 0, "MissingKey")),
    (b'log = "Script"\n', bad("whole", 0, "WrongType")),
    (b"log = 1\nprocess = 1\n", bad("whole", 0, "WrongType")),
    (b'log = "script"\xff\n', bad("whole", 0, "Toml")),
    (b'\xef\xbb\xbflog = "strace"\n', WORLD),
    (b"#" * 1048576, bad("whole", 0, "MissingKey")),
    (b"#" * 1048577, "limit world 1048576"),
]

NO_EVENT = "no event"
# Lines in the world SCRIPT + SPACE + FILE, and what they are: a fault, a limit, or the event as it is written.
LINES = [
    (b"", NO_EVENT), (b" \t\r", NO_EVENT), (b"; x", NO_EVENT), (b"  ;x", NO_EVENT),
    (b"x", "pid"), (b"0 setuid 0 = 0", "pid"), (b"4194305 x", "pid"), (b"-1 x", "pid"), (b"\x0b1 x", "pid"),
    (b"1", "call"), (b"1 SETUID 0 = 0", "call"), (b"1 = 0", "call"), (b"1 setuid\x0c0 = 0", "call"),
    (b"1 setuid 0", "shape"), (b"1 setuid 0 0 =", "shape"), (b"1 setuid 0 = 0 0", "shape"), (b"1 setuid 0 =0", "shape"),
    (b"1 setuid = = 0", "shape"), (b"1 fork = =", "result"),
    (b"1 setuid = 0", "count"), (b"1 setuid 0 0 = 0", "count"), (b"1 exit 1 = 0", "count"),
    (b"1 setresuid 0 0 = 0", "count"),
    (b"1 write_uid_map = 0", "count"), (b"1 write_uid_map box 0 0 = 0", "count"),
    (b"1 setuid x = x", "argument 1"), (b"1 setresuid 0 x y = 0", "argument 2"),
    (b"1 setuid 4294967296 = 0", "argument 1"),
    (b"1 setuid +1 = 0", "argument 1"), (b"1 setuid -2 = 0", "argument 1"), (b"1 keepcaps -1 = 0", "argument 1"),
    (b"1 bset_drop -1 = 0", "argument 1"), (b"1 bset_drop CAP_X = 0", "argument 1"),
    (b"1 bset_drop cap_kill = 0", "argument 1"),
    (b"1 capset all x = 0", "count"), (b"1 capset all none 1 = 0", "argument 3"), (b"1 setns x = 0", "argument 1"),
    (b"1 setns # = 0", "argument 1"), (b"1 setns #4294967296 = 0", "argument 1"), (b"1 setns 1 = 0", "argument 1"),
    (b"1 write_uid_map box 0 -1 1 = 0", "argument 3"), (b"1 write_setgroups box Deny = 0", "argument 2"),
    (b"1 execve \x01 = 0", "argument 1"), (b"1 execve /\x7f = 0", "argument 1"),
    (b"1 execve " + b"a" * 4096 + b" = 0", "argument 1"),
    (b"1 setuid 0 = 00", "result"), (b"1 setuid 0 = 1", "result"), (b"1 setuid 0 = ESRCH", "result"),
    (b"1 setfsuid 0 = EINVAL", "result"), (b"1 setfsuid 0 = -1", "result"), (b"1 fork = 0", "result"),
    (b"1 install setuid exit = 0", "argument 2"), (b"1 install setuid Fork = 0", "argument 2"),
    (b"1 install setuid,fork = 0", "argument 1"), (b"1 install fork = 1", "result"),
    (b"1 fork = 4194305", "result"), (b"1 exit = EPERM", "result"), (b"1 exit = 00", "result"),
    (b"1 setuid 0 = eperm", "result"),
    (b"1 setgroups " + b"1 " * 1025 + b"= 0", "limit groups 1024"), (b"1 setgroups " + b"1 " * 1025 + b"= x", "result"),
    (b"x" * 1048577, "limit line 1048576"), (b";" * 1048577, "limit line 1048576"), (b";" * 1048576, NO_EVENT),
    (b" 0001\tsetuid  007 =\r0 ", "1 setuid 7 = 0"), (b"1 setuid 4294967295 = EINVAL", "1 setuid -1 = EINVAL"),
    (b"1 setresuid -1 0 -1 = 0", "1 setresuid -1 0 -1 = 0"), (b"1 setgroups = EPERM", "1 setgroups = EPERM"),
    (b"1 setgroups 5 5 -1 = EPERM", "1 setgroups 5 5 -1 = EPERM"),
    (b"1 bset_drop 0007 = 0", "1 bset_drop CAP_SETUID = 0"),
    (b"1 bset_drop 41 = EINVAL", "1 bset_drop 41 = EINVAL"),
    (b"1 amb_raise CAP_CHOWN = 0", "1 amb_raise CAP_CHOWN = 0"),
    (b"1 capset all CAP_CHOWN,CAP_KILL FFFFFFFFFFFFFFFF = 0",
     "1 capset 000001ffffffffff 0000000000000021 000001ffffffffff = 0"),
    (b"1 fork = 0042", "1 fork = 42"), (b"1 setfsuid 1 = 0042", "1 setfsuid 1 = 42"), (b"1 fork = EIO", "1 fork = EIO"),
    (b"1 setfsuid 1 = EPERM", "1 setfsuid 1 = EPERM"), (b"1 setfsgid 1 = EPERM", "1 setfsgid 1 = EPERM"),
    (b"1 install = 0", "1 install = 0"), (b"1 install install = EACCES", "1 install install = EACCES"),
    (b"1 install execve  setuid execve fork = 0", "1 install setuid fork execve = 0"),
    (b"1 setns #00 = 0", "1 setns init = 0"), (b"1 setns #01 = 0", "1 setns box = 0"),
    (b"1 setns #2 = 0", "1 setns #2 = 0"),
    (b"1 write_uid_map box = EINVAL", "1 write_uid_map box = EINVAL"),
    (b"1 write_gid_map #9 0 4294967295 01 = 0", "1 write_gid_map #9 0 4294967295 1 = 0"),
    (b"1 execve /su = 0", "1 execve /su = 0"), (b"1 execve /SU = 0", "1 execve - = 0"),
    (b"1 execve \xff = 0", "1 execve - = 0"),
    (b"1 securebits 4294967295 = EPERM", "1 securebits 4294967295 = EPERM"),
]


def of_world(data: bytes) -> str:
    """What a world is that is read."""
    read_world(data)
    return WORLD


def of_line(world: World, line: bytes) -> str:
    """What a line is that is read."""
    event = read_line(line, world)
    return event.written.decode() if event else NO_EVENT


def said(read: Callable[[bytes], str], text: bytes) -> str:
    """What a reader says of a text, by words."""
    try:
        return read(text)
    except Refused as refused:
        return refused.words
    except NotJudged:
        return NOT_JUDGED


def selftest() -> int:
    """Reads all rows, tells those that are read otherwise, and gives the status."""
    of_this_world = partial(of_line, read_world((SCRIPT + SPACE + FILE).encode()))
    rows: list[tuple[Callable[[bytes], str], bytes, str]] = []
    rows += [(of_world, (SCRIPT + text).encode(), wanted) for text, wanted in WORLDS]
    rows += [(of_world, text, wanted) for text, wanted in TEXTS]
    rows += [(of_this_world, line, wanted) for line, wanted in LINES]
    wrong = 0
    for read, given, wanted in rows:
        got = said(read, given)
        if got != wanted:
            wrong += 1
            print(f"wanted {wanted!r}, got {got!r}: {given[:300]!r}")
    print(f"{len(rows)} rows, {wrong} are read otherwise; {len(CALLS)} calls")
    return 1 if wrong else 0
