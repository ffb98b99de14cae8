#!/usr/bin/env python3
"""A plain reader of worlds and of script logs: a second writing of docs/FORMATS.md, by which the program's answers to
texts can be judged without the program. Nothing is proved of it, and it is slow. For mutate.py and plain/report.py.

  reader.py WORLD        what the world is: `world`, or the line that a report has for its first refusal
  reader.py --selftest   reads the hand-made rows of plain/reader_rows.py; status 1 where one is read otherwise

`read_world` gives a World or raises Refused; `read_line` gives an Event, None where the line is no event, or raises
Refused. Words and order of the refusals are those of docs/FORMATS.md. TOML is read by Python's tomllib. Where that may
read a text otherwise than TOML 1.1 is read by the program, NotJudged is raised, with the reason.
"""
import re
import sys
import tomllib
from collections.abc import Callable, Iterator
from dataclasses import dataclass
from typing import Any, NamedTuple, TypeVar

import tools_path  # noqa: F401
from plain.rules import (ALL, CAPABILITIES, EVERY_ID, INITIAL, MINUS_ONE, Argument, Attribute, Call, Credential, File,
                         Ids, Lines, Member, Mount, Space, State, lies_in, read_attribute, taken_down)

LIMITS = {"world": 1048576, "line": 1048576, "processes": 4096, "spaces": 256, "mounts": 64,
          "files": 4096, "groups": 1024}
ERRORS = ("EPERM EINVAL ENOSPC ENOMEM EAGAIN EINTR EFAULT EIO ENOENT EACCES ENOTDIR ELOOP ENAMETOOLONG E2BIG ENOEXEC"
          " ETXTBSY ELIBBAD").split()
LAST_ID, LAST_NUMBER, LAST_PID, DEEPEST = 4294967294, 4294967295, 4194304, 32
Row = dict[str, Any]        # a table as tomllib gives it: its values are of any kind until check_keys has seen them
T = TypeVar("T")


class Refused(Exception):
    """A text isn't read: the status of the report that says so, and what it says."""

    def __init__(self, status: int, words: str) -> None:
        super().__init__(words)
        self.status, self.words = status, words


class NotJudged(Exception):
    """This reader can't say what the text is."""


class Fault(Exception):
    """One of the 18 words; which table and row has it is added by whoever reads the row."""


def fault_unless(good: object, word: str) -> None:
    """The fault of that word unless it is so."""
    if not good:
        raise Fault(word)


def wanted(value: T | None, word: str) -> T:
    """What was found; the fault of that word where nothing was."""
    if value is None:
        raise Fault(word)
    return value


def past_limit(name: str) -> Refused:
    """The refusal for more than that limit allows."""
    return Refused(9, f"limit {name} {LIMITS[name]}")


# ---- TOML ----------------------------------------------------------------------------------------------------------

DATES = re.compile(r"\d{4}-\d\d-\d\d|\d\d:\d\d")
DEEP = 40


def depth(text: str) -> int:
    """At least how deep its brackets stand in one another."""
    now = most = 0
    for byte in text:
        now = now + 1 if byte in "[{" else max(now - 1, 0) if byte in "]}" else now
        most = max(most, now)
    return most


def doubt(text: str, read: bool) -> str | None:
    """Why tomllib may read it otherwise than the program does, where it may; `read` is whether it was read."""
    if DATES.search(text):
        return "dates and times"
    if depth(text) > DEEP or any(line.count(".") > DEEP for line in text.splitlines()):
        return "deep values"
    if not read and "{" in text:
        return "inline tables"
    if not read and re.search(r"\\[ex]", text):
        return "escapes"
    return None


def leaves(value: object) -> Iterator[object]:
    """What a value holds that is no table and no list, however deep."""
    if isinstance(value, (dict, list)):
        for one in value.values() if isinstance(value, dict) else value:
            yield from leaves(one)
    else:
        yield value


def read_toml(data: bytes) -> Row | None:
    """The whole table, or None where the bytes are no TOML. NotJudged where the program may read them otherwise."""
    try:
        text = data.decode().removeprefix("\ufeff")
    except UnicodeDecodeError:
        return None
    table: Row | None = None
    try:
        table = tomllib.loads(text)
    except (ValueError, RecursionError):
        pass
    reason = doubt(text, table is not None)
    if reason:
        raise NotJudged(reason)
    if table is None:
        return None
    if any(isinstance(leaf, float) and leaf in (float("inf"), float("-inf")) for leaf in leaves(table)):
        raise NotJudged("infinite numbers")
    past = any(isinstance(leaf, int) and not -1 << 63 <= leaf < 1 << 63 for leaf in leaves(table))
    return None if past else table


# ---- keys and kinds of values --------------------------------------------------------------------------------------


@dataclass(frozen=True)
class Kind:
    """What a value ought to be: of a type, and its numbers within a range."""
    fits: Callable[[object], bool]
    in_range: Callable[[object], bool] = lambda _: True


class Keys(NamedTuple):
    """Of a table the kinds of its keys' values, and the keys that are required."""
    kinds: dict[str, Kind]
    required: tuple[str, ...]


def is_whole(value: object) -> bool:
    """Whether it is a whole number."""
    return isinstance(value, int) and not isinstance(value, bool)


def is_text(value: object) -> bool:
    """Whether it is a text."""
    return isinstance(value, str)


def is_flag(value: object) -> bool:
    """Whether it is true or false."""
    return isinstance(value, bool)


def is_list_of(test: Callable[[object], bool], length: int | None = None) -> Callable[[object], bool]:
    """Whether a value is a list, of that length where one is given, each item of which passes the test."""
    return lambda value: (isinstance(value, list) and length in (None, len(value)) and all(map(test, value)))


def within(low: int, high: int) -> Callable[[object], bool]:
    """Whether all whole numbers of a value, however deep, are in the range."""
    return lambda value: all(isinstance(leaf, int) and low <= leaf <= high for leaf in leaves(value))


def number(low: int, high: int) -> Kind:
    """A whole number in the range."""
    return Kind(is_whole, within(low, high))


def word(*words: str) -> Kind:
    """One of these texts."""
    return Kind(lambda value: is_text(value) and value in words)


TEXT, FLAG, TEXTS = Kind(is_text), Kind(is_flag), Kind(is_list_of(is_text))
ID, PID = number(0, LAST_ID), number(1, LAST_PID)
IDS = Kind(lambda value: is_whole(value) or is_list_of(is_whole, 4)(value), within(0, LAST_ID))
GROUPS = Kind(is_list_of(is_whole), within(0, LAST_ID))
EXTENTS = Kind(is_list_of(is_list_of(is_whole, 3)), within(0, LAST_NUMBER))
ARRAY, TABLE = Kind(lambda value: isinstance(value, list)), Kind(lambda value: isinstance(value, dict))

KEYS = {
    "whole": Keys({"log": word("script", "strace"), "space": ARRAY, "mount": ARRAY, "file": ARRAY, "process": ARRAY,
                   "filter": TABLE}, ("log",)),
    "space": Keys({"name": TEXT, "parent": TEXT, "owner": ID, "uid_map": EXTENTS, "gid_map": EXTENTS,
                   "setgroups": word("allow", "deny"), "creator_setfcap": FLAG}, ("name", "parent", "owner")),
    "mount": Keys({"name": TEXT, "space": TEXT, "nosuid": FLAG, "noexec": FLAG, "fs_uid_map": EXTENTS,
                   "fs_gid_map": EXTENTS, "uid_map": EXTENTS, "gid_map": EXTENTS}, ("name",)),
    "file": Keys({"path": TEXT, "mount": TEXT, "uid": ID, "gid": ID, "mode": TEXT, "caps": TEXT, "interpreter": TEXT},
                 ("path", "uid", "gid", "mode")),
    "process": Keys({"pid": PID, "parent": PID, "space": TEXT, "uid": IDS, "gid": IDS, "groups": GROUPS,
                     "permitted": TEXT, "effective": TEXT, "inheritable": TEXT, "ambient": TEXT, "bounding": TEXT,
                     "securebits": number(0, 255), "no_new_privs": FLAG}, ("pid",)),
    "filter": Keys({"exclude": TEXTS}, ()),
}


def check_keys(table: str, row: Row, between: Callable[[], None] = lambda: None) -> None:
    """The first four faults of a row; `between` is asked before the fourth."""
    keys, required = KEYS[table]
    fault_unless(all(key in keys for key in row), "UnknownKey")
    one_alone = table == "mount" and ("uid_map" in row) != ("gid_map" in row)
    fault_unless(all(key in row for key in required) and not one_alone, "MissingKey")
    fault_unless(all(keys[key].fits(value) for key, value in row.items()), "WrongType")
    between()
    fault_unless(all(keys[key].in_range(value) for key, value in row.items()), "BadNumber")


# ---- values --------------------------------------------------------------------------------------------------------

NAME = re.compile(rb"[A-Za-z0-9_.-]{1,32}")
PATH = re.compile(rb"[^\x00-\x20\x7f]{1,4095}")
MODE = re.compile(rb"[0-7]{1,4}")
HEX_SET = re.compile(rb"[0-9A-Fa-f]{16}")
HEX_BYTES = re.compile(rb"(?:[0-9A-Fa-f]{2})*")
CAP_NUMBERS = {b"CAP_" + name.encode(): number for number, name in enumerate(CAPABILITIES)}


def is_name(text: str) -> bool:
    """Whether a space or a mount may have that name."""
    return NAME.fullmatch(text.encode()) is not None and text != "init"


def is_path(data: bytes) -> bool:
    """Whether a file may have that path."""
    return PATH.fullmatch(data) is not None and data not in (b"-", b"=")


def set_of(data: bytes) -> int | None:
    """The set of a capability text, None where it is none."""
    if data in (b"all", b"none"):
        return ALL if data == b"all" else 0
    if HEX_SET.fullmatch(data):
        return int(data, 16) & ALL
    names = data.split(b",")
    if not all(name in CAP_NUMBERS for name in names):
        return None
    return sum(1 << CAP_NUMBERS[name] for name in set(names))


def attribute_of(text: str) -> Attribute | None:
    """The attribute that hexadecimal bytes spell, None where they spell none."""
    if not HEX_BYTES.fullmatch(text.encode()):
        return None
    try:
        return read_attribute(bytes.fromhex(text))
    except ValueError:
        return None


def part_none(ranges: list[tuple[int, int]]) -> bool:
    """Whether no two of the ranges, each a first number and a length, have a number in common."""
    ordered = sorted(ranges)
    return all(first + length <= second for (first, length), (second, _) in zip(ordered, ordered[1:]))


def is_map(lines: Lines) -> bool:
    """Whether a list may be a map."""
    return (1 <= len(lines) <= 340
            and all(length > 0 and max(inside, outside) + length <= MINUS_ONE for inside, outside, length in lines)
            and part_none([(inside, length) for inside, _, length in lines])
            and part_none([(outside, length) for _, outside, length in lines]))


def map_at(row: Row, key: str) -> Lines | None:
    """The map of a row, None where it isn't there."""
    return tuple((inside, outside, length) for inside, outside, length in row[key]) if key in row else None


def fs_map(row: Row, key: str) -> Lines:
    """A filesystem's map: every id, where it isn't there."""
    lines = map_at(row, key)
    return EVERY_ID if lines is None else lines


def four(value: int | list[int]) -> Ids:
    """Four ids, of one or of four."""
    return tuple(value) if isinstance(value, list) else (value,) * 4


# ---- worlds --------------------------------------------------------------------------------------------------------


@dataclass
class World:
    """A world that is read."""
    names: dict[str, int]       # the numbers of the declared spaces, by name
    files: dict[bytes, File]    # by path
    state: State
    script: bool                # whether the log has the form script; else it is strace


class Tables:
    """What the rows have declared so far. Each kind of row has a reader, which raises the row's first fault."""

    def __init__(self) -> None:
        self.spaces, self.levels, self.names = [INITIAL], [0], dict[str, int]()
        self.mounts = {"root": Mount(0, False, False, (EVERY_ID, EVERY_ID), None)}
        self.files, self.processes = dict[bytes, File](), dict[int, Member]()

    def number(self, name: str) -> int | None:
        """The number of a space that has stood before, by its name."""
        return 0 if name == "init" else self.names.get(name)

    def space(self, row: Row) -> None:
        """A row [[space]]."""
        check_keys("space", row)
        fault_unless(is_name(row["name"]), "BadName")
        fault_unless(row["name"] not in self.names, "TwiceNamed")
        parent = wanted(self.number(row["parent"]), "NoSuchParent")
        maps, above = [map_at(row, key) for key in ("uid_map", "gid_map")], self.spaces[parent]
        fault_unless(all(lines is None or is_map(lines) for lines in maps), "BadMap")
        fault_unless(all(lies_in(lines_above, line) for lines, lines_above in zip(maps, (above.uids, above.gids))
                         for line in lines or ()), "NotMapped")
        fault_unless(self.levels[parent] < DEEPEST, "TooDeep")
        uids, gids = (lines and taken_down(lines, lines_above)
                      for lines, lines_above in zip(maps, (above.uids, above.gids)))
        self.names[row["name"]] = len(self.spaces)
        self.levels.append(self.levels[parent] + 1)
        self.spaces.append(Space(parent, row["owner"], uids, gids, row.get("setgroups") == "deny",
                                 row.get("creator_setfcap", False)))

    def mount(self, row: Row) -> None:
        """A row [[mount]]."""
        check_keys("mount", row)
        fault_unless(is_name(row["name"]), "BadName")
        fault_unless(row["name"] not in self.mounts, "TwiceNamed")
        space = wanted(self.number(row.get("space", "init")), "NoSuchSpace")
        fs = fs_map(row, "fs_uid_map"), fs_map(row, "fs_gid_map")
        users, groups = map_at(row, "uid_map"), map_at(row, "gid_map")      # both or neither: check_keys
        maps = None if users is None or groups is None else (users, groups)
        fault_unless(all(map(is_map, (*fs, *(maps or ())))), "BadMap")
        self.mounts[row["name"]] = Mount(space, row.get("nosuid", False), row.get("noexec", False), fs, maps)

    def file(self, row: Row) -> None:
        """A row [[file]]."""
        check_keys("file", row)
        path, interpreter = row["path"].encode(), row["interpreter"].encode() if "interpreter" in row else None
        fault_unless(is_path(path), "BadName")
        fault_unless(path not in self.files, "TwiceNamed")
        mount = wanted(self.mounts.get(row.get("mount", "root")), "NoSuchMount")
        runs = None if interpreter is None else wanted(self.files.get(interpreter), "NoInterpreter")
        fault_unless(runs is None or runs.interpreter is None, "NoInterpreter")
        fault_unless(MODE.fullmatch(row["mode"].encode()), "BadMode")
        caps = attribute_of(row["caps"]) if "caps" in row else None
        fault_unless("caps" not in row or caps is not None, "BadCaps")
        self.files[path] = File(mount, row["uid"], row["gid"], int(row["mode"], 8), caps, interpreter)

    def process(self, row: Row) -> None:
        """A row [[process]]."""
        check_keys("process", row, lambda: few_groups(row))
        fault_unless(row["pid"] not in self.processes, "TwiceNamed")
        fault_unless("parent" not in row or row["parent"] in self.processes, "NoSuchParent")
        space = wanted(self.number(row.get("space", "init")), "NoSuchSpace")
        uid, gid = (four(row.get(key, 0)) for key in ("uid", "gid"))
        held = ALL if uid[1] == 0 else 0
        defaults = {"permitted": held, "effective": held, "inheritable": 0, "ambient": 0, "bounding": ALL}
        sets = {key: wanted(set_of(row[key].encode()), "BadCaps") if key in row else default
                for key, default in defaults.items()}
        fault_unless(not sets["effective"] & ~sets["permitted"]
                     and not sets["ambient"] & ~(sets["permitted"] & sets["inheritable"]), "NotIncluded")
        cred = Credential(uid, gid, frozenset(row.get("groups", ())), sets["inheritable"], sets["permitted"],
                          sets["effective"], sets["bounding"], sets["ambient"], row.get("securebits", 0),
                          row.get("no_new_privs", False))
        self.processes[row["pid"]] = space, cred


def few_groups(row: Row) -> None:
    """Refused where a process has more groups than the limit."""
    if len(row.get("groups", ())) > LIMITS["groups"]:
        raise past_limit("groups")


def read_filter(row: Row) -> None:
    """The table [filter]."""
    check_keys("filter", row)
    fault_unless(all(name.encode() in CALLS for name in row.get("exclude", ())), "NoSuchCall")


def in_row(table: str, number: int, read: Callable[[T], None], row: T) -> None:
    """Reads a row; its fault is refused with its place."""
    try:
        read(row)
    except Fault as fault:
        raise Refused(4, f"bad world {table} {number}: {fault}")


def table_rows(read: Callable[[Row], None]) -> Callable[[object], None]:
    """A row that is a table is read; another one has a fault."""
    def reads(row: object) -> None:
        if not isinstance(row, dict):
            raise Fault("WrongType")
        read(row)
    return reads


def read_rows(whole: Row, table: str, limit: str, standing: int, read: Callable[[Row], None]) -> None:
    """Reads the rows of a table, beside which so many stand without a row."""
    rows = whole.get(table, [])
    if standing + len(rows) > LIMITS[limit]:
        raise past_limit(limit)
    for number, row in enumerate(rows, 1):
        in_row(table, number, table_rows(read), row)


def read_world(data: bytes) -> World:
    """The world of these bytes. Refused with what a report says of them, NotJudged where that isn't known."""
    if len(data) > LIMITS["world"]:
        raise past_limit("world")
    whole = read_toml(data)
    if whole is None:
        raise Refused(4, "bad world whole 0: Toml")
    tables = Tables()
    in_row("whole", 0, lambda row: check_keys("whole", row), whole)
    read_rows(whole, "space", "spaces", 1, tables.space)
    read_rows(whole, "mount", "mounts", 1, tables.mount)
    read_rows(whole, "file", "files", 0, tables.file)
    read_rows(whole, "process", "processes", 0, tables.process)
    in_row("filter", 0, read_filter, whole.get("filter", {}))
    state = State(tables.processes, tuple(tables.spaces))
    return World(tables.names, tables.files, state, whole["log"] == "script")


# ---- tokens --------------------------------------------------------------------------------------------------------
# Each reader is of one kind of argument; it gives None where the token isn't of the kind.


Value = int | bytes | str


class Read(NamedTuple):
    """A token that is read: what the rules take, and the bytes that a report has for it."""
    value: Value
    written: bytes


TokenReader = Callable[[bytes, World], Read | None]


def digits(token: bytes, low: int = 0, high: int = LAST_NUMBER) -> int | None:
    """The number of decimal digits within a range, else None."""
    short = token.lstrip(b"0") or b"0"
    if not token.isdigit() or len(short) > 10 or not low <= int(short) <= high:
        return None
    return int(short)


def read_number(token: bytes, _: World) -> Read | None:
    """A number."""
    value = digits(token)
    return None if value is None else Read(value, b"%d" % value)


def read_id(token: bytes, _: World) -> Read | None:
    """An id, or -1."""
    value = MINUS_ONE if token == b"-1" else digits(token)
    return None if value is None else Read(value, b"-1" if value == MINUS_ONE else b"%d" % value)


def read_cap(token: bytes, _: World) -> Read | None:
    """A capability, by name or number."""
    value = CAP_NUMBERS.get(token, digits(token))
    if value is None:
        return None
    return Read(value, b"CAP_" + CAPABILITIES[value].encode() if value < len(CAPABILITIES) else b"%d" % value)


def read_set(token: bytes, _: World) -> Read | None:
    """A set of capabilities."""
    value = set_of(token)
    return None if value is None else Read(value, b"%016x" % value)


def space_token(world: World, number: int) -> str:
    """The token that a report has for a space: its name, or its number where the log made it."""
    names = {number: name for name, number in world.names.items()}
    return "init" if number == 0 else names.get(number, f"#{number}")


def space_number(token: bytes, world: World) -> int | None:
    """The number of a space by its token, None where it is no token of one."""
    value = 0 if token == b"init" else digits(token[1:]) if token[:1] == b"#" else None
    if value is None and NAME.fullmatch(token):
        value = world.names.get(token.decode())
    return value


def read_space(token: bytes, world: World) -> Read | None:
    """A space, by name or number."""
    value = space_number(token, world)
    return None if value is None else Read(value, space_token(world, value).encode())


def read_word(token: bytes, _: World) -> Read | None:
    """The word of setgroups."""
    return Read(token == b"deny", token) if token in (b"allow", b"deny") else None


def read_path(token: bytes, world: World) -> Read | None:
    """A path, or -; a report has - for each that the world doesn't declare."""
    if token != b"-" and not is_path(token):
        return None
    return Read(token, token if token in world.files else b"-")


def read_kind(token: bytes, _: World) -> Read | None:
    """The name of a call that a filter which is installed can exclude."""
    return Read(token.decode(), token) if token in CALLS and token != b"exit" else None


# ---- lines ---------------------------------------------------------------------------------------------------------

Readers = tuple[TokenReader, ...]
ONE_ID: Readers = (read_id,)
TWO_IDS, THREE_IDS, TRIPLE = ONE_ID * 2, ONE_ID * 3, (read_number,) * 3
# Of each call the kinds of its arguments; and of the last ones that may stand any number of times.
CALLS: dict[bytes, tuple[Readers, Readers]] = {
    b"setuid": (ONE_ID, ()), b"setreuid": (TWO_IDS, ()), b"setresuid": (THREE_IDS, ()), b"setfsuid": (ONE_ID, ()),
    b"setgid": (ONE_ID, ()), b"setregid": (TWO_IDS, ()), b"setresgid": (THREE_IDS, ()), b"setfsgid": (ONE_ID, ()),
    b"setgroups": ((), ONE_ID), b"capset": ((read_set,) * 3, ()),
    b"bset_drop": ((read_cap,), ()), b"amb_raise": ((read_cap,), ()), b"amb_lower": ((read_cap,), ()),
    b"amb_clear": ((), ()), b"securebits": ((read_number,), ()), b"keepcaps": ((read_number,), ()),
    b"no_new_privs": ((read_number,), ()), b"fork": ((), ()), b"clone_user": ((), ()), b"unshare": ((), ()),
    b"setns": ((read_space,), ()), b"write_uid_map": ((read_space,), TRIPLE), b"write_gid_map": ((read_space,), TRIPLE),
    b"write_setgroups": ((read_space, read_word), ()), b"execve": ((read_path,), ()), b"exit": ((), ()),
    b"install": ((), (read_kind,)),
}
FS_IDS, BIRTHS, MAPS = (b"setfsuid", b"setfsgid"), (b"fork", b"clone_user"), (b"write_uid_map", b"write_gid_map")
BLANKS = re.compile(rb"[ \t\r]+")


@dataclass
class Event:
    """A line that is an event."""
    pid: int
    call: Call
    result: str     # the token that a report has for the result
    written: bytes  # the event as a report has it


def line_fault(word: str) -> Refused:
    """The refusal for a line with that fault; where it stands is added by whoever reads the log."""
    return Refused(5, word)


def kinds_of(call: bytes, count: int) -> Readers | None:
    """The kinds of so many arguments, None where the call can't have so many."""
    first, more = CALLS[call]
    rest = count - len(first)
    if rest < 0 or (rest % len(more) if more else rest):
        return None
    return first + more * (rest // len(more) if more else 0)


def read_result(call: bytes, token: bytes) -> str | None:
    """The result as a report has it, None where the call can't have it."""
    number, name = digits(token), token.decode() if token.decode("ascii", "replace") in ERRORS else None
    if call in FS_IDS:
        return name if name == "EPERM" else None if number is None else str(number)
    if call in BIRTHS:
        return name or (str(number) if number is not None and 1 <= number <= LAST_PID else None)
    if call == b"exit" or name is None:
        return "0" if token == b"0" else None
    return name


def in_order(kinds: list[Read]) -> list[Read]:
    """The names of a filter as they are written: each once, in the order of the calls."""
    return [Read(name.decode(), name) for name in CALLS if any(one.written == name for one in kinds)]


def as_rules_take(call: bytes, values: list[Value]) -> Call:
    """A call with the values of its arguments; those of a map line by line."""
    arguments: list[Argument] = [*values]
    if call in MAPS:
        space, *numbers = (value for value in values if isinstance(value, int))     # all of them are
        arguments = [space, *zip(numbers[::3], numbers[1::3], numbers[2::3])]
    return Call(call.decode(), tuple(arguments))


def read_line(line: bytes, world: World) -> Event | None:
    """The event of a line, which is without its LF; None where it is none. Refused with its fault, or a limit."""
    if len(line) > LIMITS["line"]:
        raise past_limit("line")
    tokens = [token for token in BLANKS.split(line) if token]
    if not tokens or tokens[0].startswith(b";"):
        return None
    pid = digits(tokens[0], 1, LAST_PID)
    if pid is None:
        raise line_fault("pid")
    if len(tokens) < 2 or tokens[1] not in CALLS:
        raise line_fault("call")
    call, rest = tokens[1], tokens[2:]
    if b"=" not in rest or rest.index(b"=") != len(rest) - 2:
        raise line_fault("shape")
    kinds = kinds_of(call, len(rest) - 2)
    if kinds is None:
        raise line_fault("count")
    found = [kind(token, world) for kind, token in zip(kinds, rest)]
    read = [one for one in found if one is not None]
    if len(read) < len(found):
        raise line_fault(f"argument {found.index(None) + 1}")
    result = read_result(call, rest[-1])
    if result is None:
        raise line_fault("result")
    if call == b"setgroups" and len(read) > LIMITS["groups"]:
        raise past_limit("groups")
    if call == b"install":
        read = in_order(read)
    written = b" ".join([b"%d" % pid, call, *(one.written for one in read), b"=", result.encode()])
    return Event(pid, as_rules_take(call, [one.value for one in read]), result, written)


def main() -> None:
    """Reads a world, or the hand-made rows."""
    if sys.argv[1:] == ["--selftest"]:
        from plain.reader_rows import selftest
        sys.exit(selftest())
    if len(sys.argv) != 2:
        sys.exit("usage: reader.py WORLD | --selftest")
    with open(sys.argv[1], "rb") as file:
        try:
            read_world(file.read())
            print("world")
        except Refused as refused:
            print(refused.words)
        except NotJudged as reason:
            print(f"not judged: {reason}")


if __name__ == "__main__":
    main()
