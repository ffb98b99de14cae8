"""A plain reader of logs of strace -f, written from the rules of docs/STRACE.md alone: a second writing of them, by
which the program's own reading can be judged. Nothing is proved of it.

    python3 tools/plain/strace.py WORLD LOG

It prints each event as `LINE: EVENT`, the event in the script form, and then how the reading ends: `end`, or
`bad log line LINE: FAULT`, or `limit NAME NUMBER`. Of the world it takes the processes with their spaces, the names of
the spaces, and the paths of the files; it looks for no fault in the world.
"""
import re
import sys
import tomllib
from collections.abc import Callable, Iterator
from dataclasses import dataclass, field
from typing import Any, NamedTuple, TypeVar

BLANKS = " \t\r"
GREATEST = 4294967295       # the greatest number, and -1 as an id
LAST_PID = 4194304
MOST_BYTES, MOST_GROUPS, MOST_HELD, MOST_DESCRIPTORS = 1048576, 1024, 4096, 65536
ERRORS = ("EPERM EINVAL ENOSPC ENOMEM EAGAIN EINTR EFAULT EIO ENOENT EACCES ENOTDIR ELOOP ENAMETOOLONG E2BIG ENOEXEC"
          " ETXTBSY ELIBBAD").split()
CAPABILITIES = (
    "CHOWN DAC_OVERRIDE DAC_READ_SEARCH FOWNER FSETID KILL SETGID SETUID SETPCAP LINUX_IMMUTABLE NET_BIND_SERVICE"
    " NET_BROADCAST NET_ADMIN NET_RAW IPC_LOCK IPC_OWNER SYS_MODULE SYS_RAWIO SYS_CHROOT SYS_PTRACE SYS_PACCT SYS_ADMIN"
    " SYS_BOOT SYS_NICE SYS_RESOURCE SYS_TIME SYS_TTY_CONFIG MKNOD LEASE AUDIT_WRITE AUDIT_CONTROL SETFCAP MAC_OVERRIDE"
    " MAC_ADMIN SYSLOG WAKE_ALARM BLOCK_SUSPEND AUDIT_READ PERFMON BPF CHECKPOINT_RESTORE").split()
SECUREBITS = {"NOROOT": 0x01, "NO_SETUID_FIXUP": 0x04, "KEEP_CAPS": 0x10, "NO_CAP_AMBIENT_RAISE": 0x40}
ID_CALLS = {"setuid": 1, "setreuid": 2, "setresuid": 3, "setfsuid": 1, "setgid": 1, "setregid": 2, "setresgid": 3,
            "setfsgid": 1}
BIRTHS = ("fork", "vfork", "clone", "clone3")
LISTED = (*ID_CALLS, "setgroups", "capset", "prctl", *BIRTHS, "unshare", "setns", "execve", "execveat", "open",
          "openat",
          "creat", "close", "dup", "dup2", "dup3", "fcntl", "write", "pwrite64")
ESCAPES = {"n": "\n", "t": "\t", "v": "\v", "f": "\f", "r": "\r", "\\": "\\", '"': '"'}
MAP_FILES = ("uid_map", "gid_map", "setgroups")
T = TypeVar("T")


class Fault(Exception):
    """A line has the fault of this word."""


class Limit(Exception):
    """The limit of this name is exceeded."""


class Stop(Exception):
    """The reading ends so."""


# ---- single words ----------------------------------------------------------------------------------------------------


def decimal(text: str) -> int:
    """The number that digits spell; all past the greatest count as one."""
    digits = text.lstrip("0")
    return min(int(digits or "0"), GREATEST + 1) if len(digits) <= 10 else GREATEST + 1


def number(text: str) -> int | None:
    """A decimal number within 32 bits, or None."""
    return decimal(text) if re.fullmatch("[0-9]+", text) and decimal(text) <= GREATEST else None


def identifier(text: str) -> int | None:
    """An id, -1 as the greatest number, or None."""
    return GREATEST if text == "-1" else number(text)


def pid_of(text: str) -> int | None:
    """A pid, or None."""
    n = number(text)
    return n if n is not None and 1 <= n <= LAST_PID else None


def hexadecimal(text: str) -> int | None:
    """A hexadecimal number within 32 bits, or None."""
    good = re.fullmatch("0x[0-9a-fA-F]+", text) and int(text, 16) <= GREATEST
    return int(text, 16) if good else None


def capability(arguments: list[str]) -> int | None:
    """The capability that arguments begin with. A comment after it is passed over, also one with commas."""
    text = arguments[0] if arguments else ""
    if "/*" in text:
        name, comment = ",".join(arguments).split("/*", 1)
        comment, end, left = comment.partition("*/")
        if not end or left.strip(BLANKS)[:1] not in ("", ","):
            return None
        text = name.strip(BLANKS)
    if text.startswith("CAP_") and text[4:] in CAPABILITIES:
        return CAPABILITIES.index(text[4:])
    n = number(text)
    return hexadecimal(text) if n is None else n


def mask(text: str) -> int | None:
    """A set of capabilities, or None."""
    bits = 0
    for term in text.split("|"):
        term = term.strip(BLANKS)
        if term == "0":
            continue
        if not term.startswith("1<<CAP_") or term[7:] not in CAPABILITIES:
            return None
        bits |= 1 << CAPABILITIES.index(term[7:])
    return bits


def securebits(text: str) -> int | None:
    """Securebits, as a number or by names, or None."""
    if text == "0":
        return 0
    if hexadecimal(text) is not None:
        return hexadecimal(text)
    bits = 0
    for word in text.split("|"):
        word = word.strip(BLANKS)
        locked = word.endswith("_LOCKED")
        name = word[:-7] if locked else word
        if not name.startswith("SECBIT_") or name[7:] not in SECUREBITS:
            return None
        bits |= SECUREBITS[name[7:]] << locked
    return bits


def words(text: str) -> list[str]:
    """The words between bars."""
    return [word.strip(BLANKS) for word in text.split("|")]


def member(name: str, text: str) -> str | None:
    """VALUE of a text NAME=VALUE, or None."""
    found = re.fullmatch(f"{name}[{BLANKS}]*=[{BLANKS}]*(.*)", text, re.S)
    return found.group(1) if found else None


def all_of(values: list[T | None]) -> list[T] | None:
    """The values, or None where one of them is."""
    known = [value for value in values if value is not None]
    return known if len(known) == len(values) else None


def quoted(text: str) -> str | None:
    """The bytes of a quoted text, or None where it is none, or was cut."""
    if not text.startswith('"'):
        return None
    out: list[str] = []
    i = 1
    while True:
        if i >= len(text):
            return None
        c = text[i]
        if c == '"':
            break
        if c != "\\":
            out.append(c)
            i += 1
            continue
        octal = re.match("[0-7]{1,3}", text[i + 1:])
        if octal:
            if int(octal.group(), 8) > 255:
                return None
            out.append(chr(int(octal.group(), 8)))
            i += 1 + octal.end()
        elif text[i + 1:i + 2] in ESCAPES and i + 1 < len(text):
            out.append(ESCAPES[text[i + 1]])
            i += 2
        else:
            return None
    return "".join(out) if text[i + 1:].strip(BLANKS) == "" else None


# ---- the parts of a call ---------------------------------------------------------------------------------------------


def front(characters: str, text: str) -> str:
    """What a text has at its front of the characters of that class."""
    found = re.match(f"[{characters}]*", text)
    return found.group() if found else ""


def call_word(text: str) -> str:
    """The name at the front."""
    return front("A-Za-z0-9_", text)


def call_name(text: str) -> str:
    """The same, a final 32 dropped."""
    name = call_word(text)
    return name[:-2] if name.endswith("32") else name


def outside_quotes(text: str) -> Iterator[tuple[int, str]]:
    """The characters outside of quotes, each with its place; of a quoted text its first quote alone."""
    in_quotes, i = False, 0
    while i < len(text):
        c = text[i]
        if not in_quotes:
            yield i, c
        if c == '"':
            in_quotes = not in_quotes
        elif in_quotes and c == "\\":
            i += 1
        i += 1


def shape(text: str) -> tuple[str, str]:
    """What stands between the parentheses, and the result. Fault where it has no such shape."""
    rest = text[len(call_word(text)):].lstrip(BLANKS)
    if not rest.startswith("("):
        raise Fault("shape")
    inner = rest[1:]
    best: tuple[int, int] | None = None
    closing: int | None = None
    for i, c in outside_quotes(inner):
        if c == ")":
            closing = i
        elif c == "=" and closing is not None:
            best, closing = (closing, i), None
        elif c not in BLANKS:
            closing = None
    if best is None:
        raise Fault("shape")
    return inner[:best[0]], inner[best[1] + 1:].strip(BLANKS)


def pieces(text: str) -> list[str]:
    """The pieces between commas outside of brackets and quotes."""
    text = text.strip(BLANKS)
    if text == "":
        return []
    found, begin, depth = [], 0, 0
    for i, c in outside_quotes(text):
        if c in "([{":
            depth += 1
        elif c in ")]}":
            depth = max(0, depth - 1)
        elif c == "," and depth == 0:
            found.append(text[begin:i].strip(BLANKS))
            begin = i + 1
    return found + [text[begin:].strip(BLANKS)]


def inside_first(text: str) -> str:
    """What stands between a bracket at the front and the one that closes it, or all after it."""
    depth = 0
    for i, c in outside_quotes(text):
        if c in "([{":
            depth += 1
        elif c in ")]}":
            depth -= 1
            if depth == 0:
                return text[1:i]
    return text[1:]


def flags_of(arguments: list[str]) -> list[str]:
    """The words of the first flags=.. among arguments, or among the members of one in braces."""
    for argument in arguments:
        found = member("flags", argument)
        if found is None and argument.startswith("{"):
            inner = [member("flags", m) for m in pieces(inside_first(argument))]
            found = next((m for m in inner if m is not None), None)
        if found is not None:
            return words(found)
    return []


NO_RETURN, NUMBER, ERROR, OTHER = range(4)


class Outcome(NamedTuple):
    """What a result is: its kind, of NUMBER the number, of ERROR the error's name."""
    kind: int
    number: int = 0
    error: str = ""


def outcome_of(text: str) -> Outcome:
    """What a result is."""
    if text.startswith("?"):
        return Outcome(NO_RETURN)
    if re.fullmatch("[0-9]+", text):
        return Outcome(NUMBER, number=decimal(text))
    failed = re.match(f"-1[{BLANKS}]+([A-Za-z0-9_]*)", text)
    if failed and failed.group(1) == "ENOSYS":
        return Outcome(NO_RETURN)
    return Outcome(ERROR, error=failed.group(1)) if failed and failed.group(1) in ERRORS else Outcome(OTHER)


# ---- the reader ------------------------------------------------------------------------------------------------------


@dataclass(frozen=True)
class Start:
    """What is taken of a world: by pid the name of each process's space, the names of the declared spaces in their
    order, and the paths of the files, a character for each byte."""
    processes: dict[int, str]
    spaces: tuple[str, ...] = ()
    files: frozenset[str] = field(default_factory=frozenset)


def start_of(world: dict[str, Any]) -> Start:
    """The same of a world's TOML. KeyError where a row lacks what is taken of it."""
    return Start({row["pid"]: row.get("space", "init") for row in world.get("process", [])},
                 tuple(row["name"] for row in world.get("space", [])),
                 frozenset(row["path"].encode().decode("latin-1") for row in world.get("file", [])))


@dataclass
class Task:
    """A process or a thread that lives."""
    space: int
    shares: bool = False    # born with CLONE_FILES, or gave such a birth


@dataclass
class Descriptor:
    """A descriptor of a file that is followed."""
    file: str
    space: int
    until_exec: bool


class Held(NamedTuple):
    """A line of a process that isn't born yet."""
    number: int
    pid: int
    body: str


class Reader:
    """What is known while a log is read. Each call has a method: it takes the line's number, the pid, the arguments and
    the outcome, adds the event where there is one, and raises the line's Fault."""

    def __init__(self, world: Start) -> None:
        numbers = {"init": 0, **{name: k + 1 for k, name in enumerate(world.spaces)}}
        self.names = {k: name for name, k in numbers.items()}
        self.files = world.files
        self.tasks = {pid: Task(numbers[space]) for pid, space in world.processes.items()}
        self.next_space = len(world.spaces) + 1
        self.kept: dict[int, str] = {}      # by pid the front of a call that isn't finished
        self.held: list[Held] = []
        self.descriptors: dict[tuple[int, int], Descriptor] = {}
        self.events: list[str] = []
        self.child: int | None = None       # of the line that is read now

    # ---- lines

    def feed(self, n: int, line: str) -> None:
        """Line n comes. Stop where the reading ends with it."""
        if len(line) > MOST_BYTES:
            raise Stop("limit line 1048576")
        line = line.rstrip(BLANKS)
        if line == "":
            return
        word = front("^" + BLANKS, line)
        pid = pid_of(word)
        if pid is None:
            raise Stop(f"bad log line {n}: pid")
        body = line[len(word):].lstrip(BLANKS)
        if pid in self.tasks:
            self.read_on(n, pid, body)
        else:
            self.held.append(Held(n, pid, body))
            if len(self.held) > MOST_HELD:
                raise Stop(f"limit held {MOST_HELD}")

    def read_on(self, n: int, pid: int, body: str) -> None:
        """A line is read, and then the held lines of the child that it may have given birth to."""
        pids = [self.read(n, pid, body)]
        while pids:
            child = pids[-1] if pids[-1] in self.tasks else None
            place = next((k for k, line in enumerate(self.held) if line.pid == child), None)
            if place is None:
                pids.pop()
            else:
                pids.append(self.read(*self.held.pop(place)))

    def finish(self) -> None:
        """The log ends: held lines are read, up to the first that is an event of a process without a birth."""
        self.kept = {}
        while self.held:
            before = len(self.events)
            self.read(*self.held.pop(0))
            if len(self.events) > before:
                return

    def read(self, n: int, pid: int, body: str) -> int | None:
        """A line is read now; a child that it gives birth to is answered."""
        self.child = None
        try:
            self.body(n, pid, body)
        except Fault as fault:
            raise Stop(f"bad log line {n}: {fault}")
        except Limit as limit:
            raise Stop(f"limit {limit}")
        return self.child

    # ---- bodies

    def body(self, n: int, pid: int, body: str) -> None:
        """What stands behind the pid: a signal, an end, a call or a part of one."""
        if body.startswith("---"):
            return
        if body.startswith("+++"):
            self.end_mark(n, pid, body)
            return
        if body.endswith("<unfinished ...>"):
            if pid in self.kept:
                raise Fault("unfinished")
            self.kept[pid] = body[:-len("<unfinished ...>")]
            return
        resumed = re.fullmatch(f"<\\.\\.\\.[{BLANKS}]*([^{BLANKS}]+)[{BLANKS}]+resumed>(.*)", body, re.S)
        if resumed:
            name = resumed.group(1)
            name = name[:-2] if name.endswith("32") else name
            if pid not in self.kept or call_name(self.kept[pid]) != name:
                raise Fault("unfinished")
            body = self.kept.pop(pid) + resumed.group(2)
        self.call(n, pid, body)

    def end_mark(self, n: int, pid: int, body: str) -> None:
        """A line `+++ .. +++`."""
        b = f"[{BLANKS}]"
        if re.fullmatch(rf"\+\+\+{b}*superseded({b}.*)?\+\+\+", body, re.S):
            raise Fault("superseded")
        if re.fullmatch(rf"\+\+\+{b}*(exited{b}+with{b}+[0-9]+{b}*|killed{b}+by({b}.*)?)\+\+\+", body, re.S):
            self.event(n, pid, "exit = 0")
            del self.tasks[pid]
            self.kept.pop(pid, None)
            self.descriptors = {key: d for key, d in self.descriptors.items() if key[0] != pid}

    def event(self, n: int, pid: int, text: str) -> None:
        """An event of the process."""
        self.events.append(f"{n}: {pid} {text}")
        self.tasks.setdefault(pid, Task(0))

    # ---- calls

    def call(self, n: int, pid: int, text: str) -> None:
        """A whole call."""
        name = call_name(text)
        if name not in LISTED:
            return
        inside, result = shape(text)
        outcome = outcome_of(result)
        if outcome.kind == NO_RETURN:
            return
        arguments = pieces(inside)
        if name in ID_CALLS:
            self.ids(n, pid, name, arguments, outcome)
        elif name in BIRTHS:
            self.birth(n, pid, flags_of(arguments), outcome)
        else:
            handler = {"dup3": "dup2", "pwrite64": "write"}.get(name, name)
            method: Callable[[int, int, list[str], Outcome], None] = getattr(self, "call_" + handler)
            method(n, pid, arguments, outcome)

    @staticmethod
    def need(arguments: list[str], k: int, read: Callable[[str], T | None]) -> T:
        """The argument of that number as what it is read for, or its fault."""
        value = read(arguments[k - 1]) if len(arguments) >= k else None
        if value is None:
            raise Fault(f"argument {k}")
        return value

    def deciding(self, arguments: list[str], k: int, outcome: Outcome) -> str:
        """The argument of that number, without which a call can't be told; the result is looked at before it."""
        if len(arguments) < k and outcome.kind == OTHER:
            raise Fault("result")
        return self.need(arguments, k, str)

    @staticmethod
    def plain(outcome: Outcome) -> str:
        """The result of a call that answers 0 or fails, as it is written."""
        if outcome.kind == NUMBER and outcome.number == 0:
            return "0"
        if outcome.kind == ERROR:
            return outcome.error
        raise Fault("result")

    @staticmethod
    def id_text(value: int) -> str:
        """An id as an event has it."""
        return "-1" if value == GREATEST else str(value)

    def ids(self, n: int, pid: int, name: str, arguments: list[str], outcome: Outcome) -> None:
        """The eight calls that set ids."""
        if name in ("setfsuid", "setfsgid"):
            if outcome.kind != NUMBER or outcome.number > GREATEST:
                raise Fault("result")
            result = str(outcome.number)
        else:
            result = self.plain(outcome)
        values = [self.need(arguments, k + 1, identifier) for k in range(ID_CALLS[name])]
        self.event(n, pid, f"{name} {' '.join(map(self.id_text, values))} = {result}")

    def call_setgroups(self, n: int, pid: int, arguments: list[str], outcome: Outcome) -> None:
        """setgroups."""
        result = self.plain(outcome)
        count = self.need(arguments, 1, number)

        def groups(text: str) -> list[int] | None:
            if text != "NULL" and not re.fullmatch(r"\[.*\]", text, re.S):
                return None
            ids = all_of([] if text == "NULL" else [identifier(piece) for piece in pieces(text[1:-1])])
            return ids if ids is not None and len(ids) == count else None

        ids = self.need(arguments, 2, groups)
        if len(ids) > MOST_GROUPS:
            raise Limit(f"groups {MOST_GROUPS}")
        self.event(n, pid, " ".join(["setgroups", *map(self.id_text, ids)]) + f" = {result}")

    def call_capset(self, n: int, pid: int, arguments: list[str], outcome: Outcome) -> None:
        """capset, of the caller alone."""
        result = self.plain(outcome)

        def header(text: str) -> bool | None:
            parts = pieces(text[1:-1]) if re.fullmatch(r"\{.*\}", text, re.S) else []
            if len(parts) != 2 or not member("version", parts[0]):
                return None
            whose = number(member("pid", parts[1]) or "")
            return True if whose in (0, pid) else None

        def sets(text: str) -> list[int] | None:
            parts = pieces(text[1:-1]) if re.fullmatch(r"\{.*\}", text, re.S) else []
            if len(parts) != 3:
                return None
            texts = [member(name, part) for name, part in zip(("effective", "permitted", "inheritable"), parts)]
            return all_of([None if t is None else mask(t) for t in texts])

        self.need(arguments, 1, header)
        masks = self.need(arguments, 2, sets)
        self.event(n, pid, " ".join(["capset", *(f"{m:016x}" for m in masks)]) + f" = {result}")

    def call_prctl(self, n: int, pid: int, arguments: list[str], outcome: Outcome) -> None:
        """prctl: the options that set credentials."""
        option = self.deciding(arguments, 1, outcome)
        numbers = {"PR_SET_KEEPCAPS": ("keepcaps", number), "PR_SET_NO_NEW_PRIVS": ("no_new_privs", number),
                   "PR_SET_SECUREBITS": ("securebits", securebits)}
        if option in numbers:
            name, read = numbers[option]
            result = self.plain(outcome)
            self.event(n, pid, f"{name} {self.need(arguments, 2, read)} = {result}")
        elif option == "PR_CAPBSET_DROP":
            result = self.plain(outcome)
            self.event(n, pid, f"bset_drop {self.cap_text(arguments, 2)} = {result}")
        elif option == "PR_CAP_AMBIENT":
            what = self.deciding(arguments, 2, outcome)
            if what in ("PR_CAP_AMBIENT_RAISE", "PR_CAP_AMBIENT_LOWER"):
                result = self.plain(outcome)
                name = "amb_raise" if what.endswith("RAISE") else "amb_lower"
                self.event(n, pid, f"{name} {self.cap_text(arguments, 3)} = {result}")
            elif what == "PR_CAP_AMBIENT_CLEAR_ALL":
                self.event(n, pid, f"amb_clear = {self.plain(outcome)}")

    @staticmethod
    def cap_text(arguments: list[str], number: int) -> str:
        """The capability that the argument of that number is, as it is written, or its fault."""
        k = capability(arguments[number - 1:])
        if k is None:
            raise Fault(f"argument {number}")
        return "CAP_" + CAPABILITIES[k] if k < len(CAPABILITIES) else str(k)

    # ---- births and spaces

    def birth(self, n: int, pid: int, flags: list[str], outcome: Outcome) -> None:
        """A birth, with these flags; one that failed is an event where it was to make a space."""
        user, shares = "CLONE_NEWUSER" in flags, "CLONE_FILES" in flags
        name, value = "clone_user" if user else "fork", outcome.number
        if outcome.kind == ERROR:
            if user:
                self.event(n, pid, f"{name} = {outcome.error}")
            return
        if outcome.kind != NUMBER or not 1 <= value <= LAST_PID:
            raise Fault("result")
        own = [(key, d) for key, d in self.descriptors.items() if key[0] == pid]
        if shares and own:
            raise Fault("descriptor")
        if not shares:
            for (_, fd), d in own:
                self.descriptors[value, fd] = d
            self.count_descriptors()
        self.event(n, pid, f"{name} = {value}")
        self.tasks[pid].shares |= shares
        space = self.tasks[pid].space
        if user:
            space = self.next_space
            self.next_space += 1
        self.tasks[value] = Task(space, shares)
        self.child = value

    def call_unshare(self, n: int, pid: int, arguments: list[str], outcome: Outcome) -> None:
        """unshare of the user namespace."""
        if not arguments or "CLONE_NEWUSER" not in words(arguments[0]):
            return
        result = self.plain(outcome)
        self.event(n, pid, f"unshare = {result}")
        if result == "0":
            self.tasks[pid].space = self.next_space
            self.next_space += 1

    def token(self, space: int) -> str:
        """A space as an event has it."""
        return self.names.get(space, f"#{space}")

    def call_setns(self, n: int, pid: int, arguments: list[str], outcome: Outcome) -> None:
        """setns to a user namespace."""
        fd, flags = number(self.need(arguments, 1, str)), self.need(arguments, 2, str)
        d = self.followed_at(pid, fd)
        if d is not None and d.file == "ns/user":
            if flags in ("0", "CLONE_NEWUSER"):
                result = self.plain(outcome)
                self.event(n, pid, f"setns {self.token(d.space)} = {result}")
                if result == "0":
                    self.tasks[pid].space = d.space
        elif outcome.kind == NUMBER and (flags == "0" or "CLONE_NEWUSER" in words(flags)):
            raise Fault("descriptor")

    # ---- execve

    def call_execve(self, n: int, pid: int, arguments: list[str], outcome: Outcome, place: int = 1) -> None:
        """execve; the path is the argument of that place."""
        result = self.plain(outcome)
        path = self.need(arguments, place, quoted)
        self.event(n, pid, f"execve {path if path in self.files else '-'} = {result}")
        if result == "0":
            self.descriptors = {key: d for key, d in self.descriptors.items() if key[0] != pid or not d.until_exec}

    def call_execveat(self, n: int, pid: int, arguments: list[str], outcome: Outcome) -> None:
        """execveat, of a path alone."""
        if self.deciding(arguments, 1, outcome) == "AT_FDCWD":
            self.call_execve(n, pid, arguments, outcome, 2)
        elif outcome.kind == NUMBER:
            raise Fault("descriptor")

    # ---- descriptors

    def count_descriptors(self) -> None:
        """Limit where more descriptors are followed than may be."""
        if len(self.descriptors) > MOST_DESCRIPTORS:
            raise Limit(f"descriptors {MOST_DESCRIPTORS}")

    def followed_at(self, pid: int, fd: int | None) -> Descriptor | None:
        """The followed descriptor of that number, None where there is none."""
        return None if fd is None else self.descriptors.get((pid, fd))

    @staticmethod
    def number_at(arguments: list[str], k: int) -> int | None:
        """The number of an argument, None where it is none or isn't there."""
        return number(arguments[k - 1]) if len(arguments) >= k else None

    def call_open(self, n: int, pid: int, arguments: list[str], outcome: Outcome, place: int = 1) -> None:
        """open; the path is the argument of that place."""
        flags = words(arguments[place]) if len(arguments) > place else []
        self.opened(pid, arguments[place - 1:place], "O_WRONLY" in flags or "O_RDWR" in flags, "O_CLOEXEC" in flags,
                    outcome)

    def call_openat(self, n: int, pid: int, arguments: list[str], outcome: Outcome) -> None:
        """openat."""
        self.call_open(n, pid, arguments, outcome, 2)

    def call_creat(self, n: int, pid: int, arguments: list[str], outcome: Outcome) -> None:
        """creat."""
        self.opened(pid, arguments[:1], True, False, outcome)

    def opened(self, pid: int, paths: list[str], writes: bool, until_exec: bool, outcome: Outcome) -> None:
        """An opening of the path, which is the only one of `paths`, or isn't there."""
        if outcome.kind != NUMBER:
            return
        path = quoted(paths[0]) if paths else None
        followed = None if path is None else self.followed(pid, path, writes)
        self.descriptors.pop((pid, outcome.number), None)
        if followed is None:
            return
        whose, file = followed
        if whose not in self.tasks or pid in self.tasks and self.tasks[pid].shares:
            raise Fault("descriptor")
        self.descriptors[pid, outcome.number] = Descriptor(file, self.tasks[whose].space, until_exec)
        self.count_descriptors()

    @staticmethod
    def followed(pid: int, path: str, writes: bool) -> tuple[int, str] | None:
        """Whose file a path names and which one, None where it names none that is followed. Fault where it is a
        relative path that may name one."""
        files = (*MAP_FILES, "ns/user") if writes else ("ns/user",)
        if not path.startswith("/"):
            if any(path == f or path.endswith("/" + f) for f in files):
                raise Fault("descriptor")
            return None
        found = re.fullmatch("/proc/([^/]*)/task/([^/]*)/(.*)", path, re.S)
        if found and found.group(3) in files:
            process, thread = found.group(1), pid_of(found.group(2))
            known = process == "self" or pid_of(process) is not None
            return (thread, found.group(3)) if known and thread is not None else None
        found = re.fullmatch("/proc/([^/]*)/(.*)", path, re.S)
        if found and found.group(2) in files:
            whose = pid if found.group(1) in ("self", "thread-self") else pid_of(found.group(1))
            return None if whose is None else (whose, found.group(2))
        return None

    def call_close(self, n: int, pid: int, arguments: list[str], outcome: Outcome) -> None:
        """close."""
        fd = self.number_at(arguments, 1)
        if outcome.kind == NUMBER and fd is not None:
            self.descriptors.pop((pid, fd), None)

    def call_dup(self, n: int, pid: int, arguments: list[str], outcome: Outcome) -> None:
        """dup: what is followed may not be copied."""
        if outcome.kind == NUMBER and self.followed_at(pid, self.number_at(arguments, 1)) is not None:
            raise Fault("descriptor")

    def call_dup2(self, n: int, pid: int, arguments: list[str], outcome: Outcome) -> None:
        """dup2 and dup3, which close what has the new number."""
        self.call_dup(n, pid, arguments, outcome)
        if outcome.kind == NUMBER:
            self.descriptors.pop((pid, outcome.number), None)

    def call_fcntl(self, n: int, pid: int, arguments: list[str], outcome: Outcome) -> None:
        """fcntl, where it copies."""
        if len(arguments) >= 2 and arguments[1] in ("F_DUPFD", "F_DUPFD_CLOEXEC"):
            self.call_dup(n, pid, arguments, outcome)

    def call_write(self, n: int, pid: int, arguments: list[str], outcome: Outcome) -> None:
        """write and pwrite64 to a map file or a setgroups file."""
        d = self.followed_at(pid, self.number_at(arguments, 1))
        if d is None or d.file == "ns/user":
            return
        if outcome.kind == OTHER:
            raise Fault("result")
        text = quoted(self.need(arguments, 2, str))
        if outcome.kind == NUMBER and text is not None and outcome.number != len(text):
            raise Fault("result")
        told = self.written(d, text) if text is not None else None
        if told is None:
            if outcome.kind == NUMBER:
                raise Fault("argument 2")
            return
        self.event(n, pid, f"{told} = {'0' if outcome.kind == NUMBER else outcome.error}")

    def written(self, d: Descriptor, text: str) -> str | None:
        """The call that a text written to a map file, or to a setgroups file, is, or None."""
        space = self.token(d.space)
        if d.file == "setgroups":
            word = text[:-1] if text.endswith("\n") else text
            return f"write_setgroups {space} {word}" if word in ("allow", "deny") else None
        lines = text.split("\n")
        if lines[-1] == "":
            lines.pop()
        numbers: list[int] = []
        for line in lines:
            row = all_of([number(word) for word in re.split(f"[{BLANKS}]+", line.strip(BLANKS))])
            if row is None or len(row) != 3:
                return None
            numbers += row
        return " ".join(["write_" + d.file, space, *map(str, numbers)])


def reading(world: Start, log: bytes) -> tuple[list[str], str]:
    """The events of a log's bytes, and how its reading ends."""
    reader = Reader(world)
    lines = log.decode("latin-1").split("\n")
    if lines[-1] == "":
        lines.pop()
    try:
        for k, line in enumerate(lines):
            reader.feed(k + 1, line)
        reader.finish()
        ending = "end"
    except Stop as stop:
        ending = str(stop)
    return reader.events, ending


def main() -> None:
    """Prints what is read."""
    with open(sys.argv[1], "rb") as world, open(sys.argv[2], "rb") as log:
        events, ending = reading(start_of(tomllib.load(world)), log.read())
    sys.stdout.buffer.write("".join(line + "\n" for line in events + [ending]).encode("latin-1"))


if __name__ == "__main__":
    main()
