"""SystemCallFilter= and SystemCallErrorNumber= (systemd.exec(5)): which calls are refused with EPERM, whatever their
arguments and on every architecture.

A call of a world is carried out by one or more calls of the kernel; it counts as excluded only where each of these is
refused so. What can't be told is taken to be permitted.
"""
import errno
from dataclasses import dataclass, field

IDS = ("setuid", "setreuid", "setresuid", "setfsuid", "setgid", "setregid", "setresgid", "setfsgid", "setgroups")
BOTH = ("clone", "clone3")
# By call of a world the calls of the kernel that carry it out; 32-bit architectures have names of their own.
CARRIED: dict[str, tuple[str, ...]] = {
    **{name: (name, name + "32") for name in IDS}, "capset": ("capset",),
    **{name: ("prctl",) for name in ("bset_drop", "amb_raise", "amb_lower", "amb_clear", "securebits", "keepcaps",
                                     "no_new_privs")},
    "fork": ("fork", "vfork", *BOTH), "clone_user": BOTH, "unshare": ("unshare",), "setns": ("setns",),
    "execve": ("execve", "execveat")}
OURS = frozenset(name for names in CARRIED.values() for name in names)


def both(*names: str) -> frozenset[str]:
    """Names with those of 32-bit architectures."""
    return frozenset(each for name in names for each in (name, name + "32"))


NOTHING = frozenset[str]()
SETUID = both("setgid", "setgroups", "setregid", "setresgid", "setresuid", "setreuid", "setuid")
PROCESS = frozenset(("clone", "clone3", "execveat", "fork", "prctl", "setns", "unshare", "vfork"))
# By group the calls of CARRIED that it has, as systemd 252 has the groups (systemd-analyze syscall-filter).
GROUPS: dict[str, frozenset[str]] = {
    "@default": frozenset(("execve",)), "@process": PROCESS, "@setuid": SETUID,
    "@privileged": both("setfsuid", "setgroups", "setresuid", "setreuid", "setuid") | {"capset"},
    "@system-service": PROCESS | SETUID | both("setfsgid", "setfsuid") | {"capset", "execve"}, "@known": OURS,
    **{"@" + name: NOTHING for name in (
        "aio", "basic-io", "chown", "clock", "cpu-emulation", "debug", "file-system", "io-event", "ipc", "keyring",
        "memlock", "module", "mount", "network-io", "obsolete", "pkey", "raw-io", "reboot", "resources", "signal",
        "swap", "sync", "timer")}}
KILL, DEFAULT = "kill", "default"
LAST_ERRNO = 4095


def error_number(word: str) -> int | str | None:
    """An error's number by number or name, `kill`, or None where it is none."""
    if word == KILL:
        return KILL
    number = int(word) if word.isascii() and word.isdigit() else getattr(errno, word, None)
    return number if isinstance(number, int) and 0 <= number <= LAST_ERRNO else None


def answer_words(told: int | str | None) -> str:
    """What becomes of a call."""
    if told is None:
        return "is made"
    return "is killed" if told == KILL else "gets success without being made" if told == 0 else f"gets error {told}"


@dataclass
class Filter:
    """The filter of a unit. `allows` says whether the listed calls are those that are allowed; None: there is none.
    `listed` has the error of a call, or DEFAULT."""
    allows: bool | None = None
    listed: dict[str, int | str] = field(default_factory=dict)
    error: int | str = KILL
    unknown: bool = False           # it allows calls of a group that isn't known here
    notes: list[str] = field(default_factory=list)

    def assign(self, value: str) -> None:
        """An assignment to SystemCallFilter=."""
        if not value:
            self.allows, self.listed, self.unknown = None, {}, False
            return
        denies = value.startswith("~")
        if self.allows is None:
            self.allows = not denies
            if self.allows:
                self.listed.update(dict.fromkeys(GROUPS["@default"], DEFAULT))
        for word in value.removeprefix("~").split():
            self.word(denies, word)

    def word(self, denies: bool, word: str) -> None:
        """A call or a group of a list. Words that systemd passes over are passed over."""
        name, colon, told = word.partition(":")
        error = error_number(told) if colon else DEFAULT
        if error is None or (colon and not denies):
            self.notes.append(f"SystemCallFilter=: {word!r} is passed over, as systemd does")
            return
        if name.startswith("@") and name not in GROUPS:
            self.notes.append(f"SystemCallFilter=: the group {name} isn't known here: no call is counted for it")
            self.unknown = self.unknown or not denies
            return
        for each in GROUPS.get(name, frozenset([name])):
            if denies == (not self.allows) or (denies and colon):
                self.listed[each] = error
            else:
                self.listed.pop(each, None)

    def set_error(self, value: str) -> None:
        """An assignment to SystemCallErrorNumber=."""
        error = error_number(value) if value else KILL
        if error is None or error == 0:
            self.notes.append(f"SystemCallErrorNumber=: {value!r} is passed over, as systemd does")
        else:
            self.error = error

    def answer(self, call: str) -> int | str | None:
        """What a call of the kernel gets: an error's number, KILL, or None where it is made."""
        if self.allows is None:
            return None
        told = self.listed.get(call)
        if self.allows and told is None:
            return None if self.unknown else self.error
        if self.allows:
            return None if told == DEFAULT else told
        if told is None or self.unknown:
            return None
        return self.error if told == DEFAULT else told

    def excluded(self) -> list[str]:
        """The calls of a world that are refused with EPERM, whatever the kernel's call for it."""
        return [call for call, names in CARRIED.items() if all(self.answer(name) == errno.EPERM for name in names)]

    def others(self) -> list[str]:
        """What is refused otherwise, or not by each of the kernel's calls, and so isn't counted."""
        found = dict[str, list[str]]()
        for call, names in CARRIED.items():
            told = {name: self.answer(name) for name in names}
            if set(told.values()) not in ({None}, {errno.EPERM}):
                how = ", ".join(f"{name} {answer_words(each)}" for name, each in told.items()) \
                    if len(set(told.values())) > 1 else f"all {answer_words(told[names[0]])}"
                found.setdefault(how, []).append(call)
        return [f"{', '.join(calls)} ({how})" for how, calls in found.items()]
