"""What the settings of a unit say of its processes' credentials (systemd.exec(5)), by the rules of that page.

What isn't counted is told: where a setting may hold or not, what leaves the processes more is taken, so that a `yes`
stays true.
"""
import re
from dataclasses import dataclass, field

from ..command_line.command import Failure
from ..command_line.printable import quoted
from ..command_line.users import Users, number_of
from ..formats.kernel_names import ALL, CAPABILITIES, NUMBERS
from . import unit_keys
from .unit_calls import Filter
from .unit_files import Unit
from .unit_text import Unfinished, boolean, words, words_before

EVERY_BIT = (1 << 64) - 1   # a set that wasn't assigned to; one of all capabilities that there are is another
DYNAMIC_ID = 61184          # the first of the range from which ids are taken (systemd.exec(5), DynamicUser=)
NUMBER = re.compile("-?[0-9]+")
FIRST_NAME = re.compile(r"[A-Za-z_][A-Za-z0-9_-]{0,30}")
SECURE = {"noroot": 0x01, "noroot-locked": 0x02, "no-setuid-fixup": 0x04, "no-setuid-fixup-locked": 0x08,
          "keep-caps": 0x10, "keep-caps-locked": 0x20}
# The service's own command comes first: it is the process that is asked about.
COMMANDS = ("ExecStart", "ExecCondition", "ExecStartPre", "ExecStartPost", "ExecReload", "ExecStop", "ExecStopPost")
# Settings that imply NoNewPrivileges= where the service manager has no CAP_SYS_ADMIN left.
IMPLY = ("LockPersonality", "MemoryDenyWriteExecute", "PrivateDevices", "ProtectClock", "ProtectHostname",
         "ProtectKernelLogs", "ProtectKernelModules", "ProtectKernelTunables", "RestrictAddressFamilies",
         "RestrictNamespaces", "RestrictRealtime", "RestrictSUIDSGID", "SystemCallArchitectures", "SystemCallFilter",
         "SystemCallLog")
# Settings that have to do with rights, and why they aren't counted.
DROPS = "it also takes {} out of the bounding set: CapabilityBoundingSet= alone is counted"
FILES = "what it shows or hides of files isn't looked at: all declared programs stay"
PASSED_OVER = {
    "RestrictNamespaces": "what it refuses depends on the flags of clone, unshare and setns, and clone3 gets another"
                          " error: no call is counted as excluded",
    "PrivateDevices": DROPS.format("CAP_MKNOD and CAP_SYS_RAWIO"),
    "ProtectClock": DROPS.format("CAP_SYS_TIME and CAP_WAKE_ALARM"),
    "ProtectKernelLogs": DROPS.format("CAP_SYSLOG"), "ProtectKernelModules": DROPS.format("CAP_SYS_MODULE"),
    "RestrictSUIDSGID": "files stay as they are declared anyway",
    "PAMName": "what the session's modules set isn't known",
    "PermissionsStartOnly": "every command is taken to run as the settings say",
    "RootDirectoryStartOnly": "every command is taken to run in the root directory",
    **{name: FILES for name in ("RootImage", "BindPaths", "BindReadOnlyPaths", "MountImages", "ExtensionImages",
                                "ExtensionDirectories", "InaccessiblePaths", "TemporaryFileSystem")},
    **{name: "mandatory access control isn't looked at" for name in ("SELinuxContext", "AppArmorProfile",
                                                                     "SmackProcessLabel")}}
SHOWS_MORE = ("RootImage", "BindPaths", "BindReadOnlyPaths", "MountImages", "ExtensionImages", "ExtensionDirectories")


@dataclass(frozen=True)
class Command:
    """The program of a command. With the mark `!` it begins with the ids of the service manager, which are root's, and
    all that isn't of ids is as the settings say (systemd.service(5), "Command lines"). The groups that User= and Group=
    give are its supplementary ones, as systemd 252 starts it."""
    path: str
    as_root: bool = False


@dataclass
class Settings:
    """The credentials of a unit's processes before they execute their program, and what else a world declares."""
    uid: int = 0
    gid: int = 0
    groups: frozenset[int] = frozenset()
    user_groups: frozenset[int] = frozenset()   # those of them that SupplementaryGroups= doesn't add
    bounding: int = ALL
    ambient: int = 0
    securebits: int = 0
    no_new_privs: bool = False
    private_users: str | None = None
    filter: Filter = field(default_factory=Filter)
    native: bool = False            # programs of other architectures can make no call
    root: str | None = None
    exec_paths: list[str] = field(default_factory=list)
    no_exec_paths: list[str] = field(default_factory=list)
    commands: list[Command] = field(default_factory=list)
    privileged: bool = False        # a command runs with full privileges
    notes: list[str] = field(default_factory=list)


class NotKnown(Failure):
    """A unit may be good, and what it says isn't known here."""


def expanded(unit: Unit, text: str) -> str:
    """A value with its specifiers (systemd.unit(5), "Specifiers"). Fails at one that isn't known here."""
    known = {"i": unit.instance(), "I": unescaped(unit.instance()), "n": unit.name,
             "N": unit.name.removesuffix(".service"), "p": unit.prefix(), "P": unescaped(unit.prefix()),
             "j": unit.prefix().rpartition("-")[2], "J": unescaped(unit.prefix().rpartition("-")[2]), "%": "%"}

    def one(found: re.Match[str]) -> str:
        if found[1] not in known:
            raise NotKnown(f"the specifier %{found[1]} of {quoted(text)} isn't known here")
        return known[found[1]]
    return re.sub("%(.)", one, text)


def unescaped(text: str) -> str:
    """A part of a unit's name without its escapes (systemd-escape(1))."""
    return re.sub(r"\\x([0-9a-f]{2})", lambda found: chr(int(found[1], 16)), text.replace("-", "/"))


def capability(word: str) -> int | None:
    """A capability by name, in either case, or by number."""
    if word.isascii() and word.isdigit():
        return int(word) if int(word) < len(CAPABILITIES) else None
    return NUMBERS.get(word.upper())


def capabilities(values: list[str], initial: int, name: str, notes: list[str]) -> int:
    """A set of capabilities after its assignments: the first, and each that is empty or a lone `~`, replaces it; others
    are added to it or, with `~`, taken out of it."""
    bits = start = EVERY_BIT if initial else 0
    for value in values:
        takes, mask = value.startswith("~"), 0
        for word in words_before(value.removeprefix("~")):
            number = capability(word)
            if number is None:
                notes.append(f"{name}=: {word!r} is no capability, and is passed over, as systemd does")
            else:
                mask |= 1 << number
        if mask == 0 or bits == start:
            bits = EVERY_BIT & ~mask if takes else mask
        else:
            bits = bits & ~mask if takes else bits | mask
    return bits & ALL


def truth(unit: Unit, key: str) -> bool:
    """The last good truth value of a key."""
    told = [each for value in unit.values(key) if (each := boolean(value)) is not None]
    return told[-1] if told else False


def last(unit: Unit, key: str) -> str | None:
    """The last value of a key; an empty one stands for none."""
    values = unit.values(key)
    return expanded(unit, values[-1]) if values and values[-1] else None


def paths(unit: Unit, key: str, notes: list[str]) -> list[str]:
    """The paths of a list; an empty assignment begins it anew. What isn't absolute is passed over, and what stands from
    a quote on that doesn't end."""
    found = list[str]()
    for value in unit.values(key):
        try:
            told = words(value)
        except Unfinished as error:
            told = error.found
            notes.append(f"{key}=: {error}; the rest is passed over, as systemd does")
        told = [expanded(unit, word) for word in told]
        good = [word for word in told if word.removeprefix("-").removeprefix("+").startswith("/")]
        notes += [f"{key}=: {word!r} isn't absolute, and is passed over, as systemd does" for word in told
                  if word not in good]
        found = [*found, *good] if value else []
    return found


def root_directory(unit: Unit) -> str | None:
    """RootDirectory=. Fails at a path that isn't absolute or leads upwards."""
    for value in unit.values("RootDirectory"):
        path = expanded(unit, value)
        if path and (not path.startswith("/") or ".." in path.split("/")):
            raise Failure(f"RootDirectory=: {quoted(path)} isn't absolute, or not normalized: the unit doesn't start")
    return last(unit, "RootDirectory")


# ---- ids -------------------------------------------------------------------------------------------------------------


def set_ids(made: Settings, unit: Unit, users: Users) -> None:
    """User=, Group=, DynamicUser= and SupplementaryGroups=."""
    name, group, dynamic = last(unit, "User"), last(unit, "Group"), truth(unit, "DynamicUser")
    for key in ("User", "Group"):
        for value in unit.values(key):
            if NUMBER.fullmatch(value) and number_of(value) is None:
                raise Failure(f"{key}=: {value} is no id, so the unit doesn't start")
    if any(boolean(value) is None for value in unit.values("DynamicUser")):
        raise Failure("DynamicUser=: a value is no truth value, so the unit doesn't start")
    default = unit.name.removesuffix(".service")
    wanted = name or (default if dynamic and FIRST_NAME.fullmatch(default) else None)
    user = users.user(wanted) if wanted is not None else None
    own = set[int]()
    if user is not None:
        made.uid, made.gid = user.uid, user.gid
    elif dynamic:
        made.uid = made.gid = DYNAMIC_ID
        made.notes.append(f"DynamicUser=: a user and a group that nothing else has; {DYNAMIC_ID} stands for them")
    elif wanted is not None:
        raise Failure(f"User=: there is no user {quoted(wanted)}, so the unit doesn't start")
    if group is not None:
        number = users.group(group)
        if number is None and not dynamic:
            raise Failure(f"Group=: there is no group {quoted(group)}, so the unit doesn't start")
        made.gid = DYNAMIC_ID if number is None else number
    if user is not None and made.gid != 0:
        own = users.groups_of(user.name) | {made.gid}
    elif dynamic and user is None:
        own = {made.gid}
    made.user_groups = frozenset(own)
    for word in supplementary(unit):
        number = users.group(word)
        if number is None:
            raise Failure(f"SupplementaryGroups=: there is no group {quoted(word)}, so the unit doesn't start")
        own.add(number)
    made.groups = frozenset(own)
    made.no_new_privs = dynamic or truth(unit, "NoNewPrivileges")


def supplementary(unit: Unit) -> list[str]:
    """The words of SupplementaryGroups=; an empty assignment begins it anew. There are no quotes."""
    found = list[str]()
    for value in unit.values("SupplementaryGroups"):
        found = [*found, *expanded(unit, value).split()] if value else []
    return found


# ---- the rest --------------------------------------------------------------------------------------------------------


def set_securebits(made: Settings, unit: Unit) -> None:
    """SecureBits=."""
    for value in unit.values("SecureBits"):
        if not value:
            made.securebits = 0
        for word in words_before(value):
            if word in SECURE:
                made.securebits |= SECURE[word]
            else:
                made.notes.append(f"SecureBits=: {word!r} is passed over, as systemd does")


def set_private_users(made: Settings, unit: Unit) -> None:
    """PrivateUsers=: a truth value; later versions of systemd have more words."""
    for value in unit.values("PrivateUsers"):
        told = boolean(value)
        if told is not None:
            made.private_users = "self" if told else None
        elif value in ("self", "identity", "full"):
            made.private_users = value
        else:
            made.notes.append(f"PrivateUsers=: {value!r} isn't known here, and is passed over")
    if made.private_users is not None:
        made.notes.append("PrivateUsers=: it is counted; systemd.exec(5) warns that a system may not be able to do it")


def set_commands(made: Settings, unit: Unit) -> None:
    """The commands of the unit, each by the path of its program."""
    for key in COMMANDS:
        found = list[Command]()
        for value in unit.values(key):
            found = [*found, *commands_of(made, unit, key, value)] if value else []
        made.commands += found
    if not made.commands and made.privileged:
        raise Failure("each command of the unit runs with full privileges (+)",
                      "the settings aren't those of its processes")


def commands_of(made: Settings, unit: Unit, key: str, value: str) -> list[Command]:
    """The programs of a line of commands; those that the settings don't hold for, or not all of them, are told. Fails
    at a program that is named by a relative path."""
    found, begins = list[Command](), True
    try:
        every = words(value, escapes=True)
    except Unfinished as error:
        made.notes.append(f"{key}=: {error}; the line is passed over, as systemd does")
        return found
    for word in every:
        if begins:
            front = word[:len(word) - len(word.lstrip("@-:+!"))]
            path = expanded(unit, word[len(front):])
            if "/" in path and not path.startswith("/"):
                raise Failure(f"{key}=: {quoted(path)} is neither a name nor an absolute path: the unit doesn't start")
            as_root = "!" in front and "!!" not in front
            if "+" in front:
                made.privileged = True
                made.notes.append(f"{key}=: {path} runs with full privileges ({front}): it isn't in this answer")
            elif as_root:
                made.notes.append(f"{key}=: {path} begins as root ({front}): of User=, Group= and SupplementaryGroups="
                                  " it has the user's groups alone")
            if "+" not in front:
                found.append(Command(path, as_root))
        begins = word == ";"
    return found


def is_set(unit: Unit, key: str) -> bool:
    """Whether a key's last value is neither empty nor false."""
    values = unit.values(key)
    return bool(values) and bool(values[-1]) and boolean(values[-1]) is not False


def architectures(unit: Unit) -> set[str]:
    """The words of SystemCallArchitectures=; an empty assignment begins it anew."""
    found = set[str]()
    for value in unit.values("SystemCallArchitectures"):
        found = found | set(words_before(value)) if value else set()
    return found


def implied(made: Settings, unit: Unit) -> None:
    """no_new_privs that some versions of systemd set by other settings."""
    found = [key for key in unit.keys() if key in IMPLY and is_set(unit, key)]
    if found and not made.no_new_privs and made.uid != 0:
        made.notes.append(f"{', '.join(key + '=' for key in found)}: some versions of systemd set no_new_privs for it;"
                          " it isn't counted, NoNewPrivileges=yes is")


def settings(unit: Unit, users: Users) -> Settings:
    """What a unit's settings say. Fails where it wouldn't start."""
    made = Settings()
    set_ids(made, unit, users)
    made.bounding = capabilities(unit.values("CapabilityBoundingSet"), ALL, "CapabilityBoundingSet", made.notes)
    made.ambient = capabilities(unit.values("AmbientCapabilities"), 0, "AmbientCapabilities", made.notes)
    set_securebits(made, unit)
    set_private_users(made, unit)
    for key, value in ((each.key, each.value) for each in unit.given if each.section == "Service"):
        if key == "SystemCallFilter":
            made.filter.assign(value)
        elif key == "SystemCallErrorNumber":
            made.filter.set_error(value)
    made.root = root_directory(unit)
    made.exec_paths = paths(unit, "ExecPaths", made.notes)
    made.no_exec_paths = paths(unit, "NoExecPaths", made.notes)
    set_commands(made, unit)
    implied(made, unit)
    made.native = architectures(unit) == {"native"}
    made.notes += made.filter.notes
    made.notes += [f"SystemCallFilter=: not counted as excluded: {told}" for told in made.filter.others()]
    if made.filter.excluded() and not made.native:
        made.notes.append("SystemCallFilter=: no call is counted as excluded, since other architectures may get round"
                          " it: SystemCallArchitectures=native isn't set")
    made.notes += [f"{key}=: {why}" for key, why in PASSED_OVER.items()
                   if (truth(unit, key) if key in unit_keys.TRUTHS else is_set(unit, key))]
    made.notes += [*unit_keys.odd_keys(unit), *unit_keys.odd_values(unit)]
    if made.ambient & ~made.bounding:
        made.notes.append("AmbientCapabilities= has more than CapabilityBoundingSet=: the unit may not start")
    return made
