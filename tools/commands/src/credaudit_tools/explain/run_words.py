"""The calls of a script line in words, one comment for each call of a run.

Who follows a run here keeps where each process stands as far as the run's own lines tell it, so that ids can be told
with what they are outside. No call is judged: whether a line is a step, `credaudit confirm` says.
"""
import re
from collections.abc import Callable, Iterable, Sequence
from dataclasses import dataclass, field, replace

from ..command_line.printable import shown
from ..formats.credential import Four
from ..formats.kernel_names import capability_text
from ..formats.report import Standing
from ..formats.worlds import INITIAL, File
from ..replay.spaces_of_report import SpaceTold, SpacesTold, triples
from ..system.namespaces import Extents
from .id_words import given_id, securebits_words, set_words

LINE = re.compile(r"(\d+) ([a-z_]+)((?: \S+)*) = (\S+)")
KEPT = 4294967295
SET_ID, SET_GROUP = 0o4000, 0o2000
# Calls after which the permitted and the inheritable set are what they were, or are told.
SAME_SETS = ("capset", "fork", "setgroups", "bset_drop", "no_new_privs", "securebits", "keepcaps", "exit",
             "install")


@dataclass
class Place:
    """What is known of processes, user namespaces and files where a run begins."""
    spaces: SpacesTold | None = None
    standing: dict[int, str] = field(default_factory=dict)
    files: dict[str, File] = field(default_factory=dict)
    ids: dict[int, tuple[Four, Four]] = field(default_factory=dict)
    sets: dict[int, tuple[int, int]] = field(default_factory=dict)      # permitted and inheritable, where known

    def at(self, shown_now: Iterable[Standing]) -> "Place":
        """The place with these processes where their credential lines show them."""
        for one in shown_now:
            self.standing[one.pid] = one.space
            self.ids[one.pid] = one.credential.uid, one.credential.gid
            self.sets[one.pid] = one.credential.prm, one.credential.inh
        return self

    def space(self, pid: int) -> SpaceTold | None:
        """The namespace in which a process stands, where it is known."""
        name = self.standing.get(pid)
        return self.spaces.named.get(name) if self.spaces is not None and name is not None else None

    def ids_map(self, pid: int, kind: str) -> Extents | None:
        """The map of a process's namespace, None where it isn't known."""
        own = self.space(pid)
        return None if own is None else own.uid_map if kind == "uid" else own.gid_map


@dataclass(frozen=True)
class Said:
    """A call that is to be told: its words, and where it is made."""
    pid: int
    call: str
    words: tuple[str, ...]
    result: str
    place: Place

    def id(self, kind: str, at: int) -> str:
        """The id of an argument."""
        number = KEPT if self.words[at] == "-1" else int(self.words[at])
        return given_id(self.place.ids_map(self.pid, kind), number)


def kind_of(call: str) -> str:
    """Whether a call is of user or of group ids."""
    return "gid" if "gid" in call else "uid"


def one_id(said: Said) -> str:
    """setuid and setgid."""
    kind = kind_of(said.call)
    what, cap = ("user", "CAP_SETUID") if kind == "uid" else ("group", "CAP_SETGID")
    return f"takes the {what} id {said.id(kind, 0)} as its effective one (with {cap} as all of its {what} ids)"


def fs_id(said: Said) -> str:
    """setfsuid and setfsgid."""
    kind = kind_of(said.call)
    return f"takes the {'user' if kind == 'uid' else 'group'} id {said.id(kind, 0)} for access to files"


def more_ids(said: Said) -> str:
    """setreuid, setresuid and their like."""
    kind = kind_of(said.call)
    names = ("real", "effective", "saved")[:len(said.words)]
    told = [f"{name} {said.id(kind, at)}" for at, name in enumerate(names) if said.words[at] != "-1"]
    what = "user" if kind == "uid" else "group"
    return f"takes these {what} ids: {', '.join(told)}" if told else f"leaves its {what} ids as they are"


def groups(said: Said) -> str:
    """setgroups."""
    told = [said.id("gid", at) for at in range(len(said.words))]
    return f"takes the supplementary groups {', '.join(told)}" if told else "gives up all supplementary groups"


def sets(said: Said) -> str:
    """capset."""
    told = [capability_text(word) for word in said.words]
    effective, permitted, inheritable = (0 if each is None else each for each in told)
    if effective == permitted and said.place.sets.get(said.pid) == (permitted, inheritable):
        return "makes all that is permitted effective"
    if effective == permitted:
        return f"makes all that is permitted effective: {set_words(permitted)}; inheritable {set_words(inheritable)}"
    return (f"sets effective {set_words(effective)}; permitted {set_words(permitted)};"
            f" inheritable {set_words(inheritable)}")


def execution(said: Said) -> str:
    """execve."""
    path = said.words[0]
    file = said.place.files.get(path)
    if path == "-":
        return "executes a program without set-id bits and capabilities"
    if file is None:
        return f"executes {shown(path)}"
    has = [f"set-user-ID {file.uid}"] if file.mode & SET_ID else []
    has += [f"set-group-ID {file.gid}"] if file.mode & SET_GROUP else []
    has += ["with capabilities"] if file.caps is not None else []
    has += [f"a script of {shown(file.interpreter)}"] if file.interpreter is not None else []
    return f"executes {shown(path)}" + (f" ({', '.join(has)})" if has else "")


def map_write(said: Said) -> str:
    """A write of a map."""
    name = said.call.removeprefix("write_")
    told = [f"{first} inside is {low} of its parent" if count == 1 else
            f"{first} to {first + count - 1} inside are {low} to {low + count - 1} of its parent"
            for first, low, count in triples(said.words[1:]) if count]
    return f"writes the {name} of {said.words[0]}: {'; '.join(told) or 'nothing'}"


def fixed(text: str) -> Callable[[Said], str]:
    """Words that say nothing of the arguments."""
    return lambda _: text


def with_word(text: str) -> Callable[[Said], str]:
    """Words that end in the first argument."""
    return lambda said: f"{text} {said.words[0]}"


def birth(what: str) -> Callable[[Said], str]:
    """A birth; the child is the result."""
    return lambda said: f"starts process {said.result}{what}" if said.result.isdigit() else f"starts a process{what}"


WORDS: dict[str, Callable[[Said], str]] = {
    **{name: one_id for name in ("setuid", "setgid")}, **{name: fs_id for name in ("setfsuid", "setfsgid")},
    **{name: more_ids for name in ("setreuid", "setregid", "setresuid", "setresgid")},
    "setgroups": groups, "capset": sets, "execve": execution,
    "bset_drop": with_word("drops from its bounding set"), "amb_raise": with_word("raises in its ambient set"),
    "amb_lower": with_word("lowers in its ambient set"), "amb_clear": fixed("clears its ambient set"),
    "securebits": lambda said: f"sets its securebits: {securebits_words(int(said.words[0]))}",
    "keepcaps": lambda said: ("keeps its permitted capabilities when it gives up the user id 0"
                              if said.words[0] == "1" else "keeps no capabilities over a change of user ids"),
    "no_new_privs": fixed("gives up new privileges by execve (no_new_privs)"),
    "fork": birth(""), "clone_user": birth(" in a new user namespace"),
    "unshare": fixed("makes a user namespace, and enters it with all capabilities over it"),
    "setns": with_word("enters the user namespace"), "write_uid_map": map_write, "write_gid_map": map_write,
    "write_setgroups": lambda said: f"writes {said.words[1]} to the setgroups file of {said.words[0]}",
    "exit": fixed("ends"),
    "install": lambda said: f"installs a filter that excludes {', '.join(said.words) or 'no call'}",
}


def parsed(line: str) -> tuple[int, str, tuple[str, ...], str] | None:
    """The parts of a script line; None where it is none, or of a call that isn't known."""
    found = LINE.fullmatch(line)
    if found is None or found[2] not in WORDS:
        return None
    return int(found[1]), found[2], tuple(found[3].split()), found[4]


def turn_sets(place: Place, said: Said) -> None:
    """Takes the sets of a caller from before a call to after it; they aren't known after one that may change them."""
    if said.call == "capset":
        _, permitted, inheritable = (capability_text(word) or 0 for word in said.words)
        place.sets[said.pid] = permitted, inheritable
    elif said.call == "fork" and said.pid in place.sets:
        place.sets[int(said.result)] = place.sets[said.pid]
    elif said.call not in SAME_SETS:
        place.sets.pop(said.pid, None)


def turned(place: Place, said: Said) -> None:
    """Takes the place from before a call to after it, as far as its line tells: who stands where, and the maps."""
    spaces = place.spaces
    if said.result.isdigit():
        turn_sets(place, said)
    if spaces is None or not said.result.isdigit():
        return
    if said.call in ("unshare", "clone_user") and said.pid in place.standing:
        name, above = f"#{len(spaces.named)}", spaces.named[place.standing[said.pid]]
        owner = place.ids.get(said.pid, ((0, 0, 0, 0), (0, 0, 0, 0)))[0][1]
        spaces.named[name] = SpaceTold(place.standing[said.pid], owner, setgroups=above.setgroups)
        place.standing[said.pid if said.call == "unshare" else int(said.result)] = name
    elif said.call == "fork" and said.pid in place.standing:
        place.standing[int(said.result)] = place.standing[said.pid]
    elif said.call == "setns" and said.words[0] in spaces.named:
        place.standing[said.pid] = said.words[0]
    elif said.call in ("write_uid_map", "write_gid_map") and said.words[0] in spaces.named:
        own, key = spaces.named[said.words[0]], said.call.removeprefix("write_")
        setattr(own, key, spaces.taken_down(own.parent, key, triples(said.words[1:])))


def who_and_what(line: str, place: Place) -> tuple[str, str]:
    """Who makes the call of a line, and what it does; the place is taken on. Nobody makes what is no line."""
    parts = parsed(line)
    if parts is None:
        return "", "no line of a script"
    said = Said(*parts, place)
    try:
        words = WORDS[said.call](said)
    except (IndexError, ValueError, TypeError):
        return "", "its arguments aren't those of the call"
    where = place.standing.get(said.pid, INITIAL)
    turned(place, said)
    within = f" (in {where})" if where != INITIAL else ""
    refused = f"; refused: {said.result}" if not said.result.isdigit() else ""
    return f"process {said.pid}{within}", f"{words}{refused}"


def told(line: str, place: Place) -> str:
    """A line of a run in words; the place is taken on."""
    return " ".join(part for part in who_and_what(line, place) if part)


def sentence(run: Sequence[str], place: Place, holder: int | None) -> str:
    """A whole run in one sentence, and who holds the right after it, where the last call isn't that process's; the
    place is taken on."""
    found, last = list[str](), ""
    for line in run:
        who, what = who_and_what(line, place)
        found.append(what if who and who == last else f"{who} {what}".strip())
        last = who
    parts = parsed(run[-1]) if run else None
    held = f"; then process {holder} has it" if holder is not None and (parts is None or parts[0] != holder) else ""
    return ", then ".join(found) + held


def known(path: str) -> str:
    """A path as a report that was read shows it."""
    return path.encode("utf-8", "surrogateescape").decode("ascii", "backslashreplace")


def place_at(spaces: SpacesTold | None, files: Iterable[File], standing: Iterable[Standing]) -> Place:
    """Where a run begins, with namespaces of its own: these processes, in these namespaces, with these files."""
    own = None if spaces is None else SpacesTold({name: replace(space) for name, space in spaces.named.items()})
    return Place(own, files={known(row.path): row for row in files}).at(standing)
