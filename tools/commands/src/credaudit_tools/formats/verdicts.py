"""The one reader of the lines that end the report of an audit, and what the blamed rules mean (docs/VERDICT.md)."""
import re
from dataclasses import dataclass

from ..command_line.command import Failure

YES, NO, UNDECIDED = "yes", "no", "undecided"
END = re.compile(r"end (\d+)")
NONE = re.compile(r"no (\d+)")
OPEN = re.compile(r"undecided (\S+) (\S+)")
NO_VERDICT = ("bad query: ", "limit ")
HOLDER = re.compile(r"holder (\d+)")
STATUS = {YES: 0, NO: 1, UNDECIDED: 2}
# By rule what it lets in, and what an author can do: docs/VERDICT.md, "What to do about an undecided row", and
# docs/BOUNDS.md, "The rules", for those that are never blamed.
RULES = {
    "start": ("what a member has already, and can't use now", "give it up before the log ends"),
    "setuid": ("setuid, setreuid or setresuid",
               "set all three user ids to one; give up CAP_SETUID; exclude setuid, setreuid and setresuid"),
    "setfsuid": ("setfsuid", "set all user ids to one; exclude setfsuid"),
    "setgid": ("setgid, setregid or setresgid",
               "set all three group ids to one; give up CAP_SETGID; exclude setgid, setregid and setresgid"),
    "setfsgid": ("setfsgid", "set all group ids to one; exclude setfsgid"),
    "setgroups": ("setgroups", "give up CAP_SETGID; write \"deny\"; exclude setgroups"),
    "capset": ("capset", "drop the bounding set; give up CAP_SETPCAP"),
    "securebits": ("securebits that are cleared", "lock SECBIT_NOROOT; give up CAP_SETPCAP"),
    "exec_uid": ("a set-user-ID program that a member may run",
                 "set no_new_privs in every member; mount nosuid; exclude execve"),
    "exec_gid": ("a set-group-ID program that a member may run",
                 "set no_new_privs in every member; mount nosuid; exclude execve"),
    "exec_caps": ("a program with capabilities that a member may run",
                  "set no_new_privs; drop the bounding set and the inheritable one"),
    "exec_root": ("a program that is run as root of a user namespace",
                  "keep no id that is root's, saved ones included; set SECBIT_NOROOT and its lock; set no_new_privs;"
                  " drop the bounding set and the inheritable one"),
    "create": ("a user namespace of one's own", "exclude unshare and clone_user"),
    "join": ("setns into a user namespace", "give up CAP_SYS_ADMIN; exclude setns"),
    "maps": ("a map that isn't written yet", "write both maps; exclude write_uid_map and write_gid_map"),
}


@dataclass(frozen=True)
class Verdict:
    """What an audit answers: of `no` the run and who holds the right at its end, of `undecided` the rule and the row,
    of `yes` and `undecided` the line of bounds: of `yes` the certificate."""
    word: str
    run: tuple[str, ...] = ()
    holder: int | None = None
    rule: str | None = None
    row: str | None = None
    certificate: str | None = None


def taken(found: re.Match[str] | None, line: str) -> re.Match[str]:
    """A line of the report; fails where it isn't of its kind."""
    if found is None:
        raise Failure(f"this line isn't that of an audit: {line[:200]}")
    return found


def verdict_of(lines: list[str]) -> Verdict | None:
    """The verdict of the lines below `end N`; None where there is none: of a replay, and where the question is refused.
    Fails where they are no lines of a report."""
    if not lines:
        return None
    first, rest = lines[0], lines[1:]
    if first.startswith(NO_VERDICT):
        return None
    if first == YES or first.startswith(UNDECIDED + " "):
        if len(rest) != 1 or not rest[0].startswith("{"):
            raise Failure("the report's last lines aren't those of an audit")
        if first == YES:
            return Verdict(YES, certificate=rest[0])
        found = taken(OPEN.fullmatch(first), first)
        return Verdict(UNDECIDED, rule=found[1], row=found[2], certificate=rest[0])
    found = taken(NONE.fullmatch(first), first)
    if len(rest) != int(found[1]) + 1:
        raise Failure("the report's last lines aren't those of an audit: it has another number of calls than it tells")
    return Verdict(NO, tuple(rest[:-1]), int(taken(HOLDER.fullmatch(rest[-1]), rest[-1])[1]))


# ---- what check and confirm answer -----------------------------------------------------------------------------------

CHECKED: dict[str, str] = {
    r"holds": "The certificate holds: no member has the right, and after no later calls of theirs does one.",
    r"refused json": "The certificate is refused: it is no JSON.",
    r"refused shape (\S+)": "The certificate is refused: {0} hasn't the form of a certificate's.",
    r"refused order (\S+)": "The certificate is refused: a set of ids of the row {0} isn't in ascending order.",
    r"refused not-start (\S+)": "The certificate is refused: the row {0} lacks what a member has now.",
    r"refused not-closed (\S+) (\S+)": "The certificate is refused: the rule {0} leads out of the row {1}.",
    r"refused meets (\S+)": "The certificate is refused: by the row {0} a member may have the right.",
    r"confirmed (\d+)": "The run is confirmed: after it process {0} has the right.",
    r"refused line (\d+)": "The run is refused: its line {0} is none, or its call isn't a member's, or is excluded, or"
    " is no step by the rules.",
    r"refused end": "The run is refused: after it no member has the right."}


def checked_words(line: str) -> str | None:
    """What a line of `check` or `confirm` means; None where it is none."""
    for form, told in CHECKED.items():
        found = re.fullmatch(form, line)
        if found is not None:
            return told.format(*found.groups())
    return None
