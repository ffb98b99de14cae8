"""Users and groups by name (passwd(5), group(5)): those of the machine, or those of another root directory."""
import grp
import os
import pwd
from dataclasses import dataclass, field

from .files import read_regular

LAST_ID, NOBODY = 4294967294, 65534
NO_ID = 65535               # -1 in 16 bits, which systemd takes for no id
MOST = 1 << 24


@dataclass(frozen=True)
class User:
    """A user: its name, id and first group."""
    name: str
    uid: int
    gid: int


@dataclass
class Users:
    """What is known of users and groups: by name, and the members of groups. root and nobody are always there."""
    users: list[User] = field(default_factory=list)
    groups: dict[str, int] = field(default_factory=dict)
    members: dict[int, set[str]] = field(default_factory=dict)

    def user(self, word: str) -> User | None:
        """A user by name or number."""
        every = [*self.users, User("root", 0, 0), User("nobody", NOBODY, NOBODY)]
        number = number_of(word)
        return next((each for each in every if each.name == word or each.uid == number), None)

    def group(self, word: str) -> int | None:
        """A group by name or number; a number needs no entry."""
        number = number_of(word)
        if number is not None:
            return number
        return self.groups.get(word, {"root": 0, "nogroup": NOBODY}.get(word))

    def id_of(self, kind: str, name: str) -> int | None:
        """The id of a user (kind `uid`) or of a group (`gid`) of this name; None where nobody has it."""
        if kind == "gid":
            return self.group(name)
        user = self.user(name)
        return None if user is None else user.uid

    def groups_of(self, name: str) -> set[int]:
        """The groups of which a user is a member (initgroups(3))."""
        return {gid for gid, names in self.members.items() if name in names}


def number_of(word: str) -> int | None:
    """An id that is written as a number."""
    if not word.isascii() or not word.isdigit() or len(word) > len(str(LAST_ID)):
        return None
    return int(word) if int(word) <= LAST_ID and int(word) != NO_ID else None


def on_machine(kind: str, name: str) -> int | None:
    """The id of a user (kind `uid`) or of a group (`gid`) of the machine (getpwnam(3), getgrnam(3)); None where nobody
    has the name. Nobody is looked for by going through all of them, which a directory service may not allow."""
    try:
        return pwd.getpwnam(name).pw_uid if kind == "uid" else grp.getgrnam(name).gr_gid
    except (KeyError, ValueError):
        return None


def of_machine() -> Users:
    """Those of the machine."""
    found = Users([User(each.pw_name, each.pw_uid, each.pw_gid) for each in pwd.getpwall()])
    for row in grp.getgrall():
        found.groups.setdefault(row.gr_name, row.gr_gid)
        found.members.setdefault(row.gr_gid, set()).update(row.gr_mem)
    return found


def parts(root: str, name: str, count: int) -> list[list[str]]:
    """The rows of a file of that root directory; those that are none are left out."""
    path = os.path.join(root, "etc", name)
    if not os.path.exists(path):
        return []
    rows = [line.split(":") for line in read_regular(path, MOST, follow=True).decode("utf-8", "replace").split("\n")]
    return [row for row in rows if len(row) >= count]


def of_root(root: str) -> Users:
    """Those of another root directory's files."""
    found = Users()
    for row in parts(root, "passwd", 4):
        uid, gid = number_of(row[2]), number_of(row[3])
        if uid is not None and gid is not None:
            found.users.append(User(row[0], uid, gid))
    for row in parts(root, "group", 4):
        number = number_of(row[2])
        if number is not None:
            found.groups.setdefault(row[0], number)
            found.members.setdefault(number, set()).update(name for name in row[3].split(",") if name)
    return found
