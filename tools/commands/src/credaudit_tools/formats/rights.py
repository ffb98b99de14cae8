"""Rights as an audit asks for them (docs/FORMATS.md, "Words"), and their words. Where somebody types one, the name of a
user or of a group may stand for its id.
"""
import re
from collections.abc import Callable, Iterator
from dataclasses import dataclass, field

from ..command_line.command import Failure
from ..command_line.printable import quoted
from ..command_line.users import Users
from .kernel_names import CAPABILITIES, NUMBERS
from .worlds import INITIAL

RIGHT = re.compile(r"(?P<kind>uid|gid):(?P<id>[0-9]{1,20})"
                   r"|cap:(?P<name>CAP_[A-Z_]+)@(?P<space>[A-Za-z0-9_.-]{1,32}|#[0-9]{1,20})")
BY_NAME = re.compile(r"(?P<kind>uid|gid):(?P<name>(?![0-9]+$)[^\s,:#-][^\s,:]{0,255})")
LAST_ID = 4294967294
KINDS = ("uid", "gid", "cap")
Lookup = Callable[[str, str], int | None]       # takes `uid` or `gid` and a name


@dataclass(frozen=True)
class Right:
    """A user id, a group id, or a capability over a user namespace. `number` is the id's or the capability's."""
    kind: str
    number: int
    space: str | None = None

    def text(self) -> str:
        """As the program reads it."""
        return f"{self.kind}:{self.number}" if self.space is None else \
            f"cap:CAP_{CAPABILITIES[self.number]}@{self.space}"


def parse(text: str) -> Right | None:
    """The right of a text; None where it is none."""
    found = RIGHT.fullmatch(text)
    if found is None:
        return None
    if found["kind"]:
        return Right(found["kind"], int(found["id"])) if int(found["id"]) <= LAST_ID else None
    number = NUMBERS.get(found["name"])
    return None if number is None else Right("cap", number, found["space"])


def is_right(text: str) -> bool:
    """Whether a text is a right, or has the form of one whose id stands by its name."""
    return parse(text) is not None or BY_NAME.fullmatch(text) is not None


@dataclass
class Reading:
    """Reads rights that somebody typed; `named` keeps what each name stood for."""
    lookup: Lookup
    named: dict[str, Right] = field(default_factory=dict)

    def right(self, text: str) -> Right | None:
        """The right of a text; None where it is none. Fails where nobody has the name."""
        right, found = parse(text), BY_NAME.fullmatch(text)
        if right is not None or found is None:
            return right
        number = self.lookup(found["kind"], found["name"])
        if number is None:
            who = "user" if found["kind"] == "uid" else "group"
            raise Failure(f"there is no {who} {quoted(found['name'])} here",
                          f"write its number: {found['kind']}:ID")
        return self.named.setdefault(text, Right(found["kind"], number))

    def notes(self) -> Iterator[str]:
        """What the names stood for."""
        return (f"{text} is {right.text()} here" for text, right in self.named.items())


def of_root(known: Users, spaces: tuple[str, ...] = (INITIAL,)) -> list[Right]:
    """What root has: user and group 0, root's other groups, and each capability over these user namespaces."""
    root = known.user("root")
    groups = {0, *known.groups_of("root"), *([root.gid] if root is not None else [])}
    return [Right("uid", 0), *(Right("gid", each) for each in sorted(groups)),
            *(Right("cap", number, space) for space in dict.fromkeys(spaces) for number in range(len(CAPABILITIES)))]


def ordered(rights: list[Right]) -> list[Right]:
    """Each right once: user ids first, then groups, then capabilities; of each kind in the order given."""
    return sorted(dict.fromkeys(rights), key=lambda right: KINDS.index(right.kind))
