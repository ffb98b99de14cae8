"""By which id or set a right is held, and by whom: by hand, from user_namespaces(7), "Capabilities"."""
import unittest

from credaudit_tools.formats import rights
from credaudit_tools.formats.credential import Credential, Four, four
from credaudit_tools.formats.report import Standing
from credaudit_tools.formats.rights import Right
from credaudit_tools.judge import classes, held_by
from credaudit_tools.judge.classes import Outcome
from credaudit_tools.replay.spaces_of_report import SpaceTold

KILL = 1 << 5
SPACES = {"init": SpaceTold(None, 0), "box": SpaceTold("init", 7), "in": SpaceTold("box", 2),
          "deep": SpaceTold("in", 5), "beside": SpaceTold("init", 2)}


def one(pid: int = 100, space: str = "box", uid: Four = (1, 2, 3, 4), eff: int = KILL) -> Standing:
    """A process."""
    return Standing(pid, space, Credential(uid, (5, 6, 7, 8), frozenset({6, 9}), 0, KILL, eff, 0, 0, 0, False))


def ways(text: str, process: Standing) -> list[str]:
    """By what it has the right of a text."""
    right = rights.parse(text)
    assert right is not None
    return held_by.ways(process, right, right.space, SPACES)


class Held(unittest.TestCase):
    def test_ids(self) -> None:
        for text, told in (("uid:2", ["effective user id"]), ("uid:1", []), ("uid:3", []), ("uid:4", []),
                           ("gid:6", ["effective group id", "supplementary group"]), ("gid:5", []),
                           ("gid:9", ["supplementary group"])):
            self.assertEqual(ways(text, one()), told, text)

    def test_capabilities(self) -> None:
        """Over its own namespace and those below it; by ownership each of them, and over none above or beside it."""
        owner = "effective user id 2, owner of in"
        for space, kill, chown in (("box", ["effective set"], []),
                                   ("in", ["effective set in box, above in", owner], [owner]),
                                   ("deep", ["effective set in box, above deep", owner], [owner]),
                                   ("init", [], []), ("beside", [], []), ("none", [], [])):
            self.assertEqual(ways(f"cap:CAP_KILL@{space}", one()), kill, space)
            self.assertEqual(ways(f"cap:CAP_CHOWN@{space}", one()), chown, space)
        self.assertEqual(ways("cap:CAP_KILL@in", one(uid=(2, 3, 3, 3), eff=0)), [])
        self.assertEqual(ways("cap:CAP_KILL@beside", one(space="init", eff=0)),
                         ["effective user id 2, owner of beside"])

    def test_members(self) -> None:
        family = tuple(one(pid) for pid in (104, 101, 100, 103, 102)) + (one(99, uid=four([8])),)
        told = held_by.holders(family, Right("uid", 2), None, SPACES)
        self.assertEqual(told, tuple(f"process {pid} (effective user id)" for pid in range(100, 105)))
        self.assertEqual(held_by.holders((one(),), Right("gid", 6), None, SPACES),
                         ("process 100 (effective group id and supplementary group)",))

    def test_words(self) -> None:
        told = tuple(f"process {pid} (effective user id)" for pid in range(100, 105))
        held = Outcome(Right("uid", 2), classes.HELD, holder=100, reasons=told)
        self.assertEqual(classes.words(held), "held by process 100 (effective user id), process 101 (effective user"
                                              " id), process 102 (effective user id) and 2 more")
        self.assertEqual(classes.words(Outcome(Right("uid", 2), classes.HELD, holder=7)), "held by process 7")


if __name__ == "__main__":
    unittest.main()
