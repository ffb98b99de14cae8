"""The filters that processes install, by the events of a replay. By hand from docs/RULES.md, "Installing filters"."""
import unittest

from credaudit_tools.formats.report import Event
from credaudit_tools.replay.own_filters import at_end, shared
from credaudit_tools.timeline.walk import Life


def events(*lines: str) -> list[Event]:
    """Events as a script has them."""
    found = []
    for number, line in enumerate(lines, 1):
        front, result = line.split(" = ")
        pid, call, *arguments = front.split()
        found.append(Event(number, int(pid), call, tuple(arguments), result, ()))
    return found


class Filters(unittest.TestCase):
    def test_at_end(self) -> None:
        """A second one comes to the first, a child has its parent's, a refused one changes nothing."""
        told = at_end(events("100 install setuid fork = 0", "100 install setgid = 0", "100 clone_user = 101",
                             "100 install setns = EACCES", "101 install = 0", "101 install unshare = 0",
                             "50 fork = 51", "100 exit = 0"))
        own = {"setuid", "setgid", "fork"}
        self.assertEqual(told, {101: own | {"unshare"}, 51: set()})
        self.assertEqual(shared([told[101], told[51]]), set())
        self.assertEqual(shared([told[101], frozenset(("setuid", "exit"))]), {"setuid"})

    def test_a_pid_that_is_used_again(self) -> None:
        told = at_end(events("100 install setuid = 0", "100 exit = 0", "50 fork = 100"))
        self.assertEqual(told[100], set())

    def test_from_moment_to_moment(self) -> None:
        life = Life(100)
        for moment, names in ((3, {"setuid"}), (4, {"setuid"}), (7, {"setgid"})):
            life.installs(frozenset(names), moment)
        self.assertEqual([sorted(life.filter_at(moment)) for moment in (2, 3, 6, 7)],
                         [[], ["setuid"], ["setuid"], ["setgid", "setuid"]])
        self.assertEqual(len(life.filters), 2)


if __name__ == "__main__":
    unittest.main()
