"""The search for borders: what is held is read off the replay, and of all else no more is asked than tells the borders.
The answers are told by hand; each row says what is asked, too."""
import unittest
from collections.abc import Mapping, Sequence

from credaudit_tools.command_line.command import Failure
from credaudit_tools.formats.rights import Right
from credaudit_tools.judge.classes import GONE, HELD, OPEN, OWN_CALLS, PROGRAM, Outcome
from credaudit_tools.timeline.borders import NOT_YET, Search, Stretch, stretches
from credaudit_tools.timeline.held_rights import Holding
from credaudit_tools.timeline.walk import walked

from ..told_rows import file_row, space_row
from .timeline_case import replayed

ROOT = 'log = "script"\n[[process]]\npid = 100\n'
UID = Right("uid", 0)
TURNS = "".join(f"100 keepcaps {number % 2} = 0\n" for number in range(1, 41))     # each changes the securebits


class Answering:
    """Answers by the moments from which on something else is so, and keeps what was asked."""

    def __init__(self, *kinds: tuple[int, str]) -> None:
        self.kinds = kinds
        self.moments = list[int]()

    def __call__(self, moment: int, rights: Sequence[Right]) -> Mapping[Right, Outcome]:
        self.moments.append(moment)
        kind = [kind for begin, kind in self.kinds if begin <= moment][-1]
        return {right: Outcome(right, kind) for right in rights}


def searched(world: str, log: str, answers: Answering, right: Right = UID, place: int = 0) -> list[tuple[int, str]]:
    """By moment what a right becomes."""
    walk = walked(*replayed(world, log))
    search = Search(walk, walk.lives[place], Holding([right], walk), answers)
    course = search.course()
    return [(course.moments[at], course.outcomes[right][at].kind) for at in course.begins(right)]


class Borders(unittest.TestCase):
    def test_what_is_held_is_not_asked(self) -> None:
        answers = Answering((0, GONE))
        self.assertEqual(searched(ROOT, TURNS, answers), [(0, HELD)])
        self.assertEqual(answers.moments, [])

    def test_gone_at_once(self) -> None:
        """The line of the drop is asked, and nothing behind it: what is gone stays so."""
        answers = Answering((1, GONE))
        self.assertEqual(searched(ROOT, "100 setuid 33 = 0\n" + TURNS, answers), [(0, HELD), (1, GONE)])
        self.assertEqual(answers.moments, [1])

    def test_gone_later(self) -> None:
        """Of 41 moments after the last at which it is held both ends are asked, and then halves."""
        for border in range(2, 42):
            with self.subTest(border):
                answers = Answering((1, OWN_CALLS), (border, GONE))
                self.assertEqual(searched(ROOT, "100 setresuid -1 33 -1 = 0\n" + TURNS, answers),
                                 [(0, HELD), (1, OWN_CALLS), (border, GONE)])
                self.assertLessEqual(len(answers.moments), 9)
                self.assertLessEqual({border - 1, border}, set(answers.moments))    # its two neighbours

    def test_several_classes_on_the_way(self) -> None:
        answers = Answering((1, OWN_CALLS), (7, PROGRAM), (8, OPEN), (30, GONE))
        self.assertEqual(searched(ROOT, "100 setresuid -1 33 -1 = 0\n" + TURNS, answers),
                         [(0, HELD), (1, OWN_CALLS), (7, PROGRAM), (8, OPEN), (30, GONE)])

    def test_held_again(self) -> None:
        """Before a moment at which it is held it isn't gone; where that is asked all the same, it is told."""
        log = "100 setresuid -1 33 -1 = 0\n100 setresuid -1 0 -1 = 0\n100 setuid 33 = 0\n"
        answers = Answering((0, OWN_CALLS), (3, GONE))
        self.assertEqual(searched(ROOT, log, answers), [(0, HELD), (1, OWN_CALLS), (2, HELD), (3, GONE)])

    def test_never_held_before(self) -> None:
        answers = Answering((0, OWN_CALLS))
        self.assertEqual(searched(ROOT, "100 setuid 33 = 0\n", answers, Right("uid", 33)), [(0, OWN_CALLS), (1, HELD)])

    def test_the_program_and_its_replay_agree(self) -> None:
        with self.assertRaisesRegex(Failure, "says that uid:0 is held"):
            searched(ROOT, "100 setuid 33 = 0\n", Answering((0, HELD)))


class Cuts(unittest.TestCase):
    """Where what is so before a line needn't be so behind it, both sides are asked."""

    def test_another_process_acts_on_the_family(self) -> None:
        """A map of a namespace is written from outside."""
        world = 'log = "script"\n' + space_row("box", 5) + """[[process]]
pid = 90
[[process]]
pid = 100
uid = 5
"""
        log = "90 write_uid_map box 0 0 1 = 0\n100 no_new_privs 1 = 0\n"
        answers = Answering((0, GONE), (1, OWN_CALLS))
        self.assertEqual(searched(world, log, answers, place=1), [(0, GONE), (1, OWN_CALLS)])

    def test_a_program_that_changes_a_credential(self) -> None:
        """Its own calls are enough again after an execve that gave it something."""
        world = 'log = "script"\n' + file_row("/bin/a", "4755", 7) + "[[process]]\npid = 100\nuid = 5\n"
        log = ("100 no_new_privs 0 = EINVAL\n100 bset_drop 1 = EPERM\n100 execve /bin/a = 0\n100 keepcaps 1 = 0\n"
               "100 no_new_privs 1 = 0\n")
        answers = Answering((0, OWN_CALLS), (3, PROGRAM), (4, OWN_CALLS))
        self.assertEqual(searched(world, log, answers), [(0, OWN_CALLS), (3, PROGRAM), (4, OWN_CALLS)])


class Stretches(unittest.TestCase):
    def test_by_what_is_free_and_where_they_part(self) -> None:
        rows: list[tuple[str, str, list[tuple[int, int]]]] = [
            ("", "", []), ("h", " ", []), (".", " ", [(0, 0)]), ("...", "   ", [(0, 2)]),
            ("h..h.", "     ", [(1, 2), (4, 4)]), ("....", "  | ", [(0, 1), (2, 3)]), ("h...", " |  ", [(1, 3)]),
            ("..h.", "||||", [(0, 0), (1, 1), (3, 3)])]
        for free, cuts, wanted in rows:
            with self.subTest(free):
                found = stretches(range(len(free)), [each == "." for each in free], [each == "|" for each in cuts])
                self.assertEqual(found, [Stretch(*each) for each in wanted])


class Spaces(unittest.TestCase):
    def test_a_right_over_a_namespace_that_comes_later(self) -> None:
        """Before it stands nothing can be asked (docs/FORMATS.md, "Words")."""
        right = Right("cap", 7, "#1")
        log = "100 no_new_privs 1 = 0\n100 unshare = 0\n100 capset none none none = 0\n"
        answers = Answering((0, OWN_CALLS))
        self.assertEqual(searched(ROOT, log, answers, right), [(0, NOT_YET), (2, HELD), (3, OWN_CALLS)])
        self.assertEqual(answers.moments, [3])


if __name__ == "__main__":
    unittest.main()
