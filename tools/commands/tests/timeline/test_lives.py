"""The walk over a replay: who lived when, whose family is whose, and at which moments one becomes another. By hand from
docs/FORMATS.md."""
import unittest

from credaudit_tools.timeline.walk import Walk, walked

from ..told_rows import space_row
from .timeline_case import LOG, WORLD, replayed

ROOT = 'log = "script"\n[[process]]\npid = 100\n'


def walk(world: str, log: str) -> Walk:
    """The walk over a log."""
    return walked(*replayed(world, log))


class Lives(unittest.TestCase):
    def test_births_and_ends(self) -> None:
        made = walk(ROOT, "100 fork = 101\n101 fork = 102\n101 exit = 0\n102 setuid 33 = 0\n100 fork = 101\n")
        self.assertEqual([(life.pid, life.born, life.ended) for life in made.lives],
                         [(100, 0, None), (101, 1, 3), (102, 2, None), (101, 5, None)])
        self.assertEqual([None if life.maker is None else life.maker.pid for life in made.lives], [None, 100, 101, 100])

    def test_families(self) -> None:
        """The family of a process at a moment, each member with its nearest living ancestor."""
        made = walk(ROOT, "100 fork = 101\n101 fork = 102\n101 exit = 0\n100 fork = 101\n")
        first, second, third, _ = made.lives
        wanted = [[(100, None)], [(100, None), (101, 100)], [(100, None), (101, 100), (102, 101)],
                  [(100, None), (102, 100)], [(100, None), (102, 100), (101, 100)]]
        for moment, rows in enumerate(wanted):
            end = made.family_world(first, moment)
            self.assertEqual([(row.pid, row.parent) for row in end.world.processes], rows, moment)
        self.assertEqual([row.pid for row in made.family_world(second, 2).world.processes], [101, 102])
        self.assertEqual(made.family_world(third, 3).lineage, {100, 101, 102})

    def test_what_a_process_is_at_a_moment(self) -> None:
        made = walk(WORLD, LOG)
        worker = made.lives[1]
        self.assertEqual([worker.at(moment).credential.uid[1] for moment in (2, 3, 4, 5)], [0, 0, 33, 33])
        self.assertEqual([worker.at(moment).credential.nnp for moment in (4, 5)], [False, True])

    def test_changes(self) -> None:
        """A line that leaves all as it is changes no family; another family's line none of mine."""
        made = walk(WORLD, LOG + "101 no_new_privs 1 = 0\n100 fork = 102\n102 exit = 0\n")
        self.assertEqual(made.changes(made.lives[0]), [0, 1, 2, 3, 4, 5, 7, 8])
        self.assertEqual(made.changes(made.lives[1]), [2, 3, 4, 5])

    def test_namespaces_are_changes_of_each_family(self) -> None:
        """Whoever makes one, and whoever writes its maps: another family may own it or enter it."""
        log = "100 fork = 101\n101 unshare = 0\n101 setuid 5 = EINVAL\n100 write_uid_map #1 0 0 1 = 0\n"
        made = walk(ROOT + "[[process]]\npid = 90\n", log)
        self.assertEqual(made.changes(made.lives[1]), [0, 2, 4])
        self.assertEqual([sorted(made.spaces_at(moment).named) for moment in (1, 2)], [["init"], ["#1", "init"]])
        self.assertEqual([made.spaces_at(moment).named["#1"].uid_map for moment in (2, 4)], [(), ((0, 0, 1),)])

    def test_a_namespace_of_before_stays_as_it_was(self) -> None:
        made = walk('log = "script"\n' + space_row("box", 0) + "[[process]]\npid = 100\n",
                    "100 write_uid_map box 0 7 1 = 0\n")
        self.assertEqual([made.spaces_at(moment).named["box"].uid_map for moment in (0, 1)], [(), ((0, 7, 1),)])

    def test_lines_and_moments(self) -> None:
        """A moment begins at its event's line; a remark's line is in the moment of before."""
        made = walk(WORLD, LOG)
        self.assertEqual([made.line(moment) for moment in range(6)], [0, 1, 3, 4, 5, 6])
        self.assertEqual([made.moment(line) for line in range(8)], [0, 1, 1, 2, 3, 4, 5, 5])

    def test_a_long_chain_of_births(self) -> None:
        """Each gives birth to the next: longer than Python's stack is deep."""
        count = 1500
        made = walk(ROOT, "".join(f"{100 + at} fork = {101 + at}\n" for at in range(count)))
        self.assertEqual(len(list(made.lives[0].descendants())), count + 1)


if __name__ == "__main__":
    unittest.main()
