"""Which crate is proved next: turns.py, on lists by hand, and on the crates of this repository."""
import heapq
import os
import unittest

from commands.tests import support
from make.crate_list import Crates
from make.turns import Task, Turns, longest_first, stopped, tasks

TOP = os.path.normpath(os.path.join(support.EXAMPLES, ".."))
GB = 10 ** 9


def task(name: str, *after: str, work: int = 1, memory: float = GB) -> Task:
    """A task."""
    return Task(name, frozenset(after), work, memory)


def begun(turns: Turns) -> list[str]:
    """The names and jobs of all that begin now."""
    found = []
    while (begin := turns.following()) is not None:
        found.append(f"{begin[0].name}{begin[1]}")
    return found


class Order(unittest.TestCase):
    """The longest chain comes first."""

    def test_chains(self) -> None:
        wanted = [task("a", work=5), task("b", work=3), task("c", "b", work=4), task("d", "a", "b", "c", work=1)]
        self.assertEqual([each.name for each in longest_first(wanted)], ["b", "a", "c", "d"])

    def test_one_by_one(self) -> None:
        low, mid, top = task("low"), task("mid", "low"), task("top", "low", "mid")
        turns = Turns([low, mid, top], [], 2, 9 * GB)
        for each in (low, mid, top):
            self.assertEqual(begun(turns), [f"{each.name}2"])
            turns.ended(each, True)
        self.assertEqual((turns.waiting, turns.running), ([], {}))

    def test_what_is_done_holds_nobody_up(self) -> None:
        self.assertEqual(begun(Turns([task("mid", "low")], ["low"], 1, GB)), ["mid1"])


class Lanes(unittest.TestCase):
    """Processors and memory."""

    def test_at_most_so_many(self) -> None:
        turns = Turns([task(name) for name in "abcdef"], [], 4, 99 * GB)
        self.assertEqual(begun(turns), ["a1", "b1", "c1", "d1"])
        turns.ended(task("b"), True)
        self.assertEqual(begun(turns), ["e1"])

    def test_idle_processors_are_jobs(self) -> None:
        self.assertEqual(begun(Turns([task("a")], [], 4, 99 * GB)), ["a4"])
        self.assertEqual(begun(Turns([task("a")], [], 16, 99 * GB)), ["a4"])
        self.assertEqual(begun(Turns([task("a"), task("b")], [], 4, 99 * GB)), ["a2", "b2"])
        self.assertEqual(begun(Turns([task("a"), task("b"), task("c")], [], 4, 99 * GB)), ["a1", "b1", "c2"])

    def test_jobs_take_memory(self) -> None:
        self.assertEqual(begun(Turns([task("a", memory=5 * GB)], [], 4, 9 * GB)), ["a2"])
        self.assertEqual(begun(Turns([task("a", memory=5 * GB)], [], 4, 6 * GB)), ["a1"])

    def test_memory(self) -> None:
        wanted = [task("a", work=9, memory=7 * GB), task("b", work=8, memory=7 * GB), task("c", memory=2 * GB)]
        turns = Turns(wanted, [], 4, 9 * GB)
        self.assertEqual(begun(turns), ["a1", "c1"])
        turns.ended(wanted[0], True)
        self.assertEqual(begun(turns), ["b1"])

    def test_one_runs_however_little_there_is(self) -> None:
        self.assertEqual(begun(Turns([task("a", memory=7 * GB), task("b")], [], 4, 0)), ["a1"])


def clock(wanted: list[Task], lanes: int, room: float) -> int:
    """When all are through, where each takes as long as its work, by however many jobs."""
    turns, now, running = Turns(wanted, [], lanes, room), 0, list[tuple[int, str, Task]]()
    while True:
        while (begin := turns.following()) is not None:
            heapq.heappush(running, (now + begin[0].work, begin[0].name, begin[0]))
        if not running:
            return now
        now, _, task = heapq.heappop(running)
        turns.ended(task, True)


class ThisRepository(unittest.TestCase):
    """The crates of this repository, with lines of code in place of minutes."""

    def setUp(self) -> None:
        crates = Crates(TOP)
        self.wanted = tasks(crates, crates.below("credaudit"))
        self.work = sum(task.work for task in self.wanted)

    def test_in_turn(self) -> None:
        self.assertEqual(clock(self.wanted, 1, 16 * GB), self.work)

    def test_on_four_processors(self) -> None:
        """At most 40 of 100 of the work by the clock, though the longest chain must be gone through."""
        self.assertLessEqual(clock(self.wanted, 4, 16 * GB), 0.4 * self.work)


class Failures(unittest.TestCase):
    """What fails, and what is killed."""

    def test_what_stands_on_it_never_begins(self) -> None:
        wanted = [task("low"), task("other"), task("mid", "low"), task("top", "low", "mid"), task("beside", "other")]
        turns = Turns(wanted, [], 2, 99 * GB)
        self.assertEqual(begun(turns), ["low1", "other1"])
        turns.ended(wanted[0], False)
        turns.ended(wanted[1], True)
        self.assertEqual(begun(turns), ["beside2"])
        turns.ended(wanted[4], True)
        self.assertEqual(begun(turns), [])
        self.assertEqual(stopped(wanted, {"low": 1}), ["mid", "top"])

    def test_killed(self) -> None:
        first, other, last = task("a", work=9), task("b", work=5), task("c")
        turns = Turns([first, other, last], [], 2, 99 * GB)
        self.assertEqual(begun(turns), ["a1", "b1"])
        self.assertTrue(turns.once_more(first))
        self.assertEqual(begun(turns), [])
        turns.ended(other, True)
        self.assertEqual(begun(turns), ["a1"])
        self.assertFalse(turns.once_more(first))
        self.assertEqual(begun(turns), ["c2"])


if __name__ == "__main__":
    unittest.main()
