"""Which crate is proved next, and by how many jobs: as many at once as there are processors and as memory holds, each
once all that it stands on is proved, and first those with the longest chain of others above them.
"""
from collections.abc import Mapping, Sequence
from typing import NamedTuple

from .crate_list import Crates

MOST_JOBS = 4               # a check gains nothing from more
MORE = 0.6                  # what each further job takes of the memory of the first


class Task(NamedTuple):
    """A crate that is to be proved."""

    name: str
    after: frozenset[str]   # the tasks that it waits for
    work: int               # in lines of code, which tell the minutes roughly
    memory: float           # in bytes, with one job


def tasks(crates: Crates, names: Sequence[str]) -> list[Task]:
    """These crates as tasks. The memory is what the kit plans for such a check (`rt ci`)."""
    found, all_below = [], {name: crates.below(name) for name in names}
    known = {*names}.union(*all_below.values())
    code = {name: crates.lines(name, ".rt") for name in known}
    for name, below in all_below.items():
        needs = 1e9 + 1e6 * code[name] + 2e5 * crates.lines(name, ".antt") + 8e4 * sum(code[each] for each in below)
        found.append(Task(name, frozenset(below), 100 + code[name], needs))
    return found


def longest_first(wanted: Sequence[Task]) -> list[Task]:
    """The tasks, which come lowest first, by the work of the longest chain that begins with each."""
    chain: dict[str, int] = {}
    for task in reversed(wanted):
        above = [chain[other.name] for other in wanted if task.name in other.after]
        chain[task.name] = task.work + max(above, default=0)
    return sorted(wanted, key=lambda task: -chain[task.name])


class Turns:
    """The tasks that wait, those that run, and the names of those that are done. `room` is the memory for all that run;
    it may be set anew."""

    def __init__(self, wanted: Sequence[Task], done: Sequence[str], lanes: int, room: float) -> None:
        self.waiting, self.running = longest_first(wanted), dict[str, tuple[int, float]]()
        self.done, self.lanes, self.room = set(done), lanes, room
        self.alone: set[str] = set()

    def ready(self) -> list[Task]:
        """Those that could begin. One that was killed begins before all others, and with nothing beside it."""
        found = [task for task in self.waiting if task.after <= self.done]
        lone = [task for task in found if task.name in self.alone]
        if lone or self.alone & set(self.running):
            return [] if self.running else lone[:1]
        return found

    def following(self) -> tuple[Task, int] | None:
        """The next to begin, and its jobs: it gets the processors that no other one waits for. None: nothing can begin
        now. It counts as running from here on."""
        found = self.ready()
        idle = self.lanes - sum(jobs for jobs, _ in self.running.values())
        left = self.room - sum(taken for _, taken in self.running.values())
        for task in found if idle > 0 else ():
            if self.running and task.memory > left:
                continue
            jobs = min(MOST_JOBS, idle // len(found), 1 + int((left / task.memory - 1) / MORE))
            jobs = 1 if task.name in self.alone else max(1, jobs)
            self.waiting.remove(task)
            self.running[task.name] = jobs, task.memory * (1 + MORE * (jobs - 1))
            return task, jobs
        return None

    def ended(self, task: Task, proved: bool) -> None:
        """A task ended. What stands on one that isn't proved never gets ready."""
        del self.running[task.name]
        if proved:
            self.done.add(task.name)

    def once_more(self, task: Task) -> bool:
        """A task was killed: it is run again, with nothing beside it. False where it was so already."""
        del self.running[task.name]
        if task.name in self.alone:
            return False
        self.alone.add(task.name)
        self.waiting.insert(0, task)
        return True


def stopped(wanted: Sequence[Task], failed: Mapping[str, object]) -> list[str]:
    """The names of those that weren't begun, since they stand on one that failed."""
    return [task.name for task in wanted if task.after & set(failed)]
