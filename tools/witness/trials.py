"""What the witnesses share: the audit's answer to a drawn query, the plain search, and what is counted."""
import argparse
import os
import shlex
import subprocess
import sys
import tempfile
import threading
from collections import Counter
from collections.abc import Callable, Iterator
from concurrent.futures import ThreadPoolExecutor
from dataclasses import dataclass, field
from pathlib import Path

from . import worlds
from .audits import NO, Answer, Wrong, ask, check_answer, check_run
from .worlds import Query

HERE = Path(__file__).resolve().parent
BUILT = HERE.parent.parent / "crates" / "credaudit" / "out" / "credaudit"


@dataclass(frozen=True)
class Asked:
    """The options of a run."""
    count: int
    seed: int
    jobs: int
    audit: list[str]
    replay: list[str]
    case: int | None
    work: Path
    search: str | None = None
    tells: bool = True      # what is wrong, case by case


@dataclass
class Outcome:
    """Of one trial what is counted, and what is wrong, where something is."""
    counted: Counter[str] = field(default_factory=Counter)
    wrong: str = ""


def options(name: str, says: str | None, count: int) -> argparse.ArgumentParser:
    """The words that the witnesses share."""
    raw = argparse.RawDescriptionHelpFormatter
    ask_for = argparse.ArgumentParser(prog=name, description=says, formatter_class=raw)
    ask_for.add_argument("--count", type=int, default=count, help=f"how many queries ({count})")
    ask_for.add_argument("--seed", type=int, default=1)
    ask_for.add_argument("--jobs", type=int, default=os.cpu_count() or 1)
    ask_for.add_argument("--audit", default=str(BUILT), help="the command that is asked (the built program)")
    ask_for.add_argument("--replay", default=str(BUILT), help="the command that replays runs (the built program)")
    ask_for.add_argument("--case", type=int, help="that one query alone, and its world is shown")
    return ask_for


def asked_of(told: argparse.Namespace, work: Path) -> Asked:
    """What the words ask for; files go into that folder."""
    return Asked(told.count, told.seed, told.jobs, shlex.split(told.audit), shlex.split(told.replay), told.case, work,
                 getattr(told, "search", None))


def answered(asked: Asked, query: Query, number: int) -> tuple[Path, Answer]:
    """The file of the query's world, beside which its log stands, and the verdict; of `yes` once its certificate was
    checked, of `no` once its run was confirmed and replayed."""
    world, log = asked.work / f"{number}.toml", asked.work / f"{number}.log"
    world.write_text(worlds.text(query.world))
    log.write_text(worlds.log(query.world))
    answer = ask(asked.audit, world, log, query)
    check_answer(asked.audit, world, log, query, answer)
    if answer.verdict == NO:
        check_run(asked.replay, world, log, query, answer)
    return world, answer


def outcomes(asked: Asked, trial: Callable[[int], Outcome]) -> Iterator[tuple[int, Outcome]]:
    """Each trial's outcome, in the order of their numbers."""
    def one(number: int) -> Outcome:
        try:
            return trial(number)
        except (Wrong, subprocess.TimeoutExpired) as wrong:
            return Outcome(Counter(wrong=1), str(wrong))
        finally:
            for left in asked.work.glob(f"{number}.*"):
                left.unlink()

    numbers = range(asked.count) if asked.case is None else [asked.case]
    with ThreadPoolExecutor(asked.jobs) as pool:
        yield from zip(numbers, pool.map(one, numbers))


def counted(asked: Asked, trial: Callable[[int], Outcome],
            query_of: Callable[[int, int], Query]) -> tuple[Counter[str], int]:
    """What all trials count, and how many were wrong; the first ten of these are told, with their worlds."""
    counts, wrong = Counter[str](), 0
    for number, outcome in outcomes(asked, trial):
        counts += outcome.counted
        if outcome.wrong:
            wrong += 1
        if asked.tells and (asked.case is not None or outcome.wrong and wrong <= 10):
            query = query_of(asked.seed, number)
            print(f"case {number}: audit of {query.pid} {query.right()}: {outcome.wrong or 'nothing wrong'}")
            print(worlds.text(query.world))
    return counts, wrong


class Searches:
    """The plain search, built where it isn't yet; each thread has a process of its own."""

    def __init__(self, work: Path, built: str | None) -> None:
        self.program = Path(built) if built else work / "plain_search"
        if not built:
            subprocess.run(["rustc", "-O", HERE / "plain_search.rs", "-o", self.program], check=True)
        self.own, self.all = threading.local(), list[subprocess.Popen[str]]()

    def answer(self, world: Path, query: Query, seed: int) -> list[str]:
        """The words of its answer, and behind them the run's events."""
        if not hasattr(self.own, "child"):
            self.own.child = subprocess.Popen([self.program], stdin=subprocess.PIPE, stdout=subprocess.PIPE, text=True)
            self.all.append(self.own.child)
        child: subprocess.Popen[str] = self.own.child
        assert child.stdin and child.stdout
        child.stdin.write(f"{world} {world.with_suffix('.log')} {query.pid} {query.right()} {seed}\n")
        child.stdin.flush()
        head, *run = child.stdout.readline().rstrip("\n").split("\t")
        if head in ("", "bad"):
            raise Wrong("the plain search doesn't read the world")
        return [*head.split(), *run]

    def close(self) -> None:
        """Ends the processes."""
        for child in self.all:
            if child.stdin:
                child.stdin.close()
            child.wait()


def work_folder() -> tempfile.TemporaryDirectory[str]:
    """A folder that goes away."""
    return tempfile.TemporaryDirectory(prefix="witness")


def show(counts: Counter[str]) -> None:
    """Writes counts, by name."""
    for name in sorted(counts):
        print(f"{name:44}{counts[name]:>14,}")


def end(faults: list[str]) -> None:
    """Tells the faults and ends: with status 1 where there are some."""
    for fault in faults:
        print(f"fault: {fault}")
    sys.exit(1 if faults else 0)
