"""Times passes of `closed` and `check` (docs/BOUNDS.md): those of crates/judge_bench beside those of plain_replay.rs.

Each program finds the least closed bounds of a world's processes, prints a line on them, then one after its runs of
`closed`, and one after those of `check`. The processor time that it has used is looked up as each line comes, so only
the passes count.
"""
import os
import subprocess
import sys

HERE = os.path.dirname(os.path.abspath(__file__))
JUDGE = os.path.normpath(os.path.join(HERE, "..", "crates", "judge_bench", "out", "judge_bench"))
PASSES = 40
TESTS = ("closed", "check")


def used(child: subprocess.Popen[str]) -> float:
    """The seconds that the child has run on a processor."""
    with open(f"/proc/{child.pid}/schedstat") as times:
        return int(times.read().split()[0]) / 1e9


def run(words: list[str], world: str) -> tuple[list[str], list[float]]:
    """The lines of one run, and the milliseconds of a pass of each test. Ends the measuring where it isn't whole."""
    with open(world) as text:
        child = subprocess.Popen(words, stdin=text, stdout=subprocess.PIPE, text=True)
    assert child.stdout is not None
    lines, times = list[str](), list[float]()
    while line := child.stdout.readline():
        lines.append(line)
        times.append(used(child))
    if child.wait() != 0 or len(lines) != 1 + len(TESTS):
        sys.exit(f"bench.py: status {child.returncode} and {len(lines)} lines of {' '.join(words)}")
    return lines, [1000 * (after - before) / PASSES for before, after in zip(times, times[1:])]


def bounds(name: str, world: str, plain: str, judged: bool, runs: int) -> None:
    """Measures the passes on a world and shows them; those of judge_bench too, where it is to be judged. Ends the
    measuring where the two find other bounds."""
    commands = {"plain_replay bounds": [plain, "bounds", world, str(PASSES), str(PASSES)]}
    if judged:
        if not os.access(JUDGE, os.X_OK):
            sys.exit(f"bench.py: {JUDGE} isn't there: build it first, by `rt run < stdin` in its crate's folder")
        commands["judge_bench"] = [JUDGE, str(PASSES), str(PASSES)]
    every: dict[str, list[list[float]]] = {what: [] for what in commands}
    told: dict[str, list[str]] = {}
    for _ in range(runs):
        for what, words in commands.items():
            told[what], times = run(words, world)
            every[what].append(times)
    if len({tuple(lines) for lines in told.values()}) != 1:
        sys.exit(f"bench.py: the bounds of the world {name} differ: {told}")
    print(f"world {name}: {told['plain_replay bounds'][0].strip()}")
    print(f"{'program':24}" + "".join(f"{test + ', ms':>12}{'to':>9}{'of plain':>10}" for test in TESTS))
    least = {what: [min(of_test) for of_test in zip(*of)] for what, of in every.items()}
    of_plain = least["plain_replay bounds"]
    for what, of in every.items():
        print(f"{what:24}" + "".join(
            f"{least[what][k]:12.3f}{max(times[k] for times in of):9.3f}{least[what][k] / of_plain[k]:10.2f}"
            for k in range(len(TESTS))))
    print()
