"""Times `credaudit audit` (docs/VERDICT.md): worlds at all limits, a small one, doubled ones, and a chain of programs
whose bounds take a round for each link. The verdict of each world is known by how it is made; another one ends the
measuring.

Each world is one family. Its members have no capabilities; of its files the special ones are set-user-ID or have an
attribute, spread evenly over the table. The last member stands in the initial space, and what a world adds is its
alone:

  yes        nothing: the right is had by nobody, and no file gives it
  no         two programs give the right, of which the last member alone may run the first: so a plan of the last
             member's finds it, by nearly the last pair of programs
  undecided  a program that the last member alone may run, which has no_new_privs; the first member, which stands in the
             initial space too and hasn't no_new_privs, may not run it

and a `yes` in which each member has the saved user id 0 without what it would give, so that more plans are tried.
"""
import os
import subprocess
import sys
import threading
import time
from collections.abc import Iterator
from dataclasses import dataclass
from random import Random

from worlds import CHAIN, HEAD, row, text

STATUS = {"yes": 0, "no": 1, "undecided": 2}
KINDS = ("uid", "gid", "cap")
RIGHTS = {"uid": "uid:7777", "gid": "gid:7777", "cap": "cap:CAP_KILL@init"}
MOST_SECONDS, MOST_SMALL_SECONDS, MOST_GROWTH = 2.0, 0.010, 2.3
FIRST, STEP, HELPER, SOUGHT = 100, 7000, 7001, 7777
NET_RAW, KILL = "0100000200200000000000000000000000000000", "0100000220000000000000000000000000000000"
LINKS, LINKS_SPACES, LONGEST = (32, 64, 128, 256), 32, 120.0


@dataclass(frozen=True)
class Size:
    """How much of each a world has; `special` of the files are special ones."""
    members: int
    files: int
    spaces: int
    special: int


LIMITS, SMALL = Size(256, 4096, 256, 64), Size(10, 40, 5, 40)
HALVES = {"members": Size(128, 4096, 256, 64), "spaces": Size(256, 4096, 128, 64), "files": Size(256, 2048, 256, 64)}


@dataclass(frozen=True)
class Made:
    """A world's text, what is asked of it, and the verdict that it is made for."""
    text: str
    right: str
    verdict: str


# ---- the worlds ----------------------------------------------------------------------------------------------------


def file_row(number: int, uid: int, gid: int, mode: str, caps: str | None = None) -> str:
    """The row of a file."""
    return row("file", path=text(f"/f{number}"), uid=uid, gid=gid, mode=text(mode), caps=caps and text(caps))


def special_row(number: int, at: int) -> str:
    """The row of a special file, which is the one of that place among them."""
    if at % 2:
        return file_row(number, FIRST + at, FIRST + at, "0755", NET_RAW)
    return file_row(number, FIRST + at, FIRST + at, "4755")


def of_kind(number: int, kind: str, opener: int) -> str:
    """The program that gives the right, to who has the opener as user id; of a user id, as group id."""
    if kind == "uid":
        return file_row(number, SOUGHT, opener, "4010")
    return file_row(number, opener, SOUGHT, "2110") if kind == "gid" else file_row(number, opener, STEP, "0100", KILL)


def first_step(number: int, kind: str, last: int) -> str:
    """The program by which the last member, and no other, comes to the group or user id that opens the other one."""
    return file_row(number, last, STEP, "2110") if kind == "uid" else file_row(number, HELPER, last, "4010")


def files_of(size: Size, kind: str, verdict: str) -> Iterator[str]:
    """The rows of all files."""
    apart, last = max(1, size.files // size.special), 1000 + size.members - 1
    for number in range(size.files):
        at, is_special = number // apart, number % apart == 0 and number // apart < size.special
        if not is_special:
            yield file_row(number, 50, 50, "0755")
        elif verdict != "yes" and at == size.special - 2:
            yield of_kind(number, kind, STEP if kind == "uid" else HELPER)
        elif verdict == "no" and at == size.special - 1:
            yield first_step(number, kind, last)
        else:
            yield special_row(number, at)


def space_row(number: int, parent: str) -> str:
    """The row of a space."""
    lines = "[[0, 0, 20000]]"
    return row("space", name=text(f"s{number}"), parent=text(parent), owner=8000 + number, uid_map=lines, gid_map=lines)


def space_of(number: int, size: Size) -> str | None:
    """The name of the space of a member: the last one's is the initial one."""
    space = 0 if number == size.members - 1 else number % size.spaces
    return text(f"s{space}") if space else None


def member_row(number: int, size: Size, opens: str | None) -> str:
    """A member; of an undecided world the last one has what opens the program, and no_new_privs."""
    is_last = number == size.members - 1
    own, open_to = 1000 + number, opens if is_last else None
    return row("process", pid=FIRST + number, parent=FIRST if number else None,
               space=space_of(number, size), uid=HELPER if open_to == "user" else own, gid=own,
               groups=f"[{STEP}]" if open_to == "group" else None, no_new_privs="true" if open_to else None)


def world(size: Size, kind: str, verdict: str, in_chains: bool = False) -> Made:
    """A world for that verdict on a right of that kind."""
    opens = ("group" if kind == "uid" else "user") if verdict == "undecided" else None
    parents = ("init" if not in_chains or number % CHAIN == 1 else f"s{number - 1}" for number in range(1, size.spaces))
    rows = [*map(space_row, range(1, size.spaces), parents), *files_of(size, kind, verdict),
            *(member_row(number, size, opens) for number in range(size.members))]
    return Made(HEAD + "".join(rows), RIGHTS[kind], verdict)


def saved_root(size: Size, kind: str) -> Made:
    """Members with the saved user id 0, which gives them nothing: root's capabilities are off, for good, and the
    bounding set is empty. So each plan whose first move becomes 0 is tried too."""
    rows = [*(space_row(number, "init") for number in range(1, size.spaces)), *files_of(size, kind, "yes"),
            *(row("process", pid=FIRST + number, parent=FIRST if number else None, space=space_of(number, size),
                  uid=f"[{1000 + number}, {1000 + number}, 0, {1000 + number}]", gid=1000 + number,
                  bounding=text("none"), securebits=3) for number in range(size.members))]
    return Made(HEAD + "".join(rows), RIGHTS[kind], "yes")


def chained(size: Size) -> Made:
    """Chains of 32 spaces, and the question for a capability over the lowest of one."""
    lowest = min(CHAIN, size.spaces - 1)
    return Made(world(size, "cap", "yes", in_chains=True).text, f"cap:CAP_KILL@s{lowest}", "yes")


def links(count: int, spaces: int, order: int | str | None = None) -> Made:
    """A member in each space; who has the k-th group becomes the k-th user by a program, and that user comes to the
    next group by another: so each round of the rules adds one link to each row. The files are in the chain's order,
    `reversed`, or in the order of that draw."""
    rows = [row("space", name=text(f"s{number}"), parent=text("init"), owner=0, uid_map="[[0, 0, 20000]]",
                gid_map="[[0, 0, 20000]]") for number in range(1, spaces)]
    files = [one for at in range(count) for one in (file_row(2 * at, 1001 + at, 1000 + at, "4010"),
                                                    file_row(2 * at + 1, 1001 + at, 1001 + at, "2110"))]
    if order == "reversed":
        files.reverse()
    elif order is not None:
        Random(order).shuffle(files)
    rows += files
    rows += [row("process", pid=FIRST + number, parent=FIRST if number else None,
                 space=text(f"s{number}") if number else None, uid=1000, gid=1000, bounding=text("none"), securebits=3)
             for number in range(spaces)]
    return Made(HEAD + "".join(rows) + '[filter]\nexclude = ["unshare", "clone_user", "setns"]\n', "uid:30000", "yes")


# ---- times ---------------------------------------------------------------------------------------------------------


def seconds_of(program: str, made: Made, runs: int, work: str) -> float:
    """The least seconds of that audit."""
    return turn_by_turn(program, [made], runs, work)[0]


def turn_by_turn(program: str, every: list[Made], runs: int, work: str) -> list[float]:
    """The least seconds of each of these audits, after one run that isn't counted; its verdict must be the one that is
    known. They take turns, so that where the machine is slow for a while it is so for all of them."""
    log = os.path.join(work, "empty.log")
    open(log, "w").close()
    least = [LONGEST] * len(every)
    for turn in range(runs + 1):
        for at, made in enumerate(every):
            world = os.path.join(work, f"audited{at}.toml")
            if not turn:
                with open(world, "w") as file:
                    file.write(made.text)
            status, seconds = ended([program, "audit", world, log, str(FIRST), made.right])
            if seconds < LONGEST and status != STATUS[made.verdict]:
                sys.exit(f"bench.py: status {status} of an audit for {made.right}, where the answer is {made.verdict}")
            least[at] = min(least[at], seconds) if turn else least[at]
    return least


def ended(words: list[str]) -> tuple[int, float]:
    """The status of a command and the seconds until it ended; it is killed after the longest time. A wait with a time
    limit isn't used: it looks in steps, and a short command's time would be that of the steps."""
    begin = time.perf_counter()
    with subprocess.Popen(words, stdout=subprocess.DEVNULL) as child:
        killer = threading.Timer(LONGEST, child.kill)
        killer.start()
        status = child.wait()
        killer.cancel()
    return status, time.perf_counter() - begin


def asked_of(size: Size) -> dict[str, Made]:
    """The worlds of that size, by what is asked of them."""
    every = {f"{kind}, {verdict}": world(size, kind, verdict) for kind in KINDS for verdict in STATUS}
    saved = {f"{kind}, yes, saved user id 0": saved_root(size, kind) for kind in KINDS}
    return {**every, **saved, "cap, chains of 32 spaces": chained(size)}


def past(bar: float, measured: float) -> str:
    """That it is past the bar, where it is."""
    return "" if measured <= bar else f", past {bar:g}"


def all_within(program: str, runs: int, work: str, size: Size, most: float, unit: str, units: int) -> bool:
    """Whether each audit of worlds of that size takes at most so many seconds; they are shown in the unit, of which a
    second has so many."""
    print(f"\n{f'audit of {size.members} members, {size.files:,} files, {size.spaces} spaces':48}{unit:>9}")
    good = True
    for name, made in asked_of(size).items():
        seconds = seconds_of(program, made, runs, work)
        good = good and seconds <= most
        print(f"{name:48}{units * seconds:9.3f}{past(units * most, units * seconds)}")
    return good


def doubled(program: str, runs: int, work: str) -> bool:
    """Whether each audit takes at most so many times as long with twice the members, spaces or files; that is shown."""
    print(f"\n{'times as long with twice the':48}" + "".join(f"{name:>10}" for name in HALVES))
    good = True
    whole, halves = asked_of(LIMITS), {name: asked_of(size) for name, size in HALVES.items()}
    for asked, made in whole.items():
        seconds, *half = turn_by_turn(program, [made, *(one[asked] for one in halves.values())], runs, work)
        growths = [seconds / one for one in half]
        good = good and max(growths) <= MOST_GROWTH
        print(f"{asked:48}" + "".join(f"{one:10.2f}" for one in growths) + past(MOST_GROWTH, max(growths)))
    return good


def hostile(program: str, work: str) -> None:
    """Tells how the time grows with the links; nothing is asked of it."""
    print(f"\n{'links of a chain of programs, ' + str(LINKS_SPACES) + ' spaces':48}{'seconds':>9}{'growth':>9}")
    before: float | None = None
    for count in LINKS:
        seconds = seconds_of(program, links(count, LINKS_SPACES), 1, work)
        growth = f"{seconds / before:9.2f}" if before else ""
        print(f"{count:<48}{seconds:9.3f}{growth}" + (", cut off" if seconds >= LONGEST else ""))
        before = seconds


def audits(program: str, runs: int, work: str) -> bool:
    """Whether all times are within their bars."""
    results = [all_within(program, runs, work, LIMITS, MOST_SECONDS, "seconds", 1),
               all_within(program, runs, work, SMALL, MOST_SMALL_SECONDS, "ms", 1000), doubled(program, runs, work)]
    hostile(program, work)
    return all(results)
