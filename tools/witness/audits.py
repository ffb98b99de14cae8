"""Asks an audit, and looks at what it answers (docs/FORMATS.md, "Report"): a verdict; of `yes` its certificate, which
`check` must accept; of `no` the run, which `confirm` must confirm with the same holder, and which `replay` must take
after the log and leave its holder with the right. The audit may be any command that takes the words of `credaudit`."""
import re
import subprocess
from dataclasses import dataclass
from pathlib import Path

from .worlds import Query, World, space_name

YES, NO, UNDECIDED = VERDICTS = ("yes", "no", "undecided")
RULES = ("start setuid setfsuid setgid setfsgid setgroups capset securebits exec_uid exec_gid exec_caps exec_root"
         " create join maps").split()
LONGEST = 60.0      # seconds
BOUNDS = re.compile(r'\{"format":1,"rows":\[.*\]\}')
CREDENTIAL = re.compile(r"> (\d+) (\S+) uid=([\d,]+) gid=([\d,]+) groups=(\S+) inh=\w{16} prm=\w{16} eff=(\w{16}) .*")


class Wrong(Exception):
    """What an answer should not be."""


@dataclass(frozen=True)
class Answer:
    """A verdict; of `no` its run's lines and its holder, of `undecided` the rule that is blamed, of `yes` and
    `undecided` the line of bounds."""
    verdict: str
    run: tuple[str, ...] = ()
    holder: int = 0
    blamed: str = ""
    bounds: str = ""


def asked(words: list[str]) -> tuple[int, list[str]]:
    """The status and the lines of a command."""
    child = subprocess.run(words, stdin=subprocess.DEVNULL, capture_output=True, timeout=LONGEST)
    if child.stderr:
        raise Wrong(f"standard error: {child.stderr[:200]!r}")
    return child.returncode, child.stdout.decode().splitlines()


def verdict_of(status: int, lines: list[str]) -> Answer:
    """What the lines after `end N` say, where they say what the status says."""
    ends = [at for at, line in enumerate(lines) if re.fullmatch(r"end \d+", line)]
    told = lines[ends[0] + 1:] if ends else []
    first = told[0] if told else ""
    has_bounds = len(told) == 2 and BOUNDS.fullmatch(told[1]) is not None
    if status == 0 and first == YES and has_bounds:
        return Answer(YES, bounds=told[1])
    if status == 1 and (count := re.fullmatch(r"no (\d+)", first)) and len(told) == int(count[1]) + 2:
        if holder := re.fullmatch(r"holder (\d+)", told[-1]):
            return Answer(NO, tuple(told[1:-1]), int(holder[1]))
    if status == 2 and has_bounds and (blamed := re.fullmatch(r"undecided (\S+) \S+", first)):
        if blamed[1] in RULES:
            return Answer(UNDECIDED, blamed=blamed[1], bounds=told[1])
    raise Wrong(f"status {status}, ending in {(told or lines)[-3:]}")


def ask(audit: list[str], world: Path, log: Path, query: Query) -> Answer:
    """The audit's answer to a query. Wrong where it is none."""
    return verdict_of(*asked([*audit, "audit", str(world), str(log), str(query.pid), query.right()]))


# ---- what the answer is to hold by --------------------------------------------------------------------------------


def judged(audit: list[str], command: str, world: Path, log: Path, query: Query, text: str) -> tuple[int, list[str]]:
    """What `check` or `confirm` answers to a certificate or a run."""
    third = log.with_suffix(f".{command}")
    third.write_text(text)
    return asked([*audit, command, str(world), str(log), str(query.pid), query.right(), str(third)])


def check_answer(audit: list[str], world: Path, log: Path, query: Query, answer: Answer) -> None:
    """That the certificate of a `yes` holds, and the run of a `no` is confirmed, with its holder."""
    if answer.verdict == UNDECIDED:
        return
    if answer.verdict == YES:
        command, text, wanted = "check", f"{answer.bounds}\n", "holds"
    else:
        command, text = "confirm", "".join(f"{line}\n" for line in answer.run)
        wanted = f"confirmed {answer.holder}"
    told = judged(audit, command, world, log, query, text)
    if told != (0, [wanted]):
        raise Wrong(f"{command} answers {told}, not {wanted}: {text[:500]}")


def has_power(world: World, space: str, uid: int, effective: int, query: Query) -> bool:
    """Whether a member of a space has the capability over the query's (user_namespaces(7), "Capabilities")."""
    target = query.of
    while True:
        if space_name(target) == space and effective >> query.capability & 1:
            return True
        if target == 0:
            return False
        one = world.spaces[target - 1]
        if space_name(one.parent) == space and one.owner == uid:
            return True
        target = one.parent


def holds(query: Query, line: str) -> bool:
    """Whether the process of a credential line has the query's right."""
    shown = CREDENTIAL.fullmatch(line)
    if not shown:
        raise Wrong(f"no credential line: {line}")
    _, space, uids, gids, groups, effective = shown.groups()
    user, group = int(uids.split(",")[1]), int(gids.split(",")[1])
    if query.kind == "uid":
        return user == query.of
    if query.kind == "gid":
        return query.of in [group] + [int(one) for one in groups.split(",") if one != "-"]
    return has_power(query.world, space, user, int(effective, 16), query)


def check_run(replay: list[str], world: Path, log: Path, query: Query, answer: Answer) -> None:
    """That the run, after the log, is accepted, and leaves its holder with the right."""
    whole = log.with_suffix(".whole")
    whole.write_text(log.read_text() + "".join(f"{line}\n" for line in answer.run))
    status, lines = asked([*replay, "replay", str(world), str(whole)])
    if status != 0:
        raise Wrong(f"replay of the run ends with status {status}: {lines[-1:]}")
    of_holder = [line for line in lines if line.startswith(f"> {answer.holder} ")]
    if not of_holder or not holds(query, of_holder[-1]):
        raise Wrong(f"after the run {answer.holder} hasn't {query.right()}: {of_holder[-1:]}")
