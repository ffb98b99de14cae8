#!/usr/bin/env python3
"""Carries out on live processes what verdicts say, and looks what they then hold. To be run as root (64-bit x86 Linux).

  carry_out_runs.py [--only KIND] [PROGRAM]

PROGRAM is credaudit; left out, the one that was built in this repository. A process goes into a state, and the program
is asked of a right in a world that declares that state:

  - of each kind of `no` (the right is held, its own calls bring it back, a program does) the run that the program
    prints is carried out, call by call, and the process must have the right at its end;
  - of each kind of `yes` (by no capability, by no_new_privs, by an empty bounding set, by a filter) every plan of the
    list that makes a call (docs/PLANS.md, worked out by plain/plans.py) is carried out, each by a process of its own in
    that state, and after none may it have the right.

carry_out.c makes the calls, in whatever program the process runs by then (ptrace(2)); the files are copies of true(1)
with the declared owner, mode and attribute. After each call its result and all that /proc shows of the process are
compared with the rules (plain/rules.py). Where they differ, and docs/KERNEL.md has the row, that row is counted;
any other difference is a failure, as is a right that is seen after a `yes`. Status 0: no failure; 1: some; 2: nothing
could be carried out.
"""
import argparse
import os
import shutil
import subprocess
import sys
import tempfile
from collections import Counter
from collections.abc import Iterator
from dataclasses import dataclass, field
from types import TracebackType

import tools_path  # noqa: F401
from plain.credential import Fields, credential_of, fields_from
from plain.plans import Answered, Right, capability, plans
from plain.rules import (ALL, CAPABILITIES, EVERY_ID, INITIAL, Call, Credential, File, Mount, Rules, State, cap,
                         read_attribute)

HERE = os.path.dirname(os.path.abspath(__file__))
BUILT = os.path.join(HERE, "..", "..", "crates", "credaudit", "out", "credaudit")
PID = 100
MINUS_ONE = 4294967295
ERRORS = {"0": "0", "1": "EPERM", "2": "ENOENT", "13": "EACCES", "22": "EINVAL"}
NUMBERS = {"setuid": 105, "setgid": 106, "setreuid": 113, "setregid": 114, "setgroups": 116, "setresuid": 117,
           "setresgid": 119, "capset": 126, "execve": 59}
CALLS = frozenset(NUMBERS)
UID_CALLS, GID_CALLS = ("setuid", "setreuid", "setresuid"), ("setgid", "setregid", "setresgid", "setgroups")
REAL_COMES_BACK = "the real ids come back under no_new_privs"
FS_STAYS = "the fs id stays"


class Failed(Exception):
    """What a verdict or a rule says and the kernel doesn't do, or what couldn't be done."""


# ---- what is tried


@dataclass(frozen=True)
class Program:
    """A file to execute: its name, owner, group and mode, and its attribute in hexadecimal digits."""
    name: str
    uid: int = 0
    gid: int = 0
    mode: int = 0o755
    caps: str = ""


@dataclass(frozen=True)
class Case:
    """A state, the files and the filter of its world, a right, and which verdict is expected, of which kind."""
    kind: str
    what: str
    right: Right
    uid: tuple[int, int, int, int] = (1000, 1000, 1000, 1000)
    gid: tuple[int, int, int, int] = (1000, 1000, 1000, 1000)
    groups: tuple[int, ...] = ()
    prm: int = 0
    eff: int = 0
    bnd: int = ALL
    nnp: bool = False
    files: tuple[Program, ...] = ()
    exclude: tuple[str, ...] = ()

    def fields(self) -> Fields:
        """The state as carry_out takes it."""
        return fields_from(Credential(self.uid, self.gid, frozenset(self.groups), 0, self.prm, self.eff, self.bnd, 0, 0,
                                      self.nnp))


HELD, OWN, THROUGH = "no: held", "no: by its own calls", "no: through a program"
NO_CAPS, NNP, BOUNDING, FILTER = ("yes: no capability", "yes: no_new_privs", "yes: an empty bounding set",
                                  "yes: a filter")
ADMIN = capability("SYS_ADMIN")
SU = Program("su", mode=0o4755)
WALL = Program("wall", gid=50, mode=0o2755)
# Version 2, permitted CAP_NET_RAW, effective.
PING = Program("ping", caps="0100000200200000000000000000000000000000")
GATE = Program("gate", gid=60, mode=0o2755)             # makes the group 60
BEHIND = Program("behind", gid=60, mode=0o4750)         # root's, for the group 60 alone
PLAIN = tuple(Program(f"plain{number}") for number in range(7))
SPECIAL = (SU, WALL, PING, GATE)
CASES = (
    Case(HELD, "its effective user id", Right("uid", 1000)),
    Case(HELD, "its effective group id", Right("gid", 1000)),
    Case(HELD, "a supplementary group", Right("gid", 34), groups=(7, 34)),
    Case(HELD, "a capability", capability("KILL"), prm=cap("KILL"), eff=cap("KILL")),
    Case(OWN, "a saved user id 0 for the user id", Right("uid", 0), uid=(33, 33, 0, 33)),
    Case(OWN, "a real user id 0 for the user id", Right("uid", 0), uid=(0, 33, 33, 33)),
    Case(OWN, "a saved user id 0 and permitted sets for a capability", ADMIN, uid=(33, 33, 0, 33), prm=ALL),
    Case(OWN, "CAP_SETUID for any user id", Right("uid", 7), prm=cap("SETUID"), eff=cap("SETUID")),
    Case(OWN, "a permitted capability that isn't effective", capability("KILL"), prm=cap("KILL")),
    Case(OWN, "a saved group id", Right("gid", 50), gid=(1000, 1000, 50, 1000)),
    Case(OWN, "CAP_SETGID, permitted alone, for a group", Right("gid", 50), prm=cap("SETGID")),
    Case(OWN, "a saved user id where setresuid is filtered", Right("uid", 0), uid=(33, 33, 0, 33),
         exclude=("setresuid",)),
    Case(THROUGH, "a set-user-ID program of root's, the user id", Right("uid", 0), files=(PLAIN[0], SU)),
    Case(THROUGH, "a set-user-ID program of root's, a capability", ADMIN, files=(PLAIN[0], SU)),
    Case(THROUGH, "a set-group-ID program", Right("gid", 50), files=(SU, WALL)),
    Case(THROUGH, "a program with an attribute", capability("NET_RAW"), files=(PING,)),
    Case(THROUGH, "two programs, one after the other", Right("uid", 0), files=(GATE, BEHIND)),
    Case(THROUGH, "any program, with the real user id 0", capability("KILL"), uid=(0, 33, 33, 33),
         exclude=UID_CALLS),
    Case(NO_CAPS, "the user id 0", Right("uid", 0), files=PLAIN),
    Case(NO_CAPS, "a group", Right("gid", 50), groups=(7,), files=PLAIN),
    Case(NO_CAPS, "a capability", ADMIN, files=PLAIN),
    Case(NO_CAPS, "another user id, with three of its own", Right("uid", 5), uid=(1, 2, 3, 2), files=PLAIN),
    Case(NNP, "the user id 0 beside set-id programs", Right("uid", 0), nnp=True, files=SPECIAL),
    Case(NNP, "a group beside set-id programs", Right("gid", 50), nnp=True, files=SPECIAL),
    Case(NNP, "a capability beside set-id programs and attributes", capability("NET_RAW"), nnp=True, files=SPECIAL),
    Case(NNP, "a capability of root's without capabilities", ADMIN, uid=(0, 0, 0, 0), nnp=True, files=SPECIAL),
    Case(BOUNDING, "a capability beside a set-user-ID program of root's", ADMIN, bnd=0, files=(SU, WALL, GATE)),
    Case(BOUNDING, "a capability of root's without capabilities", ADMIN, uid=(0, 0, 0, 0), bnd=0, files=(SU, WALL)),
    Case(FILTER, "a saved user id 0", Right("uid", 0), uid=(33, 33, 0, 33), files=PLAIN, exclude=UID_CALLS),
    Case(FILTER, "a saved group id", Right("gid", 50), gid=(1000, 1000, 50, 1000), files=PLAIN, exclude=GID_CALLS),
    Case(FILTER, "CAP_SETUID", Right("uid", 7), prm=cap("SETUID"), eff=cap("SETUID"), files=PLAIN, exclude=UID_CALLS),
    Case(FILTER, "a set-user-ID program, execve filtered", Right("uid", 0), gid=(1, 2, 3, 2), files=SPECIAL,
         exclude=("execve",)),
)
# A `yes` by the rules that a kernel breaks, by a row of docs/KERNEL.md: it must be that row, and no other thing.
BROKEN = (
    Case(FILTER, "the real user id 0 under no_new_privs", Right("uid", 0), uid=(0, 33, 33, 33), nnp=True, files=PLAIN,
         exclude=UID_CALLS),
)


# ---- processes


class Processes:
    """carry_out, which has live processes make calls."""

    def __init__(self, folder: str) -> None:
        program = os.path.join(folder, "carry_out")
        subprocess.run(["cc", "-O1", "-o", program, os.path.join(HERE, "carry_out.c")], check=True)
        self.child = subprocess.Popen([program], stdin=subprocess.PIPE, stdout=subprocess.PIPE, text=True, bufsize=1)

    def __enter__(self) -> "Processes":
        return self

    def __exit__(self, kind: type[BaseException] | None, error: BaseException | None,
                 trace: TracebackType | None) -> None:
        assert self.child.stdin
        self.child.stdin.close()
        self.child.wait()

    def ordered(self, *words: str) -> tuple[str, Fields]:
        """What an order is answered: the first word, and the fields that it shows."""
        assert self.child.stdin and self.child.stdout
        print(*words, file=self.child.stdin, flush=True)
        answer = self.child.stdout.readline().split()
        if not answer:
            raise Failed(f"no answer to {' '.join(words)}")
        return answer[0], dict(word.partition("=")[::2] for word in answer[1:])

    def started(self, case: Case) -> Credential:
        """A process in the state of a case: what it holds."""
        words = [f"{name}={text}" for name, text in case.fields().items()]
        denied = [str(NUMBERS[name]) for name in case.exclude]
        _, shown = self.ordered("start", *words, *(["deny=" + ",".join(denied)] if denied else []))
        return credential_of(shown)

    def called(self, call: Call, paths: dict[bytes, str]) -> tuple[str, Credential]:
        """What a call is answered, and what the process then holds."""
        if call.name == "execve":
            path = call.arguments[0]
            assert isinstance(path, bytes)
            words = [paths[path]]
        elif call.name == "capset":
            words = [f"{one:x}" for one in call.arguments if isinstance(one, int)]
        else:
            words = ["-1" if one == MINUS_ONE else f"{one}" for one in call.arguments if isinstance(one, int)]
        number, shown = self.ordered("call", call.name, *words)
        return ERRORS.get(number, f"error {number}"), credential_of(shown)


# ---- files and worlds


def put_files(folder: str, files: tuple[Program, ...]) -> dict[bytes, str]:
    """Makes the files of a case; by the path that is declared, where it stands."""
    paths: dict[bytes, str] = {}
    for file in (*files, Program("-")):
        path = os.path.join(folder, "true" if file.name == "-" else file.name)
        if not os.path.exists(path):
            shutil.copyfile("/bin/true", path)
            os.chown(path, file.uid, file.gid)
            os.chmod(path, file.mode)
            if file.caps:
                os.setxattr(path, "security.capability", bytes.fromhex(file.caps))
        paths[b"-" if file.name == "-" else path.encode()] = path
    return paths


def world_of(cred: Credential, case: Case, paths: dict[bytes, str]) -> str:
    """The text of the world of a state."""
    lines = ['log = "script"']
    for file, path in zip(case.files, list(paths.values())):
        lines += ["[[file]]", f'path = "{path}"', f"uid = {file.uid}", f"gid = {file.gid}", f'mode = "{file.mode:04o}"']
        lines += [f'caps = "{file.caps}"'] if file.caps else []
    fields = fields_from(cred)
    lines += ["[[process]]", f"pid = {PID}", f"uid = [{fields['uid']}]", f"gid = [{fields['gid']}]",
              f"groups = {sorted(cred.groups)}", f"no_new_privs = {str(cred.nnp).lower()}", f"securebits = {cred.sec}"]
    sets = {"permitted": "prm", "effective": "eff", "ambient": "amb", "inheritable": "inh", "bounding": "bnd"}
    lines += [f'{name} = "{fields[key]}"' for name, key in sets.items()]
    if case.exclude:
        lines += ["[filter]", "exclude = [" + ", ".join(f'"{name}"' for name in case.exclude) + "]"]
    return "\n".join(lines) + "\n"


def rules_of(case: Case, paths: dict[bytes, str]) -> Rules:
    """The rules over the files of a case."""
    mount = Mount(0, False, False, (EVERY_ID, EVERY_ID), None)
    named = zip(case.files, paths)
    return Rules({path: File(mount, file.uid, file.gid, file.mode, read_attribute(bytes.fromhex(file.caps)) if file.caps
                             else None, None) for file, path in named})


# ---- verdicts


def right_text(right: Right) -> str:
    """A right as the program takes it."""
    return f"cap:CAP_{CAPABILITIES[right.of]}@init" if right.kind == "cap" else f"{right.kind}:{right.of}"


def verdict(program: str, folder: str, world: str, right: Right) -> tuple[str, list[str]]:
    """The word of the program's verdict, and the lines of its run."""
    for name, text in (("world.toml", world), ("log", "")):
        with open(os.path.join(folder, name), "w", encoding="utf-8") as file:
            file.write(text)
    done = subprocess.run([program, "audit", os.path.join(folder, "world.toml"), os.path.join(folder, "log"), str(PID),
                           right_text(right)], capture_output=True, text=True, check=False)
    lines = done.stdout.splitlines()
    if done.returncode not in (0, 1, 2):
        raise Failed(f"the program ends with {done.returncode}: {lines[-1:]}")
    after = lines[next(at for at, line in enumerate(lines) if line.startswith("end ")) + 1:]
    return after[0].split()[0], after[1:-1] if done.returncode == 1 else []


def call_of(line: str) -> Answered:
    """The call that a line of a run tells, and its result."""
    words, _, result = line.partition(" = ")
    _, name, *arguments = words.split()
    if name == "capset":
        eff, prm, inh = (int(word, 16) for word in arguments)
        return Call(name, (eff, prm, inh)), result
    if name == "execve":
        return Call(name, (arguments[0].encode(),)), result
    return Call(name, tuple(MINUS_ONE if word == "-1" else int(word) for word in arguments)), result


# ---- carrying out


@dataclass
class Outcome:
    """What came of the cases of a kind."""
    cases: int = 0
    runs: int = 0
    calls: int = 0
    rows: Counter[str] = field(default_factory=Counter)
    failures: list[str] = field(default_factory=list)


def known_row(call: Call, before: Credential, told: Credential, seen: Credential) -> str | None:
    """The row of docs/KERNEL.md by which a kernel leaves another credential than the rules."""
    if call.name == "execve" and before.nnp and seen.uid[1] == seen.uid[0] and seen.gid[1] == seen.gid[0]:
        return REAL_COMES_BACK
    if call.name in ("setresuid", "setresgid") and told.uid[:3] == seen.uid[:3] and told.gid[:3] == seen.gid[:3]:
        return FS_STAYS
    return None


def carried_out(processes: Processes, rules: Rules, cred: Credential, calls: list[Call], paths: dict[bytes, str],
                outcome: Outcome) -> Credential:
    """Has the process that was started make these calls; what it holds at their end."""
    for call in calls:
        result, state = rules.answer(State({PID: (0, cred)}, (INITIAL,)), PID, call)
        told = state.processes[PID][1]
        answered, seen = processes.called(call, paths)
        outcome.calls += 1
        if (answered, seen) != (result, told):
            row = known_row(call, cred, told, seen) if answered == result else None
            if row is None:
                raise Failed(f"{call}: {answered} {fields_from(seen)}, by the rules {result} {fields_from(told)}")
            outcome.rows[row] += 1
        cred = seen
    return cred


def runs_of(case: Case, rules: Rules, cred: Credential, run: list[str]) -> Iterator[list[Call]]:
    """What is carried out of a case: the run of a no, each plan that makes a call of a yes."""
    if case.kind.startswith("no"):
        yield [call_of(line)[0] for line in run]
        return
    for plan in plans(rules, CALLS - set(case.exclude), cred, case.right):
        if plan.made:
            yield [call for call, _ in plan.made]


def try_case(processes: Processes, program: str, folder: str, case: Case, outcome: Outcome) -> int:
    """Carries out what a case asks for; how often the right was seen after a yes."""
    paths = put_files(folder, case.files)
    cred = processes.started(case)
    word, run = verdict(program, folder, world_of(cred, case, paths), case.right)
    wanted = case.kind.split(":")[0]
    if word != wanted:
        raise Failed(f"the verdict is {word}, not {wanted}")
    rules, seen = rules_of(case, paths), 0
    outcome.cases += 1
    for calls in runs_of(case, rules, cred, run):
        if processes.started(case) != cred:
            raise Failed("the state isn't the same a second time")
        outcome.runs += 1
        holds = case.right.is_held(carried_out(processes, rules, cred, calls, paths, outcome))
        if wanted == "no" and not holds:
            raise Failed(f"the right isn't held after {run}")
        seen += wanted == "yes" and holds
    return seen


def tried(processes: Processes, program: str, case: Case, outcomes: dict[str, Outcome], broken: bool) -> None:
    """Tries a case, and notes what came of it."""
    outcome = outcomes.setdefault(case.kind, Outcome())
    folder = tempfile.mkdtemp(prefix="carry-out-")
    os.chmod(folder, 0o755)
    try:
        seen = try_case(processes, program, folder, case, outcome)
        if bool(seen) != broken:
            outcome.failures.append(f"{case.what}: the right is seen after {seen} plans")
    except Failed as error:
        outcome.failures.append(f"{case.what}: {error}")
    finally:
        shutil.rmtree(folder)


def main() -> int:
    """Tries all cases and prints what came of each kind."""
    parser = argparse.ArgumentParser(description="carries out on live processes what verdicts say")
    parser.add_argument("--only", metavar="KIND", help="the kinds whose names begin so, as `yes`")
    parser.add_argument("program", nargs="?", default=BUILT)
    words = parser.parse_args()
    if os.geteuid() != 0 or not os.access(words.program, os.X_OK):
        print("carry_out_runs: to be run as root, with a built credaudit", file=sys.stderr)
        return 2
    outcomes: dict[str, Outcome] = {}
    with tempfile.TemporaryDirectory() as folder, Processes(folder) as processes:
        for broken, cases in ((False, CASES), (True, BROKEN)):
            for case in cases:
                if case.kind.startswith(words.only or ""):
                    tried(processes, os.path.abspath(words.program), case, outcomes, broken)
    for kind, outcome in outcomes.items():
        rows = "".join(f"; {count} by the row: {row}" for row, count in outcome.rows.items())
        print(f"{kind}: {outcome.cases} states, {outcome.runs} runs, {outcome.calls} calls, "
              f"{len(outcome.failures)} failures{rows}")
        for failure in outcome.failures:
            print(f"  {failure}")
    few = [kind for kind, outcome in outcomes.items() if kind.startswith("yes") and outcome.runs < 50]
    for kind in few:
        print(f"{kind}: fewer than 50 plans make a call")
    return 1 if few or any(outcome.failures for outcome in outcomes.values()) else 0


if __name__ == "__main__":
    sys.exit(main())
