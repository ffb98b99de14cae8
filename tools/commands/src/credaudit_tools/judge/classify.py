"""The classes of a family's rights after a log: two audits of each, with the declared programs and with none, and for
each `yes` the evidence of what it rests on (premises.py).
"""
from collections.abc import Callable, Sequence
from dataclasses import dataclass, field, replace

from ..command_line.command import Failure
from ..evidence.evidence import Evidence, reasons_of
from ..evidence.premises import FS_IDS, POWER, SCAN
from ..explain.run_words import parsed
from ..formats.report import Report, Standing
from ..formats.rights import Right
from ..formats.verdicts import NO, RULES, YES
from ..formats.worlds import INITIAL, World
from ..replay.end_world import End, end_of, filtered, limited, unbounded, without_files
from . import acting_caps, classes, fs_ids, touched_rights
from .classes import Outcome
from .held_by import holders
from .program_questions import Answer, Asking, Files, right_in, shortened

WHAT_IFS = {"no_new_privs": limited, "an empty bounding set": unbounded,
            "a filter of the calls that take ids, capabilities or user namespaces": filtered}


@dataclass(frozen=True)
class WhatIf:
    """What would change: so many rights, of those that nobody holds and that aren't gone, would be of a class, `gone`
    or, without a scan, `gone-by-own-calls`."""
    with_: str
    gone: int
    of: int
    kind: str = classes.GONE


@dataclass
class Family:
    """What is asked about: the files, the process, the end of the replay, and the evidence for a `yes`."""
    files: Files
    pid: int
    end: End
    evidence: Evidence

    def space(self, right: Right) -> str | None:
        """The name of a right's namespace in the replay: `#N` may name a declared one."""
        names, token = list(self.end.spaces.named), right.space
        if token is None or not token.startswith("#"):
            return token
        return names[int(token[1:])] if int(token[1:]) < len(names) else token

    def token(self, name: str) -> str:
        """The name of a namespace in the world of the end."""
        found = self.space(Right("cap", 0, name))
        return self.end.token(found if found is not None else INITIAL)

    def gone(self, right: Right) -> tuple[str, tuple[str, ...]]:
        """The class of a right with a `yes`, and why it is no better one."""
        lacking = self.evidence.lacking(right, self.space(right))
        if not lacking:
            return classes.GONE, ()
        if self.evidence.only_own_calls(lacking):
            return classes.GONE_BY_OWN_CALLS, ()
        return classes.DOUBTED, reasons_of(lacking)

    def changed(self, ask: Asking, name: str, change: Callable[[World], World]) -> "Family":
        """The family as it would be in a world that is changed: what is doubted stays so, and rows of docs/KERNEL.md
        that arise there are doubts too. What it may do without a listed call is for the program to say anew."""
        world, evidence = change(self.end.world), self.evidence.without((POWER, FS_IDS))
        start = [Standing(row.pid, row.space, row.credential) for row in world.processes]
        told = Report(start)
        facts = touched_rights.facts_of(world, told, b"", end_of(world, told, self.pid))
        touched_rights.tell(evidence, facts, self.end.names)
        return replace(self, files=ask.files(name, world), end=replace(self.end, world=world), evidence=evidence)


def programs_of(run: Sequence[bytes], files: set[str]) -> tuple[str, ...]:
    """The declared programs that a run executes, each once."""
    found = dict[str, None]()
    for line in run:
        parts = parsed(line.decode("ascii", "backslashreplace"))
        if parts is not None and parts[1] == "execve" and parts[2] and parts[2][0] in files:
            found[parts[2][0]] = None
    return tuple(found)


def back(line: bytes, names: dict[str, str]) -> bytes:
    """A line of a run over the world of the end, with the replay's names of namespaces."""
    parts = parsed(line.decode("ascii", "backslashreplace"))
    if parts is None or parts[1] not in ("setns", "write_uid_map", "write_gid_map", "write_setgroups"):
        return line
    words = line.split(b" ")
    words[2] = names.get(words[2].decode("ascii", "replace"), "").encode() or words[2]
    return b" ".join(words)


@dataclass
class Judge:
    """Puts the program's answers about a family together."""
    ask: Asking
    family: Family
    checked: set[Right] = field(default_factory=set)        # whose certificate the program's check accepted already

    def outcomes(self, rights: Sequence[Right]) -> list[Outcome]:
        """What is known of each right."""
        both = self.ask.audits("audits", self.family.files, self.family.pid, [each.text() for each in rights])
        self.tell_power(dict(zip(rights, both)))
        own = self.ask.files("own", without_files(self.family.end.world))
        got = [right for right, told in zip(rights, both) if told.run]
        alone = dict(zip(got, self.ask.audits("audits by own calls", own, self.family.pid,
                                              [right_in(each, self.family.token) for each in got])))
        found = [self.outcome(right, told, alone.get(right)) for right, told in zip(rights, both)]
        return self.ask.side_by_side("runs and certificates", self.settled, found)

    def tell_power(self, told: dict[Right, Answer]) -> None:
        """What the family may do without a listed call, as evidence: by capabilities, and by files of fs ids."""
        missing = [right for right in acting_caps.RIGHTS if right not in told]
        more = dict(zip(missing, self.ask.audits("audits of power", self.family.files, self.family.pid,
                                                 [each.text() for each in missing])))
        acting_caps.tell(self.family.evidence, [told.get(right) or more[right] for right in acting_caps.RIGHTS])
        self.tell_fs_ids([right for right, answer in told.items() if answer.verdict.word == YES])

    def tell_fs_ids(self, gone: Sequence[Right]) -> None:
        """Members with fs ids of their own, as evidence: for each right that a file of such ids gives. Where it gives
        a capability that acts without a call, that is each right."""
        evidence, end = self.family.evidence, self.family.end
        evidence.establish(FS_IDS, "the fs ids of each member at the end are among its effective ones")
        odd = fs_ids.reasons(end.family)
        if not odd:
            return
        asked = list(dict.fromkeys([*gone, *acting_caps.RIGHTS]))
        files = self.ask.files("fs-ids", fs_ids.with_files_of(end.world, end.family))
        answers = self.ask.audits("audits with files of fs ids", files, self.family.pid,
                                  [right_in(each, self.family.token) for each in asked])
        had = frozenset(right for right, answer in zip(asked, answers) if answer.verdict.word != YES)
        for why in odd:
            evidence.doubt(FS_IDS, why, None if had & set(acting_caps.RIGHTS) else fs_ids.Among(had))

    def outcome(self, right: Right, told: Answer, alone: Answer | None) -> Outcome:
        """The class of a right, by the verdict on it and, where it can be had, the one without declared programs."""
        verdict = told.verdict
        if verdict.word == NO:
            if not told.run:
                end = self.family.end
                by = holders(end.family, right, self.family.space(right), end.spaces.named)
                return Outcome(right, classes.HELD, holder=verdict.holder, reasons=by)
            if alone is not None and alone.verdict.word == NO:
                names = {word: name for name, word in self.family.end.names.items()}
                run = tuple(back(line, names) for line in alone.run)
                return Outcome(right, classes.OWN_CALLS, run, alone.verdict.holder)
            return Outcome(right, classes.PROGRAM, told.run, verdict.holder)
        if verdict.word == YES:
            kind, reasons = self.family.gone(right)
            self.checked |= {right} if told.checked else set()
            certificate = None if verdict.certificate is None else verdict.certificate.encode("ascii")
            return Outcome(right, kind, reasons=reasons, certificate=certificate)
        lets, advice = RULES.get(verdict.rule or "", ("a rule that isn't known here", "see docs/VERDICT.md"))
        return Outcome(right, classes.OPEN, rule=verdict.rule, row=verdict.row, lets=lets, advice=advice)

    def settled(self, outcome: Outcome) -> Outcome:
        """With its run as short as the program confirms it; with a certificate that its check accepts."""
        files, pid, right = self.family.files, self.family.pid, outcome.right.text()
        if outcome.certificate is not None and outcome.right not in self.checked and \
                not self.ask.holds(files, pid, right, outcome.certificate):
            why = "the program's check doesn't accept the program's certificate"
            return replace(outcome, kind=classes.DOUBTED, reasons=(*outcome.reasons, why))
        if not outcome.run:
            return outcome
        run, holder = shortened(outcome.run, lambda fewer: self.ask.confirms(files, pid, right, fewer))
        outcome = replace(outcome, run=tuple(run), holder=outcome.holder if holder is None else holder)
        paths = {row.path.encode().decode("ascii", "backslashreplace") for row in self.family.end.world.files}
        programs = programs_of(outcome.run, paths)
        return replace(outcome, programs=programs, kind=classes.PROGRAM if programs else classes.OWN_CALLS)

    def what_ifs(self, outcomes: Sequence[Outcome]) -> list[WhatIf]:
        """How many of the rights that nobody holds, and that aren't gone, would be gone if the family were otherwise
        from its end on: by the evidence for that world, and with a certificate that the program's check accepts."""
        left = [each.right for each in outcomes if each.kind in classes.TO_BE_HAD]
        kind = classes.GONE if SCAN in self.family.evidence.established else classes.GONE_BY_OWN_CALLS
        return [WhatIf(words, sum(each == kind for each in self.changed(number, words, change, left)), len(left), kind)
                for number, (words, change) in enumerate(WHAT_IFS.items())]

    def changed(self, number: int, words: str, change: Callable[[World], World], left: Sequence[Right]) -> list[str]:
        """The classes of the rights with a `yes` in a world that is changed."""
        family = self.family.changed(self.ask, f"if-{number}", change)
        told = self.ask.audits(f"audits with {words}", family.files, family.pid,
                               [right_in(each, self.family.token) for each in left])
        Judge(self.ask, family).tell_power(dict(zip(left, told)))
        yes = [(right, each) for right, each in zip(left, told) if each.verdict.word == YES]

        def kind(pair: tuple[Right, Answer]) -> str:
            right, answer = pair
            text, certificate = right_in(right, self.family.token), (answer.verdict.certificate or "").encode()
            good = answer.checked or self.ask.holds(family.files, family.pid, text, certificate)
            return family.gone(right)[0] if good else classes.DOUBTED
        return self.ask.side_by_side(f"certificates with {words}", kind, yes)


def same_as_replayed(ask: Asking, family: Family) -> None:
    """Has the program replay the world of the end, and fails where a member isn't what it was after the log."""
    world: World = family.end.world
    files = ask.files("end", world)
    read = ask.program.run("replay", files.world, files.log)
    told = {one.pid: (family.end.token(one.space), one.credential) for one in family.end.family}
    if {one.pid: (one.space, one.credential) for one in read.start} != told or read.status != 0:
        raise Failure("the world of the log's end isn't the replay's end: "
                      + (read.ending[-1] if read.ending else "no report"))
