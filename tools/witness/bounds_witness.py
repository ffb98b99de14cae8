#!/usr/bin/env python3
"""Bounds, certificates and runs beside plain Python: what `audit`, `check` and `confirm` answer must be what
plain/bounds.py works out from docs/BOUNDS.md, docs/CERTIFICATE.md and docs/FORMATS.md.

Draws 2,000 small worlds, each with a log of up to eight calls and a right that is asked for (--count, --seed); every
fourth family is settled before its log. Of each

- the audit is asked: `yes` must come with the certificate of plain Python, byte for byte, `undecided` with its rule,
  its row and its bounds; where it says `no`, bounds must meet the right, and `confirm` must confirm the run, with its
  holder, here and there;
- `check` is asked of five certificates: least bounds, start bounds and bounds of the blame, as they are or changed in a
  part or in their text;
- `confirm` is asked of five runs, of which some have a stranger's call, a wrong result or an odd line.

Each answer of these is compared whole, with its status. Ends with status 1 where one differs, and where fewer than one
in four hundred of the verdicts are of a kind, or one of the answers of `check` and `confirm` never comes.
"""
import re
from collections import Counter
from pathlib import Path
from random import Random

import tools_path  # noqa: F401
from plain import bounds as plain_bounds
from plain.bounds import NO, UNDECIDED, YES, Asked as Query, Ends
from plain.certificate import text
from plain.reader import read_world
from witness import audits, draws, steps, trials, worlds
from witness.audits import Wrong
from witness.trials import Asked, Outcome

TRIES = 5
CHECKS = ("holds", "refused json", "refused shape document", "refused shape", "refused order", "refused not-start",
          "refused not-closed", "refused meets")
CONFIRMATIONS = ("confirmed", "refused line", "refused end")


def query_of(seed: int, number: int) -> worlds.Query:
    """The query of a number."""
    return (draws.settled if number % 4 == 3 else draws.small)(seed, number)


class Trial:
    """One world: its files, and what is counted."""

    def __init__(self, asked: Asked, number: int) -> None:
        self.asked, self.query = asked, query_of(asked.seed, number)
        self.rng = Random(f"{asked.seed} steps {number}")
        self.files = [asked.work / f"{number}.{name}" for name in ("toml", "log", "third")]
        self.counts = Counter[str]()
        self.world = worlds.text(self.query.world).encode()
        self.log = steps.log(self.rng, read_world(self.world), self.rng.choice((0, 0, 2, 8))).encode()
        self.words = [str(self.query.pid), self.query.right()]

    def answer(self, command: str, third: bytes = b"") -> Ends:
        """What the program answers."""
        for file, data in zip(self.files, (self.world, self.log, third)):
            file.write_bytes(data)
        names = [str(file) for file in self.files]
        last = names[2:] if command != "audit" else []
        status, lines = audits.asked([*self.asked.audit, command, *names[:2], *self.words, *last])
        if command == "audit":
            end = max((at for at, line in enumerate(lines) if re.fullmatch(r"end \d+", line)), default=-1)
            lines = lines[end + 1:]
        return Ends(status, *lines)

    def plain(self, command: str, third: bytes = b"") -> Ends:
        """What plain Python answers."""
        pid, right = (word.encode() for word in self.words)
        return plain_bounds.answer(command, self.world, self.log, pid, right, third)

    def compare(self, command: str, third: bytes) -> Ends:
        """What both answer to a third file; Wrong where they differ."""
        ends, wanted = self.answer(command, third), self.plain(command, third)
        if (ends.status, ends.lines) != (wanted.status, wanted.lines):
            raise Wrong(f"{command} answers {ends.status} {ends.lines}, not {wanted.status} {wanted.lines}: {third!r}")
        return ends

    def count(self, command: str, ends: Ends, kinds: tuple[str, ...]) -> None:
        """Counts an answer by its kind."""
        told = "".join(ends.lines[:1])
        kind = next((kind for kind in sorted(kinds, reverse=True) if told.startswith(kind)), told)
        self.counts[f"{command}: {kind}"] += 1

    def try_all(self) -> Outcome:
        """Everything of this world."""
        ends, wanted = self.answer("audit"), self.plain("audit")
        if (ends.status, wanted.status) == (NO, UNDECIDED):     # a plan ends with a holder, and bounds meet the right
            self.confirm_run(ends)
        elif (ends.status, ends.lines) != (wanted.status, wanted.lines):
            raise Wrong(f"audit answers {ends.status} {ends.lines}, not {wanted.status} {wanted.lines}")
        self.counts["audit: " + "".join(ends.lines[:1]).split()[0]] += 1
        if ends.status in (YES, NO, UNDECIDED):
            self.try_others(ends)
        return Outcome(self.counts)

    def confirm_run(self, ends: Ends) -> None:
        """The run of a `no` is confirmed, with its holder."""
        again = self.compare("confirm", "".join(f"{line}\n" for line in ends.lines[1:-1]).encode())
        if again.lines != (f"confirmed {ends.lines[-1].split()[-1]}",):
            raise Wrong(f"the run of {ends.lines} is answered by {again.lines}")

    def try_others(self, ends: Ends) -> None:
        """Certificates and runs."""
        pid, right = (word.encode() for word in self.words)
        query = plain_bounds.asked(self.world, self.log, pid, right)
        closure, members = query.closure(), query.of_members()
        blamed = closure.blame(members, query.right)
        least = closure.least(members)
        bounds = (least, least, closure.start(members), blamed[2] if blamed else least)
        for _ in range(TRIES):
            self.count("check", self.compare("check", steps.certificate(self.rng, bounds)), CHECKS)
        if ends.status == YES:
            self.count("check", self.compare("check", text(least).encode()), CHECKS)
        first = ends.lines[1:-1] if ends.status == NO else ()
        for _ in range(TRIES):
            self.count("confirm", self.compare("confirm", self.run(query, first)), CONFIRMATIONS)

    def run(self, query: Query, first: tuple[str, ...]) -> bytes:
        """A run, at times behind the one that was printed."""
        behind = first if self.rng.random() < 0.3 else ()
        return steps.run(self.rng, query.world, query.state, query.members, behind).encode()


def main() -> None:
    """Tries the worlds that the words ask for."""
    told = trials.options("bounds_witness.py", __doc__, 2000).parse_args()
    with trials.work_folder() as folder:
        asked = trials.asked_of(told, Path(folder))
        counts, wrong = trials.counted(asked, lambda number: Trial(asked, number).try_all(), query_of)
        trials.show(counts)
        few = [verdict for verdict in audits.VERDICTS if 400 * counts[f"audit: {verdict}"] < asked.count]
        few += [f"check: {kind}" for kind in CHECKS if not counts[f"check: {kind}"]]
        few += [f"confirm: {kind}" for kind in CONFIRMATIONS if not counts[f"confirm: {kind}"]]
        trials.end([f"{wrong} answers"] * bool(wrong) + [f"few of {one}" for one in few if asked.case is None])


if __name__ == "__main__":
    main()
