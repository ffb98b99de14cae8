#!/usr/bin/env python3
"""Settled families are always decided: of each of 10,000 that are drawn (--count, --seed) the audit must say yes or no.

The four alternatives of the third sentence (docs/VERDICT.md, "Settled families": no_new_privs; no member with an id
inside 0, all with SECBIT_NOROOT, or all with an empty bounding set, where no program serves a member) take turns; each
family keeps one of them and no other. Of `yes` the certificate is checked, of `no` the run confirmed and replayed. Ends
with status 1 where an answer is `undecided` or wrong, or where less than a tenth of the families are of an alternative,
a `yes`, or a `no`.
"""
from collections import Counter
from pathlib import Path

import tools_path  # noqa: F401
from witness import trials
from witness.audits import NO, UNDECIDED, YES
from witness.draws import settled
from witness.settled import ALTERNATIVES, alternatives
from witness.trials import Asked, Outcome
from witness.worlds import family


def trial(asked: Asked, number: int) -> Outcome:
    """One settled family: asked, and its answer counted."""
    query = settled(asked.seed, number)
    (by,) = alternatives(query.world, family(query.world, query.pid))
    _, answer = trials.answered(asked, query, number)
    counts = Counter({answer.verdict: 1, by: 1, f"{answer.verdict}, {by}": 1})
    return Outcome(counts, f"undecided by {answer.blamed}" if answer.verdict == UNDECIDED else "")


def main() -> None:
    """Tries the families that the words ask for."""
    told = trials.options("settled_witness.py", __doc__, 10000).parse_args()
    with trials.work_folder() as folder:
        asked = trials.asked_of(told, Path(folder))
        counts, wrong = trials.counted(asked, lambda number: trial(asked, number), settled)
        trials.show(counts)
        few = [name for name in (*ALTERNATIVES, YES, NO) if asked.case is None and 10 * counts[name] < asked.count]
        trials.end([f"{wrong} answers"] * bool(wrong) + [f"few of {name}" for name in few])


if __name__ == "__main__":
    main()
