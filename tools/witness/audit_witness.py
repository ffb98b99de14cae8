#!/usr/bin/env python3
"""A second witness of verdicts: a search in a plain machine must never reach a right that the audit says is gone.

Draws 10,000 small worlds, each with a right that is asked for (--count, --seed). In each the plain search (bench/plain,
of which nothing is proved) tries the calls of a family, breadth first, at least three calls deep: of each state 60
calls and more, where there are as many, births and calls on spaces always among them (tools/witness/search). Nothing
that the audit answers is known to it. Then the audit is asked. Wrong is

- a `yes` whose right the search reaches, or whose certificate `check` refuses,
- a `no` whose run `confirm` doesn't confirm with the same holder; or that, put after the log, `replay` doesn't take, or
  that leaves its holder without the right,
- a report that is none (docs/FORMATS.md), an answer that takes more than a minute, `undecided` for a settled family.

Tells how many states were met and calls tried, and of each verdict how many; ends with status 1 where something is
wrong, and where less than a fifth of the worlds are a `yes` for a family that isn't settled. `--selftest` needs no
audit: it must report an audit that always says yes, one that tells a run whose holder hasn't the right, one whose
certificates don't hold, and one whose runs are confirmed with another holder. Needs rustc.
"""
import sys
import time
from collections import Counter
from dataclasses import replace
from pathlib import Path

import tools_path  # noqa: F401
from witness import trials
from witness.audits import UNDECIDED, YES
from witness.draws import small
from witness.settled import is_settled
from witness.trials import Asked, Outcome, Searches

STAND_IN = Path(__file__).resolve().parent / "stand_in.py"


def trial(asked: Asked, searches: Searches, number: int) -> Outcome:
    """One world: searched, asked, and compared."""
    query = small(asked.seed, number)
    settled = is_settled(query.world, query.pid)
    world, answer = trials.answered(asked, query, number)
    found, depth, states, calls, *run = searches.answer(world, query, number)
    of = "settled" if settled else "not settled"
    counts = Counter({f"{answer.verdict}, {of}": 1, f"{answer.verdict}, right {found} by the search": 1,
                      "states met": int(states), "calls tried": int(calls), f"searches {depth} calls deep": 1})
    if answer.verdict == UNDECIDED:
        counts[f"undecided by {answer.blamed}"] += 1
    if answer.verdict == YES and found == "reached":
        return Outcome(counts, f"yes, but the search reaches the right: {'; '.join(run[1:]) or 'it is held now'}")
    if answer.verdict == UNDECIDED and settled:
        return Outcome(counts, "undecided for a settled family")
    return Outcome(counts)


def search(asked: Asked) -> tuple[Counter[str], int]:
    """What all trials count, and how many are wrong."""
    searches = Searches(asked.work, asked.search)
    try:
        return trials.counted(asked, lambda number: trial(asked, searches, number), small)
    finally:
        searches.close()


def selftest(asked: Asked) -> list[str]:
    """What is wrong with this witness: it must report each of the stand-ins that are wrong."""
    faults = []
    for kind in ("always_yes", "idle_no", "unsound", "unconfirmed"):
        audit = [sys.executable, str(STAND_IN), kind]
        _, wrong = search(replace(asked, audit=audit, replay=audit, tells=False))
        print(f"{kind}: {wrong} of {asked.count} reported")
        if not wrong:
            faults.append(f"an audit that is {kind} isn't reported")
    return faults


def main() -> None:
    """Tries the worlds that the words ask for, or the witness itself."""
    ask = trials.options("audit_witness.py", __doc__, 10000)
    ask.add_argument("--selftest", action="store_true", help="the witness is tried, with a hundredth of the queries")
    ask.add_argument("--search", help="a plain_search that is built already")
    told = ask.parse_args()
    with trials.work_folder() as folder:
        asked = trials.asked_of(told, Path(folder))
        if told.selftest:
            trials.end(selftest(replace(asked, count=max(asked.count // 100, 1), case=None)))
        begin = time.monotonic()
        counts, wrong = search(asked)
        trials.show(counts)
        print(f"{time.monotonic() - begin:.0f} seconds, {asked.jobs} at a time; {wrong} wrong")
        few = asked.case is None and 5 * counts[f"{YES}, not settled"] < asked.count
        trials.end([f"{wrong} answers"] * bool(wrong) + ["few yes of families that aren't settled"] * few)


if __name__ == "__main__":
    main()
