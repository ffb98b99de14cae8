#!/usr/bin/env python3
"""Holds `credaudit check` against credaudit-check-certificate, on drawn worlds, logs, queries and certificates.

  certificate_trials.py [--program PROGRAM] [--trials N] [--first N] [--seed TEXT] [--changes N] [--all-of N]
                        [--jobs N] [--minutes N] [--third FILE] [--keep FOLDER] [RECORDING ..]

A trial is a small world with a log and a query, and certificates for it: the one that `PROGRAM audit` prints, the start
bounds, these grown under the rules until nothing is added, others that are enlarged and then grown, and changed ones of
these (each digit, interval end and flag, rows, keys, spellings, bytes): some, and in one trial of so many all. Each is
judged by `PROGRAM check` and by credaudit-check-certificate; the two have to answer with one line and one status. An
audit has to say `yes` exactly where the grown bounds don't meet the right, and to print these then.

Where RECORDINGs are named, folders with a world and a log of credaudit-trace, a trial has one of them in the place of a
drawn world and log, and lines of it are altered in every second trial. What isn't judged then (status 14) isn't
compared; it is told how the program answers it.

Each certificate that is accepted is held against a third computation, tools/plain/bounds.py or the one that --third
names: it has to accept it too, to say `yes`, and its least bounds have to be within the certificate's.

How often each answer came is printed. Differences are printed, their files are kept in FOLDER (world, log, pid, right,
certificate), and the status is 1 then.
"""
import argparse
import json
import os
import subprocess
import sys
import tempfile
import time
from collections import Counter
from collections.abc import Sequence
from dataclasses import dataclass, field, replace
from functools import partial
from multiprocessing import Pool

import tools_path
from checker.tests.certificate_changes import changes
from checker.tests.certificate_draws import IDS, Draw, drawn_log, drawn_query, drawn_world
from checker.tests.recording_draws import drawn_recording
from credaudit_check.bounds.rows import CAP_KEYS, FLAG_KEYS, ID_KEYS, Bounds, Row, read_bounds, text_of
from credaudit_check.command import Query, judge, query_of
from credaudit_check.texts.ends import Ended
from credaudit_check.rules.ids import ids_of, together


@dataclass(frozen=True)
class Given:
    """What the words of the command ask for."""
    program: str | None
    third: str | None
    seed: str
    changes: int
    all_of: int
    recordings: tuple[str, ...] = ()


@dataclass
class Found:
    """What a trial came to: how often each thing came, and the differences."""
    counts: Counter[tuple[str, str]] = field(default_factory=Counter)
    differences: list[tuple[str, dict[str, bytes]]] = field(default_factory=list)


def told(command: Sequence[str]) -> tuple[str, int]:
    """What a command writes, and its status."""
    made = subprocess.run(command, stdout=subprocess.PIPE, stderr=subprocess.DEVNULL, check=False)
    return made.stdout.decode("utf-8", "backslashreplace"), made.returncode


def enlarged(draw: Draw, bounds: Bounds) -> Bounds:
    """Bounds in which one part of a row is larger."""
    number = draw.randrange(len(bounds))
    row, key = bounds[number], draw.one((*ID_KEYS, *CAP_KEYS, *FLAG_KEYS))
    if key in FLAG_KEYS:
        row = replace(row, **{key: key != "n"})
    elif key in CAP_KEYS:
        row = replace(row, **{key: getattr(row, key) | 1 << draw.randrange(41)})
    else:
        first, last = sorted((draw.one(IDS), draw.one(IDS)))
        more = ids_of([(first, draw.one((first, last)))])
        row = replace(row, **{key: together(getattr(row, key), more)})
    return (*bounds[:number], row, *bounds[number + 1:])


class Trial:
    """One trial, in a folder of its own."""

    def __init__(self, given: Given, number: int, folder: str) -> None:
        self.given, self.number, self.folder = given, number, folder
        self.draw = Draw(f"{given.seed}/{number}")
        self.found = Found()
        self.files: dict[str, bytes] = {}
        self.judged: set[Bounds] = set()
        self.least: Bounds | None = None        # by the third computation
        self.query: Query | Ended = Ended(None, 7)

    def put(self, name: str, data: bytes) -> str:
        """A file of the folder."""
        self.files[name] = data
        path = os.path.join(self.folder, name)
        with open(path, "wb") as file:
            file.write(data)
        return path

    def run(self) -> Found:
        """The whole trial."""
        world, log = self.inputs()
        pid, right = drawn_query(self.draw, world, log)
        self.put("pid", pid.encode())
        self.put("right", right.encode())
        self.words = [self.put("world", world.encode()), self.put("log", log.encode()), pid, right]
        try:
            self.query = query_of(world.encode(), log.encode, pid.encode(), right.encode())
        except Ended as refused:
            self.query = refused
        bases = self.bases()
        for kind, text in bases:
            self.compare(kind, text)
        if isinstance(self.query, Query):
            every = changes(bases[self.draw.randrange(len(bases))][1], self.draw)
            some = every if (self.number + 1) % self.given.all_of == 0 else self.draw.sample(every, self.given.changes)
            for kind, make in some:
                self.compare(kind, make())
        return self.found

    def inputs(self) -> tuple[str, str]:
        """A world and a log."""
        if self.given.recordings:
            return drawn_recording(self.draw, self.given.recordings)
        world = drawn_world(self.draw)
        return world, drawn_log(self.draw, world)

    def bases(self) -> list[tuple[str, bytes]]:
        """Certificates as they are made, nothing being changed."""
        if isinstance(self.query, Ended):
            return [("without a query", text_of([Row(), Row()]).encode())]
        closure = self.query.closure
        start = closure.start()
        least = closure.grown(start)
        larger = closure.grown(enlarged(self.draw, least))
        texts = [("start bounds", text_of(start).encode()), ("grown bounds", text_of(least).encode())]
        if larger != least:
            texts.append(("larger grown bounds", text_of(larger).encode()))
        if self.given.program:
            printed = self.audited(self.query, least)
            if printed is not None and printed != texts[1][1]:
                texts.append(("audited bounds", printed))
        return texts

    def audited(self, query: Query, least: Bounds) -> bytes | None:
        """The bounds that an audit prints, looked at; those of its `yes` have to be the least."""
        text, status = told([self.given.program or "", "audit", *self.words])
        last = text.splitlines()[-1] if text else ""
        meets = query.closure.meets(least, query.right) is not None
        self.found.counts["audits", {0: "yes", 1: "no", 2: "undecided"}.get(status, str(status))] += 1
        if status not in (0, 1, 2) or meets != (status != 0) or (status == 0 and last != text_of(least)):
            self.differ("audit", f"{status}, and the grown bounds {'meet' if meets else 'do not meet'} the right")
        return last.encode() if status in (0, 2) else None

    def compare(self, kind: str, text: bytes) -> None:
        """One certificate, judged by both."""
        words = [*self.words, self.put("certificate", text)]
        ended = self.query if isinstance(self.query, Ended) else judge(self.query, text)
        line, status = ended.line, ended.status
        mine = (f"{line}\n" if line is not None else "", status)
        self.found.counts["certificates", kind] += 1
        self.found.counts["answers", " ".join((line or "").split()[:2 if status in (0, 11) else 3])] += 1
        if line is not None and line.startswith("refused not-closed"):
            self.found.counts["rules", line.split()[2]] += 1
        if status == 14:
            self.leave_alone(line or "", words)
            return
        if self.given.program:
            theirs = told([self.given.program, "check", *words])
            if theirs != mine:
                self.differ(kind, f"check: {theirs}, credaudit-check-certificate: {mine}")
        if status == 0 and self.given.third:
            self.ask_third(kind, text, words)

    def leave_alone(self, line: str, words: list[str]) -> None:
        """What isn't judged; where a line of a recording is why, it is counted how the program answers."""
        if line.startswith("not judged: line") and self.given.program:
            theirs, _ = told([self.given.program, "check", *words])
            answer = " ".join(theirs.split()[:2])
            self.found.counts["left alone", f"{line.split(': ')[-1]}, credaudit: {answer}"] += 1

    def ask_third(self, kind: str, text: bytes, words: list[str]) -> None:
        """An accepted certificate, judged by the third computation, once for each meaning."""
        assert isinstance(self.query, Query) and self.given.third is not None
        bounds = read_bounds(text, len(self.query.closure.state.spaces), str)
        if bounds in self.judged:
            self.found.counts["third", "accepted, of the meaning of one before"] += 1
            return
        self.judged.add(bounds)
        third = [sys.executable, self.given.third]
        if self.least is None:
            lines, status = told([*third, *self.words])
            if status != 0 or lines.splitlines()[-2:-1] != ["yes"]:
                self.differ(kind, f"third: no yes but {lines!r}, {status}")
                return
            self.least = read_bounds(lines.splitlines()[-1].encode(), len(self.query.closure.state.spaces), str)
            self.found.counts["third", "yes"] += 1
        if bounds == self.least:
            self.found.counts["third", "accepted, its own least bounds"] += 1
            return
        if told([*third, "check", *words]) != ("holds\n", 0):
            self.differ(kind, "third: it refuses an accepted certificate")
        if not all(row.holds(small) for row, small in zip(bounds, self.least)):
            self.differ(kind, "third: an accepted certificate doesn't hold the least bounds")
        self.found.counts["third", "accepted, holds the least bounds"] += 1

    def differ(self, kind: str, what: str) -> None:
        """Notes a difference."""
        self.found.differences.append((f"trial {self.number}, {kind}: {what}", dict(self.files)))


def ends_at(minutes: float | None) -> float | None:
    """When no trial begins any more, by the clock; None for never."""
    return None if minutes is None else time.time() + 60 * minutes


def trial(given: Given, end: float | None, number: int) -> Found | None:
    """One trial, if there is time for it."""
    if end is not None and time.time() > end:
        return None
    with tempfile.TemporaryDirectory(prefix="credaudit-trial-") as folder:
        return Trial(given, number, folder).run()


def keep(folder: str, number: int, what: str, files: dict[str, bytes]) -> None:
    """Keeps the files of a difference."""
    place = os.path.join(folder, f"difference-{number}")
    os.makedirs(place, exist_ok=True)
    for name, data in {**files, "what": f"{what}\n".encode()}.items():
        with open(os.path.join(place, name), "wb") as file:
            file.write(data)


def main() -> int:
    """Makes the trials, and tells what came of them."""
    parser = argparse.ArgumentParser(description=__doc__, formatter_class=argparse.RawDescriptionHelpFormatter)
    beside = os.path.join(tools_path.TOOLS, "plain", "bounds.py")
    parser.add_argument("--program", help="a credaudit, whose audit and check are asked")
    parser.add_argument("--third", metavar="FILE", default=beside if os.path.exists(beside) else None,
                        help="the third computation")
    parser.add_argument("--trials", type=int, default=2000, metavar="N", help="how many trials (2000)")
    parser.add_argument("--first", type=int, default=0, metavar="N", help="the number of the first trial (0)")
    parser.add_argument("--seed", default="1", metavar="TEXT", help="what the draws begin with (1)")
    parser.add_argument("--changes", type=int, default=12, metavar="N", help="changed certificates of a trial (12)")
    parser.add_argument("--all-of", type=int, default=100, metavar="N",
                        help="all changes in one trial of so many (100)")
    parser.add_argument("--jobs", type=int, default=os.cpu_count(), metavar="N", help="how many at once")
    parser.add_argument("--minutes", type=float, metavar="N", help="begin no trial after so many minutes")
    parser.add_argument("--keep", metavar="FOLDER", default="certificate-differences", help="where files are kept")
    parser.add_argument("recordings", nargs="*", metavar="RECORDING", help="a folder of a recording")
    asked = parser.parse_args()
    program = os.path.abspath(asked.program) if asked.program else None
    given = Given(program, asked.third, asked.seed, asked.changes, asked.all_of, tuple(asked.recordings))
    counts: Counter[tuple[str, str]] = Counter()
    differences = made = 0
    numbers = range(asked.first, asked.first + asked.trials)
    with Pool(asked.jobs) as pool:
        for found in pool.imap_unordered(partial(trial, given, ends_at(asked.minutes)), numbers):
            if found is None:
                continue
            made += 1
            counts += found.counts
            for what, files in found.differences:
                differences += 1
                print(f"difference {differences}: {what}", flush=True)
                keep(asked.keep, differences, what, files)
    for part in ("audits", "certificates", "answers", "rules", "left alone", "third"):
        rows = {name: count for (kind, name), count in counts.items() if kind == part}
        print(f"{part}: {sum(rows.values())}")
        for name, count in sorted(rows.items(), key=lambda row: (-row[1], row[0])):
            print(f"  {count:8} {name}")
    print(json.dumps({"seed": asked.seed, "first": asked.first, "trials": made, "differences": differences}))
    return 1 if differences else 0


if __name__ == "__main__":
    sys.exit(main())
