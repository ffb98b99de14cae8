"""The small daemons of examples/strace: what the kernel showed of them at the end is what their sources say. The
reports of examples/: what plain Python works out.
"""
import glob
import os
import unittest
from dataclasses import dataclass
from pathlib import Path

from commands.tests.support import EXAMPLES, Case
from credaudit_tools.formats.credential import Four
from credaudit_tools.replay import recording
from plain import bounds as plain_bounds
from plain.cases import Case as Stored
from plain.report import report

ROOT: Four = (0, 0, 0, 0)
USER: Four = (2001, 2001, 2001, 2001)
SETUID, BIND = 1 << 7, 1 << 10


@dataclass
class End:
    """What a process is at the end; a set is None where it holds all that the machine gave to root."""
    uid: Four
    gid: Four
    groups: frozenset[int]
    permitted: int | None = 0
    effective: int | None = 0


def end(uid: Four, gid: Four, *groups: int, permitted: int | None = 0, effective: int | None = 0) -> End:
    return End(uid, gid, frozenset(groups), permitted, effective)


def root(*groups: int) -> End:
    """One that is root, or root again."""
    return end(ROOT, ROOT, *groups, permitted=None, effective=None)


# By hand, from the sources and capabilities(7). The last process of each is the one that tried to become root again.
ENDS: dict[str, list[End]] = {
    "drops_rightly": [end(USER, USER)] * 2,
    "keeps_one": [end(USER, USER, permitted=BIND, effective=BIND)] * 2,
    "saved_user_left": [end((2001, 2001, 0, 2001), USER, permitted=None), root(0)],
    "real_user_left": [end((0, 2001, 2001, 2001), (0, 2001, 2001, 2001), permitted=None), root(0)],
    "groups_left": [end(USER, USER, 0)] * 2,
    "wrong_order": [end(USER, ROOT, 0)] * 2,
    "keepcaps_left": [end(USER, USER, permitted=None), root(0)],
    "one_thread": [end(USER, USER), root(), root(0)],
    "all_threads": [end(USER, USER)] * 3,
    "file_powers": [end(USER, USER, 2001, 2100, permitted=SETUID),
                    end(ROOT, USER, 2001, 2100, permitted=SETUID, effective=SETUID)],
}


class Daemons(Case):
    def test_ends(self) -> None:
        for name, wanted in ENDS.items():
            with self.subTest(name):
                statuses = recording.read(os.path.join(EXAMPLES, "strace", name)).statuses
                self.assertEqual([each.pid for each in statuses], list(range(100, 100 + len(wanted))))
                for one, each in zip(wanted, (status.credential for status in statuses)):
                    self.assertEqual((each.uid, each.gid, each.groups), (one.uid, one.gid, one.groups))
                    for told, seen in ((one.permitted, each.prm), (one.effective, each.eff)):
                        self.assertEqual(seen, each.bnd if told is None else told)

    def test_each_source_has_an_end(self) -> None:
        folder = os.path.join(EXAMPLES, "strace")
        sources = {name for name in os.listdir(folder) if os.path.exists(os.path.join(folder, name, name + ".c"))}
        self.assertEqual(sources, set(ENDS))


def stored(folder: Path) -> Stored:
    """An example, as the cases of report_cases are."""
    def words(name: str) -> list[str]:
        return (folder / name).read_text().split() if (folder / name).exists() else []

    files = {"world": (folder / "world.toml").read_bytes(), "log": (folder / "log").read_bytes()}
    query = words("query")
    return Stored(folder.name, ["audit" if query else "replay", "world", "log", *query], files,
                  (folder / "report").read_text("ascii").splitlines(), int((words("status") or ["0"])[0]))


class Reports(unittest.TestCase):
    """The report of each example."""

    def setUp(self) -> None:
        self.examples = [stored(Path(path).parent) for path in sorted(glob.glob(os.path.join(EXAMPLES, "*", "report")))]

    def test_there_are_both_kinds(self) -> None:
        self.assertGreaterEqual([each.words[0] for each in self.examples].count("audit"), 11)
        self.assertGreaterEqual([each.words[0] for each in self.examples].count("replay"), 3)

    def test_replays(self) -> None:
        """The whole of a replay, and of an audit what stands before the verdict."""
        for each in self.examples:
            with self.subTest(each.name):
                told = report(each.files["world"], each.files["log"])
                lines, rest = told.text.decode().splitlines(), []
                if each.words[0] == "audit":
                    rest = each.lines[len(lines):]
                    self.assertTrue(rest)
                self.assertEqual((told.status, [*lines, *rest]), (0, each.lines))

    def test_verdicts(self) -> None:
        """By bounds; the run of a `no` is confirmed, with its holder."""
        for each in self.examples:
            if each.words[0] == "audit":
                with self.subTest(each.name):
                    self.assertIsNone(plain_bounds.difference(each))
                    if each.status == plain_bounds.NO:
                        at = next(at for at, line in enumerate(each.lines) if line.startswith("no "))
                        *run, holder = each.lines[at + 1:]
                        self.assertEqual(each.lines[at], f"no {len(run)}")
                        pid, right = (word.encode() for word in each.words[3:])
                        told = plain_bounds.answer("confirm", each.files["world"], each.files["log"], pid, right,
                                                   "".join(line + "\n" for line in run).encode())
                        self.assertEqual(told.lines, (holder.replace("holder", "confirmed"),))


if __name__ == "__main__":
    unittest.main()
