"""The world of a log's end: who lives, from whom, in which namespaces with which maps. By hand from docs/FORMATS.md."""
import os
import tempfile
import unittest
from unittest import mock

from credaudit_tools.command_line.command import Failure
from credaudit_tools.evidence.evidence import Evidence
from credaudit_tools.formats import report, worlds
from credaudit_tools.formats.report import Report
from credaudit_tools.formats.worlds import World
from credaudit_tools.judge.classify import Family, same_as_replayed
from credaudit_tools.judge.program_questions import Asking, Files
from credaudit_tools.replay import end_world
from credaudit_tools.replay.end_world import End, births_of, end_of
from credaudit_tools.replay.program import Program

from .. import support
from ..told_program import standing_lines
from ..told_rows import space_row

ROOT = 'log = "script"\n[[process]]\npid = 100\n'
BOXED = f"""log = "script"
{space_row("made-2", 5, [[0, 1000, 10]], [[0, 2000, 10]])}[[process]]
pid = 100
space = "made-2"
uid = 1000
gid = 2000
permitted = "all"
effective = "all"
"""


def replayed(world: str, log: str) -> tuple[World, Report]:
    read = Program(support.STORED).replay_texts(world.encode(), log.encode())
    assert read.status == 0, read.ending
    return worlds.read(world.encode()), read


def end(world: str, log: str, pid: int = 100) -> End:
    return end_of(*replayed(world, log), pid)


class Ends(unittest.TestCase):
    def parents(self, made: End) -> list[tuple[int, int | None]]:
        return [(row.pid, row.parent) for row in made.world.processes]

    def test_who_lives_and_from_whom(self) -> None:
        log = "100 fork = 101\n101 fork = 102\n102 fork = 103\n101 exit = 0\n100 fork = 99\n103 exit = 0\n"
        self.assertEqual(self.parents(end(ROOT, log)), [(100, None), (102, 100), (99, 100)])
        self.assertEqual(self.parents(end(ROOT, log, 102)), [(102, None)])
        self.assertEqual(end(ROOT, log, 102).lineage, {100, 101, 102})

    def test_a_pid_that_is_used_again(self) -> None:
        log = "100 fork = 101\n101 exit = 0\n100 fork = 102\n102 fork = 101\n102 exit = 0\n"
        self.assertEqual(self.parents(end(ROOT, log)), [(100, None), (101, 100)])
        births = births_of(*replayed(ROOT, log))
        self.assertEqual((births.makers[101], births.family(101)), ([100, 102], [101]))

    def test_others_are_not_in_the_family(self) -> None:
        world = ROOT + "[[process]]\npid = 7\n[[process]]\npid = 8\nparent = 7\n"
        self.assertEqual(self.parents(end(world, "8 setuid 5 = 0\n", 7)), [(7, None), (8, 7)])
        self.assertEqual(self.parents(end(world, "")), [(100, None)])

    def test_credentials(self) -> None:
        made = end(ROOT, "100 setgroups 4 5 = 0\n100 setresuid 1 2 3 = 0\n100 no_new_privs 1 = 0\n")
        own = made.world.processes[0].credential
        self.assertEqual((own.uid, own.groups, own.nnp), ((1, 2, 3, 2), {4, 5}, True))

    def test_names_of_namespaces(self) -> None:
        log = "100 unshare = 0\n100 write_uid_map #2 0 0 1 = 0\n100 fork = 101\n"
        made = end(BOXED, log)
        rows = [(row.name, row.parent, row.owner, row.uid_map, row.creator_setfcap) for row in made.world.spaces]
        self.assertEqual(rows, [("made-2", "init", 5, ((0, 1000, 10),), False),
                                ("made-2x", "made-2", 1000, ((0, 0, 1),), True)])
        self.assertEqual([row.space for row in made.world.processes], ["made-2x", "made-2x"])
        family = Family(Files("", ""), 100, made, Evidence())
        for name, told in (("#0", "init"), ("#1", "made-2"), ("#2", "made-2x"), ("init", "init"), ("made-2", "made-2"),
                           ("#9", "#9")):
            self.assertEqual(family.token(name), told)

    def test_what_would_change(self) -> None:
        made = end(ROOT + '[filter]\nexclude = ["setuid"]\n', "").world
        self.assertEqual([each.credential.nnp for each in end_world.limited(made).processes], [True])
        self.assertEqual([each.credential.bnd for each in end_world.unbounded(made).processes], [0])
        self.assertEqual(end_world.filtered(made).exclude, end_world.CHANGING)
        with open(os.path.join(support.EXAMPLES, "..", "docs", "FORMATS.md"), encoding="utf-8") as file:
            document = file.read()
        for call in end_world.CHANGING:
            self.assertIn(f"`{call}`", document)


class Same(support.Case):
    """The program replays the world of the end; where a member differs nothing is asked of it."""

    def family(self, log: str) -> Family:
        world, read = replayed(BOXED, log)
        made = end_of(world, read, 100)
        return Family(Files("", ""), 100, made, Evidence())

    def test_the_same(self) -> None:
        family = self.family("100 unshare = 0\n100 setresuid 1001 -1 -1 = EINVAL\n")
        with tempfile.TemporaryDirectory() as folder:
            same_as_replayed(Asking(Program(support.STORED), folder), family)

    def test_another(self) -> None:
        family = self.family("")
        other = standing_lines(family.end.world).replace("uid=1000", "uid=7") + "end 0\n"
        for told in (other, "bad world process 1: BadNumber\n", ""):
            answer = report.read(told, 0 if "\nend " in told else 4)
            with tempfile.TemporaryDirectory() as folder, mock.patch.object(Program, "run", lambda *_, to=answer: to), \
                    self.assertRaisesRegex(Failure, "isn't the replay's end"):
                same_as_replayed(Asking(Program(support.STORED), folder), family)
