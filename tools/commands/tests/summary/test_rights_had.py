"""Which rights a family had at any moment of a log, by hand from the calls; and whose a right is at its end."""
import unittest

from credaudit_tools.command_line.printable import unescaped
from credaudit_tools.formats import worlds
from credaudit_tools.formats.kernel_names import CAPABILITIES
from credaudit_tools.formats.report import Report
from credaudit_tools.formats.rights import Right
from credaudit_tools.judge import holders
from credaudit_tools.judge.classes import HELD, Outcome
from credaudit_tools.replay import end_world
from credaudit_tools.summary import rights_had

from .. import support
from ..plain_program import Plain
from ..told_rows import space_row

ROOT = '[[process]]\npid = 100\ngroups = [4]\npermitted = "CAP_SETUID,CAP_SETGID,CAP_SYS_ADMIN"\n' \
       'effective = "CAP_SETUID,CAP_SETGID,CAP_SYS_ADMIN"\n'
USER = "[[process]]\npid = 100\nuid = 7\ngid = 7\n"
IDS = ["uid:0", "gid:0", "gid:4"]
CAPS = ["cap:CAP_SETGID@init", "cap:CAP_SETUID@init", "cap:CAP_SYS_ADMIN@init"]


def every(space: str) -> list[str]:
    """All capabilities over a namespace."""
    return [f"cap:CAP_{name}@{space}" for name in CAPABILITIES]


class Case(support.Case):
    """A world and a log, replayed by plain Python."""

    def replayed(self, rows: str, log: str, kind: str = "script") -> tuple[worlds.World, Report]:
        text = f'log = "{kind}"\n{rows}'.encode()
        told = Plain().run("replay", self.put("world.toml", text), self.put("log", log.encode()))
        self.assertEqual(told.status, 0, told.ending)
        return worlds.read(text), told


class Had(Case):
    def had(self, rows: str, log: str, pid: int = 100) -> list[str]:
        return [each.text() for each in rights_had.rights_had(*self.replayed(rows, log), pid)]

    def test_what_it_began_with(self) -> None:
        self.assertEqual(self.had(ROOT, ""), [*IDS, *CAPS])

    def test_ids_and_groups_that_were_set_in_the_log(self) -> None:
        """All of them, also those that were given up again, and that a child had which has ended."""
        log = ("100 setgroups 5 6 = 0\n100 setgroups = 0\n100 setresgid 8 9 10 = 0\n100 fork = 101\n"
               "101 setresuid 11 12 13 = 0\n101 exit = 0\n100 setresuid 33 33 33 = 0\n")
        self.assertEqual(sorted(self.had(ROOT, log)), sorted([
            *IDS, *CAPS, "gid:5", "gid:6", "gid:8", "gid:9", "gid:10", "uid:11", "uid:12", "uid:13", "uid:33"]))

    def test_forebears_until_the_birth(self) -> None:
        """What its forebears had before it was born, and nothing of what they and others had later."""
        log = ("100 setresuid 5 0 5 = 0\n100 fork = 101\n100 setresuid 6 0 6 = 0\n100 fork = 102\n"
               "101 setresuid 7 7 7 = 0\n102 setresuid 8 8 8 = 0\n100 setresuid 9 9 9 = 0\n102 fork = 103\n")
        self.assertEqual([each for each in self.had(ROOT, log, 102) if each.startswith("uid")],
                         ["uid:0", "uid:5", "uid:6", "uid:8"])
        self.assertEqual([each for each in self.had(ROOT, log, 103) if each.startswith("uid")],
                         ["uid:0", "uid:5", "uid:6", "uid:8"])
        self.assertEqual([each for each in self.had(ROOT, log, 101) if each.startswith("uid")],
                         ["uid:0", "uid:5", "uid:7"])

    def test_a_pid_that_comes_again(self) -> None:
        log = "100 fork = 101\n101 setresuid 5 5 5 = 0\n101 exit = 0\n100 fork = 101\n101 setresuid 6 6 6 = 0\n"
        self.assertEqual([each for each in self.had(ROOT, log, 101) if each.startswith("uid")], ["uid:0", "uid:6"])
        self.assertEqual([each for each in self.had(ROOT, log) if each.startswith("uid")], ["uid:0", "uid:5", "uid:6"])

    def test_members_of_the_world(self) -> None:
        """A declared child's rights are the family's; a declared parent's aren't the child's."""
        rows = ROOT + "[[process]]\npid = 101\nparent = 100\nuid = 7\ngid = 7\n"
        self.assertEqual(self.had(rows, ""), ["uid:0", "uid:7", "gid:0", "gid:4", "gid:7", *CAPS])
        self.assertEqual(self.had(rows, "", 101), ["uid:7", "gid:7"])

    def test_a_namespace_of_its_own(self) -> None:
        """All capabilities over it; of its maps the first id of each extent."""
        log = "100 unshare = 0\n100 write_uid_map #1 0 7 1 = 0\n"
        self.assertEqual(self.had(USER, log), ["uid:7", "gid:7", *every("#1")])
        log = ("100 fork = 101\n101 unshare = 0\n100 write_uid_map #1 0 100000 1000 2000 7 1 = 0\n"
               "100 write_gid_map #1 0 200000 1000 = 0\n101 setresuid 5 5 5 = 0\n")
        found = self.had(ROOT, log)
        self.assertEqual([each for each in found if each.startswith(("uid", "gid"))],
                         ["uid:0", "uid:100005", "uid:100000", "uid:7", "gid:0", "gid:4", "gid:200000"])
        self.assertEqual([each for each in found if each.startswith("cap")], [*CAPS, *every("#1")])

    def test_a_namespace_below_and_one_that_it_owns(self) -> None:
        """Over one below it has what it has over its own; over one that its effective user id owns all."""
        rows = space_row("box", 9) + ROOT
        self.assertEqual([each for each in self.had(rows, "") if each.startswith("cap")],
                         [*CAPS, *(each.replace("init", "box") for each in CAPS)])
        rows = space_row("box", 9) + space_row("inner", 0, parent="box") + USER.replace("uid = 7", "uid = [7, 7, 9, 7]")
        self.assertEqual(self.had(rows, ""), ["uid:7", "uid:9", "gid:7"])
        self.assertEqual([each for each in self.had(rows, "100 setresuid -1 9 -1 = 0\n") if each.startswith("cap")],
                         [*every("box"), *every("inner")])

    def test_a_namespace_that_another_process_makes(self) -> None:
        """Who stands above a new one has capabilities over it, as far as it has them then."""
        log = "100 fork = 101\n100 setresuid 5 5 5 = 0\n101 unshare = 0\n"
        found = self.had(ROOT.replace("groups = [4]\n", ""), log)
        self.assertEqual([each for each in found if each.endswith("#1")], every("#1"))
        self.assertEqual(self.had(ROOT, log.replace("100 setresuid", "101 exit = 0\n100 setresuid")
                                  .replace("101 unshare = 0\n", ""))[-1], CAPS[-1])


class Whose(Case):
    def programs(self, log: str, kind: str) -> dict[int, bytes | None]:
        return holders.programs(log.encode(), kind == "strace", self.replayed(USER, log, kind)[1])

    def test_programs_of_a_script(self) -> None:
        log = ("100 execve /opt/x = 0\n100 fork = 101\n101 execve /opt/y = ENOENT\n100 execve /opt/z = 0\n"
               "100 fork = 102\n102 execve - = 0\n")
        self.assertEqual(self.programs(log, "script"), {100: b"/opt/z", 101: b"/opt/x", 102: None})

    def test_programs_of_strace(self) -> None:
        """Their bytes, from a line or from its two parts."""
        log = ('100 execve("/opt/a b\\303\\244", [], NULL) = 0\n100 fork() = 101\n'
               '101 execve("/opt/x" <unfinished ...>\n100 setuid(7) = 0\n101 <... execve resumed>, [], NULL) = 0\n'
               '100 execveat(AT_FDCWD, "/opt/y", [], NULL, 0) = 0\n')
        self.assertEqual(self.programs(log, "strace"), {100: b"/opt/y", 101: b"/opt/x"})
        self.assertEqual(self.programs(log.split("100 fork")[0], "strace"), {100: "/opt/a bä".encode()})

    def test_words(self) -> None:
        for path in (b"/opt/a b,c#d\\e\xc3\xa4", b"/usr/sbin/nginx"):
            word = holders.path_word(path)
            self.assertFalse(set(word) & set(" ,#"))
            self.assertEqual(unescaped(word), path)

    def test_holders(self) -> None:
        world, told = self.replayed(ROOT, "100 execve /opt/x = 0\n100 fork = 101\n101 setresuid 7 7 7 = 0\n")
        end = end_world.end_of(world, told, 100)
        programs: dict[int, bytes | None] = {100: b"/opt/x", 101: b"/opt/x"}
        outcomes = [Outcome(Right(kind, number), HELD) for kind, number in (("uid", 7), ("gid", 4))]
        found = holders.held_by(end, outcomes, lambda right: right.space, programs)
        self.assertEqual([[each.pid for each in held] for held in found.values()], [[101], [100, 101]])


if __name__ == "__main__":
    unittest.main()
