"""credaudit-timeline on logs written by hand: from which line on each right is what, worked out from the manual pages;
lanes, joined rights, words and JSON. Plain Python stands for the program."""
import os
import shutil
import unittest
from unittest import mock

from credaudit_tools.command_line import schemas
from credaudit_tools.command_line.command import BROKEN, FAILED, USAGE
from credaudit_tools.formats import worlds
from credaudit_tools.formats.worlds import World
from credaudit_tools.replay import recording
from credaudit_tools.timeline import lane_judge, timeline

from .. import support
from ..plain_program import Plain
from .timeline_case import LOG, WORLD, Case, Spans, Yes, spans_in

CAPS = ("cap:CAP_SETGID@init", "cap:CAP_SETUID@init")
# The worker (setresuid(2), capabilities(7), execve(2)): it can take each id while it has its capabilities, up to line
# 5; su gives root until no_new_privs is set, at line 6.
WORKER: dict[str, Spans] = {
    "uid:0": [("held", 3), ("program", 5), ("gone-by-own-calls", 6)],
    "uid:33": [("own-calls", 3), ("held", 5)],
    "gid:0": [("held", 3), ("own-calls", 4), ("program", 5), ("gone-by-own-calls", 6)],
    "gid:4": [("own-calls", 3), ("program", 5), ("gone-by-own-calls", 6)],
    "gid:33": [("own-calls", 3), ("held", 4)],
    **dict.fromkeys(CAPS, [("held", 3), ("program", 5), ("gone-by-own-calls", 6)])}
# Two workers, who drop alike, at other lines; a third that drops otherwise; a fourth that ends.
MASTER = 'log = "script"\n[[process]]\npid = 100\npermitted = "CAP_SETUID"\neffective = "CAP_SETUID"\n'
WORKERS = """100 fork = 101
100 fork = 102
101 setuid 33 = 0
100 fork = 103
103 setuid 34 = 0
102 setuid 33 = 0
100 fork = 104
104 setuid 33 = 0
104 exit = 0
"""


class ByHand(Case):
    def test_the_worker(self) -> None:
        lanes = self.document(*self.names(), "100")["answers"][0]["lanes"]
        self.assertEqual([lane["processes"] for lane in lanes], [[100], [101]])
        self.assertEqual(spans_in(lanes[1]), WORKER)
        self.assertEqual((lanes[1]["born"], lanes[1]["ended"]), (3, None))

    def test_the_worker_alone(self) -> None:
        """Asked about by its pid: the rights that it, or its forebear before its birth, had."""
        [lane] = self.document(*self.names(), "101")["answers"][0]["lanes"]
        self.assertEqual(spans_in(lane), WORKER)

    def test_the_family_holds_what_a_member_does(self) -> None:
        lane = self.document(*self.names(), "100")["answers"][0]["lanes"][0]
        told = spans_in(lane)
        for right in ("uid:0", "gid:0", *CAPS):
            self.assertEqual(told[right], [("held", 0)])
        self.assertEqual([span for span in told["uid:33"] if span[0] == "held"], [("held", 5)])
        self.assertEqual(told["gid:4"][:2], [("held", 0), ("own-calls", 1)])

    def test_what_stands_on_a_span(self) -> None:
        lane = self.document(*self.names(), "101")["answers"][0]["lanes"][0]
        rows = {row["rights"][0]: row for row in lane["rights"]}
        held, program, gone = rows["uid:0"]["spans"]
        self.assertEqual((held["call"], held["from"], held["to"]), ("fork = 101", 3, 5))
        self.assertEqual(held["reasons"], ["process 101 (effective user id)"])
        self.assertEqual(program["call"], "setresuid 33 33 33 = 0")
        self.assertEqual((program["run"], program["programs"]), (["101 execve /usr/bin/su = 0"], ["/usr/bin/su"]))
        self.assertEqual((gone["call"], gone["to"]), ("no_new_privs 1 = 0", None))
        self.assertRegex(gone["certificate"], "^[0-9a-f]{64}$")
        self.assertEqual((rows["uid:0"]["gone_since"], rows["uid:33"]["gone_since"]), (6, None))
        # A run is as short as the program confirms it: the capabilities aren't needed for the group.
        self.assertEqual(rows["gid:0"]["spans"][1]["run"], ["101 setresgid -1 0 -1 = 0"])

    def test_more_rights(self) -> None:
        """Root's own, and one by its name."""
        told = spans_in(self.document(*self.names(), "101", "--right", "uid:7", "--of-root")["answers"][0]["lanes"][0])
        self.assertEqual(told["uid:7"], [("own-calls", 3), ("program", 5), ("gone-by-own-calls", 6)])
        self.assertGreater(len([right for right in told if right.startswith("cap:")]), 40)

    def test_by_each_line(self) -> None:
        """Each front of the log is audited: the same, but how it is found."""
        names = self.names()
        for pid in ("100", "101"):
            self.assertEqual(self.document(*names, pid, "--every-line"), self.document(*names, pid))

    def test_schema(self) -> None:
        made = self.document(*self.names(), "100")
        self.assertTrue(schemas.fits(made, timeline.SCHEMA), made)
        self.assertEqual((made["format"], made["lines"], made["scanned"]), (1, 6, False))

    def test_an_empty_log(self) -> None:
        made = self.document(*self.names(MASTER, ""), "100")
        self.assertEqual(made["lines"], 0)
        self.assertEqual({span for spans in spans_in(made["answers"][0]["lanes"][0]).values() for span in spans},
                         {("held", 0)})


class Lanes(Case):
    def lanes(self, *given: str) -> list[list[int]]:
        """The processes of each lane."""
        lanes = self.document(*self.names(MASTER, WORKERS), "100", *given)["answers"][0]["lanes"]
        return [lane["processes"] for lane in lanes]

    def test_alike_ones_are_one(self) -> None:
        """Who ends isn't like who lives on; who becomes another user isn't either."""
        self.assertEqual(self.lanes(), [[100], [101, 102], [103], [104]])

    def test_one_by_itself(self) -> None:
        self.assertEqual(self.lanes("--pid", "102"), [[100], [101], [102], [103], [104]])
        self.assertEqual(self.lanes("--pid", "103"), [[100], [101, 102], [103], [104]])

    def test_one_that_ended(self) -> None:
        lane = self.document(*self.names(MASTER, WORKERS), "100")["answers"][0]["lanes"][3]
        self.assertEqual((lane["born"], lane["ended"]), (7, 9))
        [span] = [span for row in lane["rights"] if "uid:0" in row["rights"] for span in row["spans"]
                  if span["class"] != "held"]
        self.assertEqual((span["class"], span["from"], span["to"]), ("gone-by-own-calls", 8, 9))

    def test_equal_worlds_are_asked_about_once(self) -> None:
        """Of the workers that are alike one is asked about, by what the program is called for."""
        calls = list[tuple[str, ...]]()

        class Counting(Plain):
            def tail(self, *words: str) -> tuple[bytes, int]:
                calls.append(words[:1] + words[3:5])
                return super().tail(*words)
        with mock.patch.object(self, "program", Counting):
            self.command(*self.names(MASTER, WORKERS), "100")
        self.assertEqual([call for call in calls if call[1] in ("102", "104")], [])
        self.assertTrue([call for call in calls if call[1] == "101"])


class Words(Case):
    def test_no_line_is_wide(self) -> None:
        for world, log in ((WORLD, LOG), (MASTER, WORKERS)):
            _, out, _ = self.command(*self.names(world, log), "100")
            self.assertLessEqual(max(map(len, out.split("\n"))), 100)

    def test_the_course(self) -> None:
        """Processes side by side in order of birth, and from top to bottom the lines that change something."""
        _, out, _ = self.command(*self.names(MASTER, WORKERS), "100")
        course = out[out.index("line  100"):].split("\n")
        self.assertEqual(course[0], "line  100   101*2 103   104")
        told = [line for line in course if line[:4].strip().isdigit()]
        self.assertEqual(told, [
            "   0  |                       the start",
            "   1  *     o                 100 fork = 101", "   2  *     o                 100 fork = 102",
            "   3  |     *                 101 setuid 33 = 0", "   4  *     |     o           100 fork = 103",
            "   5  |     |     *           103 setuid 34 = 0", "   7  *     |     |     o     100 fork = 104",
            "   8  |     |     |     *     104 setuid 33 = 0", "   9  |     |     |     x     104 exit = 0"])

    def test_of_one_process_no_lanes_stand_there(self) -> None:
        _, out, _ = self.command(*self.names(WORLD, "100 setresuid 33 33 33 = 0\n"), "100")
        self.assertNotIn("|", out)
        self.assertIn("\n   1  100 setresuid 33 33 33 = 0\n", out)

    def test_the_verdict(self) -> None:
        _, out, _ = self.command(*self.names(), "101")
        self.assertTrue(out.startswith("process 101: 5 of 7 rights gone, the last one since line 6\n"), out)
        self.assertIn("regainable through a program from line 5 (setresuid 33 33 33 = 0) to line 6: /usr/bin/su:"
                      " process 101 executes /usr/bin/su (set-user-ID 0)", support.unfolded(out))

    def test_hostile_texts(self) -> None:
        """A path of a program with a byte that a terminal obeys, and one that folds lines."""
        world = MASTER + '[[file]]\npath = "/a\\u001b[31mb"\nuid = 0\ngid = 0\nmode = "4755"\n'
        _, out, _ = self.command(*self.names(MASTER, "100 execve /a\\033<b>\u00e9 = 0\n"), "100")
        self.assertTrue(out.isascii() and out.replace("\n", "").isprintable(), out)
        self.assertEqual(self.command(*self.names(world, ""), "100")[0], BROKEN)


class Statuses(Case):
    def test_words_and_files(self) -> None:
        names = self.names()
        cut = self.put("cut", b"100 setresuid 33 33\n")
        rows: list[tuple[int, list[str]]] = [
            (USAGE, []), (USAGE, [*names, "x"]), (USAGE, [*names, "100", "1"]),
            (USAGE, [*names, "100", "--right", "u"]), (USAGE, [*names, "100", "--pid", "0"]), (FAILED, [*names, "7"]),
            (FAILED, [names[0]]),
            (FAILED, [names[0], names[1] + "x", "100"]), (BROKEN, [names[0], cut, "100"]),
            (BROKEN, [self.put("bad.toml", b"x"), names[1], "100"]), (FAILED, [self.work])]
        for status, given in rows:
            with self.subTest(given):
                self.assertEqual(self.command(*given)[0], status)

    def test_who_is_left_out_is_told(self) -> None:
        _, _, errors = self.command(*self.names(), "101")
        self.assertIn("note: nothing is said of process 100, which lives too\n", errors)


class Recordings(Case):
    program = Yes

    def scanned(self, name: str) -> str:
        """A stored recording in a folder, which tells where its threads stood, as the scans of tests do."""
        path = os.path.join(self.work, os.path.basename(name))
        shutil.copytree(os.path.join(support.EXAMPLES, name), path)
        kept = recording.read(path)
        assert kept.made is not None
        support.stand(kept.made.evidence, [status.pid for status in kept.statuses])
        recording.write(path, kept)
        return path

    def kinds(self, *given: str) -> set[str]:
        """The classes at the end of the first lane."""
        with mock.patch.object(timeline, "rights_had", lambda *_: []):
            made = self.document(*given, "--right", "uid:77")
        return {row["spans"][-1]["class"] for row in made["answers"][0]["lanes"][0]["rights"]}

    def test_gone_by_the_rules_of_a_summary(self) -> None:
        """With a scan it is gone, without one by its own calls, and with a doubt it isn't called so."""
        folder, scan = self.scanned("first_try/recording-fixed"), self.put_scan("scan.toml", World("script"))
        self.assertEqual(self.kinds(folder), {"gone-by-own-calls"})
        self.assertEqual(self.kinds(folder, "--files", scan), {"gone"})
        kept = recording.read(folder)
        assert kept.made is not None
        kept.made.evidence.doubt("births", "a child went on untraced")
        recording.write(folder, kept)
        self.assertEqual(self.kinds(folder, "--files", scan), {"doubted"})

    def test_one_that_was_altered(self) -> None:
        folder = self.scanned("first_try/recording-fixed")
        self.put("recording-fixed/log", b"")
        status, out, errors = self.command(folder)
        self.assertEqual((status, out), (BROKEN, ""))
        self.assertIn("the recording isn't true: log isn't as it was recorded", errors)

    def test_of_one_that_ended_nothing_was_looked_at(self) -> None:
        """Neither its mount namespace nor its filters: without a scan at best, and doubted where a filter is
        declared."""
        folder, scan = self.scanned("strace/sshd"), self.put_scan("scan.toml", World("script"))
        with mock.patch.object(timeline, "rights_had", lambda *_: []):
            made = self.document(folder, "--right", "uid:77", "--files", scan)
        ended = [lane for each in made["answers"] for lane in each["lanes"] if lane["ended"] is not None]
        self.assertTrue(ended)
        kinds = {row["spans"][-1]["class"] for lane in ended for row in lane["rights"]}
        self.assertEqual(kinds, {"gone-by-own-calls"})
        given = mock.Mock(world=worlds.World(exclude=["setuid"]), kept=recording.read(folder))
        found = lane_judge.of_ended(support.scanned(), given, mock.Mock(pid=7))
        self.assertFalse(found.holds("filters") or found.holds("scan"))


if __name__ == "__main__":
    unittest.main()
