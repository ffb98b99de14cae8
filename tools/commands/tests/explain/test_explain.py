"""credaudit-explain on reports and certificates written by hand from the formats, and with hostile names in each
place."""
import io
import json
import os
import random
import re
import sys
import tomllib
import xml.etree.ElementTree
from unittest import mock

from credaudit_tools.command_line import printable, schemas
from credaudit_tools.command_line.command import FAILED, GOOD, USAGE, Failure
from credaudit_tools.explain import explain, explain_command, id_words, run_words
from credaudit_tools.explain.drawing import svg_of, text_of
from credaudit_tools.explain.run_words import Place
from credaudit_tools.formats import certificates, verdicts, worlds
from credaudit_tools.replay.spaces_of_report import of_world

from .. import support
from ..told_rows import file_row, space_row

NAMES: list[str] = tomllib.loads(support.data("hostile_names.toml").decode())["names"]
PLAIN = set(map(chr, range(0x20, 0x7f)))
SETS = "inh=0000000000000000 prm={0} eff={0} bnd=000001ffffffffff amb=0000000000000000 sec=00 nnp={1}"
CREDENTIAL = "> {} {} uid={} gid=33,33,33,33 groups=33 " + SETS.format("0000000000000000", 0)
# The start bounds of a process with the id 1000 alone, from the format.
ROW = ('{"b":"%s","eg":[[1000,1000]],"eu":[[1000,1000]],"fg":[[1000,1000]],"fu":[[1000,1000]],"g":[[1000,1000]],'
       '"i":"0000000000000000","k":true,"mg":[[0,4294967294]],"mu":[[0,4294967294]],"n":%s,"p":"%s","r":true,"s":[],'
       '"u":[[0,0],[1000,1001]]}')
NOBODY = ('{"b":"0000000000000000","eg":[],"eu":[],"fg":[],"fu":[],"g":[],"i":"0000000000000000","k":false,"mg":[],'
          '"mu":[],"n":true,"p":"0000000000000000","r":false,"s":[],"u":[]}')
FIRST = ROW % ("0000000000000421", "true", "0000000000000020")
CERTIFICATE = f'{{"format":1,"rows":[{FIRST},{NOBODY}]}}\n'
BOXED = f"""log = "script"
{space_row("box", 1000, [[0, 1000, 1], [5, 7, 2]], [[0, 33, 1]])}{file_row("/opt/su", "6755")}[[process]]
pid = 100
space = "box"
uid = 1000
"""


def report_of(*ending: str, space: str = "init", uid: str = "33,33,0,33") -> str:
    """A report of one process without a log; after `yes` a certificate stands."""
    ending = (*ending, CERTIFICATE.strip()) if ending == ("yes",) else ending
    return "\n".join([CREDENTIAL.format(100, space, uid), "end 0", *ending, ""])


class Words(support.Case):
    def lines(self, data: str, world: str | None = None, events: bool = False) -> list[str]:
        read = None if world is None else worlds.read(world.encode())
        with mock.patch.object(printable, "WIDE", 1000):
            return explain.lines(explain.explained(data.encode("latin-1"), read, events))

    def test_no_line_is_wide(self) -> None:
        made = explain.explained(report_of("no 1", "100 execve /opt/su = 0", "holder 100", space="box").encode(),
                                 worlds.read(BOXED.replace("/opt/su", "/opt/" + "s" * 60).encode()))
        lines = explain.lines(made)
        self.assertLessEqual(max(map(len, lines)), 100)
        made.scanned, made.verdict = False, verdicts.Verdict("yes")
        self.assertIn("No scan of all files made the world: the right is gone by the family's own calls alone, and"
                      " programs", explain.lines(made))

    def test_rows_that_allow_the_same_stand_together(self) -> None:
        told = self.lines(f'{{"format":1,"rows":[{FIRST},{NOBODY},{FIRST},{NOBODY}]}}')
        self.assertEqual([line for line in told if "members in" in line or "nobody" in line], [
            "  init: members in init", "  #1: members in #1",
            "  fresh(init): members in user namespaces that are made later in init",
            "  fresh(#1): members in user namespaces that are made later in #1", "      nobody can be there"])

    def test_a_yes(self) -> None:
        told = self.lines(report_of("yes", CERTIFICATE.strip()))
        self.assertIn("The log was replayed to its end: 0 calls.", told)
        self.assertTrue(any(line.startswith("yes: the right is gone for good.") for line in told))
        for line in ("      effective user ids: 1000", "      real and saved user ids: 0, 1000 to 1001",
                     "      user ids for access to files: 1000", "      group ids: 1000",
                     "      supplementary groups: none", "      capabilities over it: CAP_KILL",
                     "      bounding set: CAP_CHOWN, CAP_KILL, CAP_NET_BIND_SERVICE",
                     "      each member has no_new_privs", "      ids that may be mapped there: users every id; groups"
                     " every id", "  fresh(init): members in user namespaces that are made later in init",
                     "      nobody can be there"):
            self.assertIn(line, told)

    def test_a_verdict_without_its_bounds(self) -> None:
        for text in (report_of("yes").partition("{")[0], report_of("undecided exec_uid init")):
            with self.subTest(text), self.assertRaises(Failure):
                self.lines(text)

    def test_a_no(self) -> None:
        told = self.lines(report_of("no 2", "100 setresuid -1 0 -1 = 0", "100 execve - = EPERM", "holder 100"))
        self.assertEqual(told[:6], [
            "no: the right can be had.", "After these calls process 100 has it:",
            "  100 setresuid -1 0 -1 = 0", "      process 100 takes these user ids: effective 0",
            "  100 execve - = EPERM",
            "      process 100 executes a program without set-id bits and capabilities; refused: EPERM"])
        self.assertIn("Process 100 has it already.", self.lines(report_of("no 0", "holder 100")))

    def test_ids_are_told_with_what_they_are_outside(self) -> None:
        text = report_of("no 1", "100 setresuid -1 0 9 = 0", "holder 100", space="box")
        [told] = [line for line in self.lines(text, BOXED) if "takes these" in line]
        self.assertEqual(told.strip(), "process 100 (in box) takes these user ids: effective 0 (outside 1000), saved 9"
                                       " (outside: none)")

    def test_ids_of_rows_are_told_with_what_they_are_inside(self) -> None:
        both = f'{{"format":1,"rows":[{NOBODY},{NOBODY},{FIRST},{NOBODY}]}}'
        told = self.lines(both, BOXED)
        self.assertIn("  box: members in box", told)
        self.assertIn("      effective user ids: 1000 (inside 0)", told)
        self.assertIn("      real and saved user ids: 0 (inside: none), 1000 (inside 0) to 1001 (inside: none)", told)

    def test_undecided(self) -> None:
        told = self.lines(report_of("undecided exec_uid init", CERTIFICATE.strip()))
        self.assertIn("What lets it in: a set-user-ID program that a member may run (the rule exec_uid, at the row"
                      " init).", told)
        self.assertIn("What can be done: set no_new_privs in every member; mount nosuid; exclude execve.", told)
        self.assertIn(explain.BEFORE, told)

    def test_a_certificate_alone_is_not_said_to_hold(self) -> None:
        told = self.lines(CERTIFICATE)
        self.assertEqual(told[0], explain.ALONE)
        self.assertIn("check", explain.ALONE)

    def test_what_is_refused(self) -> None:
        told = self.lines("impossible line 3: no process\n")
        self.assertEqual(told[0], "The report ends with: impossible line 3: no process")

    def test_questions_that_are_refused(self) -> None:
        self.assertEqual(self.lines(report_of("bad query: pid")),
                         ["The log was replayed to its end: 0 calls.", "bad query: pid"])

    def test_answers_of_check_and_confirm(self) -> None:
        for line, words in (("holds", "The certificate holds"), ("refused json", "no JSON"),
                            ("refused shape document", "document hasn't the form"),
                            ("refused order fresh(init)", "of the row fresh(init)"),
                            ("refused not-start box", "the row box lacks"),
                            ("refused not-closed exec_uid init", "the rule exec_uid leads out of the row init"),
                            ("refused meets init", "by the row init"), ("confirmed 7", "process 7 has the right"),
                            ("refused line 3", "its line 3"), ("refused end", "after it no member")):
            [told] = self.lines(line + "\n")
            self.assertIn(words, told)

    def test_each_call_of_the_log(self) -> None:
        log = [CREDENTIAL.format(100, "init", "0,0,0,0"), "3: 100 unshare = 0", CREDENTIAL.format(100, "#2", "0,0,0,0"),
               "4: 100 write_uid_map #2 0 0 1 = 0", CREDENTIAL.format(100, "#2", "0,0,0,0"),
               "5: 100 setuid 0 = 0", CREDENTIAL.format(100, "#2", "0,0,0,0"), "6: 100 fork = 101",
               CREDENTIAL.format(100, "#2", "0,0,0,0"), CREDENTIAL.format(101, "#2", "0,0,0,0"), "7: 101 exit = 0",
               "end 5", ""]
        told = self.lines("\n".join(log), BOXED, True)
        self.assertEqual(told[:5], [
            "line 3: process 100 makes a user namespace, and enters it with all capabilities over it",
            "line 4: process 100 (in #2) writes the uid_map of #2: 0 inside is 0 of its parent",
            "line 5: process 100 (in #2) takes the user id 0 as its effective one (with CAP_SETUID as all of its user"
            " ids)", "line 6: process 100 (in #2) starts process 101", "line 7: process 101 (in #2) ends"])

    def test_each_kind_of_call_has_words(self) -> None:
        place = Place(of_world(worlds.read(BOXED.encode())), {100: "init"},
                      {"/opt/su": worlds.read(BOXED.encode()).files[0]})
        rows = {"setfsgid 5 = 3": "takes the group id 5 for access to files", "setgroups = 0": "gives up all",
                "setgroups 7 8 = 0": "takes the supplementary groups 7, 8", "setreuid -1 -1 = 0": "leaves its user ids",
                "capset 0000000000000020 0000000000000021 none = 0":
                    "effective CAP_KILL; permitted CAP_CHOWN, CAP_KILL;",
                "capset none none all = 0": "all that is permitted effective: no capabilities; inheritable all",
                "bset_drop CAP_KILL = 0": "drops from its bounding set CAP_KILL", "amb_clear = 0": "clears",
                "amb_raise 41 = EINVAL": "raises in its ambient set 41; refused: EINVAL",
                "amb_lower CAP_KILL = 0": "lowers", "no_new_privs 1 = 0": "gives up new privileges",
                "securebits 3 = 0": "SECBIT_NOROOT, SECBIT_NOROOT_LOCKED", "securebits 0 = 0": "securebits: none",
                "keepcaps 1 = 0": "keeps its permitted", "keepcaps 0 = 0": "keeps no capabilities",
                "execve /opt/su = 0": "executes /opt/su (set-user-ID 0, set-group-ID 0)",
                "execve /opt/x = 0": "executes /opt/x", "clone_user = ENOSPC": "starts a process in a new user",
                "fork = 7": "starts process 7", "setns box = 0": "enters the user namespace box",
                "write_setgroups box deny = 0": "writes deny to the setgroups file of box",
                "write_gid_map box = EINVAL": "writes the gid_map of box: nothing", "exit = 0": "ends",
                "install setuid fork = 0": "installs a filter that excludes setuid, fork",
                "install = EACCES": "excludes no call; refused: EACCES"}
        for line, words in rows.items():
            self.assertIn(words, run_words.told("100 " + line, place), line)
        self.assertEqual(set(run_words.WORDS), {line.split()[0] for line in rows} | {
            "setuid", "setgid", "setfsuid", "setregid", "setresuid", "setresgid", "write_uid_map", "unshare"})
        for line, words in (("100 jump = 0", "no line of a script"), ("100 setuid = 0", "aren't those of the call"),
                            ("100 setuid x = 0", "aren't those of the call")):
            self.assertIn(words, run_words.told(line, place))

    def test_sets(self) -> None:
        self.assertEqual(id_words.set_words(0x1fffffffffe), "all capabilities but CAP_CHOWN")
        self.assertEqual(id_words.ids_words(tuple((3 * n, 3 * n) for n in range(20))).split(" and ")[1],
                         "8 more intervals")
        self.assertEqual(id_words.given_id(None, 4294967295), "-1")
        self.assertEqual(id_words.seen_id(((4, 4, 1),), 4), "4")

    def test_drawing(self) -> None:
        text = report_of(space="box", uid="1000,1000,1000,1000")
        made = explain.explained(text.encode(), worlds.read(BOXED.encode()))
        told = "\n".join(text_of(explain.drawing(made)))
        self.assertIn("init, the initial user namespace\n|\n+- box\n      owner 1000; uid_map: 0 is 1000 outside, 5 to"
                      " 6 are 7 to 8 outside; gid_map: 0 is 33 outside;", told)
        self.assertIn("process 100: user 1000 (inside 0); group 33 (inside 0); groups 33 (inside 0);", told)
        root = xml.etree.ElementTree.fromstring(svg_of(explain.drawing(made)))
        self.assertEqual([each.tag.rpartition("}")[2] for each in root].count("rect"), 2)
        self.assertTrue(any((each.text or "").startswith("process 100: user 1000 (inside 0)") for each in root))

    def test_without_the_world(self) -> None:
        made = explain.explained(report_of("yes", space="box").encode(), None)
        self.assertIn("box", "\n".join(text_of(explain.drawing(made))))
        spaces = explain.document(made)["spaces"]
        self.assertIn({"name": "box", "parent": None, "owner": None, "uid_map": [], "gid_map": [], "setgroups": None},
                      spaces if isinstance(spaces, list) else [])

    def test_the_world_of_another(self) -> None:
        for text in (report_of("yes", space="pit"), report_of("yes").replace("> 100", "> 7"),
                     CREDENTIAL.format(100, "box", "0,0,0,0") + "\n1: 100 write_uid_map #9 0 0 1 = 0\nend 1\n",
                     CERTIFICATE):
            with self.assertRaisesRegex(Failure, "the world isn't that of"):
                explain.explained(text.encode(), worlds.read(BOXED.encode()))


class Refused(support.Case):
    """What is no report and no certificate isn't explained."""

    def test_certificates(self) -> None:
        good = CERTIFICATE
        self.assertEqual(len(certificates.rows_of(good.encode())), 2)
        for old, new in (('"format":1', '"format":2'), ('"format":1', '"format":true'), ('"format":1', '"format":1.0'),
                         ('"format":1', '"format":-1'), ('"format":1', '"format":NaN'), ('"rows"', '"rowz"'),
                         ("[[1000,1000]]", "[[1000,999]]"), ("[[1000,1000]]", "[[1000,4294967295]]"),
                         ("[[1000,1000]]", "[[1,2],[3,4]]"), ("[[1000,1000]]", "[[1000]]"), ("[[1000,1000]]", "7"),
                         ("[[1000,1000]]", "[[true,1000]]"), ("[[1000,1000]]", "[[1e3,1000]]"),
                         ("0000000000000421", "0000020000000000"), ("0000000000000421", "000000000000042X"),
                         ("0000000000000421", "421"), ('"k":true', '"k":1'), ('"s":[]', '"t":[]'),
                         (f",{NOBODY}", ""), ("}]}", "}]"), ("[[1000,1000]]", "[" * 200 + "]" * 200),
                         ("1000", "\udcff")):
            with self.subTest(new), self.assertRaisesRegex(Failure, "no certificate"):
                certificates.rows_of(good.replace(old, new, 1).encode("utf-8", "surrogateescape"))

    def test_verdicts(self) -> None:
        for lines in (["yes"], ["undecided exec_uid init"], ["yes", "x"], ["yes", "{}", "{}"],
                      ["no 2", "100 exit = 0", "holder 1"], ["no x"], ["no 0", "hold 1"], ["undecided exec_uid"],
                      ["maybe"]):
            with self.subTest(lines), self.assertRaises(Failure):
                verdicts.verdict_of(lines)
        self.assertIsNone(verdicts.verdict_of([]))

    def test_each_rule_has_words(self) -> None:
        with open(os.path.join(support.EXAMPLES, "..", "docs", "BOUNDS.md"), encoding="utf-8") as file:
            section = file.read().split("\n## The rules\n")[1].split("\n## ")[0]
        rules = re.findall(r"^- \d+, (\w+): ", section, re.MULTILINE)
        self.assertEqual(set(verdicts.RULES), {*rules, "start"})


class Command(support.Case):
    def test_files_and_standard_input(self) -> None:
        folder = os.path.join(support.EXAMPLES, "saved_id_forgotten")
        status, out, errors = self.told(explain_command.main, "--world", os.path.join(folder, "world.toml"), "--events",
                                        "--draw", os.path.join(folder, "report"))
        self.assertEqual((status, errors), (GOOD, ""))
        self.assertIn("After these calls process 100 has it:", out)
        self.assertIn("init, the initial user namespace", out)
        with mock.patch.object(sys, "stdin", io.TextIOWrapper(io.BytesIO(CERTIFICATE.encode()))):
            status, out, _ = self.told(explain_command.main)
        self.assertEqual((status, out.split("\n")[0]), (GOOD, explain.ALONE))

    def test_json_is_the_schema_of_the_page(self) -> None:
        for text, world in ((report_of("no 1", "100 setuid 0 = 0", "holder 100"), None), (CERTIFICATE, None),
                            (report_of("undecided setuid init", CERTIFICATE.strip()), None),
                            (report_of("yes", space="box"), BOXED)):
            words = ["--json", self.put("text", text.encode())]
            words += [] if world is None else ["--world", self.put("world", world.encode())]
            status, out, _ = self.told(explain_command.main, *words)
            self.assertEqual(status, GOOD)
            self.assertTrue(out.startswith('{\n "format": 1,'))
            self.assertTrue(schemas.fits(json.loads(out), explain.SCHEMA), out)

    def test_statuses(self) -> None:
        svg = os.path.join(self.work, "x.svg")
        report = self.put("report", report_of("yes").encode())
        rows: list[tuple[int, list[str]]] = [
            (GOOD, [report, "--svg", svg]), (USAGE, ["--jump"]), (FAILED, [report + "x"]),
            (FAILED, [self.put("empty")]), (FAILED, [self.put("odd", b"abc")]),
            (FAILED, [report, "--svg", self.work]), (FAILED, [report, "--svg", self.work + "/"]),
            (FAILED, [report, "--world", report])]
        for status, words in rows:
            with self.subTest(words):
                self.assertEqual(self.told(explain_command.main, *words)[0], status)
        with open(svg, encoding="ascii") as file:
            self.assertTrue(file.read().endswith("</svg>\n"))

    def test_too_long_an_input(self) -> None:
        with mock.patch.object(explain_command, "MOST", 3), \
                mock.patch.object(sys, "stdin", io.TextIOWrapper(io.BytesIO(b"12345"))):
            self.assertEqual(self.told(explain_command.main)[0], FAILED)


class Damaged(support.Case):
    """Texts with random damage are told or refused, and nothing else."""

    def test_random_damage(self) -> None:
        drawn = random.Random(20261129)
        texts = [(report_of("no 1", "100 setresuid -1 0 -1 = 0", "holder 100", space="box"), BOXED),
                 (report_of("undecided setuid box", CERTIFICATE.strip()), BOXED), (CERTIFICATE, BOXED)]
        with open(os.path.join(support.EXAMPLES, "saved_id_forgotten", "report"), encoding="ascii") as file:
            texts.append((file.read(), BOXED.replace('space = "box"\n', "")))
        marks = "0123456789,=-#{}[]\":\n abc\x1b\xff"
        for _ in range(1500):
            data = [*drawn.choice(texts)]
            for at in (0, 1)[:drawn.choice((1, 2, 2))]:
                for _ in range(drawn.randrange(1, 4)):
                    place = drawn.randrange(len(data[at]))
                    cut = place + drawn.choice((0, 1, 1, 9))
                    data[at] = data[at][:place] + drawn.choice((*marks, "")) + data[at][cut:]
            try:
                made = explain.explained(data[0].encode("latin-1"), worlds.read(data[1].encode()), True)
                explain.lines(made)
                explain.document(made)
                xml.etree.ElementTree.fromstring(svg_of(explain.drawing(made)))
            except Failure:
                pass


class Hostile(support.Case):
    """Each stored name in each place: what is written is printable, and the drawing is XML of the same elements."""

    def check(self, text: bytes, *words: str) -> None:
        svg = os.path.join(self.work, "x.svg")
        if os.path.exists(svg):
            os.remove(svg)
        path = self.put("text", text)
        forms: list[list[str]] = [[], ["--json"]]
        for more in forms:
            _, out, errors = self.told(explain_command.main, path, "--draw", "--events", "--svg", svg, *words, *more)
            self.assertFalse(set(out + errors) - PLAIN - {"\n"}, out + errors)
        if os.path.exists(svg):
            with open(svg, "rb") as file:
                root = xml.etree.ElementTree.fromstring(file.read())
            tags = {each.tag.rpartition("}")[2] for each in root.iter()}
            self.assertLessEqual(tags, {"svg", "title", "style", "rect", "text"})
            self.assertEqual({key for each in root.iter() for key in each.attrib} - {
                "width", "height", "viewBox", "x", "y", "class", "{http://www.w3.org/XML/1998/namespace}space"}, set())

    def test_in_a_run_of_a_report(self) -> None:
        for name in NAMES:
            with self.subTest(name):
                lines = report_of("no 1", "100 execve /opt/@ = 0", "holder 100").encode()
                self.check(lines.replace(b"@", name.encode("latin-1")))
                self.check(lines.replace(b"/opt/@", name.encode("latin-1")))

    def test_as_a_namespace_of_a_report(self) -> None:
        for name in NAMES:
            with self.subTest(name):
                self.check(report_of("yes", space="@").encode().replace(b"@", name.encode("latin-1")))

    def test_as_the_end_of_a_report(self) -> None:
        for name in NAMES:
            with self.subTest(name):
                self.check(report_of("undecided @ @").encode().replace(b"@", name.encode("latin-1")))
                self.check(name.encode("latin-1"))

    def test_as_names_of_a_world(self) -> None:
        for name in NAMES:
            text = BOXED.replace('"box"', worlds.text(name)).replace('"/opt/su"', worlds.text("/opt/" + name))
            with self.subTest(name):
                word = self.put("world", text.encode())
                self.check(report_of("yes").encode(), "--world", word)
                both = f'{{"format":1,"rows":[{FIRST},{NOBODY},{FIRST},{NOBODY}]}}'
                self.check(both.encode(), "--world", word)

    def test_as_a_file(self) -> None:
        for name in NAMES:
            if name not in ("..", "-") and "\0" not in name:
                with self.subTest(name):
                    word = os.fsdecode(name.encode("latin-1"))
                    status, out, errors = self.told(explain_command.main, os.path.join(self.work, word))
                    self.assertEqual((status, set(errors) - PLAIN), (FAILED, {"\n"}), out)
