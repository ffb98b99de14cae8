"""The lint on stored mistakes and on logs that were made to be read wrongly; without root, and without the program
where it isn't built."""
import os
import tempfile
import unittest
from unittest import mock

from credaudit_tools.command_line.command import BROKEN, FAILED, FOUND, GOOD, USAGE, Failure
from credaudit_tools.doubts import log_doubts
from credaudit_tools.doubts.findings import WORLD, Finding
from credaudit_tools.evidence import evidence_text
from credaudit_tools.formats import report, worlds
from credaudit_tools.formats.toml_places import places
from credaudit_tools.lint import hints, lint, lint_command, log_faults, other_faults, toml_faults
from credaudit_tools.lint.lint import Given
from credaudit_tools.replay import recording

from .. import support
from . import lint_cases
from .lint_cases import Case

UNSCANNED = "all files were looked for"


class Stored:
    """Answers as the program did."""

    def __init__(self, told: report.Report) -> None:
        self.told = told

    def replay(self, _world: str, _log: str) -> report.Report:
        return self.told


def put(work: str, case: Case) -> Given:
    """A case's files in a folder."""
    for name, data in ((recording.WORLD, case.world), (recording.LOG, case.log), (recording.STATUS, case.status)):
        if data is not None:
            with open(os.path.join(work, name), "wb") as file:
                file.write(data)
    if case.scan is not None and case.world is not None:
        with open(evidence_text.beside(os.path.join(work, recording.WORLD)), "wb") as file:
            file.write(evidence_text.world_text(support.scanned(*case.scan), case.world))
    kept = recording.read(work) if case.status is not None else None
    return Given(os.path.join(work, recording.WORLD), os.path.join(work, recording.LOG), kept)


def place(found: Finding) -> str:
    return found.file if found.line is None else f"{found.file}:{found.line}"


def has(found: list[Finding], where: str, text: str) -> bool:
    return any(place(each) == where and text in f"{each.why} | {each.hint}" for each in found)


class Cases(unittest.TestCase):
    """Each stored case is told as its file says."""

    def setUp(self) -> None:
        self.answers = lint_cases.answers()

    def told(self, case: Case) -> list[Finding]:
        unread = report.Report(status=7)
        with tempfile.TemporaryDirectory() as work:
            given = put(work, case)
            return lint.unread(given) or lint.findings(given, lambda: self.answers.get(case.name, unread))

    def test_each_case_is_told(self) -> None:
        for case in lint_cases.every():
            with self.subTest(case.name):
                found = self.told(case)
                for where, text in case.tells:
                    if where == "nothing":
                        self.assertEqual([each for each in found if not each.note], [])
                    elif where == "not":
                        self.assertEqual([each for each in found if text in each.why], [])
                    else:
                        self.assertTrue(has(found, where, text), f"{where} {text!r} isn't in {found}")

    def test_the_program_answers_as_the_case_says(self) -> None:
        for case in lint_cases.every():
            if case.answer is not None:
                with self.subTest(case.name):
                    self.assertEqual(self.answers[case.name].ending[-1], case.answer)

    def test_every_refusal_finds_its_line(self) -> None:
        for case in lint_cases.read("mistakes.txt"):
            with self.subTest(case.name):
                self.assertTrue(case.tells)
                self.assertNotIn("docs/FORMATS.md tells the rule", " ".join(each.hint for each in self.told(case)))

    def test_names_are_told_apart(self) -> None:
        names = [case.name for case in lint_cases.every()]
        self.assertEqual(len(names), len(set(names)))


class AsStored(unittest.TestCase):
    """The kept answers are those of the program, where it is built."""

    def test_answers_are_those_of_the_program(self) -> None:
        program = os.environ.get("CREDAUDIT_STORE")
        if program is None:
            self.skipTest("CREDAUDIT_STORE names no program")
        asked = lint_cases.asked(program)
        self.assertEqual({name: report.read(text, status) for name, (status, text) in asked.items()},
                         lint_cases.answers())


class Command(support.Case):
    """The command's words and statuses."""

    def setUp(self) -> None:
        super().setUp()
        self.answers = lint_cases.answers()

    def called(self, *words: str) -> tuple[int, str, str]:
        return self.told(lint_command.main, *words, name=lint_command.NAME)

    def run_case(self, name: str, folder: bool = False) -> tuple[int, str, str]:
        case = next(case for case in lint_cases.every() if case.name == name)
        stored = Stored(self.answers[name])
        with tempfile.TemporaryDirectory() as work, mock.patch.object(lint_command, "Program", lambda: stored):
            given = put(work, case)
            return self.called(*([work] if folder else [given.world, given.log]))

    def test_a_refusal_names_file_line_and_key(self) -> None:
        status, out, _ = self.run_case("capability in small letters")
        self.assertEqual(status, BROKEN)
        self.assertRegex(out, r"world\.toml:5: refused: permitted: .*\n    .*CAP_NET_RAW")

    def test_nothing_is_found_of_a_scanned_world(self) -> None:
        status, out, _ = self.run_case("world that a scan made")
        self.assertEqual((status, out), (GOOD, ""))

    def test_a_scanned_world_that_was_altered(self) -> None:
        """Its evidence tells it, also where nothing of the rows changed."""
        stored = Stored(self.answers["world that a scan made"])
        world = self.put_scan("world.toml", worlds.World("script", processes=[worlds.process_of({"pid": 100})]))
        with mock.patch.object(lint_command, "Program", lambda: stored):
            self.assertEqual(self.called(world, self.put("log", lint_cases.LOG.encode())), (GOOD, "", ""))
            with open(world, "ab") as file:
                file.write(b"# a remark\n")
            status, out, _ = self.called(world, self.put("log", lint_cases.LOG.encode()))
        self.assertEqual(status, FOUND)
        self.assertIn("isn't as it was written: its sum differs", out)

    def test_where_the_scan_alone_lacks(self) -> None:
        """That is the state of each log that is made by hand: it is told, and is a finding where one asks for it."""
        names = self.put("world.toml", lint_cases.WORLD.encode()), self.put("log", lint_cases.LOG.encode())
        stored = Stored(self.answers["world that a scan made"])
        with mock.patch.object(lint_command, "Program", lambda: stored):
            for more, kind, wanted in (("", "note", GOOD), ("--scanned", "suspect", FOUND)):
                status, out, errors = self.called(*names, *more.split())
                self.assertEqual((status, errors), (wanted, ""))
                self.assertTrue(out.startswith(f"{names[0]}: {kind}: nothing says that {UNSCANNED}"), out)

    def test_a_file_that_can_not_be_read(self) -> None:
        status, out, errors = self.called(self.put("world.toml", lint_cases.WORLD.encode()), self.work + "/none")
        self.assertEqual((status, out), (FAILED, ""))
        self.assertIn("none' can't be read: No such file", errors)

    def test_a_recording_is_a_folder(self) -> None:
        status, out, _ = self.run_case("thread left out of the world", folder=True)
        self.assertEqual(status, FOUND)
        self.assertIn(": suspect: process 103 lived at the end", out)

    def test_a_pipe_keeps_nobody_waiting(self) -> None:
        world, pipe = self.put("world.toml", lint_cases.WORLD.encode()), os.path.join(self.work, "pipe")
        os.mkfifo(pipe)
        with mock.patch.object(lint_command, "Program") as program:
            for words in ((world, pipe), (pipe, world)):
                status, out, errors = self.called(*words)
                self.assertEqual((status, out), (FAILED, ""))
                self.assertIn("it is a pipe, no regular file", errors)
        self.assertEqual(program.call_count, 0)

    def test_progress(self) -> None:
        count = 2 * log_doubts.STEP
        world, log = lint_cases.WORLD.replace("script", "strace").encode(), b"100 getuid() = 0\n" * count
        said: list[str] = []
        given = Given(self.put("world.toml", world), self.put("log", log))
        lint.findings(given, lambda: report.Report(ending=["end 0"]), said.append)
        self.assertEqual(said, [f"{number} of {count + 1} lines looked at" for number in (count // 2, count)])

    def test_words(self) -> None:
        self.assertEqual(self.called("--version")[0], GOOD)
        self.assertEqual(self.called("one", "two", "three")[0], USAGE)
        self.assertEqual(self.called()[0], USAGE)
        status, _, errors = self.called("/there/is/no/such")
        self.assertEqual(status, FAILED)
        self.assertIn("no folder", errors)

    def test_help_tells_the_statuses(self) -> None:
        status, out, _ = self.called("--help")
        self.assertEqual(status, GOOD)
        self.assertIn("exit status:", out)


class Unread(support.Case):
    """Why a file can't be read, of which the program says nothing."""

    def hint(self, name: str) -> str:
        found = other_faults.unreadable(os.path.join(self.work, name), WORLD)
        assert found is not None
        return f"{found.why} | {found.hint}"

    def test_a_file_that_can_be_read(self) -> None:
        self.assertIsNone(other_faults.unreadable(self.put("world.toml"), WORLD))
        self.link("link.toml", "world.toml")
        self.assertIsNone(other_faults.unreadable(os.path.join(self.work, "link.toml"), WORLD))

    def test_each_reason(self) -> None:
        self.put("world.toml")
        self.put("recording/log")
        self.link("dangling", "/there/is/none")
        self.link("round", "round")
        os.mkfifo(os.path.join(self.work, "pipe"))
        os.mkdir(os.path.join(self.work, "empty"))
        reasons = {"wrold.toml": "'world.toml' beside it", "none/world.toml": "the folder",
                   "elsewhere": "has no such file",
                   "recording": "it has log in it", "empty": "name a file in it",
                   "dangling": "a symbolic link to '/there/is/none'",
                   "pipe": "a pipe", "round": "symbolic links", "world.toml ": "a blank stands",
                   "world.toml/x": "Not a directory"}
        for name, reason in reasons.items():
            with self.subTest(name):
                self.assertIn(reason, self.hint(name))

    def test_a_file_of_another_user(self) -> None:
        path = self.put("world.toml", mode=0o600)
        with mock.patch.object(other_faults, "read_regular", side_effect=Failure("Permission denied")):
            found = other_faults.unreadable(path, WORLD)
        assert found is not None
        self.assertIn("its mode is 0600", found.hint)


class Words(unittest.TestCase):
    """Refusals that stored cases don't have, and texts that people paste."""

    def test_limits(self) -> None:
        for name in other_faults.LIMITS:
            [found] = other_faults.limits(f"limit {name} 4096")
            self.assertIn("at most 4096", found.why)
            self.assertTrue(found.hint)
        self.assertEqual(len(other_faults.limits("limit more 1")), 1)
        self.assertEqual(other_faults.limits("end 1"), [])

    def test_a_limit_is_told(self) -> None:
        told = report.Report(ending=["limit held 4096"], status=9)
        [found] = lint.refusal(told, b'log = "strace"\n', b"")
        self.assertIn("the log's first line", found.hint)

    def test_another_status_is_told(self) -> None:
        [found] = lint.refusal(report.Report(ending=[], status=10), b'log = "strace"\n', b"")
        self.assertIn("status 10", found.why)

    def test_a_world_that_is_no_toml_has_no_form(self) -> None:
        self.assertEqual(lint.form_of(b"="), "script")

    def test_sets(self) -> None:
        said = {"0x3fffffffff": "0000003fffffffff", "all": '"all"', "full": '"all"', "empty": '"none"',
                "cap_net_raw=ep": "CAP_NET_RAW",
                "net_raw|setuid": "CAP_NET_RAW,CAP_SETUID", "CAP_FOO": "CAP_FOO is no capability", "=ep": '"all"'}
        for text, part in said.items():
            self.assertIn(part, hints.set_hint(text))

    def test_attributes(self) -> None:
        said = {"01 00 00 02": '"01000002"', "security.capability=0x0100": '"0100"', "0s!": "getfattr",
                "0sAQAAAg==": '"01000002"',
                "what": "getfattr", "010": "3 digits", "cap_setuid,cap_setgid=ep cap_setgid-e": "01000002c0",
                "cap_what=ep": "getfattr"}
        for text, part in said.items():
            self.assertIn(part, hints.attribute_hint(text) or "")

    def test_modes(self) -> None:
        said = {"rwsr-xr-x": '"4755"', "-rwxr-Sr-T": '"3744"', "u+s": "stat -c", "4798": "from 0 to 7", "0755": '"755"'}
        for text, part in said.items():
            self.assertIn(part, hints.mode_hint(text))

    def test_sets_that_are_not_within_one_another(self) -> None:
        self.assertIn("within permitted", hints.included_hint({"permitted": "none", "effective": "all"}))

    def test_lines_of_odd_files(self) -> None:
        for front in (b"\xef\xbb\xbf", b"\xff\xfe"):
            [found] = log_faults.faults("bad log line 1: pid", front + b"100 fork = 101\n", "script")
            self.assertIn("save it as", found.hint)
        for form in ("script", "strace"):
            [found] = log_faults.faults("bad log line 1: pid", b"\x1f\x8b\x08\0\n", form)
            self.assertIn("gunzip", found.hint)
        [found] = log_faults.faults("bad log line 9: pid", b"", "script")
        self.assertEqual(found.line, 9)
        [found] = log_faults.faults("bad log line 1: call", b"100\n", "script")
        self.assertIn("the call is missing", found.why)
        [found] = log_faults.faults("bad log line 1: call", b"100 qwertz = 0\n", "script")
        self.assertIn("leave it out", found.hint)
        self.assertEqual(log_faults.faults("end 1", b"", "script"), [])

    def test_texts_that_are_none(self) -> None:
        self.assertIn("UTF-16", toml_faults.toml_fault(b"\xff\xfel\0").hint)
        self.assertIn("gunzip", toml_faults.toml_fault(b"\x1f\x8b\x08\0\n").hint)
        found = toml_faults.toml_fault(b"a = 1\nb = '\xe4'\n")
        self.assertEqual((found.line, "Latin-1" in found.hint), (2, True))
        self.assertIn("more than 80 deep", toml_faults.toml_fault(b"a = " + b"[" * 5000).why)
        self.assertIn("refuses it", toml_faults.toml_fault(b"a = 1\n").why)


class Places(unittest.TestCase):
    """Lines of rows and keys."""

    def test_heads_and_keys(self) -> None:
        where = places('log = "a"\n\n[[file]]\npath = """x\n[[file]]\n"""\nuid = 0 # uid = 1\n\n[[ file ]]\n"uid" ='
                       ' 1\n[filter]\n'
                       "exclude = [\n  'a', # ]\n]\n")
        self.assertEqual([where.line("file", 1), where.line("file", 1, "uid"), where.line("file", 2),
                          where.line("file", 2, "uid")],
                         [3, 7, 9, 10])
        self.assertEqual([where.line("whole", 0, "log"), where.line("filter", 0, "exclude"), where.line("file", 3)],
                         [1, 12, None])

    def test_rows_between_brackets(self) -> None:
        where = places('process = [\n  { pid = 1,\n    groups = [1, 2] },\n  { pid = 2, x = { y = 1 } },\n]\nfilter ='
                       ' { exclude = [] }\nlog = "a"\n')
        self.assertEqual([where.line("process", 1), where.line("process", 1, "groups"),
                          where.line("process", 2, "pid")], [2, 3, 4])
        self.assertEqual([where.line("filter", 0, "exclude"), where.line("whole", 0, "log")], [6, 7])

    def test_texts_that_are_no_toml(self) -> None:
        for text in ("[", "[[", "a", "a =", "= 1", "a = [", "a = {", "a = { b", "]", '"', "[[a]]b"):
            places(text)


if __name__ == "__main__":
    unittest.main()
