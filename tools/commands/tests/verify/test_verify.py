"""Recordings that are verified: the stored ones agree, and altered ones are told."""
import os
import shutil
from dataclasses import replace
from unittest import mock

from credaudit_tools.evidence import kernel_page_rows
from credaudit_tools.formats import report
from credaudit_tools.lint import lint_command
from credaudit_tools.replay import recording
from credaudit_tools.replay.program import Program
from credaudit_tools.verify import verification, verify_command
from credaudit_tools.verify.verification import Verdict, verify

from ..plain_program import Plain
from ..support import DATA, EXAMPLES, Case, cases

RECORDINGS = os.path.join(DATA, "recordings")
ALL = (1 << 41) - 1
SUMMED = set(recording.ALL) - {recording.MADE}


def change(data: bytes, word: str, rest: str) -> bytes:
    """One change of a file."""
    lines = data.decode().split("\n")[:-1]
    number, _, edit = rest.partition(" ")
    at = int(number) - 1 if number.isdigit() else 0
    if word == "empty":
        return b""
    if word == "cut":
        return data[:-int(number)]
    if word == "remove":
        del lines[at]
    elif word == "swap":
        other = int(edit) - 1
        lines[at], lines[other] = lines[other], lines[at]
    elif word == "append":
        lines += ["[[file]]", *(part for part in rest.removeprefix("[[file]] ").replace(" uid", "\nuid").replace(
            " gid", "\ngid").replace(" mode", "\nmode").split("\n"))]
    else:
        old, _, new = edit.partition(" => ")
        assert old in lines[at], (old, lines[at])
        changed = lines[at].replace(old, new)
        lines[at:at + 1] = [lines[at], changed] if word == "copy" else [changed]
    return "".join(line + "\n" for line in lines).encode()


class Altered(Case):
    def altered(self, steps: list[tuple[str, str]]) -> tuple[str, list[str], set[str]]:
        """The folder of an altered recording, what is wanted, and which files were changed."""
        wanted, changed, folder = [], set(), os.path.join(self.work, str(len(os.listdir(self.work))))
        for word, rest in steps:
            if word == "in":
                shutil.copytree(os.path.join(RECORDINGS, rest), folder)
            elif word in ("told", "unnoticed"):
                wanted.append(f"{word} {rest}")
            else:
                name, _, rest = rest.partition(" ")
                path = os.path.join(folder, name)
                with open(path, "rb") as file:
                    data = file.read()
                with open(path, "wb") as file:
                    file.write(change(data, word, rest))
                changed.add(name)
        return folder, wanted, changed

    def verdict(self, folder: str, sums: bool) -> Verdict:
        kept = recording.read(folder)
        if not sums:
            kept = replace(kept, made=None)
        return verify(kept, Program().replay(os.path.join(folder, "world.toml"), os.path.join(folder, "log")))

    def test_each_is_told(self) -> None:
        for title, steps in cases("altered.txt"):
            with self.subTest(title):
                folder, wanted, changed = self.altered(steps)
                told = self.verdict(folder, sums=False).differences
                if wanted[0].startswith("told "):
                    self.assertTrue(any(wanted[0].removeprefix("told ") in each for each in told), told)
                else:
                    self.assertEqual(told, [])
                for name in changed & SUMMED:
                    self.assertIn(f"{name} isn't as it was recorded: its sum differs",
                                  self.verdict(folder, sums=True).differences)

    def test_there_are_enough(self) -> None:
        self.assertGreaterEqual(len(list(cases("altered.txt"))), 30)

    def test_what_the_recorder_says_is_summed_too(self) -> None:
        """By its own last line; and a file that came or went is told."""
        folder = os.path.join(self.work, "x")
        shutil.copytree(os.path.join(RECORDINGS, "daemon"), folder)
        path = os.path.join(folder, recording.MADE)
        with open(path, encoding="utf-8") as file:
            text = file.read()
        for old, new in (('end = "', 'end = "x'), ("[established]\n", "[established]\n# a remark\n"), ("\n\n", "\n")):
            self.put("x/" + recording.MADE, text.replace(old, new, 1).encode())
            with self.subTest(old):
                self.assertEqual(recording.altered(recording.read(folder)),
                                 [f"{recording.MADE} isn't as it was written: its last line doesn't fit it"])
                for main, name in ((verify_command.main, "credaudit-verify"), (lint_command.main, "credaudit-lint")):
                    status, out, errors = self.told(main, folder)
                    self.assertEqual(status, 1, name)
                    self.assertIn("its last line doesn't fit it", out + errors)
        self.put("x/" + recording.MADE, text.encode())
        os.remove(os.path.join(folder, recording.SPACES))
        self.put("x/" + recording.FILTERS, b"more\n")
        self.assertEqual(recording.altered(recording.read(folder)),
                         [f"{name} isn't as it was recorded: its sum differs" for name in
                          (recording.FILTERS, recording.SPACES)])


class Stored(Case):
    def test_recordings_agree(self) -> None:
        for name in sorted(os.listdir(RECORDINGS)):
            with self.subTest(name):
                status, out, errors = self.told(verify_command.main, os.path.join(RECORDINGS, name))
                self.assertEqual((status, [line for line in errors.split("\n") if line and "note: " not in line]),
                                 (0, []))
                self.assertIn("no difference", out)

    def test_examples_agree(self) -> None:
        folder = os.path.join(EXAMPLES, "strace")
        for name in sorted(os.listdir(folder)):
            if os.path.exists(os.path.join(folder, name, "status.txt")):
                with self.subTest(name):
                    self.assertEqual(self.told(verify_command.main, os.path.join(folder, name))[0], 0)

    def test_the_example_of_the_readme(self) -> None:
        """What it shows of a recording by credaudit-trace, which verifies it."""
        with open(os.path.join(EXAMPLES, "..", "README.md"), encoding="utf-8") as file:
            readme = file.read()
        for name in ("recording", "recording-fixed"):
            folder = os.path.join(EXAMPLES, "first_try", name)
            with mock.patch.object(verify_command, "Program", Plain):
                status, out, _ = self.told(verify_command.main, folder)
            self.assertEqual(status, 0)
            self.assertIn("\n" + out.replace(folder, "/tmp/" + name), readme)

    def test_a_recording_is_written_as_it_was_read(self) -> None:
        for name in sorted(os.listdir(RECORDINGS)):
            with self.subTest(name):
                kept = recording.read(os.path.join(RECORDINGS, name))
                recording.write(os.path.join(self.work, name), kept)
                for file in os.listdir(os.path.join(RECORDINGS, name)):
                    paths = [os.path.join(folder, name, file) for folder in (RECORDINGS, self.work)]
                    with open(paths[0], "rb") as one, open(paths[1], "rb") as other:
                        self.assertEqual(one.read(), other.read(), file)


class Failing(Case):
    def test_what_can_not_be_read(self) -> None:
        folder = os.path.join(self.work, "x")
        status, _, errors = self.told(verify_command.main, folder)
        self.assertEqual(status, 3)
        self.assertIn("is no folder", errors)
        shutil.copytree(os.path.join(RECORDINGS, "daemon"), folder)
        for name, data, told in [
                ("status.txt", b"Pid: 100; Name: x\n", "status.txt line 1 can't be read"),
                ("status.txt", b"Pid: 100; Pid: 100\n", "status.txt line 1 can't be read: a name stands twice"),
                ("status.txt", b"Pid: 100", "status.txt ends within a line"),
                ("status.txt", b"\xff\n", "status.txt can't be read"),
                ("spaces.txt", b"Space: x\n", "spaces.txt can't be read"),
                ("recording.toml", b"strace = 7\n", "recording.toml can't be read")]:
            with self.subTest(told):
                path = os.path.join(folder, name)
                with open(path, "rb") as file:
                    before = file.read()
                with open(path, "wb") as file:
                    file.write(data)
                status, _, errors = self.told(verify_command.main, folder)
                self.assertEqual(status, 3)
                self.assertIn(told, errors)
                with open(path, "wb") as file:
                    file.write(before)

    def test_a_log_without_an_event(self) -> None:
        # A process that only asks, as one that was attached to may; and one of whose lines a line isn't read.
        world = b'log = "strace"\n\n[[process]]\npid = 100\n'
        told = report.read(f"> 100 init uid=0,0,0,0 gid=0,0,0,0 groups=- inh={0:016x} prm={ALL:016x} eff={ALL:016x}"
                           f" bnd={ALL:016x} amb={0:016x} sec=00 nnp=0\nend 0\n", 0)
        status = recording.read(os.path.join(RECORDINGS, "daemon")).statuses[0]
        alive = replace(status, pid=100, credential=told.start[0].credential)
        for log, wanted in ((b"100 getuid() = 0\n", []), (b"100 getuid() = 0\n100 [ 105] setuid(7) = 0\n",
                            ["the log isn't empty, and no line of it is read as an event"])):
            kept = recording.Recording(world, log, [alive])
            self.assertEqual(verify(kept, told).differences, wanted)

    def test_what_is_not_known_of_a_recording_is_told(self) -> None:
        folder = os.path.join(self.work, "x")
        shutil.copytree(os.path.join(RECORDINGS, "daemon"), folder)
        os.remove(os.path.join(folder, recording.MADE))
        status, _, errors = self.told(verify_command.main, folder)
        self.assertEqual(status, 0)
        self.assertIn("note: there is no recording.toml: whether the recording had doubts", errors)

    def test_a_recording_without_anything_to_compare(self) -> None:
        folder = os.path.join(self.work, "x")
        world = b'log = "strace"\n\n[[process]]\npid = 100\n'
        made = recording.Made(end="program")
        recording.write(folder, recording.Recording(world, b"100 +++ exited with 0 +++\n", [], [], made))
        ended = report.Report(events=[report.Event(1, 100, "exit", (), "0", ())], ending=["end 1"])
        with mock.patch.object(Program, "replay", lambda *_: ended):
            status, out, errors = self.told(verify_command.main, folder)
        why = "processes: none lived at the end; answers: no call asked for a credential"
        self.assertEqual((status, out), (1, f"{folder}: nothing was compared ({why})\n"))
        self.assertNotIn("is compared", errors)

    def test_what_was_compared_is_told(self) -> None:
        """And why nothing of a kind was. By hand, from the page's words."""
        for verdict, told in ((Verdict(processes=1, answers=2, lived=True), "1 process, 2 answers compared"),
                              (Verdict(processes=2, answers=1, lived=True), "2 processes, 1 answer compared"),
                              (Verdict(processes=1, lived=True),
                               "1 process compared, no answers (no call asked for a credential)"),
                              (Verdict(processes=1, unread=3, lived=True),
                               "1 process compared, no answers (their form isn't known)"),
                              (Verdict(answers=28), "28 answers compared, no processes (none lived at the end)")):
            self.assertEqual((verdict.compared(), verdict.faults()), (told, []))
        neither = "processes: none lived both for the kernel and in the replay; answers: no call asked for a credential"
        for verdict, why in ((Verdict(lived=True), neither),
                             (Verdict(refused=True), "the replay doesn't come to the log's end")):
            self.assertEqual((verdict.compared(), verdict.faults()),
                             (f"nothing was compared ({why})", [f"nothing was compared: {why}"]))

    def test_a_log_that_is_refused_is_not_compared(self) -> None:
        folder = os.path.join(self.work, "x")
        shutil.copytree(os.path.join(RECORDINGS, "daemon"), folder)
        refused = report.Report(ending=["bad log line 1: BadCall"], status=5)
        with mock.patch.object(Program, "replay", lambda *_: refused):
            status, out, errors = self.told(verify_command.main, folder)
        why = "the replay doesn't come to the log's end"
        self.assertEqual((status, out), (4, f"{folder}: nothing was compared ({why}): 1 difference\n"))
        self.assertIn("bad log line 1: BadCall", errors)

    def replayed(self, name: str) -> tuple[recording.Recording, report.Report]:
        """A stored recording, and the program's report of it."""
        folder = os.path.join(RECORDINGS, name)
        return recording.read(folder), Program().replay(os.path.join(folder, "world.toml"), os.path.join(folder, "log"))

    def test_of_a_recording_that_was_stopped_answers_alone_are_compared(self) -> None:
        """What the kernel showed is of a later moment than the log's last line."""
        kept, told = self.replayed("daemon")
        assert kept.made is not None
        later = [replace(each, credential=replace(each.credential, uid=(7, 7, 7, 7))) for each in kept.statuses[1:]]
        for end, differences, processes in (("time", len(later) + 1, len(later)), ("stopped", 0, 0)):
            found = verify(replace(kept, statuses=later, made=replace(kept.made, end=end)), told)
            here = [each for each in found.differences if "isn't as it was" not in each]
            self.assertEqual((len(here), found.processes), (differences, processes), here)
            self.assertGreater(found.answers, 0)
            self.assertEqual("credentials" in found.evidence.established, end == "time")
        self.assertEqual(found.compared(), f"{found.answers} answers compared, no processes (the recording stopped"
                                           " before the end)")
        self.assertEqual([each for each in found.notes if "who lives, and with what, isn't" in each],
                         found.notes)
        wrong = replace(kept, log=kept.log + b"100 getuid() = 77\n", made=replace(kept.made, end="stopped"))
        self.assertIn("the kernel answered 77", "".join(verify(wrong, told).differences))

    def test_the_row_of_an_answer_is_named(self) -> None:
        kept, told = self.replayed("thread")
        told.events.append(report.Event(7, 101, "execve", ("/x",), "0", (told.alive()[101],)))
        shared = b"100 clone(flags=CLONE_FS|SIGCHLD) = 101\n"
        for front, line, row in (
                (b"", b"101 prctl(PR_GET_NO_NEW_PRIVS, 0, 0, 0, 0) = 1", kernel_page_rows.SYNCED),
                (b"", b"101 prctl(PR_CAP_AMBIENT, PR_CAP_AMBIENT_IS_SET, CAP_CHOWN, 0, 0) = 1", kernel_page_rows.KEEPS),
                (shared, b"101 getresuid([7], [7], [7]) = 0", kernel_page_rows.SHARED),
                (shared, b"101 capget({version=_LINUX_CAPABILITY_VERSION_3, pid=0}, {effective=1<<CAP_CHOWN,"
                         b" permitted=0, inheritable=0}) = 0", kernel_page_rows.SHARED)):
            found = verify(replace(kept, log=kept.log + front + line + b"\n"), told)
            answered = [each for each in found.differences if "the kernel answered" in each]
            self.assertTrue(answered, line)
            for each in answered:
                self.assertIn(f"(known: {row})", each)

    def test_progress(self) -> None:
        kept = recording.read(os.path.join(RECORDINGS, "daemon"))
        said: list[str] = []
        verify(replace(kept, log=b"100 getuid() = 0\n" * verification.STEP), report.Report(), said.append)
        self.assertEqual(said, [f"{verification.STEP} of {verification.STEP} lines compared"])

    def test_a_doubt_is_no_clean_bill(self) -> None:
        kept = recording.read(os.path.join(RECORDINGS, "daemon"))
        assert kept.made is not None
        kept.made.evidence.doubt("births", "something")
        recording.write(self.work, kept)
        status, _, errors = self.told(verify_command.main, self.work)
        self.assertEqual(status, 1)
        self.assertIn("doubt: births: something", errors)
