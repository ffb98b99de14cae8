"""Marks: calls that a recording keeps without their data, which every reader passes over; and the time of each line."""
import contextlib
import io
import os
import re
import shutil
from unittest import mock

from credaudit_tools.command_line.command import USAGE
from credaudit_tools.formats import marked_calls, worlds
from credaudit_tools.formats.marked_calls import Mark
from credaudit_tools.replay import recording
from credaudit_tools.strace_log.line_filter import Filtering
from credaudit_tools.summary import summary_command
from credaudit_tools.timeline import walk
from credaudit_tools.trace import strace_options, trace_command
from credaudit_tools.verify import verify_command

from .. import support
from ..plain_program import Plain
from .test_line_filter import Filtered

NETWORK = trace_command.marks_of("network")
# Lines of strace 6.1, and the mark that each leaves, none for one that is left out.
LINES = [
    ("listen(3<socket:[7]>, 128) = 0", "listen(3) = 0"),
    ('accept4(3<socket:[7]>, {sa_family=AF_INET, sin_port=htons(4), sin_addr=inet_addr("10.0.0.1")}, [16],'
     " SOCK_CLOEXEC) = 5<socket:[8]>", "accept4(3) = 5"),
    ("accept(3<socket:[7]>, NULL, NULL) = -1 EAGAIN (Resource temporarily unavailable)",
     "accept(3) = -1 EAGAIN (Resource temporarily unavailable)"),
    ('connect(6<socket:[9]>, {sa_family=AF_UNIX, sun_path="/run/secret"}, 110) = 0', "connect(6) = 0"),
    ('recvfrom(5<socket:[8]>, "password", 100, 0, NULL, NULL) = 8', "recvfrom(5) = 8"),
    ('recvmsg(5<socket:[8]>, {msg_name=NULL, msg_iov=[{iov_base="password", iov_len=100}], msg_iovlen=1}, 0) = 8',
     "recvmsg(5) = 8"),
    ('read(5<socket:[8]>, "password", 100) = 8', "read(5) = 8"),
    ('read(4</etc/passwd>, "root:x:0", 100) = 8', None), ('read(4</socket:[8]>, "root:x:0", 100) = 8', None),
    ('read(8<pipe:[77]>, "x", 1) = 1', None), ('read(9, "x", 1) = -1 EBADF (Bad file descriptor)', None),
    ("recvmsg(99, NULL, 0) = -1 EBADF (Bad file descriptor)", "recvmsg(99) = -1 EBADF (Bad file descriptor)"),
    ("accept4(3<socket:[7]>, NULL, NULL, 0) = ? ERESTARTSYS (To be restarted if SA_RESTART is set)", None),
    ("bind(3<socket:[7]>, {sa_family=AF_INET}, 16) = 0", None)]


class Kept(Filtered):
    def marked(self, **given: bool) -> Filtering:
        """A recording that keeps the marks of the network."""
        plain = self.filtering()
        return Filtering(plain.followed, plain.executed, plain.system, NETWORK, given.get("timed", False))

    def test_what_stays_of_a_call(self) -> None:
        for line, wanted in LINES:
            with self.subTest(line):
                made = self.marked()
                self.assertIsNone(self.fed(made, [f"100 {line}"]))
                self.assertEqual(made.taken.lines, [] if wanted is None else [f"100 {wanted}".encode()])

    def test_no_data_of_any_line_stays(self) -> None:
        made = self.marked()
        self.fed(made, [f"100 {line}" for line, _ in LINES])
        log = b"\n".join(made.taken.lines)
        self.assertEqual(re.findall(rb"password|secret|10\.0\.0\.1|root:", log), [])

    def test_without_being_asked_none_stays(self) -> None:
        made = self.filtering()
        self.fed(made, [f"100 {line}" for line, _ in LINES])
        self.assertEqual(made.taken.lines, [])

    def test_in_two_lines(self) -> None:
        made = self.marked()
        self.fed(made, ["100 accept4(3<socket:[7]>,  <unfinished ...>", "100 setuid(33) = 0",
                        "100 <... accept4 resumed>{sa_family=AF_INET}, [16], 0) = 5<socket:[8]>"])
        self.assertEqual(made.taken.lines, [b"100 setuid(33) = 0", b"100 accept4(3) = 5"])

    def test_under_way_as_the_recording_began(self) -> None:
        """Of a daemon that is attached to while it waits for a connection: the mark stands without its descriptor."""
        made = self.marked()
        self.assertIsNone(self.fed(made, ["100 <... accept4 resumed>NULL, NULL, 0) = 5<socket:[8]>"]))
        self.assertEqual(made.taken.lines, [b"100 accept4() = 5"])
        why = self.fed(self.marked(), ["100 <... bind resumed>) = 0"])
        self.assertIn("under way as the recording began", why or "")

    def test_each_read_where_that_is_asked_for(self) -> None:
        plain = self.filtering()
        made = Filtering(plain.followed, plain.executed, plain.system, trace_command.marks_of("network,read"))
        self.fed(made, ['100 read(4</etc/passwd>, "root:x:0", 100) = 8'])
        self.assertEqual(made.taken.lines, [b"100 read(4) = 8"])

    def test_times(self) -> None:
        """Each line of the log has one: that of the line of strace that it comes of, also where it stands behind a
        birth that is told later. Lines that are left out have none."""
        made = self.marked(timed=True)
        self.assertIsNone(self.fed(made, [
            "100   1796101969.000001 setuid(33) = 0", '100 1796101969.000002 read(4</x>, "", 1) = 0',
            "101 1796101969.000003 setgid(5) = 0", "100 1796101969.000004 fork() = 101",
            "101 1796101969.000005 +++ exited with 0 +++", "100 1796101970.000006 +++ exited with 0 +++"]))
        self.assertEqual(made.taken.lines, [b"100 setuid(33) = 0", b"100 fork() = 101", b"101 setgid(5) = 0",
                                            b"101 +++ exited with 0 +++", b"100 +++ exited with 0 +++"])
        self.assertEqual(made.taken.times, ["1796101969.000001", "1796101969.000004", "1796101969.000003",
                                            "1796101969.000005", "1796101970.000006"])
        self.assertIn("has no time", self.fed(self.marked(timed=True), ["100 setuid(33) = 0"]) or "")

    def test_what_strace_is_asked_for(self) -> None:
        words = strace_options.words("strace", 3, [100])
        self.assertNotIn("accept4", " ".join(words))
        self.assertNotIn("-ttt", words)
        words = strace_options.words("strace", 3, [100], NETWORK, True)
        self.assertIn("|accept4|", " ".join(words))
        self.assertIn("-ttt", words)


class Words(support.Case):
    def test_what_can_be_marked(self) -> None:
        """No call that the log has, or that is looked at, anyway; no name that reads as another call."""
        for word in ("setuid", "openat", "close", "dup", "fcntl", "chmod", "sendfile", "setresuid32", "execveat", "",
                     "accept4,", "Accept", "a b", "!accept", "accept4|.*", "clone"):
            with self.subTest(word), contextlib.redirect_stderr(io.StringIO()), self.assertRaises(SystemExit) as ended:
                trace_command.words().parse_args(["-o", "x", "--mark", word, "true"])
            self.assertEqual(ended.exception.code, USAGE)
        asked = trace_command.words().parse_args(["-o", "x", "--mark", "bind,network", "true"])
        self.assertEqual([asked.mark[name] for name in ("bind", "accept4", "read")], [False, False, True])


class Passed(support.Case):
    """Every reader passes over marks: recordings with a mark behind each line, and without."""

    def marked(self, name: str) -> str:
        """A recording of examples/, with marks."""
        path = os.path.join(self.work, name)
        shutil.copytree(os.path.join(support.EXAMPLES, "strace", name), path)
        kept, open_files = recording.read(path), 0
        lines = list[bytes]()
        for line in kept.log.split(b"\n")[:-1]:
            open_files += line.count(b" open(") - line.count(b" close(")
            pid = line.partition(b" ")[0]
            # Nothing stands between the three lines of a map, and nothing of a process behind its end.
            marks = [b"%s accept4(3) = 5" % pid, b"%s recvmsg(5) = -1 EAGAIN (Resource temporarily unavailable)" % pid]
            lines += [line, *(marks if not open_files and b"+++" not in line else [])]
        kept.log = b"".join(line + b"\n" for line in lines)
        recording.write(path, kept)
        return path

    def test_each_reader(self) -> None:
        for name in ("nginx", "sshd", "unshare_and_drop"):
            with self.subTest(name):
                plain, marked = os.path.join(support.EXAMPLES, "strace", name), self.marked(name)
                self.same_replay(plain, marked)
                self.same_answers(plain, marked)

    def same_replay(self, plain: str, marked: str) -> None:
        """The program's replay, by plain Python."""
        reports = [Plain().run("replay", os.path.join(each, "world.toml"), os.path.join(each, "log"))
                   for each in (plain, marked)]
        one, other = ([(each.pid, each.call, each.arguments, each.result, each.after) for each in report.events]
                      for report in reports)
        self.assertEqual(one, other)

    def same_answers(self, plain: str, marked: str) -> None:
        """credaudit-verify and credaudit-summary."""
        with mock.patch.object(verify_command, "Program", Plain):
            one, other = (self.told(verify_command.main, each) for each in (plain, marked))
        self.assertEqual((one[0], one[1].replace(plain, marked), one[2]), other)
        with mock.patch.object(summary_command, "Program", Plain), \
                mock.patch("credaudit_tools.summary.summary.rights_had", lambda *_: []):
            one, other = (self.told(summary_command.main, "--right", "uid:0", "--json", each)
                          for each in (plain, marked))
        self.assertEqual(one[:2], other[:2])

    def test_the_marks_are_there(self) -> None:
        kept = recording.read(self.marked("nginx"))
        found = marked_calls.of_log(kept.log, "strace")
        self.assertEqual(len(found), 2 * 24)
        self.assertEqual(found[0], Mark(2, 100, "accept4", 3, "5"))


class Read(support.Case):
    def test_of_strace(self) -> None:
        """Also of a log by hand, with what strace writes."""
        log = (b"100 setuid(33) = 0\n100 accept4(3, {sa_family=AF_INET}, [16], 0) = 5\n"
               b"100  <... accept4 resumed>) = 6\n100 +++ exited with 0 +++\n--- x\n"
               b"100 recvmsg(5, <unfinished ...>\n100 close(3) = 0\n100 socket() = 4\n"
               b"100 setresuid32(0, 0, 0) = 0\n100 getuid() = 0\n")
        self.assertEqual([(mark.line, mark.call, mark.descriptor, mark.result)
                          for mark in marked_calls.of_log(log, "strace")],
                         [(2, "accept4", 3, "5"), (3, "accept4", None, "6"), (8, "socket", None, "4")])

    def test_of_a_script(self) -> None:
        log = (b"; mark 100 accept4 3 = 5\n;mark 100 x = 1\n ; mark 100 read 4 = EAGAIN\r\n; mark 0 x = 1\n"
               b"; 100 a = 0\n")
        self.assertEqual(marked_calls.of_log(log, "script"),
                         [Mark(1, 100, "accept4", 3, "5"), Mark(3, 100, "read", 4, "EAGAIN")])

    def test_in_a_script_it_is_a_remark(self) -> None:
        world = b'log = "script"\n[[process]]\npid = 100\n'
        log = b"100 setuid 33 = 0\n; mark 100 accept4 3 = 5\n"
        report = Plain().replay_texts(world, log)
        self.assertEqual((report.status, len(report.events)), (0, 1))
        self.assertEqual(walk.walked(worlds.read(world), report).moment(2), 1)


class Times(support.Case):
    def test_they_are_in_the_sum(self) -> None:
        path = os.path.join(self.work, "rec")
        shutil.copytree(os.path.join(support.EXAMPLES, "first_try", "recording"), path)
        kept = recording.read(path)
        kept.log = b"".join(kept.log.splitlines(keepends=True)[:4])
        kept.times = "1.000000\n2.500000\n2.500001\n4.000000\n"
        recording.write(path, kept)
        read = recording.read(path)
        self.assertEqual((recording.altered(read), recording.clock_of(read)[0]), ([], (1.0, 2.5, 2.500001, 4.0)))
        self.put("rec/times.txt", kept.times.replace("2", "3").encode())
        self.assertEqual(recording.altered(recording.read(path)),
                         ["times.txt isn't as it was recorded: its sum differs"])

    def test_what_is_none(self) -> None:
        """Another count than that of the lines, and what is no time."""
        kept = recording.read(os.path.join(support.EXAMPLES, "first_try", "recording"))
        self.assertEqual(recording.clock_of(kept)[0], ())
        for text in ("1.0\n", "1.0\n2.0\n3.0\nx\n", "1.0\n2.0\n3.0\ninf\n", "1.0\n2.0\n3.0\n4.0"):
            kept.times = text
            with self.subTest(text), self.assertRaises(Exception):
                recording.clock_of(kept)
