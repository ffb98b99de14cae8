"""Recordings that are made within the test: needs strace, and that processes of one's own may be traced."""
import os
import shutil
import signal
import subprocess
import sys
import threading
import time
import unittest
from unittest import mock

from credaudit_tools import VERSION
from credaudit_tools.command_line.command import Failure
from credaudit_tools.replay import recording
from credaudit_tools.system import proc
from credaudit_tools.system.program_stub import own_groups, user_of
from credaudit_tools.trace import live_processes, strace_options, strace_output, trace_command

from ..support import Case

MARK = "hunter-two-three"
KILLS = os.path.join(os.path.dirname(os.path.abspath(__file__)), "kill_recorder.py")


def why_not() -> str | None:
    """Why nothing can be traced here."""
    if shutil.which("strace") is None:
        return "strace isn't there"
    done = subprocess.run(["strace", "-o", "/dev/null", "true"], stdout=subprocess.DEVNULL, stderr=subprocess.DEVNULL,
                          check=False)
    return None if done.returncode == 0 else "processes can't be traced here"


@unittest.skipIf(why_not() is not None, why_not() or "")
class Traced(Case):
    def setUp(self) -> None:
        super().setUp()
        self.out = os.path.join(self.work, "recording")
        if os.geteuid() != 0:
            self.enterContext(mock.patch.object(proc, "needs_root", lambda _: None))
        handlers = [(number, signal.getsignal(number)) for number in (signal.SIGINT, signal.SIGTERM, signal.SIGHUP)]
        for number, handler in handlers:
            self.addCleanup(signal.signal, number, handler)

    def trace(self, *words: str) -> tuple[int, str, str]:
        return self.told(trace_command.main, "-o", self.out, "--no-verify", *words)

    def test_until_a_line(self) -> None:
        status, out, errors = self.trace("--pids-from", "100", "--until", r'execve\(".*/sleep".* = 0', "--", "sh", "-c",
                                         "exec sleep 60")
        self.assertEqual((status, errors), (0, ""))
        self.assertIn("1 process at the end (line)", out)
        kept = recording.read(self.out)
        assert kept.made is not None
        self.assertEqual(kept.made.doubts, [])
        self.assertEqual([(each.pid, each.name, each.space) for each in kept.statuses], [(100, b"sleep", 0)])
        self.assertTrue(kept.log.startswith(b'100 execve("'), kept.log)
        self.assertIn(b"pid = 100\n", kept.world)
        self.assertEqual(os.stat(self.out).st_mode & 0o77, 0)

    def test_a_program_that_ends(self) -> None:
        status, out, _ = self.trace("--", "true")
        self.assertEqual(status, 0)
        self.assertIn("0 processes at the end (program)", out)

    def test_mount_namespaces_that_are_gone(self) -> None:
        """The recorder comes late, and looks while each process stands still in its execve."""
        front = ["unshare", "-m"] if os.geteuid() == 0 else ["unshare", "-Urm"]
        if subprocess.run([*front, "true"], stderr=subprocess.DEVNULL, check=False).returncode != 0:
            self.skipTest("mount namespaces can't be made here")
        self.enterContext(mock.patch.object(strace_output, "GATHER", 1.0))
        status, out, errors = self.trace("--", *front, "sh", "-c", "true; sh -c 'exec env true'")
        self.assertEqual((status, errors), (0, ""))
        self.assertIn("0 processes at the end (program)", out)
        executed = [line.split(b'"')[1] for line in recording.read(self.out).log.splitlines()
                    if b" execve(" in line and line.endswith(b"= 0")]
        self.assertEqual([os.path.basename(path) for path in executed],
                         [b"unshare", b"dash", b"dash", b"env", b"true"])

    def test_children_and_threads(self) -> None:
        program = "\n".join(["import os, threading, time", "if os.fork():",
                             " threading.Thread(target=time.sleep, args=(60,)).start()", " os.getgroups()",
                             "time.sleep(60)"])
        status, out, _ = self.trace("--until", "getgroups", "--", sys.executable, "-c", program)
        self.assertEqual(status, 0)
        self.assertIn("3 processes at the end (line)", out)

    def test_an_orphan_that_has_ended(self) -> None:
        """It is gone, as where init has it; also once the program's first process has ended before it."""
        waits = ("exec 2> /dev/null; orphan=$(sh -c 'sleep 0.1 > /dev/null & echo $!'); n=0; while kill -0 $orphan &&"
                 ' [ $((n += 1)) -lt 300 ]; do sleep 0.2; done; kill -0 $orphan || : > "$0"')
        for number, program in enumerate((waits, f"({waits}) &")):
            told = os.path.join(self.work, f"gone-{number}")
            self.assertEqual(self.trace("--force", "--", "sh", "-c", program, told)[0], 0)
            self.assertTrue(os.path.exists(told), program)

    def test_a_process_that_runs_already(self) -> None:
        running = subprocess.Popen(["sleep", "60"])
        try:
            time.sleep(0.2)
            status, out, _ = self.trace("--for", "0.3", "-p", str(running.pid))
            self.assertEqual(status, 0)
            self.assertIn("1 process at the end (time)", out)
            self.assertIsNone(running.poll())
            kept = recording.read(self.out)
            assert kept.made is not None
            self.assertEqual([each.pid for each in kept.statuses], [running.pid])
            self.assertEqual(len([each for each in kept.made.notes if "securebits" in each]), 1, kept.made.notes)
        finally:
            running.kill()
            running.wait()

    def test_a_program_that_can_not_be_executed(self) -> None:
        for mode, text, why in ((0o644, b"#!/bin/sh\n", "EACCES"), (0o755, b"id\n", "ENOEXEC")):
            status, out, errors = self.trace("--", self.put("program", text, mode))
            self.assertEqual((status, out), (3, ""))
            self.assertIn("can't be executed: " + why, errors)
            self.assertFalse(os.path.exists(self.out))

    def family(self, program: str) -> subprocess.Popen[bytes]:
        """A program in Python that was begun before, once it has written a line."""
        running = subprocess.Popen([sys.executable, "-u", "-c", program], stdout=subprocess.PIPE)
        self.addCleanup(running.wait)
        self.addCleanup(running.kill)
        assert running.stdout is not None
        running.stdout.readline()
        self.addCleanup(running.stdout.close)
        return running

    def goes_on(self, pid: int) -> bool:
        """Whether a thread of a process lives, and all of them run or wait, untraced."""
        seen = [each for each in live_processes.all_threads(proc.Proc()).values() if each.tgid == pid]
        return bool(seen) and all(each.state not in live_processes.STOPPED and each.tracer == 0 for each in seen)

    def test_ends_by_signals(self) -> None:
        """A process that a signal ends has its end in the log."""
        status, out, errors = self.trace("--", "sh", "-c", "sh -c 'kill -KILL $$'; sleep 0.1; kill -TERM $$")
        self.assertEqual((status, errors), (0, ""))
        ends = [line.partition(b" ")[2] for line in recording.read(self.out).log.splitlines() if b"+++" in line]
        self.assertEqual(ends, [b"+++ killed by SIGKILL +++", b"+++ exited with 0 +++", b"+++ killed by SIGTERM +++"])

    def test_signals_that_strace_does_not_tell(self) -> None:
        """None of them ends a process, by signal(7); else its end would be missing."""
        for name in strace_options.SIGNALS.partition("!")[2].split(","):
            with self.subTest(name):
                done = subprocess.run(["sh", "-c", f"kill -{name.removeprefix('SIG')} $$; exit 3"], check=False)
                self.assertEqual(done.returncode, 3)

    def in_user_space(self, *program: str) -> recording.Recording:
        """A program of Python's, whose child of the name `pid` has made a user namespace by then."""
        begin = ["import ctypes, os, signal", "unshare = ctypes.CDLL(None).unshare", "one, other = os.pipe()",
                 "pid = os.fork()", "if pid == 0:",
                 " os._exit(77 if unshare(0x10000000) or not os.write(other, b'.') else signal.pause())",
                 "os.close(other)", "os.read(one, 1) or os._exit(77)"]
        status, out, errors = self.trace("--", sys.executable, "-c",
                                         "\n".join([*begin, *program, "os.kill(pid, signal.SIGKILL)"]))
        kept = recording.read(self.out)
        if b"clone" in kept.log and b"= 0\n" not in kept.log.partition(b"unshare(CLONE_NEWUSER)")[2][:8]:
            self.skipTest("user namespaces can't be made here")
        self.assertEqual((status, errors), (0, ""))
        return kept

    def test_a_space_by_the_descriptor_of_a_process(self) -> None:
        kept = self.in_user_space("ctypes.CDLL(None).setns(os.pidfd_open(pid), 0x10000000)")
        self.assertRegex(kept.log, rb'open\("/proc/[0-9]+/ns/user", O_RDONLY\) = 1000000\n[0-9]+ setns\(1000000, ')

    @unittest.skipIf(os.geteuid() != 0, "only root writes such a map")
    def test_the_longest_map(self) -> None:
        """A map takes less than a page, and 340 extents (user_namespaces(7))."""
        lines = "".join(f"{number} {number} 1\n" for number in range(340))
        text = "0 " + " " * (4095 - len(lines)) + lines.removeprefix("0 ")
        kept = self.in_user_space(f"text = {text!r}.encode()",
                                  "assert os.write(os.open(f'/proc/{pid}/uid_map', os.O_WRONLY), text) == 4095")
        told = text.replace("\n", "\\n").encode()
        self.assertTrue(b'write(1000000, "' + told + b'", 4095) = 4095\n' in kept.log, "it isn't whole")

    def test_a_child_that_is_waited_for(self) -> None:
        """posix_spawn of a child that opens a FIFO to which nobody writes: its parent waits in the kernel."""
        fifo = os.path.join(self.work, "fifo")
        os.mkfifo(fifo)
        program = (f"import os\nos.posix_spawn('/bin/true', ['true'], {{}}, file_actions=[(os.POSIX_SPAWN_OPEN, 0,"
                   f" {fifo!r}, os.O_RDONLY, 0)])")
        begun = time.monotonic()
        status, out, errors = self.trace("--for", "3", "--", sys.executable, "-c", program)
        self.assertEqual((status, errors), (0, ""))
        self.assertIn("2 processes at the end (time)", out)
        self.assertLess(time.monotonic() - begun, 40)

    def test_a_line_of_a_child_that_is_waited_for(self) -> None:
        program = "\n".join(["import ctypes, os, time", "libc = ctypes.CDLL(None)", "libc.getegid()",
                             "if libc.syscall(56, 0x4100 | 17, 0, 0, 0, 0) == 0:",      # CLONE_VM | CLONE_VFORK
                             " libc.geteuid()", " time.sleep(60)"])
        status, out, errors = self.trace("--until", "geteuid", "--for", "20", "--", sys.executable, "-c", program)
        self.assertEqual((status, errors), (0, ""))
        self.assertIn("(line)", out)

    def test_a_main_thread_that_ends(self) -> None:
        """Before the recording, and meanwhile; 60 is exit(2), which ends a thread alone."""
        front = "import ctypes, threading, time\nthreading.Thread(target=time.sleep, args=(60,)).start()\n"
        before = self.family(front + "print()\nctypes.CDLL(None).syscall(60, 0)")
        time.sleep(0.3)
        status, out, errors = self.trace("--for", "0.3", "-p", str(before.pid))
        self.assertEqual((status, errors), (0, ""))
        self.assertIn("1 process at the end (time)", out)
        self.assertTrue(self.goes_on(before.pid))
        meanwhile = self.family(front + "print()\nwhile 'TracerPid:\\t0' in open('/proc/self/status').read():\n"
                                " time.sleep(0.05)\nctypes.CDLL(None).syscall(60, 0)")
        shutil.rmtree(self.out)
        status, out, errors = self.trace("--for", "3", "-p", str(meanwhile.pid))
        self.assertEqual((status, errors), (0, ""))
        self.assertIn("1 process at the end (time)", out)
        self.assertTrue(self.goes_on(meanwhile.pid))
        self.assertTrue(recording.read(self.out).log.endswith(b"%d +++ exited with 0 +++\n" % meanwhile.pid))

    def test_a_recorder_that_is_killed(self) -> None:
        """At drawn moments; tools/commands/tests/trace/kill_recorder.py draws more of them."""
        done = subprocess.run([sys.executable, KILLS, "--count", "3", "--without-root"], stdout=subprocess.PIPE,
                              stderr=subprocess.STDOUT, check=False)
        self.assertEqual(done.returncode, 0, done.stdout.decode())

    def test_a_line_of_each(self) -> None:
        program = "\n".join(["import os, time", "for k in range(2):", " if os.fork() == 0:", "  time.sleep(0.3 * k)",
                             "  os.getgroups()", "  time.sleep(60)", "os.getgroups()",
                             "time.sleep(60)"])
        status, out, errors = self.trace("--until-each", "getgroups", "--for", "20", "--", sys.executable, "-c",
                                         program)
        self.assertEqual((status, errors), (0, ""))
        self.assertIn("3 processes at the end (line)", out)
        seen = [line.split()[0] for line in recording.read(self.out).log.splitlines() if b"getgroups" in line]
        self.assertEqual(len(set(seen)), 3)

    def test_nobody_is_there_to_end_it(self) -> None:
        with mock.patch.object(trace_command, "UNATTENDED", 0.4), \
                mock.patch.object(trace_command, "is_unattended", lambda _: True):
            status, out, errors = self.trace("--", "sleep", "60")
        self.assertEqual(status, 0)
        self.assertIn("(time)", out)
        self.assertIn("ended after 60 s: no terminal is there", errors)

    def test_a_process_that_was_stopped(self) -> None:
        running = subprocess.Popen(["sleep", "60"])
        try:
            running.send_signal(signal.SIGSTOP)
            os.waitpid(running.pid, os.WUNTRACED)
            status, _, errors = self.trace("--for", "0.3", "-p", str(running.pid))
            self.assertEqual(status, 3)
            self.assertIn(f"process {running.pid} is stopped already", errors)
            with open(f"/proc/{running.pid}/stat", encoding="ascii") as file:
                self.assertEqual(file.read().split()[2], "T")
        finally:
            running.kill()
            running.wait()

    def test_a_thread_is_no_process(self) -> None:
        ends = threading.Event()
        other = threading.Thread(target=ends.wait)
        other.start()
        try:
            status, _, errors = self.trace("-p", str(other.native_id))
            self.assertEqual(status, 3)
            self.assertIn(f"is a thread of process {os.getpid()}", errors)
        finally:
            ends.set()
            other.join()

    def test_a_signal_ends_it(self) -> None:
        status, out, _ = self.trace("--", "sh", "-c", "kill -TERM $PPID; sleep 60")
        self.assertEqual(status, 0)
        self.assertIn("(signal)", out)

    def test_no_secret_is_kept(self) -> None:
        program = "\n".join(["import os", "os.write(os.open('/dev/null', os.O_WRONLY), os.environ['TOKEN'].encode())",
                             f"open('/dev/null', 'w').write('{MARK}')", f"os.execv('/bin/true', ['true', '{MARK}'])"])
        with mock.patch.dict(os.environ, {"TOKEN": MARK}):
            status, _, _ = self.trace("--", sys.executable, "-c", program)
        self.assertEqual(status, 0)
        for name in os.listdir(self.out):
            with open(os.path.join(self.out, name), "rb") as file:
                self.assertNotIn(MARK.encode(), file.read(), name)

    def test_what_stops_a_recording(self) -> None:
        program = "\n".join([
            "import ctypes, os, socket, time", "u = os.getuid()", "one, other = socket.socketpair()",
            "os.open('/proc/self/uid_map', os.O_WRONLY)", "ctypes.CDLL(None).unshare(0x10000000)",
            "f = os.open('/proc/self/uid_map', os.O_WRONLY)", "socket.send_fds(one, [b'x'], [f])",
            "os.write(socket.recv_fds(other, 1, 1)[1][0], b'0 %d 1' % u)", "time.sleep(60)"])
        status, out, errors = self.trace("--for", "20", "--", sys.executable, "-c", program)
        if "(program)" in out:
            self.skipTest("user namespaces can't be made here")
        self.assertEqual(status, 1)
        self.assertIn("doubt: births: the recording was stopped", errors)
        self.assertIn("of which user namespace that is isn't known", errors)

    def test_an_older_recording_is_written_over_where_that_is_asked_for(self) -> None:
        self.assertEqual(self.trace("--", "true")[2], "")
        with open(os.path.join(self.out, recording.FILTERS), "w", encoding="ascii") as file:
            file.write("the older one's\n")
        status, _, errors = self.trace("--", "true")
        self.assertEqual(status, 3)
        self.assertIn("--force writes over", errors)
        self.assertEqual(recording.read(self.out).filters, "the older one's\n")
        self.assertEqual(self.trace("--force", "--", "true")[2], "")
        self.assertEqual(recording.read(self.out).filters, "")

    def test_a_filter(self) -> None:
        """One that refuses, in a program that is alone: as root it is read from the kernel, else there is one as in the
        log. It is kept under the log's pid."""
        program = "\n".join((
            "import ctypes, struct, time", "c = ctypes.CDLL(None); c.prctl(38, 1, 0, 0, 0)",
            "f = struct.pack('HBBIHBBIHBBIHBBI', 32, 0, 0, 0, 21, 0, 1, 250, 6, 0, 0, 0x50001, 6, 0, 0, 0x7fff0000)",
            "b = ctypes.create_string_buffer(f); p = struct.pack('HxxxxxxP', 4, ctypes.addressof(b))",
            "c.prctl(22, 2, ctypes.create_string_buffer(p), 0, 0)", "c.setfsuid(-1)", "time.sleep(60)"))
        status, _, errors = self.trace("--pids-from", "100", "--until", r"setfsuid\(", "--", sys.executable, "-c",
                                       program)
        self.assertEqual((status, errors), (0, ""))
        kept = recording.read(self.out)
        assert kept.made is not None
        self.assertTrue(kept.filters.startswith("100: {len=4, filter=[BPF_STMT(BPF_LD"), kept.filters)
        self.assertEqual(kept.statuses[0].filters, 1)
        told = kept.made.evidence.established["answers"]
        self.assertTrue("read from the kernel" in told or "as many filters stood" in told, told)

    def test_a_filter_that_answers_in_the_kernels_place(self) -> None:
        """Written so that strace calls its return a jump."""
        program = "\n".join((
            "import ctypes, struct, time", "c = ctypes.CDLL(None); c.prctl(38, 1, 0, 0, 0)",
            "f = struct.pack('HBBIHBBIHBBIHBBI', 32, 0, 0, 0, 21, 0, 1, 122, 6, 1, 0, 0x50000, 6, 0, 0, 0x7fff0000)",
            "b = ctypes.create_string_buffer(f); p = struct.pack('HxxxxxxP', 4, ctypes.addressof(b))",
            "c.prctl(22, 2, ctypes.create_string_buffer(p), 0, 0)", "c.setfsuid(7)", "time.sleep(60)"))
        status, _, errors = self.trace("--until", r"setfsuid\(", "--", sys.executable, "-c", program)
        self.assertEqual(status, 1)
        self.assertIn("doubt: answers: ", errors)
        self.assertIn("answers calls with success, without making them (setfsuid)", errors)

    def test_verified_at_the_end(self) -> None:
        with mock.patch("credaudit_tools.verify.verify_command.verified", return_value=1) as verified:
            status, _, _ = self.told(trace_command.main, "-o", self.out, "--", "true")
        self.assertEqual((status, verified.call_count), (1, 1))


class Refused(Case):
    def trace(self, *words: str) -> tuple[int, str, str]:
        return self.told(trace_command.main, "-o", os.path.join(self.work, "x"), *words)

    def test_words(self) -> None:
        self.assertEqual(self.trace()[0], 2)
        self.assertEqual(self.trace("-p", "1", "true")[0], 2)
        self.assertEqual(self.trace("-u", "nobody", "-p", "1")[0], 2)
        self.assertEqual(self.trace("--until", "(", "true")[0], 2)
        self.assertEqual(self.trace("--for", "-1", "true")[0], 2)
        self.assertEqual(self.trace("--ver")[0], 2)
        for words in (("-p", "0"), ("-p", "x"), ("--pids-from", "0", "true"), ("--pids-from", "4194305", "true")):
            self.assertEqual(self.trace(*words)[0], 2, words)
        status, out, errors = self.told(trace_command.main, "--version")
        self.assertEqual((status, out.split("\n")[0], errors), (0, f"credaudit-trace {VERSION}", ""))
        self.assertIn("exit status:", self.told(trace_command.main, "--help")[1])

    def test_reasons(self) -> None:
        with mock.patch("os.geteuid", return_value=1000):
            status, _, errors = self.trace("true")
        self.assertEqual(status, 3)
        self.assertIn("as root", errors)
        with mock.patch.object(proc, "needs_root", lambda _: None):
            for words, told in [
                    (("--strace", "/nowhere/strace", "true"), "/nowhere/strace isn't there"),
                    (("--strace", "true", "true"), "isn't strace"),
                    (("/nowhere/program",), "can't be executed: it isn't there"),
                    (("no-such-program",), "can't be executed: it isn't there"),
                    (("-u", "no-such-user", "true"), "there is no user"),
                    (("-p", "4194304"), "there is no process 4194304")]:
                if words[0] != "--strace" and why_not():
                    continue
                with self.subTest(told):
                    status, _, errors = self.trace(*words)
                    self.assertEqual(status, 3)
                    self.assertIn(told, errors)
            old = self.put("strace", b"#!/bin/sh\necho 'strace -- version 4.26'\n", 0o755)
            self.assertIn("is too old", self.trace("--strace", old, "true")[2])

    def test_another_processor(self) -> None:
        """It is refused by its name, before anything is asked of the system."""
        for name in ("aarch64", "riscv64", "i686"):
            with mock.patch("os.uname", return_value=os.uname_result(("Linux", "host", "6.18", "1", name))):
                status, _, errors = self.trace("true")
            self.assertEqual(status, 3, name)
            self.assertIn(f"the processor here is {name}", errors)

    def test_a_folder_that_can_not_be_one(self) -> None:
        with mock.patch.object(proc, "needs_root", lambda _: None), \
                mock.patch.object(trace_command, "Recorder") as recorder:
            status, _, errors = self.told(trace_command.main, "-o", self.put("file"), "true")
            self.assertEqual(status, 3)
            self.assertIn("is no folder", errors)
            folder = os.path.join(self.work, "folder")
            with mock.patch("os.access", return_value=False):
                status, _, errors = self.told(trace_command.main, "-o", folder, "true")
            self.assertEqual(status, 3)
            self.assertIn("nothing can be put into", errors)
            self.assertEqual(recorder.call_count, 0)
            self.assertFalse(os.path.exists(folder))

    def test_groups_that_were_given(self) -> None:
        rows: list[tuple[list[int], list[int], list[int]]] = [
            ([], [0], []), ([0], [0], []), ([0, 1], [0, 1], []), ([24, 4], [0], [4, 24]), ([0, 4], [0], [0, 4]),
            ([4], [0, 4], [])]
        for own, of_root, wanted in rows:
            self.assertEqual(own_groups(own, of_root), wanted)

    def test_users(self) -> None:
        self.assertEqual(user_of("0").pw_uid, 0)
        self.assertEqual(user_of("root").pw_uid, 0)
        for name in ("4294967294000", "\u00b2", ""):
            with self.assertRaises(Failure):
                user_of(name)
