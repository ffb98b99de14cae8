"""The stop after an execve: strace's call is handed over, all lines of before are taken, the program is looked at while
its process stands still, and the log tells that one. Files and /proc lie in a folder, but where the kernel is asked.
"""
import ctypes
import errno
import os
import signal
import struct
import subprocess
import time
import unittest
from unittest import mock

from credaudit_tools.evidence.premises import FILES, KERNEL
from credaudit_tools.executed.executed_files import Executed
from credaudit_tools.executed.looked_up import Found
from credaudit_tools.executed.new_program import AT_EXECFN, NewProgram, of_process
from credaudit_tools.strace_log import kept_log
from credaudit_tools.strace_log.followed_processes import Files, Followed, Place, Task
from credaudit_tools.strace_log.line_filter import Filtering
from credaudit_tools.system.held_mounts import HeldMounts
from credaudit_tools.system.kernel_questions import Program
from credaudit_tools.system.proc import Proc
from credaudit_tools.system.program_stub import PR_SET_NO_NEW_PRIVS, prctl
from credaudit_tools.system.safe_open import mount_number
from credaudit_tools.trace import exec_stops
from credaudit_tools.trace.end_lines import Awaited
from credaudit_tools.trace.exec_stops import GETEVENTMSG, ExecStops
from credaudit_tools.trace.strace_output import Stream

from ..strace_log.test_line_filter import ELF, Filtered, StoredSystem
from ..support import Case, set_ids_stay

CONT, ADDRESS = 7, 64           # PTRACE_CONT; where a stored memory has a path
NARROW = b"\x7fELF\x01..."


class HandedOver(unittest.TestCase):
    """The kernel's own answers."""

    def handed(self, request: int) -> tuple[int | None, int]:
        """The process that a call of ptrace with this request names, where it is handed over; what the caller ends
        with, 0 where the kernel answered it."""
        stops = ExecStops()
        self.addCleanup(stops.close)
        child = os.fork()
        if child == 0:
            stops.install()
            answer = exec_stops.LIBC.ptrace(request, 4194305, None, None)
            os._exit(0 if (answer, ctypes.get_errno()) == (-1, errno.ESRCH) else 1)
        stops.take()
        if not stops.handles():
            os.waitpid(child, 0)
            self.skipTest("calls can't be handed over here")
        named = None
        if stops.wait(1.0 if request == CONT else 60.0):
            self.assertEqual(os.waitpid(child, os.WNOHANG), (0, 0))     # it waits
            named = stops.process()
            stops.go_on()
        return named, os.waitpid(child, 0)[1]

    def test_one_request_alone(self) -> None:
        self.assertEqual(self.handed(GETEVENTMSG), (4194305, 0))
        self.assertEqual(self.handed(CONT), (None, 0))

    def test_who_has_such_filters_already_has_no_stops(self) -> None:
        stops = ExecStops()
        self.addCleanup(stops.close)
        child = os.fork()
        if child == 0:
            if exec_stops.installed() < 0 and prctl(PR_SET_NO_NEW_PRIVS, 1) == 0:
                exec_stops.installed()
            stops.install()
            os._exit(0)
        os.waitpid(child, 0)
        stops.take()
        self.assertEqual((stops.handles(), stops.wait(0), stops.process()), ([], False, None))
        stops.go_on()


class StoredStops(ExecStops):
    """Stops that are over once the pipe behind them is empty."""

    def __init__(self, processes: list[int], order: list[str]) -> None:
        super().__init__()
        self.processes, self.order = processes, order
        self.listener, self.writing = os.pipe()
        os.write(self.writing, b"." * len(processes))

    def process(self) -> int | None:
        assert self.listener is not None
        os.read(self.listener, 1)
        return self.processes.pop(0)

    def go_on(self) -> None:
        self.order.append("goes on")


class Order(Case):
    def test_lines_of_before_are_taken_first(self) -> None:
        order: list[str] = []
        followed = Followed()
        followed.add(Task(100, 0, Place(b"/"), Files()))
        filtering = Filtering(followed, Executed(), StoredSystem(self.work))
        self.enterContext(mock.patch.object(filtering, "feed", lambda line: order.append(line.decode())))
        self.enterContext(mock.patch.object(filtering.executing, "stands", lambda pid: order.append(f"{pid} stands")))
        reading, writing = os.pipe()
        stops = StoredStops([100], order)
        for handle in (reading, stops.writing):
            self.addCleanup(os.close, handle)
        self.addCleanup(stops.close)
        stream = Stream(reading, filtering, Awaited(None, None, list, lambda _: False), stops)
        os.write(writing, b"100 one\n100 two\n100 exe")
        self.assertFalse(stream.is_empty())
        stream.pump(60)
        self.assertEqual(order, ["100 one", "100 two", "100 stands", "goes on"])
        self.assertTrue(stream.is_empty())
        os.write(writing, b"cve\n")
        stream.pump(60)
        self.assertEqual(order[4:], ["100 execve"])
        stream.pump(60)                     # nothing more comes soon
        begun = time.monotonic()
        stream.pump(0.05)                   # so that is waited for
        self.assertGreaterEqual(time.monotonic() - begun, 0.05)
        os.close(writing)
        stream.pump(60)
        self.assertTrue(stream.ended)


class NewPrograms(Case):
    """What is found of a process that stands still."""

    def setUp(self) -> None:
        super().setUp()
        self.proc = Proc(os.path.join(self.work, "proc"))
        self.put("/opt/plain", ELF, 0o755)
        self.put("/opt/other", ELF, 0o755)
        self.put("/opt/narrow", NARROW, 0o755)
        self.put("/opt/script", b"#! /opt/plain -x\n", 0o755)
        self.put("/opt/outer", b"#!/opt/script\n", 0o755)
        self.put("/opt/near", b"#!plain\n", 0o755)
        self.put("/opt/loop", b"#!/opt/loop\n", 0o755)
        self.link("/opt/link", "/opt/script")
        self.link("/proc/100/root", self.work)
        self.link("/proc/100/fd/3", os.path.join(self.work, "opt/script"))
        self.link("/proc/100/fd/4", os.path.join(self.work, "opt"))

    def executes(self, exe: str, spelled: bytes, cwd: str, form: str = "QQ") -> None:
        """The process executed a path."""
        for name, target in (("exe", self.work + exe), ("cwd", cwd)):
            place = self.proc.path(100, name)
            if os.path.lexists(place):
                os.remove(place)
            os.symlink(target, place)
        self.put("/proc/100/auxv", struct.pack(form, 6, 4096) + struct.pack(form, AT_EXECFN, ADDRESS)
                 + struct.pack(form, 0, 0))
        self.put("/proc/100/mem", bytes(ADDRESS) + spelled + b"\0more")

    def test_the_program_and_the_script(self) -> None:
        inside = os.path.join(self.work, "opt")
        rows: list[tuple[str, bytes, str, str, str | None]] = [
            ("/opt/plain", b"/opt/plain", inside, "QQ", None), ("/opt/plain", b"plain", inside, "QQ", None),
            ("/opt/plain", b"/opt/script", "/", "QQ", "/opt/script"),
            ("/opt/plain", b"script", inside, "QQ", "/opt/script"),
            ("/opt/plain", b"../opt/./link", inside, "QQ", "/opt/script"),
            ("/opt/plain", b"/../../opt/script", inside, "QQ", "/opt/script"),
            ("/opt/plain", b"/opt/outer", "/", "QQ", "/opt/outer"),
            ("/opt/plain", b"/opt/near", inside, "QQ", "/opt/near"),
            ("/opt/plain", b"/dev/fd/3", inside, "QQ", "/opt/script"),
            ("/opt/plain", b"/proc/self/fd/3", inside, "QQ", "/opt/script"),
            ("/opt/plain", b"/dev/fd/4/script", inside, "QQ", "/opt/script"),
            ("/opt/narrow", b"/opt/narrow", inside, "II", None),
            # What can't be said any more: the folder lies outside, the path leads nowhere, to no script, or to one of
            # another program.
            ("/opt/plain", b"script", "/", "QQ", None), ("/opt/plain", b"/opt/gone", inside, "QQ", None),
            ("/opt/plain", b"/dev/fd/9", inside, "QQ", None), ("/opt/plain", b"/opt/other", inside, "QQ", None),
            ("/opt/other", b"/opt/script", inside, "QQ", None), ("/opt/plain", b"/opt", inside, "QQ", None),
            ("/opt/plain", b"/opt/loop", inside, "QQ", None), ("/opt/plain", b"x" * 9000, inside, "QQ", None)]
        for exe, spelled, cwd, form, script in rows:
            with self.subTest(exe=exe, spelled=spelled[:20]):
                self.executes(exe, spelled, cwd, form)
                found = of_process(self.proc, 100)
                assert found is not None
                self.assertEqual(found.path, os.fsencode(self.work + exe))
                self.assertEqual(found.script, None if script is None else os.fsencode(self.work + script))
                self.assertEqual(found.script_found is None, script is None)
                self.assertTrue(found.own)

    def test_without_its_memory(self) -> None:
        self.executes("/opt/plain", b"/opt/script", "/")
        for name in ("mem", "auxv"):
            os.remove(self.proc.path(100, name))
            found = of_process(self.proc, 100)
            assert found is not None
            self.assertEqual((found.path, found.script), (os.fsencode(self.work + "/opt/plain"), None))
        self.assertIsNone(of_process(self.proc, 101))

    def test_a_file_that_is_gone(self) -> None:
        """Of a process of one's own, since the kernel alone keeps such a file."""
        path = self.put("/opt/sleep")
        subprocess.run(["cp", "/bin/sleep", path], check=True)
        os.chmod(path, 0o755)
        running = subprocess.Popen([path, "60"])
        try:
            os.remove(path)
            found = of_process(Proc(), running.pid)
        finally:
            running.send_signal(signal.SIGKILL)
            running.wait()
        assert found is not None
        self.assertEqual((found.path, found.script, found.found.program.start[:4]),
                         (os.fsencode(path), None, b"\x7fELF"))

    def test_of_which_mount(self) -> None:
        path = self.put("/opt/rise", ELF)
        if not set_ids_stay(path):
            self.skipTest("set-user-ID bits can't be set here")
        self.executes("/opt/rise", b"/opt/rise", "/")
        handle = os.open(path, os.O_RDONLY)
        number = mount_number(handle)
        os.close(handle)
        for mount, own in ((number, True), (number + 1, False)):
            self.put("/proc/100/mountinfo", b"%d 1 254:0 / / rw - ext4 /dev/vda rw\n" % mount)
            found = of_process(self.proc, 100)
            assert found is not None
            self.assertEqual(found.own, own)


def program(path: bytes, mode: int = 0o755, uid: int = 0) -> NewProgram:
    return NewProgram(path, Found(Program(path, uid, 0, 0o100000 | mode, None, ELF), 0))


class Stopping(Filtered):
    """What the log and the world tell of it."""

    def taken(self, *steps: str | NewProgram) -> tuple[Filtering, str | None]:
        """A filter that was fed with lines and, where a program stands among them, its stop; why it stopped."""
        filtering = self.filtering()
        for step in steps:
            if isinstance(step, NewProgram):
                with mock.patch.object(filtering.system, "new_program", return_value=step):
                    filtering.executing.stands(100)
            else:
                try:
                    filtering.feed(b"100 " + step.encode())
                except kept_log.Stopped as stopped:
                    return filtering, str(stopped)
        return filtering, None

    def test_in_a_mount_namespace_that_is_gone(self) -> None:
        front = "unshare(CLONE_NEWNS) = 0", 'execve("/none", ["x"], [], 0x7ffe) = -1 ENOENT (No such file or directory)'
        last = 'execve("/inner/x", ["x"], [], 0x7ffe) = 0'
        filtering, stopped = self.taken(*front, program(b"/inner/x", 0o4755, 7), last)
        self.assertEqual((stopped, filtering.taken.lines[-1]), (None, b'100 execve("/inner/x", [], NULL) = 0'))
        self.assertEqual([(row.path, row.uid, row.mode) for row in filtering.executed.files.values()],
                         [("/inner/x", 7, 0o4755)])
        self.assertEqual(filtering.executed.doubts, [])
        self.assertIn("which file that is isn't known", self.taken(*front, last)[1] or "")

    def test_the_kernels_file_and_not_the_path(self) -> None:
        """Another thread may exchange the path once strace has read it."""
        filtering, _ = self.taken(program(b"/opt/rise", 0o4755), 'execve("/opt/plain", ["x"], [], 0x7ffe) = 0')
        self.assertEqual(filtering.taken.lines, [b'100 execve("/opt/rise", [], NULL) = 0'])
        self.assertEqual(list(filtering.executed.files), ["/opt/rise", "/opt/plain"])

    def test_a_script(self) -> None:
        script = Found(Program(b"/s", 0, 0, 0o100755, None, b"#!/rise"), 0)
        new = NewProgram(b"/rise", program(b"/rise", 0o4755).found, True, b"/s", script)
        filtering, _ = self.taken(new, 'execve("/s", ["x"], [], 0x7ffe) = 0')
        self.assertEqual(filtering.taken.lines, [b'100 execve("/s", [], NULL) = 0'])
        self.assertEqual([(row.path, row.interpreter) for row in filtering.executed.files.values()],
                         [("/rise", None), ("/s", "/rise")])

    def test_two_files_of_one_path(self) -> None:
        line = 'execve("/x", ["x"], [], 0x7ffe) = 0'
        one, other = program(b"/x", 0o4755), program(b"/x", 0o4755, 7)
        filtering, _ = self.taken(one, line, other, line, program(b"/x"), line, one, line)
        self.assertEqual([line.split(b'"')[1] for line in filtering.taken.lines], [b"/x", b"/x#2", b"/x#3", b"/x"])
        self.assertEqual([(row.path, row.uid) for row in filtering.executed.files.values()], [("/x", 0), ("/x#2", 7)])
        self.assertEqual(filtering.executed.doubts, [])

    def test_who_only_asks_executes_nothing(self) -> None:
        asks = 'execveat(AT_FDCWD</home>, "/opt/plain", ["x"], [], AT_EXECVE_CHECK) = 0'
        fails = 'execve("/opt/none", ["x"], [], 0x7ffe) = -1 ENOENT (No such file or directory)'
        filtering, _ = self.taken(program(b"/x"), asks, fails, 'execve("/y", ["x"], [], 0x7ffe) = 0')
        self.assertEqual(filtering.taken.lines[-1], b'100 execve("/x", [], NULL) = 0')

    def test_on_no_mount_of_its_own(self) -> None:
        for mode, own, count in ((0o4755, False, 1), (0o4755, True, 0), (0o755, False, 0)):
            new = NewProgram(b"/x", program(b"/x", mode).found, own)
            filtering, _ = self.taken(new, 'execve("/x", ["x"], [], 0x7ffe) = 0')
            self.assertEqual([each.premise for each in filtering.taken.evidence.doubts], [KERNEL] * count)

    def test_a_root_that_is_not_known(self) -> None:
        """Names are found all the same; what can't be looked at is in doubt."""
        for body, count in (('chmod("/a", 0755) = 0', 1), ('rename("/a", "/b") = 0', 1), ('chown("/a", 0, 0) = 0', 1),
                            ('rename("/a", "/b") = -1 ENOENT (No such file or directory)', 0)):
            filtering, stopped = self.taken('chroot("/gone") = 0', program(b"/x"), 'execve("/x", ["x"], []) = 0', body)
            self.assertEqual((stopped, filtering.taken.lines), (None, [b'100 execve("/x", [], NULL) = 0']))
            self.assertEqual([each.premise for each in filtering.taken.evidence.doubts], [FILES] * count)
        self.assertIn("isn't known", self.taken('chroot("/gone") = 0', 'execve("/opt/plain", ["x"], []) = 0')[1] or "")


class Held(Case):
    def test_until_nobody_is_there(self) -> None:
        before = len(os.listdir("/proc/self/fd"))
        held = HeldMounts(Proc())
        self.addCleanup(held.close)
        held.hold(os.getpid())
        held.hold(4194305)
        held.is_of(os.getpid(), 3)
        self.assertEqual((list(held.handles), held.early), ([3], {}))
        if os.geteuid() == 0:
            top = held.top(3)
            assert top is not None
            self.assertEqual(os.stat(top + b"/proc").st_ino, os.stat("/proc").st_ino)
        self.assertIsNone(held.top(4))
        held.keep(100, {3})
        self.assertEqual(list(held.handles), [3])
        held.keep(100, {4})
        held.hold(os.getpid())
        held.is_of(os.getpid(), 0)
        self.assertEqual((held.handles, held.roots, held.early), ({}, {}, {}))
        self.assertEqual(len(os.listdir("/proc/self/fd")), before)
