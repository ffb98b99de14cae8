"""How a recording ends: the lines that end it, what is stopped and looked at, what isn't certain then, and the second
process that outlives a recorder. Without strace: /proc lies in a folder, and strace is one that does as it is told."""
import os
import re
import signal
import subprocess
import sys
import time
import unittest
from collections.abc import Callable
from unittest import mock

import credaudit_tools
from credaudit_tools.command_line.command import Failure
from credaudit_tools.evidence.evidence import Evidence
from credaudit_tools.executed.executed_files import Executed
from credaudit_tools.strace_log.followed_processes import Files, Followed, Place, Task
from credaudit_tools.strace_log.line_filter import Filtering
from credaudit_tools.strace_log.map_files import RunningSystem
from credaudit_tools.system.proc import Proc
from credaudit_tools.system.running_kernel import Live
from credaudit_tools.trace import live_processes, recording_start, trace_command
from credaudit_tools.trace.end_lines import Awaited
from credaudit_tools.trace.exec_stops import ExecStops
from credaudit_tools.trace.live_processes import Glance
from credaudit_tools.trace.recording_end import Ending, Seen
from credaudit_tools.trace.strace_output import Stream
from credaudit_tools.trace.strace_process import Tracer

from ..support import Case

STRACE = 900
SOURCES = os.path.dirname(os.path.dirname(credaudit_tools.__file__))
STATUS = """Name:\tx
State:\t{state} (x)
Tgid:\t{tgid}
Pid:\t{tid}
PPid:\t{parent}
TracerPid:\t{tracer}
Uid:\t0\t0\t0\t0
Gid:\t0\t0\t0\t0
Groups:\t
CapInh:\t0000000000000000
CapPrm:\t0000000000000000
CapEff:\t0000000000000000
CapBnd:\t0000000000000000
CapAmb:\t0000000000000000
NoNewPrivs:\t0
Seccomp:\t0
Seccomp_filters:\t0
"""


class Lines(unittest.TestCase):
    def reached(self, lines: list[bytes], living: list[int], one: bytes | None = None, each: bytes | None = None,
                dead: tuple[int, ...] = ()) -> bool:
        awaited = Awaited(re.compile(one) if one else None, re.compile(each) if each else None, lambda: living,
                          lambda pid: pid in dead)
        for count in range(len(lines) + 1):
            awaited.look(lines[:count])
        return awaited.reached

    def test_the_first_line(self) -> None:
        lines = [b"100 fork() = 101", b"101 prctl(PR_SET_NO_NEW_PRIVS, 1, 0, 0, 0) = 0"]
        self.assertTrue(self.reached(lines, [100, 101], one=b"NO_NEW_PRIVS"))
        self.assertFalse(self.reached(lines, [100, 101], one=b"setuid"))

    def test_a_line_of_each(self) -> None:
        fork, first, second = b"100 fork() = 101", b"100 setuid(7) = 0", b"101 setuid(7) = 0"
        rows: list[tuple[list[bytes], list[int], tuple[int, ...], bool]] = [
                ([fork, second], [100, 101], (), False),
                ([fork, second, first], [100, 101], (), True),
                ([fork, first], [100, 101], (), False),                                     # born before
                ([first, fork], [100, 101], (), True),                                      # born after
                ([first, b"100 clone3({flags=CLONE_VM}, 88) = 101"], [100, 101], (), True),
                ([fork, second, b"100 +++ exited with 0 +++"], [101], (), True),
                ([fork, second], [100, 101], (100,), True),                                 # a main thread that ended
                ([fork, first, b"101 +++ killed by SIGKILL +++"], [100], (), True),
                ([second, b"101 +++ exited with 0 +++", fork, first], [100, 101], (), False),  # a pid that came again
                ([], [100], (), False), ([first], [], (), False)]
        for lines, living, dead, met in rows:
            with self.subTest(lines=lines, living=living):
                self.assertEqual(self.reached(lines, living, each=b"setuid", dead=dead), met)


class StoredTracer(Tracer):
    """strace as it is told to be, with a pipe of lines."""

    def __init__(self, proc: Proc, state: str) -> None:
        self.proc, self.pid, self.told, self.ended = proc, STRACE, state, False
        self.stops = ExecStops()

    def state(self) -> str:
        return "" if self.ended else self.told

    def has_ended(self) -> bool:
        return self.ended

    def end(self) -> None:
        self.ended = True


class Ended(Case):
    def setUp(self) -> None:
        super().setUp()
        self.live = Live()
        self.live.proc = Proc(os.path.join(self.work, "proc"))
        self.filter = Filtering(Followed(), Executed(), RunningSystem(self.live.proc))
        self.evidence = Evidence()
        self.sent: list[tuple[int, signal.Signals]] = []
        for name, value in (("PATIENCE", 60.0), ("STUCK_PATIENCE", 0.05), ("SECOND_PATIENCE", 0.1),
                            ("PAUSE", 0.005), ("send", self.send)):
            self.enterContext(mock.patch.object(live_processes, name, value))
        self.tracer = StoredTracer(self.live.proc, "S")
        self.addCleanup(self.tracer.stops.close)
        reading, self.writing = os.pipe()
        self.addCleanup(os.close, reading)
        self.stream = Stream(reading, self.filter, Awaited(None, None, list, lambda _: False), self.tracer.stops)

    def send(self, pids: set[int], number: signal.Signals) -> None:
        self.sent += [(pid, number) for pid in sorted(pids)]

    def thread(self, tid: int, state: str, tgid: int = 0, parent: int = 1, tracer: int = STRACE,
               children: str = "") -> None:
        """A thread, which is followed."""
        self.shown(tid, state, tgid, parent, tracer, children)
        self.filter.followed.add(Task(tid, 0, Place(b"/"), Files()))

    def shown(self, tid: int, state: str, tgid: int = 0, parent: int = 1, tracer: int = STRACE,
              children: str = "", flags: int = 0x400000) -> None:
        """A thread that the kernel shows."""
        text = STATUS.format(tid=tid, state=state, tgid=tgid or tid, parent=parent, tracer=tracer).encode()
        self.put(f"/proc/{tid}/status", text)
        self.put(f"/proc/{tid}/stat", f"{tid} (x) {state} {parent} 0 0 0 0 {flags}".encode())
        self.put(f"/proc/{tgid or tid}/task/{tid}/status", text)
        self.put(f"/proc/{tid}/task/{tid}/children", children.encode())

    def members(self, tracer: int) -> dict[int, Glance]:
        self.assertEqual(tracer, STRACE)
        return live_processes.all_threads(self.live.proc)

    def look(self, is_over: Callable[[], bool] = lambda: False, held: bool = False) -> Seen:
        """The end; strace alone had the pipe, or not."""
        if not held:
            os.close(self.writing)
        try:
            return Ending(self.live, self.filter, self.members, self.evidence,
                          lambda pids: None, is_over).look(self.tracer, self.stream)
        finally:
            self.assertTrue(self.tracer.ended)
            self.assertNotIn(signal.SIGCONT, [number for _, number in self.sent])
            if held:
                os.close(self.writing)

    def premises(self) -> list[str]:
        return [each.premise for each in self.evidence.doubts]


class Whole(Ended):
    def test_what_has_stopped(self) -> None:
        self.thread(100, "t")
        self.thread(101, "t", tgid=100)
        seen = self.look()
        self.assertEqual(([each.pid for each in seen.statuses], self.evidence.doubts), ([100, 101], []))
        self.assertEqual(self.sent, [(100, signal.SIGSTOP)])
        self.assertTrue(self.evidence.holds("births"))

    def test_a_main_thread_that_ended(self) -> None:
        """strace tells no end of it before those of all threads."""
        self.thread(100, "Z", tracer=0)
        self.thread(101, "t", tgid=100)
        seen = self.look()
        self.assertEqual(([each.pid for each in seen.statuses], self.evidence.doubts), ([101], []))
        self.assertEqual(self.filter.taken.lines, [b"100 +++ exited with 0 +++"])

    def test_a_parent_that_waits_for_its_child(self) -> None:
        for front, told in ((b"vfork( ", b"vfork()"),
                            (b"clone3({flags=CLONE_VM|CLONE_VFORK, exit_signal=SIGCHLD, stack_size=0x9000}, 88 ",
                             b"clone3({flags=CLONE_VM|CLONE_VFORK}, 88)")):
            with self.subTest(front):
                self.thread(100, "D", children="101 ")
                self.shown(101, "t", parent=100)
                self.filter.feed(b"100 " + front + b"<unfinished ...>")
                self.filter.tell_births([100, 101])
                self.assertEqual(self.filter.taken.lines, [b"100 " + told + b" = 101"])
                self.filter.feed(b"101 geteuid() = 0")
                self.filter.feed(b"100 <... " + told.partition(b"(")[0] + b" resumed>) = 101")
                self.filter.feed(b"101 +++ exited with 0 +++")
                self.assertEqual(self.filter.taken.lines[1:], [b"101 geteuid() = 0", b"101 +++ exited with 0 +++"])
                self.filter.taken.lines.clear()
        self.filter.feed(b"100 vfork( <unfinished ...>")
        self.look()
        self.assertEqual((self.filter.taken.lines, self.evidence.doubts), ([b"100 vfork() = 101"], []))


class Doubted(Ended):
    def test_strace_waits_for_what_it_traces(self) -> None:
        """As for a page that another of its processes fills: 100 is held in a call meanwhile."""
        self.thread(100, "t")
        self.tracer.told = "D"
        seen = self.look()
        self.assertEqual(self.premises(), ["births", "credentials"])
        self.assertEqual([each.pid for each in seen.statuses], [100])

    def test_strace_tells_on_and_on(self) -> None:
        self.thread(100, "t")
        self.tracer.told = "R"
        with mock.patch.object(live_processes, "PATIENCE", 0.1):
            self.look()
        self.assertEqual(self.premises(), ["births", "credentials"])

    def test_what_can_not_be_stopped(self) -> None:
        self.thread(100, "R")
        with mock.patch.object(live_processes, "PATIENCE", 0.1):
            self.look()
        self.assertEqual(self.premises(), ["births", "credentials", "credentials"])
        self.assertIn("these can't be stopped: 100", self.evidence.doubts[-1].why)

    def test_a_signal_cuts_it_short(self) -> None:
        self.thread(100, "R")
        begun = time.monotonic()
        seen = self.look(is_over=lambda: True)
        self.assertLess(time.monotonic() - begun, 30.0)
        self.assertEqual((seen.statuses, self.premises()), ([], ["births", "credentials"]))

    def test_the_pipe_is_held_by_another(self) -> None:
        self.thread(100, "t")
        os.write(self.writing, b"100 setuid(0) = 0\n100 setu")
        self.look(held=True)
        self.assertEqual(self.premises(), ["answers"])
        self.assertEqual(self.filter.taken.lines, [b"100 setuid(0) = 0"])

    def test_threads_of_a_ring(self) -> None:
        """A worker of io_uring (the flags of 6.18) is no member; one that ends while it is looked at shows none."""
        self.thread(100, "t")
        self.shown(101, "S", tgid=100, tracer=0, flags=0x404050)
        self.shown(102, "S", tgid=100, tracer=0)
        os.remove(os.path.join(self.work, "proc/102/stat"))
        seen = self.look()
        self.assertEqual(([each.pid for each in seen.statuses], self.evidence.doubts), ([100], []))

    def test_who_is_not_in_the_log(self) -> None:
        self.thread(100, "t")
        self.thread(102, "t")
        os.remove(os.path.join(self.work, "proc/102/status"))
        os.remove(os.path.join(self.work, "proc/102/task/102/status"))
        self.shown(103, "T", tracer=0)
        self.look()
        self.assertEqual([each.why for each in self.evidence.doubts], [
            "process 103 is of the family, and its birth isn't in the log",
            "process 102 is gone, and its end isn't in the log",
            "process 103 is of the family and isn't traced: what it did isn't in the log"])
        self.assertEqual(self.premises(), ["births"] * 3)

    def test_what_another_one_traces(self) -> None:
        """A signal would stop it for as long as its tracer likes."""
        self.thread(100, "t")
        self.thread(103, "S", tracer=7)
        self.look()
        self.assertEqual((self.sent, self.premises()), ([(100, signal.SIGSTOP)], ["births"]))


class Begun(Ended):
    def test_what_can_not_be_recorded(self) -> None:
        self.thread(100, "S", tracer=0)
        self.thread(102, "Z", tracer=0)
        self.thread(103, "S", tgid=102, tracer=0)           # its main thread has ended
        recording_start.check(self.live.proc, [100, 102])
        self.thread(104, "S", parent=100, tracer=7)
        self.thread(105, "T", parent=102, tracer=0)
        for pid, why in ((100, "process 104 has another tracer"), (102, "process 105 is stopped already"),
                         (103, "103 is a thread of process 102"), (999, "there is no process 999")):
            with self.assertRaisesRegex(Failure, why):
                recording_start.check(self.live.proc, [pid])


class Signals(Ended):
    def test_lines_of_signals_are_dropped(self) -> None:
        """Also those of a process whose birth isn't told yet: they tell nothing of it."""
        self.thread(100, "t")
        os.write(self.writing, b"101   --- SIGCHLD {si_signo=SIGCHLD, si_code=CLD_EXITED, si_pid=102} ---\n"
                               b"100 --- stopped by SIGSTOP ---\n100 +++ killed by SIGTERM +++\n")
        self.stream.drain()
        self.filter.finish()
        self.assertEqual(self.filter.taken.lines, [b"100 +++ killed by SIGTERM +++"])
        self.assertEqual(self.filter.taken.evidence.doubts, [])
        os.close(self.writing)


class Outlives(Case):
    def begun(self, code: str, *words: str) -> subprocess.Popen[bytes]:
        """A recorder of these lines, once it has done them."""
        program = "\n".join(["import os, signal, sys, time", "from credaudit_tools.trace.watchdog import Watchdog",
                             "watchdog = Watchdog()", "pid = int(sys.argv[1])", code, "print(watchdog.pid, flush=True)",
                             "time.sleep(60)"])
        return subprocess.Popen([sys.executable, "-c", program, *words], cwd=SOURCES, stdout=subprocess.PIPE)

    def state(self, pid: int) -> str:
        seen = live_processes.glance(Proc(), pid)
        return "" if seen is None else seen.state

    def comes(self, what: Callable[[], bool]) -> bool:
        ends = time.monotonic() + 20
        while not what() and time.monotonic() < ends:
            time.sleep(0.02)
        return what()

    def killed(self, code: str) -> tuple[int, subprocess.Popen[bytes]]:
        """What a recorder was killed over, and the pid of its second process."""
        target = subprocess.Popen(["sleep", "60"])
        self.addCleanup(target.wait)
        self.addCleanup(target.kill)
        recorder = self.begun(code, str(target.pid))
        assert recorder.stdout is not None
        second = int(recorder.stdout.readline())
        recorder.kill()
        recorder.communicate()
        return second, target

    def test_what_was_stopped_goes_on(self) -> None:
        second, target = self.killed("watchdog.stops([pid])\nos.kill(pid, signal.SIGSTOP)")
        self.assertTrue(self.comes(lambda: self.state(target.pid) == "S"), self.state(target.pid))
        self.assertTrue(self.comes(lambda: self.state(second) == ""))

    def test_strace_and_the_own_program_end(self) -> None:
        for code in ("watchdog.traces(pid)", "watchdog.owns(pid)"):
            _, target = self.killed(code)
            self.assertTrue(self.comes(lambda: self.state(target.pid) == ""), code)

    def test_what_went_on_is_left_alone(self) -> None:
        second, target = self.killed("watchdog.stops([pid])\nwatchdog.went_on()\nwatchdog.owns(pid)\nwatchdog.keeps()\n"
                                     "os.kill(pid, signal.SIGSTOP)")
        self.assertTrue(self.comes(lambda: self.state(second) == ""))
        self.assertTrue(self.comes(lambda: self.state(target.pid) == "T"), self.state(target.pid))

    def test_it_ends_with_its_work(self) -> None:
        second, _ = self.killed("watchdog.leave()")
        self.assertEqual(self.state(second), "")


class Attended(unittest.TestCase):
    def limit(self, *words: str, terminal: bool) -> float | None:
        given = trace_command.words().parse_args(["-o", "x", *words, "true"])
        with mock.patch.multiple(sys, stdin=mock.Mock(), stdout=mock.Mock(), stderr=mock.Mock()):
            for each, answer in ((sys.stdin, False), (sys.stdout, False), (sys.stderr, terminal)):
                setattr(each, "isatty", lambda answer=answer: answer)
            return trace_command.limit(given)

    def test_how_long(self) -> None:
        for words, terminal, seconds in [
                ((), True, None), ((), False, 60.0), (("--for", "0"), False, None), (("--for", "0"), True, None),
                (("--for", "7"), False, 7.0), (("--until", "x"), False, None), (("--until-each", "x"), False, None),
                (("--until", "x", "--for", "7"), False, 7.0)]:
            self.assertEqual(self.limit(*words, terminal=terminal), seconds, (words, terminal))
