"""Services that are started to be recorded: the program that waits before theirs, the command that is written in its
place, what is refused, and that nothing is left of it. Without systemd: systemctl is a stand-in (stored_systemctl.py).
"""
import os
import re
import shutil
import signal
import struct
import subprocess
import sys
import time
import unittest
from unittest import mock

from credaudit_tools.command_line.command import Failure
from credaudit_tools.replay import recording
from credaudit_tools.service import stopper, unit_commands, unit_start
from credaudit_tools.service.service_manager import Manager
from credaudit_tools.service.unit_start import DROP_IN, UnitStart
from credaudit_tools.system import proc
from credaudit_tools.trace import trace_command

from ..support import Case
from ..trace.test_trace import why_not

HERE = os.path.dirname(os.path.abspath(__file__))
STAND_IN = os.path.join(HERE, "stored_systemctl.py")
KILLED = """
import os, sys, time
from credaudit_tools.service.service_manager import Manager
from credaudit_tools.service.unit_start import UnitStart
from credaudit_tools.system.proc import Proc
from credaudit_tools.trace.watchdog import Watchdog
folder, root, moment = sys.argv[1:]
unit = UnitStart("one", Proc(), Manager([os.environ["STAND_IN"]], folder), (root,), root)
watchdog = Watchdog(unit.clear)
watchdog.changes()
if moment != "started":
    unit.put()
    if moment == "unlinked":
        os.unlink(unit.drop_in)
else:
    print(unit.started(lambda: False), flush=True)
print("now", flush=True)
time.sleep(60)
"""


def until(holds: object, seconds: float = 20.0) -> bool:
    """Whether something comes to hold in time."""
    ends = time.monotonic() + seconds
    assert callable(holds)
    while not holds() and time.monotonic() < ends:
        time.sleep(0.02)
    return bool(holds())


@unittest.skipIf(os.uname().machine != proc.PROCESSOR, "the program that waits is one of x86-64")
class Stopper(Case):
    def setUp(self) -> None:
        super().setUp()
        self.path = os.path.join(self.work, stopper.NAME)
        stopper.put(self.path)

    def begun(self, *words: str, **more: str) -> subprocess.Popen[bytes]:
        running = subprocess.Popen([self.path, *words], stdout=subprocess.PIPE, env={**more})
        self.addCleanup(running.wait)
        self.addCleanup(running.kill)
        assert running.stdout is not None
        self.addCleanup(running.stdout.close)
        self.assertTrue(until(lambda: running.pid in stopper.held("/proc", self.path)))
        return running

    def test_it_waits_and_executes(self) -> None:
        running = self.begun("/bin/sh", "name", "-c", 'echo "$0 $1 $MARK"', "a b", "c", MARK="kept")
        self.assertEqual(stopper.held("/proc", self.path), [running.pid])
        time.sleep(0.1)
        self.assertIsNone(running.poll())
        self.assertTrue(stopper.free("/proc", self.path, running.pid))
        self.assertEqual((running.communicate()[0], running.returncode), (b"a b c kept\n", 0))
        self.assertFalse(stopper.free("/proc", self.path, running.pid))

    def test_a_program_that_is_not_there(self) -> None:
        running = self.begun("/nowhere/at/all", "name")
        stopper.free("/proc", self.path, running.pid)
        self.assertEqual(running.wait(), 203)

    def test_another_program_is_left_alone(self) -> None:
        running = subprocess.Popen(["sleep", "60"])
        try:
            self.assertTrue(until(lambda: b"sleep" in (proc.Proc().read(running.pid, "comm") or b"")))
            self.assertFalse(stopper.free("/proc", self.path, running.pid))
        finally:
            running.kill()
            running.wait()

    def test_its_parts(self) -> None:
        """By the header of the file (elf(5)): no part is writable and executable, nor is the stack."""
        data = stopper.program()
        parts = [struct.unpack_from("<IIQQQQQQ", data, 64 + 56 * number) for number in range(3)]
        self.assertEqual([(part[0], part[1]) for part in parts], [(1, 5), (1, 6), (0x6474e551, 6)])

    @unittest.skipIf(shutil.which("strace") is None, "strace isn't there")
    @unittest.skipIf(why_not() is not None, why_not() or "")
    def test_it_makes_no_call_but_execve(self) -> None:
        """So a filter of system calls that lets the program be executed stops none of it."""
        log = os.path.join(self.work, "log")
        running = subprocess.Popen(["strace", "-o", log, self.path, "/bin/true", "true"])
        self.assertTrue(until(lambda: stopper.held("/proc", self.path)))
        stopper.free("/proc", self.path, stopper.held("/proc", self.path)[0])
        self.assertEqual(running.wait(), 0)
        with open(log, encoding="ascii") as file:
            lines = file.read().splitlines()
        self.assertEqual([line.partition("(")[0] for line in lines[:2]], ["execve", "execve"])
        self.assertRegex(lines[1], r'^execve\("/bin/true", \["true"\]')


class Commands(Case):
    def test_what_is_written(self) -> None:
        for value, written in (
                ("/usr/sbin/cron -f $EXTRA_OPTS", "/run/x /usr/sbin/cron /usr/sbin/cron -f $EXTRA_OPTS"),
                ("@/usr/bin/dbus-daemon @dbus --system", "/run/x /usr/bin/dbus-daemon @dbus --system"),
                ("-/usr/bin/pg_ctl --x %i start", "-/run/x /usr/bin/pg_ctl /usr/bin/pg_ctl --x %i start"),
                ("!!/lib/systemd/networkd", "!!/run/x /lib/systemd/networkd /lib/systemd/networkd"),
                ("+:@/bin/a b", "+:/run/x /bin/a b"),
                ("!/usr/sbin/x  'a b'  \"c;d\" \\;", "!/run/x /usr/sbin/x /usr/sbin/x 'a b'  \"c;d\" \\;"),
                ("/usr/lib/%p/run", "/run/x /usr/lib/%p/run /usr/lib/%p/run"),
                ("true", f"/run/x {unit_commands.found_path('true')} true")):
            with self.subTest(value=value):
                self.assertEqual(unit_commands.behind(value, "/run/x"), written)

    def test_what_is_refused(self) -> None:
        rows: tuple[tuple[list[str], str], ...] = (
            ([], "has no ExecStart="), (["/bin/a", ""], "has no ExecStart="),
            (["/bin/a", "/bin/b"], "more than one command"), (["/bin/a ; /bin/b"], "more than one command"),
            (['/bin/a "b'], "a quote doesn't end"))
        for values, why in rows:
            with self.subTest(values=values), self.assertRaisesRegex(Failure, why):
                unit_commands.only_command(values)
        self.assertEqual(unit_commands.only_command(["/bin/a", "", "/bin/b"]), "/bin/b")
        for value, why in (('"/bin/a" b', "isn't named plainly"), ("/bin/a\\x20b", "isn't named plainly"),
                           ("/bin/$A", "isn't named plainly"), ("-", "isn't named plainly"),
                           ("no-such-program-at-all", "isn't there")):
            with self.subTest(value=value), self.assertRaisesRegex(Failure, why):
                unit_commands.behind(value, "/run/x")


class Units(Case):
    """Units below a folder, which the stand-in starts."""

    def setUp(self) -> None:
        super().setUp()
        self.folder = os.path.join(self.work, "run/systemd/system")
        os.makedirs(self.folder)
        self.enterContext(mock.patch.dict(os.environ, {"STAND_IN": STAND_IN, "STAND_IN_ROOT": self.work,
                                                       "STAND_IN_FOLDER": self.folder}))
        self.addCleanup(self.end_all)

    def end_all(self) -> None:
        """Ends what the stand-in started."""
        for name in os.listdir(self.work):
            if name.startswith("pid-"):
                try:
                    os.kill(int(name.removeprefix("pid-")), signal.SIGKILL)
                except ProcessLookupError:
                    pass

    def unit(self, *lines: str, told: str = "") -> UnitStart:
        self.put("etc/systemd/system/one.service", "\n".join(["[Service]", *lines, ""]).encode())
        self.put("told", told.encode())
        if os.path.exists(os.path.join(self.work, "started")):
            os.unlink(os.path.join(self.work, "started"))
        return UnitStart("one", proc.Proc(), Manager([STAND_IN], self.folder), (self.work,), self.work)

    def asked(self) -> list[str]:
        """The words of each call of systemctl."""
        with open(os.path.join(self.work, "asked"), encoding="utf-8") as file:
            return [line.split()[0] for line in file]


class Started(Units):
    def test_what_is_refused_before_anything_is_changed(self) -> None:
        for told, why in (("LoadState=not-found", "is not-found"), ("LoadState=masked", "is masked"),
                          ("ActiveState=active", "is active already"), ("NeedDaemonReload=yes", "isn't read again"),
                          ("RootDirectory=/srv", "RootDirectory=: the program that waits"),
                          ("RootImage=/x.raw", "RootImage="), ("AppArmorProfile=x", "AppArmorProfile="),
                          ("SELinuxContext=x", "SELinuxContext="), ("SmackProcessLabel=x", "SmackProcessLabel="),
                          ("ExecSearchPath=/x", "ExecSearchPath="),
                          ("RestrictFileSystems=ext4", "RestrictFileSystems="),
                          ("CPUSchedulingPolicy=1", "CPUSchedulingPolicy=")):
            with self.subTest(told=told), self.assertRaisesRegex(Failure, re.escape(why)):
                self.unit("ExecStart=/bin/true", told=told)
        for word in ("one.socket", "a/b", "", "getty@"):
            with self.subTest(word=word), self.assertRaises(Failure):
                unit_start.full_name(word)
        self.assertEqual(set(self.asked()), {"show"})
        self.assertEqual(os.listdir(self.folder), [])

    def test_no_systemd(self) -> None:
        with self.assertRaisesRegex(Failure, "no systemd runs here"):
            UnitStart("one", proc.Proc(), Manager([STAND_IN], os.path.join(self.work, "nowhere")))

    def test_no_place(self) -> None:
        with mock.patch.object(os, "statvfs", lambda _: mock.Mock(f_flag=os.ST_NOEXEC)), \
                self.assertRaisesRegex(Failure, "in none of .* a program can be executed"):
            self.unit("ExecStart=/bin/true")

    def test_a_recording_that_was_broken_off(self) -> None:
        self.put(f"run/systemd/system/one.service.d/{DROP_IN}", b"")
        with self.assertRaisesRegex(Failure, "another recording of the unit"):
            self.unit("ExecStart=/bin/true")

    def test_a_start(self) -> None:
        unit = self.unit("ExecStart=/bin/sh -c 'echo begun > begun; sleep 60'", told="NoExecPaths=/")
        pid = unit.started(lambda: False)
        with open(unit.drop_in, encoding="utf-8") as file:
            self.assertEqual(file.read().splitlines()[1:], [
                "[Service]", "ExecStart=",
                f"ExecStart={unit.path} /bin/sh /bin/sh -c 'echo begun > begun; sleep 60'", f"ExecPaths={unit.folder}"])
        self.assertEqual(stopper.held("/proc", unit.path), [pid])
        unit.take_back()
        self.assertFalse(os.path.exists(unit.above))
        self.assertEqual(self.asked(), ["show", "daemon-reload", "show", "start", "daemon-reload"])
        self.assertFalse(os.path.exists(os.path.join(self.work, "begun")))
        unit.free()
        self.assertTrue(until(lambda: os.path.exists(os.path.join(self.work, "begun"))))
        unit.clear()
        self.assertEqual([name for name in os.listdir(self.work) if name.startswith("credaudit-trace-")], [])

    def test_a_process_that_is_about_to_begin(self) -> None:
        """Of Type=simple a service is active as soon as its process is there, before that one executes anything."""
        unit = self.unit("ExecStart=/bin/sleep 60", told="NowState=active\nLate=2")
        self.assertEqual(unit.started(lambda: False), stopper.held("/proc", unit.path)[0])
        unit.clear()

    def test_a_folder_of_drop_ins_that_was_there(self) -> None:
        kept = self.put("run/systemd/system/one.service.d/own.conf", b"[Service]\nNice=3\n")
        unit = self.unit("ExecStart=/bin/sleep 60")
        unit.started(lambda: False)
        unit.clear()
        self.assertEqual(os.listdir(unit.above), [os.path.basename(kept)])

    def test_a_drop_in_that_stands_behind(self) -> None:
        self.put("run/systemd/system/one.service.d/zzzzz.conf", b"[Service]\nExecStart=\nExecStart=/bin/true\n")
        unit = self.unit()
        with self.assertRaisesRegex(Failure, "otherwise than was written"):
            unit.started(lambda: False)
        unit.clear()
        self.assertEqual(os.listdir(unit.above), ["zzzzz.conf"])
        self.assertNotIn("start", self.asked())

    def test_a_unit_that_does_not_start(self) -> None:
        for told, why in (("Starts=no\nConditionResult=no", "its conditions don't hold"),
                          ("Starts=no\nNowState=failed\nResult=exit-code", "failed .*exit-code")):
            with self.subTest(told=told):
                unit = self.unit("ExecStart=/bin/sleep 60", told=told)
                with self.assertRaisesRegex(Failure, why):
                    unit.started(lambda: False)
                unit.clear()
                self.assertFalse(os.path.exists(unit.above))
        unit = self.unit("ExecStart=/bin/sleep 60", told="Starts=no\nNowState=activating")
        with self.assertRaisesRegex(Failure, "a signal ended it"):
            unit.started(lambda: True)
        unit.clear()

    def test_securebits(self) -> None:
        """noroot-locked is SECBIT_NOROOT_LOCKED alone (systemd.exec(5)); keep-caps goes by an execve."""
        for command, bits, wanted in (("/bin/true", "noroot noroot-locked", 3), ("/bin/true", "noroot-locked", 2),
                                      ("/bin/true", "keep-caps keep-caps-locked", 0x20), ("+/bin/true", "noroot", 0),
                                      ("/bin/true", "", 0), ("/bin/true", "2", 2)):
            with self.subTest(command=command, bits=bits):
                self.assertEqual(self.unit(f"ExecStart={command}", told=f"SecureBits={bits}").securebits(), wanted)

    def test_recorders_that_are_killed(self) -> None:
        """The second process takes everything back, and the program goes on."""
        for moment in ("put", "unlinked", "started"):
            with self.subTest(moment=moment):
                self.unit("ExecStart=/bin/sh -c 'echo begun > begun; sleep 60'")
                running = subprocess.Popen([sys.executable, "-c", KILLED, self.folder, self.work, moment],
                                           stdout=subprocess.PIPE, text=True,
                                           env={**os.environ, "PYTHONPATH": os.pathsep.join(sys.path)})
                assert running.stdout is not None
                while running.stdout.readline() not in ("now\n", ""):
                    pass
                above = os.path.join(self.folder, "one.service.d")
                self.assertEqual(os.path.exists(os.path.join(above, DROP_IN)), moment != "unlinked")
                running.kill()
                running.wait()
                running.stdout.close()
                self.assertTrue(until(lambda: not os.path.exists(above)))
                self.assertTrue(until(lambda: not [name for name in os.listdir(self.work)
                                                   if name.startswith("credaudit-trace-")]))
                self.assertEqual(self.asked()[-1], "daemon-reload")
                if moment == "started":
                    self.assertTrue(until(lambda: os.path.exists(os.path.join(self.work, "begun"))))


@unittest.skipIf(why_not() is not None, why_not() or "")
class Recorded(Units):
    """The whole command, with the stand-in."""

    def setUp(self) -> None:
        super().setUp()
        if os.geteuid() != 0:
            self.enterContext(mock.patch.object(proc, "needs_root", lambda _: None))
        handlers = [(number, signal.getsignal(number)) for number in (signal.SIGINT, signal.SIGTERM, signal.SIGHUP)]
        for number, handler in handlers:
            self.addCleanup(signal.signal, number, handler)

        def with_stand_in(word: str, own: proc.Proc) -> UnitStart:
            return UnitStart(word, own, Manager([STAND_IN], self.folder), (self.work,), self.work)
        self.enterContext(mock.patch("credaudit_tools.service.unit_start.UnitStart", with_stand_in))
        self.out = os.path.join(self.work, "recording")

    def trace(self, *words: str) -> tuple[int, str, str]:
        return self.told(trace_command.main, "-o", self.out, "--no-verify", *words)

    def test_it_begins_with_the_execve_of_the_program(self) -> None:
        self.unit("ExecStart=/bin/sh -c 'exec sleep 60'", "ExecStartPre=/bin/true", told="ExecStartPre=/bin/true")
        status, out, errors = self.trace("--until", "execve.*sleep", "--for", "30", "--unit", "one")
        self.assertEqual((status, errors), (0, ""))
        self.assertIn("1 process at the end (line)", out)
        kept = recording.read(self.out)
        assert kept.made is not None
        first = kept.log.splitlines()[0].partition(b" ")[2]
        self.assertEqual(first, b'execve("%s", [], NULL) = 0' % os.fsencode(os.path.realpath("/bin/sh")))
        self.assertEqual(kept.made.doubts, [])
        self.assertEqual(kept.made.notes[:2], [
            "the unit one.service, from the execve of its program on, with what systemd had set for it",
            "ExecStartPre=: what these execute isn't recorded"])
        self.assertEqual(os.listdir(self.folder), [])
        self.assertTrue(self.becomes(kept.statuses[0].pid, b"sleep"))      # it runs on

    def becomes(self, pid: int, name: bytes) -> bool:
        """The process executes that program within ten seconds: the shell looks for it in several folders."""
        ends = time.monotonic() + 10
        while name not in (proc.Proc().read(pid, "comm") or b""):
            if time.monotonic() > ends:
                return False
            time.sleep(0.05)
        return True

    def test_a_program_that_can_not_be_executed(self) -> None:
        self.unit("ExecStart=" + self.put("program", b"#!/bin/sh\n", 0o644))
        status, out, errors = self.trace("--for", "30", "--unit", "one")
        self.assertEqual((status, out), (3, ""))
        self.assertIn("'one.service' can't be executed: EACCES", errors)
        self.assertEqual(os.listdir(self.folder), [])

    def test_words(self) -> None:
        for words in (("--unit", "one", "--", "true"), ("--unit", "one", "-p", "1"), ("--unit", "one", "-u", "root")):
            self.assertEqual(self.trace(*words)[0], 2)


if __name__ == "__main__":
    unittest.main()
