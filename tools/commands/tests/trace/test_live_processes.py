"""What is seen of a thread at one look, by a stored status file of the form that proc_pid_status(5) has."""
import os

from credaudit_tools.system.proc import Proc
from credaudit_tools.trace import live_processes
from credaudit_tools.trace.live_processes import Glance

from ..support import Case

STATUS = r"""Name:	{}
Umask:	0022
State:	{}
Tgid:	100
Ngid:	0
Pid:	100
PPid:	1
TracerPid:	7
Uid:	0	0	0	0
NStgid:	100	4
Threads:	1
voluntary_ctxt_switches:	3
nonvoluntary_ctxt_switches:	2
"""
SEEN = Glance(100, 100, 1, "S", 7, 5)


class Glances(Case):
    def glance(self, status: str) -> Glance | None:
        folder = os.path.join(self.work, "100")
        os.makedirs(folder, exist_ok=True)
        with open(os.path.join(folder, "status"), "w", encoding="ascii") as file:
            file.write(status)
        return live_processes.glance(Proc(self.work), 100)

    def test_what_is_seen(self) -> None:
        self.assertEqual(self.glance(STATUS.format("daemon", "S (sleeping)")), SEEN)

    def test_a_name_tells_nothing(self) -> None:
        """A program names itself as it likes; the kernel writes its line feeds as `\\n`."""
        for name in (r"x\nState:\tZ (zombie)", "State:\tZ", r"\nTracerPid:\t0", "Tgid:\t5"):
            with self.subTest(name):
                self.assertEqual(self.glance(STATUS.format(name, "S (sleeping)")), SEEN)

    def test_who_is_dead(self) -> None:
        for state, dead in (("Z (zombie)", True), ("X (dead)", True), ("T (stopped)", False), ("D (idle)", False)):
            with self.subTest(state):
                seen = self.glance(STATUS.format("daemon", state))
                self.assertEqual((seen is None, live_processes.is_dead(Proc(self.work), 100)), (dead, dead))

    def test_who_is_gone(self) -> None:
        self.assertIsNone(live_processes.glance(Proc(self.work), 101))
        self.assertFalse(live_processes.is_dead(Proc(self.work), 101))
        self.assertIsNone(self.glance("Name:\tdaemon\n"))


class Descendants(Case):
    """The threads of a family, of which one process is looked at before its threads."""

    def thread(self, tid: int, process: int, parent: int, state: str) -> None:
        status = STATUS.format("daemon", state).replace("Tgid:\t100", f"Tgid:\t{process}")
        self.put(f"/{tid}/status", status.replace("PPid:\t1", f"PPid:\t{parent}").encode())
        self.put(f"/{tid}/stat", b"%d (daemon) S 1 1 1 0 -1 4194560 0" % tid)
        self.put(f"/{process}/task/{tid}/comm", b"daemon")

    def test_whose_main_thread_has_ended_too(self) -> None:
        for tid, process, parent in ((100, 100, 1), (101, 100, 1), (102, 100, 1), (200, 200, 100), (201, 200, 100),
                                     (300, 300, 200), (400, 400, 300), (500, 500, 1), (600, 600, 100), (700, 700, 600)):
            self.thread(tid, process, parent, "Z (zombie)" if tid in (100, 300) else "S (sleeping)")
        proc = Proc(self.work)
        found = live_processes.descendants(proc, [100], [600])
        self.assertEqual(sorted(found), [101, 102, 200, 201])
        self.assertEqual(found, live_processes.family(live_processes.all_threads(proc), [100], [600]))
        self.assertEqual(sorted(live_processes.descendants(proc, [400, 999])), [400])
