"""Filters of system calls and rings of io_uring in a recording: what the kernel shows at its end against what its log
tells, and what becomes a doubt."""
import os
import signal
import struct
import subprocess
import sys
import time
import unittest

from credaudit_tools.doubts import world_doubts
from credaudit_tools.evidence.evidence import Evidence
from credaudit_tools.evidence.premises import ANSWERS, FILTERS, SECUREBITS
from credaudit_tools.filters import bpf, log_filters
from credaudit_tools.filters.bpf import Instruction, Program
from credaudit_tools.filters.log_filters import Filter
from credaudit_tools.formats import worlds
from credaudit_tools.formats.credential import Credential
from credaudit_tools.formats.report import Event
from credaudit_tools.formats.statuses import Status
from credaudit_tools.judge.program_questions import Files as Paths
from credaudit_tools.kernel_filters import filter_evidence, shown_filters
from credaudit_tools.kernel_filters.filter_look import FilterLook
from credaudit_tools.kernel_filters.shown_filters import Shown
from credaudit_tools.replay import recording
from credaudit_tools.strace_log.followed_processes import UNKNOWN, Files, Place, Task
from credaudit_tools.summary.summary import BY_HAND, Given, of_filters
from credaudit_tools.system import rings
from credaudit_tools.system.proc import Proc
from credaudit_tools.trace import live_processes

from ..strace_log.test_line_filter import Filtered
from ..support import Case

ALLOW: Program = (Instruction(bpf.RETURN, 0, 0, bpf.ALLOW),)
REFUSE: Program = (Instruction(bpf.RETURN, 0, 0, bpf.ERRNO | 1),)
FAKE: Program = (Instruction(bpf.RETURN, 0, 0, bpf.ERRNO),)
WITHOUT = "the recorder has no CAP_SYS_ADMIN, or runs under a filter itself"


def status(pid: int, count: int | None, mode: int = 2) -> Status:
    """A thread with so many filters."""
    zero = (0, 0, 0, 0)
    own = Credential(zero, zero, frozenset(), 0, 0, 0, 0, 0, 0, False)
    return Status(pid, b"x", own, mode if count != 0 else 0, count)


def told(program: Program | None, pid: int = 100, alone: bool = True) -> Filter:
    """A filter of the log."""
    return Filter(pid, "", program, (), alone=alone)


def found(own: tuple[Filter, ...], count: int | None, seen: Shown | None, securebits: int | None = None) -> Evidence:
    """What is found of process 100, which has these filters by the log, so many by its status, and shows these."""
    task = Task(100, 0, Place(b"/"), Files(), process=100, filters=own, securebits=securebits)
    shown = {} if seen is None else {100: seen}
    return filter_evidence.of_end({100: task}, [status(100, count)], shown, own)


class AtTheEnd(unittest.TestCase):
    def check(self, one: Evidence, *parts: str) -> None:
        """Each doubt of the answers has its part, and there are no others."""
        doubts = [each.why for each in one.doubts if each.premise == ANSWERS]
        self.assertEqual(len(doubts), len(parts), doubts)
        for text, part in zip(doubts, parts):
            self.assertIn(part, text)

    def test_no_filter(self) -> None:
        one = found((), 0, None)
        self.check(one)
        self.assertEqual(one.established[ANSWERS], "no process had a filter of system calls")

    def test_the_same_filters(self) -> None:
        one = found((told(ALLOW), told(REFUSE)), 2, (ALLOW, REFUSE))
        self.check(one)
        self.assertIn("read from the kernel", one.established[ANSWERS])

    def test_one_that_was_exchanged(self) -> None:
        self.check(found((told(REFUSE),), 1, (FAKE,)), "filter 1 of process 100 isn't the one that strace read",
                   "has a filter that answers calls with success")
        self.check(found((told(ALLOW), told(REFUSE)), 2, (REFUSE, ALLOW)), "filter 1, 2 of process 100 isn't the one")

    def test_one_that_the_log_does_not_have(self) -> None:
        self.check(found((told(ALLOW),), 2, (ALLOW, REFUSE)), "has 2 filters of system calls, and by the log 1")
        self.check(found((), 1, (FAKE,)), "has 1 filter of system calls, and by the log 0",
                   "has a filter that answers calls with success")

    def test_one_that_is_not_there(self) -> None:
        self.check(found((told(ALLOW),), 0, None), "installed 1 filter by the log, and has none at the end")
        self.check(found((told(ALLOW), told(REFUSE)), 1, (ALLOW,)), "has 1 filter of system calls, and by the log 2")

    def test_one_whose_text_is_not_whole(self) -> None:
        """The log's own doubt stands; the kernel's program is looked at."""
        self.check(found((told(None),), 1, (REFUSE,)))
        self.check(found((told(None),), 1, (FAKE,)), "has a filter that answers calls with success")

    def test_counts_alone(self) -> None:
        one = found((told(REFUSE),), 1, WITHOUT)
        self.check(one)
        self.assertIn("as many filters stood at the end as the log tells", one.established[ANSWERS])
        self.check(found((told(REFUSE),), 2, WITHOUT),
                   "has 2 filters of system calls, and by the log 1; the kernel doesn't show them: " + WITHOUT)
        self.check(found((told(REFUSE, alone=False),), 1, WITHOUT), "process 100 installed a filter while others lived")
        self.check(found((told(REFUSE),), None, WITHOUT), WITHOUT)

    def test_one_from_before(self) -> None:
        old = log_filters.before(100, None)
        self.check(found((old,), 1, WITHOUT), "process 100 had a filter of system calls before the recording began")
        self.check(found((old,), 1, (REFUSE,)))
        self.check(found((old,), 1, (FAKE,)), "has a filter that answers calls with success")
        self.check(filter_evidence.of_end({}, [], {}, (old,)), "process 100 had a filter of system calls before")

    def test_securebits(self) -> None:
        """A call that set them is confirmed where no filter of the process could answer it, or a later call showed
        them."""
        for own, count, seen, bits, wanted in (
                ((), 0, None, 3, 0), ((told(REFUSE),), 1, (REFUSE,), 3, 0), ((told(FAKE),), 1, (FAKE,), 3, 1),
                ((told(REFUSE),), 1, WITHOUT, 3, 1), ((told(REFUSE),), 1, WITHOUT, UNKNOWN, 1),
                ((told(REFUSE),), 1, WITHOUT, None, 0)):
            with self.subTest(own=own, seen=seen, bits=bits):
                one = found(own, count, seen, bits)
                self.assertEqual(sum(each.premise == SECUREBITS for each in one.doubts), wanted)
                self.assertIn(SECUREBITS, one.established)


class InTheLog(Filtered):
    """Which filters stand for whom, by strace's lines."""
    ONE = "{len=1, filter=[BPF_STMT(BPF_RET|BPF_K, SECCOMP_RET_ERRNO|0x1)]}"

    def standing(self, *lines: str) -> dict[int, list[bool]]:
        """By thread the filters that stand for it, and whether each was installed by one who was alone."""
        filtering = self.filtering()
        filtering.followed.tasks[100].process = 100
        self.assertIsNone(self.fed(filtering, list(lines)))
        self.bits = {tid: task.securebits for tid, task in filtering.followed.tasks.items()}
        return {tid: [each.alone for each in task.filters] for tid, task in filtering.followed.tasks.items()}

    def test_births(self) -> None:
        install = f"100 seccomp(SECCOMP_SET_MODE_FILTER, 0, {self.ONE}) = 0"
        self.assertEqual(self.standing(install, "100 fork() = 101", install), {100: [True, False], 101: [True]})

    def test_all_threads(self) -> None:
        thread = "100 clone(child_stack=0x7, flags=CLONE_VM|CLONE_FS|CLONE_FILES|CLONE_SIGHAND|CLONE_THREAD) = {}"
        flags = "SECCOMP_FILTER_FLAG_TSYNC"
        lines = (thread.format(101), thread.format(102), "100 fork() = 103")
        all_of_them = {100: [False], 101: [False], 102: [False], 103: []}
        for own, answer, wanted in ((flags, 0, all_of_them), (flags, 101, {100: [], 101: [], 102: [], 103: []}),
                                    (flags + "|SECCOMP_FILTER_FLAG_NEW_LISTENER", 5, all_of_them)):
            install = f"102 seccomp(SECCOMP_SET_MODE_FILTER, {own}, {self.ONE}) = {answer}"
            self.assertEqual(self.standing(*lines, install), wanted)

    def test_the_caller_alone(self) -> None:
        self.assertEqual(self.standing(
            "100 clone(child_stack=0x7, flags=CLONE_VM|CLONE_THREAD) = 101",
            f"101 prctl(PR_SET_SECCOMP, SECCOMP_MODE_FILTER, {self.ONE}) = 0"), {100: [], 101: [False]})

    def test_securebits(self) -> None:
        sets = "100 prctl(PR_SET_SECUREBITS, SECBIT_NOROOT|SECBIT_NOROOT_LOCKED) = {}"
        asks = "{} prctl(PR_GET_SECUREBITS) = {}"
        for lines, wanted in (
                ((), {100: None}), ((sets.format(0),), {100: 3}),
                ((sets.format("-1 EPERM (Operation not permitted)"),), {100: None}),
                ((sets.format(0), asks.format(100, "0x3 (SECBIT_NOROOT)")), {100: None}),
                ((sets.format(0), asks.format(100, "0")), {100: 3}),
                ((sets.format(0), "100 fork() = 101", asks.format(101, "0x3")), {100: 3, 101: None}),
                (("100 prctl(PR_SET_SECUREBITS, 0x2f /* SECBIT_??? */) = 0",), {100: UNKNOWN}),
                (("100 prctl(PR_SET_SECUREBITS, SECBIT_KEEP_CAPS_LOCKED|0x8) = 0",), {100: 0x28})):
            with self.subTest(lines):
                self.standing(*lines)
                self.assertEqual(self.bits, wanted)


class Shows(Case):
    """The running kernel."""

    def stopped(self, words: list[str]) -> subprocess.Popen[bytes]:
        """A program that has stopped itself."""
        running = subprocess.Popen(words)
        self.addCleanup(running.wait)
        self.addCleanup(running.kill)
        os.waitpid(running.pid, os.WUNTRACED)
        return running

    def state(self, pid: int) -> tuple[str, int]:
        """Its state, once it is back in its stop, and its tracer."""
        ends = time.monotonic() + 5.0
        while True:
            one = live_processes.glance(Proc(), pid)
            assert one is not None
            if one.state == "T" or time.monotonic() > ends:
                return one.state, one.tracer
            time.sleep(0.01)

    def test_one_without_a_filter(self) -> None:
        """Nothing is attached to, and it stays stopped."""
        running = self.stopped([sys.executable, "-c", "import os; os.kill(os.getpid(), 19)"])
        self.assertEqual(shown_filters.of_stopped([]), {})
        seen = shown_filters.of_stopped([running.pid])
        self.assertIsInstance(seen[running.pid], str)
        self.assertEqual(self.state(running.pid), ("T", 0))

    def test_the_filters_of_a_process(self) -> None:
        """As root those that it installed, in their order; else why they aren't shown. It stays stopped, then goes
        on."""
        program = "\n".join((
            "import ctypes, os, struct, time",
            "c = ctypes.CDLL(None); c.prctl(38, 1, 0, 0, 0)",
            "for k in (0x50077, 0x7fff0000):",
            " f = struct.pack('HBBIHBBIHBBIHBBI', 32, 0, 0, 0, 21, 0, 1, 250, 6, 0, 0, k, 6, 0, 0, 0x7fff0000)",
            " b = ctypes.create_string_buffer(f); p = struct.pack('HxxxxxxP', 4, ctypes.addressof(b))",
            " q = ctypes.create_string_buffer(p); c.prctl(22, 2, q, 0, 0)",
            "os.kill(os.getpid(), 19)", "time.sleep(60)"))
        running = self.stopped([sys.executable, "-c", program])
        seen = shown_filters.of_stopped([running.pid])[running.pid]
        self.assertEqual(self.state(running.pid), ("T", 0))
        running.send_signal(signal.SIGCONT)
        if isinstance(seen, str):
            self.assertIn(seen, {*shown_filters.REASONS.values()})
            self.skipTest("the kernel shows no filters here")
        self.assertEqual([each[2].k for each in seen], [0x50077, 0x7fff0000])
        self.assertEqual([len(each) for each in seen], [4, 4])

    def test_what_is_told_in_part(self) -> None:
        whole = struct.pack("=IIII", 7, 0, 1, 8) + bpf.bytes_of(ALLOW) + struct.pack("=III", 8, 13, 0)
        slow = "it took too long"
        self.assertEqual(shown_filters.read_back(whole, [7, 8]), {7: (ALLOW,), 8: WITHOUT})
        for length in range(len(whole)):
            got = shown_filters.read_back(whole[:length], [7, 8])
            self.assertEqual(got, {7: (ALLOW,) if length >= 24 else slow, 8: slow})
        odd = struct.pack("=IIII", 7, 0, 1, 8) + bytes(8)
        self.assertEqual(shown_filters.read_back(odd, [7]), {7: shown_filters.UNREADABLE})

    def test_before_a_recording(self) -> None:
        evidence = Evidence()
        self.assertEqual(FilterLook(Proc(self.work), evidence).at_start([status(100, 0)]), {100: ()})
        self.assertEqual(evidence.doubts, [])


class Rings(Case):
    def proc(self, flags: int = 0x40, link: str = "/dev/null", maps: str = "") -> Proc:
        """A process 100 with a thread 101 of these flags, a descriptor, and a line of its memory."""
        for pid, own in ((100, 0x40), (101, flags)):
            words = ["S", "1", "1", "1", "0", "-1", str(own), "0"]
            self.put(f"/{pid}/stat", f"{pid} (a) b) {' '.join(words)}\n".encode())
            self.put(f"/{pid}/status", f"Name:\tx\nState:\tS (sleeping)\nTgid:\t100\nPid:\t{pid}\nPPid:\t1\n"
                     "TracerPid:\t0\n".encode())
        self.put("/100/task/100/x")
        self.put("/100/task/101/x")
        self.put("/100/maps", maps.encode())
        self.link("/100/fd/4", link)
        return Proc(self.work)

    def test_none(self) -> None:
        maps = "7f0000000000-7f0000001000 rw-s 0 00:0f 7 /tmp/anon_inode:[io_uring]\n"
        proc = self.proc(link="/tmp/anon_inode:[io_uring]", maps=maps)
        self.assertEqual(rings.doubts(proc, [100], "at the end"), [])
        self.assertIsNotNone(live_processes.glance(proc, 101))

    def test_a_descriptor(self) -> None:
        [text] = rings.doubts(self.proc(link="anon_inode:[io_uring]"), [100], "at the end")
        self.assertIn("process 100 has a ring of io_uring at the end, by a descriptor:", text)

    def test_memory(self) -> None:
        maps = "7f0000000000-7f0000001000 rw-s 0 00:0f 7 anon_inode:[io_uring]\n"
        [text] = rings.doubts(self.proc(maps=maps), [100], "at the start")
        self.assertIn("at the start, by memory:", text)

    def test_a_thread_is_no_member_and_a_doubt(self) -> None:
        proc = self.proc(flags=0x4050)
        [text] = rings.doubts(proc, [100], "at the end")
        self.assertIn("by a thread:", text)
        self.assertIsNone(live_processes.glance(proc, 101))
        self.assertIsNotNone(live_processes.glance(proc, 100))

    def test_another_thread_of_the_kernel(self) -> None:
        """As those of vhost: no member, and no ring."""
        proc = self.proc(flags=0x4040)
        self.assertEqual(rings.doubts(proc, [100], "at the end"), [])
        self.assertIsNone(live_processes.glance(proc, 101))


class OfAFamily(unittest.TestCase):
    """Filters that a world declares, against what the kernel showed of those of the family that is asked about."""
    WORLD = 'log = "strace"\n\n[[process]]\npid = 100\n\n[[process]]\npid = 200\n\n[filter]\nexclude = ["setuid"]\n'
    NONE = "the world declares none, and the log installs none that a member has"

    def test_others_do_not_matter(self) -> None:
        world = worlds.read(self.WORLD.encode())
        others = [status(100, 1), status(101, 1), status(200, 0)]
        told = list(world_doubts.filter_doubts(others, world))
        self.assertEqual(len(told), 1)
        self.assertIn("1 of process 100, 101; 0 of process 200", told[0].why)
        self.assertEqual(list(world_doubts.filter_doubts(others[:2], world)), [])
        self.assertIn("the kernel showed none", next(world_doubts.filter_doubts(others[2:], world)).why)
        world.exclude = None
        self.assertEqual(list(world_doubts.filter_doubts(others, world)), [])

    def test_evidence_for_the_one_that_is_asked_about(self) -> None:
        world = worlds.read(self.WORLD.encode())
        kept = recording.Recording(self.WORLD.encode(), b"", [status(100, 1), status(101, 1), status(200, 0)])
        given = Given(Paths("", ""), world, self.WORLD.encode(), b"", Evidence(), kept)
        for pids, wanted in (((100, 101), 0), ((200,), 1), ((100, 200), 1)):
            found = of_filters(given, pids, [])
            self.assertIn(FILTERS, found.established)
            self.assertEqual(sum(each.premise == FILTERS for each in found.doubts), wanted, pids)
        world.exclude = None
        self.assertEqual(of_filters(given, (100, 200), []).established[FILTERS], self.NONE)

    def test_a_filter_that_the_log_installs(self) -> None:
        """By hand it is the word of who wrote the log. No recorder writes one, so no kernel was asked about it."""
        world = worlds.read(self.WORLD.encode())
        refused, made = (Event(1, 100, "install", ("setuid",), result, ()) for result in ("EACCES", "0"))
        for exclude, event, kept, established, doubts in (
                (None, refused, False, self.NONE, 0), (None, made, False, BY_HAND, 0),
                (["setuid"], made, False, BY_HAND, 0), (None, refused, True, self.NONE, 0), (None, made, True, None, 1),
                (["setuid"], made, True, "the kernel showed as many filters for each of 1 member", 1)):
            with self.subTest((exclude, event.result, kept)):
                world.exclude = exclude
                shown = recording.Recording(self.WORLD.encode(), b"", [status(100, 1)]) if kept else None
                given = Given(Paths("", ""), world, self.WORLD.encode(), b"", Evidence(), shown)
                found = of_filters(given, (100,), [event])
                self.assertEqual(found.established.get(FILTERS), established)
                self.assertEqual([each.why for each in found.doubts],
                                 ["the log installs a filter that the kernel wasn't asked about"] * doubts)
