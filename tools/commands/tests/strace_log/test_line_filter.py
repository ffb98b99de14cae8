"""What a recording makes of strace's lines: the stored cases of silent.txt, and hostile names."""
import os
import shutil
from dataclasses import replace
from unittest import mock

from credaudit_tools.executed import looked_up
from credaudit_tools.executed.executed_files import Executed
from credaudit_tools.strace_log.followed_processes import Files, Followed, Place, Task
from credaudit_tools.strace_log.kept_log import Stopped, changes_text, filters_text
from credaudit_tools.strace_log.line_filter import Filtering
from credaudit_tools.strace_log.map_files import RunningSystem
from credaudit_tools.system.proc import Proc
from credaudit_tools.system.running_kernel import executable

from ..support import Case, cases, set_ids_stay

ELF = b"\x7fELF..."
MOUNTS = b"""21 1 254:0 / / rw - ext4 /dev/vda rw
22 21 0:20 / /proc rw - proc proc rw
23 21 0:40 / /mnt/second rw - proc proc rw
24 21 0:20 /101 /mnt/part rw - proc proc rw
25 21 0:41 / /mnt/inner rw - proc proc rw
26 21 0:20 /101/uid_map /mnt/innocent rw - proc proc rw
27 21 0:20 /900/gid_map /mnt/stranger rw - proc proc rw
"""


class StoredSystem(RunningSystem):
    """A system whose files and whose /proc lie in a folder."""

    def __init__(self, root: str) -> None:
        super().__init__(Proc(os.path.join(root, "proc")))
        self.root = os.fsencode(root)

    def top_of(self, task: Task, followed: Followed) -> bytes:
        return self.root


class Filtered(Case):
    def setUp(self) -> None:
        super().setUp()
        for name in ("/opt/rise", "/srv/jail/bin/rise"):
            if not set_ids_stay(self.put(name, ELF)):
                self.skipTest("set-user-ID bits can't be set here")
        self.put("/opt/plain", ELF, 0o755)
        self.put("/opt/script", b"#!/opt/rise -x\n", 0o755)
        self.put("/opt/plain_script", b"#! /opt/plain\n", 0o755)
        self.put("/opt/odd", b"odd", 0o755)
        self.put("/tmp/100/uid_map")
        self.put("/usr/bin/nothing")
        for name, target in (("/bin", "usr/bin"), ("/usr/short", "/opt"), ("/dev/fd", "/proc/self/fd"),
                             ("/srv/jail/bin/out", "/bin/rise"), ("/proc/self", str(os.getpid())),
                             ("/proc/100/fd/3", "/x"), ("/proc/100/fd/9", "/x"), ("/proc/100/exe", "/x")):
            self.link(name, target)
        for pid, inner in ((100, ""), (101, ""), (102, ""), (104, "\t1")):
            self.put(f"/proc/{pid}/status", f"Name:\tx\nNSpid:\t{pid}{inner}\n".encode())
            self.put(f"/proc/{pid}/mountinfo", MOUNTS)
        self.put("/proc/100/task/100/children", b"99 105 ")
        self.put("/proc/sys/kernel/cap_last_cap", b"40\n")
        for pid, number in ((100, 4026531837), (101, 4026532177), (102, 4026531837)):
            self.link(f"/proc/{pid}/ns/user", f"user:[{number}]")

    def filtering(self) -> Filtering:
        followed = Followed()
        followed.add(Task(100, 0, Place(b"/home"), Files(), b"/opt/plain"))
        return Filtering(followed, Executed(), StoredSystem(self.work))

    def fed(self, filtering: Filtering, lines: list[str]) -> str | None:
        """Feeds lines; why it stopped."""
        try:
            for line in lines:
                filtering.feed(line.encode("latin-1"))
            filtering.finish()
        except Stopped as stopped:
            return str(stopped)
        return None


def doubts_of(filtering: Filtering) -> list[str]:
    """The doubts of a filter of lines, without their rows."""
    return [each.why for each in filtering.taken.evidence.doubts]


class Silent(Filtered):
    def test_cases(self) -> None:
        for title, lines in cases("silent.txt"):
            with self.subTest(title):
                wanted: dict[str, list[str]] = {"": [], "kept": [], "doubt": [], "stopped": [], "file": []}
                for mark, line in lines:
                    wanted[mark].append(line)
                filtering = self.filtering()
                stopped = self.fed(filtering, wanted[""])
                self.assertEqual([line.decode() for line in filtering.taken.lines], wanted["kept"])
                self.assertEqual([stopped] if stopped else [], wanted["stopped"])
                self.assertEqual(doubts_of(filtering) + filtering.executed.doubts, wanted["doubt"])
                self.assertEqual(sorted(" ".join(filter(None, (row.path, f"{row.mode:04o}", row.interpreter)))
                                        for row in filtering.executed.files.values()), sorted(wanted["file"]))
                self.assertNotIn("hunter", changes_text(filtering.taken) + filters_text(filtering.taken))

    def test_there_are_enough(self) -> None:
        self.assertGreaterEqual(len(list(cases("silent.txt"))), 60)

    def test_a_text_like_a_map_of_a_process_that_is_gone(self) -> None:
        for pid in (100, os.getpid()):
            shutil.rmtree(os.path.join(self.work, "proc", str(pid)), ignore_errors=True)
        filtering = self.filtering()
        self.assertIsNone(self.fed(filtering, ['100 write(3</tmp/a>, "0 0 1\\n", 6) = 6']))
        self.assertEqual(doubts_of(filtering), ["process 100 wrote what looks like a map to /tmp/a, and whether that is"
                                                " one, and whose, isn't known"])


# Bytes of a name, and how a recording's log and world have it.
HOSTILE = [
    (b"a b", r"a\040b"), (b"a\nb", r"a\012b"), (b"a\tb", r"a\011b"), (b'a"b', 'a"b'), (b"a\\b", r"a\b"),
    (b"a\x1b[2Jb", r"a\033[2Jb"), (b"a<b", "a<b"), (b"a>b", "a>b"), (b"\xff\xfe", r"\377\376"), (b"a\x7fb", r"a\177b"),
    (b"-", "-"), (b"--help", "--help"), (b"a'b", "a'b"), (b"$(id)", "$(id)"), (b"a;b", "a;b"),
    (b"[[file]]", "[[file]]"), (b"a#b", "a#b"), (b"\xe2\x80\xae", "\u202e"),
]


class Refusing(Filtered):
    """An execve that fails for its file's attribute (capabilities(7), "Safety checking for capability-dumb binaries"):
    the rules know it by the file, so it is declared."""

    def setUp(self) -> None:
        super().setUp()
        with_bits = (b"\0\0\0\2" + (1 << 13).to_bytes(4, "little") + bytes(12)).replace(b"\0", b"\1", 1)
        self.caps = with_bits.hex()
        self.enterContext(mock.patch.object(looked_up, "executable", lambda handle, path: replace(
            executable(handle, path), caps=with_bits if path == b"/opt/ping" else None)))
        self.put("/opt/ping", ELF, 0o755)
        self.put("/opt/pings", b"#!/opt/ping\n", 0o755)

    def test_of_a_file_and_of_a_scripts_interpreter(self) -> None:
        for path, names in (("/opt/ping", ["/opt/ping"]), ("/opt/pings", ["/opt/ping", "/opt/pings"])):
            filtering, failed = self.filtering(), "= -1 EPERM (Operation not permitted)"
            self.assertIsNone(self.fed(filtering, [f'100 execve("{path}", ["x"], 0x7ffe /* 3 vars */) {failed}']))
            self.assertEqual(filtering.taken.lines, [f'100 execve("{path}", [], NULL) {failed}'.encode()])
            self.assertEqual(sorted(filtering.executed.files), names)
            self.assertEqual(filtering.executed.files["/opt/ping"].caps, self.caps)
            self.assertEqual(doubts_of(filtering) + filtering.executed.doubts, [])

    def test_of_a_file_that_is_not_there(self) -> None:
        filtering = self.filtering()
        self.assertIsNone(self.fed(filtering, ['100 execve("/gone", ["x"], []) = -1 EPERM (Operation not permitted)']))
        self.assertEqual(filtering.taken.lines, [])
        self.assertIn("left out: 1 failed calls of which no rule speaks\n", changes_text(filtering.taken))


class Counted(Filtered):
    def test_what_is_cut_off_is_counted(self) -> None:
        front = "100 capset({version=_LINUX_CAPABILITY_VERSION_3, pid=0}, {effective=0, permitted=0, inheritable="
        for told, counts in (("0", []), ("0xfe00 /* CAP_??? */", [1]), ("1<<CAP_MKNOD|0xfe00", [1])):
            filtering = self.filtering()
            self.assertIsNone(self.fed(filtering, [front + told + "}) = 0"]))
            self.assertEqual(list(filtering.taken.counted.values()), counts, told)
            self.assertEqual("past the last capability" in changes_text(filtering.taken), bool(counts))


class Unseen(Filtered):
    """An execve of a file whose mount is gone as its line comes: it is told by what the process executes."""

    def executed(self, told: str, line: str) -> tuple[str | None, Filtering]:
        os.remove(os.path.join(self.work, "proc/100/exe"))
        self.link("/proc/100/exe", told)
        filtering = self.filtering()
        return self.fed(filtering, [line]), filtering

    def test_what_the_process_executes(self) -> None:
        for name, mode in (("rise", 0o4755), ("plain", 0o755)):
            stopped, filtering = self.executed(f"{self.work}/opt/{name}", f'100 execve("/mnt/gone/{name}", [], []) = 0')
            self.assertIsNone(stopped)
            self.assertEqual(filtering.taken.lines, [f'100 execve("/mnt/gone/{name}", [], NULL) = 0'.encode()])
            self.assertEqual([(row.path, row.mode) for row in filtering.executed.files.values()],
                             [(f"/mnt/gone/{name}", mode)] if mode & 0o4000 else [])
            self.assertEqual(doubts_of(filtering) + filtering.executed.doubts, [])
            self.assertIn(f"execve of /mnt/gone/{name}: its path leads nowhere any more", changes_text(filtering.taken))

    def test_what_is_another_file(self) -> None:
        """A script, of which its interpreter shows; another name; nothing at all."""
        for told, line in ((f"{self.work}/opt/rise", '100 execve("/mnt/gone/script", [], []) = 0'),
                           (f"{self.work}/opt/script", '100 execve("/mnt/gone/script", [], []) = 0'),
                           (f"{self.work}/opt/rise", '100 execve("gone/rise", [], []) = 0'),
                           ("/x/rise", '100 execve("/mnt/gone/rise", [], []) = 0')):
            stopped, filtering = self.executed(told, line)
            self.assertIn("which file that is isn't known", stopped or "")
            self.assertEqual(filtering.taken.lines, [])


class Hostile(Filtered):
    def test_a_name_becomes_nothing_else(self) -> None:
        from credaudit_tools.formats import strace_lines, worlds
        for name, shown in HOSTILE:
            with self.subTest(name=name):
                set_ids_stay(self.put(b"/opt/" + name, ELF))
                filtering = self.filtering()
                line = b"100 execve(" + strace_lines.quoted(b"/opt/" + name) + b", [], 0x7ffe) = 0"
                self.assertIsNone(self.fed(filtering, [line.decode("latin-1")]))
                self.assertEqual(len(filtering.taken.lines), 1)
                path = filtering.taken.lines[0][len(b"100 execve("):].rpartition(b", [], NULL")[0]
                self.assertEqual(strace_lines.text_of(path), (("/opt/" + shown).encode(), True))
                world = worlds.World(files=list(filtering.executed.files.values()))
                self.assertEqual([row.path for row in worlds.read(worlds.written(world)).files], ["/opt/" + shown])
                text = changes_text(filtering.taken)
                self.assertTrue(all(" " <= each <= "~" or each == "\n" for each in text), text)
                self.assertEqual(text.count("\n"), 1 if shown.encode() != name else 0, text)
