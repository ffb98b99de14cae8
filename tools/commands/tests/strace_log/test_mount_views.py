"""Programs that don't lie in the mount namespace of who executes them: the kernel takes neither set-id bits nor
capabilities there (seen on 6.18, docs/KERNEL.md), and the rules do. /opt/rise has a set-user-ID bit."""
from credaudit_tools.evidence import kernel_page_rows
from credaudit_tools.evidence.evidence import Evidence
from credaudit_tools.evidence.premises import KERNEL
from credaudit_tools.replay.recording import Made, Recording
from credaudit_tools.strace_log.followed_processes import DETACHED
from credaudit_tools.strace_log.mount_views import at_start
from credaudit_tools.verify import verification

from .test_line_filter import Filtered

OPEN = 'openat(AT_FDCWD</home>, "/opt/rise", O_RDONLY|O_CLOEXEC) = 3</opt/rise>'
FOLDER = 'openat(AT_FDCWD</home>, "/opt", O_RDONLY|O_DIRECTORY) = 3</opt>'
APART, CLONE = "unshare(CLONE_NEWNS) = 0", 'open_tree(AT_FDCWD</home>, "/", OPEN_TREE_CLONE|OPEN_TREE_CLOEXEC) = 3</>'
BY_DESCRIPTOR = 'execveat(3</opt/rise>, "", ["id"], [], AT_EMPTY_PATH) = 0'
PLAIN = 'execve("/opt/rise", ["id"], []) = 0'
OTHER, LOOSE, MAYBE = "it lies in another mount namespace", "it lies on a detached mount", \
    "it may lie in another mount namespace"
# What a process does, and why the last file that it executes may be another one's; None where it is its own.
CASES: list[tuple[list[str], str | None]] = [
    ([OPEN, BY_DESCRIPTOR], None),
    ([OPEN, APART, BY_DESCRIPTOR], OTHER),
    ([APART, OPEN, BY_DESCRIPTOR], None),
    ([OPEN, APART, 'execve("/proc/self/fd/3", ["id"], []) = 0'], OTHER),
    ([OPEN, APART, 'execve("/dev/fd/3", ["id"], []) = 0'], OTHER),
    ([OPEN, "dup2(3</opt/rise>, 7) = 7</opt/rise>", APART, BY_DESCRIPTOR.replace("3<", "7<")], OTHER),
    ([OPEN, "fcntl(3</opt/rise>, F_DUPFD, 8) = 8</opt/rise>", APART, BY_DESCRIPTOR.replace("3<", "8<")], OTHER),
    ([OPEN, "setns(5<mnt:[4026532177]>, CLONE_NEWNS) = 0", BY_DESCRIPTOR], OTHER),
    ([FOLDER, APART, 'execveat(3</opt>, "rise", ["id"], [], 0) = 0'], OTHER),
    ([FOLDER, APART, "fchdir(3</opt>) = 0", 'execve("rise", ["id"], []) = 0'], OTHER),
    ([FOLDER, APART, "fchdir(3</opt>) = 0", PLAIN], None),
    ([FOLDER, APART, "fchdir(3</opt>) = 0", 'chdir("/opt") = 0', 'execve("rise", ["id"], []) = 0'], None),
    (['chdir("/opt") = 0', APART, 'execve("rise", ["id"], []) = 0'], None),
    ([CLONE, 'execveat(3</>, "opt/rise", ["id"], [], 0) = 0'], LOOSE),
    ([CLONE, "fchdir(3</>) = 0", 'execve("opt/rise", ["id"], []) = 0'], LOOSE),
    ([CLONE, "fchdir(3</>) = 0", 'chroot(".") = 0', PLAIN], LOOSE),
    ([CLONE, 'openat(3</>, "opt/rise", O_PATH) = 4</opt/rise>', BY_DESCRIPTOR.replace("3<", "4<")], LOOSE),
    ([CLONE, 'move_mount(3</>, "", AT_FDCWD</home>, "/mnt", MOVE_MOUNT_F_EMPTY_PATH) = 0',
      'execveat(3</>, "opt/rise", ["id"], [], 0) = 0'], None),
    (["fsmount(6<anon_inode:[fscontext]>, 0, 0) = 3</>", 'execveat(3</>, "opt/rise", ["id"], [], 0) = 0'], LOOSE),
    ([APART, BY_DESCRIPTOR], MAYBE),
    ([OPEN, APART, PLAIN], None),
    ([OPEN, APART, BY_DESCRIPTOR.replace("rise", "plain")], None),
    ([OPEN, APART, BY_DESCRIPTOR.replace("= 0", "= -1 EACCES (Permission denied)")], None),
]


class Foreign(Filtered):
    def test_cases(self) -> None:
        for bodies, why in CASES:
            with self.subTest(bodies):
                filtering = self.filtering()
                self.assertIsNone(self.fed(filtering, [f"100 {body}" for body in bodies]))
                told = [each for each in filtering.taken.evidence.doubts if each.premise == KERNEL]
                line = len(filtering.taken.lines)
                self.assertEqual([each.why for each in told], [] if why is None else
                                 [f"{kernel_page_rows.FOREIGN} (line {line}: process 100 executed /opt/rise,"
                                  f" and {why})"])

    def test_a_child_has_the_descriptors_of_its_parent(self) -> None:
        filtering = self.filtering()
        self.assertIsNone(self.fed(filtering, [
            f"100 {OPEN}", "100 clone(child_stack=NULL, flags=CLONE_NEWNS|SIGCHLD) = 101", f"101 {BY_DESCRIPTOR}"]))
        self.assertIn(OTHER, filtering.taken.evidence.doubts[-1].why)

    def test_at_the_start(self) -> None:
        """By the mounts of the process; what has none of them is taken to lie on a detached one."""
        mounts = b"21 1 254:0 / / rw - ext4 /dev/vda rw\n"
        told = {3: b"pos:\t0\nmnt_id:\t21\n", 4: b"pos:\t0\nmnt_id:\t99\n", 5: None, 6: b"mnt_id:\t15\n"}
        paths = {3: b"/opt/rise", 4: b"/opt/rise", 5: b"/opt/rise", 6: b"pipe:[7]"}
        self.assertEqual(at_start(paths, mounts, told), {4: DETACHED, 5: DETACHED})

    def test_a_difference_is_told_with_its_row(self) -> None:
        evidence = Evidence()
        evidence.doubt(KERNEL, f"{kernel_page_rows.FOREIGN} (line 3: process 100 executed /opt/rise, and {OTHER})")
        kept = Recording(b"", b"", [], None, Made(evidence=evidence))
        self.assertEqual(verification.foreign_of(kept), {100})
        self.assertEqual(verification.foreign_of(Recording(b"", b"", [])), set())
