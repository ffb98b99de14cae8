"""Calls that change programs or mounts: each that matters is a doubt, and the log has none of them. The lines are as
strace 6.1 writes them; what matters is by inode(7), capabilities(7) and mount(2)."""
import os
from collections.abc import Sequence

from credaudit_tools.evidence.premises import FILES, MOUNTS
from credaudit_tools.strace_log import program_changes
from credaudit_tools.strace_log.kept_log import changes_text
from credaudit_tools.strace_log.line_filter import Filtering
from credaudit_tools.strace_log.program_changes import sets_ids

from .test_line_filter import ELF, Filtered

# What a process does, and the file that it touches so, None where it changes nothing that a scan sees. /opt/rise has a
# set-user-ID bit, /opt/plain has none, /opt/folder is a folder; /gone isn't there any more.
FILE_CALLS: list[tuple[str, str | None]] = [
    ('chmod("/opt/plain", 04755) = 0', "gave /opt/plain the mode 04755"),
    ('chmod("/opt/plain", 02755) = 0', "gave /opt/plain the mode 02755"),
    ('chmod("/opt/plain", 0755) = 0', None),
    ('chmod("/opt/plain", 04755) = -1 EPERM (Operation not permitted)', None),
    ('chmod("/opt/folder", 02775) = 0', None),
    ('chmod("/gone", 04755) = 0', "gave /gone the mode 04755"),
    ('chmod("plain", 06755) = 0', "gave plain the mode 06755"),
    ('fchmod(5</opt/plain>, 04711) = 0', "gave /opt/plain the mode 04711"),
    ('fchmod(5</opt/plain>, 0711) = 0', None),
    ('fchmodat(AT_FDCWD</opt>, "plain", 04755) = 0', "gave plain the mode 04755"),
    ('fchmodat(5</opt>, "folder", 02755) = 0', None),
    ('fchmodat2(AT_FDCWD</opt>, "plain", 04755, 0) = 0', "gave plain the mode 04755"),
    ('syscall_0x1c4(0xffffff9c, 0x55ab31e67014, 0x9ed, 0, 0x7f64d61966d0, 0) = 0', "gave something the mode 0x9ed"),
    ('syscall_0x1c4(0xffffff9c, 0x55ab31e67014, 0x1ed, 0, 0x7f64d61966d0, 0) = 0', None),
    ('chown("/opt/plain", 0, 0) = 0', None),
    ('chown("/opt/rise", 0, 0) = 0', "gave /opt/rise an owner and a group"),
    ('lchown32("/opt/rise", 0, 0) = 0', "gave /opt/rise an owner and a group"),
    ('fchownat(5</opt>, "rise", 0, 0, AT_SYMLINK_NOFOLLOW) = 0', "gave rise an owner and a group"),
    ('fchown(5</opt/rise>, 0, 0) = 0', "gave /opt/rise an owner and a group"),
    ('setxattr("/opt/plain", "security.capability", "\\1\\0\\0\\2", 20, 0) = 0',
     "changed security.capability of /opt/plain"),
    ('fsetxattr(5</opt/plain>, "security.capability", "\\1\\0\\0\\2", 20, 0) = 0',
     "changed security.capability of /opt/plain"),
    ('removexattr("/opt/plain", "security.capability") = 0', "changed security.capability of /opt/plain"),
    ('setxattr("/opt/plain", "user.note", "x", 1, 0) = 0', None),
    ('setxattr("/opt/plain", "system.posix_acl_access", "\\2\\0\\0\\0", 44, 0) = 0', None),
    ('setxattr("/opt/rise", "system.posix_acl_access", "\\2\\0\\0\\0", 44, 0) = 0',
     "changed system.posix_acl_access of /opt/rise"),
    ('syscall_0x1cf(0xffffff9c, 0x55ab31e67014, 0, 0x55ab31e67078, 0x7ffee4448e00, 0x10) = 0',
     "changed an attribute of a file by setxattrat"),
    ('link("/opt/other", "/opt/rise") = 0', "gave a program the name /opt/rise"),
    ('link("/opt/other", "/opt/plain") = 0', None),
    ('linkat(AT_FDCWD</opt>, "other", 5</opt>, "rise", 0) = 0', "gave a program the name rise"),
    ('rename("/gone", "/opt/rise") = 0', "gave a program the name /opt/rise"),
    ('renameat2(AT_FDCWD</opt>, "rise", AT_FDCWD</opt>, "plain", RENAME_EXCHANGE) = 0', "gave a program the name rise"),
    ('renameat(AT_FDCWD</opt>, "other", AT_FDCWD</opt>, "plain") = 0', None),
    ('mknodat(AT_FDCWD</opt>, "m", S_IFREG|S_ISUID|0755) = 0', "made m with the mode S_IFREG|S_ISUID|0755"),
    ('mknod("/opt/m", S_IFREG|0755) = 0', None),
    ('openat(AT_FDCWD</opt>, "rise", O_RDWR|O_CREAT, 04755) = 3</opt/rise>', "made /opt/rise with the mode 04755"),
    ('openat(AT_FDCWD</opt>, "plain", O_RDWR|O_CREAT, 04755) = 3</opt/plain>', None),
    ('openat(AT_FDCWD</opt>, "plain", O_RDWR|O_CREAT, 0755) = 3</opt/plain>', None),
    ('open("/opt", O_RDWR|O_TMPFILE, 04700) = 8</opt/#1058541>(deleted)', "made /opt/#1058541 with the mode 04700"),
    ('creat("/opt/rise", 04755) = 3</opt/rise>', "made /opt/rise with the mode 04755"),
    ('openat2(AT_FDCWD</opt>, "rise", {flags=O_WRONLY|O_CREAT, mode=04755, resolve=0}, 24) = 3</opt/rise>',
     "made /opt/rise with the mode 04755"),
    ('openat2(AT_FDCWD</opt>, "plain", {flags=O_RDONLY, resolve=0}, 24) = 3</opt/plain>', None),
]
MOUNT_CALLS: list[tuple[str, str | None]] = [
    ('mount("tmpfs", "/mnt", "tmpfs", 0, "mode=755") = 0', "mount (tmpfs, /mnt)"),
    ('mount("tmpfs", "/mnt", "tmpfs", MS_NOSUID|MS_NODEV, "mode=755") = 0', None),
    ('mount("proc", "/mnt", "proc", 0, NULL) = 0', None),
    ('mount(NULL, "/", NULL, MS_REC|MS_PRIVATE, NULL) = 0', None),
    ('mount("/opt", "/mnt", NULL, MS_NOSUID|MS_BIND, NULL) = 0', "mount (/opt, /mnt)"),
    ('mount(NULL, "/mnt", NULL, MS_NOSUID|MS_REMOUNT|MS_BIND, NULL) = 0', None),
    ('mount(NULL, "/mnt", NULL, MS_REMOUNT|MS_BIND, NULL) = 0', "mount (/mnt)"),
    ('mount("/mnt", "/srv", NULL, MS_MOVE, NULL) = 0', "mount (/mnt, /srv)"),
    ('mount("tmpfs", "/mnt", "tmpfs", 0, NULL) = -1 EPERM (Operation not permitted)', None),
    ('umount2("/mnt", MNT_DETACH) = 0', "umount2 (/mnt)"),
    ('mount_setattr(AT_FDCWD</opt>, "/mnt", 0, {attr_set=0, attr_clr=MOUNT_ATTR_NOSUID, propagation=0, userns_fd=0},'
     ' 32) = 0', "mount_setattr (/mnt)"),
    ('mount_setattr(AT_FDCWD</opt>, "/mnt", 0, {attr_set=MOUNT_ATTR_NOSUID, attr_clr=0, propagation=0, userns_fd=0},'
     ' 32) = 0', None),
    ('move_mount(4</>, "", AT_FDCWD</opt>, "/mnt", MOVE_MOUNT_F_EMPTY_PATH) = 0', "move_mount (/mnt)"),
    ('pivot_root(".", "old") = 0', "pivot_root (., old)"),
]


class Changing(Filtered):
    def setUp(self) -> None:
        super().setUp()
        os.makedirs(os.path.join(self.work, "opt/folder"))
        self.put("/opt/other", ELF, 0o755)

    def followed(self, bodies: Sequence[str], pid: int = 100) -> tuple[Filtering, list[tuple[str, str]]]:
        """A filter that was fed with these lines, and its doubts."""
        filtering = self.filtering()
        filtering.changing.clock = lambda: 77.0
        filtering.feed(b'100 chdir("/opt") = 0')
        self.assertIsNone(self.fed(filtering, [f"{pid} {body}" for body in bodies]))
        return filtering, [(each.premise, each.why) for each in filtering.taken.evidence.doubts]

    def test_files(self) -> None:
        for body, what in FILE_CALLS:
            with self.subTest(body):
                filtering, doubts = self.followed([body])
                wanted = [] if what is None else [(FILES, f"after line 0 of the log process 100 {what}")]
                self.assertEqual(doubts, wanted)
                self.assertEqual(filtering.changing.changed_at, 77.0 if wanted else None)
                self.assertEqual(filtering.taken.lines, [])
                self.assertEqual("no rule reads it" in changes_text(filtering.taken), bool(wanted))

    def test_mounts(self) -> None:
        for body, what in MOUNT_CALLS:
            with self.subTest(body):
                filtering, doubts = self.followed([body])
                self.assertEqual(doubts, [] if what is None else
                                 [(MOUNTS, f"after line 0 of the log process 100 changed the mounts by {what}")])
                self.assertEqual(filtering.taken.lines, [])

    def test_mounts_of_a_namespace_of_ones_own(self) -> None:
        """What happens there shows at the end, by who stands in it."""
        for front in ("unshare(CLONE_NEWNS) = 0", "setns(3<mnt:[4026532177]>, CLONE_NEWNS) = 0"):
            for body, _ in MOUNT_CALLS:
                self.assertEqual(self.followed([front, body])[1], [], body)

    def test_a_file_with_capabilities(self) -> None:
        """Its mode says who may run it."""
        real = program_changes.kind_of
        self.addCleanup(setattr, program_changes, "kind_of", real)
        program_changes.kind_of = lambda place: (
            (0o100755, True) if place and place.endswith(b"/opt/plain") else real(place))
        for body in ('chmod("/opt/plain", 0755) = 0', 'chown("/opt/plain", 1, 1) = 0', 'link("/x", "/opt/plain") = 0'):
            self.assertEqual([premise for premise, _ in self.followed([body])[1]], [FILES], body)

    def test_modes(self) -> None:
        for mode, sets in ((b"04755", True), (b"02000", True), (b"0755", False), (b"0", False), (b"01777", False),
                           (b"S_IFREG|S_ISGID|0644", True), (b"S_IFREG|0644", False), (b"0x9ed", True),
                           (b"0x1ed", False), (b"?", True)):
            self.assertEqual(sets_ids(mode), sets, mode)
