"""The running kernel as a capture asks it, as far as that needs no root: this process and its own files; what needs
root has a stand-in."""
import errno
import os
import signal
import subprocess
import unittest
from unittest import mock

from credaudit_tools.capture import capture_command, freezer
from credaudit_tools.command_line.command import BROKEN, FAILED, FOUND, GOOD, USAGE, Failure
from credaudit_tools.formats import worlds
from credaudit_tools.system import mounts, namespace_holder, running_kernel
from credaudit_tools.system.kernel_questions import Program, Trouble
from credaudit_tools.system.namespace_holder import CLONE_NEWUSER, Standing
from credaudit_tools.system.namespaces import INITIAL_INODE, UserSpace
from credaudit_tools.system.proc import Proc
from credaudit_tools.system.running_kernel import Live, walk_tree
from credaudit_tools.system.safe_open import PLACE, ROOTED, WITHIN, mount_number, safe_open

from .. import support
from ..capture.test_capture import SYSTEMS
from ..plain_program import Plain
from ..stored_system import StoredSystem, put


class Here:
    """Stands for a process that stands in a namespace: this one."""

    def __init__(self, _handle: int, _kind: int) -> None:
        self.pid = os.getpid()

    def leave(self) -> None:
        pass


class Opened(support.Case):
    """Opening by paths that others may change."""

    def top(self) -> int:
        handle = os.open(self.work, os.O_PATH | os.O_DIRECTORY)
        self.addCleanup(os.close, handle)
        return handle

    def refused(self, path: bytes, resolve: int = WITHIN) -> int:
        with self.assertRaises(OSError) as raised:
            os.close(safe_open(self.top(), path, os.O_PATH, resolve))
        return raised.exception.errno or 0

    def test_what_is_below(self) -> None:
        self.put("a/b", b"x")
        handle = safe_open(self.top(), b"a/b", PLACE, WITHIN)
        self.assertEqual(os.fstat(handle).st_size, 1)
        self.assertEqual(mount_number(handle), mount_number(self.top()))
        os.close(handle)

    def test_links_lead_nowhere(self) -> None:
        self.put("a/b", b"x")
        self.link("out", "/etc")
        self.link("up", "../..")
        self.link("inside", "a")
        self.assertEqual(self.refused(b"out/passwd"), errno.ELOOP)
        self.assertEqual(self.refused(b"inside/b"), errno.ELOOP)
        self.assertEqual(self.refused(b"../"), errno.EXDEV)

    def test_links_within_a_root(self) -> None:
        self.put("bin/dash", b"x")
        self.link("bin/sh", "/bin/dash")
        self.link("escape", "../../../../etc/passwd")
        handle = safe_open(self.top(), b"bin/sh", os.O_PATH, ROOTED)
        self.assertTrue(os.readlink(f"/proc/self/fd/{handle}").endswith("/bin/dash"))
        os.close(handle)
        self.assertEqual(self.refused(b"escape", ROOTED), errno.ENOENT)

    def test_another_mount_is_not_entered(self) -> None:
        handle = os.open("/", os.O_PATH | os.O_DIRECTORY)
        self.addCleanup(os.close, handle)
        with self.assertRaises(OSError) as raised:
            safe_open(handle, b"proc/version", PLACE, WITHIN)
        self.assertEqual(raised.exception.errno, errno.EXDEV)


class Walked(support.Case):
    """Walks of a tree of one's own files."""

    def setUp(self) -> None:
        super().setUp()
        if not support.set_ids_stay(self.put("probe")):
            self.skipTest("no set-id bits here")

    def walk(self, skip: frozenset[bytes] = frozenset()) -> list[Program | Trouble | int]:
        top = os.open(os.path.join(self.work, "tree"), os.O_PATH | os.O_DIRECTORY)
        try:
            return list(walk_tree(top, b"/top", 7, skip))
        finally:
            os.close(top)

    def test_programs_with_set_id_bits(self) -> None:
        self.put("tree/plain", b"\x7fELF", 0o755)
        self.put("tree/a/b/su", b"\x7fELF", 0o4755)
        self.put("tree/chage", b"#!/bin/sh\n", 0o2755)
        os.mkfifo(os.path.join(self.work, "tree", "pipe"), 0o4777)
        self.link("tree/link", "a/b/su")
        self.link("tree/folder", "a")
        *found, count = self.walk()
        programs = {each.path: each for each in found if isinstance(each, Program)}
        self.assertEqual((sorted(programs), len(found), count), ([b"/top/a/b/su", b"/top/chage"], 2, 3))
        su = programs[b"/top/a/b/su"]
        self.assertEqual((su.mode & 0o7777, su.uid, su.caps, su.start, su.listed, su.mount),
                         (0o4755, os.getuid(), None, b"\x7fELF", False, 7))

    def test_directories_that_are_left_out(self) -> None:
        for path in ("tree/su", "tree/a/su", "tree/a/b/su", "tree/ab/su", "tree/c/a/su"):
            self.put(path, b"\x7fELF", 0o4755)
        *found, count = self.walk(frozenset([b"/top/a", b"/top/c/a", b"/top/su", b"/other"]))
        self.assertEqual((sorted(each.path for each in found if isinstance(each, Program)), len(found), count),
                         ([b"/top/ab/su", b"/top/su"], 2, 2))

    def test_counts_come_meanwhile(self) -> None:
        for number in range(7):
            self.put(f"tree/{number}/file")
        with mock.patch.object(running_kernel, "EVERY", 5):
            self.assertEqual(self.walk(), [0, 3, 7])

    def test_a_deep_tree_is_told(self) -> None:
        path = os.path.join(self.work, "tree")
        os.makedirs(path)
        before = os.getcwd()
        self.addCleanup(os.chdir, before)
        os.chdir(path)
        for _ in range(30):
            os.mkdir("d" * 200)
            os.chdir("d" * 200)
        os.chdir(before)
        troubles = [each for each in self.walk() if isinstance(each, Trouble)]
        self.assertEqual([each.why for each in troubles], [os.strerror(errno.ENAMETOOLONG)])

    def test_what_cannot_be_read_is_told(self) -> None:
        self.put("tree/a/su", b"", 0o4755)
        denied = PermissionError(errno.EACCES, os.strerror(errno.EACCES))
        with mock.patch.object(running_kernel, "safe_open", side_effect=denied):
            found = self.walk()
        self.assertEqual([each.why for each in found if isinstance(each, Trouble)], ["Permission denied"])

    def test_an_attribute_that_cannot_be_read_is_told(self) -> None:
        self.put("tree/su", b"", 0o755)
        with mock.patch.object(os, "getxattr", side_effect=OSError(errno.EIO, os.strerror(errno.EIO))):
            found = self.walk()
        self.assertEqual([each.why for each in found if isinstance(each, Trouble)], ["Input/output error"])


class Kernel(support.Case):
    """The kernel's answers about this process."""

    def setUp(self) -> None:
        super().setUp()
        self.live = Live()
        self.addCleanup(self.live.close)
        for name in ("Standing",):
            patch = mock.patch.object(running_kernel, name, Here)
            patch.start()
            self.addCleanup(patch.stop)
        self.mounts = self.live.space_of(os.getpid(), os.getpid(), "mnt") or 0

    def test_namespaces_of_this_process(self) -> None:
        pid = os.getpid()
        self.assertEqual(self.live.space_of(pid, pid, "user"), os.stat("/proc/self/ns/user").st_ino)
        self.assertEqual(self.mounts, os.stat("/proc/self/ns/mnt").st_ino)
        self.assertIsNone(self.live.space_of(pid, pid, "none"))

    def test_a_user_namespace(self) -> None:
        pid = os.getpid()
        key = self.live.space_of(pid, pid, "user") or 0
        told = self.live.user_space(key)
        self.assertIsInstance(told, UserSpace)
        self.assertEqual(told.key, key)
        self.assertIn(told.setgroups, ("allow", "deny"))

    def test_other_namespaces(self) -> None:
        handle = os.open("/proc/self/ns/user", os.O_RDONLY)
        self.addCleanup(os.close, handle)
        own = os.stat("/proc/self/ns/user").st_ino
        self.assertIn(own, self.live.held_by(os.getpid()))
        found, _ = self.live.other_spaces()
        self.assertIn(own, found)

    def test_a_namespace_bound_to_a_file(self) -> None:
        table = "5 1 0:4 user:[4026531837] /run/ns rw - nsfs nsfs rw\n6 1 0:4 net:[1] /run/net rw - nsfs nsfs rw\n"
        with mock.patch.object(Proc, "read", return_value=table.encode()), \
                mock.patch.object(Live, "opened", return_value={7}) as opened:
            self.assertEqual(self.live.mounted(5), {7})
        opened.assert_called_once_with([b"/proc/5/root/run/ns"])
        self.assertEqual(self.live.opened([os.fsencode(self.put("plain")), b"/there/is/none"]), set())

    def test_mounts_and_files(self) -> None:
        table = mounts.table(self.live.mount_table(self.mounts))
        self.assertTrue(any(mount.point == b"/" for mount in table))
        path = os.fsencode(self.put("tree/tool", b"#!/bin/sh\n", 0o4755))
        place = self.live.place(self.mounts, path, ROOTED)
        number = mount_number(place)
        os.close(place)
        found = [each for each in self.live.walk(self.mounts, os.fsencode(self.work), number)
                 if isinstance(each, Program)]
        self.assertEqual([each.path for each in found], [path])
        self.assertEqual([each.path for each in self.live.walk(self.mounts, path, number) if isinstance(each, Program)],
                         [path])
        self.assertEqual(list(self.live.walk(self.mounts, path, 0)), [Trouble(path, "another mount hides it")])
        self.assertIsInstance(next(self.live.walk(self.mounts, b"/there/is/none", 0)), Trouble)

    def test_directories(self) -> None:
        self.put("one/file")
        self.link("link", "one")
        for name, is_one in (("one", True), ("one/file", False), ("link", False), ("none", False)):
            path = os.fsencode(os.path.join(self.work, name))
            self.assertEqual(self.live.is_directory(self.mounts, path), is_one, name)
        self.assertTrue(self.live.is_directory(self.mounts, b"/"))

    def test_inodes(self) -> None:
        told = os.statvfs(self.work)
        with mock.patch.object(os, "statvfs", return_value=told):
            self.assertEqual(self.live.inodes(self.mounts, os.fsencode(self.work)), told.f_files - told.f_ffree)
        self.assertGreaterEqual(self.live.inodes(self.mounts, b"/"), 0)
        self.assertEqual(self.live.inodes(self.mounts, b"/there/is/none"), 0)
        with mock.patch.object(os, "statvfs", side_effect=OSError(errno.EIO, os.strerror(errno.EIO))):
            self.assertEqual(self.live.inodes(self.mounts, b"/"), 0)

    def test_a_walk_leaves_directories_out(self) -> None:
        self.put("tree/a/tool", b"", 0o4755)
        top = os.fsencode(os.path.join(self.work, "tree"))
        place = self.live.place(self.mounts, top, ROOTED)
        number = mount_number(place)
        os.close(place)
        self.assertEqual(list(self.live.walk(self.mounts, top, number, frozenset([top + b"/a"]))), [0])

    def test_interpreters(self) -> None:
        path = os.fsencode(self.put("dash", b"\x7fELF", 0o755))
        self.link("sh", "dash")
        found = self.live.resolve(self.mounts, os.fsencode(self.work) + b"/sh")
        self.assertIsInstance(found, Program)
        self.assertEqual(found.path, path)
        self.assertEqual(self.live.resolve(self.mounts, b"/there/is/none"),
                         Trouble(b"/there/is/none", os.strerror(errno.ENOENT)))
        self.assertEqual(self.live.resolve(self.mounts, os.fsencode(self.work)),
                         Trouble(os.fsencode(self.work), "it is no regular file"))

    def test_folders_above(self) -> None:
        path = os.fsencode(self.put("one/two/file"))
        found = self.live.directory_modes(self.mounts, path)
        self.assertEqual(found[0][0], b"/")
        self.assertEqual(found[-1][0], os.path.dirname(path))
        self.assertEqual(self.live.directory_modes(self.mounts, b"/there/is/none")[-1][0], b"/")

    def test_whose_mounts_they_are(self) -> None:
        try:
            owner = self.live.owner_of_mounts(self.mounts)
        except OSError:
            self.skipTest("the owner of this mount namespace isn't shown here")
        self.assertEqual(owner, INITIAL_INODE)

    def test_who_is_hidden(self) -> None:
        self.assertIsNone(running_kernel.hidden(Proc(), os.getpid()))
        with mock.patch.object(os, "readlink", side_effect=PermissionError(errno.EACCES, "Permission denied")):
            self.assertEqual(running_kernel.hidden(Proc(), os.getpid()), "Permission denied")
        self.assertIsNone(running_kernel.hidden(Proc(self.work), 7))


class Stood(unittest.TestCase):
    """A child in a namespace; the kernel lets root alone enter one."""

    def test_children_that_wait(self) -> None:
        with mock.patch.object(namespace_holder, "LIBC") as libc:
            libc.setns.return_value = 0
            children = [Standing(0, CLONE_NEWUSER) for _ in range(3)]
        for child in children:
            self.assertTrue(os.path.exists(f"/proc/{child.pid}"))
        for child in children:
            child.leave()
            self.assertFalse(os.path.exists(f"/proc/{child.pid}"))

    def test_a_namespace_that_cannot_be_entered(self) -> None:
        with open("/dev/null", "rb") as file, self.assertRaisesRegex(Failure, "can't be entered: Invalid argument"):
            Standing(file.fileno(), CLONE_NEWUSER)


class Frozen(support.Case):
    """Control groups in a folder."""

    VERSION_1 = "9 1 0:9 / {top} rw - cgroup cgroup rw,freezer\n"
    VERSION_2 = "9 1 0:9 / {top} rw - cgroup2 cgroup2 rw\n"

    def setUp(self) -> None:
        super().setUp()
        self.proc = Proc(os.path.join(self.work, "proc"))
        self.top = os.path.join(self.work, "cgroup")

    def lay(self, table: str, group: str, own: str, name: str, state: str, words: tuple[str, str]) -> None:
        put(self.proc.root, f"{os.getpid()}/mountinfo", table.format(top=self.top))
        for pid, told in ((100, group), (os.getpid(), own)):
            put(self.proc.root, f"{pid}/cgroup", told + "\n")
            put(self.proc.root, f"{pid}/stat", f"{pid} (x) S 1")
        put(self.top, "service/" + name, words[0])
        put(self.top, "service/" + state, words[1])

    def state(self, name: str) -> str:
        with open(os.path.join(self.top, "service", name), encoding="ascii") as file:
            return file.read()

    def still(self) -> str:
        with freezer.frozen(self.proc, os.getpid(), 100, lambda: [100]):
            return self.state("freezer.state")

    def test_a_group_stands_still_meanwhile(self) -> None:
        self.lay(self.VERSION_1, "3:freezer:/service", "3:freezer:/", "freezer.state", "freezer.state",
                 ("THAWED", "THAWED"))
        self.assertEqual(self.still(), "FROZEN")
        self.assertEqual(self.state("freezer.state"), "THAWED")

    def test_it_is_let_go_after_a_signal(self) -> None:
        self.lay(self.VERSION_1, "3:freezer:/service", "3:freezer:/", "freezer.state", "freezer.state",
                 ("THAWED", "THAWED"))
        before = signal.getsignal(signal.SIGTERM)
        with self.assertRaisesRegex(Failure, "SIGTERM"):
            with freezer.frozen(self.proc, os.getpid(), 100, lambda: [100]):
                os.kill(os.getpid(), signal.SIGTERM)
        self.assertEqual(self.state("freezer.state"), "THAWED")
        self.assertEqual(signal.getsignal(signal.SIGTERM), before)

    def test_a_group_that_stood_still_before_stays_so(self) -> None:
        self.lay(self.VERSION_2, "0::/service", "0::/", "cgroup.freeze", "cgroup.events",
                 ("1", "populated 1\nfrozen 1\n"))
        with freezer.frozen(self.proc, os.getpid(), 100, lambda: [100]):
            pass
        self.assertEqual(self.state("cgroup.freeze"), "1")

    def test_a_group_that_does_not_freeze(self) -> None:
        self.lay(self.VERSION_2, "0::/service", "0::/", "cgroup.freeze", "cgroup.events",
                 ("0", "populated 1\nfrozen 0\n"))
        with mock.patch.object(freezer, "PATIENCE", 0.0), self.assertRaisesRegex(Failure, "doesn't freeze"):
            with freezer.frozen(self.proc, os.getpid(), 100, lambda: [100]):
                pass
        self.assertEqual(self.state("cgroup.freeze"), "0")

    def test_the_reader_is_not_frozen(self) -> None:
        self.lay(self.VERSION_2, "0::/service", "0::/service/below", "cgroup.freeze", "cgroup.events",
                 ("0", "frozen 0\n"))
        with self.assertRaisesRegex(Failure, "would freeze itself"):
            self.still()

    def test_the_root_group_cannot_be_frozen(self) -> None:
        for group in ("0::/", "0::/../elsewhere", "5:memory:/service"):
            self.lay(self.VERSION_2, group, "0::/", "cgroup.freeze", "cgroup.events", ("0", "frozen 0\n"))
            with self.assertRaisesRegex(Failure, "no control group that can be frozen"):
                self.still()

    def test_a_process_that_ended_meanwhile(self) -> None:
        self.lay(self.VERSION_2, "0::/", "0::/", "cgroup.freeze", "cgroup.events", ("0", "frozen 0\n"))
        put(self.proc.root, "100/stat", "100 (x) Z 1")
        with freezer.frozen(self.proc, os.getpid(), 100, lambda: [100]):
            pass
        self.assertEqual(self.state("cgroup.freeze"), "0")


class Command(support.Case):
    """credaudit-capture over a stored system."""

    def called(self, system: str, *words: str) -> tuple[int, str, str]:
        with open(os.path.join(SYSTEMS, system), encoding="utf-8") as file:
            stored = StoredSystem(file.read(), os.path.join(self.work, "proc"))
        with mock.patch.object(capture_command, "Live", lambda: stored), \
                mock.patch.object(capture_command, "needs_root", lambda _: None):
            return self.told(capture_command.main, *words, name=capture_command.NAME)

    def test_a_world_goes_to_a_file(self) -> None:
        path = os.path.join(self.work, "world.toml")
        status, _, errors = self.called("programs.toml", "-o", path, "100")
        self.assertEqual(status, GOOD)
        self.assertIn("1 process and 1 thread in", errors)
        self.assertIn("5 files looked at", errors)
        self.assertIn("not known: securebits", errors)
        with open(path, encoding="ascii") as file:
            self.assertIn("/usr/bin/su", file.read())
        self.assertEqual(os.stat(path).st_mode & 0o777, 0o600)

    def test_root_is_needed(self) -> None:
        with mock.patch("os.geteuid", return_value=1000):
            status, _, errors = self.told(capture_command.main, "100", name=capture_command.NAME)
        self.assertEqual(status, FAILED)
        self.assertIn("as root", errors)
        self.assertNotIn("tracer", errors)

    def test_a_doubt_has_a_status_of_its_own(self) -> None:
        status, _, errors = self.called("unreadable_folder.toml", "-o", os.path.join(self.work, "world"), "100")
        self.assertEqual(status, FOUND)
        self.assertIn("doubt: /srv/data can't be looked at", errors)

    def test_directories_that_are_left_out(self) -> None:
        path = os.path.join(self.work, "world.toml")
        for word in ("/srv", "//srv/", "/srv/su/../."):
            with mock.patch.object(capture_command, "Program", Plain):
                status, _, errors = self.called("nosuid_on_one_mount.toml", "--skip", word, "--skip", "/srv", "-o",
                                                path, "100")
            self.assertEqual((status, errors.count("doubt: /srv isn't looked at, as asked for")), (FOUND, 1), word)
            with open(path, encoding="ascii") as file:
                self.assertNotIn("[[file]]", file.read())
        status, _, errors = self.called("programs.toml", "--skip", "/usr/share", "100")
        self.assertEqual(status, FAILED)
        self.assertIn("there is no directory '/usr/share'", errors)
        self.assertIn("without symbolic links", errors)

    def test_a_family_that_cannot_be_read_gives_no_world(self) -> None:
        path = os.path.join(self.work, "world.toml")
        status, _, errors = self.called("programs.toml", "-o", path, "7")
        self.assertEqual((status, os.path.exists(path)), (FAILED, False))
        self.assertIn("there is no process 7", errors)

    def test_freezing(self) -> None:
        status, _, errors = self.called("programs.toml", "--freeze", "100")
        self.assertEqual(status, FAILED)
        self.assertIn("no control group that can be frozen", errors)

    def test_words(self) -> None:
        for words in ((), ("0",), ("4194305",), ("-5",), ("one",), ("100", "101"), ("--what", "100"),
                      ("--patience", "nan", "100"), ("--patience", "inf", "100"), ("--patience", "-1", "100"),
                      ("--skip", "srv", "100"), ("--skip", "", "100")):
            self.assertEqual(self.called("programs.toml", *words)[0], USAGE, words)
        self.assertEqual(self.called("programs.toml", "--version")[0], GOOD)
        self.assertIn("exit status:", self.called("programs.toml", "--help")[1])

    def test_a_world_that_the_program_refuses_is_not_written(self) -> None:
        path = os.path.join(self.work, "world.toml")
        with mock.patch.object(worlds, "written", return_value=b"log = 1\n"), \
                mock.patch.object(capture_command, "Program") as program:
            refusal = mock.Mock(status=4, ending=["bad world whole 0: WrongType"])
            program.return_value.replay_texts.return_value = refusal
            status, _, errors = self.called("programs.toml", "-o", path, "100")
        self.assertEqual((status, os.path.exists(path)), (BROKEN, False))
        self.assertIn("the program refuses the world, status 4", errors)

    def test_without_the_program_that_is_told(self) -> None:
        with mock.patch.dict(os.environ, {"CREDAUDIT": "/there/is/none"}):
            status, out, errors = self.called("programs.toml", "-o", os.path.join(self.work, "world"), "100")
        self.assertEqual((status, out), (GOOD, ""))
        self.assertIn("the world isn't tried: credaudit isn't there", errors)


class Itself(unittest.TestCase):
    """The commands as they are called."""

    def test_they_start(self) -> None:
        tools = os.path.dirname(os.path.dirname(support.HERE))
        for name in ("credaudit-capture", "credaudit-lint"):
            done = subprocess.run([os.path.join(tools, name), "--version"], stdout=subprocess.PIPE, check=False)
            self.assertEqual((done.returncode, done.stdout[:len(name)]), (0, name.encode()))


if __name__ == "__main__":
    unittest.main()
