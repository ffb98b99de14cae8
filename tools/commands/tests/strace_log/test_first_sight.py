"""Lines that are left out at first sight: what is followed of them is what reading them whole follows."""
from unittest import mock

from credaudit_tools.strace_log.first_sight import FirstSight
from credaudit_tools.strace_log.line_filter import Filtering

from .test_line_filter import Filtered

# Lines as strace 6.1 writes them; behind a `-` those that are to be read whole.
LINES = [
    'openat(AT_FDCWD</home>, "a", O_RDONLY|O_CLOEXEC) = 3</home/a>',
    'openat(AT_FDCWD</home>, "/opt", O_RDONLY|O_DIRECTORY) = 4</opt>',
    'openat(4</opt>, "plain", O_RDONLY|O_NOFOLLOW) = 5</opt/plain>',
    'openat(7</srv>, "x", O_RDONLY) = 6</srv/x>',
    'openat(4</opt>, "/etc/passwd", O_RDONLY) = 8</etc/passwd>',
    'openat(4</opt>, "new", O_WRONLY|O_CREAT|O_EXCL, 0644) = 9</opt/new>',
    'openat(4</opt>, "none", O_RDONLY) = -1 ENOENT (No such file or directory)',
    'open("/dev/null", O_RDWR) = 10</dev/null<char 1:3>>',
    'dup2(5</opt/plain>, 1</dev/null<char 1:3>>) = 1</opt/plain>',
    'dup(6</srv/x>) = 11</srv/x>',
    'dup3(5</opt/plain>, 12, O_CLOEXEC) = 12</opt/plain>',
    'fcntl(1</dev/null<char 1:3>>, F_GETFD) = 0',
    'fcntl(10</dev/null<char 1:3>>, F_DUPFD, 10) = 13</dev/null<char 1:3>>',
    'fcntl(13</dev/null<char 1:3>>, F_GETFD) = 0x1 (flags FD_CLOEXEC)',
    'fcntl(13</dev/null<char 1:3>>, F_SETFD, FD_CLOEXEC) = 0',
    'fcntl(99, F_GETFD) = -1 EBADF (Bad file descriptor)',
    'write(1</opt/plain>, "x", 1) = 1',
    'write(1</opt/plain>, "x"..., 5000) = 5000',
    'writev(1</opt/plain>, [{iov_base="x", iov_len=1}], 1) = 1',
    'pwrite64(1</opt/gone>(deleted), "x", 1, 0) = -1 EBADF (Bad file descriptor)',
    'openat(AT_FDCWD</home>, "q\\"u\\\\", O_RDONLY) = 20</opt/plain>',
    'openat(AT_FDCWD</home>, "/etc/hosts"..., O_RDONLY) = 20</etc/hosts>(deleted)',
    '-openat(AT_FDCWD</home>, "/proc/self/root/opt/plain", O_RDONLY) = 14</opt/plain>',
    '-openat(AT_FDCWD</home>, "/dev/fd/5", O_RDONLY) = 15</opt/plain>',
    '-openat(4</opt>, "rise", O_WRONLY|O_CREAT, 04755) = 16</opt/rise>',
    '-openat(AT_FDCWD</home>, "/proc/self/uid_map", O_WRONLY) = 17</proc/100/uid_map>',
    '-dup2(17</proc/100/uid_map>, 18) = 18</proc/100/uid_map>',
    'dup2(5</opt/plain>, 17</proc/100/uid_map>) = 17</opt/plain>',
    '-write(18</proc/100/uid_map>, "0 0 1", 5) = 5',
    '-write(1</opt/setgroups>, "x", 1) = 1',
    '-openat(AT_FDCWD</home>, "/opt/setgroups", O_RDONLY) = 19</opt/setgroups>',
    '-dup2(1</opt/plain>, 19</opt/setgroups>) = 19</opt/gid_map>',
    '-openat(AT_FDCWD</home>, "/proc/100/ns/user", O_RDONLY) = 19<user:[4026531837]>',
    '-openat(4</opt>, "space", O_RDONLY) = 19<user:[4026531837]>',
]
FRONTS: list[list[str]] = [
    [], ["unshare(CLONE_NEWNS) = 0"],
    ['openat(AT_FDCWD</home>, "/opt", O_RDONLY|O_DIRECTORY) = 4</opt>', "unshare(CLONE_NEWNS) = 0",
     "fchdir(4</opt>) = 0"],
    ['openat(AT_FDCWD</home>, "/srv", O_RDONLY|O_DIRECTORY) = 7</srv>', "unshare(CLONE_NEWNS) = 0"],
]


class Frequent(Filtered):
    def state(self, filtering: Filtering) -> list[object]:
        """What is followed, and what was counted."""
        task = filtering.followed.tasks[100]
        return [task.files.paths, task.files.standings, task.files.views, task.place, filtering.taken.left_out,
                filtering.taken.lines]

    def test_as_read_whole(self) -> None:
        for front in FRONTS:
            quick, whole = self.filtering(), self.filtering()
            for body in [*front, *(each.removeprefix("-") for each in LINES)]:
                with self.subTest(front=front, body=body):
                    self.assertIsNone(self.fed(quick, [f"100 {body}"]))
                    with mock.patch.object(FirstSight, "leaves_out", return_value=False):
                        self.assertIsNone(self.fed(whole, [f"100 {body}"]))
                    self.assertEqual(self.state(quick), self.state(whole))

    def test_which_are_left_out(self) -> None:
        for each in LINES:
            with self.subTest(each):
                filtering = self.filtering()
                line = b"100 " + each.removeprefix("-").encode()
                self.assertEqual(filtering.first_sight.leaves_out(line), not each.startswith("-") and "99" not in each)
