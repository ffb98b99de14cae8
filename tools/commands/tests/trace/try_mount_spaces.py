#!/usr/bin/env python3
"""Records programs that stand in mount namespaces of their own, many times each, beside busy loops: each recording has
to be whole.

  try_mount_spaces.py [--times N] [--jobs N] [--user USER] [--test-execve PROGRAM] [NAME ..]     to be run as root

100 times each where --times says nothing; --jobs so many at once, each of which is load for the others. Needs strace,
and of Debian's packages bubblewrap, lxc, libcap-ng-utils, mmdebstrap, crun, runc, podman and busybox-static; what isn't
there is passed over, and told. PROGRAM is test_execve of the kernel's selftests (tools/testing/selftests/capabilities),
with validate_cap beside it. Twice as many loops as processors run meanwhile: `taskset -c 3 try_mount_spaces.py` takes
one processor and two loops. A recording is whole where it ended with its program, which said what it says alone,
nothing is in doubt but the mounts that it changed (of test_execve also the files: it makes set-user-ID programs), and
the log names the files that were executed. With --user the programs are USER's; what only root can run is passed over
then.
"""
import argparse
import hashlib
import json
import os
import pwd
import shutil
import subprocess
import sys
import tempfile
import time
from collections.abc import Callable, Iterator
from concurrent.futures import ThreadPoolExecutor
from contextlib import contextmanager
from dataclasses import dataclass

import tools_path
from credaudit_tools.evidence.premises import FILES, MOUNTS
from credaudit_tools.replay import recording

PATIENCE = 1800.0
LOOP = "import os\nabove = os.getppid()\nwhile os.getppid() == above: pass"      # it ends with this command
TREE = ["--ro-bind", "/usr", "/usr", "--symlink", "usr/lib", "/lib", "--symlink", "usr/lib64", "/lib64", "--symlink",
        "usr/bin", "/bin"]
PURE = "mount --bind /sys/fs/cgroup/unified /sys/fs/cgroup 2>/dev/null; "      # of a machine with both kinds of cgroups
LIMITS = "--ulimit=nofile=1024:1024 --ulimit=nproc=1024:1024"      # which may be lower here than podman's own
LOOK = "id -u; /proc/self/exe echo whole || busybox true"
TINY = """Package: tiny
Version: 1
Architecture: all
Maintainer: nobody <nobody@localhost>
Description: holds nothing
"""


@dataclass(frozen=True)
class Row:
    """A program: what it needs, its words, by the folder of what all its runs share and by that of one run, paths that
    its log executes, and the premises that it may well take away."""
    name: str
    needs: tuple[str, ...]
    words: Callable[[str, str], list[str]]
    executes: tuple[str, ...]
    may: tuple[str, ...] = (MOUNTS,)


def tree(folder: str) -> str:
    """A root directory with busybox alone."""
    place = os.path.join(folder, "tree")
    if not os.path.isdir(place):
        for name in ("bin", "proc", "dev", "sys", "tmp"):
            os.makedirs(os.path.join(place, name))
        shutil.copy("/bin/busybox", os.path.join(place, "bin"))
        for name in ("sh", "id", "echo"):
            os.symlink("busybox", os.path.join(place, "bin", name))
    return place


def bundle(folder: str, runtime: str) -> str:
    """The bundle of a container of that root directory, in which busybox runs itself by /proc/self/exe."""
    place = os.path.join(folder, f"bundle-{runtime}")
    if not os.path.isdir(place):
        os.mkdir(place)
        subprocess.run([runtime, "spec"], cwd=place, check=True, stdout=subprocess.DEVNULL)
        path = os.path.join(place, "config.json")
        with open(path, encoding="utf-8") as file:
            told = json.load(file)
        told["root"]["path"] = tree(folder)
        told["process"] |= {"terminal": False, "args": ["sh", "-c", LOOK]}
        told["process"].pop("rlimits", None)
        told["linux"].pop("resources", None)
        with open(path, "w", encoding="utf-8") as file:
            json.dump(told, file)
    return place


def packages(folder: str) -> str:
    """A folder of packages, in which there is one that holds nothing."""
    place = os.path.join(folder, "packages")
    if not os.path.isdir(place):
        tree = os.path.join(folder, "tiny")
        os.makedirs(os.path.join(tree, "DEBIAN"))
        os.makedirs(place)
        with open(os.path.join(tree, "DEBIAN", "control"), "w", encoding="ascii") as file:
            file.write(TINY)
        package = os.path.join(place, "tiny.deb")
        subprocess.run(["dpkg-deb", "-b", tree, package], check=True, stdout=subprocess.DEVNULL)
        with open(package, "rb") as read, open(os.path.join(place, "Packages"), "w", encoding="ascii") as file:
            file.write(f"{TINY}Filename: ./tiny.deb\nSize: {os.path.getsize(package)}\n"
                       f"SHA256: {hashlib.sha256(read.read()).hexdigest()}\n")
    return place


def container(runtime: str) -> Callable[[str, str], list[str]]:
    """The words that run a container of that runtime, under a name of its own."""
    return lambda folder, _: ["unshare", "-m", "sh", "-c", f"{PURE}exec {runtime} run -b {bundle(folder, runtime)}"
                              f" credaudit-{runtime}-{os.getpid()}-{time.monotonic_ns()}"]


def pod(folder: str, _: str) -> list[str]:
    """The words by which podman runs a container of that root directory, with a network of its own."""
    kept = os.path.join(folder, "pods")
    options = f"--rm --network=none --cgroups=disabled {LIMITS} --runtime=crun --rootfs {tree(folder)}"
    return ["unshare", "-m", "sh", "-c", f"{PURE}exec podman --storage-driver=vfs --root {kept} --runroot {kept}-run"
            f" run {options} sh -c '{LOOK}'"]


def root_of_packages(folder: str, room: str) -> list[str]:
    """The words that make a root directory of that package."""
    return ["mmdebstrap", "--mode=root", "--variant=extract", "--include=tiny", "--skip=check/empty", "bookworm",
            os.path.join(room, "made"), f"deb [trusted=yes] copy:{packages(folder)} ./"]


ROWS = [
    Row("unshare", ("unshare",), lambda *_: ["unshare", "-m", "true"], ("/usr/bin/true",)),
    Row("unshare-user", ("unshare",), lambda *_: ["unshare", "-Ur", "true"], ("/usr/bin/true",)),
    Row("captest", ("unshare", "captest"), lambda *_: ["unshare", "-m", "captest"], ("/usr/bin/captest",)),
    Row("bwrap", ("bwrap",), lambda *_: ["bwrap", "--ro-bind", "/", "/", "--unshare-all", "true"], ("/usr/bin/true",)),
    Row("bwrap-tree", ("bwrap",), lambda *_: ["bwrap", *TREE, "--unshare-user", "--proc", "/proc", "/bin/sh", "-c",
                                              "true; /bin/true"], ("/usr/bin/dash", "/usr/bin/true")),
    Row("lxc-usernsexec", ("lxc-usernsexec",), lambda *_: ["lxc-usernsexec", "-m", "b:0:0:1", "--", "true"],
        ("/usr/bin/true",)),
    Row("chroot", ("unshare", "busybox"), lambda folder, _: ["unshare", "-m", "chroot", tree(folder), "/bin/sh",
                                                             "-c", "true"], ("/usr/sbin/chroot", "TREE/bin/busybox")),
    Row("mmdebstrap", ("mmdebstrap", "dpkg-deb"), root_of_packages, ("/usr/bin/mmdebstrap", "/usr/bin/dpkg-deb")),
    Row("crun", ("unshare", "crun", "busybox"), container("crun"), ("/usr/bin/crun", "/bin/busybox")),
    Row("runc", ("unshare", "runc", "busybox"), container("runc"), ("/usr/sbin/runc", "/bin/busybox")),
    Row("podman", ("unshare", "podman", "crun", "busybox"), pod, ("/usr/bin/conmon", "/usr/bin/crun", "/bin/busybox")),
]


def test_execve(program: str) -> Row:
    """That program of the kernel's selftests, and the one that it executes within its own mounts."""
    return Row("test_execve", (program,), lambda *_: [program], (os.path.realpath(program),), (MOUNTS, FILES))


@contextmanager
def loops() -> Iterator[int]:
    """Twice as many busy loops as processors; how many."""
    count = 2 * len(os.sched_getaffinity(0))
    running = [subprocess.Popen([sys.executable, "-c", LOOP]) for _ in range(count)]
    try:
        yield count
    finally:
        for each in running:
            each.kill()
            each.wait()


def said(words: list[str], user: str | None = None) -> tuple[int, bytes]:
    """The status of a command, of that user's where one is named, and what it says on standard output."""
    who = None if user is None else pwd.getpwnam(user)
    ids = (None, None, None) if who is None else (who.pw_uid, who.pw_gid, list[int]())
    done = subprocess.run(words, stdin=subprocess.DEVNULL, stdout=subprocess.PIPE, stderr=subprocess.DEVNULL,
                          timeout=PATIENCE, check=False, user=ids[0], group=ids[1], extra_groups=ids[2])
    return done.returncode, done.stdout


def fault(row: Row, folder: str, room: str, wanted: bytes, user: str | None) -> str | None:
    """Records a program once, in a room of its own; why that isn't whole, None where it is."""
    place = os.path.join(room, "recording")
    command = os.path.join(tools_path.TOOLS, "credaudit-trace")
    options = ["-o", place, "--no-verify", "--for", "0", *([] if user is None else ["-u", user])]
    try:
        status, told = said([sys.executable, command, *options, "--", *row.words(folder, room)])
    except subprocess.TimeoutExpired:
        return f"it takes more than {PATIENCE:g} s"
    if status not in (0, 1):
        return f"status {status}"
    kept = recording.read(place)
    assert kept.made is not None
    doubts = [each.text() for each in kept.made.doubts if each.premise not in row.may]
    if doubts or kept.made.end != "program":
        return "; ".join(doubts) or f"it ended by {kept.made.end}"
    if not told.startswith(wanted):
        return f"it says {told[:200]!r}"
    wanted_paths = [path.replace("TREE", tree(folder)) if "TREE" in path else path for path in row.executes]
    missing = [path for path in wanted_paths if f'execve("{path}", [], NULL) = 0\n'.encode() not in kept.log]
    return f"the log doesn't execute {', '.join(missing)}" if missing else None


def tried(row: Row, folder: str, times: int, jobs: int, user: str | None) -> bool:
    """Records a program so often, so many at once; whether each time was whole. Tells each that isn't. Before that it
    runs alone, which makes what all share."""
    with tempfile.TemporaryDirectory(dir=folder) as room:
        status, wanted = said(row.words(folder, room), user)
    if status != 0:
        print(f"{row.name:15} ends with status {status} alone: it can't be tried here")
        return True

    def once(number: int) -> bool:
        with tempfile.TemporaryDirectory(dir=folder) as room:
            why = fault(row, folder, room, wanted if row.name != "captest" else b"", user)
        if why is not None:
            print(f"{row.name:15} {number}: {why}", flush=True)
        return why is None

    begun = time.monotonic()
    with ThreadPoolExecutor(jobs) as pool:
        whole = sum(pool.map(once, range(1, times + 1)))
    print(f"{row.name:15} {whole} of {times} whole, {(time.monotonic() - begun) / times:.1f} s each", flush=True)
    return whole == times


def main() -> int:
    ask = argparse.ArgumentParser()
    ask.add_argument("--times", type=int, default=100)
    ask.add_argument("--jobs", type=int, default=1)
    ask.add_argument("--user")
    ask.add_argument("--test-execve", metavar="PROGRAM")
    ask.add_argument("names", nargs="*", metavar="NAME")
    asked = ask.parse_args()
    if os.geteuid() != 0:
        sys.exit("try_mount_spaces.py: it is to be run as root")
    rows = ROWS + ([test_execve(asked.test_execve)] if asked.test_execve else [])
    unknown = set(asked.names) - {row.name for row in rows}
    if unknown:
        sys.exit(f"try_mount_spaces.py: there is no program {sorted(unknown)[0]}")
    good = True
    with tempfile.TemporaryDirectory(prefix="credaudit-spaces-") as folder, loops() as count:
        print(f"{count} busy loops", flush=True)
        for row in rows:
            missing = [name for name in row.needs if shutil.which(name) is None]
            if asked.names and row.name not in asked.names:
                continue
            if missing:
                print(f"{row.name:15} passed over: {', '.join(missing)} isn't there")
            else:
                good &= tried(row, folder, asked.times, asked.jobs, asked.user)
    return 0 if good else 1


if __name__ == "__main__":
    sys.exit(main())
