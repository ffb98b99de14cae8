#!/usr/bin/env python3
"""Records what Debian's kernel answers, in a machine of qemu's: the recorders behind docs/KERNEL.md, each as a static
program, with busybox as the first process.

  record_in_qemu.py [--package DEB] [--work DIR] [--into DIR] [NAME ..]

DEB is a package of a kernel; left out, the one that Debian's linux-image-amd64 names is downloaded (apt-get download).
NAME is set_ids, runs, spaces or execs; all where none is named. The recordings are kept in DIR, data/debian beside this
script where none is named, and replayed by `replay_NAME.py --cases FILE`. No root is needed and nothing of the machine
is changed. Needs cc with the static C library, cpio, mkfs.ext4, and Debian's busybox-static and qemu-system-x86. The
machine is emulated, on one processor: 15 minutes, and more where others work.

The machine ends with each recording on its second serial line, told with its length and sum on the first one. One line
for each recording. Status 0: all are recorded; 1: one isn't; 2: the machine didn't start.
"""
import argparse
import glob
import gzip
import hashlib
import lzma
import os
import re
import shutil
import signal
import subprocess
import sys
import tempfile
import time
from collections.abc import Sequence

import tools_path  # noqa: F401
from kernel.recordings import FREESTANDING, HERE, compile_to, give_up, kernel_named

# How each recorder is called, the longest one last: each records as much as is kept of the first kernel, but of the
# states of set_ids only each 5th is taken. 5 has no divisor in common with the numbers of ids, securebits and kinds, by
# which the states are ordered.
RECORDERS = {
    "runs": ("record_runs", ""),
    "spaces": ("record_spaces", ""),
    "execs": ("record_execs", "/bin/shows_itself /mapped"),
    "set_ids": ("record_set_ids", "--every 5"),
}
KEPT = {"set_ids": "set_ids.cases.xz"}
MODULES = ("crypto/crc32c_generic", "lib/crc16", "fs/mbcache", "fs/jbd2/jbd2", "fs/ext4/ext4", "drivers/block/loop")
MEMORY, IMAGE = "512", 16 << 20
PATIENCE = 3 * 3600
DONE = re.compile(r"^done ([a-z_]+) ([0-9]+) ([0-9]+) ([0-9a-f]{64}) - ([0-9]+) ([0-9]+)\r?$", re.MULTILINE)

# The first process: a folder on a filesystem whose mounts can have maps, then each recorder in turn.
INIT = """#!/bin/busybox sh
/bin/busybox mount -t proc proc /proc
/bin/busybox mount -t devtmpfs dev /dev
/bin/busybox stty -F /dev/ttyS1 raw
for module in {modules}; do /bin/busybox insmod /lib/$module.ko; done
/bin/busybox losetup /dev/loop0 /image
/bin/busybox mount -t ext4 /dev/loop0 /mapped
/bin/busybox rmdir /mapped/lost+found
record() {{
    begun=$(/bin/busybox date +%s)
    /bin/$2 $3 > /out
    status=$?
    ended=$(/bin/busybox date +%s)
    /bin/busybox gzip -c /out > /out.gz
    /bin/busybox cat /out.gz > /dev/ttyS1
    echo done $1 $status $(/bin/busybox wc -c < /out.gz) $(/bin/busybox sha256sum < /out.gz) $begun $ended
}}
{records}
/bin/busybox sleep 1
/bin/busybox poweroff -f
"""


def run(*words: str, cwd: str | None = None, env: dict[str, str] | None = None) -> None:
    """Runs a command, in that folder and with those variables where they are given. Gives up where it fails."""
    if subprocess.call(words, stdout=subprocess.DEVNULL, cwd=cwd, env=env) != 0:
        give_up("this failed: " + " ".join(words))


# ---- the machine -----------------------------------------------------------------------------------------------------


def kernel_of(package: str | None, work: str) -> tuple[str, str]:
    """The kernel of a package, and the folder of its modules. The package is downloaded where none is named."""
    if package is None:
        told = subprocess.run(["apt-cache", "depends", "linux-image-amd64"], stdout=subprocess.PIPE, text=True)
        name = re.search(r"Depends: (linux-image-\S+)", told.stdout)
        if not name:
            give_up("apt-cache doesn't know linux-image-amd64: name a package by --package")
        run("apt-get", "download", name[1], cwd=work)
        package = glob.glob(os.path.join(work, "linux-image-*.deb"))[0]
    tree = os.path.join(work, "kernel")
    run("dpkg-deb", "-x", package, tree)
    return glob.glob(os.path.join(tree, "boot", "vmlinuz-*"))[0], glob.glob(os.path.join(tree,
                                                                                         "lib/modules/*/kernel"))[0]


def furnish(root: str, names: Sequence[str], modules: str) -> None:
    """The machine's files: busybox, the recorders, what they need, and the first process."""
    for folder in ("bin", "lib", "proc", "dev", "srv", "mapped"):
        os.makedirs(os.path.join(root, folder))
    shutil.copy("/bin/busybox", os.path.join(root, "bin"))
    for recorder, _ in (RECORDERS[name] for name in names):
        compile_to(os.path.join(root, "bin", recorder), recorder, "-static")
    compile_to(os.path.join(root, "bin", "shows_itself"), "shows_itself", "-static", *FREESTANDING)
    for module in MODULES:
        shutil.copy(os.path.join(modules, module + ".ko"), os.path.join(root, "lib"))
    with open(os.path.join(root, "image"), "wb") as file:
        file.truncate(IMAGE)
    run("mkfs.ext4", "-q", "-N", "2000", os.path.join(root, "image"), env={"PATH": "/usr/sbin:/usr/bin:/sbin:/bin"})
    records = "\n".join(f'record {name} {RECORDERS[name][0]} "{RECORDERS[name][1]}"' for name in names)
    init = os.path.join(root, "init")
    with open(init, "w") as file:
        file.write(INIT.format(modules=" ".join(map(os.path.basename, MODULES)), records=records))
    os.chmod(init, 0o755)


def packed(root: str, path: str) -> None:
    """Makes the machine's files one archive that its kernel reads, all of them root's."""
    files = subprocess.run(["find", ".", "-print0"], cwd=root, stdout=subprocess.PIPE, check=True).stdout
    made = subprocess.run(["cpio", "-o", "-0", "-H", "newc", "-R", "0:0", "--quiet"], cwd=root, input=files,
                          stdout=subprocess.PIPE, check=True).stdout
    with gzip.open(path, "wb", compresslevel=1) as file:
        file.write(made)


def begin(kernel: str, archive: str, work: str) -> tuple[subprocess.Popen[bytes], list[str]]:
    """The machine, and the files of its two serial lines."""
    lines = [os.path.join(work, name) for name in ("console", "recordings")]
    words = ["qemu-system-x86_64", "-accel", "tcg", "-m", MEMORY, "-no-reboot", "-nodefaults",
             "-display", "none", "-kernel", kernel, "-initrd", archive,
             "-append", "console=ttyS0 panic=-1 rcupdate.rcu_cpu_stall_suppress=1 nowatchdog mitigations=off"]
    for line in lines:
        words += ["-serial", "file:" + line]
    return subprocess.Popen(words, stdin=subprocess.DEVNULL), lines


# ---- what comes out --------------------------------------------------------------------------------------------------


def text_of(path: str) -> bytes:
    """What a serial line has told so far."""
    if not os.path.exists(path):
        return b""
    with open(path, "rb") as file:
        return file.read()


def keep(told: re.Match[str], data: bytes, into: str) -> bool:
    """Keeps one recording, of which the first line told so; whether it is whole."""
    name, status, length, wanted = told[1], int(told[2]), int(told[3]), told[4]
    if len(data) != length or hashlib.sha256(data).hexdigest() != wanted:
        print(f"{name}: it came out damaged", flush=True)
        return False
    text = gzip.decompress(data)
    kernel = kernel_named(text.split(b"\n", 1)[0].decode("ascii", "replace"))
    print(f"{name}: {kernel}, {text.count(10)} lines, status {status}, in {int(told[6]) - int(told[5])} s", flush=True)
    if status == 0:
        with lzma.open(os.path.join(into, KEPT.get(name, name + ".xz")), "wb", preset=9 | lzma.PRESET_EXTREME) as file:
            file.write(text)
    return status == 0


def gather(machine: subprocess.Popen[bytes], lines: Sequence[str], names: Sequence[str], into: str) -> int:
    """Keeps each recording as it comes; how many are whole."""
    kept, whole, taken, ends = 0, 0, 0, time.monotonic() + PATIENCE
    while kept < len(names) and time.monotonic() < ends:
        over = machine.poll() is not None
        for told in list(DONE.finditer(text_of(lines[0]).decode("ascii", "replace")))[kept:]:
            data = text_of(lines[1])[taken:taken + int(told[3])]
            if len(data) < int(told[3]) and not over:
                break
            whole += keep(told, data, into)
            kept, taken = kept + 1, taken + int(told[3])
        if over:
            break
        time.sleep(1)
    return whole


def main() -> None:
    """Records what the words ask for."""
    ask = argparse.ArgumentParser(usage="record_in_qemu.py [--package DEB] [--work DIR] [--into DIR] [NAME ..]")
    ask.add_argument("--package")
    ask.add_argument("--work")
    ask.add_argument("--into", default=os.path.join(HERE, "data", "debian"))
    ask.add_argument("names", nargs="*")
    asked = ask.parse_args()
    names = asked.names or list(RECORDERS)
    if set(names) - set(RECORDERS):
        give_up("the recorders are " + ", ".join(RECORDERS))
    for word in ("qemu-system-x86_64", "busybox", "cpio", "cc", "dpkg-deb"):
        if not shutil.which(word):
            give_up(f"{word} isn't there")
    os.makedirs(asked.into, exist_ok=True)
    signal.signal(signal.SIGTERM, lambda *_: sys.exit(2))
    with tempfile.TemporaryDirectory(dir=asked.work) as work:
        kernel, modules = kernel_of(asked.package and os.path.abspath(asked.package), work)
        root, archive = os.path.join(work, "root"), os.path.join(work, "archive")
        os.mkdir(root)
        furnish(root, names, modules)
        packed(root, archive)
        machine, lines = begin(kernel, archive, work)
        try:
            whole = gather(machine, lines, names, os.path.abspath(asked.into))
        finally:
            machine.terminate()
            machine.wait()
        if whole < len(names):
            print(text_of(lines[0]).decode("ascii", "replace")[-3000:], file=sys.stderr)
    if whole < len(names):
        give_up("not all was recorded; the machine's last lines stand above") if not whole else sys.exit(1)


if __name__ == "__main__":
    main()
