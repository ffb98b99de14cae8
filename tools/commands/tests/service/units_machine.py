"""Machines of Debian with systemd, on which units are recorded (try_units.py): a tree of Debian's packages, and two
ways to start it. One is a machine of qemu's, emulated, for which no root is needed but to make the tree; the other is
systemd in namespaces of its own on this kernel (`--here`), as root, which shares nothing but the kernel and the clock.

Both begin with one unit, which runs units_in_guest.py, and then go off.
"""
import glob
import os
import shutil
import subprocess
import tempfile
import time

import tools_path
from kernel.record_in_qemu import kernel_of, packed, run
from kernel.recordings import give_up

PACKAGES = ("systemd", "systemd-sysv", "udev", "kmod", "python3", "strace", "procps", "cron", "dbus", "redis-server",
            "memcached", "nginx-light", "openssh-server", "chrony", "haveged", "rsyslog", "stubby", "unbound",
            "dnsmasq", "prometheus-node-exporter")
MIRROR, RELEASE = "http://deb.debian.org/debian", "bookworm"
MODULES = ("drivers/virtio/virtio_ring", "drivers/virtio/virtio", "drivers/virtio/virtio_pci_modern_dev",
           "drivers/virtio/virtio_pci_legacy_dev", "drivers/virtio/virtio_pci", "drivers/block/virtio_blk")
DISK, RESULTS, MEMORY = 1200 << 20, 64 << 20, "1024"
GROUP = "credaudit-units"                       # the control group of a machine on this kernel
UNIT = """[Unit]
After=basic.target dbus.socket
Wants=dbus.socket
[Service]
Type=oneshot
TimeoutStartSec=infinity
StandardOutput={console}
StandardError=inherit
ExecStart=/bin/sh /opt/trial/begin
ExecStopPost=/bin/systemctl --no-block --force poweroff
"""
TARGET = "[Unit]\nRequires=basic.target\nWants=credaudit-units.service\nAfter=basic.target\n"
BEGIN = """#!/bin/sh
mkdir -p /var/out
/usr/bin/python3 -u /opt/trial/tools/commands/tests/service/units_in_guest.py /var/out {units}
test -b /dev/vdb && tar -cf /dev/vdb -C /var/out .
"""
# The first process of the machine of qemu's: the modules come in some order in which each finds what it needs.
INIT = """#!/bin/busybox sh
/bin/busybox mount -t proc proc /proc
/bin/busybox mount -t devtmpfs dev /dev
for pass in 1 2 3 4; do for module in /lib/*.ko; do /bin/busybox insmod $module 2> /dev/null; done; done
/bin/busybox mount -t ext4 /dev/vda /new
/bin/busybox umount /proc
/bin/busybox mount -o move /dev /new/dev
exec /bin/busybox switch_root /new /sbin/init
"""
# In namespaces of its own: the tree below an overlay, /proc/sys and /sys that can't be written, the clock left alone.
NAMESPACES = """set -e
mount -t tmpfs tmpfs {work}/upper
mkdir {work}/upper/files {work}/upper/work
mount -t overlay -o lowerdir={root},upperdir={work}/upper/files,workdir={work}/upper/work overlay {work}/merged
cd {work}/merged
mount -t proc proc proc
mount --bind proc/sys proc/sys
mount -o remount,bind,ro proc/sys
mount -t sysfs -o ro sysfs sys
mount -t cgroup2 cgroup2 sys/fs/cgroup
mount -t tmpfs -o mode=755,nosuid tmpfs dev
mkdir dev/pts dev/shm
for name in null zero full random urandom tty; do touch dev/$name; mount --bind /dev/$name dev/$name; done
mount -t devpts -o newinstance,ptmxmode=0666,mode=620,gid=5 devpts dev/pts
ln -s pts/ptmx dev/ptmx
ln -s /proc/self/fd dev/fd
mount -t tmpfs -o mode=1777,nosuid,nodev tmpfs dev/shm
mount -t tmpfs -o mode=755,nosuid,nodev tmpfs run
mount -t tmpfs -o mode=1777 tmpfs tmp
mkdir -p var/out
mount --bind {work}/out var/out
sed -i /imklog/d etc/rsyslog.conf
echo 'DAEMON_OPTS="-x"' > etc/default/chrony
mkdir old
pivot_root . old
umount -l /old
exec env -i container=lxc PATH=/usr/sbin:/usr/bin:/sbin:/bin /sbin/init --log-target=null < /dev/null > /dev/null 2>&1
"""


def put(path: str, text: str, mode: int = 0o644) -> None:
    """Makes a file, with the folders above it."""
    os.makedirs(os.path.dirname(path), exist_ok=True)
    with open(path, "w", encoding="ascii") as file:
        file.write(text)
    os.chmod(path, mode)


def furnish(root: str) -> None:
    """A tree of Debian's packages, in which no service starts by itself. One that is there stays."""
    if os.path.isdir(os.path.join(root, "etc")):
        return
    maker = shutil.which("mmdebstrap")
    if maker:
        run(maker, "--quiet", "--mode=root", "--variant=minbase", "--include=" + ",".join(PACKAGES),
            '--aptopt=APT::Install-Recommends "false"', RELEASE, root, MIRROR)
    else:
        run("debootstrap", "--variant=minbase", "--include=" + ",".join(PACKAGES), RELEASE, root, MIRROR)
    for link in glob.glob(os.path.join(root, "etc/systemd/system/*.wants/*")):
        os.unlink(link)
    put(os.path.join(root, "etc/machine-id"), "")
    target = os.path.join(root, "etc/systemd/system/default.target")
    put(os.path.join(root, "etc/systemd/system/credaudit-units.target"), TARGET)
    if os.path.lexists(target):
        os.unlink(target)
    os.symlink("credaudit-units.target", target)


def prepare(root: str, units: list[str], console: str) -> None:
    """The tools in the tree, and the unit that runs them."""
    trial = os.path.join(root, "opt/trial")
    shutil.rmtree(trial, ignore_errors=True)
    shutil.copytree(tools_path.TOOLS, os.path.join(trial, "tools"), symlinks=True,
                    ignore=shutil.ignore_patterns("data", "__pycache__"))
    put(os.path.join(trial, "begin"), BEGIN.format(units=" ".join(units)), 0o755)
    put(os.path.join(root, "etc/systemd/system/credaudit-units.service"), UNIT.format(console=console))


def in_qemu(root: str, units: list[str], work: str, seconds: float, package: str | None) -> str:
    """Runs the machine of qemu's, with the kernel of a package; the folder of what came out."""
    for word in ("qemu-system-x86_64", "busybox", "cpio", "mke2fs", "tar"):
        if not shutil.which(word):
            give_up(f"{word} isn't there")
    prepare(root, units, "tty\nTTYPath=/dev/ttyS0")
    kernel, modules = kernel_of(package, work)
    first = os.path.join(work, "first")
    for folder in ("bin", "lib", "proc", "dev", "new"):
        os.makedirs(os.path.join(first, folder))
    shutil.copy("/bin/busybox", os.path.join(first, "bin"))
    for module in MODULES:
        shutil.copy(os.path.join(modules, module + ".ko"), os.path.join(first, "lib"))
    put(os.path.join(first, "init"), INIT, 0o755)
    packed(first, os.path.join(work, "archive"))
    for name, size in (("disk", DISK), ("results", RESULTS)):
        with open(os.path.join(work, name), "wb") as file:
            file.truncate(size)
    run("mke2fs", "-q", "-t", "ext4", "-O", "^has_journal", "-d", root, os.path.join(work, "disk"))
    words = ["qemu-system-x86_64", "-accel", "tcg", "-m", MEMORY, "-smp", "1", "-no-reboot", "-nodefaults", "-display",
             "none", "-kernel", kernel, "-initrd", os.path.join(work, "archive"),
             "-append", "console=ttyS0 panic=-1 quiet nowatchdog no_timer_check mitigations=off"
             " rcupdate.rcu_cpu_stall_suppress=1 systemd.show_status=0", "-serial", "stdio"]
    for name in ("disk", "results"):
        words += ["-drive", f"file={os.path.join(work, name)},if=virtio,format=raw"]
    wait_for(subprocess.Popen(words, stdin=subprocess.DEVNULL), seconds)
    out = os.path.join(work, "out")
    os.mkdir(out)
    subprocess.call(["tar", "-xf", os.path.join(work, "results"), "-C", out])
    return out


def here(root: str, units: list[str], work: str, seconds: float) -> str:
    """Runs systemd in namespaces of its own; the folder of what came out."""
    out = os.path.join(work, "out")
    for name in ("out", "upper", "merged", "groups"):
        os.mkdir(os.path.join(work, name))
    prepare(root, units, "file:/var/out/console")
    groups = os.path.join(work, "groups")
    run("mount", "-t", "cgroup2", "none", groups)
    try:
        group = os.path.join(groups, GROUP)
        os.makedirs(group, exist_ok=True)
        script = f'echo $$ > {group}/cgroup.procs\nexec unshare --mount --pid --cgroup --ipc --uts --net --fork' \
                 f' --kill-child --propagation private sh {work}/namespaces\n'
        put(os.path.join(work, "namespaces"), NAMESPACES.format(work=work, root=root))
        wait_for(subprocess.Popen(["sh", "-c", script], stdin=subprocess.DEVNULL), seconds)
        remove_groups(group)
    finally:
        subprocess.call(["umount", "-l", groups])
    with open(os.path.join(out, "console"), encoding="utf-8", errors="replace") as file:
        print(file.read(), end="", flush=True)
    return out


def remove_groups(top: str) -> None:
    """Takes away a control group in which nothing runs any more, and all below it."""
    for folder, _, _ in os.walk(top, topdown=False):
        for _ in range(50):
            try:
                os.rmdir(folder)
                break
            except OSError:
                time.sleep(0.1)


def wait_for(machine: subprocess.Popen[bytes], seconds: float) -> None:
    """Waits until a machine is off, and ends it where that takes longer."""
    try:
        machine.wait(seconds)
    except subprocess.TimeoutExpired:
        print(f"the machine was ended after {seconds:.0f} s", flush=True)
    finally:
        machine.kill()
        machine.wait()


def workroom(folder: str | None) -> tempfile.TemporaryDirectory[str]:
    """A folder that goes again, in which programs can be executed and devices are what they are."""
    return tempfile.TemporaryDirectory(prefix="credaudit-units-", dir=folder)
