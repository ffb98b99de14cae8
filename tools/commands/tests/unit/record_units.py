#!/usr/bin/env python3
"""Draws units with odd assignments, and stores how systemd reads them: what credaudit-unit is held against.

  record_units.py [COUNT [SEED]]      200 units, the seed 1, where no number is said

Needs systemd-analyze, which reads each without starting anything (`systemd-analyze security --offline`). Of a unit that
it takes are stored the capabilities of the bounding set, as far as it tells them one by one, whether the ambient set is
empty, and whether no_new_privs, a user namespace and a root directory are set; of another one that it is refused. The
file is tests/data/unit/read_by_systemd.json.
"""
import json
import os
import random
import subprocess
import sys
import tempfile

HERE = os.path.dirname(os.path.abspath(__file__))
STORED = os.path.join(HERE, "..", "data", "unit", "read_by_systemd.json")
CAPS = ("CAP_KILL", "CAP_SYS_ADMIN", "CAP_SYS_PTRACE", "CAP_MKNOD", "CAP_BPF", "CAP_LEASE", "CAP_SYS_BOOT",
        "CAP_SYS_CHROOT", "CAP_NET_ADMIN", "cap_kill", "Cap_Lease", "21", "99", "CAP_NOPE")
TRUTHS = ("yes", "no", "true", "0", "1", "on", "OFF", "y", "f", "what", "", "True", " yes ", "yes # x")
OTHERS = {"Group": ("root", "", "daemon", "65535"), "RootDirectory": ("/tmp", "", "/tmp/", "/x/../y", "rel", "/x/./y")}
KEYS = (*["CapabilityBoundingSet"] * 3, "AmbientCapabilities", "NoNewPrivileges", "PrivateUsers", "DynamicUser",
        *OTHERS)
# The capabilities that systemd-analyze tells of one by one.
ALONE = ("CAP_KILL", "CAP_LINUX_IMMUTABLE", "CAP_IPC_LOCK", "CAP_NET_ADMIN", "CAP_SYS_CHROOT", "CAP_SYS_PTRACE",
         "CAP_SYS_PACCT", "CAP_SYS_ADMIN", "CAP_SYS_BOOT", "CAP_LEASE", "CAP_WAKE_ALARM", "CAP_BPF")


def word(drawn: random.Random) -> str:
    """A capability, in one of the ways of writing one."""
    name = drawn.choice(CAPS)
    return drawn.choice((name, name, name, f'"{name}"', f"'{name}'", f'"{name}', f'{name[:4]}"{name[4:]}"',
                         "\\x43" + name[1:], f'"{name} {drawn.choice(CAPS)}"'))


def value(drawn: random.Random) -> str:
    """A list of capabilities, perhaps over several lines."""
    front = drawn.choice(("", "", "", "~", "~", "~ "))
    text = front + drawn.choice((" ", "  ", "\t")).join(word(drawn) for _ in range(drawn.randint(0, 4)))
    broken = drawn.choice((" ", " ", " ", " \\\n  ", " \\\n# CAP_SYS_TIME\n ; x\n", " \\\n\n"))
    return text.replace(" ", broken, 1)


def unit(drawn: random.Random) -> str:
    """The text of a unit."""
    lines = ["[Service]", "ExecStart=/bin/true"]
    for _ in range(drawn.randint(1, 7)):
        key = drawn.choice(KEYS)
        told = value(drawn) if key.endswith(("Set", "Capabilities")) else drawn.choice(OTHERS.get(key, TRUTHS))
        lines.append(drawn.choice(("", "  ")) + key + drawn.choice(("=", " = ", "= ", " =")) + told)
        lines += drawn.choice(((), (), (), ("[Install]", "CapabilityBoundingSet=", "[Service]"), ("# User=x",)))
    return "\n".join(lines) + drawn.choice(("\n", "", "\\"))


def read(path: str) -> dict[str, object] | None:
    """How systemd reads a unit; None where it refuses it."""
    done = subprocess.run(["systemd-analyze", "security", "--offline=yes", "--no-pager", "--json=short", path],
                          stdout=subprocess.PIPE, stderr=subprocess.DEVNULL, text=True, check=False)
    if not done.stdout.startswith("["):
        return None
    told = {row["name"]: bool(row["set"]) for row in json.loads(done.stdout)}
    bounding = [name for name in ALONE if not told["CapabilityBoundingSet=~" + name]]
    return {"bounding": bounding, "no_ambient": told["AmbientCapabilities="], "nnp": told["NoNewPrivileges="],
            "private": told["PrivateUsers="], "root": told["RootDirectory=/RootImage="]}


def main() -> int:
    """Draws and stores; the status."""
    count, seed = (int(each) for each in (sys.argv[1:] + ["200", "1"][len(sys.argv) - 1:]))
    drawn, rows = random.Random(seed), []
    with tempfile.TemporaryDirectory() as folder:
        path = os.path.join(folder, "drawn.service")
        for _ in range(count):
            text = unit(drawn)
            with open(path, "w", encoding="ascii") as file:
                file.write(text)
            rows.append({"unit": text, "read": read(path)})
    with open(STORED, "w", encoding="ascii") as file:
        units = ",\n".join(json.dumps(row) for row in rows)
        file.write(f'{{"capabilities": {json.dumps(ALONE)},\n"units": [\n{units}\n]}}\n')
    print(f"{count} units, {sum(row['read'] is None for row in rows)} of them refused")
    return 0


if __name__ == "__main__":
    sys.exit(main())
