#!/usr/bin/env python3
"""Records services of Debian as systemd starts them (credaudit-trace --unit), on a machine of their own, and compares
the state in which each program begins with what credaudit-unit says of the unit.

  try_units.py [--here] [--root DIR] [--package DEB] [--work DIR] [--keep DIR] [--seconds N] [UNIT ..]

The machine is one of qemu's, emulated on one processor (an hour at most beside other work); with `--here` systemd runs
in namespaces of its own on this kernel (some minutes). To be run as root, since the tree of Debian's packages is made
so; DIR of `--root` keeps that tree for the next time. DEB is a kernel's package, as for record_in_qemu.py. Needs
mmdebstrap or debootstrap and, for qemu, busybox-static, cpio, mke2fs and qemu-system-x86; and the program (CREDAUDIT).
`--keep` keeps the recordings.

Where both are what an execve(2) leaves of them, by the rules of the program, each field of both is compared: ids,
groups, sets, securebits, no_new_privs, and the maps of a user namespace; the sets within the bounding set that the
service manager itself has. A field that credaudit-unit says it doesn't count is named so. One line for each unit, and
one for each recorder that was killed. Status 0: all are equal and nothing is left anywhere; 1: something isn't; 2: the
machine couldn't be made.
"""
import argparse
import os
import re
import shutil
import sys
from collections import Counter
from dataclasses import replace

import tools_path  # noqa: F401
from commands.tests.service import units_machine
from credaudit_tools.command_line.command import Failure
from credaudit_tools.formats import worlds
from credaudit_tools.formats.credential import Credential, differences
from credaudit_tools.formats.kernel_names import NUMBERS
from credaudit_tools.formats.worlds import World
from credaudit_tools.replay import recording
from credaudit_tools.replay.program import Program
from credaudit_tools.unit.unit_settings import DYNAMIC_ID
from kernel.recordings import give_up

UNITS = ("cron", "dbus", "redis-server", "memcached", "nginx", "ssh", "chrony", "haveged", "rsyslog", "stubby",
         "unbound", "dnsmasq", "prometheus-node-exporter", "systemd-networkd")
GOOD = ("equal", "equal but for what it names")
PID = 100
DROPPED = re.compile(r"out of the bounding set")
IMPLIED = "some versions of systemd set no_new_privs"


def begins(program: Program, world: World) -> Credential:
    """The first process of a world after the execve of a plain program. Fails where the program refuses the world."""
    own = replace(world.processes[0], pid=PID, parent=None)
    alone = worlds.written(World("script", world.spaces, [], [], [own], None, []))
    told = program.replay_texts(alone, f"{PID} execve - = 0\n".encode())
    if told.status != 0:
        raise Failure(f"the program refuses it: {' '.join(told.ending)}")
    return told.alive()[PID].credential


def maps(world: World) -> object:
    """The maps of the space in which the first process is; None in the initial one."""
    found = [space for space in world.spaces if space.name == world.processes[0].space]
    return (found[0].uid_map, found[0].gid_map) if found else None


def named(own: Credential, seen: Credential, notes: str) -> tuple[Credential, list[str]]:
    """What credaudit-unit says, with what it says that it doesn't count, and the words of that. The ids of DynamicUser=
    are those that were seen."""
    words = list[str]()
    for note in notes.split("\n"):
        bits = sum(1 << NUMBERS[name] for name in re.findall(r"CAP_[A-Z_]+", note) if name in NUMBERS)
        if DROPPED.search(note) and own.bnd & bits and not seen.bnd & bits:
            own = replace(own, **{name: getattr(own, name) & ~bits for name in ("bnd", "prm", "eff")})
            words.append(note.split("note: ")[-1].partition("=")[0] + "=")
        if IMPLIED in note and seen.nnp and not own.nnp:
            own, words = replace(own, nnp=True), [*words, "no_new_privs"]
    if own.uid[0] == DYNAMIC_ID:
        own = replace(own, uid=(seen.uid[0],) * 4)
    if own.gid[0] == DYNAMIC_ID:
        groups = frozenset(seen.gid[0] if each == DYNAMIC_ID else each for each in own.groups)
        own = replace(own, gid=(seen.gid[0],) * 4, groups=groups)
    return own, words


def within(own: Credential, bounding: int) -> Credential:
    """A credential of a process whose service manager has this bounding set."""
    return replace(own, **{name: getattr(own, name) & bounding for name in ("inh", "prm", "eff", "bnd", "amb")})


def compared(program: Program, folder: str, bounding: int) -> tuple[str, str]:
    """What came of one unit: a word, and more of it. The service manager has this bounding set."""
    def text(name: str) -> str:
        with open(os.path.join(folder, name), encoding="utf-8") as file:
            return file.read()
    if not os.path.isdir(os.path.join(folder, "recording")):
        return "not recorded", text("said").strip().replace("\n", "; ")
    kept = recording.read(os.path.join(folder, "recording"))
    if not text("unit.toml"):
        return "not told", text("unit.notes").strip().replace("\n", "; ")
    seen_world, own_world = worlds.read(kept.world), worlds.read(text("unit.toml").encode())
    seen = begins(program, seen_world)
    own, words = named(within(begins(program, own_world), bounding), seen, text("unit.notes"))
    found = [f"{name} {theirs}, credaudit-unit says {mine}" for name, mine, theirs in differences(own, seen)]
    found += ["the maps of its user namespace"] if maps(own_world) != maps(seen_world) else []
    lines = f"{len(kept.log.splitlines())} lines"
    doubts = "; ".join(each.text() for each in kept.made.doubts) if kept.made else ""
    lines += f"; in doubt: {doubts}" if doubts else ""
    if found:
        return "differs", f"{', '.join(found)}; {lines}"
    return ("equal but for what it names", f"{', '.join(words)}; {lines}") if words else ("equal", lines)


def main() -> int:
    """Makes the machine, runs it, and compares; the status."""
    ask = argparse.ArgumentParser(usage="try_units.py [--here] [--root DIR] [--package DEB] [--work DIR]"
                                        " [--keep DIR] [--seconds N] [UNIT ..]")
    ask.add_argument("--here", action="store_true")
    for name in ("--root", "--package", "--work", "--keep"):
        ask.add_argument(name)
    ask.add_argument("--seconds", type=float, default=7200.0)
    ask.add_argument("units", nargs="*", default=list(UNITS))
    asked = ask.parse_args()
    program, units = Program(), asked.units
    with units_machine.workroom(asked.work) as work:
        root = os.path.abspath(asked.root or os.path.join(work, "root"))
        units_machine.furnish(root)
        out = units_machine.here(root, units, work, asked.seconds) if asked.here else \
            units_machine.in_qemu(root, units, work, asked.seconds, asked.package and os.path.abspath(asked.package))
        if not os.path.exists(os.path.join(out, "left")):
            give_up("the machine didn't come to its end")
        with open(os.path.join(out, "manager"), encoding="ascii") as file:
            bounding = int(re.findall(r"CapBnd:\t([0-9a-f]+)", file.read())[0], 16)
        told = {unit: compared(program, os.path.join(out, unit), bounding) for unit in units}
        with open(os.path.join(out, "left"), encoding="utf-8") as file:
            left = file.read().splitlines()
        if asked.keep:
            shutil.copytree(out, asked.keep)
    for unit in units:
        print(f"{unit}: {': '.join(told[unit])}")
    counts = Counter(word for word, _ in told.values())
    print("; ".join([*(f"{count} {word}" for word, count in counts.items()), f"left: {', '.join(left) or 'nothing'}"]))
    return 0 if sum(counts[word] for word in GOOD) == len(units) and not left else 1


if __name__ == "__main__":
    sys.exit(main())
