"""The worlds that bench.py measures with: those of its logs, those of bounds, and one of 1 MiB for each table. For
plain_replay.rs too, so one key or header a line, and the tables in the order space, mount, file, process, filter.

  python3 worlds.py NAME      writes the world of that name to standard output
"""
import sys
from collections.abc import Callable, Iterable, Iterator

MIB = 1 << 20
HEAD, STRACE = 'log = "script"\n', 'log = "strace"\n'
CHAIN, SPACES, MOUNTS, FILES, PROCESSES, EXTENTS = 32, 200, 64, 4096, 4096, 340
CALLS = ("setuid setreuid setresuid setfsuid setgid setregid setresgid setfsgid setgroups capset bset_drop amb_raise"
         " amb_lower amb_clear securebits keepcaps no_new_privs fork clone_user unshare setns write_uid_map"
         " write_gid_map write_setgroups execve exit").split()
VERSION_2 = "010000020020000000000000000000{:02x}00000000"
VERSION_3 = "010000030020000000000000000000{:02x}00000000a0860100"
Ranges = list[tuple[int, int] | None]       # of each space where its map's outside ids begin, and how many they are


def row(table: str, **keys: object) -> str:
    """A row of a table: the keys that aren't None, with their values as texts."""
    return f"[[{table}]]\n" + "".join(f"{key} = {value}\n" for key, value in keys.items() if value is not None)


def text(value: object) -> str:
    """A value between quotes."""
    return f'"{value}"'


def flag(value: object) -> str:
    """A value that is true or false."""
    return "true" if value else "false"


def filled(head: str, rows: Iterable[str]) -> str:
    """The rows, and a comment that fills 1 MiB."""
    world = head + "".join(rows)
    if len(world) > MIB - 2:
        sys.exit(f"worlds.py: a world of {len(world)} bytes")
    return world + "#" * (MIB - 1 - len(world)) + "\n"


# ---- the worlds of logs --------------------------------------------------------------------------------------------


def processes(**uids: str) -> str:
    """A world of processes, each named by a p and its pid, with these user ids."""
    return HEAD + "".join(row("process", pid=pid.removeprefix("p"), uid=ids) for pid, ids in uids.items())


def parent_of(number: int) -> int:
    """Of the chain the space before; of the others the initial space, or one of the chain."""
    if number <= CHAIN:
        return number - 1
    return 0 if number % 2 else number % CHAIN + 1


def first_id(number: int) -> int:
    """The id of the initial space to which a space's uid_map takes 0."""
    if number <= CHAIN:
        return 100000
    return 1000 * (200 + number) if parent_of(number) == 0 else 100000 + 10 * number


def space_name(number: int) -> str:
    """The name of a space."""
    return "init" if number == 0 else f"c{number}" if number <= CHAIN else f"space-{number}"


def has_groups(number: int) -> bool:
    """Whether a space's gid_map is written: it is for the first eight of the chain, and those below them."""
    return parent_of(number) <= 8 and (number <= 8 or number > CHAIN)


def space_row(number: int) -> str:
    """The row of a space."""
    parent = parent_of(number)
    outside = first_id(number) - (100000 if parent else 0)
    lines = f"[[0, {outside}, {65536 if number <= CHAIN else 1000}]]"
    return row("space", name=text(space_name(number)), parent=text(space_name(parent)),
               owner=1000 if parent == 0 else first_id(parent), uid_map=lines,
               gid_map=lines if has_groups(number) else None)


def spaces_of_log() -> str:
    """200 spaces, of them a chain of 32 levels, and a process in each."""
    members = (row("process", pid=1000 + number, space=text(space_name(number)), uid=first_id(number),
                   gid=first_id(number), permitted=text("all"), effective=text("all"))
               for number in range(1, SPACES + 1))
    start = (row("process", pid=pid, uid=uid, gid=uid) for pid, uid in ((100, 0), (101, 1000), (102, 2000)))
    return HEAD + "".join(map(space_row, range(1, SPACES + 1))) + "".join(start) + "".join(members)


def mount_row(number: int) -> str:
    """The row of a mount."""
    lines = "[[0, 100000, 65536]]" if number % 5 == 0 else None
    return row("mount", name=text(f"m{number}"), space=text("box") if number % 7 == 0 else None,
               nosuid=flag(number % 9 == 0), noexec=flag(number % 13 == 0), uid_map=lines, gid_map=lines)


def file_row(number: int) -> str:
    """The row of a file."""
    mount, mode = number % MOUNTS, ("0755", "4755", "6755", "0711", "2754", "0700", "4511", "0644")[number % 8]
    caps = (None, None, None, VERSION_2.format(0), None, VERSION_3.format(1), None,
            VERSION_2.format(64))[number // 8 % 8]
    runs = text(path(number - 1)) if number % 16 == 9 else None
    return row("file", path=text(path(number)), mount=text(f"m{mount}" if mount else "root"),
               uid=(0, 1000, 100000, 7)[number // 3 % 4], gid=(0, 1000, 60)[number // 5 % 3], mode=text(mode),
               caps=caps and text(caps), interpreter=runs)


def path(number: int) -> str:
    """The path of a file."""
    return f"/srv/m{number % MOUNTS}/bin/prog{number}"


def caller_row(number: int) -> str:
    """The row of a process that executes files."""
    uid = (0, 1000, 100000, 100005, 2000)[number % 5]
    kept = ("none", "CAP_NET_RAW", "CAP_NET_RAW,CAP_SETUID,CAP_DAC_OVERRIDE")[number // 5 % 3]
    return row("process", pid=100 + number, space=text("box") if number % 5 in (2, 3) else None,
               uid=f"[{uid}, {uid}, {uid}, {uid}]", gid=uid, groups="[60, 1000]" if number % 2 else None,
               permitted=text("all" if number % 5 == 0 else kept), effective=text("all" if number % 5 == 0 else kept),
               inheritable=text(kept), ambient=text(kept if number % 4 == 0 else "none"),
               bounding=text("000001ffffffdfff" if number % 11 == 0 else "all"), no_new_privs=flag(number % 6 == 5))


def execve_of_log() -> str:
    """4,096 files on 64 mounts, and 60 processes that differ in ids, sets, groups and space."""
    box = row("space", name=text("box"), parent=text("init"), owner=1000, uid_map="[[0, 100000, 65536]]",
              gid_map="[[0, 100000, 65536]]")
    return (HEAD + box + "".join(map(mount_row, range(1, MOUNTS))) + "".join(map(file_row, range(FILES)))
            + "".join(map(caller_row, range(60))))


def strace_of_log() -> str:
    """Root, a process that keeps descriptors and gives no birth, and 40 files, some with set-id bits or an
    attribute."""
    files_of_log = (row("file", path=text(f"/usr/bin/prog{number}"), uid=0, gid=number % 3,
                        mode=text(("0755", "0755", "4755", "2755")[number % 4]),
                        caps=text(VERSION_2.format(1)) if number % 5 == 0 else None) for number in range(40))
    return (STRACE + "".join(files_of_log)
            + row("process", pid=100, uid=0, gid=0) + row("process", pid=101, uid=0, gid=0))


# ---- worlds of bounds ----------------------------------------------------------------------------------------------


def maps_of_tree(count: int) -> Ranges:
    """Of a binary tree of spaces the outside ids of each one's map, as the initial space has them: halves of its
    parent's. Some maps aren't written, nor those below them."""
    maps: Ranges = [(0, 4294967295)]
    for number in range(1, count):
        above = maps[(number - 1) // 2]
        half = above[1] // 2 - 1 if above else 0
        maps.append(None if number % 17 == 16 or not above else (above[0] + 1 + number % 2 * half, half))
    return maps


def tree_row(number: int, maps: Ranges, owner: int) -> str:
    """The row of a space of the tree."""
    above, own, parent = maps[(number - 1) // 2], maps[number], (number - 1) // 2
    lines = f"[[0, {own[0] - above[0]}, {own[1]}]]" if own and above else None
    return row("space", name=text(f"s{number}"), parent=text(f"s{parent}" if parent else "init"), owner=owner,
               uid_map=lines, gid_map=lines, setgroups=text("deny") if number % 3 == 0 else None)


def mount_of_bounds(number: int, spaces: int) -> str:
    """The row of a mount."""
    return row("mount", name=text(f"m{number}"),
               space=text(f"s{number}") if number % 7 == 0 and number < spaces else None,
               nosuid=flag(number % 9 == 0), noexec=flag(number % 13 == 0))


def file_of_bounds(number: int, owners: int) -> str:
    """Of 64 one is set-user-ID, one set-group-ID, one has an attribute, and four are scripts, the first with all of
    these."""
    mode = {0: "4755", 1: "2755", 8: "6755"}.get(number % 64, "0755")
    caps = VERSION_2.format(1 << number // 64 % 8) if number % 64 in (2, 8) else None
    runs = text(f"/bin/{number - 1}") if number % 16 == 8 else None
    mount = number // 64 % MOUNTS
    return row("file", path=text(f"/bin/{number}"), mount=text(f"m{mount}") if mount else None, uid=number % owners,
               gid=number % (owners // 2), mode=text(mode), caps=caps and text(caps), interpreter=runs)


def member_row(number: int, spaces: int, maps: Ranges, keys: dict[str, object]) -> str:
    """The row of a member, with more keys."""
    space = number * 7 % spaces
    own = (maps[space] or (5000, 0))[0] + 1000 + number
    return row("process", pid=100 + number, space=text(f"s{space}") if space else None, uid=own, gid=own,
               groups=f"[{own + 7}]", **keys)


def of_bounds(members: int, files: int, spaces: int, owners: int, owner: Callable[[int], int], **keys: object) -> str:
    """A tree of spaces, each with its owner; files of so many owners; members with more keys."""
    maps = maps_of_tree(spaces)
    calls = ", ".join(map(text, ("setreuid", "unshare", "keepcaps")))
    return (HEAD + "".join(tree_row(number, maps, owner(number)) for number in range(1, spaces))
            + "".join(mount_of_bounds(number, spaces) for number in range(1, MOUNTS))
            + "".join(file_of_bounds(number, owners) for number in range(files))
            + "".join(member_row(number, spaces, maps, keys) for number in range(members))
            + f"[filter]\nexclude = [{calls}]\n")


def bounds_of_all(members: int = 256, files: int = FILES, spaces: int = 256) -> str:
    """Members in a tree of spaces, and programs that make them root: in the end most rows hold all that there is."""
    return of_bounds(members, files, spaces, 200, lambda number: 1000 + number)


def bounds_of_scattered_ids(members: int = 256, files: int = FILES, spaces: int = 256) -> str:
    """The same with owners that no member can become, without root and capabilities: sets of many ids that lie
    apart."""
    return of_bounds(members, files, spaces, 4096, lambda number: 4000000000, bounding=text("none"), securebits=3)


def chained_file(name: str, number: int, owner: int, group: int, mode: str) -> str:
    """The row of a program of the chain."""
    return row("file", path=text(f"/{name}{number}"), uid=owner, gid=group, mode=text(mode))


def bounds_of_a_chain(links: int, spaces: int = 64) -> str:
    """A chain of programs, a link of which is of use to nobody before the one before it was run: its group alone may
    run /a0, which makes it the owner; the owner alone may run /b0, which puts it into the group that alone may run /a1;
    and so on. A member stands in each space, none of which is above another."""
    ids = "[[0, 0, 20000]]"
    return (HEAD + "".join(row("space", name=text(f"s{number}"), parent=text("init"), owner=0, uid_map=ids, gid_map=ids)
                           for number in range(1, spaces))
            + "".join(chained_file("a", link, 1001 + link, 1000 + link, "4010")
                      + chained_file("b", link, 1001 + link, 1001 + link, "2110") for link in range(links))
            + "".join(row("process", pid=100 + number, space=text(f"s{number}") if number else None, uid=1000,
                          gid=1000, bounding=text("none"), securebits=3) for number in range(spaces))
            + '[filter]\nexclude = ["unshare", "clone_user", "setns"]\n')


# ---- worlds of 1 MiB -----------------------------------------------------------------------------------------------


def extents(count: int) -> str:
    """Single ids that have a gap after each, so that no two lines are one."""
    return "[" + ",".join(f"[{2 * at},{2 * at},1]" for at in range(count)) + "]"


def space_rows(parent: Callable[[int], str], count: int, lines: int) -> Iterator[str]:
    """So many spaces with one map of so many lines each, below these parents."""
    return (row("space", name=text(f"s{number}"), parent=text(parent(number)), owner=0, uid_map=extents(lines))
            for number in range(1, count + 1))


def chained(number: int) -> str:
    """The parent of a space in chains of up to 32."""
    return "init" if number % CHAIN == 1 else f"s{number - 1}"


def spaces_below_one_another() -> str:
    """255 spaces with one map of 340 lines each, in chains of up to 32."""
    return filled(HEAD, space_rows(chained, 255, EXTENTS))


def spaces_side_by_side() -> str:
    """The same below the initial space."""
    return filled(HEAD, space_rows(lambda _: "init", 255, EXTENTS))


def mount_rows(count: int) -> Iterator[str]:
    """So many mounts with four maps of 335 lines each."""
    maps = dict.fromkeys(("fs_uid_map", "fs_gid_map", "uid_map", "gid_map"), extents(335))
    return (row("mount", name=text(f"m{number}"), **maps) for number in range(1, count + 1))


def mounts() -> str:
    """63 of these mounts."""
    return filled(HEAD, mount_rows(MOUNTS - 1))


def file_rows(count: int) -> Iterator[str]:
    """So many files with long paths and an attribute each, on 64 mounts, after these."""
    yield from map(mount_row_plain, range(1, MOUNTS))
    for number in range(count):
        yield row("file", path=text(f"/{number}/" + "d" * 60),
                  mount=text(f"m{number % MOUNTS}" if number % MOUNTS else "root"), uid=number, gid=number,
                  mode=text("4755"), caps=text(VERSION_3.format(1)))


def files() -> str:
    """4,096 of these files."""
    return filled(HEAD, file_rows(FILES))


def mount_row_plain(number: int) -> str:
    """The row of a mount without options."""
    return row("mount", name=text(f"m{number}"))


def process_rows(count: int) -> Iterator[str]:
    """So many processes in no order, with every key but parent and space."""
    return (row("process", pid=1000 + number * 40503 % 65536, uid="[1, 2, 3, 4]", gid=7,
                groups=str([number, 9, number + 7]), permitted=text("CAP_KILL,CAP_SETUID"),
                effective=text("CAP_KILL"), inheritable=text("CAP_KILL"), ambient=text("none"),
                bounding=text("all"), securebits=16, no_new_privs=flag(number % 2)) for number in range(count))


def many_processes() -> str:
    """4,096 of these processes."""
    return filled(HEAD, process_rows(PROCESSES))


def names_of_filter() -> str:
    """A filter that names the calls again and again."""
    names = ", ".join(map(text, CALLS))
    count = (MIB - 100) // (len(names) + 2)
    return filled(HEAD, ["[filter]\nexclude = [" + ", ".join([names] * count) + "]\n"])


Makers = dict[str, Callable[[], str]]
WORLDS: Makers = {
    "space": spaces_below_one_another, "space-flat": spaces_side_by_side, "mount": mounts, "file": files,
    "process": many_processes, "filter": names_of_filter,
}
# Worlds of so many of what is named, without a comment that fills them, and how many.
GROWING: dict[str, tuple[Callable[[int], Iterator[str]], int]] = {
    "spaces": (lambda count: space_rows(lambda _: "init", count, EXTENTS), 254),
    "spaces in chains": (lambda count: space_rows(chained, count, EXTENTS), 254),
    "lines of maps": (lambda count: space_rows(chained, 254, count), EXTENTS),
    "mounts": (mount_rows, 62),
    "files": (file_rows, FILES),
    "processes": (process_rows, PROCESSES),
}
BOUNDS_WORLDS: Makers = {"bounds": bounds_of_all, "bounds-scattered": bounds_of_scattered_ids}
CHAINS: Makers = {"bounds-chain": lambda: bounds_of_a_chain(256), "bounds-chain-twice": lambda: bounds_of_a_chain(512)}
LOG_WORLDS: Makers = {
    **dict.fromkeys(("setresuid", "mixed", "turns", "turns-many", "comments"), lambda: processes(p100="0")),
    "setuid": lambda: processes(p100="0", p101="[1000, 1001, 1002, 1001]", p102="1000"),
    "spaces": spaces_of_log,
    "execve": execve_of_log,
    **dict.fromkeys(("strace", "strace-few", "strace-held", "strace-held-quarter"), strace_of_log),
}


def main() -> None:
    """Writes the world that the word names."""
    every = {**LOG_WORLDS, **BOUNDS_WORLDS, **CHAINS, **WORLDS}
    if len(sys.argv) != 2 or sys.argv[1] not in every:
        sys.exit("usage: worlds.py " + "|".join(every))
    sys.stdout.write(every[sys.argv[1]]())


if __name__ == "__main__":
    main()
