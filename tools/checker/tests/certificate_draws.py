"""Draws small worlds, logs, queries and certificates for certificate_trials.py, and changes certificates.

The results of a log's events are mostly those that the rules of credaudit_check give, so that most logs are
accepted; what the events are, and the worlds, is drawn.
"""
import json
import random
import re
from collections.abc import Sequence
from typing import Any

from credaudit_check.texts.ends import Ended
from credaudit_check.replay import Replay
from credaudit_check.rules.capabilities import NUMBERS
from credaudit_check.rules.ids import IdMap, is_map, taken_down
from credaudit_check.rules.machine import CALLS, INITIAL
from credaudit_check.texts.script import ERRORS, events
from credaudit_check.texts.world import read_world

IDS = (0, 0, 1, 7, 8, 1000, 1000, 1001, 65534, 100000, 100001, 4294967294)
INSIDE = (*IDS, -1, 2, 99, 65535)
MODES = ("4755", "2755", "6755", "4711", "4010", "2070", "2710", "0755", "0750", "6110", "4101", "755", "0", "4000")
SETS = ("all", "none", "CAP_SETUID", "CAP_SETGID", "CAP_SETPCAP", "CAP_SYS_ADMIN", "CAP_DAC_OVERRIDE", "CAP_SETFCAP",
        "CAP_SETUID,CAP_SETGID", "CAP_KILL", "CAP_SETPCAP,CAP_KILL", "0000000000000085")
INSTALLED = tuple(call for call in CALLS if call != "exit")     # what an install may name
Table = dict[str, Any]


class Draw(random.Random):
    """Numbers by a seed."""

    def is_one_in(self, number: int) -> bool:
        """True once in so many times."""
        return self.randrange(number) == 0

    def one(self, items: Sequence[Any]) -> Any:
        """One of some."""
        return items[self.randrange(len(items))]


# ---- worlds


def toml(value: object) -> str:
    """A value as TOML; what JSON has, TOML has too."""
    return json.dumps(value)


def text_of(tables: list[tuple[str, Table]]) -> str:
    """A world of tables, each with its head."""
    return "\n".join([*(f"{key} = {toml(value)}" for key, value in tables[0][1].items()), *(
        "\n".join([head, *(f"{key} = {toml(value)}" for key, value in table.items())])
        for head, table in tables[1:])]) + "\n"


def drawn_map(draw: Draw, through: IdMap | None) -> list[list[int]] | None:
    """A map that lies in a parent's, where one is found."""
    for _ in range(12):
        lines = [(inside, outside, length) for inside, outside, length in (
            (draw.one((0, 0, 1, 1000, 5)), draw.one(IDS), draw.one((1, 1, 2, 10, 65536, 4294967295)))
            for _ in range(draw.one((1, 1, 2, 3))))]
        if is_map(lines) and taken_down(lines, through) is not None:
            return [list(line) for line in lines]
    return None


def drawn_ids(draw: Draw) -> int | list[int]:
    """The ids of a process."""
    if draw.is_one_in(2):
        return int(draw.one(IDS))
    return [draw.one(IDS) for _ in range(4)]


def attribute(draw: Draw) -> str:
    """An attribute as hexadecimal text."""
    sets = [draw.one((0, 0x80, 0xc0, 0x1ffffffffff, 0x200000, draw.getrandbits(41))) for _ in range(2)]
    third = draw.is_one_in(2)
    words = [(0x03000000 if third else 0x02000000) + draw.randrange(2)]
    words += [one & 0xffffffff for one in sets] + [one >> 32 for one in sets] + ([draw.one(IDS)] if third else [])
    return b"".join(word.to_bytes(4, "little") for word in words).hex()


def spaces(draw: Draw) -> list[tuple[str, Table]]:
    """Rows of spaces."""
    found: list[tuple[str, Table]] = []
    names, maps = ["init"], [(INITIAL.uid_map, INITIAL.gid_map)]
    for number in range(draw.one((0, 0, 1, 1, 2, 3, 4))):
        at = draw.randrange(len(names))
        row: Table = {"name": f"s{number}", "parent": names[at], "owner": draw.one(IDS)}
        own: list[IdMap | None] = [None, None]
        for side, key in enumerate(("uid_map", "gid_map")):
            lines = None if draw.is_one_in(3) else drawn_map(draw, maps[at][side])
            if lines is not None:
                row[key] = lines
                own[side] = taken_down([(line[0], line[1], line[2]) for line in lines], maps[at][side])
        if draw.is_one_in(3):
            row["setgroups"] = draw.one(("deny", "allow"))
        if draw.is_one_in(2):
            row["creator_setfcap"] = draw.is_one_in(2)
        names.append(row["name"])
        maps.append((own[0], own[1]))
        found.append(("[[space]]", row))
    return found


def mounts(draw: Draw, names: list[str]) -> list[tuple[str, Table]]:
    """Rows of mounts."""
    found: list[tuple[str, Table]] = []
    for number in range(draw.one((0, 0, 1, 2))):
        row: Table = {"name": f"m{number}", "space": draw.one(names)}
        row |= {key: True for key in ("nosuid", "noexec") if draw.is_one_in(4)}
        for keys in (("fs_uid_map",), ("fs_gid_map",), ("uid_map", "gid_map")):
            if draw.is_one_in(3):
                row |= {key: drawn_map(draw, INITIAL.uid_map) or [[0, 0, 4294967295]] for key in keys}
        found.append(("[[mount]]", row))
    return found


def files(draw: Draw, mounted: list[str]) -> list[tuple[str, Table]]:
    """Rows of files."""
    found: list[tuple[str, Table]] = []
    for number in range(draw.one((0, 1, 2, 3, 5))):
        row: Table = {"path": f"/bin/f{number}", "uid": draw.one(IDS), "gid": draw.one(IDS), "mode": draw.one(MODES)}
        if draw.is_one_in(4):
            row["mode"] = f"{draw.randrange(0o10000):04o}"
        if draw.is_one_in(2):
            row["mount"] = draw.one(mounted)
        if draw.is_one_in(3):
            row["caps"] = attribute(draw)
        if number and draw.is_one_in(5) and "interpreter" not in found[0][1]:
            row["interpreter"] = found[0][1]["path"]
        found.append(("[[file]]", row))
    return found


def processes(draw: Draw, names: list[str]) -> list[tuple[str, Table]]:
    """Rows of processes."""
    found: list[tuple[str, Table]] = []
    pids = draw.sample((1, 2, 3, 5, 40, 100, 4194304), draw.one((1, 1, 2, 3, 4)))
    for number, pid in enumerate(pids):
        row: Table = {"pid": pid, "space": draw.one(names), "uid": drawn_ids(draw), "gid": drawn_ids(draw)}
        if number and draw.is_one_in(2):
            row["parent"] = draw.one(pids[:number])
        if draw.is_one_in(2):
            row["groups"] = [draw.one(IDS) for _ in range(draw.randrange(4))]
        row["permitted"] = draw.one(("none", "none", draw.one(SETS)))
        row["effective"] = draw.one(("none", row["permitted"]))
        for key, odds in (("inheritable", 4), ("bounding", 2)):
            if draw.is_one_in(odds):
                row[key] = draw.one(SETS)
        if draw.is_one_in(4) and row.get("inheritable") == row["permitted"]:
            row["ambient"] = row["permitted"]
        if draw.is_one_in(3):
            row["securebits"] = draw.one((0x01, 0x02, 0x03, 0x04, 0x10, 0x2f, 0x40, 0xff, draw.randrange(256)))
        row["no_new_privs"] = draw.is_one_in(2)
        found.append(("[[process]]", row))
    return found


def drawn_world(draw: Draw) -> str:
    """A world; one in twenty-five with a value that may not stand where it stands."""
    rows = spaces(draw)
    names = ["init"] + [row["name"] for _, row in rows]
    more = mounts(draw, names)
    rows += more + files(draw, ["root"] + [row["name"] for _, row in more]) + processes(draw, names)
    if draw.is_one_in(25):
        head, row = draw.one(rows)
        row[draw.one((*row, "more"))] = draw.one((True, -1, 4294967295, "", "x", [], [[0, 0, 0]], 1.5, "all,"))
    out: set[str] = set()
    if not draw.is_one_in(4):
        for group in (("unshare", "clone_user"), ("setns",), ("execve",), ("setuid", "setreuid", "setresuid"),
                      ("setgid", "setregid", "setresgid"), ("write_uid_map", "write_gid_map")):
            out |= set(group) if draw.is_one_in(2) else set()
        out |= {str(draw.one(CALLS)) for _ in range(draw.randrange(4))}
    if out:
        rows.append(("[filter]", {"exclude": sorted(out)}))
    return text_of([("", {"log": "script"}), *rows])


# ---- logs and queries


def drawn_call(draw: Draw, names: list[str]) -> str:
    """A call with its arguments."""
    call = draw.one((*CALLS, "fork", "unshare", "write_uid_map", "write_gid_map", "setresuid", "capset", "execve",
                     "install"))
    space = draw.one((*names, "#1", "#2", "#3", "#4"))
    ids = {"setre": 2, "setres": 3}
    if call.endswith(("uid", "gid")):
        return " ".join([call, *(str(draw.one(INSIDE)) for _ in range(ids.get(call[:-3], 1)))])
    if call in ("write_uid_map", "write_gid_map"):
        lines = [f"{draw.one((0, 0, 1))} {draw.one(IDS)} {draw.one((1, 1, 2))}"
                 for _ in range(draw.one((1, 1, 1, 2, 0)))]
        return " ".join([call, space, *lines])
    given = {
        "setgroups": [str(draw.one(INSIDE)) for _ in range(draw.randrange(3))],
        "capset": [draw.one(SETS) for _ in range(3)], "setns": [space],
        "write_setgroups": [space, draw.one(("allow", "deny"))],
        "execve": [draw.one(("-", "/bin/f0", "/bin/f1", "/bin/f2", "/none"))],
        "securebits": [str(draw.one((0, 1, 3, 0x10, 0x40, 0x55, 256, draw.randrange(256))))],
        "keepcaps": [str(draw.one((0, 1, 1, 2)))], "no_new_privs": [str(draw.one((1, 1, 0)))],
        "install": [draw.one(INSTALLED) for _ in range(draw.randrange(4))],
        **{key: [draw.one((*NUMBERS, "7", "41"))] for key in ("bset_drop", "amb_raise", "amb_lower")},
    }
    return " ".join([call, *given.get(call, [])])


def drawn_log(draw: Draw, world_text: str) -> str:
    """A log, with the results that the rules give, but for some."""
    try:
        world = read_world(world_text.encode())
    except Ended:
        return "1 fork = 2\n"
    lines: list[str] = []
    replay = Replay(world)
    for _ in range(draw.one((0, 0, 1, 2, 3, 4, 6, 10))):
        if not replay.state.processes:
            break
        pid = draw.one(list(replay.state.processes)) if not draw.is_one_in(60) else 77
        call = drawn_call(draw, world.names)
        if call == "exit" and draw.is_one_in(2):
            continue
        line = right_line(replay, f"{pid} {call}")
        if draw.is_one_in(60):
            line = draw.one((f"{pid} {call} = {draw.one(ERRORS)}", f"{pid} {call} 1 = 0", f"{pid} {call} = 00",
                             line + " 0"))
        lines.append(line)
        if draw.is_one_in(8):
            lines.append(draw.one(("; a remark", "", " \t\r", "100 fork = 6")))
    return "".join(f"{line}\n" for line in lines)


def right_line(replay: Replay, call: str) -> str:
    """The line of a call with the result that the rules give; the replay goes on by it."""
    state = replay.state
    result = "0"
    for _ in range(2):
        line = f"{call} = {result}"
        before = dict(state.processes), list(state.spaces)
        try:
            for event in events(line.encode(), replay.world):
                replay.step(event)
            return line
        except Ended as ended:
            state.processes, state.spaces = before
            told = re.search(r"the rules give (\w+)", ended.line or "")
            result = told[1] if told else "1"
    return f"{call} = {result}"


def drawn_query(draw: Draw, world_text: str, log: str) -> tuple[str, str]:
    """A process and a right."""
    pids = re.findall(r"^pid = (\d+)$", world_text, re.MULTILINE)
    pids += re.findall(r"(?:fork|fork\(\)|clone3?\(.*\)) = (\d+)$", log, re.MULTILINE)
    pid = draw.one(pids) if pids and not draw.is_one_in(40) else draw.one(("77", "0", "x", "007"))
    space = draw.one(["init", "init", *re.findall(r'^name = "(s\d)"$', world_text, re.MULTILINE), "#1", "#2"])
    right = draw.one((f"uid:{draw.one(IDS)}", f"gid:{draw.one(IDS)}", f"cap:{draw.one(list(NUMBERS))}@{space}"))
    if draw.is_one_in(40):
        right = draw.one(("uid:4294967295", "gid:", "cap:CAP_KILL", "cap:CAP_KILL@none", "uid:01", "cap:cap_kill@init"))
    return pid, right
