"""credaudit-check-certificate on recordings: stored ones beside what the kernel showed at their ends, their
certificates whole and changed, and drawn scripts told as recordings.
"""
import errno
import glob
import os
import re
import unittest
from collections.abc import Iterator

from checker.tests.certificate_changes import changes
from checker.tests.certificate_draws import Draw, drawn_log, drawn_world
from commands.tests import stored_program
from commands.tests.support import DATA, EXAMPLES, Case
from credaudit_check.bounds.rows import read_bounds
from credaudit_check.command import Query, answer, judge, query_of
from credaudit_check.replay import Replay
from credaudit_check.rules.capabilities import NAMES
from credaudit_check.rules.ids import NO_ID
from credaudit_check.rules.machine import State, World
from credaudit_check.texts import recording, script
from credaudit_check.texts.call_arguments import BITS
from credaudit_check.texts.ends import Ended
from credaudit_check.texts.script import Event
from credaudit_check.texts.world import read_world

CERTIFIED = os.path.join(os.path.dirname(os.path.abspath(__file__)), "data", "certified")
EPERM = "-1 EPERM (Operation not permitted)"


# ---- stored recordings


def folders(*patterns: str) -> list[str]:
    """The folders of stored recordings."""
    return sorted(os.path.dirname(name) for each in patterns for name in glob.glob(each))


def read(folder: str, name: str) -> bytes:
    """The bytes of a file."""
    with open(os.path.join(folder, name), "rb") as file:
        return file.read()


def end_of(folder: str) -> State:
    """The state after a recording."""
    replay = Replay(read_world(read(folder, "world.toml")))
    return replay.run(recording.events(read(folder, "log"), replay.state))


def rows_of(data: bytes) -> Iterator[dict[str, str]]:
    """The lines of status.txt or of spaces.txt."""
    for line in data.decode().splitlines():
        yield {key: value.strip() for key, _, value in (part.partition(":") for part in line.split("; "))}


def shown(row: dict[str, str]) -> tuple[object, ...]:
    """Of a thread what the kernel showed: ids, groups, sets, no_new_privs."""
    groups = frozenset(map(int, row["Groups"].split()))
    ids = (tuple(map(int, row[key].split())) for key in ("Uid", "Gid"))
    sets = (int(row[key], 16) for key in ("CapInh", "CapPrm", "CapEff", "CapBnd", "CapAmb"))
    return (*ids, groups, *sets, row["NoNewPrivs"] == "1")


def had(state: State, pid: int) -> tuple[object, ...]:
    """The same by the checker's own replay."""
    cred = state.processes[pid].cred
    ids = [(*each.three(), each.fs) for each in (cred.user, cred.group)]
    return (*ids, cred.groups, cred.inheritable, cred.permitted, cred.effective, cred.bounding, cred.ambient,
            cred.no_new_privs)


class Stored(unittest.TestCase):
    """The checker's own replay of recordings, beside what the kernel showed at their ends."""

    def test_ends(self) -> None:
        found = folders(os.path.join(CERTIFIED, "*", "status.txt"), *(
            os.path.join(*each, "*", "recording.toml")
            for each in ((EXAMPLES, "first_try"), (EXAMPLES, "strace"), (DATA, "recordings"))))
        self.assertGreater(len(found), 55)
        count = 0
        for folder in found:
            state = end_of(folder)
            rows = list(rows_of(read(folder, "status.txt")))
            self.assertEqual(sorted(state.processes), [int(row["Pid"]) for row in rows], folder)
            spaces = {row["Space"]: row for row in rows_of(read(folder, "spaces.txt"))}
            for row in rows:
                pid = int(row["Pid"])
                self.assertEqual(had(state, pid), shown(row), f"{folder} {pid}")
                own = state.spaces[state.processes[pid].space]
                if row["Space"] == "0":
                    self.assertEqual(own.parent, None)
                else:
                    self.assertEqual((own.owner, own.word), (int(spaces[row["Space"]]["Owner"]),
                                                             spaces[row["Space"]]["Setgroups"]), folder)
                count += 1
        self.assertGreater(count, 80)


class Marked(unittest.TestCase):
    """Marks, which a recording has where it was asked to keep calls that no rule reads."""

    def test_marks_are_no_events(self) -> None:
        """Behind each line of recordings, but within the three lines of a file and behind an end."""
        found = folders(os.path.join(EXAMPLES, "strace", "*", "recording.toml"))
        self.assertGreater(len(found), 30)
        for folder in found:
            lines, within = list[bytes](), 0
            for line in read(folder, "log").splitlines(keepends=True):
                within += line.count(b" open(") - line.count(b" close(")
                pid = line.partition(b" ")[0]
                more = within or b"+++" in line
                lines += [line, *([] if more else [pid + b" accept4(3) = 5\n", pid + b" socket() = " + EPERM.encode()
                                                   + b"\n"])]
            replay = Replay(read_world(read(folder, "world.toml")))
            end = replay.run(recording.events(b"".join(lines), replay.state))
            self.assertEqual(end.processes, end_of(folder).processes, folder)


# ---- certificates of recordings


def asked(folder: str, pid: str, right: str) -> Query:
    """The query of a stored recording."""
    return query_of(read(folder, "world.toml"), lambda: read(folder, "log"), pid.encode(), right.encode())


Certificate = tuple[str, str, str, bytes]       # of a folder, a pid and a right


def certificates() -> list[Certificate]:
    """The stored certificates, as `credaudit audit` printed them; README's own example is the first."""
    folder = os.path.join(EXAMPLES, "first_try", "recording-fixed")
    words = ["audit", os.path.join(folder, "world.toml"), os.path.join(folder, "log"), "100", "uid:0"]
    found: list[Certificate] = [(folder, "100", "uid:0", stored_program.answer(words)[1].splitlines()[-1])]
    for folder in folders(os.path.join(CERTIFIED, "*", "certificates")):
        for line in read(folder, "certificates").splitlines():
            pid, right, bounds = line.split(b" ")
            found.append((folder, pid.decode(), right.decode(), bounds))
    return found


def altered(log: bytes, number: int, lines: int, *bodies: str) -> bytes:
    """A log in which so many lines from one on are others, each with the pid of that line."""
    whole = log.splitlines(keepends=True)
    pid = whole[number - 1].split(b" ")[0].decode()
    whole[number - 1:number - 1 + lines] = [f"{pid} {body}\n".encode() for body in bodies]
    return b"".join(whole)


NOT_START = "refused not-start init"
# Of a recording the pid of a certificate, the place and the number of lines, what stands there instead, and what is
# answered then; worked out by hand.
ALTERED = [
    ("recording-fixed", 100, 9, 1, (), NOT_START), ("recording-fixed", 100, 8, 1, (), NOT_START),
    ("recording-fixed", 100, 7, 1, (), NOT_START), ("recording-fixed", 100, 6, 1, (), "holds"),     # it had no groups
    ("recording-fixed", 100, 8, 1, ("setresuid(33, 33, 34) = 0",), NOT_START),
    ("recording-fixed", 100, 8, 1, ("setresuid(33, 33, 33) = " + EPERM,), "impossible line 8: the rules give 0"),
    ("recording-fixed", 100, 9, 1, ("prctl(PR_SET_NO_NEW_PRIVS, 0, 0, 0, 0) = -1 EINVAL (Invalid argument)",),
     NOT_START),
    ("recording-fixed", 100, 9, 1, ("prctl(PR_SET_NO_NEW_PRIVS, 1, 0, 0, 0) = 0", "+++ exited with 0 +++"),
     "bad query: pid"),
    ("recording-fixed", 100, 9, 1, ("prctl(PR_SET_NO_NEW_PRIVS, 1, 0, 0, 0) = 0", "unshare(CLONE_NEWUSER) = 0"),
     "refused shape document"),                                                                     # two spaces stand
    ("su", 101, 38, 1, (), NOT_START), ("sudo", 101, 68, 1, (), NOT_START), ("sudo", 101, 62, 1, (), NOT_START),
    ("bwrap", 101, 66, 1, (), "impossible line 108: the rules give EPERM"),        # that map is written already
    ("bwrap_root", 101, 14, 1, (), "not judged: line 15: process"),
    ("ping", 100, 14, 1, ("setuid(65534) = " + EPERM,), "impossible line 14: the rules give 0"),
    ("ping", 100, 24, 1, (), "holds"),                                 # it may execute itself again, and so gain that
    ("memcached", 100, 5, 1, (), NOT_START), ("memcached", 100, 22, 1, (), "holds"),       # a thread that calls nothing
    ("dnsmasq", 100, 12, 1, (), "holds"), ("dnsmasq", 100, 13, 1, (), NOT_START),
    ("start_stop_daemon", 100, 11, 1, ("setgroups(1, [0]) = 0",), NOT_START),
    ("sh_jobs", 102, 67, 1, ("setgroups(1, [27]) = 0",), NOT_START),
    ("sh_jobs", 102, 58, 1, ("setgroups(1, [27]) = 0",), "holds"),                  # of a process outside the family
    ("python_threads", 100, 19, 1, (), NOT_START), ("python_threads", 102, 21, 1, (), "holds"),
    ("nsenter", 107, 43, 3, (), "impossible line 60: the rules give EINVAL"),      # nobody is mapped there then
    ("nsenter", 107, 45, 1, (), "not judged: line 45: apart"),
    ("perl", 100, 36, 1, (), NOT_START), ("setpriv", 100, 12, 1, (), NOT_START),
    ("unshare", 100, 4, 1, (), "impossible line 5: the rules give EPERM"),
]


class Certified(Case):
    """Certificates of recordings, whole and changed."""

    def test_they_hold(self) -> None:
        """What was claimed is so; and isn't of another right, which the family has."""
        every = certificates()
        self.assertGreater(len(every), 30)
        for folder, pid, right, bounds in every:
            words = [os.path.join(folder, name) for name in ("world.toml", "log")]
            certificate = self.put("certificate", bounds + b"\n")
            self.assertEqual(answer([*words, pid, right, certificate]), ("holds", 0), f"{folder} {pid} {right}")
            held = f"uid:{end_of(folder).processes[int(pid)].cred.user.effective}"
            told, status = answer([*words, pid, held, certificate])
            self.assertEqual(((told or "").split(" ")[:2], status), (["refused", "meets"], 11), f"{folder} {pid}")

    def test_changed(self) -> None:
        """A stored certificate is the least bounds: a changed one that holds has at least these. Most don't hold."""
        refused = held = 0
        for place, (folder, pid, right, bounds) in enumerate(certificates()):
            query = asked(folder, pid, right)
            spaces = len(query.closure.state.spaces)
            least = read_bounds(bounds, spaces, str)
            draw = Draw(str(place))
            for kind, make in draw.sample(changes(bounds, draw), 40):
                text = make()
                ended = judge(query, text)
                if ended.status == 11:
                    refused += 1
                    continue
                self.assertEqual((ended.line, ended.status), ("holds", 0), f"{folder} {kind}")
                held += 1
                self.assertTrue(all(row.holds(small) for row, small in zip(read_bounds(text, spaces, str), least)),
                                f"{folder} {kind} {text!r}")
        self.assertGreater(refused, 3 * held)

    def test_smaller(self) -> None:
        """Without an id or a capability that it has, no certificate holds."""
        count = 0
        for folder, pid, right, bounds in certificates():
            query = asked(folder, pid, right)
            for found in re.finditer(rb'"(?:[a-z]+)":(?:\[(\[[0-9]+,[0-9]+\])[^"]*\]|"([0-9a-f]{16})"|true)', bounds):
                if found[0] == b'"n":true' or found[2] == b"0" * 16:
                    continue
                part = 1 if found[1] else 2 if found[2] else 0
                new = [found[0].replace(b"true", b"false"), b"", b"0" * 16][part]
                text = bounds[:found.start(part)] + new + bounds[found.end(part):]
                text = text.replace(b":[,", b":[")
                self.assertEqual(judge(query, text).status, 11, f"{folder} {pid} {found[0]!r}")
                self.assertRegex(judge(query, text).line or "", "^refused not-")
                count += 1
        self.assertGreater(count, 300)

    def test_altered(self) -> None:
        every = {(os.path.basename(folder), pid): (folder, right, bounds)
                 for folder, pid, right, bounds in reversed(certificates())}
        self.assertEqual({name for name, _ in every} - {row[0] for row in ALTERED}, {"setpriv_ambient"})
        for name, pid, number, lines, bodies, told in ALTERED:
            folder, right, bounds = every[name, str(pid)]
            log = altered(read(folder, "log"), number, lines, *bodies)
            found = answer([os.path.join(folder, "world.toml"), self.put("log", log), str(pid), right,
                            self.put("certificate", bounds)])
            self.assertEqual(found[0], told, f"{name} {number}")

    def test_last_line(self) -> None:
        """A log that was cut within its last line is none of a recording."""
        for folder, pid, right, bounds in certificates():
            log = read(folder, "log")
            told = answer([os.path.join(folder, "world.toml"), self.put("log", log[:-1]), pid, right,
                           self.put("certificate", bounds)])
            self.assertEqual(told, (f"not judged: line {len(log.splitlines())}: torn", 14), folder)

    def test_worlds(self) -> None:
        """A certificate for another state at the start; worked out by hand."""
        for name, old, new, told in (
                ("recording-fixed", "uid = [0, 0, 0, 0]", "uid = 1000", "impossible line 6: the rules give EPERM"),
                ("recording-fixed", 'effective = "000001fffeffffff"', 'effective = "none"', "holds"),
                ("recording-fixed", 'bounding = "000001fffeffffff"', 'bounding = "all"', NOT_START),
                ("recording-fixed", 'bounding = "000001fffeffffff"', 'bounding = "000001fffeffffdf"', "holds"),
                ("recording-fixed", "pid = 100", "pid = 101", "not judged: line 1: process"),
                ("recording-fixed", "groups = []", "groups = [77]", "holds"),           # it gives them up
                ("unshare", "uid = [65534, 65534, 65534, 65534]", "uid = 1000",
                 "impossible line 6: the rules give EPERM"),
                ("ping", "groups = [65534]", "groups = [77]", NOT_START), ("ping", "groups = [65534]", "", "holds")):
            folder, pid, right, bounds = next(row for row in certificates() if os.path.basename(row[0]) == name)
            world = read(folder, "world.toml")
            self.assertIn(old.encode(), world)
            changed = self.put("world", world.replace(old.encode(), new.encode()))
            found = answer([changed, os.path.join(folder, "log"), pid, right, self.put("certificate", bounds)])
            self.assertEqual(found[0], told, f"{name} {new}")


# ---- scripts told as recordings


def number_text(one: int) -> str:
    """An ID."""
    return "-1" if one == NO_ID else str(one)


def set_text(bits: int) -> str:
    """A SET."""
    return "|".join(f"1<<CAP_{name}" for place, name in enumerate(NAMES) if bits >> place & 1) or "0"


def cap_text(number: int) -> str:
    """A CAP."""
    return f"CAP_{NAMES[number]}" if number < len(NAMES) else f"0x{number:x} /* CAP_??? */"


def result_text(result: int | str) -> str:
    """A result."""
    return str(result) if isinstance(result, int) else f"-1 {result} ({os.strerror(getattr(errno, result))})"


def call_text(event: Event) -> str | None:
    """The body of an event that has one line; None where a recording can't tell it."""
    given = event.numbers()
    match event.call:
        case "exit":
            return "+++ exited with 0 +++"
        case "setgroups":
            return f"setgroups({len(given)}, [{', '.join(map(number_text, given))}])"
        case "capset":
            effective, permitted, inheritable = map(set_text, given)
            return (f"capset({{version=_LINUX_CAPABILITY_VERSION_3, pid={event.pid}}}, {{effective={effective},"
                    f" permitted={permitted}, inheritable={inheritable}}})")
        case "bset_drop":
            return f"prctl(PR_CAPBSET_DROP, {cap_text(given[0])})"
        case "amb_raise" | "amb_lower":
            return f"prctl(PR_CAP_AMBIENT, PR_CAP_AMBIENT_{event.call[4:].upper()}, {cap_text(given[0])}, 0, 0)"
        case "amb_clear":
            return "prctl(PR_CAP_AMBIENT, PR_CAP_AMBIENT_CLEAR_ALL, 0, 0, 0)"
        case "keepcaps":
            return f"prctl(PR_SET_KEEPCAPS, {given[0]})"
        case "no_new_privs":
            return f"prctl(PR_SET_NO_NEW_PRIVS, {given[0]}, 0, 0, 0)"
        case "securebits":
            names = [name.decode() for name, bit in BITS.items() if given[0] & bit]
            return f"prctl(PR_SET_SECUREBITS, {'|'.join(names) or '0'})" if given[0] <= 0xff else None
        case "fork":
            return "fork()"
        case "clone_user":
            return "clone(flags=CLONE_NEWUSER|SIGCHLD)"
        case "unshare":
            return "unshare(CLONE_NEWUSER)"
        case "execve":
            path = event.values[0]
            return f'execve("{path.decode() if isinstance(path, bytes) else path}", [], NULL)'
    return f"{event.call}({', '.join(map(number_text, given))})"


def file_text(event: Event, state: State) -> list[str] | None:
    """The bodies of an event that uses a file; None where nobody lives in its namespace."""
    space = event.numbers()[0]
    owner = next((pid for pid, one in state.processes.items() if one.space == space), None)
    if owner is None:
        return None
    name = "ns/user" if event.call == "setns" else event.call.removeprefix("write_")
    text = "".join(f"{a} {b} {c}\n" for a, b, c in event.lines()) if name.endswith("map") else str(event.values[-1])
    done = result_text(len(text) if event.result == 0 else event.result)
    told = text.replace("\n", "\\n")
    second = (f"setns(9, CLONE_NEWUSER) = {result_text(event.result)}" if event.call == "setns"
              else f'write(9, "{told}", {len(text)}) = {done}')
    access = "O_RDONLY" if event.call == "setns" else "O_WRONLY"
    return [f'open("/proc/{owner}/{name}", {access}) = 9', second, "close(9) = 0"]


def recorded(log: bytes, world: World) -> tuple[str, State] | None:
    """A script as the log of a recording, and the state after it; None where the rules refuse it, or a recording can't
    tell it."""
    replay, lines = Replay(world), list[str]()
    try:
        for event in script.events(log, world):
            if event.call == "install":
                return None
            if event.call == "setns" or event.call.startswith("write_"):
                bodies = file_text(event, replay.state)
            else:
                body = call_text(event)
                told = "" if event.call == "exit" else f" = {result_text(event.result)}"
                bodies = None if body is None else [body + told]
            replay.step(event)
            if bodies is None:
                return None
            lines += [f"{event.pid} {body}\n" for body in bodies]
    except Ended:
        return None
    return "".join(lines), replay.state


class Drawn(unittest.TestCase):
    def test_scripts(self) -> None:
        """A drawn script and the same as a recording lead to one state."""
        count = lines = 0
        for number in range(400):
            draw = Draw(f"recorded {number}")
            text = drawn_world(draw)
            log = drawn_log(draw, text).encode()
            try:
                told = recorded(log, read_world(text.encode()))
            except Ended:
                continue
            if told is None:
                continue
            replay = Replay(read_world(text.encode()))
            state = replay.run(recording.events(told[0].encode(), replay.state))
            self.assertEqual((state.processes, state.spaces), (told[1].processes, told[1].spaces), told[0])
            count += 1
            lines += told[0].count("\n")
        self.assertGreater(count, 130)
        self.assertGreater(lines, 300)


if __name__ == "__main__":
    unittest.main()
