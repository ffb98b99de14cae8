"""Draws logs of strace, has tools/plain/strace.py read them, and writes what it reads as cases for the definitions of
crates/model_strace: the checker then computes each case, and refuses those that the definitions read otherwise.

    python3 tools/strangers/draw_strace_logs.py COPY SEED COUNT [KIND]

COPY is a copy of the repository (the file of cases is made there, and named in proofs/Lib.antt; then `rt check` in
COPY/crates/model_strace). KIND is `any` (short logs, most of which end at a fault), `calm` (long logs, lines that would
end the reading mostly left out) or `files` (calm logs of map files alone).
"""
import random
import re
import sys
from collections.abc import Callable, Iterable, Sequence
from pathlib import Path
from typing import TypeVar

from plain.strace import CAPABILITIES, Start, call_word, quoted, reading

WORLD = Start({200: "init"}, files=frozenset({"/bin/su"}))      # the world of proofs/CaseWorld.antt
Drawn = tuple[str, str]         # a call: the text before the result, and the result
Begun = dict[str, tuple[str, str]]      # by pid a call that isn't finished: the name, and the rest
T = TypeVar("T")
IDS = ["0", "33", "-1", "4294967295"]
ODD_IDS = ["4294967296", "x", "", "007", "-2", "1 2"]
NUMBERS = ["0", "1", "3", "00", "4294967295", "4294967296", "x", "0x1", ""]
ODD_RESULTS = ["-1 EPERM (Operation not permitted)", "-1 EINVAL", "-1 ESRCH (No)", "-1 ENOSYS (x)", "?",
               "? ERESTARTSYS", "1", "00", "x", "", "0x3", "-1", "-1EPERM", "-1 E2BIG", "4294967295", "4294967296",
               "0 (c)", "18446744073709551616", "3", "4", "201"]
ID_CALLS = [("setuid", 1), ("setreuid", 2), ("setresuid", 3), ("setfsuid", 1), ("setgid", 1), ("setregid", 2),
            ("setresgid", 3), ("setfsgid", 1), ("setuid32", 1), ("setresgid32", 3), ("setuid3232", 1)]
MASKS = ["0", "1<<CAP_CHOWN", "1<<CAP_KILL|1<<CAP_CHOWN", "0|1<<CAP_BPF", "1<<CAP_KILL |\t0",
         "1<<CAP_CHECKPOINT_RESTORE", "0x1", "", "CAP_KILL", "1<<CAP_KILL|0x20"]
CAPS = ["CAP_KILL", "5", "41", "0x2a", "0x2a /* CAP_??? */", "0xFfF", "/**/", "CAP_KILL /* a */ b */", "0x2a /* CAP",
        "CAP_X", "", "0x", "1/*/", "4294967296", "0x100000000", "1 /* x, y */", "2 /* /* */"]
BITS = ["0", "0x2f", "SECBIT_NOROOT", "SECBIT_KEEP_CAPS|SECBIT_KEEP_CAPS_LOCKED", "5", "SECBIT_X", "0X1", "0x0|0", "00",
        "SECBIT_NOROOT|0x1", "SECBIT_NO_CAP_AMBIENT_RAISE_LOCKED |SECBIT_NO_SETUID_FIXUP"]
HEADERS = ["{version=V, pid=0}"] * 4 + ["{version=V, pid=200}", "{version=, pid=0}", "{version=V, pid=201}",
                                        "{version=V}", "NULL", "{ version = V , pid = 0 }", "{version=V, pid=0, x}",
                                        "{version=V, pid=0}}"]
FLAGS = ["CLONE_VM", "SIGCHLD", "CLONE_VM", "SIGCHLD", "CLONE_NEWUSER", "CLONE_FILES", "CLONE_NEWNS", "0",
         "CLONE_NEWUSERX", " CLONE_FILES "]
OPEN_FLAGS = ["O_RDONLY", "O_WRONLY", "O_RDWR", "O_WRONLY|O_CLOEXEC", "O_RDWR|O_CLOEXEC", "O_WRONLYX", "0x1",
              "O_CLOEXEC| O_WRONLY"]
FILES = ["uid_map", "gid_map", "setgroups", "ns/user"]
FOLDERS = ["self", "thread-self", "200", "201", "202", "0200", "x", "0", "self/task/200", "200/task/201",
           "self/task/self", "thread-self/task/200", "201/task/200", "x/task/200"]
TEXTS = ["0 0 1", "0 1000 1\\n", "", "deny", "allow\\n", "0 1 2\\n3 4 5\\n", "x", "\\60\\t1 2", " 0\\t1000 1\\n1 2 3"]
ODD_TEXTS = ["\\n", "0 1", "deny\\n\\n", "0 0 1\\n\\n", "0\\v1 2", "\\60 1\\0402\\n", "\\400", "\\8", "\\x41",
             "0 0 4294967296", "00 1 2\\r\\n", '\\"', "\\\\", "\\0", "a\\"]
ENDS = ["+++ exited with 0 +++", "+++ killed by SIGKILL +++", "+++ killed by +++", "+++ exited with 1x +++",
        "--- SIGCHLD ---", "+++ stopped +++", "+++exited with 0+++", "+++ killed by x+++", "+++ killed byx +++"]


class Draws:
    """Draws of one seed, one after another, of a kind (above)."""

    def __init__(self, seed: int, kind: str) -> None:
        self.random, self.kind = random.Random(seed), kind

    def one(self, *choices: T) -> T:
        """One of these."""
        return self.random.choice(choices)

    def often(self, share: float) -> bool:
        """Whether it happens, of this share of the cases."""
        return self.random.random() < share

    def mostly(self, good: Sequence[T], odd: Sequence[T], share: float = .85) -> T:
        """One of the good ones, and of the odd ones in the rest of the cases."""
        return self.random.choice(good if self.often(share) else odd)

    # ---- pieces of calls

    def result(self, *good: str) -> str:
        """A result, mostly a good one: 0 where none is named."""
        return self.mostly(good or ("0",), ODD_RESULTS, .75)

    def fd(self) -> str:
        """A descriptor."""
        return self.mostly(["3", "3", "4"], ["5", "x", "", "03", "1"])

    def quote(self, text: str) -> str:
        """A text in quotes, mostly whole."""
        return f'"{text}"' + self.mostly([""], ["...", "x", " "], .9)

    def path(self) -> str:
        """A path, mostly of a file that is followed."""
        file, folder = self.one(*FILES), self.one(*FOLDERS)
        if self.kind == "files" or self.often(.7):
            folder = self.one("self", "200", "201", "thread-self", "200/task/201")
        odd = [file, f"self/{file}", f"./{file}", f"/proc//self/{file}", f"/proc/self/{file}/", "/proc/self/ns/mnt",
               "/bin/su", "", "/", "x" + file, f"/proc/{file}", f"//proc/self/{file}"]
        return self.mostly([f"/proc/{folder}/{file}"], odd)

    def flags(self) -> str:
        """The flags of a birth."""
        return "|".join(self.one(*FLAGS) for _ in range(self.one(1, 1, 2, 3)))

    # ---- calls

    def ids(self) -> Drawn:
        """One of the calls that set ids."""
        name, count = self.one(*ID_CALLS)
        ids = [self.mostly(IDS, ODD_IDS) for _ in range(max(0, count + self.one(*[0] * 8, -1, 1)))]
        return f"{name}({', '.join(ids)})", self.result()

    def groups(self) -> Drawn:
        """setgroups."""
        ids = [self.one(*IDS) for _ in range(self.one(0, 1, 2))]
        texts = ["NULL", "[1, ...]", "0x7f", "[x]", "[ ]", "[1,2", "[[1]]", "[1], [2]", "[1]]"]
        text = self.mostly([f"[{', '.join(ids)}]"], texts, .6)
        return f"setgroups{self.one('', '32')}({self.mostly([str(len(ids))], NUMBERS)}, {text})", self.result()

    def caps(self) -> Drawn:
        """capset."""
        sets = [self.mostly(MASKS[:6], MASKS) for _ in range(3)]
        good = "{effective=%s, permitted=%s, inheritable=%s}" % tuple(sets)
        odd = ["{permitted=0, effective=0}", "NULL", "{}", good + " x"]
        return f"capset({self.one(*HEADERS)}, {self.mostly([good], odd)})", self.result()

    def prctl(self) -> Drawn:
        """prctl."""
        option = self.one(
            f"PR_SET_KEEPCAPS, {self.one(*NUMBERS)}", f"PR_SET_NO_NEW_PRIVS, {self.one(*NUMBERS)}, 0, 0",
            f"PR_SET_SECUREBITS, {self.one(*BITS)}", f"PR_CAPBSET_DROP, {self.one(*CAPS)}",
            f"PR_CAP_AMBIENT, PR_CAP_AMBIENT_RAISE, {self.one(*CAPS)}, 0",
            f"PR_CAP_AMBIENT, PR_CAP_AMBIENT_LOWER, {self.one(*CAPS)}", "PR_CAP_AMBIENT, PR_CAP_AMBIENT_CLEAR_ALL, 0",
            "PR_CAP_AMBIENT, PR_CAP_AMBIENT_IS_SET, 1", "PR_CAP_AMBIENT", "PR_GET_DUMPABLE", "", "PR_SET_KEEPCAPS",
            " , 1")
        return f"prctl({option})", self.result()

    def birth(self) -> Drawn:
        """A birth."""
        flags = self.flags()
        text = self.one(
            "fork()", "vfork()", f"clone(child_stack=NULL, flags={flags}, x=1)", f"clone(flags={flags})",
            f"clone3({{flags={flags}, exit_signal=SIGCHLD}} => {{parent_tid=[0]}}, 88)",
            f"clone3({{flags={flags}}}, 88)", "clone3({x={flags=CLONE_NEWUSER}, y=1}, 88)",
            f"clone3({{x=[1, 2], flags={flags}}}, 88)", f"clone(x, {{flags={flags}}}, flags=CLONE_FILES)")
        return text, self.result("201", "202", "203", "201")

    def namespaces(self) -> Drawn:
        """unshare or setns."""
        if self.often(.4):
            return f"unshare({self.one(self.flags(), 'CLONE_NEWUSER', '')})", self.result()
        flags = self.one("0", "CLONE_NEWUSER", "CLONE_NEWNS", "CLONE_NEWUSER|CLONE_NEWNS", "")
        return self.mostly([f"setns({self.fd()}, {flags})"], ["setns()", "setns(3)"], .9), self.result()

    def execve(self) -> Drawn:
        """execve or execveat."""
        path = self.quote(self.one("/bin/su", "/bin/ls", "", "/bin/s\\165", "\\q"))
        text = self.one(f'execve({path}, ["a, b) = 0"], NULL)',
                        f"execveat({self.one('AT_FDCWD', '3', '')}, {path}, [])", "execve()", "execveat()",
                        "execve(NULL)")
        return text, self.result()

    def open(self) -> Drawn:
        """An opening."""
        path, flags, folder = self.quote(self.path()), self.one(*OPEN_FLAGS), self.one("AT_FDCWD", "3", "x")
        text = self.one(f"open({path}, {flags})", f"openat({folder}, {path}, {flags})", f"creat({path}, 0600)")
        return text, self.result("3", "3", "4", "5")

    def descriptors(self) -> Drawn:
        """A call on descriptors."""
        command = self.one("F_DUPFD", "F_DUPFD_CLOEXEC", "F_GETFL", "F_DUPFD, 3")
        text = self.one(f"close({self.fd()})", f"dup({self.fd()})", f"dup2({self.fd()}, {self.fd()})",
                        f"dup3({self.fd()}, {self.fd()}, 0)", f"fcntl({self.fd()}, {command})")
        return text, self.result("3", "4", "0")

    def write(self) -> Drawn:
        """A write."""
        text = self.mostly(TEXTS, ODD_TEXTS)
        size = len(quoted(f'"{text}"') or "abc")
        name = self.one("write", "pwrite64", "write32")
        call = self.mostly([f"{name}({self.fd()}, {self.quote(text)}, 9)"],
                           ["write(3)", "write()", "write(3, 0x7ff, 4)"], .92)
        return call, self.result(*[str(size)] * 5, str(size + 1), "-1 EPERM (x)")

    def unlisted(self) -> Drawn:
        """A call that no rule reads."""
        return self.one("getpid()", "wait4(-1, NULL)", "exit_group(0)", "foo"), self.result()

    def call(self) -> Drawn:
        """Any call."""
        files: list[Callable[[], Drawn]] = [self.open, self.open, self.write, self.write, self.namespaces]
        others: list[Callable[[], Drawn]] = [self.ids, self.groups, self.caps, self.prctl, self.birth, self.birth,
                                             self.execve, self.descriptors, self.unlisted]
        return self.one(*files * (6 if self.kind == "files" else 1), *others)()

    # ---- lines

    def mutated(self, line: str) -> str:
        """A line of which a character is changed."""
        at, byte = self.random.randrange(len(line) + 1), self.one(*list('()=",{}[]|0123 \t\\x-+<>;?'), "32", "...")
        return line[:at] + self.one(byte, "") + line[at + self.one(0, 1):]

    def line(self, begun: Begun) -> str:
        """A line, given the calls that aren't finished."""
        pid = self.one(*["200"] * 6, *["201"] * 4, *["202"] * 2, "203")
        if pid in begun and self.often(.6):
            name, rest = begun.pop(pid)
            line = f"{pid} <... {name} resumed>{rest}"
        elif self.often(.12 if self.kind == "any" else .02):
            line = f"{pid} {self.mostly(ENDS, ['+++ superseded by execve in pid 3 +++'], .97)}"
        elif self.often(.05):
            line = self.mostly(["", " ", pid, pid + " ", "\t", pid + "\r"], ["x", " 200 a", "0 x"], .95)
        else:
            line = pid + " " + self.call_or_begin(pid, begun)
        line = self.mutated(line) if self.often(.04) else line
        return line + self.mostly([""], [" ", "\r", "\t"], .95)

    def call_or_begin(self, pid: str, begun: Begun) -> str:
        """A whole call, or its front."""
        text, result = self.call()
        text += f"{self.one('', ' ', '   ')}={self.one(' ', '', '  ')}{result}"
        if not self.often(.15):
            return text
        at = max(self.random.randrange(1, len(text)), text.find("(") + 1)
        name = call_word(text)
        begun[pid] = (self.mostly([name], [name + "32", name[:-2], "???", "x", ""], .8), text[at:])
        return text[:at] + self.one("", " ") + "<unfinished ...>"

    def log(self) -> list[str]:
        """The lines of a log."""
        lines: list[str] = []
        begun: Begun = {}
        if self.kind == "any":
            return [self.line(begun) for _ in range(self.random.randrange(1, 13))]
        size = self.random.randrange(10, 45)
        while len(lines) < size:
            known = dict(begun)
            line = self.line(begun)
            if read(lines + [line])[1] == "end" or self.often(.01):
                lines.append(line)
            else:
                begun = known
        return lines


def read(lines: list[str]) -> tuple[list[str], str]:
    """What the plain reader reads: events, and how the reading ends."""
    return reading(WORLD, "".join(line + "\n" for line in lines).encode("latin-1"))


# ---- as cases --------------------------------------------------------------------------------------------------------

CALLS = {"setuid": "SetUid", "setreuid": "SetReUid", "setresuid": "SetResUid", "setfsuid": "SetFsUid",
         "setgid": "SetGid", "setregid": "SetReGid", "setresgid": "SetResGid", "setfsgid": "SetFsGid",
         "setgroups": "SetGroups", "capset": "CapSet", "bset_drop": "BsetDrop", "amb_raise": "AmbRaise",
         "amb_lower": "AmbLower", "amb_clear": "AmbClear", "securebits": "SecureBits", "keepcaps": "KeepCaps",
         "no_new_privs": "NoNewPrivs", "fork": "Fork", "clone_user": "CloneUser", "unshare": "Unshare",
         "setns": "SetNs", "write_uid_map": "WriteUidMap", "write_gid_map": "WriteGidMap",
         "write_setgroups": "WriteSetgroups", "execve": "Exec", "exit": "Exit"}
FAULTS = {"pid": "Pid", "shape": "Shape", "result": "Outcome", "superseded": "Superseded", "unfinished": "Unfinished",
          "descriptor": "Descriptor"}
HEAD = """-- Drawn logs, and what the plain reader reads in them.
use Rattle.std.proofs.Common.{◌≡◌, true, false, [], ◌∷◌, refl}
use Rattle.std.specs.Prelude.{codes}
use Rattle.cm_base.specs.declared.faults.LineFault.TheVariants as fault
use Rattle.cm_base.specs.declared.errno.Errno.TheVariants as errno
use Rattle.cm_base.specs.declared.res.FileRef.TheVariants.{Plain, Row}
use Rattle.cm_base.specs.declared.res.Res.TheVariants as res
use Rattle.model_cred.specs.Call as model
use Rattle.model_strace.proofs.CaseWorld.{the_world, at_line, extent, to_the_end, up_to_fault}
use Rattle.model_strace.specs.Lines.{reading}
"""


def listed(items: Iterable[str]) -> str:
    """A list as a term."""
    return "(" + " ∷ ".join([*items, "[]"]) + ")"


def literal(line: str) -> str:
    """A line as a term."""
    for byte, escape in (("\\", "\\\\"), ('"', '\\"'), ("\t", "\\t"), ("\r", "\\r")):
        line = line.replace(byte, escape)
    return f'codes "{line}"'


def argument(name: str, text: str) -> str:
    """An argument of a script line as a term."""
    if name == "capset":
        return str(int(text, 16))
    if name == "execve":
        return "Plain" if text == "-" else "(Row 0)"
    if name in ("setns", "write_uid_map", "write_gid_map", "write_setgroups") and not text.isdigit():
        return {"init": "0", "deny": "true", "allow": "false"}.get(text, text[1:])
    if text.startswith("CAP_"):
        return str(CAPABILITIES.index(text[4:]))
    return "4294967295" if text == "-1" else text


def event(text: str) -> str:
    """An event as a term. ValueError where it is none."""
    found = re.fullmatch(r"(\d+): (\d+) (.*) = (\S+)", text)
    if not found:
        raise ValueError(f"no event: {text}")
    line, pid, call, result = found.groups()
    name, *texts = call.split(" ")
    arguments = [argument(name, text) for text in texts]
    if name == "setgroups":
        arguments = [listed(arguments)]
    elif name in ("write_uid_map", "write_gid_map"):
        triples = [arguments[k:k + 3] for k in range(1, len(arguments), 3)]
        arguments = [arguments[0], listed(f"extent {' '.join(triple)}" for triple in triples)]
    if name in ("fork", "clone_user") and result.isdigit():
        answer = f"(res.Child {result})"
    elif name in ("setfsuid", "setfsgid"):
        answer = f"(res.Id {result})"
    else:
        answer = "res.Done" if result == "0" else f"(res.Err errno.{result})"
    return f"at_line {line} {pid} ({' '.join(['model.' + CALLS[name], *arguments])}) {answer}"


def case(number: int, lines: list[str]) -> str:
    """A case: what the definitions must read in these lines."""
    events, ending = read(lines)
    told = listed(map(event, events))
    stop = re.fullmatch(r"bad log line (\d+): (\w+) ?(\d*)", ending)
    if stop:
        line, word, argument_number = stop.groups()
        fault = f"(fault.Argument {argument_number})" if word == "argument" else "fault." + FAULTS[word]
        want = f"up_to_fault {told} {line} {fault}"
    else:
        want = f"to_the_end {told}"
    return f"\npub log_{number} : reading the_world {listed(map(literal, lines))} ≡ {want}\nlog_{number} = refl\n"


def main() -> None:
    """Writes the file of cases."""
    copy, seed, count = Path(sys.argv[1]), int(sys.argv[2]), int(sys.argv[3])
    draws = Draws(seed, sys.argv[4] if len(sys.argv) > 4 else "any")
    proofs = copy / "crates/model_strace/proofs"
    (proofs / "Draws.antt").write_text(HEAD + "".join(case(k, draws.log()) for k in range(count)), encoding="utf8")
    names = (proofs / "Lib.antt").read_text(encoding="utf8")
    if "mod Draws" not in names:
        (proofs / "Lib.antt").write_text(names + "pub mod Draws\n", encoding="utf8")


if __name__ == "__main__":
    main()
