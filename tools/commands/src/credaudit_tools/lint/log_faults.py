"""What is wrong with a line of a log that the program refuses (`bad log line K: FAULT`, docs/FORMATS.md and STRACE.md),
and what the line was meant to be."""
import difflib
import re
from dataclasses import dataclass

from ..command_line.printable import shown
from ..doubts.findings import LOG, Finding
from ..formats.kernel_names import NUMBERS
from .world_keys import CALLS

BAD_LINE = re.compile(r"bad log line (\d+): ([a-z]+)( \d+)?")
SHOWN = 120
BOM, UTF16 = b"\xef\xbb\xbf", (b"\xff\xfe", b"\xfe\xff")
PRCTL = {"PR_SET_NO_NEW_PRIVS": "no_new_privs 1", "PR_SET_KEEPCAPS": "keepcaps 1",
         "PR_SET_SECUREBITS": "securebits NUMBER",
         "PR_CAPBSET_DROP": "bset_drop CAP", "PR_CAP_AMBIENT": "amb_raise CAP, amb_lower CAP or amb_clear"}
OTHER_NAMES = {"clone": "fork, or clone_user with CLONE_NEWUSER", "clone3": "fork, or clone_user with CLONE_NEWUSER",
               "vfork": "fork", "exit_group": "exit", "_exit": "exit", "execveat": "execve",
               "seteuid": "setresuid -1 ID -1",
               "setegid": "setresgid -1 ID -1", "initgroups": "setgroups", "cap_set_proc": "capset",
               "newuidmap": "write_uid_map", "newgidmap": "write_gid_map", "seccomp": "install NAME ..",
               "prctl": ", ".join(PRCTL.values())}


@dataclass(frozen=True)
class Meant:
    """A line that looks like this, with one of these faults, was meant so."""
    faults: tuple[str, ...]
    pattern: re.Pattern[bytes]
    why: str
    hint: str


def meant(faults: str, pattern: bytes, why: str, hint: str) -> Meant:
    """What lines of these faults that fit the pattern were meant to be."""
    return Meant(tuple(faults.split()), re.compile(pattern, re.S), why, hint)


COMPRESSED = rb"\x1f\x8b|\xfd7zXZ|\x28\xb5\x2f\xfd|BZh[1-9]1AY"
UNPACK = "the file is compressed", "unpack it first (gunzip, unxz, unzstd, bunzip2)"
STRACE_CALL = rb"\d+ +[a-z_0-9]+\(.*\) += "
# The first row that fits decides.
SCRIPT = (
    meant("pid", rb"\s*#", "a remark begins with another sign", "a remark begins with ;"),
    meant("pid", rb"\s*(//|--)", "a remark begins with another sign", "a remark begins with ;"),
    meant("pid", rb"> \d+ ", "that is a credential line of a report", "a log has the events alone: `100 setuid 7 = 0`"),
    meant("pid", rb"end \d+", "that is the end of a report", "a log has the events alone"),
    meant("pid", rb"\d+: \d+ ", "that is a report's event, which begins with the number of its line",
          "leave out the number"),
    meant("pid", rb"\d+:", "something is joined to the pid", "a blank behind the pid alone"),
    meant("pid", rb"\[pid +\d+\]", "that is what strace writes without -o",
          'strace -f -o FILE, and log = "strace" in the world'),
    meant("pid", rb"\s*\[?\[|\s*[a-z_]+ *= ", "this looks like a world", "WORLD stands before LOG"),
    meant("pid", rb"\s*[a-z_0-9]+\(", "that is a line of strace without a pid",
          'strace -f -o FILE, and log = "strace"'),
    meant("pid", rb"\s*[a-z_]+( |$)", "the pid is missing", "begin with the pid of the process: 100 .."),
    meant("pid", COMPRESSED, *UNPACK),
    meant("call", STRACE_CALL, "that is a line of strace",
          'log = "strace" in the world, or write `100 setuid 1000 = 0`'),
    meant("call", rb"\d+ +(\+\+\+|---|<\.\.\.|\[)", "that is a line of strace", 'log = "strace" in the world'),
    meant("shape", rb".* = -1 +E[A-Z0-9]+", "the result is the error's name alone", "= EPERM"),
    meant("shape", rb".* = E[A-Z0-9]+ \(", "the result is the error's name alone", "= EPERM"),
    meant("shape", rb"[^=]*\S=|[^=]*= *\S*=|[^=]*=\S", "something is joined to the =", "blanks on both sides of the ="),
    meant("shape", rb"[^=]*$", "the result is missing", "end with ` = 0`, or ` = ` and the name of an error"),
    meant("shape", rb".* = \S+ +[;#]", "a remark has a line of its own", "put it on a line that begins with ;"),
    meant("shape", rb".* = ", "there is more than one result", "one word behind the ="),
    meant("count", rb"\d+ +execve ", "execve has its path alone", "execve PATH = 0, without words and environment"),
    meant("count", rb"\d+ +exit ", "exit has no argument", "exit = 0"),
    meant("count", rb"\d+ +fork ", "fork has no argument", "fork = PID of the child"),
    meant("count", rb"\d+ +write_[ug]id_map ", "a map is the namespace and triples",
          "write_uid_map SPACE INSIDE OUTSIDE LENGTH"),
    meant("count", rb"\d+ +capset ", "capset has three sets", "capset EFFECTIVE PERMITTED INHERITABLE = 0"),
    meant("count", rb"\d+ +(setres[ug]id) ", "it has three ids", "real, effective, saved; -1 leaves one as it is"),
    meant("count", rb"\d+ +(setre[ug]id) ", "it has two ids", "real, effective; -1 leaves one as it is"),
    meant("argument", rb"\d+ +setgroups .*[\[,]", "groups stand between blanks", "setgroups 4 24 27 = 0"),
    meant("argument", rb"\d+ +setgroups +(none|-|\(\)) ", "no groups are told by no word", "setgroups = 0"),
    meant("argument", rb"\d+ +set[a-z]*[ug]id .*0x", "an id has decimal digits", "33, and not 0x21"),
    meant("argument", rb"\d+ +set[a-z]*[ug]id .*[A-Za-z]", "an id is a number", "`id -u NAME` tells it"),
    meant("argument", rb"\d+ +set[a-z]*[ug]id .*\d,", "ids stand between blanks", "setresuid 33 33 33 = 0"),
    meant("argument", rb"\d+ +set[a-z]*[ug]id .*(-[2-9]|429496729[6-9])", "that is no id", "0 to 4294967294, or -1"),
    meant("argument", rb"\d+ +capset .*0x", "a set has 16 hexadecimal digits without 0x", "0000000000000400, or names"),
    meant("argument", rb"\d+ +capset ", "a set is `all`, `none`, 16 hexadecimal digits, or names between commas",
          "CAP_NET_RAW,CAP_SETUID without blanks"),
    meant("argument", rb"\d+ +(bset_drop|amb_[a-z]+) ", "a capability has its name in capital letters", "CAP_NET_RAW"),
    meant("argument", rb"\d+ +(setns|write_[a-z_]+) ", "the namespace isn't declared",
          "init, the name of a [[space]], or #N"),
    meant("argument", rb"\d+ +(securebits|keepcaps|no_new_privs) ", "that is no number", "decimal digits"),
    meant("argument", rb"\d+ +install .*,", "names stand between blanks", "install setuid setgid = 0"),
    meant("argument", rb"\d+ +install .*\bexit\b", "no filter that is installed excludes exit", "leave it out"),
    meant("argument", rb"\d+ +install ", "that is none of the calls", 'docs/FORMATS.md, "Log", has their names'),
    meant("result", rb"\d+ +(fork|clone_user) ", "the result is the child's pid, or an error", "fork = 101"),
    meant("result", rb"\d+ +setfs[ug]id ", "the result is the id from before, or EPERM", "= 1000"),
    meant("result", rb"\d+ +exit ", "the result of exit is 0 alone", "= 0"),
    meant("result", rb".* = -1", "the result is the error's name", "= EPERM"),
    meant("result", rb".* = E", "that error isn't one of the 17 that a log can have",
          "docs/FORMATS.md, \"Log\", has them"),
    meant("result", rb".* = 0\d", "a success is 0 alone", "= 0"),
    meant("result", rb".* = ", "that is no result of this call", "= 0, or = and the name of an error"),
)
STRACE = (
    meant("pid", rb"\s*[#;]", "strace writes no remarks", "leave the line out"),
    meant("pid", rb"\[pid +\d+\]", "strace wrote to its standard error", "-o FILE: then each line begins with the pid"),
    meant("pid", rb"strace: ", "that is a message of strace itself", "-o FILE keeps them apart"),
    meant("pid", rb"\d+<", "a name follows the pid", "without --decode-pids=comm"),
    meant("pid", rb" > /", "that is a line of the stack", "without -k"),
    meant("pid", rb"\s*[a-z_0-9]+\(", "the line has no pid", "-f -o FILE; with -ff there are no pids"),
    meant("pid", rb"\s*\[?\[|\s*[a-z_]+ *= ", "this looks like a world", "WORLD stands before LOG"),
    meant("pid", rb"\s+\d+ ", "a blank stands before the pid", "the line begins with the pid"),
    meant("pid", rb"(% time|------ ------| *\d+\.\d+ +\d+\.\d+ +\d)", "that is strace's table of counts",
          "without -c and -C"),
    meant("pid", rb"type=[A-Z_]+ msg=audit\(", "that is a line of auditd", "record with credaudit-trace or strace"),
    meant("pid", COMPRESSED, *UNPACK),
    meant("shape", rb"\d+ +[a-z_0-9]+ .* = ", "that is a line of a script", 'log = "script" in the world'),
    meant("shape", rb".*<pid changed to", "a thread that isn't the leader made an execve", "begin with -p after it"),
    meant("shape", rb".*execve(at)?\(.*<detached \.\.\.>", "strace let go of the process, which runs on untraced",
          "record anew, without -b execve and up to the end that you ask about"),
    meant("shape", rb".*<detached \.\.\.>", "strace ended while the call was under way", "cut that line off"),
    meant("shape", rb".*[^)]$", "the line is cut", "record it anew, or cut that line off"),
    meant("superseded", rb"", "a thread that isn't the leader made an execve",
          "execve from the leader, or -p after it"),
    meant("unfinished", rb".*resumed>", "what it resumes isn't there",
          "keep all lines: filter by -e trace= and not by text"),
    meant("unfinished", rb"", "the call before it was never resumed",
          "keep all lines: filter by -e trace= and not by text"),
    meant("result", rb".*\) += \S.* <\d+\.\d+>$", "the time stands behind the result", "without -T"),
    meant("result", rb".*in strace's PID NS", "two pids stand in the result", "without --pidns-translation"),
    meant("result", rb".*\(INJECTED\)", "strace answered in the kernel's place: the call wasn't made",
          "without -e inject= and -e fault="),
    meant("result", rb"", "that is no result of this call", "docs/STRACE.md, \"Calls\""),
    meant("argument", rb".*setgroups\(.*\.\.\.\]", "the list is cut", "record with -v"),
    meant("argument", rb'.*(write|pwrite64)\(.*"\.\.\.', "the map's text is cut", "record with -s 65535"),
    meant("argument", rb'.*execve(at)?\(.*\\x', "the path is written in hexadecimal", "without -xx"),
    meant("argument", rb'.*execve(at)?\(.*"\.\.\.', "the path is cut", "record with -s 65535"),
    meant("argument", rb".*set[a-z]*[ug]id(32)?\(.*0x", "ids stand in hexadecimal", "without -X raw and -e raw="),
    meant("argument", rb".*capset\(.*0x", "strace doesn't know a capability", "a newer strace"),
    meant("argument", rb".*= -1 E", "what was asked for can't be read",
          "cut the line off: a call that failed changes nothing"),
    meant("descriptor", rb".*execveat\(", "the file of a descriptor isn't known", "begin with -p once it runs"),
    meant("descriptor", rb".*(open|openat|creat)\(.*\"[^/\"]*\"", "a map was opened relative to a directory",
          "record with credaudit-trace, which follows it"),
    meant("descriptor", rb".*(dup|dup2|dup3|fcntl)\(", "a copy of a map's descriptor isn't followed",
          "record with credaudit-trace, which follows it"),
    meant("descriptor", rb".*setns\(", "whose namespace that is isn't known",
          "declare the process whose /proc/PID/ns/user it is"),
    meant("descriptor", rb"", "descriptors that threads share aren't followed",
          "record with credaudit-trace, which follows them"),
)
GENERAL = {
    "pid": "write the pid of the process in front", "call": "docs/FORMATS.md, \"Log\", has the names of the calls",
    "shape": "one call, ` = `, and one result", "count": "docs/FORMATS.md, \"Log\", has the arguments of each call",
    "argument": "docs/FORMATS.md, \"Log\", has the kinds of arguments",
    "result": "0, the name of an error, or a child's pid",
}


def line_of(log: bytes, number: int) -> bytes:
    """The line of that number, empty where there is none."""
    lines = log.split(b"\n")
    return lines[number - 1] if number <= len(lines) else b""


def encoding(log: bytes) -> tuple[str, str] | None:
    """What stands before the first line."""
    if log.startswith(UTF16):
        return "the log is UTF-16", "save it as plain text, in ASCII or UTF-8"
    if log.startswith(BOM):
        return "a byte order mark stands before the first line", "save it as UTF-8 without a byte order mark"
    return None


def call_meant(line: bytes) -> tuple[str, str] | None:
    """For a name that is no call's."""
    words = line.split()
    if len(words) < 2:
        return "the call is missing", "PID CALL ARGUMENTS = RESULT"
    name = words[1].decode("ascii", "replace")
    if name.lower() in CALLS:
        return "calls have small letters", name.lower()
    if name == "prctl" and len(words) > 2 and words[2].decode("ascii", "replace") in PRCTL:
        return "prctl has a name for each of its options", PRCTL[words[2].decode()]
    if name in OTHER_NAMES:
        return f"{name} isn't its name here", OTHER_NAMES[name]
    near = difflib.get_close_matches(name.lower(), CALLS, 1, 0.75)
    if near:
        return "no call has this name", f"{near[0]}?"
    return "no call of the table has this name", "leave it out: it changes no credential"


def capability_meant(line: bytes) -> tuple[str, str] | None:
    """For a capability that is spelled otherwise."""
    for word in line.split()[2:]:
        name = word.decode("ascii", "replace").upper()
        for full in (name, "CAP_" + name):
            if full in NUMBERS and full.encode() != word:
                return "a capability has its name in capital letters, with CAP_ in front", full
    return None


def explained(fault: str, line: bytes, form: str, number: int, log: bytes) -> tuple[str, str]:
    """What is wrong of a line with this fault, and what to write."""
    if number == 1 and fault in ("pid", "call", "shape") and (told := encoding(log)) is not None:
        return told
    for row in SCRIPT if form == "script" else STRACE:
        if fault in row.faults and row.pattern.match(line):
            if fault == "argument" and form == "script" and (named := capability_meant(line)) is not None:
                return named
            return row.why, row.hint
    if fault == "call" and (told := call_meant(line)) is not None:
        return told
    return "it isn't as a log's line", GENERAL.get(fault, "docs/STRACE.md has what stops a log")


def faults(told: str, log: bytes, form: str) -> list[Finding]:
    """The program's refusal of a line, in words."""
    found = BAD_LINE.fullmatch(told)
    if found is None:
        return []
    number, fault = int(found.group(1)), found.group(2)
    line = line_of(log, number)
    why, hint = explained(fault, line, form, number, log)
    place = f"{fault}{found.group(3) or ''}"
    return [Finding(LOG, number, f"{place}: {why}: {shown(line[:SHOWN])}", hint)]
