"""Traps of single calls: maps by every spelling, calls that fail, and what a recorder may not expect."""
from .row import ALL, Trap

MAPS = "a map is written by an odd spelling: it isn't in the log, or the recording stops"
HIDDEN = "a map is reached by a mount that goes at once, so that its writing is missing"
REFUSED = "a call fails or does nothing, and a reader refuses its line, or takes it as done"
ODD = "a program does what a recorder may not expect, and the log says otherwise than the kernel"

TRAPS = (
    *(Trap("maps", case, MAPS, spelling, ("right",), ALL, asked=False) for case, spelling in (
        ("writev", "writev(2)"), ("stdio", "the stdio of musl: a piece is empty"),
        ("pwritev", "pwritev(2), which fails"), ("pwrite", "pwrite(2), which fails"), ("openat2", "openat2(2)"),
        ("creat", "creat(2)"),
        ("sendfile", "sendfile(2), which fails"), ("splice", "splice(2), which fails"),
        ("folder", "relative to a directory of /proc"), ("dots", "/proc/self/../N"), ("slashes", "//proc//N"),
        ("link", "a symbolic link"), ("task", "/proc/N/task/N"), ("cwd", "relative to the current directory"),
        ("chroot", "the root directory is /proc"), ("mount", "a second mount of proc"), ("copy", "dup(2), dup2(2)"),
        ("message", "SCM_RIGHTS"), ("thread", "a thread"), ("shell", "a shell's redirection"),
        ("execve", "a descriptor that outlives an execve"))),
    *(Trap("maps", case, HIDDEN, spelling, ("right or doubt maps",), ALL, asked=False)
      for case, spelling in (
        ("bind", "the file is mounted elsewhere, and unmounted"), ("bind-folder", "its folder, likewise"),
        ("tree", "open_tree(2)"), ("detached", "a proc that is unmounted while the file is open"),
        ("fsmount", "fsmount(2)"))),
    Trap("calls", "securebits-unknown", REFUSED, "unknown securebits", ("right or difference",), ALL, asked=False),
    *(Trap("calls", case, REFUSED, spelling, ("right",), ALL, asked=False) for case, spelling in (
        ("clone3-pid", "clone3 with a pid in use"), ("clone3-group", "clone3 into what is no control group"),
        ("clone3-long", "clone3 with arguments of later kernels"), ("setns-none", "setns of no descriptor"),
        ("setns-own", "setns to one's own namespace"), ("setns-dead", "setns to a dead process"),
        ("unshare-unknown", "unshare with an unknown flag"), ("capset-other", "capset of another process"),
        ("capset-version", "capset of an unknown version"),
        ("capset-past", "capset with bits past the last capability"),
        ("privs-zero", "PR_SET_NO_NEW_PRIVS with 0"),
        ("privs-words", "PR_SET_NO_NEW_PRIVS with spare words"), ("ambient-words", "PR_CAP_AMBIENT_CLEAR_ALL with one"),
        ("ambient-unknown", "an unknown PR_CAP_AMBIENT"), ("keepcaps-two", "PR_SET_KEEPCAPS with 2"),
        ("bounding-unknown", "PR_CAPBSET_DROP of 99"), ("bounding-minus", "PR_CAPBSET_DROP of -1"),
        ("groups-nowhere", "setgroups from an address that isn't there"), ("groups-many", "setgroups of 70,000"),
        ("getgroups-zero", "getgroups with the size 0"), ("execve-folder", "execve of a folder"),
        ("execve-nothing", "execve of an empty path"), ("execve-no-bit", "execve of a file without x, as root"),
        ("execve-device", "execve of a device"), ("execve-below", "execve below a file"),
        ("execve-long", "execve with a long word"), ("execve-written", "execve of a file that is open for writing"),
        ("execveat-none", "execveat of no descriptor"), ("execveat-folder", "execveat of a folder's descriptor"),
        ("execveat-link", "execveat of a link, which it doesn't follow"), ("execveat-flags", "execveat with a flag"),
        ("map-all", "a map of the initial namespace"), ("map-nowhere", "a map from an address that isn't there"),
        ("map-empty", "a map of no bytes"), ("map-zero", "a map with a zero byte, which the kernel takes"),
        ("map-spaces", "a map with control characters"), ("map-large", "a number past 32 bits, which the kernel cuts"),
        ("map-octal", "a number with a leading 0"), ("map-hex", "a number with 0x"),
        ("word-unknown", "setgroups file: another word"), ("word-line", "setgroups file: a word behind a line feed"))),
    *(Trap("odd", case, ODD, spelling, told, gone) for case, spelling, told, gone in (
        ("gate", "calls of 32-bit programs", ("right or told",), ALL),
        ("gate-short", "calls with ids of 16 bits", ("uid:0 own-calls or told",), "cap:.*|gid:.*"),
        ("gate-answer", "getuid of 16 bits answers 65534", ("right or told",), ALL),
        ("x32", "a call of x32", ("right or told",), "none"), ("untraced", "CLONE_UNTRACED", ("told",), "none"),
        ("shared", "a set-user-ID program with a shared folder (CLONE_FS)", ("difference or told",), "none"),
        ("checked", "AT_EXECVE_CHECK, and a saved id", ("right", "uid:0 own-calls"), "cap:.*|gid:.*"),
        ("checked-keepcaps", "AT_EXECVE_CHECK, and KEEPCAPS", ("right", "uid:0 own-calls"), "cap:.*"),
        ("flags", "the flags of clone3 are exchanged", ("right or told",), "none"),
        ("pidfd", "setns by a pidfd", ("right or told",), ALL),
        ("owner", "setns by NS_GET_USERNS", ("right",), ALL),
        ("like-maps", "plain files named uid_map and setgroups", ("right",), ALL),
        ("names", "names of processes like lines of a status", ("uid:0 held or told",), ALL),
        ("programs", "names of programs like lines of a log", ("uid:0 held or told",), ALL),
        ("lies", "a status that lies, mounted over its own", ("uid:0 held or told",), "none"),
        ("killed", "the tracer is killed", ("told",), "none"),
        ("secrets", "secrets in words, names, files, messages", ("right or told", "no secret"), ALL))),
)
