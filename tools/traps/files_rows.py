"""Traps of files and mounts."""
from .row import ALL, Trap

SHADOW = "one path is two files, so that one row of the world stands for both"
MADE = "a set-user-ID program comes between the scan and the drop"
MOUNTED = "a mount brings a set-user-ID program that no scan saw"
FOREIGN = "a file of another mount namespace, or of a detached mount, gives nothing, and the replay gives its ids"
TO_THE_DROP = ("--until", r"setresuid\(33", "--for", "30")

TRAPS = (
    *(Trap("shadow", case, SHADOW, spelling, ("uid:0 program or doubt files or doubt scan or doubt mounts",))
      for case, spelling in (
        ("nosuid", "the same file on a mount with nosuid, in a child's mount namespace"),
        ("other", "another file in a child's mount namespace"), ("root", "another file in a changed root directory"),
        ("covered", "covered by a mount for a while"), ("exchanged", "exchanged by renameat2(2), and back"))),
    Trap("shadow", "bwrap", SHADOW, "what bubblewrap shows",
         ("uid:0 program or doubt files or doubt scan or doubt mounts",),
         options=TO_THE_DROP),
    Trap("shadow", "plain", SHADOW, "a plain file in a child's mount namespace: the recording is true",
         ("right or doubt mounts or doubt files",)),
    *(Trap("files", case, MADE, spelling, ("doubt files or doubt scan or uid:0 program",), options=TO_THE_DROP)
      for case, spelling in (
        ("made", "chmod(2) of its own copy"), ("descriptor", "fchmod(2)"), ("proc", "chmod(2) of /proc/self/fd/N"),
        ("fchmodat2", "fchmodat2, of Linux 6.6"), ("int80", "chmod by the gate of 32-bit programs"),
        ("attribute", "fsetxattr(2) of security.capability"), ("setxattrat", "setxattrat, of Linux 6.13"),
        ("renamed", "rename(2) over a plain file"), ("linked", "link(2)"),
        ("unnamed", "O_TMPFILE, named by linkat(2)"), ("folder", "a folder is opened for all"),
        ("owner", "another owner by chown(2)"), ("copied", "cp -p"))),
    Trap("files", "deleted", MADE, "a program of the scan is deleted, and held open",
         ("uid:0 program or doubt files or doubt scan",), options=TO_THE_DROP),
    *(Trap("mounts", case, MOUNTED, spelling, ("doubt mounts or doubt files or doubt scan or uid:0 program",),
           options=TO_THE_DROP) for case, spelling in (
        ("own", "a tmpfs in a mount namespace of its own"), ("remounted", "mount(2) takes nosuid away"),
        ("setattr", "mount_setattr(2) takes nosuid away"), ("bound", "a second mount without nosuid"),
        ("overlay", "an overlay over a closed folder"), ("parts", "fsopen(2) and move_mount(2)"))),
    Trap("mounts", "space", MOUNTED, "a tmpfs of a user namespace in which user 0 is user 0",
         ("doubt mounts or doubt files or doubt scan or uid:0 program",),
         options=("--until-each", r"setresuid\(33", "--for", "30")),
    *(Trap("mounts", case, FOREIGN, spelling, ("difference or doubt mounts or doubt files or stopped",), ALL)
      for case, spelling in (
        ("behind", "opened before unshare(2)"), ("behind-attribute", "a file with an attribute, likewise"),
        ("tree", "open_tree(2), by its descriptor"), ("tree-folder", "open_tree(2), by fchdir(2)"),
        ("tree-root", "open_tree(2), by chroot(2)"))),
)
