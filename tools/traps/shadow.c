/* One path, two files (mount_namespaces(7), chroot(2), rename(2)). A scan saw a set-user-ID program of root at hx/x,
   and the family executes another file under this path, or it is the other way about. The danger: one row of a world
   for both, so that the program of the scan counts as harmless, or a true recording as untrue. */
#include "trap.h"

static void both(mode_t mode)
{
    need(mkdir("hx", 0755) == 0 && mkdir("other", 0755) == 0, "mkdir");
    tell_at("hx/x", 0, 0, 04755);
    tell_at("other/x", 0, 0, mode);
}
static void make(void)
{
    both(0750);
}

/* What the dropped user gets at the path, where the scan saw the program. */
static void dropped(void)
{
    drop(DROPPED);
    if (showing)
        shown_root_by(here("hx/x"));
    hold();
}

/* The child executes hx/x in a mount namespace of its own, after `change`. */
static void elsewhere(void (*change)(void), int as_dropped)
{
    pid_t child = fork();
    if (child == 0) {
        own_mounts();
        change();
        if (as_dropped)
            drop(DROPPED);
        execl(here("hx/x"), "x", "300", (char *)NULL);
        _exit(1);
    }
    need(WIFEXITED(end_of(child)), "the child");
}
static void nosuid_here(void)
{
    need(mount("hx", "hx", NULL, MS_BIND, NULL) == 0, "bind");
    need(mount(NULL, "hx", NULL, MS_BIND | MS_REMOUNT | MS_NOSUID, NULL) == 0, "remount");
}
static void other_here(void)
{
    need(mount("other", "hx", NULL, MS_BIND, NULL) == 0, "bind");
}

/* The same file, on a mount with nosuid there (mount(8)). */
static void nosuid(void)
{
    elsewhere(nosuid_here, 1);
    dropped();
}
/* Another file there, without set-id bits, which root alone may execute. */
static void other(void)
{
    elsewhere(other_here, 0);
    dropped();
}

/* A plain file there, executed by the dropped user: the kernel gives nothing, and a replay by the scan's row gives
   root. The recording is true. */
static void plain(void)
{
    pid_t child = fork();
    if (child == 0) {
        own_mounts();
        other_here();
        drop(DROPPED);
        if (showing) {
            struct told found = told_by(here("hx/x"));
            shown(found.ran && found.uid == DROPPED, "effective user id %u after an execve of hx/x there", found.uid);
        }
        execl(here("hx/x"), "x", "2500", (char *)NULL);
        _exit(1);
    }
    if (showing)
        _exit(WEXITSTATUS(end_of(child)));
    drop(DROPPED);
    hold();
}
static void make_plain(void)
{
    both(0755);
}

/* A changed root in which the path names a plain file. */
static void changed_root(void)
{
    char *path = here("hx/x");
    pid_t child = fork();
    if (child == 0) {
        need(chroot("root") == 0 && chdir("/") == 0, "chroot");
        execl(path, "x", "300", (char *)NULL);
        _exit(1);
    }
    int how = end_of(child);
    need(WIFEXITED(how) && WEXITSTATUS(how) == 0, "the child");
    dropped();
}
static void make_root(void)
{
    make();
    char path[PATH_MAX] = "root", *own = here("hx/x");
    mkdir("root", 0755);
    for (char *at = strchr(own + 1, '/'); at; at = strchr(at + 1, '/')) {
        snprintf(path, sizeof path, "root%.*s", (int)(at - own), own);
        need(mkdir(path, 0755) == 0, path);
    }
    snprintf(path, sizeof path, "root%s", own);
    tell_at(path, 0, 0, 0750);
}

/* The program is covered in the very namespace of the scan for as long as it takes, and comes back. */
static void covered(void)
{
    other_here();
    pid_t child = fork();
    if (child == 0) {
        execl(here("hx/x"), "x", "300", (char *)NULL);
        _exit(1);
    }
    need(WIFEXITED(end_of(child)) && umount("hx") == 0, "umount");
    dropped();
}

/* Names are exchanged and exchanged back (renameat2(2)). */
static void exchanged(void)
{
    need(renameat2(AT_FDCWD, "hx/x", AT_FDCWD, "other/x", RENAME_EXCHANGE) == 0, "renameat2");
    pid_t child = fork();
    if (child == 0) {
        execl(here("hx/x"), "x", "300", (char *)NULL);
        _exit(1);
    }
    need(WIFEXITED(end_of(child)), "the child");
    need(renameat2(AT_FDCWD, "hx/x", AT_FDCWD, "other/x", RENAME_EXCHANGE) == 0, "renameat2");
    dropped();
}

/* bubblewrap(1) shows its program other files by nature: a program that nobody here wrote. */
static void bubblewrap(void)
{
    pid_t child = fork();
    if (child == 0) {
        execlp("bwrap", "bwrap", "--dev-bind", "/", "/", "--bind", here("other"), here("hx"), here("hx/x"), "300",
               (char *)NULL);
        _exit(127);
    }
    int how = end_of(child);
    need(WIFEXITED(how) && WEXITSTATUS(how) == 0, "bwrap");
    dropped();
}

TRAPS({"nosuid", make, nosuid}, {"other", make, other}, {"plain", make_plain, plain}, {"root", make_root, changed_root},
      {"covered", make, covered}, {"exchanged", make, exchanged}, {"bwrap", make, bubblewrap})
