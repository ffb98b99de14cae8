// The user namespaces (spaces) and mounts of the recorder of execves: what they are and how they are made. It is included
// once, after credential.h.
#include <linux/mount.h>
#include <sched.h>
#include <signal.h>
#include <sys/mount.h>
#include <sys/stat.h>

#define TOP "/srv"
#define BACK TOP "/back"    // where filesystems stand that are mounted with maps elsewhere
#define HELD 100            // the descriptor under which a child keeps what the recorder takes

// Spaces, after the initial one. The maps are written as they stand here, with the parent's ids outside; `ids` are the ids
// that callers there have, the first the space's own 0 where it has one.
static struct space {
    const char *name;
    int parent;
    unsigned owner;
    const char *uids, *gids;
    int deny;
    unsigned ids[6];
    int file;
} spaces[] = {
    { "init", 0, 0, NULL, NULL, 0, { 0, 1000, 7, 100000, 100007, 1001 }, -1 },
    { "box", 0, 1000, "0 100000 65536", "0 100000 65536", 0, { 100000, 100007, 101000, 100034, 1000, 0 }, -1 },
    { "inner", 1, 100000, "0 1000 1000", "0 1000 1000", 0, { 101000, 101007, 101034, 100000, 7, 101999 }, -1 },
    { "other", 0, 1000, "0 300000 65536", "0 300000 65536", 0, { 300000, 300007, 300034, 1000, 0, 100000 }, -1 },
    { "bare", 0, 1000, NULL, NULL, 0, { 1000, 0, 7, 100000, 34, 1001 }, -1 },
    { "own", 0, 1000, "0 1000 1", "0 1000 1", 1, { 1000, 0, 7, 34, 1000, 1001 }, -1 },
    { "same", 0, 0, "0 0 4294967295", "0 0 4294967295", 0, { 0, 1000, 7, 100000, 34, 1001 }, -1 },
    { "rootless", 0, 0, "1000 1000 10", "1000 1000 10", 0, { 1000, 1001, 0, 1007, 7, 1009 }, -1 },
    { "users", 0, 0, "0 100000 65536", NULL, 0, { 100000, 100007, 0, 1000, 101000, 34 }, -1 },
    { "mixed", 0, 0, "0 0 1\n1 100001 65535", "0 0 1\n1 100001 65535", 0, { 0, 100007, 101000, 1000, 100034, 7 }, -1 },
    // these serve for the maps of mounts alone
    { "one", 0, 0, "0 100000 1\n7 1000 1", "0 100000 1", 0, { 0 }, -1 },
    { "turned", 0, 0, "0 100007 1\n7 100000 1\n34 101000 1", "0 100034 1\n7 100000 2", 0, { 0 }, -1 },
};
enum { INIT, BOX, INNER, OTHER, BARE, OWN, SAME, ROOTLESS, USERS, MIXED, CALLERS, ONE = CALLERS, TURNED, SPACES };

// Mounts: the filesystem's space and what takes its 0 to the kernel's ids, flags, and the space whose maps an idmapped
// mount has.
static struct mount_row {
    const char *name;
    int space;
    unsigned zero;
    int nosuid, noexec, maps;
} mounts[] = {
    { "plain", INIT, 0, 0, 0, INIT },
    { "nosuid", INIT, 0, 1, 0, INIT },
    { "noexec", INIT, 0, 0, 1, INIT },
    { "shifted", INIT, 0, 0, 0, BOX },
    { "one", INIT, 0, 0, 0, ONE },
    { "boxed", BOX, 100000, 0, 0, INIT },
    { "boxed_turned", BOX, 100000, 0, 0, TURNED },
    { "inner", INNER, 101000, 0, 0, INIT },
    { "shifted_nosuid", INIT, 0, 1, 0, BOX },
};
#define MOUNTS (int)(sizeof mounts / sizeof *mounts)

static void keep_sets(void)
{
    must(prctl(PR_SET_SECUREBITS, SECBIT_NO_SETUID_FIXUP) == 0, "PR_SET_SECUREBITS");
}

static void join(int space)
{
    must(space == INIT || setns(spaces[space].file, CLONE_NEWUSER) == 0, "setns");
}

static void put_file(const char *name, const char *text)
{
    int file = open(name, O_WRONLY);

    must(file >= 0 && write(file, text, strlen(text)) == (ssize_t)strlen(text) && close(file) == 0, name);
}

// A child that waits until it is let go, when it has done what it is for.
struct helper {
    pid_t pid;
    int ready, go;
};

static int is_helper(struct helper *h)
{
    int up[2], down[2];

    must(pipe(up) == 0 && pipe(down) == 0, "pipe");
    h->pid = fork();
    must(h->pid >= 0, "fork");
    h->ready = h->pid ? up[0] : up[1];
    h->go = h->pid ? down[1] : down[0];
    close(h->pid ? up[1] : up[0]);
    close(h->pid ? down[0] : down[1]);
    return h->pid == 0;
}

static void end_as_helper(struct helper *h)
{
    char byte;

    must(write(h->ready, "", 1) == 1 && read(h->go, &byte, 1) == 1, "a helper");
    _exit(0);
}

static void wait_ready(struct helper *h)
{
    char byte;

    must(read(h->ready, &byte, 1) == 1, "a helper");
}

static void let_go(struct helper *h)
{
    must(write(h->go, "", 1) == 1, "a helper");
    close(h->ready);
    close(h->go);
    wait_for(h->pid);
}

static void make_space(struct space *made)
{
    struct helper h;
    char name[64];
    pid_t writer;
    int file;

    if (is_helper(&h)) {
        keep_sets();
        must(syscall(SYS_setresgid, made->owner, made->owner, made->owner) == 0, "setresgid");
        must(syscall(SYS_setresuid, made->owner, made->owner, made->owner) == 0, "setresuid");
        join(made->parent);
        must(unshare(CLONE_NEWUSER) == 0 && prctl(PR_SET_DUMPABLE, 1) == 0, "unshare");
        end_as_helper(&h);
    }
    wait_ready(&h);
    sprintf(name, "/proc/%d/ns/user", h.pid);
    file = open(name, O_RDONLY);
    made->file = fcntl(file, F_DUPFD_CLOEXEC, 2 * HELD);
    must(file >= 0 && made->file >= 0 && close(file) == 0, name);
    writer = fork();
    if (writer == 0) {
        join(made->parent);
        sprintf(name, "/proc/%d/setgroups", h.pid);
        if (made->deny)
            put_file(name, "deny");
        sprintf(name, "/proc/%d/uid_map", h.pid);
        if (made->uids)
            put_file(name, made->uids);
        sprintf(name, "/proc/%d/gid_map", h.pid);
        if (made->gids)
            put_file(name, made->gids);
        _exit(0);
    }
    wait_for(writer);
    let_go(&h);
}

// A tmpfs of the caller's user namespace, mounted nowhere.
static int new_tmpfs(const struct mount_row *m)
{
    int fs = syscall(SYS_fsopen, "tmpfs", 0), mount;

    must(fs >= 0, "fsopen");
    must(syscall(SYS_fsconfig, fs, FSCONFIG_SET_STRING, "mode", "0755", 0) == 0, "fsconfig");
    must(syscall(SYS_fsconfig, fs, FSCONFIG_SET_STRING, "uid", "0", 0) == 0, "fsconfig");
    must(syscall(SYS_fsconfig, fs, FSCONFIG_SET_STRING, "gid", "0", 0) == 0, "fsconfig");
    must(syscall(SYS_fsconfig, fs, FSCONFIG_CMD_CREATE, NULL, NULL, 0) == 0, "fsconfig");
    mount = syscall(SYS_fsmount, fs, 0,
                    (m->nosuid ? MOUNT_ATTR_NOSUID : 0) | (m->noexec ? MOUNT_ATTR_NOEXEC : 0));
    must(mount >= 0 && close(fs) == 0, "fsmount");
    return mount;
}

// The same, made by a process of that space, which has a mount namespace of its own there.
static int tmpfs_of(const struct mount_row *m)
{
    struct helper h;
    int process, mount;

    if (m->space == INIT)
        return new_tmpfs(m);
    if (is_helper(&h)) {
        join(m->space);
        must(unshare(CLONE_NEWNS) == 0, "unshare");
        must(dup2(new_tmpfs(m), HELD) == HELD, "dup2");
        end_as_helper(&h);
    }
    wait_ready(&h);
    process = syscall(SYS_pidfd_open, h.pid, 0);
    must(process >= 0, "pidfd_open");
    mount = syscall(SYS_pidfd_getfd, process, HELD, 0);
    must(mount >= 0 && close(process) == 0, "pidfd_getfd");
    let_go(&h);
    return mount;
}

static void move(int mount, const char *path)
{
    must(mkdir(path, 0755) == 0, path);
    must(syscall(SYS_move_mount, mount, "", AT_FDCWD, path, MOVE_MOUNT_F_EMPTY_PATH) == 0, path);
    close(mount);
}

static void path_of(char *path, const char *below, const struct mount_row *m)
{
    sprintf(path, "%s/%s", below, m->name);
}

static int copy_of(const char *path)
{
    int copy = syscall(SYS_open_tree, AT_FDCWD, path, OPEN_TREE_CLONE | OPEN_TREE_CLOEXEC);

    must(copy >= 0, "open_tree");
    return copy;
}

// What a mount with maps is made of: a tmpfs, or where there is a folder, one within it.
static int ground_of(const struct mount_row *m, const char *folder)
{
    char path[256];

    if (!folder)
        return tmpfs_of(m);
    snprintf(path, sizeof path, "%s/%s", folder, m->name);
    must(mkdir(path, 0755) == 0, path);
    return copy_of(path);
}

static void make_mount_with_maps(const struct mount_row *m, const char *folder)
{
    struct mount_attr with_maps = { .attr_set = MOUNT_ATTR_IDMAP | (m->nosuid ? MOUNT_ATTR_NOSUID : 0),
                                    .userns_fd = spaces[m->maps].file };
    char path[128];
    int copy;

    path_of(path, BACK, m);
    move(ground_of(m, folder), path);
    copy = copy_of(path);
    must(syscall(SYS_mount_setattr, copy, "", AT_EMPTY_PATH, &with_maps, sizeof with_maps) == 0, "mount_setattr");
    path_of(path, TOP, m);
    move(copy, path);
}

// With a folder, no tmpfs can have maps: those of a filesystem that must be one are left out.
static void make_mount(struct mount_row *m, const char *folder)
{
    char path[128];

    if (folder && m->space != INIT)
        m->maps = INIT;
    if (m->maps) {
        make_mount_with_maps(m, folder);
        return;
    }
    path_of(path, TOP, m);
    move(tmpfs_of(m), path);
}
