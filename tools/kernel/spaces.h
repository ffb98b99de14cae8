// What the recorder of spaces knows of user namespaces (spaces): their tree and maps, as the kernel shows them, and
// processes of its own that stand in them. It is included once, after tree.h.
#include <linux/nsfs.h>
#include <sys/ioctl.h>
#include <sys/stat.h>

#define MOST_SPACES 48
#define MOST_EXTENTS 341    // one more than a map may have

struct extent {
    unsigned inside, outside, length;
};

struct list {
    int length;
    struct extent e[MOST_EXTENTS];
};

// What the recorder knows of a space; its maps as the initial space sees them, empty where they aren't written.
static struct space {
    int parent, level, deny, file;
    ino_t number;           // the kernel's
    struct list maps[2];    // of users and of groups
} spaces[MOST_SPACES];
static int standing;        // how many there are
static int space_of[PLACES];

static unsigned up(int space, int side, unsigned id)
{
    struct list *map = &spaces[space].maps[side];

    for (int i = 0; i < map->length; i++)
        if (id - map->e[i].outside < map->e[i].length)
            return map->e[i].inside + (id - map->e[i].outside);
    return NONE;
}

static ino_t number_at(const char *name)
{
    struct stat seen;

    must(stat(name, &seen) == 0, name);
    return seen.st_ino;
}

static void name_of(char *name, int pid, const char *file)
{
    sprintf(name, "/proc/%d/%s", pid, file);
}

static int denies(int pid)
{
    char name[64], word[16] = "";
    int file;

    name_of(name, pid, "setgroups");
    file = open(name, O_RDONLY);
    must(file >= 0 && read(file, word, sizeof word - 1) > 0 && close(file) == 0, "setgroups");
    return strcmp(word, "deny\n") == 0;
}

static void read_map(int pid, int side, struct list *map)
{
    char name[64];
    FILE *file;

    name_of(name, pid, side ? "gid_map" : "uid_map");
    file = fopen(name, "r");
    must(file != NULL, name);
    for (map->length = 0; map->length < MOST_EXTENTS; map->length++) {
        struct extent *e = &map->e[map->length];
        if (fscanf(file, "%u %u %u", &e->inside, &e->outside, &e->length) != 3)
            break;
    }
    fclose(file);
}

static void first_space(void)
{
    static const char own_space[] = "/proc/self/ns/user";
    static const struct list all = { 1, { { 0, 0, 4294967295u } } };

    for (int i = 0; i < standing; i++)
        close(spaces[i].file);
    standing = 1;
    memset(space_of, 0, sizeof space_of);
    spaces[0] = (struct space){ 0, 0, 0, open(own_space, O_RDONLY | O_CLOEXEC), number_at(own_space), { all, all } };
    must(spaces[0].file >= 0, own_space);
}

// The space that stands since a process was put into it; the owner that the kernel shows.
static unsigned new_space(int parent, const struct told *member)
{
    struct space *made = &spaces[standing++];
    struct stat above;
    char name[64];
    unsigned owner;
    int over;

    name_of(name, member->pid, "ns/user");
    *made = (struct space){ .parent = parent, .level = spaces[parent].level + 1, .deny = denies(member->pid) };
    made->file = open(name, O_RDONLY | O_CLOEXEC);
    made->number = number_at(name);
    must(made->file >= 0 && ioctl(made->file, NS_GET_OWNER_UID, &owner) == 0, "the owner of a space");
    over = ioctl(made->file, NS_GET_PARENT);
    must(over >= 0 && fstat(over, &above) == 0 && close(over) == 0, "the parent of a space");
    must(above.st_ino == spaces[parent].number, "a space has another parent");
    return owner;
}

// A process of the recorder's in that space, whose files belong to that user.
static pid_t stand_in(int space, unsigned user)
{
    int ready[2];
    char byte;
    pid_t child;

    must(pipe2(ready, O_CLOEXEC) == 0, "pipe");
    child = fork();
    must(child >= 0, "fork");
    if (child == 0) {
        must(prctl(PR_SET_SECUREBITS, SECBIT_NO_SETUID_FIXUP) == 0, "PR_SET_SECUREBITS");
        must(syscall(SYS_setresuid, user, user, user) == 0, "setresuid");
        must(space == 0 || syscall(SYS_setns, spaces[space].file, CLONE_NEWUSER) == 0, "setns");
        must(prctl(PR_SET_DUMPABLE, 1) == 0 && prctl(PR_SET_PDEATHSIG, SIGKILL) == 0, "prctl");
        must(write(ready[1], "", 1) == 1, "write");
        for (;;)
            pause();
    }
    close(ready[1]);
    must(read(ready[0], &byte, 1) == 1 && close(ready[0]) == 0, "a process in a space");
    return child;
}

static void let_end(pid_t child)
{
    must(kill(child, SIGKILL) == 0 && waitpid(child, NULL, 0) == child, "the end of a process in a space");
}

static int is_below(int space, int above)
{
    while (space && space != above)
        space = spaces[space].parent;
    return space == above;
}
