// The files of the recorder of execves: drawn, made, and told of as a world declares them, with spaces and mounts. It is
// included once, after mounts.h and draws.h.
#include <sys/xattr.h>

#define MOST_FILES 1000
#define ALL_CAPS ((1ull << (LAST + 1)) - 1)

// Attribute bytes of version 2 or 3; a root id is the filesystem's.
struct attribute {
    int version;            // 0 for none
    int effective;
    uint64_t permitted, inheritable;
    unsigned root;
};

static struct file {
    int mount;
    unsigned uid, gid;      // the kernel's
    unsigned mode;
    struct attribute caps;
    int interpreter;        // another file, -1 for none
} files[MOST_FILES];
static int file_count;

static const unsigned modes[] = {
    0755, 0755, 0755, 0755, 0755, 04755, 04755, 04755, 04755, 02755, 02755, 02755, 06755, 06755, 06755, 04711, 06711, 02745,
    06745, 02711, 0700, 0070, 0007, 04750, 02750, 0710, 04010, 02100, 0644, 04644,
};
// Root ids of attributes, on filesystems of the initial space and on others.
static const unsigned roots[] = { 0, 0, 0, 7, 34, 1000, 100000, 101000, 300000 };
static const unsigned small_roots[] = { 0, 0, 0, 7, 34, 1000, 1000 };

static int put_attribute(unsigned char *bytes, const struct attribute *a, unsigned root)
{
    uint32_t words[6] = { (a->version == 2 ? 0x02000000u : 0x03000000u) | a->effective, (uint32_t)a->permitted,
                          (uint32_t)a->inheritable, a->permitted >> 32, a->inheritable >> 32, root };

    for (int i = 0; i < 24; i++)
        bytes[i] = words[i / 4] >> 8 * (i % 4);
    return a->version == 2 ? 20 : 24;
}

static void path_of_file(char *path, const char *below, int number)
{
    sprintf(path, "%s/%s/%d", below, mounts[files[number].mount].name, number);
}

// By a process with the filesystem's own 0, which has all capabilities in the initial space.
static void make_file(int number, const char *program, size_t length)
{
    const struct file *f = &files[number];
    const struct mount_row *m = &mounts[f->mount];
    unsigned char bytes[24];
    char path[128], text[160];
    struct stat seen;
    int file;

    path_of_file(path, m->maps ? BACK : TOP, number);
    if (f->interpreter >= 0) {
        strcpy(text, "#!");
        path_of_file(text + 2, TOP, f->interpreter);
        program = strcat(text, "\n");
        length = strlen(text);
    }
    syscall(SYS_setfsgid, m->zero);
    syscall(SYS_setfsuid, m->zero);
    file = open(path, O_WRONLY | O_CREAT | O_EXCL, 0600);
    must(file >= 0 && write(file, program, length) == (ssize_t)length && close(file) == 0, path);
    must(chown(path, f->uid, f->gid) == 0 && chmod(path, f->mode) == 0, path);
    if (f->caps.version)
        must(setxattr(path, "security.capability", bytes, put_attribute(bytes, &f->caps, m->zero + f->caps.root), 0) == 0,
             path);
    must(stat(path, &seen) == 0 && seen.st_uid == f->uid && seen.st_gid == f->gid && (seen.st_mode & 07777) == f->mode,
         "a file isn't as it was made");
}

static uint64_t draw_caps_of_file(void)
{
    switch (draw(8)) {
    case 0: return 0;
    case 1: return CAP(NET_RAW) | CAP(CHOWN);
    case 2: return CAP(KILL) | CAP(NET_BIND_SERVICE);
    case 3: return half_of(ALL_CAPS);
    case 4: return ALL_CAPS;
    case 5: return CAP(SETUID) | bits() << (LAST + 1);
    default: return CAP(NET_RAW);
    }
}

static void draw_attribute(struct attribute *a, const struct mount_row *m)
{
    a->version = draw(5) < 2 ? 0 : 2 + draw(2);
    a->effective = draw(3) != 0;
    a->permitted = draw(4) ? draw_caps_of_file() : 0;
    a->inheritable = draw(2) ? 0 : draw(2) ? a->permitted : draw_caps_of_file();
    a->root = m->space == INIT ? ONE_OF(roots) : ONE_OF(small_roots);
    if (m->space == INNER && a->root == 1000)
        a->root = 999;
}

// An owner or group of a file: an id of the filesystem for the most part, at times one that it has no id for.
static unsigned draw_owner(const struct mount_row *m)
{
    static const unsigned inside[] = { 0, 0, 0, 7, 34, 1000 }, outside[] = { 0, 7, 1000, 1001, 100000, 100007, 300000 };
    unsigned id = ONE_OF(inside), other = ONE_OF(outside);

    if (m->space == INNER && id == 1000)
        id = 999;
    return draw(3) ? m->zero + id : other;
}

static void draw_file(int mount)
{
    const struct mount_row *m = &mounts[mount];
    struct file *f = &files[file_count++];

    *f = (struct file){ .mount = mount, .mode = ONE_OF(modes), .interpreter = -1 };
    f->uid = draw_owner(m);
    f->gid = draw(2) ? f->uid : draw_owner(m);
    draw_attribute(&f->caps, m);
}

static void draw_script(int programs)
{
    static const unsigned script_modes[] = { 0755, 0755, 0755, 0755, 04755, 06755, 0700, 0050, 0644 };
    struct file *f = &files[file_count];

    draw_file(draw(MOUNTS));
    f->mode = ONE_OF(script_modes);
    f->interpreter = draw(programs);
    if (draw(2))
        f->caps.version = 0;
}

static void draw_files(void)
{
    int programs = 70 * MOUNTS;

    for (int i = 0; i < programs; i++)
        draw_file(i % MOUNTS);
    for (int i = 0; i < 60; i++)
        draw_script(programs);
}

static void make_files(const char *program_name)
{
    static char program[1 << 20];
    int file = open(program_name, O_RDONLY);
    ssize_t length = file < 0 ? -1 : read(file, program, sizeof program);
    pid_t maker = 0;

    must(length > 0 && length < (ssize_t)sizeof program, program_name);
    close(file);
    maker = fork();
    if (maker == 0) {
        umask(0);
        keep_sets();
        file = open(TOP "/undeclared", O_WRONLY | O_CREAT, 0755);
        must(file >= 0 && write(file, program, length) == length && close(file) == 0, "a file that isn't declared");
        for (int i = 0; i < file_count; i++)
            make_file(i, program, length);
        _exit(0);
    }
    wait_for(maker);
}

// ---- the world --------------------------------------------------------------------------------------------------------

static void put_maps(const char *key, const char *map)
{
    unsigned inside, outside, length;
    char line[256];
    int at = sprintf(line, "| %s=[", key), used;

    if (!map)
        return;
    for (const char *from = map; sscanf(from, "%u %u %u%n", &inside, &outside, &length, &used) == 3; from += used)
        at += sprintf(line + at, "%s[%u,%u,%u]", from == map ? "" : ",", inside, outside, length);
    put_line(line, at + sprintf(line + at, "]"));
}

// The maps of a space with the ids of the initial space outside. One that isn't the initial one's child has one line.
static void put_kernel_maps(const char *uid_key, const char *gid_key, int space)
{
    const struct space *s = &spaces[space];
    unsigned inside, outside, length;
    char map[64];

    if (s->parent == INIT) {
        put_maps(uid_key, s->uids);
        put_maps(gid_key, s->gids);
        return;
    }
    must(sscanf(s->uids, "%u %u %u", &inside, &outside, &length) == 3 && strcmp(s->uids, s->gids) == 0, "a map");
    sprintf(map, "%u %u %u", inside, outside + spaces[s->parent].ids[0], length);
    put_maps(uid_key, map);
    put_maps(gid_key, map);
}

static void put(const char *text)
{
    char line[256];

    put_line(line, sprintf(line, "| %s", text));
}

static void put_space(const struct space *s)
{
    char line[256];

    put("[[space]]");
    put_line(line, sprintf(line, "| name=\"%s\"\n| parent=\"%s\"\n| owner=%u", s->name, spaces[s->parent].name, s->owner));
    put_maps("uid_map", s->uids);
    put_maps("gid_map", s->gids);
    if (s->deny)
        put("setgroups=\"deny\"");
    put("creator_setfcap=true");
}

static void put_mount(const struct mount_row *m)
{
    char line[256];

    put("[[mount]]");
    put_line(line, sprintf(line, "| name=\"%s\"\n| space=\"%s\"", m->name, spaces[m->space].name));
    if (m->nosuid)
        put("nosuid=true");
    if (m->noexec)
        put("noexec=true");
    if (m->space != INIT)
        put_kernel_maps("fs_uid_map", "fs_gid_map", m->space);
    if (m->maps)
        put_kernel_maps("uid_map", "gid_map", m->maps);
}

static void put_file_row(int number)
{
    const struct file *f = &files[number];
    unsigned char bytes[24];
    char line[512], path[128];
    int at, length;

    path_of_file(path, TOP, number);
    put("[[file]]");
    at = sprintf(line, "| path=\"%s\"\n| mount=\"%s\"\n| uid=%u\n| gid=%u\n| mode=\"%04o\"", path, mounts[f->mount].name,
                 f->uid, f->gid, f->mode);
    if (f->caps.version) {
        length = put_attribute(bytes, &f->caps, f->caps.root);
        at += sprintf(line + at, "\n| caps=\"");
        for (int i = 0; i < length; i++)
            at += sprintf(line + at, "%02x", bytes[i]);
        at += sprintf(line + at, "\"");
    }
    if (f->interpreter >= 0) {
        path_of_file(path, TOP, f->interpreter);
        at += sprintf(line + at, "\n| interpreter=\"%s\"", path);
    }
    put_line(line, at);
}

static void put_world(void)
{
    for (int i = 1; i < SPACES; i++)
        put_space(&spaces[i]);
    for (int i = 0; i < MOUNTS; i++)
        put_mount(&mounts[i]);
    for (int i = 0; i < file_count; i++)
        put_file_row(i);
}
