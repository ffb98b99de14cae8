// What the recorders share: what a process shows of its credentials, and how a process of root's goes into given ones.
// A recorder includes it once. Whatever fails ends the process with status 1 and a line on standard error.
#include <errno.h>
#include <fcntl.h>
#include <linux/capability.h>
#include <linux/securebits.h>
#include <stdint.h>
#include <stdio.h>
#include <stdlib.h>
#include <string.h>
#include <sys/prctl.h>
#include <sys/syscall.h>
#include <sys/utsname.h>
#include <sys/wait.h>
#include <unistd.h>

#ifndef __LP64__
#error "the calls on 32-bit ids have other numbers here"
#endif

#define CAP(name) (1ull << CAP_##name)
#define NONE 0xffffffffu    // -1
#define MOST_GROUPS 8

static void fail(const char *what)
{
    fprintf(stderr, "%s: %s: %s\n", program_invocation_short_name, what, strerror(errno));
    _exit(1);
}

static void must(int done, const char *what)
{
    if (!done)
        fail(what);
}

// Until a child of the recorder's ends, which must be well.
static void wait_for(pid_t child)
{
    int status;

    must(child > 0, "fork");
    must(waitpid(child, &status, 0) == child, "waitpid");
    if (status) {
        fprintf(stderr, "%s: a child failed\n", program_invocation_short_name);
        _exit(1);
    }
}

// ---- what is seen -----------------------------------------------------------------------------------------------------

static const char *const names[][2] = {
    { "uid", "\nUid:" }, { "gid", "\nGid:" }, { "groups", "\nGroups:" }, { "inh", "\nCapInh:" }, { "prm", "\nCapPrm:" },
    { "eff", "\nCapEff:" }, { "bnd", "\nCapBnd:" }, { "amb", "\nCapAmb:" }, { "sec", NULL }, { "nnp", "\nNoNewPrivs:" },
};
#define FIELDS (int)(sizeof names / sizeof *names)
enum { UID, GID, GROUP_LIST, INH, PRM, EFF, BND, AMB, SEC, NNP };

// The fields as texts: ids in decimal, joined by commas (- for none), sets and securebits in hexadecimal.
struct seen {
    char field[FIELDS][96];
};

// The items of a status line, joined by commas; - where there is none.
static void items(const char *line, char *out)
{
    size_t length = 0;

    for (line += strspn(line, "\t "); *line && *line != '\n'; line += strspn(line, "\t ")) {
        size_t item = strcspn(line, "\t \n");
        must(length + item + 2 < sizeof ((struct seen *)0)->field[0], "a long line of /proc/self/status");
        if (length)
            out[length++] = ',';
        memcpy(out + length, line, item);
        length += item;
        line += item;
    }
    if (!length)
        out[length++] = '-';
    out[length] = 0;
}

// What a status file shows of a process, and the securebits that it told. The ids are those that the reader's user
// namespace has for them.
static void look_at(const char *name, int sec, struct seen *seen)
{
    static char text[16384];
    int file = open(name, O_RDONLY);
    ssize_t length = file < 0 ? -1 : read(file, text, sizeof text - 1);

    must(length > 0 && length < (ssize_t)sizeof text - 1, name);
    close(file);
    text[length] = 0;
    for (int i = 0; i < FIELDS; i++) {
        const char *line = names[i][1] ? strstr(text, names[i][1]) : NULL;
        if (names[i][1]) {
            must(line != NULL, names[i][1] + 1);
            items(line + strlen(names[i][1]), seen->field[i]);
        } else {
            snprintf(seen->field[i], sizeof seen->field[i], "%02x", sec);
        }
    }
}

static int own_securebits(void)
{
    int sec = prctl(PR_GET_SECUREBITS);

    must(sec >= 0, "PR_GET_SECUREBITS");
    return sec;
}

static void look(struct seen *seen)
{
    look_at("/proc/self/status", own_securebits(), seen);
}

static int same(const struct seen *one, const struct seen *other)
{
    for (int i = 0; i < FIELDS; i++)
        if (strcmp(one->field[i], other->field[i]))
            return 0;
    return 1;
}

// Puts ` NAME=TEXT` after `line` for each field, or for each that differs from `from`; the length that was put.
static int put_fields(char *line, const struct seen *seen, const struct seen *from)
{
    int length = 0;

    for (int i = 0; i < FIELDS; i++)
        if (!from || strcmp(seen->field[i], from->field[i]))
            length += sprintf(line + length, " %s=%s", names[i][0], seen->field[i]);
    return length;
}

// Ends a line of standard output and writes it at once.
static void put_line(char *line, int length)
{
    line[length++] = '\n';
    must(write(1, line, length) == length, "standard output");
}

static void put_kernel(void)
{
    struct utsname name;

    must(uname(&name) == 0, "uname");
    dprintf(1, "kernel %s %s %s\n", name.sysname, name.release, name.machine);
}

// ---- going into credentials -------------------------------------------------------------------------------------------

struct wanted {
    unsigned uids[4], gids[4];      // real, effective, saved, fs
    int length;
    unsigned groups[MOST_GROUPS];
    uint64_t inh, prm, eff, bnd, amb;
    unsigned sec;
    int nnp;
};

static uint64_t own;    // what the recorder started with, permitted and effective

// Ends the recorder unless it is root's, with all that it needs effective and no securebits.
static void start_as_root(uint64_t needed)
{
    struct seen start;

    look(&start);
    own = strtoull(start.field[PRM], NULL, 16);
    if (strcmp(start.field[UID], "0,0,0,0") || strcmp(start.field[EFF], start.field[PRM]) || needed & ~own
        || strcmp(start.field[SEC], "00")) {
        fprintf(stderr, "%s: to be run as root, with its capabilities effective and no securebits\n",
                program_invocation_short_name);
        exit(1);
    }
}

static long set_caps(uint64_t eff, uint64_t prm, uint64_t inh)
{
    struct __user_cap_header_struct head = { _LINUX_CAPABILITY_VERSION_3, 0 };
    struct __user_cap_data_struct data[2] = {
        { (uint32_t)eff, (uint32_t)prm, (uint32_t)inh }, { eff >> 32, prm >> 32, inh >> 32 },
    };

    return syscall(SYS_capset, &head, data);
}

static void set_ids(long set_res, long set_fs, const unsigned *ids)
{
    must(syscall(set_res, ids[0], ids[1], ids[2]) == 0, "the three ids of a state");
    syscall(set_fs, ids[3]);
    must(syscall(set_fs, NONE) == ids[3], "the fs id of a state");
}

// NO_SETUID_FIXUP keeps the sets while the user ids change.
static void take_ids(const struct wanted *to)
{
    must(syscall(SYS_setgroups, to->length, to->groups) == 0, "setgroups");
    set_ids(SYS_setresgid, SYS_setfsgid, to->gids);
    must(prctl(PR_SET_SECUREBITS, SECBIT_NO_SETUID_FIXUP) == 0, "PR_SET_SECUREBITS");
    set_ids(SYS_setresuid, SYS_setfsuid, to->uids);
}

// The sets lie within `have`, which the caller has permitted and effective.
static void take_sets(const struct wanted *to, uint64_t have)
{
    must(set_caps(have, have, to->inh) == 0, "capset");
    for (int cap = 0; cap < 64; cap++) {
        if (to->amb >> cap & 1)
            must(prctl(PR_CAP_AMBIENT, PR_CAP_AMBIENT_RAISE, cap, 0, 0) == 0, "PR_CAP_AMBIENT_RAISE");
        if ((have & ~to->bnd) >> cap & 1)
            must(prctl(PR_CAPBSET_DROP, cap) == 0, "PR_CAPBSET_DROP");
    }
    must(prctl(PR_SET_SECUREBITS, to->sec) == 0, "PR_SET_SECUREBITS");
    must(set_caps(to->eff, to->prm, to->inh) == 0, "capset");
    if (to->nnp)
        must(prctl(PR_SET_NO_NEW_PRIVS, 1, 0, 0, 0) == 0, "PR_SET_NO_NEW_PRIVS");
}

static void go_into(const struct wanted *to)
{
    take_ids(to);
    take_sets(to, own);
}
