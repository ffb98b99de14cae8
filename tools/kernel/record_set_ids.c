// Records what the running kernel makes of the nine calls that set user and group ids.
//
//   record_set_ids [--every N] > CASES
//
// To be run as root on a 64-bit Linux, with CAP_SETUID, CAP_SETGID, CAP_SETPCAP and the other capabilities named below
// permitted and effective, and with no securebits. The calls are setuid, setreuid, setresuid, setfsuid over all arguments
// from -1, 0, 1000, 1001, made in each of 2,592 states: the four user ids over 0, 1000, 1001; KEEP_CAPS and
// NO_SETUID_FIXUP each set or not; and the kinds of sets below. Then the gid calls in 1,296 states, with the four group
// ids and these two securebits both set or neither, and there setgroups with some lists too. Then both again, in 648
// states of the first two kinds, with the ids 0, 2147483648 and 4294967294. The calls are made as the kernel has them,
// with nothing of the C library's in between, and each in a child of its own: a process goes into the state, and forks a
// child for each case. With --every the first state is taken, the Nth after it and so on, and no others.
//
// CASES has lines of these forms:
//
//   kernel TEXT                      the kernel's name, release and processor; the first line
//   state FIELD ..                   all ten fields of the state that the cases below it begin in
//   CALL ARGUMENT .. = 0             one case: the call, and what it answered. A FIELD follows for each one that is
//   CALL ARGUMENT .. = ID            another one after the call. -1 is 4294967295; ID, that setfsuid and setfsgid answer,
//   CALL ARGUMENT .. = EPERM|EINVAL  is a decimal number
//
// A FIELD is one of uid=, gid= (real, effective, saved and fs id), groups= (as the kernel lists them, - for none), inh=,
// prm=, eff=, bnd=, amb= (hexadecimal) and nnp=, all of /proc/self/status, and sec= (hexadecimal, by prctl). The child
// reads all ten before the call and after it; those of before must be those of the state.
#define _GNU_SOURCE
#include "credential.h"
#include "words.h"

#define ALL (~0ull)         // all that the recorder has
#define MINE (1ull << 63)   // CAP_SETUID in a state for the uid calls, CAP_SETGID in one for the gid calls

// ---- what is tried ----------------------------------------------------------------------------------------------------

enum side { USERS, GROUPS };

struct call {
    const char *name;
    long number;
    int arguments;
    int answers_id;
};

static const struct call calls[2][4] = {
    { { "setuid", SYS_setuid, 1, 0 }, { "setreuid", SYS_setreuid, 2, 0 },
      { "setresuid", SYS_setresuid, 3, 0 }, { "setfsuid", SYS_setfsuid, 1, 1 } },
    { { "setgid", SYS_setgid, 1, 0 }, { "setregid", SYS_setregid, 2, 0 },
      { "setresgid", SYS_setresgid, 3, 0 }, { "setfsgid", SYS_setfsgid, 1, 1 } },
};
static const struct call set_groups = { "setgroups", SYS_setgroups, 0, 0 };

static const struct list {
    int length;
    unsigned ids[3];
} lists[] = {
    { 0, { 0 } }, { 1, { 0 } }, { 1, { 1001 } }, { 2, { 0, 1000 } }, { 2, { 1001, 1000 } }, { 2, { 1000, 1000 } },
    { 3, { 1001, 0, 1001 } }, { 1, { NONE } }, { 2, { 1000, NONE } }, { 2, { NONE, 0 } },
};

// The ids of states; arguments are these and -1.
static const unsigned small_ids[3] = { 0, 1000, 1001 }, high_ids[3] = { 0, 2147483648u, 4294967294u };

// What a state has beside the ids that its calls change, and the two securebits that are each set or not.
struct kind {
    uint64_t prm, eff, inh, amb, bnd;
    unsigned sec;           // securebits that no call of these looks at: flags of others, and locks
    int nnp;
    unsigned others[4];     // in a state for the uid calls the group ids, in one for the gid calls the user ids
    struct list groups;
};

// The first two, one with the capability and one without, serve with the high ids too.
static const struct kind kinds[] = {
    // all, with something ambient
    { ALL, ALL, CAP(CHOWN) | CAP(KILL) | CAP(NET_BIND_SERVICE), CAP(CHOWN) | CAP(KILL), ALL, 0, 0, { 0, 0, 0, 0 },
      { 0, { 0 } } },
    // all but the capability effective, nothing inheritable
    { ALL, ALL & ~MINE, 0, 0, ALL, 0, 0, { 1000, 0, 1001, 1000 }, { 1, { 1000 } } },
    // all, and nothing inheritable
    { ALL, ALL, 0, 0, ALL, SECBIT_NOROOT | SECBIT_NOROOT_LOCKED, 0, { 1000, 1001, 0, 0 }, { 2, { 0, 1001 } } },
    // the capability alone, in every set
    { MINE, MINE, MINE, MINE, MINE, 0, 1, { 1000, 1000, 1000, 1000 }, { 0, { 0 } } },
    // some of those that go with the fs id are permitted, fewer are effective
    { MINE | CAP(CHOWN) | CAP(DAC_OVERRIDE) | CAP(FSETID) | CAP(KILL) | CAP(MKNOD), MINE | CAP(CHOWN) | CAP(KILL),
      ALL, CAP(KILL) | CAP(MKNOD), ALL, SECBIT_KEEP_CAPS_LOCKED, 0, { 0, 1000, 0, 1001 }, { 1, { 0 } } },
    // the same without the capability
    { CAP(FOWNER) | CAP(KILL) | CAP(LINUX_IMMUTABLE) | CAP(MAC_OVERRIDE) | CAP(SYS_CHROOT), CAP(FOWNER) | CAP(KILL),
      CAP(KILL) | CAP(SYS_CHROOT), CAP(KILL) | CAP(SYS_CHROOT), CAP(KILL), SECBIT_NO_SETUID_FIXUP_LOCKED, 0,
      { 1001, 1001, 1001, 1001 }, { 2, { 1000, 1000 } } },
    // nothing effective
    { ALL, 0, CAP(NET_BIND_SERVICE) | CAP(DAC_READ_SEARCH), CAP(NET_BIND_SERVICE) | CAP(DAC_READ_SEARCH), ALL & ~MINE,
      SECBIT_NO_CAP_AMBIENT_RAISE, 0, { 0, 0, 0, 1000 }, { 3, { 0, 1000, 1001 } } },
    // nothing at all
    { 0, 0, 0, 0, 0, 0, 1, { 1000, 1001, 1001, 1001 }, { 1, { 1001 } } },
};
#define KINDS (sizeof kinds / sizeof *kinds)

// ---- cases ------------------------------------------------------------------------------------------------------------

static const char *result(const struct call *call, long got, int error, char *text)
{
    if (got == -1 && error == EPERM)
        return "EPERM";
    if (got == -1 && error == EINVAL)
        return "EINVAL";
    errno = error;
    must(got == 0 || (got > 0 && call->answers_id), call->name);
    sprintf(text, "%ld", got);
    return text;
}

// One call in a child, in the state that the caller is in and that was seen of it.
static void one_case(const struct seen *state, const struct call *call, int length, const unsigned *ids)
{
    pid_t child = fork();

    if (child == 0) {
        struct seen before, after;
        char text[1024], number[32];
        unsigned long a[3] = { 0, 0, 0 };
        int at = sprintf(text, "%s", call->name);

        for (int i = 0; i < length; i++) {
            a[i] = ids[i];
            at += ids[i] == NONE ? sprintf(text + at, " -1") : sprintf(text + at, " %u", ids[i]);
        }
        look(&before);
        must(same(&before, state), "a child isn't in the state");
        errno = 0;
        long got = call == &set_groups ? syscall(call->number, length, ids) : syscall(call->number, a[0], a[1], a[2]);
        int error = errno;
        look(&after);
        at += sprintf(text + at, " = %s", result(call, got, error, number));
        put_line(text, at + put_fields(text + at, &after, &before));
        _exit(0);
    }
    wait_for(child);
}

static void all_cases(const struct seen *state, enum side side, const unsigned *ids)
{
    for (int c = 0; c < 4; c++) {
        const struct call *call = &calls[side][c];
        for (int number = 0; number < 1 << 2 * call->arguments; number++) {
            unsigned chosen[3];
            for (int i = 0; i < call->arguments; i++) {
                int place = number >> 2 * (call->arguments - 1 - i) & 3;
                chosen[i] = place ? ids[place - 1] : NONE;
            }
            one_case(state, call, call->arguments, chosen);
        }
    }
    if (side == GROUPS)
        for (size_t i = 0; i < sizeof lists / sizeof *lists; i++)
            one_case(state, &set_groups, lists[i].length, lists[i].ids);
}

// ---- states -----------------------------------------------------------------------------------------------------------

static uint64_t meant(uint64_t set, enum side side)
{
    uint64_t mine = side == USERS ? CAP(SETUID) : CAP(SETGID);

    return (set & MINE ? set | mine : set & ~mine) & own;
}

// The ids of the calls' side are those given, the other four the kind's.
static void reach(enum side side, const struct kind *kind, const unsigned *ids, unsigned sec)
{
    struct wanted to = { .length = kind->groups.length, .sec = kind->sec | sec, .nnp = kind->nnp };

    memcpy(side == USERS ? to.uids : to.gids, ids, sizeof to.uids);
    memcpy(side == USERS ? to.gids : to.uids, kind->others, sizeof to.uids);
    memcpy(to.groups, kind->groups.ids, sizeof kind->groups.ids);
    to.inh = meant(kind->inh, side);
    to.prm = meant(kind->prm, side);
    to.eff = meant(kind->eff, side);
    to.bnd = meant(kind->bnd, side);
    to.amb = meant(kind->amb, side);
    go_into(&to);
}

static unsigned every = 1, states;     // which are taken, and how many there were

static void one_state(enum side side, const struct kind *kind, const unsigned *palette, int number, unsigned sec)
{
    pid_t child;

    if (states++ % every)
        return;
    child = fork();
    if (child == 0) {
        unsigned ids[4];
        struct seen state;
        char text[1024] = "state";

        for (int i = 0, left = number; i < 4; i++, left /= 3)
            ids[i] = palette[left % 3];
        reach(side, kind, ids, sec);
        look(&state);
        put_line(text, 5 + put_fields(text + 5, &state, NULL));
        all_cases(&state, side, palette);
        _exit(0);
    }
    wait_for(child);
}

static void all_states(enum side side, const unsigned *palette, size_t number_of_kinds, int every_sec)
{
    for (size_t kind = 0; kind < number_of_kinds; kind++)
        for (int number = 0; number < 81; number++)
            for (int sec = 0; sec < 4; sec += every_sec ? 1 : 3)
                one_state(side, &kinds[kind], palette, number,
                          (sec & 1 ? SECBIT_KEEP_CAPS : 0) | (sec & 2 ? SECBIT_NO_SETUID_FIXUP : 0));
}

int main(int argc, char **argv)
{
    const uint64_t needed = CAP(SETUID) | CAP(SETGID) | CAP(SETPCAP) | CAP(CHOWN) | CAP(DAC_OVERRIDE) |
        CAP(DAC_READ_SEARCH) | CAP(FOWNER) | CAP(FSETID) | CAP(KILL) | CAP(LINUX_IMMUTABLE) | CAP(MAC_OVERRIDE) |
        CAP(MKNOD) | CAP(NET_BIND_SERVICE) | CAP(SYS_CHROOT);

    read_words(argc, argv, &(struct usage){ .names = { "every" } }, &every);
    must(every > 0, "--every 0");
    start_as_root(needed);
    put_kernel();
    all_states(USERS, small_ids, KINDS, 1);
    all_states(GROUPS, small_ids, KINDS, 0);
    all_states(USERS, high_ids, 2, 0);
    all_states(GROUPS, high_ids, 2, 0);
    return 0;
}
