// Records random runs of processes that change their credentials, as the running kernel answers them.
//
//   record_runs [--seed N] [--first K] [--runs N] > RUNS
//
// To be run as root on a 64-bit Linux, with CAP_SETUID, CAP_SETGID, CAP_SETPCAP and CAP_SYS_ADMIN permitted and effective,
// and with no securebits. It records N runs (300) of the seed N (1), the first of them run K (1). A run follows from its
// seed and number and from what the kernel answers in it, so each can be made again alone.
//
// A run is a tree of up to 16 processes, in a pid namespace of its own, that grows by forks from one process in a random
// credential. The recorder tells one process at a time to make one call, so the events have one order: 20 to 60 of them, or
// up to two more. They are the nine calls that set ids and groups, capset, prctl on the bounding set, the ambient set,
// securebits, KEEP_CAPS and no_new_privs, fork and exit, made as the kernel has them, with nothing of the C library's in
// between. Arguments are drawn near what the caller has, so that calls succeed and are refused often. A process that ends
// is reaped by its parent, and its children go on. Before some births the recorder asks for a pid: any, or that of an
// ended process.
//
// Some calls may leave a process elsewhere than the manual pages do (`leads_off`). Each is made by a child that is born for
// it, and where it succeeds the child's next event is its exit.
//
// RUNS has lines of these forms:
//
//   kernel TEXT                             the kernel's name, release and processor; the first line
//   run SEED NUMBER                         the lines below it are of this run
//   start PID FIELD ..                      the process that the run begins with: all ten fields
//   PID CALL ARGUMENT .. = RESULT FIELD ..  one event; a FIELD for each one of the caller's that is another one after it,
//                                           and after the word `child` for each of a child's that isn't the caller's
//
// A pid is the one in the namespace. RESULT is 0, EPERM or EINVAL, for setfsuid and setfsgid an id, for fork the child's
// pid. Of ids and groups -1 is 4294967295; other numbers are decimal, the three sets of capset (effective, permitted,
// inheritable) hexadecimal. A FIELD is as in the first comment of record_set_ids.c. The recorder reads all ten of the
// caller before the call, when they must be those that it showed last, and after it, and of a child when it is born.
#define _GNU_SOURCE
#include "credential.h"
#include "draws.h"
#include "tree.h"
#include "words.h"

#define EXEC_BITS 0xf00u    // the SECBIT_EXEC_ bits of recent kernels, with their locks
#define MOST_EVENTS 62

// In how many of 100 draws or so each call comes.
static const unsigned char often[CALLS] = {
    [SETUID] = 5, [SETREUID] = 7, [SETRESUID] = 9, [SETFSUID] = 6, [SETGID] = 3, [SETREGID] = 4, [SETRESGID] = 5,
    [SETFSGID] = 3, [SETGROUPS] = 6, [CAPSET] = 13, [BSET_DROP] = 6, [AMB_RAISE] = 7, [AMB_LOWER] = 3, [AMB_CLEAR] = 1,
    [SECUREBITS] = 12, [KEEPCAPS] = 6, [NO_NEW_PRIVS] = 2, [EXIT] = 4,
};
static long ended[MOST_EVENTS];     // the pids of those that ended
static int ends;

static long make(const struct order *o)
{
    return o->call == FORK ? give_birth(0, NULL) : make_own(o);
}

// One call of the process at that place; the place of the child that it gives birth to.
static int event(int place, const struct order *o)
{
    char line[4096];
    int at = sprintf(line, "%ld ", tree[place].pid), child = o->call == FORK ? free_place() : -1;

    at += put_own(line + at, o);
    page->place = child;
    turn(place, o);
    at += put_answer(line + at, o->call);
    if (o->call == EXIT) {
        ended[ends++] = tree[place].pid;
        leave(place);
    } else {
        at += put_after(line + at, place, child);
    }
    put_line(line, at);
    return child;
}

// A birth; before some, the keeper asks for the pid of one that ended, or for any.
static int birth(int place)
{
    unsigned ask = draw(4);

    if (ask < 2) {
        page->last_pid = (ask && ends ? ended[draw(ends)] : 2 + draw(9999)) - 1;
        turn_of(KEEPER);
    }
    return event(place, &(struct order){ .call = FORK });
}

// Whether the kernel may leave another credential than the manual pages do. The first: setresuid and setresgid that ask
// for nothing new, where the fs id isn't the effective one; recent kernels then leave it. The second: the securebits that
// are newer than those of capabilities(7).
static int leads_off(const struct credential *c, const struct order *o)
{
    const unsigned *ids = c->ids[o->call == SETRESGID];

    if (o->call == SECUREBITS)
        return (o->a[0] & EXEC_BITS) && !(o->a[0] & ~(EXEC_BITS | 0xff));
    return (o->call == SETRESUID || o->call == SETRESGID) && ids[3] != ids[1] && o->a[1] == NONE
        && (o->a[0] == NONE || o->a[0] == ids[0]) && (o->a[2] == NONE || o->a[2] == ids[2]);
}

// A process that lives; one that has power over ids or sets is taken the sooner.
static int draw_caller(void)
{
    int place = 0;

    for (int tries = 0; tries < 2; tries++) {
        int number = draw(living);
        for (place = 0; !tree[place].lives || number--; place++)
            ;
        if (tree[place].c.eff & powers)
            break;
    }
    return place;
}

// One event, or three where a call leads off; how many. A call that the caller lacks the capability for is drawn again
// half the time.
static int some_events(int last)
{
    for (;;) {
        struct order o;
        int place = draw_caller();

        draw_arguments(&tree[place].c, draw_call(often), &o);
        if ((o.call == FORK && living == PLACES) || (o.call == EXIT && living == 1 && !last))
            continue;
        if ((about[o.call].needs & ~tree[place].c.eff) && draw(2))
            continue;
        if (o.call == FORK) {
            birth(place);
            return 1;
        }
        if (!leads_off(&tree[place].c, &o)) {
            event(place, &o);
            return 1;
        }
        if (living < PLACES) {
            place = birth(place);
            event(place, &o);
            if (page->got != 0)
                return 2;
            event(place, &(struct order){ .call = EXIT });
            return 3;
        }
    }
}

static void one_run(unsigned seed, unsigned number)
{
    pid_t keeper;

    fresh(seed, number);
    ends = 0;
    draw_start(&page->start);
    births = 6 << draw(3);
    page->last_pid = 1 + draw(9999);
    keeper = begin(seed, number);
    for (int left = 20 + draw(41); left > 0;)
        left -= some_events(left == 1);
    end(keeper);
}

int main(int argc, char **argv)
{
    unsigned given[3] = { 1, 1, 300 };

    read_words(argc, argv, &(struct usage){ .names = { "seed", "first", "runs" } }, given);
    start_as_root(powers | CAP(SYS_ADMIN));
    make_page();
    put_kernel();
    for (unsigned i = 0; i < given[2]; i++)
        one_run(given[0], given[1] + i);
    return 0;
}
