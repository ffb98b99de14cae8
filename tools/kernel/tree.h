// What the recorders of runs share: a tree of processes, in a pid namespace of its own, each of which makes one call when
// the recorder tells it to; and what the recorder keeps of them. A recorder includes it once, after credential.h and
// draws.h, and has `make`. So the events of a run have one order, and each is told before the next.
//
// The recorder reads what a process shows in the /proc of its own pid namespace, from the user namespace in which it was
// started: ids are then as that one has them.
#include <linux/futex.h>
#include <linux/sched.h>
#include <signal.h>
#include <stdatomic.h>
#include <sys/mman.h>
#include <time.h>

#define PLACES 16           // processes of a tree that live at once
#define PATIENCE 60         // seconds that a process may take for its turn

// ---- the processes of a tree ------------------------------------------------------------------------------------------

// Who may go on: a process by its place, or one of these, PARENT being who waits for the child it gave birth to.
enum { RECORDER = PLACES, KEEPER, PARENT, GOERS };

// What a process tells the recorder: its pid in the recorder's /proc, its securebits.
struct told {
    int pid, sec;
};

// Shared by the recorder and all processes. One goes on at a time, and only it writes here.
static struct page {
    _Atomic int go[GOERS];
    struct order order;     // for the process that goes on
    struct wanted start;    // for the keeper's child, the first of the tree
    int place;              // of the child that is born
    int last_pid;           // for the keeper: the pid that the next one is to follow; 0 for any
    int ended;              // for a parent: the child to reap; 0 where the turn is for something else
    long got;               // the answer
    int error;
    struct told after, child;
} *page;

// The answer of the order's call, made by the process that goes on.
static long make(const struct order *o);

static void let_go(int who)
{
    atomic_store(&page->go[who], 1);
    syscall(SYS_futex, &page->go[who], FUTEX_WAKE, 1, NULL, NULL, 0);
}

static void wait_as(int who, const struct timespec *patience)
{
    while (!atomic_exchange(&page->go[who], 0)) {
        long woken = syscall(SYS_futex, &page->go[who], FUTEX_WAIT, 0, patience, NULL, 0);
        must(woken == 0 || errno == EAGAIN || errno == EINTR, "a process doesn't answer");
    }
}

static void turn_of(int who)
{
    static const struct timespec patience = { PATIENCE, 0 };

    let_go(who);
    wait_as(RECORDER, &patience);
}

static void tell(struct told *told)
{
    char pid[32] = "";

    must(readlink("/proc/self", pid, sizeof pid - 1) > 0, "/proc/self");
    *told = (struct told){ atoi(pid), own_securebits() };
}

// One of the calls that change nothing but the caller's credential, as the kernel has it.
static long make_own(const struct order *o)
{
    unsigned groups[MOST_GROUPS];

    switch (o->call) {
    case SETGROUPS:
        for (int i = 0; i < o->length; i++)
            groups[i] = o->a[i];
        return syscall(SYS_setgroups, o->length, groups);
    case CAPSET:
        return set_caps(o->a[0], o->a[1], o->a[2]);
    case BSET_DROP:
        return syscall(SYS_prctl, PR_CAPBSET_DROP, o->a[0], 0, 0, 0);
    case AMB_RAISE:
        return syscall(SYS_prctl, PR_CAP_AMBIENT, PR_CAP_AMBIENT_RAISE, o->a[0], 0, 0);
    case AMB_LOWER:
        return syscall(SYS_prctl, PR_CAP_AMBIENT, PR_CAP_AMBIENT_LOWER, o->a[0], 0, 0);
    case AMB_CLEAR:
        return syscall(SYS_prctl, PR_CAP_AMBIENT, PR_CAP_AMBIENT_CLEAR_ALL, 0, 0, 0);
    case SECUREBITS:
        return syscall(SYS_prctl, PR_SET_SECUREBITS, o->a[0], 0, 0, 0);
    case KEEPCAPS:
        return syscall(SYS_prctl, PR_SET_KEEPCAPS, o->a[0], 0, 0, 0);
    case NO_NEW_PRIVS:
        return syscall(SYS_prctl, PR_SET_NO_NEW_PRIVS, o->a[0], 0, 0, 0);
    default:
        return syscall(about[o->call].number, o->a[0], o->a[1], o->a[2]);
    }
}

static void live(int place);

// The answer of a birth, when the child has told of itself; the first child of a tree goes into its credential before.
static long give_birth(uint64_t flags, const struct wanted *start)
{
    struct clone_args born = { .flags = flags, .exit_signal = SIGCHLD };
    pid_t child = syscall(SYS_clone3, &born, sizeof born);

    if (child == 0) {
        int place = page->place;

        if (start)
            go_into(start);
        tell(&page->child);
        let_go(PARENT);
        live(place);
    }
    if (child > 0)
        wait_as(PARENT, NULL);
    return child;
}

// Once a child is reaped its pid is free, which a kernel that reaps by itself doesn't tell.
static int reap(void)
{
    if (!page->ended)
        return 0;
    must(waitpid(page->ended, NULL, 0) == page->ended, "waitpid");
    let_go(RECORDER);
    return 1;
}

// A process makes one call in each turn of its place, or reaps a child.
static void live(int place)
{
    for (;;) {
        wait_as(place, NULL);
        if (reap())
            continue;
        if (page->order.call == EXIT) {
            let_go(RECORDER);
            _exit(0);
        }
        errno = 0;
        page->got = make(&page->order);
        page->error = errno;
        tell(&page->after);
        let_go(RECORDER);
    }
}

// The first process of the namespace, whose end ends them all, and to which children come whose parent ended. It begins
// the tree in its first turn.
static void keep(void)
{
    int begun = 0;

    must(prctl(PR_SET_PDEATHSIG, SIGKILL) == 0, "the keeper");
    for (;;) {
        wait_as(KEEPER, NULL);
        if (reap())
            continue;
        if (page->last_pid) {
            int file = open("/proc/sys/kernel/ns_last_pid", O_WRONLY);
            must(file >= 0 && dprintf(file, "%d", page->last_pid) > 0 && close(file) == 0, "ns_last_pid");
        }
        if (!begun) {
            page->got = give_birth(0, &page->start);
            must(page->got > 0, "fork");
            begun = 1;
        }
        let_go(RECORDER);
    }
}

// ---- what the recorder keeps of them ----------------------------------------------------------------------------------

static struct process {
    int lives, parent;      // the parent's place, or KEEPER
    long pid;               // in the tree's namespace
    struct told told;
    struct seen now;
    struct credential c;
} tree[PLACES];

static int living;

static void read_ids(const char *text, unsigned *ids)
{
    must(sscanf(text, "%u,%u,%u,%u", &ids[0], &ids[1], &ids[2], &ids[3]) == 4, "four ids");
}

static void read_credential(struct seen *seen, struct credential *c)
{
    read_ids(seen->field[UID], c->ids[0]);
    read_ids(seen->field[GID], c->ids[1]);
    c->length = 0;
    for (char *at = seen->field[GROUP_LIST]; *at != '-' && *at; at += *at == ',')
        c->groups[c->length++] = strtoul(at, &at, 10);
    c->inh = strtoull(seen->field[INH], NULL, 16);
    c->prm = strtoull(seen->field[PRM], NULL, 16);
    c->eff = strtoull(seen->field[EFF], NULL, 16);
    c->bnd = strtoull(seen->field[BND], NULL, 16);
    c->amb = strtoull(seen->field[AMB], NULL, 16);
    c->sec = strtoul(seen->field[SEC], NULL, 16);
}

static void look_from_outside(const struct told *told, struct seen *seen)
{
    char name[64];

    sprintf(name, "/proc/%d/status", told->pid);
    look_at(name, told->sec, seen);
}

// The process at that place as it shows itself now.
static void note(int place, const struct told *told)
{
    tree[place].told = *told;
    look_from_outside(told, &tree[place].now);
    read_credential(&tree[place].now, &tree[place].c);
}

static void enter(int place, int parent, long pid, const struct told *told)
{
    tree[place].lives = 1;
    tree[place].parent = parent;
    tree[place].pid = pid;
    note(place, told);
    living++;
}

static void leave(int place)
{
    page->ended = tree[place].pid;
    turn_of(tree[place].parent);
    page->ended = 0;
    for (int i = 0; i < PLACES; i++)
        if (tree[i].parent == place)
            tree[i].parent = KEEPER;
    tree[place].lives = 0;
    living--;
}

static int free_place(void)
{
    int place = 0;

    while (tree[place].lives)
        place++;
    return place;
}

// The process at that place makes a call of order; it must be as it was after its last one.
static void turn(int place, const struct order *o)
{
    struct seen before;

    look_from_outside(&tree[place].told, &before);
    must(same(&before, &tree[place].now), "a process isn't as it was after its last call");
    page->order = *o;
    turn_of(place);
    if (o->call == EXIT)
        page->got = 0;
}

// ---- lines of a run ---------------------------------------------------------------------------------------------------

// The call of an order and its arguments, which are ids, sets or numbers.
static int put_own(char *line, const struct order *o)
{
    int at = sprintf(line, "%s", about[o->call].name);

    for (int i = 0; i < o->length; i++)
        if (o->call == CAPSET)
            at += sprintf(line + at, " %016lx", o->a[i]);
        else if (o->call <= SETGROUPS && o->a[i] == NONE)
            at += sprintf(line + at, " -1");
        else
            at += sprintf(line + at, " %lu", o->a[i]);
    return at;
}

// The answer; other numbers than 0 come of births and of setfsuid and setfsgid alone.
static int put_answer(char *line, enum call call)
{
    static const struct { int error; const char *name; } known[] = {
        { EPERM, "EPERM" }, { EINVAL, "EINVAL" }, { ENOSPC, "ENOSPC" }, { EACCES, "EACCES" },
    };

    for (size_t i = 0; page->got == -1 && i < sizeof known / sizeof *known; i++)
        if (page->error == known[i].error)
            return sprintf(line, " = %s", known[i].name);
    errno = page->error;
    must(page->got == 0 || (page->got > 0 && (is_birth(call) || call == SETFSUID || call == SETFSGID)), about[call].name);
    return sprintf(line, " = %ld", page->got);
}

// After a call that the process at `place` made: what is another one of it then, and of its child, which comes to the
// place `child` where that isn't -1.
static int put_after(char *line, int place, int child)
{
    struct seen before = tree[place].now;
    int at;

    note(place, &page->after);
    at = put_fields(line, &tree[place].now, &before);
    if (child >= 0) {
        enter(child, place, page->got, &page->child);
        if (!same(&tree[child].now, &tree[place].now))
            at += sprintf(line + at, " child");
        at += put_fields(line + at, &tree[child].now, &tree[place].now);
    }
    return at;
}

// ---- runs -------------------------------------------------------------------------------------------------------------

// Run `number` of that seed begins: its first process is born and told of. The keeper is given back, whose end ends it.
static pid_t begin(unsigned seed, unsigned number)
{
    struct clone_args born = { .flags = CLONE_NEWPID, .exit_signal = SIGCHLD };
    char line[2048];
    pid_t keeper;
    int at;

    keeper = syscall(SYS_clone3, &born, sizeof born);
    must(keeper >= 0, "a pid namespace");
    if (keeper == 0)
        keep();
    turn_of(KEEPER);
    enter(0, KEEPER, page->got, &page->child);
    at = sprintf(line, "run %u %u\nstart %ld", seed, number, page->got);
    put_line(line, at + put_fields(line + at, &tree[0].now, NULL));
    return keeper;
}

static void end(pid_t keeper)
{
    must(kill(keeper, SIGKILL) == 0 && waitpid(keeper, NULL, 0) == keeper, "the keeper's end");
}

static void fresh(unsigned seed, unsigned number)
{
    drawn = (uint64_t)seed << 32 | number;
    memset(page, 0, sizeof *page);
    memset(tree, 0, sizeof tree);
    living = 0;
}

static void make_page(void)
{
    page = mmap(NULL, sizeof *page, PROT_READ | PROT_WRITE, MAP_SHARED | MAP_ANONYMOUS, -1, 0);
    must(page != MAP_FAILED, "mmap");
}
