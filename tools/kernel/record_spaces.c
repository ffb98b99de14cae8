// Records random runs of processes in nested user namespaces (spaces), as the running kernel answers them.
//
//   record_spaces [--seed N] [--first K] [--runs N] > RUNS
//
// To be run as root in the initial user namespace of a 64-bit Linux, with the capabilities named below permitted and
// effective, and with no securebits. It records N runs (400) of the seed N (1), the first of them run K (1), each as
// record_runs does: one process at a time makes one call.
//
// To the calls of record_runs come unshare and clone with CLONE_NEWUSER, setns, and writes of uid_map, gid_map and
// setgroups. 30 to 90 events are drawn. In one run of 64 the first process instead goes down 32 spaces, each made in the
// one before, and one further; in one of 8 its child goes down some before other events are drawn. Targets, lists of ids
// and words are drawn near what can succeed, and lists at times with a fault.
//
// For setns the recorder hands a descriptor of the space to the caller, since whether a process may open the file of
// another is no matter of setns. For a write a process of the recorder's stands in the target, with the caller's fs id as
// its effective one: so file permissions let the caller open the file, whatever it has, and what is left to refuse is
// asked by user_namespaces(7). The caller opens the file, writes and closes it; at times it, or a forebear of it, has
// opened the file at an earlier event.
//
// RUNS has the lines of record_runs, and of these forms:
//
//   PID write_uid_map #N INSIDE OUTSIDE LENGTH .. = RESULT MARK ..     also write_gid_map
//   PID write_setgroups #N WORD = RESULT MARK ..
//
// #N is the Nth space in the order of their making, #0 the initial one. RESULT may be ENOSPC, and EACCES where the file
// isn't opened. A MARK after the RESULT, before any FIELD, is one of these:
//
//   made=OWNER,WORD          of the space that was made: its owner and its setgroups word
//   map=IN:OUT:LENGTH,..     what is kept of a map that was written, with the ids of the initial space outside
//   word=WORD                the setgroups word after a write
//   opened=PID@K             who had opened the file, after event K of the run (0: before the first)
//   bytes=N, at=N            the length of a text of a page or more; the place in the file of a write that isn't at its front
//
// Ids of a FIELD are those of the initial space.
#define _GNU_SOURCE
#include "credential.h"
#include "draws.h"
#include "tree.h"
#include "spaces.h"
#include "space_draws.h"
#include "words.h"
#include <sys/socket.h>

#define DEEPEST 32          // the level down to which user_namespaces(7) lets spaces be nested
#define PAGE 4096           // bytes that a map's text must be shorter than
#define OPEN CALLS          // an order that is no event: to open a file and keep it

// ---- what a process does ----------------------------------------------------------------------------------------------

// For the process that goes on, beside its order.
static struct more {
    char name[64];          // the file to open
    char text[3 * PAGE];    // what to write, and where
    int length, at;
    int by_kept;            // through the file that it keeps
} *more;

static int channel[2];      // the recorder hands over descriptors by the first and a process takes them by the second
static int kept = -1;       // the file that a process keeps open; a child has its parent's

// A message that carries a descriptor.
struct carrier {
    char control[CMSG_SPACE(sizeof(int))], byte;
    struct iovec data;
    struct msghdr message;
};

static struct cmsghdr *carry(struct carrier *by)
{
    memset(by, 0, sizeof *by);
    by->data = (struct iovec){ &by->byte, 1 };
    by->message = (struct msghdr){ .msg_iov = &by->data, .msg_iovlen = 1, .msg_control = by->control,
                                   .msg_controllen = sizeof by->control };
    return CMSG_FIRSTHDR(&by->message);
}

static void hand_over(int descriptor)
{
    struct carrier by;
    struct cmsghdr *head = carry(&by);

    *head = (struct cmsghdr){ CMSG_LEN(sizeof descriptor), SOL_SOCKET, SCM_RIGHTS };
    memcpy(CMSG_DATA(head), &descriptor, sizeof descriptor);
    must(sendmsg(channel[0], &by.message, 0) == 1, "sendmsg");
}

static int take_over(void)
{
    struct carrier by;
    struct cmsghdr *head = carry(&by);
    int descriptor;

    must(recvmsg(channel[1], &by.message, MSG_CMSG_CLOEXEC) == 1, "recvmsg");
    memcpy(&descriptor, CMSG_DATA(head), sizeof descriptor);
    return descriptor;
}

static long closing(int file, long got)
{
    int error = errno;

    close(file);
    errno = error;
    return got;
}

static long join(void)
{
    int space = take_over();

    return closing(space, syscall(SYS_setns, space, CLONE_NEWUSER));
}

static long open_and_keep(void)
{
    if (kept >= 0)
        close(kept);
    kept = open(more->name, O_WRONLY | O_CLOEXEC);
    return kept < 0 ? -1 : 0;
}

static long write_file(void)
{
    int file = more->by_kept ? kept : open(more->name, O_WRONLY | O_CLOEXEC);

    if (more->by_kept)
        kept = -1;
    if (file < 0)
        return -1;
    must(lseek(file, more->at, SEEK_SET) == more->at, "lseek");
    long written = write(file, more->text, more->length);
    must(written == more->length || written == -1, "a write of a part");
    return closing(file, written < 0 ? -1 : 0);
}

static long make(const struct order *o)
{
    switch ((int)o->call) {
    case FORK:
        return give_birth(0, NULL);
    case CLONE_USER:
        return give_birth(CLONE_NEWUSER, NULL);
    case UNSHARE:
        return syscall(SYS_unshare, CLONE_NEWUSER);
    case SETNS:
        return join();
    case WRITE_UID_MAP: case WRITE_GID_MAP: case WRITE_SETGROUPS:
        return write_file();
    case OPEN:
        return open_and_keep();
    default:
        return make_own(o);
    }
}

// ---- events -----------------------------------------------------------------------------------------------------------

// What is known of the file that a process keeps: whose and which it is, who opened it and after how many events.
static struct opened {
    int is, target, at;
    enum call call;
    long by;
} files[PLACES];

static int events;          // of this run
static int last;            // the place of the last caller

static int is_write(enum call call)
{
    return call == WRITE_UID_MAP || call == WRITE_GID_MAP || call == WRITE_SETGROUPS;
}

static const char *file_of(enum call call)
{
    return call == WRITE_UID_MAP ? "uid_map" : call == WRITE_GID_MAP ? "gid_map" : "setgroups";
}

static int put_call(char *line, const struct order *o)
{
    int at;

    if (o->call < SETNS)
        return put_own(line, o);
    at = sprintf(line, "%s #%lu", about[o->call].name, o->a[0]);
    if (o->call == WRITE_SETGROUPS)
        at += sprintf(line + at, " %s", o->a[1] ? "deny" : "allow");
    for (int i = 0; i < list.length && o->call != WRITE_SETGROUPS && o->call != SETNS; i++)
        at += sprintf(line + at, " %u %u %u", list.e[i].inside, list.e[i].outside, list.e[i].length);
    return at;
}

static int put_map(char *line, const struct list *map)
{
    int at = sprintf(line, " map=");

    for (int i = 0; i < map->length; i++)
        at += sprintf(line + at, "%s%u:%u:%u", i ? "," : "", map->e[i].inside, map->e[i].outside, map->e[i].length);
    return at;
}

// What comes of a write, as a process shows that stands in the target.
static int put_written(char *line, const struct order *o, int pid)
{
    struct space *target = &spaces[o->a[0]];

    if (o->call == WRITE_SETGROUPS) {
        target->deny = denies(pid);
        return sprintf(line, " word=%s", target->deny ? "deny" : "allow");
    }
    read_map(pid, o->call == WRITE_GID_MAP, &target->maps[o->call == WRITE_GID_MAP]);
    return put_map(line, &target->maps[o->call == WRITE_GID_MAP]);
}

// What a write writes, at the front of the file; the last line's end may be left out.
static void put_text(const struct order *o)
{
    int at = 0;

    if (o->call == WRITE_SETGROUPS)
        at = sprintf(more->text, "%s", o->a[1] ? "deny" : "allow");
    for (int i = 0; i < list.length && o->call != WRITE_SETGROUPS; i++)
        at += sprintf(more->text + at, "%u %u %u\n", list.e[i].inside, list.e[i].outside, list.e[i].length);
    more->length = at - (at && draw(2) && o->call != WRITE_SETGROUPS);
    more->at = 0;
}

// From time to time a map's text has blanks up to a page or more, or a write isn't at the front.
static void draw_form(const struct order *o)
{
    if (o->call != WRITE_SETGROUPS && draw(64) == 0)
        for (int end = PAGE + draw(2) * draw(PAGE); more->length < end;)
            more->text[more->length++] = ' ';
    if (draw(64) == 0)
        more->at = 1 + draw(9);
}

static int put_opened(char *line, const struct opened *file)
{
    int at = 0;

    if (more->by_kept)
        at += sprintf(line + at, " opened=%ld@%d", file->by, file->at);
    if (more->length >= PAGE)
        at += sprintf(line + at, " bytes=%d", more->length);
    if (more->at)
        at += sprintf(line + at, " at=%d", more->at);
    return at;
}

// Whether there is a new space, which the process at that place made or its child came into.
static int put_made(char *line, enum call call, int place, int child)
{
    if (page->got < 0 || (call != UNSHARE && call != CLONE_USER))
        return 0;
    unsigned owner = new_space(space_of[place], call == UNSHARE ? &page->after : &page->child);
    space_of[call == UNSHARE ? place : child] = standing - 1;
    return sprintf(line, " made=%u,%s", owner, spaces[standing - 1].deny ? "deny" : "allow");
}

static void must_stand(int place)
{
    char name[64];

    name_of(name, tree[place].told.pid, "ns/user");
    must(number_at(name) == spaces[space_of[place]].number, "a process stands in another space");
}

// One call of the process at that place.
static void event(int place, const struct order *o)
{
    static char line[1 << 16];
    int at = sprintf(line, "%ld ", tree[place].pid), child = is_birth(o->call) ? free_place() : -1;
    pid_t stander = is_write(o->call) ? stand_in(o->a[0], tree[place].c.ids[0][3]) : 0;

    at += put_call(line + at, o);
    if (o->call == SETNS)
        hand_over(spaces[o->a[0]].file);
    if (is_write(o->call))
        name_of(more->name, stander, file_of(o->call));
    page->place = child;
    turn(place, o);
    events++;
    at += put_answer(line + at, o->call);
    if (stander) {
        at += put_opened(line + at, &files[place]);
        at += page->got ? 0 : put_written(line + at, o, stander);
        files[place].is &= !more->by_kept;
        let_end(stander);
    }
    if (child >= 0) {
        space_of[child] = space_of[place];
        files[child] = files[place];
    }
    at += put_made(line + at, o->call, place, child);
    if (o->call == SETNS && page->got == 0)
        space_of[place] = o->a[0];
    if (o->call == EXIT)
        leave(place);
    else
        at += put_after(line + at, place, page->got > 0 ? child : -1);
    for (int i = 0; i < PLACES; i++)
        if (tree[i].lives)
            must_stand(i);
    put_line(line, at);
}

// The process at that place opens a file for a later event; nothing is told of that.
static void open_early(int place, const struct order *o)
{
    pid_t stander = stand_in(o->a[0], tree[place].c.ids[0][3]);

    name_of(more->name, stander, file_of(o->call));
    turn(place, &(struct order){ .call = OPEN });
    files[place] = (struct opened){ page->got == 0, o->a[0], events, o->call, tree[place].pid };
    let_end(stander);
}

static void some_event(void)
{
    struct order o;
    int place;

    do {
        place = draw_place(last);
        draw_event(place, &o);
    } while (is_passed_over(place, &o));
    last = place;
    more->by_kept = 0;
    if (is_write(o.call)) {
        more->by_kept = files[place].is && draw(2);
        if (more->by_kept) {
            o = (struct order){ .call = files[place].call, .a = { files[place].target, o.a[1] & 1 } };
            if (o.call != WRITE_SETGROUPS)
                draw_list(place, o.a[0], o.call == WRITE_GID_MAP);
        } else if (draw(6) == 0) {
            open_early(place, &o);
            return;
        }
        put_text(&o);
        draw_form(&o);
    }
    event(place, &o);
}

// ---- runs -------------------------------------------------------------------------------------------------------------

// The process at that place makes a space and maps its own ids there, with the word "deny".
static void go_down(int place, int with_maps)
{
    static const enum call writes[] = { WRITE_SETGROUPS, WRITE_UID_MAP, WRITE_GID_MAP };

    event(place, &(struct order){ .call = UNSHARE });
    for (int i = 0; i < 3 && with_maps && page->got == 0; i++) {
        int at = space_of[place], side = writes[i] == WRITE_GID_MAP;
        struct order o = { .call = writes[i], .a = { at, 1 } };

        list.length = 1;
        list.e[0] = (struct extent){ draw(2) * 1000, up(spaces[at].parent, side, tree[place].c.ids[side][1]), 1 };
        more->by_kept = 0;
        put_text(&o);
        event(place, &o);
    }
}

// Down to the deepest space, and one further by that call; the deepest space's maps are written or not.
static void deep_run(enum call further, int with_maps)
{
    for (int level = 1; level <= DEEPEST; level++) {
        go_down(0, with_maps || level < DEEPEST);
        must(spaces[space_of[0]].level == level && page->got == 0, "a space with a map of one's own id");
    }
    event(0, &(struct order){ .call = further });
}

// The first process's child goes down some spaces, before other events.
static void nested_run(int count)
{
    event(0, &(struct order){ .call = FORK });
    for (int level = 2 + draw(2); level > 0 && page->got >= 0; level--)
        go_down(1, 1);
    for (; count > 0; count--)
        some_event();
}

static void one_run(unsigned seed, unsigned number)
{
    int is_deep = number % 64 == 0;
    pid_t keeper;

    fresh(seed, number);
    first_space();
    memset(files, 0, sizeof files);
    events = last = 0;
    draw_start(&page->start);
    births = 4 << draw(3);
    if (is_deep || number % 2)
        page->start.prm = page->start.eff = own;
    keeper = begin(seed, number);
    if (is_deep)
        deep_run(number / 64 % 4 < 2 ? CLONE_USER : UNSHARE, number / 64 % 2);
    else if (number % 8 == 2)
        nested_run(20 + draw(41));
    else
        for (int left = 30 + draw(61); left > 0; left--)
            some_event();
    end(keeper);
}

int main(int argc, char **argv)
{
    unsigned given[3] = { 1, 1, 400 };

    read_words(argc, argv, &(struct usage){ .names = { "seed", "first", "runs" } }, given);
    start_as_root(powers | CAP(SYS_ADMIN) | CAP(SYS_PTRACE) | CAP(SETFCAP));
    make_page();
    more = mmap(NULL, sizeof *more, PROT_READ | PROT_WRITE, MAP_SHARED | MAP_ANONYMOUS, -1, 0);
    must(more != MAP_FAILED, "mmap");
    must(socketpair(AF_UNIX, SOCK_SEQPACKET | SOCK_CLOEXEC, 0, channel) == 0, "socketpair");
    put_kernel();
    for (unsigned i = 0; i < given[2]; i++)
        one_run(given[0], given[1] + i);
    return 0;
}
