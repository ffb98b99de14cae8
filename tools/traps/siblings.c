/* Who lives at the end (fork(2), PR_SET_CHILD_SUBREAPER(2const), pthreads(7)). The danger: one process has dropped
   rightly and is asked about alone, and another one of the recording still has all of root. */
#include "trap.h"
#include <pthread.h>

/* The first process drops; the other one is root, as the kernel shows it. */
static void dropped_beside(pid_t other)
{
    usleep(100000);
    if (showing)
        shown(atoi(status_of(other, "Uid")) == 0 && *status_of(other, "Uid") && state_of(other) != 'Z',
              "process %d lives, with user ids %s", other, status_of(other, "Uid"));
    drop(DROPPED);
    hold();
}

/* The parent ends, and two children are siblings. */
static void orphans(void)
{
    pid_t first = fork();
    if (first > 0 && !showing) {
        if (fork() == 0)
            hold();
        _exit(0);
    }
    if (first > 0) {
        pid_t second = fork();
        if (second == 0)
            hold();
        dropped_beside(second);
    }
    if (showing)
        hold();
    drop(DROPPED);
    hold();
}

/* A daemon forks twice, and what is in between ends (daemon(7)). */
static void twice(void)
{
    int ends[2];
    pid_t other = 0;
    need(pipe(ends) == 0, "pipe");
    pid_t between = fork();
    if (between == 0) {
        setsid();
        other = fork();
        if (other == 0)
            hold();
        need(write(ends[1], &other, sizeof other) == sizeof other, "write");
        _exit(0);
    }
    need(read(ends[0], &other, sizeof other) == sizeof other && end_of(between) == 0, "read");
    dropped_beside(other);
}

/* An orphan is taken by a process of the family that asked for it. */
static void taken(void)
{
    int ends[2];
    pid_t other = 0;
    need(pipe(ends) == 0, "pipe");
    pid_t taker = fork();
    if (taker == 0) {
        need(prctl(PR_SET_CHILD_SUBREAPER, 1) == 0, "subreaper");
        pid_t between = fork();
        if (between == 0) {
            other = fork();
            if (other == 0)
                hold();
            need(write(ends[1], &other, sizeof other) == sizeof other, "write");
            _exit(0);
        }
        need(end_of(between) == 0, "between");
        drop(DROPPED);
        hold();
    }
    need(read(ends[0], &other, sizeof other) == sizeof other, "read");
    dropped_beside(other);
}

/* CLONE_PARENT: the child is no child of who made it, but its sibling (clone(2)). */
static void with_parent(void)
{
    int ends[2];
    pid_t other = 0;
    need(pipe(ends) == 0, "pipe");
    pid_t first = fork();
    if (first == 0) {
        other = syscall(SYS_clone, CLONE_PARENT | SIGCHLD, 0, 0, 0, 0);
        if (other == 0)
            hold();
        need(write(ends[1], &other, sizeof other) == sizeof other, "write");
        drop(DROPPED);
        hold();
    }
    need(read(ends[0], &other, sizeof other) == sizeof other, "read");
    dropped_beside(other);
}

/* A thread sets its ids down, as the kernel sees it, for itself alone; the others stay root (nptl(7)). */
static pid_t thread;
static void *stays(void *nothing)
{
    thread = gettid();
    hold();
    return nothing;
}
static void by_thread(void)
{
    pthread_t other;
    pthread_create(&other, NULL, stays, NULL);
    usleep(100000);
    need(syscall(SYS_setgroups, 0, NULL) == 0 && syscall(SYS_setresgid, DROPPED, DROPPED, DROPPED) == 0
         && syscall(SYS_setresuid, DROPPED, DROPPED, DROPPED) == 0, "setresuid");
    if (showing) {
        char folder[60];
        snprintf(folder, sizeof folder, "self/task/%d", thread);
        shown(atoi(status_at(folder, "Uid")) == 0, "thread %d lives, with user ids %s", thread,
              status_at(folder, "Uid"));
    }
    hold();
}

/* A saved id that is forgotten, by the way: the plainest of all. */
static void saved(void)
{
    need(setgroups(0, NULL) == 0 && setresgid(DROPPED, DROPPED, DROPPED) == 0
         && setresuid(DROPPED, DROPPED, 0) == 0, "setresuid");
    int done = showing && setresuid(0, 0, 0) == 0;
    if (showing)
        shown(done && geteuid() == 0, "effective user id %u by a call", geteuid());
    hold();
}

TRAPS({"orphans", NULL, orphans}, {"twice", NULL, twice}, {"taken", NULL, taken}, {"parent", NULL, with_parent},
      {"thread", NULL, by_thread}, {"saved", NULL, saved})
