/* Processes that end by a signal (signal(7), wait(2)). The danger: a recording that doesn't see such an end lets the
   process live on, and what it had counts as held by somebody. Each case begins a child that has all of root, sees it
   end, and then drops rightly. */
#include "trap.h"
#include <pthread.h>
#include <sys/resource.h>

/* The child is seen to be dead; what is left of the family drops. */
static void after(pid_t child, int wanted)
{
    int how = end_of(child);
    if (showing)
        shown(WIFSIGNALED(how) && WTERMSIG(how) == wanted && kill(child, 0) < 0 && errno == ESRCH,
              "process %d ended by signal %d%s, and is there no more", child, WIFSIGNALED(how) ? WTERMSIG(how) : 0,
              WCOREDUMP(how) ? ", with a core" : "");
    drop(DROPPED);
    no_new_privs();
    (void)!geteuid();
    hold();
}

/* kill(2) by the parent. */
static void by_term(void)
{
    pid_t child = fork();
    if (child == 0)
        hold();
    usleep(100000);
    kill(child, SIGTERM);
    after(child, SIGTERM);
}

static void by_kill(void)
{
    pid_t child = fork();
    if (child == 0)
        hold();
    usleep(100000);
    kill(child, SIGKILL);
    after(child, SIGKILL);
}

/* Five children that are killed at their birth, before a line of theirs. */
static void at_birth(void)
{
    pid_t child = 0;
    for (int k = 0; k < 5; k++) {
        child = fork();
        if (child == 0)
            hold();
        kill(child, SIGKILL);
        if (k < 4)
            waitpid(child, NULL, 0);
    }
    after(child, SIGKILL);
}

/* abort(3). */
static void by_abort(void)
{
    struct rlimit none = {0, 0};
    pid_t child = fork();
    if (child == 0) {
        setrlimit(RLIMIT_CORE, &none);
        abort();
    }
    after(child, SIGABRT);
}

/* What a shell's `yes | head -1` does: pipe(7). */
static void by_pipe(void)
{
    int ends[2];
    need(pipe(ends) == 0, "pipe");
    pid_t child = fork();
    if (child == 0) {
        close(ends[0]);
        for (;;)
            if (write(ends[1], "y\n", 2) < 0)
                _exit(1);
    }
    close(ends[1]);
    char piece[2];
    need(read(ends[0], piece, 2) == 2, "read");
    close(ends[0]);
    after(child, SIGPIPE);
}

/* RLIMIT_CPU, setrlimit(2): a second of the processor. */
static void by_time(void)
{
    struct rlimit second = {1, 1};
    pid_t child = fork();
    if (child == 0) {
        setrlimit(RLIMIT_CPU, &second);
        for (volatile int k = 0;; k++)
            ;
    }
    after(child, SIGKILL);
}

/* A fault of memory, with a core: the line of the end has more words (core(5)). */
static void by_fault(void)
{
    struct rlimit all = {RLIM_INFINITY, RLIM_INFINITY};
    pid_t child = fork();
    if (child == 0) {
        setrlimit(RLIMIT_CORE, &all);
        *(volatile int *)8 = 1;
        _exit(0);
    }
    after(child, SIGSEGV);
}

/* A process of three threads, which end at once by one signal (pthreads(7)). */
static void *rests(void *nothing)
{
    hold();
    return nothing;
}
static void threads(void)
{
    pid_t child = fork();
    if (child == 0) {
        pthread_t one, two;
        pthread_create(&one, NULL, rests, NULL);
        pthread_create(&two, NULL, rests, NULL);
        hold();
    }
    usleep(200000);
    kill(child, SIGKILL);
    after(child, SIGKILL);
}

/* PR_SET_PDEATHSIG: the child of a child ends with its parent (PR_SET_PDEATHSIG(2const)). */
static void with_parent(void)
{
    int ends[2];
    need(pipe(ends) == 0 && prctl(PR_SET_CHILD_SUBREAPER, 1) == 0, "pipe");
    pid_t child = fork(), below = 0;
    if (child == 0) {
        below = fork();
        if (below == 0) {
            prctl(PR_SET_PDEATHSIG, SIGUSR2);
            need(write(ends[1], "x", 1) == 1, "write");
            hold();
        }
        usleep(200000);
        need(write(ends[1], &below, sizeof below) == sizeof below, "write");
        _exit(0);
    }
    char letter;
    need(read(ends[0], &letter, 1) == 1 && read(ends[0], &below, sizeof below) == sizeof below, "read");
    waitpid(child, NULL, 0);
    after(below, SIGUSR2);
}

TRAPS({"term", NULL, by_term}, {"kill", NULL, by_kill}, {"birth", NULL, at_birth}, {"abort", NULL, by_abort},
      {"pipe", NULL, by_pipe}, {"time", NULL, by_time}, {"fault", NULL, by_fault}, {"threads", NULL, threads},
      {"parent", NULL, with_parent})
