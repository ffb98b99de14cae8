/* Filters of system calls that answer success and do nothing (seccomp(2)). The danger: the log says that securebits
   were locked, the kernel never set them, and root as root still gets all capabilities by any execve (capabilities(7)).
   Securebits of another process can't be read, so no look at the end shows it. */
#include "trap.h"
#include <linux/filter.h>
#include <linux/seccomp.h>
#include <pthread.h>
#include <sys/ioctl.h>
#include <sys/socket.h>
#include <ucontext.h>

#define LOCKED 0x2f     /* SECBIT_NOROOT, SECBIT_NO_SETUID_FIXUP and their locks, SECBIT_KEEP_CAPS_LOCKED */
#define NUMBER BPF_STMT(BPF_LD | BPF_W | BPF_ABS, offsetof(struct seccomp_data, nr))
#define FIRST BPF_STMT(BPF_LD | BPF_W | BPF_ABS, offsetof(struct seccomp_data, args[0]))
#define IF(what, skip) BPF_JUMP(BPF_JMP | BPF_JEQ | BPF_K, what, 0, skip)
#define ANSWER(what) BPF_STMT(BPF_RET | BPF_K, what)
#define NOTHING (SECCOMP_RET_ERRNO | 0)
#define LENGTH(list) (sizeof list / sizeof *list)

static long install(struct sock_filter *filter, unsigned short many, unsigned flags)
{
    struct sock_fprog program = {many, filter};
    long made = syscall(SYS_seccomp, SECCOMP_SET_MODE_FILTER, flags, &program);
    need(made >= 0, "seccomp");
    return made;
}

static void faked_by(unsigned long sixth)
{
    need(syscall(SYS_prctl, PR_SET_SECUREBITS, LOCKED, 0, 0, 0, sixth) == 0, "securebits");
    need(setgroups(0, NULL) == 0, "setgroups");
    only(0);
    if (showing) {
        char path[PATH_MAX];
        snprintf(path, sizeof path, "%s/tell", beside);
        struct told found = told_by(path);
        shown(found.ran && found.capabilities != 0, "the call answered 0; capabilities %llx after an execve",
              found.capabilities);
    }
    hold();
}
/* Asks for securebits, then gives up all capabilities as root: gone for good, had the call been done. The sixth
   argument is for the filter alone. */
static void faked(void)
{
    faked_by(0);
}

/* The plain one: what all recorders know. */
static void plain(void)
{
    struct sock_filter filter[] = {NUMBER, IF(SYS_prctl, 3), FIRST, IF(PR_SET_SECUREBITS, 1), ANSWER(NOTHING),
                                   ANSWER(SECCOMP_RET_ALLOW)};
    install(filter, LENGTH(filter), 0);
    faked();
}

/* A return whose jump fields aren't 0, as BPF_JUMP writes them. */
static void jump_fields(void)
{
    struct sock_filter filter[] = {NUMBER, IF(SYS_prctl, 3), FIRST, IF(PR_SET_SECUREBITS, 1),
                                   {BPF_RET | BPF_K, 1, 0, NOTHING}, ANSWER(SECCOMP_RET_ALLOW)};
    install(filter, LENGTH(filter), 0);
    faked();
}

/* By prctl(2), PR_SET_SECCOMP. */
static void by_prctl(void)
{
    struct sock_filter filter[] = {NUMBER, IF(SYS_prctl, 3), FIRST, IF(PR_SET_SECUREBITS, 1),
                                   {BPF_RET | BPF_K, 1, 0, NOTHING}, ANSWER(SECCOMP_RET_ALLOW)};
    struct sock_fprog program = {LENGTH(filter), filter};
    need(prctl(PR_SET_SECCOMP, SECCOMP_MODE_FILTER, &program) == 0, "prctl");
    faked();
}

/* The number is never compared for equality: a ladder of greater and less. */
static void ladder(void)
{
    struct sock_filter filter[] = {
        NUMBER, BPF_JUMP(BPF_JMP | BPF_JGT | BPF_K, SYS_prctl, 5, 0),
        BPF_JUMP(BPF_JMP | BPF_JGE | BPF_K, SYS_prctl, 0, 4), FIRST,
        BPF_JUMP(BPF_JMP | BPF_JGE | BPF_K, PR_SET_SECUREBITS + 1, 2, 0),
        BPF_JUMP(BPF_JMP | BPF_JSET | BPF_K, PR_SET_SECUREBITS & ~3, 0, 1), BPF_STMT(BPF_JMP | BPF_JA, 1),
        ANSWER(SECCOMP_RET_ALLOW), BPF_JUMP(BPF_JMP | BPF_JEQ | BPF_K, PR_SET_SECUREBITS, 1, 0),
        ANSWER(SECCOMP_RET_ALLOW), {BPF_RET | BPF_K, 3, 2, NOTHING}};
    install(filter, LENGTH(filter), 0);
    faked();
}

/* The answer is worked out and returned from A. */
static void from_a(void)
{
    struct sock_filter filter[] = {
        NUMBER, IF(SYS_prctl, 5), FIRST, IF(PR_SET_SECUREBITS, 3),
        BPF_STMT(BPF_LD | BPF_W | BPF_IMM, SECCOMP_RET_ERRNO >> 4), BPF_STMT(BPF_ALU | BPF_LSH | BPF_K, 4),
        BPF_STMT(BPF_RET | BPF_A, 0), ANSWER(SECCOMP_RET_ALLOW)};
    install(filter, LENGTH(filter), 0);
    faked();
}

/* Number and answer go through X and the scratch memory. */
static void by_x(void)
{
    struct sock_filter filter[] = {
        BPF_STMT(BPF_LDX | BPF_W | BPF_IMM, SYS_prctl), BPF_STMT(BPF_STX, 3), NUMBER,
        BPF_STMT(BPF_LDX | BPF_W | BPF_MEM, 3), BPF_JUMP(BPF_JMP | BPF_JEQ | BPF_X, 0, 0, 7), FIRST,
        IF(PR_SET_SECUREBITS, 5), BPF_STMT(BPF_LD | BPF_W | BPF_IMM, NOTHING ^ 0x1234),
        BPF_STMT(BPF_LDX | BPF_W | BPF_IMM, 0x1234), BPF_STMT(BPF_ALU | BPF_XOR | BPF_X, 0),
        BPF_STMT(BPF_MISC | BPF_TAX, 0), BPF_STMT(BPF_RET | BPF_A, 0), ANSWER(SECCOMP_RET_ALLOW)};
    install(filter, LENGTH(filter), 0);
    faked();
}

/* The answer is what the caller put into its sixth argument. */
static void from_caller(void)
{
    struct sock_filter filter[] = {
        NUMBER, IF(SYS_prctl, 4), FIRST, IF(PR_SET_SECUREBITS, 2),
        BPF_STMT(BPF_LD | BPF_W | BPF_ABS, offsetof(struct seccomp_data, args[5])), BPF_STMT(BPF_RET | BPF_A, 0),
        ANSWER(SECCOMP_RET_ALLOW)};
    install(filter, LENGTH(filter), 0);
    faked_by(NOTHING);
}

/* Installed before the recorder comes (-p). */
static void before(void)
{
    struct sock_filter filter[] = {NUMBER, IF(SYS_prctl, 3), FIRST, IF(PR_SET_SECUREBITS, 1), ANSWER(NOTHING),
                                   ANSWER(SECCOMP_RET_ALLOW)};
    install(filter, LENGTH(filter), 0);
    wait_for_go();
    faked();
}

/* Exchanged by another thread while the recorder reads it: for one of both the filter does nothing at all. */
static struct sock_filter turning[] = {NUMBER, IF(SYS_prctl, 3), FIRST, IF(PR_SET_SECUREBITS, 1),
                                       ANSWER(SECCOMP_RET_ALLOW), ANSWER(SECCOMP_RET_ALLOW)};
static volatile int turned;
static void *turns(void *nothing)
{
    volatile unsigned *value = &turning[4].k;
    while (!turned) {
        *value = SECCOMP_RET_ALLOW;
        *value = NOTHING;
    }
    return nothing;
}
static void in_turn(void)
{
    char letter = 'x';
    for (int tries = 0; tries < 200 && letter == 'x'; tries++) {
        int ends[2];
        need(pipe(ends) == 0, "pipe");
        pid_t child = fork();
        if (child == 0) {
            pthread_t other;
            pthread_create(&other, NULL, turns, NULL);
            usleep(1000);
            install(turning, LENGTH(turning), 0);
            turned = 1;
            pthread_join(other, NULL);
            need(prctl(PR_SET_SECUREBITS, LOCKED, 0, 0, 0) == 0, "securebits");
            if (prctl(PR_GET_SECUREBITS) == LOCKED)
                _exit(7);
            need(write(ends[1], "y", 1) == 1, "write");
            faked();
        }
        close(ends[1]);
        if (read(ends[0], &letter, 1) == 1 && showing)
            _exit(WEXITSTATUS(end_of(child)));
        close(ends[0]);
    }
    drop(DROPPED);
    hold();
}

/* Another process answers in the kernel's place (seccomp_unotify(2)). It isn't of the family: it was there before, is
   told by a FIFO, and gets the descriptor by pidfd_getfd(2). */
static void answering(void)
{
    need(mkfifo("ask", 0600) == 0 && mkfifo("answer", 0600) == 0, "mkfifo");
    if (fork() > 0)
        return;
    setsid();
    int asks = open("ask", O_RDWR), told[2];
    need(asks >= 0 && read(asks, told, sizeof told) == sizeof told, "ask");
    int queue = syscall(SYS_pidfd_getfd, syscall(SYS_pidfd_open, told[0], 0), told[1], 0);
    int goes = open("answer", O_WRONLY);
    need(queue >= 0 && write(goes, "x", 1) == 1, "pidfd_getfd");
    for (;;) {
        struct seccomp_notif asked;
        struct seccomp_notif_resp answer;
        memset(&asked, 0, sizeof asked);
        memset(&answer, 0, sizeof answer);
        if (ioctl(queue, SECCOMP_IOCTL_NOTIF_RECV, &asked) < 0)
            _exit(0);
        answer.id = asked.id;
        ioctl(queue, SECCOMP_IOCTL_NOTIF_SEND, &answer);
    }
}
static void notified(void)
{
    struct sock_filter filter[] = {NUMBER, IF(SYS_prctl, 3), FIRST, IF(PR_SET_SECUREBITS, 1),
                                   ANSWER(SECCOMP_RET_USER_NOTIF), ANSWER(SECCOMP_RET_ALLOW)};
    int told[2] = {getpid(), install(filter, LENGTH(filter), SECCOMP_FILTER_FLAG_NEW_LISTENER)};
    char letter;
    int asks = open("ask", O_RDWR);
    need(asks >= 0 && write(asks, told, sizeof told) == sizeof told, "ask");
    int comes = open("answer", O_RDONLY);
    need(comes >= 0 && read(comes, &letter, 1) == 1, "answer");
    faked();
}

/* A trap: the call isn't done, and the handler puts its result into the register (sigaction(2)). */
static void answers(int number, siginfo_t *why, void *state)
{
    (void)number;
    (void)why;
    ((ucontext_t *)state)->uc_mcontext.gregs[REG_RAX] = 0;
}
static void trapped(void)
{
    struct sigaction action = {.sa_flags = SA_SIGINFO};
    action.sa_sigaction = answers;
    sigaction(SIGSYS, &action, NULL);
    struct sock_filter filter[] = {NUMBER, IF(SYS_prctl, 3), FIRST, IF(PR_SET_SECUREBITS, 1), ANSWER(SECCOMP_RET_TRAP),
                                   ANSWER(SECCOMP_RET_ALLOW)};
    install(filter, LENGTH(filter), 0);
    faked();
}

/* One thread installs the filter in all (SECCOMP_FILTER_FLAG_TSYNC), and with it comes no_new_privs. */
static _Atomic pid_t the_other;      /* 0 until it runs */
static void *rests(void *nothing)
{
    the_other = gettid();
    hold();
    return nothing;
}
static void all_threads(void)
{
    pthread_t other;
    pthread_create(&other, NULL, rests, NULL);
    while (the_other == 0)
        usleep(1000);
    no_new_privs();
    struct sock_filter filter[] = {ANSWER(SECCOMP_RET_ALLOW)};
    install(filter, LENGTH(filter), SECCOMP_FILTER_FLAG_TSYNC);
    if (showing) {
        unsigned limited = 0;
        for (int k = 0; k < 2; k++) {
            char path[60];
            snprintf(path, sizeof path, "self/task/%d", k ? the_other : getpid());
            limited += atoi(status_at(path, "NoNewPrivs"));
        }
        shown(limited == 2, "%u of 2 threads have no_new_privs, though one asked for it", limited);
    }
    hold();
}

TRAPS({"plain", NULL, plain}, {"fields", NULL, jump_fields}, {"prctl", NULL, by_prctl}, {"ladder", NULL, ladder},
      {"computed", NULL, from_a}, {"x", NULL, by_x}, {"argument", NULL, from_caller}, {"before", NULL, before},
      {"turning", NULL, in_turn}, {"notified", answering, notified}, {"trap", NULL, trapped},
      {"tsync", NULL, all_threads})
