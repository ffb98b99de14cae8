/* A daemon as odd as one can be (pthreads(7), user_namespaces(7), seccomp(2), proc(5)): threads with ids of their own, a
   child with a forgotten saved id, one in nested user namespaces, one with a filter, and a name that looks like lines of
   a stat file. The danger: a captured world lacks one of them, or has it with other credentials than the kernel. */
#include "trap.h"
#include <linux/filter.h>
#include <linux/seccomp.h>
#include <pthread.h>

static void *of_another(void *nothing)
{
    syscall(SYS_setresuid, -1, DROPPED, -1);
    hold();
    return nothing;
}
static void *rests(void *nothing)
{
    hold();
    return nothing;
}
static void map(const char *name, const char *text)
{
    int file = open(name, O_WRONLY);
    need(file >= 0 && write(file, text, strlen(text)) == (ssize_t)strlen(text), name);
    close(file);
}
static void nested(void)
{
    drop(1000);
    prctl(PR_SET_DUMPABLE, 1, 0, 0, 0);
    need(unshare(CLONE_NEWUSER) == 0, "unshare");
    map("/proc/self/setgroups", "deny");
    map("/proc/self/uid_map", "0 1000 1");
    map("/proc/self/gid_map", "5 1000 1");
    prctl(PR_SET_SECUREBITS, 1, 0, 0, 0);
    if (fork() == 0) {
        need(unshare(CLONE_NEWUSER) == 0, "unshare");
        map("/proc/self/uid_map", "7 0 1");
    }
}
static void filtered(void)
{
    struct sock_filter filter[] = {BPF_STMT(BPF_RET | BPF_K, SECCOMP_RET_ALLOW)};
    struct sock_fprog program = {1, filter};
    no_new_privs();
    syscall(SYS_seccomp, SECCOMP_SET_MODE_FILTER, 0, &program);
    drop(5);
}
static void forgotten(void)
{
    gid_t groups[] = {DROPPED, 44};
    need(setgroups(2, groups) == 0 && setresgid(DROPPED, DROPPED, DROPPED) == 0
         && setresuid(DROPPED, DROPPED, 0) == 0, "ids");
}
static void daemon_of_all(void)
{
    void (*kinds[])(void) = {forgotten, nested, filtered};
    pthread_t one, two;
    pid_t children[3];
    pthread_create(&one, NULL, of_another, NULL);
    pthread_create(&two, NULL, rests, NULL);
    prctl(PR_SET_NAME, "d) S 1\n\033[31m\"#");
    for (int k = 0; k < 3; k++) {
        children[k] = fork();
        if (children[k] == 0) {
            kinds[k]();
            hold();
        }
    }
    usleep(500000);
    if (showing)
        shown(*status_of(children[0], "Uid") == '3' && *status_of(children[1], "Uid") == '1'
              && *status_of(children[2], "Uid") == '5', "children with user ids %s, %s and %s",
              status_of(children[0], "Uid"), status_of(children[1], "Uid"), status_of(children[2], "Uid"));
    ready();
    hold();
}

TRAPS({"daemon", NULL, daemon_of_all})
