// What the small daemons beside this file share: whom they become, and what is tried once they have dropped. Each is
// one way to give up root's power, right or wrong; its own comment says what is left of it.
#define _GNU_SOURCE
#include <errno.h>
#include <grp.h>
#include <linux/capability.h>
#include <stdio.h>
#include <stdlib.h>
#include <string.h>
#include <sys/prctl.h>
#include <sys/syscall.h>
#include <unistd.h>

#define USER 2001   // lina, and her group
#define GROUP 2001

static void must(int done, const char *what)
{
    if (done)
        return;
    perror(what);
    exit(1);
}

// A child that does what somebody would who has taken the daemon over: it asks for root's ids and groups and for all
// that is permitted, by each call that might give them, whatever the calls before it answered. Then it waits.
static void try_to_come_back(void)
{
    struct __user_cap_header_struct own = { _LINUX_CAPABILITY_VERSION_3, 0 };
    struct __user_cap_data_struct sets[2];
    const gid_t root = 0;
    const pid_t child = fork();

    must(child >= 0, "fork");
    if (child > 0)
        return;
    if (syscall(SYS_capget, &own, sets) == 0) {
        sets[0].effective = sets[0].permitted;
        sets[1].effective = sets[1].permitted;
        (void)syscall(SYS_capset, &own, sets);
    }
    (void)!setresuid(-1, 0, -1);
    (void)!setreuid(0, 0);
    (void)!setuid(0);
    (void)!setresgid(0, 0, 0);
    (void)!setgroups(1, &root);
    for (;;)
        pause();
}

static void wait_for_ever(void)
{
    for (;;)
        pause();
}
