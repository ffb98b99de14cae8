// A daemon with two threads of which one alone drops: a system call of its own changes the calling thread only, as the
// kernel has credentials by thread (credentials(7)). The other thread is root still, and so is what it gives birth to.
#include "../daemon.h"
#include "../two_threads.h"

static void drop(void)
{
    must(syscall(SYS_setgroups, 0, NULL) == 0, "setgroups");            // wrong: this thread alone
    must(syscall(SYS_setresgid, GROUP, GROUP, GROUP) == 0, "setresgid");
    must(syscall(SYS_setresuid, USER, USER, USER) == 0, "setresuid");
}

int main(void)
{
    drop_in_first(drop);
}
