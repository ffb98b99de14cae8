// The daemon with two threads that drops as it should: the C library's setgroups, setresgid and setresuid have each
// thread make the call (nptl(7)). Neither comes back.
#include "../daemon.h"
#include "../two_threads.h"

static void drop(void)
{
    must(setgroups(0, NULL) == 0, "setgroups");
    must(setresgid(GROUP, GROUP, GROUP) == 0, "setresgid");
    must(setresuid(USER, USER, USER) == 0, "setresuid");
}

int main(void)
{
    drop_in_first(drop);
}
