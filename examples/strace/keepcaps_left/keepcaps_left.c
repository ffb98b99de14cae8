// A daemon that sets PR_SET_KEEPCAPS, to keep one capability, and then forgets to give up the others: none is effective
// after setresuid(2), but all are permitted still. One capset(2) makes them effective, and then any id can be had.
#include "../daemon.h"

int main(void)
{
    must(setgroups(0, NULL) == 0, "setgroups");
    must(setresgid(GROUP, GROUP, GROUP) == 0, "setresgid");
    must(prctl(PR_SET_KEEPCAPS, 1, 0, 0, 0) == 0, "PR_SET_KEEPCAPS");
    must(setresuid(USER, USER, USER) == 0, "setresuid");    // wrong: no capset(2) follows
    try_to_come_back();
    wait_for_ever();
}
