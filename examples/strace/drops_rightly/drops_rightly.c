// A daemon that gives up root's power as it should: first the groups, while it may; then all three group ids; then all
// three user ids, with which its capabilities go; and no file that it runs may give it more. Nothing comes back.
#include "../daemon.h"

int main(void)
{
    must(setgroups(0, NULL) == 0, "setgroups");
    must(setresgid(GROUP, GROUP, GROUP) == 0, "setresgid");
    must(setresuid(USER, USER, USER) == 0, "setresuid");
    must(prctl(PR_SET_NO_NEW_PRIVS, 1, 0, 0, 0) == 0, "PR_SET_NO_NEW_PRIVS");
    try_to_come_back();
    wait_for_ever();
}
