// A daemon that forgets the saved user id: it looks like a user's and has no effective capability, but its saved user
// id is root's, so one setresuid(2) makes it root again.
#include "../daemon.h"

int main(void)
{
    must(setgroups(0, NULL) == 0, "setgroups");
    must(setresgid(GROUP, GROUP, GROUP) == 0, "setresgid");
    must(setresuid(USER, USER, -1) == 0, "setresuid");      // wrong: -1 leaves the saved id
    try_to_come_back();
    wait_for_ever();
}
