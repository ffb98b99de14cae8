// A daemon that forgets its groups: its ids are a user's and its capabilities are gone, but it is still a member of the
// group 0, and opens what that group may.
#include "../daemon.h"

int main(void)
{
    // wrong: no setgroups(2), and below it isn't allowed any more
    must(setresgid(GROUP, GROUP, GROUP) == 0, "setresgid");
    must(setresuid(USER, USER, USER) == 0, "setresuid");
    try_to_come_back();
    wait_for_ever();
}
