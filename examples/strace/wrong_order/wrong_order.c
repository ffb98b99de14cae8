// A daemon that drops in the wrong order: the user id goes first, and with it the capability that the other two calls
// need. It doesn't look at what they answer, so it keeps root's group ids and groups.
#include "../daemon.h"

int main(void)
{
    must(setuid(USER) == 0, "setuid");                      // wrong: this is the last to go
    (void)!setgid(GROUP);                                   // wrong: EPERM isn't looked at
    (void)!setgroups(0, NULL);
    try_to_come_back();
    wait_for_ever();
}
