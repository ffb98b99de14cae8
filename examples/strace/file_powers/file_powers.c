// A daemon that a user runs, with two capabilities from its file (capabilities(7)): CAP_NET_BIND_SERVICE, which it
// needs, and CAP_SETUID, which it doesn't. It gives the first up once it has used it, but keeps the second: it can be
// any user.
#include "../daemon.h"

int main(void)
{
    struct __user_cap_header_struct own = { _LINUX_CAPABILITY_VERSION_3, 0 };
    struct __user_cap_data_struct sets[2] = { { 0, 0, 0 }, { 0, 0, 0 } };

    sets[0].permitted = 1u << CAP_SETUID;                   // wrong: it isn't needed
    must(syscall(SYS_capset, &own, sets) == 0, "capset");
    try_to_come_back();
    wait_for_ever();
}
