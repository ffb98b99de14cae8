// A daemon that rightly keeps one capability, to bind ports later: PR_SET_KEEPCAPS saves the permitted set from
// setresuid(2), then capset(2) gives up all of it but that one, and the flag goes too. Nothing else comes back.
#include "../daemon.h"

int main(void)
{
    struct __user_cap_header_struct own = { _LINUX_CAPABILITY_VERSION_3, 0 };
    struct __user_cap_data_struct sets[2] = { { 0, 0, 0 }, { 0, 0, 0 } };

    must(setgroups(0, NULL) == 0, "setgroups");
    must(setresgid(GROUP, GROUP, GROUP) == 0, "setresgid");
    must(prctl(PR_SET_KEEPCAPS, 1, 0, 0, 0) == 0, "PR_SET_KEEPCAPS");
    must(setresuid(USER, USER, USER) == 0, "setresuid");
    sets[0].effective = sets[0].permitted = 1u << CAP_NET_BIND_SERVICE;
    must(syscall(SYS_capset, &own, sets) == 0, "capset");
    must(prctl(PR_SET_KEEPCAPS, 0, 0, 0, 0) == 0, "PR_SET_KEEPCAPS");
    try_to_come_back();
    wait_for_ever();
}
