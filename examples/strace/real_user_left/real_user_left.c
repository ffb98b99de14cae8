// A daemon that takes seteuid(2) for a drop: it alone changes the effective id. An execve, which makes the saved id the
// effective one, doesn't help, since the real id stays root's: one setreuid(2) makes it root again.
#include "../daemon.h"

int main(int count, char **words)
{
    if (count == 1) {
        must(setgroups(0, NULL) == 0, "setgroups");
        must(setegid(GROUP) == 0, "setegid");
        must(seteuid(USER) == 0, "seteuid");                // wrong: real and saved id stay
        execl(words[0], words[0], "dropped", NULL);
        must(0, "execl");
    }
    try_to_come_back();
    wait_for_ever();
}
