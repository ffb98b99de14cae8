/* A family that forks and drops all the time, of which at each instant some things are true:

   - at most one of the two partners has the effective user id 1000; they hand that right to each other over pipes;
   - each child of the forker has four equal user ids and the group id of the same number, or is still as its parent;
   - at most two children live, and the older one has the lower number.

   A picture that is put together from different instants shows otherwise. Usage: moving MICROSECONDS; each pause lasts at
   most so long. To be run as root; it ends when its standard input is closed. */
#define _GNU_SOURCE
#include <poll.h>
#include <signal.h>
#include <stdlib.h>
#include <sys/prctl.h>
#include <sys/wait.h>
#include <unistd.h>

static unsigned most;

static void a_while(void)
{
    if (most)
        usleep(rand() % most);
}

static void partner(int from, int to)
{
    char token;
    srand(getpid());
    while (read(from, &token, 1) == 1) {
        if (seteuid(1000))
            _exit(1);
        a_while();
        if (seteuid(0))
            _exit(1);
        if (write(to, &token, 1) != 1)
            break;
    }
    _exit(0);
}

static pid_t born(unsigned id)
{
    pid_t child = fork();
    if (child)
        return child;
    prctl(PR_SET_PDEATHSIG, SIGKILL);
    if (setresgid(id, id, id) || setresuid(id, id, id))
        _exit(1);
    for (;;)
        pause();
}

int main(int count, char **words)
{
    int there[2], back[2];
    unsigned id = 2000;
    pid_t older = 0;
    struct pollfd input = { .fd = 0, .events = POLLIN };
    most = count > 1 ? atoi(words[1]) : 1000;
    if (pipe(there) || pipe(back))
        return 1;
    for (int which = 0; which < 2; which++)
        if (fork() == 0) {
            prctl(PR_SET_PDEATHSIG, SIGKILL);
            partner(which ? there[0] : back[0], which ? back[1] : there[1]);
        }
    if (write(there[1], "t", 1) != 1)
        return 1;
    while (!poll(&input, 1, 0)) {
        pid_t newer = born(id);
        a_while();
        if (older) {
            kill(older, SIGKILL);
            waitpid(older, NULL, 0);
        }
        older = newer;
        id = id < 60000 ? id + 1 : 2000;
    }
    signal(SIGTERM, SIG_IGN);
    kill(0, SIGTERM);
    return 0;
}
