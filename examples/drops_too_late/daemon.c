// A daemon that root starts and that becomes user 33, as it should, but only once it has read from the network: whoever
// sends the first bytes sends them to root. Built with -DFIXED it drops first, and keeps the socket alone.
//
// So that it can be recorded by itself, it connects to its own socket.
#define _GNU_SOURCE
#include <arpa/inet.h>
#include <grp.h>
#include <netinet/in.h>
#include <stddef.h>
#include <sys/prctl.h>
#include <sys/socket.h>
#include <unistd.h>

static int listening(struct sockaddr_in *address)
{
    socklen_t length = sizeof *address;
    int one = socket(AF_INET, SOCK_STREAM, 0);
    address->sin_family = AF_INET;
    address->sin_addr.s_addr = htonl(INADDR_LOOPBACK);
    if (one < 0 || bind(one, (struct sockaddr *)address, length) || listen(one, 1))
        return -1;
    return getsockname(one, (struct sockaddr *)address, &length) ? -1 : one;
}

static int drops(void)
{
    return setgroups(0, NULL) || setresgid(33, 33, 33) || setresuid(33, 33, 33) || prctl(PR_SET_NO_NEW_PRIVS, 1, 0, 0, 0);
}

static int reads(int one, const struct sockaddr_in *address)
{
    char byte = 'x';
    int client = socket(AF_INET, SOCK_STREAM, 0);
    if (client < 0 || connect(client, (const struct sockaddr *)address, sizeof *address) || write(client, &byte, 1) != 1)
        return 1;
    int served = accept(one, NULL, NULL);
    return served < 0 || recv(served, &byte, 1, 0) != 1;
}

int main(void)
{
    struct sockaddr_in address = {0};
    int one = listening(&address);
#ifdef FIXED
    if (one < 0 || drops() || reads(one, &address))
        return 1;
#else
    if (one < 0 || reads(one, &address) || drops())
        return 1;
#endif
    pause();
    return 0;
}
