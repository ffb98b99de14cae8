/* Tells its effective user id, group id and capabilities in a line. Copies of it get set-id bits or attributes: what it
   says is what the kernel gave to who executed it (execve(2), credentials(7), capabilities(7)). With a word it waits
   so many milliseconds first, for a recorder to look at it. */
#include <linux/capability.h>
#include <stdio.h>
#include <stdlib.h>
#include <sys/syscall.h>
#include <unistd.h>

int main(int count, char **words)
{
    struct __user_cap_header_struct head = {_LINUX_CAPABILITY_VERSION_3, 0};
    struct __user_cap_data_struct sets[2];
    syscall(SYS_capget, &head, sets);
    if (count > 1)
        usleep(1000 * atoi(words[1]));
    printf("%u %u %llx\n", geteuid(), getegid(), (unsigned long long)sets[1].effective << 32 | sets[0].effective);
    return 0;
}
