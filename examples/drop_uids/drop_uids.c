// Drops its user ids step by step, by setresuid(2) alone, and writes after each call what the kernel shows of it.
//
//   drop_uids STATUS
//
// STATUS gets one line for the start and one for each call: the lines of /proc/self/status that tell of credentials, and
// the securebits, each after its name, with "; " between them. To be run as root; see record.py.
#define _GNU_SOURCE
#include <ctype.h>
#include <stdio.h>
#include <stdlib.h>
#include <string.h>
#include <sys/prctl.h>
#include <unistd.h>

static FILE *out;

// The lines that tell of credentials, in the order in which proc(5) has them.
static const char *const names[] = {"Uid:", "Gid:", "Groups:", "CapInh:", "CapPrm:", "CapEff:", "CapBnd:", "CapAmb:", "NoNewPrivs:"};

static void fail(const char *what)
{
    perror(what);
    exit(1);
}

static int tells_of_credentials(const char *line)
{
    for (size_t i = 0; i < sizeof names / sizeof *names; i++)
        if (!strncmp(line, names[i], strlen(names[i])))
            return 1;
    return 0;
}

// One line of the status file.
static void show(void)
{
    char *line = NULL;
    size_t room = 0;
    FILE *in = fopen("/proc/self/status", "r");

    if (!in)
        fail("/proc/self/status");
    while (getline(&line, &room, in) > 0) {
        if (!tells_of_credentials(line))
            continue;
        for (char *c = line; *c && *c != '\n'; c++)
            fputc(isspace((unsigned char)*c) ? ' ' : *c, out);
        fputs("; ", out);
    }
    free(line);
    fclose(in);
    fprintf(out, "Securebits: %d\n", prctl(PR_GET_SECUREBITS));
}

// A call that must be done.
static void must(uid_t r, uid_t e, uid_t s)
{
    if (setresuid(r, e, s))
        fail("setresuid");
    show();
}

// A call that must be refused.
static void refused(uid_t r, uid_t e, uid_t s)
{
    if (!setresuid(r, e, s)) {
        fprintf(stderr, "a call was not refused\n");
        exit(1);
    }
    show();
}

int main(int argc, char **argv)
{
    const uid_t same = -1;

    if (argc != 2) {
        fprintf(stderr, "usage: drop_uids STATUS\n");
        return 2;
    }
    out = fopen(argv[1], "w");
    if (!out)
        fail(argv[1]);
    show();

    must(same, 1000, same);             // the effective id alone: nothing is effective, all stays permitted
    must(same, 0, same);                // and back
    must(same, 4294967294, same);       // the highest id
    must(same, 0, same);
    must(1000, same, same);             // the real id alone: no set changes
    must(1000, 1000, 0);                // the saved id is still 0
    refused(2000, same, same);          // CAP_SETUID isn't effective now
    must(same, 0, same);                // the saved root id brings the effective set back
    must(1000, 1001, 1002);             // no id is 0 any more: nothing is permitted
    refused(same, 0, same);             // no way back
    refused(0, 0, 0);
    must(1002, 1000, 1001);             // each id in another place
    must(same, same, 1000);
    must(1000, 1000, 1000);
    refused(same, 1002, same);          // an id that was given up
    must(same, same, same);             // nothing is given, nothing changes
    refused(1000, 1000, 0);
    return fclose(out) ? 1 : 0;
}
