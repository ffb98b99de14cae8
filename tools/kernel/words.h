// The words of a recorder's command line. A recorder includes it once, after credential.h.
#include <getopt.h>

#define MOST_OPTIONS 3

// What a recorder takes: the names of its options, each with a number, and the words after them, some of which may be
// left out.
struct usage {
    const char *names[MOST_OPTIONS];
    char rest[24];
    int least, most;
};

static unsigned number_of(const char *text)
{
    char *end;
    unsigned long number = strtoul(text, &end, 10);

    if (!*text || *end || number > 4294967295u) {
        fprintf(stderr, "%s: no number: %s\n", program_invocation_short_name, text);
        exit(2);
    }
    return number;
}

static void show_usage(const struct usage *usage)
{
    fprintf(stderr, "usage: %s", program_invocation_short_name);
    for (int i = 0; i < MOST_OPTIONS && usage->names[i]; i++)
        fprintf(stderr, " [--%s N]", usage->names[i]);
    fprintf(stderr, "%s\n", usage->rest);
    exit(2);
}

// Reads the options, each number into the place of its name, and gives the words after them, which end with NULL.
static char **read_words(int argc, char **argv, const struct usage *usage, unsigned *given)
{
    struct option options[MOST_OPTIONS + 1] = { { NULL, 0, NULL, 0 } };
    int option;

    for (int i = 0; i < MOST_OPTIONS && usage->names[i]; i++)
        options[i] = (struct option){ usage->names[i], required_argument, NULL, i };
    while ((option = getopt_long(argc, argv, "", options, NULL)) >= 0 && option < MOST_OPTIONS)
        given[option] = number_of(optarg);
    if (option >= 0 || argc - optind < usage->least || argc - optind > usage->most)
        show_usage(usage);
    return argv + optind;
}
