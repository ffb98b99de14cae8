/* Calls that fail, or do nothing, for reasons that a reader of logs may not know (errno(3), and the page of each call).
   The danger: a true log is refused at such a line, or the call counts as done. Each changes nothing, as its answer
   and the ids afterwards show. */
#include "trap.h"
#include <linux/sched.h>

static char *none[] = {"x", NULL};
static struct __user_cap_header_struct head = {_LINUX_CAPABILITY_VERSION_3, 0};
static struct __user_cap_data_struct sets[2];

/* The answer of the call that is asked for, -1 with errno where it was refused. */
static void answered(long result)
{
    int reason = errno;
    if (showing)
        shown(result < 0 && geteuid() == 0 && getegid() == 0, "the answer is %ld (%s), and nothing changed", result,
              result < 0 ? strerrorname_np(reason) : "done");
    (void)!geteuid();
    usleep(1000);
}

/* ---- births, namespaces */

static void clone_pid_taken(void)
{
    pid_t taken = 1;
    struct clone_args how = {.set_tid = (unsigned long)&taken, .set_tid_size = 1, .exit_signal = SIGCHLD};
    long result = syscall(SYS_clone3, &how, sizeof how);
    if (result == 0)
        _exit(0);
    answered(result);
}
static void clone_no_group(void)
{
    struct clone_args how = {.flags = CLONE_INTO_CGROUP, .cgroup = open(".", O_RDONLY), .exit_signal = SIGCHLD};
    long result = syscall(SYS_clone3, &how, sizeof how);
    if (result == 0)
        _exit(0);
    answered(result);
}
static void clone_too_long(void)
{
    struct clone_args how[2];
    memset(how, 255, sizeof how);
    answered(syscall(SYS_clone3, how, sizeof how));
}
static void setns_none(void)
{
    answered(setns(-1, 0));
}
static void setns_own(void)
{
    answered(setns(syscall(SYS_pidfd_open, getpid(), 0), CLONE_NEWUSER));
}
static void setns_dead(void)
{
    pid_t child = fork();
    if (child == 0)
        hold();
    int held = syscall(SYS_pidfd_open, child, 0);
    kill(child, SIGKILL);
    end_of(child);
    answered(setns(held, CLONE_NEWUSER));
}
static void unshare_unknown(void)
{
    answered(unshare(CLONE_NEWUSER | CLONE_NEWPID | 1));
}

/* ---- capabilities, prctl, ids */

static void capset_other(void)
{
    struct __user_cap_header_struct other = {_LINUX_CAPABILITY_VERSION_3, 1};
    answered(syscall(SYS_capset, &other, sets));
}
static void capset_version(void)
{
    struct __user_cap_header_struct unknown = {0x11111111, 0};
    answered(syscall(SYS_capset, &unknown, sets));
}
/* Bits past the last capability (what a program with all bits asks for): the kernel cuts them off. */
static void capset_past(void)
{
    syscall(SYS_capget, &head, sets);
    sets[1].inheritable |= 0xfffffe00;
    long result = syscall(SYS_capset, &head, sets);
    if (showing) {
        syscall(SYS_capget, &head, sets);
        shown(result == 0 && !(sets[1].inheritable & 0xfffffe00), "the answer is %ld, and the bits aren't there",
              result);
    }
    syscall(SYS_capget, &head, sets);
    sets[1].permitted |= 0xfffffe00;
    syscall(SYS_capset, &head, sets);
    syscall(SYS_capget, &head, sets);
    hold();
}
static void securebits_unknown(void)
{
    answered(prctl(PR_SET_SECUREBITS, 0x10000));
}
static void privs_zero(void)
{
    answered(prctl(PR_SET_NO_NEW_PRIVS, 0, 0, 0, 0));
}
static void privs_words(void)
{
    answered(prctl(PR_SET_NO_NEW_PRIVS, 1, 1, 0, 0));
}
static void ambient_words(void)
{
    answered(prctl(PR_CAP_AMBIENT, PR_CAP_AMBIENT_CLEAR_ALL, 5, 0, 0));
}
static void ambient_unknown(void)
{
    answered(prctl(PR_CAP_AMBIENT, 99, 5, 0, 0));
}
static void keepcaps_two(void)
{
    answered(prctl(PR_SET_KEEPCAPS, 2, 0, 0, 0));
}
static void bounding_unknown(void)
{
    answered(prctl(PR_CAPBSET_DROP, 99, 0, 0, 0));
}
static void bounding_minus(void)
{
    answered(prctl(PR_CAPBSET_DROP, -1, 0, 0, 0));
}
static void groups_nowhere(void)
{
    answered(syscall(SYS_setgroups, 1, (void *)8));
}
static void groups_too_many(void)
{
    answered(syscall(SYS_setgroups, 70000, (void *)8));
}
/* getgroups(2) with the size 0 tells a count, and leaves the list alone. */
static void getgroups_zero(void)
{
    gid_t groups[8] = {7};
    need(setgroups(2, (gid_t[]){41, 42}) == 0, "setgroups");
    int count = getgroups(0, groups);
    if (showing)
        shown(count == 2 && groups[0] == 7, "%d groups, and the list is as it was", count);
    hold();
}

/* ---- execve */

static void execve_folder(void)
{
    mkdir("folder", 0755);
    answered(execv(here("folder"), none));
}
static void execve_nothing(void)
{
    answered(execv("", none));
}
static void execve_no_bit(void)
{
    put("plain", "x", 0644);
    answered(execv(here("plain"), none));
}
static void execve_device(void)
{
    answered(execv("/dev/null", none));
}
static void execve_below_file(void)
{
    answered(execv("/proc/self/exe/x", none));
}
static void execve_too_long(void)
{
    char *text = malloc(300000), *words[] = {text, NULL};
    memset(text, 'x', 299999);
    text[299999] = 0;
    answered(execv("/proc/self/exe", words));
}
static void execve_written(void)
{
    int file = open("script", O_CREAT | O_WRONLY | O_CLOEXEC, 0755);
    need(write(file, "#!/bin/sh\n", 10) == 10 && fchmod(file, 0755) == 0, "script");
    answered(execv(here("script"), none));
}
static void execveat_none(void)
{
    answered(syscall(SYS_execveat, -1, "", none, none, AT_EMPTY_PATH));
}
static void execveat_folder(void)
{
    answered(syscall(SYS_execveat, open(".", O_RDONLY), "", none, none, AT_EMPTY_PATH));
}
static void execveat_link(void)
{
    need(symlink("/bin/true", "link") == 0, "symlink");
    answered(syscall(SYS_execveat, AT_FDCWD, here("link"), none, none, AT_SYMLINK_NOFOLLOW));
}
static void execveat_flags(void)
{
    answered(syscall(SYS_execveat, AT_FDCWD, "/bin/true", none, none, 0x100000));
}

/* ---- maps: texts that the kernel refuses */

static void map_of(const char *name, const void *text, size_t length, int own)
{
    if (own)
        need(unshare(CLONE_NEWUSER) == 0, "unshare");
    char path[40];
    snprintf(path, sizeof path, "/proc/self/%s", name);
    ssize_t result = write(open(path, O_WRONLY), text, length);
    int reason = errno;
    if (showing)
        shown(result < 0, "the answer is %zd (%s)", result, strerrorname_np(reason));
    (void)!geteuid();
    usleep(1000);
}
static void map_of_all(void)
{
    map_of("uid_map", "0 0 1", 5, 0);
}
static void map_nowhere(void)
{
    map_of("uid_map", (void *)8, 5, 1);
}
static void map_empty(void)
{
    map_of("uid_map", "", 0, 1);
}
static void map_spaces(void)
{
    map_of("gid_map", "0\v0\f1\r", 6, 1);
}
static void map_octal(void)
{
    map_of("uid_map", "0 0 010", 7, 1);
}
static void map_hexadecimal(void)
{
    map_of("uid_map", "0x0 0 1", 7, 1);
}
/* Texts that the kernel takes, and reads otherwise than they look: what follows a zero byte is none of it, and numbers
   are cut to 32 bits. */
static void map_taken(const char *text, size_t length)
{
    unsigned inside, outside, count;
    need(unshare(CLONE_NEWUSER) == 0, "unshare");
    need(write(open("/proc/self/uid_map", O_WRONLY), text, length) == (ssize_t)length, "write");
    FILE *map = fopen("/proc/self/uid_map", "r");
    need(map && fscanf(map, "%u %u %u", &inside, &outside, &count) == 3, "map");
    if (showing)
        shown(inside == 0 && outside == 0 && count == 1, "the map is %u %u %u", inside, outside, count);
    hold();
}
static void map_zero_byte(void)
{
    map_taken("0 0 1\0002 2 2", 11);
}
static void map_too_large(void)
{
    map_taken("4294967296 0 1", 14);
}
static void word_unknown(void)
{
    map_of("setgroups", "denyx", 5, 1);
}
static void word_behind_line(void)
{
    map_of("setgroups", "\ndeny", 5, 1);
}

TRAPS({"clone3-pid", NULL, clone_pid_taken}, {"clone3-group", NULL, clone_no_group},
      {"clone3-long", NULL, clone_too_long}, {"setns-none", NULL, setns_none}, {"setns-own", NULL, setns_own},
      {"setns-dead", NULL, setns_dead}, {"unshare-unknown", NULL, unshare_unknown},
      {"capset-other", NULL, capset_other}, {"capset-version", NULL, capset_version},
      {"capset-past", NULL, capset_past}, {"securebits-unknown", NULL, securebits_unknown},
      {"privs-zero", NULL, privs_zero}, {"privs-words", NULL, privs_words}, {"ambient-words", NULL, ambient_words},
      {"ambient-unknown", NULL, ambient_unknown}, {"keepcaps-two", NULL, keepcaps_two},
      {"bounding-unknown", NULL, bounding_unknown}, {"bounding-minus", NULL, bounding_minus},
      {"groups-nowhere", NULL, groups_nowhere}, {"groups-many", NULL, groups_too_many},
      {"getgroups-zero", NULL, getgroups_zero}, {"execve-folder", NULL, execve_folder},
      {"execve-nothing", NULL, execve_nothing}, {"execve-no-bit", NULL, execve_no_bit},
      {"execve-device", NULL, execve_device}, {"execve-below", NULL, execve_below_file},
      {"execve-long", NULL, execve_too_long}, {"execve-written", NULL, execve_written},
      {"execveat-none", NULL, execveat_none}, {"execveat-folder", NULL, execveat_folder},
      {"execveat-link", NULL, execveat_link}, {"execveat-flags", NULL, execveat_flags}, {"map-all", NULL, map_of_all},
      {"map-nowhere", NULL, map_nowhere}, {"map-empty", NULL, map_empty}, {"map-zero", NULL, map_zero_byte},
      {"map-spaces", NULL, map_spaces}, {"map-large", NULL, map_too_large}, {"map-octal", NULL, map_octal},
      {"map-hex", NULL, map_hexadecimal}, {"word-unknown", NULL, word_unknown},
      {"word-line", NULL, word_behind_line})
