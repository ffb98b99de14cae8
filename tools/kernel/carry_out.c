// Has calls made by live processes, each in a credential that it is told, and tells what the kernel answers and what
// the processes then hold.
//
//   carry_out < ORDERS > ANSWERS
//
// To be run as root on a 64-bit x86 Linux, with all its capabilities effective and no securebits. It reads orders line
// by line and answers each by one line:
//
//   start FIELD ..          a process of root's goes into this credential; a FIELD is as in the first comment of
//                           record_set_ids.c, sets are cut to what root has here, and `deny=N,N`, last, has numbers of
//                           calls that a filter of the process answers by EPERM (seccomp(2)). Answer: what /proc shows
//                           of it, as FIELDs
//   call NAME ARGUMENT ..   the process makes this call. Answer: 0, or the number of the error
//   end                     the process ends. Answer: ended
//
// NAME is setuid, setreuid, setresuid, setgid, setregid, setresgid (ids, -1 for none), setgroups (ids), capset (three
// sets: effective, permitted, inheritable) or execve (a path). The process makes its calls by itself, in whatever
// program it runs: it is stopped at a call of its own, and this one traces it and puts the call in the place of that
// (ptrace(2)). After an execve it is stopped at the first call of the new program. A set-user-ID program keeps its
// effect, since the tracer has CAP_SYS_PTRACE. After each call the answer has the FIELDs too, behind the result.
#define _GNU_SOURCE
#include <stddef.h>
#include "credential.h"
#include <dlfcn.h>
#include <limits.h>
#include <linux/filter.h>
#include <linux/seccomp.h>
#include <signal.h>
#include <sys/mman.h>
#include <sys/ptrace.h>
#include <sys/user.h>

#define MOST_DENIED 64
#define MOST_WORDS 32
#define ROOM 65536
#define OWN_CALL 64     // bytes of the C library's syscall, at most
#define IP offsetof(struct seccomp_data, instruction_pointer)

static pid_t live;                  // the process, 0 where there is none
static unsigned long gate, room;    // in the process: the place of a syscall instruction, and memory that it can write

static void usage(const char *why)
{
    fprintf(stderr, "carry_out: %s\n", why);
    exit(2);
}

// ---- the process itself ---------------------------------------------------------------------------------------------

// A filter that answers EPERM to these calls, and lets all others through. It is installed as root, and must not stop
// the calls that lead into the credential: those are made in the C library's `syscall`, so calls made there pass.
static void deny(const unsigned *numbers, int count)
{
    uint64_t from = (uint64_t)dlsym(RTLD_DEFAULT, "syscall");
    struct sock_filter code[MOST_DENIED + 8];
    int at = 0;

    if (!count)
        return;
    must(from && from >> 32 == (from + OWN_CALL) >> 32, "the place of syscall");
    code[at++] = (struct sock_filter)BPF_STMT(BPF_LD | BPF_W | BPF_ABS, offsetof(struct seccomp_data, nr));
    for (int i = 0; i < count; i++)
        code[at++] = (struct sock_filter)BPF_JUMP(BPF_JMP | BPF_JEQ | BPF_K, numbers[i], (uint8_t)(count - i), 0);
    code[at++] = (struct sock_filter)BPF_STMT(BPF_RET | BPF_K, SECCOMP_RET_ALLOW);
    code[at++] = (struct sock_filter)BPF_STMT(BPF_LD | BPF_W | BPF_ABS, IP + 4);
    code[at++] = (struct sock_filter)BPF_JUMP(BPF_JMP | BPF_JEQ | BPF_K, (uint32_t)(from >> 32), 0, 4);
    code[at++] = (struct sock_filter)BPF_STMT(BPF_LD | BPF_W | BPF_ABS, IP);
    code[at++] = (struct sock_filter)BPF_JUMP(BPF_JMP | BPF_JGE | BPF_K, (uint32_t)from, 0, 2);
    code[at++] = (struct sock_filter)BPF_JUMP(BPF_JMP | BPF_JGT | BPF_K, (uint32_t)(from + OWN_CALL), 1, 0);
    code[at++] = (struct sock_filter)BPF_STMT(BPF_RET | BPF_K, SECCOMP_RET_ALLOW);
    code[at++] = (struct sock_filter)BPF_STMT(BPF_RET | BPF_K, SECCOMP_RET_ERRNO | EPERM);
    struct sock_fprog program = { (unsigned short)at, code };
    must(syscall(SYS_seccomp, SECCOMP_SET_MODE_FILTER, 0, &program) == 0, "seccomp");
}

static void be_told(const struct wanted *to, const unsigned *denied, int count)
{
    must(ptrace(PTRACE_TRACEME, 0, 0, 0) == 0, "PTRACE_TRACEME");
    must(prctl(PR_SET_PDEATHSIG, SIGKILL) == 0, "PR_SET_PDEATHSIG");
    deny(denied, count);
    go_into(to);
    raise(SIGSTOP);
    _exit(0);
}

// ---- the tracer -----------------------------------------------------------------------------------------------------

static int stopped_at(int wanted)
{
    int status;

    must(waitpid(live, &status, 0) == live, "waitpid");
    if (!WIFSTOPPED(status)) {
        live = 0;
        return 0;
    }
    return status >> 8 == wanted;
}

static void write_there(unsigned long to, const void *from, size_t length)
{
    char name[64];

    snprintf(name, sizeof name, "/proc/%d/mem", live);
    int file = open(name, O_WRONLY);
    must(file >= 0 && pwrite(file, from, length, (off_t)to) == (ssize_t)length, "writing to the process");
    close(file);
}

// Has the process make a call where it is stopped, and gives what it returns. The call is made by a step over a syscall
// instruction of its own; an execve that succeeds stops it at its event instead.
static long inject(long number, const unsigned long *arguments, int *executed)
{
    struct user_regs_struct regs;
    int status;

    must(ptrace(PTRACE_GETREGS, live, 0, &regs) == 0, "PTRACE_GETREGS");
    regs.rip = gate;
    regs.rax = (unsigned long)number;
    regs.orig_rax = (unsigned long)-1;
    regs.rdi = arguments[0], regs.rsi = arguments[1], regs.rdx = arguments[2];
    regs.r10 = arguments[3], regs.r8 = arguments[4], regs.r9 = arguments[5];
    must(ptrace(PTRACE_SETREGS, live, 0, &regs) == 0, "PTRACE_SETREGS");
    must(ptrace(PTRACE_SINGLESTEP, live, 0, 0) == 0, "PTRACE_SINGLESTEP");
    must(waitpid(live, &status, 0) == live && WIFSTOPPED(status), "a stop after a call");
    *executed = status >> 8 == (SIGTRAP | PTRACE_EVENT_EXEC << 8);
    if (*executed)
        return 0;
    must(WSTOPSIG(status) == SIGTRAP, "a step over a call");
    must(ptrace(PTRACE_GETREGS, live, 0, &regs) == 0, "PTRACE_GETREGS");
    return (long)regs.rax;
}

// The process is stopped at the entry of a call: it isn't made, and its instruction is where calls are made from now
// on.
static void settle(void)
{
    struct user_regs_struct regs;
    unsigned long none[6] = { 0, ROOM, PROT_READ | PROT_WRITE, MAP_PRIVATE | MAP_ANONYMOUS, (unsigned long)-1, 0 };
    int executed;

    must(ptrace(PTRACE_SYSCALL, live, 0, 0) == 0 && stopped_at(SIGTRAP | 0x80), "the first call of a program");
    must(ptrace(PTRACE_GETREGS, live, 0, &regs) == 0, "PTRACE_GETREGS");
    gate = regs.rip - 2;
    regs.orig_rax = (unsigned long)-1;
    must(ptrace(PTRACE_SETREGS, live, 0, &regs) == 0, "PTRACE_SETREGS");
    must(ptrace(PTRACE_SYSCALL, live, 0, 0) == 0 && stopped_at(SIGTRAP | 0x80), "the end of that call");
    long at = inject(SYS_mmap, none, &executed);
    must(at > 0, "mmap of the process");
    room = (unsigned long)at;
}

static void show(const char *before)
{
    struct seen seen;
    char line[4096], name[64];
    unsigned long none[6] = { PR_GET_SECUREBITS };
    int executed;
    long sec = inject(SYS_prctl, none, &executed);

    snprintf(name, sizeof name, "/proc/%d/status", live);
    look_at(name, (int)sec, &seen);
    int at = sprintf(line, "%s", before);
    at += put_fields(line + at, &seen, NULL);
    put_line(line, at);
}

// ---- orders ---------------------------------------------------------------------------------------------------------

static unsigned id_of(const char *text)
{
    char *end;
    unsigned long number = strtoul(text, &end, 10);

    if (!strcmp(text, "-1"))
        return NONE;
    if (!*text || *end || number > NONE)
        usage("no id");
    return (unsigned)number;
}

static int ids_of(char *text, unsigned *ids, int most)
{
    int count = 0;

    if (!strcmp(text, "-"))
        return 0;
    for (char *next = strtok(text, ","); next; next = strtok(NULL, ",")) {
        if (count == most)
            usage("too many ids");
        ids[count++] = id_of(next);
    }
    return count;
}

static uint64_t set_of(const char *text)
{
    return strtoull(text, NULL, 16);
}

static void take_field(struct wanted *to, unsigned *denied, int *count, char *word)
{
    char *text = strchr(word, '=');

    if (!text)
        usage("no field");
    *text++ = 0;
    if (!strcmp(word, "uid") || !strcmp(word, "gid")) {
        if (ids_of(text, *word == 'u' ? to->uids : to->gids, 4) != 4)
            usage("four ids are wanted");
    } else if (!strcmp(word, "groups")) {
        to->length = ids_of(text, to->groups, MOST_GROUPS);
    } else if (!strcmp(word, "deny")) {
        *count = ids_of(text, denied, MOST_DENIED);
    } else if (!strcmp(word, "sec") || !strcmp(word, "nnp")) {
        *(*word == 's' ? (int *)&to->sec : &to->nnp) = (int)strtoul(text, NULL, 16);
    } else {
        uint64_t *set = !strcmp(word, "inh") ? &to->inh : !strcmp(word, "prm") ? &to->prm
            : !strcmp(word, "eff") ? &to->eff : !strcmp(word, "bnd") ? &to->bnd
            : !strcmp(word, "amb") ? &to->amb : NULL;
        if (!set)
            usage("no such field");
        *set = set_of(text);
    }
}

static void end(void)
{
    if (live) {
        kill(live, SIGKILL);
        while (waitpid(live, NULL, 0) == live)
            ;
    }
    live = 0;
}

static void start(char **words, int count)
{
    struct wanted to;
    unsigned denied[MOST_DENIED];
    int most = 0;

    memset(&to, 0, sizeof to);
    for (int i = 1; i < count; i++)
        take_field(&to, denied, &most, words[i]);
    to.inh &= own, to.prm &= own, to.eff &= own, to.bnd &= own, to.amb &= own;
    end();
    live = fork();
    must(live >= 0, "fork");
    if (!live)
        be_told(&to, denied, most);
    must(stopped_at(SIGSTOP), "a process in its credential");
    must(ptrace(PTRACE_SETOPTIONS, live, 0, PTRACE_O_TRACESYSGOOD | PTRACE_O_TRACEEXEC | PTRACE_O_EXITKILL) == 0,
         "PTRACE_SETOPTIONS");
    settle();
    show("started");
}

static void call(char **words, int count)
{
    static const struct { const char *name; long number; int ids; } known[] = {
        { "setuid", SYS_setuid, 1 }, { "setreuid", SYS_setreuid, 2 }, { "setresuid", SYS_setresuid, 3 },
        { "setgid", SYS_setgid, 1 }, { "setregid", SYS_setregid, 2 }, { "setresgid", SYS_setresgid, 3 },
    };
    unsigned long arguments[6] = { 0 };
    unsigned groups[MOST_GROUPS];
    long number = -1;
    int executed = 0;
    char before[64];

    if (!live || count < 2)
        usage("no process, or no call");
    for (size_t i = 0; i < sizeof known / sizeof *known; i++) {
        if (!strcmp(words[1], known[i].name) && count == 2 + known[i].ids) {
            number = known[i].number;
            for (int k = 0; k < known[i].ids; k++)
                arguments[k] = id_of(words[2 + k]);
        }
    }
    if (!strcmp(words[1], "setgroups") && count - 2 <= MOST_GROUPS) {
        for (int i = 2; i < count; i++)
            groups[i - 2] = id_of(words[i]);
        write_there(room, groups, sizeof groups);
        number = SYS_setgroups, arguments[0] = (unsigned long)(count - 2), arguments[1] = room;
    } else if (!strcmp(words[1], "capset") && count == 5) {
        uint64_t eff = set_of(words[2]), prm = set_of(words[3]), inh = set_of(words[4]);
        struct { struct __user_cap_header_struct head; struct __user_cap_data_struct data[2]; } sets = {
            { _LINUX_CAPABILITY_VERSION_3, 0 },
            { { (uint32_t)eff, (uint32_t)prm, (uint32_t)inh }, { eff >> 32, prm >> 32, inh >> 32 } },
        };
        write_there(room, &sets, sizeof sets);
        number = SYS_capset, arguments[0] = room, arguments[1] = room + sizeof sets.head;
    } else if (!strcmp(words[1], "execve") && count == 3 && strlen(words[2]) < PATH_MAX) {
        unsigned long list[3] = { room + 64, 0, 0 };
        write_there(room, list, sizeof list);
        write_there(room + 64, words[2], strlen(words[2]) + 1);
        number = SYS_execve, arguments[0] = room + 64, arguments[1] = room, arguments[2] = room + 8;
    }
    if (number < 0)
        usage("no such call");
    long answer = inject(number, arguments, &executed);
    if (executed) {
        must(ptrace(PTRACE_SYSCALL, live, 0, 0) == 0 && stopped_at(SIGTRAP | 0x80), "the end of an execve");
        settle();
    }
    snprintf(before, sizeof before, "%ld", -answer);
    show(before);
}

int main(void)
{
    static char line[65536];

    start_as_root(CAP(SETUID) | CAP(SETGID) | CAP(SETPCAP) | CAP(SYS_PTRACE));
    while (fgets(line, sizeof line, stdin)) {
        char *words[MOST_WORDS];
        int count = 0;
        for (char *next = strtok(line, " \n"); next && count < MOST_WORDS; next = strtok(NULL, " \n"))
            words[count++] = next;
        if (count && !strcmp(words[0], "start"))
            start(words, count);
        else if (count && !strcmp(words[0], "call"))
            call(words, count);
        else if (count && !strcmp(words[0], "end")) {
            end();
            put_line(strcpy(line, "ended"), 5);
        } else
            usage("no order");
    }
    end();
    return 0;
}
