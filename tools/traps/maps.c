/* Maps of a user namespace that are written by every spelling (user_namespaces(7), proc(5)). The danger: the write
   isn't in the log, so that ids have no meaning in the replay that they have for the kernel, or the recording stops at
   a program that did nothing odd. */
#include "trap.h"
#include <linux/openat2.h>
#include <pthread.h>
#include <sys/sendfile.h>
#include <sys/socket.h>
#include <sys/uio.h>

#define TEXT "0 0 1\n1000 1000 1\n"
#define LENGTH ((ssize_t)sizeof TEXT - 1)

static pid_t child;     /* it stands in a namespace without maps */

/* A child of user 1000 in a user namespace of its own. */
static void born(void)
{
    int told[2];
    char letter;
    need(pipe(told) == 0, "pipe");
    child = fork();
    if (child == 0) {
        drop(1000);
        need(unshare(CLONE_NEWUSER) == 0 && write(told[1], "x", 1) == 1, "unshare");
        hold();
    }
    need(read(told[0], &letter, 1) == 1, "read");
}

/* The path of the child's map, below a folder. */
static const char *map_below(const char *folder)
{
    static char path[PATH_MAX];
    snprintf(path, sizeof path, "%s/%d/uid_map", folder, child);
    return path;
}
static const char *map(void)
{
    return map_below("/proc");
}

/* What the kernel has for the map afterwards; then the parent drops too. */
static void written(int so)
{
    char lines[200];
    int file = open(map(), O_RDONLY);
    ssize_t length = file >= 0 ? read(file, lines, sizeof lines - 1) : 0;
    unsigned inside, outside, count;
    lines[length > 0 ? length : 0] = 0;
    if (showing)
        shown(so && sscanf(lines, "%u %u %u %u", &inside, &outside, &count, &count) == 4,
              "the namespace of process %d has its map", child);
    close(file);
    drop(1000);
    hold();
}
/* A call that the kernel refuses: no map comes of it, and none may be told. */
static void refused(ssize_t result, int reason)
{
    char lines[10];
    int file = open(map(), O_RDONLY);
    if (showing)
        shown(result < 0 && read(file, lines, sizeof lines) == 0, "the kernel refuses it (%s), and there is no map",
              strerror(reason));
    close(file);
    drop(1000);
    hold();
}
static void to_file(int file)
{
    int so = file >= 0 && write(file, TEXT, LENGTH) == LENGTH;
    if (file >= 0)
        close(file);
    written(so);
}

/* ---- other calls */

static void by_writev(void)
{
    struct iovec piece = {TEXT, LENGTH};
    born();
    written(writev(open(map(), O_WRONLY), &piece, 1) == LENGTH);
}
/* As the stdio of musl writes: a piece is empty. */
static void by_stdio(void)
{
    struct iovec pieces[] = {{TEXT, LENGTH}, {TEXT, 0}};
    born();
    written(writev(open(map(), O_WRONLY), pieces, 2) == LENGTH);
}
static void by_pwritev(void)
{
    struct iovec piece = {TEXT, LENGTH};
    born();
    int file = open(map(), O_WRONLY);
    written(pwritev(file, &piece, 1, 0) == LENGTH || write(file, TEXT, LENGTH) == LENGTH);
}
static void by_pwrite(void)
{
    born();
    ssize_t result = pwrite(open(map(), O_WRONLY), TEXT, LENGTH, 0);
    refused(result, errno);
}
static void by_openat2(void)
{
    struct open_how how = {.flags = O_WRONLY};
    born();
    to_file(syscall(SYS_openat2, AT_FDCWD, map(), &how, sizeof how));
}
static void by_creat(void)
{
    born();
    to_file(creat(map(), 0644));
}
static void by_sendfile(void)
{
    int text = open(".", O_TMPFILE | O_RDWR, 0600);
    born();
    need(write(text, TEXT, LENGTH) == LENGTH, "write");
    lseek(text, 0, SEEK_SET);
    ssize_t result = sendfile(open(map(), O_WRONLY), text, 0, LENGTH);
    refused(result, errno);
}
static void by_splice(void)
{
    int ends[2];
    born();
    need(pipe(ends) == 0 && write(ends[1], TEXT, LENGTH) == LENGTH, "pipe");
    ssize_t result = splice(ends[0], NULL, open(map(), O_WRONLY), NULL, LENGTH, 0);
    refused(result, errno);
}

/* ---- other paths */

static void by_folder(void)
{
    char path[60];
    born();
    snprintf(path, sizeof path, "/proc/%d", child);
    to_file(openat(open(path, O_PATH), "uid_map", O_WRONLY));
}
static void by_dots(void)
{
    born();
    to_file(open(map_below("/proc/self/.."), O_WRONLY));
}
static void by_slashes(void)
{
    born();
    to_file(open(map_below("//proc/"), O_WRONLY));
}
static void by_link(void)
{
    born();
    need(symlink(map(), "link") == 0, "symlink");
    to_file(open("link", O_WRONLY));
}
static void by_task(void)
{
    char path[100];
    born();
    snprintf(path, sizeof path, "/proc/%d/task/%d/uid_map", child, child);
    to_file(open(path, O_WRONLY));
}
static void by_cwd(void)
{
    char path[60];
    born();
    snprintf(path, sizeof path, "/proc/%d", child);
    need(chdir(path) == 0, "chdir");
    to_file(open("uid_map", O_WRONLY));
}
static void by_chroot(void)
{
    int out = open("/", O_PATH);
    born();
    need(chroot("/proc") == 0 && chdir("/") == 0, "chroot");
    int file = open(map_below(""), O_WRONLY);
    need(fchdir(out) == 0 && chroot(".") == 0, "chroot back");
    to_file(file);
}
static void second(void)
{
    need(mkdir("proc", 0755) == 0 && mount("proc", "proc", "proc", 0, NULL) == 0, "mount");
}
static void by_mount(void)
{
    born();
    to_file(open(map_below("proc"), O_WRONLY));
}

/* ---- other descriptors, other writers */

static void by_copy(void)
{
    born();
    int file = open(map(), O_WRONLY), copy = dup(file);
    close(file);
    dup2(copy, 77);
    to_file(77);
}
static void by_message(void)
{
    int ends[2], number = -1;
    char room[CMSG_SPACE(sizeof number)], letter = 'x';
    struct iovec piece = {&letter, 1};
    struct msghdr message = {.msg_iov = &piece, .msg_iovlen = 1, .msg_control = room, .msg_controllen = sizeof room};
    born();
    need(socketpair(AF_UNIX, SOCK_DGRAM, 0, ends) == 0, "socketpair");
    pid_t other = fork();
    if (other == 0) {
        number = open(map(), O_WRONLY);
        memset(room, 0, sizeof room);
        struct cmsghdr *head = CMSG_FIRSTHDR(&message);
        head->cmsg_level = SOL_SOCKET;
        head->cmsg_type = SCM_RIGHTS;
        head->cmsg_len = CMSG_LEN(sizeof number);
        memcpy(CMSG_DATA(head), &number, sizeof number);
        need(sendmsg(ends[0], &message, 0) == 1, "sendmsg");
        _exit(0);
    }
    need(recvmsg(ends[1], &message, 0) == 1 && end_of(other) == 0, "recvmsg");
    memcpy(&number, CMSG_DATA(CMSG_FIRSTHDR(&message)), sizeof number);
    to_file(number);
}
static void *in_thread(void *nothing)
{
    int file = open(map(), O_WRONLY);
    need(write(file, TEXT, LENGTH) == LENGTH, "write");
    close(file);
    return nothing;
}
static void by_thread(void)
{
    pthread_t other;
    born();
    pthread_create(&other, NULL, in_thread, NULL);
    pthread_join(other, NULL);
    written(1);
}
static void by_shell(void)
{
    char command[PATH_MAX + 60];
    born();
    snprintf(command, sizeof command, "printf '0 0 1\\n1000 1000 1\\n' > %s", map());
    written(system(command) == 0);
}
/* The descriptor outlives an execve: tee(1) writes to it by its number. */
static void by_execve(void)
{
    char command[PATH_MAX + 60];
    born();
    int file = open(map(), O_WRONLY);
    snprintf(command, sizeof command, "printf '0 0 1\\n1000 1000 1\\n' >&%d", file);
    written(system(command) == 0);
}

/* ---- maps that are reached by mounts which go at once */

static void by_bind(void)
{
    born();
    put("bound", "", 0644);
    need(mount(map(), "bound", NULL, MS_BIND, NULL) == 0, "bind");
    int file = open("bound", O_WRONLY), so = write(file, TEXT, LENGTH) == LENGTH;
    close(file);
    need(umount("bound") == 0, "umount");
    written(so);
}
static void by_bound_folder(void)
{
    char path[60];
    born();
    snprintf(path, sizeof path, "/proc/%d", child);
    need(mkdir("bound", 0755) == 0 && mount(path, "bound", NULL, MS_BIND, NULL) == 0, "bind");
    int file = open("bound/uid_map", O_WRONLY), so = write(file, TEXT, LENGTH) == LENGTH;
    close(file);
    need(umount("bound") == 0, "umount");
    written(so);
}
static void by_tree(void)
{
    char path[60];
    born();
    int tree = syscall(428, AT_FDCWD, map(), 1 | O_CLOEXEC);        /* open_tree(2) */
    snprintf(path, sizeof path, "/proc/self/fd/%d", tree);
    to_file(open(path, O_WRONLY));
}
static void by_detached(void)
{
    born();
    own_mounts();
    need(mkdir("proc", 0755) == 0 && mount("proc", "proc", "proc", 0, NULL) == 0, "mount");
    int file = open(map_below("proc"), O_WRONLY);
    need(umount2("proc", MNT_DETACH) == 0, "umount2");
    to_file(file);
}
static void by_fsmount(void)
{
    char path[60];
    born();
    int made = syscall(430, "proc", 0);                             /* fsopen(2) */
    need(made >= 0 && syscall(431, made, 6, NULL, NULL, 0) == 0, "fsconfig");
    int mounted = syscall(432, made, 0, 0);                         /* fsmount(2) */
    snprintf(path, sizeof path, "%d/uid_map", child);
    to_file(openat(mounted, path, O_WRONLY));
}

TRAPS({"writev", NULL, by_writev}, {"stdio", NULL, by_stdio}, {"pwritev", NULL, by_pwritev},
      {"pwrite", NULL, by_pwrite}, {"openat2", NULL, by_openat2}, {"creat", NULL, by_creat},
      {"sendfile", NULL, by_sendfile}, {"splice", NULL, by_splice}, {"folder", NULL, by_folder},
      {"dots", NULL, by_dots},
      {"slashes", NULL, by_slashes}, {"link", NULL, by_link}, {"task", NULL, by_task}, {"cwd", NULL, by_cwd},
      {"chroot", NULL, by_chroot}, {"mount", second, by_mount}, {"copy", NULL, by_copy}, {"message", NULL, by_message},
      {"thread", NULL, by_thread}, {"shell", NULL, by_shell}, {"execve", NULL, by_execve}, {"bind", NULL, by_bind},
      {"bind-folder", NULL, by_bound_folder}, {"tree", NULL, by_tree}, {"detached", NULL, by_detached},
      {"fsmount", NULL, by_fsmount})
