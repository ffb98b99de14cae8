/* Set-user-ID programs that come between a scan and the drop (chmod(2), chown(2), setxattr(2), rename(2), link(2),
   open(2)). The danger: the scan knows nothing of them, the family ran as root and made one, and afterwards who dropped
   rightly is root again by an execve. */
#include "trap.h"
#include <sys/mman.h>
#include <sys/xattr.h>

#ifndef SYS_fchmodat2
#define SYS_fchmodat2 452
#endif
#ifndef SYS_setxattrat
#define SYS_setxattrat 463
#endif

static void plain_file(void)
{
    tell_at("made", 0, 0, 0755);
}
static void hidden_file(void)
{
    need(mkdir("hidden", 0700) == 0, "mkdir");
    tell_at("hidden/made", 0, 0, 04755);
}

static void dropped(const char *name)
{
    drop(DROPPED);
    if (showing)
        shown_root_by(here(name));
    hold();
}

/* A copy that it makes itself, by chmod. */
static void made(void)
{
    tell_at("made", 0, 0, 0755);
    need(chmod("made", 04755) == 0, "chmod");
    dropped("made");
}

/* fchmod: through a descriptor that says nothing of the file's name. */
static void by_descriptor(void)
{
    int file = open("made", O_RDONLY | O_CLOEXEC);
    need(fchmod(file, 04755) == 0, "fchmod");
    close(file);
    dropped("made");
}

/* chmod of /proc/self/fd/N, of a descriptor that is a path alone (O_PATH). */
static void by_proc(void)
{
    char path[60];
    int file = open("made", O_PATH | O_CLOEXEC);
    snprintf(path, sizeof path, "/proc/self/fd/%d", file);
    need(chmod(path, 04755) == 0, "chmod");
    close(file);
    dropped("made");
}

/* fchmodat2, which came with Linux 6.6: a tracer may not know its name. */
static void by_new_call(void)
{
    int file = open("made", O_PATH | O_CLOEXEC);
    need(syscall(SYS_fchmodat2, file, "", 04755, AT_EMPTY_PATH) == 0, "fchmodat2");
    close(file);
    dropped("made");
}

/* A 32-bit call of a 64-bit program (int 0x80): chmod has the number 15 there. */
static void by_old_gate(void)
{
    char *path = mmap(NULL, 4096, PROT_READ | PROT_WRITE, MAP_PRIVATE | MAP_ANONYMOUS | MAP_32BIT, -1, 0);
    long result;
    need(path != MAP_FAILED, "mmap");
    strcpy(path, "made");
    __asm__ volatile("int $0x80"
                     : "=a"(result)
                     : "a"(15L), "b"(path), "c"(04755L)
                     : "memory", "r8", "r9", "r10", "r11");
    need(result == 0, "chmod");
    dropped("made");
}

/* The attribute security.capability: what follows from cap_setuid is root (capabilities(7)). */
static const struct vfs_cap_data setuid_attribute = {VFS_CAP_REVISION_2 | VFS_CAP_FLAGS_EFFECTIVE,
                                                     {{1 << CAP_SETUID, 0}, {0, 0}}};
static void dropped_with_attribute(void)
{
    drop(DROPPED);
    if (showing) {
        struct told found = told_by(here("made"));
        shown(found.ran && found.capabilities == 1 << CAP_SETUID, "capabilities %llx after an execve",
              found.capabilities);
    }
    hold();
}
static void by_attribute(void)
{
    int file = open("made", O_RDONLY | O_CLOEXEC);
    need(fsetxattr(file, "security.capability", &setuid_attribute, XATTR_CAPS_SZ_2, 0) == 0, "fsetxattr");
    close(file);
    dropped_with_attribute();
}

/* setxattrat, which came with Linux 6.13. */
static void by_new_attribute(void)
{
    struct {
        unsigned long long value;
        unsigned size, flags;
    } words = {(unsigned long)&setuid_attribute, XATTR_CAPS_SZ_2, 0};
    need(syscall(SYS_setxattrat, AT_FDCWD, "made", 0, "security.capability", &words, sizeof words) == 0, "setxattrat");
    dropped_with_attribute();
}

/* A program of root that nobody reached gets another name, over a plain file that the scan saw. */
static void renamed_over(void)
{
    need(rename("hidden/made", "made") == 0, "rename");
    dropped("made");
}
static void both_files(void)
{
    plain_file();
    hidden_file();
}

/* The same by a second name. */
static void linked(void)
{
    need(link("hidden/made", "made") == 0, "link");
    dropped("made");
}

/* A file without a name gets its bits, then its name: O_TMPFILE and linkat. */
static void named_late(void)
{
    char path[60];
    int file = open(".", O_TMPFILE | O_RDWR, 0700);
    need(file >= 0, "O_TMPFILE");
    copy_bytes(file);
    need(fchmod(file, 04755) == 0, "fchmod");
    snprintf(path, sizeof path, "/proc/self/fd/%d", file);
    need(linkat(AT_FDCWD, path, AT_FDCWD, "made", AT_SYMLINK_FOLLOW) == 0, "linkat");
    close(file);
    dropped("made");
}

/* The folder before it is opened for all: the program was there, and nobody could reach it. */
static void opened_folder(void)
{
    need(chmod("hidden", 0755) == 0, "chmod");
    dropped("hidden/made");
}

/* The program belongs to another user, whom the dropped one could become: its owner was changed. A change of the owner
   clears set-id bits, so the mode comes after it. */
static void other_owner(void)
{
    need(chown("made", 42, 42) == 0 && chmod("made", 06755) == 0, "chown");
    drop(DROPPED);
    if (showing) {
        struct told found = told_by(here("made"));
        shown(found.uid == 42 && found.gid == 42, "effective ids %u and %u after an execve", found.uid, found.gid);
    }
    hold();
}

/* A child did it and is gone: cp -p of a program (coreutils), which nobody here wrote. */
static void copied(void)
{
    need(system("cp -p hidden/made made") == 0, "cp");
    dropped("made");
}

/* A program that the scan saw is unlinked, and held open: by its descriptor it is executed all the same. */
static void deleted(void)
{
    int file = open("gone", O_RDONLY);
    need(unlink("gone") == 0, "unlink");
    drop(DROPPED);
    if (showing) {
        char path[60];
        snprintf(path, sizeof path, "/proc/self/fd/%d", file);
        shown_root_by(path);
    }
    hold();
}
static void make_gone(void)
{
    tell_at("gone", 0, 0, 04755);
}

TRAPS({"made", NULL, made}, {"descriptor", plain_file, by_descriptor}, {"proc", plain_file, by_proc},
      {"fchmodat2", plain_file, by_new_call}, {"int80", plain_file, by_old_gate},
      {"attribute", plain_file, by_attribute}, {"setxattrat", plain_file, by_new_attribute},
      {"renamed", both_files, renamed_over}, {"linked", hidden_file, linked}, {"unnamed", NULL, named_late},
      {"folder", hidden_file, opened_folder}, {"owner", plain_file, other_owner}, {"copied", hidden_file, copied},
      {"deleted", make_gone, deleted})
