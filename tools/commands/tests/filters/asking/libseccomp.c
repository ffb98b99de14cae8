/* Writes filters of system calls as libseccomp makes them, a line each: a name, and the kernel's bytes in hexadecimal.
   data/libseccomp.txt has what version 2.5.4 wrote (cc libseccomp.c -lseccomp). Errors are 77 and 78, which no call of
   the kernel answers by itself here. */
#define _GNU_SOURCE
#include <errno.h>
#include <fcntl.h>
#include <sched.h>
#include <seccomp.h>
#include <stdio.h>
#include <stdlib.h>
#include <sys/mman.h>
#include <sys/prctl.h>
#include <unistd.h>

static void add(scmp_filter_ctx made, uint32_t action, const char *name)
{
	if (seccomp_rule_add(made, action, seccomp_syscall_resolve_name(name), 0))
		fprintf(stderr, "%s isn't taken\n", name);
}

static void add_where(scmp_filter_ctx made, uint32_t action, const char *name, struct scmp_arg_cmp where)
{
	if (seccomp_rule_add(made, action, seccomp_syscall_resolve_name(name), 1, where))
		fprintf(stderr, "%s isn't taken\n", name);
}

static scmp_filter_ctx begin(uint32_t action, int tree)
{
	scmp_filter_ctx made = seccomp_init(action);
	seccomp_arch_add(made, SCMP_ARCH_X86);
	seccomp_arch_add(made, SCMP_ARCH_X32);
	seccomp_attr_set(made, SCMP_FLTATR_CTL_OPTIMIZE, tree ? 2 : 1);
	return made;
}

static void write_out(scmp_filter_ctx made, const char *name)
{
	unsigned char bytes[8 * 4096];
	int handle = memfd_create(name, 0);
	ssize_t length;
	if (handle < 0 || seccomp_export_bpf(made, handle))
		exit(1);
	length = pread(handle, bytes, sizeof bytes, 0);
	printf("%s ", name);
	for (ssize_t at = 0; at < length; at++)
		printf("%02x", bytes[at]);
	printf("\n");
	close(handle);
	seccomp_release(made);
}

static void refusing(int tree)
{
	static const char *const names[] = { "setuid", "setreuid", "setresuid", "setgid", "setgroups", "setns", "mount", "umount2",
		"ptrace", "kexec_load", "bpf", "keyctl", "add_key", "request_key", "userfaultfd", "swapon", "reboot" };
	scmp_filter_ctx made = begin(SCMP_ACT_ALLOW, tree);
	for (size_t at = 0; at < sizeof names / sizeof *names; at++)
		add(made, SCMP_ACT_ERRNO(77), names[at]);
	add_where(made, SCMP_ACT_ERRNO(77), "unshare", SCMP_A0(SCMP_CMP_MASKED_EQ, CLONE_NEWUSER, CLONE_NEWUSER));
	add_where(made, SCMP_ACT_ERRNO(77), "clone", SCMP_A0(SCMP_CMP_MASKED_EQ, CLONE_NEWUSER, CLONE_NEWUSER));
	add(made, SCMP_ACT_ERRNO(78), "clone3");
	add_where(made, SCMP_ACT_ERRNO(77), "prctl", SCMP_A0(SCMP_CMP_EQ, PR_SET_SECUREBITS));
	add_where(made, SCMP_ACT_ERRNO(77), "prctl", SCMP_A0(SCMP_CMP_EQ, PR_CAPBSET_DROP));
	add_where(made, SCMP_ACT_ERRNO(78), "setfsuid", SCMP_A0(SCMP_CMP_GT, 1000));
	write_out(made, tree ? "refusing_by_tree" : "refusing");
}

static void letting(int tree)
{
	static const char *const names[] = { "read", "write", "close", "exit", "exit_group", "rt_sigreturn", "rt_sigaction",
		"getpid", "getppid", "gettid", "getuid", "geteuid", "brk", "mmap", "munmap", "futex", "openat", "execve", "fork",
		"vfork", "chdir", "dup", "dup2", "capget", "getgroups" };
	scmp_filter_ctx made = begin(SCMP_ACT_ERRNO(77), tree);
	for (size_t at = 0; at < sizeof names / sizeof *names; at++)
		add(made, SCMP_ACT_ALLOW, names[at]);
	add_where(made, SCMP_ACT_ALLOW, "prctl", SCMP_A0(SCMP_CMP_EQ, PR_SET_NO_NEW_PRIVS));
	add_where(made, SCMP_ACT_ALLOW, "clone", SCMP_A0(SCMP_CMP_MASKED_EQ, CLONE_NEWUSER, 0));
	add_where(made, SCMP_ACT_ALLOW, "setfsuid", SCMP_A0(SCMP_CMP_LE, 1000));
	add(made, SCMP_ACT_KILL_PROCESS, "ptrace");
	add(made, SCMP_ACT_TRAP, "chroot");
	add(made, SCMP_ACT_ERRNO(0), "setgroups");
	write_out(made, tree ? "letting_by_tree" : "letting");
}

int main(void)
{
	refusing(0);
	refusing(1);
	letting(0);
	letting(1);
	return 0;
}
