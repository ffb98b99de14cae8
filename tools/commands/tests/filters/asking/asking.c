/* Asks the running kernel what filters of system calls do (x86-64, without root). Standard input has lines

     program HEX              a filter, as the kernel's bytes (struct sock_filter)
     call BITS NUMBER A0 .. A5    a call under that filter, by the entry of 64-bit or of 32-bit programs

   and for each call a line comes out: `returned N`, `trapped` (SECCOMP_RET_TRAP), `ended`, or `not installed`. Each call
   is made by a process of its own, which takes no_new_privs and then the filter. */
#include <signal.h>
#include <stdio.h>
#include <stdlib.h>
#include <string.h>
#include <sys/mman.h>
#include <sys/prctl.h>
#include <sys/syscall.h>
#include <sys/wait.h>
#include <unistd.h>
#include <linux/filter.h>
#include <linux/seccomp.h>

enum { MOST = 4096 };

struct told { volatile long returned; volatile int done, trapped, refused; };

static struct told *told;
static struct sock_filter filter[MOST];
static unsigned short length;

static void on_trap(int number) { (void)number; told->trapped = 1; }

static long call64(long number, const unsigned long *a)
{
	register unsigned long r10 __asm__("r10") = a[3];
	register unsigned long r8 __asm__("r8") = a[4];
	register unsigned long r9 __asm__("r9") = a[5];
	long answer;
	__asm__ volatile("syscall" : "=a"(answer) : "a"(number), "D"(a[0]), "S"(a[1]), "d"(a[2]), "r"(r10), "r"(r8), "r"(r9)
		: "rcx", "r11", "memory");
	return answer;
}

static long call32(long number, const unsigned long *a)
{
	int answer;
	__asm__ volatile("int $0x80" : "=a"(answer) : "a"((int)number), "b"((int)a[0]), "c"((int)a[1]), "d"((int)a[2]),
		"S"((int)a[3]), "D"((int)a[4]) : "r8", "r9", "r10", "r11", "memory");
	return answer;
}

static void asked(int bits, long number, const unsigned long *a)
{
	struct sock_fprog program = { length, filter };
	signal(SIGSYS, on_trap);
	if (prctl(PR_SET_NO_NEW_PRIVS, 1, 0, 0, 0) || syscall(SYS_seccomp, SECCOMP_SET_MODE_FILTER, 0, &program)) {
		told->refused = 1;
		_exit(0);
	}
	told->returned = bits == 64 ? call64(number, a) : call32(number, a);
	told->done = 1;
	_exit(0);
}

static void ask(int bits, long number, const unsigned long *a)
{
	memset((void *)told, 0, sizeof *told);
	pid_t child = fork();
	if (child == 0)
		asked(bits, number, a);
	waitpid(child, NULL, 0);
	if (told->refused)
		puts("not installed");
	else if (told->trapped)
		puts("trapped");
	else if (!told->done)
		puts("ended");
	else
		printf("returned %ld\n", told->returned);
}

static void take(const char *hex)
{
	unsigned char *bytes = (unsigned char *)filter;
	size_t count = strlen(hex) / 2;
	for (size_t at = 0; at < count && at < sizeof filter; at++) {
		unsigned int byte;
		if (sscanf(hex + 2 * at, "%2x", &byte) != 1)
			exit(2);
		bytes[at] = (unsigned char)byte;
	}
	length = (unsigned short)(count / sizeof *filter);
}

int main(void)
{
	static char line[2 * sizeof filter + 64];
	told = mmap(NULL, sizeof *told, PROT_READ | PROT_WRITE, MAP_SHARED | MAP_ANONYMOUS, -1, 0);
	if (told == MAP_FAILED)
		return 1;
	setvbuf(stdout, NULL, _IOLBF, 0);
	while (fgets(line, sizeof line, stdin)) {
		int bits;
		long number;
		unsigned long a[6];
		line[strcspn(line, "\n")] = 0;
		if (strncmp(line, "program ", 8) == 0)
			take(line + 8);
		else if (sscanf(line, "call %d %ld %lu %lu %lu %lu %lu %lu", &bits, &number, a, a + 1, a + 2, a + 3, a + 4, a + 5) == 8)
			ask(bits, number, a);
		else
			return 2;
	}
	return 0;
}
