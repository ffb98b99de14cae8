/* Preloaded before a program (LD_PRELOAD), it counts what is asked of the C library's allocator. It refuses all that comes
   after the number in the variable MOST, and the one of the number in the variable ONE, where these are set. When the
   program ends, it writes the count to standard error. */
#include <errno.h>
#include <stdio.h>
#include <stdlib.h>

extern void *__libc_malloc(size_t size);
extern void *__libc_calloc(size_t count, size_t size);
extern void *__libc_realloc(void *old, size_t size);
extern void *__libc_memalign(size_t alignment, size_t size);

static long asked;

static long number_of(const char *name, long otherwise)
{
    const char *given = getenv(name);

    return given ? atol(given) : otherwise;
}

static int is_refused(void)
{
    static long most = -1, one = -1;

    if (most < 0) {
        most = number_of("MOST", __LONG_MAX__);
        one = number_of("ONE", 0);
    }
    ++asked;
    return asked > most || asked == one;
}

void *malloc(size_t size)
{
    return is_refused() ? NULL : __libc_malloc(size);
}

void *calloc(size_t count, size_t size)
{
    return is_refused() ? NULL : __libc_calloc(count, size);
}

void *realloc(void *old, size_t size)
{
    return is_refused() ? NULL : __libc_realloc(old, size);
}

void *aligned_alloc(size_t alignment, size_t size)
{
    return is_refused() ? NULL : __libc_memalign(alignment, size);
}

int posix_memalign(void **made, size_t alignment, size_t size)
{
    *made = is_refused() ? NULL : __libc_memalign(alignment, size);
    return *made ? 0 : ENOMEM;
}

static void __attribute__((destructor)) tell(void)
{
    fprintf(stderr, "asked %ld\n", asked);
}
