// Refuses memory: loaded before the C library (LD_PRELOAD), it counts the calls for memory that a program makes from its
// start on and refuses those with the numbers REFUSE_FROM to REFUSE_TO. At the end it writes their count to the file
// REFUSE_COUNT.
#include <errno.h>
#include <fcntl.h>
#include <stddef.h>
#include <stdio.h>
#include <stdlib.h>
#include <unistd.h>

// What malloc, calloc, realloc and memalign are in the GNU C library.
void *__libc_malloc(size_t);
void *__libc_calloc(size_t, size_t);
void *__libc_realloc(void *, size_t);
void *__libc_memalign(size_t, size_t);

static int counts;
static long calls, from, to;

static int refused(void)
{
    if (!counts || ++calls < from || calls > to)
        return 0;
    errno = ENOMEM;
    return 1;
}

void *malloc(size_t size) { return refused() ? NULL : __libc_malloc(size); }
void *calloc(size_t count, size_t size) { return refused() ? NULL : __libc_calloc(count, size); }
void *realloc(void *old, size_t size) { return refused() ? NULL : __libc_realloc(old, size); }
void *memalign(size_t align, size_t size) { return refused() ? NULL : __libc_memalign(align, size); }
void *aligned_alloc(size_t align, size_t size) { return memalign(align, size); }

int posix_memalign(void **made, size_t align, size_t size)
{
    void *given = memalign(align, size);
    if (given)
        *made = given;
    return given ? 0 : ENOMEM;
}

static long number(const char *name)
{
    const char *text = getenv(name);
    return text ? atol(text) : 0;
}

__attribute__((constructor)) static void begin(void)
{
    from = number("REFUSE_FROM");
    to = number("REFUSE_TO");
    counts = 1;
}

__attribute__((destructor)) static void end(void)
{
    counts = 0;
    const char *path = getenv("REFUSE_COUNT");
    int file = path ? open(path, O_WRONLY | O_CREAT | O_TRUNC, 0600) : -1;
    if (file >= 0) {
        dprintf(file, "%ld", calls);
        close(file);
    }
}
