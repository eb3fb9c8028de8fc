/* Stands before the allocator of the C library: the request whose number REFUSE tells is refused, the others are passed
   on. Requests are counted from 1. With the library of GNU. */
#include <errno.h>
#include <stdlib.h>

void *__libc_malloc(size_t size);
void *__libc_calloc(size_t count, size_t size);
void *__libc_realloc(void *piece, size_t size);
void *__libc_memalign(size_t alignment, size_t size);

static int refuses(void)
{
    static long refused = -1, requests = 0;
    if (refused < 0) {
        const char *number = getenv("REFUSE");
        refused = number ? atol(number) : 0;
    }
    requests++;
    if (requests != refused)
        return 0;
    errno = ENOMEM;
    return 1;
}

void *malloc(size_t size) { return refuses() ? NULL : __libc_malloc(size); }

void *calloc(size_t count, size_t size) { return refuses() ? NULL : __libc_calloc(count, size); }

void *realloc(void *piece, size_t size) { return refuses() ? NULL : __libc_realloc(piece, size); }

void *aligned_alloc(size_t alignment, size_t size) { return refuses() ? NULL : __libc_memalign(alignment, size); }

int posix_memalign(void **piece, size_t alignment, size_t size)
{
    if (refuses())
        return ENOMEM;
    *piece = __libc_memalign(alignment, size);
    return *piece ? 0 : ENOMEM;
}
