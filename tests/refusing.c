/* Stands before the allocator of the C library in a process that the script `refused` starts, and is no part of the
   program. The request of the number that HUB_REFUSE names, counted from 1, finds no memory; the file that HUB_REFUSED
   names is then made, so that the script sees that the request was reached. */
#include <errno.h>
#include <fcntl.h>
#include <stdatomic.h>
#include <stddef.h>
#include <stdlib.h>
#include <unistd.h>

void *__libc_malloc(size_t size);
void *__libc_calloc(size_t count, size_t size);
void *__libc_realloc(void *held, size_t size);
void *__libc_memalign(size_t alignment, size_t size);

static atomic_long requests;

static int is_refused(void) {
    const char *named = getenv("HUB_REFUSE");
    if (named == NULL || atomic_fetch_add(&requests, 1) + 1 != strtol(named, NULL, 10))
        return 0;
    const char *told = getenv("HUB_REFUSED");
    int file = told == NULL ? -1 : open(told, O_CREAT | O_WRONLY, 0600);
    if (file >= 0)
        close(file);
    errno = ENOMEM;
    return 1;
}

void *malloc(size_t size) { return is_refused() ? NULL : __libc_malloc(size); }

void *calloc(size_t count, size_t size) { return is_refused() ? NULL : __libc_calloc(count, size); }

void *realloc(void *held, size_t size) { return is_refused() ? NULL : __libc_realloc(held, size); }

void *aligned_alloc(size_t alignment, size_t size) { return is_refused() ? NULL : __libc_memalign(alignment, size); }

void *memalign(size_t alignment, size_t size) { return is_refused() ? NULL : __libc_memalign(alignment, size); }

int posix_memalign(void **held, size_t alignment, size_t size) {
    if (is_refused())
        return ENOMEM;
    *held = __libc_memalign(alignment, size);
    return *held == NULL ? ENOMEM : 0;
}
