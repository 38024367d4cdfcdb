/* Counts a process's growths of memory and refuses one of them. REFUSE_AT is the number of that one, from 1, and
 * REFUSE_TELL a file descriptor, to which one byte is written when it comes. Loaded before the C library. */
#include <errno.h>
#include <stdatomic.h>
#include <stddef.h>
#include <stdlib.h>
#include <unistd.h>

extern void *__libc_malloc(size_t);
extern void *__libc_calloc(size_t, size_t);
extern void *__libc_realloc(void *, size_t);
extern void *__libc_memalign(size_t, size_t);

static atomic_long growths;
static long refused;
static int teller = -1;

__attribute__((constructor)) static void begin(void) {
    const char *at = getenv("REFUSE_AT"), *tell = getenv("REFUSE_TELL");
    atomic_store(&growths, 0);
    teller = tell ? atoi(tell) : -1;
    refused = at ? atol(at) : 0;
}

static int is_refused(void) {
    if (refused == 0 || atomic_fetch_add(&growths, 1) + 1 != refused)
        return 0;
    if (teller >= 0 && write(teller, "x", 1) != 1)
        _exit(125);
    errno = ENOMEM;
    return 1;
}

void *malloc(size_t size) { return is_refused() ? NULL : __libc_malloc(size); }

void *calloc(size_t count, size_t size) { return is_refused() ? NULL : __libc_calloc(count, size); }

void *realloc(void *block, size_t size) { return is_refused() ? NULL : __libc_realloc(block, size); }

void *memalign(size_t bound, size_t size) { return is_refused() ? NULL : __libc_memalign(bound, size); }

void *aligned_alloc(size_t bound, size_t size) { return is_refused() ? NULL : __libc_memalign(bound, size); }

int posix_memalign(void **block, size_t bound, size_t size) {
    void *new = is_refused() ? NULL : __libc_memalign(bound, size);
    if (new == NULL)
        return ENOMEM;
    *block = new;
    return 0;
}
