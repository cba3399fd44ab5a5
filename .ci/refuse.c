/* Loaded before the C library, it refuses one allocation: the one whose number, from 1 on, is in REFUSE.
   It says so on standard error. */
#include <errno.h>
#include <stdatomic.h>
#include <stdlib.h>
#include <unistd.h>

void *__libc_malloc(size_t), *__libc_calloc(size_t, size_t), *__libc_realloc(void *, size_t);
void *__libc_memalign(size_t, size_t);

static int is_refused(void) {
    static atomic_long count;
    static const char said[] = "refused an allocation\n";
    const char *number = getenv("REFUSE");
    if (++count != (number ? atol(number) : 0))
        return 0;
    if (write(2, said, sizeof said - 1) < 0)
        _exit(125);
    errno = ENOMEM;
    return 1;
}

void *malloc(size_t size) { return is_refused() ? NULL : __libc_malloc(size); }

void *calloc(size_t many, size_t size) { return is_refused() ? NULL : __libc_calloc(many, size); }

void *realloc(void *old, size_t size) { return is_refused() ? NULL : __libc_realloc(old, size); }

void *aligned_alloc(size_t alignment, size_t size) { return is_refused() ? NULL : __libc_memalign(alignment, size); }
