/* Refuses one allocation of a program: the one whose number, counted from 1, stands in the variable REFUSE. It is put before
   the C library's allocator by LD_PRELOAD, and where that allocation comes it makes the file that REFUSE_TOLD names.
   The programs of the toolchain take memory by malloc and realloc; the C library itself, for a thread, by calloc. */
#include <errno.h>
#include <fcntl.h>
#include <stdatomic.h>
#include <stdlib.h>
#include <unistd.h>

extern void *__libc_malloc(size_t size);
extern void *__libc_calloc(size_t count, size_t size);
extern void *__libc_realloc(void *block, size_t size);

static atomic_ulong left; /* how many allocations there are up to that one */
static const char *told;

__attribute__((constructor)) static void start(void) {
    const char *number = getenv("REFUSE");
    told = getenv("REFUSE_TOLD");
    left = number ? strtoul(number, 0, 10) : 0;
}

static int is_refused(void) {
    if (atomic_load(&left) == 0 || atomic_fetch_sub(&left, 1) != 1) return 0;
    if (told) close(open(told, O_CREAT | O_WRONLY, 0600));
    errno = ENOMEM; /* the C library relies on it */
    return 1;
}

void *malloc(size_t size) { return is_refused() ? 0 : __libc_malloc(size); }
void *calloc(size_t count, size_t size) { return is_refused() ? 0 : __libc_calloc(count, size); }
void *realloc(void *block, size_t size) { return is_refused() ? 0 : __libc_realloc(block, size); }
