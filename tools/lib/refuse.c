/* Loaded before a program (LD_PRELOAD), refuses one of its requests for memory: the one of the number REFUSE, counted from 1.
   Where COUNT names a file of eight octets, it keeps the number of requests so far there. For tools/refusals alone; no proof speaks of
   it. */
#define _GNU_SOURCE
#include <errno.h>
#include <fcntl.h>
#include <stdatomic.h>
#include <stddef.h>
#include <stdlib.h>
#include <sys/mman.h>

extern void *__libc_malloc(size_t);
extern void *__libc_calloc(size_t, size_t);
extern void *__libc_realloc(void *, size_t);
extern void *__libc_memalign(size_t, size_t);

static _Atomic unsigned long own;
static _Atomic unsigned long *requests = &own;
static unsigned long refused;

__attribute__((constructor)) static void begin(void)
{
    const char *number = getenv("REFUSE"), *path = getenv("COUNT");
    int file = path ? open(path, O_RDWR) : -1;
    if (file >= 0) {
        void *map = mmap(NULL, sizeof *requests, PROT_READ | PROT_WRITE, MAP_SHARED, file, 0);
        if (map != MAP_FAILED)
            requests = map;
    }
    atomic_store(requests, 0);
    refused = number ? strtoul(number, NULL, 10) : 0;
}

static int is_refused(void)
{
    if (atomic_fetch_add(requests, 1) + 1 != refused)
        return 0;
    errno = ENOMEM;
    return 1;
}

void *malloc(size_t size) { return is_refused() ? NULL : __libc_malloc(size); }
void *calloc(size_t count, size_t size) { return is_refused() ? NULL : __libc_calloc(count, size); }
void *realloc(void *old, size_t size) { return is_refused() ? NULL : __libc_realloc(old, size); }
void *memalign(size_t align, size_t size) { return is_refused() ? NULL : __libc_memalign(align, size); }
void *aligned_alloc(size_t align, size_t size) { return is_refused() ? NULL : __libc_memalign(align, size); }

int posix_memalign(void **made, size_t align, size_t size)
{
    void *found = is_refused() ? NULL : __libc_memalign(align, size);
    if (!found)
        return ENOMEM;
    *made = found;
    return 0;
}
