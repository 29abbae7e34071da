/* Takes the place of the C library's allocator, and refuses one request: the one with the number in REFUSE, counted from
   1; with REFUSE_REST all behind it too. The file in REFUSE_COUNT, of eight bytes, holds how many there were so far. */
#define _GNU_SOURCE
#include <errno.h>
#include <fcntl.h>
#include <stdatomic.h>
#include <stddef.h>
#include <stdlib.h>
#include <sys/mman.h>
#include <unistd.h>

extern void *__libc_malloc(size_t);
extern void *__libc_calloc(size_t, size_t);
extern void *__libc_realloc(void *, size_t);
extern void *__libc_memalign(size_t, size_t);

/* What is asked for before the start of the program isn't counted. */
static atomic_long before;
static atomic_long *requests = &before;
static long wanted;
static int rest;

__attribute__((constructor)) static void begin(void) {
    const char *number = getenv("REFUSE");
    const char *name = getenv("REFUSE_COUNT");
    int file = name ? open(name, O_RDWR | O_CLOEXEC) : -1;
    void *shared = file < 0 ? MAP_FAILED : mmap(NULL, 8, PROT_READ | PROT_WRITE, MAP_SHARED, file, 0);
    if (shared == MAP_FAILED)
        return;
    close(file);
    requests = shared;
    wanted = number ? atol(number) : 0;
    rest = wanted > 0 && getenv("REFUSE_REST") != NULL;
}

static int refused(void) {
    long number = atomic_fetch_add(requests, 1) + 1;
    if (number != wanted && !(rest && number > wanted))
        return 0;
    errno = ENOMEM;
    return 1;
}

void *malloc(size_t size) { return refused() ? NULL : __libc_malloc(size); }

void *calloc(size_t count, size_t size) { return refused() ? NULL : __libc_calloc(count, size); }

void *realloc(void *old, size_t size) { return refused() ? NULL : __libc_realloc(old, size); }

void *memalign(size_t border, size_t size) { return refused() ? NULL : __libc_memalign(border, size); }

void *aligned_alloc(size_t border, size_t size) { return memalign(border, size); }

int posix_memalign(void **into, size_t border, size_t size) {
    void *got = memalign(border, size);
    if (got)
        *into = got;
    return got ? 0 : ENOMEM;
}
