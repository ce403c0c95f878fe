// Allocation functions of which one call is refused: the REFUSE_FIRST-th, and with REFUSE_ALL each later one too.
// The file descriptor REFUSE_COUNT is a file of eight bytes, in which the calls are counted.
#include <errno.h>
#include <stdatomic.h>
#include <stdlib.h>
#include <sys/mman.h>

void *__libc_malloc(size_t);
void *__libc_calloc(size_t, size_t);
void *__libc_realloc(void *, size_t);
void *__libc_memalign(size_t, size_t);

static atomic_ulong unshared, *calls = &unshared;
static unsigned long first;
static int refuses_all;

__attribute__((constructor)) static void begin(void)
{
    const char *number = getenv("REFUSE_FIRST"), *file = getenv("REFUSE_COUNT");
    void *shared = mmap(NULL, sizeof *calls, PROT_READ | PROT_WRITE, MAP_SHARED, file ? atoi(file) : -1, 0);
    if (shared == MAP_FAILED)
        abort();
    calls = shared;
    first = number ? strtoul(number, NULL, 10) : 0;
    refuses_all = getenv("REFUSE_ALL") != NULL;
}

static int is_refused(void)
{
    unsigned long number = atomic_fetch_add(calls, 1) + 1;
    int refused = first != 0 && (number == first || (refuses_all && number > first));
    if (refused)
        errno = ENOMEM;
    return refused;
}

void *malloc(size_t size) { return is_refused() ? NULL : __libc_malloc(size); }
void *calloc(size_t count, size_t size) { return is_refused() ? NULL : __libc_calloc(count, size); }
void *realloc(void *old, size_t size) { return is_refused() ? NULL : __libc_realloc(old, size); }
void *memalign(size_t align, size_t size) { return is_refused() ? NULL : __libc_memalign(align, size); }
void *aligned_alloc(size_t align, size_t size) { return memalign(align, size); }
int posix_memalign(void **into, size_t align, size_t size)
{
    *into = memalign(align, size);
    return *into ? 0 : ENOMEM;
}
