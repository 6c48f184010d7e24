/* Refuses one call of the system's: the allocation, read or write of that number (FAIL_ALLOC, FAIL_READ, FAIL_WRITE); SHORT gives reads and
   writes at most so many bytes at a time; COUNT names a file that holds the numbers of allocations, reads and writes so far, three longs. */
#define _GNU_SOURCE
#include <dlfcn.h>
#include <errno.h>
#include <fcntl.h>
#include <stdatomic.h>
#include <stdlib.h>
#include <sys/mman.h>
#include <sys/types.h>
#include <unistd.h>

static atomic_long own[3];
static atomic_long *counts = own;
#define allocs (counts[0])
#define reads (counts[1])
#define writes (counts[2])
static long wanted(const char *name) { const char *it = getenv(name); return it ? atol(it) : 0; }
static long fail_alloc, fail_read, fail_write, most;
extern void *__libc_malloc(size_t), *__libc_calloc(size_t, size_t), *__libc_realloc(void *, size_t), *__libc_memalign(size_t, size_t);

__attribute__((constructor)) static void begin(void) {
    const char *name = getenv("COUNT");
    int to = name ? open(name, O_RDWR | O_CREAT | O_TRUNC, 0600) : -1;
    if (to >= 0 && ftruncate(to, sizeof own) == 0) {
        void *at = mmap(0, sizeof own, PROT_READ | PROT_WRITE, MAP_SHARED, to, 0);
        if (at != MAP_FAILED) counts = at;
    }
    fail_alloc = wanted("FAIL_ALLOC"); fail_read = wanted("FAIL_READ"); fail_write = wanted("FAIL_WRITE"); most = wanted("SHORT");
}
static int refused(void) { return atomic_fetch_add(&allocs, 1) + 1 == fail_alloc; }
void *malloc(size_t n) { if (refused()) { errno = ENOMEM; return 0; } return __libc_malloc(n); }
void *calloc(size_t k, size_t n) { if (refused()) { errno = ENOMEM; return 0; } return __libc_calloc(k, n); }
void *realloc(void *p, size_t n) { if (refused()) { errno = ENOMEM; return 0; } return __libc_realloc(p, n); }
void *aligned_alloc(size_t a, size_t n) { if (refused()) { errno = ENOMEM; return 0; } return __libc_memalign(a, n); }
int posix_memalign(void **p, size_t a, size_t n) { if (refused()) return ENOMEM; *p = __libc_memalign(a, n); return *p ? 0 : ENOMEM; }
static size_t some(size_t n) { return most > 0 && n > (size_t)most ? (size_t)most : n; }
ssize_t read(int fd, void *to, size_t n) {
    static ssize_t (*real)(int, void *, size_t);
    if (!real) real = dlsym(RTLD_NEXT, "read");
    if (atomic_fetch_add(&reads, 1) + 1 == fail_read) { errno = EIO; return -1; }
    return real(fd, to, some(n));
}
ssize_t write(int fd, const void *from, size_t n) {
    static ssize_t (*real)(int, const void *, size_t);
    if (!real) real = dlsym(RTLD_NEXT, "write");
    if (atomic_fetch_add(&writes, 1) + 1 == fail_write) { errno = EIO; return -1; }
    return real(fd, from, some(n));
}
