// Stands before the C library's `malloc` and `realloc` in a program that is started with LD_PRELOAD, counts their requests, and refuses one of
// them, or that one and all that come behind it.
// Its words are in the environment: REFUSE_AT has the number of the request, from 1, and 0 refuses none; REFUSE_ALL is set where those behind it
// are refused too; REFUSE_COUNT names a file of eight bytes, in which the number of requests is kept.
#include <errno.h>
#include <fcntl.h>
#include <stdatomic.h>
#include <stdlib.h>
#include <sys/mman.h>
#include <unistd.h>

extern void *__libc_malloc(size_t size);
extern void *__libc_realloc(void *old, size_t size);

static _Atomic long here;
static _Atomic long *requests = &here;
static long refused;
static int all;

__attribute__((constructor)) static void begin(void) {
    const char *at = getenv("REFUSE_AT"), *count = getenv("REFUSE_COUNT");
    int file = count ? open(count, O_RDWR) : -1;
    if (file >= 0) {
        void *kept = mmap(NULL, sizeof *requests, PROT_READ | PROT_WRITE, MAP_SHARED, file, 0);
        if (kept != MAP_FAILED) requests = kept;
        close(file);
    }
    all = getenv("REFUSE_ALL") != NULL;
    refused = at ? atol(at) : 0;
}

static int is_refused(void) {
    long number = atomic_fetch_add(requests, 1) + 1;
    if (!refused || number < refused || (number > refused && !all)) return 0;
    errno = ENOMEM;
    return 1;
}

void *malloc(size_t size) {
    return is_refused() ? NULL : __libc_malloc(size);
}

void *realloc(void *old, size_t size) {
    return is_refused() ? NULL : __libc_realloc(old, size);
}
