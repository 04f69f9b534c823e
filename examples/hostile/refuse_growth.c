/* Refuses one growth: the allocation of the number in REFUSE, counted from 1, gets no memory, and the file named in
   REPORT is made. Preload it:

       cc -O2 -shared -fPIC -o refuse_growth.so refuse_growth.c
       REFUSE=5 REPORT=refused LD_PRELOAD=./refuse_growth.so casbench check history.ndjson
*/
#include <errno.h>
#include <fcntl.h>
#include <stdatomic.h>
#include <stddef.h>
#include <stdlib.h>
#include <unistd.h>

extern void *__libc_malloc(size_t size);
extern void *__libc_calloc(size_t count, size_t size);
extern void *__libc_realloc(void *old, size_t size);
extern void *__libc_memalign(size_t align, size_t size);

static atomic_ulong seen;
static unsigned long refused;
static const char *report;

__attribute__((constructor)) static void start(void) {
    const char *number = getenv("REFUSE");
    refused = number ? strtoul(number, NULL, 10) : 0;
    report = getenv("REPORT");
    atomic_store(&seen, 0);
}

/* Whether this allocation is the one. */
static int is_refused(void) {
    if (atomic_fetch_add(&seen, 1) + 1 != refused)
        return 0;
    if (report)
        close(open(report, O_WRONLY | O_CREAT, 0600));
    errno = ENOMEM;
    return 1;
}

void *malloc(size_t size) { return is_refused() ? NULL : __libc_malloc(size); }

void *calloc(size_t count, size_t size) { return is_refused() ? NULL : __libc_calloc(count, size); }

void *realloc(void *old, size_t size) { return is_refused() ? NULL : __libc_realloc(old, size); }

void *aligned_alloc(size_t align, size_t size) { return is_refused() ? NULL : __libc_memalign(align, size); }

int posix_memalign(void **out, size_t align, size_t size) {
    void *made = is_refused() ? NULL : __libc_memalign(align, size);
    if (!made)
        return ENOMEM;
    *out = made;
    return 0;
}
