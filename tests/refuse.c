/* Refuses one growth of a program: the one whose number is in REFUSE, counted from 1; none if it is 0. If REFUSE_COUNT is the number of an
   open file, the count of all growths is written to it at the end. It overrides the C library's own functions (LD_PRELOAD), and so
   depends on glibc. */
#include <errno.h>
#include <stdio.h>
#include <stdlib.h>
#include <unistd.h>

void *__libc_malloc(size_t);
void *__libc_calloc(size_t, size_t);
void *__libc_realloc(void *, size_t);
void *__libc_memalign(size_t, size_t);

static long refused, met;

__attribute__((constructor)) static void begin(void) {
    const char *number = getenv("REFUSE");
    refused = number ? atol(number) : 0;
    met = 0;
}

__attribute__((destructor)) static void end(void) {
    const char *file = getenv("REFUSE_COUNT");
    if (file)
        dprintf(atoi(file), "%ld\n", met);
}

static int is_refused(void) {
    if (++met != refused)
        return 0;
    errno = ENOMEM;
    return 1;
}

void *malloc(size_t size) { return is_refused() ? NULL : __libc_malloc(size); }

void *calloc(size_t count, size_t size) { return is_refused() ? NULL : __libc_calloc(count, size); }

void *realloc(void *old, size_t size) { return is_refused() ? NULL : __libc_realloc(old, size); }

void *aligned_alloc(size_t grain, size_t size) { return is_refused() ? NULL : __libc_memalign(grain, size); }

int posix_memalign(void **place, size_t grain, size_t size) {
    *place = is_refused() ? NULL : __libc_memalign(grain, size);
    return *place ? 0 : ENOMEM;
}
