/* Refuses requests for memory. Where REFUSE has a number, the request with this number is refused, counted from 1, or none for 0. A test
   asks for it itself: a request for ARM + n bytes is refused, and so is the nth request behind it; where LASTS is set, each later one too.
   A request for ASK bytes ends that, and is granted where one was refused, though with 16 bytes alone. A sweep of a test goes through
   n = 1, 2 and so on; where ALL has a number, the steps behind it go through each seventh request alone. Where COUNTED names a file, there is written at the end how many were asked for, where REFUSE is set, and of each
   sweep its runs, and in how many of them a request was refused. */
#define _GNU_SOURCE
#include <errno.h>
#include <stdio.h>
#include <stdlib.h>

#define ARM 0x300000000000UL
#define ASK 0x310000000000UL

extern void *__libc_malloc(size_t);
extern void *__libc_realloc(void *, size_t);
extern void *__libc_calloc(size_t, size_t);
extern void *__libc_memalign(size_t, size_t);

static unsigned long asked, left, last, all, sweeps, runs[100], refusals[100];
static int armed, came, lasts;

__attribute__((constructor)) static void start(void) {
    const char *number = getenv("REFUSE");
    armed = number != NULL;
    left = number ? strtoul(number, NULL, 10) : 0;
    lasts = getenv("LASTS") != NULL;
    all = getenv("ALL") ? strtoul(getenv("ALL"), NULL, 10) : 0;
    asked = 0;
}

__attribute__((destructor)) static void end(void) {
    const char *path = getenv("COUNTED");
    int is_counted = getenv("REFUSE") != NULL;
    unsigned long count = asked;
    /* a program that only starts the one that sweeps leaves the file to it */
    FILE *file = path && (is_counted || sweeps) ? fopen(path, "w") : NULL;
    if (file && is_counted)
        fprintf(file, "%lu\n", count);
    for (unsigned long k = 1; file && k <= sweeps; k++)
        fprintf(file, "%lu %lu\n", runs[k], refusals[k]);
    if (file)
        fclose(file);
}

static void arm(unsigned long n) {
    if (n == 1 && last != 1 && sweeps + 1 < sizeof runs / sizeof *runs)
        sweeps++;
    runs[sweeps] += n > 0;
    last = n;
    left = all && n > all ? all + 7 * (n - all) : n;
    armed = 1;
    came = 0;
}

/* Whether a request of this size is refused. */
static int is_refused(size_t size) {
    asked++;
    if (size >= ARM && size < ASK) {
        arm(size - ARM);
        return 1;
    }
    if (size == ASK) {
        armed = 0;
        refusals[sweeps] += came;
        return !came;
    }
    if (!armed || !((left && --left == 0) || (came && lasts)))
        return 0;
    came = 1;
    errno = ENOMEM;
    return 1;
}

static size_t granted(size_t size) { return size == ASK ? 16 : size; }

void *malloc(size_t size) { return is_refused(size) ? NULL : __libc_malloc(granted(size)); }
void *realloc(void *old, size_t size) { return is_refused(size) ? NULL : __libc_realloc(old, size); }
void *calloc(size_t count, size_t size) { return is_refused(count * size) ? NULL : __libc_calloc(count, size); }
void *aligned_alloc(size_t align, size_t size) { return is_refused(size) ? NULL : __libc_memalign(align, granted(size)); }

int posix_memalign(void **out, size_t align, size_t size) {
    if (is_refused(size))
        return ENOMEM;
    *out = __libc_memalign(align, granted(size));
    return *out ? 0 : ENOMEM;
}
