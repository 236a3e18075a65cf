/* Fails one call of the disk by a program, or ends the program before it: the call with the number in AT, counted from 1. MODE says
   how: `kill` ends the program before the call, `tear` half-way through a write, `once-` fails the call, and `on-` this one and all later
   ones, by the fault that follows, EIO or ENOSPC. Where COUNTED names a file, two numbers are written there at the end: the calls before
   the last text was printed, and all. */
#define _GNU_SOURCE
#include <dlfcn.h>
#include <errno.h>
#include <signal.h>
#include <stdio.h>
#include <stdlib.h>
#include <string.h>
#include <sys/types.h>
#include <unistd.h>

static unsigned long came, told, at;
static const char *mode = "";

__attribute__((constructor)) static void start(void) {
    at = getenv("AT") ? strtoul(getenv("AT"), NULL, 10) : 0;
    mode = getenv("MODE") ? getenv("MODE") : "";
}

__attribute__((destructor)) static void end(void) {
    const char *path = getenv("COUNTED");
    FILE *file = path ? fopen(path, "w") : NULL;
    if (file) {
        fprintf(file, "%lu %lu\n", told, came);
        fclose(file);
    }
}

/* Whether this call fails. */
static int fails(void) {
    came++;
    if (!at || came < at)
        return 0;
    if (came == at && !strcmp(mode, "kill"))
        kill(getpid(), SIGKILL);
    if (!strncmp(mode, "on-", 3) || (came == at && !strncmp(mode, "once-", 5))) {
        errno = strstr(mode, "ENOSPC") ? ENOSPC : EIO;
        return 1;
    }
    return 0;
}

#define REAL(name) static __typeof__(name) *real; if (!real) real = (__typeof__(name) *)dlsym(RTLD_NEXT, #name)

/* A call that does nothing where it fails. */
#define FAILING(type, name, params, args) \
    type name params {                    \
        REAL(name);                       \
        return fails() ? -1 : real args;  \
    }

FAILING(ssize_t, pread, (int file, void *buf, size_t len, off_t from), (file, buf, len, from))
FAILING(int, fsync, (int file), (file))
FAILING(int, fdatasync, (int file), (file))
FAILING(int, ftruncate, (int file, off_t len), (file, len))

ssize_t pwrite(int file, const void *buf, size_t len, off_t to) {
    REAL(pwrite);
    if (fails())
        return -1;
    if (came == at && !strcmp(mode, "tear")) {
        real(file, buf, len / 2, to);
        kill(getpid(), SIGKILL);
    }
    return real(file, buf, len, to);
}

ssize_t write(int file, const void *buf, size_t len) {
    REAL(write);
    if (file == 1 || file == 2)
        told = came;
    return real(file, buf, len);
}
