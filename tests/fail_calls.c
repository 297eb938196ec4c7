/* A library, to be preloaded, that makes the read or write fail whose number, counted from 1, is in FAIL. FAIL_HOW says how the call
   fails: `error` (EIO), `none` (a write takes no byte) or `short` (the call moves one byte). When the call fails, the library makes the
   file that FAIL_MARK names. */
#define _GNU_SOURCE
#include <dlfcn.h>
#include <errno.h>
#include <fcntl.h>
#include <stdlib.h>
#include <string.h>
#include <sys/types.h>
#include <unistd.h>

static long left = -1;

/* How the call has to fail, or 0 if it has to succeed. */
static char fails(int reads)
{
    if (left < 0) {
        const char *number = getenv("FAIL");
        left = number ? atol(number) : 0;
    }
    const char *which = getenv("FAIL_WHICH");
    if (which && reads != (strcmp(which, "read") == 0))
        return 0;
    if (left <= 0 || --left > 0)
        return 0;
    const char *mark = getenv("FAIL_MARK");
    if (mark) {
        int file = open(mark, O_CREAT | O_WRONLY, 0600);
        if (file >= 0)
            close(file);
    }
    const char *how = getenv("FAIL_HOW");
    return how ? how[0] : 'e';
}

ssize_t read(int file, void *room, size_t size)
{
    static ssize_t (*next)(int, void *, size_t);
    if (!next)
        next = (ssize_t(*)(int, void *, size_t))dlsym(RTLD_NEXT, "read");
    switch (fails(1)) {
    case 'e':
        errno = EIO;
        return -1;
    case 's':
        return next(file, room, size ? 1 : 0);
    default:
        return next(file, room, size);
    }
}

ssize_t write(int file, const void *bytes, size_t size)
{
    static ssize_t (*next)(int, const void *, size_t);
    if (!next)
        next = (ssize_t(*)(int, const void *, size_t))dlsym(RTLD_NEXT, "write");
    switch (fails(0)) {
    case 'e':
        errno = EIO;
        return -1;
    case 'n':
        return 0;
    case 's':
        return next(file, bytes, size ? 1 : 0);
    default:
        return next(file, bytes, size);
    }
}
