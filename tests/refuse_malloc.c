/* An allocator, to be preloaded, that refuses the call whose number, counted from 1, is in REFUSE. When it refuses the call, it makes
   the file that REFUSE_MARK names. */
#define _GNU_SOURCE
#include <dlfcn.h>
#include <fcntl.h>
#include <stdlib.h>
#include <unistd.h>

static long left = -1;

static int refused(void)
{
    if (left < 0) {
        const char *number = getenv("REFUSE");
        left = number ? atol(number) : 0;
    }
    if (left <= 0 || --left > 0)
        return 0;
    const char *mark = getenv("REFUSE_MARK");
    if (mark)
        close(creat(mark, 0600));
    return 1;
}

void *malloc(size_t size)
{
    static void *(*next)(size_t);
    if (!next)
        next = dlsym(RTLD_NEXT, "malloc");
    return refused() ? NULL : next(size);
}

void *realloc(void *old, size_t size)
{
    static void *(*next)(void *, size_t);
    if (!next)
        next = dlsym(RTLD_NEXT, "realloc");
    return refused() ? NULL : next(old, size);
}

int posix_memalign(void **where, size_t align, size_t size)
{
    static int (*next)(void **, size_t, size_t);
    if (!next)
        next = dlsym(RTLD_NEXT, "posix_memalign");
    return refused() ? 12 : next(where, align, size);
}

void *aligned_alloc(size_t align, size_t size)
{
    static void *(*next)(size_t, size_t);
    if (!next)
        next = dlsym(RTLD_NEXT, "aligned_alloc");
    return refused() ? NULL : next(align, size);
}
