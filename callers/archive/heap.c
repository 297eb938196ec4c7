/* The library's memory, over malloc, realloc and free, or those that SYMDEMANGLE_MALLOC, _REALLOC and _FREE name.

   The lists of a call begin small and grow some ten times, which would take a seventh of what pressing a symbol takes. So each block
   has at least 512 bytes, so that a short list grows in place; up to 1,024 bytes a list moves to a new block by a copy, which takes less
   than half the instructions of glibc's realloc. A sanitizer sees blocks of exactly the requested size. */
#include <stddef.h>
#include <string.h>

#include "heap.h"

#ifndef SYMDEMANGLE_MALLOC
#include <stdlib.h>
#define SYMDEMANGLE_MALLOC malloc
#define SYMDEMANGLE_REALLOC realloc
#define SYMDEMANGLE_FREE free
#endif

#if defined __has_feature
#if __has_feature(address_sanitizer)
#define SYMDEMANGLE_LEAST 1
#endif
#elif defined __SANITIZE_ADDRESS__
#define SYMDEMANGLE_LEAST 1
#endif
#ifndef SYMDEMANGLE_LEAST
#define SYMDEMANGLE_LEAST 512
#endif

enum { LEAST = SYMDEMANGLE_LEAST, SMALL = 1024 };

/* memcpy as a call: gcc, which knows that there are few words, would copy them in a loop, one by one. */
static void *(*volatile const copied)(void *, const void *, size_t) = memcpy;

static struct tried tried_at(void *block)
{
    static long double nothing; /* aligned as what malloc gives */
    struct tried answer;
    answer.ok = block != 0;
    answer.at = block ? block : &nothing;
    return answer;
}

struct tried rattle_alloc(size_t size, size_t align)
{
    (void)align;
    return tried_at(SYMDEMANGLE_MALLOC(size < LEAST ? LEAST : size));
}

struct tried rattle_realloc(void *block, size_t kept, size_t size, size_t align)
{
    void *more;
    (void)align;
    if (size <= LEAST)
        return tried_at(block);
    if (kept > SMALL)
        return tried_at(SYMDEMANGLE_REALLOC(block, size));
    more = SYMDEMANGLE_MALLOC(size);
    if (more) {
        copied(more, block, kept < size ? kept : size);
        SYMDEMANGLE_FREE(block);
    }
    return tried_at(more);
}

void rattle_dealloc(void *block)
{
    SYMDEMANGLE_FREE(block);
}
