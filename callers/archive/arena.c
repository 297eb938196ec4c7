/* The allocator of libsymdemangle_arena.a. It defines the three functions that the library calls for memory (heap.h) in the place
   of those over malloc: what they give out lies in the block that the thread lent (symdemangle_arena.h).

   Blocks are one after the other, each after a head. A block that is given back makes room as soon as all blocks after it
   are given back; the library gives back everything by the end of a call, so between calls the block is empty. What is
   given out is aligned to 16 bytes, as malloc's is, overlaps with nothing that is in use, and keeps its bytes when it
   grows. */
#include <stddef.h>
#include <stdint.h>
#include <string.h>

#include "heap.h"
#include "proved.h"
#include "symdemangle_arena.h"

/* The head of a block: where the head of the block before is, and whether this block was given back. */
struct head {
    size_t before, is_free;
};

enum { ALIGN = 16, HEAD = sizeof(struct head) };
_Static_assert(HEAD % ALIGN == 0, "what follows a head is aligned");

/* `used` is where the next head goes, a multiple of 16; `last` is where the last head is, if `used` isn't 0. */
static _Thread_local symdemangle_arena here __attribute__((tls_model("initial-exec")));
static _Alignas(16) unsigned char nothing[ALIGN];

void symdemangle_arena_set(void *block, size_t size)
{
    size_t lost = (size_t)(-(uintptr_t)block % ALIGN);
    int some = block && size > lost;
    here.base = some ? (unsigned char *)block + lost : 0;
    here.size = some ? (size - lost) / ALIGN * ALIGN : 0;
    here.used = here.last = here.most = 0;
}

void symdemangle_arena_swap(symdemangle_arena *with)
{
    symdemangle_arena was = here;
    here = *with;
    *with = was;
}

size_t symdemangle_arena_most(void)
{
    return here.most;
}

/* The printer notes texts for speed, and goes on without notes where there is no room for them. So a block with room for notes may
   have no room for what is needed after them, though a smaller block has it; and nothing tells notes from memory that is needed. A
   call that prints and found no room is therefore made again as if the block were smaller, by just so much that what reached
   furthest has no room, until the call answers or takes nothing. A call with a size between two tries would do the same as one of
   them, so a larger block never refuses what a smaller one answers. */
void symdemangle_begin_of(struct symdemangle_tries *tries)
{
    tries->size = here.size;
    tries->most = here.most;
    here.most = 0;
}

int symdemangle_again_of(struct symdemangle_tries *tries, uint32_t status)
{
    size_t reached = here.most;
    if (tries->most < reached)
        tries->most = reached;
    if (status == SYMDEMANGLE_MEMORY && reached) {
        here.size = reached - ALIGN;
        here.most = 0;
        return 1;
    }
    here.size = tries->size;
    here.most = tries->most;
    return 0;
}

static struct head *head_at(size_t at)
{
    return (struct head *)(void *)(here.base + at);
}

/* Gives the block whose head is at `last`, after which nothing is in use, `size` bytes, if there is room. */
static int sets_size(size_t last, size_t size)
{
    size_t left = here.size - last;
    if (left < HEAD || size > left - HEAD)
        return 0;
    here.used = last + HEAD + (size + ALIGN - 1) / ALIGN * ALIGN;
    if (here.used > here.most)
        here.most = here.used;
    return 1;
}

struct tried rattle_alloc(size_t size, size_t align)
{
    size_t at = here.used;
    if (align > ALIGN || !sets_size(at, size))
        return (struct tried){0, nothing};
    *head_at(at) = (struct head){here.last, 0};
    here.last = at;
    return (struct tried){1, here.base + at + HEAD};
}

void rattle_dealloc(void *block)
{
    ((struct head *)block)[-1].is_free = 1;
    while (here.used && head_at(here.last)->is_free) {
        here.used = here.last;
        here.last = here.used ? head_at(here.last)->before : 0;
    }
}

struct tried rattle_realloc(void *block, size_t kept, size_t size, size_t align)
{
    if ((unsigned char *)block == here.base + here.last + HEAD)
        return sets_size(here.last, size) ? (struct tried){1, block} : (struct tried){0, nothing};
    struct tried more = rattle_alloc(size, align);
    if (more.ok) {
        memcpy(more.at, block, kept < size ? kept : size);
        rattle_dealloc(block);
    }
    return more;
}
