/* The three functions that the proved library calls for memory. The archive has them over malloc (heap.c), or over a block that the
   thread lends (arena.c). `kept` is the size of the block that grows; a new block is aligned to 16 bytes, which is the most that
   `align` asks for. */
#include <stddef.h>

/* An answer: whether there was room, and where; never null. */
struct tried {
    size_t ok;
    void *at;
};

struct tried rattle_alloc(size_t size, size_t align);
struct tried rattle_realloc(void *block, size_t kept, size_t size, size_t align);
void rattle_dealloc(void *block);
