/* With libsymdemangle_arena.a in the place of libsymdemangle.a: the calls of symdemangle.h take their memory from a block that
   the caller lends, and call no malloc, no system call and no lock. So they may run in a signal handler, for crash reporters,
   and in the forked child of a process that has threads.

   - Each thread lends its own block, with symdemangle_arena_set. Where none is lent, or what a call needs has no room in it, the
     call answers SYMDEMANGLE_MEMORY as it does where malloc refuses: nothing else happens, and the buffer stays as it is.
   - A larger block never refuses a name or a text that a smaller one answers. Printing takes some memory for speed alone, so before they
     answer SYMDEMANGLE_MEMORY symdemangle_text and symdemangle_filter try again with less and less of the block; such an answer takes
     up to three times as long as one try, and over a hundred times for a text of thousands of words that were made so that each takes a
     little more than the one before. Neither holds for symdemangle_texts, which keeps what it took for earlier names.
   - A call gives back all that it takes, so the block is empty again after it and serves the next call. symdemangle_string and
     symdemangle_free, whose string would outlive the call, aren't in this library.
   - A handler that may interrupt a call of its thread swaps a block of its own in, and back at its end:

         symdemangle_arena mine = {0, 0, 0, 0, 0};
         symdemangle_arena_swap(&mine);
         symdemangle_arena_set(block, sizeof block);
         ...
         symdemangle_arena_swap(&mine);

   - The library is linked statically into a program, or into a shared object that is loaded when the program starts: the
     thread's block is where a handler finds it without a call of the loader.

   How much symdemangle_text took at a limit of 1,000,000, for 20,000 real symbols of each language (tests/callers/arena.c):

       bytes of the block     median     90 %     99 %   99.9 %     most
       C++                       688    3,360   22,560   34,592   64,112   (a symbol of 555 bytes)
       Rust                    1,872    4,560   14,640   48,608   95,728   (946 bytes)

   So 16 KiB served 97 % and 99 % of them, 32 KiB all but 32 and 30, 64 KiB all but six, 128 KiB all. A hostile symbol may
   take more, and is refused then. symdemangle_filter and symdemangle_texts keep all their texts in the block too. On
   its stack a handler needs the kernel's frame (the system tells how much by getauxval(AT_MINSIGSTKSZ): 12 KB where the
   processor has AMX) and what a call uses, of which symdemangle.h tells: give 32 KiB. The old SIGSTKSZ of 8 KiB is too little.

   The library itself is proved. That the block is given out correctly is tested, not proved; likewise for malloc. */
#ifndef SYMDEMANGLE_ARENA_H
#define SYMDEMANGLE_ARENA_H

#include <stddef.h>

#ifdef __cplusplus
extern "C" {
#endif

/* A block, and what of it is in use. */
typedef struct {
    unsigned char *base;
    size_t size, used, most, last;
} symdemangle_arena;

/* From here on the calls of this thread take their memory from these bytes, which nobody else touches; with null or 0 bytes
   each answers SYMDEMANGLE_MEMORY. */
void symdemangle_arena_set(void *block, size_t size);

/* Swaps this thread's block, with what is in use of it, for another. */
void symdemangle_arena_swap(symdemangle_arena *with);

/* The most bytes that were in use since the block was set: what a call needed. */
size_t symdemangle_arena_most(void);

#ifdef __cplusplus
}
#endif
#endif
