/* Eight threads make the same calls at once, over the usual library or, with -DARENA, each in a block of its own. The sums of all
   threads have to be equal. threads FILE */
#include "symdemangle.h"
#ifdef ARENA
#include "symdemangle_arena.h"
#endif

#include <pthread.h>
#include <stdio.h>
#include <stdlib.h>
#include <string.h>

enum { SYMBOLS = 30000, THREADS = 8 };

static char all[16 << 20];
static size_t starts[SYMBOLS + 1], count;
static unsigned long sums[THREADS];

static void *calls(void *number)
{
    size_t capacity = 1 << 16;
    char *buffer = malloc(capacity);
    symdemangle_result result;
    unsigned long sum = 0;
#ifdef ARENA
    void *block = malloc(1 << 20);
    symdemangle_arena_set(block, 1 << 20);
#endif
    for (size_t i = 0; i < count && buffer; i++) {
        uint32_t status = symdemangle_text(all + starts[i], starts[i + 1] - starts[i] - 1, 10000, 0, buffer,
                                           capacity, &result);
        sum = sum * 31 + status;
        for (size_t j = 0; j < result.length && !status; j++)
            sum = sum * 31 + (unsigned char)buffer[j];
    }
    *(unsigned long *)number = sum;
    free(buffer);
#ifdef ARENA
    free(block);
#endif
    return NULL;
}

int main(int words, char **word)
{
    FILE *file = words > 1 ? fopen(word[1], "rb") : NULL;
    size_t bytes = file ? fread(all, 1, sizeof all, file) : 0;
    for (size_t i = 0; i < bytes && count < SYMBOLS; i++)
        if (all[i] == '\n')
            starts[++count] = i + 1;
    pthread_t threads[THREADS];
    for (size_t i = 0; i < THREADS; i++)
        if (pthread_create(threads + i, NULL, calls, sums + i))
            return 2;
    int same = 1;
    for (size_t i = 0; i < THREADS; i++) {
        pthread_join(threads[i], NULL);
        same &= sums[i] == sums[0] && sums[i] != 0;
    }
    printf("%lx\n", sums[0]);
    return !same;
}
