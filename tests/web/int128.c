/* Compares the products and shifts of web/module/int128.c with the compiler's own ones of 128 bits. */
#define __multi3 multi3
#define __ashlti3 ashlti3
#define __lshrti3 lshrti3
#include "../../web/module/int128.c"
#include <stdio.h>

static u64 next(u64 *state)
{
    *state = *state * 6364136223846793005u + 1442695040888963407u;
    u64 mixed = (*state ^ *state >> 29) * 0xbf58476d1ce4e5b9u;
    return mixed ^ mixed >> 32;
}

/* A number of any length, often with few bits or with many. */
static u128 number(u64 *state)
{
    u128 all = (u128)next(state) << 64 | next(state);
    unsigned shift = (unsigned)(next(state) % 128);
    switch (next(state) % 3) {
    case 0: return all >> shift;
    case 1: return ~(all >> shift);
    default: return (u128)1 << shift;
    }
}

int main(void)
{
    u64 state = 1;
    for (int i = 0; i < 1000000; i++) {
        u128 x = number(&state), y = number(&state);
        int count = (int)(next(&state) % 128);
        if (multi3(x, y) != x * y || ashlti3(x, count) != x << count || lshrti3(x, count) != x >> count) {
            printf("int128: wrong after %d numbers\n", i);
            return 1;
        }
    }
    puts("int128: ok");
    return 0;
}
