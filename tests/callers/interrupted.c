/* Makes calls from the handler of a timer, in a block of its own, in the middle of the main program's calls. All answers have to be the
   same as without the timer. It prints a sum over all answers: interrupted FILE [TICKS]. */
#include "symdemangle.h"
#include "symdemangle_arena.h"

#include <signal.h>
#include <stdio.h>
#include <string.h>
#include <sys/time.h>

enum { SYMBOLS = 30000 };

static char all[16 << 20], buffer[1 << 16], other_buffer[1 << 16];
static unsigned char block[1 << 17], other_block[1 << 17];
static size_t starts[SYMBOLS + 1], count, next;
static volatile unsigned long ticks;
static volatile int wrong;

static uint32_t text_of(size_t i, char *into, size_t capacity, symdemangle_result *result)
{
    return symdemangle_text(all + starts[i], starts[i + 1] - starts[i] - 1, 10000, 0, into, capacity, result);
}

static void on_tick(int signal)
{
    symdemangle_result result;
    symdemangle_arena mine = {0, 0, 0, 0, 0};
    (void)signal;
    symdemangle_arena_swap(&mine);
    symdemangle_arena_set(other_block, sizeof other_block);
    if (text_of(next++ % count, other_buffer, sizeof other_buffer, &result) == SYMDEMANGLE_MEMORY)
        wrong = 1;
    ticks++;
    symdemangle_arena_swap(&mine);
}

int main(int words, char **word)
{
    FILE *file = words > 1 ? fopen(word[1], "rb") : NULL;
    size_t bytes = file ? fread(all, 1, sizeof all, file) : 0;
    for (size_t i = 0; i < bytes && count < SYMBOLS; i++)
        if (all[i] == '\n')
            starts[++count] = i + 1;
    if (!count)
        return 2;
    if (words > 2) {
        struct sigaction action = {.sa_handler = on_tick, .sa_flags = SA_RESTART};
        struct itimerval each = {{0, 50}, {0, 50}};
        sigaction(SIGALRM, &action, NULL);
        setitimer(ITIMER_REAL, &each, NULL);
    }
    unsigned long sum = 0;
    symdemangle_result result;
    symdemangle_arena_set(block, sizeof block);
    for (size_t done = 0; done < 20000; done++) {
        uint32_t status = text_of(done % count, buffer, sizeof buffer, &result);
        sum = sum * 31 + status;
        for (size_t j = 0; j < result.length && !status; j++)
            sum = sum * 31 + (unsigned char)buffer[j];
    }
    printf("%lx\n", sum);
    fprintf(stderr, "%lu calls from the handler\n", ticks);
    return wrong || (words > 2 && ticks < 10);
}
