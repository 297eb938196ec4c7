/* Tests that over each symbol of a file, and over hostile symbols, each call uses less of the stack than symdemangle.h says. A call
   runs in a thread whose stack was filled with one byte; the call used the places that have other bytes afterwards. What a thread uses
   that calls nothing is subtracted. */
#include "symdemangle.h"

#include <pthread.h>
#include <stdio.h>
#include <stdlib.h>
#include <string.h>

enum { STACK = 256 << 10, CAPACITY = 1 << 20, FILL = 0xA5, SAID = 16 << 10, CALLS = 8 };

static unsigned char stack[STACK] __attribute__((aligned(4096)));
static char buffer[CAPACITY];
static struct {
    const char *symbol;
    size_t length;
    uint32_t flags;
    int call;
} job;

static void *run(void *unused)
{
    symdemangle_result result;
    symdemangle_counts counts;
    symdemangle_tally tally;
    switch (job.call) {
    case 1: symdemangle_text(job.symbol, job.length, 1000000, job.flags, buffer, CAPACITY, &result); break;
    case 2: symdemangle_text(job.symbol, job.length, 1000000, job.flags | SYMDEMANGLE_BRIEF, buffer, CAPACITY, &result); break;
    case 3: symdemangle_texts(job.symbol, job.length, &job.length, 1, 1000000, job.flags, buffer, CAPACITY, &result); break;
    case 4: symdemangle_filter(job.symbol, job.length, 1000000, job.flags, buffer, CAPACITY, &tally, &result); break;
    case 5: symdemangle_count(job.symbol, job.length, job.flags, &counts, &result); break;
    case 6: symdemangle_press(job.symbol, job.length, 0, buffer, CAPACITY, &result); break;
    case 7: symdemangle_free(symdemangle_string(job.symbol, job.flags)); break;
    }
    return unused;
}

static size_t used(int call)
{
    pthread_t thread;
    pthread_attr_t attributes;
    size_t at = 0;
    job.call = call;
    memset(stack, FILL, STACK);
    if (pthread_attr_init(&attributes) || pthread_attr_setstack(&attributes, stack, STACK) ||
        pthread_create(&thread, &attributes, run, 0) || pthread_join(thread, 0))
        exit(2);
    while (at < STACK && stack[at] == FILL)
        at++;
    return STACK - at;
}

static size_t most[CALLS], none;

/* A symbol that is also a C string. */
static void measure(const char *symbol, size_t length)
{
    int call;
    job.symbol = symbol;
    job.length = length;
    for (job.flags = 0; job.flags <= SYMDEMANGLE_WIDE; job.flags += SYMDEMANGLE_WIDE)
        for (call = 1; call < CALLS; call++) {
            size_t bytes = used(call);
            if (bytes > most[call])
                most[call] = bytes;
        }
}

/* A front, a part repeated, and an end. */
static void measure_repeated(const char *front, const char *part, size_t times, const char *end)
{
    size_t at = strlen(front), each = strlen(part), i;
    char *symbol = malloc(at + times * each + strlen(end) + 1);
    if (!symbol)
        exit(2);
    memcpy(symbol, front, at);
    for (i = 0; i < times; i++, at += each)
        memcpy(symbol + at, part, each);
    strcpy(symbol + at, end);
    measure(symbol, strlen(symbol));
    free(symbol);
}

int main(int words, char **files)
{
    static const char *const names[CALLS] = {"", "text", "brief text", "texts", "filter", "count", "press", "string"};
    char line[1 << 16];
    int call, failed = 0;
    none = used(0);
    for (; words > 1; words--) {
        FILE *file = fopen(files[words - 1], "r");
        if (!file)
            return 2;
        while (fgets(line, sizeof line, file)) {
            line[strcspn(line, "\n")] = 0;
            measure(line, strlen(line));
        }
        fclose(file);
    }
    measure_repeated("_Z1f", "P", 60000, "i");
    measure_repeated("_Z1f", "1AI", 20000, "i");
    measure_repeated("_Z1fN", "1A", 30000, "E");
    measure_repeated("_Z1f1AIiiE", "S_IS0_S0_E", 5000, "");
    measure_repeated("_RINvC1a1b", "R", 60000, "uE");
    measure_repeated("_R", "Nv", 30000, "C1a");
    measure_repeated("_RINvC1a1b", "T", 30000, "u");
    for (call = 1; call < CALLS; call++) {
        printf("%s %zu%s", names[call], most[call] - none, call < CALLS - 1 ? ", " : " bytes of stack at most\n");
        failed |= most[call] - none > SAID;
    }
    return failed;
}
