/* Makes calls in the handler of a fault, on an alternate stack, in a program whose malloc aborts; then calls with blocks that are too
   small. It prints the texts of the symbols, and says on standard error how much of the block they took. Compiled with -DUSUAL it
   makes the same calls over the usual library, without a handler and a block, so that both can be compared.

     arena FILE SIZE       the symbols of a file, one a line, in a block of SIZE bytes
     arena FILE            the same in 128 KiB, and then the calls in blocks of each size */
#include "symdemangle.h"
#ifndef USUAL
#include "symdemangle_arena.h"
#endif

#include <signal.h>
#include <stdio.h>
#include <stdlib.h>
#include <string.h>
#include <unistd.h>

enum { SYMBOLS = 300000, EDGE = 64, STACK = 64 << 10, SAID = 32 << 10, SMALL = 100000 };

static int armed, size_given;
static char buffer[1 << 20];
#ifndef USUAL
static uint8_t block[(4 << 20) + 2 * EDGE], stack[STACK];
#endif
static const char *symbols[SYMBOLS];
static size_t lengths[SYMBOLS], most[SYMBOLS], count, deepest, size;
static unsigned statuses[12];
static char *out;
static size_t written;

extern void *__libc_malloc(size_t);
extern void *__libc_calloc(size_t, size_t);
extern void *__libc_realloc(void *, size_t);
extern void __libc_free(void *);

#ifndef USUAL
static void is_allowed(void)
{
    if (armed)
        abort();
}
void *malloc(size_t bytes) { return is_allowed(), __libc_malloc(bytes); }
void *calloc(size_t n, size_t bytes) { return is_allowed(), __libc_calloc(n, bytes); }
void *realloc(void *old, size_t bytes) { return is_allowed(), __libc_realloc(old, bytes); }
void free(void *old) { is_allowed(), __libc_free(old); }
#endif

static void lend(size_t bytes)
{
#ifdef USUAL
    (void)bytes;
#else
    symdemangle_arena_set(block + EDGE, bytes);
#endif
}

static size_t taken(void)
{
#ifdef USUAL
    return 0;
#else
    return symdemangle_arena_most();
#endif
}

static void fail(const char *why)
{
    fprintf(stderr, "%s\n", why);
    _exit(1);
}

static void each_text(void)
{
    symdemangle_result result;
    for (size_t i = 0; i < count; i++) {
        lend(size);
        uint32_t status = symdemangle_text(symbols[i], lengths[i], 1000000, 0, buffer, sizeof buffer, &result);
        statuses[status]++;
        most[i] = taken();
        memcpy(out + written, buffer, result.length);
        written += result.length;
        out[written++] = '\n';
    }
}

#ifndef USUAL
/* Names whose texts are written while the names are read, and names that are read into rows and nodes first. */
static const struct name {
    const char *symbol;
    uint32_t limit, flags;
} names[] = {
    {"_ZN3foo3barEN3foo3bazEPNS_1AIiEE", 99, 0},
    {"_ZN3foo3barEN3foo3bazEPNS_1AIiEE", 99, SYMDEMANGLE_WIDE},
    {"_Z1fIiEvT_", 40, 0},
    {"_Z1fN2ns3BoxIiEENS0_IcEE", 99, SYMDEMANGLE_WIDE},
    {"_Z1fIJicEEvPFvDpT_E", 99, 0},
    {"_Z1fPFvPFvPFviEES1_EPFS3_S3_E", 1000, 0},
    {"_ZNSt6vectorIiSaIiEE9push_backERKi", 999, SYMDEMANGLE_BRIEF},
    {"_RNvXC3fooINtC3foo1AhENtC3foo1B3baz", 99, 0},
    {"_RINvC3foo3barThhETBb_Bb_ETBf_Bf_EE", 142, 0},
    {"_RINvC3foo3barFG_RL0_hEuE", 99, 0},
};
enum { NAMES = sizeof names / sizeof *names, CALLS = NAMES + 6 };

static uint32_t one_call(int call, symdemangle_result *result)
{
    static const char log[] = "at _Z1fv. (_RNvC3foo3bar) _ZN3foo3barEN3foo3bazEPNS_1AIiEE";
    static const size_t ends[] = {5, 18};
    static const char both[] = "_Z1fv_RNvC3foo3bar";
    static symdemangle_counts counts;
    static symdemangle_result told[2];
    const struct name *name = &names[call < NAMES ? call : 0];
    size_t length = strlen(name->symbol);
    if (call < NAMES)
        return symdemangle_text(name->symbol, length, name->limit, name->flags, buffer, sizeof buffer, result);
    switch (call - NAMES) {
    case 0: return symdemangle_filter(log, sizeof log - 1, 99, 0, buffer, sizeof buffer, NULL, result);
    case 1: return symdemangle_filter(log, sizeof log - 1, 99, SYMDEMANGLE_BRIEF, buffer, sizeof buffer, NULL, result);
    case 2: return symdemangle_press(name->symbol, length, 0, buffer, sizeof buffer, result);
    case 3: return symdemangle_press(name->symbol, length, SYMDEMANGLE_WIDE, buffer, sizeof buffer, result);
    case 4: return symdemangle_count(name->symbol, length, 0, &counts, result);
    default:
        result->length = 0;
        if (symdemangle_texts(both, sizeof both - 1, ends, 2, 99, 0, buffer, sizeof buffer, told))
            return 99;
        return told[0].status ? told[0].status : told[1].status;
    }
}

/* The calls of the header in a block of each size. Lack of memory has no other effect than status 5, and what a smaller block
   answers isn't refused in a larger one. */
static void small_blocks(void)
{
    for (int call = 0; call < CALLS; call++) {
        unsigned refused = 0, answered = 0;
        for (size_t bytes = 0; bytes < SMALL; bytes += bytes < 16384 ? 8 : 512) {
            symdemangle_result result = {7, 7, 7};
            memset(block, 0xA5, SMALL + 2 * EDGE);
            memset(buffer, '#', 200);
            lend(bytes);
            uint32_t status = one_call(call, &result);
            if (status == SYMDEMANGLE_MEMORY) {
                refused++;
                if ((call < CALLS - 1 && buffer[0] != '#') || result.length)
                    fail("a call without memory wrote");
                if (answered)
                    fail("a larger block was refused");
            } else if (status == SYMDEMANGLE_OK)
                answered++;
            else
                fail("another status than 0 or 5");
            if (taken() > bytes)
                fail("more was taken than lent");
            for (size_t i = 0; i < SMALL + 2 * EDGE; i++)
                if ((i < EDGE || i >= EDGE + bytes) && block[i] != 0xA5)
                    fail("bytes that weren't lent were written");
        }
        if (!refused || !answered)
            fail("a call was never refused, or always");
        lend(0);
        symdemangle_result result;
        if (one_call(call, &result) != SYMDEMANGLE_MEMORY)
            fail("a call without a block");
    }
}
#endif

static int by_size(const void *a, const void *b)
{
    size_t x = *(const size_t *)a, y = *(const size_t *)b;
    return (x > y) - (x < y);
}

static void finish(void)
{
    size_t greediest = 0;
    for (size_t i = 0; i < count; i++)
        if (most[i] > most[greediest])
            greediest = i;
    size_t longest = count ? lengths[greediest] : 0;
    qsort(most, count, sizeof *most, by_size);
    if (count)
        fprintf(stderr,
                "%zu symbols in %zu bytes: %u texts, %u refused, %u too long, %u without memory; median %zu, 90 %% %zu, "
                "99 %% %zu, 99.9 %% %zu, most %zu (a symbol of %zu); stack %zu\n",
                count, size, statuses[0], statuses[1] + statuses[2] + statuses[3], statuses[4], statuses[5], most[count / 2],
                most[count * 9 / 10], most[count * 99 / 100], most[count * 999 / 1000], most[count - 1], longest,
                deepest);
    fwrite(out, 1, written, stdout);
    fflush(stdout);
    _exit(0);
}

static void on_fault(int signal)
{
    (void)signal;
    each_text();
#ifndef USUAL
    if (!size_given)
        small_blocks();
    while (deepest < sizeof stack && stack[deepest] == 0xA5)
        deepest++;
    deepest = sizeof stack - deepest;
    if (deepest > SAID)
        fail("the handler uses more of its stack than the header says");
#endif
    armed = 0;
    finish();
}

int main(int words, char **word)
{
    static char all[64 << 20];
    FILE *file = words > 1 ? fopen(word[1], "rb") : NULL;
    if (!file)
        fail("usage: arena FILE [SIZE]");
    size_t bytes = fread(all, 1, sizeof all, file);
    for (size_t i = 0, start = 0; i < bytes && count < SYMBOLS; i++)
        if (all[i] == '\n') {
            symbols[count] = all + start;
            lengths[count++] = i - start;
            start = i + 1;
        }
    size_given = words > 2;
    size = size_given ? strtoul(word[2], NULL, 10) : 128 << 10;
    out = malloc((size_t)256 << 20);
    if (!out)
        fail("no room");
#ifdef USUAL
    on_fault(0);
#else
    if (size > sizeof block - 2 * EDGE)
        fail("no room");
    memset(stack, 0xA5, sizeof stack);
    stack_t alternate = {.ss_sp = stack, .ss_size = sizeof stack};
    sigaltstack(&alternate, NULL);
    struct sigaction action = {.sa_handler = on_fault, .sa_flags = SA_ONSTACK};
    sigaction(SIGSEGV, &action, NULL);
    armed = 1;
    *(volatile int *)0 = 1;
#endif
}
