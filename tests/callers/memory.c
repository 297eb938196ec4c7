/* Measures how many bytes of memory calls hold at once, by a malloc of the test's own over the C library's; with -DARENA, how many
   bytes of a lent block they hold.

   A long name takes at most FOR_A_BYTE bytes for each of its bytes, and PRESSED where it is pressed. While a list grows, it is
   held beside the longer list to which it is copied, so a name of a few bytes more than a power of two takes most.

   symdemangle_filter holds the buffer's bytes and what one word needs, and not the text. The log has 1,000 times a symbol of 150
   bytes whose text has 524,228 bytes, and the buffer has 100 bytes. */
#include "symdemangle.h"
#ifdef ARENA
#include "symdemangle_arena.h"
#endif

#include <stdio.h>
#include <stdlib.h>
#include <string.h>

extern void *__libc_malloc(size_t size);
extern void *__libc_realloc(void *old, size_t size);
extern void __libc_free(void *old);

/* Before each block is its size. */
enum { HEAD = 16 };

static size_t held, most;

static void *sized(void *block, size_t size)
{
    if (!block)
        return NULL;
    memcpy(block, &size, sizeof size);
    held += size;
    if (held > most)
        most = held;
    return (char *)block + HEAD;
}

static size_t size_of(void *old)
{
    size_t size = 0;
    if (old)
        memcpy(&size, (char *)old - HEAD, sizeof size);
    return size;
}

void *malloc(size_t size)
{
    return sized(__libc_malloc(HEAD + size), size);
}

void free(void *old)
{
    if (!old)
        return;
    held -= size_of(old);
    __libc_free((char *)old - HEAD);
}

/* Both blocks are held while one is copied to the other. */
void *realloc(void *old, size_t size)
{
    size_t was = size_of(old);
    void *block = sized(__libc_realloc(old ? (char *)old - HEAD : NULL, HEAD + size), size);
    if (block)
        held -= was;
    return block;
}

#ifdef ARENA
static void begin(void)
{
    static char block[100 << 20];
    symdemangle_arena_set(block, sizeof block);
}

static size_t at_once(void)
{
    return symdemangle_arena_most();
}
#else
static size_t before;

static void begin(void)
{
    before = most = held;
}

static size_t at_once(void)
{
    return most - before;
}
#endif

/* The most bytes that calls hold for a byte of a name, which is read whole: a front, a part repeated to `length` bytes, and an end. */
static void measure(const char *front, const char *part, size_t length, const char *end, size_t for_a_byte[2])
{
    size_t at = strlen(front), each = strlen(part);
    char *name = malloc(length + each + strlen(end) + 1);
    symdemangle_result result;
    symdemangle_counts counts;
    if (!name)
        exit(2);
    memcpy(name, front, at);
    for (; at + strlen(end) < length; at += each)
        memcpy(name + at, part, each);
    strcpy(name + at, end);
    at += strlen(end);
    begin();
    symdemangle_text(name, at, SYMDEMANGLE_DEFAULT_LIMIT, SYMDEMANGLE_WIDE, NULL, 0, &result);
    /* (a name that is refused early would measure nothing) */
    if (symdemangle_count(name, at, 0, &counts, &result) != SYMDEMANGLE_OK)
        exit(2);
    if (at_once() / at >= for_a_byte[0])
        for_a_byte[0] = at_once() / at + 1;
    begin();
    symdemangle_press(name, at, 0, NULL, 0, &result);
    if (at_once() / at >= for_a_byte[1])
        for_a_byte[1] = at_once() / at + 1;
    free(name);
}

static int names_take_more(void)
{
    size_t length, for_a_byte[2] = {0, 0};
    for (length = 65600; length < 82000; length += 16000) {
        measure("_Z1f", "i", length, "", for_a_byte);
        measure("_Z1f", "P", length, "i", for_a_byte);
        measure("_Z1fIJ", "i", length, "EEvDpT_", for_a_byte);
        measure("_RINvC1a1b", "u", length, "E", for_a_byte);
    }
    printf("%zu bytes at once for a byte of a long name, %zu where it is pressed\n", for_a_byte[0], for_a_byte[1]);
    return for_a_byte[0] > FOR_A_BYTE || for_a_byte[1] > PRESSED;
}

#ifndef ARENA
enum { LINES = 1000, SYMBOL = 150, TEXT = 524228, CAPACITY = 100, MOST = 2000000 };

/* A function of A<int, int>, A<that, that>, A<that, that>, .. */
static size_t write_symbol(char *symbol)
{
    static const char digits[] = "0123456789ABCDEFGHIJKLMNOPQRSTUVWXYZ";
    size_t length = 10;
    int k;
    memcpy(symbol, "_Z1f1AIiiE", length);
    for (k = 0; k < 14; k++) {
        const char more[] = {'S', '_', 'I', 'S', digits[k], '_', 'S', digits[k], '_', 'E'};
        memcpy(symbol + length, more, sizeof more);
        length += sizeof more;
    }
    return length;
}

static int filter_takes_more(void)
{
    static char log[LINES * (SYMBOL + 1)], buffer[CAPACITY], untouched[CAPACITY];
    symdemangle_tally tally = {9, 9, 9};
    symdemangle_result result;
    uint32_t status, flags;
    int k, failed = 0;
    size_t length = write_symbol(log);
    if (length != SYMBOL)
        exit(2);
    log[SYMBOL] = '\n';
    for (k = 1; k < LINES; k++)
        memcpy(log + k * (SYMBOL + 1), log, SYMBOL + 1);
    memset(buffer, '#', sizeof buffer);
    memset(untouched, '#', sizeof untouched);
    for (flags = 0; flags <= SYMDEMANGLE_WITHIN; flags += SYMDEMANGLE_WITHIN) {
        most = held;
        status = symdemangle_filter(log, sizeof log, SYMDEMANGLE_DEFAULT_LIMIT, flags, buffer, CAPACITY, &tally, &result);
        printf("%u: %zu bytes at once for a log of %zu and a buffer of %d\n", (unsigned)flags, most, sizeof log, CAPACITY);
        failed |= status != SYMDEMANGLE_BUFFER || result.length != (size_t)LINES * (TEXT + 1) || tally.words != 9 ||
                  memcmp(buffer, untouched, sizeof buffer) != 0 || most > MOST;
    }
    return failed;
}
#endif

int main(void)
{
    int failed = names_take_more();
#ifndef ARENA
    failed |= filter_takes_more();
#endif
    puts(failed ? "FAILED" : "ok");
    return failed;
}
