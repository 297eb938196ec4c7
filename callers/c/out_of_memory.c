/* Each allocation of each call refused in turn, by a malloc of the test's own. */
#include "symdemangle.h"

#include <stdio.h>
#include <stdlib.h>
#include <string.h>

/* How many allocations still succeed; -1: all do. */
static long left = -1;
static int refused;

extern void *__libc_malloc(size_t size);
extern void *__libc_realloc(void *old, size_t size);

static int refuses(void)
{
    if (left == 0) {
        refused = 1;
        return 1;
    }
    if (left > 0)
        left--;
    return 0;
}

void *malloc(size_t size)
{
    return refuses() ? NULL : __libc_malloc(size);
}

void *realloc(void *old, size_t size)
{
    return refuses() ? NULL : __libc_realloc(old, size);
}

static const char symbol[] = "_RNvMC3fooINtB2_1AhE3baz";
static const char cpp_symbol[] = "_ZN3foo3barEN3foo3bazEPNS_1AIiEE";
static char buffer[64];
static symdemangle_result result;
static symdemangle_counts counts;

static uint32_t text(void)
{
    return symdemangle_text(symbol, strlen(symbol), 99, 0, buffer, sizeof buffer, &result);
}

static uint32_t wide_text(void)
{
    return symdemangle_text(cpp_symbol, strlen(cpp_symbol), 99, SYMDEMANGLE_WIDE, buffer, sizeof buffer, &result);
}

static uint32_t string(void)
{
    char *text = symdemangle_string(symbol, 0);
    uint32_t status = text ? SYMDEMANGLE_OK : SYMDEMANGLE_MEMORY;
    result.length = 0;
    symdemangle_free(text);
    return status;
}

/* Lack of memory is the status of one name only, so this is the first refusal. */
static uint32_t texts(void)
{
    static const char names[] = "_RNvC3fo_RNvMC3fooINtB2_1AhE3baz";
    static const size_t ends[] = {8, sizeof names - 1};
    symdemangle_result told[2];
    result.length = 0;
    uint32_t status = symdemangle_texts(names, strlen(names), ends, 2, 99, 0, buffer, sizeof buffer, told);
    if (status == SYMDEMANGLE_OK && (told[0].status == SYMDEMANGLE_MEMORY || told[1].status == SYMDEMANGLE_MEMORY))
        return SYMDEMANGLE_MEMORY;
    return status;
}

static uint32_t filter(void)
{
    return symdemangle_filter(symbol, strlen(symbol), 99, 0, buffer, sizeof buffer, NULL, &result);
}

static uint32_t count(void)
{
    counts.rows = 0;
    return symdemangle_count(symbol, strlen(symbol), 0, &counts, &result);
}

static uint32_t parts(void)
{
    symdemangle_part some[16];
    symdemangle_name told;
    uint32_t status = symdemangle_parts(cpp_symbol, strlen(cpp_symbol), 99, SYMDEMANGLE_WIDE, buffer, sizeof buffer, some, 16, &told);
    result.length = told.length;
    return status;
}

static uint32_t press(void)
{
    return symdemangle_press(symbol, strlen(symbol), 0, buffer, sizeof buffer, &result);
}

static uint32_t press_cpp(void)
{
    return symdemangle_press(cpp_symbol, strlen(cpp_symbol), 0, buffer, sizeof buffer, &result);
}

/* The allocations of a call are refused one after the other, until it makes fewer. Each refused one is SYMDEMANGLE_MEMORY with
   the buffer as it was, or the usual answer where a list could do without. */
static int each_refused(const char *name, uint32_t (*call)(void))
{
    int memory = 0;
    for (long n = 0; n < 1000; n++) {
        memset(buffer, '#', sizeof buffer);
        left = n;
        refused = 0;
        uint32_t status = call();
        left = -1;
        if (status == SYMDEMANGLE_MEMORY && refused && buffer[0] == '#' && counts.rows == 0 && result.length == 0)
            memory++;
        else if (status != SYMDEMANGLE_OK) {
            printf("%s: status %u with %ld allocations\n", name, status, n);
            return 1;
        }
        if (!refused) {
            printf("%s: %d refused\n", name, memory);
            counts.rows = 0;
            return memory == 0;
        }
    }
    printf("%s: no end\n", name);
    return 1;
}

int main(void)
{
    int failed = each_refused("text", text) | each_refused("wide text", wide_text) | each_refused("string", string) | each_refused("texts", texts) |
                 each_refused("filter", filter) | each_refused("count", count) | each_refused("parts", parts) | each_refused("press", press) | each_refused("press, C++", press_cpp);
    puts(failed ? "FAILED" : "ok");
    return failed;
}
