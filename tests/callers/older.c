/* A library that is older than its callers: it knows no flag from SYMDEMANGLE_WITHIN on. Each call is forwarded to the same call of the
   library under test, whose name begins with later_ (objcopy --redefine-sym). */
#include "symdemangle.h"

enum { KNOWN = SYMDEMANGLE_WITHIN - 1 };

uint32_t later_text(const char *name, size_t name_length, uint32_t limit, uint32_t flags, char *buffer, size_t capacity,
                    symdemangle_result *result);
uint32_t later_texts(const char *names, size_t names_length, const size_t *ends, size_t count, uint32_t limit, uint32_t flags,
                     char *buffer, size_t capacity, symdemangle_result *results);
uint32_t later_filter(const char *text, size_t text_length, uint32_t limit, uint32_t flags, char *buffer, size_t capacity,
                      symdemangle_tally *tally, symdemangle_result *result);
uint32_t later_count(const char *name, size_t name_length, uint32_t flags, symdemangle_counts *counts,
                     symdemangle_result *result);
uint32_t later_press(const char *name, size_t name_length, uint32_t flags, char *buffer, size_t capacity,
                     symdemangle_result *result);
char *later_string(const char *name, uint32_t flags);

static uint32_t refused(symdemangle_result *result)
{
    if (result) {
        result->length = 0;
        result->offset = 0;
        result->status = SYMDEMANGLE_FLAGS;
    }
    return SYMDEMANGLE_FLAGS;
}

uint32_t symdemangle_text(const char *name, size_t name_length, uint32_t limit, uint32_t flags, char *buffer, size_t capacity,
                          symdemangle_result *result)
{
    return flags > KNOWN ? refused(result) : later_text(name, name_length, limit, flags, buffer, capacity, result);
}

uint32_t symdemangle_texts(const char *names, size_t names_length, const size_t *ends, size_t count, uint32_t limit,
                           uint32_t flags, char *buffer, size_t capacity, symdemangle_result *results)
{
    return flags > KNOWN ? refused(0)
                         : later_texts(names, names_length, ends, count, limit, flags, buffer, capacity, results);
}

uint32_t symdemangle_filter(const char *text, size_t text_length, uint32_t limit, uint32_t flags, char *buffer, size_t capacity,
                            symdemangle_tally *tally, symdemangle_result *result)
{
    return flags > KNOWN ? refused(result) : later_filter(text, text_length, limit, flags, buffer, capacity, tally, result);
}

uint32_t symdemangle_count(const char *name, size_t name_length, uint32_t flags, symdemangle_counts *counts,
                           symdemangle_result *result)
{
    return flags > KNOWN ? refused(result) : later_count(name, name_length, flags, counts, result);
}

uint32_t symdemangle_press(const char *name, size_t name_length, uint32_t flags, char *buffer, size_t capacity,
                           symdemangle_result *result)
{
    return flags > KNOWN ? refused(result) : later_press(name, name_length, flags, buffer, capacity, result);
}

char *symdemangle_string(const char *name, uint32_t flags)
{
    return flags > KNOWN ? 0 : later_string(name, flags);
}
