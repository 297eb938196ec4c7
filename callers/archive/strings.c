/* What the library over malloc alone has: the call that makes a C string, which outlives the call, and one try of each call. */
#include <stdlib.h>
#include <string.h>

#include "proved.h"

void symdemangle_begin_of(struct symdemangle_tries *tries)
{
    (void)tries;
}

int symdemangle_again_of(struct symdemangle_tries *tries, uint32_t status)
{
    (void)tries;
    (void)status;
    return 0;
}

void symdemangle_free(char *string)
{
    free(string);
}

/* A copy of this many bytes with a 0 after them. */
static char *copy(const char *text, size_t length)
{
    char *string = malloc(length + 1);
    if (string) {
        memcpy(string, text, length);
        string[length] = 0;
    }
    return string;
}

char *symdemangle_string(const char *name, uint32_t flags)
{
    char few[2048], *string;
    symdemangle_result result;
    size_t length;
    if (!name)
        return 0;
    length = strlen(name);
    if (!symdemangle_text(name, length, SYMDEMANGLE_DEFAULT_LIMIT, flags, few, sizeof few, &result))
        return copy(few, result.length);
    if (result.status != SYMDEMANGLE_BUFFER)
        return 0;
    string = malloc(result.length + 1);
    if (string && symdemangle_text(name, length, SYMDEMANGLE_DEFAULT_LIMIT, flags, string, result.length, &result)) {
        free(string);
        return 0;
    }
    if (string)
        string[result.length] = 0;
    return string;
}
