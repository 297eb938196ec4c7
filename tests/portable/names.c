/* names SETS < NAMES : prints what the calls for a text, a count and a pressed spelling answer for each name, one name a line, with each
   sum of flags below SETS: status, place, text, counts. Two builds of it that print the same have the same answers. */
#include <stdio.h>
#include <stdlib.h>
#include <string.h>
#ifdef _WIN32
#include <fcntl.h>
#include <io.h>
#endif

#include "symdemangle.h"

static char name[1 << 20], text[1 << 21];

static void show(const symdemangle_result *result)
{
    printf("%u %u %lu ", (unsigned)result->status, (unsigned)result->offset, (unsigned long)result->length);
    if (!result->status)
        fwrite(text, 1, result->length, stdout);
    putchar('\n');
}

int main(int count, char **words)
{
    uint32_t sets = count > 1 ? (uint32_t)atoi(words[1]) : 1, flags;
#ifdef _WIN32
    _setmode(1, _O_BINARY);
#endif
    while (fgets(name, sizeof name, stdin)) {
        size_t length = strcspn(name, "\n");
        symdemangle_result result;
        symdemangle_counts counts = {0, 0, 0};
        for (flags = 0; flags < sets; flags++) {
            symdemangle_text(name, length, SYMDEMANGLE_DEFAULT_LIMIT, flags, text, sizeof text, &result);
            show(&result);
        }
        for (flags = 0; flags < sets; flags += 4) {
            symdemangle_count(name, length, flags, &counts, &result);
            printf("%u %u %u %u %u\n", (unsigned)result.status, (unsigned)result.offset, (unsigned)counts.rows, (unsigned)counts.nodes,
                   (unsigned)counts.steps);
        }
        symdemangle_press(name, length, 0, text, sizeof text, &result);
        show(&result);
    }
    return 0;
}
