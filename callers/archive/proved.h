/* The proved calls of crates/symdemangle, to which the calls of symdemangle.h forward: no pointer here is null, whatever its length.
   What each does is said where it is proved; packages don't have these names. */
#ifndef SYMDEMANGLE_PROVED_H
#define SYMDEMANGLE_PROVED_H

#include "symdemangle.h"

void symdemangle_text_of(const char *name, size_t name_length, uint32_t limit, uint32_t flags, char *buffer, size_t capacity,
                         symdemangle_result *result);
/* What a name has in addition to its text: how many parts the text has, and the numbers of the name's kind and mangling. */
struct symdemangle_found {
    size_t count;
    uint32_t kind, mangling;
};
void symdemangle_parts_of(const char *name, size_t name_length, uint32_t limit, uint32_t flags, char *buffer, size_t capacity,
                          symdemangle_part *parts, size_t part_capacity, struct symdemangle_found *found,
                          symdemangle_result *result);
uint32_t symdemangle_texts_of(const char *names, size_t names_length, const size_t *ends, size_t count, uint32_t limit,
                              uint32_t flags, char *buffer, size_t capacity, symdemangle_result *results,
                              size_t results_count);
void symdemangle_filter_of(const char *text, size_t text_length, uint32_t limit, uint32_t flags, char *buffer, size_t capacity,
                           symdemangle_tally *tally, symdemangle_result *result);
void symdemangle_press_of(const char *name, size_t name_length, uint32_t flags, char *buffer, size_t capacity,
                          symdemangle_result *result);
void symdemangle_counts_of(const char *name, size_t name_length, uint32_t flags, symdemangle_counts *counts,
                           symdemangle_result *result);

/* Between the tries of a call: where it found no room in a lent block, it is made again as if the block were smaller (arena.c says
   why). Over malloc there is one try (strings.c). */
struct symdemangle_tries {
    size_t size, most;
};
void symdemangle_begin_of(struct symdemangle_tries *tries);
int symdemangle_again_of(struct symdemangle_tries *tries, uint32_t status);

#endif
