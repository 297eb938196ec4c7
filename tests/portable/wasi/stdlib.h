/* The functions of stdlib.h that the library, the checkers and names.c call. They are in host.c. */
#ifndef STDLIB_H
#define STDLIB_H

#include <stddef.h>

void *malloc(size_t size);
void *realloc(void *block, size_t size);
void free(void *block);
_Noreturn void exit(int status);
unsigned long strtoul(const char *text, char **end, int base);
int atoi(const char *text);

#endif
