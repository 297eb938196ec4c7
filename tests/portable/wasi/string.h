/* The functions of string.h that the library, the checkers and names.c call. They are in host.c and dist/wasi.c. */
#ifndef STRING_H
#define STRING_H

#include <stddef.h>

void *memcpy(void *to, const void *from, size_t count);
void *memmove(void *to, const void *from, size_t count);
void *memset(void *to, int byte, size_t count);
int memcmp(const void *one, const void *other, size_t count);
void *memchr(const void *in, int byte, size_t count);
size_t strlen(const char *text);
char *strchr(const char *text, int byte);
size_t strcspn(const char *text, const char *bytes);
char *strerror(int number);

#endif
