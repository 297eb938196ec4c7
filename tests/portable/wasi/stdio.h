/* The functions of stdio.h that the checkers and names.c call. They are in host.c. */
#ifndef STDIO_H
#define STDIO_H

#include <stdarg.h>
#include <stddef.h>

typedef struct file FILE;
extern FILE *const stdin, *const stdout, *const stderr;

FILE *fopen(const char *path, const char *mode);
int fclose(FILE *file);
size_t fread(void *to, size_t size, size_t count, FILE *file);
char *fgets(char *to, int capacity, FILE *file);
size_t fwrite(const void *from, size_t size, size_t count, FILE *file);
int putchar(int byte);
int fputs(const char *text, FILE *file);
int printf(const char *format, ...);
int fprintf(FILE *file, const char *format, ...);
int vprintf(const char *format, va_list more);
int sprintf(char *to, const char *format, ...);

#endif
