/* The part of a C library that the checkers of dist/ and names.c call, on a host of WASI: Debian has no such library for 64-bit
   addresses. Memory, streams, files and arguments are those of dist/wasi.c, which is included here under other names, since the checkers
   use the programs' names for their own functions. */
#define port_main started
#define port_rattle_alloc wasi_alloc
#define port_rattle_realloc wasi_realloc
#define port_rattle_dealloc wasi_dealloc
#define port_rattle_errno wasi_errno
#define port_rattle_set_errno wasi_set_errno
#define port___xpg_strerror_r wasi_strerror
#define port_rattle_arg_count wasi_arg_count
#define port_rattle_arg wasi_arg
#define port_rattle_env wasi_env
#define port_rattle_env_at wasi_env_at
#define port_write wasi_write
#define port_read wasi_read
#define port_lseek wasi_lseek
#define port_close wasi_close
#define port_open wasi_open
#define port_statx wasi_statx
#define port_isatty wasi_isatty
#define port___sysv_signal wasi_signal
#include "wasi.c"

#include "errno.h"
#include "stdio.h"
#include "stdlib.h"
#include "string.h"

int errno;

/* A block has its size before it, for realloc. */
void *malloc(size_t size)
{
    tried block = wasi_alloc((uint64_t)size + 16, 16);
    uint64_t *at = (uint64_t *)(uintptr_t)block.f1;
    if (!block.f0)
        return 0;
    *at = size;
    return at + 2;
}

void free(void *block)
{
    if (block)
        wasi_dealloc((uint8_t *)block - 16);
}

void *realloc(void *block, size_t size)
{
    uint64_t *at;
    tried grown;
    if (!block)
        return malloc(size);
    at = (uint64_t *)block - 2;
    grown = wasi_realloc((uint8_t *)at, *at + 16, (uint64_t)size + 16, 16);
    if (!grown.f0)
        return 0;
    at = (uint64_t *)(uintptr_t)grown.f1;
    *at = size;
    return at + 2;
}

int memcmp(const void *one, const void *other, size_t count)
{
    const unsigned char *a = one, *b = other;
    size_t k;
    for (k = 0; k < count; k++)
        if (a[k] != b[k])
            return a[k] < b[k] ? -1 : 1;
    return 0;
}

void *memchr(const void *in, int byte, size_t count)
{
    const unsigned char *at = in;
    for (; count; count--, at++)
        if (*at == (unsigned char)byte)
            return (void *)(uintptr_t)at;
    return 0;
}

size_t strlen(const char *text)
{
    return length_of(text);
}

char *strchr(const char *text, int byte)
{
    return memchr(text, byte, strlen(text) + 1);
}

size_t strcspn(const char *text, const char *bytes)
{
    size_t k = 0;
    while (text[k] && !strchr(bytes, text[k]))
        k++;
    return k;
}

char *strerror(int number)
{
    static char none[1];
    (void)number;
    return none;
}

/* Only decimal numbers are read. */
unsigned long strtoul(const char *text, char **end, int base)
{
    unsigned long number = 0;
    (void)end;
    (void)base;
    for (; *text >= '0' && *text <= '9'; text++)
        number = number * 10 + (unsigned long)(*text - '0');
    return number;
}

int atoi(const char *text)
{
    return (int)strtoul(text, 0, 10);
}

/* Streams, with the bytes that were read or that have to be written. */
enum { ROOM = 1 << 16 };
struct file {
    uint32_t stream;
    size_t at, length;
    uint8_t bytes[ROOM];
};
static struct file in = {0, 0, 0, {0}}, out = {1, 0, 0, {0}}, error_out = {2, 0, 0, {0}}, read_one;
FILE *const stdin = &in, *const stdout = &out, *const stderr = &error_out;

static void flush(FILE *file)
{
    size_t done = 0;
    while (done < file->length) {
        uint64_t some = wasi_write(file->stream, file->bytes + done, file->length - done);
        if (some == (uint64_t)-1)
            proc_exit(3);
        done += some;
    }
    file->length = 0;
}

_Noreturn void exit(int status)
{
    flush(stdout);
    flush(stderr);
    proc_exit((uint32_t)status);
}

size_t fwrite(const void *from, size_t size, size_t count, FILE *file)
{
    const uint8_t *bytes = from;
    size_t k;
    for (k = 0; k < size * count; k++) {
        if (file->length == ROOM)
            flush(file);
        file->bytes[file->length++] = bytes[k];
    }
    return count;
}

int putchar(int byte)
{
    uint8_t one = (uint8_t)byte;
    fwrite(&one, 1, 1, stdout);
    return byte;
}

int fputs(const char *text, FILE *file)
{
    fwrite(text, 1, strlen(text), file);
    return 0;
}

FILE *fopen(const char *path, const char *mode)
{
    uint32_t stream = wasi_open((uint8_t *)(uintptr_t)path, 0);
    (void)mode;
    if (stream == (uint32_t)-1)
        return 0;
    read_one.stream = stream;
    read_one.at = read_one.length = 0;
    return &read_one;
}

int fclose(FILE *file)
{
    return (int)wasi_close(file->stream);
}

/* The next byte, or -1 at the end. */
static int next(FILE *file)
{
    if (file->at == file->length) {
        uint64_t got = wasi_read(file->stream, file->bytes, ROOM);
        if (got == (uint64_t)-1)
            proc_exit(3);
        file->at = 0;
        file->length = got;
        if (!got)
            return -1;
    }
    return file->bytes[file->at++];
}

size_t fread(void *to, size_t size, size_t count, FILE *file)
{
    uint8_t *bytes = to;
    size_t k;
    for (k = 0; k < size * count; k++) {
        int byte = next(file);
        if (byte < 0)
            break;
        bytes[k] = (uint8_t)byte;
    }
    return k / size;
}

char *fgets(char *to, int capacity, FILE *file)
{
    int length = 0, byte = 0;
    while (length + 1 < capacity && byte != '\n' && (byte = next(file)) >= 0)
        to[length++] = (char)byte;
    to[length] = 0;
    return length ? to : 0;
}

/* Where printed bytes go: to a stream, or to a string. */
typedef struct {
    FILE *file;
    char *to;
} target;

static void print_bytes(target *where, const char *bytes, size_t length)
{
    if (where->file) {
        fwrite(bytes, 1, length, where->file);
    } else {
        memcpy(where->to, bytes, length);
        where->to += length;
    }
}

static void print_number(target *where, unsigned long number)
{
    char digits[20];
    size_t at = sizeof digits;
    do
        digits[--at] = (char)('0' + number % 10);
    while (number /= 10);
    print_bytes(where, digits + at, sizeof digits - at);
}

/* %s with a precision or without, %d, %u, %lu and %zu: numbers below zero aren't printed. */
static void print(target where, const char *format, va_list more)
{
    for (; *format; format++) {
        size_t most = (size_t)-1, length;
        int is_long = 0;
        if (*format != '%') {
            print_bytes(&where, format, 1);
            continue;
        }
        format++;
        if (format[0] == '.' && format[1] == '*') {
            most = (size_t)va_arg(more, int);
            format += 2;
        } else if (*format == '.') {
            most = strtoul(++format, 0, 10);
            while (*format >= '0' && *format <= '9')
                format++;
        }
        for (; *format == 'l' || *format == 'z'; format++)
            is_long = 1;
        if (*format == 's') {
            const char *text = va_arg(more, const char *);
            for (length = 0; length < most && text[length]; length++)
                ;
            print_bytes(&where, text, length);
        } else if (*format == 'd' || *format == 'u') {
            print_number(&where, is_long ? va_arg(more, unsigned long) : va_arg(more, unsigned));
        } else {
            exit(3);
        }
    }
    if (!where.file)
        *where.to = 0;
}

int vprintf(const char *format, va_list more)
{
    target where = {stdout, 0};
    print(where, format, more);
    return 0;
}

int printf(const char *format, ...)
{
    va_list more;
    va_start(more, format);
    vprintf(format, more);
    va_end(more);
    return 0;
}

int fprintf(FILE *file, const char *format, ...)
{
    target where = {file, 0};
    va_list more;
    va_start(more, format);
    print(where, format, more);
    va_end(more);
    return 0;
}

int sprintf(char *to, const char *format, ...)
{
    target where = {0, to};
    va_list more;
    va_start(more, format);
    print(where, format, more);
    va_end(more);
    return 0;
}

/* main, by a name that means nothing to the compiler. */
int checked_main(int count, char **words);

uint32_t started(void)
{
    static char *words[64];
    uint32_t count = arguments.count < 63 ? arguments.count : 63, k;
    for (k = 0; k < count; k++)
        words[k] = (char *)(uintptr_t)arguments.words[k];
    exit(checked_main((int)count, words));
}
