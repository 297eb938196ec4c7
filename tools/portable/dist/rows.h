/* The rows of the file `rows`: a symbol or a command and what has to be answered, fields set apart by tabs. docs/TESTING.md says what
   each sort of row means. A checker calls read_rows, which calls its check_row for each, and tells what it named as wrong. */
#ifndef ROWS_H
#define ROWS_H

#include <stdarg.h>
#include <stdint.h>
#include <stdio.h>
#include <stdlib.h>
#include <string.h>

typedef struct {
    const char *at;
    size_t length;
} bytes;

enum answer { CHECKED, NOT_HERE, UNKNOWN };

/* Of a row: its fields, of which the first says what it is. */
static enum answer check_row(bytes *fields, size_t count);

static size_t line_number, wrong_rows;
static int row_is_wrong;

#ifdef __GNUC__
__attribute__((format(printf, 1, 2)))
#endif
static void wrong(const char *format, ...)
{
    va_list more;
    if (!row_is_wrong++)
        printf("rows:%lu: ", (unsigned long)line_number);
    if (row_is_wrong > 1)
        return;
    va_start(more, format);
    vprintf(format, more);
    va_end(more);
    putchar('\n');
}

static void *room(size_t size)
{
    void *block = malloc(size ? size : 1);
    if (!block) {
        fputs("out of memory\n", stderr);
        exit(2);
    }
    return block;
}

static bytes text_of(const char *string)
{
    bytes text;
    text.at = string;
    text.length = strlen(string);
    return text;
}

static int same(bytes one, bytes other)
{
    return one.length == other.length && !memcmp(one.at, other.at, one.length);
}

static int is(bytes field, const char *word)
{
    return same(field, text_of(word));
}

static int begins(bytes field, const char *word)
{
    return field.length >= strlen(word) && !memcmp(field.at, word, strlen(word));
}

static uint32_t number_of(bytes field)
{
    return (uint32_t)strtoul(field.at, 0, 10);
}

/* The same text in which \\, \n, \t and \f are a backslash, a line's end, a tab and the byte 0xFF. */
static bytes unescaped(bytes field)
{
    char *to = room(field.length + 1);
    bytes text;
    size_t k;
    text.at = to;
    for (k = 0; k < field.length; k++) {
        char c = field.at[k];
        if (c == '\\' && k + 1 < field.length) {
            c = field.at[++k];
            c = c == 'n' ? '\n' : c == 't' ? '\t' : c == 'f' ? (char)0xff : c;
        }
        *to++ = c;
    }
    text.length = (size_t)(to - text.at);
    *to = 0;
    return text;
}

/* A symbol with bytes that come so many times after a front: FRONT COUNT BYTES END. */
static bytes repeated(bytes *fields)
{
    size_t count = number_of(fields[1]), k;
    bytes word;
    char *to = room(fields[0].length + count * fields[2].length + fields[3].length + 1);
    word.at = to;
    memcpy(to, fields[0].at, fields[0].length);
    to += fields[0].length;
    for (k = 0; k < count; k++, to += fields[2].length)
        memcpy(to, fields[2].at, fields[2].length);
    memcpy(to, fields[3].at, fields[3].length);
    to[fields[3].length] = 0;
    word.length = (size_t)(to - word.at) + fields[3].length;
    return word;
}

static bytes read_file(const char *path)
{
    FILE *file = fopen(path, "rb");
    size_t size = 1 << 16, got;
    char *text = room(size);
    bytes whole = {0, 0};
    if (!file) {
        fprintf(stderr, "%s: can't be read\n", path);
        exit(2);
    }
    while ((got = fread(text + whole.length, 1, size - whole.length - 1, file)) != 0) {
        whole.length += got;
        if (size - whole.length < 2 && !(text = realloc(text, size *= 2)))
            exit(2);
    }
    fclose(file);
    text[whole.length] = 0;
    whole.at = text;
    return whole;
}

/* The fields of a line, each with a 0 after it. */
static size_t fields_of(char *line, size_t length, bytes **fields)
{
    size_t count = 1, k;
    for (k = 0; k < length; k++)
        count += line[k] == '\t';
    *fields = room(count * sizeof **fields);
    count = 0;
    (*fields)[0].at = line;
    for (k = 0; k <= length; k++)
        if (k == length || line[k] == '\t') {
            line[k] = 0;
            (*fields)[count].length = (size_t)(line + k - (*fields)[count].at);
            if (k < length)
                (*fields)[++count].at = line + k + 1;
        }
    return count + 1;
}

enum { SORTS = 100 };
static struct {
    bytes name;
    size_t count;
} left_out[SORTS];

static void leave_out(bytes sort)
{
    size_t k;
    for (k = 0; k < SORTS - 1 && left_out[k].count && !same(left_out[k].name, sort); k++)
        ;
    left_out[k].name = sort;
    left_out[k].count++;
}

/* Checks each row of a file, and says how many were and which sorts of row were not. The status of a program that did. */
static int read_rows(const char *path, const char *what)
{
    bytes whole = read_file(path);
    char *at = (char *)whole.at, *end = at + whole.length;
    size_t checked = 0, k;
    for (line_number = 1; at < end; line_number++) {
        char *line_end = memchr(at, '\n', (size_t)(end - at));
        size_t length = (size_t)((line_end ? line_end : end) - at);
        bytes *fields;
        char *next = at + length + 1;
        if (length && *at != '#') {
            size_t count = fields_of(at, length, &fields);
            row_is_wrong = 0;
            if (check_row(fields, count) == CHECKED)
                checked++;
            else
                leave_out(fields[0]);
            wrong_rows += row_is_wrong != 0;
            free(fields);
        }
        at = next;
    }
    printf("%s: %lu rows checked, %lu don't hold", what, (unsigned long)checked, (unsigned long)wrong_rows);
    for (k = 0; k < SORTS && left_out[k].count; k++)
        printf("%s %lu %.*s", k ? "," : "; not checked:", (unsigned long)left_out[k].count, (int)left_out[k].name.length, left_out[k].name.at);
    putchar('\n');
    return wrong_rows ? 1 : checked ? 0 : 2;
}

#endif
