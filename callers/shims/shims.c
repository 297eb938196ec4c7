/* Calls of other demanglers over the library, with the conventions that programs already use: a program that was written for one
   of them is linked with this file, or started with it in LD_PRELOAD.

     cc -shared -fPIC -O2 -DCXA -DCPLUS -DRUSTC shims.c -lsymdemangle -ldl -o shims.so
     LD_PRELOAD=./shims.so program

   Each is there where its macro is defined:
     CXA     __cxa_demangle of the C++ runtimes (<cxxabi.h>), which their terminate handlers call too
     CPLUS   cplus_demangle and cplus_demangle_v3 of libiberty, which nm, objdump, addr2line and c++filt of binutils call
     RUSTC   rustc_demangle of rustc-demangle's C library, as `librustc_demangle.so` also for programs that load that by its name,
             as Hotspot 1.6 does in its parser of perf's records (1.3 does not):

               cc -shared -fPIC -O2 -DRUSTC shims.c -lsymdemangle -o librustc_demangle.so
               LD_LIBRARY_PATH=. hotspot perf.data

             gdb, valgrind and perf have a demangler of their own inside, which nothing replaces; binutils calls cplus_demangle
             for Rust's names too.

   What differs from the real ones:
   - The texts are this library's, and programs that take them apart may expect another's: `std::nullptr_t` for libstdc++'s
     `decltype(nullptr)`, a suffix as ` (.cold)` for ` [clone .cold]`.
   - What the library refuses, with C++ by its wide grammar, is answered as a name that isn't mangled, so it is shown as it is;
     so is a text that costs more than a million.
   - __cxa_demangle takes a type's name too (as `i`, `N2ns1AE` of std::type_info), one that the library reads as a typeinfo name;
     so does cplus_demangle with DMGL_TYPES (c++filt -t).
   - Rust's older names are Rust's where cplus_demangle may choose (as in nm and c++filt), their hash isn't shown, and
     rustc_demangle reads them; __cxa_demangle and the style gnu-v3 read them as names of C++.
   - Of cplus_demangle's options DMGL_PARAMS, DMGL_TYPES and the styles are kept (c++filt -p, -t, -s); names of Ada, D and Java are
     refused.
   - They call malloc, as the real ones do: none may run in a signal handler.

   With SYMDEMANGLE_NEXT=1 in the environment a name that CXA's or CPLUS's calls refuse is forwarded to the call of the same name that
   the program would have had without this file, unless its text costs too much or memory ran out. What that call does is no
   longer bounded. */
#define _GNU_SOURCE
#include "symdemangle.h"

#include <dlfcn.h>
#include <stdlib.h>
#include <string.h>

enum { LIMIT = SYMDEMANGLE_DEFAULT_LIMIT };

#if defined CPLUS || defined RUSTC
/* Whether a name is one of Rust's older mangling by its ends: _ZN, a digit, .., 17h, 16 digits, E, and perhaps a suffix. */
static int is_legacy(const char *mangled)
{
    const char *end = strchr(mangled, '.');
    size_t length = 0, digits = 0;
    for (; end; end = strchr(end + 1, '.'))
        if (end > mangled && end[-1] == 'E')
            break;
    length = end ? (size_t)(end - mangled) : strlen(mangled);
    if (length < 3 + 20 || strncmp(mangled, "_ZN", 3) != 0 || mangled[3] < '0' || mangled[3] > '9' || mangled[length - 1] != 'E')
        return 0;
    while (digits < 16 && strchr("0123456789abcdef", mangled[length - 2 - digits]))
        digits++;
    return digits == 16 && strncmp(mangled + length - 20, "17h", 3) == 0;
}
#endif

#if defined CXA || defined CPLUS
char *__cxa_demangle(const char *mangled, char *buffer, size_t *size, int *status);
char *cplus_demangle(const char *mangled, int options);
char *cplus_demangle_v3(const char *mangled, int options);

/* Puts a text and a 0 into `buffer`, a block of malloc's of *size bytes, which grows where it has to, or into a new block if
   `buffer` is null. Answers null where memory runs out; then the buffer is as it was. */
static char *put(const char *text, size_t length, char *buffer, size_t *size)
{
    if (!buffer || *size <= length) {
        buffer = realloc(buffer, length + 1);
        if (!buffer)
            return 0;
        if (size)
            *size = length + 1;
    }
    memcpy(buffer, text, length);
    buffer[length] = 0;
    return buffer;
}

/* Puts the text of a name into the buffer, as put does. Null with a status where there is no text: the buffer is then as it was. */
static char *text_of(const char *mangled, uint32_t flags, char *buffer, size_t *size, uint32_t *status)
{
    symdemangle_result result;
    char few[2048], *text = few;
    size_t length = strlen(mangled);
    *status = symdemangle_text(mangled, length, LIMIT, flags, few, sizeof few, &result);
    if (*status == SYMDEMANGLE_BUFFER) {
        size_t capacity = result.length;
        text = malloc(capacity);
        *status = text ? symdemangle_text(mangled, length, LIMIT, flags, text, capacity, &result) : SYMDEMANGLE_MEMORY;
    }
    buffer = *status == SYMDEMANGLE_OK ? put(text, result.length, buffer, size) : 0;
    if (*status == SYMDEMANGLE_OK && !buffer)
        *status = SYMDEMANGLE_MEMORY;
    if (text != few)
        free(text);
    return buffer;
}

/* The name of a type is read as its typeinfo name, whose text begins with these words. */
static char *type_of(const char *name, uint32_t flags, char *buffer, size_t *size, uint32_t *status)
{
    static const char words[] = "typeinfo name for ";
    size_t length = strlen(name), front = sizeof words - 1;
    char *symbol = malloc(length + 5), *text;
    if (!symbol) {
        *status = SYMDEMANGLE_MEMORY;
        return 0;
    }
    memcpy(symbol, "_ZTS", 4);
    memcpy(symbol + 4, name, length + 1);
    text = text_of(symbol, flags, buffer, size, status);
    free(symbol);
    if (text)
        memmove(text, text + front, strlen(text) - front + 1);
    return text;
}

/* The call of this name that comes after this one, if refused names are to be forwarded; else null. */
static void *next_of(const char *call, uint32_t status)
{
    const char *wanted = status == SYMDEMANGLE_TOO_LONG || status == SYMDEMANGLE_MEMORY ? 0 : getenv("SYMDEMANGLE_NEXT");
    return wanted && strcmp(wanted, "1") == 0 ? dlsym(RTLD_NEXT, call) : 0;
}
#endif

#ifdef CXA
/* *status is 0 with a text; -1: no memory; -2: no mangled name; -3: a bad argument. */
char *__cxa_demangle(const char *mangled, char *buffer, size_t *size, int *status)
{
    uint32_t answered = SYMDEMANGLE_NO_SYMBOL;
    char *text = 0;
    if (!mangled || (buffer && !size)) {
        if (status)
            *status = -3;
        return 0;
    }
    if (mangled[0] == '_' && mangled[1] == 'Z')
        text = text_of(mangled, SYMDEMANGLE_WIDE, buffer, size, &answered);
    else if (mangled[0] != '_')
        text = type_of(mangled, SYMDEMANGLE_WIDE, buffer, size, &answered);
    if (!text) {
        char *(*next)(const char *, char *, size_t *, int *);
        void *found = next_of("__cxa_demangle", answered);
        memcpy(&next, &found, sizeof next);
        if (found)
            return next(mangled, buffer, size, status);
    }
    if (status)
        *status = text ? 0 : answered == SYMDEMANGLE_MEMORY ? -1 : -2;
    return text;
}
#endif

#ifdef CPLUS
/* The options of libiberty's demangle.h that say something here. */
enum {
    PARAMS = 1 << 0,
    TYPES = 1 << 4,
    AUTO = 1 << 8,
    GNU_V3 = 1 << 14,
    RUST = 1 << 17,
    OTHER_STYLES = 1 << 2 | 1 << 15 | 1 << 16, /* Java, Ada, D */
    STYLES = AUTO | GNU_V3 | RUST | OTHER_STYLES
};

/* The style that a program set with cplus_demangle_set_style (c++filt -s), where libiberty is there. */
extern int current_demangling_style __attribute__((weak));

static int styles_of(int options)
{
    int styles = options & STYLES;
    return !styles && &current_demangling_style ? current_demangling_style & STYLES : styles;
}

static char *forwarded(const char *call, const char *mangled, int options, uint32_t status)
{
    char *(*next)(const char *, int);
    void *found = next_of(call, status);
    memcpy(&next, &found, sizeof next);
    return found ? next(mangled, options) : 0;
}

/* Null where the name isn't mangled, or isn't in a requested style; without a style, all are requested. */
static char *text_with(const char *call, const char *mangled, int options)
{
    int styles = styles_of(options), any = !styles || styles & AUTO;
    uint32_t flags = SYMDEMANGLE_WIDE | (options & PARAMS ? 0 : SYMDEMANGLE_NO_PARAMETERS), status = SYMDEMANGLE_NO_SYMBOL;
    char *text = 0;
    if (strncmp(mangled, "_R", 2) == 0 || is_legacy(mangled)) {
        if (any || styles & RUST)
            text = text_of(mangled, flags | SYMDEMANGLE_LEGACY, 0, 0, &status);
        else if (styles & GNU_V3 && mangled[1] == 'Z')
            text = text_of(mangled, flags, 0, 0, &status);
    } else if (strncmp(mangled, "_Z", 2) == 0) {
        if (any || styles & GNU_V3)
            text = text_of(mangled, flags, 0, 0, &status);
    } else if (options & TYPES && (any || styles & GNU_V3)) {
        text = type_of(mangled, flags, 0, 0, &status);
    }
    return text ? text : forwarded(call, mangled, options, status);
}

char *cplus_demangle(const char *mangled, int options)
{
    return text_with("cplus_demangle", mangled, options);
}

char *cplus_demangle_v3(const char *mangled, int options)
{
    return text_with("cplus_demangle_v3", mangled, (options & ~STYLES) | GNU_V3);
}
#endif

#ifdef RUSTC
int rustc_demangle(const char *mangled, char *out, size_t out_size);

/* 1 with the text and a 0 after it in `out`; 0 where the name is none of Rust's or has no room. */
int rustc_demangle(const char *mangled, char *out, size_t out_size)
{
    symdemangle_result result;
    const char *symbol = mangled[0] == '_' && mangled[1] == '_' ? mangled + 1 : mangled;
    if (!out_size || (strncmp(symbol, "_R", 2) != 0 && !is_legacy(symbol)))
        return 0;
    if (symdemangle_text(symbol, strlen(symbol), LIMIT, SYMDEMANGLE_LEGACY, out, out_size - 1, &result))
        return 0;
    out[result.length] = 0;
    return 1;
}
#endif
