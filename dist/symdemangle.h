/* The names that C++ and Rust compilers give to functions and data (Itanium C++ ABI 5.1; RFC 2603, "v0", and Rust's older
   mangling), demangled within a limit on what a text costs. The steps of a call grow no faster than the bytes that it is given
   and the texts that the limit allows, and no call recurses ("What a call takes", below).

   The shortest way, for a C string:

       char *text = symdemangle_string("_ZN3foo3barEPKc", SYMDEMANGLE_WIDE + SYMDEMANGLE_LEGACY);
       puts(text ? text : "not a symbol");                    // foo::bar(char const*)
       symdemangle_free(text);

   Without an allocation for the text, with a reason where there is none; 4 KiB serve nearly all symbols, and a second call the
   others:

       char few[4096], *text = few;
       symdemangle_result result;
       size_t capacity = sizeof few;
       while (symdemangle_text(name, length, SYMDEMANGLE_DEFAULT_LIMIT, SYMDEMANGLE_WIDE, text, capacity, &result)
              == SYMDEMANGLE_BUFFER && text == few)
           text = malloc(capacity = result.length);           // null is answered SYMDEMANGLE_NULL
       if (result.status == SYMDEMANGLE_OK)
           printf("%.*s\n", (int)result.length, text);
       else
           fprintf(stderr, "%s at byte %u\n", symdemangle_message(result.status), (unsigned)result.offset);
       if (text != few)
           free(text);

   A call without a buffer, to learn the length first, does all the work, and the second call does it again.

   A caller with many names gives them to one call, symdemangle_texts. A caller that meets names one by one, as a profiler does,
   links libsymdemangle_arena.a and lends it a block (symdemangle_arena.h): such a call takes 12 % fewer instructions for C++ names
   and 16 % fewer for Rust's, and no malloc.

   It needs C from C99 on, or C++ from C++11 on (symdemangle.hpp has the same for std::string), and a library for 64-bit x86
   Linux, the only machine that it is built for. Each call is a function of the library, so other languages call them by the
   same names.

   What holds of every call:
   - It answers one of the numbers of symdemangle_status. With any other than SYMDEMANGLE_OK buffer, parts, counts and tally stay
     as they are; with SYMDEMANGLE_OK the bytes after the text in the buffer, and the parts after the text's parts, stay.
   - A name is bytes with a length, and needs no 0 byte. A text gets no 0 byte after it; symdemangle_string alone takes a C string
     and makes one.
   - Bytes, ends, results, parts and buffer may be null where their length is 0, and a tally always. Any other null is SYMDEMANGLE_NULL.
   - What is lent to one call doesn't overlap, and no other thread touches it during the call.
   - The calls are thread-safe: they share no state, and hold no memory after they return (except for what symdemangle_string makes).
   - None recurses on its input; the most stack that was measured is below 16 KiB, malloc's part included.
   - They call malloc, realloc and free, so they must not run in a signal handler, nor in the forked child of a process that
     has threads. symdemangle_arena.h has the library that calls none of these.

   What a call takes:
   - A symbol of n bytes is read in at most 32n + 48 steps, into at most 4n + 4 rows and 4n + 8 nodes, and its text is written
     in at most `limit` + 1 steps. This is proved. symdemangle_press takes no limit.
   - How many bytes of memory that takes isn't proved. Measured were up to 600 at once for each byte of a name, and 750 by
     symdemangle_press, whatever the limit; the text comes in addition. What symdemangle_parts takes wasn't measured. The longest
     name, of 16,777,216 bytes, would take 4.9 GB, and 9.3 GB pressed. So leave out names of such a length that someone else chose.
   - symdemangle_filter keeps at most as many bytes of the filtered text as the buffer has; in addition it takes what one word of
     at most 65,536 bytes and the word's text take.

   What stays, from one release to the next:
   - With the same first two numbers of the version: the names here, their types, the numbers of the statuses and flags, and
     every text. A program that was linked with an earlier one of these may be run with a later one.
   - A change of any of these changes the second number (the first, from 1.0 on), the shared library's name with it
     (libsymdemangle.so.0.1), and is in CHANGELOG.md. New calls, flags, and statuses of these may come with any version. */
#ifndef SYMDEMANGLE_H
#define SYMDEMANGLE_H

#include <stddef.h>
#include <stdint.h>

#define SYMDEMANGLE_VERSION_MAJOR 0
#define SYMDEMANGLE_VERSION_MINOR 1
#define SYMDEMANGLE_VERSION_PATCH 0
/* One number, which rises from each version to the next. */
#define SYMDEMANGLE_VERSION                                                                                                    \
    (SYMDEMANGLE_VERSION_MAJOR * 1000000 + SYMDEMANGLE_VERSION_MINOR * 1000 + SYMDEMANGLE_VERSION_PATCH)

/* What a text may cost where a caller has no limit of its own: its bytes, and 1 for each item that it is put together from. The
   costliest of 353,228 real Rust symbols costs 12,204, so 25,000 is ample for names that someone else chose. */
#define SYMDEMANGLE_DEFAULT_LIMIT 1000000

#ifdef __cplusplus
extern "C" {
#endif

/* What a call answers; 1 to 5 are the refusals of a symbol. */
enum symdemangle_status {
    SYMDEMANGLE_OK = 0,
    SYMDEMANGLE_MALFORMED = 1,     /* `offset`: how many bytes are before the first one that no symbol has there */
    SYMDEMANGLE_BAD_REFERENCE = 2, /* `offset`: the same for the first reference that names nothing */
    SYMDEMANGLE_BAD_VALUE = 3,     /* `offset`: the same for the first number that is out of range */
    SYMDEMANGLE_TOO_LONG = 4,      /* the text costs more than the limit */
    SYMDEMANGLE_MEMORY = 5,        /* an allocation was refused */
    SYMDEMANGLE_BUFFER = 6,        /* `length`: how many bytes the buffer needs */
    SYMDEMANGLE_SIZE = 7,          /* the symbol has more than 16,777,216 bytes, and wasn't read */
    SYMDEMANGLE_FLAGS = 8,         /* a flag that isn't one of symdemangle_flags */
    SYMDEMANGLE_NULL = 9,          /* a null pointer with a length, or a null result or counts */
    SYMDEMANGLE_ENDS = 10,         /* of symdemangle_texts: the ends go down, or pass the bytes */
    SYMDEMANGLE_NO_SYMBOL = 11,    /* the name begins with neither _Z nor _R, and isn't read as a type */
    SYMDEMANGLE_NO_SPELLING = 12   /* of symdemangle_press with SYMDEMANGLE_WIDE: the symbol is read, and has no pressed spelling yet */
};

/* What is requested, added together. A flag without a meaning for a call changes nothing in it. */
enum symdemangle_flags {
    SYMDEMANGLE_BRIEF = 1,         /* template and generic arguments are left out */
    SYMDEMANGLE_NO_PARAMETERS = 2, /* each C++ function is its name alone, without return type and parameters */
    SYMDEMANGLE_WIDE = 4,          /* newer and rarer C++ forms are read, too: recommended. What has a text without it has the
                                      same text with it; a later version may read more */
    SYMDEMANGLE_LEGACY = 8,        /* Rust's older names (_ZN..17h<16 digits>E), which are names of C++ too, are shown as the Rust
                                      paths that they denote, without the hash; no text of any other name changes */
    SYMDEMANGLE_UNDERSCORE = 16,   /* a name may also begin with __Z or __R, as on macOS: its first underscore is dropped, and
                                      `offset` counts it. symdemangle_filter always takes such words */
    SYMDEMANGLE_ASCII_WORDS = 32,  /* of symdemangle_filter: a word ends at a byte from 0x80, as at typographic quotes, and so
                                      has no names with such bytes */
    SYMDEMANGLE_WITHIN = 64,       /* of symdemangle_filter: words are those of the program `demangle`: they begin within runs of
                                      word bytes, too, as in .text._Z1fv and after typographic quotes, and may have names with
                                      bytes from 0x80: recommended. With it SYMDEMANGLE_ASCII_WORDS changes nothing */
    SYMDEMANGLE_TYPES = 128,       /* of symdemangle_text, _texts and _string: a name that doesn't begin like a symbol is read
                                      as a C++ type, as typeid(..).name() gives it (PKc: char const*), where it has at most
                                      65,536 bytes, all of them bytes of words, and no dot. A name that is no type is refused
                                      for one of the reasons for which symbols are */
    SYMDEMANGLE_SHORT = 256,       /* texts of C++ names are short: without what the templates of std have by default and without
                                      its inline namespaces, and with usual names (std::string). Different names may have one
                                      short text. The limit is that of the whole text */
    SYMDEMANGLE_KEEP_INLINE = 512  /* with SYMDEMANGLE_SHORT: inline namespaces stay, and different texts stay different */
};

/* What comes with a status: how many bytes were written (SYMDEMANGLE_OK) or are needed (SYMDEMANGLE_BUFFER), else 0; and how
   many bytes are before the first bad byte, reference or number, else 0. `status` is what the call answered. */
typedef struct {
    size_t length;
    uint32_t offset;
    uint32_t status;
} symdemangle_result;

/* The work that a symbol of n bytes made: rows of its shape (at most 4n + 4), nodes of the table in which its parts are
   shared (4n + 8), and counted steps (32n + 48). */
typedef struct {
    uint32_t rows;
    uint32_t nodes;
    uint32_t steps;
} symdemangle_counts;

/* What a part of a text is. New ones may come with any version; a number is never used again. */
enum symdemangle_roles {
    /* Generated by tools/part_words.py. */
    SYMDEMANGLE_ROLE_SPECIAL = 1, /* the words of a special name, without the blank after them, as `vtable for` */
    SYMDEMANGLE_ROLE_RETURN_TYPE = 2, /* a function's return type. It is two parts where it surrounds the function's name */
    SYMDEMANGLE_ROLE_SCOPE = 3, /* what a name is in, without the `::` after it */
    SYMDEMANGLE_ROLE_BASE = 4, /* the name itself, without its scope and its arguments */
    SYMDEMANGLE_ROLE_ABI_TAG = 5, /* a tag of a C++ name, with its brackets */
    SYMDEMANGLE_ROLE_GENERIC_ARGUMENTS = 6, /* the template or generic arguments of a name, with their brackets */
    SYMDEMANGLE_ROLE_GENERIC_ARGUMENT = 7, /* one of them */
    SYMDEMANGLE_ROLE_PARAMETERS = 8, /* a function's parameters, with their parentheses */
    SYMDEMANGLE_ROLE_PARAMETER = 9, /* one of them */
    SYMDEMANGLE_ROLE_QUALIFIERS = 10, /* the qualifiers after a function's parameters, or after the name of a variable */
    SYMDEMANGLE_ROLE_OBJECT = 11, /* what a special name belongs to */
    SYMDEMANGLE_ROLE_SUFFIX = 12, /* the suffix of a clone, without its parentheses */
    SYMDEMANGLE_ROLE_CRATE = 13, /* the crate at the front of a Rust path */
    SYMDEMANGLE_ROLE_IMPL = 14, /* the impl at the front of a Rust path */
    SYMDEMANGLE_ROLE_SELF_TYPE = 15, /* the type that an impl is of */
    SYMDEMANGLE_ROLE_TRAIT = 16, /* the trait that an impl is of */
    SYMDEMANGLE_ROLE_HASH = 17, /* the hash of an older Rust name */
    SYMDEMANGLE_ROLE_INSTANTIATING_CRATE = 18 /* the crate that a Rust function was instantiated in */
};

/* What a name is. New ones may come with any version; a number is never used again. */
enum symdemangle_kinds {
    /* Generated by tools/part_words.py. */
    SYMDEMANGLE_KIND_FUNCTION = 1, /* a C++ function that is none of the following */
    SYMDEMANGLE_KIND_CONSTRUCTOR = 2, /* a constructor, also one that is inherited */
    SYMDEMANGLE_KIND_DESTRUCTOR = 3, /* a destructor */
    SYMDEMANGLE_KIND_OPERATOR = 4, /* an operator that is called as a function is */
    SYMDEMANGLE_KIND_CONVERSION = 5, /* a conversion to another type */
    SYMDEMANGLE_KIND_LITERAL_OPERATOR = 6, /* the operator of a literal's ending */
    SYMDEMANGLE_KIND_LAMBDA = 7, /* the call of a lambda */
    SYMDEMANGLE_KIND_VARIABLE = 8, /* a C++ variable that is none of the following, or another object */
    SYMDEMANGLE_KIND_LOCAL_VARIABLE = 9, /* a variable in a function */
    SYMDEMANGLE_KIND_STRING_LITERAL = 10, /* a string literal in a function */
    SYMDEMANGLE_KIND_VTABLE = 11, /* the table of a class's virtual functions */
    SYMDEMANGLE_KIND_VTT = 12, /* the table of a class's tables */
    SYMDEMANGLE_KIND_TYPEINFO = 13, /* what a program knows of a type as it runs */
    SYMDEMANGLE_KIND_TYPEINFO_NAME = 14, /* the name of a type, as a program knows it */
    SYMDEMANGLE_KIND_CONSTRUCTION_VTABLE = 15, /* the table of virtual functions of a base while an object is made */
    SYMDEMANGLE_KIND_GUARD = 16, /* the guard of a variable, which tells whether it is made */
    SYMDEMANGLE_KIND_THUNK = 17, /* a function that adds a number to `this`, and goes on to another */
    SYMDEMANGLE_KIND_VIRTUAL_THUNK = 18, /* a function that adds a number from a table to `this`, and goes on to another */
    SYMDEMANGLE_KIND_COVARIANT_THUNK = 19, /* a function that also adds a number to what the other returns */
    SYMDEMANGLE_KIND_TLS_INIT = 20, /* the function that makes a variable of a thread */
    SYMDEMANGLE_KIND_TLS_WRAPPER = 21, /* the function that finds a variable of a thread */
    SYMDEMANGLE_KIND_TEMPLATE_OBJECT = 22, /* the object that is a template's argument */
    SYMDEMANGLE_KIND_REFERENCE_TEMPORARY = 23, /* an object that a reference holds */
    SYMDEMANGLE_KIND_TRANSACTION_CLONE = 24, /* the clone of a function for transactions */
    SYMDEMANGLE_KIND_VALUE = 25, /* a Rust function or static, which names don't tell apart */
    SYMDEMANGLE_KIND_TYPE = 26, /* a Rust type */
    SYMDEMANGLE_KIND_CLOSURE = 27, /* a Rust closure */
    SYMDEMANGLE_KIND_SHIM = 28, /* a function that the Rust compiler writes */
    SYMDEMANGLE_KIND_ITEM = 29, /* another thing in a Rust path */
    SYMDEMANGLE_KIND_IMPL = 30, /* a Rust impl */
    SYMDEMANGLE_KIND_CRATE = 31 /* a Rust crate */
};

/* How a name is mangled. */
enum symdemangle_manglings {
    SYMDEMANGLE_ITANIUM = 1,    /* C++, by the Itanium ABI */
    SYMDEMANGLE_RUST_V0 = 2,    /* Rust, by RFC 2603 */
    SYMDEMANGLE_RUST_LEGACY = 3 /* Rust's older names, with SYMDEMANGLE_LEGACY */
};

/* A part of a text: which of symdemangle_roles it is; where it starts in the text, and how many bytes it has; and where the bytes
   of the name that spell it start and end. An underscore that was dropped counts. */
typedef struct {
    uint32_t role;
    uint32_t start;
    uint32_t length;
    uint32_t from;
    uint32_t to;
} symdemangle_part;

/* What symdemangle_parts reports of a name: how many bytes and parts were written (SYMDEMANGLE_OK) or are needed
   (SYMDEMANGLE_BUFFER), and which of symdemangle_kinds and symdemangle_manglings the name has; with any other status these four
   are 0. `offset` and `status` are those of a symdemangle_result. */
typedef struct {
    size_t length;
    size_t count;
    uint32_t offset;
    uint32_t status;
    uint32_t kind;
    uint32_t mangling;
} symdemangle_name;

/* Of a filtered text's words that begin like symbols: how many there are, how many were replaced, and how many weren't. */
typedef struct {
    uint64_t words;
    uint64_t replaced;
    uint64_t refused;
} symdemangle_tally;

/* The version of the library with which the program runs; SYMDEMANGLE_VERSION is the header's. */
uint32_t symdemangle_version(void);

/* A status in a few words, as "not a symbol": a constant string, for any number. */
const char *symdemangle_message(uint32_t status);

/* Writes the text of a name to the front of the buffer, if it costs at most `limit`. A name that begins with "_Z" is read as C++,
   one that begins with "_R" as Rust, any other as a C++ type where SYMDEMANGLE_TYPES asks for it; a type's text costs what that of
   its _ZTI symbol does. SYMDEMANGLE_OK, _MALFORMED, _BAD_REFERENCE, _BAD_VALUE, _TOO_LONG, _MEMORY, _BUFFER, _SIZE,
   _FLAGS, _NULL, _NO_SYMBOL. */
uint32_t symdemangle_text(const char *name, size_t name_length, uint32_t limit, uint32_t flags, char *buffer, size_t capacity,
                          symdemangle_result *result);

/* Writes the text of a name as symdemangle_text does, and its parts to the front of `parts`: which stretches of the text are the
   name's scope, its base, each of its arguments and parameters. Each is a slice of the text; they are in the order of their starts,
   and two of them are apart, or one is within the other. Each has the bytes of the name that spell it; what a reference refers to is
   spelled by the reference. Parts that the text doesn't have, as the hash of an older Rust name, come last: `start` is the text's length,
   and `length` is 0. 16 parts serve 99 names of 100. Where the text or the parts have no room, neither is written (SYMDEMANGLE_BUFFER).
   `parts` may be null where `part_capacity` is 0. Short texts and types have no parts: with SYMDEMANGLE_SHORT or _TYPES it answers
   SYMDEMANGLE_FLAGS. SYMDEMANGLE_OK, _MALFORMED, _BAD_REFERENCE, _BAD_VALUE, _TOO_LONG, _MEMORY, _BUFFER, _SIZE, _FLAGS, _NULL,
   _NO_SYMBOL. */
uint32_t symdemangle_parts(const char *name, size_t name_length, uint32_t limit, uint32_t flags, char *buffer, size_t capacity,
                           symdemangle_part *parts, size_t part_capacity, symdemangle_name *result);

/* The word for a role, as "return_type", and for a kind, as "function": constant strings, null for a number that is none. */
const char *symdemangle_role(uint32_t role);
const char *symdemangle_kind(uint32_t kind);

/* The text of a C string within SYMDEMANGLE_DEFAULT_LIMIT, as a new C string; null where the name has no text, is null, or where
   memory runs out. libsymdemangle_arena.a doesn't have it. */
char *symdemangle_string(const char *name, uint32_t flags);

/* Gives back what symdemangle_string made; given null, it does nothing. */
void symdemangle_free(char *string);

/* The texts of many names, with one set of lists for all of them: the call for more than one name. Name i is in `names` from
   ends[i - 1] (the first name from 0) to ends[i]. What symdemangle_text would answer for name i is in results[i]; the texts of names
   with SYMDEMANGLE_OK are in the buffer, one after the other from its front. A name whose text has no room in the rest of the buffer
   gets SYMDEMANGLE_BUFFER, and later, shorter texts may still fit. Here `ends` and `results` have `count` entries. SYMDEMANGLE_OK
   (each name is answered, also by lack of memory), _FLAGS, _ENDS, _NULL; with any answer but SYMDEMANGLE_OK the results stay as
   they are. */
uint32_t symdemangle_texts(const char *names, size_t names_length, const size_t *ends, size_t count, uint32_t limit,
                           uint32_t flags, char *buffer, size_t capacity, symdemangle_result *results);

/* Writes a text with each word that is a symbol replaced by its text, as the program's filter does: many symbols in one call,
   with one set of lists for all of them. Words are runs of ASCII letters, digits, "_", ".", "$" and bytes from 0x80, without the
   dots at their end (SYMDEMANGLE_WITHIN and SYMDEMANGLE_ASCII_WORDS find others); those of more than 65,536 bytes, and those that
   are refused, stay as they are. Where the buffer is too small, the rest of the text is counted and not kept. `tally` may be null.
   SYMDEMANGLE_OK, _MEMORY, _BUFFER, _FLAGS, _NULL. */
uint32_t symdemangle_filter(const char *text, size_t text_length, uint32_t limit, uint32_t flags, char *buffer, size_t capacity,
                            symdemangle_tally *tally, symdemangle_result *result);

/* The work that reading a name's symbol takes, which no limit bounds. SYMDEMANGLE_OK, _MALFORMED, _BAD_REFERENCE, _BAD_VALUE,
   _MEMORY, _SIZE, _FLAGS, _NULL, _NO_SYMBOL. */
uint32_t symdemangle_count(const char *name, size_t name_length, uint32_t flags, symdemangle_counts *counts,
                           symdemangle_result *result);

/* Writes the pressed spelling of a name: the one in which each part that repeats is a reference, so that different spellings of the
   same symbol become equal. An underscore that was dropped is before it again. With SYMDEMANGLE_WIDE a C++ symbol has a pressed
   spelling only where that spelling is read as the same symbol; libraries from before this call took the flag answer
   SYMDEMANGLE_FLAGS. SYMDEMANGLE_OK, _MALFORMED, _BAD_REFERENCE, _BAD_VALUE, _MEMORY, _BUFFER, _SIZE, _FLAGS, _NULL, _NO_SYMBOL,
   _NO_SPELLING. */
uint32_t symdemangle_press(const char *name, size_t name_length, uint32_t flags, char *buffer, size_t capacity,
                           symdemangle_result *result);

#ifdef __cplusplus
}
#endif
#endif
