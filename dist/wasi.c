/* What the programs call of the system, by WASI (preview 1) and without a C library, in the place of port.c:

       make demangle.wasm symfilt.wasm

   compiles them for wasm64 by clang and wasm-ld, and cuts their addresses to 32 bits by binaryen's wasm-opt, for hosts of today. Memory is given
   out in blocks of powers of two, which are kept in lists when they are given back. */
#include <stddef.h>
#include <stdint.h>

uint32_t port_main(void);

typedef struct {
    uint64_t f0, f1;
} tried;

#define IMPORT(name) __attribute__((import_module("wasi_snapshot_preview1"), import_name(#name))) extern
IMPORT(args_sizes_get) uint32_t args_sizes_get(uint32_t count, uint32_t bytes);
IMPORT(args_get) uint32_t args_get(uint32_t words, uint32_t bytes);
IMPORT(environ_sizes_get) uint32_t environ_sizes_get(uint32_t count, uint32_t bytes);
IMPORT(environ_get) uint32_t environ_get(uint32_t words, uint32_t bytes);
IMPORT(fd_read) uint32_t fd_read(uint32_t stream, uint32_t parts, uint32_t count, uint32_t done);
IMPORT(fd_write) uint32_t fd_write(uint32_t stream, uint32_t parts, uint32_t count, uint32_t done);
IMPORT(fd_seek) uint32_t fd_seek(uint32_t stream, int64_t by, uint32_t from, uint32_t place);
IMPORT(fd_close) uint32_t fd_close(uint32_t stream);
IMPORT(fd_fdstat_get) uint32_t fd_fdstat_get(uint32_t stream, uint32_t found);
IMPORT(path_open) uint32_t path_open(uint32_t folder, uint32_t follows, uint32_t path, uint32_t length, uint32_t how, uint64_t rights,
                                     uint64_t more_rights, uint32_t flags, uint32_t stream);
IMPORT(path_filestat_get) uint32_t path_filestat_get(uint32_t folder, uint32_t follows, uint32_t path, uint32_t length, uint32_t found);
IMPORT(proc_exit) __attribute__((noreturn)) void proc_exit(uint32_t status);

extern unsigned char __heap_base;

/* An address as the host takes it; the module has none above 4 GiB. */
static uint32_t at(const void *address)
{
    return (uint32_t)(uintptr_t)address;
}

void *memcpy(void *to, const void *from, size_t count)
{
    return __builtin_memcpy(to, from, count); /* one instruction, with -mbulk-memory */
}

void *memmove(void *to, const void *from, size_t count)
{
    return __builtin_memmove(to, from, count);
}

void *memset(void *to, int byte, size_t count)
{
    return __builtin_memset(to, byte, count);
}

static size_t length_of(const char *word)
{
    size_t length = 0;
    while (word[length])
        length++;
    return length;
}

/* Memory: a block of 2^k bytes, 16 of which are before what is given out and have k. */
enum { HEAD = 16, LEAST = 5, MOST = 32 };
typedef struct block {
    uint64_t power;
    struct block *next;
} block;
static block *kept[MOST];
static uintptr_t used, end;
static uint64_t nothing[2];

static int power_of(uint64_t size)
{
    int power = LEAST;
    while (power < MOST && ((uint64_t)1 << power) < size + HEAD)
        power++;
    return power;
}

static block *taken(int power)
{
    block *it = kept[power];
    uint64_t size = (uint64_t)1 << power;
    if (it) {
        kept[power] = it->next;
        return it;
    }
    if (!used)
        used = end = ((uintptr_t)&__heap_base + 15) & ~(uintptr_t)15;
    if (end == used && end < __builtin_wasm_memory_size(0) * 65536)
        end = __builtin_wasm_memory_size(0) * 65536;
    if (end - used < size) {
        uint64_t pages = (size - (end - used) + 65535) / 65536;
        if (pages < 16)
            pages = 16;
        if (__builtin_wasm_memory_grow(0, pages) == (size_t)-1)
            return 0;
        end += pages * 65536;
    }
    it = (block *)used;
    used += size;
    it->power = (uint64_t)power;
    return it;
}

tried port_rattle_alloc(uint64_t size, uint64_t align)
{
    int power = power_of(size);
    block *it = power < MOST ? taken(power) : 0;
    tried answer = {it != 0, (uint64_t)(uintptr_t)(it ? (unsigned char *)it + HEAD : (unsigned char *)nothing)};
    (void)align;
    return answer;
}

void port_rattle_dealloc(uint8_t *given)
{
    block *it = (block *)(void *)(given - HEAD);
    it->next = kept[it->power];
    kept[it->power] = it;
}

tried port_rattle_realloc(uint8_t *given, uint64_t kept_bytes, uint64_t size, uint64_t align)
{
    block *it = (block *)(void *)(given - HEAD);
    tried answer = {1, (uint64_t)(uintptr_t)given};
    if (((uint64_t)1 << it->power) >= size + HEAD)
        return answer;
    answer = port_rattle_alloc(size, align);
    if (answer.f0) {
        memcpy((void *)(uintptr_t)answer.f1, given, kept_bytes < size ? kept_bytes : size);
        port_rattle_dealloc(given);
    }
    return answer;
}

/* Errors by Linux's numbers, with which the programs are proved. */
static uint32_t error;

static uint64_t failed(uint32_t of_wasi)
{
    static const struct {
        uint32_t of_wasi, of_linux;
    } errors[] = {{2, 13}, {6, 11}, {8, 9}, {22, 27}, {27, 4}, {28, 22}, {29, 5}, {31, 21}, {32, 40}, {33, 24}, {37, 36}, {41, 23},
                  {44, 2}, {48, 12}, {51, 28}, {54, 20}, {63, 1}, {64, 32}, {69, 30}, {70, 29}, {76, 13}};
    size_t k;
    error = 5;
    for (k = 0; k < sizeof errors / sizeof *errors; k++)
        if (errors[k].of_wasi == of_wasi)
            error = errors[k].of_linux;
    return (uint64_t)-1;
}

uint32_t port_rattle_errno(void)
{
    return error;
}

void port_rattle_set_errno(int32_t to)
{
    error = (uint32_t)to;
}

/* There are no words for an error. */
uint32_t port___xpg_strerror_r(uint32_t number, uint8_t *to, uint64_t room)
{
    (void)number;
    if (!room)
        return 34;
    *to = 0;
    return 0;
}

/* Quotients of 128 bits, for which clang calls functions on wasm; int128.c has products and shifts. */
typedef unsigned __int128 u128;
u128 __udivti3(u128 of, u128 by);
u128 __umodti3(u128 of, u128 by);

static u128 divided(u128 of, u128 by, u128 *rest)
{
    u128 quotient = 0;
    int k;
    *rest = 0;
    for (k = 127; k >= 0; k--) {
        *rest = *rest << 1 | (of >> k & 1);
        if (*rest >= by) {
            *rest -= by;
            quotient |= (u128)1 << k;
        }
    }
    return quotient;
}

u128 __udivti3(u128 of, u128 by)
{
    u128 rest;
    return divided(of, by, &rest);
}

u128 __umodti3(u128 of, u128 by)
{
    u128 rest;
    divided(of, by, &rest);
    return rest;
}

/* Arguments and the environment: how many words, and where each is. */
typedef struct {
    uint32_t count;
    uint32_t *words;
} list;
static list arguments, environment;

static list words_of(uint32_t (*sizes)(uint32_t, uint32_t), uint32_t (*get)(uint32_t, uint32_t))
{
    static uint32_t count, bytes;
    list none = {0, 0}, all;
    tried words, letters;
    if (sizes(at(&count), at(&bytes)))
        return none;
    words = port_rattle_alloc((uint64_t)count * 4 + 4, 4);
    letters = port_rattle_alloc((uint64_t)bytes + 1, 1);
    all.count = count;
    all.words = (uint32_t *)(uintptr_t)words.f1;
    if (!words.f0 || !letters.f0 || get((uint32_t)words.f1, (uint32_t)letters.f1))
        return none;
    return all;
}

static uint64_t copied(const char *word, uint8_t *to, uint64_t room)
{
    uint64_t length = word ? length_of(word) : 0;
    if (!word)
        return (uint64_t)-1;
    memcpy(to, word, length < room ? length : room);
    return length > room ? (uint64_t)-2 : length;
}

static const char *word_at(list from, uint64_t place)
{
    return place < from.count ? (const char *)(uintptr_t)from.words[place] : 0;
}

uint64_t port_rattle_arg_count(void)
{
    return arguments.count;
}

uint64_t port_rattle_arg(uint64_t place, uint8_t *to, uint64_t room)
{
    return copied(word_at(arguments, place), to, room);
}

uint64_t port_rattle_env_at(uint64_t place, uint8_t *to, uint64_t room)
{
    return copied(word_at(environment, place), to, room);
}

uint64_t port_rattle_env(uint8_t *name, uint8_t *to, uint64_t room)
{
    uint64_t place;
    for (place = 0; place < environment.count; place++) {
        const char *word = word_at(environment, place);
        size_t k = 0;
        while (name[k] && word[k] == (char)name[k])
            k++;
        if (!name[k] && word[k] == '=')
            return copied(word + k + 1, to, room);
    }
    return (uint64_t)-1;
}

/* Streams. */
typedef struct {
    uint32_t at, length;
} part;

static uint64_t moved(uint32_t (*moves)(uint32_t, uint32_t, uint32_t, uint32_t), uint32_t stream, uint8_t *bytes, uint64_t count)
{
    static part one;
    static uint32_t done;
    uint32_t fault;
    one.at = at(bytes);
    one.length = count > 0x40000000 ? 0x40000000 : (uint32_t)count;
    fault = moves(stream, at(&one), 1, at(&done));
    return fault ? failed(fault) : done;
}

uint64_t port_write(uint32_t stream, uint8_t *from, uint64_t count)
{
    return moved(fd_write, stream, from, count);
}

uint64_t port_read(uint32_t stream, uint8_t *to, uint64_t count)
{
    return moved(fd_read, stream, to, count);
}

uint64_t port_lseek(uint32_t stream, uint64_t by, uint32_t from)
{
    static uint64_t place;
    uint32_t fault = fd_seek(stream, (int64_t)by, from, at(&place));
    return fault ? failed(fault) : place;
}

uint32_t port_close(uint32_t stream)
{
    uint32_t fault = fd_close(stream);
    return fault ? (uint32_t)failed(fault) : 0;
}

/* A file in the first folder that the host lends. */
uint32_t port_open(uint8_t *path, uint32_t flags)
{
    static uint32_t stream;
    const uint64_t read_and_seek = 2 | 4 | 32;
    uint32_t fault = flags & 3 ? 2 : path_open(3, 1, at(path), (uint32_t)length_of((const char *)path), 0, read_and_seek, 0, 0, at(&stream));
    return fault ? (uint32_t)failed(fault) : stream;
}

/* Says what a file of that folder is where Linux's struct statx, of 256 bytes, has it: of files the programs ask no more. */
uint32_t port_statx(uint32_t folder, uint8_t *path, uint32_t flags, uint32_t mask, uint8_t *to)
{
    static struct {
        uint64_t device, number;
        uint8_t sort; /* 3: a folder, 4: a regular file */
        uint64_t more[5];
    } found;
    uint32_t fault = path_filestat_get(3, 1, at(path), (uint32_t)length_of((const char *)path), at(&found));
    uint16_t mode = found.sort == 4 ? 0100000 : found.sort == 3 ? 0040000 : 0;
    (void)folder;
    (void)flags;
    (void)mask;
    if (fault)
        return (uint32_t)failed(fault);
    memset(to, 0, 256);
    memcpy(to + 28, &mode, sizeof mode);
    return 0;
}

/* A terminal is a device of characters in which nothing can be sought. */
uint32_t port_isatty(uint32_t stream)
{
    static struct {
        uint8_t sort; /* 2: a device of characters */
        uint16_t flags;
        uint64_t rights, more_rights;
    } found;
    const uint64_t seek_or_tell = 4 | 32;
    return !fd_fdstat_get(stream, at(&found)) && found.sort == 2 && !(found.rights & seek_or_tell);
}

uint64_t port___sysv_signal(uint32_t number, uint64_t handler)
{
    (void)number; /* there are no signals */
    (void)handler;
    return 0;
}

void _start(void)
{
    arguments = words_of(args_sizes_get, args_get);
    environment = words_of(environ_sizes_get, environ_get);
    proc_exit(port_main());
}
