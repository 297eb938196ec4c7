/* What the programs call of the system, by any C library of POSIX or Windows: memory, arguments, the environment, streams, errors.
   The programs are proved with Linux's numbers of errors, so those are what they are told. With PORT_IN_MEMORY defined
   (check_program.c) the file has memory and errors alone. */
#if !defined(_WIN32) && !defined(_POSIX_C_SOURCE)
#define _POSIX_C_SOURCE 200809L
#endif
#include <errno.h>
#include <stdint.h>
#include <stdlib.h>
#include <string.h>

uint32_t port_main(void);

/* The programs' own answer to a request for memory: whether there was room, and where; never null. */
typedef struct {
    uint64_t f0, f1;
} tried;

static uint64_t nothing[2];

static tried tried_at(void *block)
{
    tried answer;
    answer.f0 = block != 0;
    answer.f1 = (uint64_t)(uintptr_t)(block ? block : nothing);
    return answer;
}

tried port_rattle_alloc(uint64_t size, uint64_t align)
{
    (void)align; /* at most 16, which malloc gives */
    return tried_at(malloc(size ? size : 1));
}

tried port_rattle_realloc(uint8_t *block, uint64_t kept, uint64_t size, uint64_t align)
{
    (void)kept;
    (void)align;
    return tried_at(realloc(block, size ? size : 1));
}

void port_rattle_dealloc(uint8_t *block)
{
    free(block);
}

/* The errors that the programs look at, and some that they may show, by Linux's numbers. */
static const struct {
    int here, of_linux;
} errors[] = {
    {EPERM, 1}, {ENOENT, 2}, {EINTR, 4}, {EIO, 5}, {ENXIO, 6}, {EBADF, 9}, {EAGAIN, 11}, {ENOMEM, 12}, {EACCES, 13}, {EEXIST, 17},
    {ENODEV, 19}, {ENOTDIR, 20}, {EISDIR, 21}, {EINVAL, 22}, {ENFILE, 23}, {EMFILE, 24}, {EFBIG, 27}, {ENOSPC, 28}, {ESPIPE, 29},
    {EROFS, 30}, {EPIPE, 32}, {ENAMETOOLONG, 36}, {ELOOP, 40},
};
enum { ERRORS = sizeof errors / sizeof *errors };

uint32_t port_rattle_errno(void)
{
    int k;
    for (k = 0; k < ERRORS; k++)
        if (errors[k].here == errno)
            return (uint32_t)errors[k].of_linux;
    return (uint32_t)errno;
}

void port_rattle_set_errno(int32_t error)
{
    int k;
    errno = (int)error;
    for (k = 0; k < ERRORS; k++)
        if (errors[k].of_linux == (int)error)
            errno = errors[k].here;
}

/* The words for an error, for which there is room: 0, or Linux's number for too little. */
uint32_t port___xpg_strerror_r(uint32_t error, uint8_t *to, uint64_t room)
{
    const char *text;
    int here = (int)error, k;
    for (k = 0; k < ERRORS; k++)
        if (errors[k].of_linux == (int)error)
            here = errors[k].here;
    text = strerror(here);
    if (!text || strlen(text) >= room)
        return 34;
    memcpy(to, text, strlen(text) + 1);
    return 0;
}

/* Copies a word to where there is room: its length, -1 where there is no word, -2 where it doesn't fit. */
static uint64_t copied(const char *word, uint8_t *to, uint64_t room)
{
    uint64_t length = word ? strlen(word) : 0;
    if (!word)
        return (uint64_t)-1;
    memcpy(to, word, length < room ? length : room);
    return length > room ? (uint64_t)-2 : length;
}

static int word_count;
static char **words;

uint64_t port_rattle_arg_count(void)
{
    return (uint64_t)word_count;
}

uint64_t port_rattle_arg(uint64_t place, uint8_t *to, uint64_t room)
{
    return copied(place < (uint64_t)word_count ? words[place] : 0, to, room);
}

#ifndef PORT_IN_MEMORY
#include <fcntl.h>
#include <signal.h>
#include <sys/stat.h>
#ifdef _WIN32
#include <io.h>
#include <windows.h>

#include <shellapi.h>
#else
#include <unistd.h>
extern char **environ;
#endif

uint64_t port_rattle_env(uint8_t *name, uint8_t *to, uint64_t room)
{
    return copied(getenv((const char *)name), to, room);
}

uint64_t port_rattle_env_at(uint64_t place, uint8_t *to, uint64_t room)
{
    uint64_t k = 0;
    while (k < place && environ[k])
        k++;
    return copied(environ[k], to, room);
}

/* Says what a file is where Linux's struct statx, of 256 bytes, has it: of files the programs ask no more. */
static uint32_t told_of_file(uint8_t *to, int is_regular, int is_folder)
{
    uint16_t mode = is_regular ? 0100000 : is_folder ? 0040000 : 0;
    memset(to, 0, 256);
    memcpy(to + 28, &mode, sizeof mode);
    return 0;
}

/* At most 1 GiB at a time: some systems refuse more than an int counts. */
static size_t some(uint64_t count)
{
    return count > 0x40000000 ? 0x40000000 : (size_t)count;
}

#ifdef _WIN32
uint64_t port_write(uint32_t stream, uint8_t *from, uint64_t count)
{
    int64_t done = _write((int)stream, from, (unsigned)some(count));
    if (done < 0 && errno == EINVAL)
        errno = EPIPE; /* the C library's word for a pipe that nobody reads */
    return (uint64_t)done;
}

uint64_t port_read(uint32_t stream, uint8_t *to, uint64_t count)
{
    return (uint64_t)(int64_t)_read((int)stream, to, (unsigned)some(count));
}

uint64_t port_lseek(uint32_t stream, uint64_t by, uint32_t from)
{
    return (uint64_t)_lseeki64((int)stream, (int64_t)by, (int)from);
}

uint32_t port_close(uint32_t stream)
{
    return (uint32_t)_close((int)stream);
}

uint32_t port_open(uint8_t *path, uint32_t flags)
{
    wchar_t wide[32768];
    if (flags & 3) { /* the programs only read */
        errno = EACCES;
        return (uint32_t)-1;
    }
    if (!MultiByteToWideChar(CP_UTF8, MB_ERR_INVALID_CHARS, (const char *)path, -1, wide, 32768)) {
        errno = ENOENT;
        return (uint32_t)-1;
    }
    return (uint32_t)_wopen(wide, _O_RDONLY | _O_BINARY | _O_NOINHERIT);
}

uint32_t port_statx(uint32_t folder, uint8_t *path, uint32_t flags, uint32_t mask, uint8_t *to)
{
    wchar_t wide[32768];
    struct _stat64 found;
    (void)folder;
    (void)flags;
    (void)mask;
    if (!MultiByteToWideChar(CP_UTF8, MB_ERR_INVALID_CHARS, (const char *)path, -1, wide, 32768)) {
        errno = ENOENT;
        return (uint32_t)-1;
    }
    if (_wstat64(wide, &found))
        return (uint32_t)-1;
    return told_of_file(to, (found.st_mode & _S_IFMT) == _S_IFREG, (found.st_mode & _S_IFMT) == _S_IFDIR);
}

/* Whether a stream is a terminal that shows sequences as colours, which the console of Windows 10 does once it is asked to. */
uint32_t port_isatty(uint32_t stream)
{
    DWORD mode;
    HANDLE console = (HANDLE)_get_osfhandle((int)stream);
    if (!_isatty((int)stream) || !GetConsoleMode(console, &mode))
        return 0;
    return SetConsoleMode(console, mode | 0x0004 /* ENABLE_VIRTUAL_TERMINAL_PROCESSING */) != 0;
}

uint64_t port___sysv_signal(uint32_t number, uint64_t handler)
{
    (void)number; /* there is no SIGPIPE to be left out */
    (void)handler;
    return 0;
}

/* The arguments as UTF-8, whatever the code page. */
int main(void)
{
    int count = 0, k;
    wchar_t **wide = CommandLineToArgvW(GetCommandLineW(), &count);
    words = calloc((size_t)count + 1, sizeof *words);
    for (k = 0; words && wide && k < count; k++) {
        int room = WideCharToMultiByte(CP_UTF8, 0, wide[k], -1, 0, 0, 0, 0);
        words[k] = malloc((size_t)room + 1);
        if (!words[k])
            break;
        WideCharToMultiByte(CP_UTF8, 0, wide[k], -1, words[k], room, 0, 0);
        word_count = k + 1;
    }
    for (k = 0; k < 3; k++)
        _setmode(k, _O_BINARY);
    return (int)port_main();
}
#else
uint64_t port_write(uint32_t stream, uint8_t *from, uint64_t count)
{
    return (uint64_t)write((int)stream, from, some(count));
}

uint64_t port_read(uint32_t stream, uint8_t *to, uint64_t count)
{
    return (uint64_t)read((int)stream, to, some(count));
}

uint64_t port_lseek(uint32_t stream, uint64_t by, uint32_t from)
{
    return (uint64_t)lseek((int)stream, (off_t)by, (int)from);
}

uint32_t port_close(uint32_t stream)
{
    return (uint32_t)close((int)stream);
}

uint32_t port_open(uint8_t *path, uint32_t flags)
{
    if (flags & 3) { /* the programs only read */
        errno = EACCES;
        return (uint32_t)-1;
    }
    return (uint32_t)open((const char *)path, O_RDONLY | O_CLOEXEC);
}

uint32_t port_statx(uint32_t folder, uint8_t *path, uint32_t flags, uint32_t mask, uint8_t *to)
{
    struct stat found;
    (void)folder; /* the one where the program was started, as of port_open */
    (void)flags;
    (void)mask;
    if (stat((const char *)path, &found))
        return (uint32_t)-1;
    return told_of_file(to, S_ISREG(found.st_mode), S_ISDIR(found.st_mode));
}

uint32_t port_isatty(uint32_t stream)
{
    return isatty((int)stream) == 1;
}

uint64_t port___sysv_signal(uint32_t number, uint64_t handler)
{
    if (number != 13)
        return 0; /* SIGPIPE alone is asked for, to be left out */
    return (uint64_t)(intptr_t)signal(SIGPIPE, (void (*)(int))(intptr_t)handler);
}

int main(int count, char **given)
{
    word_count = count;
    words = given;
    return (int)port_main();
}
#endif
#endif
