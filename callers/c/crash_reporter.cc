// A crash reporter: when a program faults, the reporter prints the names of the functions that were running, from within the signal's
// handler and without malloc. It is linked with libsymdemangle_arena.a, and with -rdynamic so that its own functions have names.
#include "symdemangle.h"
#include "symdemangle_arena.h"

#include <csignal>
#include <cstring>
#include <dlfcn.h>
#include <execinfo.h>
#include <unistd.h>

static unsigned char block[128 << 10], stack[64 << 10];
static char buffer[4096];

static void print(const void *bytes, size_t length)
{
    if (write(STDERR_FILENO, bytes, length) < 0)
        _exit(1);
}

static void print_name(const char *name)
{
    symdemangle_result result;
    size_t length = strlen(name);
    uint32_t status = symdemangle_text(name, length, 100000, SYMDEMANGLE_WIDE, buffer, sizeof buffer, &result);
    if (status == SYMDEMANGLE_OK)
        print(buffer, result.length);
    else
        print(name, length); // it isn't mangled, or refused
    print("\n", 1);
}

static void on_fault(int)
{
    void *frames[64];
    int count = backtrace(frames, 64);
    symdemangle_arena mine = {nullptr, 0, 0, 0, 0};
    symdemangle_arena_swap(&mine); // the fault may be in a call of the library
    symdemangle_arena_set(block, sizeof block);
    for (int i = 0; i < count; i++) {
        Dl_info place;
        if (dladdr(frames[i], &place) && place.dli_sname)
            print_name(place.dli_sname);
    }
    _exit(1);
}

namespace app {
template <class T> struct Box {
    T *content;
};

template <class T> __attribute__((noinline)) int open_box(const Box<T> &box, int depth)
{
    return depth ? open_box(box, depth - 1) + 1 : *box.content + 1;
}
} // namespace app

int main()
{
    void *first[1];
    backtrace(first, 1); // it loads what it needs at its first call, which a handler mustn't
    stack_t alternate = {};
    alternate.ss_sp = stack;
    alternate.ss_size = sizeof stack;
    sigaltstack(&alternate, nullptr);
    struct sigaction action = {};
    action.sa_handler = on_fault;
    action.sa_flags = SA_ONSTACK;
    sigaction(SIGSEGV, &action, nullptr);
    return app::open_box(app::Box<volatile int>{nullptr}, 2);
}
