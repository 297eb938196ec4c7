// Times a call of each library for each line of a file: bench/calls.sh builds and runs it.
#include "symdemangle.h"

#include <chrono>
#include <cstdio>
#include <cstdlib>
#include <cstring>
#include <ctime>
#include <fstream>
#include <functional>
#include <memory>
#include <string>
#include <string_view>
#include <vector>

#ifdef WITH_LIBIBERTY
extern "C" char *cplus_demangle(const char *, int);
enum { DMGL_PARAMS = 1, DMGL_ANSI = 2, DMGL_AUTO = 1 << 8 };
#endif
#ifdef WITH_LLVM
#include <llvm/Config/llvm-config.h>
#include <llvm/Demangle/Demangle.h>

static char *llvm_demangled(const char *symbol)
{
    bool is_rust = symbol[0] == '_' && symbol[1] == 'R';
#if LLVM_VERSION_MAJOR < 15
    return is_rust ? llvm::rustDemangle(symbol, nullptr, nullptr, nullptr) : llvm::itaniumDemangle(symbol, nullptr, nullptr, nullptr);
#else
    return is_rust ? llvm::rustDemangle(symbol) : llvm::itaniumDemangle(symbol);
#endif
}
#endif

static std::vector<std::string> symbols;
static std::string all;          /* the names, each on a line */
static std::string joined;       /* the names without the ends of their lines */
static std::vector<size_t> ends; /* the ends of the names in `joined` */
static char buffer[1 << 20];
/* a buffer for what one call answers for all names, which it doesn't fill */
static std::unique_ptr<char[]> large;
static size_t large_size;

static double now()
{
    timespec t;
    clock_gettime(CLOCK_PROCESS_CPUTIME_ID, &t);
    return t.tv_sec + t.tv_nsec * 1e-9;
}

/* A way to call a library, once for each symbol or once for all. It answers how many bytes of text the library gave. */
struct Call {
    const char *name;
    std::function<size_t()> run;
};

static size_t text_by_text()
{
    size_t bytes = 0;
    symdemangle_result result;
    for (const std::string &s : symbols)
        if (symdemangle_text(s.data(), s.size(), 1000000, 0, buffer, sizeof buffer, &result) == SYMDEMANGLE_OK)
            bytes += result.length;
    return bytes;
}

static size_t many_texts()
{
    static std::vector<symdemangle_result> results(symbols.size());
    size_t bytes = 0;
    if (symdemangle_texts(joined.data(), joined.size(), ends.data(), ends.size(), 1000000, 0, large.get(), large_size, results.data()) ==
        SYMDEMANGLE_OK)
        for (const symdemangle_result &result : results)
            bytes += result.status == SYMDEMANGLE_OK ? result.length : 0;
    return bytes;
}

static size_t pressed()
{
    size_t bytes = 0;
    symdemangle_result result;
    for (const std::string &s : symbols)
        if (symdemangle_press(s.data(), s.size(), 0, buffer, sizeof buffer, &result) == SYMDEMANGLE_OK)
            bytes += result.length;
    return bytes;
}

static size_t filtered()
{
    symdemangle_result result;
    uint32_t status = symdemangle_filter(all.data(), all.size(), 1000000, 0, large.get(), large_size, nullptr, &result);
    return status == SYMDEMANGLE_OK ? result.length - symbols.size() : 0;
}

/* How many bytes the texts have of a demangler that allocates each text. */
[[maybe_unused]] static size_t freed(char *(*demangled)(const char *))
{
    size_t bytes = 0;
    for (const std::string &s : symbols)
        if (char *text = demangled(s.c_str())) {
            bytes += std::string_view(text).size();
            free(text);
        }
    return bytes;
}

static const std::vector<Call> calls = {
    {"symdemangle_text", text_by_text},
    {"symdemangle_texts", many_texts},
    {"symdemangle_filter", filtered},
    {"symdemangle_press", pressed},
#ifdef WITH_LIBIBERTY
    {"cplus_demangle", [] { return freed([](const char *s) { return cplus_demangle(s, DMGL_PARAMS | DMGL_ANSI | DMGL_AUTO); }); }},
#endif
#ifdef WITH_LLVM
    {"LLVM", [] { return freed(llvm_demangled); }},
#endif
};

/* The least time of five runs, in nanoseconds of processor time for each symbol. */
static void time_of(const Call &call)
{
    double least = 1e9;
    size_t bytes = 0;
    for (int run = 0; run < 5; run++) {
        double start = now();
        bytes = call.run();
        least = std::min(least, now() - start);
    }
    printf("%-28s %6.0f ns a symbol, %zu bytes of text\n", call.name, least / symbols.size() * 1e9, bytes);
}

int main(int count, char **arguments)
{
    if (count < 2 || count > 3) {
        fprintf(stderr, "usage: calls FILE [CALL]\n");
        return 2;
    }
    std::ifstream file(arguments[1]);
    for (std::string line; std::getline(file, line); all += line + '\n') {
        symbols.push_back(line);
        ends.push_back((joined += line).size());
    }
    large_size = all.size() * 8 + 1;
    large.reset(new char[large_size]);
    if (count == 2)
        for (const Call &call : calls)
            time_of(call);
    else if (!strcmp(arguments[2], "names"))
        for (const Call &call : calls)
            puts(call.name);
    else
        for (const Call &call : calls)
            if (!strcmp(arguments[2], call.name))
                printf("%zu bytes of text\n", call.run());
    return 0;
}
