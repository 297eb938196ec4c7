// Prints what LLVM's partial demangler says of each name of standard input, one name a line: its base, scope, parameters and return type,
// separated by tabs. The line is empty for a name that the partial demangler doesn't read as a function.
#include <cstdio>
#include <cstdlib>
#include <iostream>
#include <string>

#include <llvm/Demangle/Demangle.h>

namespace {

using Part = char *(llvm::ItaniumPartialDemangler::*)(char *, size_t *) const;

// An absent part is a null pointer.
void put(const llvm::ItaniumPartialDemangler &name, Part part) {
    size_t capacity = 0;
    char *text = (name.*part)(nullptr, &capacity);
    std::fputs(text ? text : "", stdout);
    std::free(text);
}

} // namespace

int main() {
    std::string line;
    while (std::getline(std::cin, line)) {
        llvm::ItaniumPartialDemangler name;
        if (!name.partialDemangle(line.c_str()) && name.isFunction()) {
            put(name, &llvm::ItaniumPartialDemangler::getFunctionBaseName);
            for (Part part : {&llvm::ItaniumPartialDemangler::getFunctionDeclContextName, &llvm::ItaniumPartialDemangler::getFunctionParameters,
                              &llvm::ItaniumPartialDemangler::getFunctionReturnType}) {
                std::putchar('\t');
                put(name, part);
            }
        }
        std::putchar('\n');
    }
}
