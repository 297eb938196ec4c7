#!/usr/bin/env python3
"""Compiles and runs every example of docs/callers and of the headers, and names those that print something else.

    tests/examples.py PREFIX [LIBDIR]

PREFIX is where tools/install.sh put the libraries. An example of a page is a block of c, cpp, rust, python or go that is a whole program; a
block of text after it is what the program prints. An example with the word `arena` after its language is linked with
libsymdemangle_arena.a. The example in Rattle is the source of a crate that the gate proves. Code in the headers' comments is compiled as
the body of a function. Languages whose compiler isn't installed are named and left out. The status is 1 where an example differs, 2 where
there is none.
"""

import glob
import os
import re
import shutil
import subprocess
import sys
import tempfile

TOP = os.path.join(os.path.dirname(os.path.abspath(__file__)), "..")
PAGES = os.path.join(TOP, "docs", "callers")
BLOCK = re.compile(r"^```(c|cpp|rust|python|go)( arena)?\n(.*?)^```\n(?:```text\n(.*?)^```\n)?", re.M | re.S)
# cargo requires the crate cc, which Debian has as librust-cc-dev.
CRATES = ["--config", os.path.join(TOP, "tests", "callers", "debian_crates.toml")] if glob.glob("/usr/share/cargo/registry/cc-*") else []
NEEDS = {"c": "cc", "cpp": "c++", "rust": "cargo", "python": "python3", "go": "go"}
# The program around a fragment of the headers' comments. A line of a fragment that prints has its output after two slashes.
FRAGMENT = """{includes}
int main(void)
{{
    static unsigned char block[1 << 16];
    const char *name = "_RNvC3foo3bar";
    size_t length = 13;
    (void)name, (void)length, (void)block;
{body}
    return 0;
}}
"""
INCLUDES = {
    ".h": '#include "symdemangle.h"\n#include "symdemangle_arena.h"\n#include <stdio.h>\n#include <stdlib.h>',
    ".hpp": '#include "symdemangle.hpp"\n#include <iostream>',
}


class Examples:
    def __init__(self, prefix, library, folder):
        self.prefix, self.library, self.folder = prefix, library, folder
        self.count = self.failed = 0
        self.left_out = set()

    def run(self, words, **more):
        env = {**os.environ, "LD_LIBRARY_PATH": self.library, "PKG_CONFIG_PATH": os.path.join(self.library, "pkgconfig")}
        env.update(more.pop("env", {}))
        return subprocess.run(words, capture_output=True, text=True, env=env, **more)

    def put(self, name, text):
        path = os.path.join(self.folder, name)
        os.makedirs(os.path.dirname(path), exist_ok=True)
        with open(path, "w", encoding="utf-8") as file:
            file.write(text)
        return path

    def compiled(self, compiler, standard, name, source, arena):
        made = os.path.join(self.folder, "example")
        archive = os.path.join(self.library, "libsymdemangle_arena.a" if arena else "libsymdemangle.a")
        words = [compiler, f"-std={standard}", "-Wall", "-Wextra", "-Werror", "-I", os.path.join(self.prefix, "include")]
        told = self.run([*words, self.put(name, source), "-o", made, archive])
        return told if told.returncode else self.run([made])

    def ran(self, language, source, arena):
        """What a program of a language prints."""
        if language == "c":
            return self.compiled("cc", "c99", "example.c", source, arena)
        if language == "cpp":
            return self.compiled("c++", "c++17", "example.cc", source, arena)
        if language == "python":
            package = os.path.join(TOP, "callers", "python")
            env = {"PYTHONPATH": package, "SYMDEMANGLE_LIBRARY": os.path.join(self.library, "libsymdemangle.so"), "PYTHONDONTWRITEBYTECODE": "1"}
            return self.run([sys.executable, self.put("example.py", source)], env=env)
        if language == "rust":
            crate = os.path.join(self.prefix, "share", "symdemangle", "rust")
            self.put("rust/src/main.rs", source)
            self.put("rust/Cargo.toml", f'[package]\nname = "example"\nversion = "0.1.0"\nedition = "2024"\n[dependencies]\nsymdemangle = {{ path = "{crate}" }}\n')
            env = {"SYMDEMANGLE_DIR": self.library, "CARGO_TARGET_DIR": os.path.join(self.folder, "target")}
            return self.run(["cargo", *CRATES, "run", "--quiet", "--offline", "--manifest-path", os.path.join(self.folder, "rust", "Cargo.toml")], env=env)
        module = os.path.join(self.folder, "go")
        shutil.copytree(os.path.join(self.prefix, "share", "symdemangle", "go"), os.path.join(module, "symdemangle"), dirs_exist_ok=True)
        self.put("go/main.go", source)
        self.put("go/go.mod", "module example\n\ngo 1.19\n\nrequire symdemangle v0.0.0\n\nreplace symdemangle => ./symdemangle\n")
        env = {"GOPROXY": "off", "GOFLAGS": "-mod=mod", "GOCACHE": os.path.join(self.folder, "gocache")}
        return self.run(["go", "run", "."], cwd=module, env=env)

    def tell(self, where, holds, told):
        self.count += 1
        if not holds:
            self.failed += 1
            print(f"{where}:\n{told.stdout}{told.stderr}")

    def page(self, name):
        with open(os.path.join(PAGES, name), encoding="utf-8") as file:
            text = file.read()
        for found in BLOCK.finditer(text):
            language, arena, source, wanted = found.groups()
            if name == "RATTLE.md":
                continue
            if not shutil.which(NEEDS[language]):
                self.left_out.add(NEEDS[language])
                continue
            if language == "rust" and not CRATES:
                self.left_out.add("librust-cc-dev")
                continue
            told = self.ran(language, source, arena)
            self.tell(f"{name}, line {text.count(chr(10), 0, found.start()) + 1}", told.returncode == 0 and told.stdout == (wanted or ""), told)

    def header(self, name, front, arena):
        """The fragments in a header's first comment. Each line of the comment begins with `front`."""
        with open(os.path.join(self.prefix, "include", name), encoding="utf-8") as file:
            comment = re.split(r"\*/|^#", file.read(), maxsplit=1, flags=re.M)[0]
        lines = [line[len(front) :] if line.startswith(front) else "" for line in comment.splitlines()]
        fragments = [body for body in re.findall(r"(?:^[^\n]+\n)+", "\n".join(lines) + "\n", re.M) if ";" in body]
        for body in fragments:
            wanted = "".join(re.findall(r"^(?:puts|std::cout).*// (.*)$", body, re.M))
            includes = INCLUDES[os.path.splitext(name)[1]]
            body = "".join(f"    {line}\n" for line in body.replace("...", ";").splitlines())
            source = FRAGMENT.format(includes=includes, body=body)
            told = self.ran("cpp" if name.endswith("pp") else "c", source, arena)
            self.tell(f"{name}\n{body}", told.returncode == 0 and (not wanted or told.stdout.strip() == wanted), told)
        if not fragments:
            self.tell(f"{name} shows nothing", False, subprocess.CompletedProcess([], 1, "", ""))

    def rattle(self):
        """Checks that the source on the page is that of the crate."""
        with open(os.path.join(PAGES, "RATTLE.md"), encoding="utf-8") as file:
            shown = re.search(r"^```rust\n(.*?)^```$", file.read(), re.M | re.S)[1]
        with open(os.path.join(TOP, "crates", "example_demangle", "src", "lib.rt"), encoding="utf-8") as file:
            source = file.read()
        self.tell("RATTLE.md: not the crate's source", shown.strip() == source.strip(), subprocess.CompletedProcess([], 0, shown, ""))


def main():
    if len(sys.argv) not in (2, 3):
        sys.exit(__doc__)
    prefix = os.path.abspath(sys.argv[1])
    library = os.path.join(prefix, sys.argv[2] if len(sys.argv) == 3 else "lib")
    with tempfile.TemporaryDirectory() as folder:
        examples = Examples(prefix, library, folder)
        for name in sorted(os.listdir(PAGES)):
            examples.page(name)
        examples.rattle()
        examples.header("symdemangle.h", " " * 7, arena=False)
        examples.header("symdemangle.hpp", "//     ", arena=False)
        examples.header("symdemangle_arena.h", " " * 9, arena=True)
    for program in sorted(examples.left_out):
        print(f"{program} isn't installed: its examples aren't tested")
    print(f"{examples.count} examples, {examples.failed} differ")
    sys.exit(2 if not examples.count else 1 if examples.failed else 0)


if __name__ == "__main__":
    main()
