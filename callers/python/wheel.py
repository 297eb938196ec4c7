#!/usr/bin/env python3
"""Makes the packages for Python of this folder, without a network:

    wheel.py LIBRARY OUT       the wheel around a shared library, as tools/pack.sh makes one
    wheel.py --compiled OUT    the wheel around the library that CC (cc, gcc or clang) compiles from the C file
    wheel.py --sources OUT     the source package, which has the C file

A wheel's name tells where it runs, which is read in the library: the machine, and from which glibc on. The same library gives the
same bytes each time; times are SOURCE_DATE_EPOCH, or 1980. pip builds the source package through the two calls at the end.

The C file is in csrc/ of a source package, and in dist/ of the repository.
"""

import base64
import gzip
import hashlib
import io
import os
import re
import shlex
import shutil
import subprocess
import sys
import tarfile
import tempfile
import time
import zipfile

HERE = os.path.dirname(os.path.abspath(__file__))
# The oldest glibc that a wheel's name may have.
OLDEST = 17
# What a library is called in the package, by the first bytes of its file.
NAMES = {b"\x7fELF": "libsymdemangle.so", b"MZ": "symdemangle.dll", b"\xcf\xfa\xed\xfe": "libsymdemangle.dylib"}
MACHINES = {62: "x86_64", 183: "aarch64", 243: "riscv64"}
# The oldest macOS for which a machine's library is compiled.
OLDEST_MACOS = {"arm64": "11.0", "x86_64": "10.13"}


def number(library, at, size):
    return int.from_bytes(library[at : at + size], "little")


def elf_platform(library):
    """The machine of an ELF file, and the newest glibc 2.x that the file requires, if it requires one."""
    machine = MACHINES[number(library, 18, 2)]
    asked = [int(minor) for minor in re.findall(rb"GLIBC_2\.(\d+)", library)]
    return f"manylinux_2_{max(OLDEST, *asked)}_{machine}" if asked else f"linux_{machine}"


def windows_platform(library):
    return {0x8664: "win_amd64", 0xAA64: "win_arm64"}[number(library, number(library, 60, 4) + 4, 2)]


def macos_platform(library):
    machine = {0x01000007: "x86_64", 0x0100000C: "arm64"}[number(library, 4, 4)]
    return f"macosx_{OLDEST_MACOS[machine].replace('.', '_')}_{machine}"


PLATFORMS = dict(zip(NAMES.values(), (elf_platform, windows_platform, macos_platform)))


def first_of(*names):
    """The first of these paths, relative to this folder, that exists."""
    paths = [os.path.join(HERE, name) for name in names]
    for path in paths:
        if os.path.exists(path):
            return path
    sys.exit(f"wheel.py: there is none of {', '.join(paths)}")


def read(path):
    with open(path, "rb") as file:
        return file.read()


def version():
    return re.search(r'^__version__ = "(.*)"$', read(os.path.join(HERE, "symdemangle/__init__.py")).decode(), re.M)[1]


def metadata():
    return (
        f"Metadata-Version: 2.1\nName: symdemangle\nVersion: {version()}\n"
        "Summary: C++ and Rust names demangled within a limit on the cost of the text, by a proved library\n"
        "License: MIT OR Apache-2.0\nRequires-Python: >=3.9\nDescription-Content-Type: text/markdown\n\n"
    ).encode() + read(os.path.join(HERE, "README.md"))


def package():
    """The files of the package itself."""
    names = [name for name in sorted(os.listdir(os.path.join(HERE, "symdemangle"))) if name.endswith((".py", ".typed"))]
    return {f"symdemangle/{name}": read(os.path.join(HERE, "symdemangle", name)) for name in names}


def licences():
    return {name: read(first_of(name, f"../../{name}")) for name in ("LICENSE-MIT", "LICENSE-APACHE")}


def sources():
    """The C file and its header."""
    return {name: read(first_of(f"csrc/{name}", f"../../dist/{name}")) for name in ("symdemangle.c", "symdemangle.h")}


def moment():
    return max(315532800, int(os.environ.get("SOURCE_DATE_EPOCH", 0)))


def make_wheel(library, out):
    """The wheel around the bytes of a library."""
    name = next(name for magic, name in NAMES.items() if library.startswith(magic))
    tag = f"py3-none-{PLATFORMS[name](library)}"
    info = f"symdemangle-{version()}.dist-info"
    files = {**package(), f"symdemangle/{name}": library}
    files.update({f"{info}/{licence}": content for licence, content in licences().items()})
    files[f"{info}/METADATA"] = metadata()
    files[f"{info}/WHEEL"] = f"Wheel-Version: 1.0\nGenerator: wheel.py\nRoot-Is-Purelib: false\nTag: {tag}\n".encode()
    rows = []
    for path, content in files.items():
        digest = base64.urlsafe_b64encode(hashlib.sha256(content).digest()).rstrip(b"=").decode()
        rows.append(f"{path},sha256={digest},{len(content)}\n")
    files[f"{info}/RECORD"] = "".join([*rows, f"{info}/RECORD,,\n"]).encode()
    os.makedirs(out, exist_ok=True)
    wheel = os.path.join(out, f"symdemangle-{version()}-{tag}.whl")
    with zipfile.ZipFile(wheel, "w", zipfile.ZIP_DEFLATED) as zipped:
        for path, content in files.items():
            entry = zipfile.ZipInfo(path, time.gmtime(moment())[:6])
            entry.external_attr = (0o100755 if path.endswith(name) else 0o100644) << 16
            entry.compress_type = zipfile.ZIP_DEFLATED
            zipped.writestr(entry, content)
    return wheel


def compiled():
    """The bytes of the library that the C compiler makes."""
    compiler = os.environ.get("CC") or next(filter(shutil.which, ("cc", "gcc", "clang")), None)
    if not compiler:
        sys.exit("wheel.py: a C compiler is needed, gcc or clang; CC names it")
    compiler = shlex.split(compiler)
    target = subprocess.run([*compiler, "-dumpmachine"], check=True, capture_output=True, text=True).stdout
    if "apple" in target:
        machine = "x86_64" if target.startswith("x86_64") else "arm64"
        name, flags = "libsymdemangle.dylib", ["-dynamiclib", f"-mmacosx-version-min={OLDEST_MACOS[machine]}"]
    elif "mingw" in target or "windows" in target:
        name, flags = "symdemangle.dll", ["-shared", "-static-libgcc", "-s", "-Wl,--no-insert-timestamp"]
    else:
        name, flags = "libsymdemangle.so", ["-shared", "-fPIC", "-s"]
    with tempfile.TemporaryDirectory() as work:
        for source, content in sources().items():
            with open(os.path.join(work, source), "wb") as file:
                file.write(content)
        given = shlex.split(os.environ.get("CFLAGS", ""))
        subprocess.run([*compiler, "-O2", *given, *flags, "symdemangle.c", "-o", name], check=True, cwd=work)
        return read(os.path.join(work, name))


def make_sources(out):
    """The source package."""
    top = f"symdemangle-{version()}"
    files = {**package(), **licences(), **{f"csrc/{name}": content for name, content in sources().items()}}
    files.update({name: read(os.path.join(HERE, name)) for name in ("README.md", "pyproject.toml", "wheel.py", "tests/calls.py")})
    files["PKG-INFO"] = metadata()
    made = io.BytesIO()
    with gzip.GzipFile("", "wb", 9, made, mtime=moment()) as zipped, tarfile.open(fileobj=zipped, mode="w", format=tarfile.PAX_FORMAT) as tar:
        for path in sorted(files):
            entry = tarfile.TarInfo(f"{top}/{path}")
            entry.size, entry.mtime, entry.mode = len(files[path]), moment(), 0o644
            tar.addfile(entry, io.BytesIO(files[path]))
    os.makedirs(out, exist_ok=True)
    path = os.path.join(out, f"{top}.tar.gz")
    with open(path, "wb") as file:
        file.write(made.getvalue())
    return path


# Called by pip; both functions return a file's name.
def build_wheel(wheel_directory, config_settings=None, metadata_directory=None):
    return os.path.basename(make_wheel(compiled(), wheel_directory))


def build_sdist(sdist_directory, config_settings=None):
    return os.path.basename(make_sources(sdist_directory))


def main():
    if len(sys.argv) != 3:
        sys.exit(__doc__)
    what, out = sys.argv[1:]
    if what == "--sources":
        print(make_sources(out))
    else:
        print(make_wheel(compiled() if what == "--compiled" else read(what), out))


if __name__ == "__main__":
    main()
