"""The functions of the package cxxfilt, built on this library: from symdemangle import cxxfilt"""

from . import Refused, try_demangle

InvalidName = Refused


def demangle(mangled_name: str, external_only: bool = True) -> str:
    """The text of a symbol, or of a type if not external_only; the name itself if it doesn't begin like a C++ symbol. For any other name
    without a text, InvalidName says why it has none."""
    if external_only and not mangled_name.startswith("_Z"):
        return mangled_name
    return try_demangle(mangled_name, types=not external_only)


def demangleb(mangled_name: bytes, external_only: bool = True) -> bytes:
    """Likewise for bytes."""
    return demangle(mangled_name.decode("utf-8", "surrogateescape"), external_only).encode("utf-8", "surrogateescape")
