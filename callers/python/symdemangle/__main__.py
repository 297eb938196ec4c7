"""Prints the given names, or standard input if none are given, with each word that is a symbol replaced by its text, as the program
demangle does."""

import argparse
import os
import sys

from . import DEFAULT_LIMIT, Options, Refused, __version__, filter_bytes, filter_stream, try_demangle

# The exit status when the reader has gone: what a shell reports for a program that SIGPIPE ends.
READER_GONE = 141


def limit(word: str) -> int:
    """The number of --limit."""
    try:
        return Options(limit=int(word)).limit
    except ValueError:
        raise argparse.ArgumentTypeError("a number from 0 to 4294967295 is needed") from None


def arguments() -> argparse.Namespace:
    parser = argparse.ArgumentParser(prog="python3 -m symdemangle", description=__doc__, allow_abbrev=False)
    parser.add_argument("names", metavar="NAME", nargs="*", help="a mangled name, or a text with names in it")
    parser.add_argument("--brief", action="store_true", help="leave out template and generic arguments")
    parser.add_argument("--short", action="store_true", help="shorten C++ names: leave out what is the default in std")
    parser.add_argument("--keep-inline", action="store_true", help="with --short, keep inline namespaces")
    parser.add_argument("-p", "--no-params", action="store_true", help="show each C++ function as its name alone")
    parser.add_argument("-t", "--types", action="store_true", help="also demangle a NAME that is a C++ type (PKc)")
    parser.add_argument("--ascii-words", action="store_true", help="end words at bytes from 0x80, and begin them where runs begin")
    parser.add_argument("--limit", type=limit, default=DEFAULT_LIMIT, metavar="N", help="what a text may cost, about its bytes [%(default)s]")
    parser.add_argument("-v", "-V", "--version", action="version", version=f"symdemangle {__version__}")
    return parser.parse_args()


def answer(name: bytes, types: bool, options: dict) -> bytes:
    """The line for a name: the text of a type, or the name filtered."""
    if types:
        try:
            return os.fsencode(try_demangle(name, types=True, **options))
        except Refused:
            pass
    return filter_bytes(name, ascii_words=False, **options)


def main() -> int:
    asked = arguments()
    options = {
        "brief": asked.brief, "no_parameters": asked.no_params, "limit": asked.limit, "short": asked.short, "keep_inline": asked.keep_inline,
    }
    try:
        for name in asked.names:
            sys.stdout.buffer.write(answer(os.fsencode(name), asked.types, options) + b"\n")
        if not asked.names:
            filter_stream(sys.stdin.buffer, sys.stdout.buffer, ascii_words=asked.ascii_words, **options)
        sys.stdout.buffer.flush()
    except BrokenPipeError:
        os.dup2(os.open(os.devnull, os.O_WRONLY), sys.stdout.fileno())  # so that nothing complains at the end
        return READER_GONE
    return 0


if __name__ == "__main__":
    sys.exit(main())
