"""Streams that are filtered in pieces: the bytes that are written are those of the whole text filtered at once."""

from __future__ import annotations

import re
from functools import lru_cache
from typing import Callable

# The library leaves longer words as they are.
LONGEST_WORD = 65_536

# The class of a byte, for cuts: a byte in a run, the first byte of an escape, a byte within the escape of a colour, or none of these.
_RUN, _ESCAPE, _COLOUR, _BREAK = b"a", b"\\", b";", b" "


@lru_cache
def _kinds(within: bool, ascii_words: bool) -> bytes:
    def kind(byte: int) -> bytes:
        if byte >= 0x80:
            return _BREAK if ascii_words else _RUN
        if chr(byte).isalnum() or chr(byte) in "_.$":
            return _RUN
        if not within:
            return _BREAK
        return _ESCAPE if chr(byte) in "\\\x1b" else _COLOUR if chr(byte) in "[;:" else _BREAK

    return b"".join(map(kind, range(256)))


# The escapes whose letters belong to no run: of a colour, of a line's end, and of a character's number.
_ESCAPES = re.compile(
    rb"(?:\x1b|\\e|\\033|\\x1[bB]|\\u001[bB])\[[0-9;:]*[A-Za-z]|\\[nrt]|\\u[0-9A-Fa-f]{4}|\\x[0-9A-Fa-f]{2}"
)
# The underscore with which a word may begin: one pattern where words begin within runs, and one where each run is a word.
_WITHIN = re.compile(rb"(?<![A-Za-z0-9_])_")
_AT_ONCE = re.compile(rb"\A_")
_ASCII = bytes(range(128))


def _short(run: bytes) -> bytes:
    """A few bytes that replace a run in which no word may begin: after them, a word begins just as it would after the run."""
    stretch = run[len(run.rstrip(_ASCII)) :]
    return stretch[:1] + b"a" + stretch[-1:] if stretch else run[-1:]


class Pieces:
    """Takes a stream piece by piece, and writes what each piece completes. Holds at most one piece, and a run of up to twice the
    longest word."""

    def __init__(self, filtered: Callable[[bytes], bytes], write: Callable[[bytes], object], within: bool, ascii_words: bool) -> None:
        self._filtered, self._write = filtered, write
        self._kinds = _kinds(within, ascii_words)
        self._open = _WITHIN if within else _AT_ONCE
        self._held = bytearray()
        self._written = 0  # how many bytes at the front of these were written before
        self._passes = False  # whether the rest of a run goes out as it is

    def push(self, piece: bytes) -> None:
        """Takes a piece. The piece is cut where no escape can be open: after a byte outside escapes, or before the first byte of an
        escape."""
        if self._passes:
            piece = self._pass(piece)
        kinds, at = piece.translate(self._kinds), len(self._held)
        self._held += piece
        cut = max(kinds.rfind(_BREAK) + 1, kinds.rfind(_ESCAPE))
        if cut > 0 or kinds.startswith(_ESCAPE):
            self._filter(at + cut)
            kinds, at = kinds[cut:], 0
        if not self._held.startswith((b"\\", b"\x1b")):
            end = len(kinds.rstrip(_RUN))
            self._filter(at + end if end else 0)
        if len(self._held) > LONGEST_WORD:
            self._cut_run()

    def end(self) -> None:
        """Writes what is held."""
        self._filter(len(self._held))

    def _filter(self, length: int) -> None:
        if length:
            self._write(self._filtered(bytes(self._held[:length]))[self._written :])
            del self._held[:length]
            self._written = 0

    def _pass(self, piece: bytes) -> bytes:
        """Writes the bytes at the front of a piece that belong to the run before it; answers the rest."""
        rest = piece.translate(self._kinds).lstrip(_RUN)
        if rest:
            self._passes = False
        front = len(piece) - len(rest)
        self._write(piece[:front])
        return piece[front:]

    def _cut_run(self) -> None:
        """Writes what no word of a long run can need: the bytes before the place where a word may begin, or all bytes
        where the word would be too long."""
        escape = _ESCAPES.match(self._held)
        self._filter(escape.end() if escape else 0)
        self._filter(len(self._held.translate(self._kinds).rstrip(_RUN)))
        run = bytes(self._held)
        if len(run) <= LONGEST_WORD:
            return
        found = self._open.search(run)
        word = run[found.start() :] if found else b""
        if len(word.rstrip(b".")) > LONGEST_WORD or len(word) > 2 * LONGEST_WORD:
            self._passes, word, front = True, b"", run
        else:
            front = run[: len(run) - len(word)]
        self._write(front[self._written :])
        context = b"" if self._passes or not front else _short(front)
        self._held, self._written = bytearray(context + word), len(context)
