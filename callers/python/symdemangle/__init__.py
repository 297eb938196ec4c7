"""Names of C++ (Itanium ABI) and Rust (v0 and older) compilers demangled within a limit on what a text costs, by a proved library.

>>> import symdemangle
>>> symdemangle.demangle("_ZN3foo3barEPKc")
'foo::bar(char const*)'
>>> symdemangle.demangle("main")
'main'
>>> symdemangle.demangle_all(["_Z1fv", "_RNvC3foo3bar"])
['f()', 'foo::bar']
>>> symdemangle.filter_text("at _ZN3foo3barEPKc+0x10")
'at foo::bar(char const*)+0x10'
>>> symdemangle.try_demangle("_Z1fY")
Traceback (most recent call last):
symdemangle.Refused: malformed symbol at 4

Each call takes the same options: `brief` leaves out template and generic arguments; `no_parameters` leaves out what follows a C++
function's name; `wide=False` reads only the ABI's first grammar; `legacy=False` reads Rust's older names as names of C++; `types` reads
a name that doesn't begin like a symbol as a C++ type (`PKc`); `short` leaves out what the templates of std have by default, and std's
inline namespaces unless `keep_inline` is given; `limit`, from 0 to 4294967295, is what a text may cost. Names are strings or bytes;
bytes that aren't UTF-8 are surrogates in strings, as in Python's file names.

A call takes up to 600 bytes of memory for a byte of the name, and `press` 750 (measured), whatever the limit. So cut names that someone
else chose: 4,096 bytes hold nearly all real ones.
"""

from __future__ import annotations

import ctypes
import operator
import os
import re
import sys
from array import array
from dataclasses import dataclass
from functools import cached_property, lru_cache
from itertools import accumulate
from typing import TYPE_CHECKING, BinaryIO, Callable, Iterable, NamedTuple, Union

from ._stream import Pieces

if TYPE_CHECKING:
    from typing_extensions import TypedDict, Unpack

    class Keywords(TypedDict, total=False):
        """The options of a call, as keywords."""

        brief: bool
        no_parameters: bool
        wide: bool
        legacy: bool
        types: bool
        within: bool
        ascii_words: bool
        limit: int
        short: bool
        keep_inline: bool


__version__ = "0.1.0"
__all__ = [
    "Counts", "DEFAULT_LIMIT", "Options", "Parsed", "Part", "Refused", "Tally", "counts", "demangle", "demangle_all", "filter_bytes",
    "filter_stream", "filter_text", "library_version", "parts", "press", "try_demangle",
]

DEFAULT_LIMIT = 1_000_000
_GREATEST_LIMIT = 2**32 - 1
Name = Union[str, bytes, bytearray, memoryview]

_OK, _MEMORY, _BUFFER, _FLAGS, _NO_SYMBOL = 0, 5, 6, 8, 11
_BRIEF, _NO_PARAMETERS, _WIDE, _LEGACY, _UNDERSCORE, _ASCII_WORDS, _WITHIN, _TYPES, _SHORT, _KEEP_INLINE = (1 << i for i in range(10))
# Flags that the first library didn't know: a call that is refused for them is made again without them.
_NEWER = _WITHIN | _TYPES | _SHORT | _KEEP_INLINE


class Refused(ValueError):
    """Why a name has no text, and how many bytes of the name are before its first bad byte."""

    def __init__(self, status: int, offset: int) -> None:
        self.status = status
        self.offset = offset
        message = _library.symdemangle_message(status).decode()
        super().__init__(f"{message} at {offset}" if status in (1, 2, 3) else message)


class Counts(NamedTuple):
    """The work that a symbol of n bytes made: at most 4n + 4 rows, 4n + 8 nodes and 32n + 48 steps."""

    rows: int
    nodes: int
    steps: int


class Part(NamedTuple):
    """A part of a text: what it is, such as "base" or "generic_argument"; where it starts in the text; how many bytes it has; where the
    bytes of the name that spell it start and end; and the part's own text. The name is as it was given: an underscore that was dropped
    counts. A part that the text doesn't have, such as the hash of an older Rust name, is at the text's end, with a length of 0."""

    role: str
    start: int
    length: int
    begin: int
    end: int
    text: str


class Parsed(NamedTuple):
    """A text, what its name is (such as "function"), how the name is mangled ("itanium", "rust-v0", "rust-legacy"), and the parts of the
    text in the order of their starts. Two parts are either apart or one within the other. A newer library may report more roles and
    kinds."""

    text: str
    kind: str
    mangling: str
    parts: tuple[Part, ...]

    def of(self, role: str) -> str:
        """The first part of a role; an empty string where there is none."""
        return next((part.text for part in self.parts if part.role == role), "")

    @property
    def base(self) -> str:
        """The name itself, without its scope and its arguments."""
        return self.of("base")

    @property
    def scope(self) -> str:
        """The scope that the name is in."""
        return self.of("scope")


class Tally(NamedTuple):
    """How many of a text's words begin like symbols, how many of these were replaced by a text, and how many weren't."""

    words: int
    replaced: int
    refused: int


@dataclass(frozen=True)
class Options:
    """How names are read and shown. With `types` a name that doesn't begin like a symbol is read as a C++ type. The words of a filtered
    text are those of the program `demangle`. With `within=False` they are those of `symfilt`, which begin where a run does; with
    `ascii_words` they are those of `symfilt`, but end at bytes from 0x80. A library that is older than `types`, `within` and `short` is
    called without them."""

    brief: bool = False
    no_parameters: bool = False
    wide: bool = True
    legacy: bool = True
    types: bool = False
    within: bool = True
    ascii_words: bool = False
    limit: int = DEFAULT_LIMIT
    short: bool = False
    keep_inline: bool = False

    def __post_init__(self) -> None:
        try:
            limit = operator.index(self.limit)
        except TypeError:
            raise TypeError(f"limit: a whole number is needed, not {type(self.limit).__name__}") from None
        if not 0 <= limit <= _GREATEST_LIMIT:
            raise ValueError(f"limit: {limit} isn't from 0 to {_GREATEST_LIMIT}")
        object.__setattr__(self, "limit", limit)

    @cached_property
    def flags(self) -> int:
        """The flags of a call that takes names."""
        asked = {
            _BRIEF: self.brief, _NO_PARAMETERS: self.no_parameters, _WIDE: self.wide, _LEGACY: self.legacy, _UNDERSCORE: True,
            _TYPES: self.types, _SHORT: self.short, _KEEP_INLINE: self.short and self.keep_inline,
        }
        return sum(flag for flag, is_asked in asked.items() if is_asked)

    @property
    def words(self) -> int:
        """The flag that says how words of a filtered text are found; 0 for the words of `symfilt`."""
        return _ASCII_WORDS if self.ascii_words else _WITHIN if self.within else 0


# The options of recent calls.
_known_options = lru_cache(64, typed=True)(Options)


class _Result(ctypes.Structure):
    _fields_ = [("length", ctypes.c_size_t), ("offset", ctypes.c_uint32), ("status", ctypes.c_uint32)]


class _Counts(ctypes.Structure):
    _fields_ = [("rows", ctypes.c_uint32), ("nodes", ctypes.c_uint32), ("steps", ctypes.c_uint32)]


class _Part(ctypes.Structure):
    _fields_ = [(name, ctypes.c_uint32) for name in ("role", "start", "length", "begin", "end")]


class _Name(ctypes.Structure):
    _fields_ = [
        ("length", ctypes.c_size_t), ("count", ctypes.c_size_t), ("offset", ctypes.c_uint32), ("status", ctypes.c_uint32),
        ("kind", ctypes.c_uint32), ("mangling", ctypes.c_uint32),
    ]


class _Tally(ctypes.Structure):
    _fields_ = [("words", ctypes.c_uint64), ("replaced", ctypes.c_uint64), ("refused", ctypes.c_uint64)]


# The file names of a library that a wheel brings, and of an installed one.
_FILES = {
    "win32": ("symdemangle.dll", "symdemangle.dll"),
    "darwin": ("libsymdemangle.dylib", "libsymdemangle.0.1.dylib"),
}


def _load() -> ctypes.CDLL:
    """The library of SYMDEMANGLE_LIBRARY, the one that the wheel brought, or the installed one."""
    brought, installed = _FILES.get(sys.platform, ("libsymdemangle.so", "libsymdemangle.so.0.1"))
    own = os.path.join(os.path.dirname(__file__), brought)
    library = ctypes.CDLL(os.environ.get("SYMDEMANGLE_LIBRARY") or (own if os.path.exists(own) else installed))
    text, size, number, result = ctypes.c_char_p, ctypes.c_size_t, ctypes.c_uint32, ctypes.POINTER(_Result)
    buffer = [ctypes.c_void_p, size]
    calls = {
        "text": [text, size, number, number, *buffer, result],
        "texts": [text, size, ctypes.c_void_p, size, number, number, *buffer, ctypes.c_void_p],
        "filter": [text, size, number, number, *buffer, ctypes.POINTER(_Tally), result],
        "count": [text, size, number, ctypes.POINTER(_Counts), result],
        "press": [text, size, number, *buffer, result],
        "version": [],
    }
    for name, arguments in calls.items():
        call = getattr(library, f"symdemangle_{name}")
        call.argtypes, call.restype = arguments, number
    for name in ("message", "role", "kind"):
        word = getattr(library, f"symdemangle_{name}", None)
        if word is not None:  # the first library had no parts
            word.argtypes, word.restype = [number], text
    return library


_library = _load()


_PLAIN = Options()


def _asked(options: Keywords) -> Options:
    if not options:
        return _PLAIN
    try:
        return _known_options(**options)
    except TypeError:
        return Options(**options)  # which says what is wrong


def _bytes(given: Name, argument: str) -> bytes:
    """The bytes of a name or text. Raises UnicodeEncodeError for a string without bytes, such as half of a surrogate pair."""
    if isinstance(given, str):
        return given.encode("utf-8", "surrogateescape")
    return _given_bytes(given, argument, "str or bytes")


def _given_bytes(given: Union[bytes, bytearray, memoryview], argument: str, needed: str = "bytes") -> bytes:
    if isinstance(given, bytes):
        return given
    if isinstance(given, (bytearray, memoryview)):
        return bytes(given)
    raise TypeError(f"{argument}: {needed} is needed, not {type(given).__name__}")


def _name(given: Name) -> bytes:
    """The bytes of a name. A string that has none is no symbol."""
    try:
        return _bytes(given, "name")
    except UnicodeEncodeError:
        raise Refused(_NO_SYMBOL, 0) from None


def _string(text: bytes) -> str:
    return text.decode("utf-8", "surrogateescape")


def _shown(name: Name) -> str:
    """A name as it is."""
    return name if isinstance(name, str) else _string(bytes(name))


def _told(call: Callable[[int], int], flags: int) -> int:
    """The status of a call with these flags, or without the newer ones where the library doesn't know them."""
    status = call(flags)
    return call(flags & ~_NEWER) if status == _FLAGS and flags & _NEWER else status


def _address(of: Union[bytearray, array[int]]) -> int:
    """Where a buffer begins. Making an array type for each length, as ctypes does, takes longer than a call."""
    return ctypes.addressof(ctypes.c_char.from_buffer(of))


class _Room:
    """A buffer that calls write texts to, and the result that they report with a text."""

    def __init__(self, size: int) -> None:
        buffer = bytearray(size)
        self.size = size
        self.view = memoryview(buffer)
        self.result = _Result()
        # as arguments of the calls
        self.at = _address(buffer)
        self.told = ctypes.byref(self.result)


# Rooms that no call uses: a call takes one away and puts it back, so that none is shared by threads or by a signal's handler.
_rooms: list[_Room] = []
_ROOM = 1 << 14


def _room_of(size: int) -> _Room:
    """A room of at least this size."""
    if size > _ROOM:
        return _Room(size)
    try:
        return _rooms.pop()
    except IndexError:
        return _Room(_ROOM)


def _written(call: Callable[..., int], flags: int, size: int = 0) -> bytes:
    """What a call writes into a buffer that is large enough."""
    while True:
        room = _room_of(size)
        room.result.length = room.result.offset = 0
        status = _told(lambda known: call(known, room.at, room.size, room.told), flags)
        length, offset = room.result.length, room.result.offset
        text = room.view[:length].tobytes() if status == _OK else b""
        if room.size == _ROOM:
            _rooms.append(room)
        if status == _OK:
            return text
        if status == _MEMORY:
            raise MemoryError
        if status != _BUFFER:
            raise Refused(status, offset)
        size = length


def _text(name: bytes, options: Options) -> Union[bytes, tuple[int, int]]:
    """The text of a name, or the status and the offset of a refusal."""
    room = _room_of(0)
    status = _library.symdemangle_text(name, len(name), options.limit, options.flags, room.at, _ROOM, room.told)
    length, offset = room.result.length, room.result.offset
    text = room.view[:length].tobytes() if status == _OK else b""
    _rooms.append(room)
    if status == _OK:
        return text
    if status in (_BUFFER, _FLAGS):
        return _long_text(name, options, length)
    if status == _MEMORY:
        raise MemoryError
    return status, offset


def _long_text(name: bytes, options: Options, size: int) -> Union[bytes, tuple[int, int]]:
    """Likewise for a name with a long text, or for a library that doesn't know newer flags."""

    def call(flags: int, *buffer: object) -> int:
        return int(_library.symdemangle_text(name, len(name), options.limit, flags, *buffer))

    try:
        return _written(call, options.flags, size)
    except Refused as why:
        return why.status, why.offset


def library_version() -> int:
    """The version of the library that is used: 1,000 for 0.1.0, and rising."""
    return int(_library.symdemangle_version())


def try_demangle(name: Name, **options: Unpack[Keywords]) -> str:
    """The text of a name; Refused says why it has none."""
    text = _text(_name(name), _asked(options))
    if isinstance(text, bytes):
        return _string(text)
    raise Refused(*text)


def demangle(name: Name, **options: Unpack[Keywords]) -> str:
    """The text of a name, or the name where it has none."""
    asked = _asked(options)
    try:
        text = _text(_bytes(name, "name"), asked)
    except UnicodeEncodeError:  # a string that has no bytes is no symbol
        return _shown(name)
    return _string(text) if isinstance(text, bytes) else _shown(name)


def _joined(names: list[Name]) -> tuple[bytes, list[int]]:
    """The bytes of many names, one after the other, and how many each has. A string without bytes counts as empty, so it is no symbol."""
    try:
        string = "".join(names)  # type: ignore[arg-type]
        if string.isascii():
            return string.encode(), [len(name) for name in names]
    except TypeError:
        pass  # some aren't strings
    each = []
    for name in names:
        try:
            each.append(_bytes(name, "names"))
        except UnicodeEncodeError:
            each.append(b"")
    return b"".join(each), [len(name) for name in each]


def demangle_all(names: Iterable[Name], **options: Unpack[Keywords]) -> list[str]:
    """The texts of many names by one call of the library, or the names where they have none."""
    asked, given = _asked(options), list(names)
    if not given:
        return []
    joined, sizes = _joined(given)
    room = 4 * len(joined) + 4096
    ends, buffer, results = array("Q", accumulate(sizes)), bytearray(room), bytearray(ctypes.sizeof(_Result) * len(given))
    at_ends, at_buffer, at_results = _address(ends), _address(buffer), _address(results)

    def call(flags: int) -> int:
        return int(_library.symdemangle_texts(joined, len(joined), at_ends, len(given), asked.limit, flags, at_buffer, room, at_results))

    if _told(call, asked.flags) != _OK:
        return [_shown(name) for name in given]
    # two numbers of each result: the length, and the status above the offset
    told = memoryview(results).cast("Q").tolist()
    lengths, statuses = told[::2], [number >> 32 for number in told[1::2]]
    written = bytes(memoryview(buffer)[: sum([length for length, status in zip(lengths, statuses) if status == _OK])])
    # decoded once where each character is a byte
    string = written.decode("ascii") if written.isascii() else None
    texts, at = [], 0
    for name, length, status in zip(given, lengths, statuses):
        if status == _OK:
            end = at + length
            texts.append(_string(written[at:end]) if string is None else string[at:end])
            at = end
        elif status in (_BUFFER, _MEMORY):
            texts.append(demangle(name, **options))
        else:
            texts.append(_shown(name))
    return texts


def _filtered(text: bytes, options: Options) -> tuple[bytes, Tally]:
    tally = _Tally()

    def call(flags: int, buffer: object, room: int, result: object) -> int:
        told = ctypes.byref(tally)
        return int(_library.symdemangle_filter(text, len(text), options.limit, flags, buffer, room, told, result))

    # a filtered text has no types
    filtered = _written(call, options.flags & ~_TYPES | options.words, 2 * len(text) + 4096)
    return filtered, Tally(tally.words, tally.replaced, tally.refused)


def filter_bytes(text: Union[bytes, bytearray, memoryview], **options: Unpack[Keywords]) -> bytes:
    """A text with each word that is a symbol replaced by its text."""
    return _filtered(_given_bytes(text, "text"), _asked(options))[0]


# The characters of a string that have no bytes.
_WITHOUT_BYTES = re.compile("([\ud800-\udc7f\udd00-\udfff]+)")


def filter_text(text: Name, **options: Unpack[Keywords]) -> str:
    """Likewise for a string. A character without bytes, such as half of a surrogate pair, belongs to no word."""
    asked = _asked(options)
    try:
        return _string(_filtered(_bytes(text, "text"), asked)[0])
    except UnicodeEncodeError:
        parts = _WITHOUT_BYTES.split(_shown(text))
        parts[::2] = [_string(_filtered(_bytes(part, "text"), asked)[0]) for part in parts[::2]]
        return "".join(parts)


def filter_stream(source: BinaryIO, sink: BinaryIO, **options: Unpack[Keywords]) -> Tally:
    """Writes what a source gives to a sink, with each word that is a symbol replaced by its text, as soon as whole words have been
    read. It holds one piece of the source, and a run of up to 131,072 bytes."""
    asked, total = _asked(options), Tally(0, 0, 0)

    def filtered(text: bytes) -> bytes:
        nonlocal total
        made, tally = _filtered(text, asked)
        total = Tally(*(a + b for a, b in zip(total, tally)))
        return made

    def write(text: bytes) -> None:
        sink.write(text)
        sink.flush()

    read = getattr(source, "read1", source.read)
    pieces = Pieces(filtered, write, asked.words == _WITHIN, asked.ascii_words)
    while True:
        piece = read(1 << 16)
        if not piece:
            pieces.end()
            return total
        pieces.push(piece)


_MANGLINGS = {1: "itanium", 2: "rust-v0", 3: "rust-legacy"}


def _word(word: Callable[[int], Union[bytes, None]], number: int) -> str:
    """The word for a number; the number where there is none."""
    said = word(number)
    return said.decode() if said else str(number)


def parts(name: Name, **options: Unpack[Keywords]) -> Parsed:
    """The text of a name with its parts; Refused says why it has none. Short texts and types have no parts. Raises NotImplementedError
    if the library is older than this call."""
    given, asked, told = _name(name), _asked(options), _Name()
    call = getattr(_library, "symdemangle_parts", None)
    if call is None:
        raise NotImplementedError("the library is older than parts")
    told.length, told.count = 4096, 32
    while True:
        size, count = told.length, told.count
        buffer, found = ctypes.create_string_buffer(size or 1), (_Part * (count or 1))()
        status = call(
            ctypes.c_char_p(given), ctypes.c_size_t(len(given)), ctypes.c_uint32(asked.limit), ctypes.c_uint32(asked.flags), buffer,
            ctypes.c_size_t(size), found, ctypes.c_size_t(count), ctypes.byref(told),
        )
        if status != _BUFFER:
            break
    if status == _MEMORY:
        raise MemoryError
    if status != _OK:
        raise Refused(status, told.offset)
    text = buffer.raw[: told.length]
    named = tuple(
        Part(
            _word(_library.symdemangle_role, part.role), part.start, part.length, part.begin, part.end,
            _string(text[part.start : part.start + part.length]),
        )
        for part in found[: told.count]
    )
    kind = _word(_library.symdemangle_kind, told.kind)
    return Parsed(_string(text), kind, _MANGLINGS.get(told.mangling, str(told.mangling)), named)


def press(name: Name, *, wide: bool = False) -> str:
    """The spelling of a name in which each part that repeats is a reference, so that different spellings of the same symbol become
    equal; Refused says why there is none. With `wide`, newer and rarer C++ forms are spelled, too, if they have a spelling."""
    given = _name(name)
    flags = _UNDERSCORE | (_WIDE if wide else 0)
    return _string(_written(lambda flags, *buffer: _library.symdemangle_press(given, len(given), flags, *buffer), flags))


def counts(name: Name, *, wide: bool = True) -> Counts:
    """The work that reading a name takes; Refused says why it isn't read."""
    given, made, result = _name(name), _Counts(), _Result()
    flags = Options(wide=wide).flags
    status = _library.symdemangle_count(given, len(given), flags, ctypes.byref(made), ctypes.byref(result))
    if status == _MEMORY:
        raise MemoryError
    if status != _OK:
        raise Refused(status, result.offset)
    return Counts(made.rows, made.nodes, made.steps)
