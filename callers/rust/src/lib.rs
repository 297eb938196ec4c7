//! Mangled C++ (Itanium ABI 5.1) and Rust (RFC 2603, v0, and the older mangling) names: their texts within a limit on what a text costs, the work that
//! reading one takes, and their pressed spelling, by a proved library.
//!
//! A name that begins with `_R` is read as Rust, one that begins with `_Z` as C++, or as Rust where it is `_ZN..17h<16 digits>E`; an
//! underscore may precede either, as on macOS. Names in a symbol are bytes, so texts are bytes too; a name that shows itself has U+FFFD for
//! bytes that aren't UTF-8.
//!
//! A call takes up to 600 bytes of memory for a byte of the name, and [`press_into`] 750 (measured), whatever the limit. So names that someone
//! else chose should be cut: 4,096 bytes hold nearly all real ones.
//!
//! ```
//! assert_eq!(symdemangle::demangle("_RNvC3foo3bar").to_string(), "foo::bar");
//! assert_eq!(symdemangle::demangle("_ZN3foo3barEPKc").to_string(), "foo::bar(char const*)");
//! assert_eq!(symdemangle::demangle("main").to_string(), "main");
//! assert_eq!(symdemangle::try_demangle("main").unwrap_err().to_string(), "not a symbol");
//!
//! let brief = symdemangle::Options::default().brief(true).no_parameters(true);
//! assert_eq!(brief.demangle("_Z1fIJicEEvDpT_").to_string(), "f");
//! ```
//!
//! # The library
//!
//! The crate brings the library as one C file and compiles it. With the feature `installed` it links `libsymdemangle.a` instead;
//! `SYMDEMANGLE_DIR` names the library's folder where that folder isn't a usual one. The feature `unlinked` does neither, to check or to
//! document code without a library. The crate needs `alloc` and not `std`.
//!
//! # Coming from `rustc-demangle`
//!
//! | `rustc_demangle` | here |
//! |---|---|
//! | `demangle(s)`, shown by `{}`, `{:#}` or `{:?}` | [`demangle`]`(s)`, the same |
//! | `try_demangle(s)` | [`try_demangle`]`(s)` |
//! | `Demangle::as_str` | [`Demangle::as_str`] |
//! | `demangle_line(..)` | [`filter_into`] |
//!
//! `{:#}` leaves out hashes in both crates: no text of a v0 symbol (`_R..`) shows the hash of a crate, so both forms are the same; for
//! Rust's older mangling (`_ZN..17h..E`) `{}` shows the last name, `::h` and 16 digits, and `{:#}` doesn't. What differs: C++ symbols are
//! shown too; symbols without their underscore (`ZN..`, `R..`) aren't taken; a constant is shown without its type in both forms; a suffix
//! such as `.llvm.42` is shown, in brackets.
//!
//! ```
//! let older = symdemangle::demangle("_ZN13_$LT$test$GT$5panic17h0123456789abcdefE");
//! assert_eq!(format!("{older}"), "<test>::panic::h0123456789abcdef");
//! assert_eq!(format!("{older:#}"), "<test>::panic");
//! ```
#![no_std]
#![warn(missing_docs)]

extern crate alloc;

mod library;
mod words;

use alloc::borrow::Cow;
use alloc::string::String;
use alloc::vec::Vec;
use core::fmt;
use core::ops::Range;
use library::{NamePart, Outcome, Status};
pub use words::{NameKind, Role};

/// What a text may cost by default: its bytes, and 1 for each item that it is put together from.
pub const DEFAULT_LIMIT: u32 = 1_000_000;

/// Why a name has no answer. `at` is the number of bytes before the first bad byte.
#[derive(Clone, Copy, Debug, PartialEq, Eq, Hash)]
pub enum Error {
    /// No symbol has this byte at this place.
    Malformed {
        /// Its offset.
        at: u32,
    },
    /// A back reference, substitution or parameter that names nothing.
    BadReference {
        /// Its offset.
        at: u32,
    },
    /// A number out of range.
    BadValue {
        /// Its offset.
        at: u32,
    },
    /// The text costs more than the limit.
    TooLong,
    /// An allocation was refused.
    Memory,
    /// More than 16,777,216 bytes.
    TooManyBytes,
    /// The name doesn't begin like a symbol.
    NoSymbol,
    /// The symbol is read, and has no pressed spelling yet.
    NoSpelling,
    /// The library that was linked is older than a requested option. No option of this version gives this error: over a library that
    /// doesn't know [`Options::within`] or [`Options::types`], calls do without these options.
    OlderLibrary,
}

impl fmt::Display for Error {
    fn fmt(&self, f: &mut fmt::Formatter<'_>) -> fmt::Result {
        match self {
            Error::Malformed { at } => write!(f, "malformed at {at}"),
            Error::BadReference { at } => write!(f, "bad reference at {at}"),
            Error::BadValue { at } => write!(f, "bad value at {at}"),
            Error::TooLong => f.write_str("too long"),
            Error::Memory => f.write_str("out of memory"),
            Error::TooManyBytes => f.write_str("more than 16777216 bytes"),
            Error::NoSymbol => f.write_str("not a symbol"),
            Error::NoSpelling => f.write_str("no spelling yet"),
            Error::OlderLibrary => f.write_str("the library is too old for an option"),
        }
    }
}

impl core::error::Error for Error {}

/// How names are read and shown. The default is what people want to read: all of a symbol, by the wide grammar, Rust's older names
/// as Rust paths, within [`DEFAULT_LIMIT`].
#[derive(Clone, Copy, Debug, PartialEq, Eq, Hash)]
#[must_use]
pub struct Options {
    brief: bool,
    short: bool,
    keep_inline: bool,
    no_parameters: bool,
    wide: bool,
    legacy: bool,
    types: bool,
    within: bool,
    ascii_words: bool,
    limit: u32,
}

impl Default for Options {
    fn default() -> Options {
        Options {
            brief: false,
            short: false,
            keep_inline: false,
            no_parameters: false,
            wide: true,
            legacy: true,
            types: false,
            within: true,
            ascii_words: false,
            limit: DEFAULT_LIMIT,
        }
    }
}

impl Options {
    /// Leaves out template and generic arguments.
    pub const fn brief(self, brief: bool) -> Options {
        Options { brief, ..self }
    }

    /// Shortens C++ names: leaves out what the templates of `std` have by default and `std`'s inline namespaces, and writes usual names,
    /// such as `std::string`. Different names may have one short text. The limit is that of the whole text. Over a library that is older
    /// than this option texts are whole.
    pub const fn short(self, short: bool) -> Options {
        Options { short, ..self }
    }

    /// With [`Options::short`], keeps inline namespaces, so that different texts stay different.
    pub const fn keep_inline(self, keep_inline: bool) -> Options {
        Options { keep_inline, ..self }
    }

    /// Shows each C++ function as its name alone, without its return type and parameters.
    pub const fn no_parameters(self, no_parameters: bool) -> Options {
        Options { no_parameters, ..self }
    }

    /// Reads newer and rarer C++ forms, too. A name that has a text without this option has the same text with it, at the same cost; a
    /// later version may read more.
    pub const fn wide(self, wide: bool) -> Options {
        Options { wide, ..self }
    }

    /// Shows Rust's older names (`_ZN..17h<16 digits>E`) as the Rust paths that they denote, and not as names of C++, which they also are.
    /// No text of any other name changes.
    pub const fn legacy(self, legacy: bool) -> Options {
        Options { legacy, ..self }
    }

    /// Reads a name that doesn't begin like a symbol as a C++ type, as `typeid(x).name()` gives it. Over a library that is older than this
    /// option no types are read.
    pub const fn types(self, types: bool) -> Options {
        Options { types, ..self }
    }

    /// Finds the words of a text as the program `demangle` does, also within runs: in the names of sections, in typographic quotes, after
    /// escapes. This is the default. Otherwise, and over a library that is older than this option, a word begins where a run of its letters
    /// does.
    pub const fn within(self, within: bool) -> Options {
        Options { within, ..self }
    }

    /// Where a text is filtered, begins words where runs do and ends them at bytes from 0x80: in place of [`Options::within`].
    pub const fn ascii_words(self, ascii_words: bool) -> Options {
        Options { ascii_words, ..self }
    }

    /// What a text may cost at most: its bytes, and 1 for each item that it is put together from.
    pub const fn limit(self, limit: u32) -> Options {
        Options { limit, ..self }
    }

    /// A name that shows its text by these options, or itself if it has no text.
    #[must_use]
    pub fn demangle(self, name: &str) -> Demangle<'_> {
        let text = self.text(name.as_bytes()).ok();
        Demangle { name, text }
    }

    /// The bytes of a name's text, or of the name where it has none: for names that may not be UTF-8.
    #[must_use]
    pub fn demangle_bytes(self, name: &[u8]) -> Cow<'_, [u8]> {
        self.text(name).map_or(Cow::Borrowed(name), Cow::Owned)
    }

    /// A name that has a text.
    ///
    /// # Errors
    ///
    /// Every [`Error`].
    pub fn try_demangle(self, name: &str) -> Result<Demangle<'_>, Error> {
        let text = Some(self.text(name.as_bytes())?);
        Ok(Demangle { name, text })
    }

    /// The text of a name in a list of its own.
    fn text(self, name: &[u8]) -> Result<Vec<u8>, Error> {
        let mut text = Vec::new();
        demangle_into(name, self, &mut text)?;
        Ok(text)
    }
}

/// A name that shows its text by [`Options::default`], or itself if it has no text.
#[must_use]
pub fn demangle(name: &str) -> Demangle<'_> {
    Options::default().demangle(name)
}

/// The bytes of a name's text, or of the name where it has none, by [`Options::default`]: for names that may not be UTF-8, as in C++.
///
/// ```
/// assert_eq!(*symdemangle::demangle_bytes(b"_Z2f\xffv"), *b"f\xff()");
/// assert_eq!(*symdemangle::demangle_bytes(b"main\xff"), *b"main\xff");
/// ```
#[must_use]
pub fn demangle_bytes(name: &[u8]) -> Cow<'_, [u8]> {
    Options::default().demangle_bytes(name)
}

/// A name that has a text, by [`Options::default`].
///
/// # Errors
///
/// Every [`Error`]; [`Error::NoSymbol`] for a name that isn't mangled.
pub fn try_demangle(name: &str) -> Result<Demangle<'_>, Error> {
    Options::default().try_demangle(name)
}

/// A name that shows its text, or itself if it has no text.
///
/// `{:#}` is `{}` without the hash at the end of Rust's older mangling. Texts of v0 symbols have none. `{:?}` is `{}`.
#[derive(Clone, PartialEq, Eq, Hash)]
pub struct Demangle<'a> {
    name: &'a str,
    text: Option<Vec<u8>>,
}

impl<'a> Demangle<'a> {
    /// The name as it was given.
    #[must_use]
    pub fn as_str(&self) -> &'a str {
        self.name
    }

    /// The bytes of the name's text, if it has one. A name of Rust's older mangling that is read as Rust has no hash in its text.
    #[must_use]
    pub fn text(&self) -> Option<&[u8]> {
        self.text.as_deref()
    }
}

/// The hash at the end of a name of Rust's older mangling, 16 digits, and its suffix, which may be empty.
fn hash_of(name: &str) -> Option<(&str, &str)> {
    const HASH: &str = "17h";
    let (name, suffix) = name.split_at(name.find("E.").map_or(name.len(), |at| at + 1));
    let front = name.strip_suffix('E')?;
    let at = front.len().checked_sub(HASH.len() + 16)?;
    let hash = front.get(at..)?.strip_prefix(HASH)?;
    let is_digit = |b| matches!(b, b'0'..=b'9' | b'a'..=b'f');
    let is_path = name.starts_with("_ZN") || name.starts_with("__ZN");
    (is_path && hash.bytes().all(is_digit)).then_some((hash, suffix))
}

/// A text split into a path and the suffix after it, which the name ends with.
fn without_suffix<'t>(text: &'t str, suffix: &str) -> (&'t str, &'t str) {
    let shown = text.len().checked_sub(suffix.len() + 3).filter(|_| !suffix.is_empty());
    match shown.and_then(|at| text.split_at_checked(at)) {
        Some((path, end)) if end.get(2..end.len() - 1) == Some(suffix) => (path, end),
        _ => (text, ""),
    }
}

impl fmt::Display for Demangle<'_> {
    fn fmt(&self, f: &mut fmt::Formatter<'_>) -> fmt::Result {
        let Some(text) = &self.text else {
            return f.write_str(self.name);
        };
        let text: Cow<'_, str> = String::from_utf8_lossy(text);
        let Some((hash, suffix)) = hash_of(self.name) else {
            return f.write_str(&text);
        };
        let (path, suffix) = without_suffix(&text, suffix);
        let shown = path.strip_suffix(hash).and_then(|path| path.strip_suffix("::h"));
        let path = shown.unwrap_or(path);
        if f.alternate() {
            write!(f, "{path}{suffix}")
        } else {
            write!(f, "{path}::h{hash}{suffix}")
        }
    }
}

impl fmt::Debug for Demangle<'_> {
    fn fmt(&self, f: &mut fmt::Formatter<'_>) -> fmt::Result {
        fmt::Display::fmt(self, f)
    }
}

/// The work that a symbol of n bytes made.
#[repr(C)]
#[derive(Clone, Copy, Debug, Default, PartialEq, Eq, Hash)]
pub struct Counts {
    /// At most 4n + 4.
    pub rows: u32,
    /// At most 4n + 8.
    pub nodes: u32,
    /// At most 32n + 48.
    pub steps: u32,
}

/// The words of a text that begin like symbols, counted.
#[repr(C)]
#[derive(Clone, Copy, Debug, Default, PartialEq, Eq, Hash)]
pub struct Tally {
    /// All of them.
    pub words: u64,
    /// The words that were replaced by a text.
    pub replaced: u64,
    /// Those that stayed.
    pub refused: u64,
}

/// Calls the library with a buffer that is large enough, and leaves in it what was written.
fn write_into(
    buffer: &mut Vec<u8>,
    mut call: impl FnMut(&mut [u8]) -> Outcome,
) -> Result<(), Error> {
    buffer.clear();
    buffer.reserve(256);
    loop {
        buffer.resize(buffer.capacity(), 0);
        let outcome = call(buffer);
        buffer.truncate(if outcome.status == Status::OK { outcome.length } else { 0 });
        if outcome.status != Status::BUFFER {
            return outcome.answer();
        }
        buffer.reserve(outcome.length);
    }
}

/// Puts the text of a name into `buffer` in place of what the buffer held, if the text costs at most the limit. The buffer keeps its memory
/// from one name to the next; where the name is refused, the buffer is empty.
///
/// # Errors
///
/// Every [`Error`].
pub fn demangle_into(name: &[u8], options: Options, buffer: &mut Vec<u8>) -> Result<(), Error> {
    write_into(buffer, |buffer| library::text(name, options, buffer))
}

/// How a name is mangled.
#[derive(Clone, Copy, Debug, PartialEq, Eq, Hash)]
#[non_exhaustive]
pub enum Mangling {
    /// C++, by the Itanium ABI.
    Itanium,
    /// Rust, by RFC 2603.
    RustV0,
    /// Rust's older names, with [`Options::legacy`].
    RustLegacy,
    /// A mangling that a newer library reports, by its number.
    Other(u32),
}

/// A part of a text.
#[derive(Clone, Debug, PartialEq, Eq, Hash)]
pub struct Part {
    /// What it is.
    pub role: Role,
    /// The part's bytes in the text: empty, at the text's end, for a part that isn't in the text, such as the hash of an older Rust name.
    pub text: Range<usize>,
    /// The bytes of the name that spell the part, counted with an underscore that was dropped. A part that a reference refers to is spelled
    /// by the reference.
    pub symbol: Range<usize>,
}

/// A text, what its name is, and the parts of the text.
#[derive(Clone, Debug, PartialEq, Eq, Hash)]
pub struct Parsed {
    /// The bytes of the text.
    pub text: Vec<u8>,
    /// What the name is.
    pub kind: NameKind,
    /// How the name is mangled.
    pub mangling: Mangling,
    /// In the order of their starts; any two parts are apart, or one is within the other.
    pub parts: Vec<Part>,
}

impl Parsed {
    /// The bytes of the first part of a role, if there is one.
    #[must_use]
    pub fn first(&self, role: Role) -> Option<&[u8]> {
        let part = self.parts.iter().find(|part| part.role == role)?;
        Some(&self.text[part.text.clone()])
    }
}

/// The text of a name with its parts: which stretches of it are the name's scope, its base, and each of its arguments and parameters. Texts
/// are whole, and types aren't read: [`Options::short`] and [`Options::types`] have no effect.
///
/// ```
/// use symdemangle::{NameKind, Options, Role};
/// let parsed = symdemangle::parts(b"_ZN1A1fIiEEvT_", Options::default()).unwrap();
/// assert_eq!(parsed.text, b"void A::f<int>(int)");
/// assert_eq!(parsed.kind, NameKind::Function);
/// assert_eq!(parsed.first(Role::Scope), Some(&b"A"[..]));
/// assert_eq!(parsed.first(Role::Parameters), Some(&b"(int)"[..]));
/// assert_eq!(parsed.parts[1].symbol, 3..5); // "1A" spells the scope
/// ```
///
/// # Errors
///
/// Every [`Error`].
pub fn parts(name: &[u8], options: Options) -> Result<Parsed, Error> {
    let (mut text, mut parts) = (Vec::new(), Vec::new());
    let (mut length, mut count) = (256, 16);
    let told = loop {
        text.resize(length, 0);
        parts.resize(count, NamePart::default());
        let told = library::parts(name, options, &mut text, &mut parts);
        if told.status != Status::BUFFER {
            break told;
        }
        (length, count) = (told.length, told.count);
    };
    told.status.answer(told.offset)?;
    text.truncate(told.length);
    parts.truncate(told.count);
    let part_of = |part: &NamePart| Part {
        role: Role::of_number(part.role),
        text: part.start as usize..(part.start + part.length) as usize,
        symbol: part.from as usize..part.to as usize,
    };
    Ok(Parsed {
        text,
        kind: NameKind::of_number(told.kind),
        mangling: match told.mangling {
            1 => Mangling::Itanium,
            2 => Mangling::RustV0,
            3 => Mangling::RustLegacy,
            other => Mangling::Other(other),
        },
        parts: parts.iter().map(part_of).collect(),
    })
}

/// Puts a text into `buffer` with each word that is a symbol replaced by its text, as the program `demangle` does, and says how many such
/// words the text has. One set of lists serves all words; a word that is refused stays as it is.
///
/// # Errors
///
/// [`Error::Memory`].
pub fn filter_into(text: &[u8], options: Options, buffer: &mut Vec<u8>) -> Result<Tally, Error> {
    let mut tally = Tally::default();
    write_into(buffer, |buffer| library::filter(text, options, buffer, &mut tally))?;
    Ok(tally)
}

/// Puts the pressed spelling of a name into `buffer`: different spellings of the same symbol have the same pressed spelling. It takes no
/// symbols that the wide grammar alone reads.
///
/// # Errors
///
/// Every [`Error`] except [`Error::TooLong`] and [`Error::NoSpelling`].
pub fn press_into(name: &[u8], buffer: &mut Vec<u8>) -> Result<(), Error> {
    write_into(buffer, |buffer| library::press(name, false, buffer))
}

/// Puts the pressed spelling of a name into `buffer`, as [`press_into`] does, with C++ symbols read by the wide grammar: newer and rarer
/// forms are spelled, too, as far as they have a spelling.
///
/// # Errors
///
/// Every [`Error`] except [`Error::TooLong`].
pub fn press_wide_into(name: &[u8], buffer: &mut Vec<u8>) -> Result<(), Error> {
    write_into(buffer, |buffer| library::press(name, true, buffer))
}

/// The work that reading a name takes, which no limit bounds. The grammar is the only option that matters here.
///
/// # Errors
///
/// Every [`Error`] except [`Error::TooLong`].
pub fn counts(name: &[u8], options: Options) -> Result<Counts, Error> {
    let mut counts = Counts::default();
    library::count(name, options, &mut counts).answer()?;
    Ok(counts)
}

/// Names that are given to the library in one call, which makes its lists once for all of them.
#[derive(Default)]
struct Block<'a> {
    names: Vec<&'a [u8]>,
    bytes: Vec<u8>,
    ends: Vec<usize>,
    outcomes: Vec<Outcome>,
    buffer: Vec<u8>,
    /// The text of a name whose text doesn't fit in `buffer`.
    alone: Vec<u8>,
}

impl<'a> Block<'a> {
    const NAMES: usize = 256;
    const BYTES: usize = 1 << 16;

    fn push(&mut self, name: &'a [u8]) {
        self.names.push(name);
        self.bytes.extend_from_slice(name);
        self.ends.push(self.bytes.len());
    }

    fn is_full(&self) -> bool {
        self.names.len() >= Self::NAMES || self.bytes.len() >= Self::BYTES
    }

    /// Lends `each` the texts in order, and empties the block.
    fn answer(&mut self, options: Options, each: &mut impl FnMut(&'a [u8], Result<&[u8], Error>)) {
        self.outcomes.resize(self.names.len(), Outcome::default());
        self.buffer.resize(4 * Self::BYTES, 0);
        let status = library::texts(&self.bytes, &self.ends, options, &mut self.buffer, &mut self.outcomes);
        let refused = status.answer(0).err();
        let mut from = 0;
        for (name, outcome) in self.names.drain(..).zip(&self.outcomes) {
            if let Some(error) = refused {
                each(name, Err(error));
            } else if outcome.status == Status::BUFFER {
                let answer = demangle_into(name, options, &mut self.alone);
                each(name, answer.map(|()| self.alone.as_slice()));
            } else if let Err(error) = outcome.answer() {
                each(name, Err(error));
            } else {
                each(name, Ok(&self.buffer[from..from + outcome.length]));
                from += outcome.length;
            }
        }
        self.bytes.clear();
        self.ends.clear();
    }
}

/// The texts of many names, in order: each is lent to `each` with its name. Some hundred names at a time are taken from the iterator and
/// given to one call of the library, which makes its lists once for all of them. This takes three quarters of the work of calling
/// [`demangle_into`] for each name.
pub fn for_each_text<'a>(
    names: impl IntoIterator<Item = &'a [u8]>,
    options: Options,
    mut each: impl FnMut(&'a [u8], Result<&[u8], Error>),
) {
    let mut block = Block::default();
    for name in names {
        block.push(name);
        if block.is_full() {
            block.answer(options, &mut each);
        }
    }
    block.answer(options, &mut each);
}
