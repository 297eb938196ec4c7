//! The library's calls, with slices in place of pointers. `symdemangle.h` has their contracts in words.

use crate::{Counts, Error, Options, Tally};

/// A part of a text, by numbers.
#[repr(C)]
#[derive(Clone, Copy, Default)]
pub struct NamePart {
    pub role: u32,
    pub start: u32,
    pub length: u32,
    pub from: u32,
    pub to: u32,
}

/// What a name is, in addition to its text.
#[repr(C)]
#[derive(Clone, Copy, Default)]
pub struct Told {
    pub length: usize,
    pub count: usize,
    pub offset: u32,
    pub status: Status,
    pub kind: u32,
    pub mangling: u32,
}

/// A status, with the length and the offset that a call reports.
#[repr(C)]
#[derive(Clone, Copy, Default)]
pub struct Outcome {
    pub length: usize,
    pub offset: u32,
    pub status: Status,
}

/// What a call answered.
#[repr(transparent)]
#[derive(Clone, Copy, Default, PartialEq, Eq)]
pub struct Status(u32);

impl Status {
    pub const OK: Status = Status(0);
    pub const BUFFER: Status = Status(6);
    const FLAGS: Status = Status(8);
}

impl Outcome {
    /// What the answer means, for a call whose buffer was large enough.
    pub fn answer(self) -> Result<(), Error> {
        self.status.answer(self.offset)
    }
}

impl Status {
    /// What the answer means with this offset, for a call whose buffer was large enough.
    pub fn answer(self, at: u32) -> Result<(), Error> {
        match self.0 {
            0 => Ok(()),
            1 => Err(Error::Malformed { at }),
            2 => Err(Error::BadReference { at }),
            3 => Err(Error::BadValue { at }),
            4 => Err(Error::TooLong),
            5 => Err(Error::Memory),
            7 => Err(Error::TooManyBytes),
            8 => Err(Error::OlderLibrary),
            11 => Err(Error::NoSymbol),
            12 => Err(Error::NoSpelling),
            other => unreachable!("status {other}"),
        }
    }
}

unsafe extern "C" {
    fn symdemangle_text(
        name: *const u8,
        name_length: usize,
        limit: u32,
        flags: u32,
        buffer: *mut u8,
        capacity: usize,
        result: *mut Outcome,
    ) -> Status;
    fn symdemangle_parts(
        name: *const u8,
        name_length: usize,
        limit: u32,
        flags: u32,
        buffer: *mut u8,
        capacity: usize,
        parts: *mut NamePart,
        part_capacity: usize,
        result: *mut Told,
    ) -> Status;
    fn symdemangle_texts(
        names: *const u8,
        names_length: usize,
        ends: *const usize,
        count: usize,
        limit: u32,
        flags: u32,
        buffer: *mut u8,
        capacity: usize,
        results: *mut Outcome,
    ) -> Status;
    fn symdemangle_filter(
        text: *const u8,
        text_length: usize,
        limit: u32,
        flags: u32,
        buffer: *mut u8,
        capacity: usize,
        tally: *mut Tally,
        result: *mut Outcome,
    ) -> Status;
    fn symdemangle_count(
        name: *const u8,
        name_length: usize,
        flags: u32,
        counts: *mut Counts,
        result: *mut Outcome,
    ) -> Status;
    fn symdemangle_press(
        name: *const u8,
        name_length: usize,
        flags: u32,
        buffer: *mut u8,
        capacity: usize,
        result: *mut Outcome,
    ) -> Status;
}

const WIDE: u32 = 4;
const UNDERSCORE: u32 = 16;
const ASCII_WORDS: u32 = 32;
const WITHIN: u32 = 64;
const TYPES: u32 = 128;
const SHORT: u32 = 256;
const KEEP_INLINE: u32 = 512;

/// The flags of a call that takes names.
fn flags(options: Options) -> u32 {
    let flag = |is_set, flag| if is_set { flag } else { 0 };
    flag(options.brief, 1)
        | flag(options.no_parameters, 2)
        | flag(options.wide, WIDE)
        | flag(options.legacy, 8)
        | UNDERSCORE
        | flag(options.types, TYPES)
        | flag(options.short, SHORT)
        | flag(options.short && options.keep_inline, KEEP_INLINE)
}

/// The flags of a call that filters a text, which has no types.
fn flags_of_words(options: Options) -> u32 {
    let words = match options {
        Options { ascii_words: true, .. } => ASCII_WORDS,
        Options { within: true, .. } => WITHIN,
        _ => 0,
    };
    flags(options.types(false)) | words
}

/// Makes a call with these flags, or without the newer ones where the library is older than they
/// are.
fn told(flags: u32, mut call: impl FnMut(u32) -> Status) -> Status {
    let older = flags & !(WITHIN | TYPES | SHORT | KEEP_INLINE);
    match call(flags) {
        Status::FLAGS if older != flags => call(older),
        status => status,
    }
}

// SAFETY, of each call below: a slice's pointer isn't null and is valid for its length; what is lent to be written is borrowed exclusively,
// so it doesn't overlap with anything and no other thread touches it.

pub fn text(name: &[u8], options: Options, buffer: &mut [u8]) -> Outcome {
    let mut outcome = Outcome::default();
    told(flags(options), |flags| unsafe {
        symdemangle_text(
            name.as_ptr(),
            name.len(),
            options.limit,
            flags,
            buffer.as_mut_ptr(),
            buffer.len(),
            &mut outcome,
        )
    });
    outcome
}

/// Texts are whole, and types aren't read, since short texts and types have no parts.
pub fn parts(name: &[u8], options: Options, buffer: &mut [u8], parts: &mut [NamePart]) -> Told {
    let mut told = Told::default();
    unsafe {
        symdemangle_parts(
            name.as_ptr(),
            name.len(),
            options.limit,
            flags(options.short(false).types(false)),
            buffer.as_mut_ptr(),
            buffer.len(),
            parts.as_mut_ptr(),
            parts.len(),
            &mut told,
        )
    };
    told
}

/// `ends` has an end for each outcome, up to the length of `names`.
pub fn texts(
    names: &[u8],
    ends: &[usize],
    options: Options,
    buffer: &mut [u8],
    outcomes: &mut [Outcome],
) -> Status {
    assert_eq!(ends.len(), outcomes.len());
    told(flags(options), |flags| unsafe {
        symdemangle_texts(
            names.as_ptr(),
            names.len(),
            ends.as_ptr(),
            ends.len(),
            options.limit,
            flags,
            buffer.as_mut_ptr(),
            buffer.len(),
            outcomes.as_mut_ptr(),
        )
    })
}

pub fn filter(text: &[u8], options: Options, buffer: &mut [u8], tally: &mut Tally) -> Outcome {
    let mut outcome = Outcome::default();
    told(flags_of_words(options), |flags| unsafe {
        symdemangle_filter(
            text.as_ptr(),
            text.len(),
            options.limit,
            flags,
            buffer.as_mut_ptr(),
            buffer.len(),
            tally,
            &mut outcome,
        )
    });
    outcome
}

pub fn count(name: &[u8], options: Options, counts: &mut Counts) -> Outcome {
    let mut outcome = Outcome::default();
    let flags = flags(options.types(false));
    unsafe { symdemangle_count(name.as_ptr(), name.len(), flags, counts, &mut outcome) };
    outcome
}

pub fn press(name: &[u8], wide: bool, buffer: &mut [u8]) -> Outcome {
    let mut outcome = Outcome::default();
    let flags = if wide { UNDERSCORE | WIDE } else { UNDERSCORE };
    unsafe {
        symdemangle_press(
            name.as_ptr(),
            name.len(),
            flags,
            buffer.as_mut_ptr(),
            buffer.len(),
            &mut outcome,
        )
    };
    outcome
}
