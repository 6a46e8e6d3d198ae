//! The text of a type, a path and a declaration as one would write it by hand for speed, in safe
//! Rust: the baseline that the proved library is compared with.
//!
//! The first pass checks the words and adds up the length of the text, the second writes. Neither
//! allocates. The second relies on the first for what the words are; where a bounds check remains,
//! it is Rust's own.

use crate::limits::{DEPTH_LIMIT, FIXED_NAMES, LEVEL_LIMIT, PAIR_LIMIT, TEXT_LIMIT, WORD_LIMIT};
use crate::words::{flag, kind, root, FIRST_PAIR, NO_SIZE};
use crate::{Encoding, Refusal};

pub use declaration::declaration_text;
pub use initialization::type_at_initialization;
pub use rebuild::{declaration_rebuild, type_rebuild};
pub use sound::type_is_sound;
pub use walks::{
    can_read_without_clone, declaration_visit, expand, is_object_or_pointer, is_rc,
    object_or_pointer_underlying, type_visit,
};

mod check;
mod declaration;
mod doc;
mod initialization;
mod rebuild;
mod sound;
mod walks;

/// More children than words allow. A larger count ends in the same refusal, so it may be cut down
/// to this, and then no sum below passes a u32: 8,192 names of 16,384 bytes stay far below.
const MORE_THAN_WORDS: u32 = WORD_LIMIT as u32 + 1;

/// A short text, padded so that it can be copied whole, which takes one move instead of a call.
struct Short<const N: usize> {
    bytes: [u8; N],
    length: u8,
}

const fn short<const N: usize>(text: &[u8]) -> Short<N> {
    let mut bytes = [b' '; N];
    let mut i = 0;
    while i < text.len() {
        bytes[i] = text[i];
        i += 1;
    }
    Short {
        bytes,
        length: text.len() as u8,
    }
}

static FIXED: [Short<16>; FIXED_NAMES.len()] = {
    let mut fixed = [const { short(b"") }; FIXED_NAMES.len()];
    let mut number = 0;
    while number < FIXED_NAMES.len() {
        fixed[number] = short(FIXED_NAMES[number].as_bytes());
        number += 1;
    }
    fixed
};

/// The texts of the kinds from `U8` to `BOOL`.
static PLAIN: [Short<8>; kind::BOOL as usize + 1] = [
    short(b"u8"),
    short(b"u16"),
    short(b"u32"),
    short(b"u64"),
    short(b"u128"),
    short(b"i8"),
    short(b"i16"),
    short(b"i32"),
    short(b"i64"),
    short(b"i128"),
    short(b"usize"),
    short(b"bool"),
];

/// What stands before the one child of the kinds from `BORROWED` to `DYN`.
static PREFIX: [Short<8>; (kind::DYN - kind::BORROWED) as usize + 1] = [
    short(b"&"),
    short(b"&mut "),
    short(b"impl "),
    short(b"dyn "),
];

const FN_OPEN: &[u8; 15] = b"::std::ops::Fn(";
const FN_CLOSE: &[u8; 5] = b") -> ";

pub fn type_text(encoding: &Encoding<'_>, level: u32, out: &mut [u8]) -> Result<usize, Refusal> {
    let Encoding { words, pairs, text } = *encoding;
    check_tables(encoding, level)?;
    let mut rest = words.iter();
    let length = measure(&mut rest, pairs, &mut { NO_TYPES })?;
    check_no_rest(&rest)?;
    let out = out.get_mut(..length).ok_or(Refusal::BufferTooShort)?;
    let mut writer = Writer {
        words,
        pairs,
        text,
        out,
    };
    writer.put_type(0, 0);
    Ok(length)
}

pub fn path_text(encoding: &Encoding<'_>, level: u32, out: &mut [u8]) -> Result<usize, Refusal> {
    let Encoding { words, pairs, text } = *encoding;
    check_tables(encoding, level)?;
    let mut rest = words.iter();
    let length = measure_path(&mut rest, pairs)? as usize;
    check_no_rest(&rest)?;
    let out = out.get_mut(..length).ok_or(Refusal::BufferTooShort)?;
    let mut writer = Writer {
        words,
        pairs,
        text,
        out,
    };
    writer.put_path(0, 0);
    Ok(length)
}

fn check_tables(encoding: &Encoding<'_>, level: u32) -> Result<(), Refusal> {
    let Encoding { words, pairs, text } = *encoding;
    if level > LEVEL_LIMIT {
        return Err(Refusal::BadLevel);
    }
    if words.len() > WORD_LIMIT || pairs.len() / 2 > PAIR_LIMIT || text.len() > TEXT_LIMIT {
        return Err(Refusal::Overlong);
    }
    check_pairs(pairs, text.len())
}

fn check_no_rest(rest: &Words<'_>) -> Result<(), Refusal> {
    if rest.as_slice().is_empty() {
        Ok(())
    } else {
        Err(Refusal::LeftOver)
    }
}

fn check_pairs(pairs: &[u32], text_length: usize) -> Result<(), Refusal> {
    let (pairs, half) = pairs.as_chunks::<2>();
    let mut end_before = 0;
    for &[offset, length] in pairs {
        let end = u64::from(offset) + u64::from(length);
        if u64::from(offset) < end_before || end > text_length as u64 {
            return Err(Refusal::BadPair);
        }
        end_before = end;
    }
    if half.is_empty() {
        Ok(())
    } else {
        Err(Refusal::BadPair)
    }
}

/// The words that are still to be read.
type Words<'a> = std::slice::Iter<'a, u32>;

fn next(rest: &mut Words<'_>) -> Result<u32, Refusal> {
    rest.next().copied().ok_or(Refusal::EndsEarly)
}

fn name_length(pairs: &[u32], number: u32) -> Result<u32, Refusal> {
    if number < FIRST_PAIR {
        return Ok(u32::from(FIXED[number as usize].length));
    }
    // The index is below 2^33, and half a pair was refused before.
    let length = 2 * (number - FIRST_PAIR) as usize + 1;
    pairs.get(length).copied().ok_or(Refusal::UnknownWord)
}

/// The length of the text of the path that the words begin with; its words are taken.
fn measure_path(rest: &mut Words<'_>, pairs: &[u32]) -> Result<u32, Refusal> {
    let mut length = match next(rest)? {
        root::GLOBAL => 0,
        root::CRATE => 5,
        root::SELF_TYPE => 4,
        _ => return Err(Refusal::UnknownWord),
    };
    for _ in 0..next(rest)? {
        length += 2 + name_length(pairs, next(rest)?)?;
    }
    Ok(length)
}

/// A type whose children are being read.
#[derive(Clone, Copy)]
struct Open {
    children_left: u32,
    /// Of a synonym the length of the text up to the end of its display: the base, which follows,
    /// adds nothing.
    length_without_base: u32,
}

const NO_SYNONYM: u32 = u32::MAX;

/// The types around the innermost open one. The outermost entry stands for the call itself, which
/// waits for one child.
type Outer = [Open; DEPTH_LIMIT];

/// A new array for each type would have to be filled each time, so it is lent.
const NO_TYPES: Outer = [Open {
    children_left: 0,
    length_without_base: 0,
}; DEPTH_LIMIT];

/// The length of the text of the type that the words begin with; its words are taken.
fn measure(rest: &mut Words<'_>, pairs: &[u32], outer: &mut Outer) -> Result<usize, Refusal> {
    let mut depth = 0;
    let mut open = Open {
        children_left: 1,
        length_without_base: NO_SYNONYM,
    };
    let mut length = 0_u32;

    loop {
        let head = next(rest)?;
        let children = match head {
            kind::U8..=kind::BOOL => {
                length += u32::from(PLAIN[head as usize].length);
                0
            }
            kind::IDENTIFIER => {
                length += name_length(pairs, next(rest)?)?;
                0
            }
            kind::FROM_PATH => {
                length += measure_path(rest, pairs)?;
                0
            }
            kind::APP => {
                let count = next(rest)?.min(MORE_THAN_WORDS);
                length += 2 * count; // `<`, `>` and a separator between each two
                count + 1
            }
            kind::BORROWED..=kind::DYN => {
                length += u32::from(PREFIX[(head - kind::BORROWED) as usize].length);
                1
            }
            kind::TUPLE => {
                let count = next(rest)?.min(MORE_THAN_WORDS);
                length += 2 * count.max(1);
                count
            }
            kind::FN => {
                let count = next(rest)?.min(MORE_THAN_WORDS);
                length += (FN_OPEN.len() + FN_CLOSE.len()) as u32 + 2 * count.saturating_sub(1);
                count + 1
            }
            kind::INTERSECTION => {
                length += 3;
                2
            }
            kind::ARRAY => {
                length += match next(rest)? {
                    NO_SIZE => 2,
                    size => 4 + name_length(pairs, size - 1)?,
                };
                1
            }
            kind::SYNONYM => 2,
            kind::META_DATA => {
                if next(rest)? > flag::ALL {
                    return Err(Refusal::UnknownWord);
                }
                1
            }
            _ => return Err(Refusal::UnknownWord),
        };
        if children > 0 {
            depth += 1;
            *outer.get_mut(depth).ok_or(Refusal::TooDeep)? = open;
            open = Open {
                children_left: children,
                length_without_base: if head == kind::SYNONYM { 0 } else { NO_SYNONYM },
            };
            continue;
        }
        // A type has ended, and with it each type around it whose last child it is.
        loop {
            open.children_left -= 1;
            if open.children_left > 0 {
                if open.length_without_base != NO_SYNONYM {
                    open.length_without_base = length;
                }
                break;
            }
            if open.length_without_base != NO_SYNONYM {
                length = open.length_without_base;
            }
            if depth == 0 {
                return Ok(length as usize);
            }
            open = outer[depth];
            depth -= 1;
        }
    }
}

/// Writes a type that was measured; `out` has exactly the length of its text. Positions go from
/// hand to hand rather than through `self`, which keeps them in registers.
struct Writer<'a> {
    words: &'a [u32],
    pairs: &'a [u32],
    text: &'a [u8],
    out: &'a mut [u8],
}

impl Writer<'_> {
    #[inline(always)]
    fn put<const N: usize>(&mut self, end: usize, bytes: &[u8; N]) -> usize {
        self.out[end..end + N].copy_from_slice(bytes);
        end + N
    }

    /// Copies the padding too where it fits: what follows in the text goes over it.
    #[inline(always)]
    fn put_short<const N: usize>(&mut self, end: usize, short: &Short<N>) -> usize {
        let length = usize::from(short.length);
        let room = &mut self.out[end..];
        match room.first_chunk_mut::<N>() {
            Some(chunk) => *chunk = short.bytes,
            None => room[..length].copy_from_slice(&short.bytes[..length]),
        }
        end + length
    }

    #[inline(always)]
    fn put_name(&mut self, end: usize, number: u32) -> usize {
        if number < FIRST_PAIR {
            return self.put_short(end, &FIXED[number as usize]);
        }
        let pair = 2 * (number - FIRST_PAIR) as usize;
        let (offset, length) = (self.pairs[pair] as usize, self.pairs[pair + 1] as usize);
        let text = self.text;
        self.put_front(end, &text[offset..], length)
    }

    /// Copies the first `length` bytes of `from`, and as with `put_short` some more where it costs
    /// nothing.
    #[inline(always)]
    fn put_front(&mut self, end: usize, from: &[u8], length: usize) -> usize {
        let room = &mut self.out[end..];
        match (room.first_chunk_mut::<16>(), from.first_chunk::<16>()) {
            (Some(chunk), Some(bytes)) if length <= 16 => *chunk = *bytes,
            _ => room[..length].copy_from_slice(&from[..length]),
        }
        end + length
    }

    fn put_list(&mut self, mut at: usize, mut end: usize, count: u32) -> (usize, usize) {
        for i in 0..count {
            if i > 0 {
                end = self.put(end, b", ");
            }
            (at, end) = self.put_item(at, end);
        }
        (at, end)
    }

    /// As `put_type`; most items of a list are leaves, and need no call.
    #[inline(always)]
    fn put_item(&mut self, at: usize, end: usize) -> (usize, usize) {
        let head = self.words[at];
        if head <= kind::BOOL {
            (at + 1, self.put_short(end, &PLAIN[head as usize]))
        } else if head == kind::IDENTIFIER {
            (at + 2, self.put_name(end, self.words[at + 1]))
        } else {
            self.put_type(at, end)
        }
    }

    fn put_path(&mut self, at: usize, mut end: usize) -> (usize, usize) {
        match self.words[at] {
            root::GLOBAL => {}
            root::CRATE => end = self.put(end, b"crate"),
            _ => end = self.put(end, b"Self"),
        }
        let names = at + 2..at + 2 + self.words[at + 1] as usize;
        let after = names.end;
        let words = self.words;
        for &name in &words[names] {
            end = self.put(end, b"::");
            end = self.put_name(end, name);
        }
        (after, end)
    }

    /// Writes the type at word `at` from byte `end` on, and gives where each ends.
    fn put_type(&mut self, mut at: usize, mut end: usize) -> (usize, usize) {
        // A type that ends with its last child goes on with that child in the next round.
        loop {
            let head = self.words[at];
            at += 1;
            match head {
                kind::U8..=kind::BOOL => return (at, self.put_short(end, &PLAIN[head as usize])),
                kind::IDENTIFIER => return (at + 1, self.put_name(end, self.words[at])),
                kind::FROM_PATH => return self.put_path(at, end),
                kind::APP => {
                    let count = self.words[at];
                    (at, end) = self.put_type(at + 1, end);
                    if count > 0 {
                        end = self.put(end, b"<");
                        (at, end) = self.put_list(at, end, count);
                        end = self.put(end, b">");
                    }
                    return (at, end);
                }
                kind::BORROWED..=kind::DYN => {
                    end = self.put_short(end, &PREFIX[(head - kind::BORROWED) as usize]);
                }
                kind::TUPLE => {
                    let count = self.words[at];
                    end = self.put(end, b"(");
                    (at, end) = self.put_list(at + 1, end, count);
                    return (at, self.put(end, b")"));
                }
                kind::FN => {
                    let count = self.words[at];
                    end = self.put(end, FN_OPEN);
                    (at, end) = self.put_list(at + 1, end, count);
                    end = self.put(end, FN_CLOSE);
                }
                kind::INTERSECTION => {
                    (at, end) = self.put_type(at, end);
                    end = self.put(end, b" + ");
                }
                kind::ARRAY => {
                    let size = self.words[at];
                    end = self.put(end, b"[");
                    (at, end) = self.put_type(at + 1, end);
                    if size != NO_SIZE {
                        end = self.put(end, b"; ");
                        end = self.put_name(end, size - 1);
                    }
                    return (at, self.put(end, b"]"));
                }
                kind::SYNONYM => {
                    (at, end) = self.put_type(at, end);
                    return (skip_type(self.words, at), end);
                }
                _ => at += 1, // metadata: the flags do not show
            }
        }
    }
}

/// Where the type at word `at` ends. Its words were checked, so counting suffices.
fn skip_type(words: &[u32], mut at: usize) -> usize {
    let mut types_left = 1_u32;
    while types_left > 0 {
        match words[at] {
            kind::U8..=kind::BOOL => {
                at += 1;
                types_left -= 1;
            }
            kind::IDENTIFIER => {
                at += 2;
                types_left -= 1;
            }
            kind::FROM_PATH => {
                at += 3 + words[at + 2] as usize;
                types_left -= 1;
            }
            kind::APP | kind::FN => {
                types_left += words[at + 1];
                at += 2;
            }
            kind::BORROWED..=kind::DYN => at += 1,
            kind::TUPLE => {
                types_left += words[at + 1];
                types_left -= 1;
                at += 2;
            }
            kind::INTERSECTION | kind::SYNONYM => {
                types_left += 1;
                at += 1;
            }
            _ => at += 2, // arrays and metadata
        }
    }
    at
}
