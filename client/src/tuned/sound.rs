//! Whether a type is sound.
//!
//! One pass checks the words and judges them. Where something is not sound it stops, and the check
//! alone says whether a refusal was still to come. Names found sound are kept: most are used more
//! than once, and their bytes are looked at once.

use super::check::{check_below, check_type_inside, check_whole_type, name_count, NONE_LEFT};
use super::declaration::Names;
use super::{check_no_rest, check_tables, next, Words, MORE_THAN_WORDS};
use crate::limits::PAIR_LIMIT;
use crate::words::{flag, kind, name, root, FIRST_PAIR};
use crate::{Encoding, Refusal};

pub fn type_is_sound(encoding: &Encoding<'_>) -> Result<bool, Refusal> {
    check_tables(encoding, 0)?;
    let Encoding { words, pairs, text } = *encoding;
    let name_count = name_count(pairs);
    let mut judge = Judge {
        rest: words.iter(),
        names: Names { pairs, text },
        name_count,
        sound_names: NONE_SO_FAR,
        sound_sizes: NONE_SO_FAR,
    };
    match judge.whole_type() {
        Ok(()) => Ok(true),
        Err(Stop::Refused(refusal)) => Err(refusal),
        Err(Stop::Unsound) => check_whole_type(words, name_count).map(|()| false),
    }
}

/// Why the pass ends before the words do.
enum Stop {
    Unsound,
    Refused(Refusal),
}

impl From<Refusal> for Stop {
    fn from(refusal: Refusal) -> Stop {
        Stop::Refused(refusal)
    }
}

type Judged<T> = Result<T, Stop>;

#[inline(always)]
fn ensure(sound: bool) -> Judged<()> {
    if sound {
        Ok(())
    } else {
        Err(Stop::Unsound)
    }
}

/// A bit for each pair.
type PairSet = [u64; PAIR_LIMIT / 64];

const NONE_SO_FAR: PairSet = [0; PAIR_LIMIT / 64];

/// Added to the number of children that are left: a result follows them, or a base.
const THEN_RESULT: u32 = 1 << 16;
const THEN_BASE: u32 = 2 << 16;
const CHILDREN: u32 = THEN_RESULT - 1;

struct Judge<'a> {
    rest: Words<'a>,
    names: Names<'a>,
    name_count: u32,
    sound_names: PairSet,
    sound_sizes: PairSet,
}

impl Judge<'_> {
    /// As `check_type`, but bases of synonyms are only checked.
    fn whole_type(&mut self) -> Judged<()> {
        let mut outer = NONE_LEFT;
        let mut depth = 0;
        let mut children_left = 1;
        loop {
            let children = self.own_words()?;
            if children > 0 {
                depth += 1;
                *outer.get_mut(depth).ok_or(Refusal::TooDeep)? = children_left;
                children_left = children;
                continue;
            }
            // A type has ended, and with it each type around it whose last child it is.
            loop {
                children_left -= 1;
                if children_left & CHILDREN > 0 {
                    break;
                }
                if children_left == THEN_RESULT {
                    self.no_intersection()?;
                    children_left = 1;
                    break;
                }
                if children_left == THEN_BASE {
                    check_type_inside(&mut self.rest, self.name_count, &mut outer, depth)?;
                }
                if depth == 0 {
                    return Ok(check_no_rest(&self.rest)?);
                }
                children_left = outer[depth];
                depth -= 1;
            }
        }
    }

    /// Takes the words before the first child, and gives how many children there are.
    #[inline(always)]
    fn own_words(&mut self) -> Judged<u32> {
        Ok(match next(&mut self.rest)? {
            kind::U8..=kind::BOOL => 0,
            kind::IDENTIFIER => {
                self.name()?;
                0
            }
            kind::FROM_PATH => {
                self.path()?;
                0
            }
            kind::APP => {
                let count = next(&mut self.rest)?.min(MORE_THAN_WORDS);
                let is_named = |head| matches!(head, Some(kind::IDENTIFIER | kind::FROM_PATH));
                ensure(count > 0 && is_named(self.shown_head()))?;
                count + 1
            }
            kind::BORROWED..=kind::DYN => {
                self.no_intersection()?;
                1
            }
            kind::TUPLE => next(&mut self.rest)?.min(MORE_THAN_WORDS),
            kind::FN => match next(&mut self.rest)?.min(MORE_THAN_WORDS) {
                0 => {
                    self.no_intersection()?;
                    1
                }
                count => count + THEN_RESULT,
            },
            kind::INTERSECTION => {
                self.no_intersection()?;
                2
            }
            kind::ARRAY => {
                self.size()?;
                1
            }
            kind::SYNONYM => 1 + THEN_BASE,
            kind::META_DATA => {
                check_below(next(&mut self.rest)?, flag::END)?;
                1
            }
            _ => return Err(Refusal::UnknownWord.into()),
        })
    }

    /// The head of the type that comes next, seen through wrappers. Looking ahead saves handing down
    /// what is allowed at each place, and goes over each wrapper once. The words there are not
    /// checked yet; they will be, whatever is found.
    #[inline(always)]
    fn shown_head(&self) -> Option<u32> {
        let mut ahead = self.rest.as_slice();
        loop {
            ahead = match ahead {
                [kind::SYNONYM, display @ ..] | [kind::META_DATA, _, display @ ..] => display,
                _ => return ahead.first().copied(),
            }
        }
    }

    #[inline(always)]
    fn no_intersection(&self) -> Judged<()> {
        ensure(self.shown_head() != Some(kind::INTERSECTION))
    }

    fn path(&mut self) -> Judged<()> {
        let root = next(&mut self.rest)?;
        check_below(root, root::END)?;
        let count = next(&mut self.rest)?;
        ensure(root != root::GLOBAL || count > 0)?;
        for _ in 0..count {
            self.name()?;
        }
        Ok(())
    }

    #[inline(always)]
    fn name(&mut self) -> Judged<()> {
        let number = next(&mut self.rest)?;
        if number < FIRST_PAIR {
            return ensure(number != name::EMPTY); // the only fixed name that is not sound
        }
        if has(&self.sound_names, number - FIRST_PAIR) {
            return Ok(());
        }
        check_below(number, self.name_count)?;
        ensure(is_sound_name(self.bytes(number)))?;
        add(&mut self.sound_names, number - FIRST_PAIR);
        Ok(())
    }

    /// The size of an array: 0 for none, else the number of a name plus 1.
    #[inline(always)]
    fn size(&mut self) -> Judged<()> {
        let size = next(&mut self.rest)?;
        if size <= FIRST_PAIR {
            return ensure(size != name::EMPTY + 1);
        }
        let number = size - 1;
        if has(&self.sound_sizes, number - FIRST_PAIR) {
            return Ok(());
        }
        check_below(number, self.name_count)?;
        ensure(is_sound_size(self.bytes(number)))?;
        add(&mut self.sound_sizes, number - FIRST_PAIR);
        Ok(())
    }

    /// The bytes of a pair, whose number was checked.
    #[inline(always)]
    fn bytes(&self, number: u32) -> Bytes<'_> {
        let Names { pairs, text } = self.names;
        let pair = 2 * (number - FIRST_PAIR) as usize;
        Bytes {
            from: &text[pairs[pair] as usize..],
            length: pairs[pair + 1] as usize,
        }
    }
}

/// No, if there can be no such pair.
#[inline(always)]
fn has(set: &PairSet, pair: u32) -> bool {
    match set.get(pair as usize / 64) {
        Some(bits) => bits >> (pair % 64) & 1 == 1,
        None => false,
    }
}

#[inline(always)]
fn add(set: &mut PairSet, pair: u32) {
    set[pair as usize / 64] |= 1 << (pair % 64);
}

/// A byte that may stand in a name or a size.
const WITHIN: u8 = 1;
/// A byte that may begin a name.
const FIRST: u8 = 2;

static BYTES: [u8; 256] = {
    let mut kinds = [0; 256];
    let mut byte = 0;
    while byte < 256 {
        kinds[byte] = match byte as u8 {
            b'a'..=b'z' | b'A'..=b'Z' | b'_' => WITHIN | FIRST,
            b'0'..=b'9' => WITHIN,
            _ => 0,
        };
        byte += 1;
    }
    kinds
};

#[inline]
fn is_sound_name(name: Bytes<'_>) -> bool {
    name.length > 0
        && BYTES[usize::from(name.from[0])] & FIRST != 0
        && name.all_within()
        && !is_reserved(&name.from[..name.length])
}

#[inline]
fn is_sound_size(size: Bytes<'_>) -> bool {
    size.length > 0 && size.all_within()
}

/// The first bytes of a longer text: what follows them may be looked at where that is cheaper.
#[derive(Clone, Copy)]
struct Bytes<'a> {
    from: &'a [u8],
    length: usize,
}

impl Bytes<'_> {
    /// There is at least one.
    #[inline(always)]
    fn all_within(self) -> bool {
        match self.from.first_chunk::<16>() {
            Some(chunk) if self.length <= 16 => {
                let strange = u128::from_le_bytes(strange(chunk));
                strange << (8 * (16 - self.length)) == 0
            }
            _ => all_within(&self.from[..self.length]),
        }
    }
}

/// Sixteen bytes at a time, and what is left by the table.
fn all_within(bytes: &[u8]) -> bool {
    let (chunks, rest) = bytes.as_chunks::<16>();
    let kinds = rest
        .iter()
        .fold(WITHIN, |kinds, &byte| kinds & BYTES[usize::from(byte)]);
    kinds != 0 && chunks.iter().all(|chunk| strange(chunk) == [0; 16])
}

/// 1 for each byte that may not stand in a name. All are asked the same, without a branch and
/// without the table, so that it can be done for all of them at once.
#[inline(always)]
fn strange(chunk: &[u8; 16]) -> [u8; 16] {
    chunk.map(|byte| {
        let is_letter = (byte | 32).wrapping_sub(b'a') < 26;
        let is_digit = byte.wrapping_sub(b'0') < 10;
        u8::from(!(is_letter | is_digit | (byte == b'_')))
    })
}

/// The words that stand for something else in the text of a type. Most names have another length.
#[inline]
fn is_reserved(name: &[u8]) -> bool {
    match name.len() {
        2 => matches!(name, b"u8" | b"i8"),
        3 => matches!(
            name,
            b"u16" | b"u32" | b"u64" | b"i16" | b"i32" | b"i64" | b"mut" | b"dyn"
        ),
        4 => matches!(name, b"u128" | b"i128" | b"bool" | b"impl" | b"Self"),
        5 => matches!(name, b"usize" | b"crate"),
        _ => false,
    }
}

#[cfg(test)]
mod tests {
    use super::*;
    use crate::generate::{damage, random_type, Names as Table, Random, Shape};
    use crate::reference;

    /// The answers for these bytes, with some text after them and with none.
    fn check(bytes: &[u8], name: bool, size: bool) {
        for after in [&b""[..], b"_", b"-0123456789-----"] {
            let from = &[bytes, after].concat();
            let length = bytes.len();
            let bytes = Bytes { from, length };
            assert_eq!(is_sound_name(bytes), name, "{from:?}, {length}");
            assert_eq!(is_sound_size(bytes), size, "{from:?}, {length}");
        }
    }

    /// Each byte in each place of names around the length of a chunk.
    #[test]
    fn every_byte_in_every_place() {
        check(b"", false, false);
        for length in 1..=50 {
            for at in 0..length {
                for byte in 0..=255 {
                    let mut name = vec![b'n'; length];
                    name[at] = byte;
                    let within = byte == b'_' || byte.is_ascii_alphanumeric();
                    let begins_well = at > 0 || !byte.is_ascii_digit();
                    check(&name, within && begins_well, within);
                }
            }
        }
    }

    #[test]
    fn words_that_are_no_names() {
        for word in [
            "u8", "u16", "u32", "u64", "u128", "i8", "i16", "i32", "i64", "i128", "usize", "bool",
            "mut", "impl", "dyn", "crate", "Self",
        ] {
            check(word.as_bytes(), false, true);
        }
        for word in ["isize", "self", "str", "u9", "muts", "U8", "_", "Crate"] {
            check(word.as_bytes(), true, true);
        }
    }

    /// Many names, used again and again, each as a name and as a size.
    #[test]
    fn many_names_as_the_reference_has_them() {
        let random = &mut Random::new(76);
        let mut answers = [0; 2];
        for round in 0..2_000 {
            let names = Table::random(random, PAIR_LIMIT);
            let shape = Shape {
                depth: 4 + round % 7,
                chain: false,
                children: 8,
                words: 600,
                careless: round % 4,
            };
            let mut sample = random_type(random, &names, shape);
            if round % 16 == 0 {
                damage(random, &mut sample);
            }
            let wanted = reference::type_is_sound(&sample.as_encoding());
            assert_eq!(type_is_sound(&sample.as_encoding()), wanted, "{sample:?}");
            if let Ok(sound) = wanted {
                answers[usize::from(sound)] += 1;
            }
        }
        assert!(answers.iter().all(|&count| count > 200), "{answers:?}");
    }
}
