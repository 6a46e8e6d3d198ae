//! Small cases with answers worked out by hand: the marked cases, which `docs/TRACE.md` lists, and
//! what is easily got wrong. The reference and the library are held to the same ones.

use crate::generate::Names;
use crate::words::{fields::*, head::*, kind::*, name::*, pair, root::*, visibility::*};
use crate::EncodingBuf;

pub use rebuild::{declaration_rebuilds, initializations, type_rebuilds};
pub use walks::{declaration_visits, parts, shapes, type_visits, PartCase, ShapeCase};

mod rebuild;
mod walks;

/// The names that the cases use: the four of `examples/gauge` as 16 to 19, then those that shapes
/// look at, bytes of fixed names among them.
pub fn names() -> Names {
    Names::of(&[
        b"Gauge",         // 16
        b"Offset in mm.", // 17
        b"mm",            // 18
        b"id",            // 19
        b"Array",         // 20
        b"Array2",        // 21
        b"Arra",          // 22
        b"Set",           // 23
        b"Sequence",      // 24
        b"Multiset",      // 25
        b"Map",           // 26
        b"std",           // 27
        b"rc",            // 28
        b"Rc",            // 29
        b"dafny_runtime", // 30
        b"",              // 31
        b"Object",        // 32
        b"array2",        // 33
        b"Sets",          // 34
        b"Ptr",           // 35
    ])
}

/// An encoding of these words with the names of the cases.
pub fn encoded(words: &[u32]) -> EncodingBuf {
    names().with_words(words)
}

/// `count` times `&`, then these words.
pub fn borrows_then(count: usize, rest: &[u32]) -> Vec<u32> {
    let mut words = vec![BORROWED; count];
    words.extend(rest);
    words
}

/// The names of `examples/gauge`: `Gauge`, `Offset in mm.`, `mm` and `id`.
pub const GAUGE_NAME: u32 = pair(0);
pub const OFFSET: u32 = pair(1);
pub const MM: u32 = pair(2);
pub const ID: u32 = pair(3);

/// The struct of `examples/gauge`.
pub const GAUGE: [u32; 14] = [
    STRUCT, OFFSET, 0, GAUGE_NAME, 0, NAMED, 2, PUB, MM, I32, PRIV, ID, BORROWED, U8,
];

/// A call that writes words.
#[derive(Clone, Debug)]
pub struct WordCase {
    pub words: Vec<u32>,
    pub rules: Vec<u32>,
    pub buffer: usize,
    /// The words at the front of the buffer, or the number of the refusal.
    pub wanted: Result<Vec<u32>, u32>,
}

impl WordCase {
    /// What the buffer holds after the call if it held `before`.
    ///
    /// `zeroed` says whether refusals 5 and 8 come from rebuilding, which leaves zeros behind; a
    /// tree that is too deep to begin with does not.
    pub fn buffer_after(&self, before: &[u32], zeroed: bool) -> Vec<u32> {
        match &self.wanted {
            Ok(words) => [words, &before[words.len()..]].concat(),
            Err(5 | 8) if zeroed => vec![0; before.len()],
            Err(_) => before.to_vec(),
        }
    }
}

/// An Object, a Ptr and a MaybeUninit, each without its argument.
pub const OBJECT_OF: [u32; 7] = [APP, 1, FROM_PATH, GLOBAL, 2, DAFNY_RUNTIME, OBJECT];
pub const PTR_OF: [u32; 7] = [APP, 1, FROM_PATH, GLOBAL, 2, DAFNY_RUNTIME, PTR];
pub const MAYBE_UNINIT_OF: [u32; 8] = [APP, 1, FROM_PATH, GLOBAL, 3, STD, MEM, MAYBE_UNINIT];
/// `Array2`, without its argument.
pub const ARRAY2_OF: [u32; 7] = [APP, 1, FROM_PATH, GLOBAL, 2, DAFNY_RUNTIME, pair(5)];

/// Words one after the other.
pub fn joined(parts: &[&[u32]]) -> Vec<u32> {
    parts.concat()
}

fn rebuilt(words: &[u32], rules: &[u32], wanted: &[u32]) -> WordCase {
    WordCase {
        words: words.to_vec(),
        rules: rules.to_vec(),
        buffer: 100,
        wanted: Ok(wanted.to_vec()),
    }
}

fn refused(words: &[u32], rules: &[u32], number: u32) -> WordCase {
    WordCase {
        words: words.to_vec(),
        rules: rules.to_vec(),
        buffer: 3,
        wanted: Err(number),
    }
}

/// The case with just enough room, and with a word less, which is refused.
fn with_least_room(case: &WordCase, least: usize) -> [WordCase; 2] {
    let enough = WordCase {
        buffer: least,
        ..case.clone()
    };
    let too_little = WordCase {
        buffer: least - 1,
        wanted: Err(8),
        ..case.clone()
    };
    [enough, too_little]
}
