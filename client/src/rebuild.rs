//! Calls that give a rebuilt tree.
//!
//! A list of rules is a run of words of its own: their number, at most 32, then for each rule two
//! types, what is replaced and what it is replaced by. It uses the names of the tree's encoding.
//!
//! The result fills the front of the buffer, the rest stays as it was. A call that is refused
//! because the buffer is too short or because the rebuilt tree is too deep leaves the whole buffer
//! zero; any other refusal leaves it as it was.

use crate::{answer, ffi, Encoding, Refusal};

/// Replaces types inside a type, from the innermost outwards, and gives the number of words.
///
/// A type whose children are finished gives way to the other type of the rule that has it as its
/// first, and that one is not searched again. Types are equal when they are the same tree, names
/// compared by their bytes.
///
/// The buffer, and in any case 8,192 words, must hold the most words there are at one moment, which
/// can be more than the result.
///
/// ```
/// use tillercoral::{type_rebuild, Encoding, Refusal};
///
/// // `&u16`, first with `u16` by `u8`, then with `&u8` by `bool`
/// let encoding = Encoding { words: &[15, 1], pairs: &[], text: &[] };
/// let rules = [2, 1, 0, 15, 0, 11];
/// let mut buffer = [7; 3];
/// assert_eq!(type_rebuild(&encoding, &rules, &mut buffer), Ok(1));
/// assert_eq!(buffer, [11, 7, 7]);
/// assert_eq!(
///     type_rebuild(&encoding, &rules, &mut buffer[..1]),
///     Err(Refusal::BufferTooShort)
/// );
/// assert_eq!(buffer, [0, 7, 7]);
/// ```
pub fn type_rebuild(
    encoding: &Encoding<'_>,
    rules: &[u32],
    out: &mut [u32],
) -> Result<usize, Refusal> {
    answer(ffi::rebuild::type_rebuild(encoding, rules, out)).map(|length| length as usize)
}

/// Replaces types inside a declaration, each as [`type_rebuild`] does, and gives the number of
/// words. All but the types stays as it is.
///
/// ```
/// use tillercoral::words::{fields::NAMELESS, head::STRUCT, kind::*, name, pair, visibility::PRIV};
/// use tillercoral::{declaration_rebuild, Encoding};
///
/// // pub struct Gauge(u8);
/// let encoding = Encoding {
///     words: &[STRUCT, name::EMPTY, 0, pair(0), 0, NAMELESS, 1, PRIV, U8],
///     pairs: &[0, 5],
///     text: b"Gauge",
/// };
/// let mut buffer = [0; 16];
/// let length = declaration_rebuild(&encoding, &[1, U8, BORROWED, U8], &mut buffer)?;
/// assert_eq!(buffer[..8], encoding.words[..8]);
/// assert_eq!(buffer[8..length], [BORROWED, U8]);
/// # Ok::<(), tillercoral::Refusal>(())
/// ```
pub fn declaration_rebuild(
    encoding: &Encoding<'_>,
    rules: &[u32],
    out: &mut [u32],
) -> Result<usize, Refusal> {
    answer(ffi::rebuild::declaration_rebuild(encoding, rules, out)).map(|length| length as usize)
}

/// The type that a value has while it is being initialized, and its number of words: the elements
/// of an array in an Object or a Ptr become `MaybeUninit`. Other types come back unaltered.
///
/// ```
/// use tillercoral::{type_at_initialization, Encoding};
///
/// // ::dafny_runtime::Ptr<[u8]>
/// let encoding = Encoding {
///     words: &[14, 1, 13, 0, 2, 10, 12, 22, 0, 0],
///     pairs: &[],
///     text: &[],
/// };
/// let mut buffer = [0; 32];
/// let length = type_at_initialization(&encoding, &mut buffer)?;
/// // ::dafny_runtime::Ptr<[::std::mem::MaybeUninit<u8>]>
/// assert_eq!(
///     buffer[..length],
///     [14, 1, 13, 0, 2, 10, 12, 22, 0, 14, 1, 13, 0, 3, 1, 8, 9, 0]
/// );
/// # Ok::<(), tillercoral::Refusal>(())
/// ```
pub fn type_at_initialization(encoding: &Encoding<'_>, out: &mut [u32]) -> Result<usize, Refusal> {
    answer(ffi::rebuild::type_at_initialization(encoding, out)).map(|length| length as usize)
}
