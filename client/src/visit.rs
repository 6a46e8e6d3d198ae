//! Calls that give the positions of the types in a tree.

use crate::{answer, ffi, Encoding, Refusal};

/// Writes the positions of the words at which the types in a type begin to the front of `out`, in
/// the order in which they are visited, and gives their number. The type itself comes first; bases
/// of synonyms are not visited.
///
/// The rest of `out` stays as it was, and all of it does when the call is refused.
///
/// ```
/// use tillercoral::{type_visit, Encoding};
///
/// // `std<u8>`
/// let encoding = Encoding { words: &[14, 1, 12, 1, 0], pairs: &[], text: &[] };
/// let mut buffer = [7; 4];
/// assert_eq!(type_visit(&encoding, &mut buffer), Ok(3));
/// assert_eq!(buffer, [0, 2, 4, 7]);
/// ```
pub fn type_visit(encoding: &Encoding<'_>, out: &mut [u32]) -> Result<usize, Refusal> {
    answer(ffi::walks::type_visit(encoding, out)).map(|length| length as usize)
}

/// Writes the positions of the types visited in a declaration, as [`type_visit`] does. The fields
/// of a struct are not visited, those of an enum are.
///
/// ```
/// use tillercoral::words::{head::TYPE, kind::*, name::*};
/// use tillercoral::{declaration_visit, Encoding};
///
/// // pub type std = &u8;
/// let words = &[TYPE, EMPTY, 0, STD, 0, BORROWED, U8];
/// let encoding = Encoding { words, pairs: &[], text: &[] };
/// let mut buffer = [0; 4];
/// let count = declaration_visit(&encoding, &mut buffer)?;
/// assert_eq!(buffer[..count], [5, 6]);
/// # Ok::<(), tillercoral::Refusal>(())
/// ```
pub fn declaration_visit(encoding: &Encoding<'_>, out: &mut [u32]) -> Result<usize, Refusal> {
    answer(ffi::walks::declaration_visit(encoding, out)).map(|length| length as usize)
}
