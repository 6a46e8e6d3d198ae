//! Safe calls of Tillercoral, a proved printer of Rust types and declarations.
//!
//! Build a [tree] and print it:
//!
//! ```
//! use tillercoral::tree::{Declaration, Field, Struct, Type};
//!
//! let gauge = Declaration::from(
//!     Struct::new("Gauge")
//!         .doc("Offset in mm.")
//!         .field(Field::public("mm", Type::I32)),
//! );
//! assert_eq!(
//!     gauge.to_text(0)?,
//!     "/// Offset in mm.\npub struct Gauge {\n    pub mm: i32\n}"
//! );
//! # Ok::<(), tillercoral::TextError>(())
//! ```
//!
//! The library itself takes an [`Encoding`]: the tree written head first in `u32` words, and the
//! names it uses. An [`EncodingBuf`] is made from a tree, and a tree is decoded from an encoding
//! ([`tree::Type::decode`]). There are two layers of calls:
//!
//! - The methods of trees ([`tree::Type::to_text`], [`tree::Declaration::rebuild`], ..) and of
//!   encodings ([`Encoding::type_text`], ..) allocate what they give.
//! - The functions of this module, one for each exported call, hand the encoding and the caller's
//!   buffer to the proved static library and turn its answer into a `Result`. They copy, check and
//!   allocate nothing.
//!
//! ```
//! use tillercoral::{type_text, Encoding};
//!
//! // 14 1 is an application to one argument, 12 16 the first name of the table, 0 is `u8`.
//! let encoding = Encoding {
//!     words: &[14, 1, 12, 16, 0],
//!     pairs: &[0, 5],
//!     text: b"Gauge",
//! };
//! let mut buffer = [0; 64];
//! let length = type_text(&encoding, 0, &mut buffer)?;
//! assert_eq!(&buffer[..length], b"Gauge<u8>");
//! # Ok::<(), tillercoral::Refusal>(())
//! ```
//!
//! Every call may be refused; [`Refusal`] says why, with the library's number. No call panics or
//! keeps anything for the next one, so all of them can be made from any number of threads.

#![deny(unsafe_code)]
#![warn(missing_docs, clippy::undocumented_unsafe_blocks)]

#[doc(hidden)]
pub mod cases;
mod decode;
mod encode;
#[allow(unsafe_code)]
mod ffi;
pub mod limits;
mod owned;
mod part;
mod rebuild;
mod refusal;
mod shape;
pub mod source;
pub mod tree;
mod visit;
pub mod words;

#[doc(hidden)]
pub mod generate;
#[doc(hidden)]
pub mod reference;
#[doc(hidden)]
pub mod tuned;

pub use decode::DecodeError;
pub use encode::EncodingBuf;
pub use owned::TextError;
pub use part::{
    box_dyn_underlying, box_underlying, expand, extract_maybe_placebo,
    extract_maybe_uninit_array_element, get_builtin_collection_element, multi_array_underlying,
    object_or_pointer_underlying, rc_underlying, remove_synonyms, to_owned, Part,
};
pub use rebuild::{declaration_rebuild, type_at_initialization, type_rebuild};
pub use refusal::Refusal;
pub use shape::{
    can_read_without_clone, ends_with_name_that_can_accept_generics, is_auto_size, is_box,
    is_box_dyn, is_builtin_collection, is_maybe_uninit, is_multi_array, is_object,
    is_object_or_pointer, is_pointer, is_rc, is_rc_or_borrowed_rc, is_uninit_array,
    needs_as_ref_for_borrow, Shape,
};
pub use visit::{declaration_visit, type_visit};

/// The examples of the package's README, for `cargo test` to run.
#[cfg(doctest)]
#[doc = include_str!("../README.md")]
struct ReadmeExamples;

/// The same of the repository's.
#[cfg(doctest)]
#[doc = include_str!("../../README.md")]
struct RepositoryReadmeExamples;

/// A tree and the names it uses.
///
/// Name numbers 0 to 15 are fixed (empty, `std`, `rc`, `Rc`, `sync`, `Arc`, `boxed`, `Box`, `mem`,
/// `MaybeUninit`, `dafny_runtime`, `Object`, `Ptr`, `MaybePlacebo`, `_`, `self`); 16 + i is pair i.
/// All words have names in [`words`].
///
/// ```
/// use tillercoral::tree::{Path, Type};
/// use tillercoral::Encoding;
///
/// // `&mut crate::Gauge`: 16 is `&mut`, 13 a path, 1 1 begins it with `crate` and says that one
/// // name follows, and 16 is that name, pair 0.
/// let encoding = Encoding {
///     words: &[16, 13, 1, 1, 16],
///     pairs: &[0, 5],
///     text: b"Gauge",
/// };
/// let tree = Type::borrowed_mut(Path::in_crate(["Gauge"]).into_type());
/// assert_eq!(Type::decode(&encoding), Ok(tree));
/// ```
#[derive(Clone, Copy, Debug, Default, PartialEq, Eq, Hash)]
pub struct Encoding<'a> {
    /// The tree, head first; at most 8,192 words.
    pub words: &'a [u32],
    /// Offset, length, offset, length, .. of names in the text, sorted and apart from each other;
    /// at most 1,024 pairs.
    pub pairs: &'a [u32],
    /// The bytes that the pairs point into, at most 16,384. They need not be UTF-8.
    pub text: &'a [u8],
}

/// Writes the text of a type to the front of `out` and gives its length.
///
/// The level, 0 to 16, is tested but never shows in the text of a type. The rest of `out` stays as
/// it was, and all of it does when the call is refused.
///
/// ```
/// use tillercoral::{type_text, Encoding, Refusal};
///
/// // `&` before the pair (`u8`, `bool`)
/// let encoding = Encoding { words: &[15, 19, 2, 0, 11], pairs: &[], text: &[] };
/// let mut buffer = *b"--------------";
/// assert_eq!(type_text(&encoding, 0, &mut buffer), Ok(11));
/// assert_eq!(&buffer, b"&(u8, bool)---");
/// assert_eq!(
///     type_text(&encoding, 0, &mut buffer[..10]),
///     Err(Refusal::BufferTooShort)
/// );
/// ```
pub fn type_text(encoding: &Encoding<'_>, level: u32, out: &mut [u8]) -> Result<usize, Refusal> {
    answer(ffi::type_text(encoding, level, out)).map(|length| length as usize)
}

/// Writes the text of a path to the front of `out` and gives its length.
///
/// The level and the buffer are treated as in [`type_text`].
///
/// ```
/// use tillercoral::{path_text, Encoding};
///
/// let encoding = Encoding { words: &[0, 3, 1, 2, 3], pairs: &[], text: &[] };
/// let mut buffer = [0; 32];
/// let length = path_text(&encoding, 0, &mut buffer)?;
/// assert_eq!(&buffer[..length], b"::std::rc::Rc");
/// # Ok::<(), tillercoral::Refusal>(())
/// ```
pub fn path_text(encoding: &Encoding<'_>, level: u32, out: &mut [u8]) -> Result<usize, Refusal> {
    answer(ffi::path_text(encoding, level, out)).map(|length| length as usize)
}

/// Writes the text of a declaration to the front of `out` and gives its length.
///
/// The level, 0 to 16, is the indent in steps of four spaces. The text does not begin with the
/// indent, as it goes where the caller has already indented; its other lines do. The buffer is
/// treated as in [`type_text`].
///
/// ```
/// use tillercoral::words::{fields::NAMED, head::STRUCT, kind::*, pair, visibility::*};
/// use tillercoral::{declaration_text, Encoding};
///
/// // A struct: its doc, no attributes, its name, no parameters; two named fields: `pub mm` of type
/// // `i32`, and `id` of type `&u8`
/// let front = [STRUCT, pair(1), 0, pair(0), 0, NAMED, 2];
/// let fields = [PUB, pair(2), I32, PRIV, pair(3), BORROWED, U8];
/// let encoding = Encoding {
///     words: &[front, fields].concat(),
///     pairs: &[0, 5, 5, 13, 18, 2, 20, 2],
///     text: b"GaugeOffset in mm.mmid",
/// };
/// let mut buffer = [0; 128];
/// let length = declaration_text(&encoding, 0, &mut buffer)?;
/// assert_eq!(
///     std::str::from_utf8(&buffer[..length]),
///     Ok("\
/// /// Offset in mm.
/// pub struct Gauge {
///     pub mm: i32,
///     id: &u8
/// }")
/// );
/// # Ok::<(), tillercoral::Refusal>(())
/// ```
pub fn declaration_text(
    encoding: &Encoding<'_>,
    level: u32,
    out: &mut [u8],
) -> Result<usize, Refusal> {
    answer(ffi::declaration_text(encoding, level, out)).map(|length| length as usize)
}

/// Says whether a type is sound: its text is then the text of no other sound type, wrappers
/// (kinds 23 and 24) aside.
///
/// ```
/// use tillercoral::{type_is_sound, Encoding};
///
/// // Both print `&u8 + bool`; only the first is what that text means.
/// let sum = Encoding { words: &[21, 15, 0, 11], pairs: &[], text: &[] };
/// let borrowed_sum = Encoding { words: &[15, 21, 0, 11], pairs: &[], text: &[] };
/// assert_eq!(type_is_sound(&sum), Ok(true));
/// assert_eq!(type_is_sound(&borrowed_sum), Ok(false));
/// ```
pub fn type_is_sound(encoding: &Encoding<'_>) -> Result<bool, Refusal> {
    yes_or_no(ffi::type_is_sound(encoding))
}

/// Takes the answer to a question apart.
fn yes_or_no(number: u64) -> Result<bool, Refusal> {
    answer(number).map(|yes| match yes {
        0 => false,
        1 => true,
        other => unreachable!("the library answers 0 or 1, not {other}"),
    })
}

/// Takes a number of the library apart: below 2^63 it is a result, from there on a refusal.
#[inline]
fn answer(number: u64) -> Result<u64, Refusal> {
    const REFUSED: u64 = 1 << 63;
    if number < REFUSED {
        return Ok(number);
    }
    match Refusal::from_number(number - REFUSED) {
        Some(refusal) => Err(refusal),
        None => panic!("the library answered {number}, which stands for nothing"),
    }
}

#[cfg(test)]
mod tests {
    use super::*;

    #[test]
    fn answers_are_taken_apart() {
        assert_eq!(answer(0), Ok(0));
        assert_eq!(answer((1 << 63) - 1), Ok((1 << 63) - 1));
        for &refusal in Refusal::ALL {
            assert_eq!(
                answer((1 << 63) + u64::from(refusal.number())),
                Err(refusal)
            );
        }
    }

    #[test]
    #[should_panic(expected = "stands for nothing")]
    fn an_unknown_refusal_is_not_passed_on() {
        let _ = answer(1 << 63);
    }
}
