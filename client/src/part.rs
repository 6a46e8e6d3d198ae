//! Calls that find a part of a type.
//!
//! The answer is the range of the encoding's words that holds the part. A type that does not have
//! the part is refused with [`Refusal::NoSuchPart`].

use std::fmt;
use std::ops::Range;

use crate::{answer, ffi, Encoding, Refusal};

/// One of the eleven parts of a type, by its name in the source.
///
/// ```
/// use tillercoral::tree::Type;
/// use tillercoral::{Part, Refusal};
///
/// // `::std::rc::Rc<u8>`
/// let shared = Type::rc(Type::U8).encode()?;
/// let shared = shared.as_encoding();
/// assert_eq!(shared.words, [14, 1, 13, 0, 3, 1, 2, 3, 0]);
/// assert_eq!(Part::RcUnderlying.of(&shared), Ok(8..9));
/// assert_eq!(Part::BoxUnderlying.of(&shared), Err(Refusal::NoSuchPart));
/// # Ok::<(), tillercoral::Refusal>(())
/// ```
#[derive(Clone, Copy, Debug, PartialEq, Eq, Hash)]
#[non_exhaustive]
pub enum Part {
    /// See [`remove_synonyms`].
    RemoveSynonyms,
    /// See [`expand`].
    Expand,
    /// See [`to_owned`].
    ToOwned,
    /// See [`multi_array_underlying`].
    MultiArrayUnderlying,
    /// See [`box_underlying`].
    BoxUnderlying,
    /// See [`object_or_pointer_underlying`].
    ObjectOrPointerUnderlying,
    /// See [`rc_underlying`].
    RcUnderlying,
    /// See [`box_dyn_underlying`].
    BoxDynUnderlying,
    /// See [`get_builtin_collection_element`].
    GetBuiltinCollectionElement,
    /// See [`extract_maybe_placebo`].
    ExtractMaybePlacebo,
    /// See [`extract_maybe_uninit_array_element`].
    ExtractMaybeUninitArrayElement,
}

impl Part {
    /// All of them.
    pub const ALL: &'static [Part] = &[
        Part::RemoveSynonyms,
        Part::Expand,
        Part::ToOwned,
        Part::MultiArrayUnderlying,
        Part::BoxUnderlying,
        Part::ObjectOrPointerUnderlying,
        Part::RcUnderlying,
        Part::BoxDynUnderlying,
        Part::GetBuiltinCollectionElement,
        Part::ExtractMaybePlacebo,
        Part::ExtractMaybeUninitArrayElement,
    ];

    /// The range of the encoding's words that holds the part.
    pub fn of(self, encoding: &Encoding<'_>) -> Result<Range<usize>, Refusal> {
        let call = match self {
            Part::RemoveSynonyms => remove_synonyms,
            Part::Expand => expand,
            Part::ToOwned => to_owned,
            Part::MultiArrayUnderlying => multi_array_underlying,
            Part::BoxUnderlying => box_underlying,
            Part::ObjectOrPointerUnderlying => object_or_pointer_underlying,
            Part::RcUnderlying => rc_underlying,
            Part::BoxDynUnderlying => box_dyn_underlying,
            Part::GetBuiltinCollectionElement => get_builtin_collection_element,
            Part::ExtractMaybePlacebo => extract_maybe_placebo,
            Part::ExtractMaybeUninitArrayElement => extract_maybe_uninit_array_element,
        };
        call(encoding)
    }

    /// The name in the source.
    #[must_use]
    pub const fn name(self) -> &'static str {
        match self {
            Part::RemoveSynonyms => "RemoveSynonyms",
            Part::Expand => "Expand",
            Part::ToOwned => "ToOwned",
            Part::MultiArrayUnderlying => "MultiArrayUnderlying",
            Part::BoxUnderlying => "BoxUnderlying",
            Part::ObjectOrPointerUnderlying => "ObjectOrPointerUnderlying",
            Part::RcUnderlying => "RcUnderlying",
            Part::BoxDynUnderlying => "BoxDynUnderlying",
            Part::GetBuiltinCollectionElement => "GetBuiltinCollectionElement",
            Part::ExtractMaybePlacebo => "ExtractMaybePlacebo",
            Part::ExtractMaybeUninitArrayElement => "ExtractMaybeUninitArrayElement",
        }
    }
}

impl fmt::Display for Part {
    fn fmt(&self, f: &mut fmt::Formatter<'_>) -> fmt::Result {
        f.pad(self.name())
    }
}

/// Takes a part apart: its first word times 65,536, plus how many words it has.
fn part(number: u64) -> Result<Range<usize>, Refusal> {
    answer(number).map(|part| {
        let (start, length) = ((part >> 16) as usize, (part & 0xFFFF) as usize);
        start..start + length
    })
}

/// The type without the wrappers around it: what is printed. Never refused for its shape.
///
/// ```
/// use tillercoral::remove_synonyms;
/// use tillercoral::tree::Type;
///
/// let whole = Type::synonym(Type::U8, Type::Bool).encode()?;
/// let part = remove_synonyms(&whole.as_encoding())?;
/// assert_eq!(whole.words[part], [0]);
/// # Ok::<(), tillercoral::Refusal>(())
/// ```
pub fn remove_synonyms(encoding: &Encoding<'_>) -> Result<Range<usize>, Refusal> {
    part(ffi::walks::remove_synonyms(encoding))
}

/// The type without the wrappers around it: what it stands for. Never refused for its shape.
///
/// ```
/// use tillercoral::{expand, Encoding};
///
/// // A synonym printed as `u8` that stands for `&bool`.
/// let encoding = Encoding { words: &[23, 0, 15, 11], pairs: &[], text: &[] };
/// let part = expand(&encoding)?;
/// assert_eq!(part, 2..4);
/// assert_eq!(encoding.words[part], [15, 11]);
/// # Ok::<(), tillercoral::Refusal>(())
/// ```
pub fn expand(encoding: &Encoding<'_>) -> Result<Range<usize>, Refusal> {
    part(ffi::walks::expand(encoding))
}

/// What the type borrows, or the type itself if it borrows nothing. Never refused for its shape.
///
/// ```
/// use tillercoral::to_owned;
/// use tillercoral::tree::Type;
///
/// let whole = Type::borrowed_mut(Type::U8).encode()?;
/// let part = to_owned(&whole.as_encoding())?;
/// assert_eq!(whole.words[part], [0]);
/// # Ok::<(), tillercoral::Refusal>(())
/// ```
pub fn to_owned(encoding: &Encoding<'_>) -> Result<Range<usize>, Refusal> {
    part(ffi::walks::to_owned(encoding))
}

/// The argument of a type that [`is_multi_array`](crate::is_multi_array) accepts.
///
/// ```
/// use tillercoral::multi_array_underlying;
/// use tillercoral::tree::Type;
///
/// let whole = Type::runtime("Array2", [Type::Bool]).encode()?;
/// let part = multi_array_underlying(&whole.as_encoding())?;
/// assert_eq!(whole.words[part], [11]);
/// # Ok::<(), tillercoral::Refusal>(())
/// ```
pub fn multi_array_underlying(encoding: &Encoding<'_>) -> Result<Range<usize>, Refusal> {
    part(ffi::walks::multi_array_underlying(encoding))
}

/// The argument of a type that [`is_box`](crate::is_box) accepts.
///
/// ```
/// use tillercoral::box_underlying;
/// use tillercoral::tree::Type;
///
/// let whole = Type::boxed(Type::Bool).encode()?;
/// let part = box_underlying(&whole.as_encoding())?;
/// assert_eq!(whole.words[part], [11]);
/// # Ok::<(), tillercoral::Refusal>(())
/// ```
pub fn box_underlying(encoding: &Encoding<'_>) -> Result<Range<usize>, Refusal> {
    part(ffi::walks::box_underlying(encoding))
}

/// The argument of a type that [`is_object_or_pointer`](crate::is_object_or_pointer) accepts.
///
/// ```
/// use tillercoral::object_or_pointer_underlying;
/// use tillercoral::tree::Type;
///
/// let whole = Type::ptr(Type::slice(Type::U8)).encode()?;
/// let part = object_or_pointer_underlying(&whole.as_encoding())?;
/// assert_eq!(whole.words[part], [22, 0, 0]);
/// # Ok::<(), tillercoral::Refusal>(())
/// ```
pub fn object_or_pointer_underlying(encoding: &Encoding<'_>) -> Result<Range<usize>, Refusal> {
    part(ffi::walks::object_or_pointer_underlying(encoding))
}

/// The argument of a type that [`is_rc`](crate::is_rc) accepts.
///
/// ```
/// use tillercoral::rc_underlying;
/// use tillercoral::tree::Type;
///
/// let whole = Type::arc(Type::Bool).encode()?;
/// let part = rc_underlying(&whole.as_encoding())?;
/// assert_eq!(whole.words[part], [11]);
/// # Ok::<(), tillercoral::Refusal>(())
/// ```
pub fn rc_underlying(encoding: &Encoding<'_>) -> Result<Range<usize>, Refusal> {
    part(ffi::walks::rc_underlying(encoding))
}

/// What stands after the `dyn` of a type that [`is_box_dyn`](crate::is_box_dyn) accepts.
///
/// ```
/// use tillercoral::box_dyn_underlying;
/// use tillercoral::tree::Type;
///
/// let whole = Type::boxed(Type::dyn_trait(Type::named("Sounder"))).encode()?;
/// let part = box_dyn_underlying(&whole.as_encoding())?;
/// assert_eq!(whole.words[part], [12, 16]);
/// # Ok::<(), tillercoral::Refusal>(())
/// ```
pub fn box_dyn_underlying(encoding: &Encoding<'_>) -> Result<Range<usize>, Refusal> {
    part(ffi::walks::box_dyn_underlying(encoding))
}

/// The argument of a type that [`is_builtin_collection`](crate::is_builtin_collection) accepts, of
/// a `Map` the second one.
///
/// ```
/// use tillercoral::get_builtin_collection_element;
/// use tillercoral::tree::Type;
///
/// let whole = Type::runtime("Map", [Type::U8, Type::U16]).encode()?;
/// let part = get_builtin_collection_element(&whole.as_encoding())?;
/// assert_eq!(whole.words[part], [1]);
/// # Ok::<(), tillercoral::Refusal>(())
/// ```
pub fn get_builtin_collection_element(encoding: &Encoding<'_>) -> Result<Range<usize>, Refusal> {
    part(ffi::walks::get_builtin_collection_element(encoding))
}

/// The argument of a `MaybePlacebo`.
///
/// ```
/// use tillercoral::extract_maybe_placebo;
/// use tillercoral::tree::Type;
///
/// let whole = Type::maybe_placebo(Type::Bool).encode()?;
/// let part = extract_maybe_placebo(&whole.as_encoding())?;
/// assert_eq!(whole.words[part], [11]);
/// # Ok::<(), tillercoral::Refusal>(())
/// ```
pub fn extract_maybe_placebo(encoding: &Encoding<'_>) -> Result<Range<usize>, Refusal> {
    part(ffi::walks::extract_maybe_placebo(encoding))
}

/// The argument of the `MaybeUninit` that the elements of an array in an Object or a Ptr are. The
/// array may be sized.
///
/// ```
/// use tillercoral::extract_maybe_uninit_array_element;
/// use tillercoral::tree::Type;
///
/// let whole = Type::object(Type::array(Type::maybe_uninit(Type::U8), "16")).encode()?;
/// let part = extract_maybe_uninit_array_element(&whole.as_encoding())?;
/// assert_eq!(whole.words[part], [0]);
/// # Ok::<(), tillercoral::Refusal>(())
/// ```
pub fn extract_maybe_uninit_array_element(
    encoding: &Encoding<'_>,
) -> Result<Range<usize>, Refusal> {
    part(ffi::walks::extract_maybe_uninit_array_element(encoding))
}

#[cfg(test)]
mod tests {
    use super::*;

    #[test]
    fn parts_are_taken_apart() {
        assert_eq!(part(0), Ok(0..0));
        assert_eq!(part(1), Ok(0..1));
        assert_eq!(part((3 << 16) + 8_189), Ok(3..8_192));
        assert_eq!(part((1 << 63) + 7), Err(Refusal::NoSuchPart));
    }
}
