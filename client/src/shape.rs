//! Calls that answer a question about a type with yes or no.

use std::fmt;

use crate::{ffi, yes_or_no, Encoding, Refusal};

/// One of the fifteen questions about a type, by its name in the source.
///
/// ```
/// use tillercoral::tree::Type;
/// use tillercoral::Shape;
///
/// let shared = Type::borrowed(Type::rc(Type::U8)).encode()?;
/// let mut yes = Vec::new();
/// for &shape in Shape::ALL {
///     if shape.of(&shared.as_encoding())? {
///         yes.push(shape.name());
///     }
/// }
/// assert_eq!(yes, ["IsRcOrBorrowedRc", "NeedsAsRefForBorrow"]);
/// # Ok::<(), tillercoral::Refusal>(())
/// ```
#[derive(Clone, Copy, Debug, PartialEq, Eq, Hash)]
#[non_exhaustive]
pub enum Shape {
    /// See [`ends_with_name_that_can_accept_generics`].
    EndsWithNameThatCanAcceptGenerics,
    /// See [`is_auto_size`].
    IsAutoSize,
    /// See [`can_read_without_clone`].
    CanReadWithoutClone,
    /// See [`is_rc_or_borrowed_rc`].
    IsRcOrBorrowedRc,
    /// See [`is_multi_array`].
    IsMultiArray,
    /// See [`is_maybe_uninit`].
    IsMaybeUninit,
    /// See [`is_uninit_array`].
    IsUninitArray,
    /// See [`is_box`].
    IsBox,
    /// See [`needs_as_ref_for_borrow`].
    NeedsAsRefForBorrow,
    /// See [`is_object`].
    IsObject,
    /// See [`is_pointer`].
    IsPointer,
    /// See [`is_object_or_pointer`].
    IsObjectOrPointer,
    /// See [`is_builtin_collection`].
    IsBuiltinCollection,
    /// See [`is_rc`].
    IsRc,
    /// See [`is_box_dyn`].
    IsBoxDyn,
}

impl Shape {
    /// All of them.
    pub const ALL: &'static [Shape] = &[
        Shape::EndsWithNameThatCanAcceptGenerics,
        Shape::IsAutoSize,
        Shape::CanReadWithoutClone,
        Shape::IsRcOrBorrowedRc,
        Shape::IsMultiArray,
        Shape::IsMaybeUninit,
        Shape::IsUninitArray,
        Shape::IsBox,
        Shape::NeedsAsRefForBorrow,
        Shape::IsObject,
        Shape::IsPointer,
        Shape::IsObjectOrPointer,
        Shape::IsBuiltinCollection,
        Shape::IsRc,
        Shape::IsBoxDyn,
    ];

    /// Whether the type of an encoding has the shape.
    pub fn of(self, encoding: &Encoding<'_>) -> Result<bool, Refusal> {
        let call = match self {
            Shape::EndsWithNameThatCanAcceptGenerics => ends_with_name_that_can_accept_generics,
            Shape::IsAutoSize => is_auto_size,
            Shape::CanReadWithoutClone => can_read_without_clone,
            Shape::IsRcOrBorrowedRc => is_rc_or_borrowed_rc,
            Shape::IsMultiArray => is_multi_array,
            Shape::IsMaybeUninit => is_maybe_uninit,
            Shape::IsUninitArray => is_uninit_array,
            Shape::IsBox => is_box,
            Shape::NeedsAsRefForBorrow => needs_as_ref_for_borrow,
            Shape::IsObject => is_object,
            Shape::IsPointer => is_pointer,
            Shape::IsObjectOrPointer => is_object_or_pointer,
            Shape::IsBuiltinCollection => is_builtin_collection,
            Shape::IsRc => is_rc,
            Shape::IsBoxDyn => is_box_dyn,
        };
        call(encoding)
    }

    /// The name in the source.
    #[must_use]
    pub const fn name(self) -> &'static str {
        match self {
            Shape::EndsWithNameThatCanAcceptGenerics => "EndsWithNameThatCanAcceptGenerics",
            Shape::IsAutoSize => "IsAutoSize",
            Shape::CanReadWithoutClone => "CanReadWithoutClone",
            Shape::IsRcOrBorrowedRc => "IsRcOrBorrowedRc",
            Shape::IsMultiArray => "IsMultiArray",
            Shape::IsMaybeUninit => "IsMaybeUninit",
            Shape::IsUninitArray => "IsUninitArray",
            Shape::IsBox => "IsBox",
            Shape::NeedsAsRefForBorrow => "NeedsAsRefForBorrow",
            Shape::IsObject => "IsObject",
            Shape::IsPointer => "IsPointer",
            Shape::IsObjectOrPointer => "IsObjectOrPointer",
            Shape::IsBuiltinCollection => "IsBuiltinCollection",
            Shape::IsRc => "IsRc",
            Shape::IsBoxDyn => "IsBoxDyn",
        }
    }
}

impl fmt::Display for Shape {
    fn fmt(&self, f: &mut fmt::Formatter<'_>) -> fmt::Result {
        f.pad(self.name())
    }
}

/// Whether the text of the type ends with a name after which `<..>` may stand. `usize` and `bool`
/// do not count, and of a synonym the display is looked at.
///
/// ```
/// use tillercoral::ends_with_name_that_can_accept_generics;
/// use tillercoral::tree::Type;
///
/// let yes = Type::borrowed(Type::named("Gauge")).encode()?;
/// assert_eq!(ends_with_name_that_can_accept_generics(&yes.as_encoding()), Ok(true));
/// let no = Type::Usize.encode()?;
/// assert_eq!(ends_with_name_that_can_accept_generics(&no.as_encoding()), Ok(false));
/// # Ok::<(), tillercoral::Refusal>(())
/// ```
pub fn ends_with_name_that_can_accept_generics(encoding: &Encoding<'_>) -> Result<bool, Refusal> {
    yes_or_no(ffi::walks::ends_with_name_that_can_accept_generics(
        encoding,
    ))
}

/// Whether the type is one of `u8` to `i128` or `usize`, bases of synonyms and metadata followed.
///
/// ```
/// use tillercoral::{is_auto_size, Encoding};
///
/// // A synonym printed as `u8` that stands for `bool`.
/// let encoding = Encoding { words: &[23, 0, 11], pairs: &[], text: &[] };
/// assert_eq!(is_auto_size(&encoding), Ok(false));
/// ```
pub fn is_auto_size(encoding: &Encoding<'_>) -> Result<bool, Refusal> {
    yes_or_no(ffi::walks::is_auto_size(encoding))
}

/// Whether a value can be read without cloning it: numbers, `bool`, a Ptr, metadata that says so;
/// bases of synonyms are followed.
///
/// ```
/// use tillercoral::can_read_without_clone;
/// use tillercoral::tree::Type;
///
/// let yes = Type::ptr(Type::named("Gauge")).encode()?;
/// assert_eq!(can_read_without_clone(&yes.as_encoding()), Ok(true));
/// let no = Type::named("Gauge").encode()?;
/// assert_eq!(can_read_without_clone(&no.as_encoding()), Ok(false));
/// # Ok::<(), tillercoral::Refusal>(())
/// ```
pub fn can_read_without_clone(encoding: &Encoding<'_>) -> Result<bool, Refusal> {
    yes_or_no(ffi::walks::can_read_without_clone(encoding))
}

/// Whether the type is an Rc or an Arc behind any number of `&` and synonyms; metadata is not
/// opened.
///
/// ```
/// use tillercoral::is_rc_or_borrowed_rc;
/// use tillercoral::tree::Type;
///
/// let yes = Type::borrowed(Type::rc(Type::U8)).encode()?;
/// assert_eq!(is_rc_or_borrowed_rc(&yes.as_encoding()), Ok(true));
/// let no = Type::borrowed_mut(Type::rc(Type::U8)).encode()?;
/// assert_eq!(is_rc_or_borrowed_rc(&no.as_encoding()), Ok(false));
/// # Ok::<(), tillercoral::Refusal>(())
/// ```
pub fn is_rc_or_borrowed_rc(encoding: &Encoding<'_>) -> Result<bool, Refusal> {
    yes_or_no(ffi::walks::is_rc_or_borrowed_rc(encoding))
}

/// Whether the type, expanded, is one of the runtime's arrays `Array..` of one argument.
///
/// ```
/// use tillercoral::is_multi_array;
/// use tillercoral::tree::Type;
///
/// let yes = Type::runtime("Array2", [Type::U8]).encode()?;
/// assert_eq!(is_multi_array(&yes.as_encoding()), Ok(true));
/// let no = Type::slice(Type::U8).encode()?;
/// assert_eq!(is_multi_array(&no.as_encoding()), Ok(false));
/// # Ok::<(), tillercoral::Refusal>(())
/// ```
pub fn is_multi_array(encoding: &Encoding<'_>) -> Result<bool, Refusal> {
    yes_or_no(ffi::walks::is_multi_array(encoding))
}

/// Whether the type is a `MaybeUninit` of one argument.
///
/// ```
/// use tillercoral::is_maybe_uninit;
/// use tillercoral::tree::Type;
///
/// let yes = Type::maybe_uninit(Type::U8).encode()?;
/// assert_eq!(is_maybe_uninit(&yes.as_encoding()), Ok(true));
/// let no = Type::U8.encode()?;
/// assert_eq!(is_maybe_uninit(&no.as_encoding()), Ok(false));
/// # Ok::<(), tillercoral::Refusal>(())
/// ```
pub fn is_maybe_uninit(encoding: &Encoding<'_>) -> Result<bool, Refusal> {
    yes_or_no(ffi::walks::is_maybe_uninit(encoding))
}

/// Whether the type is an Object or a Ptr of an array, not sized, whose elements are `MaybeUninit`.
///
/// ```
/// use tillercoral::is_uninit_array;
/// use tillercoral::tree::Type;
///
/// let yes = Type::object(Type::slice(Type::maybe_uninit(Type::U8))).encode()?;
/// assert_eq!(is_uninit_array(&yes.as_encoding()), Ok(true));
/// let no = Type::object(Type::array(Type::maybe_uninit(Type::U8), "16")).encode()?;
/// assert_eq!(is_uninit_array(&no.as_encoding()), Ok(false));
/// # Ok::<(), tillercoral::Refusal>(())
/// ```
pub fn is_uninit_array(encoding: &Encoding<'_>) -> Result<bool, Refusal> {
    yes_or_no(ffi::walks::is_uninit_array(encoding))
}

/// Whether the type is a Box of one argument.
///
/// ```
/// use tillercoral::is_box;
/// use tillercoral::tree::Type;
///
/// let yes = Type::boxed(Type::U8).encode()?;
/// assert_eq!(is_box(&yes.as_encoding()), Ok(true));
/// let no = Type::rc(Type::U8).encode()?;
/// assert_eq!(is_box(&no.as_encoding()), Ok(false));
/// # Ok::<(), tillercoral::Refusal>(())
/// ```
pub fn is_box(encoding: &Encoding<'_>) -> Result<bool, Refusal> {
    yes_or_no(ffi::walks::is_box(encoding))
}

/// Whether the type, or what it borrows, is a Box, an Rc or an Arc.
///
/// ```
/// use tillercoral::needs_as_ref_for_borrow;
/// use tillercoral::tree::Type;
///
/// let yes = Type::borrowed(Type::rc(Type::U8)).encode()?;
/// assert_eq!(needs_as_ref_for_borrow(&yes.as_encoding()), Ok(true));
/// let no = Type::borrowed(Type::U8).encode()?;
/// assert_eq!(needs_as_ref_for_borrow(&no.as_encoding()), Ok(false));
/// # Ok::<(), tillercoral::Refusal>(())
/// ```
pub fn needs_as_ref_for_borrow(encoding: &Encoding<'_>) -> Result<bool, Refusal> {
    yes_or_no(ffi::walks::needs_as_ref_for_borrow(encoding))
}

/// Whether the type is an Object of one argument.
///
/// ```
/// use tillercoral::is_object;
/// use tillercoral::tree::Type;
///
/// let yes = Type::object(Type::U8).encode()?;
/// assert_eq!(is_object(&yes.as_encoding()), Ok(true));
/// let no = Type::synonym(Type::named("Handle"), Type::object(Type::U8)).encode()?;
/// assert_eq!(is_object(&no.as_encoding()), Ok(false));
/// # Ok::<(), tillercoral::Refusal>(())
/// ```
pub fn is_object(encoding: &Encoding<'_>) -> Result<bool, Refusal> {
    yes_or_no(ffi::walks::is_object(encoding))
}

/// Whether the type is a Ptr of one argument.
///
/// ```
/// use tillercoral::is_pointer;
/// use tillercoral::tree::Type;
///
/// let yes = Type::ptr(Type::U8).encode()?;
/// assert_eq!(is_pointer(&yes.as_encoding()), Ok(true));
/// let no = Type::borrowed(Type::U8).encode()?;
/// assert_eq!(is_pointer(&no.as_encoding()), Ok(false));
/// # Ok::<(), tillercoral::Refusal>(())
/// ```
pub fn is_pointer(encoding: &Encoding<'_>) -> Result<bool, Refusal> {
    yes_or_no(ffi::walks::is_pointer(encoding))
}

/// Whether the type, expanded, is an Object or a Ptr.
///
/// ```
/// use tillercoral::is_object_or_pointer;
/// use tillercoral::tree::Type;
///
/// let yes = Type::synonym(Type::named("Handle"), Type::object(Type::U8)).encode()?;
/// assert_eq!(is_object_or_pointer(&yes.as_encoding()), Ok(true));
/// let no = Type::borrowed(Type::U8).encode()?;
/// assert_eq!(is_object_or_pointer(&no.as_encoding()), Ok(false));
/// # Ok::<(), tillercoral::Refusal>(())
/// ```
pub fn is_object_or_pointer(encoding: &Encoding<'_>) -> Result<bool, Refusal> {
    yes_or_no(ffi::walks::is_object_or_pointer(encoding))
}

/// Whether the type, expanded, is one of the runtime's `Set`, `Sequence`, `Multiset` or `Map`.
///
/// ```
/// use tillercoral::is_builtin_collection;
/// use tillercoral::tree::Type;
///
/// let yes = Type::runtime("Map", [Type::U8, Type::U16]).encode()?;
/// assert_eq!(is_builtin_collection(&yes.as_encoding()), Ok(true));
/// let no = Type::runtime("Map", [Type::U8]).encode()?;
/// assert_eq!(is_builtin_collection(&no.as_encoding()), Ok(false));
/// # Ok::<(), tillercoral::Refusal>(())
/// ```
pub fn is_builtin_collection(encoding: &Encoding<'_>) -> Result<bool, Refusal> {
    yes_or_no(ffi::walks::is_builtin_collection(encoding))
}

/// Whether the type is an Rc or an Arc of one argument.
///
/// ```
/// use tillercoral::is_rc;
/// use tillercoral::tree::Type;
///
/// let yes = Type::arc(Type::U8).encode()?;
/// assert_eq!(is_rc(&yes.as_encoding()), Ok(true));
/// let no = Type::borrowed(Type::rc(Type::U8)).encode()?;
/// assert_eq!(is_rc(&no.as_encoding()), Ok(false));
/// # Ok::<(), tillercoral::Refusal>(())
/// ```
pub fn is_rc(encoding: &Encoding<'_>) -> Result<bool, Refusal> {
    yes_or_no(ffi::walks::is_rc(encoding))
}

/// Whether the type is a Box of a `dyn`.
///
/// ```
/// use tillercoral::is_box_dyn;
/// use tillercoral::tree::Type;
///
/// let yes = Type::boxed(Type::dyn_trait(Type::named("Sounder"))).encode()?;
/// assert_eq!(is_box_dyn(&yes.as_encoding()), Ok(true));
/// let no = Type::boxed(Type::named("Sounder")).encode()?;
/// assert_eq!(is_box_dyn(&no.as_encoding()), Ok(false));
/// # Ok::<(), tillercoral::Refusal>(())
/// ```
pub fn is_box_dyn(encoding: &Encoding<'_>) -> Result<bool, Refusal> {
    yes_or_no(ffi::walks::is_box_dyn(encoding))
}
