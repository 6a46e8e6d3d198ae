//! Trees of paths, types and declarations, as Dafny's Rust backend has them, and how to build them.
//!
//! A tree is built in code, as below, read from the text form of [`crate::source`], or decoded from
//! an [`Encoding`](crate::Encoding). Every kind of tree has `encode` and `decode`, and the library's
//! calls as methods, such as [`Declaration::to_text`].
//!
//! ```
//! use tillercoral::tree::{Declaration, Field, Path, Struct, Type};
//!
//! let samples = Path::global(["std", "vec", "Vec"]).apply([Type::U16]);
//! let gauge = Struct::new("Gauge")
//!     .doc("Offset in mm.")
//!     .derive(["Clone", "Debug"])
//!     .field(Field::public("mm", Type::I32))
//!     .field(Field::private("samples", Type::rc(samples)));
//! assert_eq!(
//!     Declaration::from(gauge).to_text(0)?,
//!     "\
//! /// Offset in mm.
//! #[derive(Clone, Debug)]
//! pub struct Gauge {
//!     pub mm: i32,
//!     samples: ::std::rc::Rc<::std::vec::Vec<u16>>
//! }"
//! );
//! # Ok::<(), tillercoral::TextError>(())
//! ```
//!
//! # Names
//!
//! Names, array sizes and docs are bytes, a [`Name`], since the encoding allows any; whatever can be
//! seen as bytes will do where one is asked for, so `"mm"`, `String`s and `b"\xFF"` all will. That a name is
//! a valid identifier is the maker's concern: nothing here or in the library asks for it, except
//! [`Type::is_sound`].
//!
//! # Depth
//!
//! Trees that are nested more than [`DEPTH_LIMIT`](crate::limits::DEPTH_LIMIT) types deep can be
//! built, but not encoded. As with other trees of boxes, `clone`, `==`, `Debug` and the end of a
//! value go down the tree by calls, so one that is tens of thousands deep can exhaust the stack; the
//! decoder and [`crate::source`] make none.

mod declaration;

use std::fmt;
use std::ops::Deref;

pub use declaration::{
    Attribute, Declaration, Enum, EnumCase, Field, Fields, NamelessField, Struct, TypeParameter,
    TypeSynonym, Use, Visibility,
};

/// The bytes of a name, an array size or a doc. `Debug` shows them as a byte string.
///
/// ```
/// use tillercoral::tree::{Name, Type};
///
/// let name = Name::from("mm\n");
/// assert_eq!(name, "mm\n");
/// assert_eq!(format!("{:?}", Type::Identifier(name)), r#"Identifier(b"mm\n")"#);
/// ```
#[derive(Clone, Default, PartialEq, Eq, Hash, PartialOrd, Ord)]
pub struct Name(Vec<u8>);

impl Name {
    /// The empty name.
    #[must_use]
    pub const fn new() -> Name {
        Name(Vec::new())
    }

    /// The bytes.
    #[must_use]
    pub fn into_bytes(self) -> Vec<u8> {
        self.0
    }
}

impl fmt::Debug for Name {
    fn fmt(&self, f: &mut fmt::Formatter<'_>) -> fmt::Result {
        write!(f, "b\"{}\"", self.0.escape_ascii())
    }
}

impl Deref for Name {
    type Target = [u8];

    fn deref(&self) -> &[u8] {
        &self.0
    }
}

impl AsRef<[u8]> for Name {
    fn as_ref(&self) -> &[u8] {
        &self.0
    }
}

impl From<Vec<u8>> for Name {
    fn from(bytes: Vec<u8>) -> Name {
        Name(bytes)
    }
}

impl From<&[u8]> for Name {
    fn from(bytes: &[u8]) -> Name {
        Name(bytes.to_vec())
    }
}

impl From<&str> for Name {
    fn from(text: &str) -> Name {
        Name(text.into())
    }
}

impl From<String> for Name {
    fn from(text: String) -> Name {
        Name(text.into_bytes())
    }
}

impl PartialEq<str> for Name {
    fn eq(&self, text: &str) -> bool {
        self.0 == text.as_bytes()
    }
}

impl PartialEq<&str> for Name {
    fn eq(&self, text: &&str) -> bool {
        self.0 == text.as_bytes()
    }
}

impl<const N: usize> PartialEq<[u8; N]> for Name {
    fn eq(&self, bytes: &[u8; N]) -> bool {
        self.0 == bytes
    }
}

fn name_of(bytes: impl AsRef<[u8]>) -> Name {
    Name::from(bytes.as_ref())
}

fn names_of(names: impl IntoIterator<Item = impl AsRef<[u8]>>) -> Vec<Name> {
    names.into_iter().map(name_of).collect()
}

/// What a path begins with.
#[derive(Clone, Copy, Debug, PartialEq, Eq, Hash)]
pub enum Root {
    /// Nothing: each name follows `::`.
    Global,
    /// `crate`
    Crate,
    /// `Self`
    #[doc(alias = "Self")]
    SelfType,
}

/// A path. The names hang on the root from left to right; Dafny's `PMemberSelect` nests them the
/// same way.
///
/// ```
/// use tillercoral::tree::Path;
///
/// assert_eq!(Path::global(["std", "rc", "Rc"]).to_text()?, "::std::rc::Rc");
/// assert_eq!(Path::in_crate(["nmea"]).select("Fix").to_text()?, "crate::nmea::Fix");
/// assert_eq!(Path::in_self(["Item"]).to_text()?, "Self::Item");
/// # Ok::<(), tillercoral::TextError>(())
/// ```
#[derive(Clone, Debug, PartialEq, Eq, Hash)]
pub struct Path {
    /// What the path begins with.
    pub root: Root,
    /// The names after it, each printed after `::`.
    pub names: Vec<Name>,
}

impl Path {
    /// A path with this root and these names.
    #[must_use]
    pub fn new(root: Root, names: impl IntoIterator<Item = impl AsRef<[u8]>>) -> Path {
        Path {
            root,
            names: names_of(names),
        }
    }

    /// A path that begins with `::`.
    #[must_use]
    pub fn global(names: impl IntoIterator<Item = impl AsRef<[u8]>>) -> Path {
        Path::new(Root::Global, names)
    }

    /// A path that begins with `crate`.
    #[must_use]
    pub fn in_crate(names: impl IntoIterator<Item = impl AsRef<[u8]>>) -> Path {
        Path::new(Root::Crate, names)
    }

    /// A path that begins with `Self`.
    #[must_use]
    pub fn in_self(names: impl IntoIterator<Item = impl AsRef<[u8]>>) -> Path {
        Path::new(Root::SelfType, names)
    }

    /// The path with one more name at its end.
    #[doc(alias = "MSel")]
    #[must_use]
    pub fn select(mut self, name: impl AsRef<[u8]>) -> Path {
        self.names.push(name_of(name));
        self
    }

    /// The path as a type. `Type::from` does the same.
    #[doc(alias = "AsType")]
    #[must_use]
    pub fn into_type(self) -> Type {
        Type::FromPath(self)
    }

    /// The path as a type, applied to these arguments.
    #[doc(alias = "Apply")]
    #[must_use]
    pub fn apply(self, arguments: impl IntoIterator<Item = Type>) -> Type {
        self.into_type().apply(arguments)
    }
}

/// A type.
///
/// The variants have the names of the source without its `T` and `Type`; the documentation's search
/// finds them by the source's names too. The functions build them, boxes included.
///
/// ```
/// use tillercoral::tree::Type;
///
/// let reading = Type::named("Reading").apply([Type::array(Type::U8, "16")]);
/// let handler = Type::function([Type::borrowed(reading)], Type::unit());
/// assert_eq!(
///     Type::boxed(Type::dyn_trait(handler)).to_text()?,
///     "::std::boxed::Box<dyn ::std::ops::Fn(&Reading<[u8; 16]>) -> ()>"
/// );
/// # Ok::<(), tillercoral::TextError>(())
/// ```
#[derive(Clone, Debug, PartialEq, Eq, Hash)]
pub enum Type {
    /// `u8`
    U8,
    /// `u16`
    U16,
    /// `u32`
    U32,
    /// `u64`
    U64,
    /// `u128`
    U128,
    /// `i8`
    I8,
    /// `i16`
    I16,
    /// `i32`
    I32,
    /// `i64`
    I64,
    /// `i128`
    I128,
    /// `usize`
    #[doc(alias = "USIZE")]
    Usize,
    /// `bool`
    Bool,
    /// A name alone.
    #[doc(alias = "TIdentifier")]
    Identifier(Name),
    /// A path.
    #[doc(alias = "TypeFromPath")]
    FromPath(Path),
    /// `base<argument, argument>`; without arguments the base alone.
    #[doc(alias = "TypeApp")]
    App {
        /// What is applied.
        base: Box<Type>,
        /// What it is applied to.
        arguments: Vec<Type>,
    },
    /// `&type`
    Borrowed(Box<Type>),
    /// `&mut type`
    BorrowedMut(Box<Type>),
    /// `impl type`
    #[doc(alias = "ImplType")]
    Impl(Box<Type>),
    /// `dyn type`
    #[doc(alias = "DynType")]
    Dyn(Box<Type>),
    /// `(type, type)`
    #[doc(alias = "TupleType")]
    Tuple(Vec<Type>),
    /// `::std::ops::Fn(argument, argument) -> result`
    #[doc(alias = "FnType")]
    Fn {
        /// The types of the arguments.
        arguments: Vec<Type>,
        /// The type of the result.
        result: Box<Type>,
    },
    /// `left + right`
    #[doc(alias = "IntersectionType")]
    Intersection {
        /// The type before the `+`.
        left: Box<Type>,
        /// The type after it.
        right: Box<Type>,
    },
    /// `[element]` or `[element; size]`
    Array {
        /// The type of the elements.
        element: Box<Type>,
        /// The size, if there is one. An empty size is not the same as none.
        size: Option<Name>,
    },
    /// Prints as its display.
    #[doc(alias = "TSynonym")]
    Synonym {
        /// What is printed.
        display: Box<Type>,
        /// What it stands for.
        base: Box<Type>,
    },
    /// Prints as its display.
    #[doc(alias = "TMetaData")]
    MetaData {
        /// What is printed.
        display: Box<Type>,
        /// Values are copied.
        copy_semantics: bool,
        /// Arithmetic may overflow.
        overflow: bool,
    },
}

/// The kinds of types, one function each.
impl Type {
    /// A name alone.
    #[must_use]
    pub fn named(name: impl AsRef<[u8]>) -> Type {
        Type::Identifier(name_of(name))
    }

    /// `Self`
    #[doc(alias = "SelfOwned")]
    #[must_use]
    pub fn self_type() -> Type {
        Path::new(Root::SelfType, [""; 0]).into_type()
    }

    /// `base<argument, argument>`
    #[must_use]
    pub fn applied(base: Type, arguments: impl IntoIterator<Item = Type>) -> Type {
        Type::App {
            base: Box::new(base),
            arguments: arguments.into_iter().collect(),
        }
    }

    /// This type applied to these arguments.
    #[must_use]
    pub fn apply(self, arguments: impl IntoIterator<Item = Type>) -> Type {
        Type::applied(self, arguments)
    }

    /// `&type`
    #[must_use]
    pub fn borrowed(underlying: Type) -> Type {
        Type::Borrowed(Box::new(underlying))
    }

    /// `&mut type`
    #[must_use]
    pub fn borrowed_mut(underlying: Type) -> Type {
        Type::BorrowedMut(Box::new(underlying))
    }

    /// `impl type`
    #[must_use]
    pub fn impl_trait(underlying: Type) -> Type {
        Type::Impl(Box::new(underlying))
    }

    /// `dyn type`
    #[must_use]
    pub fn dyn_trait(underlying: Type) -> Type {
        Type::Dyn(Box::new(underlying))
    }

    /// `(type, type)`
    #[must_use]
    pub fn tuple(types: impl IntoIterator<Item = Type>) -> Type {
        Type::Tuple(types.into_iter().collect())
    }

    /// `()`
    #[must_use]
    pub fn unit() -> Type {
        Type::Tuple(Vec::new())
    }

    /// `::std::ops::Fn(argument, argument) -> result`
    #[must_use]
    pub fn function(arguments: impl IntoIterator<Item = Type>, result: Type) -> Type {
        Type::Fn {
            arguments: arguments.into_iter().collect(),
            result: Box::new(result),
        }
    }

    /// `left + right`
    #[must_use]
    pub fn intersection(left: Type, right: Type) -> Type {
        Type::Intersection {
            left: Box::new(left),
            right: Box::new(right),
        }
    }

    /// `[element]`
    #[must_use]
    pub fn slice(element: Type) -> Type {
        Type::Array {
            element: Box::new(element),
            size: None,
        }
    }

    /// `[element; size]`
    #[must_use]
    pub fn array(element: Type, size: impl AsRef<[u8]>) -> Type {
        Type::Array {
            element: Box::new(element),
            size: Some(name_of(size)),
        }
    }

    /// A type that prints as `display` and stands for `base`.
    #[must_use]
    pub fn synonym(display: Type, base: Type) -> Type {
        Type::Synonym {
            display: Box::new(display),
            base: Box::new(base),
        }
    }

    /// A type that prints as `display`, with what is known about its values.
    #[must_use]
    pub fn meta_data(display: Type, copy_semantics: bool, overflow: bool) -> Type {
        Type::MetaData {
            display: Box::new(display),
            copy_semantics,
            overflow,
        }
    }
}

/// The paths that shapes and parts look for, applied.
impl Type {
    /// `::std::rc::Rc<type>`
    #[must_use]
    pub fn rc(underlying: Type) -> Type {
        Path::global(["std", "rc", "Rc"]).apply([underlying])
    }

    /// `::std::sync::Arc<type>`
    #[must_use]
    pub fn arc(underlying: Type) -> Type {
        Path::global(["std", "sync", "Arc"]).apply([underlying])
    }

    /// `::std::boxed::Box<type>`
    #[doc(alias = "Box")]
    #[must_use]
    pub fn boxed(content: Type) -> Type {
        Path::global(["std", "boxed", "Box"]).apply([content])
    }

    /// `::std::mem::MaybeUninit<type>`
    #[doc(alias = "MaybeUninitType")]
    #[must_use]
    pub fn maybe_uninit(underlying: Type) -> Type {
        Path::global(["std", "mem", "MaybeUninit"]).apply([underlying])
    }

    /// `::dafny_runtime::Object<type>`
    #[doc(alias = "ObjectType")]
    #[must_use]
    pub fn object(underlying: Type) -> Type {
        Type::runtime("Object", [underlying])
    }

    /// `::dafny_runtime::Ptr<type>`
    #[doc(alias = "PtrType")]
    #[must_use]
    pub fn ptr(underlying: Type) -> Type {
        Type::runtime("Ptr", [underlying])
    }

    /// `::dafny_runtime::MaybePlacebo<type>`
    #[doc(alias = "MaybePlaceboType")]
    #[must_use]
    pub fn maybe_placebo(underlying: Type) -> Type {
        Type::runtime("MaybePlacebo", [underlying])
    }

    /// `::dafny_runtime::name<argument, argument>`, as in `Sequence` of one argument or `Map` of two.
    ///
    /// ```
    /// use tillercoral::tree::Type;
    ///
    /// let depths = Type::runtime("Map", [Type::U16, Type::I32]);
    /// assert_eq!(depths.to_text()?, "::dafny_runtime::Map<u16, i32>");
    /// # Ok::<(), tillercoral::TextError>(())
    /// ```
    #[must_use]
    pub fn runtime(name: impl AsRef<[u8]>, arguments: impl IntoIterator<Item = Type>) -> Type {
        Path::global(["dafny_runtime"])
            .select(name)
            .apply(arguments)
    }
}

impl From<Path> for Type {
    fn from(path: Path) -> Type {
        Type::FromPath(path)
    }
}
