//! The calls in a form that allocates what it gives: of encodings, and of trees.

use std::fmt;
use std::string::FromUtf8Error;

use crate::decode::{ranges_at, trees_at};
use crate::limits::WORD_LIMIT;
use crate::tree::{Declaration, Path, Type};
use crate::{DecodeError, Encoding, EncodingBuf, Part, Refusal, Shape};

/// Why a tree gave no text.
///
/// ```
/// use tillercoral::limits::DEPTH_LIMIT;
/// use tillercoral::tree::Type;
/// use tillercoral::{Refusal, TextError};
///
/// let deep = (0..DEPTH_LIMIT).fold(Type::U8, |inner, _| Type::borrowed(inner));
/// assert_eq!(deep.to_text(), Err(TextError::Refused(Refusal::TooDeep)));
///
/// let name = Type::named(b"\xFF");
/// assert!(matches!(name.to_text(), Err(TextError::NotUtf8(_))));
/// assert_eq!(name.to_text_bytes(), Ok(vec![0xFF]));
/// ```
#[derive(Clone, Debug, PartialEq, Eq)]
#[non_exhaustive]
pub enum TextError {
    /// The tree has no encoding, or the library refused it.
    Refused(Refusal),
    /// A name or a doc is not UTF-8, and so the text is not. The bytes are in the error.
    NotUtf8(FromUtf8Error),
}

impl fmt::Display for TextError {
    fn fmt(&self, f: &mut fmt::Formatter<'_>) -> fmt::Result {
        match self {
            TextError::Refused(refusal) => refusal.fmt(f),
            TextError::NotUtf8(error) => write!(f, "the text is not UTF-8: {error}"),
        }
    }
}

impl std::error::Error for TextError {
    fn source(&self) -> Option<&(dyn std::error::Error + 'static)> {
        match self {
            TextError::Refused(refusal) => Some(refusal),
            TextError::NotUtf8(error) => Some(error),
        }
    }
}

impl From<Refusal> for TextError {
    fn from(refusal: Refusal) -> TextError {
        TextError::Refused(refusal)
    }
}

impl From<FromUtf8Error> for TextError {
    fn from(error: FromUtf8Error) -> TextError {
        TextError::NotUtf8(error)
    }
}

/// Calls until the buffer is long enough. A text has no limit of its own: a name may stand in 8,000
/// places.
fn text_of(call: impl Fn(&mut [u8]) -> Result<usize, Refusal>) -> Result<Vec<u8>, Refusal> {
    let mut buffer = vec![0; 4_096];
    loop {
        match call(&mut buffer) {
            Err(Refusal::BufferTooShort) => buffer = vec![0; 4 * buffer.len()],
            answer => {
                buffer.truncate(answer?);
                return Ok(buffer);
            }
        }
    }
}

/// Calls with a buffer of so many words.
fn words_of(
    room: usize,
    call: impl FnOnce(&mut [u32]) -> Result<usize, Refusal>,
) -> Result<Vec<u32>, Refusal> {
    let mut buffer = vec![0; room];
    let length = call(&mut buffer)?;
    buffer.truncate(length);
    Ok(buffer)
}

/// The calls with buffers of their own. [`Refusal::BufferTooShort`] is left to those that rebuild,
/// for a tree that needs more than 8,192 words.
///
/// A text can be much longer than its encoding, since a name or a doc may stand in thousands of
/// places: 50 kilobytes can print two gigabytes. For encodings from others use the functions with a
/// buffer, such as [`declaration_text`](crate::declaration_text).
///
/// ```
/// use tillercoral::{Encoding, Part, Shape};
///
/// // `&::std::rc::Rc<u16>`
/// let borrowed = Encoding { words: &[15, 14, 1, 13, 0, 3, 1, 2, 3, 1], ..Encoding::default() };
/// assert_eq!(borrowed.type_text()?, b"&::std::rc::Rc<u16>");
/// assert_eq!(borrowed.type_visit()?, [0, 1, 3, 9]);
///
/// let shared = borrowed.part(Part::ToOwned)?;
/// assert!(shared.has_shape(Shape::IsRc)?);
/// assert_eq!(shared.part(Part::RcUnderlying)?.type_text()?, b"u16");
/// # Ok::<(), tillercoral::Refusal>(())
/// ```
impl<'a> Encoding<'a> {
    /// The text of a type; see [`type_text`](crate::type_text).
    pub fn type_text(&self) -> Result<Vec<u8>, Refusal> {
        text_of(|out| crate::type_text(self, 0, out))
    }

    /// The text of a path; see [`path_text`](crate::path_text).
    pub fn path_text(&self) -> Result<Vec<u8>, Refusal> {
        text_of(|out| crate::path_text(self, 0, out))
    }

    /// The text of a declaration; see [`declaration_text`](crate::declaration_text).
    pub fn declaration_text(&self, level: u32) -> Result<Vec<u8>, Refusal> {
        text_of(|out| crate::declaration_text(self, level, out))
    }

    /// The words of a type rebuilt by rules; see [`type_rebuild`](crate::type_rebuild).
    pub fn type_rebuild(&self, rules: &[u32]) -> Result<Vec<u32>, Refusal> {
        words_of(WORD_LIMIT, |out| crate::type_rebuild(self, rules, out))
    }

    /// The words of a declaration rebuilt by rules; see
    /// [`declaration_rebuild`](crate::declaration_rebuild).
    pub fn declaration_rebuild(&self, rules: &[u32]) -> Result<Vec<u32>, Refusal> {
        words_of(WORD_LIMIT, |out| {
            crate::declaration_rebuild(self, rules, out)
        })
    }

    /// The words of the type while a value is being initialized; see
    /// [`type_at_initialization`](crate::type_at_initialization).
    pub fn type_at_initialization(&self) -> Result<Vec<u32>, Refusal> {
        words_of(WORD_LIMIT, |out| crate::type_at_initialization(self, out))
    }

    /// The positions of the types in a type; see [`type_visit`](crate::type_visit).
    pub fn type_visit(&self) -> Result<Vec<u32>, Refusal> {
        words_of(self.words.len(), |out| crate::type_visit(self, out))
    }

    /// The positions of the types in a declaration; see
    /// [`declaration_visit`](crate::declaration_visit).
    pub fn declaration_visit(&self) -> Result<Vec<u32>, Refusal> {
        words_of(self.words.len(), |out| crate::declaration_visit(self, out))
    }

    /// Whether the type has a shape.
    pub fn has_shape(&self, shape: Shape) -> Result<bool, Refusal> {
        shape.of(self)
    }

    /// A part of the type: a part of the same words, with the same names.
    pub fn part(&self, part: Part) -> Result<Encoding<'a>, Refusal> {
        let words = &self.words[part.of(self)?];
        Ok(Encoding { words, ..*self })
    }

    /// The types that begin at these words, as parts of the same words: what a visit list stands for.
    ///
    /// ```
    /// use tillercoral::Encoding;
    ///
    /// // `(&u8, bool)`
    /// let pair = Encoding { words: &[19, 2, 15, 0, 11], ..Encoding::default() };
    /// let types = pair.types_at(&pair.type_visit()?)?;
    /// let words: Vec<&[u32]> = types.iter().map(|of| of.words).collect();
    /// assert_eq!(words, [&[19, 2, 15, 0, 11][..], &[15, 0], &[0], &[11]]);
    /// # Ok::<(), tillercoral::Refusal>(())
    /// ```
    pub fn types_at(&self, positions: &[u32]) -> Result<Vec<Encoding<'a>>, DecodeError> {
        let part = |words| Encoding {
            words: &self.words[words],
            ..*self
        };
        Ok(ranges_at(self, positions)?.into_iter().map(part).collect())
    }
}

/// The calls for types.
///
/// Each encodes the tree first. A tree that no encoding has room for is refused with
/// [`Refusal::Overlong`] or [`Refusal::TooDeep`], whichever the encoder meets first, and before a
/// bad level is: the library, which is given words, tests in the order of `docs/API.md`.
impl Type {
    /// The text, as the library prints it.
    ///
    /// ```
    /// use tillercoral::tree::Type;
    ///
    /// assert_eq!(Type::borrowed(Type::slice(Type::U16)).to_text()?, "&[u16]");
    /// # Ok::<(), tillercoral::TextError>(())
    /// ```
    pub fn to_text(&self) -> Result<String, TextError> {
        Ok(String::from_utf8(self.to_text_bytes()?)?)
    }

    /// The text, which need not be UTF-8 if a name is not.
    pub fn to_text_bytes(&self) -> Result<Vec<u8>, Refusal> {
        self.encode()?.as_encoding().type_text()
    }

    /// Whether the text is that of no other sound type, wrappers aside; see
    /// [`type_is_sound`](crate::type_is_sound).
    ///
    /// ```
    /// use tillercoral::tree::Type;
    ///
    /// assert!(Type::named("Gauge").is_sound()?);
    /// assert!(!Type::named("not a name").is_sound()?);
    /// # Ok::<(), tillercoral::Refusal>(())
    /// ```
    pub fn is_sound(&self) -> Result<bool, Refusal> {
        crate::type_is_sound(&self.encode()?.as_encoding())
    }

    /// The type with types inside it replaced by rules, each what is replaced and what it is
    /// replaced by; see [`type_rebuild`](crate::type_rebuild).
    ///
    /// ```
    /// use tillercoral::tree::Type;
    /// use tillercoral::Refusal;
    ///
    /// let depth = (Type::named("Depth"), Type::named("Height"));
    /// let list = Type::tuple([Type::named("Depth"), Type::rc(Type::named("Depth"))]);
    /// assert_eq!(
    ///     list.rebuild(&[depth.clone()]),
    ///     Ok(Type::tuple([Type::named("Height"), Type::rc(Type::named("Height"))]))
    /// );
    /// assert_eq!(list.rebuild(&[depth.clone(), depth]), Err(Refusal::RepeatedRule));
    /// ```
    #[doc(alias = "ReplaceMap")]
    pub fn rebuild(&self, rules: &[(Type, Type)]) -> Result<Type, Refusal> {
        let mut encoding = self.encode()?;
        let rules = encoding.encode_rules(rules)?;
        encoding.words = encoding.as_encoding().type_rebuild(&rules)?;
        decoded_type(&encoding)
    }

    /// The type that a value has while it is being initialized; see
    /// [`type_at_initialization`](crate::type_at_initialization).
    ///
    /// ```
    /// use tillercoral::tree::Type;
    ///
    /// assert_eq!(
    ///     Type::ptr(Type::slice(Type::U8)).at_initialization(),
    ///     Ok(Type::ptr(Type::slice(Type::maybe_uninit(Type::U8))))
    /// );
    /// ```
    #[doc(alias = "TypeAtInitialization")]
    pub fn at_initialization(&self) -> Result<Type, Refusal> {
        let mut encoding = self.encode()?;
        encoding.words = encoding.as_encoding().type_at_initialization()?;
        decoded_type(&encoding)
    }

    /// The types that are visited in this one, itself first; see [`type_visit`](crate::type_visit).
    /// Each is a tree of its own, so a name inside 63 others is copied 64 times.
    ///
    /// ```
    /// use tillercoral::tree::Type;
    ///
    /// let synonym = Type::synonym(Type::borrowed(Type::U8), Type::Bool);
    /// assert_eq!(
    ///     synonym.visited(),
    ///     Ok(vec![synonym.clone(), Type::borrowed(Type::U8), Type::U8])
    /// );
    /// ```
    #[doc(alias = "Fold")]
    pub fn visited(&self) -> Result<Vec<Type>, Refusal> {
        let encoding = self.encode()?;
        let encoding = encoding.as_encoding();
        Ok(trees_at(&encoding, &encoding.type_visit()?)?)
    }

    /// Whether the type has a shape.
    ///
    /// ```
    /// use tillercoral::Shape;
    /// use tillercoral::tree::Type;
    ///
    /// assert_eq!(Type::rc(Type::U8).has_shape(Shape::IsRc), Ok(true));
    /// assert_eq!(Type::U8.has_shape(Shape::IsRc), Ok(false));
    /// ```
    pub fn has_shape(&self, shape: Shape) -> Result<bool, Refusal> {
        shape.of(&self.encode()?.as_encoding())
    }

    /// A part of the type, or [`Refusal::NoSuchPart`].
    ///
    /// ```
    /// use tillercoral::tree::Type;
    /// use tillercoral::{Part, Refusal};
    ///
    /// assert_eq!(Type::rc(Type::U8).part(Part::RcUnderlying), Ok(Type::U8));
    /// assert_eq!(Type::U8.part(Part::RcUnderlying), Err(Refusal::NoSuchPart));
    /// ```
    pub fn part(&self, part: Part) -> Result<Type, Refusal> {
        let encoding = self.encode()?;
        let part = encoding.as_encoding().part(part)?;
        Ok(Type::decode(&part)?)
    }
}

fn decoded_type(encoding: &EncodingBuf) -> Result<Type, Refusal> {
    Ok(Type::decode(&encoding.as_encoding())?)
}

/// The calls for paths.
impl Path {
    /// The text, as the library prints it.
    ///
    /// ```
    /// use tillercoral::tree::Path;
    ///
    /// assert_eq!(Path::in_crate(["nmea", "Fix"]).to_text()?, "crate::nmea::Fix");
    /// # Ok::<(), tillercoral::TextError>(())
    /// ```
    pub fn to_text(&self) -> Result<String, TextError> {
        Ok(String::from_utf8(self.to_text_bytes()?)?)
    }

    /// The text, which need not be UTF-8 if a name is not.
    pub fn to_text_bytes(&self) -> Result<Vec<u8>, Refusal> {
        self.encode()?.as_encoding().path_text()
    }
}

/// The calls for declarations. Each encodes the tree first, as those for types do.
impl Declaration {
    /// The text, as the library prints it, for a place that is indented by so many times four
    /// spaces; see [`declaration_text`](crate::declaration_text).
    ///
    /// ```
    /// use tillercoral::tree::{Declaration, Field, Struct, Type};
    ///
    /// let gauge = Declaration::from(Struct::new("Gauge").field(Field::public("mm", Type::I32)));
    /// assert_eq!(gauge.to_text(0)?, "pub struct Gauge {\n    pub mm: i32\n}");
    /// assert_eq!(gauge.to_text(1)?, "pub struct Gauge {\n        pub mm: i32\n    }");
    /// # Ok::<(), tillercoral::TextError>(())
    /// ```
    pub fn to_text(&self, level: u32) -> Result<String, TextError> {
        Ok(String::from_utf8(self.to_text_bytes(level)?)?)
    }

    /// The text, which need not be UTF-8 if a name or a doc is not.
    pub fn to_text_bytes(&self, level: u32) -> Result<Vec<u8>, Refusal> {
        self.encode()?.as_encoding().declaration_text(level)
    }

    /// The declaration with its types rebuilt; see [`Type::rebuild`].
    ///
    /// ```
    /// use tillercoral::tree::{Declaration, Type, TypeSynonym};
    ///
    /// let of = |target| Declaration::from(TypeSynonym::new("Reading", target));
    /// let rules = [(Type::U16, Type::I32)];
    /// assert_eq!(of(Type::slice(Type::U16)).rebuild(&rules), Ok(of(Type::slice(Type::I32))));
    /// ```
    #[doc(alias = "RASTBottomUpReplacer")]
    pub fn rebuild(&self, rules: &[(Type, Type)]) -> Result<Declaration, Refusal> {
        let mut encoding = self.encode()?;
        let rules = encoding.encode_rules(rules)?;
        encoding.words = encoding.as_encoding().declaration_rebuild(&rules)?;
        Ok(Declaration::decode(&encoding.as_encoding())?)
    }

    /// The types that are visited in the declaration; see
    /// [`declaration_visit`](crate::declaration_visit). Those in a struct's fields are not.
    ///
    /// ```
    /// use tillercoral::tree::{Declaration, Type, TypeSynonym};
    ///
    /// let declaration = Declaration::from(TypeSynonym::new("Id", Type::borrowed(Type::U8)));
    /// assert_eq!(declaration.visited(), Ok(vec![Type::borrowed(Type::U8), Type::U8]));
    /// ```
    #[doc(alias = "RASTTopDownVisitor")]
    pub fn visited(&self) -> Result<Vec<Type>, Refusal> {
        let encoding = self.encode()?;
        let encoding = encoding.as_encoding();
        Ok(trees_at(&encoding, &encoding.declaration_visit()?)?)
    }
}
