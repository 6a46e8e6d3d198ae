//! From encodings to trees, and from files to encodings.
//!
//! The decoder takes what the library takes and refuses what it refuses, with the same number. It
//! calls no part of the library, so it can also say where an encoding went wrong.

use std::fmt;
use std::ops::Range;

use crate::limits::{DEPTH_LIMIT, FIXED_NAMES, PAIR_LIMIT, TEXT_LIMIT, WORD_LIMIT};
use crate::tree::{
    Attribute, Declaration, Enum, EnumCase, Field, Fields, Name, NamelessField, Path, Root, Struct,
    Type, TypeParameter, TypeSynonym, Use, Visibility,
};
use crate::words::{fields, flag, head, kind, root, visibility};
use crate::{Encoding, EncodingBuf, Refusal};

/// Why an encoding holds no tree, and where it was noticed.
///
/// ```
/// use tillercoral::tree::Type;
/// use tillercoral::{Encoding, Refusal};
///
/// // `&` before nothing
/// let encoding = Encoding { words: &[15], ..Encoding::default() };
/// let error = Type::decode(&encoding).unwrap_err();
/// assert_eq!(error.refusal(), Refusal::EndsEarly);
/// assert_eq!(error.position(), Some(1));
/// assert_eq!(
///     error.to_string(),
///     "at word 1: a word is wanted and none is left (refusal 3)"
/// );
/// ```
#[derive(Clone, Copy, Debug, PartialEq, Eq, Hash)]
pub struct DecodeError {
    refusal: Refusal,
    position: Option<usize>,
}

impl DecodeError {
    /// The refusal that the library's calls give for the same encoding.
    #[must_use]
    pub const fn refusal(self) -> Refusal {
        self.refusal
    }

    /// The pair at fault if the refusal is [`Refusal::BadPair`], and otherwise the word: the one that
    /// is wrong, the first one left over, or the place of the one that is wanted. All are counted
    /// from 0. [`Refusal::Overlong`] has no place.
    #[must_use]
    pub const fn position(self) -> Option<usize> {
        self.position
    }
}

impl fmt::Display for DecodeError {
    fn fmt(&self, f: &mut fmt::Formatter<'_>) -> fmt::Result {
        match (self.position, self.refusal) {
            (None, _) => {}
            (Some(pair), Refusal::BadPair) => write!(f, "at pair {pair}: ")?,
            (Some(word), _) => write!(f, "at word {word}: ")?,
        }
        self.refusal.fmt(f)
    }
}

impl std::error::Error for DecodeError {
    fn source(&self) -> Option<&(dyn std::error::Error + 'static)> {
        Some(&self.refusal)
    }
}

impl From<DecodeError> for Refusal {
    fn from(error: DecodeError) -> Refusal {
        error.refusal
    }
}

impl Type {
    /// The type that an encoding holds.
    ///
    /// Names are copied to wherever they stand, so a tree can take much more memory than its
    /// encoding: at most 8,192 names of up to 16,384 bytes.
    ///
    /// ```
    /// use tillercoral::tree::Type;
    ///
    /// let pair = Type::tuple([Type::rc(Type::U8), Type::named("Gauge")]);
    /// let encoding = pair.encode()?;
    /// assert_eq!(Type::decode(&encoding.as_encoding()), Ok(pair));
    /// # Ok::<(), tillercoral::Refusal>(())
    /// ```
    pub fn decode(encoding: &Encoding<'_>) -> Result<Type, DecodeError> {
        decode_whole(encoding, |decoder| decoder.type_at_depth(1))
    }
}

impl Path {
    /// The path that an encoding holds.
    ///
    /// ```
    /// use tillercoral::tree::Path;
    /// use tillercoral::Encoding;
    ///
    /// let encoding = Encoding { words: &[0, 3, 1, 2, 3], ..Encoding::default() };
    /// assert_eq!(Path::decode(&encoding), Ok(Path::global(["std", "rc", "Rc"])));
    /// ```
    pub fn decode(encoding: &Encoding<'_>) -> Result<Path, DecodeError> {
        decode_whole(encoding, Decoder::path)
    }
}

impl Declaration {
    /// The declaration that an encoding holds. Memory is as with [`Type::decode`].
    ///
    /// ```
    /// use tillercoral::tree::{Declaration, Field, Struct, Type};
    /// use tillercoral::words::{fields, head, kind, name, pair, visibility};
    /// use tillercoral::Encoding;
    ///
    /// let front = [head::STRUCT, name::EMPTY, 0, pair(0), 0, fields::NAMED, 1];
    /// let field = [visibility::PUB, pair(1), kind::I32];
    /// let encoding = Encoding {
    ///     words: &[&front[..], &field].concat(),
    ///     pairs: &[0, 5, 5, 2],
    ///     text: b"Gaugemm",
    /// };
    /// let gauge = Struct::new("Gauge").field(Field::public("mm", Type::I32));
    /// assert_eq!(Declaration::decode(&encoding), Ok(gauge.into()));
    /// ```
    pub fn decode(encoding: &Encoding<'_>) -> Result<Declaration, DecodeError> {
        decode_whole(encoding, Decoder::declaration)
    }
}

impl EncodingBuf {
    /// The encoding in a file that the program `printdecl` reads, as [`EncodingBuf::to_file`] writes
    /// it.
    ///
    /// Refused are a file of another length than its header says ([`Refusal::BadFileLength`]) and one
    /// that is over a limit ([`Refusal::Overlong`]). The pairs and the words are taken as they are:
    /// the calls test them.
    ///
    /// ```
    /// use tillercoral::words::{head::USE, pair, root::GLOBAL, visibility::PRIV};
    /// use tillercoral::{EncodingBuf, Refusal};
    ///
    /// let encoding = EncodingBuf {
    ///     words: vec![USE, PRIV, GLOBAL, 1, pair(0)],
    ///     pairs: vec![0, 2],
    ///     text: b"mm".to_vec(),
    /// };
    /// let file = encoding.to_file();
    /// assert_eq!(EncodingBuf::from_file(&file), Ok(encoding));
    /// assert_eq!(EncodingBuf::from_file(&file[..9]), Err(Refusal::BadFileLength));
    /// ```
    pub fn from_file(file: &[u8]) -> Result<EncodingBuf, Refusal> {
        let (header, rest) = file
            .split_first_chunk::<12>()
            .ok_or(Refusal::BadFileLength)?;
        let numbers = |bytes: &[u8]| -> Vec<u32> {
            let (numbers, _) = bytes.as_chunks();
            numbers.iter().copied().map(u32::from_le_bytes).collect()
        };
        let header = numbers(header);
        let [pairs, words, text] = [0, 1, 2].map(|index| header[index] as usize);
        if pairs > PAIR_LIMIT || words > WORD_LIMIT || text > TEXT_LIMIT {
            return Err(Refusal::Overlong);
        }
        let (pairs, words) = (8 * pairs, 4 * words);
        if rest.len() != pairs + words + text {
            return Err(Refusal::BadFileLength);
        }
        Ok(EncodingBuf {
            pairs: numbers(&rest[..pairs]),
            words: numbers(&rest[pairs..pairs + words]),
            text: rest[pairs + words..].to_vec(),
        })
    }
}

/// The types that begin at these words. Each is read as if it stood in no other type.
pub(crate) fn trees_at(
    encoding: &Encoding<'_>,
    positions: &[u32],
) -> Result<Vec<Type>, DecodeError> {
    let mut decoder = Decoder::new(encoding)?;
    let tree_at = |&position| decoder.type_at(position).map(|(_, tree)| tree);
    positions.iter().map(tree_at).collect()
}

/// The words that hold the types which begin at these words.
pub(crate) fn ranges_at(
    encoding: &Encoding<'_>,
    positions: &[u32],
) -> Result<Vec<Range<usize>>, DecodeError> {
    let mut decoder = Decoder::new(encoding)?;
    decoder.names.fill(b""); // that there are so many is enough, and nothing is copied
    let range_at = |&position| decoder.type_at(position).map(|(range, _)| range);
    positions.iter().map(range_at).collect()
}

/// The names that the pairs stand for.
pub(crate) fn pair_names<'a>(encoding: &Encoding<'a>) -> Result<Vec<&'a [u8]>, DecodeError> {
    let mut names = Vec::with_capacity(encoding.pairs.len() / 2);
    let mut end_before = 0;
    for (index, pair) in encoding.pairs.chunks(2).enumerate() {
        let name = match *pair {
            // In 64 bits the sum of offset and length cannot wrap.
            [offset, length] if u64::from(offset) >= end_before => {
                end_before = u64::from(offset) + u64::from(length);
                encoding.text.get(offset as usize..end_before as usize)
            }
            _ => None,
        };
        names.push(name.ok_or(DecodeError {
            refusal: Refusal::BadPair,
            position: Some(index),
        })?);
    }
    Ok(names)
}

fn check_limits(encoding: &Encoding<'_>) -> Result<(), DecodeError> {
    // Only whole pairs count: half a pair at the end is a bad pair.
    if encoding.words.len() > WORD_LIMIT
        || encoding.pairs.len() / 2 > PAIR_LIMIT
        || encoding.text.len() > TEXT_LIMIT
    {
        return Err(DecodeError {
            refusal: Refusal::Overlong,
            position: None,
        });
    }
    Ok(())
}

fn decode_whole<'a, T>(
    encoding: &Encoding<'a>,
    tree: impl FnOnce(&mut Decoder<'a>) -> Result<T, DecodeError>,
) -> Result<T, DecodeError> {
    let mut decoder = Decoder::new(encoding)?;
    let tree = tree(&mut decoder)?;
    if decoder.next < decoder.words.len() {
        return Err(decoder.refused(Refusal::LeftOver));
    }
    Ok(tree)
}

/// The types of one word each; their places are their kinds.
const PLAIN: [Type; 12] = [
    Type::U8,
    Type::U16,
    Type::U32,
    Type::U64,
    Type::U128,
    Type::I8,
    Type::I16,
    Type::I32,
    Type::I64,
    Type::I128,
    Type::Usize,
    Type::Bool,
];

struct Decoder<'a> {
    words: &'a [u32],
    next: usize,
    names: Vec<&'a [u8]>,
}

impl<'a> Decoder<'a> {
    /// At the first word, with limits and pairs tested.
    fn new(encoding: &Encoding<'a>) -> Result<Decoder<'a>, DecodeError> {
        check_limits(encoding)?;
        Ok(Decoder {
            words: encoding.words,
            next: 0,
            names: pair_names(encoding)?,
        })
    }

    /// Refused at the next word.
    fn refused(&self, refusal: Refusal) -> DecodeError {
        DecodeError {
            refusal,
            position: Some(self.next),
        }
    }

    /// What the next word stands for, passing it if it stands for something.
    fn take<T>(&mut self, meaning: impl FnOnce(&Self, u32) -> Option<T>) -> Result<T, DecodeError> {
        let word = *self
            .words
            .get(self.next)
            .ok_or_else(|| self.refused(Refusal::EndsEarly))?;
        let meant = meaning(self, word).ok_or_else(|| self.refused(Refusal::UnknownWord))?;
        self.next += 1;
        Ok(meant)
    }

    /// A word below a bound.
    fn below(&mut self, bound: u32) -> Result<u32, DecodeError> {
        self.take(|_, word| (word < bound).then_some(word))
    }

    fn count(&mut self) -> Result<u32, DecodeError> {
        self.take(|_, word| Some(word))
    }

    /// So many items. The count may be 2^32 - 1 whatever follows, so no room is made beforehand.
    fn items<T>(
        &mut self,
        count: u32,
        mut item: impl FnMut(&mut Self) -> Result<T, DecodeError>,
    ) -> Result<Vec<T>, DecodeError> {
        (0..count).map(|_| item(self)).collect()
    }

    /// A count, then so many items.
    fn counted<T>(
        &mut self,
        item: impl FnMut(&mut Self) -> Result<T, DecodeError>,
    ) -> Result<Vec<T>, DecodeError> {
        let count = self.count()?;
        self.items(count, item)
    }

    fn name_by_number(&self, number: u32) -> Option<Name> {
        let number = number as usize;
        match FIXED_NAMES.get(number) {
            Some(&fixed) => Some(Name::from(fixed)),
            None => self
                .names
                .get(number - FIXED_NAMES.len())
                .map(|&name| Name::from(name)),
        }
    }

    fn name(&mut self) -> Result<Name, DecodeError> {
        self.take(Self::name_by_number)
    }

    /// A size's word is 0 for none, and otherwise one more than the name's number.
    fn size(&mut self) -> Result<Option<Name>, DecodeError> {
        self.take(|decoder, word| match word.checked_sub(1) {
            None => Some(None),
            Some(number) => decoder.name_by_number(number).map(Some),
        })
    }

    fn path(&mut self) -> Result<Path, DecodeError> {
        let root = match self.below(root::END)? {
            root::GLOBAL => Root::Global,
            root::CRATE => Root::Crate,
            _ => Root::SelfType,
        };
        let names = self.counted(Self::name)?;
        Ok(Path { root, names })
    }
}

// Types. The depth limit bounds the recursion.
impl Decoder<'_> {
    /// The type that begins at a word, and the words that hold it.
    fn type_at(&mut self, position: u32) -> Result<(Range<usize>, Type), DecodeError> {
        let start = position as usize;
        self.next = start;
        let tree = self.type_at_depth(1)?;
        Ok((start..self.next, tree))
    }

    fn type_at_depth(&mut self, depth: usize) -> Result<Type, DecodeError> {
        // Tested before the word is looked for: 5 comes before 3 and 4.
        if depth > DEPTH_LIMIT {
            return Err(self.refused(Refusal::TooDeep));
        }
        let below = depth + 1;
        let kind = self.below(kind::END)?;
        Ok(match kind {
            kind::IDENTIFIER => Type::Identifier(self.name()?),
            kind::FROM_PATH => Type::FromPath(self.path()?),
            kind::APP => {
                let count = self.count()?;
                let base = self.boxed_type(below)?;
                let arguments = self.items(count, |decoder| decoder.type_at_depth(below))?;
                Type::App { base, arguments }
            }
            kind::BORROWED => Type::Borrowed(self.boxed_type(below)?),
            kind::BORROWED_MUT => Type::BorrowedMut(self.boxed_type(below)?),
            kind::IMPL => Type::Impl(self.boxed_type(below)?),
            kind::DYN => Type::Dyn(self.boxed_type(below)?),
            kind::TUPLE => Type::Tuple(self.counted(|decoder| decoder.type_at_depth(below))?),
            kind::FN => {
                let arguments = self.counted(|decoder| decoder.type_at_depth(below))?;
                let result = self.boxed_type(below)?;
                Type::Fn { arguments, result }
            }
            kind::INTERSECTION => {
                self.two_types(below, |left, right| Type::Intersection { left, right })?
            }
            kind::ARRAY => {
                let size = self.size()?;
                let element = self.boxed_type(below)?;
                Type::Array { element, size }
            }
            kind::SYNONYM => {
                self.two_types(below, |display, base| Type::Synonym { display, base })?
            }
            kind::META_DATA => self.meta_data(below)?,
            plain => PLAIN[plain as usize].clone(),
        })
    }

    fn boxed_type(&mut self, depth: usize) -> Result<Box<Type>, DecodeError> {
        self.type_at_depth(depth).map(Box::new)
    }

    fn two_types(
        &mut self,
        depth: usize,
        make: fn(Box<Type>, Box<Type>) -> Type,
    ) -> Result<Type, DecodeError> {
        let first = self.boxed_type(depth)?;
        let second = self.boxed_type(depth)?;
        Ok(make(first, second))
    }

    fn meta_data(&mut self, depth: usize) -> Result<Type, DecodeError> {
        let flags = self.below(flag::END)?;
        Ok(Type::MetaData {
            display: self.boxed_type(depth)?,
            copy_semantics: flags & flag::COPY_SEMANTICS != 0,
            overflow: flags & flag::OVERFLOW != 0,
        })
    }
}

// Declarations. A type in one stands in no other type, so its depth is 1. The fields of the trees
// stand below in the order of their words, which is the order in which Rust reads them.
impl Decoder<'_> {
    fn declaration(&mut self) -> Result<Declaration, DecodeError> {
        let is_head = |word| matches!(word, head::STRUCT | head::ENUM | head::TYPE | head::USE);
        match self.take(|_, word| is_head(word).then_some(word))? {
            head::STRUCT => self.a_struct().map(Declaration::Struct),
            head::ENUM => self.an_enum().map(Declaration::Enum),
            head::TYPE => self.type_synonym().map(Declaration::TypeSynonym),
            _ => self.a_use().map(Declaration::Use),
        }
    }

    fn a_struct(&mut self) -> Result<Struct, DecodeError> {
        Ok(Struct {
            doc: self.name()?,
            attributes: self.counted(Self::attribute)?,
            name: self.name()?,
            parameters: self.counted(Self::parameter)?,
            fields: self.fields()?,
        })
    }

    fn an_enum(&mut self) -> Result<Enum, DecodeError> {
        Ok(Enum {
            doc: self.name()?,
            attributes: self.counted(Self::attribute)?,
            name: self.name()?,
            parameters: self.counted(Self::parameter)?,
            cases: self.counted(Self::case)?,
        })
    }

    fn type_synonym(&mut self) -> Result<TypeSynonym, DecodeError> {
        Ok(TypeSynonym {
            doc: self.name()?,
            attributes: self.counted(Self::attribute)?,
            name: self.name()?,
            parameters: self.counted(Self::parameter)?,
            target: self.type_at_depth(1)?,
        })
    }

    fn a_use(&mut self) -> Result<Use, DecodeError> {
        Ok(Use {
            visibility: self.visibility()?,
            path: self.path()?,
        })
    }

    fn attribute(&mut self) -> Result<Attribute, DecodeError> {
        Ok(Attribute {
            name: self.name()?,
            arguments: self.counted(Self::name)?,
        })
    }

    fn parameter(&mut self) -> Result<TypeParameter, DecodeError> {
        Ok(TypeParameter {
            name: self.name()?,
            constraints: self.counted(|decoder| decoder.type_at_depth(1))?,
        })
    }

    fn case(&mut self) -> Result<EnumCase, DecodeError> {
        Ok(EnumCase {
            doc: self.name()?,
            name: self.name()?,
            fields: self.fields()?,
        })
    }

    fn fields(&mut self) -> Result<Fields, DecodeError> {
        match self.below(fields::END)? {
            fields::NAMED => self.counted(Self::field).map(Fields::Named),
            _ => self.counted(Self::nameless_field).map(Fields::Nameless),
        }
    }

    fn field(&mut self) -> Result<Field, DecodeError> {
        Ok(Field {
            visibility: self.visibility()?,
            name: self.name()?,
            field_type: self.type_at_depth(1)?,
        })
    }

    fn nameless_field(&mut self) -> Result<NamelessField, DecodeError> {
        Ok(NamelessField {
            visibility: self.visibility()?,
            field_type: self.type_at_depth(1)?,
        })
    }

    fn visibility(&mut self) -> Result<Visibility, DecodeError> {
        Ok(match self.below(visibility::END)? {
            visibility::PUB => Visibility::Pub,
            _ => Visibility::Priv,
        })
    }
}
