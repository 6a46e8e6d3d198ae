//! A second implementation of the calls, to compare the library with. It is written from the rules
//! that `docs/API.md` repeats and from the Dafny bodies alone, not from the library's definitions.
//! It shares no code with the library and aims at being plainly right: words become an owned tree,
//! the tree becomes text as the Dafny bodies say, and only then is the buffer looked at.

use crate::limits::{DEPTH_LIMIT, FIXED_NAMES, LEVEL_LIMIT, PAIR_LIMIT, TEXT_LIMIT, WORD_LIMIT};
use crate::words::{flag, kind, root, NO_SIZE};
use crate::{Encoding, Refusal};

/// Words that are no sound names: each stands for something else in a type's text.
pub const RESERVED: [&str; 17] = [
    "u8", "u16", "u32", "u64", "u128", "i8", "i16", "i32", "i64", "i128", "usize", "bool", "mut",
    "impl", "dyn", "crate", "Self",
];

pub use crate::tree::{Name, Path, Root, Type};
pub use declaration::{declaration_text, read_declaration};
pub use doc::convert_docstring;
pub use file::printdecl;
pub use part::{Part, PARTS};
pub use rebuild::{
    declaration_rebuild, initialization_words, rebuilt_declaration, rebuilt_type,
    type_at_initialization, type_rebuild, types_of_declaration, types_of_type, Rebuilt,
};
pub use shape::{Shape, SHAPES};
pub use visit::{declaration_visit, type_visit};

mod declaration;
mod doc;
mod file;
mod part;
mod places;
mod rebuild;
mod shape;
mod visit;

// The calls for types and paths over buffers.

pub fn type_text(encoding: &Encoding<'_>, level: u32, out: &mut [u8]) -> Result<usize, Refusal> {
    check_level(level)?;
    deliver(&read_type(encoding)?.reference_text(), out)
}

pub fn path_text(encoding: &Encoding<'_>, level: u32, out: &mut [u8]) -> Result<usize, Refusal> {
    check_level(level)?;
    deliver(&read_path(encoding)?.reference_text(), out)
}

pub fn type_is_sound(encoding: &Encoding<'_>) -> Result<bool, Refusal> {
    Ok(tree_is_sound(&read_type(encoding)?))
}

fn check_level(level: u32) -> Result<(), Refusal> {
    if level > LEVEL_LIMIT {
        return Err(Refusal::BadLevel);
    }
    Ok(())
}

fn deliver(text: &[u8], out: &mut [u8]) -> Result<usize, Refusal> {
    if text.len() > out.len() {
        return Err(Refusal::BufferTooShort);
    }
    out[..text.len()].copy_from_slice(text);
    Ok(text.len())
}

// From words to a tree.

pub fn read_type(encoding: &Encoding<'_>) -> Result<Type, Refusal> {
    read_whole(encoding, |reader| reader.read_type(1))
}

pub fn read_path(encoding: &Encoding<'_>) -> Result<Path, Refusal> {
    read_whole(encoding, Reader::read_path)
}

/// Does what comes before the tree (limits, pairs) and after it (words left over).
fn read_whole<'a, T>(
    encoding: &Encoding<'a>,
    read_tree: impl FnOnce(&mut Reader<'a>) -> Result<T, Refusal>,
) -> Result<T, Refusal> {
    check_limits(encoding)?;
    let mut reader = Reader {
        words: encoding.words,
        next: 0,
        names: table_names(encoding)?,
    };
    let tree = read_tree(&mut reader)?;
    if reader.next < reader.words.len() {
        return Err(Refusal::LeftOver);
    }
    Ok(tree)
}

fn check_limits(encoding: &Encoding<'_>) -> Result<(), Refusal> {
    // Half a pair at the end is no pair here: only whole ones count towards the limit.
    let whole_pairs = encoding.pairs.len() / 2;
    if encoding.words.len() > WORD_LIMIT
        || whole_pairs > PAIR_LIMIT
        || encoding.text.len() > TEXT_LIMIT
    {
        return Err(Refusal::Overlong);
    }
    Ok(())
}

/// The names the pairs stand for, if every pair keeps the table's rule.
fn table_names<'a>(encoding: &Encoding<'a>) -> Result<Vec<&'a [u8]>, Refusal> {
    let mut names = Vec::new();
    let mut end_before = 0_u64;
    for pair in encoding.pairs.chunks(2) {
        let [offset, length] = *pair else {
            return Err(Refusal::BadPair);
        };
        // The sum of two u32 can pass 2^32.
        let (start, end) = (u64::from(offset), u64::from(offset) + u64::from(length));
        if start < end_before || end > encoding.text.len() as u64 {
            return Err(Refusal::BadPair);
        }
        names.push(&encoding.text[start as usize..end as usize]);
        end_before = end;
    }
    Ok(names)
}

struct Reader<'a> {
    words: &'a [u32],
    next: usize,
    names: Vec<&'a [u8]>,
}

impl Reader<'_> {
    fn word(&mut self) -> Result<u32, Refusal> {
        let word = *self.words.get(self.next).ok_or(Refusal::EndsEarly)?;
        self.next += 1;
        Ok(word)
    }

    fn name_of(&self, number: u32) -> Result<Name, Refusal> {
        let number = number as usize;
        if let Some(fixed) = FIXED_NAMES.get(number) {
            return Ok(Name::from(*fixed));
        }
        match self.names.get(number - FIXED_NAMES.len()) {
            Some(name) => Ok(Name::from(*name)),
            None => Err(Refusal::UnknownWord),
        }
    }

    fn name(&mut self) -> Result<Name, Refusal> {
        let number = self.word()?;
        self.name_of(number)
    }

    fn size(&mut self) -> Result<Option<Name>, Refusal> {
        match self.word()? {
            NO_SIZE => Ok(None),
            number => self.name_of(number - 1).map(Some),
        }
    }

    fn read_path(&mut self) -> Result<Path, Refusal> {
        let root = match self.word()? {
            root::GLOBAL => Root::Global,
            root::CRATE => Root::Crate,
            root::SELF_TYPE => Root::SelfType,
            _ => return Err(Refusal::UnknownWord),
        };
        let count = self.word()?;
        let mut names = Vec::new(); // no capacity asked for: the count may be 2^32 - 1
        for _ in 0..count {
            names.push(self.name()?);
        }
        Ok(Path { root, names })
    }

    fn types(&mut self, count: u32, depth: usize) -> Result<Vec<Type>, Refusal> {
        let mut types = Vec::new(); // no capacity asked for, as above
        for _ in 0..count {
            types.push(self.read_type(depth)?);
        }
        Ok(types)
    }

    fn boxed(&mut self, depth: usize) -> Result<Box<Type>, Refusal> {
        self.read_type(depth).map(Box::new)
    }

    /// Reads the type that begins at the next word, at this depth.
    fn read_type(&mut self, depth: usize) -> Result<Type, Refusal> {
        // Before the word is even looked for: 5 comes before 3 and 4. It bounds the recursion too.
        if depth > DEPTH_LIMIT {
            return Err(Refusal::TooDeep);
        }
        let below = depth + 1;
        Ok(match self.word()? {
            kind::U8 => Type::U8,
            kind::U16 => Type::U16,
            kind::U32 => Type::U32,
            kind::U64 => Type::U64,
            kind::U128 => Type::U128,
            kind::I8 => Type::I8,
            kind::I16 => Type::I16,
            kind::I32 => Type::I32,
            kind::I64 => Type::I64,
            kind::I128 => Type::I128,
            kind::USIZE => Type::Usize,
            kind::BOOL => Type::Bool,
            kind::IDENTIFIER => Type::Identifier(self.name()?),
            kind::FROM_PATH => Type::FromPath(self.read_path()?),
            kind::APP => {
                let count = self.word()?;
                let base = self.boxed(below)?;
                let arguments = self.types(count, below)?;
                Type::App { base, arguments }
            }
            kind::BORROWED => Type::Borrowed(self.boxed(below)?),
            kind::BORROWED_MUT => Type::BorrowedMut(self.boxed(below)?),
            kind::IMPL => Type::Impl(self.boxed(below)?),
            kind::DYN => Type::Dyn(self.boxed(below)?),
            kind::TUPLE => {
                let count = self.word()?;
                Type::Tuple(self.types(count, below)?)
            }
            kind::FN => {
                let count = self.word()?;
                let arguments = self.types(count, below)?;
                let result = self.boxed(below)?;
                Type::Fn { arguments, result }
            }
            kind::INTERSECTION => {
                let left = self.boxed(below)?;
                let right = self.boxed(below)?;
                Type::Intersection { left, right }
            }
            kind::ARRAY => {
                let size = self.size()?;
                let element = self.boxed(below)?;
                Type::Array { element, size }
            }
            kind::SYNONYM => {
                let display = self.boxed(below)?;
                let base = self.boxed(below)?;
                Type::Synonym { display, base }
            }
            kind::META_DATA => {
                let flags = self.word()?;
                if flags > flag::ALL {
                    return Err(Refusal::UnknownWord);
                }
                Type::MetaData {
                    display: self.boxed(below)?,
                    copy_semantics: flags & flag::COPY_SEMANTICS != 0,
                    overflow: flags & flag::OVERFLOW != 0,
                }
            }
            _ => return Err(Refusal::UnknownWord),
        })
    }
}

// From a tree to its text. The indent that the Dafny bodies hand down shows nowhere in a type.

#[doc(hidden)]
impl Path {
    pub fn reference_text(&self) -> Vec<u8> {
        let mut text = Vec::new();
        self.append_text(&mut text);
        text
    }

    fn append_text(&self, text: &mut Vec<u8>) {
        text.extend_from_slice(match self.root {
            Root::Global => b"",
            Root::Crate => b"crate",
            Root::SelfType => b"Self",
        });
        for name in &self.names {
            text.extend_from_slice(b"::");
            text.extend_from_slice(name);
        }
    }
}

#[doc(hidden)]
impl Type {
    pub fn reference_text(&self) -> Vec<u8> {
        let mut text = Vec::new();
        self.append_text(&mut text);
        text
    }

    fn append_text(&self, text: &mut Vec<u8>) {
        match self {
            Type::Bool => text.extend_from_slice(b"bool"),
            Type::Identifier(name) => text.extend_from_slice(name),
            Type::FromPath(path) => path.append_text(text),
            Type::Borrowed(underlying) => {
                text.extend_from_slice(b"&");
                underlying.append_text(text);
            }
            Type::BorrowedMut(underlying) => {
                text.extend_from_slice(b"&mut ");
                underlying.append_text(text);
            }
            Type::Impl(underlying) => {
                text.extend_from_slice(b"impl ");
                underlying.append_text(text);
            }
            Type::Dyn(underlying) => {
                text.extend_from_slice(b"dyn ");
                underlying.append_text(text);
            }
            Type::Fn { arguments, result } => {
                text.extend_from_slice(b"::std::ops::Fn(");
                append_joined(arguments, text);
                text.extend_from_slice(b") -> ");
                result.append_text(text);
            }
            Type::Intersection { left, right } => {
                left.append_text(text);
                text.extend_from_slice(b" + ");
                right.append_text(text);
            }
            Type::Tuple(arguments) => {
                if arguments.is_empty() {
                    text.extend_from_slice(b"()");
                } else {
                    text.extend_from_slice(b"(");
                    append_joined(arguments, text);
                    text.extend_from_slice(b")");
                }
            }
            Type::App { base, arguments } => {
                base.append_text(text);
                if !arguments.is_empty() {
                    text.extend_from_slice(b"<");
                    append_joined(arguments, text);
                    text.extend_from_slice(b">");
                }
            }
            Type::U8 => text.extend_from_slice(b"u8"),
            Type::U16 => text.extend_from_slice(b"u16"),
            Type::U32 => text.extend_from_slice(b"u32"),
            Type::U64 => text.extend_from_slice(b"u64"),
            Type::U128 => text.extend_from_slice(b"u128"),
            Type::I8 => text.extend_from_slice(b"i8"),
            Type::I16 => text.extend_from_slice(b"i16"),
            Type::I32 => text.extend_from_slice(b"i32"),
            Type::I64 => text.extend_from_slice(b"i64"),
            Type::I128 => text.extend_from_slice(b"i128"),
            Type::Usize => text.extend_from_slice(b"usize"),
            Type::Array { element, size } => {
                text.extend_from_slice(b"[");
                element.append_text(text);
                if let Some(size) = size {
                    text.extend_from_slice(b"; ");
                    text.extend_from_slice(size);
                }
                text.extend_from_slice(b"]");
            }
            Type::Synonym { display, .. } => display.append_text(text),
            Type::MetaData { display, .. } => display.append_text(text),
        }
    }
}

/// `SeqToString` with the separator `, `; a loop, since a list can be longer than recursion should go.
fn append_joined(types: &[Type], text: &mut Vec<u8>) {
    for (index, next) in types.iter().enumerate() {
        if index > 0 {
            text.extend_from_slice(b", ");
        }
        next.append_text(text);
    }
}

// Soundness.

#[doc(hidden)]
impl Type {
    /// The tree with every wrapper replaced by its display, at all depths.
    pub fn reference_bare(&self) -> Type {
        let bare = |inner: &Type| Box::new(inner.reference_bare());
        let all_bare = |types: &[Type]| types.iter().map(Type::reference_bare).collect();
        match self {
            Type::Synonym { display, .. } | Type::MetaData { display, .. } => {
                display.reference_bare()
            }
            Type::App { base, arguments } => Type::App {
                base: bare(base),
                arguments: all_bare(arguments),
            },
            Type::Borrowed(underlying) => Type::Borrowed(bare(underlying)),
            Type::BorrowedMut(underlying) => Type::BorrowedMut(bare(underlying)),
            Type::Impl(underlying) => Type::Impl(bare(underlying)),
            Type::Dyn(underlying) => Type::Dyn(bare(underlying)),
            Type::Tuple(arguments) => Type::Tuple(all_bare(arguments)),
            Type::Fn { arguments, result } => Type::Fn {
                arguments: all_bare(arguments),
                result: bare(result),
            },
            Type::Intersection { left, right } => Type::Intersection {
                left: bare(left),
                right: bare(right),
            },
            Type::Array { element, size } => Type::Array {
                element: bare(element),
                size: size.clone(),
            },
            plain_or_named => plain_or_named.clone(),
        }
    }

    /// Soundness of a tree without wrappers.
    fn bare_is_sound(&self) -> bool {
        let is_intersection = |inner: &Type| matches!(inner, Type::Intersection { .. });
        let own_part = match self {
            Type::Identifier(name) => is_sound_name(name),
            Type::FromPath(path) => path.is_sound(),
            Type::App { base, arguments } => {
                matches!(**base, Type::Identifier(_) | Type::FromPath(_)) && !arguments.is_empty()
            }
            Type::Borrowed(underlying)
            | Type::BorrowedMut(underlying)
            | Type::Impl(underlying)
            | Type::Dyn(underlying) => !is_intersection(underlying),
            Type::Fn { result, .. } => !is_intersection(result),
            Type::Intersection { left, .. } => !is_intersection(left),
            Type::Array { size, .. } => size.as_deref().is_none_or(is_sound_size),
            _ => true,
        };
        own_part && self.children().into_iter().all(Type::bare_is_sound)
    }

    /// The types directly inside this one.
    fn children(&self) -> Vec<&Type> {
        match self {
            Type::App { base, arguments } => {
                let mut children: Vec<&Type> = vec![base];
                children.extend(arguments);
                children
            }
            Type::Borrowed(underlying)
            | Type::BorrowedMut(underlying)
            | Type::Impl(underlying)
            | Type::Dyn(underlying) => vec![underlying],
            Type::Tuple(arguments) => arguments.iter().collect(),
            Type::Fn { arguments, result } => {
                let mut children: Vec<&Type> = arguments.iter().collect();
                children.push(result);
                children
            }
            Type::Intersection { left, right } => vec![left, right],
            Type::Array { element, .. } => vec![element],
            Type::Synonym { display, base } => vec![display, base],
            Type::MetaData { display, .. } => vec![display],
            _ => Vec::new(),
        }
    }
}

/// Whether a type is sound.
pub fn tree_is_sound(tree: &Type) -> bool {
    tree.reference_bare().bare_is_sound()
}

#[doc(hidden)]
impl Path {
    pub fn is_sound(&self) -> bool {
        let something_shows = self.root != Root::Global || !self.names.is_empty();
        something_shows && self.names.iter().all(|name| is_sound_name(name))
    }
}

pub fn is_sound_name(name: &[u8]) -> bool {
    let Some((first, rest)) = name.split_first() else {
        return false;
    };
    (first.is_ascii_alphabetic() || *first == b'_')
        && rest.iter().all(is_word_byte)
        && !RESERVED.iter().any(|word| word.as_bytes() == name)
}

pub fn is_sound_size(size: &[u8]) -> bool {
    !size.is_empty() && size.iter().all(is_word_byte)
}

fn is_word_byte(byte: &u8) -> bool {
    byte.is_ascii_alphanumeric() || *byte == b'_'
}

#[cfg(test)]
mod tests {
    use super::*;

    /// The pairs and the text of `examples/gauge`: `Gauge`, a sentence, `mm`, `id`.
    const PAIRS: [u32; 8] = [0, 5, 5, 13, 18, 2, 20, 2];
    const TEXT: &[u8] = b"GaugeOffset in mm.mmid";

    fn encoding(words: &[u32]) -> Encoding<'_> {
        Encoding {
            words,
            pairs: &PAIRS,
            text: TEXT,
        }
    }

    fn text_of(words: &[u32]) -> Result<String, Refusal> {
        let mut buffer = [b'.'; 1024];
        let length = type_text(&encoding(words), 0, &mut buffer)?;
        assert!(buffer[length..].iter().all(|&byte| byte == b'.'));
        Ok(String::from_utf8(buffer[..length].to_vec()).unwrap())
    }

    fn sound(words: &[u32]) -> bool {
        type_is_sound(&encoding(words)).unwrap()
    }

    fn borrows_then(count: usize, rest: &[u32]) -> Vec<u32> {
        let mut words = vec![kind::BORROWED; count];
        words.extend_from_slice(rest);
        words
    }

    fn refusal_of(words: &[u32]) -> Option<Refusal> {
        read_type(&encoding(words)).err()
    }

    #[test]
    fn marked_cases() {
        // (a)
        assert_eq!(text_of(&[14, 1, 12, 16, 0]).unwrap(), "Gauge<u8>");
        assert!(sound(&[14, 1, 12, 16, 0]));
        // (b)
        assert_eq!(text_of(&[14, 0, 12, 16]).unwrap(), "Gauge");
        assert!(!sound(&[14, 0, 12, 16]));
        // (c)
        assert_eq!(text_of(&[13, 0, 0]).unwrap(), "");
        assert!(!sound(&[13, 0, 0]));
        // (d)
        assert_eq!(
            text_of(&[20, 1, 0, 19, 0]).unwrap(),
            "::std::ops::Fn(u8) -> ()"
        );
        assert!(sound(&[20, 1, 0, 19, 0]));
        // (e)
        assert_eq!(text_of(&[21, 15, 0, 11]).unwrap(), "&u8 + bool");
        assert!(sound(&[21, 15, 0, 11]));
        assert_eq!(text_of(&[15, 21, 0, 11]).unwrap(), "&u8 + bool");
        assert!(!sound(&[15, 21, 0, 11]));
        // (f)
        assert_eq!(text_of(&[23, 0, 11]).unwrap(), "u8");
        assert!(sound(&[23, 0, 11]));
    }

    #[test]
    fn every_kind_prints_as_its_body_says() {
        let plain = [
            "u8", "u16", "u32", "u64", "u128", "i8", "i16", "i32", "i64", "i128", "usize", "bool",
        ];
        for (head, text) in (kind::U8..).zip(plain) {
            assert_eq!(text_of(&[head]).unwrap(), text);
            assert!(sound(&[head]));
        }
        for (words, text) in [
            (&[12, 18][..], "mm"),
            (&[13, 0, 3, 1, 2, 3], "::std::rc::Rc"),
            (&[13, 1, 1, 16], "crate::Gauge"),
            (&[13, 1, 0], "crate"),
            (&[13, 2, 0], "Self"),
            (&[13, 2, 2, 16, 0], "Self::Gauge::"),
            (&[14, 2, 12, 16, 0, 1], "Gauge<u8, u16>"),
            (&[16, 1], "&mut u16"),
            (&[17, 12, 16], "impl Gauge"),
            (&[18, 12, 16], "dyn Gauge"),
            (&[19, 0], "()"),
            (&[19, 1, 0], "(u8)"),
            (&[19, 3, 0, 1, 2], "(u8, u16, u32)"),
            (&[20, 0, 11], "::std::ops::Fn() -> bool"),
            (&[22, 0, 0], "[u8]"),
            (&[22, 1, 0], "[u8; ]"),
            (&[22, 19, 0], "[u8; mm]"),
            (&[24, 3, 15, 0], "&u8"),
        ] {
            assert_eq!(text_of(words).unwrap(), text);
        }
    }

    #[test]
    fn soundness_is_judged_without_wrappers() {
        assert!(!sound(&[15, 24, 0, 21, 0, 1])); // an intersection behind a wrapper
        assert!(!sound(&[15, 23, 23, 21, 0, 1, 0, 0]));
        assert!(sound(&[14, 1, 24, 0, 12, 16, 0])); // a base name behind a wrapper
        assert!(sound(&[23, 0, 13, 0, 0])); // an unsound base
        assert!(!sound(&[23, 13, 0, 0, 0])); // an unsound display
    }

    #[test]
    fn soundness_of_places() {
        assert!(!sound(&[14, 1, 14, 1, 12, 16, 0, 0])); // a base that is an application
        assert!(!sound(&[14, 1, 0, 0])); // a plain base
        for head in kind::BORROWED..=kind::DYN {
            assert!(!sound(&[head, 21, 0, 1]));
            assert!(sound(&[head, 19, 1, 21, 0, 1]));
        }
        assert!(!sound(&[20, 0, 21, 0, 1]));
        assert!(sound(&[20, 1, 21, 0, 1, 0]));
        assert!(!sound(&[21, 21, 0, 1, 2]));
        assert!(sound(&[21, 0, 21, 1, 2]));
        assert!(sound(&[22, 0, 21, 0, 1]));
        assert!(!sound(&[22, 1, 0])); // an empty size is not no size
        assert!(!sound(&[22, 18, 0])); // a size with a space in it
        assert!(sound(&[22, 15, 0])); // `_`
        assert!(sound(&[13, 1, 0]));
        assert!(!sound(&[13, 1, 1, 0]));
        assert!(!sound(&[13, 2, 2, 16, 17]));
    }

    #[test]
    fn soundness_of_names() {
        for name in [
            "_", "self", "a", "Z9", "_0", "u8_", "U8", "mutable", "i256", "std", "usiz",
        ] {
            assert!(is_sound_name(name.as_bytes()), "{name}");
        }
        for name in ["", "0a", "9", "a b", "a-b", "é", "aé", " a", "a\n"] {
            assert!(!is_sound_name(name.as_bytes()), "{name}");
        }
        for word in RESERVED {
            assert!(!is_sound_name(word.as_bytes()), "{word}");
            assert!(is_sound_size(word.as_bytes()), "{word}");
        }
        for size in ["0", "16", "N", "_", "3u8"] {
            assert!(is_sound_size(size.as_bytes()), "{size}");
        }
        for size in ["", "N + 1", "é", "-1"] {
            assert!(!is_sound_size(size.as_bytes()), "{size}");
        }
    }

    #[test]
    fn depth() {
        use Refusal::*;
        let inside = DEPTH_LIMIT - 1;
        assert_eq!(refusal_of(&borrows_then(inside, &[0])), None);
        assert_eq!(refusal_of(&borrows_then(inside + 1, &[0])), Some(TooDeep));
        assert_eq!(refusal_of(&borrows_then(inside + 1, &[])), Some(TooDeep));
        assert_eq!(refusal_of(&borrows_then(inside, &[])), Some(EndsEarly));
        assert_eq!(refusal_of(&borrows_then(inside, &[14])), Some(EndsEarly));
        assert_eq!(refusal_of(&borrows_then(inside, &[14, 0])), Some(TooDeep));
        assert_eq!(
            refusal_of(&borrows_then(inside, &[24, 9])),
            Some(UnknownWord)
        );
        assert_eq!(refusal_of(&borrows_then(inside, &[24, 3])), Some(TooDeep));
        assert_eq!(refusal_of(&borrows_then(inside, &[19, 0])), None);
        assert_eq!(refusal_of(&borrows_then(inside, &[19, 1])), Some(TooDeep));
        assert_eq!(refusal_of(&borrows_then(inside + 1, &[99])), Some(TooDeep));
    }

    #[test]
    fn last_name_and_size_words() {
        // Four pairs: names run to 19, sizes to 20.
        assert_eq!(text_of(&[12, 19]).unwrap(), "id");
        assert_eq!(refusal_of(&[12, 20]), Some(Refusal::UnknownWord));
        assert_eq!(text_of(&[22, 20, 0]).unwrap(), "[u8; id]");
        assert_eq!(refusal_of(&[22, 21, 0]), Some(Refusal::UnknownWord));
        assert_eq!(refusal_of(&[22, u32::MAX, 0]), Some(Refusal::UnknownWord));
        assert_eq!(refusal_of(&[12, u32::MAX]), Some(Refusal::UnknownWord));
    }

    #[test]
    fn pair_tables() {
        let with_pairs = |pairs: &[u32]| {
            read_type(&Encoding {
                words: &[0],
                pairs,
                text: b"0123456789",
            })
            .err()
        };
        let most = 2 * PAIR_LIMIT;
        assert_eq!(with_pairs(&vec![0; most]), None);
        assert_eq!(with_pairs(&vec![0; most + 1]), Some(Refusal::BadPair));
        assert_eq!(with_pairs(&vec![0; most + 2]), Some(Refusal::Overlong));
        assert_eq!(with_pairs(&vec![0; most + 3]), Some(Refusal::Overlong));
        assert_eq!(with_pairs(&[10, 0, 10, 0]), None);
        assert_eq!(with_pairs(&[11, 0]), Some(Refusal::BadPair));
        assert_eq!(with_pairs(&[0, 11]), Some(Refusal::BadPair));
        assert_eq!(with_pairs(&[0, 2, 1, 2]), Some(Refusal::BadPair));
        assert_eq!(with_pairs(&[0, 2, 2, 2]), None);
        // Sums that would wrap to something small.
        assert_eq!(with_pairs(&[4, u32::MAX - 2]), Some(Refusal::BadPair));
        assert_eq!(with_pairs(&[u32::MAX, 1]), Some(Refusal::BadPair));
        assert_eq!(with_pairs(&[u32::MAX, u32::MAX]), Some(Refusal::BadPair));
    }

    #[test]
    fn huge_counts() {
        let most = u32::MAX;
        assert_eq!(refusal_of(&[19, most, 0]), Some(Refusal::EndsEarly));
        assert_eq!(refusal_of(&[19, most, 99]), Some(Refusal::UnknownWord));
        assert_eq!(refusal_of(&[14, most, 12, 16]), Some(Refusal::EndsEarly));
        assert_eq!(refusal_of(&[20, most]), Some(Refusal::EndsEarly));
        assert_eq!(refusal_of(&[13, 0, most, 1]), Some(Refusal::EndsEarly));
        assert_eq!(refusal_of(&[13, 0, most, 99]), Some(Refusal::UnknownWord));
        let deep = borrows_then(DEPTH_LIMIT - 1, &[19, most]);
        assert_eq!(refusal_of(&deep), Some(Refusal::TooDeep));
    }

    #[test]
    fn order_of_refusals_and_the_buffer() {
        use Refusal::*;
        let too_many_words = vec![0; WORD_LIMIT + 1];
        let level = LEVEL_LIMIT;
        let mut buffer = *b"....";
        let mut call = |words: &[u32], pairs: &[u32], level: u32, length: usize| {
            let encoding = Encoding {
                words,
                pairs,
                text: b"",
            };
            let answer = type_text(&encoding, level, &mut buffer[..length]);
            (answer, buffer)
        };
        assert_eq!(
            call(&too_many_words, &[1], level + 1, 0),
            (Err(BadLevel), *b"....")
        );
        assert_eq!(
            call(&too_many_words, &[1], level, 0),
            (Err(Overlong), *b"....")
        );
        assert_eq!(call(&[], &[1], level, 0), (Err(BadPair), *b"...."));
        assert_eq!(call(&[], &[], level, 0), (Err(EndsEarly), *b"...."));
        assert_eq!(
            call(&[kind::END], &[], level, 0),
            (Err(UnknownWord), *b"....")
        );
        assert_eq!(call(&[0, 0], &[], level, 0), (Err(LeftOver), *b"...."));
        assert_eq!(call(&[0], &[], level, 1), (Err(BufferTooShort), *b"...."));
        assert_eq!(call(&[0], &[], level, 2), (Ok(2), *b"u8.."));
        assert_eq!(call(&[1], &[], 0, 4), (Ok(3), *b"u16."));
    }

    #[test]
    fn paths_alone() {
        let text = |words: &[u32], level| {
            let mut buffer = [0; 64];
            path_text(&encoding(words), level, &mut buffer)
                .map(|length| String::from_utf8(buffer[..length].to_vec()).unwrap())
        };
        assert_eq!(text(&[0, 0], 0).unwrap(), "");
        assert_eq!(text(&[1, 0], LEVEL_LIMIT).unwrap(), "crate");
        assert_eq!(text(&[0, 2, 10, 11], 3).unwrap(), "::dafny_runtime::Object");
        assert_eq!(text(&[2, 2, 16, 0], 3).unwrap(), "Self::Gauge::");
        assert_eq!(text(&[0, 0], LEVEL_LIMIT + 1), Err(Refusal::BadLevel));
        assert_eq!(text(&[3, 0], 0), Err(Refusal::UnknownWord));
        assert_eq!(text(&[13, 0, 0], 0), Err(Refusal::UnknownWord));
        assert_eq!(text(&[], 0), Err(Refusal::EndsEarly));
        assert_eq!(text(&[0], 0), Err(Refusal::EndsEarly));
        assert_eq!(text(&[0, 0, 0], 0), Err(Refusal::LeftOver));
    }
}
