//! From trees to encodings and files.

use std::collections::HashMap;

use crate::decode::pair_names;
use crate::limits::{DEPTH_LIMIT, FIXED_NAMES, PAIR_LIMIT, RULE_LIMIT, TEXT_LIMIT, WORD_LIMIT};
use crate::tree::{
    Attribute, Declaration, EnumCase, Fields, Path, Root, Type, TypeParameter, Visibility,
};
use crate::words::head::{ENUM, STRUCT, TYPE, USE};
use crate::words::{fields, flag, kind, root, visibility, FIRST_PAIR, NO_SIZE};
use crate::{Encoding, Refusal};

impl Encoding<'_> {
    /// The file that the program `printdecl` reads: pair count, word count and text length, the
    /// pairs, the words (all u32, little-endian), the text.
    ///
    /// Half a pair at the end of the table, which no file can hold, is left out.
    ///
    /// ```
    /// use tillercoral::words::{head::USE, pair, root::GLOBAL, visibility::PRIV};
    /// use tillercoral::Encoding;
    ///
    /// // use ::mm;
    /// let words = &[USE, PRIV, GLOBAL, 1, pair(0)];
    /// let encoding = Encoding { words, pairs: &[0, 2], text: b"mm" };
    /// let file = encoding.to_file();
    /// assert_eq!(file[..12], [1, 0, 0, 0, 5, 0, 0, 0, 2, 0, 0, 0]);
    /// assert_eq!(file[12 + 2 * 4 + 5 * 4..], *b"mm");
    /// ```
    #[must_use]
    pub fn to_file(&self) -> Vec<u8> {
        let (pairs, _half) = self.pairs.as_chunks::<2>();
        let header = [pairs.len(), self.words.len(), self.text.len()];
        let mut file = Vec::with_capacity(12 + 8 * header[0] + 4 * header[1] + header[2]);
        let numbers = header.into_iter().map(|count| count as u32);
        for number in numbers.chain(pairs.as_flattened().iter().chain(self.words).copied()) {
            file.extend(number.to_le_bytes());
        }
        file.extend(self.text);
        file
    }
}

/// An encoding that owns its parts.
///
/// ```
/// use tillercoral::tree::{Declaration, Field, Struct, Type};
/// use tillercoral::words::{fields::NAMED, head::STRUCT, kind, pair, visibility::PUB};
/// use tillercoral::{declaration_text, EncodingBuf};
///
/// let declaration = Declaration::from(
///     Struct::new("Sounding")
///         .doc("Depth under the keel.")
///         .field(Field::public("millimetres", Type::U32)),
/// );
/// let encoding = EncodingBuf::from_declaration(&declaration)?;
/// let front = [STRUCT, pair(1), 0, pair(0), 0, NAMED, 1];
/// assert_eq!(encoding.words, [&front[..], &[PUB, pair(2), kind::U32]].concat());
///
/// let mut buffer = [0; 128];
/// let length = declaration_text(&encoding.as_encoding(), 0, &mut buffer)?;
/// assert_eq!(
///     &buffer[..length],
///     b"/// Depth under the keel.\npub struct Sounding {\n    pub millimetres: u32\n}"
/// );
/// # Ok::<(), tillercoral::Refusal>(())
/// ```
#[derive(Clone, Debug, Default, PartialEq, Eq, Hash)]
pub struct EncodingBuf {
    /// The tree, head first.
    pub words: Vec<u32>,
    /// Offset, length, offset, length, .. of names in the text.
    pub pairs: Vec<u32>,
    /// The bytes that the pairs point into.
    pub text: Vec<u8>,
}

impl EncodingBuf {
    /// The encoding of a type, or [`Refusal::Overlong`] or [`Refusal::TooDeep`] if no encoding has
    /// room for it.
    ///
    /// ```
    /// use tillercoral::tree::Type;
    /// use tillercoral::EncodingBuf;
    ///
    /// let encoding = EncodingBuf::from_type(&Type::array(Type::named("Depth"), "16"))?;
    /// assert_eq!(encoding.words, [22, 17, 12, 17]); // a size is its name's number and 1
    /// assert_eq!(encoding.text, b"16Depth");
    /// # Ok::<(), tillercoral::Refusal>(())
    /// ```
    pub fn from_type(tree: &Type) -> Result<EncodingBuf, Refusal> {
        let mut maker = Maker::default();
        maker.put_type(tree, 1)?;
        maker.finish()
    }

    /// The encoding of a path, or [`Refusal::Overlong`] if no encoding has room for it.
    ///
    /// ```
    /// use tillercoral::tree::Path;
    /// use tillercoral::EncodingBuf;
    ///
    /// let encoding = EncodingBuf::from_path(&Path::in_crate(["nmea", "Rc"]))?;
    /// assert_eq!(encoding.words, [1, 2, 16, 3]); // Rc is among the fixed names
    /// # Ok::<(), tillercoral::Refusal>(())
    /// ```
    pub fn from_path(tree: &Path) -> Result<EncodingBuf, Refusal> {
        let mut maker = Maker::default();
        maker.put_path(tree);
        maker.finish()
    }

    /// The encoding of a declaration, or [`Refusal::Overlong`] or [`Refusal::TooDeep`] if no
    /// encoding has room for it.
    ///
    /// Equal names share one pair, and a name that is among the fixed ones takes none. The
    /// declaration's own name comes first in the text; the others follow as the words need them.
    pub fn from_declaration(tree: &Declaration) -> Result<EncodingBuf, Refusal> {
        let mut maker = Maker::default();
        maker.put_declaration(tree)?;
        maker.finish()
    }

    /// The words of a list of rules, each what is replaced and what it is replaced by. The names
    /// that the rules need and the tree does not have are added to the pairs and the text.
    ///
    /// More than 32 rules are refused as the library would, with [`Refusal::UnknownWord`]; names
    /// that the table has no room for with [`Refusal::Overlong`]. The encoding then stays as it is.
    ///
    /// ```
    /// use tillercoral::tree::Type;
    /// use tillercoral::{type_rebuild, EncodingBuf};
    ///
    /// let mut encoding = EncodingBuf::from_type(&Type::slice(Type::named("Depth")))?;
    /// let rules = encoding.encode_rules(&[(Type::named("Depth"), Type::named("Height"))])?;
    /// assert_eq!(rules, [1, 12, 16, 12, 17]);
    /// assert_eq!(encoding.text, b"DepthHeight");
    ///
    /// let mut buffer = [0; 8];
    /// let length = type_rebuild(&encoding.as_encoding(), &rules, &mut buffer)?;
    /// assert_eq!(buffer[..length], [22, 0, 12, 17]);
    /// # Ok::<(), tillercoral::Refusal>(())
    /// ```
    pub fn encode_rules(&mut self, rules: &[(Type, Type)]) -> Result<Vec<u32>, Refusal> {
        if rules.len() > RULE_LIMIT {
            return Err(Refusal::UnknownWord);
        }
        let mut maker = Maker::with_names_of(&self.as_encoding())?;
        maker.put_count(rules);
        for (from, to) in rules {
            maker.put_type(from, 1)?;
            maker.put_type(to, 1)?;
        }
        let made = maker.finish()?;
        (self.pairs, self.text) = (made.pairs, made.text);
        Ok(made.words)
    }

    /// The encoding, borrowed for a call.
    #[must_use]
    pub fn as_encoding(&self) -> Encoding<'_> {
        Encoding {
            words: &self.words,
            pairs: &self.pairs,
            text: &self.text,
        }
    }

    /// The file that the program `printdecl` reads; see [`Encoding::to_file`].
    #[must_use]
    pub fn to_file(&self) -> Vec<u8> {
        self.as_encoding().to_file()
    }
}

impl<'a> From<&'a EncodingBuf> for Encoding<'a> {
    fn from(owned: &'a EncodingBuf) -> Encoding<'a> {
        owned.as_encoding()
    }
}

impl From<&Encoding<'_>> for EncodingBuf {
    fn from(borrowed: &Encoding<'_>) -> EncodingBuf {
        EncodingBuf {
            words: borrowed.words.to_vec(),
            pairs: borrowed.pairs.to_vec(),
            text: borrowed.text.to_vec(),
        }
    }
}

impl Type {
    /// The encoding of the type, as [`EncodingBuf::from_type`] makes it.
    pub fn encode(&self) -> Result<EncodingBuf, Refusal> {
        EncodingBuf::from_type(self)
    }
}

impl Path {
    /// The encoding of the path, as [`EncodingBuf::from_path`] makes it.
    pub fn encode(&self) -> Result<EncodingBuf, Refusal> {
        EncodingBuf::from_path(self)
    }
}

impl Declaration {
    /// The encoding of the declaration, as [`EncodingBuf::from_declaration`] makes it.
    pub fn encode(&self) -> Result<EncodingBuf, Refusal> {
        EncodingBuf::from_declaration(self)
    }
}

/// An encoding in the making.
#[derive(Default)]
struct Maker {
    made: EncodingBuf,
    /// The numbers of the names that have a pair already.
    numbers: HashMap<Vec<u8>, u32>,
}

impl Maker {
    /// No words yet, and the names of an encoding.
    fn with_names_of(encoding: &Encoding<'_>) -> Result<Maker, Refusal> {
        let mut maker = Maker::default();
        for (number, name) in (FIRST_PAIR..).zip(pair_names(encoding)?) {
            maker.numbers.entry(name.to_vec()).or_insert(number);
        }
        maker.made.pairs.extend(encoding.pairs);
        maker.made.text.extend(encoding.text);
        Ok(maker)
    }

    /// The limits are tested once, at the end: a tree in memory is never so large that the words
    /// before the test would matter.
    fn finish(self) -> Result<EncodingBuf, Refusal> {
        let made = self.made;
        if made.words.len() > WORD_LIMIT
            || made.pairs.len() / 2 > PAIR_LIMIT
            || made.text.len() > TEXT_LIMIT
        {
            return Err(Refusal::Overlong);
        }
        Ok(made)
    }

    fn number(&mut self, name: &[u8]) -> u32 {
        if let Some(fixed) = FIXED_NAMES.iter().position(|it| it.as_bytes() == name) {
            return fixed as u32;
        }
        if let Some(&number) = self.numbers.get(name) {
            return number;
        }
        let number = FIRST_PAIR + (self.made.pairs.len() / 2) as u32;
        let offset = self.made.text.len() as u32;
        self.made.pairs.extend([offset, name.len() as u32]);
        self.made.text.extend(name);
        self.numbers.insert(name.to_vec(), number);
        number
    }

    fn put(&mut self, word: u32) {
        self.made.words.push(word);
    }

    fn put_count<T>(&mut self, items: &[T]) {
        self.put(items.len() as u32);
    }

    fn put_name(&mut self, name: &[u8]) {
        let number = self.number(name);
        self.put(number);
    }

    fn put_path(&mut self, path: &Path) {
        self.put(match path.root {
            Root::Global => root::GLOBAL,
            Root::Crate => root::CRATE,
            Root::SelfType => root::SELF_TYPE,
        });
        self.put_count(&path.names);
        for name in &path.names {
            self.put_name(name);
        }
    }

    fn put_types(&mut self, types: &[Type], depth: usize) -> Result<(), Refusal> {
        types.iter().try_for_each(|of| self.put_type(of, depth))
    }

    fn put_type(&mut self, tree: &Type, depth: usize) -> Result<(), Refusal> {
        if depth > DEPTH_LIMIT {
            return Err(Refusal::TooDeep);
        }
        self.put(kind(tree));
        self.put_own_words(tree);
        self.put_children(tree, depth + 1)
    }

    /// The words between a type's kind and the types inside it.
    fn put_own_words(&mut self, tree: &Type) {
        match tree {
            Type::Identifier(name) => self.put_name(name),
            Type::FromPath(path) => self.put_path(path),
            Type::App { arguments, .. } | Type::Tuple(arguments) | Type::Fn { arguments, .. } => {
                self.put_count(arguments);
            }
            Type::Array { size, .. } => self.put_size(size.as_deref()),
            Type::MetaData {
                copy_semantics,
                overflow,
                ..
            } => self.put(
                flag::COPY_SEMANTICS * u32::from(*copy_semantics)
                    + flag::OVERFLOW * u32::from(*overflow),
            ),
            _ => {}
        }
    }

    /// The types inside a type, all at the same depth.
    fn put_children(&mut self, tree: &Type, depth: usize) -> Result<(), Refusal> {
        match tree {
            Type::App { base, arguments } => {
                self.put_type(base, depth)?;
                self.put_types(arguments, depth)
            }
            Type::Borrowed(of) | Type::BorrowedMut(of) | Type::Impl(of) | Type::Dyn(of) => {
                self.put_type(of, depth)
            }
            Type::Tuple(types) => self.put_types(types, depth),
            Type::Fn { arguments, result } => {
                self.put_types(arguments, depth)?;
                self.put_type(result, depth)
            }
            Type::Intersection { left, right } => self.put_both(left, right, depth),
            Type::Array { element, .. } => self.put_type(element, depth),
            Type::Synonym { display, base } => self.put_both(display, base, depth),
            Type::MetaData { display, .. } => self.put_type(display, depth),
            _ => Ok(()),
        }
    }

    fn put_both(&mut self, first: &Type, second: &Type, depth: usize) -> Result<(), Refusal> {
        self.put_type(first, depth)?;
        self.put_type(second, depth)
    }

    fn put_size(&mut self, size: Option<&[u8]>) {
        let word = size.map_or(NO_SIZE, |size| self.number(size) + 1);
        self.put(word);
    }

    fn put_declaration(&mut self, tree: &Declaration) -> Result<(), Refusal> {
        match tree {
            Declaration::Struct(it) => {
                self.put_front(STRUCT, &it.doc, &it.attributes, &it.name, &it.parameters)?;
                self.put_fields(&it.fields)
            }
            Declaration::Enum(it) => {
                self.put_front(ENUM, &it.doc, &it.attributes, &it.name, &it.parameters)?;
                self.put_count(&it.cases);
                it.cases.iter().try_for_each(|case| self.put_case(case))
            }
            Declaration::TypeSynonym(it) => {
                self.put_front(TYPE, &it.doc, &it.attributes, &it.name, &it.parameters)?;
                self.put_type(&it.target, 1)
            }
            Declaration::Use(it) => {
                self.put(USE);
                self.put_visibility(it.visibility);
                self.put_path(&it.path);
                Ok(())
            }
        }
    }

    /// What structs, enums and synonyms have in common.
    fn put_front(
        &mut self,
        head: u32,
        doc: &[u8],
        attributes: &[Attribute],
        name: &[u8],
        parameters: &[TypeParameter],
    ) -> Result<(), Refusal> {
        let name = self.number(name); // first in the table, though not first in the words
        self.put(head);
        self.put_name(doc);
        self.put_count(attributes);
        for attribute in attributes {
            self.put_name(&attribute.name);
            self.put_count(&attribute.arguments);
            for argument in &attribute.arguments {
                self.put_name(argument);
            }
        }
        self.put(name);
        self.put_count(parameters);
        for parameter in parameters {
            self.put_name(&parameter.name);
            self.put_count(&parameter.constraints);
            self.put_types(&parameter.constraints, 1)?;
        }
        Ok(())
    }

    fn put_case(&mut self, case: &EnumCase) -> Result<(), Refusal> {
        self.put_name(&case.doc);
        self.put_name(&case.name);
        self.put_fields(&case.fields)
    }

    fn put_fields(&mut self, fields: &Fields) -> Result<(), Refusal> {
        match fields {
            Fields::Named(fields) => {
                self.put(fields::NAMED);
                self.put_count(fields);
                for field in fields {
                    self.put_visibility(field.visibility);
                    self.put_name(&field.name);
                    self.put_type(&field.field_type, 1)?;
                }
            }
            Fields::Nameless(fields) => {
                self.put(fields::NAMELESS);
                self.put_count(fields);
                for field in fields {
                    self.put_visibility(field.visibility);
                    self.put_type(&field.field_type, 1)?;
                }
            }
        }
        Ok(())
    }

    fn put_visibility(&mut self, visibility: Visibility) {
        self.put(match visibility {
            Visibility::Pub => visibility::PUB,
            Visibility::Priv => visibility::PRIV,
        });
    }
}

/// The word that a type begins with.
fn kind(tree: &Type) -> u32 {
    match tree {
        Type::U8 => kind::U8,
        Type::U16 => kind::U16,
        Type::U32 => kind::U32,
        Type::U64 => kind::U64,
        Type::U128 => kind::U128,
        Type::I8 => kind::I8,
        Type::I16 => kind::I16,
        Type::I32 => kind::I32,
        Type::I64 => kind::I64,
        Type::I128 => kind::I128,
        Type::Usize => kind::USIZE,
        Type::Bool => kind::BOOL,
        Type::Identifier(_) => kind::IDENTIFIER,
        Type::FromPath(_) => kind::FROM_PATH,
        Type::App { .. } => kind::APP,
        Type::Borrowed(_) => kind::BORROWED,
        Type::BorrowedMut(_) => kind::BORROWED_MUT,
        Type::Impl(_) => kind::IMPL,
        Type::Dyn(_) => kind::DYN,
        Type::Tuple(_) => kind::TUPLE,
        Type::Fn { .. } => kind::FN,
        Type::Intersection { .. } => kind::INTERSECTION,
        Type::Array { .. } => kind::ARRAY,
        Type::Synonym { .. } => kind::SYNONYM,
        Type::MetaData { .. } => kind::META_DATA,
    }
}

#[cfg(test)]
mod tests {
    use super::*;
    use crate::generate::{random_declaration, random_type, Names, Random, Shape};
    use crate::reference::{read_declaration, read_path, read_type};
    use crate::tree::{Struct, Use};

    /// The tree of an encoding is the tree it was made from.
    #[test]
    fn reading_undoes_encoding() {
        let random = &mut Random::new(31);
        let shape = Shape {
            depth: 6,
            chain: false,
            children: 3,
            words: 60,
            careless: 50,
        };
        for _ in 0..2_000 {
            let names = Names::random(random, 12);
            let sample = random_type(random, &names, shape);
            let tree = read_type(&sample.as_encoding()).unwrap();
            let made = EncodingBuf::from_type(&tree).unwrap();
            assert_eq!(read_type(&made.as_encoding()), Ok(tree));

            let sample = random_declaration(random, &names, shape);
            let tree = read_declaration(&sample.as_encoding()).unwrap();
            let made = EncodingBuf::from_declaration(&tree).unwrap();
            assert_eq!(read_declaration(&made.as_encoding()).as_ref(), Ok(&tree));
            if let Declaration::Use(Use { path, .. }) = tree {
                let made = EncodingBuf::from_path(&path).unwrap();
                assert_eq!(read_path(&made.as_encoding()), Ok(path));
            }
        }
    }

    #[test]
    fn equal_names_share_a_pair() {
        let path = Path::in_crate(["nmea", "std", "nmea", "", "Sentence"]);
        let made = EncodingBuf::from_path(&path).unwrap();
        assert_eq!(made.words, [root::CRATE, 5, 16, 1, 16, 0, 17]);
        assert_eq!(made.pairs, [0, 4, 4, 8]);
        assert_eq!(made.text, b"nmeaSentence");
    }

    #[test]
    fn files() {
        let made = EncodingBuf {
            words: vec![USE, visibility::PRIV],
            pairs: vec![0, 2, 2],
            text: b"mm".to_vec(),
        };
        let file: [&[u8]; 8] = [
            &[1, 0, 0, 0],
            &[2, 0, 0, 0],
            &[2, 0, 0, 0],
            &[0, 0, 0, 0],
            &[2, 0, 0, 0],
            &USE.to_le_bytes(),
            &[1, 0, 0, 0],
            b"mm",
        ];
        assert_eq!(made.to_file(), file.concat());
    }

    #[test]
    fn limits() {
        let wrapped = |count| (0..count).fold(Type::U8, |tree, _| Type::borrowed(tree));
        assert!(EncodingBuf::from_type(&wrapped(DEPTH_LIMIT - 1)).is_ok());
        assert_eq!(
            EncodingBuf::from_type(&wrapped(DEPTH_LIMIT)),
            Err(Refusal::TooDeep)
        );
        let tuple = |count| Type::Tuple(vec![Type::U8; count]);
        assert!(EncodingBuf::from_type(&tuple(WORD_LIMIT - 2)).is_ok());
        assert_eq!(
            EncodingBuf::from_type(&tuple(WORD_LIMIT - 1)),
            Err(Refusal::Overlong)
        );
        let names = |count: usize| Path {
            root: Root::Global,
            names: (0..count).map(|i| format!("n{i}").into()).collect(),
        };
        assert!(EncodingBuf::from_path(&names(PAIR_LIMIT)).is_ok());
        assert_eq!(
            EncodingBuf::from_path(&names(PAIR_LIMIT + 1)),
            Err(Refusal::Overlong)
        );
        let named = |length| Declaration::from(Struct::new(vec![b'n'; length]));
        assert!(EncodingBuf::from_declaration(&named(TEXT_LIMIT)).is_ok());
        assert_eq!(
            EncodingBuf::from_declaration(&named(TEXT_LIMIT + 1)),
            Err(Refusal::Overlong)
        );
    }
}
