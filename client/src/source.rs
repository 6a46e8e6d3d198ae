//! A readable text form of declarations, for writing them by hand.
//!
//! ```text
//! // One declaration a file; a line that begins with // is a comment.
//! struct Gauge
//!     doc "Offset in mm."
//!     field pub mm: i32
//!     field id: &u8
//! ```
//!
//! The first line says what is declared: `struct NAME`, `enum NAME`, `type NAME`, `use PATH` or
//! `pub use PATH`. Each further line adds one thing; the indent is free.
//!
//! | line | adds |
//! |---|---|
//! | `doc "TEXT"` | a line of the doc; several are joined by newlines |
//! | `attribute NAME(NAME, NAME)` | an attribute, with or without arguments |
//! | `parameter NAME: TYPE, TYPE` | a type parameter, with or without constraints |
//! | `field pub NAME: TYPE` | a named field, with or without `pub` |
//! | `nameless pub TYPE` | a field without a name; `nameless` alone says that there are none |
//! | `case NAME` | a case of an enum; the docs and fields after it are its own |
//! | `is TYPE` | what a `type` stands for |
//!
//! A name is a word of ASCII letters, digits and `_`, or any bytes as a string, as in `"a-b"`. In
//! strings `\n`, `\r`, `\t`, `\"`, `\\` and `\x1F` (two hexadecimal digits) stand for one byte.
//!
//! Types are written as they print, with the additions that it takes to write them all:
//!
//! | form | type |
//! |---|---|
//! | `u8` .. `u128`, `i8` .. `i128`, `usize`, `bool` | the plain types |
//! | `Gauge`, `"u8"` | a name; as a string it is never a plain type, `crate` or `Self` |
//! | `::std::rc::Rc`, `crate::nmea::Fix`, `Self` | a path; `::` alone is the path of no names |
//! | `Gauge<u8, bool>`, `Gauge<>` | an application; `<>` has no arguments and prints nothing |
//! | `&TYPE`, `&mut TYPE`, `impl TYPE`, `dyn TYPE` | |
//! | `()`, `(u8)`, `(u8, bool)` | tuples |
//! | `fn(u8, bool) -> u16` | prints as `::std::ops::Fn(u8, bool) -> u16` |
//! | `A + B` | an intersection; `A + B + C` is `A + {B + C}` |
//! | `[u8]`, `[u8; 16]`, `[u8; ""]` | arrays |
//! | `synonym {DISPLAY = BASE}` | a synonym |
//! | `meta {TYPE}`, `meta copy overflow {TYPE}` | metadata with its flags |
//! | `{TYPE}` | the type itself: braces group, as in `&{A + B}` |

use std::fmt;

use crate::tree::{
    Attribute, Declaration, Enum, EnumCase, Field, Fields, Name, NamelessField, Path, Root, Struct,
    Type, TypeParameter, TypeSynonym, Use, Visibility,
};

/// What is wrong with a source, and where.
#[derive(Clone, Debug, PartialEq, Eq)]
pub struct SourceError {
    /// The line, counted from 1.
    pub line: usize,
    /// What is wrong there.
    pub message: String,
}

impl fmt::Display for SourceError {
    fn fmt(&self, f: &mut fmt::Formatter<'_>) -> fmt::Result {
        write!(f, "line {}: {}", self.line, self.message)
    }
}

impl std::error::Error for SourceError {}

/// Reads a declaration.
///
/// ```
/// use tillercoral::words::{fields::NAMED, head::STRUCT, kind::I32, pair, visibility::PUB};
/// use tillercoral::{source, EncodingBuf};
///
/// let declaration = source::parse("struct Gauge\n  doc \"Offset in mm.\"\n  field pub mm: i32")?;
/// let encoding = EncodingBuf::from_declaration(&declaration)?;
/// let front = [STRUCT, pair(1), 0, pair(0), 0, NAMED, 1];
/// assert_eq!(encoding.words, [&front[..], &[PUB, pair(2), I32]].concat());
///
/// let error = source::parse("struct Gauge\n  field pub mm i32").unwrap_err();
/// assert_eq!(error.to_string(), "line 2: expected `:`, found `i32`");
/// # Ok::<(), Box<dyn std::error::Error>>(())
/// ```
pub fn parse(source: &str) -> Result<Declaration, SourceError> {
    let mut lines = source
        .lines()
        .enumerate()
        .map(|(index, text)| (index + 1, text.trim()))
        .filter(|(_, text)| !text.is_empty() && !text.starts_with("//"));
    let Some((number, text)) = lines.next() else {
        return Err(SourceError {
            line: 1,
            message: "there is no declaration".into(),
        });
    };
    let mut parts = with_line(number, || Line::new(text)?.head())?;
    for (number, text) in lines {
        with_line(number, || parts.add(Line::new(text)?))?;
    }
    let last = source.lines().count();
    with_line(last, || parts.finish())
}

/// What a line's reader says is wrong.
type Fault = String;

fn with_line<T>(line: usize, read: impl FnOnce() -> Result<T, Fault>) -> Result<T, SourceError> {
    read().map_err(|message| SourceError { line, message })
}

/// A declaration in the making.
struct Parts {
    head: Head,
    doc: Option<Name>,
    attributes: Vec<Attribute>,
    parameters: Vec<TypeParameter>,
    fields: Option<Fields>,
    cases: Vec<CaseParts>,
    target: Option<Type>,
}

enum Head {
    Struct(Name),
    Enum(Name),
    TypeSynonym(Name),
    Use(Use),
}

struct CaseParts {
    name: Name,
    doc: Option<Name>,
    fields: Option<Fields>,
}

impl Parts {
    fn new(head: Head) -> Parts {
        Parts {
            head,
            doc: None,
            attributes: Vec::new(),
            parameters: Vec::new(),
            fields: None,
            cases: Vec::new(),
            target: None,
        }
    }

    fn add(&mut self, mut line: Line) -> Result<(), Fault> {
        let word = line.word("the kind of line")?;
        if matches!(self.head, Head::Use(_)) {
            return Err(format!("nothing follows a use, but here is `{word}`"));
        }
        let in_enum = matches!(self.head, Head::Enum(_));
        match word.as_str() {
            "doc" => add_doc(self.current_doc(), line.string()?),
            "attribute" | "parameter" if !self.cases.is_empty() => {
                return Err(format!(
                    "a case has no {word}s; those of the enum stand before its first case"
                ));
            }
            "attribute" => self.attributes.push(line.attribute()?),
            "parameter" => self.parameters.push(line.parameter()?),
            "field" | "nameless" => {
                let fields = match &self.head {
                    Head::Struct(_) => &mut self.fields,
                    Head::Enum(_) => match self.cases.last_mut() {
                        Some(case) => &mut case.fields,
                        None => return Err("a field of an enum needs a case before it".into()),
                    },
                    _ => return Err("a type has no fields".into()),
                };
                if word == "field" {
                    add_field(fields, line.field()?)?;
                } else {
                    add_nameless_field(fields, line.nameless_field()?)?;
                }
            }
            "case" if in_enum => {
                let name = line.name()?;
                self.cases.push(CaseParts {
                    name,
                    doc: None,
                    fields: None,
                });
            }
            "case" => return Err("only an enum has cases".into()),
            "is" if !matches!(self.head, Head::TypeSynonym(_)) => {
                return Err("only a type has an `is` line".into());
            }
            "is" if self.target.is_some() => return Err("a second `is` line".into()),
            "is" => self.target = Some(line.whole_type()?),
            _ => {
                return Err(format!(
                "expected doc, attribute, parameter, field, nameless, case or is, found `{word}`"
            ))
            }
        }
        line.end()
    }

    fn current_doc(&mut self) -> &mut Option<Name> {
        match self.cases.last_mut() {
            Some(case) => &mut case.doc,
            None => &mut self.doc,
        }
    }

    fn finish(self) -> Result<Declaration, Fault> {
        let doc = self.doc.unwrap_or_default();
        let (attributes, parameters) = (self.attributes, self.parameters);
        Ok(match self.head {
            Head::Struct(name) => Declaration::Struct(Struct {
                doc,
                attributes,
                name,
                parameters,
                fields: or_no_fields(self.fields),
            }),
            Head::Enum(name) => Declaration::Enum(Enum {
                doc,
                attributes,
                name,
                parameters,
                cases: self
                    .cases
                    .into_iter()
                    .map(|case| EnumCase {
                        doc: case.doc.unwrap_or_default(),
                        name: case.name,
                        fields: or_no_fields(case.fields),
                    })
                    .collect(),
            }),
            Head::TypeSynonym(name) => Declaration::TypeSynonym(TypeSynonym {
                doc,
                attributes,
                name,
                parameters,
                target: self
                    .target
                    .ok_or("the type ends without an `is` line saying what it is")?,
            }),
            Head::Use(tree) => Declaration::Use(tree),
        })
    }
}

fn or_no_fields(fields: Option<Fields>) -> Fields {
    fields.unwrap_or(Fields::Named(Vec::new()))
}

fn add_doc(doc: &mut Option<Name>, line: Name) {
    match doc {
        None => *doc = Some(line),
        Some(doc) => *doc = Name::from([doc, &b"\n"[..], &line].concat()),
    }
}

const MIXED: &str = "fields are either all named or all nameless";

fn add_field(fields: &mut Option<Fields>, field: Field) -> Result<(), Fault> {
    match fields.get_or_insert(Fields::Named(Vec::new())) {
        Fields::Named(fields) => fields.push(field),
        Fields::Nameless(_) => return Err(MIXED.into()),
    }
    Ok(())
}

fn add_nameless_field(
    fields: &mut Option<Fields>,
    field: Option<NamelessField>,
) -> Result<(), Fault> {
    match fields.get_or_insert(Fields::Nameless(Vec::new())) {
        Fields::Nameless(fields) => fields.extend(field),
        Fields::Named(_) => return Err(MIXED.into()),
    }
    Ok(())
}

#[derive(Clone, Debug, PartialEq, Eq)]
enum Token {
    /// Letters, digits and `_`.
    Word(String),
    /// The bytes between quotes.
    String(Name),
    /// `::`, `->` or one other character.
    Mark(&'static str),
}

impl fmt::Display for Token {
    fn fmt(&self, f: &mut fmt::Formatter<'_>) -> fmt::Result {
        match self {
            Token::Word(word) => write!(f, "`{word}`"),
            Token::String(_) => write!(f, "a string"),
            Token::Mark(mark) => write!(f, "`{mark}`"),
        }
    }
}

/// The longer ones first, since a shorter one may begin them.
const MARKS: [&str; 17] = [
    "::", "->", ":", ",", ";", "=", "+", "&", "<", ">", "(", ")", "[", "]", "{", "}", "-",
];

/// Types nested deeper than this are not even read. It is more than any encoding takes, and far
/// less than the stack does.
const NESTING_LIMIT: usize = 256;

/// What is left of a line.
struct Line {
    tokens: std::iter::Peekable<std::vec::IntoIter<Token>>,
    nesting: usize,
}

impl Line {
    fn new(text: &str) -> Result<Line, Fault> {
        Ok(Line {
            tokens: tokens(text)?.into_iter().peekable(),
            nesting: 0,
        })
    }

    fn found(&mut self) -> String {
        match self.tokens.peek() {
            Some(token) => token.to_string(),
            None => "the end of the line".into(),
        }
    }

    fn expected<T>(&mut self, what: &str) -> Result<T, Fault> {
        Err(format!("expected {what}, found {}", self.found()))
    }

    /// Takes this mark if it comes next.
    fn takes(&mut self, mark: &str) -> bool {
        self.tokens
            .next_if(|token| matches!(token, Token::Mark(found) if *found == mark))
            .is_some()
    }

    /// Takes this word if it comes next.
    fn takes_word(&mut self, word: &str) -> bool {
        self.tokens
            .next_if(|token| matches!(token, Token::Word(found) if found == word))
            .is_some()
    }

    fn mark(&mut self, mark: &str) -> Result<(), Fault> {
        if self.takes(mark) {
            Ok(())
        } else {
            self.expected(&format!("`{mark}`"))
        }
    }

    fn end(&mut self) -> Result<(), Fault> {
        match self.tokens.peek() {
            None => Ok(()),
            Some(_) => self.expected("the end of the line"),
        }
    }

    fn word(&mut self, what: &str) -> Result<String, Fault> {
        match self.tokens.next_if(|token| matches!(token, Token::Word(_))) {
            Some(Token::Word(word)) => Ok(word),
            _ => self.expected(what),
        }
    }

    fn string(&mut self) -> Result<Name, Fault> {
        match self
            .tokens
            .next_if(|token| matches!(token, Token::String(_)))
        {
            Some(Token::String(bytes)) => Ok(bytes),
            _ => self.expected("a string"),
        }
    }

    fn takes_name(&mut self) -> Option<Name> {
        match self
            .tokens
            .next_if(|token| !matches!(token, Token::Mark(_)))?
        {
            Token::Word(word) => Some(word.into()),
            Token::String(bytes) => Some(bytes),
            Token::Mark(_) => None,
        }
    }

    fn name(&mut self) -> Result<Name, Fault> {
        match self.takes_name() {
            Some(name) => Ok(name),
            None => self.expected("a name"),
        }
    }

    fn head(mut self) -> Result<Parts, Fault> {
        let visibility = self.visibility();
        let word = self.word("struct, enum, type or use")?;
        if visibility == Visibility::Pub && word != "use" {
            return Err(format!("a {word} is always pub, which is not written"));
        }
        let head = match word.as_str() {
            "struct" => Head::Struct(self.name()?),
            "enum" => Head::Enum(self.name()?),
            "type" => Head::TypeSynonym(self.name()?),
            "use" => Head::Use(Use {
                visibility,
                path: self.path()?,
            }),
            _ => {
                return Err(format!(
                    "expected struct, enum, type or use, found `{word}`"
                ))
            }
        };
        self.end()?;
        Ok(Parts::new(head))
    }

    fn visibility(&mut self) -> Visibility {
        if self.takes_word("pub") {
            Visibility::Pub
        } else {
            Visibility::Priv
        }
    }

    /// Items and commas up to the closing mark.
    fn list<T>(
        &mut self,
        close: &str,
        mut item: impl FnMut(&mut Line) -> Result<T, Fault>,
    ) -> Result<Vec<T>, Fault> {
        let mut items = Vec::new();
        if self.takes(close) {
            return Ok(items);
        }
        loop {
            items.push(item(self)?);
            if self.takes(close) {
                return Ok(items);
            }
            if !self.takes(",") {
                return self.expected(&format!("`,` or `{close}`"));
            }
        }
    }

    fn attribute(&mut self) -> Result<Attribute, Fault> {
        let name = self.name()?;
        let arguments = if self.takes("(") {
            self.list(")", Line::name)?
        } else {
            Vec::new()
        };
        Ok(Attribute { name, arguments })
    }

    fn parameter(&mut self) -> Result<TypeParameter, Fault> {
        let name = self.name()?;
        let mut constraints = Vec::new();
        if self.takes(":") {
            constraints.push(self.whole_type()?);
            while self.takes(",") {
                constraints.push(self.whole_type()?);
            }
        }
        Ok(TypeParameter { name, constraints })
    }

    fn field(&mut self) -> Result<Field, Fault> {
        let visibility = self.visibility();
        let name = self.name()?;
        self.mark(":")?;
        Ok(Field {
            visibility,
            name,
            field_type: self.whole_type()?,
        })
    }

    fn nameless_field(&mut self) -> Result<Option<NamelessField>, Fault> {
        if self.tokens.peek().is_none() {
            return Ok(None);
        }
        Ok(Some(NamelessField {
            visibility: self.visibility(),
            field_type: self.whole_type()?,
        }))
    }

    fn path(&mut self) -> Result<Path, Fault> {
        if self.takes_word("crate") {
            self.path_after(Root::Crate)
        } else if self.takes_word("Self") {
            self.path_after(Root::SelfType)
        } else if self.tokens.peek() == Some(&Token::Mark("::")) {
            self.path_after(Root::Global)
        } else {
            self.expected("a path that begins with `::`, `crate` or `Self`")
        }
    }

    fn path_after(&mut self, root: Root) -> Result<Path, Fault> {
        let mut names = Vec::new();
        while self.takes("::") {
            match self.takes_name() {
                Some(name) => names.push(name),
                // `::` alone is how to write the path that prints nothing.
                None if root == Root::Global && names.is_empty() => break,
                None => return self.expected("a name"),
            }
        }
        Ok(Path { root, names })
    }

    /// A type, intersections included.
    fn whole_type(&mut self) -> Result<Type, Fault> {
        self.nested(|line| {
            let left = line.single_type()?;
            if !line.takes("+") {
                return Ok(left);
            }
            Ok(Type::Intersection {
                left: Box::new(left),
                right: Box::new(line.whole_type()?),
            })
        })
    }

    /// One step deeper. An application of an application is one too, although it is read by a loop;
    /// it counts to the end of the line.
    fn nest(&mut self) -> Result<(), Fault> {
        if self.nesting == NESTING_LIMIT {
            return Err("types are nested too deeply".into());
        }
        self.nesting += 1;
        Ok(())
    }

    /// Reads something that may hold more of its kind.
    fn nested<T>(&mut self, read: impl FnOnce(&mut Line) -> Result<T, Fault>) -> Result<T, Fault> {
        self.nest()?;
        let read = read(self);
        self.nesting -= 1;
        read
    }

    fn boxed_single(&mut self) -> Result<Box<Type>, Fault> {
        self.nested(Line::single_type).map(Box::new)
    }

    /// A type without a `+` of its own.
    fn single_type(&mut self) -> Result<Type, Fault> {
        if self.takes("&") {
            return Ok(if self.takes_word("mut") {
                Type::BorrowedMut(self.boxed_single()?)
            } else {
                Type::Borrowed(self.boxed_single()?)
            });
        }
        if self.takes_word("impl") {
            return Ok(Type::Impl(self.boxed_single()?));
        }
        if self.takes_word("dyn") {
            return Ok(Type::Dyn(self.boxed_single()?));
        }
        if self.takes_word("fn") {
            self.mark("(")?;
            let arguments = self.list(")", Line::whole_type)?;
            self.mark("->")?;
            return Ok(Type::Fn {
                arguments,
                result: self.boxed_single()?,
            });
        }
        let mut of = self.type_without_arguments()?;
        while self.takes("<") {
            if matches!(of, Type::App { .. }) {
                self.nest()?;
            }
            of = Type::App {
                base: Box::new(of),
                arguments: self.list(">", Line::whole_type)?,
            };
        }
        Ok(of)
    }

    fn type_without_arguments(&mut self) -> Result<Type, Fault> {
        if self.takes("(") {
            return Ok(Type::Tuple(self.list(")", Line::whole_type)?));
        }
        if self.takes("{") {
            let of = self.whole_type()?;
            self.mark("}")?;
            return Ok(of);
        }
        if self.takes("[") {
            let element = Box::new(self.whole_type()?);
            let size = if self.takes(";") {
                Some(self.name()?)
            } else {
                None
            };
            self.mark("]")?;
            return Ok(Type::Array { element, size });
        }
        match self.tokens.peek().cloned() {
            Some(Token::Mark("::")) => Ok(Type::FromPath(self.path()?)),
            Some(Token::String(bytes)) => {
                self.tokens.next();
                Ok(Type::Identifier(bytes))
            }
            Some(Token::Word(word)) => match word.as_str() {
                "crate" | "Self" => Ok(Type::FromPath(self.path()?)),
                "mut" => self.expected("a type"),
                _ => {
                    self.tokens.next();
                    self.type_of_word(word)
                }
            },
            _ => self.expected("a type"),
        }
    }

    /// The type that a word begins, the word itself being taken already.
    fn type_of_word(&mut self, word: String) -> Result<Type, Fault> {
        let plain = match word.as_str() {
            "u8" => Some(Type::U8),
            "u16" => Some(Type::U16),
            "u32" => Some(Type::U32),
            "u64" => Some(Type::U64),
            "u128" => Some(Type::U128),
            "i8" => Some(Type::I8),
            "i16" => Some(Type::I16),
            "i32" => Some(Type::I32),
            "i64" => Some(Type::I64),
            "i128" => Some(Type::I128),
            "usize" => Some(Type::Usize),
            "bool" => Some(Type::Bool),
            _ => None,
        };
        if let Some(plain) = plain {
            return Ok(plain);
        }
        // No type goes on with a brace or a word, so `synonym` and `meta` may be names as well.
        let goes_on = matches!(self.tokens.peek(), Some(Token::Mark("{") | Token::Word(_)));
        match word.as_str() {
            "synonym" if goes_on => {
                self.mark("{")?;
                let display = Box::new(self.whole_type()?);
                self.mark("=")?;
                let base = Box::new(self.whole_type()?);
                self.mark("}")?;
                Ok(Type::Synonym { display, base })
            }
            "meta" if goes_on => {
                let copy_semantics = self.takes_word("copy");
                let overflow = self.takes_word("overflow");
                self.mark("{")?;
                let display = Box::new(self.whole_type()?);
                self.mark("}")?;
                Ok(Type::MetaData {
                    display,
                    copy_semantics,
                    overflow,
                })
            }
            _ => Ok(Type::Identifier(word.into())),
        }
    }
}

fn tokens(text: &str) -> Result<Vec<Token>, Fault> {
    let mut tokens = Vec::new();
    let mut rest = text.trim_start();
    while let Some(first) = rest.chars().next() {
        let is_word = |c: char| c.is_ascii_alphanumeric() || c == '_';
        if is_word(first) {
            let end = rest.find(|c| !is_word(c)).unwrap_or(rest.len());
            tokens.push(Token::Word(rest[..end].into()));
            rest = &rest[end..];
        } else if first == '"' {
            let (bytes, after) = string(&rest[1..])?;
            tokens.push(Token::String(bytes));
            rest = after;
        } else if let Some(mark) = MARKS.into_iter().find(|mark| rest.starts_with(mark)) {
            tokens.push(Token::Mark(mark));
            rest = &rest[mark.len()..];
        } else {
            return Err(format!("`{first}` means nothing here"));
        }
        rest = rest.trim_start();
    }
    Ok(tokens)
}

/// The bytes of a string whose opening quote has been taken, and what follows its closing one.
fn string(text: &str) -> Result<(Name, &str), Fault> {
    let mut bytes = Vec::new();
    let mut rest = text;
    loop {
        let end = rest
            .find(['"', '\\'])
            .ok_or("the string has no closing quote")?;
        bytes.extend(&rest.as_bytes()[..end]);
        let after = &rest[end + 1..];
        if rest.as_bytes()[end] == b'"' {
            return Ok((bytes.into(), after));
        }
        let (byte, length) = match after.as_bytes().first() {
            Some(b'n') => (b'\n', 1),
            Some(b'r') => (b'\r', 1),
            Some(b't') => (b'\t', 1),
            Some(b'"') => (b'"', 1),
            Some(b'\\') => (b'\\', 1),
            Some(b'x') => {
                let digits = after.get(1..3).unwrap_or("");
                let all_digits = digits.bytes().all(|byte| byte.is_ascii_hexdigit());
                match u8::from_str_radix(digits, 16) {
                    Ok(byte) if all_digits => (byte, 3),
                    _ => return Err("`\\x` needs two hexadecimal digits after it".into()),
                }
            }
            _ => return Err("after `\\` comes n, r, t, x, `\"` or `\\`".into()),
        };
        bytes.push(byte);
        rest = &after[length..];
    }
}

#[cfg(test)]
mod tests {
    use super::*;
    use crate::words::{fields::*, head::*, kind::*, name::*, pair, root::*, visibility::*};
    use crate::EncodingBuf;

    fn words_of_type(source: &str) -> Result<Vec<u32>, String> {
        let declaration = parse(&format!("type A\nis {source}")).map_err(|it| it.to_string())?;
        let Declaration::TypeSynonym(TypeSynonym { target, .. }) = declaration else {
            unreachable!("a type was written");
        };
        Ok(EncodingBuf::from_type(&target).unwrap().words)
    }

    fn words(source: &str) -> Vec<u32> {
        let declaration = parse(source).unwrap();
        EncodingBuf::from_declaration(&declaration).unwrap().words
    }

    fn error(source: &str) -> String {
        parse(source).unwrap_err().to_string()
    }

    #[test]
    fn every_type_can_be_written() {
        for (source, words) in [
            ("u8", &[0][..]),
            ("u16", &[1]),
            ("u32", &[2]),
            ("u64", &[3]),
            ("u128", &[4]),
            ("i8", &[5]),
            ("i16", &[6]),
            ("i32", &[7]),
            ("i64", &[8]),
            ("i128", &[9]),
            ("usize", &[10]),
            ("bool", &[11]),
            ("Gauge", &[12, 16]),
            ("_", &[12, 14]),
            ("\"u8\"", &[12, 16]),
            ("\"\"", &[12, 0]),
            ("\"Self\"", &[12, 16]),
            ("::", &[13, 0, 0]),
            ("::std::rc::Rc", &[13, 0, 3, 1, 2, 3]),
            ("crate", &[13, 1, 0]),
            ("crate::nmea::\"\"", &[13, 1, 2, 16, 0]),
            ("Self", &[13, 2, 0]),
            ("Self::Fix", &[13, 2, 1, 16]),
            ("Gauge<u8, bool>", &[14, 2, 12, 16, 0, 11]),
            ("Gauge<>", &[14, 0, 12, 16]),
            ("Gauge<u8><u16>", &[14, 1, 14, 1, 12, 16, 0, 1]),
            ("::<u8>", &[14, 1, 13, 0, 0, 0]),
            ("u8<u16>", &[14, 1, 0, 1]),
            ("{&u8}<u16>", &[14, 1, 15, 0, 1]),
            ("&u8", &[15, 0]),
            ("&&mut u8", &[15, 16, 0]),
            ("&\"mut\"", &[15, 12, 16]),
            ("&mut Gauge<u8>", &[16, 14, 1, 12, 16, 0]),
            ("impl Gauge", &[17, 12, 16]),
            ("dyn ::std::rc", &[18, 13, 0, 2, 1, 2]),
            ("()", &[19, 0]),
            ("(u8)", &[19, 1, 0]),
            ("(u8, (u16, u32))", &[19, 2, 0, 19, 2, 1, 2]),
            ("fn() -> u8", &[20, 0, 0]),
            ("fn(u8 + u16, u32) -> &u8", &[20, 2, 21, 0, 1, 2, 15, 0]),
            ("fn() -> u8 + u16", &[21, 20, 0, 0, 1]),
            ("fn() -> {u8 + u16}", &[20, 0, 21, 0, 1]),
            ("u8 + u16 + u32", &[21, 0, 21, 1, 2]),
            ("{u8 + u16} + u32", &[21, 21, 0, 1, 2]),
            ("&u8 + bool", &[21, 15, 0, 11]),
            ("&{u8 + bool}", &[15, 21, 0, 11]),
            ("[u8]", &[22, 0, 0]),
            ("[u8; \"\"]", &[22, 1, 0]),
            // a size has its number before the names of its element
            ("[[u8; 16]; CHANNELS]", &[22, 17, 22, 18, 0]),
            ("[u8 + u16; _]", &[22, 15, 21, 0, 1]),
            ("synonym {u8 = bool}", &[23, 0, 11]),
            ("synonym{u8 + u16 = meta{u32}}", &[23, 21, 0, 1, 24, 0, 2]),
            ("meta {u8}", &[24, 0, 0]),
            ("meta copy {u8}", &[24, 1, 0]),
            ("meta overflow {u8}", &[24, 2, 0]),
            ("meta copy overflow {u8}", &[24, 3, 0]),
            ("(synonym, meta, copy)", &[19, 3, 12, 16, 12, 17, 12, 18]),
        ] {
            assert_eq!(words_of_type(source).unwrap(), words, "{source}");
        }
    }

    #[test]
    fn every_declaration_can_be_written() {
        const A: u32 = pair(0);
        for (source, wanted) in [
            ("struct A", &[STRUCT, EMPTY, 0, A, 0, NAMED, 0][..]),
            ("struct A\nnameless", &[STRUCT, EMPTY, 0, A, 0, NAMELESS, 0]),
            ("struct A\nnameless u8\nnameless pub u16", &[STRUCT, EMPTY, 0, A, 0, NAMELESS, 2, PRIV, U8, PUB, U16]),
            ("struct A\nfield A: u8\nfield pub self: Self", &[STRUCT, EMPTY, 0, A, 0, NAMED, 2, PRIV, A, U8, PUB, SELF, FROM_PATH, SELF_TYPE, 0]),
            ("struct A\nfield \"pub\": u8", &[STRUCT, EMPTY, 0, A, 0, NAMED, 1, PRIV, pair(1), U8]),
            ("struct \"\"\ndoc \"self\"", &[STRUCT, SELF, 0, EMPTY, 0, NAMED, 0]),
            ("struct A\nattribute A\nattribute A()\nattribute std(rc, Rc)", &[STRUCT, EMPTY, 3, A, 0, A, 0, STD, 2, RC_MODULE, RC, A, 0, NAMED, 0]),
            ("struct A\nparameter A\nparameter std: u8, u16 + u32", &[STRUCT, EMPTY, 0, A, 2, A, 0, STD, 2, U8, INTERSECTION, U16, U32, NAMED, 0]),
            ("enum A", &[ENUM, EMPTY, 0, A, 0, 0]),
            ("enum A\ncase A\ndoc \"self\"\ncase std\nnameless u8\ncase rc\nnameless\ncase Rc\nfield A: u8", &[ENUM, EMPTY, 0, A, 0, 4, SELF, A, NAMED, 0, EMPTY, STD, NAMELESS, 1, PRIV, U8, EMPTY, RC_MODULE, NAMELESS, 0, EMPTY, RC, NAMED, 1, PRIV, A, U8]),
            ("type A\nis u8", &[TYPE, EMPTY, 0, A, 0, U8]),
            ("use ::", &[USE, PRIV, GLOBAL, 0]),
            ("pub use ::std::rc::Rc", &[USE, PUB, GLOBAL, 3, STD, RC_MODULE, RC]),
            ("// first\n\n  use crate::std\n// last\n", &[USE, PRIV, CRATE, 1, STD]),
        ] {
            assert_eq!(words(source), wanted, "{source}");
        }
    }

    #[test]
    fn docs_are_joined() {
        let doc = |source| match parse(source).unwrap() {
            Declaration::Struct(it) => it.doc,
            other => panic!("{other:?}"),
        };
        assert_eq!(doc("struct A"), "");
        assert_eq!(doc("struct A\ndoc \"\""), "");
        assert_eq!(doc("struct A\ndoc \"\"\ndoc \"\""), "\n");
        assert_eq!(
            doc(r#"struct A
                doc "a // b"
                doc "\"\\\t\x00\xfF""#),
            *b"a // b\n\"\\\t\0\xFF"
        );
    }

    #[test]
    fn errors_say_the_line() {
        let deep = |begin: &str| format!("type A\nis {}", begin.repeat(100_000));
        for (source, message) in [
            ("", "line 1: there is no declaration"),
            ("// nothing\n", "line 1: there is no declaration"),
            ("impl A", "line 1: expected struct, enum, type or use, found `impl`"),
            ("struct", "line 1: expected a name, found the end of the line"),
            ("pub struct A", "line 1: a struct is always pub, which is not written"),
            ("struct A B", "line 1: expected the end of the line, found `B`"),
            ("use std::rc", "line 1: expected a path that begins with `::`, `crate` or `Self`, found `std`"),
            ("use ::std::", "line 1: expected a name, found the end of the line"),
            ("use ::std\ndoc \"\"", "line 2: nothing follows a use, but here is `doc`"),
            ("struct A\n\nfield mm i32", "line 3: expected `:`, found `i32`"),
            ("struct A\nfield mm: ", "line 2: expected a type, found the end of the line"),
            ("struct A\nfield mm: mut", "line 2: expected a type, found `mut`"),
            ("struct A\nfield mm: (u8; u8)", "line 2: expected `,` or `)`, found `;`"),
            ("struct A\nfield mm: [u8; ]", "line 2: expected a name, found `]`"),
            ("struct A\nfield mm: fn(u8)", "line 2: expected `->`, found the end of the line"),
            ("struct A\nfield mm: meta flag {u8}", "line 2: expected `{`, found `flag`"),
            ("struct A\nfield mm: synonym {u8}", "line 2: expected `=`, found `}`"),
            ("struct A\nfield mm: u8\nnameless u8", "line 3: fields are either all named or all nameless"),
            ("struct A\nnameless\nfield mm: u8", "line 3: fields are either all named or all nameless"),
            ("struct A\ncase B", "line 2: only an enum has cases"),
            ("struct A\nis u8", "line 2: only a type has an `is` line"),
            ("struct A\ndoc x", "line 2: expected a string, found `x`"),
            ("struct A\ndoc \"x", "line 2: the string has no closing quote"),
            ("struct A\ndoc \"\\q\"", "line 2: after `\\` comes n, r, t, x, `\"` or `\\`"),
            ("struct A\ndoc \"\\x+1\"", "line 2: `\\x` needs two hexadecimal digits after it"),
            ("struct A\ndoc \"\\x1\"", "line 2: `\\x` needs two hexadecimal digits after it"),
            ("struct A\nfeild mm: u8", "line 2: expected doc, attribute, parameter, field, nameless, case or is, found `feild`"),
            ("struct A\n:", "line 2: expected the kind of line, found `:`"),
            ("struct A\nfield m@: u8", "line 2: `@` means nothing here"),
            ("enum A\nfield mm: u8", "line 2: a field of an enum needs a case before it"),
            ("enum A\ncase B\nattribute C", "line 3: a case has no attributes; those of the enum stand before its first case"),
            ("type A", "line 1: the type ends without an `is` line saying what it is"),
            ("type A\nis u8\nis u8", "line 3: a second `is` line"),
            ("type A\nfield mm: u8", "line 2: a type has no fields"),
            (&deep("&"), "line 2: types are nested too deeply"),
            (&deep("("), "line 2: types are nested too deeply"),
            (&deep("u8 +"), "line 2: types are nested too deeply"),
            (&format!("struct A\nfield mm: A{}", "<>".repeat(100_000)), "line 2: types are nested too deeply"),
        ] {
            assert_eq!(error(source), message, "{source:?}");
        }
    }
}
