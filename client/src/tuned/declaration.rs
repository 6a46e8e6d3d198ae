//! The text of a declaration.

use super::doc::measure_doc;
use super::{
    check_no_rest, check_tables, measure, measure_path, name_length, next, skip_type, Outer, Words,
    Writer, FIXED, NO_TYPES, PLAIN,
};
use crate::words::{fields, head, kind, name, root, visibility, FIRST_PAIR};
use crate::{Encoding, Refusal};

/// The spaces of one level.
const STEP: usize = 4;

/// A newline and more spaces than the deepest level asks for, which is 4 * (16 + 2).
static NEWLINE: [u8; 80] = {
    let mut bytes = [b' '; 80];
    bytes[0] = b'\n';
    bytes
};

pub fn declaration_text(
    encoding: &Encoding<'_>,
    level: u32,
    out: &mut [u8],
) -> Result<usize, Refusal> {
    check_tables(encoding, level)?;
    let Encoding { words, pairs, text } = *encoding;
    let indent = STEP * level as usize;
    let mut measuring = Measuring {
        rest: words.iter(),
        names: Names { pairs, text },
        length: 0,
        outer: NO_TYPES,
    };
    measuring.declaration(indent)?;
    check_no_rest(&measuring.rest)?;
    let length = measuring.length;
    let out = out.get_mut(..length).ok_or(Refusal::BufferTooShort)?;
    let mut writer = Writer {
        words,
        pairs,
        text,
        out,
    };
    writer.put_declaration(indent);
    Ok(length)
}

#[derive(Clone, Copy)]
pub(super) struct Names<'a> {
    pub pairs: &'a [u32],
    pub text: &'a [u8],
}

impl<'a> Names<'a> {
    /// The bytes of a name whose number was checked.
    #[inline]
    pub fn bytes(self, number: u32) -> &'a [u8] {
        if number < FIRST_PAIR {
            let fixed = &FIXED[number as usize];
            return &fixed.bytes[..usize::from(fixed.length)];
        }
        let pair = 2 * (number - FIRST_PAIR) as usize;
        let (offset, length) = (self.pairs[pair] as usize, self.pairs[pair + 1] as usize);
        &self.text[offset..offset + length]
    }

    #[inline]
    fn is_self(self, number: u32) -> bool {
        number == name::SELF || (number >= FIRST_PAIR && self.bytes(number) == b"self")
    }

    #[inline]
    fn is_underscore(self, number: u32) -> bool {
        number == name::UNDERSCORE || (number >= FIRST_PAIR && self.bytes(number) == b"_")
    }
}

/// How a named field is printed.
#[derive(Clone, Copy)]
enum FieldForm {
    /// Name and type.
    Typed,
    /// The name alone.
    NameAlone,
    /// The name after `&`.
    Borrowed,
    /// The name after `&mut `.
    BorrowedMut,
}

/// The form of a field with this name and with the type that the words, checked before, begin with.
#[inline]
fn field_form(name: u32, words: &[u32], names: Names<'_>) -> FieldForm {
    // The heads come first: a look at them is cheaper than one at the name.
    match *words {
        [kind::IDENTIFIER, type_name, ..] if names.is_underscore(type_name) => FieldForm::NameAlone,
        [kind::FROM_PATH, root::SELF_TYPE, 0, ..] if names.is_self(name) => FieldForm::NameAlone,
        [kind::BORROWED, kind::FROM_PATH, root::SELF_TYPE, 0, ..] if names.is_self(name) => {
            FieldForm::Borrowed
        }
        [kind::BORROWED_MUT, kind::FROM_PATH, root::SELF_TYPE, 0, ..] if names.is_self(name) => {
            FieldForm::BorrowedMut
        }
        [kind::SYNONYM | kind::META_DATA, ..] if names.is_self(name) && expands_to_self(words) => {
            FieldForm::NameAlone
        }
        _ => FieldForm::Typed,
    }
}

/// Whether the type, followed through the bases of synonyms and the displays of metadata, is `Self`.
fn expands_to_self(words: &[u32]) -> bool {
    let mut at = 0;
    loop {
        match words[at..] {
            [kind::SYNONYM, ..] => at = skip_type(words, at + 1),
            [kind::META_DATA, ..] => at += 2,
            [kind::FROM_PATH, root::SELF_TYPE, 0, ..] => return true,
            _ => return false,
        }
    }
}

/// Checks the words front to back and adds up the length of what they print.
struct Measuring<'a> {
    rest: Words<'a>,
    names: Names<'a>,
    length: usize,
    outer: Outer,
}

type Checked = Result<(), Refusal>;

impl Measuring<'_> {
    fn next(&mut self) -> Result<u32, Refusal> {
        next(&mut self.rest)
    }

    fn declaration(&mut self, indent: usize) -> Checked {
        match self.next()? {
            head::STRUCT => {
                self.length += "pub struct ".len();
                self.front(indent)?;
                self.fields(indent, ", ".len(), ";".len())
            }
            head::ENUM => {
                self.length += "pub enum ".len();
                self.front(indent)?;
                self.cases(indent)
            }
            head::TYPE => {
                self.length += "pub type ".len() + " = ;".len();
                self.front(indent)?;
                self.type_()
            }
            head::USE => {
                self.length += "use ;".len();
                self.visibility()?;
                self.length += measure_path(&mut self.rest, self.names.pairs)? as usize;
                Ok(())
            }
            _ => Err(Refusal::UnknownWord),
        }
    }

    /// Doc, attributes, name and parameters.
    fn front(&mut self, indent: usize) -> Checked {
        self.doc(indent)?;
        self.attributes(indent)?;
        self.name()?;
        self.parameters()
    }

    #[inline]
    fn name(&mut self) -> Checked {
        let number = self.next()?;
        self.length += name_length(self.names.pairs, number)? as usize;
        Ok(())
    }

    #[inline]
    fn type_(&mut self) -> Checked {
        self.length += self.measure_type()?;
        Ok(())
    }

    #[inline]
    fn measure_type(&mut self) -> Result<usize, Refusal> {
        // Most types are leaves, and need no call.
        match *self.rest.as_slice() {
            [head @ kind::U8..=kind::BOOL, ref rest @ ..] => {
                self.rest = rest.iter();
                Ok(usize::from(PLAIN[head as usize].length))
            }
            [kind::IDENTIFIER, name, ref rest @ ..] => {
                self.rest = rest.iter();
                Ok(name_length(self.names.pairs, name)? as usize)
            }
            _ => measure(&mut self.rest, self.names.pairs, &mut self.outer),
        }
    }

    fn doc(&mut self, indent: usize) -> Checked {
        let number = self.next()?;
        if name_length(self.names.pairs, number)? > 0 {
            self.length += measure_doc(self.names.bytes(number), indent);
        }
        Ok(())
    }

    fn attributes(&mut self, indent: usize) -> Checked {
        for _ in 0..self.next()? {
            self.length += "#[]\n".len() + indent;
            self.name()?;
            let count = self.next()?;
            // Two bytes each: the separators, and once the parentheses.
            for _ in 0..count {
                self.length += 2;
                self.name()?;
            }
        }
        Ok(())
    }

    fn parameters(&mut self) -> Checked {
        // Two bytes each: the separators, and once the angle brackets.
        for _ in 0..self.next()? {
            self.length += 2;
            self.name()?;
            let count = self.next()?;
            for i in 0..count {
                self.length += if i == 0 { ": ".len() } else { " + ".len() };
                self.type_()?;
            }
        }
        Ok(())
    }

    fn cases(&mut self, indent: usize) -> Checked {
        let inner = indent + STEP;
        self.length += " {\n}".len() + indent;
        for i in 0..self.next()? {
            self.length += usize::from(i > 0) + 1 + inner;
            self.doc(inner)?;
            self.name()?;
            self.fields(inner, ",\n".len() + inner + STEP, 0)?;
        }
        Ok(())
    }

    /// `separator` is the length of what stands between nameless fields, and `after` of what stands
    /// after them.
    fn fields(&mut self, indent: usize, separator: usize, after: usize) -> Checked {
        match self.next()? {
            fields::NAMED => {
                let count = self.next()?;
                self.length += " {}".len();
                // A newline before each field and one after the last, and a comma after each but
                // the last: so many of the two together as if each field had both.
                if count > 0 {
                    self.length += indent;
                }
                let each = ",\n".len() + indent + STEP;
                for _ in 0..count {
                    self.length += each;
                    self.named_field()?;
                }
                Ok(())
            }
            fields::NAMELESS => {
                self.length += "()".len() + after;
                for i in 0..self.next()? {
                    if i > 0 {
                        self.length += separator;
                    }
                    self.visibility()?;
                    self.type_()?;
                }
                Ok(())
            }
            _ => Err(Refusal::UnknownWord),
        }
    }

    #[inline]
    fn visibility(&mut self) -> Checked {
        match self.next()? {
            visibility::PUB => self.length += "pub ".len(),
            visibility::PRIV => {}
            _ => return Err(Refusal::UnknownWord),
        }
        Ok(())
    }

    #[inline]
    fn named_field(&mut self) -> Checked {
        self.visibility()?;
        let name = self.next()?;
        self.length += name_length(self.names.pairs, name)? as usize;
        let words = self.rest.as_slice();
        let type_length = self.measure_type()?;
        self.length += match field_form(name, words, self.names) {
            FieldForm::Typed => ": ".len() + type_length,
            FieldForm::NameAlone => 0,
            FieldForm::Borrowed => "&".len(),
            FieldForm::BorrowedMut => "&mut ".len(),
        };
        Ok(())
    }
}

/// Writing, as for types: from word `at` and byte `end` on, giving where each ends.
impl Writer<'_> {
    fn put_declaration(&mut self, indent: usize) {
        match self.words[0] {
            head::STRUCT => {
                let (at, end) = self.put_declaration_front(indent, b"pub struct ");
                self.put_fields(at, end, indent, true);
            }
            head::ENUM => {
                let (at, end) = self.put_declaration_front(indent, b"pub enum ");
                self.put_cases(at, end, indent);
            }
            head::TYPE => {
                let (at, mut end) = self.put_declaration_front(indent, b"pub type ");
                end = self.put(end, b" = ");
                (_, end) = self.put_type(at, end);
                self.put(end, b";");
            }
            _ => {
                let mut end = self.put_visibility(1, 0);
                end = self.put(end, b"use ");
                (_, end) = self.put_path(2, end);
                self.put(end, b";");
            }
        }
    }

    fn put_declaration_front<const N: usize>(
        &mut self,
        indent: usize,
        keywords: &[u8; N],
    ) -> (usize, usize) {
        let mut end = self.put_named_doc(0, self.words[1], indent);
        let mut at;
        (at, end) = self.put_attributes(2, end, indent);
        end = self.put(end, keywords);
        end = self.put_name(end, self.words[at]);
        at += 1;
        self.put_parameters(at, end)
    }

    fn put_named_doc(&mut self, end: usize, number: u32, indent: usize) -> usize {
        let (pairs, text) = (self.pairs, self.text);
        self.put_doc(end, Names { pairs, text }.bytes(number), indent)
    }

    #[inline(always)]
    pub(super) fn put_newline(&mut self, end: usize, indent: usize) -> usize {
        let length = 1 + indent;
        let room = &mut self.out[end..];
        if length <= 16 {
            if let Some(chunk) = room.first_chunk_mut::<16>() {
                *chunk = NEWLINE[..16].try_into().expect("16 bytes");
                return end + length;
            }
        } else if let Some(chunk) = room.first_chunk_mut::<80>() {
            *chunk = NEWLINE;
            return end + length;
        }
        room[..length].copy_from_slice(&NEWLINE[..length]);
        end + length
    }

    fn put_attributes(&mut self, mut at: usize, mut end: usize, indent: usize) -> (usize, usize) {
        let count = self.words[at];
        at += 1;
        for _ in 0..count {
            let (name, arguments) = (self.words[at], self.words[at + 1] as usize);
            at += 2;
            end = self.put(end, b"#[");
            end = self.put_name(end, name);
            if arguments > 0 {
                let words = self.words;
                end = self.put(end, b"(");
                end = self.put_name(end, words[at]);
                for &argument in &words[at + 1..at + arguments] {
                    end = self.put(end, b", ");
                    end = self.put_name(end, argument);
                }
                end = self.put(end, b")");
                at += arguments;
            }
            end = self.put(end, b"]");
            end = self.put_newline(end, indent);
        }
        (at, end)
    }

    fn put_parameters(&mut self, mut at: usize, mut end: usize) -> (usize, usize) {
        let count = self.words[at];
        at += 1;
        if count == 0 {
            return (at, end);
        }
        end = self.put(end, b"<");
        for i in 0..count {
            if i > 0 {
                end = self.put(end, b", ");
            }
            let (name, constraints) = (self.words[at], self.words[at + 1]);
            at += 2;
            end = self.put_name(end, name);
            for j in 0..constraints {
                end = if j == 0 {
                    self.put(end, b": ")
                } else {
                    self.put(end, b" + ")
                };
                (at, end) = self.put_type(at, end);
            }
        }
        (at, self.put(end, b">"))
    }

    fn put_cases(&mut self, mut at: usize, mut end: usize, indent: usize) {
        let inner = indent + STEP;
        let count = self.words[at];
        at += 1;
        end = self.put(end, b" {");
        for i in 0..count {
            if i > 0 {
                end = self.put(end, b",");
            }
            end = self.put_newline(end, inner);
            end = self.put_named_doc(end, self.words[at], inner);
            end = self.put_name(end, self.words[at + 1]);
            (at, end) = self.put_fields(at + 2, end, inner, false);
        }
        end = self.put_newline(end, indent);
        self.put(end, b"}");
    }

    fn put_fields(
        &mut self,
        at: usize,
        mut end: usize,
        indent: usize,
        in_struct: bool,
    ) -> (usize, usize) {
        let (kind, count) = (self.words[at], self.words[at + 1]);
        let mut at = at + 2;
        let inner = indent + STEP;
        if kind == fields::NAMED {
            end = self.put(end, b" {");
            for i in 0..count {
                if i > 0 {
                    end = self.put(end, b",");
                }
                end = self.put_newline(end, inner);
                (at, end) = self.put_field(at, end);
            }
            if count > 0 {
                end = self.put_newline(end, indent);
            }
            return (at, self.put(end, b"}"));
        }
        end = self.put(end, b"(");
        for i in 0..count {
            if i > 0 {
                if in_struct {
                    end = self.put(end, b", ");
                } else {
                    end = self.put(end, b",");
                    end = self.put_newline(end, inner);
                }
            }
            end = self.put_visibility(at, end);
            (at, end) = self.put_item(at + 1, end);
        }
        end = if in_struct {
            self.put(end, b");")
        } else {
            self.put(end, b")")
        };
        (at, end)
    }

    #[inline(always)]
    fn put_visibility(&mut self, at: usize, end: usize) -> usize {
        if self.words[at] == visibility::PUB {
            self.put(end, b"pub ")
        } else {
            end
        }
    }

    #[inline]
    fn put_field(&mut self, at: usize, mut end: usize) -> (usize, usize) {
        let names = Names {
            pairs: self.pairs,
            text: self.text,
        };
        end = self.put_visibility(at, end);
        let (name, type_at) = (self.words[at + 1], at + 2);
        match field_form(name, &self.words[type_at..], names) {
            FieldForm::Typed => {
                end = self.put_name(end, name);
                end = self.put(end, b": ");
                return self.put_item(type_at, end);
            }
            FieldForm::NameAlone => {}
            FieldForm::Borrowed => end = self.put(end, b"&"),
            FieldForm::BorrowedMut => end = self.put(end, b"&mut "),
        }
        end = self.put_name(end, name);
        (skip_type(self.words, type_at), end)
    }
}
