//! Trees and texts as terms, in the form in which the evaluator reads and prints them.

use std::collections::HashMap;
use std::fmt::Write;
use std::ops::Range;

use tillercoral::tree::{
    Attribute, Declaration, EnumCase, Field, Fields, Name, NamelessField, Path, Root, Type,
    TypeParameter, Visibility,
};
use tillercoral::Encoding;

/// What the characters of the source's strings are.
#[derive(Clone, Copy, Debug, PartialEq, Eq)]
pub enum Strings {
    /// Those that the bytes are as UTF-8.
    Characters,
    /// One for each byte, where some name is not UTF-8.
    Bytes,
}

impl Strings {
    /// What they are for the names of an accepted encoding.
    pub fn of(encoding: &Encoding<'_>) -> Strings {
        let is_utf8 = |pair: &[u32]| {
            let (start, length) = (pair[0] as usize, pair[1] as usize);
            str::from_utf8(&encoding.text[start..start + length]).is_ok()
        };
        if encoding.pairs.chunks(2).all(is_utf8) {
            Strings::Characters
        } else {
            Strings::Bytes
        }
    }

    /// The term of a string with these bytes: `$` and a byte for each character or, where that is too
    /// narrow, `%` and UTF-16.
    pub fn term(self, bytes: &[u8]) -> String {
        if self == Strings::Bytes {
            return hex('$', bytes.iter().copied());
        }
        let text = str::from_utf8(bytes).expect("texts of UTF-8 names are UTF-8");
        let narrow: Result<Vec<u8>, _> = text.chars().map(u8::try_from).collect();
        match narrow {
            Ok(narrow) => hex('$', narrow.into_iter()),
            Err(_) => hex('%', text.encode_utf16().flat_map(u16::to_be_bytes)),
        }
    }
}

fn hex(mark: char, bytes: impl Iterator<Item = u8>) -> String {
    const DIGITS: &[u8; 16] = b"0123456789abcdef";
    let digits = bytes.flat_map(|byte| [byte >> 4, byte & 15]);
    let digits = digits.map(|digit| char::from(DIGITS[usize::from(digit)]));
    std::iter::once(mark).chain(digits).collect()
}

/// A tree as a term in which each type has the position of its first word as its tag.
pub struct Tagged {
    pub term: String,
    /// How many words the tree has.
    pub words: usize,
    /// The words of each type, by its tag.
    pub ranges: HashMap<usize, Range<usize>>,
}

/// The term of a type, with tags.
pub fn tagged_type(strings: Strings, tree: &Type) -> Tagged {
    let mut writer = Writer::new(strings, true);
    writer.put_type(tree);
    writer.finish()
}

/// The term of a declaration, with tags. It has one itself, which is of no use here.
pub fn tagged_declaration(strings: Strings, tree: &Declaration) -> Tagged {
    let mut writer = Writer::new(strings, true);
    writer.text.push_str("@0");
    writer.put_declaration(tree);
    writer.finish()
}

/// The term of a type.
pub fn type_term(strings: Strings, tree: &Type) -> String {
    let mut writer = Writer::new(strings, false);
    writer.put_type(tree);
    writer.text
}

/// The term of a declaration.
pub fn declaration_term(strings: Strings, tree: &Declaration) -> String {
    let mut writer = Writer::new(strings, false);
    writer.put_declaration(tree);
    writer.text
}

/// The term of a path.
pub fn path_term(strings: Strings, tree: &Path) -> String {
    let mut writer = Writer::new(strings, false);
    writer.put_path(tree);
    writer.text
}

/// The term of a list of terms.
pub fn list_term(terms: impl IntoIterator<Item = String>) -> String {
    let terms: Vec<String> = terms.into_iter().collect();
    format!("[{}]", terms.join(" "))
}

/// How deep the types of a term are nested.
pub fn type_depth(term: &str) -> usize {
    let (mut open, mut depth, mut deepest) = (Vec::new(), 0, 0);
    for (at, byte) in term.bytes().enumerate() {
        match byte {
            b'(' => {
                let step = usize::from(term[at..].starts_with("(Type."));
                open.push(step);
                depth += step;
                deepest = deepest.max(depth);
            }
            b')' => depth -= open.pop().expect("parentheses match"),
            _ => {}
        }
    }
    deepest
}

/// Writes a term, and counts the words that the tree has in an encoding.
struct Writer {
    strings: Strings,
    tagged: bool,
    text: String,
    words: usize,
    ranges: HashMap<usize, Range<usize>>,
}

impl Writer {
    fn new(strings: Strings, tagged: bool) -> Writer {
        Writer {
            strings,
            tagged,
            text: String::new(),
            words: 0,
            ranges: HashMap::new(),
        }
    }

    fn finish(self) -> Tagged {
        Tagged {
            term: self.text,
            words: self.words,
            ranges: self.ranges,
        }
    }

    /// A value of a datatype: its constructor, and its fields as `put` writes them.
    fn value(&mut self, constructor: &str, put: impl FnOnce(&mut Writer)) {
        self.text.push('(');
        self.text.push_str(constructor);
        put(self);
        self.text.push(')');
    }

    fn field(&mut self, name: &str, put: impl FnOnce(&mut Writer)) {
        self.text.push(' ');
        self.text.push_str(name);
        self.text.push('=');
        put(self);
    }

    fn string_field(&mut self, name: &str, bytes: &[u8]) {
        let term = self.strings.term(bytes);
        self.field(name, |writer| writer.text.push_str(&term));
    }

    fn flag_field(&mut self, name: &str, flag: bool) {
        self.field(name, |writer| {
            writer.text.push(if flag { 'T' } else { 'F' })
        });
    }

    fn type_field(&mut self, name: &str, tree: &Type) {
        self.field(name, |writer| writer.put_type(tree));
    }

    fn list_field<T>(&mut self, name: &str, items: &[T], put: impl Fn(&mut Writer, &T)) {
        self.field(name, |writer| {
            writer.text.push('[');
            for (index, item) in items.iter().enumerate() {
                if index > 0 {
                    writer.text.push(' ');
                }
                put(writer, item);
            }
            writer.text.push(']');
        });
    }

    fn strings_field(&mut self, name: &str, names: &[Name]) {
        self.list_field(name, names, |writer, name| {
            let term = writer.strings.term(name);
            writer.text.push_str(&term);
        });
    }
}

/// Types and paths.
impl Writer {
    /// The names hang on the root from left to right, so the last one is the outermost.
    fn put_path(&mut self, path: &Path) {
        for _ in &path.names {
            self.text.push_str("(Path.PMemberSelect base=");
        }
        self.text.push_str(match path.root {
            Root::Global => "(Path.Global)",
            Root::Crate => "(Path.Crate)",
            Root::SelfType => "(Path.Self)",
        });
        for name in &path.names {
            self.string_field("name", name);
            self.text.push(')');
        }
    }

    fn put_type(&mut self, tree: &Type) {
        let start = self.words;
        self.words += own_words(tree);
        if self.tagged {
            write!(self.text, "@{start}").expect("strings take all");
        }
        let constructor = format!("Type.{}", constructor(tree));
        self.value(&constructor, |writer| writer.put_type_fields(tree));
        self.ranges.insert(start, start..self.words);
    }

    fn put_type_fields(&mut self, tree: &Type) {
        match tree {
            Type::Identifier(name) => self.string_field("name", name),
            Type::FromPath(path) => self.field("path", |writer| writer.put_path(path)),
            Type::App { base, arguments } => {
                self.type_field("baseName", base);
                self.list_field("arguments", arguments, Writer::put_type);
            }
            Type::Borrowed(of) | Type::BorrowedMut(of) | Type::Impl(of) | Type::Dyn(of) => {
                self.type_field("underlying", of);
            }
            Type::Tuple(types) => self.list_field("arguments", types, Writer::put_type),
            Type::Fn { arguments, result } => {
                self.list_field("arguments", arguments, Writer::put_type);
                self.type_field("returnType", result);
            }
            Type::Intersection { left, right } => {
                self.type_field("left", left);
                self.type_field("right", right);
            }
            Type::Array { element, size } => {
                self.type_field("underlying", element);
                self.field("size", |writer| writer.put_size(size.as_ref()));
            }
            Type::Synonym { display, base } => {
                self.type_field("display", display);
                self.type_field("base", base);
            }
            Type::MetaData {
                display,
                copy_semantics,
                overflow,
            } => {
                self.type_field("display", display);
                self.flag_field("copySemantics", *copy_semantics);
                self.flag_field("overflow", *overflow);
            }
            _ => {}
        }
    }

    fn put_size(&mut self, size: Option<&Name>) {
        match size {
            None => self.value("Option.None", |_| {}),
            Some(size) => self.value("Option.Some", |writer| writer.string_field("value", size)),
        }
    }
}

/// How many words come before those of the first type inside.
fn own_words(tree: &Type) -> usize {
    match tree {
        Type::FromPath(path) => 3 + path.names.len(),
        Type::Identifier(_)
        | Type::App { .. }
        | Type::Tuple(_)
        | Type::Fn { .. }
        | Type::Array { .. }
        | Type::MetaData { .. } => 2,
        _ => 1,
    }
}

/// The name of a type's constructor in the source.
fn constructor(tree: &Type) -> &'static str {
    match tree {
        Type::U8 => "U8",
        Type::U16 => "U16",
        Type::U32 => "U32",
        Type::U64 => "U64",
        Type::U128 => "U128",
        Type::I8 => "I8",
        Type::I16 => "I16",
        Type::I32 => "I32",
        Type::I64 => "I64",
        Type::I128 => "I128",
        Type::Usize => "USIZE",
        Type::Bool => "Bool",
        Type::Identifier(_) => "TIdentifier",
        Type::FromPath(_) => "TypeFromPath",
        Type::App { .. } => "TypeApp",
        Type::Borrowed(_) => "Borrowed",
        Type::BorrowedMut(_) => "BorrowedMut",
        Type::Impl(_) => "ImplType",
        Type::Dyn(_) => "DynType",
        Type::Tuple(_) => "TupleType",
        Type::Fn { .. } => "FnType",
        Type::Intersection { .. } => "IntersectionType",
        Type::Array { .. } => "Array",
        Type::Synonym { .. } => "TSynonym",
        Type::MetaData { .. } => "TMetaData",
    }
}

/// Declarations. The words of a declaration stand in the order of the fields here.
impl Writer {
    fn put_declaration(&mut self, tree: &Declaration) {
        self.words += 1; // the head
        match tree {
            Declaration::Struct(it) => {
                self.declaration("StructDecl", "struct", "Struct.Struct", |writer| {
                    writer.put_front(&it.doc, &it.attributes, &it.name, &it.parameters);
                    writer.field("fields", |writer| writer.put_fields(&it.fields));
                });
            }
            Declaration::Enum(it) => self.declaration("EnumDecl", "enum", "Enum.Enum", |writer| {
                writer.put_front(&it.doc, &it.attributes, &it.name, &it.parameters);
                writer.words += 1; // how many cases
                writer.list_field("variants", &it.cases, Writer::put_case);
            }),
            Declaration::TypeSynonym(it) => {
                self.declaration("TypeDecl", "tpe", "TypeSynonym.TypeSynonym", |writer| {
                    writer.put_front(&it.doc, &it.attributes, &it.name, &it.parameters);
                    writer.type_field("tpe", &it.target);
                });
            }
            Declaration::Use(it) => self.declaration("UseDecl", "use", "Use.Use", |writer| {
                writer.put_visibility(it.visibility);
                writer.words += 2 + it.path.names.len();
                writer.field("path", |writer| writer.put_path(&it.path));
            }),
            other => panic!("there is no term for {other:?}"),
        }
    }

    /// A value in the one field of a constructor of `ModDecl`. `put` writes the value's fields.
    fn declaration(
        &mut self,
        constructor: &str,
        field: &str,
        value: &str,
        put: impl FnOnce(&mut Writer),
    ) {
        self.value(&format!("ModDecl.{constructor}"), |writer| {
            writer.field(field, |writer| writer.value(value, put));
        });
    }

    /// What structs, enums and synonyms have in common.
    fn put_front(
        &mut self,
        doc: &Name,
        attributes: &[Attribute],
        name: &Name,
        parameters: &[TypeParameter],
    ) {
        self.words += 2; // the doc, and how many attributes
        self.string_field("docString", doc);
        self.list_field("attributes", attributes, Writer::put_attribute);
        self.words += 2; // the name, and how many parameters
        self.string_field("name", name);
        self.list_field("typeParams", parameters, Writer::put_parameter);
    }

    fn put_attribute(&mut self, attribute: &Attribute) {
        self.words += 2 + attribute.arguments.len();
        self.value("Attribute.ApplyAttribute", |writer| {
            writer.string_field("name", &attribute.name);
            writer.strings_field("derived", &attribute.arguments);
        });
    }

    fn put_parameter(&mut self, parameter: &TypeParameter) {
        self.words += 2; // the name, and how many constraints
        self.value("TypeParamDecl.TypeParamDecl", |writer| {
            writer.string_field("name", &parameter.name);
            writer.list_field("constraints", &parameter.constraints, Writer::put_type);
        });
    }

    fn put_case(&mut self, case: &EnumCase) {
        self.words += 2; // doc and name
        self.value("EnumCase.EnumCase", |writer| {
            writer.string_field("docString", &case.doc);
            writer.string_field("name", &case.name);
            writer.field("fields", |writer| writer.put_fields(&case.fields));
        });
    }

    fn put_fields(&mut self, fields: &Fields) {
        self.words += 2; // named or nameless, and how many
        match fields {
            Fields::Named(fields) => self.value("Fields.NamedFields", |writer| {
                writer.list_field("fields", fields, Writer::put_field);
            }),
            Fields::Nameless(fields) => self.value("Fields.NamelessFields", |writer| {
                writer.list_field("types", fields, Writer::put_nameless_field);
            }),
        }
    }

    fn put_field(&mut self, field: &Field) {
        self.value("Field.Field", |writer| {
            writer.put_visibility(field.visibility);
            writer.words += 1; // the name
            writer.field("formal", |writer| {
                writer.value("Formal.Formal", |writer| {
                    writer.string_field("name", &field.name);
                    writer.type_field("tpe", &field.field_type);
                });
            });
        });
    }

    fn put_nameless_field(&mut self, field: &NamelessField) {
        self.value("NamelessField.NamelessField", |writer| {
            writer.put_visibility(field.visibility);
            writer.type_field("tpe", &field.field_type);
        });
    }

    fn put_visibility(&mut self, visibility: Visibility) {
        self.words += 1;
        self.field("visibility", |writer| {
            writer.text.push_str(match visibility {
                Visibility::Pub => "(Visibility.PUB)",
                Visibility::Priv => "(Visibility.PRIV)",
            });
        });
    }
}

/// The forms that the evaluator's own page gives.
#[test]
fn terms_by_hand() {
    let tree = Type::borrowed(Type::U8);
    let tagged = tagged_type(Strings::Characters, &tree);
    assert_eq!(tagged.term, "@0(Type.Borrowed underlying=@1(Type.U8))");
    let term = type_term(Strings::Characters, &tree);
    assert_eq!(term, "(Type.Borrowed underlying=(Type.U8))");
    assert_eq!(type_depth(&term), 2);
    for (strings, bytes, term) in [
        (Strings::Characters, &b"hel"[..], "$68656c"),
        (Strings::Characters, "é".as_bytes(), "$e9"),
        (Strings::Characters, "é深".as_bytes(), "%00e96df1"),
        (Strings::Bytes, "é".as_bytes(), "$c3a9"),
    ] {
        assert_eq!(strings.term(bytes), term);
    }
}
