//! Declarations: from words to a tree, and from a tree to its text as the `ToString` bodies say.

use super::doc::append_docstring_prefix;
use super::{check_level, deliver, read_whole, Reader};
use crate::tree::{
    Attribute, Declaration, Enum, EnumCase, Field, Fields, Name, NamelessField, Path, Root, Struct,
    Type, TypeParameter, TypeSynonym, Use, Visibility,
};
use crate::words::{fields, head, visibility};
use crate::{Encoding, Refusal};

/// The indent of one level.
const IND: &[u8] = b"    ";

pub fn declaration_text(
    encoding: &Encoding<'_>,
    level: u32,
    out: &mut [u8],
) -> Result<usize, Refusal> {
    check_level(level)?;
    deliver(&read_declaration(encoding)?.reference_text(level), out)
}

// From words to a tree.

pub fn read_declaration(encoding: &Encoding<'_>) -> Result<Declaration, Refusal> {
    read_whole(encoding, Reader::read_declaration)
}

impl Reader<'_> {
    fn read_declaration(&mut self) -> Result<Declaration, Refusal> {
        match self.word()? {
            head::STRUCT => self.read_struct().map(Declaration::Struct),
            head::ENUM => self.read_enum().map(Declaration::Enum),
            head::TYPE => self.read_type_synonym().map(Declaration::TypeSynonym),
            head::USE => self.read_use().map(Declaration::Use),
            _ => Err(Refusal::UnknownWord),
        }
    }

    fn read_struct(&mut self) -> Result<Struct, Refusal> {
        Ok(Struct {
            doc: self.name()?,
            attributes: self.attributes()?,
            name: self.name()?,
            parameters: self.parameters()?,
            fields: self.fields()?,
        })
    }

    fn read_enum(&mut self) -> Result<Enum, Refusal> {
        Ok(Enum {
            doc: self.name()?,
            attributes: self.attributes()?,
            name: self.name()?,
            parameters: self.parameters()?,
            cases: self.many(Reader::enum_case)?,
        })
    }

    fn read_type_synonym(&mut self) -> Result<TypeSynonym, Refusal> {
        Ok(TypeSynonym {
            doc: self.name()?,
            attributes: self.attributes()?,
            name: self.name()?,
            parameters: self.parameters()?,
            target: self.outermost_type()?,
        })
    }

    fn read_use(&mut self) -> Result<Use, Refusal> {
        Ok(Use {
            visibility: self.visibility()?,
            path: self.read_path()?,
        })
    }

    /// A count, then so many items.
    fn many<T>(
        &mut self,
        mut item: impl FnMut(&mut Self) -> Result<T, Refusal>,
    ) -> Result<Vec<T>, Refusal> {
        let count = self.word()?;
        let mut items = Vec::new(); // no capacity asked for: the count may be 2^32 - 1
        for _ in 0..count {
            items.push(item(self)?);
        }
        Ok(items)
    }

    /// A type that stands in a declaration and in no other type, so at depth 1.
    fn outermost_type(&mut self) -> Result<Type, Refusal> {
        self.read_type(1)
    }

    fn attributes(&mut self) -> Result<Vec<Attribute>, Refusal> {
        self.many(|reader| {
            Ok(Attribute {
                name: reader.name()?,
                arguments: reader.many(Reader::name)?,
            })
        })
    }

    fn parameters(&mut self) -> Result<Vec<TypeParameter>, Refusal> {
        self.many(|reader| {
            Ok(TypeParameter {
                name: reader.name()?,
                constraints: reader.many(Reader::outermost_type)?,
            })
        })
    }

    fn enum_case(&mut self) -> Result<EnumCase, Refusal> {
        Ok(EnumCase {
            doc: self.name()?,
            name: self.name()?,
            fields: self.fields()?,
        })
    }

    fn fields(&mut self) -> Result<Fields, Refusal> {
        match self.word()? {
            fields::NAMED => self.many(Reader::field).map(Fields::Named),
            fields::NAMELESS => self.many(Reader::nameless_field).map(Fields::Nameless),
            _ => Err(Refusal::UnknownWord),
        }
    }

    fn field(&mut self) -> Result<Field, Refusal> {
        Ok(Field {
            visibility: self.visibility()?,
            name: self.name()?,
            field_type: self.outermost_type()?,
        })
    }

    fn nameless_field(&mut self) -> Result<NamelessField, Refusal> {
        Ok(NamelessField {
            visibility: self.visibility()?,
            field_type: self.outermost_type()?,
        })
    }

    fn visibility(&mut self) -> Result<Visibility, Refusal> {
        match self.word()? {
            visibility::PUB => Ok(Visibility::Pub),
            visibility::PRIV => Ok(Visibility::Priv),
            _ => Err(Refusal::UnknownWord),
        }
    }
}

// From a tree to its text. Each function below is one body of the source; what the body returns is
// appended to `text`.

#[doc(hidden)]
impl Declaration {
    pub fn reference_text(&self, level: u32) -> Vec<u8> {
        let indent = IND.repeat(level as usize);
        let mut text = Vec::new();
        match self {
            Declaration::Struct(tree) => append_struct(tree, &indent, &mut text),
            Declaration::Enum(tree) => append_enum(tree, &indent, &mut text),
            Declaration::TypeSynonym(tree) => append_type_synonym(tree, &indent, &mut text),
            Declaration::Use(tree) => append_use(tree, &mut text),
        }
        text
    }
}

fn append_struct(tree: &Struct, indent: &[u8], text: &mut Vec<u8>) {
    append_docstring_prefix(&tree.doc, indent, text);
    append_attributes(&tree.attributes, indent, text);
    text.extend_from_slice(b"pub struct ");
    text.extend_from_slice(&tree.name);
    append_parameters(&tree.parameters, text);
    let named = matches!(tree.fields, Fields::Named(_));
    append_fields(&tree.fields, indent, named, text);
    if !named {
        text.extend_from_slice(b";");
    }
}

fn append_enum(tree: &Enum, indent: &[u8], text: &mut Vec<u8>) {
    append_docstring_prefix(&tree.doc, indent, text);
    append_attributes(&tree.attributes, indent, text);
    text.extend_from_slice(b"pub enum ");
    text.extend_from_slice(&tree.name);
    append_parameters(&tree.parameters, text);
    text.extend_from_slice(b" {");
    let inner = deeper(indent);
    append_sequence(&tree.cases, b",", text, |case, text| {
        append_new_line(&inner, text);
        append_enum_case(case, &inner, text);
    });
    append_new_line(indent, text);
    text.extend_from_slice(b"}");
}

fn append_enum_case(tree: &EnumCase, indent: &[u8], text: &mut Vec<u8>) {
    append_docstring_prefix(&tree.doc, indent, text);
    text.extend_from_slice(&tree.name);
    append_fields(&tree.fields, indent, true, text);
}

fn append_type_synonym(tree: &TypeSynonym, indent: &[u8], text: &mut Vec<u8>) {
    append_docstring_prefix(&tree.doc, indent, text);
    append_attributes(&tree.attributes, indent, text);
    text.extend_from_slice(b"pub type ");
    text.extend_from_slice(&tree.name);
    append_parameters(&tree.parameters, text);
    text.extend_from_slice(b" = ");
    tree.target.append_text(text);
    text.extend_from_slice(b";");
}

fn append_use(tree: &Use, text: &mut Vec<u8>) {
    append_visibility(tree.visibility, text);
    text.extend_from_slice(b"use ");
    tree.path.append_text(text);
    text.extend_from_slice(b";");
}

/// `Attribute.ToStringMultiple`
fn append_attributes(attributes: &[Attribute], indent: &[u8], text: &mut Vec<u8>) {
    append_sequence(attributes, b"", text, |attribute, text| {
        append_attribute(attribute, text);
        append_new_line(indent, text);
    });
}

fn append_attribute(attribute: &Attribute, text: &mut Vec<u8>) {
    text.extend_from_slice(b"#[");
    text.extend_from_slice(&attribute.name);
    if !attribute.arguments.is_empty() {
        text.extend_from_slice(b"(");
        append_sequence(&attribute.arguments, b", ", text, |argument, text| {
            text.extend_from_slice(argument);
        });
        text.extend_from_slice(b")");
    }
    text.extend_from_slice(b"]");
}

/// `TypeParamDecl.ToStringMultiple`
fn append_parameters(parameters: &[TypeParameter], text: &mut Vec<u8>) {
    if parameters.is_empty() {
        return;
    }
    text.extend_from_slice(b"<");
    append_sequence(parameters, b", ", text, append_parameter);
    text.extend_from_slice(b">");
}

fn append_parameter(parameter: &TypeParameter, text: &mut Vec<u8>) {
    text.extend_from_slice(&parameter.name);
    if !parameter.constraints.is_empty() {
        text.extend_from_slice(b": ");
        append_sequence(&parameter.constraints, b" + ", text, Type::append_text);
    }
}

/// `Fields.ToString`
fn append_fields(fields: &Fields, indent: &[u8], new_line: bool, text: &mut Vec<u8>) {
    let inner = deeper(indent);
    let separator = if new_line {
        [b",\n", &inner[..]].concat()
    } else {
        b", ".to_vec()
    };
    match fields {
        Fields::Named(fields) => {
            let (begin_space, end_space) = if new_line && !fields.is_empty() {
                ([b"\n", &inner[..]].concat(), [b"\n", indent].concat())
            } else if !fields.is_empty() {
                (b" ".to_vec(), b" ".to_vec())
            } else {
                (Vec::new(), Vec::new())
            };
            text.extend_from_slice(b" {");
            text.extend_from_slice(&begin_space);
            append_sequence(fields, &separator, text, append_field);
            text.extend_from_slice(&end_space);
            text.extend_from_slice(b"}");
        }
        Fields::Nameless(fields) => {
            text.extend_from_slice(b"(");
            append_sequence(fields, &separator, text, append_nameless_field);
            text.extend_from_slice(b")");
        }
    }
}

fn append_field(field: &Field, text: &mut Vec<u8>) {
    append_visibility(field.visibility, text);
    append_formal(&field.name, &field.field_type, text);
}

fn append_nameless_field(field: &NamelessField, text: &mut Vec<u8>) {
    append_visibility(field.visibility, text);
    field.field_type.append_text(text);
}

fn append_visibility(visibility: Visibility, text: &mut Vec<u8>) {
    match visibility {
        Visibility::Pub => text.extend_from_slice(b"pub "),
        Visibility::Priv => {}
    }
}

/// `Formal.ToString`
fn append_formal(name: &Name, of: &Type, text: &mut Vec<u8>) {
    let is_self = name == b"self";
    if is_self && is_self_owned(of.expand()) {
        text.extend_from_slice(name);
    } else if is_self && matches!(of, Type::Borrowed(underlying) if is_self_owned(underlying)) {
        text.extend_from_slice(b"&");
        text.extend_from_slice(name);
    } else if is_self && matches!(of, Type::BorrowedMut(underlying) if is_self_owned(underlying)) {
        text.extend_from_slice(b"&mut ");
        text.extend_from_slice(name);
    } else if matches!(of, Type::Identifier(type_name) if type_name == b"_") {
        text.extend_from_slice(name);
    } else {
        text.extend_from_slice(name);
        text.extend_from_slice(b": ");
        of.append_text(text);
    }
}

/// Whether this is `SelfOwned`, the path `Self` as a type.
fn is_self_owned(of: &Type) -> bool {
    matches!(of, Type::FromPath(Path { root: Root::SelfType, names }) if names.is_empty())
}

impl Type {
    /// `Expand`: follows the base of a synonym and the display of metadata.
    pub(super) fn expand(&self) -> &Type {
        match self {
            Type::Synonym { base, .. } => base.expand(),
            Type::MetaData { display, .. } => display.expand(),
            other => other,
        }
    }
}

/// `SeqToString`, as a loop.
fn append_sequence<T>(
    items: &[T],
    separator: &[u8],
    text: &mut Vec<u8>,
    append: impl Fn(&T, &mut Vec<u8>),
) {
    for (index, item) in items.iter().enumerate() {
        if index > 0 {
            text.extend_from_slice(separator);
        }
        append(item, text);
    }
}

fn append_new_line(indent: &[u8], text: &mut Vec<u8>) {
    text.extend_from_slice(b"\n");
    text.extend_from_slice(indent);
}

fn deeper(indent: &[u8]) -> Vec<u8> {
    [indent, IND].concat()
}

#[cfg(test)]
mod tests {
    use super::*;
    use crate::cases::GAUGE;
    use crate::limits::{DEPTH_LIMIT, LEVEL_LIMIT};
    use crate::words::{fields::*, head::*, kind, kind::*, name::*, pair, root::*, visibility::*};
    use Refusal::{BadLevel, BufferTooShort, EndsEarly, LeftOver, TooDeep, UnknownWord};

    /// The pairs and the text of `examples/gauge`: `Gauge`, a sentence, `mm`, `id`.
    const PAIRS: [u32; 8] = [0, 5, 5, 13, 18, 2, 20, 2];
    const TEXT: &[u8] = b"GaugeOffset in mm.mmid";

    /// Names 16 `A`, 17 `B`, 18 `self`, 19 `_`, 20 empty.
    const LETTER_PAIRS: [u32; 10] = [0, 1, 1, 1, 2, 4, 6, 1, 7, 0];
    const LETTERS: &[u8] = b"ABself_";
    const A: u32 = pair(0);
    const B: u32 = pair(1);
    const SELF_PAIR: u32 = pair(2);
    const UNDER_PAIR: u32 = pair(3);
    const EMPTY_PAIR: u32 = pair(4);

    fn at_level(words: &[u32], level: u32) -> Result<String, Refusal> {
        let encoding = Encoding {
            words,
            pairs: &LETTER_PAIRS,
            text: LETTERS,
        };
        let mut buffer = vec![b'.'; 4096];
        let length = declaration_text(&encoding, level, &mut buffer)?;
        assert!(buffer[length..].iter().all(|&byte| byte == b'.'));
        Ok(String::from_utf8(buffer[..length].to_vec()).unwrap())
    }

    fn text(words: &[u32]) -> String {
        at_level(words, 0).unwrap()
    }

    fn refusal(words: &[u32]) -> Option<Refusal> {
        at_level(words, 0).err()
    }

    /// The one field of a struct, between the braces.
    fn named_field(visibility: u32, name: u32, of: &[u32]) -> String {
        let words = [&[STRUCT, EMPTY, 0, A, 0, NAMED, 1, visibility, name], of].concat();
        let text = text(&words);
        let inner = text.strip_prefix("pub struct A {\n    ").unwrap();
        inner.strip_suffix("\n}").unwrap().to_string()
    }

    #[test]
    fn the_whole_example() {
        let encoding = Encoding {
            words: &GAUGE,
            pairs: &PAIRS,
            text: TEXT,
        };
        let wanted =
            b"/// Offset in mm.\npub struct Gauge {\n    pub mm: i32,\n    id: &u8\n}".to_vec();
        assert_eq!(
            read_declaration(&encoding).unwrap().reference_text(0),
            wanted
        );
        let level_2 = b"/// Offset in mm.\n        pub struct Gauge {\n            pub mm: i32,\n            id: &u8\n        }";
        assert_eq!(
            read_declaration(&encoding).unwrap().reference_text(2),
            level_2.to_vec()
        );
        let mut buffer = vec![b'.'; wanted.len() + 1];
        assert_eq!(
            declaration_text(&encoding, 0, &mut buffer[..wanted.len() - 1]),
            Err(BufferTooShort)
        );
        assert!(buffer.iter().all(|&byte| byte == b'.'));
        assert_eq!(
            declaration_text(&encoding, 0, &mut buffer),
            Ok(wanted.len())
        );
        assert_eq!(buffer, [&wanted[..], b"."].concat());
    }

    /// TRAPS 1.
    #[test]
    fn nameless_fields() {
        assert_eq!(
            text(&[ENUM, EMPTY, 0, A, 0, 1, EMPTY, B, NAMELESS, 2, PUB, U8, PRIV, U16]),
            "pub enum A {\n    B(pub u8,\n        u16)\n}"
        );
        assert_eq!(
            text(&[STRUCT, EMPTY, 0, A, 0, NAMELESS, 2, PUB, U8, PRIV, U16]),
            "pub struct A(pub u8, u16);"
        );
        assert_eq!(
            at_level(
                &[ENUM, EMPTY, 0, A, 0, 1, EMPTY, B, NAMELESS, 2, PUB, U8, PRIV, U16],
                1
            )
            .unwrap(),
            "pub enum A {\n        B(pub u8,\n            u16)\n    }"
        );
    }

    /// TRAPS 2.
    #[test]
    fn empty_ones() {
        assert_eq!(text(&[ENUM, EMPTY, 0, A, 0, 0]), "pub enum A {\n}");
        assert_eq!(
            at_level(&[ENUM, EMPTY, 0, A, 0, 0], 2).unwrap(),
            "pub enum A {\n        }"
        );
        assert_eq!(text(&[STRUCT, EMPTY, 0, A, 0, NAMED, 0]), "pub struct A {}");
        assert_eq!(
            text(&[STRUCT, EMPTY, 0, A, 0, NAMELESS, 0]),
            "pub struct A();"
        );
        assert_eq!(
            text(&[ENUM, EMPTY, 0, A, 0, 2, EMPTY, B, NAMED, 0, EMPTY, A, NAMELESS, 0]),
            "pub enum A {\n    B {},\n    A()\n}"
        );
    }

    /// TRAPS 3.
    #[test]
    fn separators() {
        let two_cases = [
            ENUM, EMPTY, 0, A, 0, 2, B, B, NAMED, 2, PUB, A, U8, PRIV, B, U16, A, A, NAMELESS, 1,
            PRIV, BOOL,
        ];
        assert_eq!(
            text(&two_cases),
            "pub enum A {\n    /// B\n    B {\n        pub A: u8,\n        B: u16\n    },\n    /// A\n    A(bool)\n}"
        );
        assert_eq!(
            text(&[STRUCT, EMPTY, 0, A, 0, NAMED, 2, PUB, A, U8, PRIV, B, U16]),
            "pub struct A {\n    pub A: u8,\n    B: u16\n}"
        );
    }

    /// TRAPS 4.
    #[test]
    fn indents() {
        assert_eq!(
            at_level(&[STRUCT, B, 1, A, 2, B, A, B, 0, NAMELESS, 0], 1).unwrap(),
            "/// B\n    #[A(B, A)]\n    pub struct B();"
        );
        assert_eq!(
            at_level(&[TYPE, B, 2, A, 0, B, 1, A, A, 0, U8], 2).unwrap(),
            "/// B\n        #[A]\n        #[B(A)]\n        pub type A = u8;"
        );
        assert_eq!(
            at_level(&[ENUM, B, 0, A, 0, 1, A, B, NAMED, 1, PRIV, A, U8], 1).unwrap(),
            "/// B\n    pub enum A {\n        /// A\n        B {\n            A: u8\n        }\n    }"
        );
    }

    /// TRAPS 5.
    #[test]
    fn fields_named_self() {
        for name in [SELF, SELF_PAIR] {
            for (of, text) in [
                (&[FROM_PATH, SELF_TYPE, 0][..], "self"),
                (&[SYNONYM, U8, FROM_PATH, SELF_TYPE, 0], "self"),
                (&[SYNONYM, FROM_PATH, SELF_TYPE, 0, U8], "self: Self"),
                (&[META_DATA, 3, FROM_PATH, SELF_TYPE, 0], "self"),
                (
                    &[
                        SYNONYM, U8, META_DATA, 0, SYNONYM, U16, FROM_PATH, SELF_TYPE, 0,
                    ],
                    "self",
                ),
                (&[BORROWED, FROM_PATH, SELF_TYPE, 0], "&self"),
                (&[BORROWED_MUT, FROM_PATH, SELF_TYPE, 0], "&mut self"),
                (
                    &[BORROWED, META_DATA, 0, FROM_PATH, SELF_TYPE, 0],
                    "self: &Self",
                ),
                (
                    &[META_DATA, 0, BORROWED, FROM_PATH, SELF_TYPE, 0],
                    "self: &Self",
                ),
                (
                    &[BORROWED_MUT, SYNONYM, U8, FROM_PATH, SELF_TYPE, 0],
                    "self: &mut u8",
                ),
                (
                    &[BORROWED, BORROWED, FROM_PATH, SELF_TYPE, 0],
                    "self: &&Self",
                ),
                (&[APP, 0, FROM_PATH, SELF_TYPE, 0], "self: Self"),
                (&[FROM_PATH, SELF_TYPE, 1, A], "self: Self::A"),
                (&[FROM_PATH, CRATE, 0], "self: crate"),
                (&[FROM_PATH, GLOBAL, 0], "self: "),
                (&[U8], "self: u8"),
            ] {
                assert_eq!(named_field(PRIV, name, of), text, "{of:?}");
                assert_eq!(named_field(PUB, name, of), format!("pub {text}"), "{of:?}");
            }
        }
        assert_eq!(named_field(PRIV, A, &[FROM_PATH, SELF_TYPE, 0]), "A: Self");
        assert_eq!(
            named_field(PRIV, A, &[BORROWED, FROM_PATH, SELF_TYPE, 0]),
            "A: &Self"
        );
        // A nameless field has no `Formal`.
        assert_eq!(
            text(&[STRUCT, EMPTY, 0, A, 0, NAMELESS, 1, PUB, FROM_PATH, SELF_TYPE, 0]),
            "pub struct A(pub Self);"
        );
    }

    /// TRAPS 6.
    #[test]
    fn fields_of_type_underscore() {
        for underscore in [UNDERSCORE, UNDER_PAIR] {
            assert_eq!(named_field(PRIV, A, &[IDENTIFIER, underscore]), "A");
            assert_eq!(named_field(PUB, A, &[IDENTIFIER, underscore]), "pub A");
            assert_eq!(named_field(PRIV, SELF, &[IDENTIFIER, underscore]), "self");
            assert_eq!(
                named_field(PRIV, A, &[META_DATA, 0, IDENTIFIER, underscore]),
                "A: _"
            );
            assert_eq!(
                named_field(PRIV, A, &[SYNONYM, IDENTIFIER, underscore, U8]),
                "A: _"
            );
            assert_eq!(
                named_field(PRIV, A, &[SYNONYM, U8, IDENTIFIER, underscore]),
                "A: u8"
            );
            assert_eq!(
                named_field(PRIV, A, &[FROM_PATH, GLOBAL, 1, underscore]),
                "A: ::_"
            );
            assert_eq!(
                text(&[STRUCT, EMPTY, 0, A, 0, NAMELESS, 1, PRIV, IDENTIFIER, underscore]),
                "pub struct A(_);"
            );
            assert_eq!(
                text(&[TYPE, EMPTY, 0, A, 1, B, 1, IDENTIFIER, underscore, IDENTIFIER, underscore]),
                "pub type A<B: _> = _;"
            );
        }
    }

    /// TRAPS 7.
    #[test]
    fn docs_that_are_none_or_fixed() {
        assert_eq!(
            text(&[STRUCT, EMPTY_PAIR, 0, A, 0, NAMED, 0]),
            "pub struct A {}"
        );
        assert_eq!(
            text(&[STRUCT, SELF, 0, A, 0, NAMED, 0]),
            "/// self\npub struct A {}"
        );
        assert_eq!(
            text(&[ENUM, EMPTY_PAIR, 0, A, 0, 1, EMPTY_PAIR, B, NAMELESS, 0]),
            "pub enum A {\n    B()\n}"
        );
    }

    /// TRAPS 8.
    #[test]
    fn uses() {
        assert_eq!(text(&[USE, PRIV, GLOBAL, 0]), "use ;");
        assert_eq!(text(&[USE, PUB, GLOBAL, 0]), "pub use ;");
        assert_eq!(text(&[USE, PRIV, SELF_TYPE, 2, A, EMPTY]), "use Self::A::;");
        assert_eq!(
            text(&[USE, PUB, GLOBAL, 3, STD, RC_MODULE, RC]),
            "pub use ::std::rc::Rc;"
        );
        assert_eq!(text(&[USE, PRIV, CRATE, 1, A]), "use crate::A;");
        assert_eq!(
            at_level(&[USE, PUB, CRATE, 1, A], LEVEL_LIMIT).unwrap(),
            "pub use crate::A;"
        );
    }

    #[test]
    fn parameters() {
        let front = [STRUCT, EMPTY, 0, A, 2, B, 0, A, 3];
        let constraints = [U8, BORROWED, U16, INTERSECTION, U32, U64];
        assert_eq!(
            text(&[&front[..], &constraints, &[NAMELESS, 0]].concat()),
            "pub struct A<B, A: u8 + &u16 + u32 + u64>();"
        );
        assert_eq!(
            text(&[TYPE, EMPTY, 0, A, 1, EMPTY, 1, FROM_PATH, GLOBAL, 0, U16]),
            "pub type A<: > = u16;"
        );
        assert_eq!(text(&[ENUM, EMPTY, 0, A, 1, B, 0, 0]), "pub enum A<B> {\n}");
    }

    #[test]
    fn attributes() {
        assert_eq!(
            text(&[STRUCT, EMPTY, 3, A, 0, B, 1, EMPTY, EMPTY, 2, STD, RC_MODULE, A, 0, NAMED, 0]),
            "#[A]\n#[B()]\n#[(std, rc)]\npub struct A {}"
        );
    }

    #[test]
    fn refusals_front_to_back() {
        let most = u32::MAX;
        assert_eq!(refusal(&[]), Some(EndsEarly));
        for head in (0..STRUCT).chain([head::END, head::END + 1, most]) {
            assert_eq!(refusal(&[head]), Some(UnknownWord), "{head}");
        }
        // Every front part of whole declarations ends early, and one word more is left over.
        let whole: [&[u32]; 6] = [
            &[STRUCT, B, 1, A, 1, A, A, 1, A, 1, U8, NAMED, 1, PUB, A, U8],
            &[
                STRUCT, B, 0, A, 0, NAMELESS, 2, PUB, U8, PRIV, BORROWED, U16,
            ],
            &[
                ENUM, B, 0, A, 0, 2, A, B, NAMED, 0, EMPTY, A, NAMELESS, 1, PRIV, BOOL,
            ],
            &[TYPE, EMPTY, 0, A, 0, TUPLE, 2, U8, U16],
            &[USE, PRIV, GLOBAL, 0],
            &[USE, PUB, CRATE, 2, A, B],
        ];
        for words in whole {
            assert_eq!(refusal(words), None);
            for length in 0..words.len() {
                assert_eq!(refusal(&words[..length]), Some(EndsEarly), "{words:?}");
            }
            for word in [0, kind::END, most] {
                let longer = [words, &[word]].concat();
                assert_eq!(refusal(&longer), Some(LeftOver), "{words:?}");
            }
        }
        for words in [
            &[STRUCT, pair(5)][..],
            &[STRUCT, EMPTY, 1, pair(5)],
            &[STRUCT, EMPTY, 1, A, 1, pair(5)],
            &[STRUCT, EMPTY, 0, pair(5)],
            &[STRUCT, EMPTY, 0, A, 1, pair(5)],
            &[STRUCT, EMPTY, 0, A, 1, A, 1, kind::END],
            &[STRUCT, EMPTY, 0, A, 0, 2],
            &[STRUCT, EMPTY, 0, A, 0, most],
            &[STRUCT, EMPTY, 0, A, 0, NAMED, 1, 2],
            &[STRUCT, EMPTY, 0, A, 0, NAMED, 1, PUB, pair(5)],
            &[STRUCT, EMPTY, 0, A, 0, NAMED, 1, PUB, A, kind::END],
            &[STRUCT, EMPTY, 0, A, 0, NAMELESS, 1, 2],
            &[ENUM, EMPTY, 0, A, 0, 1, pair(5)],
            &[ENUM, EMPTY, 0, A, 0, 1, EMPTY, pair(5)],
            &[ENUM, EMPTY, 0, A, 0, 1, EMPTY, A, 2],
            &[TYPE, EMPTY, 0, A, 0, ENUM],
            &[USE, 2],
            &[USE, PUB, 3],
            &[USE, PUB, GLOBAL, 1, pair(5)],
            // A count beyond all words ends where the words do, or before.
            &[STRUCT, EMPTY, most, A, 0, 99],
            &[ENUM, EMPTY, 0, A, 0, most, EMPTY, A, NAMELESS, 0, 99],
        ] {
            assert_eq!(refusal(words), Some(UnknownWord), "{words:?}");
        }
        for words in [
            &[STRUCT, EMPTY, most, A, 0][..],
            &[STRUCT, EMPTY, 0, A, most],
            &[STRUCT, EMPTY, 0, A, 0, NAMED, most, PUB, A, U8],
            &[
                ENUM, EMPTY, 0, A, 0, most, EMPTY, A, NAMELESS, most, PUB, U8,
            ],
        ] {
            assert_eq!(refusal(words), Some(EndsEarly), "{words:?}");
        }
    }

    #[test]
    fn depth_begins_anew_in_each_type() {
        let inside = DEPTH_LIMIT - 1;
        let deep = |count: usize, rest: &[u32]| [&vec![BORROWED; count][..], rest].concat();
        let field = |of: &[u32]| [&[STRUCT, EMPTY, 0, A, 0, NAMELESS, 1, PUB], of].concat();
        let constraint = |of: &[u32]| [&[TYPE, EMPTY, 0, A, 1, A, 1], of, &[U8]].concat();
        assert_eq!(refusal(&field(&deep(inside, &[U8]))), None);
        assert_eq!(refusal(&field(&deep(inside + 1, &[U8]))), Some(TooDeep));
        assert_eq!(refusal(&field(&deep(inside + 1, &[]))), Some(TooDeep));
        assert_eq!(refusal(&field(&deep(inside, &[]))), Some(EndsEarly));
        assert_eq!(refusal(&constraint(&deep(inside, &[U8]))), None);
        assert_eq!(refusal(&constraint(&deep(inside + 1, &[]))), Some(TooDeep));
        let two = [
            &[STRUCT, EMPTY, 0, A, 0, NAMELESS, 2, PUB][..],
            &deep(inside, &[U8]),
            &[PRIV],
            &deep(inside, &[U8]),
        ];
        assert_eq!(refusal(&two.concat()), None);
    }

    #[test]
    fn levels() {
        let words = [ENUM, EMPTY, 0, A, 0, 0];
        for level in 0..=LEVEL_LIMIT {
            let indent = " ".repeat(4 * level as usize);
            assert_eq!(
                at_level(&words, level).unwrap(),
                format!("pub enum A {{\n{indent}}}")
            );
        }
        for level in [LEVEL_LIMIT + 1, LEVEL_LIMIT + 2, u32::MAX] {
            assert_eq!(at_level(&words, level), Err(BadLevel));
            assert_eq!(at_level(&[], level), Err(BadLevel));
        }
    }
}
