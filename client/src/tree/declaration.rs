//! Declarations and what they are made of.

use super::{name_of, names_of, Name, Path, Type};

/// A declaration. `Declaration::from` makes one of a [`Struct`], an [`Enum`], a [`TypeSynonym`] or a
/// [`Use`]. Later versions may have more kinds.
///
/// ```
/// use tillercoral::tree::{Declaration, Path, Use};
///
/// let declaration = Declaration::from(Use::public(Path::in_crate(["nmea", "Fix"])));
/// assert_eq!(declaration.to_text(0)?, "pub use crate::nmea::Fix;");
/// # Ok::<(), tillercoral::TextError>(())
/// ```
#[derive(Clone, Debug, PartialEq, Eq, Hash)]
#[non_exhaustive]
pub enum Declaration {
    /// `pub struct ..`
    Struct(Struct),
    /// `pub enum ..`
    Enum(Enum),
    /// `pub type ..`
    TypeSynonym(TypeSynonym),
    /// `use ..`
    Use(Use),
}

impl From<Struct> for Declaration {
    fn from(of: Struct) -> Declaration {
        Declaration::Struct(of)
    }
}

impl From<Enum> for Declaration {
    fn from(of: Enum) -> Declaration {
        Declaration::Enum(of)
    }
}

impl From<TypeSynonym> for Declaration {
    fn from(of: TypeSynonym) -> Declaration {
        Declaration::TypeSynonym(of)
    }
}

impl From<Use> for Declaration {
    fn from(of: Use) -> Declaration {
        Declaration::Use(of)
    }
}

/// `pub struct name<parameters> fields`
///
/// ```
/// use tillercoral::tree::{Declaration, Field, Fields, NamelessField, Struct, Type};
///
/// let gauge = Struct::new("Gauge").field(Field::public("mm", Type::I32));
/// assert_eq!(
///     Declaration::from(gauge).to_text(0)?,
///     "pub struct Gauge {\n    pub mm: i32\n}"
/// );
///
/// let position = Struct::new("Position").fields(Fields::nameless([
///     NamelessField::public(Type::I64),
///     NamelessField::private(Type::I64),
/// ]));
/// assert_eq!(
///     Declaration::from(position).to_text(0)?,
///     "pub struct Position(pub i64, i64);"
/// );
/// # Ok::<(), tillercoral::TextError>(())
/// ```
#[derive(Clone, Debug, PartialEq, Eq, Hash)]
#[must_use]
pub struct Struct {
    /// The doc, before conversion; empty for none.
    pub doc: Name,
    /// The attributes, each on a line of its own.
    pub attributes: Vec<Attribute>,
    /// The name.
    pub name: Name,
    /// The type parameters.
    pub parameters: Vec<TypeParameter>,
    /// The fields.
    pub fields: Fields,
}

impl Struct {
    /// A struct without doc, attributes, parameters and fields.
    pub fn new(name: impl AsRef<[u8]>) -> Struct {
        Struct {
            doc: Name::new(),
            attributes: Vec::new(),
            name: name_of(name),
            parameters: Vec::new(),
            fields: Fields::Named(Vec::new()),
        }
    }

    /// With these fields instead of those it had.
    pub fn fields(mut self, fields: Fields) -> Struct {
        self.fields = fields;
        self
    }

    /// With one more named field.
    ///
    /// # Panics
    ///
    /// If the struct has nameless fields: Rust has no place for both.
    pub fn field(mut self, field: Field) -> Struct {
        self.fields = self.fields.field(field);
        self
    }
}

/// `pub enum name<parameters> { cases }`
///
/// ```
/// use tillercoral::tree::{Declaration, Enum, EnumCase, Field, Type};
///
/// let event = Enum::new("TideEvent")
///     .case(EnumCase::new("Slack"))
///     .case(EnumCase::new("Turn").field(Field::private("at", Type::U64)));
/// assert_eq!(
///     Declaration::from(event).to_text(0)?,
///     "pub enum TideEvent {\n    Slack {},\n    Turn {\n        at: u64\n    }\n}"
/// );
/// # Ok::<(), tillercoral::TextError>(())
/// ```
#[derive(Clone, Debug, PartialEq, Eq, Hash)]
#[must_use]
pub struct Enum {
    /// The doc, before conversion; empty for none.
    pub doc: Name,
    /// The attributes, each on a line of its own.
    pub attributes: Vec<Attribute>,
    /// The name.
    pub name: Name,
    /// The type parameters.
    pub parameters: Vec<TypeParameter>,
    /// The cases.
    #[doc(alias = "variants")]
    pub cases: Vec<EnumCase>,
}

impl Enum {
    /// An enum without doc, attributes, parameters and cases.
    pub fn new(name: impl AsRef<[u8]>) -> Enum {
        Enum {
            doc: Name::new(),
            attributes: Vec::new(),
            name: name_of(name),
            parameters: Vec::new(),
            cases: Vec::new(),
        }
    }

    /// With one more case.
    pub fn case(mut self, case: EnumCase) -> Enum {
        self.cases.push(case);
        self
    }
}

/// A case of an enum.
#[derive(Clone, Debug, PartialEq, Eq, Hash)]
#[must_use]
pub struct EnumCase {
    /// The doc, before conversion; empty for none.
    pub doc: Name,
    /// The name.
    pub name: Name,
    /// The fields.
    pub fields: Fields,
}

impl EnumCase {
    /// A case without doc and fields. It prints as `name {}`; with
    /// `.fields(Fields::nameless([]))` as `name()`.
    pub fn new(name: impl AsRef<[u8]>) -> EnumCase {
        EnumCase {
            doc: Name::new(),
            name: name_of(name),
            fields: Fields::Named(Vec::new()),
        }
    }

    /// With this doc instead of the one it had.
    pub fn doc(mut self, doc: impl AsRef<[u8]>) -> EnumCase {
        self.doc = name_of(doc);
        self
    }

    /// With these fields instead of those it had.
    pub fn fields(mut self, fields: Fields) -> EnumCase {
        self.fields = fields;
        self
    }

    /// With one more named field.
    ///
    /// # Panics
    ///
    /// If the case has nameless fields: Rust has no place for both.
    pub fn field(mut self, field: Field) -> EnumCase {
        self.fields = self.fields.field(field);
        self
    }
}

/// `pub type name<parameters> = target;`
///
/// ```
/// use tillercoral::tree::{Declaration, Path, Type, TypeParameter, TypeSynonym};
///
/// let clone = Path::global(["std", "clone", "Clone"]).into_type();
/// let log = TypeSynonym::new("Log", Type::rc(Type::slice(Type::named("T"))))
///     .parameter(TypeParameter::new("T").constraint(clone));
/// assert_eq!(
///     Declaration::from(log).to_text(0)?,
///     "pub type Log<T: ::std::clone::Clone> = ::std::rc::Rc<[T]>;"
/// );
/// # Ok::<(), tillercoral::TextError>(())
/// ```
#[derive(Clone, Debug, PartialEq, Eq, Hash)]
#[must_use]
pub struct TypeSynonym {
    /// The doc, before conversion; empty for none.
    pub doc: Name,
    /// The attributes, each on a line of its own.
    pub attributes: Vec<Attribute>,
    /// The name.
    pub name: Name,
    /// The type parameters.
    pub parameters: Vec<TypeParameter>,
    /// The type that the name stands for.
    pub target: Type,
}

impl TypeSynonym {
    /// A synonym without doc, attributes and parameters.
    pub fn new(name: impl AsRef<[u8]>, target: Type) -> TypeSynonym {
        TypeSynonym {
            doc: Name::new(),
            attributes: Vec::new(),
            name: name_of(name),
            parameters: Vec::new(),
            target,
        }
    }
}

/// What structs, enums and type synonyms have in common.
macro_rules! front {
    ($($declaration:ident)*) => {
        $(
            impl $declaration {
                /// With this doc instead of the one it had. It becomes a doc comment: `/// ` goes
                /// before each line, and code in it is marked for Rust's documentation.
                pub fn doc(mut self, doc: impl AsRef<[u8]>) -> $declaration {
                    self.doc = name_of(doc);
                    self
                }

                /// With one more attribute.
                pub fn attribute(mut self, attribute: Attribute) -> $declaration {
                    self.attributes.push(attribute);
                    self
                }

                /// With one more attribute, `#[derive(name, name)]`.
                pub fn derive(
                    self,
                    names: impl IntoIterator<Item = impl AsRef<[u8]>>,
                ) -> $declaration {
                    self.attribute(Attribute::new("derive").arguments(names))
                }

                /// With one more type parameter.
                pub fn parameter(mut self, parameter: TypeParameter) -> $declaration {
                    self.parameters.push(parameter);
                    self
                }
            }
        )*
    };
}

front! { Struct Enum TypeSynonym }

/// `use path;`
#[derive(Clone, Debug, PartialEq, Eq, Hash)]
#[must_use]
pub struct Use {
    /// Whether `pub` stands before it.
    pub visibility: Visibility,
    /// What is used.
    pub path: Path,
}

impl Use {
    /// `pub use path;`
    pub fn public(path: Path) -> Use {
        Use {
            visibility: Visibility::Pub,
            path,
        }
    }

    /// `use path;`
    pub fn private(path: Path) -> Use {
        Use {
            visibility: Visibility::Priv,
            path,
        }
    }
}

/// `#[name]` or `#[name(argument, argument)]`
#[doc(alias = "ApplyAttribute")]
#[derive(Clone, Debug, PartialEq, Eq, Hash)]
#[must_use]
pub struct Attribute {
    /// The name.
    pub name: Name,
    /// The arguments.
    pub arguments: Vec<Name>,
}

impl Attribute {
    /// An attribute without arguments.
    pub fn new(name: impl AsRef<[u8]>) -> Attribute {
        Attribute {
            name: name_of(name),
            arguments: Vec::new(),
        }
    }

    /// With these arguments instead of those it had.
    pub fn arguments(mut self, names: impl IntoIterator<Item = impl AsRef<[u8]>>) -> Attribute {
        self.arguments = names_of(names);
        self
    }
}

/// `name` or `name: constraint + constraint`
#[doc(alias = "TypeParamDecl")]
#[derive(Clone, Debug, PartialEq, Eq, Hash)]
#[must_use]
pub struct TypeParameter {
    /// The name.
    pub name: Name,
    /// The constraints.
    pub constraints: Vec<Type>,
}

impl TypeParameter {
    /// A parameter without constraints.
    pub fn new(name: impl AsRef<[u8]>) -> TypeParameter {
        TypeParameter {
            name: name_of(name),
            constraints: Vec::new(),
        }
    }

    /// With one more constraint.
    pub fn constraint(mut self, constraint: Type) -> TypeParameter {
        self.constraints.push(constraint);
        self
    }
}

/// The fields of a struct or of a case.
#[derive(Clone, Debug, PartialEq, Eq, Hash)]
#[must_use]
pub enum Fields {
    /// `{ name: type }`
    #[doc(alias = "NamedFields")]
    Named(Vec<Field>),
    /// `(type)`
    #[doc(alias = "NamelessFields")]
    Nameless(Vec<NamelessField>),
}

impl Fields {
    /// Fields with names.
    pub fn named(fields: impl IntoIterator<Item = Field>) -> Fields {
        Fields::Named(fields.into_iter().collect())
    }

    /// Fields without names.
    pub fn nameless(fields: impl IntoIterator<Item = NamelessField>) -> Fields {
        Fields::Nameless(fields.into_iter().collect())
    }

    fn field(self, field: Field) -> Fields {
        match self {
            Fields::Named(mut fields) => {
                fields.push(field);
                Fields::Named(fields)
            }
            Fields::Nameless(_) => panic!("a named field cannot stand among nameless ones"),
        }
    }
}

/// A field with a name.
#[derive(Clone, Debug, PartialEq, Eq, Hash)]
#[must_use]
pub struct Field {
    /// Whether `pub` stands before it.
    pub visibility: Visibility,
    /// The name. One of `self` is printed in its own way.
    pub name: Name,
    /// The type. The name `_`, not wrapped, is not printed.
    #[doc(alias = "tpe")]
    pub field_type: Type,
}

impl Field {
    /// `pub name: type`
    pub fn public(name: impl AsRef<[u8]>, field_type: Type) -> Field {
        Field {
            visibility: Visibility::Pub,
            name: name_of(name),
            field_type,
        }
    }

    /// `name: type`
    pub fn private(name: impl AsRef<[u8]>, field_type: Type) -> Field {
        Field {
            visibility: Visibility::Priv,
            name: name_of(name),
            field_type,
        }
    }
}

/// A field without a name.
#[derive(Clone, Debug, PartialEq, Eq, Hash)]
#[must_use]
pub struct NamelessField {
    /// Whether `pub` stands before it.
    pub visibility: Visibility,
    /// The type.
    #[doc(alias = "tpe")]
    pub field_type: Type,
}

impl NamelessField {
    /// `pub type`
    pub fn public(field_type: Type) -> NamelessField {
        NamelessField {
            visibility: Visibility::Pub,
            field_type,
        }
    }

    /// `type`
    pub fn private(field_type: Type) -> NamelessField {
        NamelessField {
            visibility: Visibility::Priv,
            field_type,
        }
    }
}

/// Whether `pub` stands before a field or a use.
#[derive(Clone, Copy, Debug, PartialEq, Eq, Hash)]
pub enum Visibility {
    /// `pub` and a space
    #[doc(alias = "PUB")]
    Pub,
    /// nothing
    #[doc(alias = "PRIV")]
    Priv,
}
