//! Where the types of a tree stand in the words it was read from.

use std::ops::Range;

use crate::tree::{
    Attribute, Declaration, EnumCase, Field, Fields, NamelessField, Path, Type, TypeParameter,
};

impl Path {
    fn word_count(&self) -> usize {
        2 + self.names.len()
    }
}

impl Type {
    /// How many words come before those of the first child.
    pub(super) fn own_word_count(&self) -> usize {
        match self {
            Type::Identifier(_) => 2,
            Type::FromPath(path) => 1 + path.word_count(),
            Type::App { .. }
            | Type::Tuple(_)
            | Type::Fn { .. }
            | Type::Array { .. }
            | Type::MetaData { .. } => 2,
            _ => 1,
        }
    }

    /// How many words hold the type.
    pub(super) fn word_count(&self) -> usize {
        let children = self.children();
        self.own_word_count() + children.into_iter().map(Type::word_count).sum::<usize>()
    }

    /// The words that hold `part`, which is this very tree or one inside it, not just an equal one.
    pub(super) fn words_of(&self, part: &Type) -> Option<Range<usize>> {
        let start = self.start_of(part, 0)?;
        Some(start..start + part.word_count())
    }

    /// Where `part` starts if this type starts at `start`.
    fn start_of(&self, part: &Type, start: usize) -> Option<usize> {
        if std::ptr::eq(self, part) {
            return Some(start);
        }
        let mut at = start + self.own_word_count();
        for child in self.children() {
            if let Some(found) = child.start_of(part, at) {
                return Some(found);
            }
            at += child.word_count();
        }
        None
    }
}

/// What a type that stands directly in a declaration is there for.
#[derive(Clone, Copy, Debug, PartialEq, Eq)]
pub(super) enum Role {
    Constraint,
    StructField,
    CaseField,
    SynonymTarget,
}

/// A type that stands directly in a declaration.
pub(super) struct Found<'a> {
    pub role: Role,
    pub tree: &'a Type,
    pub start: usize,
}

impl Found<'_> {
    pub fn words(&self) -> Range<usize> {
        self.start..self.start + self.tree.word_count()
    }
}

/// All types that stand directly in a declaration, in the order of the words.
pub(super) fn types_of(declaration: &Declaration) -> Vec<Found<'_>> {
    let mut walk = Walk {
        at: 1, // after the head
        found: Vec::new(),
    };
    match declaration {
        Declaration::Struct(tree) => {
            walk.front(&tree.attributes, &tree.parameters);
            walk.fields(&tree.fields, Role::StructField);
        }
        Declaration::Enum(tree) => {
            walk.front(&tree.attributes, &tree.parameters);
            walk.cases(&tree.cases);
        }
        Declaration::TypeSynonym(tree) => {
            walk.front(&tree.attributes, &tree.parameters);
            walk.found(&tree.target, Role::SynonymTarget);
        }
        Declaration::Use(_) => {}
    }
    walk.found
}

/// Goes through a declaration and counts its words.
struct Walk<'a> {
    at: usize,
    found: Vec<Found<'a>>,
}

impl<'a> Walk<'a> {
    /// Doc, attributes, name, parameters.
    fn front(&mut self, attributes: &'a [Attribute], parameters: &'a [TypeParameter]) {
        self.at += 1; // the doc
        self.at += 1; // how many attributes
        for attribute in attributes {
            self.at += 2 + attribute.arguments.len();
        }
        self.at += 1; // the name
        self.at += 1; // how many parameters
        for parameter in parameters {
            self.at += 2; // the name, and how many constraints
            for constraint in &parameter.constraints {
                self.found(constraint, Role::Constraint);
            }
        }
    }

    fn cases(&mut self, cases: &'a [EnumCase]) {
        self.at += 1; // how many
        for case in cases {
            self.at += 2; // doc and name
            self.fields(&case.fields, Role::CaseField);
        }
    }

    fn fields(&mut self, fields: &'a Fields, role: Role) {
        self.at += 2; // named or nameless, and how many
        match fields {
            Fields::Named(fields) => {
                for Field { field_type, .. } in fields {
                    self.at += 2; // visibility and name
                    self.found(field_type, role);
                }
            }
            Fields::Nameless(fields) => {
                for NamelessField { field_type, .. } in fields {
                    self.at += 1; // visibility
                    self.found(field_type, role);
                }
            }
        }
    }

    fn found(&mut self, tree: &'a Type, role: Role) {
        let start = self.at;
        self.found.push(Found { role, tree, start });
        self.at += tree.word_count();
    }
}
