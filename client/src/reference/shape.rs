//! The yes-or-no answers about a type, each as its body in the source has it.

use super::read_type;
use crate::tree::{Path, Root, Type};
use crate::{Encoding, Refusal};

/// One of the answers.
pub struct Shape {
    /// The name in the source.
    pub name: &'static str,
    pub holds: fn(&Type) -> bool,
}

impl Shape {
    pub fn answer(&self, encoding: &Encoding<'_>) -> Result<bool, Refusal> {
        Ok((self.holds)(&read_type(encoding)?))
    }
}

const fn shape(name: &'static str, holds: fn(&Type) -> bool) -> Shape {
    Shape { name, holds }
}

/// All of them, in the order of `docs/API.md`.
pub static SHAPES: [Shape; 15] = [
    shape(
        "EndsWithNameThatCanAcceptGenerics",
        Type::ends_with_name_that_can_accept_generics,
    ),
    shape("IsAutoSize", Type::is_auto_size),
    shape("CanReadWithoutClone", Type::can_read_without_clone),
    shape("IsRcOrBorrowedRc", Type::is_rc_or_borrowed_rc),
    shape("IsMultiArray", Type::is_multi_array),
    shape("IsMaybeUninit", Type::is_maybe_uninit),
    shape("IsUninitArray", Type::is_uninit_array),
    shape("IsBox", Type::is_box),
    shape("NeedsAsRefForBorrow", Type::needs_as_ref_for_borrow),
    shape("IsObject", Type::is_object),
    shape("IsPointer", Type::is_pointer),
    shape("IsObjectOrPointer", Type::is_object_or_pointer),
    shape("IsBuiltinCollection", Type::is_builtin_collection),
    shape("IsRc", Type::is_rc),
    shape("IsBoxDyn", Type::is_box_dyn),
];

pub(super) const RC: [&str; 3] = ["std", "rc", "Rc"];
pub(super) const ARC: [&str; 3] = ["std", "sync", "Arc"];
pub(super) const BOX: [&str; 3] = ["std", "boxed", "Box"];
pub(super) const MAYBE_UNINIT: [&str; 3] = ["std", "mem", "MaybeUninit"];
pub(super) const OBJECT: [&str; 2] = ["dafny_runtime", "Object"];
pub(super) const PTR: [&str; 2] = ["dafny_runtime", "Ptr"];
pub(super) const MAYBE_PLACEBO: [&str; 2] = ["dafny_runtime", "MaybePlacebo"];

impl Type {
    /// Whether this is the path `::name::name` with these names, and no wrapper around it.
    fn is_global_path(&self, names: &[&str]) -> bool {
        matches!(self, Type::FromPath(path) if *path == Path::global(names))
    }

    /// The argument, if this is that path applied to exactly one.
    pub(super) fn sole_argument_of(&self, names: &[&str]) -> Option<&Type> {
        match self {
            Type::App { base, arguments } if base.is_global_path(names) => match &arguments[..] {
                [argument] => Some(argument),
                _ => None,
            },
            _ => None,
        }
    }

    /// The arguments and the name, if this is `::dafny_runtime::name<arguments>`.
    pub(super) fn runtime_application(&self) -> Option<(&[u8], &[Type])> {
        let Type::App { base, arguments } = self else {
            return None;
        };
        let Type::FromPath(path) = &**base else {
            return None;
        };
        match &path.names[..] {
            [module, name] if path.root == Root::Global && module == b"dafny_runtime" => {
                Some((name, arguments))
            }
            _ => None,
        }
    }

    pub(super) fn ends_with_name_that_can_accept_generics(&self) -> bool {
        match self {
            Type::U8
            | Type::U16
            | Type::U32
            | Type::U64
            | Type::U128
            | Type::I8
            | Type::I16
            | Type::I32
            | Type::I64
            | Type::I128
            | Type::Identifier(_)
            | Type::FromPath(_) => true,
            Type::Borrowed(underlying)
            | Type::BorrowedMut(underlying)
            | Type::Impl(underlying)
            | Type::Dyn(underlying) => underlying.ends_with_name_that_can_accept_generics(),
            Type::Intersection { right, .. } => right.ends_with_name_that_can_accept_generics(),
            Type::Synonym { display, .. } | Type::MetaData { display, .. } => {
                display.ends_with_name_that_can_accept_generics()
            }
            _ => false,
        }
    }

    pub(super) fn is_auto_size(&self) -> bool {
        match self {
            Type::U8
            | Type::U16
            | Type::U32
            | Type::U64
            | Type::U128
            | Type::I8
            | Type::I16
            | Type::I32
            | Type::I64
            | Type::I128
            | Type::Usize => true,
            Type::Synonym { base, .. } => base.is_auto_size(),
            Type::MetaData { display, .. } => display.is_auto_size(),
            _ => false,
        }
    }

    pub(super) fn can_read_without_clone(&self) -> bool {
        self.is_auto_size()
            || *self == Type::Bool
            || self.is_pointer()
            || match self {
                Type::Synonym { base, .. } => base.can_read_without_clone(),
                Type::MetaData {
                    display,
                    copy_semantics,
                    ..
                } => *copy_semantics || display.can_read_without_clone(),
                _ => false,
            }
    }

    pub(super) fn is_rc_or_borrowed_rc(&self) -> bool {
        self.is_rc()
            || match self {
                Type::Borrowed(underlying) => underlying.is_rc_or_borrowed_rc(),
                Type::Synonym { base, .. } => base.is_rc_or_borrowed_rc(),
                _ => false,
            }
    }

    pub(super) fn is_multi_array(&self) -> bool {
        match self.expand().runtime_application() {
            Some((name, arguments)) => arguments.len() == 1 && name.starts_with(b"Array"),
            None => false,
        }
    }

    /// `IsMaybeUninit`, and the module's `IsMaybeUninitType`, which says the same.
    pub(super) fn is_maybe_uninit(&self) -> bool {
        self.sole_argument_of(&MAYBE_UNINIT).is_some()
    }

    pub(super) fn is_uninit_array(&self) -> bool {
        let Some(underlying) = self.object_or_pointer_underlying() else {
            return false;
        };
        let array = underlying.expand();
        if let Type::Array {
            element,
            size: None,
        } = array
        {
            return element.is_maybe_uninit();
        }
        array
            .multi_array_underlying()
            .is_some_and(Type::is_maybe_uninit)
    }

    pub(super) fn is_box(&self) -> bool {
        self.sole_argument_of(&BOX).is_some()
    }

    pub(super) fn needs_as_ref_for_borrow(&self) -> bool {
        match self {
            Type::Borrowed(underlying) => underlying.is_box() || underlying.is_rc(),
            _ => self.is_box() || self.is_rc(),
        }
    }

    pub(super) fn is_object(&self) -> bool {
        self.sole_argument_of(&OBJECT).is_some()
    }

    pub(super) fn is_pointer(&self) -> bool {
        self.sole_argument_of(&PTR).is_some()
    }

    pub(super) fn is_object_or_pointer(&self) -> bool {
        let expanded = self.expand();
        expanded.is_pointer() || expanded.is_object()
    }

    pub(super) fn is_builtin_collection(&self) -> bool {
        match self.expand().runtime_application() {
            Some((b"Set" | b"Sequence" | b"Multiset", arguments)) => arguments.len() == 1,
            Some((b"Map", arguments)) => arguments.len() == 2,
            _ => false,
        }
    }

    pub(super) fn is_rc(&self) -> bool {
        self.sole_argument_of(&RC).is_some() || self.sole_argument_of(&ARC).is_some()
    }

    pub(super) fn is_box_dyn(&self) -> bool {
        matches!(self.sole_argument_of(&BOX), Some(Type::Dyn(_)))
    }
}

#[cfg(test)]
mod tests {
    use super::*;
    use crate::cases;
    use crate::words::kind;

    /// All fifteen answers for each type.
    #[test]
    fn shapes_by_hand() {
        for case in cases::shapes() {
            let sample = cases::encoded(&case.words);
            for shape in &SHAPES {
                let wanted = Ok(case.shapes.contains(&shape.name));
                let answer = shape.answer(&sample.as_encoding());
                assert_eq!(answer, wanted, "{} of {:?}", shape.name, case.words);
            }
        }
    }

    #[test]
    fn the_cases_name_shapes_that_exist() {
        for name in cases::shapes().iter().flat_map(|case| case.shapes) {
            assert!(SHAPES.iter().any(|shape| shape.name == *name), "{name}");
        }
        for shape in &SHAPES {
            let mut cases = cases::shapes().into_iter();
            assert!(cases.any(|case| case.shapes.contains(&shape.name)));
        }
    }

    #[test]
    fn refusals() {
        for shape in &SHAPES {
            for (words, number) in [
                (&[][..], 3),
                (&[kind::END], 4),
                (&[0, 0], 6),
                (&[12, 36], 4),
            ] {
                let answer = shape.answer(&cases::encoded(words).as_encoding());
                assert_eq!(answer.map_err(Refusal::number), Err(number));
            }
        }
    }
}
