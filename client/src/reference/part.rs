//! Parts of a type: which words of the caller hold the type that a function of the source gives.

use std::ops::Range;

use super::read_type;
use super::shape::{ARC, BOX, MAYBE_PLACEBO, MAYBE_UNINIT, OBJECT, PTR, RC};
use crate::tree::Type;
use crate::{Encoding, Refusal};

/// One of the functions that give a part.
pub struct Part {
    /// The name in the source.
    pub name: &'static str,
    /// None where the source has a `requires` that fails, or `None`.
    pub of: fn(&Type) -> Option<&Type>,
}

impl Part {
    /// The range of the caller's words that holds the part.
    pub fn answer(&self, encoding: &Encoding<'_>) -> Result<Range<usize>, Refusal> {
        let tree = read_type(encoding)?;
        let part = (self.of)(&tree).ok_or(Refusal::NoSuchPart)?;
        let words = tree.words_of(part);
        Ok(words.expect("each function gives the type itself or one inside it"))
    }
}

const fn part(name: &'static str, of: fn(&Type) -> Option<&Type>) -> Part {
    Part { name, of }
}

/// All of them, in the order of `docs/API.md`.
pub static PARTS: [Part; 11] = [
    part("RemoveSynonyms", |tree| Some(tree.remove_synonyms())),
    part("Expand", |tree| Some(tree.expand())),
    part("ToOwned", |tree| Some(tree.to_owned_type())),
    part("MultiArrayUnderlying", Type::multi_array_underlying),
    part("BoxUnderlying", Type::box_underlying),
    part(
        "ObjectOrPointerUnderlying",
        Type::object_or_pointer_underlying,
    ),
    part("RcUnderlying", Type::rc_underlying),
    part("BoxDynUnderlying", Type::box_dyn_underlying),
    part(
        "GetBuiltinCollectionElement",
        Type::builtin_collection_element,
    ),
    part("ExtractMaybePlacebo", Type::extract_maybe_placebo),
    part(
        "ExtractMaybeUninitArrayElement",
        Type::extract_maybe_uninit_array_element,
    ),
];

impl Type {
    /// Follows the display of synonyms and of metadata.
    pub(super) fn remove_synonyms(&self) -> &Type {
        match self {
            Type::Synonym { display, .. } | Type::MetaData { display, .. } => {
                display.remove_synonyms()
            }
            other => other,
        }
    }

    /// `ToOwned`
    fn to_owned_type(&self) -> &Type {
        match self {
            Type::Borrowed(underlying) | Type::BorrowedMut(underlying) => underlying,
            other => other,
        }
    }

    pub(super) fn multi_array_underlying(&self) -> Option<&Type> {
        if !self.is_multi_array() {
            return None;
        }
        let (_name, arguments) = self.expand().runtime_application()?;
        arguments.first()
    }

    fn box_underlying(&self) -> Option<&Type> {
        self.sole_argument_of(&BOX)
    }

    pub(super) fn object_or_pointer_underlying(&self) -> Option<&Type> {
        let expanded = self.expand();
        let object = expanded.sole_argument_of(&OBJECT);
        object.or_else(|| expanded.sole_argument_of(&PTR))
    }

    fn rc_underlying(&self) -> Option<&Type> {
        let rc = self.sole_argument_of(&RC);
        rc.or_else(|| self.sole_argument_of(&ARC))
    }

    fn box_dyn_underlying(&self) -> Option<&Type> {
        match self.sole_argument_of(&BOX) {
            Some(Type::Dyn(underlying)) => Some(underlying),
            _ => None,
        }
    }

    /// `GetBuiltinCollectionElement`: of a map the second argument.
    fn builtin_collection_element(&self) -> Option<&Type> {
        if !self.is_builtin_collection() {
            return None;
        }
        let (name, arguments) = self.expand().runtime_application()?;
        arguments.get(if name == b"Map" { 1 } else { 0 })
    }

    fn extract_maybe_placebo(&self) -> Option<&Type> {
        self.sole_argument_of(&MAYBE_PLACEBO)
    }

    fn extract_maybe_uninit_array_element(&self) -> Option<&Type> {
        let array = self.object_or_pointer_underlying()?; // not expanded
        if let Type::Array { element, .. } = array
            && let Some(inside) = element.sole_argument_of(&MAYBE_UNINIT)
        {
            return Some(inside);
        }
        let element = array.multi_array_underlying()?;
        element.sole_argument_of(&MAYBE_UNINIT)
    }
}

#[cfg(test)]
mod tests {
    use super::*;
    use crate::cases;
    use crate::words::kind;

    /// All eleven parts of each type.
    #[test]
    fn parts_by_hand() {
        for case in cases::parts() {
            let sample = cases::encoded(&case.words);
            for part in &PARTS {
                let wanted = case.wanted(part.name).ok_or(Refusal::NoSuchPart);
                let answer = part.answer(&sample.as_encoding());
                assert_eq!(answer, wanted, "{} of {:?}", part.name, case.words);
            }
        }
    }

    #[test]
    fn the_cases_name_parts_that_exist() {
        let cases = cases::parts();
        let listed = |name| {
            let mut all = cases.iter().flat_map(|case| &case.parts);
            all.any(|(listed, _)| *listed == name)
        };
        for (name, _) in cases.iter().flat_map(|case| &case.parts) {
            assert!(PARTS.iter().any(|part| part.name == *name), "{name}");
        }
        for part in &PARTS {
            assert!(listed(part.name), "{}", part.name);
        }
    }

    #[test]
    fn refusals() {
        for part in &PARTS {
            for (words, number) in [
                (&[][..], 3),
                (&[kind::END], 4),
                (&[0, 0], 6),
                (&[12, 36], 4),
            ] {
                let answer = part.answer(&cases::encoded(words).as_encoding());
                assert_eq!(answer.map_err(Refusal::number), Err(number));
            }
        }
    }
}
