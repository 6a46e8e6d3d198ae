//! Visit lists, shapes and parts.

use std::ops::Range;

use super::{
    borrows_then, joined, rebuilt, refused, with_least_room, WordCase, ARRAY2_OF, GAUGE,
    GAUGE_NAME, ID, MAYBE_UNINIT_OF, MM, OBJECT_OF, OFFSET, PTR_OF,
};
use crate::limits::DEPTH_LIMIT;
use crate::words::{fields::*, head::*, kind, kind::*, name::*, root::*, visibility::*};

/// Visits of types.
pub fn type_visits() -> Vec<WordCase> {
    let visits = |words: &[u32], wanted: &[u32]| rebuilt(words, &[], wanted);
    let mut cases = vec![
        visits(&[14, 1, 12, 16, 0], &[0, 2, 4]), // marked case (a)
        visits(&[0], &[0]),
        visits(&[13, 0, 3, 1, 2, 3], &[0]),
        visits(&[15, 16, 17, 18, 0], &[0, 1, 2, 3, 4]),
        visits(&[19, 0], &[0]),
        visits(&[19, 3, 0, 15, 1, 2], &[0, 2, 3, 4, 5]),
        visits(&[20, 2, 0, 1, 11], &[0, 2, 3, 4]),
        visits(&[21, 15, 0, 11], &[0, 1, 2, 3]),
        visits(&[22, 19, 15, 0], &[0, 2, 3]),
        visits(&[24, 3, 15, 0], &[0, 2, 3]),
        visits(&[14, 0, 12, 16], &[0, 2]),
        // Of a synonym the display alone.
        visits(&[23, 0, 11], &[0, 1]),
        visits(&[23, 15, 0, 15, 15, 0], &[0, 1, 2]),
        visits(&[19, 2, 23, 0, 15, 1, 11], &[0, 2, 3, 6]),
        visits(&[23, 23, 0, 1, 2], &[0, 1, 2]),
        refused(&[], &[], 3),
        refused(&[kind::END], &[], 4),
        refused(&borrows_then(DEPTH_LIMIT, &[]), &[], 5),
        refused(&[0, 0], &[], 6),
    ];
    let list = visits(&[19, 3, 0, 15, 1, 2], &[0, 2, 3, 4, 5]);
    cases.extend(with_least_room(&list, 5));
    cases.extend(with_least_room(&visits(&[23, 15, 0, 11], &[0, 1, 2]), 3));
    cases
}

/// Visits of declarations.
pub fn declaration_visits() -> Vec<WordCase> {
    let visits = |words: &[u32], wanted: &[u32]| rebuilt(words, &[], wanted);
    let parameters = [
        STRUCT, EMPTY, 1, GAUGE_NAME, 1, OFFSET, MM, 1, GAUGE_NAME, 2, U8, BORROWED, U8, NAMELESS,
        1, PUB, U8,
    ];
    let mut cases = vec![
        visits(&GAUGE, &[]), // marked case (h)
        visits(&parameters, &[10, 11, 12]),
        visits(
            &[
                ENUM, EMPTY, 0, GAUGE_NAME, 1, OFFSET, 1, U8, 2, EMPTY, MM, NAMELESS, 1, PUB, U8,
                OFFSET, ID, NAMED, 1, PUB, GAUGE_NAME, BORROWED, U8,
            ],
            &[7, 14, 21, 22],
        ),
        visits(&[ENUM, EMPTY, 0, GAUGE_NAME, 0, 0], &[]),
        visits(
            &[
                TYPE, EMPTY, 0, GAUGE_NAME, 1, OFFSET, 1, U8, SYNONYM, BORROWED, U8, BOOL,
            ],
            &[7, 8, 9, 10],
        ),
        visits(&[USE, PUB, GLOBAL, 2, GAUGE_NAME, OFFSET], &[]),
        refused(&[0], &[], 4),
        refused(&[USE, PUB, GLOBAL, 0, 0], &[], 6),
        refused(&GAUGE[..13], &[], 3),
    ];
    cases.extend(with_least_room(&visits(&parameters, &[10, 11, 12]), 3));
    cases.push(WordCase {
        buffer: 0,
        ..visits(&GAUGE, &[])
    });
    cases
}

/// A type and the names of all shapes that it has.
pub struct ShapeCase {
    pub words: Vec<u32>,
    pub shapes: &'static [&'static str],
}

fn shaped(words: &[u32], shapes: &'static [&'static str]) -> ShapeCase {
    ShapeCase {
        words: words.to_vec(),
        shapes,
    }
}

const ENDS: &str = "EndsWithNameThatCanAcceptGenerics";

pub fn shapes() -> Vec<ShapeCase> {
    let mut cases = plain_shapes();
    cases.extend(counted_shapes());
    cases.extend(boxed_shapes());
    cases.extend(collection_shapes());
    cases.extend(object_shapes());
    cases.extend(array_shapes());
    cases
}

fn plain_shapes() -> Vec<ShapeCase> {
    let mut cases: Vec<ShapeCase> = (U8..=I128)
        .map(|head| shaped(&[head], &[ENDS, "IsAutoSize", "CanReadWithoutClone"]))
        .collect();
    cases.extend([
        shaped(&[10], &["IsAutoSize", "CanReadWithoutClone"]),
        shaped(&[11], &["CanReadWithoutClone"]),
        shaped(&[12, 16], &[ENDS]),
        shaped(&[13, 0, 0], &[ENDS]),
        shaped(&[14, 0, 12, 16], &[]),
        shaped(&[15, 0], &[ENDS]),
        shaped(&[16, 12, 16], &[ENDS]),
        shaped(&[17, 13, 1, 0], &[ENDS]),
        shaped(&[18, 1], &[ENDS]),
        shaped(&[15, 10], &[]),
        shaped(&[19, 1, 0], &[]),
        shaped(&[20, 0, 0], &[]),
        shaped(&[21, 11, 0], &[ENDS]),
        shaped(&[21, 0, 11], &[]),
        shaped(&[22, 0, 0], &[]),
        // Marked case (f), and the other way round.
        shaped(&[23, 0, 11], &[ENDS, "CanReadWithoutClone"]),
        shaped(&[23, 11, 0], &["IsAutoSize", "CanReadWithoutClone"]),
        // Flag 1 suffices, flag 2 does not.
        shaped(&[24, 0, 12, 16], &[ENDS]),
        shaped(&[24, 1, 12, 16], &[ENDS, "CanReadWithoutClone"]),
        shaped(&[24, 2, 12, 16], &[ENDS]),
        shaped(&[24, 3, 19, 0], &["CanReadWithoutClone"]),
        shaped(&[24, 2, 10], &["IsAutoSize", "CanReadWithoutClone"]),
        shaped(&[23, 12, 16, 24, 1, 19, 0], &[ENDS, "CanReadWithoutClone"]),
        shaped(
            &[24, 0, 23, 19, 0, 0],
            &["IsAutoSize", "CanReadWithoutClone"],
        ),
    ]);
    cases
}

fn counted_shapes() -> Vec<ShapeCase> {
    const RC: &[&str] = &["IsRcOrBorrowedRc", "NeedsAsRefForBorrow", "IsRc"];
    vec![
        shaped(&[14, 1, 13, 0, 3, 1, 2, 3, 0], RC),
        shaped(&[14, 1, 13, 0, 3, 1, 4, 5, 0], RC),
        shaped(&[14, 1, 13, 0, 3, 27, 28, 29, 0], RC),
        shaped(&[14, 1, 13, 1, 3, 1, 2, 3, 0], &[]), // crate::std::rc::Rc
        shaped(&[14, 0, 13, 0, 3, 1, 2, 3], &[]),
        shaped(&[14, 2, 13, 0, 3, 1, 2, 3, 0, 0], &[]),
        shaped(&[14, 1, 13, 0, 2, 2, 3, 0], &[]),
        shaped(&[14, 1, 13, 0, 4, 1, 2, 3, 3, 0], &[]),
        shaped(&[14, 1, 13, 0, 3, 1, 2, 5, 0], &[]),
        shaped(&[14, 1, 24, 0, 13, 0, 3, 1, 2, 3, 0], &[]), // the base name is wrapped
        shaped(&[24, 0, 14, 1, 13, 0, 3, 1, 2, 3, 0], &[]),
        shaped(
            &[23, 0, 14, 1, 13, 0, 3, 1, 2, 3, 0],
            &[ENDS, "IsRcOrBorrowedRc"],
        ),
        shaped(
            &[23, 14, 1, 13, 0, 3, 1, 2, 3, 0, 11],
            &["CanReadWithoutClone"],
        ),
        shaped(
            &[15, 14, 1, 13, 0, 3, 1, 2, 3, 0],
            &["IsRcOrBorrowedRc", "NeedsAsRefForBorrow"],
        ),
        shaped(
            &[15, 15, 14, 1, 13, 0, 3, 1, 2, 3, 0],
            &["IsRcOrBorrowedRc"],
        ),
        shaped(&[16, 14, 1, 13, 0, 3, 1, 2, 3, 0], &[]),
        shaped(
            &[15, 23, 0, 15, 14, 1, 13, 0, 3, 1, 2, 3, 0],
            &[ENDS, "IsRcOrBorrowedRc"],
        ),
        shaped(&[15, 24, 0, 14, 1, 13, 0, 3, 1, 2, 3, 0], &[]),
    ]
}

fn boxed_shapes() -> Vec<ShapeCase> {
    vec![
        shaped(
            &[14, 1, 13, 0, 3, 1, 6, 7, 0],
            &["IsBox", "NeedsAsRefForBorrow"],
        ),
        shaped(&[15, 14, 1, 13, 0, 3, 1, 6, 7, 0], &["NeedsAsRefForBorrow"]),
        shaped(
            &[14, 1, 13, 0, 3, 1, 6, 7, 18, 0],
            &["IsBox", "NeedsAsRefForBorrow", "IsBoxDyn"],
        ),
        shaped(
            &[14, 1, 13, 0, 3, 1, 6, 7, 17, 0],
            &["IsBox", "NeedsAsRefForBorrow"],
        ),
        shaped(
            &[14, 1, 13, 0, 3, 1, 6, 7, 24, 0, 18, 0],
            &["IsBox", "NeedsAsRefForBorrow"],
        ),
        shaped(&[14, 2, 13, 0, 3, 1, 6, 7, 18, 0, 0], &[]),
        shaped(&[14, 1, 13, 0, 3, 1, 8, 9, 0], &["IsMaybeUninit"]),
        shaped(&[24, 0, 14, 1, 13, 0, 3, 1, 8, 9, 0], &[]),
        shaped(&[14, 1, 13, 0, 2, 10, 13, 0], &[]), // MaybePlacebo has no answer of its own
    ]
}

fn collection_shapes() -> Vec<ShapeCase> {
    const COLLECTION: &[&str] = &["IsBuiltinCollection"];
    vec![
        shaped(&[14, 1, 13, 0, 2, 10, 23, 0], COLLECTION),
        shaped(&[14, 1, 13, 0, 2, 30, 24, 0], COLLECTION),
        shaped(&[14, 1, 13, 0, 2, 10, 25, 0], COLLECTION),
        shaped(&[14, 2, 13, 0, 2, 10, 26, 0, 1], COLLECTION),
        shaped(&[14, 1, 13, 0, 2, 10, 26, 0], &[]),
        shaped(&[14, 2, 13, 0, 2, 10, 23, 0, 1], &[]),
        shaped(&[14, 3, 13, 0, 2, 10, 26, 0, 1, 2], &[]),
        shaped(&[14, 1, 13, 0, 2, 10, 34, 0], &[]),
        shaped(&[14, 1, 13, 1, 2, 10, 23, 0], &[]),
        shaped(&[14, 1, 13, 0, 3, 10, 23, 23, 0], &[]),
        shaped(&[14, 1, 13, 0, 1, 23, 0], &[]),
        shaped(&[23, 19, 0, 14, 1, 13, 0, 2, 10, 23, 0], COLLECTION),
        shaped(&[24, 0, 14, 1, 13, 0, 2, 10, 23, 0], COLLECTION),
        shaped(&[14, 1, 24, 0, 13, 0, 2, 10, 23, 0], &[]),
        shaped(&[15, 14, 1, 13, 0, 2, 10, 23, 0], &[]),
    ]
}

fn object_shapes() -> Vec<ShapeCase> {
    const POINTER: &[&str] = &["CanReadWithoutClone", "IsPointer", "IsObjectOrPointer"];
    vec![
        shaped(
            &[14, 1, 13, 0, 2, 10, 11, 0],
            &["IsObject", "IsObjectOrPointer"],
        ),
        shaped(
            &[14, 1, 13, 0, 2, 30, 32, 0],
            &["IsObject", "IsObjectOrPointer"],
        ),
        shaped(&[14, 1, 13, 0, 2, 10, 12, 0], POINTER),
        shaped(&[14, 1, 13, 0, 2, 30, 35, 0], POINTER),
        shaped(&[24, 0, 14, 1, 13, 0, 2, 10, 11, 0], &["IsObjectOrPointer"]),
        shaped(
            &[24, 0, 14, 1, 13, 0, 2, 10, 12, 0],
            &["CanReadWithoutClone", "IsObjectOrPointer"],
        ),
        shaped(
            &[23, 19, 0, 14, 1, 13, 0, 2, 10, 12, 0],
            &["CanReadWithoutClone", "IsObjectOrPointer"],
        ),
        shaped(&[23, 14, 1, 13, 0, 2, 10, 12, 0, 19, 0], &[]),
        shaped(&[14, 1, 13, 2, 2, 10, 12, 0], &[]),
    ]
}

fn array_shapes() -> Vec<ShapeCase> {
    const UNINIT: &[&str] = &["IsUninitArray", "IsObject", "IsObjectOrPointer"];
    const OBJECT: &[&str] = &["IsObject", "IsObjectOrPointer"];
    const MULTI: &[&str] = &["IsMultiArray"];
    let uninit_bool = joined(&[&MAYBE_UNINIT_OF, &[11]]);
    let object = |inside: &[&[u32]]| joined(&[&OBJECT_OF, &joined(inside), &uninit_bool]);
    vec![
        shaped(&object(&[&[22, 0]]), UNINIT),
        shaped(&object(&[&[22, 19]]), OBJECT), // a size
        shaped(&object(&[&[22, 1]]), OBJECT),
        shaped(&object(&[&[24, 0, 22, 0]]), UNINIT), // a wrapped array
        shaped(&object(&[&[23, 0, 22, 0]]), UNINIT),
        shaped(&object(&[&[24, 0], &ARRAY2_OF]), UNINIT),
        shaped(&object(&[&ARRAY2_OF]), UNINIT),
        shaped(&object(&[&[22, 0, 24, 0]]), OBJECT), // a wrapped element
        shaped(&object(&[&ARRAY2_OF, &[24, 0]]), OBJECT),
        shaped(&object(&[]), OBJECT),
        shaped(
            &joined(&[&[24, 0], &object(&[&[22, 0]])]),
            &["IsUninitArray", "IsObjectOrPointer"],
        ),
        shaped(&joined(&[&OBJECT_OF, &[22, 0, 0]]), OBJECT),
        shaped(&joined(&[&[22, 0], &uninit_bool]), &[]),
        // Two names, of which the second begins with Array, and one argument.
        shaped(&[14, 1, 13, 0, 2, 10, 20, 0], MULTI),
        shaped(&[14, 1, 13, 0, 2, 10, 21, 0], MULTI),
        shaped(&[14, 1, 13, 0, 2, 30, 21, 0], MULTI),
        shaped(&[14, 1, 13, 0, 2, 10, 22, 0], &[]),
        shaped(&[14, 1, 13, 0, 2, 10, 33, 0], &[]),
        shaped(&[14, 2, 13, 0, 2, 10, 21, 0, 0], &[]),
        shaped(&[14, 0, 13, 0, 2, 10, 21], &[]),
        shaped(&[14, 1, 13, 0, 1, 21, 0], &[]),
        shaped(&[14, 1, 13, 0, 3, 10, 21, 21, 0], &[]),
        shaped(&[14, 1, 13, 1, 2, 10, 21, 0], &[]),
        shaped(&[24, 0, 23, 11, 14, 1, 13, 0, 2, 10, 21, 0], MULTI),
        shaped(&[14, 1, 24, 0, 13, 0, 2, 10, 21, 0], &[]),
        shaped(&[14, 1, 12, 21, 0], &[]),
        shaped(&[14, 1, 13, 0, 2, 10, 31, 0], &[]), // an empty name
    ]
}

/// A type and its parts, by name. Of the parts not listed, the three that every type has are the
/// whole, and the others are refused.
pub struct PartCase {
    pub words: Vec<u32>,
    pub parts: Vec<(&'static str, Range<usize>)>,
}

impl PartCase {
    pub fn wanted(&self, name: &str) -> Option<Range<usize>> {
        match self.parts.iter().find(|(listed, _)| *listed == name) {
            Some((_, words)) => Some(words.clone()),
            None => matches!(name, "RemoveSynonyms" | "Expand" | "ToOwned")
                .then_some(0..self.words.len()),
        }
    }
}

fn with_parts(words: &[u32], parts: &[(&'static str, Range<usize>)]) -> PartCase {
    PartCase {
        words: words.to_vec(),
        parts: parts.to_vec(),
    }
}

const SYNONYMS: &str = "RemoveSynonyms";
const EXPANDED: &str = "Expand";
const OWNED: &str = "ToOwned";
const OBJECT_PART: &str = "ObjectOrPointerUnderlying";
const ELEMENT: &str = "GetBuiltinCollectionElement";
const UNINIT_ELEMENT: &str = "ExtractMaybeUninitArrayElement";

pub fn parts() -> Vec<PartCase> {
    let mut cases = wrapper_parts();
    cases.extend(argument_parts());
    cases.extend(element_parts());
    cases.extend(array_parts());
    cases.extend(uninit_array_parts());
    cases
}

fn wrapper_parts() -> Vec<PartCase> {
    vec![
        with_parts(&[0], &[]),
        with_parts(&[19, 2, 0, 1], &[]),
        // Marked case (f): a synonym's display and its base.
        with_parts(&[23, 0, 11], &[(SYNONYMS, 1..2), (EXPANDED, 2..3)]),
        with_parts(&[24, 3, 12, 16], &[(SYNONYMS, 2..4), (EXPANDED, 2..4)]),
        with_parts(
            &[23, 24, 0, 23, 15, 0, 1, 24, 1, 23, 2, 15, 3],
            &[(SYNONYMS, 4..6), (EXPANDED, 11..13)],
        ),
        with_parts(&[15, 0], &[(OWNED, 1..2)]),
        with_parts(&[16, 15, 0], &[(OWNED, 1..3)]),
        with_parts(&[17, 0], &[]),
        with_parts(&[24, 0, 15, 0], &[(SYNONYMS, 2..4), (EXPANDED, 2..4)]),
        with_parts(&[15, 23, 0, 1], &[(OWNED, 1..4)]),
    ]
}

/// Nothing is opened for these.
fn argument_parts() -> Vec<PartCase> {
    vec![
        with_parts(&[14, 1, 13, 0, 3, 1, 2, 3, 0], &[("RcUnderlying", 8..9)]),
        with_parts(
            &[14, 1, 13, 0, 3, 1, 4, 5, 15, 0],
            &[("RcUnderlying", 8..10)],
        ),
        with_parts(
            &[24, 0, 14, 1, 13, 0, 3, 1, 2, 3, 0],
            &[(SYNONYMS, 2..11), (EXPANDED, 2..11)],
        ),
        with_parts(&[14, 1, 24, 0, 13, 0, 3, 1, 2, 3, 0], &[]),
        with_parts(&[14, 1, 13, 0, 3, 1, 6, 7, 0], &[("BoxUnderlying", 8..9)]),
        with_parts(
            &[14, 1, 13, 0, 3, 1, 6, 7, 18, 12, 16],
            &[("BoxUnderlying", 8..11), ("BoxDynUnderlying", 9..11)],
        ),
        with_parts(
            &[14, 1, 13, 0, 3, 1, 6, 7, 24, 0, 18, 0],
            &[("BoxUnderlying", 8..12)],
        ),
        with_parts(
            &[14, 1, 13, 0, 2, 10, 13, 15, 0],
            &[("ExtractMaybePlacebo", 7..9)],
        ),
        with_parts(&[14, 2, 13, 0, 2, 10, 13, 0, 0], &[]),
        with_parts(
            &[23, 0, 14, 1, 13, 0, 2, 10, 13, 0],
            &[(SYNONYMS, 1..2), (EXPANDED, 2..10)],
        ),
    ]
}

/// Of a map the second argument.
fn element_parts() -> Vec<PartCase> {
    vec![
        with_parts(&[14, 1, 13, 0, 2, 10, 23, 0], &[(ELEMENT, 7..8)]),
        with_parts(
            &[14, 2, 13, 0, 2, 10, 26, 15, 0, 15, 1],
            &[(ELEMENT, 9..11)],
        ),
        with_parts(&[14, 2, 13, 0, 2, 10, 23, 0, 1], &[]),
        with_parts(
            &[23, 0, 14, 1, 13, 0, 2, 30, 24, 15, 0],
            &[(SYNONYMS, 1..2), (EXPANDED, 2..11), (ELEMENT, 9..11)],
        ),
    ]
}

fn uninit_array_parts() -> Vec<PartCase> {
    let uninit_bool = joined(&[&MAYBE_UNINIT_OF, &[11]]);
    let object = |inside: &[&[u32]]| joined(&[&OBJECT_OF, &joined(inside), &uninit_bool]);
    vec![
        with_parts(
            &object(&[&[22, 0]]),
            &[(OBJECT_PART, 7..18), (UNINIT_ELEMENT, 17..18)],
        ),
        // A size does not matter here.
        with_parts(
            &object(&[&[22, 19]]),
            &[(OBJECT_PART, 7..18), (UNINIT_ELEMENT, 17..18)],
        ),
        with_parts(&object(&[&[24, 0, 22, 0]]), &[(OBJECT_PART, 7..20)]),
        with_parts(
            &object(&[&[24, 0], &ARRAY2_OF]),
            &[(OBJECT_PART, 7..25), (UNINIT_ELEMENT, 24..25)],
        ),
        with_parts(&object(&[&[22, 0, 24, 0]]), &[(OBJECT_PART, 7..20)]),
        with_parts(
            &joined(&[&[24, 0], &PTR_OF, &[22, 0], &MAYBE_UNINIT_OF, &[15, 0]]),
            &[
                (SYNONYMS, 2..21),
                (EXPANDED, 2..21),
                (OBJECT_PART, 9..21),
                (UNINIT_ELEMENT, 19..21),
            ],
        ),
    ]
}

fn array_parts() -> Vec<PartCase> {
    let uninit_bool = joined(&[&MAYBE_UNINIT_OF, &[11]]);
    vec![
        with_parts(
            &joined(&[&ARRAY2_OF, &uninit_bool]),
            &[("MultiArrayUnderlying", 7..16)],
        ),
        with_parts(
            &[23, 0, 14, 1, 13, 0, 2, 30, 20, 12, 27],
            &[
                (SYNONYMS, 1..2),
                (EXPANDED, 2..11),
                ("MultiArrayUnderlying", 9..11),
            ],
        ),
        with_parts(&[14, 1, 13, 0, 2, 10, 22, 0], &[]),
        with_parts(&joined(&[&[22, 0], &uninit_bool]), &[]),
    ]
}
