//! Rebuilt trees.

use super::{
    borrows_then, joined, rebuilt, refused, with_least_room, WordCase, ARRAY2_OF, GAUGE,
    GAUGE_NAME, ID, MAYBE_UNINIT_OF, MM, OBJECT_OF, OFFSET, PTR_OF,
};
use crate::limits::{DEPTH_LIMIT, RULE_LIMIT};
use crate::words::{fields::*, head::*, kind, kind::*, name::*, root::*, visibility::*, NO_SIZE};

/// Rebuilt types.
pub fn type_rebuilds() -> Vec<WordCase> {
    let mut cases = replacements();
    cases.extend(equal_types());
    cases.extend(peaks());
    cases.extend(depths());
    cases.extend(refused_rules());
    cases
}

fn replacements() -> Vec<WordCase> {
    vec![
        rebuilt(&[15, 1], &[2, 1, 0, 15, 0, 11], &[11]), // marked case (g)
        rebuilt(&[14, 1, 12, 16, 0], &[0], &[14, 1, 12, 16, 0]),
        rebuilt(&[12, 27], &[0], &[12, 27]),
        rebuilt(&[12, 27], &[1, 0, 1], &[12, 27]),
        // A from is compared with the finished type, and a to is not searched again.
        rebuilt(&[15, 0], &[2, 0, 1, 15, 0, 11], &[15, 1]),
        rebuilt(&[15, 15, 0], &[1, 15, 0, 0], &[0]),
        rebuilt(&[0], &[2, 0, 1, 1, 2], &[1]),
        rebuilt(&[19, 2, 0, 1], &[2, 0, 1, 1, 0], &[19, 2, 1, 0]),
        rebuilt(&[15, 0], &[1, 0, 15, 0], &[15, 15, 0]),
        // Every child of every kind, the last one too.
        rebuilt(&[14, 2, 0, 1, 0], &[1, 0, 2], &[14, 2, 2, 1, 2]),
        rebuilt(&[14, 0, 0], &[1, 0, 12, 16], &[14, 0, 12, 16]),
        rebuilt(
            &[19, 4, 16, 0, 17, 0, 18, 0, 0],
            &[1, 0, 2],
            &[19, 4, 16, 2, 17, 2, 18, 2, 2],
        ),
        rebuilt(&[20, 2, 0, 1, 0], &[1, 0, 2], &[20, 2, 2, 1, 2]),
        rebuilt(&[21, 0, 0], &[1, 0, 2], &[21, 2, 2]),
        rebuilt(&[22, 1, 0], &[1, 0, 2], &[22, 1, 2]),
        rebuilt(&[23, 0, 0], &[1, 0, 2], &[23, 2, 2]),
        rebuilt(&[24, 3, 0], &[1, 0, 2], &[24, 3, 2]),
        // Own words that look like the from are no types.
        rebuilt(&[14, 0, 12, 0], &[1, 0, 2], &[14, 0, 12, 0]),
        rebuilt(&[13, 0, 0], &[1, 0, 2], &[13, 0, 0]),
        rebuilt(&[13, 0, 2, 1, 2], &[3, 0, 3, 1, 4, 2, 5], &[13, 0, 2, 1, 2]),
        // 32 rules are allowed.
        rebuilt(&[19, 1, 24, 3, 7], &thirty_two_rules(), &[19, 1, 22, 32, 0]),
    ]
}

/// Rules for metadata around plain types: the last turns `24 3 7` into `22 32 0`.
fn thirty_two_rules() -> Vec<u32> {
    let mut rules = vec![RULE_LIMIT as u32];
    for number in 0..RULE_LIMIT as u32 {
        rules.extend([META_DATA, number / 8, number % 8, ARRAY, number + 1, U8]);
    }
    rules
}

fn equal_types() -> Vec<WordCase> {
    let replaced =
        |words: &[u32], from: &[u32]| rebuilt(words, &[&[1], from, &[11]].concat(), &[11]);
    let kept = |words: &[u32], from: &[u32]| rebuilt(words, &[&[1], from, &[11]].concat(), words);
    vec![
        // Names are equal when their bytes are.
        replaced(&[12, 27], &[12, 1]),
        replaced(&[12, 1], &[12, 27]),
        replaced(&[12, 0], &[12, 31]),
        replaced(&[13, 0, 3, 1, 28, 3], &[13, 0, 3, 27, 2, 29]),
        replaced(&[22, 28, 0], &[22, 2, 0]),
        replaced(&[22, 1, 0], &[22, 32, 0]),
        replaced(
            &[14, 1, 12, 27, 24, 2, 12, 29],
            &[14, 1, 12, 1, 24, 2, 12, 3],
        ),
        kept(&[12, 21], &[12, 20]),
        kept(&[12, 20], &[12, 21]),
        kept(&[12, 27], &[12, 28]),
        // Kinds, roots, counts, flags, bases and sizes count too.
        kept(&[12, 16], &[13, 0, 1, 16]),
        kept(&[13, 0, 1, 16], &[13, 1, 1, 16]),
        kept(&[13, 0, 1, 16], &[13, 0, 2, 16, 16]),
        kept(&[13, 0, 2, 16, 16], &[13, 0, 1, 16]),
        kept(&[15, 0], &[16, 0]),
        kept(&[24, 1, 0], &[24, 2, 0]),
        kept(&[23, 0, 1], &[23, 0, 2]),
        kept(&[24, 0, 0], &[0]).with_wanted(&[24, 0, 11]),
        kept(&[22, 0, 0], &[22, 1, 0]),
        kept(&[22, 1, 0], &[22, 0, 0]),
        kept(&[22, 19, 0], &[22, 20, 0]),
        kept(&[14, 0, 12, 16], &[12, 16]).with_wanted(&[14, 0, 11]),
        kept(&[19, 2, 0, 1], &[19, 2, 1, 0]),
        kept(&[19, 2, 0, 1], &[19, 1, 0]),
        kept(&[14, 1, 0, 1], &[20, 1, 0, 1]),
    ]
}

impl WordCase {
    fn with_wanted(self, words: &[u32]) -> WordCase {
        WordCase {
            wanted: Ok(words.to_vec()),
            ..self
        }
    }
}

fn peaks() -> Vec<WordCase> {
    let large = [19, 5, 1, 1, 1, 1, 1];
    let grown_and_gone = [&[2, 0], &large[..], &[15], &large, &[11]].concat();
    let second_gone = [&[2, 1], &large[..], &[19, 2, 0], &large, &[11]].concat();
    [
        with_least_room(&rebuilt(&[14, 1, 12, 16, 0], &[0], &[14, 1, 12, 16, 0]), 5),
        with_least_room(
            &rebuilt(&[13, 0, 2, 1, 2], &[1, 13, 0, 2, 1, 2, 0], &[0]),
            5,
        ),
        with_least_room(&rebuilt(&[15, 0], &grown_and_gone, &[11]), 8),
        // The finished words go before the others come.
        with_least_room(&rebuilt(&[0], &[1, 0, 19, 2, 1, 1], &[19, 2, 1, 1]), 4),
        with_least_room(
            &rebuilt(
                &[19, 2, 0, 1],
                &[1, 19, 2, 0, 1, 19, 3, 1, 1, 1],
                &[19, 3, 1, 1, 1],
            ),
            5,
        ),
        // What came before counts, what comes after does not yet.
        with_least_room(&rebuilt(&[19, 2, 0, 1], &second_gone, &[11]), 10),
        with_least_room(
            &rebuilt(
                &[19, 3, 15, 15, 0, 1, 1],
                &[1, 15, 15, 0, 2],
                &[19, 3, 2, 1, 1],
            ),
            5,
        ),
        with_least_room(
            &rebuilt(&[19, 2, 0, 15, 15, 15, 0], &[1, 15, 0, 0], &[19, 2, 0, 0]),
            7,
        ),
    ]
    .concat()
}

fn depths() -> Vec<WordCase> {
    let room = |case: WordCase, buffer| WordCase { buffer, ..case };
    let inside = DEPTH_LIMIT - 1;
    let deepest = borrows_then(inside, &[0]);
    let length = deepest.len();
    let deeper = &[1, 0, 15, 0];
    // Inside 63 borrows a second one comes and both go again.
    let back_again = &[2, 0, 15, 0, 15, 15, 0, 1];
    vec![
        room(
            rebuilt(&deepest, &[1, 0, 1], &borrows_then(inside, &[1])),
            length,
        ),
        room(refused(&deepest, deeper, 5), length + 1),
        room(refused(&deepest, deeper, 5), 100),
        room(refused(&deepest, deeper, 8), length), // 8 comes before 5
        room(
            rebuilt(&deepest, back_again, &borrows_then(inside - 1, &[1])),
            length + 1,
        ),
        room(refused(&deepest, back_again, 8), length),
        room(
            rebuilt(&deepest, &[1, 0, 19, 0], &borrows_then(inside, &[19, 0])),
            length + 1,
        ),
        room(refused(&deepest, &[1, 0, 19, 1, 0], 5), length + 2),
    ]
}

fn refused_rules() -> Vec<WordCase> {
    vec![
        refused(&[0], &[], 3),
        refused(&[0], &[RULE_LIMIT as u32 + 1], 4),
        refused(&[0], &[u32::MAX], 4),
        refused(&[0], &[1], 3),
        refused(&[0], &[1, 0], 3),
        refused(&[0], &[1, 15], 3),
        refused(&[0], &[1, 0, kind::END], 4),
        refused(&[0], &[1, kind::END, 0], 4),
        refused(&[0], &[1, 12, 36, 0], 4),
        refused(&[0], &[1, 0, 12, 36], 4),
        refused(&[0], &[0, 0], 6),
        refused(&[0], &[1, 0, 1, kind::END], 6),
        refused(&[0], &[RULE_LIMIT as u32, 0, 1], 3),
        // Two rules with equal from, whatever their tos, and after all words were read.
        refused(&[1], &[2, 0, 1, 0, 1], 10),
        refused(&[1], &[2, 0, 1, 0, 2], 10),
        refused(&[1], &[2, 12, 1, 0, 12, 27, 1], 10),
        refused(&[1], &[3, 0, 1, 2, 3, 0, 1], 10),
        refused(&[1], &[2, 0, 1, 0, 1, 0], 6),
        refused(&[1], &[3, 0, 1, 0, 1, 0], 3),
        refused(&[19, 3, 0, 0, 0], &[2, 0, 1, 0, 1], 10), // not 8
        // All of the tree comes before the first word of the rules.
        refused(&[], &[RULE_LIMIT as u32 + 1], 3),
        refused(&[kind::END], &[], 4),
        refused(&[0, 0], &[], 6),
        refused(&[0, 0], &[RULE_LIMIT as u32 + 1], 6),
    ]
}

/// Rebuilt declarations.
pub fn declaration_rebuilds() -> Vec<WordCase> {
    let mut cases = replacements_in_declarations();
    cases.extend(peaks_of_declarations());
    cases.extend([
        refused(&[0], &[0], 4),
        refused(&[12, 16], &[0], 4),
        refused(&[USE, PUB, GLOBAL, 0, 0], &[], 6),
        refused(&[USE, PUB, GLOBAL, 0], &[], 3),
        refused(&[USE, PUB, GLOBAL, 0], &[2, 0, 1, 0, 1], 10),
        refused(&[USE, PUB, GLOBAL, 0], &[0], 8),
    ]);
    cases
}

fn replacements_in_declarations() -> Vec<WordCase> {
    vec![
        rebuilt(&GAUGE, &[0], &GAUGE),
        // A struct's fields are rebuilt, the words between them kept.
        rebuilt(
            &GAUGE,
            &[2, I32, IDENTIFIER, GAUGE_NAME, U8, TUPLE, 0],
            &[
                STRUCT, OFFSET, 0, GAUGE_NAME, 0, NAMED, 2, PUB, MM, IDENTIFIER, GAUGE_NAME, PRIV,
                ID, BORROWED, TUPLE, 0,
            ],
        ),
        rebuilt(
            &[
                STRUCT, EMPTY, 1, GAUGE_NAME, 1, OFFSET, MM, 1, GAUGE_NAME, 2, U8, BORROWED, U8,
                NAMELESS, 1, PUB, U8,
            ],
            &[1, U8, U16],
            &[
                STRUCT, EMPTY, 1, GAUGE_NAME, 1, OFFSET, MM, 1, GAUGE_NAME, 2, U16, BORROWED, U16,
                NAMELESS, 1, PUB, U16,
            ],
        ),
        rebuilt(
            &[
                ENUM, EMPTY, 0, GAUGE_NAME, 1, OFFSET, 1, U8, 2, EMPTY, MM, NAMELESS, 1, PUB, U8,
                OFFSET, ID, NAMED, 1, PUB, GAUGE_NAME, U8,
            ],
            &[1, U8, BOOL],
            &[
                ENUM, EMPTY, 0, GAUGE_NAME, 1, OFFSET, 1, BOOL, 2, EMPTY, MM, NAMELESS, 1, PUB,
                BOOL, OFFSET, ID, NAMED, 1, PUB, GAUGE_NAME, BOOL,
            ],
        ),
        rebuilt(
            &[TYPE, EMPTY, 0, GAUGE_NAME, 0, SYNONYM, U8, U8],
            &[1, U8, BORROWED, U8],
            &[
                TYPE, EMPTY, 0, GAUGE_NAME, 0, SYNONYM, BORROWED, U8, BORROWED, U8,
            ],
        ),
        rebuilt(
            &[USE, PUB, CRATE, 2, GAUGE_NAME, EMPTY],
            &[1, U8, U32],
            &[USE, PUB, CRATE, 2, GAUGE_NAME, EMPTY],
        ),
    ]
}

fn peaks_of_declarations() -> Vec<WordCase> {
    let mut cases = Vec::new();
    // The word after a replacement counts again.
    let shrinking = rebuilt(
        &GAUGE,
        &[1, BORROWED, U8, U8],
        &[
            STRUCT, OFFSET, 0, GAUGE_NAME, 0, NAMED, 2, PUB, MM, I32, PRIV, ID, U8,
        ],
    );
    cases.extend(with_least_room(&shrinking, 14));
    let growing = rebuilt(
        &GAUGE,
        &[2, I32, TUPLE, 3, U16, U16, U16, BORROWED, U8, U8],
        &[
            STRUCT, OFFSET, 0, GAUGE_NAME, 0, NAMED, 2, PUB, MM, TUPLE, 3, U16, U16, U16, PRIV, ID,
            U8,
        ],
    );
    cases.extend(with_least_room(&growing, 18));
    // Each type has a depth of its own.
    let deep = [
        &[TYPE, EMPTY, 0, GAUGE_NAME, 1, OFFSET, 1, U8][..],
        &borrows_then(DEPTH_LIMIT - 1, &[U8]),
    ]
    .concat();
    for (buffer, number) in [(deep.len() + 2, 5), (deep.len() - 1, 8)] {
        cases.push(WordCase {
            buffer,
            ..refused(&deep, &[1, U8, BORROWED, U8], number)
        });
    }
    cases
}

/// Types at initialization.
pub fn initializations() -> Vec<WordCase> {
    let mut cases = changed_initializations();
    cases.extend(wrapped_initializations());
    cases.extend(unchanged_initializations());
    // Of the refusals, 8 comes before 5.
    let deepest = joined(&[
        &OBJECT_OF,
        &[ARRAY, NO_SIZE],
        &borrows_then(DEPTH_LIMIT - 3, &[U8]),
    ]);
    let enough = deepest.len() + MAYBE_UNINIT_OF.len();
    for (buffer, number) in [(enough, 5), (enough - 1, 8), (0, 8)] {
        cases.push(WordCase {
            buffer,
            ..refused(&deepest, &[], number)
        });
    }
    let shallower = joined(&[
        &OBJECT_OF,
        &[ARRAY, NO_SIZE],
        &borrows_then(DEPTH_LIMIT - 4, &[U8]),
    ]);
    let one_deeper = joined(&[
        &OBJECT_OF,
        &[ARRAY, NO_SIZE],
        &MAYBE_UNINIT_OF,
        &borrows_then(DEPTH_LIMIT - 4, &[U8]),
    ]);
    cases.push(rebuilt(&shallower, &[], &one_deeper));
    cases.push(WordCase {
        buffer: 4,
        ..refused(&[14, 1, 12, 16, 0], &[], 8)
    });
    cases.push(refused(&[], &[], 3));
    cases.push(refused(&[0, 0], &[], 6));
    cases.push(refused(&[ENUM], &[], 4));
    cases
}

fn initialized(from: &[&[u32]], to: &[&[u32]]) -> WordCase {
    rebuilt(&joined(from), &[], &joined(to))
}

fn changed_initializations() -> Vec<WordCase> {
    let uninit_bool = joined(&[&MAYBE_UNINIT_OF, &[11]]);
    let array = joined(&[&[22, 0], &uninit_bool]);
    let changed_array = joined(&[&[22, 0], &MAYBE_UNINIT_OF, &uninit_bool]);
    let multi = joined(&[&ARRAY2_OF, &uninit_bool]);
    let changed_multi = joined(&[&ARRAY2_OF, &MAYBE_UNINIT_OF, &uninit_bool]);
    // Names that were pairs become fixed ones, but those of an array's own path stay.
    let object = [14, 1, 13, 0, 2, 30, 32];
    let ptr = [14, 1, 13, 0, 2, 30, 35];
    let multi_of = [14, 1, 13, 0, 2, 30, 20];
    let mut cases = vec![
        initialized(&[&object, &array], &[&OBJECT_OF, &changed_array]),
        initialized(&[&ptr, &array], &[&PTR_OF, &changed_array]),
        initialized(
            &[&OBJECT_OF, &multi_of, &[12, 27]],
            &[&OBJECT_OF, &multi_of, &MAYBE_UNINIT_OF, &[12, 27]],
        ),
    ];
    for outside in [OBJECT_OF, PTR_OF] {
        cases.extend([
            initialized(&[&outside, &array], &[&outside, &changed_array]),
            initialized(&[&outside, &multi], &[&outside, &changed_multi]),
            initialized(&[&[23, 0], &outside, &multi], &[&PTR_OF, &changed_multi]),
        ]);
    }
    let exact = initialized(
        &[&PTR_OF, &[22, 0, 0]],
        &[&PTR_OF, &[22, 0], &MAYBE_UNINIT_OF, &[0]],
    );
    cases.extend(with_least_room(&exact, 18));
    cases
}

fn wrapped_initializations() -> Vec<WordCase> {
    let array = [22, 0, 11];
    let changed_array = joined(&[&[22, 0], &MAYBE_UNINIT_OF, &[11]]);
    let multi = joined(&[&ARRAY2_OF, &[11]]);
    let changed_multi = joined(&[&ARRAY2_OF, &MAYBE_UNINIT_OF, &[11]]);
    let changed_element = joined(&[&[22, 0], &MAYBE_UNINIT_OF, &[24, 0, 11]]);
    vec![
        // Marked case (i): a synonym of an Object yields a Ptr.
        rebuilt(
            &[23, 0, 14, 1, 13, 0, 2, 10, 11, 22, 0, 0],
            &[],
            &[14, 1, 13, 0, 2, 10, 12, 22, 0, 14, 1, 13, 0, 3, 1, 8, 9, 0],
        ),
        // So does metadata.
        initialized(&[&[24, 0], &OBJECT_OF, &array], &[&PTR_OF, &changed_array]),
        // The wrappers of a runtime's array go, those of an element stay.
        initialized(
            &[&OBJECT_OF, &[24, 0], &multi],
            &[&OBJECT_OF, &changed_multi],
        ),
        initialized(
            &[&OBJECT_OF, &[23, 0], &multi],
            &[&OBJECT_OF, &changed_multi],
        ),
        initialized(
            &[&OBJECT_OF, &[22, 0, 24, 0, 11]],
            &[&OBJECT_OF, &changed_element],
        ),
    ]
}

fn unchanged_initializations() -> Vec<WordCase> {
    let uninit_bool = joined(&[&MAYBE_UNINIT_OF, &[11]]);
    [
        vec![0],
        vec![12, 27],
        vec![23, 0, 11],
        joined(&[&OBJECT_OF, &[0]]),
        joined(&[&OBJECT_OF, &[22, 19], &uninit_bool]), // a size
        joined(&[&OBJECT_OF, &[22, 1], &uninit_bool]),  // even an empty one
        joined(&[&OBJECT_OF, &[24, 0, 22, 0], &uninit_bool]), // a wrapped array
        joined(&[&[15], &OBJECT_OF, &[22, 0, 0]]),
        joined(&[&[23], &OBJECT_OF, &[22, 0, 0, 11]]), // the base is no Object
        joined(&[&[14, 1, 24, 0, 13, 0, 2, 10, 11], &[22, 0, 0]]), // a wrapped base name
        joined(&[&OBJECT_OF, &[14, 1, 13, 0, 2, 10, 22, 0]]), // Arra
        joined(&[&OBJECT_OF, &[14, 2, 13, 0, 2, 10, 21, 0, 0]]),
        joined(&[&[14, 2, 13, 0, 2, 10, 11, 22, 0, 0, 0]]),
        joined(&[&[14, 1, 13, 1, 2, 10, 11, 22, 0, 0]]),
    ]
    .into_iter()
    .map(|words| rebuilt(&words, &[], &words))
    .collect()
}
