//! Compares the library, the reference and the hand-tuned version of visit lists: same answer, same
//! buffer to the last word.

mod common;

use common::{bare, shape, word_pattern};
use tillercoral::cases::{self, WordCase};
use tillercoral::generate::{
    damage, damage_names, random_declaration, random_shaped_type, random_type, Names, Random,
};
use tillercoral::limits::WORD_LIMIT;
use tillercoral::words::{fields::NAMELESS, head::ENUM, kind, kind::*, name::*, visibility::PRIV};
use tillercoral::{declaration_visit, reference, tuned, type_visit, Encoding, Refusal};

type VisitCall = fn(&Encoding<'_>, &mut [u32]) -> Result<usize, Refusal>;

/// The reference, the library, the tuned version.
const TYPES: [VisitCall; 3] = [reference::type_visit, type_visit, tuned::type_visit];
const DECLARATIONS: [VisitCall; 3] = [
    reference::declaration_visit,
    declaration_visit,
    tuned::declaration_visit,
];

#[derive(Default, Debug)]
struct Tally {
    lists: usize,
    /// Lists without any type.
    empty: usize,
    /// Lists of fewer types than there are.
    skipping: usize,
    too_short: usize,
    refused: [usize; 12],
}

impl Tally {
    fn assert_met(&self, least: usize, refused: &[usize]) {
        println!("{self:?}");
        for count in [self.lists, self.skipping, self.too_short] {
            assert!(count >= least, "{self:?}");
        }
        for &number in refused {
            assert!(self.refused[number] >= least, "{number}: {self:?}");
        }
    }
}

/// All versions on buffers of many lengths; `types` is how many types there are.
fn check(calls: [VisitCall; 3], encoding: &Encoding<'_>, types: usize, tally: &mut Tally) {
    let whole = calls[0](encoding, &mut vec![0; encoding.words.len()]);
    match whole {
        Ok(count) => {
            tally.lists += 1;
            tally.empty += usize::from(count == 0);
            tally.skipping += usize::from(count < types);
        }
        Err(refusal) => tally.refused[refusal.number() as usize] += 1,
    }
    let exact = whole.unwrap_or(5);
    for length in [exact, exact.saturating_sub(1), 0, exact + 1, exact + 9_000] {
        if length > WORD_LIMIT && !tally.lists.is_multiple_of(50) {
            continue;
        }
        let [wanted, library, tuned] = calls.map(|call| {
            let mut buffer = word_pattern(length);
            (call(encoding, &mut buffer), buffer)
        });
        tally.too_short += usize::from(wanted.0 == Err(Refusal::BufferTooShort));
        assert!(
            library == wanted,
            "library, buffer of {length}: {encoding:?}"
        );
        assert!(tuned == wanted, "tuned, buffer of {length}: {encoding:?}");
    }
}

fn check_type(encoding: &Encoding<'_>, tally: &mut Tally) {
    let types = reference::types_of_type(encoding).map_or(0, |types| types.len());
    check(TYPES, encoding, types, tally);
}

fn check_declaration(encoding: &Encoding<'_>, tally: &mut Tally) {
    let types = reference::types_of_declaration(encoding).map_or(0, |types| types.len());
    check(DECLARATIONS, encoding, types, tally);
}

#[test]
fn random_types() {
    let random = &mut Random::new(91);
    let mut tally = Tally::default();
    for round in 0..30_000 {
        let names = Names::random_for_shapes(random);
        let sample = if round % 3 == 0 {
            random_shaped_type(random, &names, 8)
        } else {
            let shape = shape(round, random);
            random_type(random, &names, shape)
        };
        check_type(&sample.as_encoding(), &mut tally);
    }
    tally.assert_met(500, &[5]);
    assert!(tally.lists > 20_000 && tally.empty == 0);
}

#[test]
fn random_declarations() {
    let random = &mut Random::new(92);
    let mut tally = Tally::default();
    for round in 0..20_000 {
        let names = Names::random_with_docs(random, 12);
        let shape = shape(round, random);
        let sample = random_declaration(random, &names, shape);
        check_declaration(&sample.as_encoding(), &mut tally);
    }
    tally.assert_met(500, &[5]);
    assert!(tally.lists > 15_000 && tally.empty > 2_000);
}

#[test]
fn damaged_trees() {
    let random = &mut Random::new(93);
    let mut types = Tally::default();
    let mut declarations = Tally::default();
    for round in 0..40_000 {
        let names = Names::random_with_docs(random, 8);
        let shape = shape(round, random);
        let mut sample = if round % 2 == 0 {
            random_type(random, &names, shape)
        } else {
            random_declaration(random, &names, shape)
        };
        match round / 2 % 4 {
            0 => damage_names(random, &mut sample),
            _ => damage(random, &mut sample),
        }
        if round % 2 == 0 {
            check_type(&sample.as_encoding(), &mut types);
        } else {
            check_declaration(&sample.as_encoding(), &mut declarations);
        }
    }
    types.assert_met(200, &[2, 3, 4, 5, 6]);
    declarations.assert_met(200, &[2, 3, 4, 5, 6]);
}

/// All runs of up to four words that could mean something.
#[test]
fn all_short_types() {
    const WORDS: u32 = kind::END + 1;
    let mut tally = Tally::default();
    for length in 0..=4 {
        for number in 0..WORDS.pow(length) {
            let digits = (0..length).map(|place| number / WORDS.pow(place) % WORDS);
            let words: Vec<u32> = digits.collect();
            check_type(&common::gauge(&words), &mut tally);
        }
    }
    tally.assert_met(1_000, &[3, 4, 6]);
}

/// Pushes a tree of intersections with so many leaves.
fn halves(words: &mut Vec<u32>, leaves: usize) {
    if leaves == 1 {
        words.push(U8);
    } else {
        words.push(INTERSECTION);
        halves(words, leaves / 2);
        halves(words, leaves - leaves / 2);
    }
}

/// 8,191 positions by a tuple; 8,192, as many as words, by `&` before a tree of intersections.
#[test]
fn longest_lists() {
    let mut tally = Tally::default();
    for count in WORD_LIMIT - 3..WORD_LIMIT {
        let mut words = vec![TUPLE, count as u32];
        words.resize(count + 2, U8);
        check_type(&bare(&words), &mut tally);
        let fields = count / 2 - 4;
        let mut words = vec![
            ENUM,
            EMPTY,
            0,
            STD,
            0,
            1,
            EMPTY,
            STD,
            NAMELESS,
            fields as u32,
        ];
        words.extend([PRIV, U16].repeat(fields));
        check_declaration(&bare(&words), &mut tally);
    }
    let mut full = vec![BORROWED];
    halves(&mut full, WORD_LIMIT / 2);
    assert_eq!(full.len(), WORD_LIMIT);
    check_type(&bare(&full), &mut tally);
    println!("{tally:?}");
    assert!(tally.lists == 6 && tally.refused[1] == 1);
}

fn check_by_hand(call: VisitCall, cases: &[WordCase]) {
    for case in cases {
        let before = word_pattern(case.buffer);
        let mut buffer = before.clone();
        let answer = call(&cases::encoded(&case.words).as_encoding(), &mut buffer);
        let wanted = case.wanted.as_ref().map(Vec::len).map_err(|number| *number);
        assert_eq!(answer.map_err(Refusal::number), wanted, "{case:?}");
        assert_eq!(buffer, case.buffer_after(&before, false), "{case:?}");
    }
}

#[test]
fn by_hand() {
    check_by_hand(type_visit, &cases::type_visits());
    check_by_hand(declaration_visit, &cases::declaration_visits());
}
