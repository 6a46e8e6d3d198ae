//! Compares the eleven parts of types that the library finds with those of the reference.

mod common;

use std::ops::Range;

use common::{gauge, shape};
use tillercoral::cases::{self, MAYBE_UNINIT_OF, PTR_OF};
use tillercoral::generate::{damage, damage_names, random_shaped_type, random_type, Names, Random};
use tillercoral::limits::WORD_LIMIT;
use tillercoral::reference::PARTS;
use tillercoral::words::{kind, kind::*, name::*, root::GLOBAL, NO_SIZE};
use tillercoral::{tuned, Encoding, Refusal};

type PartCall = fn(&Encoding<'_>) -> Result<Range<usize>, Refusal>;

/// In the order of the reference's.
const LIBRARY: [(&str, PartCall); 11] = [
    ("RemoveSynonyms", tillercoral::remove_synonyms),
    ("Expand", tillercoral::expand),
    ("ToOwned", tillercoral::to_owned),
    ("MultiArrayUnderlying", tillercoral::multi_array_underlying),
    ("BoxUnderlying", tillercoral::box_underlying),
    (
        "ObjectOrPointerUnderlying",
        tillercoral::object_or_pointer_underlying,
    ),
    ("RcUnderlying", tillercoral::rc_underlying),
    ("BoxDynUnderlying", tillercoral::box_dyn_underlying),
    (
        "GetBuiltinCollectionElement",
        tillercoral::get_builtin_collection_element,
    ),
    ("ExtractMaybePlacebo", tillercoral::extract_maybe_placebo),
    (
        "ExtractMaybeUninitArrayElement",
        tillercoral::extract_maybe_uninit_array_element,
    ),
];

const TUNED: [(&str, PartCall); 2] = [
    ("Expand", tuned::expand),
    (
        "ObjectOrPointerUnderlying",
        tuned::object_or_pointer_underlying,
    ),
];

/// How often each part was the whole, was a proper part, and was refused with 7; and each other
/// refusal.
#[derive(Default, Debug)]
struct Tally {
    whole: [usize; 11],
    proper: [usize; 11],
    missing: [usize; 11],
    refused: [usize; 12],
}

impl Tally {
    fn assert_met(&self, least: usize, refused: &[usize]) {
        println!("{self:?}");
        for (which, (name, _)) in LIBRARY.iter().enumerate() {
            assert!(self.proper[which] >= least, "{name}: {self:?}");
            // The first three are there for every type, the others never the whole.
            let other = if which < 3 { self.whole } else { self.missing };
            assert!(other[which] >= least, "{name}: {self:?}");
        }
        for &number in refused {
            assert!(self.refused[number] >= least, "{number}: {self:?}");
        }
    }
}

fn check(encoding: &Encoding<'_>, tally: &mut Tally) {
    for (which, (name, call)) in LIBRARY.into_iter().enumerate() {
        let part = &PARTS[which];
        assert_eq!(part.name, name);
        let wanted = part.answer(encoding);
        assert_eq!(call(encoding), wanted, "{name} of {encoding:?}");
        for (_, tuned) in TUNED.iter().filter(|(tuned, _)| *tuned == name) {
            assert_eq!(tuned(encoding), wanted, "{name}, tuned, of {encoding:?}");
        }
        match wanted {
            Ok(part) if part == (0..encoding.words.len()) => tally.whole[which] += 1,
            Ok(_) => tally.proper[which] += 1,
            Err(Refusal::NoSuchPart) => tally.missing[which] += 1,
            Err(refusal) => tally.refused[refusal.number() as usize] += 1,
        }
    }
}

#[test]
fn shaped_types() {
    let random = &mut Random::new(111);
    let mut tally = Tally::default();
    for round in 0..80_000 {
        let names = Names::random_for_shapes(random);
        let sample = random_shaped_type(random, &names, 2 + round % 7);
        check(&sample.as_encoding(), &mut tally);
    }
    tally.assert_met(300, &[]);
}

#[test]
fn random_types() {
    let random = &mut Random::new(112);
    let mut tally = Tally::default();
    for round in 0..20_000 {
        let names = Names::random(random, 12);
        let shape = shape(round, random);
        let sample = random_type(random, &names, shape);
        check(&sample.as_encoding(), &mut tally);
    }
    println!("{tally:?}");
    for which in 0..3 {
        assert!(tally.whole[which] > 1_000 && tally.proper[which] > 1_000);
    }
}

#[test]
fn damaged_types() {
    let random = &mut Random::new(113);
    let mut tally = Tally::default();
    for round in 0..40_000 {
        let names = Names::random_for_shapes(random);
        let mut sample = if round % 8 == 0 {
            let shape = shape(round / 8, random);
            random_type(random, &names, shape)
        } else {
            random_shaped_type(random, &names, 2 + round % 7)
        };
        match round % 4 {
            0 => damage_names(random, &mut sample),
            _ => damage(random, &mut sample),
        }
        check(&sample.as_encoding(), &mut tally);
    }
    tally.assert_met(10, &[2, 3, 4, 5, 6]);
}

/// The longest parts: all 8,192 words, and the rest after each kind of head.
#[test]
fn longest_parts() {
    let mut tally = Tally::default();
    for front in [
        &[][..],
        &[BORROWED],
        &[META_DATA, 1],
        &[SYNONYM, BOOL],
        &[APP, 1, FROM_PATH, GLOBAL, 3, STD, RC_MODULE, RC],
        &cases::joined(&[&PTR_OF, &[ARRAY, NO_SIZE], &MAYBE_UNINIT_OF]),
    ] {
        for length in WORD_LIMIT - 1..=WORD_LIMIT + 1 {
            let count = length - front.len() - 2;
            let mut words = [front, &[TUPLE, count as u32]].concat();
            words.resize(length, BOOL);
            check(&common::bare(&words), &mut tally);
        }
    }
    println!("{tally:?}");
    assert_eq!(tally.refused[1], 6 * 11);
    assert!(tally.proper[10] > 0);
}

/// All runs of up to four words that could mean something.
#[test]
fn all_short_types() {
    const WORDS: u32 = kind::END + 1;
    let mut tally = Tally::default();
    for length in 0..=4 {
        for number in 0..WORDS.pow(length) {
            let digits = (0..length).map(|place| number / WORDS.pow(place) % WORDS);
            let words: Vec<u32> = digits.collect();
            check(&gauge(&words), &mut tally);
        }
    }
    println!("{tally:?}");
    for which in 0..3 {
        assert!(tally.whole[which] > 500 && tally.proper[which] > 500);
    }
}

#[test]
fn by_hand() {
    for case in cases::parts() {
        let sample = cases::encoded(&case.words);
        for (name, call) in LIBRARY {
            let wanted = case.wanted(name).ok_or(Refusal::NoSuchPart);
            assert_eq!(
                call(&sample.as_encoding()),
                wanted,
                "{name} of {:?}",
                case.words
            );
        }
    }
}
