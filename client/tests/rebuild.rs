//! Compares the library, the reference and the hand-tuned version of rebuilt trees: same answer,
//! and the same buffer to the last word, be it a result, unchanged or cleared.

mod common;

use common::{bare, shape, word_pattern};
use tillercoral::cases::{self, borrows_then, WordCase};
use tillercoral::generate::{
    damage, damage_names, damage_rules, random_declaration, random_rules, random_shaped_type,
    random_type, respelled, Names, Random,
};
use tillercoral::limits::{DEPTH_LIMIT, RULE_LIMIT, WORD_LIMIT};
use tillercoral::reference::{self, Rebuilt};
use tillercoral::words::{head::ENUM, kind, kind::*, NO_SIZE};
use tillercoral::{
    declaration_rebuild, tuned, type_at_initialization, type_rebuild, Encoding, EncodingBuf,
    Refusal,
};

type WordCall = fn(&Encoding<'_>, &[u32], &mut [u32]) -> Result<usize, Refusal>;

/// One call in its versions.
struct Kind {
    reference: WordCall,
    others: &'static [(&'static str, WordCall)],
    rebuilt: fn(&Encoding<'_>, &[u32]) -> Result<Rebuilt, Refusal>,
}

const TYPES: Kind = Kind {
    reference: reference::type_rebuild,
    others: &[("library", type_rebuild), ("tuned", tuned::type_rebuild)],
    rebuilt: reference::rebuilt_type,
};

const DECLARATIONS: Kind = Kind {
    reference: reference::declaration_rebuild,
    others: &[
        ("library", declaration_rebuild),
        ("tuned", tuned::declaration_rebuild),
    ],
    rebuilt: reference::rebuilt_declaration,
};

/// How often each answer was met; refusals by their numbers, with 5 and 8 of the result apart from
/// the 5 of reading.
#[derive(Default, Debug)]
struct Tally {
    done: usize,
    /// Done, and other words than before.
    changed: usize,
    /// Done with more words for a moment than in the result.
    shrunk: usize,
    too_short: usize,
    too_deep: usize,
    refused: [usize; 12],
}

impl Tally {
    fn assert_met(&self, least: usize, refused: &[u32]) {
        println!("{self:?}");
        let counts = [
            self.done,
            self.changed,
            self.shrunk,
            self.too_short,
            self.too_deep,
        ];
        assert!(counts.iter().all(|&count| count >= least), "{self:?}");
        for &number in refused {
            assert!(self.refused[number as usize] >= least, "{number}: {self:?}");
        }
    }
}

impl Kind {
    /// All versions on buffers of many lengths.
    fn check(&self, encoding: &Encoding<'_>, rules: &[u32], large: bool, tally: &mut Tally) {
        match (self.rebuilt)(encoding, rules) {
            Err(refusal) => {
                tally.refused[refusal.number() as usize] += 1;
                for length in [0, 40] {
                    let answer = self.check_length(encoding, rules, length);
                    assert_eq!(answer, Err(refusal));
                }
            }
            Ok(rebuilt) => {
                for length in buffer_lengths(&rebuilt, large) {
                    match self.check_length(encoding, rules, length) {
                        Ok(_) => self.count_done(&rebuilt, encoding, tally),
                        Err(Refusal::BufferTooShort) => tally.too_short += 1,
                        Err(Refusal::TooDeep) => tally.too_deep += 1,
                        Err(other) => panic!("{other}"),
                    }
                }
            }
        }
    }

    fn count_done(&self, rebuilt: &Rebuilt, encoding: &Encoding<'_>, tally: &mut Tally) {
        tally.done += 1;
        tally.changed += usize::from(rebuilt.words() != encoding.words);
        tally.shrunk += usize::from(rebuilt.peak > rebuilt.length);
    }

    fn check_length(
        &self,
        encoding: &Encoding<'_>,
        rules: &[u32],
        length: usize,
    ) -> Result<usize, Refusal> {
        let run = |call: WordCall| {
            let mut buffer = word_pattern(length);
            let answer = call(encoding, rules, &mut buffer);
            (answer, buffer)
        };
        let (wanted, wanted_buffer) = run(self.reference);
        for &(what, call) in self.others {
            let (answer, buffer) = run(call);
            assert_eq!(
                answer, wanted,
                "{what}, buffer of {length}: {encoding:?} with {rules:?}"
            );
            assert!(
                buffer == wanted_buffer,
                "{what}, buffer of {length}: wrong words for {encoding:?} with {rules:?}"
            );
        }
        wanted
    }
}

/// As long as the result, as long as it was for a moment, one less of each, none, and more than
/// 8,192.
fn buffer_lengths(rebuilt: &Rebuilt, large: bool) -> Vec<usize> {
    let (length, peak) = (rebuilt.length.min(9_000), rebuilt.peak.min(9_000));
    let mut lengths = vec![
        peak,
        peak.saturating_sub(1),
        length,
        length.saturating_sub(1),
        0,
        peak + 7,
    ];
    if large {
        lengths.extend([WORD_LIMIT - 1, WORD_LIMIT, WORD_LIMIT + 1, 9_001]);
    }
    lengths.sort();
    lengths.dedup();
    lengths
}

/// Each name table of the types comes from one of these.
fn some_names(round: usize, random: &mut Random) -> Names {
    match round % 3 {
        0 => Names::random(random, 12),
        _ => Names::random_for_shapes(random),
    }
}

fn some_type(round: usize, random: &mut Random, names: &Names) -> EncodingBuf {
    if round.is_multiple_of(2) {
        return random_shaped_type(random, names, 3 + round % 7);
    }
    let shape = shape(round / 2, random);
    random_type(random, names, shape)
}

#[test]
fn random_types() {
    let random = &mut Random::new(81);
    let mut tally = Tally::default();
    for round in 0..15_000 {
        let names = some_names(round, random);
        let sample = some_type(round, random, &names);
        let rules = random_rules(random, &names, &sample);
        TYPES.check(&sample.as_encoding(), &rules, round % 64 == 0, &mut tally);
    }
    tally.assert_met(300, &[5, 10]);
    assert!(tally.changed > 15_000 && tally.shrunk > 4_000);
}

#[test]
fn random_declarations() {
    let random = &mut Random::new(82);
    let mut tally = Tally::default();
    for round in 0..12_000 {
        let names = match round % 2 {
            0 => Names::random_with_docs(random, 12),
            _ => Names::random_for_shapes(random),
        };
        let shape = shape(round, random);
        let sample = random_declaration(random, &names, shape);
        let rules = random_rules(random, &names, &sample);
        DECLARATIONS.check(&sample.as_encoding(), &rules, round % 64 == 0, &mut tally);
    }
    tally.assert_met(100, &[5, 10]);
    assert!(tally.changed > 8_000 && tally.shrunk > 1_000);
}

#[test]
fn damaged_trees_and_rules() {
    let random = &mut Random::new(83);
    let mut tallies = [Tally::default(), Tally::default()];
    for round in 0..30_000 {
        let names = some_names(round, random);
        let declaration = round % 3 == 0;
        let shape = shape(round % 20, random);
        let mut sample = if declaration {
            random_declaration(random, &names, shape)
        } else {
            some_type(round % 40, random, &names)
        };
        let mut rules = random_rules(random, &names, &sample);
        match round % 5 {
            0 => damage(random, &mut sample),
            1 => damage_names(random, &mut sample),
            2 => {
                damage(random, &mut sample);
                damage_rules(random, &mut rules);
            }
            _ => damage_rules(random, &mut rules),
        }
        let kind = if declaration { &DECLARATIONS } else { &TYPES };
        let tally = &mut tallies[usize::from(declaration)];
        kind.check(&sample.as_encoding(), &rules, false, tally);
    }
    for tally in &tallies {
        tally.assert_met(10, &[2, 3, 4, 5, 6, 10]);
    }
}

/// Every front part of a list of rules, and every one of them with a word too many.
#[test]
fn truncated_rules() {
    let random = &mut Random::new(84);
    let mut tally = Tally::default();
    for round in 0..300 {
        let names = some_names(round, random);
        let sample = some_type(4 * round, random, &names);
        let rules = random_rules(random, &names, &sample);
        for length in 0..rules.len().min(200) {
            TYPES.check(&sample.as_encoding(), &rules[..length], false, &mut tally);
        }
        for word in [U8, IDENTIFIER, kind::END, u32::MAX] {
            let longer = [&rules[..], &[word]].concat();
            TYPES.check(&sample.as_encoding(), &longer, false, &mut tally);
        }
    }
    println!("{tally:?}");
    assert!(tally.refused[3] > 5_000 && tally.refused[6] > 200);
}

/// Rules spelled with other numbers for the same names do the same.
#[test]
fn names_are_compared_by_bytes() {
    let random = &mut Random::new(85);
    let mut respelled_froms = 0;
    for _ in 0..3_000 {
        let names = Names::random_for_shapes(random);
        let sample = random_shaped_type(random, &names, 5);
        let encoding = sample.as_encoding();
        let from = respelled(random, &names, &sample.words);
        respelled_froms += usize::from(from != sample.words);
        let rules = [&[1], &from[..], &[BOOL]].concat();
        let mut buffer = vec![7; sample.words.len() + 1];
        assert_eq!(type_rebuild(&encoding, &rules, &mut buffer), Ok(1));
        assert_eq!((buffer[0], buffer[1]), (BOOL, 7));
        let twice = [&[2], &from[..], &[BOOL], &sample.words, &[USIZE]].concat();
        let answer = type_rebuild(&encoding, &twice, &mut buffer);
        assert_eq!(answer, Err(Refusal::RepeatedRule));
    }
    assert!(respelled_froms > 500, "{respelled_froms}");
}

/// All lists of one rule of short types, for some short types.
#[test]
fn all_short_rules() {
    const TYPES_TRIED: [&[u32]; 16] = [
        &[0],
        &[11],
        &[12, 1],
        &[12, 27],
        &[13, 0, 0],
        &[13, 0, 1, 27],
        &[14, 0, 0],
        &[14, 1, 12, 1, 0],
        &[15, 0],
        &[15, 15, 0],
        &[19, 0],
        &[19, 2, 0, 0],
        &[20, 1, 0, 0],
        &[22, 1, 0],
        &[23, 0, 15, 0],
        &[24, 1, 0],
    ];
    let mut tally = Tally::default();
    for words in TYPES_TRIED {
        let tree = cases::encoded(words);
        for from in TYPES_TRIED {
            for to in TYPES_TRIED {
                let one = [&[1], from, to].concat();
                TYPES.check(&tree.as_encoding(), &one, false, &mut tally);
                let two = [&[2], from, to, &[BORROWED], to, from].concat();
                TYPES.check(&tree.as_encoding(), &two, false, &mut tally);
            }
        }
    }
    println!("{tally:?}");
    assert!(tally.changed > 1_500 && tally.shrunk > 200 && tally.refused[10] > 20);
}

fn check_by_hand(call: WordCall, cases: &[WordCase]) {
    for case in cases {
        let before = word_pattern(case.buffer);
        let mut buffer = before.clone();
        let sample = cases::encoded(&case.words);
        let answer = call(&sample.as_encoding(), &case.rules, &mut buffer);
        let wanted = case.wanted.as_ref().map(Vec::len).map_err(|number| *number);
        assert_eq!(answer.map_err(Refusal::number), wanted, "{case:?}");
        assert_eq!(buffer, case.buffer_after(&before, true), "{case:?}");
    }
}

#[test]
fn by_hand() {
    check_by_hand(type_rebuild, &cases::type_rebuilds());
    check_by_hand(declaration_rebuild, &cases::declaration_rebuilds());
    let initializations: [WordCall; 2] = [
        |encoding, _rules, out| type_at_initialization(encoding, out),
        |encoding, _rules, out| tuned::type_at_initialization(encoding, out),
    ];
    for call in initializations {
        check_by_hand(call, &cases::initializations());
    }
}

/// 1 comes first, of the rules as of the tree; then 2; then the tree, whose 6 comes before the
/// first word of the rules.
#[test]
fn order_of_refusals() {
    let long = vec![0; WORD_LIMIT + 1];
    let mut most_rules = vec![1, U8, TUPLE, WORD_LIMIT as u32 - 4];
    most_rules.resize(WORD_LIMIT, U16);
    let at_limit = &most_rules[..];
    for (words, pairs, rules, number) in [
        (&[][..], &[1][..], &long[..], 1),
        (&long, &[1], &[], 1),
        (&[], &[1], at_limit, 2),
        (&[], &[], at_limit, 3),
        (&[ENUM], &[], &[RULE_LIMIT as u32 + 1], 4),
        (&[0, 0], &[], &[], 6),
        (&[0], &[], &[], 3),
        (&[1], &[], at_limit, 0),
        (&[0], &[], at_limit, 8),
    ] {
        let encoding = Encoding {
            words,
            pairs,
            text: &[],
        };
        let answer = TYPES.check_length(&encoding, rules, 4);
        assert_eq!(answer.map_or_else(Refusal::number, |_| 0), number);
        if number == 1 {
            let answer = DECLARATIONS.check_length(&encoding, rules, 4);
            assert_eq!(answer, Err(Refusal::Overlong));
        }
    }
}

/// Rules by which `&bool` becomes `&&bool` and then `u16`.
const BACK_AGAIN: [u32; 8] = [2, BOOL, BORROWED, BOOL, BORROWED, BORROWED, BOOL, U16];

/// Trees and results about as long as they may be.
#[test]
fn limits() {
    let mut tally = Tally::default();
    for count in WORD_LIMIT - 6..WORD_LIMIT {
        let mut words = vec![TUPLE, count as u32];
        words.resize(count + 2, U8);
        words[2] = BOOL;
        for rules in [
            &[0][..],
            &[1, BOOL, BORROWED, BOOL],
            &[1, U8, U16],
            &[1, BOOL, TUPLE, 4, U16, U16, U16, U16],
            &[1, U32, U64],
        ] {
            TYPES.check(&bare(&words), rules, true, &mut tally);
        }
        // The last child grows for a moment, and is a single word in the end.
        let mut words = vec![TUPLE, count as u32];
        words.resize(count + 1, U8);
        words.extend([BORROWED, BOOL]);
        TYPES.check(&bare(&words), &BACK_AGAIN, true, &mut tally);
    }
    println!("{tally:?}");
    assert!(tally.done > 50 && tally.shrunk > 5 && tally.too_short > 50);
    assert!(tally.refused[1] > 0);
}

/// Trees and results about as long as the scratch that the library takes before the largest: 128
/// words, and 512 for trees of up to 256.
#[test]
fn lengths_of_scratch() {
    let mut tally = Tally::default();
    let mut many_for_one = vec![1, BOOL, TUPLE, 390];
    many_for_one.resize(4 + 390, U8);
    for length in (125..=131).chain(253..=259).chain(509..=515) {
        let mut words = vec![TUPLE, length - 2];
        words.resize(length as usize, U8);
        words[2] = BOOL;
        // The last child grows for a moment, and is a single word in the end.
        let mut moment = vec![TUPLE, length - 3];
        moment.resize(length as usize - 2, U8);
        moment.extend([BORROWED, BOOL]);
        for (words, rules) in [
            (&words, &[1, BOOL, BORROWED, BOOL][..]),
            (&words, &[1, U8, U16]),
            (&words, &[1, U32, U64]),
            (&words, &many_for_one),
            (&moment, &BACK_AGAIN),
        ] {
            TYPES.check(&bare(words), rules, false, &mut tally);
            for buffer in [127, 128, 129, 511, 512, 513] {
                let _ = TYPES.check_length(&bare(words), rules, buffer);
            }
        }
    }
    println!("{tally:?}");
    assert!(tally.done > 200 && tally.shrunk > 20 && tally.too_short > 200);
}

#[test]
fn thirty_two_rules() {
    let mut tally = Tally::default();
    let limit = RULE_LIMIT as u32;
    let many: Vec<u32> = (0..limit)
        .flat_map(|i| [META_DATA, i / 8, i % 8, META_DATA, i / 8, BORROWED, i % 8])
        .collect();
    let mut words = vec![TUPLE, 2_000];
    words.extend((0..2_000).flat_map(|i| [META_DATA, i % 4, i % 12]));
    TYPES.check(
        &bare(&words),
        &[&[limit], &many[..]].concat(),
        true,
        &mut tally,
    );
    TYPES.check(
        &bare(&words),
        &[&[limit + 1], &many[..]].concat(),
        true,
        &mut tally,
    );
    println!("{tally:?}");
    assert!(tally.changed > 2 && tally.too_short >= 2 && tally.refused[4] == 1);
}

/// The depth of the result decides, not that of a moment.
#[test]
fn depths() {
    let mut tally = Tally::default();
    for count in DEPTH_LIMIT - 9..=DEPTH_LIMIT {
        let words = borrows_then(count, &[U8]);
        for deeper in 0..=12 {
            let to = borrows_then(deeper, &[U8]);
            let grow = [&[1, U8], &to[..]].concat();
            TYPES.check(&bare(&words), &grow, false, &mut tally);
            let back = [&[2, U8], &to[..], &[BORROWED], &to, &[U16]].concat();
            TYPES.check(&bare(&words), &back, false, &mut tally);
        }
    }
    tally.assert_met(20, &[5]);
}

#[derive(Default, Debug)]
struct InitializationTally {
    changed: usize,
    unchanged: usize,
    too_short: usize,
    too_deep: usize,
    refused: [usize; 12],
}

type InitializationCall = fn(&Encoding<'_>, &mut [u32]) -> Result<usize, Refusal>;

const INITIALIZATIONS: [(&str, InitializationCall); 2] = [
    ("library", type_at_initialization),
    ("tuned", tuned::type_at_initialization),
];

/// `TypeAtInitialization` on buffers of many lengths.
fn check_initialization(encoding: &Encoding<'_>, tally: &mut InitializationTally) {
    let words = reference::initialization_words(encoding);
    let length = match &words {
        Ok(words) => words.len(),
        Err(refusal) => {
            tally.refused[refusal.number() as usize] += 1;
            4
        }
    };
    for length in [length, length.saturating_sub(1), 0, length + 9] {
        let run = |call: InitializationCall| {
            let mut buffer = word_pattern(length);
            (call(encoding, &mut buffer), buffer)
        };
        let wanted = run(reference::type_at_initialization);
        for (what, call) in INITIALIZATIONS {
            assert_eq!(
                run(call),
                wanted,
                "{what}, buffer of {length}: {encoding:?}"
            );
        }
        match (&words, wanted.0) {
            (Ok(words), Ok(_)) if words == encoding.words => tally.unchanged += 1,
            (Ok(_), Ok(_)) => tally.changed += 1,
            (Ok(_), Err(Refusal::BufferTooShort)) => tally.too_short += 1,
            (Ok(_), Err(Refusal::TooDeep)) => tally.too_deep += 1,
            _ => {}
        }
    }
}

#[test]
fn initializations() {
    let random = &mut Random::new(86);
    let mut tally = InitializationTally::default();
    for round in 0..60_000 {
        let names = Names::random_for_shapes(random);
        let mut sample = random_shaped_type(random, &names, 3 + round % 6);
        if round % 8 == 0 {
            damage(random, &mut sample);
        }
        check_initialization(&sample.as_encoding(), &mut tally);
    }
    // Elements of which the deepest just fit, or just do not.
    let wrapped_array = cases::joined(&[&[META_DATA, 0], &cases::ARRAY2_OF]);
    for outside in [cases::OBJECT_OF, cases::PTR_OF] {
        for depth in DEPTH_LIMIT - 9..=DEPTH_LIMIT {
            let deep = borrows_then(depth, &[U8]);
            for inside in [
                &[ARRAY, NO_SIZE][..],
                &cases::ARRAY2_OF,
                &[ARRAY, 1],
                &wrapped_array,
            ] {
                let words = cases::joined(&[&outside, inside, &deep]);
                for words in [
                    cases::joined(&[&[META_DATA, 0], &words]),
                    cases::joined(&[&[SYNONYM, U8], &words]),
                    // Deep is what goes, not the element.
                    cases::joined(&[&[SYNONYM], &deep, &outside, inside, &[U8]]),
                    words,
                ] {
                    check_initialization(&cases::encoded(&words).as_encoding(), &mut tally);
                }
            }
        }
    }
    println!("{tally:?}");
    assert!(tally.changed > 3_000 && tally.unchanged > 50_000 && tally.too_short > 50_000);
    assert!(tally.too_deep > 5);
    for number in [2, 3, 4, 5, 6] {
        assert!(tally.refused[number] > 10, "{number}");
    }
}

/// The longest results: 8,192 words, and what would be more.
#[test]
fn longest_initializations() {
    for (count, wanted) in [
        (WORD_LIMIT - 20, Ok(WORD_LIMIT - 1)),
        (WORD_LIMIT - 19, Ok(WORD_LIMIT)),
        (WORD_LIMIT - 18, Err(8)),
    ] {
        let tuples = [ARRAY, NO_SIZE, TUPLE, count as u32];
        let mut words = cases::joined(&[&cases::PTR_OF, &tuples]);
        words.resize(11 + count, U16);
        for (what, call) in INITIALIZATIONS {
            for length in [WORD_LIMIT, 9_000] {
                let mut buffer = word_pattern(length);
                let answer = call(&bare(&words), &mut buffer);
                assert_eq!(answer.map_err(Refusal::number), wanted, "{what}");
                match wanted {
                    Ok(end) => assert_eq!(buffer[end..], word_pattern(length)[end..], "{what}"),
                    Err(_) => assert_eq!(buffer, vec![0; length], "{what}"),
                }
            }
        }
    }
}
