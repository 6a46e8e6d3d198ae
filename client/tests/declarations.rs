//! Compares the library, the reference and the hand-tuned version on made-up declarations, whole
//! ones and damaged ones: same answer, same buffer to the last byte.

mod common;

use common::{buffer_lengths, check_text, gauge, pattern, shape, Tally};
use tillercoral::cases::{GAUGE_NAME, ID, MM, OFFSET};
use tillercoral::generate::{
    damage, damage_names, random_declaration, random_doc, Names, Random, Shape,
};
use tillercoral::limits::{
    DEPTH_LIMIT, LEVEL_LIMIT, PAIR_LIMIT, PRINT_LIMIT, TEXT_LIMIT, WORD_LIMIT,
};
use tillercoral::words::{
    fields::*, head, head::*, kind, kind::*, name::*, pair, root::*, visibility::*,
};
use tillercoral::{declaration_text, reference, tuned, Encoding, EncodingBuf, Refusal};

const HEADS: usize = (head::END - STRUCT) as usize;

/// How often each answer was met, and for how many declarations of each head.
#[derive(Default, Debug)]
struct DeclarationTally {
    answers: Tally,
    heads: [usize; HEADS],
}

impl DeclarationTally {
    fn refused(&self, refusal: Refusal) -> usize {
        self.answers.refused(refusal)
    }

    fn texts(&self) -> usize {
        self.answers.texts
    }

    /// Each of these was met so often, and a declaration of each head was.
    fn assert_met(&self, refusals: &[Refusal], least: usize) {
        println!("{self:?}");
        for &refusal in refusals {
            assert!(self.refused(refusal) >= least, "{refusal}: {self:?}");
        }
        for count in self.heads {
            assert!(count >= least, "{self:?}");
        }
    }
}

/// The call on one encoding, with buffers of many lengths.
fn check(encoding: &Encoding<'_>, level: u32, tally: &mut DeclarationTally) {
    let wanted = match reference::read_declaration(encoding) {
        _ if level > LEVEL_LIMIT => Err(Refusal::BadLevel),
        tree => tree.map(|tree| tree.reference_text(level)),
    };
    tally.answers.count_text(&wanted);
    if wanted.is_ok() {
        tally.heads[(encoding.words[0] - STRUCT) as usize] += 1;
    }
    for length in buffer_lengths(&wanted) {
        check_text(
            "tuned",
            tuned::declaration_text,
            encoding,
            level,
            length,
            &wanted,
        );
        check_text(
            "library",
            declaration_text,
            encoding,
            level,
            length,
            &wanted,
        );
    }
    let length = wanted.as_ref().map_or(9, Vec::len);
    check_text(
        "reference",
        reference::declaration_text,
        encoding,
        level,
        length,
        &wanted,
    );
}

/// `pub struct A;` with this doc, at this level.
fn check_struct_doc(doc: &[u8], level: u32, tally: &mut DeclarationTally) {
    let names = Names::of(&[b"A", doc]);
    check(
        &names
            .with_words(&[STRUCT, pair(1), 0, pair(0), 0, NAMELESS, 0])
            .as_encoding(),
        level,
        tally,
    );
}

/// An enum with this doc at the case.
fn check_case_doc(doc: &[u8], level: u32, tally: &mut DeclarationTally) {
    let names = Names::of(&[doc, b"A"]);
    check(
        &names
            .with_words(&[ENUM, EMPTY, 0, pair(1), 0, 1, pair(0), pair(1), NAMELESS, 0])
            .as_encoding(),
        level,
        tally,
    );
}

#[test]
fn random_declarations() {
    let random = &mut Random::new(51);
    let mut tally = DeclarationTally::default();
    for round in 0..20_000 {
        let names = Names::random_with_docs(random, 12);
        let shape = shape(round, random);
        let sample = random_declaration(random, &names, shape);
        check(
            &sample.as_encoding(),
            random.below(LEVEL_LIMIT as usize + 2) as u32,
            &mut tally,
        );
    }
    tally.assert_met(&[Refusal::TooDeep, Refusal::BadLevel], 500);
    assert!(tally.texts() > 15_000);
}

#[test]
fn damaged_declarations() {
    let random = &mut Random::new(52);
    let mut tally = DeclarationTally::default();
    for round in 0..60_000 {
        let names = Names::random_with_docs(random, 12);
        let shape = shape(round, random);
        let mut sample = random_declaration(random, &names, shape);
        for _ in 0..1 + random.below(2) {
            damage(random, &mut sample);
        }
        check(
            &sample.as_encoding(),
            random.below(LEVEL_LIMIT as usize + 1) as u32,
            &mut tally,
        );
    }
    use Refusal::*;
    tally.assert_met(&[BadPair, EndsEarly, UnknownWord, TooDeep, LeftOver], 500);
    assert!(tally.texts() > 5_000);
}

#[test]
fn damaged_pairs() {
    let random = &mut Random::new(53);
    let mut tally = DeclarationTally::default();
    for round in 0..15_000 {
        let names = Names::random_with_docs(random, 8);
        let shape = shape(round % 8, random);
        let mut sample = random_declaration(random, &names, shape);
        damage_names(random, &mut sample);
        check(&sample.as_encoding(), 1, &mut tally);
    }
    tally.assert_met(&[Refusal::BadPair, Refusal::UnknownWord], 200);
}

/// Every front part of some encodings, and every one of them with a word too many.
#[test]
fn truncated_declarations() {
    let random = &mut Random::new(54);
    let mut tally = DeclarationTally::default();
    for round in 0..150 {
        let names = Names::random_with_docs(random, 12);
        let shape = shape(round, random);
        let sample = random_declaration(random, &names, shape);
        for length in 0..sample.words.len() {
            let part = Encoding {
                words: &sample.words[..length],
                ..sample.as_encoding()
            };
            check(&part, 0, &mut tally);
        }
        check(&sample.as_encoding(), 0, &mut tally);
        for word in [U8, IDENTIFIER, kind::END, u32::MAX] {
            let mut longer = sample.clone();
            longer.words.push(word);
            check(&longer.as_encoding(), 0, &mut tally);
        }
    }
    tally.assert_met(&[Refusal::LeftOver], 10);
    assert!(tally.refused(Refusal::EndsEarly) > 5_000);
}

/// One huge word in each place of some declarations.
#[test]
fn huge_words() {
    let random = &mut Random::new(55);
    let mut tally = DeclarationTally::default();
    for round in 0..200 {
        let names = Names::random_with_docs(random, 6);
        let shape = shape(round % 8, random);
        let sample = random_declaration(random, &names, shape);
        for at in 0..sample.words.len() {
            for word in [WORD_LIMIT as u32, 1 << 31, u32::MAX - 16, u32::MAX] {
                let mut huge = sample.clone();
                huge.words[at] = word;
                check(&huge.as_encoding(), 0, &mut tally);
            }
        }
    }
    println!("{tally:?}");
    assert!(tally.refused(Refusal::EndsEarly) > 500);
    assert!(tally.refused(Refusal::UnknownWord) > 2_000);
}

/// All runs of words up to a length, out of these, after some front.
fn each_run(front: &[u32], words: &[u32], most: u32, mut visit: impl FnMut(&[u32])) {
    let mut run = front.to_vec();
    for length in 0..=most {
        for number in 0..words.len().pow(length) {
            run.truncate(front.len());
            let mut left = number;
            for _ in 0..length {
                run.push(words[left % words.len()]);
                left /= words.len();
            }
            visit(&run);
        }
    }
}

#[test]
fn all_short_encodings() {
    let mut tally = DeclarationTally::default();
    for head in STRUCT - 1..=head::END {
        each_run(&[head], &[0, 1, 2, 12, 16, 21], 6, |words| {
            check(&gauge(words), 0, &mut tally);
        });
    }
    use Refusal::*;
    tally.assert_met(&[EndsEarly, UnknownWord, LeftOver], 10);
}

/// Everything that could be the type of a field named self, and of one with another name.
#[test]
fn all_short_field_types() {
    let mut tally = DeclarationTally::default();
    // 18 is a head as well as the name `_`, and 21 as well as `__`.
    let names = Names::of(&[b"A", b"self", b"_", b"sel", b"selfs", b"__"]);
    let heads = [0, 2, 12, 13, 14, 15, 16, 18, 21, 23, 24];
    for name in [SELF, pair(0), pair(1), pair(3), pair(4)] {
        let front = [STRUCT, EMPTY, 0, pair(0), 0, NAMED, 1, PRIV, name];
        each_run(&front, &heads, 5, |words| {
            let encoding = Encoding {
                words,
                pairs: &names.pairs,
                text: &names.text,
            };
            let wanted = reference::read_declaration(&encoding);
            // Those that are refused are many, and no business of this test.
            if wanted.is_ok() {
                check(&encoding, 0, &mut tally);
            }
        });
    }
    println!("{tally:?}");
    assert!(tally.texts() > 1_000);
}

/// All docs of up to six bytes, at the beginning and inside code.
#[test]
fn all_short_docs() {
    let mut tally = DeclarationTally::default();
    let letters = [b'`', b' ', b'\n', b'x'].map(u32::from);
    for front in [&b""[..], b"```\n", b"````"] {
        let front: Vec<u32> = front.iter().copied().map(u32::from).collect();
        each_run(&front, &letters, 6, |doc| {
            let doc: Vec<u8> = doc.iter().map(|&letter| letter as u8).collect();
            check_struct_doc(&doc, 1, &mut tally);
        });
    }
    println!("{tally:?}");
    assert_eq!(tally.texts(), 3 * 5_461);
}

#[test]
fn random_docs() {
    let random = &mut Random::new(56);
    let mut tally = DeclarationTally::default();
    for round in 0..60_000 {
        let level = [0, 1, 3, LEVEL_LIMIT][round % 4];
        let doc: Vec<u8> = if round % 3 == 0 {
            (0..random.below(30))
                .map(|_| random.pick(b"` \nrsx\t\r"))
                .collect()
        } else {
            random_doc(random, 14)
        };
        if round % 5 == 0 {
            check_case_doc(&doc, level, &mut tally);
        } else {
            check_struct_doc(&doc, level, &mut tally);
        }
    }
    println!("{tally:?}");
    assert_eq!(tally.texts(), 60_000);
}

/// Docs as long as the text may be.
#[test]
fn long_docs() {
    let random = &mut Random::new(57);
    let mut tally = DeclarationTally::default();
    let mut docs: Vec<Vec<u8>> = [b'\n', b' ', b'`', b'x']
        .iter()
        .map(|&byte| vec![byte; TEXT_LIMIT - 1])
        .collect();
    for _ in 0..8 {
        let mut doc = random_doc(random, 12_000);
        doc.truncate(TEXT_LIMIT - 1);
        docs.push(doc);
    }
    let lines = [b"    x\n".repeat(2_700), b"```\n".repeat(4_000)];
    for doc in docs.iter().chain(&lines) {
        for level in [0, LEVEL_LIMIT] {
            check_struct_doc(doc, level, &mut tally);
            check_case_doc(doc, level, &mut tally);
        }
    }
    assert_eq!(tally.texts(), 14 * 4);
}

#[test]
fn levels() {
    let mut tally = DeclarationTally::default();
    let declarations: [&[u32]; 6] = [
        &[
            STRUCT, OFFSET, 1, GAUGE_NAME, 1, MM, GAUGE_NAME, 0, NAMED, 2, PUB, MM, I32, PRIV, ID,
            BORROWED, U8,
        ],
        &[
            STRUCT, OFFSET, 0, GAUGE_NAME, 0, NAMELESS, 2, PUB, U8, PRIV, U16,
        ],
        &[
            ENUM, OFFSET, 1, GAUGE_NAME, 0, GAUGE_NAME, 0, 2, OFFSET, MM, NAMED, 1, PRIV, ID, U8,
            OFFSET, ID, NAMELESS, 2, PUB, U8, PRIV, U16,
        ],
        &[
            TYPE, OFFSET, 1, GAUGE_NAME, 0, GAUGE_NAME, 1, MM, 1, BOOL, U8,
        ],
        &[USE, PUB, CRATE, 1, GAUGE_NAME],
        &[head::END],
    ];
    for level in (0..=40).chain([255, 256, 1 << 31, u32::MAX - 1, u32::MAX]) {
        for words in declarations {
            check(&gauge(words), level, &mut tally);
        }
    }
    println!("{tally:?}");
    let levels = LEVEL_LIMIT as usize + 1;
    assert_eq!(tally.texts(), 5 * levels);
    assert_eq!(tally.heads, [2 * levels, levels, levels, levels]);
    assert_eq!(tally.refused(Refusal::BadLevel), 6 * 29);
}

/// Declarations of about so many words, never more: one for each list that can be long.
fn declarations_of_length(length: usize) -> Vec<Vec<u32>> {
    // What stands before the list, with its count last; an item; what stands after the list.
    let lists: [(&[u32], &[u32], &[u32]); 8] = [
        // fields
        (
            &[STRUCT, EMPTY, 0, GAUGE_NAME, 0, NAMED, 0],
            &[PUB, MM, I32],
            &[],
        ),
        // nameless fields
        (
            &[STRUCT, EMPTY, 0, GAUGE_NAME, 0, NAMELESS, 0],
            &[PRIV, U8],
            &[],
        ),
        // attributes
        (
            &[STRUCT, OFFSET, 0],
            &[GAUGE_NAME, 1, MM],
            &[GAUGE_NAME, 0, NAMED, 0],
        ),
        // arguments of an attribute
        (
            &[STRUCT, OFFSET, 1, GAUGE_NAME, 0],
            &[MM],
            &[GAUGE_NAME, 0, NAMED, 0],
        ),
        // cases
        (
            &[ENUM, EMPTY, 0, GAUGE_NAME, 0, 0],
            &[EMPTY, MM, NAMED, 0],
            &[],
        ),
        // parameters
        (
            &[TYPE, OFFSET, 0, GAUGE_NAME, 0],
            &[MM, 2, U8, U16],
            &[BOOL],
        ),
        // constraints
        (
            &[TYPE, OFFSET, 0, GAUGE_NAME, 1, MM, 0],
            &[IDENTIFIER, MM],
            &[IDENTIFIER, GAUGE_NAME],
        ),
        // names of a path
        (&[USE, PUB, CRATE, 0], &[MM], &[]),
    ];
    lists
        .into_iter()
        .map(|(before, item, after)| {
            let count = (length - before.len() - after.len()) / item.len();
            let mut words = [before, &item.repeat(count), after].concat();
            words[before.len() - 1] = count as u32;
            words
        })
        .collect()
}

#[test]
fn limit_of_words() {
    let mut tally = DeclarationTally::default();
    let most = WORD_LIMIT;
    for length in (most - 4..=most + 2).chain([most + 8, 20_000]) {
        for mut words in declarations_of_length(length) {
            check(&gauge(&words), 2, &mut tally);
            words.push(0);
            check(&gauge(&words), 2, &mut tally);
            words.truncate(length - 5);
            check(&gauge(&words), 2, &mut tally);
        }
    }
    use Refusal::*;
    tally.assert_met(&[Overlong, EndsEarly, LeftOver], 5);
}

#[test]
fn limit_of_pairs() {
    let mut tally = DeclarationTally::default();
    let most = 2 * PAIR_LIMIT as u32;
    for length in [0, 2].into_iter().chain(most - 2..=most + 3).chain([5_000]) {
        // Each pair one byte, in order; the text has 2,600 bytes, room for all of them.
        let pairs: Vec<u32> = (0..length)
            .map(|i| if i % 2 == 0 { i / 2 } else { 1 })
            .collect();
        let last = pair(length / 2) - 1;
        for words in [
            &[
                STRUCT, last, 1, last, 1, last, last, 1, last, 0, NAMED, 1, PRIV, last, IDENTIFIER,
                last,
            ][..],
            &[STRUCT, last + 1, 0, EMPTY, 0, NAMED, 0],
            &[STRUCT, EMPTY, 0, last + 1, 0, NAMED, 0],
            &[USE, PRIV, GLOBAL, 1, last],
            &[USE, PRIV, GLOBAL, 1, last + 1],
        ] {
            let encoding = Encoding {
                words,
                pairs: &pairs,
                text: &pattern(2_600),
            };
            check(&encoding, 1, &mut tally);
        }
    }
    assert_eq!(tally.refused(Refusal::Overlong), 3 * 5);
    assert_eq!(tally.refused(Refusal::BadPair), 2 * 5);
    assert_eq!(tally.refused(Refusal::UnknownWord), 4 * 3);
    assert_eq!(tally.texts(), 4 * 2);
}

#[test]
fn limit_of_text() {
    let name = pair(0);
    let mut tally = DeclarationTally::default();
    for length in [TEXT_LIMIT - 1, TEXT_LIMIT, TEXT_LIMIT + 1, 40_000] {
        let text = pattern(length);
        for pair in [
            [0, length as u32],
            [length as u32, 0],
            [length as u32 - 1, 1],
            [length as u32, 1],
            [length as u32 + 1, 0],
        ] {
            let encoding = Encoding {
                words: &[
                    ENUM, name, 0, name, 0, 1, name, name, NAMED, 1, PUB, name, IDENTIFIER, name,
                ],
                pairs: &pair,
                text: &text,
            };
            check(&encoding, LEVEL_LIMIT, &mut tally);
        }
    }
    assert_eq!(tally.texts(), 2 * 3);
    assert_eq!(tally.refused(Refusal::BadPair), 2 * 2);
    assert_eq!(tally.refused(Refusal::Overlong), 2 * 5);
}

/// The edge of the depth, in each place of a declaration where a type begins.
#[test]
fn depth() {
    let mut tally = DeclarationTally::default();
    let places: [(&[u32], &[u32]); 6] = [
        (
            &[STRUCT, EMPTY, 0, GAUGE_NAME, 1, GAUGE_NAME, 1],
            &[NAMED, 0],
        ),
        (
            &[STRUCT, EMPTY, 0, GAUGE_NAME, 0, NAMED, 2, PUB, MM],
            &[PRIV, SELF, FROM_PATH, SELF_TYPE, 0],
        ),
        (
            &[STRUCT, EMPTY, 0, GAUGE_NAME, 0, NAMELESS, 2, PRIV, U8, PUB],
            &[],
        ),
        (
            &[
                ENUM, EMPTY, 0, GAUGE_NAME, 0, 1, EMPTY, GAUGE_NAME, NAMELESS, 1, PUB,
            ],
            &[],
        ),
        (
            &[
                ENUM, EMPTY, 0, GAUGE_NAME, 0, 2, EMPTY, GAUGE_NAME, NAMED, 1, PUB, SELF,
            ],
            &[EMPTY, GAUGE_NAME, NAMELESS, 0],
        ),
        (&[TYPE, EMPTY, 0, GAUGE_NAME, 0], &[]),
    ];
    let steps: [(&[u32], &[u32]); 6] = [
        (&[15], &[]),
        (&[14, 1, 12, 16], &[]),
        (&[20, 1], &[1]),
        (&[23], &[11]),
        (&[23, 0], &[]),
        (&[24, 2], &[]),
    ];
    let inner: [&[u32]; 8] = [
        &[0],
        &[],
        &[99],
        &[13, 2, 0],
        &[14, 0],
        &[19, 0],
        &[19, u32::MAX],
        &[24, 9],
    ];
    for (front, end) in places {
        for (before, after) in steps {
            for count in DEPTH_LIMIT - 3..=DEPTH_LIMIT + 2 {
                for inner in inner {
                    let words = [
                        front,
                        &before.repeat(count),
                        inner,
                        &after.repeat(count),
                        end,
                    ]
                    .concat();
                    check(&gauge(&words), 0, &mut tally);
                }
            }
        }
    }
    println!("{tally:?}");
    assert!(tally.texts() > 150);
    assert!(tally.refused(Refusal::TooDeep) > 500);
}

#[test]
fn large_random_declarations() {
    let random = &mut Random::new(58);
    let mut tally = DeclarationTally::default();
    for round in 0..150 {
        let names = Names::random_with_docs(random, 700);
        let shape = Shape {
            depth: [2, 3, 5, 12][round % 4],
            chain: false,
            children: [1_000, 200, 40, 6][round % 4],
            words: 6_000,
            careless: [0, 100, 10][round % 3],
        };
        let mut sample = random_declaration(random, &names, shape);
        check(
            &sample.as_encoding(),
            random.below(LEVEL_LIMIT as usize + 1) as u32,
            &mut tally,
        );
        damage(random, &mut sample);
        check(&sample.as_encoding(), 0, &mut tally);
    }
    println!("{tally:?}");
    assert!(tally.texts() > 100 && tally.answers.all_refused() > 50);
}

/// Texts of hundreds of thousands of bytes, compared in full.
#[test]
fn long_texts() {
    let mut tally = DeclarationTally::default();
    let names = Names::of(&[&pattern(16_000), b"A"]);
    let (long, short) = (pair(0), pair(1));
    let mut fields = vec![
        STRUCT, long, 1, long, 1, long, short, 1, long, 1, IDENTIFIER, long, NAMED, 20,
    ];
    for _ in 0..20 {
        fields.extend([PRIV, long, IDENTIFIER, long]);
    }
    check(&names.with_words(&fields).as_encoding(), 3, &mut tally);
    let mut cases = vec![ENUM, EMPTY, 0, short, 0, 12];
    for _ in 0..12 {
        cases.extend([long, long, NAMELESS, 1, PUB, IDENTIFIER, long]);
    }
    check(
        &names.with_words(&cases).as_encoding(),
        LEVEL_LIMIT,
        &mut tally,
    );
    assert_eq!(tally.texts(), 2);
}

/// A text of more than 2^31 bytes: a buffer of this length is not to be had, but that any other is
/// too short is to be said, and without the text being made.
#[test]
fn a_text_beyond_31_bits() {
    let text = [b'\n'; TEXT_LIMIT];
    let mut words = vec![ENUM, EMPTY, 0, EMPTY, 0, 2_000];
    for _ in 0..2_000 {
        words.extend([pair(0), EMPTY, NAMELESS, 0]);
    }
    let encoding = Encoding {
        words: &words,
        pairs: &[0, TEXT_LIMIT as u32],
        text: &text,
    };
    // `pub enum  {`, and for each case a newline, an indent, a comment, `()` and a comma; a comment
    // has one line more than newlines, and ends with a newline and an indent.
    let comment = (TEXT_LIMIT as u64 + 1) * (4 + 1 + 68);
    let length: u64 = 11 + 2_000 * (1 + 68 + comment + 2 + 1) - 1 + 1 + 64 + 1;
    assert!(length > 1 << 31);
    for length in [0, 1, PRINT_LIMIT, 1 << 20] {
        for (what, call) in [
            ("tuned", tuned::declaration_text as common::TextCall),
            ("library", declaration_text),
        ] {
            let wanted = Err(Refusal::BufferTooShort);
            check_text(what, call, &encoding, LEVEL_LIMIT, length, &wanted);
        }
    }
}

/// The refusal that comes first, where several apply.
#[test]
fn order_of_refusals() {
    let mut tally = DeclarationTally::default();
    let overlong = EncodingBuf {
        words: vec![99; WORD_LIMIT + 1],
        pairs: vec![9],
        text: vec![],
    };
    check(&overlong.as_encoding(), LEVEL_LIMIT + 1, &mut tally);
    assert_eq!(tally.refused(Refusal::BadLevel), 1);
    check(&overlong.as_encoding(), LEVEL_LIMIT, &mut tally);
    assert_eq!(tally.refused(Refusal::Overlong), 1);
    let bad_pair = EncodingBuf {
        words: vec![99],
        ..overlong
    };
    check(&bad_pair.as_encoding(), LEVEL_LIMIT, &mut tally);
    assert_eq!(tally.refused(Refusal::BadPair), 1);
    check(&gauge(&[]), 0, &mut tally);
    assert_eq!(tally.refused(Refusal::EndsEarly), 1);
    check(&gauge(&[USE, 2]), 0, &mut tally);
    assert_eq!(tally.refused(Refusal::UnknownWord), 1);
    check(&gauge(&[USE, PUB, GLOBAL, 0, 0]), 0, &mut tally);
    assert_eq!(tally.refused(Refusal::LeftOver), 1);
    let deep = [&[TYPE, EMPTY, 0, pair(0), 0][..], &[BORROWED; DEPTH_LIMIT]].concat();
    check(&gauge(&deep), 0, &mut tally);
    assert_eq!(tally.refused(Refusal::TooDeep), 1);
}
