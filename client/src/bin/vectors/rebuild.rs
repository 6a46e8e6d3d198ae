//! Records of the calls that rebuild trees: 6 type_rebuild, 7 declaration_rebuild,
//! 8 type_at_initialization.
//!
//! The buffer is counted in words, which all were 0x2e2e2e2e before the call. Of calls 6 and 7 the
//! level is the number of the rules' words, which follow the text. Printed is a line `done N` or
//! `refused N`, then a line of the whole buffer, as decimals with a space between each two.

use tillercoral::cases::{self, borrows_then, WordCase};
use tillercoral::generate::{
    damage, damage_rules, random_declaration, random_rules, random_shaped_type, random_type,
    respelled, Names, Random, Shape,
};
use tillercoral::limits::{DEPTH_LIMIT, RULE_LIMIT, WORD_LIMIT};
use tillercoral::reference::{self, Rebuilt};
use tillercoral::words::{
    fields::NAMELESS, head::STRUCT, head::USE, kind::*, name::*, root::GLOBAL, visibility::PUB,
};
use tillercoral::{Encoding, EncodingBuf, Refusal};

use super::{bare, Vectors, MOST_BUFFER, MOST_WORDS};

const TYPE: u32 = 6;
const DECLARATION: u32 = 7;

impl Vectors {
    fn rebuild(&mut self, call: u32, encoding: &Encoding<'_>, rules: &[u32], buffer: usize) {
        assert!(rules.len() <= MOST_WORDS, "too many rules for the reader");
        self.record(call, rules.len() as u32, encoding, buffer);
        for word in rules {
            self.stdin.extend(word.to_le_bytes());
        }
        let run = match call {
            TYPE => reference::type_rebuild,
            _ => reference::declaration_rebuild,
        };
        self.word_answer(buffer, |out| run(encoding, rules, out));
    }

    fn initialization(&mut self, encoding: &Encoding<'_>, buffer: usize) {
        self.record(8, 0, encoding, buffer);
        self.word_answer(buffer, |out| {
            reference::type_at_initialization(encoding, out)
        });
    }

    /// A few words to spare, and for some also just enough and one word less.
    fn rebuild_around(&mut self, call: u32, sample: &EncodingBuf, rules: &[u32], around: bool) {
        let encoding = sample.as_encoding();
        let Ok(rebuilt) = rebuilt(call, &encoding, rules) else {
            return self.rebuild(call, &encoding, rules, 3);
        };
        let peak = rebuilt.peak.min(200);
        self.rebuild(call, &encoding, rules, peak + 2);
        if around {
            self.rebuild(call, &encoding, rules, peak);
            self.rebuild(call, &encoding, rules, peak - 1);
        }
    }
}

fn rebuilt(call: u32, encoding: &Encoding<'_>, rules: &[u32]) -> Result<Rebuilt, Refusal> {
    match call {
        TYPE => reference::rebuilt_type(encoding, rules),
        _ => reference::rebuilt_declaration(encoding, rules),
    }
}

pub fn rebuilds(vectors: &mut Vectors) {
    for case in cases::type_rebuilds() {
        by_hand(vectors, TYPE, &case);
    }
    for case in cases::declaration_rebuilds() {
        by_hand(vectors, DECLARATION, &case);
    }
    for case in cases::initializations() {
        let sample = cases::encoded(&case.words);
        vectors.initialization(&sample.as_encoding(), case.buffer.min(90));
    }
    order(vectors);
    limits(vectors);
    generated_types(vectors);
    generated_declarations(vectors);
    generated_initializations(vectors);
}

fn by_hand(vectors: &mut Vectors, call: u32, case: &WordCase) {
    let sample = cases::encoded(&case.words);
    let encoding = sample.as_encoding();
    // Of a long buffer a few words suffice.
    let peak = rebuilt(call, &encoding, &case.rules).map_or(0, |it| it.peak);
    vectors.rebuild(call, &encoding, &case.rules, case.buffer.min(peak + 3));
}

/// 1 before 2 before the tree before the rules before 10 before 8.
fn order(vectors: &mut Vectors) {
    let long = vec![0; WORD_LIMIT + 1];
    let too_many = &[RULE_LIMIT as u32 + 1];
    for (words, pairs, rules) in [
        (&[][..], &[9][..], &long[..]),
        (&[], &[9], too_many),
        (&[], &[], too_many),
        (&[99], &[], too_many),
        (&[USE, PUB, GLOBAL, 0, 0], &[], too_many),
        (&[USE, PUB, GLOBAL, 0], &[], too_many),
        (&[USE, PUB, GLOBAL, 0], &[], &[2, 0, 1, 0, 1, 0]),
        (&[USE, PUB, GLOBAL, 0], &[], &[2, 0, 1, 0, 1]),
        (&[USE, PUB, GLOBAL, 0], &[], &[2, 0, 1, 1, 0]),
    ] {
        let text = &[];
        let encoding = Encoding { words, pairs, text };
        vectors.rebuild(DECLARATION, &encoding, rules, 3);
    }
    vectors.rebuild(TYPE, &bare(&long), &[], 3);
    for buffer in [0, 1] {
        vectors.rebuild(TYPE, &bare(&[0]), &[0], buffer);
        vectors.rebuild(TYPE, &bare(&[0, 0]), &[0], buffer);
    }
}

fn limits(vectors: &mut Vectors) {
    // The longest list of rules, used and not used.
    let mut longest = vec![1, U8, TUPLE, WORD_LIMIT as u32 - 4];
    longest.resize(WORD_LIMIT, U16);
    vectors.rebuild(TYPE, &bare(&[BORROWED, U16]), &longest, 4);
    vectors.rebuild(TYPE, &bare(&[BORROWED, U8]), &longest, 4);
    // A type of 8,192 words becomes one word, for which there is no room before.
    let mut words = vec![TUPLE, WORD_LIMIT as u32 - 2];
    words.resize(WORD_LIMIT, BOOL);
    vectors.rebuild(TYPE, &bare(&words), &[1, BOOL, BORROWED, BOOL], 16);
    vectors.initialization(&bare(&words), 16);
    words.truncate(4_096);
    words[1] = 4_094;
    vectors.rebuild(TYPE, &bare(&words), &[1, BOOL, USIZE], MOST_BUFFER);
    // 32 rules, and 33.
    for count in [RULE_LIMIT as u32, RULE_LIMIT as u32 + 1] {
        let mut rules = vec![count];
        for number in 0..count {
            let (flags, plain) = (number / 12, number % 12);
            rules.extend([META_DATA, flags, plain, BORROWED, plain]);
        }
        let words = [
            TUPLE, 3, META_DATA, 0, I8, META_DATA, 2, I32, META_DATA, 2, I64,
        ];
        vectors.rebuild(TYPE, &bare(&words), &rules, 14);
    }
    // Depths.
    for depth in DEPTH_LIMIT - 3..DEPTH_LIMIT {
        let words = borrows_then(depth, &[U8]);
        let rules = [1, U8, BORROWED, BORROWED, U8];
        vectors.rebuild(TYPE, &bare(&words), &rules, 68);
        let front = [STRUCT, EMPTY, 0, STD, 0, NAMELESS, 1, PUB];
        let field = [&front, &words[..]].concat();
        vectors.rebuild(DECLARATION, &bare(&field), &[1, U8, TUPLE, 1, U8], 80);
    }
}

fn generated_types(vectors: &mut Vectors) {
    let random = &mut Random::new(5);
    for round in 0..36 {
        let names = Names::random_for_shapes(random);
        let mut sample = if round % 2 == 0 {
            random_shaped_type(random, &names, 3 + round % 4)
        } else {
            let shape = shape(round);
            random_type(random, &names, shape)
        };
        let mut rules = random_rules(random, &names, &sample);
        match round % 6 {
            4 => damage(random, &mut sample),
            5 => damage_rules(random, &mut rules),
            _ => {}
        }
        vectors.rebuild_around(TYPE, &sample, &rules, round % 3 == 0);
    }
    for _ in 0..6 {
        let names = Names::random_for_shapes(random);
        let sample = random_shaped_type(random, &names, 4);
        let from = respelled(random, &names, &sample.words);
        let rules = [&[1], &from[..], &[BOOL]].concat();
        vectors.rebuild_around(TYPE, &sample, &rules, true);
    }
}

fn generated_declarations(vectors: &mut Vectors) {
    let random = &mut Random::new(6);
    for round in 0..24 {
        let names = Names::random_for_shapes(random);
        let shape = shape(round);
        let mut sample = random_declaration(random, &names, shape);
        let mut rules = random_rules(random, &names, &sample);
        match round % 6 {
            4 => damage(random, &mut sample),
            5 => damage_rules(random, &mut rules),
            _ => {}
        }
        vectors.rebuild_around(DECLARATION, &sample, &rules, round % 4 == 0);
    }
}

fn generated_initializations(vectors: &mut Vectors) {
    let random = &mut Random::new(7);
    let mut changed = 0;
    while changed < 12 {
        let names = Names::random_for_shapes(random);
        let sample = random_shaped_type(random, &names, 5);
        let encoding = sample.as_encoding();
        let words = reference::initialization_words(&encoding);
        let other = words.is_ok_and(|words| words != sample.words);
        if other {
            changed += 1;
            let buffer = (sample.words.len() + 12).min(100);
            vectors.initialization(&encoding, buffer);
        }
    }
}

fn shape(round: usize) -> Shape {
    Shape {
        depth: 1 + round % 6,
        chain: round % 7 == 6,
        children: 3,
        words: 40,
        careless: 100,
    }
}
