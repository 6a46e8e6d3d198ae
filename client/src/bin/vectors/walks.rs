//! Records of the calls that look at trees: 9 type_visit, 10 declaration_visit, 11 the shape whose
//! index is the level, 12 the part whose index is the level.
//!
//! Of calls 9 and 10 the buffer is counted in words, which all were 0x2e2e2e2e before the call, and
//! the answer is printed as that of a rebuilt tree. Printed for call 11: a line `yes`, `no` or
//! `refused N`. For call 12: a line `part START LENGTH` and a line of the part's words, as decimals
//! with a space between each two; or a line `refused N` and an empty line.

use tillercoral::cases::{self, borrows_then};
use tillercoral::generate::{
    damage, random_declaration, random_shaped_type, random_type, Names, Random, Shape,
};
use tillercoral::limits::{DEPTH_LIMIT, TEXT_LIMIT, WORD_LIMIT};
use tillercoral::reference::{self, PARTS, SHAPES};
use tillercoral::words::kind::{self, BOOL, SYNONYM, TUPLE, U8};
use tillercoral::{Encoding, EncodingBuf};

use super::{bare, decimals, refused, Vectors};

impl Vectors {
    fn type_visit(&mut self, encoding: &Encoding<'_>, buffer: usize) {
        self.record(9, 0, encoding, buffer);
        self.word_answer(buffer, |out| reference::type_visit(encoding, out));
    }

    fn declaration_visit(&mut self, encoding: &Encoding<'_>, buffer: usize) {
        self.record(10, 0, encoding, buffer);
        self.word_answer(buffer, |out| reference::declaration_visit(encoding, out));
    }

    fn shape(&mut self, which: usize, encoding: &Encoding<'_>) {
        self.record(11, which as u32, encoding, 0);
        self.yes_or_no(SHAPES[which].answer(encoding));
    }

    fn part(&mut self, which: usize, encoding: &Encoding<'_>) {
        self.record(12, which as u32, encoding, 0);
        match PARTS[which].answer(encoding) {
            Ok(part) => {
                self.line(&format!("part {} {}", part.start, part.len()));
                self.line(&decimals(&encoding.words[part]));
            }
            Err(refusal) => {
                self.line(&refused(refusal));
                self.line("");
            }
        }
    }
}

pub fn walks(vectors: &mut Vectors) {
    visits(vectors);
    shapes_by_hand(vectors);
    parts_by_hand(vectors);
    refusals(vectors);
    long_types(vectors);
    generated_visits(vectors);
    generated_answers(vectors);
}

fn visits(vectors: &mut Vectors) {
    for case in cases::type_visits() {
        let sample = cases::encoded(&case.words);
        vectors.type_visit(&sample.as_encoding(), case.buffer.min(8));
    }
    for case in cases::declaration_visits() {
        let sample = cases::encoded(&case.words);
        vectors.declaration_visit(&sample.as_encoding(), case.buffer.min(8));
    }
}

/// Each shape that a type has, and in turn one that it lacks.
fn shapes_by_hand(vectors: &mut Vectors) {
    for (index, case) in cases::shapes().into_iter().enumerate() {
        let sample = cases::encoded(&case.words);
        let has = |which: &usize| case.shapes.contains(&SHAPES[*which].name);
        for which in (0..SHAPES.len()).filter(has) {
            vectors.shape(which, &sample.as_encoding());
        }
        let lacking = (0..SHAPES.len()).filter(|which| !has(which));
        // A type without any shape is there for what it lacks.
        if case.shapes.is_empty() || index % 3 == 0 {
            vectors.shape(
                lacking.cycle().nth(index).unwrap_or(0),
                &sample.as_encoding(),
            );
        }
    }
}

/// Each part listed for a type, and in turn one that is not.
fn parts_by_hand(vectors: &mut Vectors) {
    for (index, case) in cases::parts().into_iter().enumerate() {
        let sample = cases::encoded(&case.words);
        let listed = |which: &usize| {
            let mut parts = case.parts.iter();
            parts.any(|(name, _)| *name == PARTS[*which].name)
        };
        for which in (0..PARTS.len()).filter(listed) {
            vectors.part(which, &sample.as_encoding());
        }
        let others = (0..PARTS.len()).filter(|which| !listed(which));
        if let Some(which) = others.cycle().nth(index) {
            vectors.part(which, &sample.as_encoding());
        }
    }
}

/// Each refusal before the tree and in it, in turn of all calls.
fn refusals(vectors: &mut Vectors) {
    let long_text = vec![b'x'; TEXT_LIMIT + 1];
    let deep = borrows_then(DEPTH_LIMIT, &[]);
    let samples: [(&[u32], &[u32], &[u8]); 8] = [
        (&[], &[9], &long_text),
        (&[], &[9], b""),
        (&[], &[], b""),
        (&[99], &[], b""),
        (&[kind::END], &[], b""),
        (&deep, &[], b""),
        (&[0, 0], &[], b""),
        (&[12, 16], &[], b""),
    ];
    for (index, (words, pairs, text)) in samples.into_iter().enumerate() {
        let encoding = Encoding { words, pairs, text };
        vectors.type_visit(&encoding, 2);
        vectors.declaration_visit(&encoding, 2);
        // The long text need not come so often.
        for step in 0..if index == 0 { 1 } else { 3 } {
            vectors.shape((index + 5 * step) % SHAPES.len(), &encoding);
            vectors.part((index + 4 * step) % PARTS.len(), &encoding);
        }
    }
}

fn long_types(vectors: &mut Vectors) {
    let mut words = vec![SYNONYM, U8, TUPLE, WORD_LIMIT as u32 - 4];
    words.resize(WORD_LIMIT, BOOL);
    vectors.type_visit(&bare(&words), 4);
    vectors.part(1, &bare(&words));
    let mut list = vec![TUPLE, 1_000];
    list.resize(1_002, BOOL);
    vectors.type_visit(&bare(&list), 1_001);
    vectors.type_visit(&bare(&list), 1_000);
}

fn generated_visits(vectors: &mut Vectors) {
    let random = &mut Random::new(8);
    for round in 0..24 {
        let names = Names::random_for_shapes(random);
        let shape = Shape {
            depth: 1 + round % 6,
            chain: round % 7 == 6,
            children: 3,
            words: 40,
            careless: 100,
        };
        let mut tree = random_type(random, &names, shape);
        let mut declaration = random_declaration(random, &names, shape);
        if round % 6 == 5 {
            damage(random, &mut tree);
            damage(random, &mut declaration);
        }
        let short = usize::from(round % 5 == 4);
        let encoding = tree.as_encoding();
        let count = reference::read_type(&encoding).map_or(2, |it| it.reference_visits().len());
        vectors.type_visit(&encoding, (count + 2 - 3 * short).min(400));
        let encoding = declaration.as_encoding();
        let count =
            reference::read_declaration(&encoding).map_or(2, |it| it.reference_visits().len());
        vectors.declaration_visit(&encoding, (count + 2).saturating_sub(3 * short).min(400));
    }
}

/// In turn all shapes and parts, of types that have most of them rarely.
fn generated_answers(vectors: &mut Vectors) {
    let random = &mut Random::new(9);
    for which in 0..SHAPES.len() {
        let sample = with_shape(random, which);
        vectors.shape(which, &sample.as_encoding());
    }
    for which in (0..PARTS.len()).chain(0..PARTS.len()) {
        let sample = with_part(random, which);
        vectors.part(which, &sample.as_encoding());
    }
}

fn with_shape(random: &mut Random, which: usize) -> EncodingBuf {
    loop {
        let sample = shaped(random);
        if SHAPES[which].answer(&sample.as_encoding()) == Ok(true) {
            return sample;
        }
    }
}

fn with_part(random: &mut Random, which: usize) -> EncodingBuf {
    loop {
        let sample = shaped(random);
        let part = PARTS[which].answer(&sample.as_encoding());
        if part.is_ok_and(|part| part.start > 0) {
            return sample;
        }
    }
}

fn shaped(random: &mut Random) -> EncodingBuf {
    let names = Names::random_for_shapes(random);
    random_shaped_type(random, &names, 5)
}
