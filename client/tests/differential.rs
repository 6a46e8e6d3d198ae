//! Compares the library, the reference and the hand-tuned version on made-up encodings, whole ones
//! and damaged ones: same answer, same buffer to the last byte.

mod common;

use std::collections::hash_map::Entry;
use std::collections::HashMap;

use common::{bare, buffer_lengths, check_text, gauge, pattern, shape, Tally};
use tillercoral::generate::{damage, damage_names, random_path, random_type, Names, Random, Shape};
use tillercoral::limits::{DEPTH_LIMIT, LEVEL_LIMIT, PAIR_LIMIT, TEXT_LIMIT, WORD_LIMIT};
use tillercoral::words::{kind, kind::*, name, pair, root};
use tillercoral::{
    path_text, reference, tuned, type_is_sound, type_text, Encoding, EncodingBuf, Refusal,
};

/// All calls for a type on one encoding, with buffers of many lengths.
fn check_type(encoding: &Encoding<'_>, level: u32, tally: &mut Tally) {
    let tree = reference::read_type(encoding);
    let wanted = match &tree {
        _ if level > LEVEL_LIMIT => Err(Refusal::BadLevel),
        Ok(tree) => Ok(tree.reference_text()),
        Err(refusal) => Err(*refusal),
    };
    tally.count_text(&wanted);
    for length in buffer_lengths(&wanted) {
        check_text("library", type_text, encoding, level, length, &wanted);
        check_text("tuned", tuned::type_text, encoding, level, length, &wanted);
    }
    let length = wanted.as_ref().map_or(9, Vec::len);
    check_text(
        "reference",
        reference::type_text,
        encoding,
        level,
        length,
        &wanted,
    );

    let wanted_sound = tree.map(|tree| reference::tree_is_sound(&tree));
    match wanted_sound {
        Ok(true) => tally.sound += 1,
        Ok(false) => tally.unsound += 1,
        Err(_) => {}
    }
    check_sound(encoding, wanted_sound);
}

fn check_sound(encoding: &Encoding<'_>, wanted: Result<bool, Refusal>) {
    assert_eq!(type_is_sound(encoding), wanted, "library: {encoding:?}");
    let tuned = tuned::type_is_sound(encoding);
    assert_eq!(tuned, wanted, "tuned: {encoding:?}");
}

/// The call for a path on one encoding, with buffers of many lengths.
fn check_path(encoding: &Encoding<'_>, level: u32, tally: &mut Tally) {
    let wanted = match reference::read_path(encoding) {
        _ if level > LEVEL_LIMIT => Err(Refusal::BadLevel),
        path => path.map(|path| path.reference_text()),
    };
    tally.count_text(&wanted);
    for length in buffer_lengths(&wanted) {
        check_text("library, path", path_text, encoding, level, length, &wanted);
        let tuned = tuned::path_text;
        check_text("tuned, path", tuned, encoding, level, length, &wanted);
    }
    let length = wanted.as_ref().map_or(9, Vec::len);
    check_text(
        "reference, path",
        reference::path_text,
        encoding,
        level,
        length,
        &wanted,
    );
}

#[test]
fn random_types() {
    let random = &mut Random::new(11);
    let mut tally = Tally::default();
    for round in 0..50_000 {
        let names = Names::random(random, 12);
        let shape = shape(round, random);
        let sample = random_type(random, &names, shape);
        check_type(
            &sample.as_encoding(),
            random.below(LEVEL_LIMIT as usize + 1) as u32,
            &mut tally,
        );
    }
    println!("{tally:?}");
    assert!(tally.texts > 40_000);
    assert!(tally.refused(Refusal::TooDeep) > 2_000);
    assert!(tally.sound > 20_000 && tally.unsound > 10_000);
}

#[test]
fn damaged_types() {
    let random = &mut Random::new(12);
    let mut tally = Tally::default();
    for round in 0..80_000 {
        let names = Names::random(random, 12);
        let shape = shape(round, random);
        let mut sample = random_type(random, &names, shape);
        for _ in 0..1 + random.below(2) {
            damage(random, &mut sample);
        }
        check_type(&sample.as_encoding(), 0, &mut tally);
    }
    println!("{tally:?}");
    assert!(tally.texts > 5_000);
    use Refusal::*;
    for refusal in [BadPair, EndsEarly, UnknownWord, TooDeep, LeftOver] {
        assert!(tally.refused(refusal) > 1_500, "{refusal}");
    }
}

#[test]
fn damaged_pairs() {
    let random = &mut Random::new(13);
    let mut tally = Tally::default();
    for round in 0..20_000 {
        let names = Names::random(random, 8);
        let shape = shape(round % 8, random);
        let mut sample = random_type(random, &names, shape);
        damage_names(random, &mut sample);
        check_type(&sample.as_encoding(), 0, &mut tally);
    }
    println!("{tally:?}");
    assert!(tally.texts > 2_000);
    assert!(tally.refused(Refusal::BadPair) > 8_000);
    assert!(tally.refused(Refusal::UnknownWord) > 100);
}

/// Every front part of some encodings, and every one of them with a word too many.
#[test]
fn truncated_types() {
    let random = &mut Random::new(14);
    let mut tally = Tally::default();
    for round in 0..400 {
        let names = Names::random(random, 12);
        let shape = shape(round, random);
        let sample = random_type(random, &names, shape);
        for length in 0..sample.words.len() {
            let part = Encoding {
                words: &sample.words[..length],
                ..sample.as_encoding()
            };
            check_type(&part, 0, &mut tally);
        }
        for word in [U8, IDENTIFIER, kind::END, u32::MAX] {
            let mut longer = sample.clone();
            longer.words.push(word);
            check_type(&longer.as_encoding(), 0, &mut tally);
        }
    }
    println!("{tally:?}");
    assert!(tally.refused(Refusal::EndsEarly) > 10_000);
    assert!(tally.refused(Refusal::LeftOver) > 1_000);
}

/// All runs of up to four words that could mean something, as a type and as a path.
#[test]
fn all_short_encodings() {
    const WORDS: u32 = kind::END + 2; // heads run to 24, names to 19, sizes to 20
    let mut tally = Tally::default();
    for length in 0..=4 {
        for number in 0..WORDS.pow(length) {
            let mut words = [0; 4];
            let mut left = number;
            for word in &mut words[..length as usize] {
                *word = left % WORDS;
                left /= WORDS;
            }
            let encoding = gauge(&words[..length as usize]);
            check_type(&encoding, 0, &mut tally);
            if words[0] <= root::END {
                check_path(&encoding, 0, &mut tally);
            }
        }
    }
    println!("{tally:?}");
    assert!(tally.texts > 10_000);
    assert!(tally.sound > 5_000 && tally.unsound > 1_000);
}

#[test]
fn paths() {
    let random = &mut Random::new(15);
    let mut tally = Tally::default();
    for round in 0..20_000 {
        let names = Names::random(random, 12);
        let most = [0, 1, 3, 40][round % 4];
        let mut sample = random_path(random, &names, most);
        match round / 4 % 4 {
            0 => damage(random, &mut sample),
            1 if round % 32 == 4 => {
                for length in 0..sample.words.len() {
                    let part = Encoding {
                        words: &sample.words[..length],
                        ..sample.as_encoding()
                    };
                    check_path(&part, 0, &mut tally);
                }
            }
            _ => {}
        }
        let level = random.below(LEVEL_LIMIT as usize + 3) as u32;
        check_path(&sample.as_encoding(), level, &mut tally);
    }
    println!("{tally:?}");
    assert!(tally.texts > 10_000);
    use Refusal::*;
    for refusal in [BadPair, EndsEarly, UnknownWord, LeftOver, BadLevel] {
        assert!(tally.refused(refusal) > 50, "{refusal}");
    }
}

/// Soundness where it is decided: types that are sound but for perhaps one place, and names of
/// all sorts.
#[test]
fn soundness() {
    let random = &mut Random::new(16);
    let mut tally = Tally::default();
    let mut answers = [0_usize; 3]; // yes, no, refused
    for round in 0..120_000 {
        let names = Names::random(random, 20);
        let shape = Shape {
            depth: 3 + random.below(7),
            chain: round % 5 == 0,
            children: 3,
            words: 80,
            careless: [0, 10, 20, 40][round % 4],
        };
        let mut sample = random_type(random, &names, shape);
        if round % 8 == 7 {
            damage(random, &mut sample);
        }
        let wanted = reference::type_is_sound(&sample.as_encoding());
        check_sound(&sample.as_encoding(), wanted);
        match wanted {
            Ok(true) => answers[0] += 1,
            Ok(false) => answers[1] += 1,
            Err(_) => answers[2] += 1,
        }
        if round % 64 == 0 {
            check_type(&sample.as_encoding(), 0, &mut tally);
        }
    }
    println!("yes, no, refused: {answers:?}");
    assert!(answers[0] > 40_000 && answers[1] > 20_000 && answers[2] > 4_000);
}

/// Every name of up to two bytes, and every reserved word with a byte changed, added or taken.
#[test]
fn soundness_of_names() {
    let mut names: Vec<Vec<u8>> = vec![Vec::new()];
    for a in 0..=255 {
        names.push(vec![a]);
        names.extend((0..=255).map(|b| vec![a, b]));
    }
    for word in reference::RESERVED {
        let word = word.as_bytes();
        names.push(word.to_vec());
        for at in 0..word.len() {
            let mut shorter = word.to_vec();
            shorter.remove(at);
            names.push(shorter);
            for byte in 0..=255 {
                let mut changed = word.to_vec();
                changed[at] = byte;
                names.push(changed);
                let mut longer = word.to_vec();
                longer.insert(at, byte);
                names.push(longer);
            }
        }
        names.extend((0..=255).map(|byte| [word, &[byte]].concat()));
    }
    let mut answers = [0_usize; 2];
    for name in &names {
        // The name again as a part of a longer text, with its neighbours as bait.
        let text = [b"x", &name[..], b"8"].concat();
        let pairs = [1, name.len() as u32];
        for words in [
            &[12, 16][..],
            &[22, 17, 0],
            &[13, 0, 1, 16],
            &[14, 1, 12, 16, 0],
        ] {
            let encoding = Encoding {
                words,
                pairs: &pairs,
                text: &text,
            };
            let wanted = reference::type_is_sound(&encoding);
            check_sound(&encoding, wanted);
            answers[wanted.unwrap() as usize] += 1;
        }
    }
    println!("no, yes: {answers:?}");
    assert!(answers[0] > 100_000 && answers[1] > 30_000);
}

/// Sound types print the same exactly when they are the same tree, wrappers aside.
#[test]
fn texts_of_sound_types_are_unique() {
    let random = &mut Random::new(17);
    // Few names, some of them with the bytes of fixed ones, so that the same tree comes up often.
    let names = Names::of(&[b"T", b"std", b"T", b"_", b"Rc", b"8"]);
    let mut tree_of: HashMap<Vec<u8>, (reference::Type, EncodingBuf)> = HashMap::new();
    let mut text_of: HashMap<reference::Type, Vec<u8>> = HashMap::new();
    let (mut sound, mut met_again, mut other_words) = (0, 0, 0);
    for round in 0..200_000 {
        let shape = Shape {
            depth: 1 + random.below(4),
            chain: round % 7 == 0,
            children: 2,
            words: 8,
            careless: [0, 30][round % 2],
        };
        let sample = random_type(random, &names, shape);
        if type_is_sound(&sample.as_encoding()) != Ok(true) {
            continue;
        }
        sound += 1;
        let mut buffer = [0; 4_096];
        let length = type_text(&sample.as_encoding(), 0, &mut buffer).expect("a short text");
        let text = buffer[..length].to_vec();
        let tree = reference::read_type(&sample.as_encoding())
            .expect("accepted")
            .reference_bare();
        match text_of.entry(tree.clone()) {
            Entry::Vacant(entry) => {
                entry.insert(text.clone());
            }
            Entry::Occupied(entry) => assert_eq!(*entry.get(), text, "{sample:?}"),
        }
        match tree_of.entry(text) {
            Entry::Vacant(entry) => {
                entry.insert((tree, sample));
            }
            Entry::Occupied(entry) => {
                let (tree_before, sample_before) = entry.get();
                assert_eq!(*tree_before, tree, "{sample_before:?} and {sample:?}");
                met_again += 1;
                if sample_before.words != sample.words {
                    other_words += 1;
                }
            }
        }
    }
    println!("{sound} sound, {met_again} met again, {other_words} of them by other words");
    assert_eq!(tree_of.len(), text_of.len());
    assert!(tree_of.len() > 10_000 && met_again > 10_000 && other_words > 5_000);
}

#[test]
fn levels() {
    let mut tally = Tally::default();
    for level in (0..=40).chain([255, 256, 1 << 31, u32::MAX - 1, u32::MAX]) {
        check_type(&gauge(&[14, 1, 12, 16, 0]), level, &mut tally);
        check_path(&gauge(&[1, 1, 16]), level, &mut tally);
        check_type(&gauge(&[kind::END]), level, &mut tally);
        check_path(&gauge(&[]), level, &mut tally);
    }
    assert_eq!(tally.texts, 2 * (LEVEL_LIMIT as usize + 1));
    assert_eq!(tally.refused(Refusal::BadLevel), 4 * 29);
}

#[test]
fn limit_of_words() {
    let mut tally = Tally::default();
    for length in (WORD_LIMIT - 2..=WORD_LIMIT + 2).chain([20_000]) {
        let mut tuple = vec![TUPLE, length as u32 - 2];
        tuple.resize(length, I32);
        check_type(&bare(&tuple), 0, &mut tally);
        tuple[1] = u32::MAX;
        check_type(&bare(&tuple), 0, &mut tally);

        let mut synonym = vec![SYNONYM, U8, TUPLE, length as u32 - 4];
        synonym.resize(length, BOOL);
        check_type(&bare(&synonym), 0, &mut tally);

        let mut path = vec![root::GLOBAL, length as u32 - 2];
        path.resize(length, name::DAFNY_RUNTIME);
        check_path(&bare(&path), 0, &mut tally);
        path[1] += 1;
        check_path(&bare(&path), 0, &mut tally);
    }
    assert_eq!(tally.texts, 3 * 3);
    assert_eq!(tally.refused(Refusal::Overlong), 3 * 5);
}

#[test]
fn large_random_types() {
    let random = &mut Random::new(18);
    let mut tally = Tally::default();
    for round in 0..150 {
        let names = Names::random(random, PAIR_LIMIT);
        let shape = Shape {
            depth: [3, 5, 12, 40][round % 4],
            chain: false,
            children: [2_000, 40, 6, 4][round % 4],
            words: 7_000,
            careless: [0, 100, 1][round % 3],
        };
        let mut sample = random_type(random, &names, shape);
        check_type(&sample.as_encoding(), 0, &mut tally);
        damage(random, &mut sample);
        check_type(&sample.as_encoding(), 0, &mut tally);
    }
    println!("{tally:?}");
    assert!(tally.texts > 100 && tally.all_refused() > 50);
}

#[test]
fn limit_of_pairs() {
    let mut tally = Tally::default();
    let most = 2 * PAIR_LIMIT as u32;
    for length in (0..=2).chain(most - 2..=most + 4).chain([5_000, 5_001]) {
        // Each pair one byte, in order; the text has 2,600 bytes, room for all of them.
        let pairs: Vec<u32> = (0..length)
            .map(|i| if i % 2 == 0 { i / 2 } else { 1 })
            .collect();
        let text = pattern(2_600);
        let last = pair(length / 2) - 1;
        for words in [
            &[U8][..],
            &[IDENTIFIER, last],
            &[IDENTIFIER, last + 1],
            &[ARRAY, last + 1, U8],
            &[ARRAY, last + 2, U8],
        ] {
            let encoding = Encoding {
                words,
                pairs: &pairs,
                text: &text,
            };
            check_type(&encoding, 0, &mut tally);
        }
        let encoding = Encoding {
            words: &[root::GLOBAL, 1, last],
            pairs: &pairs,
            text: &text,
        };
        check_path(&encoding, 0, &mut tally);
    }
    assert_eq!(tally.refused(Refusal::Overlong), 5 * 6);
    assert_eq!(tally.refused(Refusal::BadPair), 3 * 6);
    assert_eq!(tally.refused(Refusal::UnknownWord), 4 * 2);
    assert_eq!(tally.texts, 4 * 4);
}

#[test]
fn limit_of_text() {
    let mut tally = Tally::default();
    for length in [TEXT_LIMIT - 1, TEXT_LIMIT, TEXT_LIMIT + 1, 40_000] {
        let text = pattern(length);
        for pair in [
            [0, length as u32],
            [length as u32, 0],
            [length as u32 - 1, 1],
            [length as u32, 1],
            [length as u32 + 1, 0],
        ] {
            let encoding = Encoding {
                words: &[19, 2, 12, 16, 22, 17, 12, 16],
                pairs: &pair,
                text: &text,
            };
            check_type(&encoding, 0, &mut tally);
            let encoding = Encoding {
                words: &[2, 1, 16],
                ..encoding
            };
            check_path(&encoding, 0, &mut tally);
        }
    }
    assert_eq!(tally.texts, 2 * 3 * 2);
    assert_eq!(tally.refused(Refusal::BadPair), 2 * 2 * 2);
    assert_eq!(tally.refused(Refusal::Overlong), 2 * 5 * 2);
}

/// The longest text there is room for in this test: far more bytes than words.
#[test]
fn long_text() {
    let text = pattern(TEXT_LIMIT);
    let mut words = vec![TUPLE, 500];
    for _ in 0..500 {
        words.extend([IDENTIFIER, pair(0)]);
    }
    let encoding = Encoding {
        words: &words,
        pairs: &[0, TEXT_LIMIT as u32],
        text: &text,
    };
    check_type(&encoding, 0, &mut Tally::default());
}

/// The edge of the depth, approached through each kind that has children.
#[test]
fn depth() {
    let mut tally = Tally::default();
    let steps: [(&[u32], &[u32]); 12] = [
        (&[15], &[]),
        (&[16], &[]),
        (&[17], &[]),
        (&[18], &[]),
        (&[14, 0], &[]),
        (&[14, 1, 12, 16], &[]),
        (&[19, 2], &[0]),
        (&[20, 1], &[1]),
        (&[21, 0], &[]),
        (&[22, 19], &[]),
        (&[23], &[11]),
        (&[24, 2], &[]),
    ];
    let inner: [&[u32]; 16] = [
        &[0],
        &[],
        &[99],
        &[12],
        &[12, 16],
        &[12, 20],
        &[13, 0, 1, 16],
        &[14],
        &[14, 0],
        &[19],
        &[19, 0],
        &[19, u32::MAX],
        &[20, 0],
        &[22, 21],
        &[24, 9],
        &[24, 3],
    ];
    for (before, after) in steps {
        for count in DEPTH_LIMIT - 3..=DEPTH_LIMIT + 2 {
            for inner in inner {
                let mut words = before.repeat(count);
                words.extend_from_slice(inner);
                words.extend(after.repeat(count));
                check_type(&gauge(&words), 0, &mut tally);
            }
        }
    }
    println!("{tally:?}");
    assert!(tally.texts > 100);
    assert!(tally.refused(Refusal::TooDeep) > 300);
}

/// One huge word in each place of some types.
#[test]
fn huge_words() {
    let random = &mut Random::new(19);
    let mut tally = Tally::default();
    for round in 0..300 {
        let names = Names::random(random, 6);
        let shape = shape(round % 8, random);
        let sample = random_type(random, &names, shape);
        for at in 0..sample.words.len() {
            for word in [WORD_LIMIT as u32, 1 << 16, 1 << 31, u32::MAX - 16, u32::MAX] {
                let mut huge = sample.clone();
                huge.words[at] = word;
                check_type(&huge.as_encoding(), 0, &mut tally);
            }
        }
    }
    println!("{tally:?}");
    use Refusal::*;
    for refusal in [EndsEarly, UnknownWord] {
        assert!(tally.refused(refusal) > 1_000, "{refusal}");
    }
}
