//! Times the text of types and of paths: the library through its wrapper, the reference with its
//! trees and vectors, and the hand-tuned version, side by side in one run.
//!
//! The buffers are not cleared between calls, so only the calls themselves are timed.

mod samples;
mod timing;

use samples::{gauge_types, nested_paths};
use tillercoral::generate::{random_type, Names, Random, Shape};
use tillercoral::limits::{DEPTH_LIMIT, PAIR_LIMIT, TEXT_LIMIT, WORD_LIMIT};
use tillercoral::words::{kind::*, name::*, pair, root::*};
use tillercoral::{path_text, reference, tuned, type_text, EncodingBuf};
use timing::{print_growth, print_times, timed, Case, Kind, Maker};

const TYPES: Kind = Kind {
    what: "types",
    calls: [type_text, tuned::type_text, reference::type_text],
    text_of,
};

const PATHS: Kind = Kind {
    what: "paths",
    calls: [path_text, tuned::path_text, reference::path_text],
    text_of: text_of_path,
};

fn main() {
    let (cases, paths) = (cases(), paths());
    for case in cases.iter().chain(&paths) {
        case.check();
    }
    println!("{} groups of types: all three versions agree", cases.len());
    println!("{} paths: all three versions agree", paths.len());
    if timed() {
        print_times(&cases);
        print_growth(&TYPES, &GROWING);
        println!();
        print_times(&paths);
    }
}

fn text_of(sample: &EncodingBuf, _level: u32) -> Vec<u8> {
    reference::read_type(&sample.as_encoding())
        .expect("the benchmark's own types are accepted")
        .reference_text()
}

fn text_of_path(sample: &EncodingBuf, _level: u32) -> Vec<u8> {
    reference::read_path(&sample.as_encoding())
        .expect("the benchmark's own paths are accepted")
        .reference_text()
}

fn cases() -> Vec<Case<'static>> {
    let gauge = Names::of(&[b"Gauge", b"Offset", b"mm", b"id"]);
    let small = [
        &[0][..],
        &[12, 16],
        &[15, 12, 16],
        &[14, 1, 12, 16, 0],
        &[22, 0, 1],
        &[19, 2, 0, 11],
    ];
    let small = small.iter().map(|words| gauge.with_words(words)).collect();
    let case = |name, samples| Case::new(&TYPES, name, 0, samples);
    vec![
        case("small", small),
        case("forty gauge types", gauge_types()),
        case("many children", vec![many_children(4_000)]),
        case("nested", vec![nested()]),
        case("nested paths", vec![nested_paths(1_000)]),
        case("long names", vec![long_names()]),
        case("names only", vec![names_only(4_000)]),
        case("hidden bases", vec![hidden_bases(4_000)]),
        case("random mix", random_mix(7, 8, 4)),
        case("another mix", random_mix(107, 5, 7)),
        case("third mix", random_mix(207, 7, 5)),
        case("most words", vec![many_children(WORD_LIMIT)]),
        case("most pairs", vec![most_pairs()]),
        case("most text", vec![most_text()]),
    ]
}

fn paths() -> Vec<Case<'static>> {
    let case = |name, sample| Case::new(&PATHS, name, 0, vec![sample]);
    vec![
        case(
            "::std::rc::Rc",
            Names::of(&[]).with_words(&[GLOBAL, 3, STD, RC_MODULE, RC]),
        ),
        case("crate, five names", five_names()),
        case("1,000 names", thousand_names()),
    ]
}

const GROWING: [(&str, Maker); 4] = [
    ("many children", many_children),
    ("nested paths", nested_paths),
    ("names only", names_only),
    ("hidden bases", hidden_bases),
];

fn many_children(words: usize) -> EncodingBuf {
    let names = Names::of(&[b"Gauge", b"Offset", b"mm", b"id"]);
    let mut children = Vec::new();
    let mut count = 0;
    while children.len() + 7 <= words {
        match count % 3 {
            0 => children.extend([BORROWED, I32]),
            1 => children.extend([APP, 1, IDENTIFIER, pair(0), U32]),
            _ => children.extend([ARRAY, pair(2) + 1, U8]),
        }
        count += 1;
    }
    while children.len() + 2 < words {
        children.push(USIZE);
        count += 1;
    }
    names.with_words(&[&[TUPLE, count], &children[..]].concat())
}

/// As deep as it goes, with something on every step.
fn nested() -> EncodingBuf {
    let names = Names::of(&[b"Gauge", b"Offset", b"mm", b"id"]);
    let mut words = Vec::new();
    for depth in 0..DEPTH_LIMIT - 1 {
        match depth % 4 {
            0 => words.extend([APP, 1, IDENTIFIER, pair(0)]),
            1 => words.extend([BORROWED]),
            2 => words.extend([ARRAY, pair(2) + 1]),
            _ => words.extend([FN, 0]),
        }
    }
    words.push(U8);
    names.with_words(&words)
}

fn long_names() -> EncodingBuf {
    let name = [b'a'; 1_000];
    let names = Names::of(&[&name, &name[..900]]);
    let mut words = vec![TUPLE, 200];
    for _ in 0..100 {
        words.extend([IDENTIFIER, pair(0), IDENTIFIER, pair(1)]);
    }
    names.with_words(&words)
}

fn names_only(words: usize) -> EncodingBuf {
    let names = Names::of(&[b"Gauge", b"Depth", b"mm", b"identifier"]);
    let count = (words - 2) / 2;
    let mut all = vec![TUPLE, count as u32];
    let numbers = [pair(0), pair(1), pair(2), pair(3), RC, OBJECT];
    for i in 0..count {
        all.extend([IDENTIFIER, numbers[i % 6]]);
    }
    names.with_words(&all)
}

/// Synonyms: half of the words print nothing.
fn hidden_bases(words: usize) -> EncodingBuf {
    let names = Names::of(&[b"Gauge"]);
    let count = (words - 2) / 10;
    let mut all = vec![TUPLE, count as u32];
    for _ in 0..count {
        all.extend([SYNONYM, APP, 1, IDENTIFIER, pair(0), META_DATA, 2, I32]);
        all.extend([BORROWED, USIZE]);
    }
    names.with_words(&all)
}

fn random_mix(seed: u64, depth: usize, children: usize) -> Vec<EncodingBuf> {
    let random = &mut Random::new(seed);
    (0..60)
        .map(|_| {
            let names = Names::random(random, 20);
            let shape = Shape {
                depth,
                chain: false,
                children,
                words: 200,
                careless: 100,
            };
            random_type(random, &names, shape)
        })
        .collect()
}

fn most_pairs() -> EncodingBuf {
    let stock: Vec<Vec<u8>> = (0..PAIR_LIMIT)
        .map(|i| format!("Channel{i}").into_bytes())
        .collect();
    let names = Names::of(&stock.iter().map(Vec::as_slice).collect::<Vec<_>>());
    let count = PAIR_LIMIT as u32;
    let mut words = vec![TUPLE, count];
    for i in 0..count {
        words.extend([IDENTIFIER, pair(i * 389 % count)]);
    }
    names.with_words(&words)
}

fn most_text() -> EncodingBuf {
    let name = [b'n'; TEXT_LIMIT];
    let names = Names::of(&[&name]);
    let mut words = vec![TUPLE, 64];
    for _ in 0..64 {
        words.extend([IDENTIFIER, pair(0)]);
    }
    names.with_words(&words)
}

fn five_names() -> EncodingBuf {
    let names = Names::of(&[b"instruments", b"sounder", b"channel", b"nmea", b"Reading"]);
    names.with_words(&[CRATE, 5, pair(0), pair(1), pair(2), pair(3), pair(4)])
}

/// Names of a table and fixed ones, of different lengths.
fn thousand_names() -> EncodingBuf {
    let names = Names::of(&[
        b"Gauge",
        b"instruments",
        b"mm",
        b"a_longer_name_of_a_module",
    ]);
    let mut words = vec![GLOBAL, 1_000];
    let numbers = [pair(0), pair(1), pair(2), STD, pair(3), DAFNY_RUNTIME];
    words.extend((0..1_000).map(|i| numbers[i % 6]));
    names.with_words(&words)
}
