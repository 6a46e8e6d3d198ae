//! Times rebuilt types and declarations, and types at initialization: the library through its
//! wrapper, the hand-tuned version and the reference, side by side in one run.

mod samples;
mod timing;

use std::hint::black_box;
use std::time::Instant;

use samples::gauge_types;
use tillercoral::cases::{GAUGE, OBJECT_OF};
use tillercoral::generate::{random_rules, random_shaped_type, Names, Random};
use tillercoral::limits::{DEPTH_LIMIT, RULE_LIMIT, WORD_LIMIT};
use tillercoral::words::{
    fields::NAMED, head::STRUCT, kind::*, name::*, pair, root::GLOBAL, visibility::PUB, NO_SIZE,
};
use tillercoral::{reference, tuned, type_rebuild, Encoding, EncodingBuf, Refusal};
use timing::{best_times, counting, is_asked_for, timed, ROUNDS};

type WordCall = fn(&Encoding<'_>, &[u32], &mut [u32]) -> Result<usize, Refusal>;

/// The library, the tuned version, the reference.
const TYPES: [WordCall; 3] = [type_rebuild, tuned::type_rebuild, reference::type_rebuild];
const DECLARATIONS: [WordCall; 3] = [
    tillercoral::declaration_rebuild,
    tuned::declaration_rebuild,
    reference::declaration_rebuild,
];

/// These take no rules.
const INITIALIZATIONS: [WordCall; 3] = [
    |encoding, _rules, out| tillercoral::type_at_initialization(encoding, out),
    |encoding, _rules, out| tuned::type_at_initialization(encoding, out),
    |encoding, _rules, out| reference::type_at_initialization(encoding, out),
];

/// Trees that are rebuilt one after the other, each with its rules.
struct Case {
    name: String,
    calls: [WordCall; 3],
    samples: Vec<(EncodingBuf, Vec<u32>)>,
}

const BUFFER: usize = WORD_LIMIT;

impl Case {
    fn new(name: &str, calls: [WordCall; 3], samples: Vec<(EncodingBuf, Vec<u32>)>) -> Case {
        Case {
            name: name.to_string(),
            calls,
            samples,
        }
    }

    /// One tree, in a case of types.
    fn one(name: &str, tree: EncodingBuf, rules: Vec<u32>) -> Case {
        Case::new(name, TYPES, vec![(tree, rules)])
    }

    fn words(&self) -> usize {
        self.samples.iter().map(|(tree, _)| tree.words.len()).sum()
    }

    fn rules(&self) -> usize {
        let all = self.samples.iter().map(|(_, rules)| rules[0] as usize);
        all.sum::<usize>() / self.samples.len()
    }

    fn check(&self) {
        for (tree, rules) in &self.samples {
            let [ours, tuned, wanted] = self.calls.map(|call| {
                let mut buffer = vec![7; BUFFER];
                (call(&tree.as_encoding(), rules, &mut buffer), buffer)
            });
            assert!(wanted.0.is_ok(), "{}: {:?}", self.name, wanted.0);
            assert!(ours == wanted, "{}", self.name);
            assert!(tuned == wanted, "{}", self.name);
        }
    }

    /// Nanoseconds for all samples of the case, one number for each version.
    fn time(&self) -> [f64; 3] {
        let mut buffer = vec![0; BUFFER];
        best_times(|which, repeats| {
            let call = self.calls[which];
            let start = Instant::now();
            for _ in 0..repeats {
                for (tree, rules) in &self.samples {
                    let encoding = black_box(tree.as_encoding());
                    let _ = black_box(call(&encoding, black_box(rules), black_box(&mut buffer)));
                }
            }
            start.elapsed()
        })
    }
}

fn main() {
    let cases = cases();
    for case in &cases {
        case.check();
    }
    println!("{} groups of trees: all three versions agree", cases.len());
    if timed() {
        print_times(&cases);
        if !counting() {
            print_growth_with_words();
        }
    }
}

fn print_times(cases: &[Case]) {
    println!("time of one call, best of {ROUNDS} interleaved rounds");
    println!();
    println!(
        "{:<24} {:>6} {:>6} {:>10} {:>10} {:>10}   {:>10} {:>14}",
        "trees", "words", "rules", "ours", "tuned", "reference", "ours/tuned", "ours/reference"
    );
    for case in cases.iter().filter(|case| is_asked_for(&case.name)) {
        let [ours, tuned, reference] = case.time();
        let count = case.samples.len() as f64;
        println!(
            "{:<24} {:>6} {:>6} {:>7.0} ns {:>7.0} ns {:>7.0} ns   {:>10.2} {:>14.2}",
            case.name,
            case.words() / case.samples.len(),
            case.rules(),
            ours / count,
            tuned / count,
            reference / count,
            ours / tuned,
            ours / reference
        );
    }
}

/// Whether the time grows in step with the words.
fn print_growth_with_words() {
    println!();
    println!("growth: time per word at parts of the limit of 8,192 words, with 8 rules");
    println!(
        "{:<24} {:>12} {:>12} {:>12} {:>12}",
        "trees", "1/8", "1/4", "1/2", "whole"
    );
    for (name, rules) in [
        ("none matches", rules_that_miss(8)),
        ("many match", rules_that_hit(8)),
    ] {
        for (version, which) in [("ours", 0), ("tuned", 1)] {
            print!("{:<24}", format!("{name}, {version}"));
            for part in [8, 4, 2, 1] {
                let case = Case::one(name, list_of_types(WORD_LIMIT / part), rules.clone());
                case.check();
                print!(" {:>9.2} ns", case.time()[which] / case.words() as f64);
            }
            println!();
        }
    }
}

fn cases() -> Vec<Case> {
    let mut cases = vec![
        Case::new("small, one rule", TYPES, small()),
        Case::new("forty gauge types", TYPES, gauge_types_with_rules()),
        Case::new("random mix", TYPES, random_mix(9, 8)),
        Case::new("another mix", TYPES, random_mix(109, 5)),
        Case::new("third mix", TYPES, random_mix(209, 7)),
        Case::new("fourth mix", TYPES, random_mix(309, 6)),
        Case::new("fifth mix", TYPES, random_mix(409, 9)),
    ];
    cases.extend(growing_with_rules());
    let rules = vec![1, BORROWED, U8, U8];
    cases.push(Case::one("nested, all match", nested(), rules));
    cases.extend(declarations());
    cases.extend(initializations());
    cases
}

fn declarations() -> Vec<Case> {
    let fields = |name, rules| Case::new(name, DECLARATIONS, vec![(many_fields(), rules)]);
    vec![
        Case::new("a struct, one rule", DECLARATIONS, vec![a_struct()]),
        fields("fields, none matches", rules_that_miss(8)),
        fields("fields, many match", rules_that_hit(8)),
    ]
}

fn initializations() -> Vec<Case> {
    let case = |name, words: &[u32]| {
        let tree = item_names().with_words(words);
        Case::new(name, INITIALIZATIONS, vec![(tree, vec![0])])
    };
    let array_of = [ARRAY, NO_SIZE];
    let named = [IDENTIFIER, pair(0)];
    let large = list_of_types(8_000).words;
    vec![
        case("initialized, the same", &[&OBJECT_OF[..], &named].concat()),
        case(
            "initialized, an array",
            &[&OBJECT_OF[..], &array_of, &named].concat(),
        ),
        case(
            "initialized, large",
            &[&OBJECT_OF[..], &array_of, &large].concat(),
        ),
    ]
}

/// How the time grows with the rules, in a tree of 8,192 words.
fn growing_with_rules() -> Vec<Case> {
    let case = |name: String, rules| Case::one(&name, list_of_types(WORD_LIMIT), rules);
    let misses = [0, 1, 8, 32].map(|count| {
        let name = format!("{count} rules, none matches");
        case(name, rules_that_miss(count))
    });
    let hits = [1, 8, 32].map(|count| {
        let name = format!("{count} rules, many match");
        case(name, rules_that_hit(count))
    });
    let almost = case("32 rules, almost match".into(), rules_that_almost_hit());
    misses.into_iter().chain(hits).chain([almost]).collect()
}

fn small() -> Vec<(EncodingBuf, Vec<u32>)> {
    let gauge = Names::of(&[b"Gauge", b"Offset", b"mm", b"id"]);
    [
        &[0][..],
        &[12, 16],
        &[15, 12, 16],
        &[14, 1, 12, 16, 0],
        &[22, 0, 1],
        &[19, 2, 0, 11],
    ]
    .iter()
    .map(|words| (gauge.with_words(words), vec![1, U8, BORROWED, U16]))
    .collect()
}

/// `Gauge` by an Rc of it, `u16` by `u32`, `&` a slice of these by a vector, a fault by none.
fn gauge_types_with_rules() -> Vec<(EncodingBuf, Vec<u32>)> {
    let rules = [
        &[4][..],
        &[12, 16, 14, 1, 13, 0, 3, 1, 2, 3, 12, 16],
        &[1, 2],
        &[15, 22, 0, 2, 14, 1, 13, 0, 3, 1, 22, 23, 2],
        &[12, 21, 19, 0],
    ]
    .concat();
    let with_rules = |tree| (tree, rules.clone());
    gauge_types().into_iter().map(with_rules).collect()
}

fn random_mix(seed: u64, depth: usize) -> Vec<(EncodingBuf, Vec<u32>)> {
    let random = &mut Random::new(seed);
    let mut mix = Vec::new();
    while mix.len() < 60 {
        let names = Names::random_for_shapes(random);
        let tree = random_shaped_type(random, &names, depth);
        let rules = random_rules(random, &names, &tree);
        let mut buffer = vec![0; BUFFER];
        if reference::type_rebuild(&tree.as_encoding(), &rules, &mut buffer).is_ok() {
            mix.push((tree, rules));
        }
    }
    mix
}

/// The types of this list are found again in the rules below.
const ITEMS: [&[u32]; 8] = [
    &[15, 7],
    &[14, 1, 12, 16, 2],
    &[22, 19, 0],
    &[14, 1, 13, 0, 3, 1, 2, 3, 12, 17],
    &[12, 18],
    &[19, 2, 7, 11],
    &[24, 2, 7],
    &[23, 12, 17, 15, 1],
];

fn item_names() -> Names {
    // The last three are those of 16 to 18 again.
    Names::of(&[
        b"Gauge", b"Offset", b"mm", b"id", b"Gauge", b"Offset", b"mm",
    ])
}

fn list_of_types(words: usize) -> EncodingBuf {
    let mut all = vec![TUPLE, 0];
    for item in ITEMS.iter().cycle() {
        if all.len() + item.len() > words {
            break;
        }
        all.extend(*item);
        all[1] += 1;
    }
    item_names().with_words(&all)
}

/// Rules for types of the same heads and lengths that are not in the list.
fn rules_that_miss(count: usize) -> Vec<u32> {
    let mut rules = vec![count as u32];
    for number in 0..count as u32 {
        let (quarter, plain) = (number / 4, number % 12);
        match number % 4 {
            0 => rules.extend([APP, 1, IDENTIFIER, pair(3), IDENTIFIER, quarter, plain]),
            1 => rules.extend([ARRAY, 1 + quarter, I128, plain]),
            2 => {
                rules.extend([APP, 1, FROM_PATH, GLOBAL, 3, STD, RC_MODULE, ARC]);
                rules.extend([IDENTIFIER, quarter, U16]);
            }
            _ => rules.extend([META_DATA, 3, quarter, U16]),
        }
    }
    rules
}

/// Rules for types of the list, some spelled with other numbers, of which none grows.
fn rules_that_hit(count: usize) -> Vec<u32> {
    let froms: [&[u32]; 8] = [
        &[12, 20],
        &[15, 7],
        &[22, 19, 0],
        &[12, 21],
        &[24, 2, 7],
        &[19, 2, 7, 11],
        &[14, 1, 11, 2],
        &[14, 1, 13, 0, 3, 1, 2, 3, 11],
    ];
    let mut rules = vec![count as u32];
    for number in 0..count as u32 {
        match froms.get(number as usize) {
            Some(from) => rules.extend([from, &[BOOL][..]].concat()),
            None => {
                rules.extend([META_DATA, 1, BORROWED, BORROWED]);
                rules.extend([FROM_PATH, number % 3, 1, number / 3, U8]);
            }
        }
    }
    rules
}

/// Rules that differ from types of the list in their last words only.
fn rules_that_almost_hit() -> Vec<u32> {
    let mut rules = vec![RULE_LIMIT as u32];
    for number in 0..RULE_LIMIT as u32 / 2 {
        rules.extend([APP, 1, FROM_PATH, GLOBAL, 3, STD, RC_MODULE, RC]);
        rules.extend([IDENTIFIER, number, U8]);
        rules.extend([APP, 1, IDENTIFIER, pair(4), IDENTIFIER, number, U8]);
    }
    rules
}

fn nested() -> EncodingBuf {
    let mut words = vec![BORROWED; DEPTH_LIMIT - 1];
    words.push(U8);
    Names::of(&[]).with_words(&words)
}

fn a_struct() -> (EncodingBuf, Vec<u32>) {
    let names = Names::of(&[b"Gauge", b"Offset in mm.", b"mm", b"id"]);
    (names.with_words(&GAUGE), vec![1, I32, I64])
}

fn many_fields() -> EncodingBuf {
    let mut all = vec![STRUCT, EMPTY, 0, pair(0), 0, NAMED, 0];
    for item in ITEMS.iter().cycle() {
        if all.len() + 2 + item.len() > WORD_LIMIT {
            break;
        }
        all.extend([PUB, pair(2)]);
        all.extend(*item);
        all[6] += 1;
    }
    item_names().with_words(&all)
}
