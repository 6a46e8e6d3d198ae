//! Times visit lists, soundness, and some answers about shapes and parts: the library through its
//! wrapper, the hand-tuned version and the reference, side by side in one run.

mod samples;
mod timing;

use std::hint::black_box;
use std::time::Instant;

use samples::{gauge_types, nested_paths};
use tillercoral::cases::{GAUGE, PTR_OF};
use tillercoral::generate::{random_shaped_type, random_type, Names, Random, Shape};
use tillercoral::limits::WORD_LIMIT;
use tillercoral::reference::{self, PARTS, SHAPES};
use tillercoral::words::{fields::*, head::*, kind::*, name::*, pair, visibility::*};
use tillercoral::{tuned, Encoding, EncodingBuf, Refusal};
use timing::{best_times, is_asked_for, timed, ROUNDS};

/// A call whose whole answer is a number; what is written goes to the buffer.
type Call = fn(&Encoding<'_>, &mut [u32]) -> Result<usize, Refusal>;

/// One call in its versions: the library, the tuned version, the reference.
struct Kind {
    name: &'static str,
    calls: [Call; 3],
}

const BUFFER: usize = WORD_LIMIT;

static VISITS: [Kind; 2] = [
    Kind {
        name: "type_visit",
        calls: [
            tillercoral::type_visit,
            tuned::type_visit,
            reference::type_visit,
        ],
    },
    Kind {
        name: "declaration_visit",
        calls: [
            tillercoral::declaration_visit,
            tuned::declaration_visit,
            reference::declaration_visit,
        ],
    },
];

static SOUNDNESS: Kind = Kind {
    name: "type_is_sound",
    calls: [
        |encoding, _| tillercoral::type_is_sound(encoding).map(usize::from),
        |encoding, _| tuned::type_is_sound(encoding).map(usize::from),
        |encoding, _| reference::type_is_sound(encoding).map(usize::from),
    ],
};

static ANSWERS: [Kind; 4] = [
    Kind {
        name: "can_read_without_clone",
        calls: [
            |encoding, _| tillercoral::can_read_without_clone(encoding).map(usize::from),
            |encoding, _| tuned::can_read_without_clone(encoding).map(usize::from),
            |encoding, _| SHAPES[2].answer(encoding).map(usize::from),
        ],
    },
    Kind {
        name: "is_rc",
        calls: [
            |encoding, _| tillercoral::is_rc(encoding).map(usize::from),
            |encoding, _| tuned::is_rc(encoding).map(usize::from),
            |encoding, _| SHAPES[13].answer(encoding).map(usize::from),
        ],
    },
    Kind {
        name: "is_object_or_pointer",
        calls: [
            |encoding, _| tillercoral::is_object_or_pointer(encoding).map(usize::from),
            |encoding, _| tuned::is_object_or_pointer(encoding).map(usize::from),
            |encoding, _| SHAPES[11].answer(encoding).map(usize::from),
        ],
    },
    Kind {
        name: "expand",
        calls: [
            |encoding, _| tillercoral::expand(encoding).map(|part| part.start),
            |encoding, _| tuned::expand(encoding).map(|part| part.start),
            |encoding, _| PARTS[1].answer(encoding).map(|part| part.start),
        ],
    },
];

struct Case {
    kind: &'static Kind,
    name: String,
    samples: Vec<EncodingBuf>,
}

impl Case {
    fn new(kind: &'static Kind, what: &str, samples: Vec<EncodingBuf>) -> Case {
        let name = format!("{}, {what}", kind.name);
        Case {
            kind,
            name,
            samples,
        }
    }

    fn words(&self) -> usize {
        self.samples.iter().map(|sample| sample.words.len()).sum()
    }

    fn check(&self) {
        for sample in &self.samples {
            let [ours, tuned, wanted] = self.kind.calls.map(|call| {
                let mut buffer = vec![7; BUFFER];
                (call(&sample.as_encoding(), &mut buffer), buffer)
            });
            assert!(wanted.0.is_ok(), "{}: {:?}", self.name, wanted.0);
            assert!(ours == wanted, "{}", self.name);
            assert!(tuned == wanted, "{}", self.name);
        }
    }

    /// Nanoseconds for all samples of the case, one number for each version.
    fn time(&self) -> [f64; 3] {
        let mut buffer = vec![0; BUFFER];
        best_times(|which, repeats| {
            let call = self.kind.calls[which];
            let start = Instant::now();
            for _ in 0..repeats {
                for sample in &self.samples {
                    let encoding = black_box(sample.as_encoding());
                    let _ = black_box(call(&encoding, black_box(&mut buffer)));
                }
            }
            start.elapsed()
        })
    }
}

fn main() {
    let cases = cases();
    for case in &cases {
        case.check();
    }
    println!("{} groups of trees: all three versions agree", cases.len());
    if timed() {
        print_times(&cases);
    }
}

fn print_times(cases: &[Case]) {
    println!("time of one call, best of {ROUNDS} interleaved rounds");
    println!();
    println!(
        "{:<40} {:>6} {:>10} {:>10} {:>10}   {:>10} {:>14}",
        "calls", "words", "ours", "tuned", "reference", "ours/tuned", "ours/reference"
    );
    for case in cases.iter().filter(|case| is_asked_for(&case.name)) {
        let [ours, tuned, reference] = case.time();
        let count = case.samples.len() as f64;
        println!(
            "{:<40} {:>6} {:>7.0} ns {:>7.0} ns {:>7.0} ns   {:>10.2} {:>14.2}",
            case.name,
            case.words() / case.samples.len(),
            ours / count,
            tuned / count,
            reference / count,
            ours / tuned,
            ours / reference
        );
    }
}

fn cases() -> Vec<Case> {
    let mut cases = visits();
    cases.extend(soundness());
    for kind in &ANSWERS {
        cases.push(Case::new(kind, "gauge types", gauge_types()));
        cases.push(Case::new(kind, "shaped types", shaped_types(10, 6)));
        cases.push(Case::new(kind, "other shapes", shaped_types(110, 9)));
        cases.push(Case::new(kind, "third shapes", shaped_types(210, 7)));
        cases.push(Case::new(kind, "8,192 words", vec![wrapped(WORD_LIMIT)]));
    }
    cases
}

fn visits() -> Vec<Case> {
    let [types, declarations] = &VISITS;
    vec![
        Case::new(types, "gauge types", gauge_types()),
        Case::new(types, "shaped types", shaped_types(10, 6)),
        Case::new(types, "other shapes", shaped_types(110, 9)),
        Case::new(types, "third shapes", shaped_types(210, 7)),
        Case::new(types, "fourth shapes", shaped_types(310, 8)),
        Case::new(types, "1,024 words", vec![list_of_synonyms(1_024)]),
        Case::new(types, "8,192 words", vec![list_of_synonyms(WORD_LIMIT)]),
        Case::new(declarations, "a struct", vec![a_struct()]),
        Case::new(declarations, "struct fields", vec![many_fields(STRUCT)]),
        Case::new(declarations, "enum fields", vec![many_fields(ENUM)]),
    ]
}

/// All of these but the shapes are sound, so that the answer depends on every word.
fn soundness() -> Vec<Case> {
    let case = |what, samples| Case::new(&SOUNDNESS, what, samples);
    vec![
        case("gauge types", sound(gauge_types())),
        case("shaped types", shaped_types(10, 6)),
        case("other shapes", shaped_types(110, 9)),
        case("third shapes", shaped_types(210, 7)),
        case("nested mix", sound(nested_mix(11, 10, 4))),
        case("another mix", sound(nested_mix(111, 6, 6))),
        case("third mix", sound(nested_mix(211, 8, 5))),
        case("8,192 words", sound(vec![list_of_synonyms(WORD_LIMIT)])),
        case("nested paths", sound(vec![nested_paths(WORD_LIMIT)])),
    ]
}

fn sound(samples: Vec<EncodingBuf>) -> Vec<EncodingBuf> {
    for sample in &samples {
        let answer = reference::type_is_sound(&sample.as_encoding());
        assert_eq!(answer, Ok(true), "{sample:?}");
    }
    samples
}

/// Names of 1 to 40 bytes, in types with all heads.
fn nested_mix(seed: u64, depth: usize, children: usize) -> Vec<EncodingBuf> {
    let stock: Vec<Vec<u8>> = (0..120)
        .map(|i| {
            let name = format!("G{i}_of_a_gauge_that_has_a_very_long_name");
            name.as_bytes()[..1 + i * 7 % 40].to_vec()
        })
        .collect();
    let names = Names::of(&stock.iter().map(Vec::as_slice).collect::<Vec<_>>());
    let random = &mut Random::new(seed);
    let shape = Shape {
        depth,
        chain: false,
        children,
        words: 300,
        careless: 0,
    };
    (0..60)
        .map(|_| random_type(random, &names, shape))
        .collect()
}

fn shaped_types(seed: u64, depth: usize) -> Vec<EncodingBuf> {
    let random = &mut Random::new(seed);
    (0..60)
        .map(|_| {
            let names = Names::random_for_shapes(random);
            random_shaped_type(random, &names, depth)
        })
        .collect()
}

fn list_of_synonyms(words: usize) -> EncodingBuf {
    let names = Names::of(&[b"Gauge"]);
    let count = (words - 2) / 10;
    let mut all = vec![TUPLE, count as u32];
    for _ in 0..count {
        all.extend([SYNONYM, APP, 1, IDENTIFIER, pair(0), META_DATA, 2, I32]);
        all.extend([BORROWED, USIZE]);
    }
    names.with_words(&all)
}

/// A synonym with a long display, of a Ptr.
fn wrapped(words: usize) -> EncodingBuf {
    let display = list_of_synonyms(words - 9);
    let all = [&[SYNONYM], &display.words[..], &PTR_OF, &[U8]].concat();
    EncodingBuf {
        words: all,
        ..display
    }
}

fn a_struct() -> EncodingBuf {
    let names = Names::of(&[b"Gauge", b"Offset in mm.", b"mm", b"id"]);
    names.with_words(&GAUGE)
}

/// A struct, or an enum with one case, with as many fields as there may be.
fn many_fields(head: u32) -> EncodingBuf {
    let names = Names::of(&[b"Gauge", b"Offset", b"mm", b"id"]);
    let mut all = vec![head, EMPTY, 0, pair(0), 0];
    if head == ENUM {
        all.extend([1, EMPTY, pair(1)]);
    }
    all.extend([NAMED, 0]);
    let count = all.len() - 1;
    while all.len() + 8 <= WORD_LIMIT {
        all.extend([PUB, pair(2), APP, 1, IDENTIFIER, pair(0), BORROWED, I32]);
        all[count] += 1;
    }
    names.with_words(&all)
}
