//! Times the text of declarations, as `text` does for types, and the program `printdecl` as a whole.
//!
//! The program is `../crates/printdecl/out/printdecl`, or another one named by `TILLERCORAL_PRINTDECL`; the one
//! it is compared with is `printdecl_tuned` of this package.

mod timing;

use std::env;
use std::fs::{self, File};
use std::path::{Path, PathBuf};
use std::process::{Command, Stdio};
use std::time::Instant;

use tillercoral::cases::{GAUGE_NAME, ID, MM, OFFSET};
use tillercoral::generate::{random_declaration, Names, Random, Shape};
use tillercoral::limits::{LEVEL_LIMIT, PAIR_LIMIT, WORD_LIMIT};
use tillercoral::words::{fields::*, head::*, kind::*, name::*, pair, root::*, visibility::*};
use tillercoral::{declaration_text, reference, source, tuned, EncodingBuf};
use timing::{print_growth, print_times, timed, Case, Kind, Maker};

const DECLARATIONS: Kind = Kind {
    what: "declarations",
    calls: [
        declaration_text,
        tuned::declaration_text,
        reference::declaration_text,
    ],
    text_of,
};

fn main() {
    let cases = cases();
    for case in &cases {
        case.check();
    }
    println!(
        "{} groups of declarations: all three versions agree",
        cases.len()
    );
    if timed() {
        print_times(&cases);
        print_growth(&DECLARATIONS, &GROWING);
        print_program_times();
    }
}

fn text_of(sample: &EncodingBuf, level: u32) -> Vec<u8> {
    reference::read_declaration(&sample.as_encoding())
        .expect("the benchmark's own declarations are accepted")
        .reference_text(level)
}

fn cases() -> Vec<Case<'static>> {
    let case = |name, level, samples| Case::new(&DECLARATIONS, name, level, samples);
    vec![
        case("the example", 0, vec![encoded(GAUGE)]),
        case("forty records", 0, forty_records()),
        case("forty, level 3", 3, forty_records()),
        case("many fields", 0, vec![many_fields(4_000)]),
        case("nameless fields", 0, vec![nameless_fields(4_000)]),
        case("many cases", 1, vec![many_cases(4_000)]),
        case("fields named self", 0, vec![self_fields(4_000)]),
        case("many attributes", 0, vec![many_attributes(4_000)]),
        case("doc of one line", 0, vec![with_doc(&[b'd'; 16_000])]),
        case("doc of prose", 0, vec![with_doc(&prose())]),
        case("doc of code", 1, vec![with_doc(&code())]),
        case(
            "doc of newlines",
            LEVEL_LIMIT,
            vec![with_doc(&[b'\n'; 16_000])],
        ),
        case("random mix", 2, random_mix(8, 4, 5)),
        case("another mix", 1, random_mix(108, 6, 3)),
        case("third mix", 3, random_mix(208, 5, 4)),
        case("most words", 0, vec![many_fields(WORD_LIMIT)]),
        case("most of all", 0, vec![most_of_all()]),
    ]
}

const GROWING: [(&str, Maker); 4] = [
    ("many fields", many_fields),
    ("nameless fields", nameless_fields),
    ("many cases", many_cases),
    ("named self", self_fields),
];

fn encoded(text: &str) -> EncodingBuf {
    let declaration = source::parse(text).expect("a good source");
    EncodingBuf::from_declaration(&declaration).expect("a small declaration")
}

const GAUGE: &str = r#"
struct Gauge
    doc "Offset in mm."
    field pub mm: i32
    field id: &u8
"#;

/// The records of a maker of marine instruments: eight shapes for five instruments.
fn forty_records() -> Vec<EncodingBuf> {
    let instruments = ["TideGauge", "EchoSounder", "WindVane", "Compass", "Log"];
    let shapes = [
        r#"
struct INSTRUMENT
    doc "One INSTRUMENT on the instrument bus."
    attribute derive(Clone)
    field pub address: u8
    field pub channel: u16
    field offset: i32
    field name: ::std::string::String
"#,
        r#"
struct INSTRUMENTReading
    doc "A reading, in the unit of the channel."
    doc "Not yet corrected for the offset."
    attribute derive(Clone, Copy, PartialEq)
    field pub value: meta overflow {i32}
    field pub at_ms: u64
    field valid: bool
"#,
        r#"
enum INSTRUMENTEvent
    doc "What INSTRUMENT reports."
    case Started
    case Reading
        nameless u16
        nameless INSTRUMENTReading
    case Fault
        doc "Code as in the manual."
        field code: u8
        field since: ::std::option::Option<u64>
"#,
        r#"
struct INSTRUMENTLog
    parameter T: crate::nmea::Unit, ::std::clone::Clone
    field pub readings: ::dafny_runtime::Sequence<T>
    field pub latest: ::dafny_runtime::Object<INSTRUMENTReading>
    field listeners: ::std::vec::Vec<::std::rc::Rc<dyn fn(&T) -> bool>>
"#,
        r#"
type INSTRUMENTResult
    doc "What a call to INSTRUMENT gives."
    parameter T
    is ::std::result::Result<T, crate::nmea::Fault>
"#,
        r#"
struct INSTRUMENTCalibration
    doc "Calibration points:"
    doc "    raw -> true"
    field pub points: [(i32, i32); 16]
    field pub by: &[u8]
    field serial: [u8; 12]
"#,
        r#"
struct INSTRUMENTId
    attribute derive(Clone, Copy, PartialEq, Eq, Hash)
    nameless pub u8
    nameless u32
"#,
        "pub use crate::instruments::INSTRUMENT",
    ];
    instruments
        .iter()
        .flat_map(|name| shapes.map(|shape| encoded(&shape.replace("INSTRUMENT", name))))
        .collect()
}

/// Puts as many items after the front as there is room for; the count stands last in the front.
fn listed(names: &[&[u8]], front: &[u32], items: &[&[u32]], words: usize) -> EncodingBuf {
    let mut all = front.to_vec();
    let mut count = 0;
    for item in items.iter().cycle() {
        if all.len() + item.len() > words {
            break;
        }
        all.extend(*item);
        count += 1;
    }
    all[front.len() - 1] = count;
    Names::of(names).with_words(&all)
}

fn many_fields(words: usize) -> EncodingBuf {
    listed(
        &[b"Gauge", b"offset", b"mm", b"identifier"],
        &[STRUCT, EMPTY, 0, GAUGE_NAME, 0, NAMED, 0],
        &[
            &[PUB, MM, I32],
            &[PRIV, ID, BORROWED, U8],
            &[
                PUB, OFFSET, APP, 1, FROM_PATH, GLOBAL, 3, STD, RC_MODULE, RC, IDENTIFIER,
                GAUGE_NAME,
            ],
            &[PRIV, MM, ARRAY, MM + 1, U32],
        ],
        words,
    )
}

fn nameless_fields(words: usize) -> EncodingBuf {
    listed(
        &[b"Gauge", b"Offset"],
        &[STRUCT, EMPTY, 0, pair(0), 0, NAMELESS, 0],
        &[
            &[PUB, I32],
            &[PRIV, IDENTIFIER, pair(1)],
            &[PRIV, BORROWED, U8],
        ],
        words,
    )
}

fn many_cases(words: usize) -> EncodingBuf {
    let [high, low, level, doc] = [1, 2, 3, 4].map(pair);
    listed(
        &[
            b"Event",
            b"High",
            b"Low",
            b"level",
            b"High water at the gauge.",
        ],
        &[ENUM, EMPTY, 0, pair(0), 0, 0],
        &[
            &[doc, high, NAMED, 2, PRIV, level, I32, PRIV, low, U64],
            &[EMPTY, low, NAMELESS, 2, PRIV, I32, PRIV, U64],
            &[EMPTY, high, NAMED, 0],
        ],
        words,
    )
}

fn self_fields(words: usize) -> EncodingBuf {
    listed(
        &[b"Gauge", b"self"],
        &[STRUCT, EMPTY, 0, pair(0), 0, NAMED, 0],
        &[
            &[PRIV, SELF, FROM_PATH, SELF_TYPE, 0],
            &[PRIV, pair(1), BORROWED, FROM_PATH, SELF_TYPE, 0],
            &[
                PRIV, SELF, SYNONYM, TUPLE, 2, U8, U16, META_DATA, 0, FROM_PATH, SELF_TYPE, 0,
            ],
            &[PRIV, pair(1), I32],
        ],
        words,
    )
}

fn many_attributes(words: usize) -> EncodingBuf {
    let made = listed(
        &[
            b"Gauge",
            b"derive",
            b"Clone",
            b"Copy",
            b"allow",
            b"dead_code",
        ],
        &[STRUCT, EMPTY, 0],
        &[
            &[pair(1), 2, pair(2), pair(3)],
            &[pair(4), 1, pair(5)],
            &[pair(1), 0],
        ],
        words - 4,
    );
    EncodingBuf {
        words: [&made.words[..], &[pair(0), 0, NAMED, 0]].concat(),
        ..made
    }
}

fn with_doc(doc: &[u8]) -> EncodingBuf {
    Names::of(&[b"Gauge", doc]).with_words(&[STRUCT, pair(1), 0, pair(0), 0, NAMELESS, 0])
}

fn prose() -> Vec<u8> {
    let lines = b"The offset is added to every reading before it is sent on the bus,\n\
        so that all instruments of a ship agree on the keel as zero.\n\n";
    lines.repeat(16_000 / lines.len())
}

fn code() -> Vec<u8> {
    let lines =
        b"As in:\n```\nvar g := Gauge(0);\n    g.read();\n```\n    indented\n```rs\nlet x;\n```\n";
    lines.repeat(16_000 / lines.len())
}

fn random_mix(seed: u64, depth: usize, children: usize) -> Vec<EncodingBuf> {
    let random = &mut Random::new(seed);
    (0..60)
        .map(|_| {
            let names = Names::random_with_docs(random, 20);
            let shape = Shape {
                depth,
                chain: false,
                children,
                words: 200,
                careless: 100,
            };
            random_declaration(random, &names, shape)
        })
        .collect()
}

/// As many words, pairs and bytes as there may be, all of them used.
fn most_of_all() -> EncodingBuf {
    let stock: Vec<Vec<u8>> = (0..PAIR_LIMIT)
        .map(|i| format!("channel_{i:08}").into_bytes())
        .collect();
    let names = Names::of(&stock.iter().map(Vec::as_slice).collect::<Vec<_>>());
    let (pairs, fields) = (PAIR_LIMIT as u32, (WORD_LIMIT as u32 - 7) / 4);
    let mut words = vec![STRUCT, EMPTY, 0, pair(0), 0, NAMED, fields];
    for i in 0..fields {
        words.extend([PUB, pair(i * 389 % pairs)]);
        words.extend([IDENTIFIER, pair(i * 7 % pairs)]);
    }
    names.with_words(&words)
}

// The program as a whole.

const PROCESS_ROUNDS: usize = 200;

fn print_program_times() {
    let ours = env::var_os("TILLERCORAL_PRINTDECL").map_or_else(
        || Path::new(env!("CARGO_MANIFEST_DIR")).join("../crates/printdecl/out/printdecl"),
        PathBuf::from,
    );
    println!();
    if !ours.is_file() {
        println!(
            "there is no {}: run `rt run` in crates/printdecl to have it timed",
            ours.display()
        );
        return;
    }
    let programs = [ours, PathBuf::from(env!("CARGO_BIN_EXE_printdecl_tuned"))];
    println!("printdecl as a whole process, best and median of {PROCESS_ROUNDS} interleaved runs");
    println!(
        "{:<18} {:>8} {:>10} {:>10} {:>10} {:>10}   {:>11} {:>13}",
        "file", "bytes", "ours", "median", "tuned", "median", "ratio, best", "ratio, median"
    );
    for (name, sample) in [
        ("the example", encoded(GAUGE)),
        ("many fields", many_fields(2_000)),
        ("doc of prose", with_doc(&prose())),
        ("most pairs", most_pairs()),
    ] {
        let file = sample.to_file();
        let path = env::temp_dir().join(format!("tillercoral-bench-{}", std::process::id()));
        fs::write(&path, &file).expect("a temporary file");
        let times = programs.clone().map(|program| {
            assert!(
                run(&program, &path, Stdio::piped()).0 == reference::printdecl(&file),
                "{} prints something else for {name}",
                program.display()
            );
            Vec::with_capacity(PROCESS_ROUNDS)
        });
        let [ours, tuned] = interleaved(&programs, &path, times);
        fs::remove_file(&path).expect("the file is ours");
        println!(
            "{:<18} {:>8} {:>7.0} us {:>7.0} us {:>7.0} us {:>7.0} us   {:>11.2} {:>13.2}",
            name,
            file.len(),
            ours.0,
            ours.1,
            tuned.0,
            tuned.1,
            ours.0 / tuned.0,
            ours.1 / tuned.1
        );
    }
}

/// Best and median time of each program, in microseconds.
fn interleaved(programs: &[PathBuf; 2], path: &Path, mut times: [Vec<f64>; 2]) -> [(f64, f64); 2] {
    for _ in 0..PROCESS_ROUNDS {
        for (program, times) in programs.iter().zip(&mut times) {
            times.push(run(program, path, Stdio::null()).1);
        }
    }
    times.map(|mut times| {
        times.sort_by(f64::total_cmp);
        (times[0], times[times.len() / 2])
    })
}

/// What the program prints for a file, and how long it takes.
fn run(program: &Path, path: &Path, output: Stdio) -> (Vec<u8>, f64) {
    let input = File::open(path).expect("the file is there");
    let start = Instant::now();
    let ended = Command::new(program)
        .stdin(input)
        .stdout(output)
        .spawn()
        .and_then(|child| child.wait_with_output())
        .expect("the program runs");
    (ended.stdout, start.elapsed().as_secs_f64() * 1e6)
}

/// A file at the limit of pairs whose text still fits the program's buffer.
fn most_pairs() -> EncodingBuf {
    let all = most_of_all();
    let fields = PAIR_LIMIT;
    let mut words = all.words[..7 + 4 * fields].to_vec();
    words[6] = fields as u32;
    EncodingBuf { words, ..all }
}
