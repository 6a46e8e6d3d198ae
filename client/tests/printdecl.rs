//! Runs the program `printdecl` on whole files and compares what it prints with the reference.
//!
//! The program is `../crates/printdecl/out/printdecl`, which the script `../printdecl` builds if it is
//! missing, or another one named by `TILLERCORAL_PRINTDECL`.

use std::fs::{self, File};
use std::io::{Read, Write};
use std::path::{Path, PathBuf};
use std::process::{Child, ChildStdin, Command, Stdio};
use std::sync::LazyLock;
use std::time::Duration;
use std::{env, io, thread};

use tillercoral::cases::GAUGE;
use tillercoral::generate::{damage, random_declaration, Names, Random, Shape};
use tillercoral::limits::{PAIR_LIMIT, PRINT_LIMIT, TEXT_LIMIT, WORD_LIMIT};
use tillercoral::reference::printdecl;
use tillercoral::words::{fields::*, head::*, kind::*, name::*, pair, visibility::PRIV};
use tillercoral::{Encoding, EncodingBuf};

const PROGRAM_VARIABLE: &str = "TILLERCORAL_PRINTDECL";

fn in_repository(path: &str) -> PathBuf {
    Path::new(env!("CARGO_MANIFEST_DIR")).join("..").join(path)
}

fn program() -> PathBuf {
    match env::var_os(PROGRAM_VARIABLE) {
        Some(path) => PathBuf::from(path),
        None => BUILT_PROGRAM.clone(),
    }
}

/// The repository's own program. The first test that asks for it has it built, the others wait.
static BUILT_PROGRAM: LazyLock<PathBuf> = LazyLock::new(|| {
    let path = in_repository("crates/printdecl/out/printdecl");
    if !path.is_file() {
        let ended = Command::new(in_repository("printdecl"))
            .arg(in_repository("examples/gauge.bin"))
            .output()
            .expect("the script starts");
        let errors = String::from_utf8_lossy(&ended.stderr);
        assert!(path.is_file(), "{} is not built:\n{errors}", path.display());
    }
    path
});

fn start(input: Stdio) -> Child {
    Command::new(program())
        .stdin(input)
        .stdout(Stdio::piped())
        .spawn()
        .expect("printdecl starts")
}

/// What the program prints while this is written to its input.
fn output_of(write: impl FnOnce(&mut ChildStdin) -> io::Result<()> + Send) -> Vec<u8> {
    let mut child = start(Stdio::piped());
    let mut input = child.stdin.take().expect("a pipe");
    let mut output = Vec::new();
    // Writing and reading at the same time: a pipe holds less than a file or a text may be long.
    thread::scope(|scope| {
        scope.spawn(move || match write(&mut input) {
            // A program that knows its answer need not read on.
            Err(error) if error.kind() == io::ErrorKind::BrokenPipe => {}
            other => other.expect("the file can be written"),
        });
        child
            .stdout
            .take()
            .expect("a pipe")
            .read_to_end(&mut output)
            .expect("the output can be read");
    });
    let status = child.wait().expect("printdecl ends");
    assert_eq!(status.code(), Some(0), "{status}");
    output
}

fn check_output(what: &str, file: &[u8], output: &[u8]) {
    let wanted = printdecl(file);
    if output != wanted {
        let start =
            |bytes: &[u8]| String::from_utf8_lossy(&bytes[..bytes.len().min(300)]).into_owned();
        panic!(
            "{what}, a file of {} bytes: wanted {} bytes, {:?} .., and got {} bytes, {:?} ..",
            file.len(),
            wanted.len(),
            start(&wanted),
            output.len(),
            start(output)
        );
    }
}

/// Counts what was printed: a text, or which refusal.
#[derive(Default, Debug)]
struct Tally {
    texts: usize,
    refusals: [usize; 12],
}

impl Tally {
    fn check(&mut self, what: &str, file: &[u8]) {
        let output = output_of(|input| input.write_all(file));
        check_output(what, file, &output);
        match output.strip_prefix(b"refused ") {
            None => self.texts += 1,
            Some(rest) => {
                let number = String::from_utf8_lossy(rest).trim_end().parse::<usize>();
                self.refusals[number.expect("a number")] += 1;
            }
        }
    }

    fn count(&self) -> usize {
        self.texts + self.refusals.iter().sum::<usize>()
    }
}

/// A file with this header, whatever follows.
fn file(header: [u32; 3], numbers: &[u32], text: &[u8]) -> Vec<u8> {
    let mut file = Vec::new();
    for number in header.iter().chain(numbers) {
        file.extend(number.to_le_bytes());
    }
    file.extend(text);
    file
}

fn gauge() -> Vec<u8> {
    Encoding {
        words: &GAUGE,
        pairs: &[0, 5, 5, 13, 18, 2, 20, 2],
        text: b"GaugeOffset in mm.mmid",
    }
    .to_file()
}

/// A struct whose text is of this length.
fn struct_of_length(length: usize) -> Vec<u8> {
    // `pub struct e(n.., n.., n.., n..);`
    let (name, extra) = ((length - 20) / 4, (length - 20) % 4);
    let names = Names::of(&[&vec![b'n'; name], &vec![b'e'; extra]]);
    let front = [STRUCT, EMPTY, 0, pair(1), 0, NAMELESS, 4];
    let words = [&front[..], &[PRIV, IDENTIFIER, pair(0)].repeat(4)].concat();
    names.with_words(&words).to_file()
}

/// Everything at its limit: 1,024 pairs, 8,192 words, 16,384 bytes.
fn largest() -> EncodingBuf {
    let stock: Vec<Vec<u8>> = vec![vec![b'n'; TEXT_LIMIT / PAIR_LIMIT]; PAIR_LIMIT];
    let names = Names::of(&stock.iter().map(Vec::as_slice).collect::<Vec<_>>());
    // What makes the words many is the base of a synonym, which does not show.
    let last = pair(PAIR_LIMIT as u32 - 1);
    let mut words = vec![TYPE, pair(0), 0, last, 0, SYNONYM, IDENTIFIER, pair(1)];
    words.extend([TUPLE, WORD_LIMIT as u32 - 10]);
    words.resize(WORD_LIMIT, BOOL);
    names.with_words(&words)
}

#[test]
fn headers() {
    let mut tally = Tally::default();
    for length in 0..=13 {
        tally.check("zeros", &vec![0; length]);
        tally.check("ones", &vec![0xFF; length]);
    }
    // The header alone, over a limit or at it.
    let most = u32::MAX;
    let limits = [PAIR_LIMIT, WORD_LIMIT, TEXT_LIMIT].map(|limit| limit as u32);
    let [pairs, words, text] = limits;
    for header in [
        [pairs + 1, 0, 0],
        [0, words + 1, 0],
        [0, 0, text + 1],
        [most, 0, 0],
        [0, most, 0],
        [0, 0, most],
        limits,
        [pairs, words, text + 1],
        [pairs + 1, most, most],
        [1, 0, 0],
        [0, 1, 0],
        [0, 0, 1],
        // sizes in bytes that come to 0 or so in 32 bits
        [1 << 29, 0, 0],
        [0, 1 << 30, 0],
        [1 << 29, 1 << 30, 0],
        [1 << 28, 1 << 29, 0],
        [0, (1 << 30) - 1, 4],
        [1 << 31, 0, 0],
        [0, 0, 1 << 31],
    ] {
        tally.check("header alone", &file(header, &[], b""));
        tally.check("header and a word", &file(header, &[STRUCT], b""));
    }
    // Over a limit, with all that the header promises.
    let many_pairs = vec![0; 2 * PAIR_LIMIT + 2];
    tally.check("pairs", &file([pairs + 1, 0, 0], &many_pairs, b""));
    let many_words = vec![USE; WORD_LIMIT + 1];
    tally.check("words", &file([0, words + 1, 0], &many_words, b""));
    let long_text = [b'x'; TEXT_LIMIT + 1];
    tally.check("text", &file([0, 0, text + 1], &[], &long_text));
    println!("{tally:?}");
    assert!(tally.refusals[1] > 20 && tally.refusals[9] > 20 && tally.refusals[3] > 0);
}

#[test]
fn lengths_that_the_header_contradicts() {
    let mut tally = Tally::default();
    let whole = gauge();
    tally.check("whole", &whole);
    for length in 0..whole.len() {
        tally.check("cut off", &whole[..length]);
    }
    for more in [1, 2, 3, 4, 8, 1_000, 57_356, 100_000, 1_000_000] {
        let longer = [&whole[..], &vec![b'x'; more]].concat();
        tally.check("longer", &longer);
        let mut overlong = longer;
        overlong[1] = 0xFF; // more than 65,000 pairs
        tally.check("longer, and over a limit", &overlong);
    }
    for count in 0..3 {
        for difference in [1, u8::MAX] {
            let mut other = whole.clone();
            other[4 * count] = other[4 * count].wrapping_add(difference);
            tally.check("another count", &other);
        }
    }
    // Counts that are wrong and make up for each other.
    for (pairs, words, text) in [
        (4, 13, 26),
        (3, 16, 22),
        (3, 14, 30),
        (5, 12, 22),
        (0, 22, 22),
    ] {
        let mut other = whole.clone();
        (other[0], other[4], other[8]) = (pairs, words, text);
        tally.check("other counts", &other);
    }
    println!("{tally:?}");
    assert!(tally.texts >= 1 && tally.refusals[9] > 120 && tally.refusals[1] >= 9);
}

#[test]
fn limits() {
    let mut tally = Tally::default();
    for length in PRINT_LIMIT - 1..=PRINT_LIMIT + 2 {
        tally.check("length of the text", &struct_of_length(length));
    }
    assert_eq!((tally.texts, tally.refusals[8]), (2, 2));

    let largest = largest();
    let whole = largest.to_file();
    assert_eq!(whole.len(), 57_356);
    tally.check("largest", &whole);
    assert_eq!(tally.texts, 3);
    tally.check("one byte less", &whole[..57_355]);
    tally.check("one byte more", &[&whole[..], b"x"].concat());
    for at in 0..3 {
        let mut over = largest.clone();
        match at {
            0 => over.words.push(BOOL),
            1 => over.pairs.extend([TEXT_LIMIT as u32, 0]),
            _ => over.text.push(b'n'),
        }
        tally.check("one over a limit", &over.to_file());
    }
    assert_eq!((tally.refusals[9], tally.refusals[1]), (2, 3));

    // 16,384 newlines: a text that is longer than its buffer by its indents alone.
    let words = [STRUCT, pair(0), 0, EMPTY, 0, NAMED, 0];
    let newlines = Names::of(&[&[b'\n'; TEXT_LIMIT]]);
    tally.check("newlines", &newlines.with_words(&words).to_file());
    let fewer = Names::of(&[&[b'\n'; 13_000]]);
    tally.check("fewer newlines", &fewer.with_words(&words).to_file());
    assert_eq!((tally.texts, tally.refusals[8]), (4, 3));
}

#[test]
fn random_files() {
    let random = &mut Random::new(61);
    let mut tally = Tally::default();
    for round in 0..140 {
        let names = Names::random_with_docs(random, 12);
        let shape = Shape {
            depth: 1 + random.below(6),
            chain: round % 7 == 0,
            children: [3, 3, 3, 40][round % 4],
            words: [40, 100, 400][round % 3],
            careless: 100,
        };
        let mut sample = random_declaration(random, &names, shape);
        if round % 2 == 1 {
            damage(random, &mut sample);
        }
        let mut file = sample.to_file();
        if round % 14 == 1 {
            let at = random.below(file.len());
            file[at] = file[at].wrapping_add(1);
        }
        tally.check("random", &file);
    }
    println!("{tally:?}");
    assert!(tally.count() == 140 && tally.texts > 60);
    for number in [2, 3, 4, 6] {
        assert!(tally.refusals[number] > 0, "{tally:?}");
    }
}

#[test]
fn examples() {
    let mut count = 0;
    for entry in fs::read_dir(in_repository("examples")).expect("the examples are there") {
        let path = entry.expect("a readable folder").path();
        if path.extension().is_some_and(|it| it == "bin") {
            // This one has a file as its input, not a pipe.
            let input = File::open(&path).expect("a readable file");
            let output = start(Stdio::from(input))
                .wait_with_output()
                .expect("printdecl ends");
            let wanted = fs::read(path.with_extension("rs")).expect("its text");
            assert_eq!(
                String::from_utf8_lossy(&output.stdout),
                String::from_utf8_lossy(&wanted),
                "{}",
                path.display()
            );
            count += 1;
        }
    }
    assert!(count >= 6);
}

/// A pipe may give a file in parts, cut anywhere.
#[test]
fn input_in_parts() {
    let whole = gauge();
    for parts in [1, 5, 11, 12, 13, 43, 121] {
        let output = output_of(|input| {
            for part in whole.chunks(parts) {
                input.write_all(part)?;
                input.flush()?;
                if parts > 1 {
                    thread::sleep(Duration::from_millis(2));
                }
            }
            Ok(())
        });
        check_output("in parts", &whole, &output);
    }
    let largest = largest().to_file();
    let output = output_of(|input| {
        for part in largest.chunks(10_007) {
            input.write_all(part)?;
            thread::sleep(Duration::from_millis(2));
        }
        Ok(())
    });
    check_output("in parts", &largest, &output);
}

/// A directory can be opened and not read.
#[test]
fn a_read_error_prints_nothing() {
    let directory = File::open(env!("CARGO_MANIFEST_DIR")).expect("this folder");
    let output = Command::new(program())
        .stdin(directory)
        .output()
        .expect("printdecl starts");
    assert_eq!(output.stdout, b"");
    assert_ne!(output.stderr, b"", "the failure must be told");
    assert_eq!(output.status.code(), Some(1));
}

/// A device that takes nothing.
#[test]
fn a_write_error_is_told() {
    let file = File::open(in_repository("examples/gauge.bin")).expect("the example");
    let full = File::options()
        .write(true)
        .open("/dev/full")
        .expect("/dev/full");
    let output = Command::new(program())
        .stdin(file)
        .stdout(full)
        .output()
        .expect("printdecl starts");
    assert_ne!(output.stderr, b"", "the failure must be told");
    assert_eq!(output.status.code(), Some(1));
}

/// The script gives both as a status, and a refusal as an answer.
#[test]
fn the_script_has_a_status() {
    LazyLock::force(&BUILT_PROGRAM);
    let script = |input: File, output: Stdio| {
        Command::new(in_repository("printdecl"))
            .stdin(input)
            .stdout(output)
            .stderr(Stdio::null())
            .status()
            .expect("the script starts")
            .code()
    };
    let example = || File::open(in_repository("examples/gauge.bin")).expect("the example");
    let directory = File::open(env!("CARGO_MANIFEST_DIR")).expect("this folder");
    let full = File::options()
        .write(true)
        .open("/dev/full")
        .expect("/dev/full");
    let empty = File::open("/dev/null").expect("/dev/null");
    assert_eq!(script(example(), Stdio::null()), Some(0));
    assert_eq!(script(empty, Stdio::null()), Some(0), "refused 9");
    assert_eq!(script(directory, Stdio::null()), Some(1));
    assert_eq!(script(example(), full.into()), Some(1));
}
