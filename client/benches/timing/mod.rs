//! What the benchmarks have in common: cases, checks and tables.

// Each benchmark takes what it needs.
#![allow(dead_code)]

use std::hint::black_box;
use std::time::{Duration, Instant};

use tillercoral::limits::WORD_LIMIT;
use tillercoral::{Encoding, EncodingBuf, Refusal};

pub type TextCall = fn(&Encoding<'_>, u32, &mut [u8]) -> Result<usize, Refusal>;

/// One call in its three versions, and the text that all of them have to give.
pub struct Kind {
    pub what: &'static str,
    /// The library, the tuned version, the reference.
    pub calls: [TextCall; 3],
    pub text_of: fn(&EncodingBuf, u32) -> Vec<u8>,
}

pub const ROUNDS: usize = 40;
/// Long against the clock's own steps, short against being interrupted.
const ROUND_TIME: Duration = Duration::from_millis(3);

/// Whether times are asked for. `cargo test --benches` runs the benchmarks too, without the
/// argument; then only the agreement counts.
pub fn timed() -> bool {
    std::env::args().any(|argument| argument == "--bench")
}

/// The version whose instructions are counted: 0 for the library, 1 for the hand-tuned one. The
/// script `count-instructions` sets it; then each case runs once, and nothing is timed.
fn counted_version() -> Option<usize> {
    std::env::var("TILLERCORAL_COUNTED").ok()?.parse().ok()
}

pub fn counting() -> bool {
    counted_version().is_some()
}

/// What is counted. The counting tool finds it, and the end, by name.
#[inline(never)]
fn counted_run(run: &mut dyn FnMut()) {
    run();
}

#[inline(never)]
fn counted_run_ends() {
    black_box(());
}

/// Whether this is among what the arguments ask for; without any, everything is.
pub fn is_asked_for(name: &str) -> bool {
    let mut asked = std::env::args()
        .skip(1)
        .filter(|argument| !argument.starts_with('-'))
        .peekable();
    asked.peek().is_none() || asked.any(|argument| name.contains(&argument))
}

/// Encodings that are printed one after the other.
pub struct Case<'a> {
    kind: &'a Kind,
    name: &'static str,
    level: u32,
    samples: Vec<EncodingBuf>,
    buffer: usize,
}

impl<'a> Case<'a> {
    pub fn new(
        kind: &'a Kind,
        name: &'static str,
        level: u32,
        samples: Vec<EncodingBuf>,
    ) -> Case<'a> {
        let longest = samples
            .iter()
            .map(|sample| (kind.text_of)(sample, level).len())
            .max();
        Case {
            kind,
            name,
            level,
            samples,
            buffer: longest.unwrap_or(0) + 64,
        }
    }

    fn words(&self) -> usize {
        self.samples.iter().map(|sample| sample.words.len()).sum()
    }

    fn bytes(&self) -> usize {
        self.samples
            .iter()
            .map(|sample| (self.kind.text_of)(sample, self.level).len())
            .sum()
    }

    pub fn check(&self) {
        for sample in &self.samples {
            let wanted = (self.kind.text_of)(sample, self.level);
            for call in self.kind.calls {
                let mut buffer = vec![b'.'; self.buffer];
                let answer = call(&sample.as_encoding(), self.level, &mut buffer);
                assert_eq!(answer, Ok(wanted.len()), "{}", self.name);
                assert!(buffer.starts_with(&wanted), "{}", self.name);
                assert!(buffer[wanted.len()..].iter().all(|&byte| byte == b'.'));
            }
        }
    }

    /// Nanoseconds for all samples of the case, one number for each version.
    fn time(&self) -> [f64; 3] {
        let mut buffer = vec![0; self.buffer];
        let mut run = |call: TextCall, repeats: u32| {
            let start = Instant::now();
            for _ in 0..repeats {
                for sample in &self.samples {
                    let encoding = black_box(sample.as_encoding());
                    let _ = black_box(call(
                        &encoding,
                        black_box(self.level),
                        black_box(&mut buffer),
                    ));
                }
            }
            start.elapsed()
        };
        let calls = self.kind.calls;
        best_times(|which, repeats| run(calls[which], repeats))
    }
}

/// Nanoseconds of one run of each of some versions: the best of interleaved rounds. `run` runs the
/// version with this index so many times.
pub fn best_times<const N: usize>(mut run: impl FnMut(usize, u32) -> Duration) -> [f64; N] {
    if let Some(version) = counted_version() {
        counted_run(&mut || {
            black_box(run(version, 1));
        });
        counted_run_ends();
        return [0.0; N];
    }
    let repeats: [u32; N] = std::array::from_fn(|which| {
        let once = run(which, 3).max(Duration::from_nanos(30)) / 3;
        (ROUND_TIME.as_nanos() / once.as_nanos()).clamp(1, 1_000_000) as u32
    });
    let mut best = [f64::MAX; N];
    for _ in 0..ROUNDS {
        for which in 0..N {
            let time = run(which, repeats[which]).as_nanos() as f64 / f64::from(repeats[which]);
            best[which] = best[which].min(time);
        }
    }
    best
}

/// Times of one call, and ratios, for each case.
pub fn print_times(cases: &[Case<'_>]) {
    println!("time of one call, best of {ROUNDS} interleaved rounds; buffers are not cleared between calls");
    println!();
    println!(
        "{:<18} {:>6} {:>8} {:>10} {:>10} {:>10}   {:>10} {:>14}",
        cases[0].kind.what,
        "words",
        "bytes",
        "ours",
        "tuned",
        "reference",
        "ours/tuned",
        "ours/reference"
    );
    for case in cases.iter().filter(|case| is_asked_for(case.name)) {
        let [ours, tuned, reference] = case.time();
        let count = case.samples.len() as f64;
        println!(
            "{:<18} {:>6} {:>8} {:>7.0} ns {:>7.0} ns {:>7.0} ns   {:>10.2} {:>14.2}",
            case.name,
            case.words() / case.samples.len(),
            case.bytes() / case.samples.len(),
            ours / count,
            tuned / count,
            reference / count,
            ours / tuned,
            ours / reference
        );
    }
}

/// Makes an encoding of about so many words.
pub type Maker = fn(usize) -> EncodingBuf;

/// Whether the time grows in step with the words.
pub fn print_growth(kind: &Kind, makers: &[(&'static str, Maker)]) {
    if counting() {
        return;
    }
    println!();
    println!("growth: time per word at parts of the limit of 8,192 words");
    println!(
        "{:<18} {:>12} {:>12} {:>12} {:>12}",
        kind.what, "1/8", "1/4", "1/2", "whole"
    );
    for &(name, make) in makers.iter().filter(|(name, _)| is_asked_for(name)) {
        for (version, which) in [("ours", 0), ("tuned", 1)] {
            print!("{:<18}", format!("{name}, {version}"));
            for part in [8, 4, 2, 1] {
                let case = Case::new(kind, name, 0, vec![make(WORD_LIMIT / part)]);
                case.check();
                let per_word = case.time()[which] / case.words() as f64;
                print!(" {per_word:>9.2} ns");
            }
            println!();
        }
    }
}
