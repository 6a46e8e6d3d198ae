//! What the differential tests have in common.

// Each test file takes what it needs.
#![allow(dead_code)]

use tillercoral::generate::{Random, Shape};
use tillercoral::limits::DEPTH_LIMIT;
use tillercoral::{Encoding, Refusal};

pub type TextCall = fn(&Encoding<'_>, u32, &mut [u8]) -> Result<usize, Refusal>;

/// A pattern in which a misplaced byte shows.
pub fn pattern(length: usize) -> Vec<u8> {
    (0..length).map(|i| (i * 37 + i / 256 + 5) as u8).collect()
}

/// As `pattern`, of words. None of them is 0, which is what a cleared buffer holds.
pub fn word_pattern(length: usize) -> Vec<u32> {
    (0..length as u32).map(|i| 1_000_000 + 37 * i).collect()
}

/// One call on one buffer; the answer and the buffer must be those wanted.
pub fn check_text(
    what: &str,
    call: TextCall,
    encoding: &Encoding<'_>,
    level: u32,
    length: usize,
    wanted: &Result<Vec<u8>, Refusal>,
) {
    let mut wanted_buffer = pattern(length);
    let wanted_answer = match wanted {
        Ok(text) if text.len() <= length => {
            wanted_buffer[..text.len()].copy_from_slice(text);
            Ok(text.len())
        }
        Ok(_) => Err(Refusal::BufferTooShort),
        Err(refusal) => Err(*refusal),
    };
    let mut buffer = pattern(length);
    let answer = call(encoding, level, &mut buffer);
    assert_eq!(
        answer, wanted_answer,
        "{what}, level {level}, buffer of {length}: {encoding:?}"
    );
    assert!(
        buffer == wanted_buffer,
        "{what}, level {level}, buffer of {length}: wrong bytes for {encoding:?}"
    );
}

/// How often each answer was met, so that a test can show that it met them all.
#[derive(Default, Debug)]
pub struct Tally {
    pub texts: usize,
    pub refusals: [usize; 12],
    pub sound: usize,
    pub unsound: usize,
}

impl Tally {
    pub fn count_text(&mut self, wanted: &Result<Vec<u8>, Refusal>) {
        match wanted {
            Ok(_) => self.texts += 1,
            Err(refusal) => self.refusals[refusal.number() as usize] += 1,
        }
    }

    pub fn refused(&self, refusal: Refusal) -> usize {
        self.refusals[refusal.number() as usize]
    }

    pub fn all_refused(&self) -> usize {
        self.refusals.iter().sum()
    }
}

/// Exact, one less, none, much longer.
pub fn buffer_lengths(wanted: &Result<Vec<u8>, Refusal>) -> Vec<usize> {
    match wanted {
        Ok(text) if text.is_empty() => vec![0, 1, 100],
        Ok(text) => vec![
            text.len(),
            text.len() - 1,
            0,
            text.len() + 1,
            2 * text.len() + 100,
        ],
        Err(_) => vec![0, 64],
    }
}

/// The pairs and the text of `examples/gauge`: `Gauge`, a sentence, `mm`, `id`.
pub const GAUGE_PAIRS: [u32; 8] = [0, 5, 5, 13, 18, 2, 20, 2];
pub const GAUGE_TEXT: &[u8] = b"GaugeOffset in mm.mmid";

pub fn gauge(words: &[u32]) -> Encoding<'_> {
    Encoding {
        words,
        pairs: &GAUGE_PAIRS,
        text: GAUGE_TEXT,
    }
}

pub fn bare(words: &[u32]) -> Encoding<'_> {
    Encoding {
        words,
        pairs: &[],
        text: &[],
    }
}

/// A shape for each round: small, wide, deep, chains; careful and careless of soundness.
pub fn shape(round: usize, random: &mut Random) -> Shape {
    let careless = [0, 3, 10, 100][round % 4];
    match round / 4 % 5 {
        0 => Shape {
            depth: 1 + random.below(4),
            chain: false,
            children: 3,
            words: 40,
            careless,
        },
        1 => Shape {
            depth: 3 + random.below(8),
            chain: false,
            children: 5,
            words: 150,
            careless,
        },
        2 => Shape {
            depth: 2,
            chain: false,
            children: 60,
            words: 400,
            careless,
        },
        3 => Shape {
            depth: DEPTH_LIMIT - 4 + random.below(8), // 65 and more are refused
            chain: true,
            children: 2,
            words: 1_000,
            careless,
        },
        _ => Shape {
            depth: 10 + random.below(40),
            chain: true,
            children: 5,
            words: 300,
            careless,
        },
    }
}
