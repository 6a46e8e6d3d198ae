//! Encodings that more than one benchmark uses.

// Each benchmark takes what it needs.
#![allow(dead_code)]

use tillercoral::generate::Names;
use tillercoral::words::{kind::*, name::*, pair, root::*};
use tillercoral::EncodingBuf;

/// The types in the drivers of a maker of marine instruments.
pub fn gauge_types() -> Vec<EncodingBuf> {
    let names = Names::of(&[
        b"Gauge",
        b"Depth",
        b"Sounder",
        b"Option",
        b"Result",
        b"Fault",
        b"vec",
        b"Vec",
        b"16",
        b"CHANNELS",
        b"nmea",
        b"Sentence",
        b"Fix",
        b"string",
        b"String",
        b"Heading",
    ]);
    // 16 Gauge, 17 Depth, 18 Sounder, 19 Option, 20 Result, 21 Fault, 22 vec, 23 Vec, 24 16,
    // 25 CHANNELS, 26 nmea, 27 Sentence, 28 Fix, 29 string, 30 String, 31 Heading
    let types: [&[u32]; 40] = [
        &[14, 1, 13, 0, 3, 1, 2, 3, 12, 16], // ::std::rc::Rc<Gauge>
        &[15, 22, 0, 1],                     // &[u16]
        &[16, 22, 0, 0],                     // &mut [u8]
        &[19, 2, 12, 17, 12, 31],            // (Depth, Heading)
        &[14, 1, 12, 19, 12, 17],            // Option<Depth>
        &[14, 2, 12, 20, 12, 28, 12, 21],    // Result<Fix, Fault>
        &[22, 25, 1],                        // [u16; 16]
        &[22, 26, 7],                        // [i32; CHANNELS]
        &[14, 1, 13, 0, 3, 1, 22, 23, 12, 27],
        &[13, 1, 2, 26, 27],
        &[13, 2, 1, 31],
        &[14, 1, 13, 0, 3, 1, 6, 7, 18, 12, 18],
        &[14, 1, 13, 0, 3, 1, 4, 5, 12, 18],
        &[20, 1, 15, 12, 27, 14, 1, 12, 19, 12, 28],
        &[17, 20, 2, 1, 1, 11],
        &[19, 3, 7, 7, 2],
        &[15, 12, 16],
        &[16, 12, 18],
        &[19, 0],
        &[10],
        &[11],
        &[8],
        &[12, 31],
        &[21, 17, 12, 16, 12, 18],
        &[24, 1, 12, 17],
        &[23, 12, 17, 7],
        &[23, 12, 31, 22, 25, 1],
        &[24, 2, 7],
        &[14, 1, 13, 0, 2, 10, 11, 12, 16],
        &[14, 1, 13, 0, 2, 10, 12, 22, 0, 12, 17],
        &[14, 1, 13, 0, 2, 10, 13, 12, 28],
        &[22, 0, 14, 1, 13, 0, 3, 1, 8, 9, 1],
        &[14, 1, 12, 19, 14, 1, 13, 0, 3, 1, 2, 3, 18, 12, 18],
        &[14, 2, 12, 20, 19, 0, 13, 1, 2, 26, 21],
        &[15, 22, 25, 22, 26, 6],
        &[19, 4, 12, 28, 12, 17, 12, 31, 14, 1, 12, 19, 12, 21],
        &[20, 0, 19, 0],
        &[14, 1, 13, 0, 3, 1, 6, 7, 20, 1, 12, 17, 11],
        &[15, 13, 0, 3, 1, 29, 30],
        &[14, 2, 12, 20, 14, 1, 13, 0, 3, 1, 22, 23, 12, 28, 12, 21],
    ];
    types.iter().map(|words| names.with_words(words)).collect()
}

/// Paths of a crate applied to paths of the standard library, of about so many words.
pub fn nested_paths(words: usize) -> EncodingBuf {
    let names = Names::of(&[b"instruments", b"sounder", b"channel", b"Reading"]);
    let mut children = Vec::new();
    let mut count = 0;
    while children.len() + 18 <= words {
        children.extend([APP, 1, FROM_PATH, CRATE, 4]);
        children.extend([0, 1, 2, 3].map(pair));
        children.extend([FROM_PATH, GLOBAL, 3, STD, RC_MODULE, RC]);
        count += 1;
    }
    names.with_words(&[&[TUPLE, count], &children[..]].concat())
}
