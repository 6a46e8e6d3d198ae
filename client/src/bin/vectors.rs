//! Writes the test vectors: `stdin`, a run of calls, and `stdout`, what a program that makes
//! these calls has to print. Both come from the reference alone, never from the library.
//!
//! A record of `stdin`, all numbers u32 little-endian: call (1 type_text, 2 path_text,
//! 3 type_is_sound, 4 declaration_text, 5 a whole file of printdecl), level, number of words,
//! length of the pair table in u32s, length of the text in bytes, length of the buffer in bytes;
//! then the words, the pair table, the text. Of call 5 the text is the file, and the other numbers
//! of the header are 0.
//!
//! Printed for calls 1, 2 and 4: a line `done N` or `refused N`, then the whole buffer, which held
//! `.` bytes before the call, and a newline. For call 3: a line `yes`, `no` or `refused N`. For
//! call 5: what printdecl prints, the declaration and a newline or a line `refused N`.
//!
//! Calls 6 to 12 are described with their records, in `rebuild` and `walks`.

use std::path::{Path, PathBuf};
use std::process::ExitCode;
use std::{env, fs, io};

use tillercoral::cases::{borrows_then, GAUGE, GAUGE_NAME, MM, OFFSET};
use tillercoral::generate::{
    damage, random_declaration, random_doc, random_path, random_type, Names, Random, Shape,
};
use tillercoral::limits::{
    DEPTH_LIMIT, LEVEL_LIMIT, PAIR_LIMIT, PRINT_LIMIT, TEXT_LIMIT, WORD_LIMIT,
};
use tillercoral::reference;
use tillercoral::words::{
    fields::*, head, head::*, kind, kind::*, name::*, pair, root::*, visibility::*,
};
use tillercoral::{Encoding, EncodingBuf, Refusal};

#[path = "vectors/rebuild.rs"]
mod rebuild;
#[path = "vectors/walks.rs"]
mod walks;

// What the program that reads the vectors has room for: a little more than the limits of an
// encoding and of a file, which is at most 57,356 bytes, so that these can be passed.
const MOST_WORDS: usize = 8_256;
const MOST_PAIR_WORDS: usize = 2_112;
const MOST_TEXT: usize = 57_600;
const MOST_BUFFER: usize = 4_096;

fn main() -> ExitCode {
    let (mut check, mut folder) = (false, None);
    for argument in env::args_os().skip(1) {
        if argument == "--check" {
            check = true;
        } else if folder.is_none() && !argument.to_string_lossy().starts_with('-') {
            folder = Some(PathBuf::from(argument));
        } else {
            eprintln!("usage: vectors [--check] [folder]");
            return ExitCode::from(2);
        }
    }
    let folder =
        folder.unwrap_or_else(|| Path::new(env!("CARGO_MANIFEST_DIR")).join("../crates/vectors"));
    let vectors = all_vectors();
    let done = if check {
        vectors.check(&folder)
    } else {
        vectors.write(&folder).map_err(|error| error.to_string())
    };
    match done {
        Ok(()) => {
            println!(
                "{} vectors {} {} ({} + {} bytes)",
                vectors.count,
                if check { "agree with" } else { "written to" },
                folder.display(),
                vectors.stdin.len(),
                vectors.stdout.len()
            );
            ExitCode::SUCCESS
        }
        Err(message) => {
            eprintln!("{}: {message}", folder.display());
            ExitCode::FAILURE
        }
    }
}

#[derive(Default)]
struct Vectors {
    stdin: Vec<u8>,
    stdout: Vec<u8>,
    count: usize,
}

impl Vectors {
    fn write(&self, folder: &Path) -> io::Result<()> {
        fs::create_dir_all(folder)?;
        fs::write(folder.join("stdin"), &self.stdin)?;
        fs::write(folder.join("stdout"), &self.stdout)
    }

    fn check(&self, folder: &Path) -> Result<(), String> {
        for (name, made) in [("stdin", &self.stdin), ("stdout", &self.stdout)] {
            let found = fs::read(folder.join(name)).map_err(|error| format!("{name}: {error}"))?;
            if found != *made {
                let same = found.iter().zip(made).take_while(|(a, b)| a == b).count();
                return Err(format!(
                    "{name} differs from what the reference gives, from byte {same} on"
                ));
            }
        }
        Ok(())
    }

    fn record(&mut self, call: u32, level: u32, encoding: &Encoding<'_>, buffer: usize) {
        assert!(
            encoding.words.len() <= MOST_WORDS
                && encoding.pairs.len() <= MOST_PAIR_WORDS
                && encoding.text.len() <= MOST_TEXT
                && buffer <= MOST_BUFFER,
            "the program that reads the vectors has no room for this one"
        );
        let lengths = [
            encoding.words.len(),
            encoding.pairs.len(),
            encoding.text.len(),
            buffer,
        ];
        let head = [call, level]
            .into_iter()
            .chain(lengths.into_iter().map(|length| length as u32));
        for word in head.chain(encoding.words.iter().chain(encoding.pairs).copied()) {
            self.stdin.extend(word.to_le_bytes());
        }
        self.stdin.extend(encoding.text);
        self.count += 1;
    }

    fn line(&mut self, text: &str) {
        self.stdout.extend(text.as_bytes());
        self.stdout.push(b'\n');
    }

    fn text_call(&mut self, call: u32, level: u32, encoding: &Encoding<'_>, buffer: usize) {
        self.record(call, level, encoding, buffer);
        let mut out = vec![b'.'; buffer];
        let answer = match call {
            1 => reference::type_text(encoding, level, &mut out),
            2 => reference::path_text(encoding, level, &mut out),
            _ => reference::declaration_text(encoding, level, &mut out),
        };
        match answer {
            Ok(length) => self.line(&format!("done {length}")),
            Err(refusal) => self.line(&refused(refusal)),
        }
        self.stdout.extend(out);
        self.stdout.push(b'\n');
    }

    fn type_text(&mut self, level: u32, encoding: &Encoding<'_>, buffer: usize) {
        self.text_call(1, level, encoding, buffer);
    }

    fn path_text(&mut self, level: u32, encoding: &Encoding<'_>, buffer: usize) {
        self.text_call(2, level, encoding, buffer);
    }

    fn declaration_text(&mut self, level: u32, encoding: &Encoding<'_>, buffer: usize) {
        self.text_call(4, level, encoding, buffer);
    }

    /// The text of a declaration with a few bytes to spare.
    fn declaration(&mut self, level: u32, encoding: &Encoding<'_>) {
        let length =
            reference::read_declaration(encoding).map_or(0, |it| it.reference_text(level).len());
        self.declaration_text(level, encoding, (length + 3).min(MOST_BUFFER));
    }

    fn printdecl(&mut self, file: &[u8]) {
        let encoding = Encoding {
            words: &[],
            pairs: &[],
            text: file,
        };
        self.record(5, 0, &encoding, 0);
        self.stdout.extend(reference::printdecl(file));
    }

    fn sound(&mut self, encoding: &Encoding<'_>) {
        self.record(3, 0, encoding, 0);
        self.yes_or_no(reference::type_is_sound(encoding));
    }

    fn yes_or_no(&mut self, answer: Result<bool, Refusal>) {
        match answer {
            Ok(true) => self.line("yes"),
            Ok(false) => self.line("no"),
            Err(refusal) => self.line(&refused(refusal)),
        }
    }

    /// The answer of a call with a buffer of words, and the whole buffer.
    fn word_answer(
        &mut self,
        buffer: usize,
        call: impl FnOnce(&mut [u32]) -> Result<usize, Refusal>,
    ) {
        let mut out = vec![u32::from_le_bytes(*b"...."); buffer];
        match call(&mut out) {
            Ok(length) => self.line(&format!("done {length}")),
            Err(refusal) => self.line(&refused(refusal)),
        }
        self.line(&decimals(&out));
    }

    /// Text with a few bytes to spare, and soundness.
    fn type_both(&mut self, encoding: &Encoding<'_>) {
        let length = reference::read_type(encoding).map_or(0, |tree| tree.reference_text().len());
        self.type_text(0, encoding, (length + 3).min(MOST_BUFFER));
        self.sound(encoding);
    }
}

fn refused(refusal: Refusal) -> String {
    format!("refused {}", refusal.number())
}

/// The words as decimals with a space between each two.
fn decimals(words: &[u32]) -> String {
    let decimals: Vec<String> = words.iter().map(u32::to_string).collect();
    decimals.join(" ")
}

fn all_vectors() -> Vectors {
    let mut vectors = Vectors::default();
    every_kind(&mut vectors);
    soundness(&mut vectors);
    buffers_and_levels(&mut vectors);
    paths(&mut vectors);
    refusals_in_the_tree(&mut vectors);
    pair_tables(&mut vectors);
    order(&mut vectors);
    limits(&mut vectors);
    generated(&mut vectors);
    declarations(&mut vectors);
    fields_by_formal(&mut vectors);
    docs(&mut vectors);
    refusals_in_declarations(&mut vectors);
    limits_of_declarations(&mut vectors);
    generated_declarations(&mut vectors);
    files(&mut vectors);
    rebuild::rebuilds(&mut vectors);
    walks::walks(&mut vectors);
    vectors
}

/// The table of `examples/gauge`: `Gauge`, a sentence, `mm`, `id` as names 16 to 19.
const GAUGE_PAIRS: [u32; 8] = [0, 5, 5, 13, 18, 2, 20, 2];
const GAUGE_TEXT: &[u8] = b"GaugeOffset in mm.mmid";

/// A word that begins no type.
const NO_KIND: u32 = kind::END;

fn gauge(words: &[u32]) -> Encoding<'_> {
    Encoding {
        words,
        pairs: &GAUGE_PAIRS,
        text: GAUGE_TEXT,
    }
}

fn bare(words: &[u32]) -> Encoding<'_> {
    Encoding {
        words,
        pairs: &[],
        text: &[],
    }
}

fn every_kind(vectors: &mut Vectors) {
    for head in U8..=BOOL {
        vectors.type_text(0, &bare(&[head]), 6);
    }
    vectors.sound(&bare(&[19, 12, 0, 1, 2, 3, 4, 5, 6, 7, 8, 9, 10, 11]));
    let mut all_names = vec![TUPLE, 20];
    all_names.extend((0..20).flat_map(|name| [IDENTIFIER, name]));
    vectors.type_both(&gauge(&all_names));
    let mut all_sizes = vec![TUPLE, 21];
    all_sizes.extend((0..21).flat_map(|size| [ARRAY, size, U8]));
    vectors.type_both(&gauge(&all_sizes));
    for words in [
        // the marked cases (a) to (f)
        &[14, 1, 12, 16, 0][..],
        &[14, 0, 12, 16],
        &[13, 0, 0],
        &[20, 1, 0, 19, 0],
        &[21, 15, 0, 11],
        &[15, 21, 0, 11],
        &[23, 0, 11],
        // the others
        &[13, 0, 3, 1, 2, 3],
        &[13, 1, 0],
        &[13, 1, 2, 16, 18],
        &[13, 2, 0],
        &[13, 2, 2, 16, 0],
        &[14, 3, 13, 0, 2, 10, 13, 0, 1, 12, 14],
        &[14, 1, 14, 1, 12, 16, 0, 1],
        &[14, 1, 13, 0, 3, 1, 2, 3, 12, 16],
        &[15, 15, 16, 0],
        &[16, 15, 12, 15],
        &[17, 12, 16],
        &[18, 13, 1, 1, 16],
        &[19, 0],
        &[19, 1, 19, 0],
        &[19, 4, 0, 15, 1, 16, 2, 19, 1, 3],
        &[20, 0, 11],
        &[20, 3, 0, 20, 1, 1, 2, 3, 20, 0, 4],
        &[21, 0, 21, 1, 2],
        &[21, 21, 0, 1, 2],
        &[22, 0, 1],
        &[22, 1, 1],
        &[22, 19, 1],
        &[22, 20, 22, 0, 22, 15, 0],
        &[23, 12, 16, 14, 2, 12, 16, 0, 1],
        &[23, 23, 0, 1, 23, 2, 3],
        &[24, 0, 12, 16],
        &[24, 1, 15, 24, 2, 0],
        &[24, 3, 23, 24, 0, 19, 2, 0, 1, 24, 3, 9],
        &[19, 3, 23, 0, 19, 2, 23, 1, 2, 3, 24, 2, 4, 5],
    ] {
        vectors.type_both(&gauge(words));
    }
}

fn soundness(vectors: &mut Vectors) {
    // Each name by itself. The second row is close to reserved words, the third and fourth hold
    // the bytes next to letters, digits and `_`.
    let names: [&[&[u8]]; 4] = [
        &[
            b"u8", b"u16", b"u32", b"u64", b"u128", b"i8", b"i16", b"i32", b"i64", b"i128",
            b"usize", b"bool", b"mut", b"impl", b"dyn", b"crate", b"Self",
        ],
        &[
            b"u", b"u9", b"u88", b"U8", b"mu", b"self", b"selfs", b"crates", b"bool_",
        ],
        &[
            b"_", b"_9", b"aZ09z", b"Az_", b"", b"9Z", b"0", b"@x", b"[x", b"`x", b"{x",
        ],
        &[
            b"x/",
            b"x:",
            b"x@",
            b"x[",
            b"x^",
            b"x`",
            b"x{",
            b"a b",
            b"\xC3\xA9",
            b"x\xFF",
            b"x\0",
        ],
    ];
    for (row, names) in names.into_iter().enumerate() {
        for (index, name) in names.iter().enumerate() {
            let names = Names::of(&[name]);
            vectors.sound(&names.with_words(&[12, 16]).as_encoding());
            // As a size the reserved words are as good as any other.
            if row >= 2 || index == 0 {
                vectors.sound(&names.with_words(&[22, 17, 0]).as_encoding());
            }
        }
    }
    for words in [
        &[13, 0, 1, 0][..],
        &[13, 0, 2, 16, 17],
        &[13, 1, 1, 0],
        &[13, 2, 1, 16],
        // a wrapper hides neither an intersection nor a name
        &[15, 24, 0, 21, 0, 1],
        &[15, 23, 21, 0, 1, 0],
        &[20, 0, 24, 3, 21, 0, 1],
        &[21, 23, 24, 0, 21, 0, 1, 0, 2],
        &[14, 1, 24, 0, 12, 16, 0],
        &[14, 1, 23, 23, 13, 1, 0, 0, 0, 0],
        &[14, 1, 23, 14, 1, 12, 16, 0, 12, 16, 0],
        &[14, 0, 24, 0, 12, 16],
        &[23, 0, 13, 0, 0],
        &[23, 13, 0, 0, 0],
        &[23, 12, 16, 12, 17],
        &[23, 12, 17, 12, 16],
        // an intersection not directly underneath
        &[15, 19, 1, 21, 0, 1],
        &[20, 1, 21, 0, 1, 2],
        &[20, 0, 21, 0, 1],
        &[22, 0, 21, 0, 1],
        &[16, 21, 0, 1],
        &[17, 21, 0, 1],
        &[18, 21, 0, 1],
        &[17, 15, 21, 0, 1],
        &[21, 15, 0, 21, 16, 1, 17, 2],
        // a plain base, an unsound argument, an unsound base name
        &[14, 1, 0, 0],
        &[14, 1, 15, 12, 16, 0],
        &[14, 2, 12, 16, 0, 12, 17],
        &[14, 1, 12, 17, 0],
        &[19, 3, 0, 22, 1, 0, 1],
        &[19, 2, 12, 16, 12, 0],
    ] {
        vectors.sound(&gauge(words));
    }
}

fn buffers_and_levels(vectors: &mut Vectors) {
    let words = [14, 2, 12, 16, 19, 2, 0, 1, 22, 19, 15, 11];
    let length = reference::read_type(&gauge(&words)).map_or(0, |tree| tree.reference_text().len());
    for buffer in [0, 1, length - 1, length, length + 1, 2 * length] {
        vectors.type_text(0, &gauge(&words), buffer);
    }
    for buffer in [0, 1] {
        vectors.type_text(0, &gauge(&[12, 0]), buffer);
        vectors.type_text(0, &gauge(&[13, 0, 0]), buffer);
        vectors.type_text(0, &gauge(&[14, 0, 13, 0, 0]), buffer);
        vectors.path_text(0, &gauge(&[0, 0]), buffer);
    }
    for buffer in [11, 12, 13] {
        vectors.path_text(0, &gauge(&[1, 1, 16]), buffer);
    }
    for level in [1, LEVEL_LIMIT, LEVEL_LIMIT + 1, 256, u32::MAX] {
        vectors.type_text(level, &gauge(&words), length + 4);
        vectors.path_text(level, &gauge(&[0, 2, 1, 2]), 16);
    }
}

fn paths(vectors: &mut Vectors) {
    for words in [
        &[0, 3, 1, 2, 3][..],
        &[0, 3, 1, 4, 5],
        &[0, 3, 1, 6, 7],
        &[0, 3, 1, 8, 9],
        &[0, 2, 10, 11],
        &[0, 2, 10, 12],
        &[0, 2, 10, 13],
        &[1, 0],
        &[2, 0],
        &[1, 3, 14, 15, 19],
        &[2, 2, 17, 0],
        &[0, 2, 0, 0],
        // refused
        &[],
        &[0],
        &[3],
        &[3, 0],
        &[13, 0, 0],
        &[u32::MAX, 0],
        &[0, 1],
        &[0, 2, 16],
        &[0, 1, 20],
        &[0, 2, 20, 20],
        &[0, u32::MAX, 1, 2],
        &[0, u32::MAX, 1, 20],
        &[0, 0, 0],
        &[1, 1, 16, NO_KIND],
    ] {
        vectors.path_text(0, &gauge(words), 48);
    }
}

fn refusals_in_the_tree(vectors: &mut Vectors) {
    let most = u32::MAX;
    let mut words_refused: Vec<Vec<u32>> = [
        &[][..],
        // a head that is none
        &[NO_KIND],
        &[USE],
        &[most],
        &[15, NO_KIND],
        &[19, 2, 0, NO_KIND],
        // an end in each kind
        &[12],
        &[13],
        &[13, 0],
        &[13, 0, 1],
        &[14],
        &[14, 0],
        &[14, 1, 12, 16],
        &[15],
        &[19],
        &[19, 2, 0],
        &[20],
        &[20, 0],
        &[20, 1, 0],
        &[21],
        &[21, 0],
        &[22],
        &[22, 0],
        &[23],
        &[23, 0],
        &[24],
        &[24, 0],
        // a word that is not allowed
        &[12, 20],
        &[12, most],
        &[13, 3, 0],
        &[13, most],
        &[13, 0, 1, 20],
        &[22, 20],
        &[22, 21],
        &[22, 21, 0],
        &[22, most, 0],
        &[24, 4, 0],
        &[24, most],
        &[23, 0, 12, 20],
        // the front comes first
        &[19, 2, 12, 20],
        &[19, 3, NO_KIND, 0],
        // words left over
        &[0, 0],
        &[0, NO_KIND],
        &[19, 0, most],
        &[14, 0, 12, 16, 0],
        // counts beyond all words
        &[19, most],
        &[19, most, 0, 0],
        &[19, most, 0, NO_KIND],
        &[14, most, 12, 16, 0],
        &[20, most, 0, 0],
        &[13, 0, most, 1, 1],
        &[13, 0, most, 1, 20],
        &[23, 0, 19, most, 0],
        &[23, 0, 19, 1 << 31, 0],
    ]
    .into_iter()
    .map(<[u32]>::to_vec)
    .collect();
    for rest in [
        &[0][..],
        &[],
        &[99],
        &[12, 16],
        &[12],
        &[12, 20],
        &[13, 0, 1, 16],
        &[14],
        &[14, 0],
        &[14, 0, 12, 16],
        &[15],
        &[15, 0],
        &[19],
        &[19, 0],
        &[19, 1],
        &[19, most],
        &[20, 0],
        &[21],
        &[22],
        &[22, 21],
        &[22, 20],
        &[23, 0],
        &[24],
        &[24, 9],
        &[24, 3],
        &[0, 0],
    ] {
        words_refused.push(borrows_then(DEPTH_LIMIT - 1, rest));
    }
    words_refused.push(borrows_then(DEPTH_LIMIT, &[]));
    words_refused.push(borrows_then(DEPTH_LIMIT, &[0]));
    words_refused.push(borrows_then(DEPTH_LIMIT, &[99]));
    for words in &words_refused {
        vectors.type_text(0, &gauge(words), 80);
    }
    for words in words_refused.iter().step_by(5) {
        vectors.sound(&gauge(words));
    }
    // The depth is counted from the root, not from the last list: siblings do not add up.
    let mut siblings = vec![TUPLE, 3];
    for _ in 0..3 {
        siblings.extend(borrows_then(DEPTH_LIMIT - 2, &[U8]));
    }
    vectors.type_text(0, &bare(&siblings), 256);
    siblings[0] = BORROWED;
    siblings.splice(1..2, [TUPLE, 3]);
    vectors.type_text(0, &bare(&siblings), 256);
}

fn pair_tables(vectors: &mut Vectors) {
    let most = u32::MAX;
    for pairs in [
        &[0, 10][..],
        &[0, 11],
        &[10, 0],
        &[11, 0],
        &[0, 0, 0, 0, 0, 10, 10, 0],
        &[0, 2, 2, 2],
        &[0, 2, 1, 2],
        &[2, 2, 0, 2],
        &[2, 2, 0, 0],
        &[0, 2, 5, 5],
        &[0, 2, 5, 6],
        &[0],
        &[0, 2, 4],
        &[most],
        &[most, 0],
        &[most, 1],
        &[1, most],
        &[4, most - 2],
        &[most, most],
        &[0, 4, 4, most - 1],
        &[1 << 31, 1 << 31],
    ] {
        let encoding = Encoding {
            words: &[12, 16],
            pairs,
            text: b"0123456789",
        };
        vectors.type_text(0, &encoding, 12);
    }
    let bad = Encoding {
        words: &[0, 0],
        pairs: &[1],
        text: &[],
    };
    vectors.path_text(0, &bad, 4);
    vectors.sound(&bad);
    // Names 16 and 17 with a gap between, bytes that are no UTF-8, and a name of no bytes.
    let gap = Encoding {
        words: &[19, 3, 12, 16, 12, 17, 12, 18],
        pairs: &[1, 3, 6, 2, 8, 0],
        text: b"-a\xFFb--\x00\n--",
    };
    vectors.type_both(&gap);
}

/// Where two refusals apply, the one that comes first.
fn order(vectors: &mut Vectors) {
    /// Level, words, pairs, text, length of the buffer.
    type Case<'a> = (u32, &'a [u32], &'a [u32], &'a [u8], usize);
    let long_text = vec![b'x'; TEXT_LIMIT + 1];
    let cases: [Case; 8] = [
        (LEVEL_LIMIT + 1, &[], &[9], &long_text, 0), // 11 before 1
        (LEVEL_LIMIT, &[], &[9], &long_text, 0),     // 1 before 2
        (LEVEL_LIMIT, &[], &[9], b"", 0),            // 2 before 3
        (LEVEL_LIMIT, &[NO_KIND, 0], &[9, 0], b"", 0), // 2 before 4
        (0, &[19, 1, NO_KIND, 0], &[], b"", 0),      // 4 before 6
        (0, &[19, 2, 0], &[], b"", 0),               // 3 before 8
        (0, &[0, 0], &[], b"", 0),                   // 6 before 8
        (0, &[0], &[], b"", 1),                      // 8
    ];
    for (level, words, pairs, text, buffer) in cases {
        let encoding = Encoding { words, pairs, text };
        vectors.type_text(level, &encoding, buffer);
    }
}

fn limits(vectors: &mut Vectors) {
    // A synonym with a large base: many words, little text.
    let large = |words: usize| {
        let mut large = vec![SYNONYM, U8, TUPLE, (words - 4) as u32];
        large.resize(words, BOOL);
        large
    };
    vectors.type_text(0, &bare(&large(WORD_LIMIT)), 8);
    vectors.type_text(0, &bare(&large(WORD_LIMIT + 1)), 8);
    let mut wide = vec![TUPLE, WORD_LIMIT as u32 - 2];
    wide.resize(WORD_LIMIT, U8);
    vectors.sound(&bare(&wide));
    vectors.type_text(0, &bare(&wide), 16);

    // 1,024 pairs, the last name used, the same with half a pair more, and one pair too many.
    let most = 2 * PAIR_LIMIT;
    let last = pair(PAIR_LIMIT as u32 - 1);
    let pairs_of = |length: usize| {
        let mut pairs = vec![0; length];
        if length >= most {
            pairs[most - 1] = 2; // pair 1,023 is all of the text
        }
        if length >= most + 2 {
            pairs[most] = 2;
        }
        pairs
    };
    for length in most..most + 4 {
        let encoding = Encoding {
            words: &[ARRAY, last + 1, IDENTIFIER, last],
            pairs: &pairs_of(length),
            text: b"mm",
        };
        vectors.type_text(0, &encoding, 12);
    }
    let too_far = Encoding {
        words: &[IDENTIFIER, last + 1],
        pairs: &pairs_of(most),
        text: b"mm",
    };
    vectors.type_text(0, &too_far, 12);

    // 16,384 bytes of text, used to the last one, and one byte too many.
    let edge = TEXT_LIMIT - 4;
    for length in [TEXT_LIMIT, TEXT_LIMIT + 1] {
        let mut text = vec![b'-'; length];
        text[edge..TEXT_LIMIT].copy_from_slice(b"edge");
        let encoding = Encoding {
            words: &[GLOBAL, 1, pair(0)],
            pairs: &[edge as u32, 4],
            text: &text,
        };
        vectors.path_text(0, &encoding, 12);
    }
    // A text longer than any buffer here, though the words are few; and one that fills it.
    let text = vec![b'n'; 1_024];
    let four = Encoding {
        words: &[GLOBAL, 4, pair(0), pair(0), pair(0), pair(0)],
        pairs: &[0, 1_022],
        text: &text,
    };
    vectors.path_text(0, &four, 4_095);
    vectors.path_text(0, &four, 4_096);
}

/// What nobody thought of.
fn generated(vectors: &mut Vectors) {
    let random = &mut Random::new(1);
    for round in 0..24 {
        let names = Names::random(random, 8);
        let shape = Shape {
            depth: 2 + round % 6,
            chain: round % 5 == 4,
            children: 3,
            words: 40,
            careless: [0, 5, 100][round % 3],
        };
        let mut sample = random_type(random, &names, shape);
        if round % 4 == 3 {
            damage(random, &mut sample);
        }
        let length = reference::read_type(&sample.as_encoding())
            .map_or(8, |tree| tree.reference_text().len());
        let buffer = match round % 6 {
            5 => length.saturating_sub(1),
            4 => length,
            _ => length + 5,
        };
        vectors.type_text(0, &sample.as_encoding(), buffer.min(MOST_BUFFER));
        vectors.sound(&sample.as_encoding());
    }
    for round in 0..8 {
        let names = Names::random(random, 6);
        let mut sample = random_path(random, &names, 6);
        if round % 2 == 1 {
            damage(random, &mut sample);
        }
        vectors.path_text(0, &sample.as_encoding(), 64);
    }
}

// Declarations.

const A: u32 = pair(0);
const B: u32 = pair(1);
const SELF_PAIR: u32 = pair(2);
const UNDER_PAIR: u32 = pair(3);
const EMPTY_PAIR: u32 = pair(4);

/// Names 16 `A`, 17 `B`, 18 `self`, 19 `_`, 20 empty.
fn letters(words: &[u32]) -> EncodingBuf {
    Names::of(&[b"A", b"B", b"self", b"_", b""]).with_words(words)
}

/// `pub struct A<B, A: u8 + &u16 + u32 + u64>();`
#[rustfmt::skip]
const CONSTRAINED: [u32; 17] = [
    STRUCT, EMPTY, 0, A, 2, B, 0, A, 3, U8, BORROWED, U16, INTERSECTION, U32, U64, NAMELESS, 0,
];

/// Whole declarations, one of each sort, with lists of none, one and several.
const WHOLE: [&[u32]; 24] = [
    &[STRUCT, EMPTY, 0, A, 0, NAMED, 0],
    &[STRUCT, EMPTY, 0, A, 0, NAMELESS, 0],
    &[STRUCT, B, 0, A, 0, NAMED, 1, PUB, B, I32],
    &[
        STRUCT, EMPTY, 0, A, 0, NAMED, 3, PUB, A, U8, PRIV, B, BORROWED, U16, PRIV, B, TUPLE, 2,
        U8, U16,
    ],
    &[STRUCT, EMPTY, 0, A, 0, NAMELESS, 1, PUB, U8],
    &[STRUCT, EMPTY, 0, A, 0, NAMELESS, 2, PUB, U8, PRIV, U16],
    &[STRUCT, B, 1, A, 0, A, 0, NAMELESS, 2, PRIV, U8, PRIV, U16],
    &[
        STRUCT, B, 3, A, 0, B, 1, EMPTY, EMPTY, 2, STD, RC_MODULE, A, 0, NAMED, 0,
    ],
    &CONSTRAINED,
    &[
        STRUCT, EMPTY_PAIR, 0, EMPTY_PAIR, 0, NAMED, 1, PRIV, EMPTY_PAIR, IDENTIFIER, EMPTY_PAIR,
    ],
    &[
        STRUCT, SELF, 0, SELF, 1, SELF, 1, IDENTIFIER, SELF, NAMED, 0,
    ],
    &[ENUM, EMPTY, 0, A, 0, 0],
    &[ENUM, B, 1, A, 1, B, A, 1, B, 1, IDENTIFIER, A, 0],
    &[
        ENUM, EMPTY, 0, A, 0, 2, EMPTY, B, NAMED, 0, EMPTY, A, NAMELESS, 0,
    ],
    &[
        ENUM, EMPTY, 0, A, 0, 1, EMPTY, B, NAMELESS, 2, PUB, U8, PRIV, U16,
    ],
    &[
        ENUM, EMPTY, 0, A, 0, 1, B, B, NAMED, 2, PUB, A, U8, PRIV, B, U16,
    ],
    &[
        ENUM, SELF, 0, A, 0, 3, B, B, NAMED, 2, PUB, A, U8, PRIV, B, U16, A, A, NAMELESS, 1, PRIV,
        BOOL, EMPTY, A, NAMED, 0,
    ],
    &[TYPE, EMPTY, 0, A, 0, U8],
    &[
        TYPE, B, 2, A, 0, B, 1, A, A, 2, A, 0, B, 2, U8, U16, APP, 1, IDENTIFIER, A, IDENTIFIER, B,
    ],
    &[
        TYPE, EMPTY, 0, A, 1, B, 1, IDENTIFIER, UNDERSCORE, IDENTIFIER, UNDER_PAIR,
    ],
    &[USE, PRIV, GLOBAL, 0],
    &[USE, PUB, GLOBAL, 3, STD, RC_MODULE, RC],
    &[USE, PRIV, SELF_TYPE, 2, A, EMPTY],
    &[USE, PUB, CRATE, 1, A],
];

fn declarations(vectors: &mut Vectors) {
    let length =
        reference::read_declaration(&gauge(&GAUGE)).map_or(0, |it| it.reference_text(0).len());
    for buffer in [0, 1, length - 1, length, length + 1, 2 * length] {
        vectors.declaration_text(0, &gauge(&GAUGE), buffer);
    }
    let most = LEVEL_LIMIT;
    for level in [1, 2, most - 1, most, most + 1, 256, u32::MAX] {
        vectors.declaration_text(level, &gauge(&GAUGE), 400);
    }
    for words in WHOLE {
        for level in [0, 1, LEVEL_LIMIT] {
            vectors.declaration(level, &letters(words).as_encoding());
        }
    }
}

/// Fields named self and fields of type `_`, all in one struct or case.
fn fields_by_formal(vectors: &mut Vectors) {
    let types: [&[u32]; 29] = [
        &[FROM_PATH, SELF_TYPE, 0],
        &[SYNONYM, U8, FROM_PATH, SELF_TYPE, 0],
        &[SYNONYM, FROM_PATH, SELF_TYPE, 0, U8],
        &[META_DATA, 3, FROM_PATH, SELF_TYPE, 0],
        &[
            SYNONYM, U8, META_DATA, 0, SYNONYM, U16, FROM_PATH, SELF_TYPE, 0,
        ],
        &[
            SYNONYM, TUPLE, 2, U8, SYNONYM, U16, U32, FROM_PATH, SELF_TYPE, 0,
        ],
        &[
            META_DATA, 0, SYNONYM, FROM_PATH, SELF_TYPE, 0, FROM_PATH, SELF_TYPE, 0,
        ],
        &[BORROWED, FROM_PATH, SELF_TYPE, 0],
        &[BORROWED_MUT, FROM_PATH, SELF_TYPE, 0],
        &[BORROWED, META_DATA, 0, FROM_PATH, SELF_TYPE, 0],
        &[META_DATA, 0, BORROWED, FROM_PATH, SELF_TYPE, 0],
        &[SYNONYM, U8, BORROWED, FROM_PATH, SELF_TYPE, 0],
        &[BORROWED, SYNONYM, U8, FROM_PATH, SELF_TYPE, 0],
        &[BORROWED_MUT, SYNONYM, U8, FROM_PATH, SELF_TYPE, 0],
        &[BORROWED, BORROWED, FROM_PATH, SELF_TYPE, 0],
        &[BORROWED, BORROWED_MUT, FROM_PATH, SELF_TYPE, 0],
        &[APP, 0, FROM_PATH, SELF_TYPE, 0],
        &[FROM_PATH, SELF_TYPE, 1, A],
        &[FROM_PATH, SELF_TYPE, 1, EMPTY],
        &[BORROWED, FROM_PATH, SELF_TYPE, 1, EMPTY],
        &[FROM_PATH, CRATE, 0],
        &[FROM_PATH, GLOBAL, 0],
        &[IDENTIFIER, UNDERSCORE],
        &[IDENTIFIER, UNDER_PAIR],
        &[META_DATA, 0, IDENTIFIER, UNDERSCORE],
        &[SYNONYM, IDENTIFIER, UNDER_PAIR, U8],
        &[SYNONYM, U8, IDENTIFIER, UNDERSCORE],
        &[FROM_PATH, GLOBAL, 1, UNDERSCORE],
        &[U8],
    ];
    for name in [SELF, A, SELF_PAIR] {
        for visibility in [PUB, PRIV] {
            let mut fields = vec![NAMED, types.len() as u32];
            for of in types {
                fields.extend([visibility, name]);
                fields.extend(of);
            }
            let of_struct = [&[STRUCT, EMPTY, 0, A, 0], &fields[..]].concat();
            vectors.declaration(0, &letters(&of_struct).as_encoding());
            let of_case = [&[ENUM, EMPTY, 0, A, 0, 1, EMPTY, B], &fields[..]].concat();
            vectors.declaration(1, &letters(&of_case).as_encoding());
        }
    }
    let mut nameless = vec![STRUCT, EMPTY, 0, A, 0, NAMELESS, types.len() as u32];
    for of in types {
        nameless.push(PRIV);
        nameless.extend(of);
    }
    vectors.declaration(0, &letters(&nameless).as_encoding());
    // Almost self: a name that begins with it, or is longer or shorter by a byte.
    let names = Names::of(&[b"A", b"sel", b"selfs", b"Self", b"self ", b"__"]);
    let mut fields = vec![STRUCT, EMPTY, 0, A, 0, NAMED, 10];
    for name in pair(1)..pair(6) {
        fields.extend([PRIV, name, FROM_PATH, SELF_TYPE, 0]);
        fields.extend([PRIV, A, IDENTIFIER, name]);
    }
    vectors.declaration(0, &names.with_words(&fields).as_encoding());
}

fn docs(vectors: &mut Vectors) {
    let docs: [&[u8]; 62] = [
        b"x",
        b"    ",
        b"     ",
        b"    x",
        b"   x",
        b"         x",
        b"    \n",
        b"   \n",
        b"\n",
        b"\n\n",
        b"a\n",
        b"a\n    ",
        b"a\n    b",
        b"a\n     ",
        b"a    b",
        b" \n    b",
        b"\t    x",
        b"a\r\nb",
        b"`",
        b"``",
        b"```",
        b"````",
        b"`` `",
        b"a```",
        b"``\n    x",
        b"```x",
        b"``` ",
        b"```\n",
        b"```\t",
        b"```\r\n",
        b"```rs",
        b"```rs ",
        b"```rs\n",
        b"```rsx",
        b"```rs\r\n",
        b"```r",
        b"```r ",
        b"````rs\nx",
        b"`````rs x",
        b"``` rs\n",
        b"   ```",
        b"    ```",
        b"   ```\n    x",
        b"    ```\n    x",
        b"x```\n    y",
        b"```\n    y\n```\n    z",
        b"```\n    y\n        ```\n    z",
        b"```\n````x\n    z",
        b"````\n```\n    z\n````\n    z",
        b"```\n``````\n    z",
        b"``` ```\n    y",
        b"```x```\n    y",
        b"```rs\n    x\n```",
        b"```\n``\n    x",
        b"```\na\n```\n```rs\nb\n```",
        b"```\n```rs\n    x",
        b"```\nx```\n    y",
        b"```\n ```\n    y",
        b"\n```",
        b"a\n```",
        b"a\n   ````rs\n",
        b"\xFF\0\xC3\xA9",
    ];
    for (number, doc) in docs.into_iter().enumerate() {
        let names = Names::of(&[doc, b"A"]);
        let [comment, name] = [pair(0), pair(1)];
        let level = [0, 0, 1, LEVEL_LIMIT][number % 4];
        vectors.declaration(
            level,
            &names
                .with_words(&[STRUCT, comment, 0, name, 0, NAMELESS, 0])
                .as_encoding(),
        );
        if number % 3 == 0 {
            let case = [
                ENUM, comment, 0, name, 0, 2, comment, name, NAMELESS, 0, comment, name, NAMED, 0,
            ];
            vectors.declaration(level, &names.with_words(&case).as_encoding());
        }
    }
    let random = &mut Random::new(2);
    for round in 0..40 {
        let doc = random_doc(random, 20);
        let names = Names::of(&[b"A", &doc]);
        vectors.declaration(
            round % 3,
            &names
                .with_words(&[STRUCT, pair(1), 0, pair(0), 0, NAMED, 0])
                .as_encoding(),
        );
    }
    // A doc of one long line, and one of many.
    let long = [&[b'd'; 3_000][..], b"\n    ", &[b'd'; 500]].concat();
    for doc in [&long[..], &[b'\n'; 200], &b"    x\n```\n".repeat(30)] {
        let names = Names::of(&[doc]);
        vectors.declaration(
            2,
            &names
                .with_words(&[TYPE, pair(0), 0, EMPTY, 0, U8])
                .as_encoding(),
        );
    }
}

fn refusals_in_declarations(vectors: &mut Vectors) {
    let most = u32::MAX;
    // Every front part of some declarations, and a word too many.
    for words in [
        &[
            STRUCT, OFFSET, 1, GAUGE_NAME, 1, GAUGE_NAME, GAUGE_NAME, 1, GAUGE_NAME, 1, U8, NAMED,
            2, PUB, GAUGE_NAME, U8, PRIV, OFFSET, BORROWED, U16,
        ][..],
        &[
            ENUM, OFFSET, 0, GAUGE_NAME, 0, 2, GAUGE_NAME, OFFSET, NAMED, 0, EMPTY, GAUGE_NAME,
            NAMELESS, 1, PRIV, BOOL,
        ],
        &[TYPE, EMPTY, 0, GAUGE_NAME, 0, TUPLE, 2, U8, U16],
        &[USE, PUB, CRATE, 2, GAUGE_NAME, OFFSET],
    ] {
        for length in 0..words.len() {
            vectors.declaration_text(0, &gauge(&words[..length]), 8);
        }
        for word in [0, NO_KIND, most] {
            vectors.declaration_text(0, &gauge(&[words, &[word]].concat()), 300);
        }
    }
    for words in [
        &[0][..],
        &[12, 16],
        &[24, 0, 0],
        &[head::END],
        &[most],
        &[STRUCT, pair(4)],
        &[STRUCT, most],
        &[STRUCT, EMPTY, 1, pair(4)],
        &[STRUCT, EMPTY, 1, GAUGE_NAME, 1, pair(4)],
        &[STRUCT, EMPTY, 0, pair(4)],
        &[STRUCT, EMPTY, 0, GAUGE_NAME, 1, pair(4)],
        &[STRUCT, EMPTY, 0, GAUGE_NAME, 1, GAUGE_NAME, 1, NO_KIND],
        &[STRUCT, EMPTY, 0, GAUGE_NAME, 0, 2],
        &[STRUCT, EMPTY, 0, GAUGE_NAME, 0, most],
        &[STRUCT, EMPTY, 0, GAUGE_NAME, 0, NAMED, 1, 2],
        &[STRUCT, EMPTY, 0, GAUGE_NAME, 0, NAMED, 1, PUB, pair(4)],
        &[
            STRUCT, EMPTY, 0, GAUGE_NAME, 0, NAMED, 1, PUB, GAUGE_NAME, NO_KIND,
        ],
        &[STRUCT, EMPTY, 0, GAUGE_NAME, 0, NAMELESS, 1, 2],
        &[ENUM, EMPTY, 0, GAUGE_NAME, 0, 1, pair(4)],
        &[ENUM, EMPTY, 0, GAUGE_NAME, 0, 1, EMPTY, pair(4)],
        &[ENUM, EMPTY, 0, GAUGE_NAME, 0, 1, EMPTY, GAUGE_NAME, 2],
        &[TYPE, EMPTY, 0, GAUGE_NAME, 0, ENUM],
        &[USE, 2],
        &[USE, PUB, 3],
        &[USE, PUB, GLOBAL, 1, pair(4)],
        // counts beyond all words
        &[STRUCT, EMPTY, most, GAUGE_NAME, 0, 99],
        &[STRUCT, EMPTY, most, GAUGE_NAME, 0],
        &[STRUCT, EMPTY, 1, GAUGE_NAME, most, GAUGE_NAME],
        &[STRUCT, EMPTY, 0, GAUGE_NAME, most, GAUGE_NAME, 0],
        &[STRUCT, EMPTY, 0, GAUGE_NAME, 1, GAUGE_NAME, most, U8],
        &[
            STRUCT, EMPTY, 0, GAUGE_NAME, 0, NAMED, most, PUB, GAUGE_NAME, U8,
        ],
        &[STRUCT, EMPTY, 0, GAUGE_NAME, 0, NAMELESS, most, PUB, U8],
        &[
            ENUM, EMPTY, 0, GAUGE_NAME, 0, most, EMPTY, GAUGE_NAME, NAMELESS, 0, 99,
        ],
        &[
            ENUM, EMPTY, 0, GAUGE_NAME, 0, most, EMPTY, GAUGE_NAME, NAMELESS, most, PUB, U8,
        ],
        &[USE, PUB, GLOBAL, most, GAUGE_NAME],
    ] {
        vectors.declaration_text(0, &gauge(words), 16);
    }
    // Depth is counted anew in each type.
    for count in [DEPTH_LIMIT - 1, DEPTH_LIMIT] {
        for inner in [&[0][..], &[], &[13, 2, 0], &[24, 9]] {
            let deep = borrows_then(count, inner);
            let field = [
                &[
                    STRUCT, EMPTY, 0, GAUGE_NAME, 0, NAMED, 2, PUB, MM, U8, PRIV, SELF,
                ],
                &deep[..],
            ]
            .concat();
            vectors.declaration_text(0, &gauge(&field), 200);
            let constraint = [
                &[TYPE, EMPTY, 0, GAUGE_NAME, 1, GAUGE_NAME, 2, U8],
                &deep[..],
                &[0],
            ]
            .concat();
            vectors.declaration_text(0, &gauge(&constraint), 200);
        }
    }
    // 11 before 1 before 2 before 3 and 4.
    let long_text = vec![b'x'; TEXT_LIMIT + 1];
    for (level, words, pairs, text) in [
        (LEVEL_LIMIT + 1, &[][..], &[9][..], &long_text[..]),
        (LEVEL_LIMIT, &[], &[9], &long_text),
        (LEVEL_LIMIT, &[], &[9], b""),
        (LEVEL_LIMIT, &[99], &[9, 0], b""),
        (LEVEL_LIMIT, &[99], &[], b""),
    ] {
        vectors.declaration_text(level, &Encoding { words, pairs, text }, 4);
    }
}

fn limits_of_declarations(vectors: &mut Vectors) {
    // Many words and little text: a base that does not show.
    for length in [WORD_LIMIT, WORD_LIMIT + 1] {
        let mut words = vec![STRUCT, EMPTY, 0, GAUGE_NAME, 0, NAMED, 1, PRIV, SELF];
        words.extend([SYNONYM, TUPLE, length as u32 - 15]);
        words.resize(length - 3, BOOL);
        words.extend([FROM_PATH, SELF_TYPE, 0]);
        vectors.declaration_text(0, &gauge(&words), 64);
    }
    // The last of 1,024 pairs as every name, then one number too far.
    let mut pairs = vec![0; 2 * PAIR_LIMIT];
    pairs[2 * PAIR_LIMIT - 1] = 2;
    let last = pair(PAIR_LIMIT as u32 - 1);
    for doc in [last, last + 1] {
        let encoding = Encoding {
            words: &[
                STRUCT, doc, 0, last, 0, NAMED, 1, PRIV, last, IDENTIFIER, last,
            ],
            pairs: &pairs,
            text: b"mm",
        };
        vectors.declaration_text(0, &encoding, 64);
    }
    // A doc of 16,384 bytes does not fit, whatever it is; a name at the edge of the text does.
    let mut text = vec![b'\n'; TEXT_LIMIT];
    text[TEXT_LIMIT - 4..].copy_from_slice(b"edge");
    let name = pair(0);
    let end = TEXT_LIMIT as u32;
    for (pair, level) in [
        ([0, end], LEVEL_LIMIT),
        ([end - 4, 4], LEVEL_LIMIT),
        ([end - 4, 5], 0),
    ] {
        let encoding = Encoding {
            words: &[ENUM, name, 0, name, 0, 1, name, name, NAMELESS, 0],
            pairs: &pair,
            text: &text,
        };
        vectors.declaration_text(level, &encoding, 512);
    }
}

fn generated_declarations(vectors: &mut Vectors) {
    let random = &mut Random::new(3);
    for round in 0..72 {
        let names = Names::random_with_docs(random, 8);
        let shape = Shape {
            depth: 1 + round % 6,
            chain: round % 7 == 6,
            children: 3,
            words: 50,
            careless: [0, 100][round % 2],
        };
        let mut sample = random_declaration(random, &names, shape);
        if round % 4 == 3 {
            damage(random, &mut sample);
        }
        let level = random.below(LEVEL_LIMIT as usize + 1) as u32;
        vectors.declaration(level, &sample.as_encoding());
    }
}

/// Whole files of the program printdecl.
fn files(vectors: &mut Vectors) {
    let whole = gauge(&GAUGE).to_file();
    vectors.printdecl(&whole);
    for length in [0, 1, 4, 8, 11, 12, 13, 43, 44, 99, 100, whole.len() - 1] {
        vectors.printdecl(&whole[..length]);
    }
    vectors.printdecl(&[&whole[..], b"x"].concat());
    vectors.printdecl(&[&whole[..], b"1234"].concat());
    for count in 0..3 {
        for difference in [1, u8::MAX] {
            let mut other = whole.clone();
            other[4 * count] = other[4 * count].wrapping_add(difference);
            vectors.printdecl(&other);
        }
    }
    // Counts that are wrong and make up for each other.
    for (pairs, words, text) in [
        (4, 13, 26),
        (3, 16, 22),
        (3, 14, 30),
        (5, 12, 22),
        (0, 22, 22),
    ] {
        let mut other = whole.clone();
        (other[0], other[4], other[8]) = (pairs, words, text);
        vectors.printdecl(&other);
    }
    headers(vectors);
    largest_files(vectors);
    for words in WHOLE {
        vectors.printdecl(&letters(words).to_file());
    }
    let random = &mut Random::new(4);
    for round in 0..30 {
        let names = Names::random_with_docs(random, 8);
        let shape = Shape {
            depth: 1 + round % 5,
            chain: false,
            children: 4,
            words: 60,
            careless: 100,
        };
        let mut sample = random_declaration(random, &names, shape);
        if round % 2 == 1 {
            damage(random, &mut sample);
        }
        vectors.printdecl(&sample.to_file());
    }
}

fn headers(vectors: &mut Vectors) {
    let most = u32::MAX;
    let limits = [PAIR_LIMIT, WORD_LIMIT, TEXT_LIMIT].map(|limit| limit as u32);
    let [pairs, words, text] = limits;
    for header in [
        [0, 0, 0],
        [1, 0, 0],
        [0, 1, 0],
        [0, 0, 1],
        [pairs + 1, 0, 0],
        [0, words + 1, 0],
        [0, 0, text + 1],
        [most, 0, 0],
        [0, most, 0],
        [0, 0, most],
        limits,
        [pairs + 1, most, most],
        // sizes in bytes that come to 0 or so in 32 bits
        [1 << 29, 0, 0],
        [0, 1 << 30, 0],
        [1 << 29, 1 << 30, 0],
        [0, (1 << 30) - 1, 4],
    ] {
        let header: Vec<u8> = header.into_iter().flat_map(u32::to_le_bytes).collect();
        vectors.printdecl(&header);
        vectors.printdecl(&[&header[..], &STRUCT.to_le_bytes()].concat());
    }
    // 9 before 2, 2 before 4.
    let bad = Encoding {
        words: &[99],
        pairs: &[9, 9],
        text: b"",
    };
    vectors.printdecl(&bad.to_file());
    vectors.printdecl(&[&bad.to_file()[..], b"x"].concat());
}

fn largest_files(vectors: &mut Vectors) {
    // 1,024 pairs, 8,192 words, 16,384 bytes, and more than that.
    let stock: Vec<Vec<u8>> = vec![vec![b'n'; TEXT_LIMIT / PAIR_LIMIT]; PAIR_LIMIT];
    let names = Names::of(&stock.iter().map(Vec::as_slice).collect::<Vec<_>>());
    let last = pair(PAIR_LIMIT as u32 - 1);
    let mut words = vec![TYPE, pair(0), 0, last, 0, SYNONYM, IDENTIFIER, pair(1)];
    words.extend([TUPLE, WORD_LIMIT as u32 - 10]);
    words.resize(WORD_LIMIT, BOOL);
    let largest = names.with_words(&words);
    let whole = largest.to_file();
    assert_eq!(whole.len(), 57_356, "the longest file that is accepted");
    vectors.printdecl(&whole);
    vectors.printdecl(&whole[..57_355]);
    vectors.printdecl(&[&whole[..], b"x"].concat());
    let mut longer = whole.clone();
    longer.resize(MOST_TEXT, b'x');
    vectors.printdecl(&longer);
    let mut one_word_more = largest;
    one_word_more.words.push(BOOL);
    vectors.printdecl(&one_word_more.to_file());
    // A text that just fits the program's buffer, and one that does not.
    for length in [PRINT_LIMIT, PRINT_LIMIT + 1] {
        let (name, extra) = ((length - 20) / 4, (length - 20) % 4);
        let names = Names::of(&[&vec![b'n'; name], &vec![b'e'; extra]]);
        let front = [STRUCT, EMPTY, 0, pair(1), 0, NAMELESS, 4];
        let words = [&front[..], &[PRIV, IDENTIFIER, pair(0)].repeat(4)].concat();
        vectors.printdecl(&names.with_words(&words).to_file());
    }
}
