//! The program `printdecl` as one would write it by hand for speed, over the hand-tuned text of
//! declarations: the benchmark's other side.

use std::io::{self, Read, Write};
use std::process::ExitCode;

use tillercoral::limits::{PAIR_LIMIT, PRINT_LIMIT, TEXT_LIMIT, WORD_LIMIT};
use tillercoral::{tuned, Encoding, Refusal};

const HEADER: usize = 12;
const LONGEST_FILE: usize = HEADER + 8 * PAIR_LIMIT + 4 * WORD_LIMIT + TEXT_LIMIT;

fn main() -> ExitCode {
    match run() {
        Ok(()) => ExitCode::SUCCESS,
        Err(error) => {
            eprintln!("printdecl_tuned: {error}");
            ExitCode::FAILURE
        }
    }
}

fn run() -> io::Result<()> {
    // One byte more than any file that is accepted, so that a longer one shows.
    let mut file = [0; LONGEST_FILE + 1];
    let length = read_file(&mut file)?;
    // One byte more than any text, for the newline.
    let mut out = [0; PRINT_LIMIT + 1];
    let mut stdout = io::stdout().lock();
    match print(&file[..length], &mut out[..PRINT_LIMIT]) {
        Ok(length) => {
            out[length] = b'\n';
            stdout.write_all(&out[..=length])?;
        }
        Err(refusal) => writeln!(stdout, "refused {}", refusal.number())?,
    }
    stdout.flush()
}

/// Reads up to the end of the input, or until the buffer is full.
fn read_file(file: &mut [u8]) -> io::Result<usize> {
    let mut stdin = io::stdin().lock();
    let mut length = 0;
    while length < file.len() {
        match stdin.read(&mut file[length..]) {
            Ok(0) => break,
            Ok(more) => length += more,
            Err(error) if error.kind() == io::ErrorKind::Interrupted => {}
            Err(error) => return Err(error),
        }
    }
    Ok(length)
}

fn print(file: &[u8], out: &mut [u8]) -> Result<usize, Refusal> {
    let (header, rest) = file
        .split_first_chunk::<HEADER>()
        .ok_or(Refusal::BadFileLength)?;
    let mut counts = [0; 3];
    decode(header, &mut counts);
    let [pair_count, word_count, text_length] = counts.map(|count| count as usize);
    if pair_count > PAIR_LIMIT || word_count > WORD_LIMIT || text_length > TEXT_LIMIT {
        return Err(Refusal::Overlong);
    }
    let (pair_bytes, word_bytes) = (8 * pair_count, 4 * word_count);
    if rest.len() != pair_bytes + word_bytes + text_length {
        return Err(Refusal::BadFileLength);
    }
    let mut pairs = [0; 2 * PAIR_LIMIT];
    let pairs = &mut pairs[..2 * pair_count];
    let mut words = [0; WORD_LIMIT];
    let words = &mut words[..word_count];
    decode(&rest[..pair_bytes], pairs);
    decode(&rest[pair_bytes..pair_bytes + word_bytes], words);
    let encoding = Encoding {
        words,
        pairs,
        text: &rest[pair_bytes + word_bytes..],
    };
    tuned::declaration_text(&encoding, 0, out)
}

fn decode(bytes: &[u8], numbers: &mut [u32]) {
    let (fours, _) = bytes.as_chunks::<4>();
    for (number, &four) in numbers.iter_mut().zip(fours) {
        *number = u32::from_le_bytes(four);
    }
}
