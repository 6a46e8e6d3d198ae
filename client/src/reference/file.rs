//! Whole files: what the program `printdecl` prints.

use super::read_declaration;
use crate::limits::{PAIR_LIMIT, PRINT_LIMIT, TEXT_LIMIT, WORD_LIMIT};
use crate::{Encoding, Refusal};

const HEADER_LENGTH: usize = 12;

/// What the program prints for a file of these bytes: the declaration at level 0 and a newline, or a
/// line with the refusal.
pub fn printdecl(file: &[u8]) -> Vec<u8> {
    match declaration_of_file(file) {
        Ok(mut text) => {
            text.push(b'\n');
            text
        }
        Err(refusal) => format!("refused {}\n", refusal.number()).into_bytes(),
    }
}

fn declaration_of_file(file: &[u8]) -> Result<Vec<u8>, Refusal> {
    let (header, rest) = file
        .split_at_checked(HEADER_LENGTH)
        .ok_or(Refusal::BadFileLength)?;
    let counts: Vec<usize> = numbers(header).map(|count| count as usize).collect();
    let (pair_count, word_count, text_length) = (counts[0], counts[1], counts[2]);
    if pair_count > PAIR_LIMIT || word_count > WORD_LIMIT || text_length > TEXT_LIMIT {
        return Err(Refusal::Overlong);
    }
    if rest.len() != 8 * pair_count + 4 * word_count + text_length {
        return Err(Refusal::BadFileLength);
    }
    let (pairs, rest) = rest.split_at(8 * pair_count);
    let (words, text) = rest.split_at(4 * word_count);
    let declaration = read_declaration(&Encoding {
        words: &numbers(words).collect::<Vec<_>>(),
        pairs: &numbers(pairs).collect::<Vec<_>>(),
        text,
    })?;
    let text = declaration.reference_text(0);
    if text.len() > PRINT_LIMIT {
        return Err(Refusal::BufferTooShort);
    }
    Ok(text)
}

/// The u32 numbers, little-endian, in bytes whose count is a multiple of 4.
fn numbers(bytes: &[u8]) -> impl Iterator<Item = u32> + '_ {
    bytes
        .chunks_exact(4)
        .map(|four| u32::from_le_bytes([four[0], four[1], four[2], four[3]]))
}

#[cfg(test)]
mod tests {
    use super::*;
    use crate::cases::GAUGE;
    use crate::words::{fields::*, head::*, kind::*, name::*, pair, visibility::*};

    fn file(header: [u32; 3], numbers: &[u32], text: &[u8]) -> Vec<u8> {
        let mut file = Vec::new();
        for number in header.iter().chain(numbers) {
            file.extend(number.to_le_bytes());
        }
        file.extend(text);
        file
    }

    fn gauge() -> Vec<u8> {
        let pairs = [0, 5, 5, 13, 18, 2, 20, 2];
        let numbers = [&pairs[..], &GAUGE].concat();
        file([4, 14, 22], &numbers, b"GaugeOffset in mm.mmid")
    }

    #[test]
    fn the_whole_example() {
        assert_eq!(gauge().len(), 12 + 8 * 4 + 4 * 14 + 22);
        assert_eq!(
            printdecl(&gauge()),
            b"/// Offset in mm.\npub struct Gauge {\n    pub mm: i32,\n    id: &u8\n}\n".to_vec()
        );
    }

    /// TRAPS 33.
    #[test]
    fn header_limits_length_pairs() {
        let refused = |file: &[u8]| String::from_utf8(printdecl(file)).unwrap();
        assert_eq!(refused(&[]), "refused 9\n");
        assert_eq!(refused(&[0; 11]), "refused 9\n");
        assert_eq!(refused(&[0xFF; 11]), "refused 9\n");
        // A header of nothing: no word is there.
        assert_eq!(refused(&[0; 12]), "refused 3\n");
        assert_eq!(refused(&[0xFF; 12]), "refused 1\n");
        let limits = [PAIR_LIMIT, WORD_LIMIT, TEXT_LIMIT].map(|limit| limit as u32);
        let [pairs, words, text] = limits;
        for header in [
            [pairs + 1, 0, 0],
            [0, words + 1, 0],
            [0, 0, text + 1],
            [u32::MAX, 0, 0],
        ] {
            assert_eq!(refused(&file(header, &[], b"")), "refused 1\n");
        }
        assert_eq!(refused(&file(limits, &[], b"")), "refused 9\n");
        // Sums that pass 2^32 and come out right by wrapping.
        assert_eq!(
            refused(&file([1 << 29, 1, 0], &[STRUCT], b"")),
            "refused 1\n"
        );
        let mut longer = gauge();
        longer.push(b'!');
        assert_eq!(refused(&longer), "refused 9\n");
        let whole = gauge();
        for length in 12..whole.len() {
            assert_eq!(refused(&whole[..length]), "refused 9\n");
        }
        // 9 before 2, and 2 before 3 and 4.
        assert_eq!(refused(&file([1, 1, 0], &[9, 9, 99], b"x")), "refused 9\n");
        assert_eq!(refused(&file([1, 1, 0], &[9, 9, 99], b"")), "refused 2\n");
        assert_eq!(refused(&file([1, 1, 0], &[0, 0, 99], b"")), "refused 4\n");
    }

    /// `pub struct e(n.., n.., n.., n..);` with names as long as it takes.
    fn struct_of_length(length: usize) -> Vec<u8> {
        let (name, extra) = ((length - 20) / 4, (length - 20) % 4);
        let pairs = [0, name as u32, name as u32, extra as u32];
        let front = [STRUCT, EMPTY, 0, pair(1), 0, NAMELESS, 4];
        let words = [&front[..], &[PRIV, IDENTIFIER, pair(0)].repeat(4)].concat();
        let text = [vec![b'n'; name], vec![b'e'; extra]].concat();
        file(
            [2, words.len() as u32, text.len() as u32],
            &[&pairs[..], &words].concat(),
            &text,
        )
    }

    #[test]
    fn the_longest_text() {
        for length in [PRINT_LIMIT - 1, PRINT_LIMIT] {
            let printed = printdecl(&struct_of_length(length));
            assert_eq!(printed.len(), length + 1);
            assert!(printed.starts_with(b"pub struct "));
            assert!(printed.ends_with(b"n);\n"));
        }
        for length in [PRINT_LIMIT + 1, PRINT_LIMIT + 2] {
            assert_eq!(
                printdecl(&struct_of_length(length)),
                b"refused 8\n".to_vec()
            );
        }
    }
}
