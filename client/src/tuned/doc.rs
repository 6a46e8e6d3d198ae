//! Doc comments, line by line: only the front of a line can change, the rest of it is copied.

use super::Writer;

/// What stands before every line of a comment.
const PREFIX: &[u8; 4] = b"/// ";

/// What the front of a line asks for. The numbers are counted from the beginning of the line.
#[derive(Clone, Copy)]
enum Front {
    Plain,
    /// Four spaces, of which the first becomes a bar.
    Bar,
    /// After so many bytes comes `dafny`.
    Dafny(usize),
    /// After so many bytes stands an `rs` that goes.
    DropRs(usize),
}

/// Looks at the front of the line that `rest`, which runs to the end of the doc, begins with.
/// `fence` is the length of the fence that the code around it was opened with, 0 outside code.
#[inline]
fn front(rest: &[u8], fence: &mut usize) -> Front {
    if !matches!(rest.first(), Some(b' ' | b'`')) {
        return Front::Plain;
    }
    let spaces = count(rest, b' ');
    if *fence == 0 && spaces >= 4 && rest.len() > 4 {
        return Front::Bar;
    }
    let backticks = count(&rest[spaces..], b'`');
    if *fence > 0 {
        if backticks >= *fence {
            *fence = 0;
        }
        return Front::Plain;
    }
    if backticks < 3 {
        return Front::Plain;
    }
    *fence = backticks;
    let at = spaces + backticks;
    match rest[at..] {
        [] | [b' ' | b'\n', ..] => Front::Dafny(at),
        [b'r', b's', b' ' | b'\n', ..] => Front::DropRs(at),
        _ => Front::Plain,
    }
}

/// How many of this byte the bytes begin with.
fn count(bytes: &[u8], of: u8) -> usize {
    bytes
        .iter()
        .position(|&byte| byte != of)
        .unwrap_or(bytes.len())
}

/// The length of a comment with its last newline and indent; 0 if there is no doc.
pub(super) fn measure_doc(doc: &[u8], indent: usize) -> usize {
    if doc.is_empty() {
        return 0;
    }
    let mut length = PREFIX.len() + doc.len() + 1 + indent;
    let (newlines, backticks) = count_both(doc);
    length += newlines * (indent + PREFIX.len());
    // Only fences change the length of a line, so most docs are done.
    if backticks < 3 {
        return length;
    }
    let mut fence = 0;
    let mut rest = doc;
    loop {
        match front(rest, &mut fence) {
            Front::Plain | Front::Bar => {}
            Front::Dafny(_) => length += 5,
            Front::DropRs(_) => length -= 2,
        }
        match newline(rest) {
            Some(at) => rest = &rest[at + 1..],
            None => return length,
        }
    }
}

/// How many newlines and backticks there are. The inner sums fit a byte, which lets the compiler
/// add many of them at once.
fn count_both(bytes: &[u8]) -> (usize, usize) {
    let mut counts = (0, 0);
    for part in bytes.chunks(128) {
        let (mut newlines, mut backticks) = (0_u8, 0_u8);
        for &byte in part {
            newlines += u8::from(byte == b'\n');
            backticks += u8::from(byte == b'`');
        }
        counts.0 += usize::from(newlines);
        counts.1 += usize::from(backticks);
    }
    counts
}

impl Writer<'_> {
    /// Writes what `measure_doc` measured.
    pub(super) fn put_doc(&mut self, mut end: usize, doc: &[u8], indent: usize) -> usize {
        if doc.is_empty() {
            return end;
        }
        end = self.put(end, PREFIX);
        let mut fence = 0;
        let mut rest = doc;
        loop {
            let front = front(rest, &mut fence);
            let newline = newline(rest);
            let line = newline.unwrap_or(rest.len());
            match front {
                Front::Plain => end = self.put_front(end, rest, line),
                Front::Bar => {
                    end = self.put(end, b"|   ");
                    end = self.put_front(end, &rest[4..], line - 4);
                }
                Front::Dafny(at) => {
                    end = self.put_front(end, rest, at);
                    end = self.put(end, b"dafny");
                    end = self.put_front(end, &rest[at..], line - at);
                }
                Front::DropRs(at) => {
                    end = self.put_front(end, rest, at);
                    end = self.put_front(end, &rest[at + 2..], line - at - 2);
                }
            }
            end = self.put_newline(end, indent);
            match newline {
                Some(at) => rest = &rest[at + 1..],
                None => return end,
            }
            end = self.put(end, PREFIX);
        }
    }
}

/// Where the first newline is.
#[inline]
fn newline(bytes: &[u8]) -> Option<usize> {
    // Most lines are short, and end among the first bytes.
    let (near, _) = bytes.split_at(bytes.len().min(64));
    let (eights, last) = near.as_chunks::<8>();
    for (before, &eight) in eights.iter().enumerate() {
        if let Some(inside) = newline_in_eight(eight) {
            return Some(8 * before + inside);
        }
    }
    let inside = last.iter().position(|&byte| byte == b'\n');
    if inside.is_some() || near.len() < 64 {
        return inside.map(|inside| near.len() - last.len() + inside);
    }
    far_newline(&bytes[64..]).map(|inside| 64 + inside)
}

/// The same for a long line: by 32 bytes, which the compiler compares all at once.
#[inline(never)]
fn far_newline(bytes: &[u8]) -> Option<usize> {
    let (blocks, _) = bytes.as_chunks::<32>();
    let clear = blocks
        .iter()
        .take_while(|block| !block.iter().fold(false, |any, &byte| any | (byte == b'\n')))
        .count();
    let rest = &bytes[32 * clear..];
    rest.iter()
        .position(|&byte| byte == b'\n')
        .map(|inside| 32 * clear + inside)
}

/// The same for eight bytes at once: the lowest byte that is 0 after the exclusive or is the first
/// one to borrow in the subtraction.
#[inline]
fn newline_in_eight(bytes: [u8; 8]) -> Option<usize> {
    const ONES: u64 = u64::MAX / 0xFF;
    let different = u64::from_le_bytes(bytes) ^ (ONES * b'\n' as u64);
    let found = different.wrapping_sub(ONES) & !different & (ONES << 7);
    (found != 0).then(|| (found.trailing_zeros() / 8) as usize)
}

#[cfg(test)]
mod tests {
    use super::*;

    #[test]
    fn newlines_are_found() {
        for length in 0..200 {
            let mut bytes = vec![b'x'; length];
            assert_eq!(newline(&bytes), None);
            for at in (0..length).rev() {
                bytes[at] = b'\n'; // and those after it as well
                assert_eq!(newline(&bytes), Some(at));
            }
        }
        // The neighbours of a newline, which a careless subtraction would take for one.
        for byte in (0..=255).filter(|&byte| byte != b'\n') {
            assert_eq!(newline(&[byte; 70]), None);
            let mut bytes = [byte; 70];
            bytes[41] = b'\n';
            assert_eq!(newline(&bytes), Some(41));
        }
    }
}
