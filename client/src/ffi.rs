//! The exported calls of the static library, and the only unsafe code of this package.
//!
//! A slice passes as a pointer and a length in elements. The pointer of an empty Rust slice is
//! non-null and aligned, which is all the library asks of it.
//!
//! # Why the calls are safe
//!
//! Each pointer and length come from one slice that lives through the call. The library takes any
//! contents, reads and writes only inside the slices, writes to `out` alone, and keeps no pointer.
//! `out` is borrowed exclusively, so it overlaps nothing. That a declaration below is the exported
//! one is tested (`tests/makers.rs`).

use crate::Encoding;

pub(crate) mod rebuild;
pub(crate) mod walks;

unsafe extern "C" {
    fn tillercoral_type_text(
        words: *const u32,
        words_len: usize,
        pairs: *const u32,
        pairs_len: usize,
        text: *const u8,
        text_len: usize,
        level: u32,
        out: *mut u8,
        out_len: usize,
    ) -> u64;

    fn tillercoral_path_text(
        words: *const u32,
        words_len: usize,
        pairs: *const u32,
        pairs_len: usize,
        text: *const u8,
        text_len: usize,
        level: u32,
        out: *mut u8,
        out_len: usize,
    ) -> u64;

    fn tillercoral_declaration_text(
        words: *const u32,
        words_len: usize,
        pairs: *const u32,
        pairs_len: usize,
        text: *const u8,
        text_len: usize,
        level: u32,
        out: *mut u8,
        out_len: usize,
    ) -> u64;

    fn tillercoral_type_is_sound(
        words: *const u32,
        words_len: usize,
        pairs: *const u32,
        pairs_len: usize,
        text: *const u8,
        text_len: usize,
    ) -> u64;
}

pub(crate) fn type_text(e: &Encoding<'_>, level: u32, out: &mut [u8]) -> u64 {
    // SAFETY: see the head of `ffi`.
    unsafe {
        tillercoral_type_text(
            e.words.as_ptr(),
            e.words.len(),
            e.pairs.as_ptr(),
            e.pairs.len(),
            e.text.as_ptr(),
            e.text.len(),
            level,
            out.as_mut_ptr(),
            out.len(),
        )
    }
}

pub(crate) fn path_text(e: &Encoding<'_>, level: u32, out: &mut [u8]) -> u64 {
    // SAFETY: see the head of `ffi`.
    unsafe {
        tillercoral_path_text(
            e.words.as_ptr(),
            e.words.len(),
            e.pairs.as_ptr(),
            e.pairs.len(),
            e.text.as_ptr(),
            e.text.len(),
            level,
            out.as_mut_ptr(),
            out.len(),
        )
    }
}

pub(crate) fn declaration_text(e: &Encoding<'_>, level: u32, out: &mut [u8]) -> u64 {
    // SAFETY: see the head of `ffi`.
    unsafe {
        tillercoral_declaration_text(
            e.words.as_ptr(),
            e.words.len(),
            e.pairs.as_ptr(),
            e.pairs.len(),
            e.text.as_ptr(),
            e.text.len(),
            level,
            out.as_mut_ptr(),
            out.len(),
        )
    }
}

pub(crate) fn type_is_sound(e: &Encoding<'_>) -> u64 {
    // SAFETY: see the head of `ffi`.
    unsafe {
        tillercoral_type_is_sound(
            e.words.as_ptr(),
            e.words.len(),
            e.pairs.as_ptr(),
            e.pairs.len(),
            e.text.as_ptr(),
            e.text.len(),
        )
    }
}
