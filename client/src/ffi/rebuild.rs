//! The exported calls that give rebuilt trees.

use crate::Encoding;

unsafe extern "C" {
    fn tillercoral_type_rebuild(
        words: *const u32,
        words_len: usize,
        pairs: *const u32,
        pairs_len: usize,
        text: *const u8,
        text_len: usize,
        rules: *const u32,
        rules_len: usize,
        out: *mut u32,
        out_len: usize,
    ) -> u64;

    fn tillercoral_declaration_rebuild(
        words: *const u32,
        words_len: usize,
        pairs: *const u32,
        pairs_len: usize,
        text: *const u8,
        text_len: usize,
        rules: *const u32,
        rules_len: usize,
        out: *mut u32,
        out_len: usize,
    ) -> u64;

    fn tillercoral_type_at_initialization(
        words: *const u32,
        words_len: usize,
        pairs: *const u32,
        pairs_len: usize,
        text: *const u8,
        text_len: usize,
        out: *mut u32,
        out_len: usize,
    ) -> u64;
}

pub(crate) fn type_rebuild(e: &Encoding<'_>, rules: &[u32], out: &mut [u32]) -> u64 {
    // SAFETY: see the head of `ffi`.
    unsafe {
        tillercoral_type_rebuild(
            e.words.as_ptr(),
            e.words.len(),
            e.pairs.as_ptr(),
            e.pairs.len(),
            e.text.as_ptr(),
            e.text.len(),
            rules.as_ptr(),
            rules.len(),
            out.as_mut_ptr(),
            out.len(),
        )
    }
}

pub(crate) fn declaration_rebuild(e: &Encoding<'_>, rules: &[u32], out: &mut [u32]) -> u64 {
    // SAFETY: see the head of `ffi`.
    unsafe {
        tillercoral_declaration_rebuild(
            e.words.as_ptr(),
            e.words.len(),
            e.pairs.as_ptr(),
            e.pairs.len(),
            e.text.as_ptr(),
            e.text.len(),
            rules.as_ptr(),
            rules.len(),
            out.as_mut_ptr(),
            out.len(),
        )
    }
}

pub(crate) fn type_at_initialization(e: &Encoding<'_>, out: &mut [u32]) -> u64 {
    // SAFETY: see the head of `ffi`.
    unsafe {
        tillercoral_type_at_initialization(
            e.words.as_ptr(),
            e.words.len(),
            e.pairs.as_ptr(),
            e.pairs.len(),
            e.text.as_ptr(),
            e.text.len(),
            out.as_mut_ptr(),
            out.len(),
        )
    }
}
