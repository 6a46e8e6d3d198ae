//! The exported calls that go through a tree without changing it: visits, shapes and parts.

use crate::Encoding;

unsafe extern "C" {
    fn tillercoral_type_visit(
        words: *const u32,
        words_len: usize,
        pairs: *const u32,
        pairs_len: usize,
        text: *const u8,
        text_len: usize,
        out: *mut u32,
        out_len: usize,
    ) -> u64;

    fn tillercoral_declaration_visit(
        words: *const u32,
        words_len: usize,
        pairs: *const u32,
        pairs_len: usize,
        text: *const u8,
        text_len: usize,
        out: *mut u32,
        out_len: usize,
    ) -> u64;
}

pub(crate) fn type_visit(e: &Encoding<'_>, out: &mut [u32]) -> u64 {
    // SAFETY: see the head of `ffi`.
    unsafe {
        tillercoral_type_visit(
            e.words.as_ptr(),
            e.words.len(),
            e.pairs.as_ptr(),
            e.pairs.len(),
            e.text.as_ptr(),
            e.text.len(),
            out.as_mut_ptr(),
            out.len(),
        )
    }
}

pub(crate) fn declaration_visit(e: &Encoding<'_>, out: &mut [u32]) -> u64 {
    // SAFETY: see the head of `ffi`.
    unsafe {
        tillercoral_declaration_visit(
            e.words.as_ptr(),
            e.words.len(),
            e.pairs.as_ptr(),
            e.pairs.len(),
            e.text.as_ptr(),
            e.text.len(),
            out.as_mut_ptr(),
            out.len(),
        )
    }
}

/// Calls that take an encoding and nothing else: for each its exported name, and the name here.
macro_rules! encoding_calls {
    ($($exported:ident as $name:ident;)*) => {
        unsafe extern "C" {
            $(
                fn $exported(
                    words: *const u32,
                    words_len: usize,
                    pairs: *const u32,
                    pairs_len: usize,
                    text: *const u8,
                    text_len: usize,
                ) -> u64;
            )*
        }

        $(
            pub(crate) fn $name(e: &Encoding<'_>) -> u64 {
                // SAFETY: see the head of `ffi`.
                unsafe {
                    $exported(
                        e.words.as_ptr(),
                        e.words.len(),
                        e.pairs.as_ptr(),
                        e.pairs.len(),
                        e.text.as_ptr(),
                        e.text.len(),
                    )
                }
            }
        )*
    };
}

// Shapes.
encoding_calls! {
    tillercoral_ends_with_name_that_can_accept_generics as ends_with_name_that_can_accept_generics;
    tillercoral_is_auto_size as is_auto_size;
    tillercoral_can_read_without_clone as can_read_without_clone;
    tillercoral_is_rc_or_borrowed_rc as is_rc_or_borrowed_rc;
    tillercoral_is_multi_array as is_multi_array;
    tillercoral_is_maybe_uninit as is_maybe_uninit;
    tillercoral_is_uninit_array as is_uninit_array;
    tillercoral_is_box as is_box;
    tillercoral_needs_as_ref_for_borrow as needs_as_ref_for_borrow;
    tillercoral_is_object as is_object;
    tillercoral_is_pointer as is_pointer;
    tillercoral_is_object_or_pointer as is_object_or_pointer;
    tillercoral_is_builtin_collection as is_builtin_collection;
    tillercoral_is_rc as is_rc;
    tillercoral_is_box_dyn as is_box_dyn;
}

// Parts.
encoding_calls! {
    tillercoral_remove_synonyms as remove_synonyms;
    tillercoral_expand as expand;
    tillercoral_to_owned as to_owned;
    tillercoral_multi_array_underlying as multi_array_underlying;
    tillercoral_box_underlying as box_underlying;
    tillercoral_object_or_pointer_underlying as object_or_pointer_underlying;
    tillercoral_rc_underlying as rc_underlying;
    tillercoral_box_dyn_underlying as box_dyn_underlying;
    tillercoral_get_builtin_collection_element as get_builtin_collection_element;
    tillercoral_extract_maybe_placebo as extract_maybe_placebo;
    tillercoral_extract_maybe_uninit_array_element as extract_maybe_uninit_array_element;
}
