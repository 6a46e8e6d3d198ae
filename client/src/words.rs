//! The words of an encoding by name.
//!
//! A type begins with its [kind], a declaration with its [head]. A name is a number: the first ones
//! are [fixed](name), the others stand for [pairs](pair). What has no name here is a count.
//!
//! ```
//! use tillercoral::words::{fields, head, kind, name, pair, visibility};
//! use tillercoral::Encoding;
//!
//! // No doc, no attributes, the name, no parameters; one named field.
//! let front = [head::STRUCT, name::EMPTY, 0, pair(0), 0, fields::NAMED, 1];
//! let field = [visibility::PUB, pair(1), kind::I32];
//! let encoding = Encoding {
//!     words: &[&front[..], &field].concat(),
//!     pairs: &[0, 5, 5, 2],
//!     text: b"Gaugemm",
//! };
//! assert_eq!(encoding.declaration_text(0)?, b"pub struct Gauge {\n    pub mm: i32\n}");
//! # Ok::<(), tillercoral::Refusal>(())
//! ```

use crate::limits::FIXED_NAMES;

/// The kinds of types: the word that a type begins with. Said is what follows it, if not just the
/// types inside.
pub mod kind {
    /// `u8`
    pub const U8: u32 = 0;
    /// `u16`
    pub const U16: u32 = 1;
    /// `u32`
    pub const U32: u32 = 2;
    /// `u64`
    pub const U64: u32 = 3;
    /// `u128`
    pub const U128: u32 = 4;
    /// `i8`
    pub const I8: u32 = 5;
    /// `i16`
    pub const I16: u32 = 6;
    /// `i32`
    pub const I32: u32 = 7;
    /// `i64`
    pub const I64: u32 = 8;
    /// `i128`
    pub const I128: u32 = 9;
    /// `usize`
    pub const USIZE: u32 = 10;
    /// `bool`, the last of the kinds that are a type by themselves
    pub const BOOL: u32 = 11;
    /// A name alone: its number.
    pub const IDENTIFIER: u32 = 12;
    /// A path: its [root](super::root), how many names it has, and their numbers.
    pub const FROM_PATH: u32 = 13;
    /// `base<argument, argument>`: how many arguments it has, the base, and the arguments.
    pub const APP: u32 = 14;
    /// `&type`
    pub const BORROWED: u32 = 15;
    /// `&mut type`
    pub const BORROWED_MUT: u32 = 16;
    /// `impl type`
    pub const IMPL: u32 = 17;
    /// `dyn type`
    pub const DYN: u32 = 18;
    /// `(type, type)`: how many types it has, and they.
    pub const TUPLE: u32 = 19;
    /// `::std::ops::Fn(argument, argument) -> result`: how many arguments it has, the arguments,
    /// and the result.
    pub const FN: u32 = 20;
    /// `left + right`
    pub const INTERSECTION: u32 = 21;
    /// `[element]` or `[element; size]`: [no size](super::NO_SIZE) or one more than the number of
    /// its name, and the element.
    pub const ARRAY: u32 = 22;
    /// A type that prints as its display: the display, and what it stands for.
    pub const SYNONYM: u32 = 23;
    /// A type that prints as its display: [flags](super::flag), and the display.
    pub const META_DATA: u32 = 24;
    /// The first number that is no kind.
    pub const END: u32 = META_DATA + 1;
}

/// The heads of declarations, each one more than the last: the word that a declaration begins with.
pub mod head {
    /// `pub struct ..`
    pub const STRUCT: u32 = 25;
    /// `pub enum ..`
    pub const ENUM: u32 = 26;
    /// `pub type ..`, a type synonym
    pub const TYPE: u32 = 27;
    /// `use ..`
    pub const USE: u32 = 28;
    /// The first number after the heads.
    pub const END: u32 = USE + 1;
}

/// The numbers of the [fixed names](FIXED_NAMES).
pub mod name {
    /// The empty name, which is also that of a doc that is not there.
    pub const EMPTY: u32 = 0;
    /// `std`
    pub const STD: u32 = 1;
    /// `rc`, the module
    pub const RC_MODULE: u32 = 2;
    /// `Rc`
    pub const RC: u32 = 3;
    /// `sync`
    pub const SYNC: u32 = 4;
    /// `Arc`
    pub const ARC: u32 = 5;
    /// `boxed`
    pub const BOXED: u32 = 6;
    /// `Box`
    pub const BOX: u32 = 7;
    /// `mem`
    pub const MEM: u32 = 8;
    /// `MaybeUninit`
    pub const MAYBE_UNINIT: u32 = 9;
    /// `dafny_runtime`
    pub const DAFNY_RUNTIME: u32 = 10;
    /// `Object`
    pub const OBJECT: u32 = 11;
    /// `Ptr`
    pub const PTR: u32 = 12;
    /// `MaybePlacebo`
    pub const MAYBE_PLACEBO: u32 = 13;
    /// `_`
    pub const UNDERSCORE: u32 = 14;
    /// `self`
    pub const SELF: u32 = 15;
}

/// The number of pair 0. Those below it are fixed.
pub const FIRST_PAIR: u32 = FIXED_NAMES.len() as u32;

/// The number of the name that a pair stands for.
#[must_use]
pub const fn pair(index: u32) -> u32 {
    FIRST_PAIR + index
}

/// What a path begins with.
pub mod root {
    /// Nothing: each name follows `::`.
    pub const GLOBAL: u32 = 0;
    /// `crate`
    pub const CRATE: u32 = 1;
    /// `Self`
    pub const SELF_TYPE: u32 = 2;
    /// The first number that is no root.
    pub const END: u32 = SELF_TYPE + 1;
}

/// The word of an array without size.
pub const NO_SIZE: u32 = 0;

/// The flags of metadata. Their word is the sum of those that are set.
pub mod flag {
    /// Values are copied.
    pub const COPY_SEMANTICS: u32 = 1;
    /// Arithmetic may overflow.
    pub const OVERFLOW: u32 = 2;
    /// All flags.
    pub const ALL: u32 = COPY_SEMANTICS | OVERFLOW;
    /// The first number that is no word of flags.
    pub const END: u32 = ALL + 1;
}

/// Whether the fields of a struct or a case have names.
pub mod fields {
    /// They have: each is its [visibility](super::visibility), its name and its type.
    pub const NAMED: u32 = 0;
    /// They have none.
    pub const NAMELESS: u32 = 1;
    /// The first number that is neither.
    pub const END: u32 = NAMELESS + 1;
}

/// Whether `pub` stands before a field or a use.
pub mod visibility {
    /// `pub` and a space
    pub const PUB: u32 = 0;
    /// nothing
    pub const PRIV: u32 = 1;
    /// The first number that is neither.
    pub const END: u32 = PRIV + 1;
}

#[cfg(test)]
mod tests {
    use super::*;

    #[test]
    fn fixed_names_have_their_numbers() {
        for (number, bytes) in [
            (name::EMPTY, ""),
            (name::STD, "std"),
            (name::RC_MODULE, "rc"),
            (name::RC, "Rc"),
            (name::SYNC, "sync"),
            (name::ARC, "Arc"),
            (name::BOXED, "boxed"),
            (name::BOX, "Box"),
            (name::MEM, "mem"),
            (name::MAYBE_UNINIT, "MaybeUninit"),
            (name::DAFNY_RUNTIME, "dafny_runtime"),
            (name::OBJECT, "Object"),
            (name::PTR, "Ptr"),
            (name::MAYBE_PLACEBO, "MaybePlacebo"),
            (name::UNDERSCORE, "_"),
            (name::SELF, "self"),
        ] {
            assert_eq!(FIXED_NAMES[number as usize], bytes);
        }
    }
}
