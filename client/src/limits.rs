//! The limits that every call keeps to, and the names that need no pair.
//!
//! ```
//! use tillercoral::limits::{DEPTH_LIMIT, FIXED_NAMES};
//! use tillercoral::tree::Type;
//! use tillercoral::Refusal;
//!
//! assert_eq!(FIXED_NAMES[3], "Rc");
//!
//! let at_the_limit = (1..DEPTH_LIMIT).fold(Type::U8, |inner, _| Type::borrowed(inner));
//! assert!(at_the_limit.encode().is_ok());
//! assert_eq!(Type::borrowed(at_the_limit).encode(), Err(Refusal::TooDeep));
//! ```

/// The most words of a tree, and the most words of a list of rules.
pub const WORD_LIMIT: usize = 8_192;

/// The most pairs, so the most names besides the fixed ones.
pub const PAIR_LIMIT: usize = 1_024;

/// The most bytes of text that the pairs point into.
pub const TEXT_LIMIT: usize = 16_384;

/// The depth of the innermost type. A type inside no other type has depth 1.
pub const DEPTH_LIMIT: usize = 64;

/// The highest level of indent.
pub const LEVEL_LIMIT: u32 = 16;

/// The most rules in a list.
pub const RULE_LIMIT: usize = 32;

/// The longest text that the program `printdecl` prints. The newline after it is not counted.
pub const PRINT_LIMIT: usize = 65_536;

/// The names with numbers 0 to 15; [`words::name`](crate::words::name) has these by name. Number
/// 16 + i is pair i.
pub const FIXED_NAMES: [&str; 16] = [
    "",
    "std",
    "rc",
    "Rc",
    "sync",
    "Arc",
    "boxed",
    "Box",
    "mem",
    "MaybeUninit",
    "dafny_runtime",
    "Object",
    "Ptr",
    "MaybePlacebo",
    "_",
    "self",
];
