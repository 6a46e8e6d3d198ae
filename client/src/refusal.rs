//! The reasons why a call gives no result.

use std::fmt;

/// Why a call gave no result. The numbers are fixed; the library answers with them.
///
/// ```
/// use tillercoral::Refusal;
///
/// assert_eq!(Refusal::BufferTooShort.number(), 8);
/// assert_eq!(Refusal::from_number(8), Some(Refusal::BufferTooShort));
/// assert_eq!(Refusal::from_number(0), None);
/// assert_eq!(
///     Refusal::TooDeep.to_string(),
///     "a type begins at depth 65, and the limit is 64 (refusal 5)"
/// );
/// ```
#[derive(Clone, Copy, Debug, PartialEq, Eq, Hash)]
#[non_exhaustive]
pub enum Refusal {
    /// 1: more than 8,192 words, 1,024 pairs or 16,384 bytes of text.
    Overlong,
    /// 2: a pair begins before the end of the one before it or ends outside the text, or half a
    /// pair ends the table.
    BadPair,
    /// 3: a word is wanted and none is left.
    EndsEarly,
    /// 4: a word is none of those allowed at its place; more than 32 rules are not allowed either.
    UnknownWord,
    /// 5: a type begins at depth 65, or would in a rebuilt tree.
    TooDeep,
    /// 6: words remain after the tree or after the rules.
    LeftOver,
    /// 7: the type lacks the shape asked for.
    NoSuchPart,
    /// 8: the buffer is too short for the result, or for what there is before it of a rebuilt tree.
    /// 8,192 words are the most in any case.
    BufferTooShort,
    /// 9: a file is shorter than its header, or of another length than the header says.
    BadFileLength,
    /// 10: two rules replace the same type.
    RepeatedRule,
    /// 11: a level above 16.
    BadLevel,
}

impl Refusal {
    /// All refusals, in the order of their numbers, which begin at 1.
    pub const ALL: &'static [Refusal] = &[
        Refusal::Overlong,
        Refusal::BadPair,
        Refusal::EndsEarly,
        Refusal::UnknownWord,
        Refusal::TooDeep,
        Refusal::LeftOver,
        Refusal::NoSuchPart,
        Refusal::BufferTooShort,
        Refusal::BadFileLength,
        Refusal::RepeatedRule,
        Refusal::BadLevel,
    ];

    /// The fixed number of this refusal.
    #[must_use]
    pub const fn number(self) -> u32 {
        match self {
            Refusal::Overlong => 1,
            Refusal::BadPair => 2,
            Refusal::EndsEarly => 3,
            Refusal::UnknownWord => 4,
            Refusal::TooDeep => 5,
            Refusal::LeftOver => 6,
            Refusal::NoSuchPart => 7,
            Refusal::BufferTooShort => 8,
            Refusal::BadFileLength => 9,
            Refusal::RepeatedRule => 10,
            Refusal::BadLevel => 11,
        }
    }

    /// The refusal with this number, if there is one.
    #[must_use]
    pub fn from_number(number: u64) -> Option<Refusal> {
        let mut all = Refusal::ALL.iter().copied();
        all.find(|refusal| u64::from(refusal.number()) == number)
    }

    fn words(self) -> &'static str {
        match self {
            Refusal::Overlong => {
                "more than 8,192 words, 1,024 pairs or 16,384 bytes of text were given"
            }
            Refusal::BadPair => {
                "a pair overlaps the one before it or ends outside the text, or half a pair ends \
                 the table"
            }
            Refusal::EndsEarly => "a word is wanted and none is left",
            Refusal::UnknownWord => {
                "a word is none of those allowed at its place, or there are more than 32 rules"
            }
            Refusal::TooDeep => "a type begins at depth 65, and the limit is 64",
            Refusal::LeftOver => "words remain after the tree or the rules",
            Refusal::NoSuchPart => "the type lacks the shape asked for",
            Refusal::BufferTooShort => {
                "the buffer is too short for the result, or rebuilding needs more than 8,192 words"
            }
            Refusal::BadFileLength => "the file has another length than its header says",
            Refusal::RepeatedRule => "two rules replace the same type",
            Refusal::BadLevel => "the level is above 16",
        }
    }
}

impl fmt::Display for Refusal {
    fn fmt(&self, f: &mut fmt::Formatter<'_>) -> fmt::Result {
        write!(f, "{} (refusal {})", self.words(), self.number())
    }
}

impl std::error::Error for Refusal {}

#[cfg(test)]
mod tests {
    use super::*;

    #[test]
    fn numbers_go_both_ways() {
        for (index, &refusal) in Refusal::ALL.iter().enumerate() {
            assert_eq!(refusal.number() as usize, index + 1);
            assert_eq!(Refusal::from_number(refusal.number().into()), Some(refusal));
        }
        for number in [0, 12, 1 << 32 | 1, u64::MAX] {
            assert_eq!(Refusal::from_number(number), None);
        }
    }

    #[test]
    fn refusals_say_what_is_wrong() {
        let words = [
            "more than 8,192 words, 1,024 pairs or 16,384 bytes of text were given (refusal 1)",
            "a pair overlaps the one before it or ends outside the text, or half a pair ends the \
             table (refusal 2)",
            "a word is wanted and none is left (refusal 3)",
            "a word is none of those allowed at its place, or there are more than 32 rules \
             (refusal 4)",
            "a type begins at depth 65, and the limit is 64 (refusal 5)",
            "words remain after the tree or the rules (refusal 6)",
            "the type lacks the shape asked for (refusal 7)",
            "the buffer is too short for the result, or rebuilding needs more than 8,192 words \
             (refusal 8)",
            "the file has another length than its header says (refusal 9)",
            "two rules replace the same type (refusal 10)",
            "the level is above 16 (refusal 11)",
        ];
        let said: Vec<String> = Refusal::ALL.iter().map(Refusal::to_string).collect();
        assert_eq!(said, words);
    }
}
